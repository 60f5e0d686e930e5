"""Lines and replies in two files, as `tools/timeline` reads them."""

from __future__ import annotations

import os
from io import FileIO


class Trace:
    """Writes what was asked to PREFIX.script and what was answered to PREFIX.replies, each as it comes; files of that name are begun anew."""

    def __init__(self, prefix: str | os.PathLike[str]) -> None:
        self._script: FileIO = open(os.fspath(prefix) + ".script", "wb", buffering=0)
        self._replies: FileIO = open(os.fspath(prefix) + ".replies", "wb", buffering=0)

    def asked(self, lines: bytes) -> None:
        self._script.write(lines)

    def answered(self, line: bytes) -> None:
        self._replies.write(line)

    def close(self) -> None:
        self._script.close()
        self._replies.close()
