"""Trees from files and to files: JsonML, or XML by the repository's tools."""

from __future__ import annotations

import json
import sys
from dataclasses import dataclass, field
from pathlib import Path
from typing import Any

from ..errors import BadTree
from ..values import Tree
from . import beside

JSON_SUFFIXES = (".json", ".jsonml")


class BadFile(Exception):
    """What a file has is no element, and why."""


@dataclass(frozen=True)
class Reading:
    """How documents are read: what is left out of XML and what is kept there, by the names of the options of tools/xml_to_jsonml."""

    options: dict[str, bool] = field(default_factory=dict)

    def tree(self, path: str) -> Tree:
        """The element in a file, or in the standard input for `-`."""
        data = sys.stdin.buffer.read() if path == "-" else Path(path).read_bytes()
        return self._from_json(data) if _is_json(path, data) else self._from_xml(data)

    def _from_json(self, data: bytes) -> Tree:
        try:
            tree: Tree = json.loads(data)
        except (ValueError, RecursionError) as error:
            raise BadFile("no JSON: %s" % error) from None
        if not isinstance(tree, list):
            raise BadTree("tree", 0)
        return tree

    def _from_xml(self, data: bytes) -> Tree:
        tool = beside.from_xml()
        try:
            tree: Tree = tool.element_of(data, tool.Options(**self.options))
        except tool.Refused as error:
            raise BadFile(str(error)) from None
        return tree


def _is_json(path: str, data: bytes) -> bool:
    """By the suffix; of another one by the first sign, which in XML is `<` or that of an encoding."""
    suffix = Path(path).suffix.lower()
    return suffix in JSON_SUFFIXES or (suffix != ".xml" and not _is_marked(data) and data.lstrip()[:1] != b"<")


def _is_marked(data: bytes) -> bool:
    return data.startswith((b"\xef\xbb\xbf", b"\xff\xfe", b"\xfe\xff", b"\0\0\xfe\xff"))


def json_text(tree: Any) -> str:
    """JsonML in one line."""
    return json.dumps(tree, ensure_ascii=False, separators=(",", ":"))


def xml_text(tree: Tree | None) -> str:
    """A whole document in XML."""
    return _written(lambda tool: tool.document_of(tree))


def xml_piece(tree: Tree) -> str:
    """An element or a text in XML, as it stands within a document: its prefixes may be declared above."""
    return _written(lambda tool: tool.piece_of(tree))


def _written(write: Any) -> str:
    tool = beside.to_xml()
    try:
        text: str = write(tool)
    except tool.Refused as error:
        raise BadFile("it can't be written as XML: %s" % error) from None
    return text
