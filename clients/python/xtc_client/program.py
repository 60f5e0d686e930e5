"""Starting the program, what it says by its status, and its commands for one document."""

from __future__ import annotations

import fcntl
import json
import os
import subprocess
from typing import Any

from .errors import Ended, NotAvailable, ended
from .values import Label, Tree


def found(program: str) -> str:
    """A program that is named by a path is meant from here, and not from the store's folder."""
    return os.path.abspath(program) if os.path.dirname(program) else program


def command_of_run(program: str, checkpoint: int | None, frames: int | None) -> list[str]:
    """The words for `xtc run` with its options, each left out where it is None."""
    options = {"--checkpoint": checkpoint, "--frames": frames}
    return [found(program), "run", *(word for option, it in options.items() if it is not None for word in (option, str(it)))]


def need_folder(folder: str) -> None:
    """NotAvailable where the folder isn't there; the program's own error would be about the program."""
    if not os.path.isdir(folder):
        raise NotAvailable("there is no folder %s" % folder)


def why_ended(status: int, said: str, folder: str) -> Ended:
    """The exception for a status; of a store that isn't available with the reason, where it can be seen."""
    error = ended(status, said)
    reason = why_not_available(folder) if isinstance(error, NotAvailable) else None
    return NotAvailable("%s: %s" % (error, reason)) if reason else error


def why_not_available(folder: str) -> str | None:
    """Which of the causes of status 11 holds now: no folder, no rights, or another process; None where none is seen."""
    if not os.path.isdir(folder):
        return "there is no folder %s" % folder
    for name in ("store.journal", "store.pages"):
        path = os.path.join(folder, name)
        if os.path.isdir(path):
            return "%s is a folder" % path
        if not os.access(path if os.path.exists(path) else folder, os.R_OK | os.W_OK):
            return "%s can't be %s here" % (path, "read and written" if os.path.exists(path) else "made")
    return _why_locked(os.path.join(folder, "store.journal"))


def _why_locked(journal: str) -> str | None:
    """Which process has a store, where one has its lock."""
    try:
        with open(journal, "rb") as file:
            fcntl.flock(file, fcntl.LOCK_SH | fcntl.LOCK_NB)
    except BlockingIOError:
        holder = holder_of(journal)
        return "another process has the store" + (", with the number %d" % holder if holder else "")
    except OSError as error:
        return str(error)
    return None


def holder_of(path: str) -> int | None:
    """The number of the process that has a file's flock, as Linux lists it."""
    inode = str(os.stat(path).st_ino)
    try:
        with open("/proc/locks", encoding="ascii") as file:
            for words in map(str.split, file):
                if words[1] == "FLOCK" and words[5].rpartition(":")[2] == inode:
                    return int(words[4])
    except (OSError, IndexError, ValueError):
        pass
    return None


def _done(words: list[str], folder: str, program: str, given: bytes = b"") -> Any:
    need_folder(folder)
    ran = subprocess.run([found(program), *words], cwd=folder, input=given, capture_output=True)
    if ran.returncode:
        raise why_ended(ran.returncode, ran.stderr.decode(errors="replace"), folder)
    return json.loads(ran.stdout)


def put(name: str, tree: Tree, folder: str = ".", program: str = "xtc") -> Label:
    """Makes a document of an element of at most 16,777,216 bytes, by `xtc put`, and answers its label. A status other than 0 is an Ended."""
    return Label(_done(["put", "--", name], folder, program, json.dumps(tree, ensure_ascii=False).encode()))


def get(name: str, folder: str = ".", program: str = "xtc") -> Tree | None:
    """The document with this name, by `xtc get`; None where it has no element. A status other than 0 is an Ended."""
    tree: Tree | None = _done(["get", "--", name], folder, program)
    return tree


def query(name: str, path: str, folder: str = ".", program: str = "xtc") -> list[Label]:
    """The labels of what a path finds from a document, by `xtc query`. A status other than 0 is an Ended."""
    return [Label(it) for it in _done(["query", "--", name, path], folder, program)]
