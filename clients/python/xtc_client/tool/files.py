"""The two files of a store, under its lock: whether they are there, what is in them, a copy, and the same tree in fewer bytes."""

from __future__ import annotations

import contextlib
import fcntl
import os
import shutil
import tempfile
from collections import Counter
from dataclasses import dataclass
from pathlib import Path
from typing import Any, Iterator

from ..errors import Damaged, NotAvailable
from ..program import need_folder, why_not_available
from ..store import Store
from . import beside

JOURNAL, PAGES = NAMES = ("store.journal", "store.pages")
EMPTY_JOURNAL = 9
"""Bytes of a journal without commits: its magic, and a closed gate."""

PAGE = 8192


@dataclass(frozen=True)
class Statistics:
    """What a store holds, and how many bytes that takes."""

    documents: int
    nodes: int
    attributes: int
    commits: int
    journal: int
    pages: int
    compact: int
    """Bytes of both files behind `compact`."""

    def lines(self) -> list[str]:
        size = self.journal + self.pages
        return [
            "documents   %d" % self.documents,
            "nodes       %d" % self.nodes,
            "attributes  %d" % self.attributes,
            "commits     %d" % self.commits,
            "bytes       %d: %d in the journal, %d in %d pages" % (size, self.journal, self.pages, self.pages // PAGE),
            "compact     %d bytes, %d less" % (self.compact, max(0, size - self.compact)),
        ]


def need_store(folder: str) -> None:
    """NotAvailable where there is no store, or only one of its files: the program would make what is missing, as an empty one."""
    need_folder(folder)
    missing = [name for name in NAMES if not os.path.exists(os.path.join(folder, name))]
    if len(missing) == 2:
        raise NotAvailable("there is no store in %s; `put`, `import` and `shell` make one" % folder)
    if missing:
        raise NotAvailable("%s isn't there beside the other file, and both make a store: take it from a copy" % os.path.join(folder, missing[0]))


@contextlib.contextmanager
def locked(folder: str, changes: bool = False) -> Iterator[None]:
    """Holds the store's lock, so that no program opens it; NotAvailable where one has it."""
    need_store(folder)
    try:
        with open(os.path.join(folder, JOURNAL), "r+b" if changes else "rb") as file:
            fcntl.flock(file, (fcntl.LOCK_EX if changes else fcntl.LOCK_SH) | fcntl.LOCK_NB)
            yield
    except (BlockingIOError, PermissionError) as error:
        raise NotAvailable(why_not_available(folder) or str(error)) from None


@contextlib.contextmanager
def readable(folder: str) -> Iterator[str]:
    """A folder from which the program can read the store: this one, or where its files may not be written, as on a medium of copies, a copy for as long."""
    need_store(folder)
    if all(os.access(os.path.join(folder, name), os.W_OK) for name in NAMES):
        yield folder
        return
    with tempfile.TemporaryDirectory(prefix="xtc-docs-") as copy:
        with locked(folder):
            for name in NAMES:
                shutil.copyfile(os.path.join(folder, name), os.path.join(copy, name))
        yield copy


def records_of(folder: str) -> tuple[dict[Any, Any], int]:
    """The records of the store's tree and the number of its last commit, by the second reader; Damaged as the program says it."""
    reader = beside.reader()
    try:
        records, number = reader.read(folder)
    except reader.Damage as damage:
        raise Damaged("damaged %s at %d" % damage.args) from None
    return records, number


def checked(folder: str) -> str:
    """One line of what the store holds, or Damaged."""
    with locked(folder):
        return _summary(*records_of(folder))


def _summary(records: dict[Any, Any], number: int) -> str:
    documents, nodes, attributes = _counts(records)
    return "sound: commit %d, %d documents, %d nodes, %d attributes" % (number, documents, nodes, attributes)


def _counts(records: dict[Any, Any]) -> tuple[int, int, int]:
    """Documents, elements and texts, and attributes."""
    reader = beside.reader()
    kinds = Counter(kind for (label, _name), (kind, _value) in records.items() if label != reader.ROOT)
    return kinds[reader.DOCUMENT], kinds[reader.ELEMENT] + kinds[reader.TEXT], kinds[reader.ATTRIBUTE]


def statistics(folder: str) -> Statistics:
    """What the store holds, and what a compaction would make of it."""
    with locked(folder):
        records, number = records_of(folder)
        journal, pages = (os.path.getsize(os.path.join(folder, name)) for name in NAMES)
    cutter = beside.pages()
    pairs = sorted((cutter.key_of(sum(label, ()), name), bytes([kind]) + value.encode()) for (label, name), (kind, value) in records.items())
    return Statistics(*_counts(records), number, journal, pages, EMPTY_JOURNAL + len(cutter.cut(pairs, number)))


def backup(folder: str, target: str) -> str:
    """Copies both files to another folder while no program has the store, and tests the copy; what it holds, in one line."""
    there = [name for name in NAMES if os.path.exists(os.path.join(target, name))]
    if there:
        raise FileExistsError("%s is there already: name a folder without a store" % os.path.join(target, there[0]))
    with locked(folder):
        os.makedirs(target, exist_ok=True)
        for name in NAMES:
            _copy(Path(folder, name), Path(target, name))
        _sync(target)
        return _summary(*records_of(target))


def _copy(source: Path, target: Path) -> None:
    """A copy that is on the disk before it has its name."""
    part = target.with_name(target.name + ".part")
    shutil.copyfile(source, part)
    _sync(part)
    part.rename(target)


def _sync(path: str | Path) -> None:
    number = os.open(path, os.O_RDONLY)
    try:
        os.fsync(number)
    finally:
        os.close(number)


def compact(folder: str, program: str) -> tuple[int, int]:
    """Moves the tree into the pages by a checkpoint, and cuts off what neither file needs any more; the bytes of both, before and behind it.

    Where that is no shorter nothing is done. Labels stay, and commit numbers go on, by one. What is cut off is never read, so a stop at any moment costs nothing.
    """
    need_store(folder)
    before = _size(folder)
    if statistics(folder).compact >= before:
        return before, before
    with Store(folder, program, checkpoint=1) as store, store.session() as session:
        with session.transaction() as transaction:
            pass
    with locked(folder, changes=True):
        _cut_off(folder, transaction.number or 0)
    return before, _size(folder)


def _size(folder: str) -> int:
    return sum(os.path.getsize(os.path.join(folder, name)) for name in NAMES)


def _cut_off(folder: str, number: int) -> None:
    """Shortens the files to what docs/FILE_FORMAT.md says is read of them, where the checkpoint of this number was the last thing done."""
    with open(os.path.join(folder, JOURNAL), "r+b") as journal, open(os.path.join(folder, PAGES), "r+b") as pages:
        first = pages.read(PAGE)
        if int.from_bytes(first[8:12], "big") != number or journal.read(EMPTY_JOURNAL)[8:] != b"\0":
            raise NotAvailable("no checkpoint was made: the tree takes more than 32,768 pages, or another program was quicker; nothing was cut off")
        journal.truncate(EMPTY_JOURNAL)
        pages.truncate(PAGE * int.from_bytes(first[12:16], "big"))
        for file in (journal, pages):
            os.fsync(file.fileno())
