"""What each command does, over a session of the client."""

from __future__ import annotations

import contextlib
import os
import sys
from dataclasses import dataclass
from enum import Enum
from pathlib import Path
from typing import Container, Iterable, Iterator

from ..errors import DocumentRefused, NotFoundError, XtcError
from ..placing import append_large, create_large
from ..store import Session, Store
from ..values import Label, Tree
from .advice import said_of, status_of
from .files import need_store, readable
from .progress import progress
from .trees import BadFile, Reading, json_text, xml_piece, xml_text


class Form(Enum):
    """How what a path finds is written."""

    TEXT = "text"
    XML = "xml"
    JSON = "json"


@dataclass(frozen=True)
class Context:
    """Which store, and by which program."""

    folder: str = "."
    program: str = "xtc"

    @contextlib.contextmanager
    def session(self, makes: bool = False) -> Iterator[Session]:
        """A session of the store, which has to be there unless the command makes it."""
        if not makes:
            need_store(self.folder)
        with Store(self.folder, self.program) as store, store.session() as session:
            yield session

    @contextlib.contextmanager
    def reading(self) -> Iterator[Session]:
        """A session in a transaction that only reads, also of a store whose files may not be written."""
        with readable(self.folder) as folder, Store(folder, self.program) as store, store.session() as session, session.reading():
            yield session


# ---- documents


def names(context: Context) -> list[str]:
    with context.reading() as session:
        return [it.name for it in session.docs()]


def get(context: Context, name: str) -> Tree | None:
    with context.reading() as session:
        return session.dump(session.doc(name))


def put(context: Context, name: str, tree: Tree) -> Label:
    with context.session(makes=True) as session:
        return session.transact(lambda it: _make(it, name, tree))


def replace(context: Context, name: str, tree: Tree) -> Label:
    with context.session(makes=True) as session:
        return session.transact(lambda it: _put_in_place(it, name, tree))


def _make(session: Session, name: str, tree: Tree) -> Label:
    return create_large(session, name, tree)


def _put_in_place(session: Session, name: str, tree: Tree) -> Label:
    with contextlib.suppress(NotFoundError):
        session.drop(name)
    return create_large(session, name, tree)


def drop(context: Context, dropped: Iterable[str]) -> None:
    with context.session() as session, session.transaction():
        there = [it.name for it in session.docs()]
        for name in dropped:
            session.drop(_named(name, there))


def rename(context: Context, old: str, new: str) -> Label:
    """Gives a document another name: it is made anew with that, and its labels are others."""
    with context.session() as session, session.transaction():
        tree = session.dump(session.doc(old))
        label = create_large(session, new, tree)
        session.drop(old)
    return label


def _named(name: str, there: Container[str]) -> str:
    """The name, where there is a document with it; of several it is said which isn't there."""
    if name not in there:
        raise DocumentRefused("there is no document %s: `list` says which there are" % name)
    return name


# ---- many documents


def export(context: Context, folder: str, wanted: list[str], form: Form) -> int:
    """Writes documents, all where none is named, to files NAME.json or NAME.xml of a folder, which may not be there yet; how many."""
    with context.reading() as session:
        labels = {it.name: it.label for it in session.docs()}
        chosen = [_named(name, labels) for name in wanted] or list(labels)
        targets = {name: Path(folder, "%s.%s" % (name, form.value)) for name in chosen}
        for target in targets.values():
            if target.exists():
                raise FileExistsError("%s is there already: name another folder" % target)
        os.makedirs(folder, exist_ok=True)
        for name in progress(chosen, "export"):
            tree = session.dump(labels[name])
            targets[name].write_text((xml_text(tree) if form is Form.XML else json_text(tree)) + "\n", encoding="utf-8")
    return len(chosen)


def import_files(context: Context, paths: list[str], reading: Reading, replaces: bool) -> int:
    """Makes a document of each file, named as the file without its suffix, each in one transaction; the status of the last that failed, which the others don't mind."""
    make, status = (_put_in_place if replaces else _make), 0
    with context.session(makes=True) as session:
        for path in progress(paths, "import"):
            try:
                tree = reading.tree(path)
                session.transact(lambda it: make(it, Path(path).stem, tree))
            except (XtcError, BadFile, OSError) as error:
                status = status_of(error) if isinstance(error, XtcError) else 9
                print("xtc-docs: %s: %s" % (path, said_of(error) if isinstance(error, XtcError) else error), file=sys.stderr)
    return status


# ---- by a path


def select(context: Context, name: str, path: str, form: Form) -> list[str]:
    """The value of each node and attribute that a path finds, as a line or, in XML, a piece of it."""
    with context.reading() as session:
        labels = session.find(session.doc(name), path)
        return [_value(session, label, form) for label in labels]


def _value(session: Session, label: Label, form: Form) -> str:
    return _value_of_node(session, label, form) if label.attribute is None else _value_of_attribute(session, label.node, label.attribute, form)


def _value_of_attribute(session: Session, element: Label, name: str, form: Form) -> str:
    value = session.attr(element, name)
    if form is Form.XML:
        return xml_piece(["a", {name: value}])[3:-2]  # what stands between <a and />
    return value if form is Form.TEXT else json_text(value)


def _value_of_node(session: Session, label: Label, form: Form) -> str:
    if form is Form.TEXT:
        return session.text_content(label if label.parent else session.first(label) or label) or ""
    tree = session.dump(label)
    return json_text(tree) if form is Form.JSON else "" if tree is None else xml_piece(tree)


@contextlib.contextmanager
def _found(context: Context, name: str, path: str) -> Iterator[tuple[Session, list[Label]]]:
    """A transaction on what a path finds; where that is nothing nothing is committed."""
    with context.session() as session, session.transaction():
        labels = session.find(session.doc(name), path)
        if not labels:
            raise DocumentRefused("the path finds nothing in %s, and nothing was changed" % name)
        yield session, labels


def set_values(context: Context, name: str, path: str, text: str) -> int:
    """Gives each attribute that a path finds this value, each text this data, and each element this text in the place of its children; how many."""
    with _found(context, name, path) as (session, labels):
        for label in labels:
            if label.attribute is not None:
                session.set_attr(label.node, label.attribute, text)
            else:
                _above(label)
                session.set_text(label, text)
    return len(labels)


def _above(label: Label) -> Label:
    """The parent of a node; a document has none."""
    above = label.parent
    if above is None:
        raise DocumentRefused("the path finds the document itself, and not its element: that is `/*`")
    return above


def delete(context: Context, name: str, path: str) -> int:
    """Takes out each node and attribute that a path finds; how many."""
    with _found(context, name, path) as (session, labels):
        for label in reversed(labels):  # what is below goes before what is above it
            if label.attribute is not None:
                session.remove_attr(label.node, label.attribute)
            else:
                session.remove(_above(label), label)
    return len(labels)


def append(context: Context, name: str, path: str, tree: Tree) -> int:
    """Places a tree as the last child of each element that a path finds; how many."""
    with _found(context, name, path) as (session, labels):
        for label in labels:
            if label.attribute is not None:
                raise DocumentRefused("the path finds attributes, and nothing stands below these")
            append_large(session, label, tree)
    return len(labels)
