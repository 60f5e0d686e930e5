"""Trees that are longer than a line: they are placed in parts, by one session in the transaction that it has."""

from __future__ import annotations

import json

from .conversation import LINE
from .errors import BadTree
from .store import Session
from .values import Element, Label, Tree, Value

ROOM = LINE - 4096
"""Bytes of JsonML that surely go on a line, with the call and its labels."""

PIECE = 100_000
"""Characters of a text that surely go on a line, however they are written there."""


def create_large(session: Session, name: str, tree: Tree | None = None) -> Label:
    """As `create`, of an element of any length; its label."""
    if tree is None or _fits(tree):
        return session.create(name, tree)
    document = session.create(name)
    append_large(session, document, tree)
    return document


def append_large(session: Session, at: str, tree: Tree) -> Label:
    """As `append`, of a tree of any length; its label. A BadTree that is found in a part has no place."""
    if _fits(tree):
        return session.append(at, tree)
    if isinstance(tree, str):
        return _append_text(session, at, tree)
    try:
        element = Element.of(tree)
    except TypeError:
        raise BadTree("tree", 0) from None
    label = _append_start(session, at, element)
    for child in element.children:
        append_large(session, label, child)
    return label


def _fits(tree: Tree) -> bool:
    return len(json.dumps(tree, ensure_ascii=False).encode()) <= ROOM


def _append_text(session: Session, at: str, text: str) -> Label:
    label = session.append(at, text[:PIECE])
    for start in range(PIECE, len(text), PIECE):
        session.append_data(label, text[start : start + PIECE])
    return label


def _append_start(session: Session, at: str, element: Element) -> Label:
    """The element without its children; where its attributes don't go on a line together each has one of its own."""
    start: Tree = [element.name, element.attributes]
    if _fits(start):
        return session.append(at, start)
    label = session.append(at, [element.name])
    for name, value in element.attributes.items():
        session.set_attr(label, name, _text_of(value))
    return label


def _text_of(value: Value) -> str:
    """An attribute's value as the store makes a text of it."""
    if isinstance(value, str) or value is None:
        return value or ""
    if not isinstance(value, int):
        raise BadTree("tree", 0)
    return json.dumps(value)
