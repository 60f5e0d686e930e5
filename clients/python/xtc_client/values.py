"""What calls take and answer beside plain texts and numbers: labels, trees in JsonML, documents, nodes, waits."""

from __future__ import annotations

from dataclasses import dataclass
from typing import Any, Mapping, NamedTuple, Sequence, TypedDict, Union

Value = Union[str, int, bool, None]
"""An attribute's value as it may be given; the store makes a text of it."""

Attributes = Mapping[str, Value]

Tree = Union[str, Sequence[Union["Tree", Attributes]]]
"""A text, or an element: a list of its name, its attributes if it has any, and its children (docs/PROFILE.md, "JsonML")."""


class Label(str):
    """A node's label as the store writes it, such as `1.1001.1003`, or an attribute's, `1.1001.1003/@k`. It is a text like others, too."""

    __slots__ = ()

    @property
    def node(self) -> Label:
        """The node, or the element that has the attribute."""
        return Label(self.partition("/@")[0])

    @property
    def attribute(self) -> str | None:
        """The attribute's name; None of a node."""
        return self.partition("/@")[2] or None

    @property
    def divisions(self) -> tuple[int, ...]:
        """The numbers of the node's label. Those of nodes compare as the nodes stand in the document, a node before what is below it."""
        return tuple(map(int, self.node.split(".")))

    @property
    def parent(self) -> Label | None:
        """The node above, without asking the store; of an attribute its element, and None of a document."""
        if self.attribute is not None:
            return self.node
        above = list(self.divisions[:-1])
        while above and above[-1] % 2 == 0:
            above.pop()
        return Label(".".join(map(str, above))) if len(above) > 1 else None


class Document(NamedTuple):
    """A document's name and its label."""

    name: str
    label: Label


class Node(TypedDict):
    """What `node` answers: an element's name, or `#text` or `#document`; a text's value; 1 for an element, 3 for a text, 9 for a document."""

    name: str
    type: int
    value: str | None


class Replaced(TypedDict):
    """What `replace` answers: the new node's label, and the tree that stood there."""

    new: Label
    old: Tree


@dataclass(frozen=True)
class Wait:
    """Why a call waits: for the sessions `by`, which bar it at the resource `on`, and the lock mode that it `asks` for."""

    asks: str
    by: list[int]
    on: str

    def __str__(self) -> str:
        return "waits for %s at %s" % (", ".join("session %d" % it for it in self.by), self.on)


@dataclass(frozen=True)
class Element:
    """An element of JsonML, taken apart."""

    name: str
    attributes: dict[str, Value]
    children: list[Tree]

    @classmethod
    def of(cls, tree: Any) -> Element:
        """The parts of an element as `dump` answers it, or TypeError where it is none."""
        if not isinstance(tree, Sequence) or isinstance(tree, str) or not tree or not isinstance(tree[0], str):
            raise TypeError("no element in JsonML: %.40r" % (tree,))
        has_attributes = len(tree) > 1 and isinstance(tree[1], Mapping)
        return cls(tree[0], dict(tree[1]) if has_attributes else {}, list(tree[2 if has_attributes else 1 :]))

    @property
    def tree(self) -> Tree:
        """The element in JsonML."""
        return [self.name, *([self.attributes] if self.attributes else []), *self.children]
