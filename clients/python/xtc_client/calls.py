"""The calls of a script by the manual's names and keys, each as a request that isn't sent yet (docs/MANUAL.md, "Transactions" and "Calls").

`at`, `old` and `before` are labels, `offset` and `count` count characters. What a call refuses is said where it isn't plain; each may be refused as
NotFoundError where its label is no node's, and as NoTransaction outside a transaction.
"""

from __future__ import annotations

from dataclasses import dataclass
from typing import Any, Callable, Generic, TypeVar

from .values import Document, Label, Node, Replaced, Tree

T = TypeVar("T")


@dataclass(slots=True)
class Request(Generic[T]):
    """A call with its keys, and how its answer is read."""

    call: str
    keys: dict[str, Any]
    read: Callable[[Any], T]


def _same(answer: Any) -> Any:
    return answer


def _label(answer: Any) -> Label | None:
    return None if answer is None else Label(answer)


def _labels(answer: Any) -> list[Label]:
    return [Label(it) for it in answer]


def _documents(answer: Any) -> list[Document]:
    return [Document(name, Label(label)) for name, label in answer]


def _replaced(answer: Any) -> Replaced:
    return {"new": Label(answer["new"]), "old": answer["old"]}


def begin() -> Request[int]:
    """Begins a transaction; its ordinal, counted from 1 for each session. Refused: InTransaction, TxLimit."""
    return Request("begin", {}, _same)


def commit() -> Request[int]:
    """Commits the live transaction, which is on the disk then; the number of the commit. Refused: CommitLimit, and the transaction stays live."""
    return Request("commit", {}, _same)


def abort() -> Request[None]:
    """Drops the live transaction with all its changes; a call of this session that waits is given up with it."""
    return Request("abort", {}, _same)


def docs() -> Request[list[Document]]:
    """The documents with their names and labels, by the bytes of the names."""
    return Request("docs", {}, _documents)


def doc(name: str) -> Request[Label]:
    """The label of the document with this name. Refused: NotFoundError."""
    return Request("doc", {"name": name}, Label)


def create(name: str, tree: Tree | None = None) -> Request[Label]:
    """Makes a document of an element, or one without any; its label. Refused: DocumentExists, InvalidCharacterError where it is no name, TooDeep."""
    return Request("create", {"name": name, "tree": tree}, Label)


def drop(name: str) -> Request[None]:
    """Takes a document out, with all that is in it."""
    return Request("drop", {"name": name}, _same)


def node(at: str) -> Request[Node]:
    """A node's name, value and kind."""
    return Request("node", {"at": at}, _same)


def parent(at: str) -> Request[Label | None]:
    """The label of the node above; None for a document."""
    return Request("parent", {"at": at}, _label)


def first(at: str) -> Request[Label | None]:
    """The label of the first child, or None."""
    return Request("first", {"at": at}, _label)


def last(at: str) -> Request[Label | None]:
    """The label of the last child, or None."""
    return Request("last", {"at": at}, _label)


def next(at: str) -> Request[Label | None]:
    """The label of the next node with the same parent, or None."""
    return Request("next", {"at": at}, _label)


def prev(at: str) -> Request[Label | None]:
    """The label of the node before with the same parent, or None."""
    return Request("prev", {"at": at}, _label)


def children(at: str) -> Request[list[Label]]:
    """The labels of all children."""
    return Request("children", {"at": at}, _labels)


def attr(at: str, name: str) -> Request[str]:
    """An attribute's value; the empty text where there is none. Refused: NotSupportedError where the node is no element."""
    return Request("attr", {"at": at, "name": name}, _same)


def has_attr(at: str, name: str) -> Request[bool]:
    """Whether an element has an attribute."""
    return Request("has_attr", {"at": at, "name": name}, _same)


def attrs(at: str) -> Request[dict[str, str] | None]:
    """All attributes of an element; None where the node is none."""
    return Request("attrs", {"at": at}, _same)


def text_content(at: str) -> Request[str | None]:
    """The texts below a node, joined; None for a document."""
    return Request("text_content", {"at": at}, _same)


def tags(at: str, name: str) -> Request[list[Label]]:
    """The labels of the elements below with this name, `*` for all."""
    return Request("tags", {"at": at, "name": name}, _labels)


def find(at: str, path: str) -> Request[list[Label]]:
    """The labels of what a path finds from a node, in the document's order. A path that can't be read is a BadPath."""
    return Request("find", {"at": at, "path": path}, _labels)


def dump(at: str) -> Request[Tree | None]:
    """A node with all below it; None for a document without an element."""
    return Request("dump", {"at": at}, _same)


def length(at: str) -> Request[int]:
    """How many characters a text has."""
    return Request("length", {"at": at}, _same)


def substring(at: str, offset: int, count: int) -> Request[str]:
    """At most so many characters of a text. Refused: IndexSizeError."""
    return Request("substring", {"at": at, "offset": offset, "count": count}, _same)


def append(at: str, tree: Tree) -> Request[Label]:
    """Places a tree as the last child; its label. Refused: HierarchyRequestError, TooDeep, LabelLimit."""
    return Request("append", {"at": at, "tree": tree}, Label)


def insert(at: str, before: str | None, tree: Tree) -> Request[Label]:
    """Places a tree before a child, with None as the last one; its label."""
    return Request("insert", {"at": at, "before": before, "tree": tree}, Label)


def replace(at: str, old: str, tree: Tree) -> Request[Replaced]:
    """Puts a tree in a child's place; its label, and what stood there."""
    return Request("replace", {"at": at, "old": old, "tree": tree}, _replaced)


def remove(at: str, old: str) -> Request[Tree]:
    """Takes a child out; what it was."""
    return Request("remove", {"at": at, "old": old}, _same)


def set_attr(at: str, name: str, value: str) -> Request[None]:
    """Sets an attribute. Refused: InvalidCharacterError, TextLimit."""
    return Request("set_attr", {"at": at, "name": name, "value": value}, _same)


def remove_attr(at: str, name: str) -> Request[None]:
    """Takes an attribute out, if it is there."""
    return Request("remove_attr", {"at": at, "name": name}, _same)


def rename(at: str, name: str) -> Request[None]:
    """Gives an element another name."""
    return Request("rename", {"at": at, "name": name}, _same)


def set_data(at: str, data: str) -> Request[None]:
    """Gives a text other data, of at most 1,048,576 bytes. Refused: TextLimit, NotSupportedError where the node is no text."""
    return Request("set_data", {"at": at, "data": data}, _same)


def append_data(at: str, data: str) -> Request[None]:
    """Adds to a text."""
    return Request("append_data", {"at": at, "data": data}, _same)


def insert_data(at: str, offset: int, data: str) -> Request[None]:
    """Adds in the middle of a text."""
    return Request("insert_data", {"at": at, "offset": offset, "data": data}, _same)


def delete_data(at: str, offset: int, count: int) -> Request[None]:
    """Takes characters out of a text."""
    return Request("delete_data", {"at": at, "offset": offset, "count": count}, _same)


def replace_data(at: str, offset: int, count: int, data: str) -> Request[None]:
    """Puts other characters in the place of some of a text."""
    return Request("replace_data", {"at": at, "offset": offset, "count": count, "data": data}, _same)


def split_text(at: str, offset: int) -> Request[Label]:
    """Makes two texts of one; the second one's label."""
    return Request("split_text", {"at": at, "offset": offset}, Label)


def normalize(at: str) -> Request[None]:
    """Joins texts that stand side by side below a node, and takes out empty ones."""
    return Request("normalize", {"at": at}, _same)


def set_text(at: str, data: str) -> Request[None]:
    """Puts a text in the place of all children of an element; of a text as `set_data`."""
    return Request("set_text", {"at": at, "data": data}, _same)


_FUNCTIONS: tuple[Callable[..., Request[Any]], ...] = (
    *(begin, commit, abort, docs, doc, create, drop),
    *(node, parent, first, last, next, prev, children, attr, has_attr, attrs, text_content, tags, find, dump, length, substring),
    *(append, insert, replace, remove, set_attr, remove_attr, rename),
    *(set_data, append_data, insert_data, delete_data, replace_data, split_text, normalize, set_text),
)

CALLS: dict[str, Callable[..., Request[Any]]] = {it.__name__: it for it in _FUNCTIONS}
"""Each call's function, by its name."""
