"""What an error means for whoever typed the command, what to do then, and the status."""

from __future__ import annotations

from .. import errors
from ..errors import BadLine, BadPath, BadTree, Ended, Refused, XtcError

PATHS = {
    "Syntax": "no path goes on like this",
    "Unsupported": "XPath 1.0 has it, and this store hasn't; the manual's \"Paths\" says what it has",
    "Deep": "here something would lie in 50 others",
}
REFUSALS: dict[type[XtcError], str] = {
    errors.DocumentExists: "there is a document with this name: take another one, or `replace` it",
    errors.InvalidCharacterError: "this is no name: one begins with a letter, _ or :, goes on with these, digits, - and ., and has at most 1,024 bytes",
    errors.NotFoundError: "there is no document with this name: `list` says which there are",
    errors.HierarchyRequestError: "it can't stand there: a document has one element, a text nothing below it, and a document no text",
    errors.TooDeep: "a node would have a level above 101: put what is deeper into a document of its own",
    errors.TextLimit: "a text or an attribute's value would have more than 1,048,576 bytes: make several of it",
    errors.LabelLimit: "no label is left at this place: `rename` the document to another name and back, which gives new labels",
    errors.CommitLimit: "one transaction would change more than 4,294,967,295 bytes: do it in parts",
    errors.TxLimit: "no number is left for a transaction: `export` the documents and `import` them into a new store",
    errors.NotSupportedError: "the node is an element where a text is needed, or the other way round",
}
STATUSES: dict[type[XtcError], str] = {
    errors.LineTooLong: "a line has more than 1,048,576 bytes",
    errors.Damaged: "take both files of a copy from before; `check` says the same of the files",
    errors.DiskFault: "the disk is full or failing: make room, or `backup` the store elsewhere, then look what is there",
    errors.NoMemory: "the system gave no more memory: `compact` makes the opening cheaper",
}


def status_of(error: XtcError) -> int:
    """The status of `xtc` that says the same."""
    if isinstance(error, Ended):
        return error.status
    if isinstance(error, (Refused, BadPath)):
        return errors.DocumentRefused.status
    return errors.NotJsonMl.status if isinstance(error, BadLine) else 1


def said_of(error: XtcError, path: str | None = None) -> str:
    """The error in words, with what to do; of a path the place in it."""
    if isinstance(error, BadPath) and error.word and error.place is not None:
        return "%s\n%s" % (PATHS[error.word], _pointed(path, error.place))
    if isinstance(error, BadTree):
        return "this is no element in JsonML: %s at %s" % (error.rule or "none", error.place or "the top")
    if type(error) in REFUSALS:
        return REFUSALS[type(error)]
    return "%s: %s" % (error, STATUSES[type(error)]) if type(error) in STATUSES else str(error)


def _pointed(path: str | None, place: int) -> str:
    """The path with a sign below the byte of it."""
    before = (path or "").encode()[:place].decode(errors="replace")
    return "    %s\n    %s^" % (path or "", " " * len(before))
