"""Whatever the store or the program answers beside a value, as exceptions: refusals, bad lines, deadlocks, and the statuses that it ends with."""

from __future__ import annotations

from typing import Any

from .values import Wait


class XtcError(Exception):
    """Whatever the store or the program answers beside a value."""


class Refused(XtcError):
    """A call that was refused: the transaction is as it was. `name` is the store's word, `code` the number of DOM Level 3 Core or None."""

    def __init__(self, name: str, code: int | None = None) -> None:
        super().__init__(name if code is None else "%s (%d)" % (name, code))
        self.name, self.code = name, code


class IsWaiting(Refused):
    """The session waits: it may only abort."""


class InTransaction(Refused):
    """A begin in a live transaction."""


class NoTransaction(Refused):
    """A call without a live transaction."""


class TxLimit(Refused):
    """No number is left for a transaction."""


class CommitLimit(Refused):
    """The transaction's changes are more than a commit may have; it stays live."""


class DocumentExists(Refused):
    """There is a document with this name."""


class TooDeep(Refused):
    """A node would have a level above 101."""


class TextLimit(Refused):
    """A text or a value would pass 1,048,576 bytes."""


class LabelLimit(Refused):
    """No label is left at this place."""


class IndexSizeError(Refused):
    """An offset lies behind the text's characters."""


class HierarchyRequestError(Refused):
    """Something was to stand where it can't."""


class InvalidCharacterError(Refused):
    """A name that is to be given is no Name of XML."""


class NotFoundError(Refused):
    """No node has this label, no document this name, or the second label is no child of the first."""


class NotSupportedError(Refused):
    """An element where the call is for texts, or the other way round."""


REFUSALS: dict[str, type[Refused]] = {
    "IsWaiting": IsWaiting,
    "InTransaction": InTransaction,
    "NoTransaction": NoTransaction,
    "TxLimit": TxLimit,
    "CommitLimit": CommitLimit,
    "DocumentExists": DocumentExists,
    "TooDeep": TooDeep,
    "TextLimit": TextLimit,
    "LabelLimit": LabelLimit,
    "INDEX_SIZE_ERR": IndexSizeError,
    "HIERARCHY_REQUEST_ERR": HierarchyRequestError,
    "INVALID_CHARACTER_ERR": InvalidCharacterError,
    "NOT_FOUND_ERR": NotFoundError,
    "NOT_SUPPORTED_ERR": NotSupportedError,
}
"""The type of each refusal, by the store's word."""


class LineLimit(Refused):
    """The line of a call would pass 1,048,576 bytes, so it wasn't sent: the program would end at it. Place a large tree in parts (`place`)."""

    def __init__(self, size: int) -> None:
        super().__init__("LineLimit")
        self.args = ("the line has %d bytes, and the program takes 1,048,576" % size,)


class BadLine(XtcError):
    """A line that is no request: `why` is the manual's word, such as a key that has the wrong kind, and `line` counts the lines that were sent from 1."""

    def __init__(self, why: str, line: int) -> None:
        super().__init__("line %d: %s" % (line, why))
        self.why, self.line = why, line


class BadPath(BadLine):
    """A path that can't be read. `word` is Syntax, Unsupported or Deep, and `place` the byte of the path, from 0, where no path goes on; None where `find` was given no text."""

    def __init__(self, why: str, line: int) -> None:
        super().__init__(why, line)
        words = why.split(" ")[1:]
        self.word: str | None = words[0] if words else None
        self.place: int | None = int(words[1]) if len(words) > 1 else None


class BadTree(BadLine):
    """A tree that is no JsonML. `rule` is the word of the rule that it breaks, and `place` where, as a JSON pointer."""

    def __init__(self, why: str, line: int) -> None:
        super().__init__(why, line)
        words = why.split(" ", 2)[1:]
        self.rule: str | None = words[0] if words else None
        self.place: str = words[1] if len(words) > 1 else ""


class Deadlock(XtcError):
    """Waiting would have closed a circle, so the transaction was ended. `cycle` is the circle of sessions."""

    def __init__(self, cycle: list[int]) -> None:
        super().__init__(" waits for ".join(map(str, cycle + cycle[:1])))
        self.cycle = cycle


class Aborted(XtcError):
    """The session aborted while this call waited."""


class WaitedTooLong(XtcError):
    """A call waited longer than the session's patience; its transaction was aborted. `wait` says for whom and at what it waited."""

    def __init__(self, wait: Wait | None) -> None:
        super().__init__("waited for %s at %s" % (", ".join(map(str, wait.by)), wait.on) if wait else "no reply")
        self.wait = wait


class NoSession(XtcError):
    """All 64 sessions of the store are taken."""


class Ended(XtcError):
    """The program has ended. `status` is its number, of one that was killed the negative number of the signal, and the message what it said."""

    status = 1


class Closed(Ended):
    """The store was closed."""

    status = 0


class Usage(Ended):
    """The words aren't those of a command."""

    status = 2


class LineTooLong(Ended):
    """A line, or the input of `put`, passed its limit."""

    status = 3


class Damaged(Ended):
    """The files hold no store."""

    status = 4


class ReadFault(Ended):
    """The input failed."""

    status = 5


class WriteFault(Ended):
    """The output failed."""

    status = 6


class DiskFault(Ended):
    """A read, write or sync of the store's files failed."""

    status = 7


class NoMemory(Ended):
    """The system gave no more memory."""

    status = 8


class NotJsonMl(Ended):
    """The input of `put` is no element in JsonML."""

    status = 9


class DocumentRefused(Ended):
    """`put`, `get` or `query` was refused."""

    status = 10


class NotAvailable(Ended):
    """The files can't be had; the message says why, where that can be seen: no folder, no rights, or which process has the store."""

    status = 11


STATUSES: dict[int, type[Ended]] = {
    it.status: it for it in (Closed, Usage, LineTooLong, Damaged, ReadFault, WriteFault, DiskFault, NoMemory, NotJsonMl, DocumentRefused, NotAvailable)
}
"""The type of each status."""


def ended(status: int, said: str) -> Ended:
    """The exception for a status and what the program said with it."""
    error = STATUSES.get(status, Ended)(said.strip() or ("the store was closed" if status == 0 else "the program has ended with %d" % status))
    error.status = status
    return error


def error_of(reply: dict[str, Any]) -> XtcError:
    """The exception for a reply that is no `ok`."""
    if "err" in reply:
        error = reply["err"]
        return REFUSALS.get(error["name"], Refused)(error["name"], error.get("code"))
    if "deadlock" in reply:
        return Deadlock(reply["deadlock"])
    kinds = {"path": BadPath, "tree": BadTree}
    return kinds.get(reply["bad"].partition(" ")[0], BadLine)(reply["bad"], reply["line"])
