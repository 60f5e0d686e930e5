"""Which call each reply belongs to. It neither reads nor writes, so threads and asyncio have it in common."""

from __future__ import annotations

import json
import random
from collections import deque
from typing import Any, Generic, TypeVar

from .calls import Request
from .errors import Aborted, LineLimit, NoSession, XtcError, error_of
from .values import Wait

T = TypeVar("T")

LINE = 1048576
"""The most bytes that a line may have before its end."""

SESSIONS = 64
"""How many sessions a store has."""

OPENING = b"{}\n"
"""The first line: it is no request, changes nothing and names no session, and its reply says that the store is open."""

MOST_PAUSE = 1.0
"""Seconds, after many deadlocks."""

_encode = json.JSONEncoder(ensure_ascii=False, separators=(",", ":")).encode
_decode = json.JSONDecoder().raw_decode


class Pending(Generic[T]):
    """A call that was sent and isn't answered yet. While it waits, `wait` says for whom and at what."""

    __slots__ = ("session", "request", "wait")

    def __init__(self, session: int, request: Request[T]) -> None:
        self.session, self.request = session, request
        self.wait: Wait | None = None

    def succeed(self, value: T) -> None:
        raise NotImplementedError

    def fail(self, error: BaseException) -> None:
        raise NotImplementedError

    def answer(self, answer: Any) -> None:
        """Ends the call with the value of its answer; one that has another shape than the manual's ends it with an exception, and no other call."""
        try:
            value = self.request.read(answer)
        except Exception as error:
            self.fail(error)
        else:
            self.succeed(value)


def pause_after(attempt: int) -> float:
    """How many seconds to pause after so many deadlocks: by chance, so that those who met don't meet again."""
    return random.uniform(0, min(MOST_PAUSE, 0.002 * 2**attempt))


def line_of(session: int, request: Request[Any]) -> bytes:
    """The line of a call, or LineLimit."""
    # Key by key: of a text, which most values are, the encoder is quick.
    keys = "".join([',"%s":%s' % (key, _encode(value)) for key, value in request.keys.items()])
    line = ('{"s":%d,"call":"%s"%s}\n' % (session, request.call, keys)).encode()
    if len(line) > LINE + 1:
        raise LineLimit(len(line) - 1)
    return line


class Numbers:
    """The numbers of sessions, from 1 to 64, and which of them are taken."""

    def __init__(self) -> None:
        self._taken: set[int] = set()

    def take(self, number: int | None = None) -> int:
        """Takes this number, also where it is taken already, or the least one that is free; NoSession where none is."""
        if number is None:
            number = min(set(range(1, SESSIONS + 1)) - self._taken, default=None)
            if number is None:
                raise NoSession("all %d sessions are taken" % SESSIONS)
        self._taken.add(number)
        return number

    def give_back(self, number: int) -> None:
        """Makes a number free again."""
        self._taken.discard(number)


class Conversation:
    """The calls that are under way. `sent` is called in the order of the lines, and `replied` in that of the replies, each by one thread at a time."""

    def __init__(self) -> None:
        self._sent: deque[Pending[Any]] = deque()  # those whose own reply hasn't come
        self._waiting: dict[int, Pending[Any]] = {}  # the call with which a session waits

    def sent(self, pending: Pending[Any]) -> None:
        self._sent.append(pending)

    def replied(self, line: bytes) -> None:
        """Gives a line of reply to its call. The first one without `woke` is that of the next line; one with it belongs to the call with which its session waits."""
        reply: dict[str, Any] = _decode(line.decode())[0]
        pending = self._waiting.pop(reply["s"]) if "woke" in reply else self._sent.popleft()
        if "ok" in reply:
            if pending.request.call == "abort":
                self._give_up(pending.session)
            pending.answer(reply["ok"])
        elif "wait" in reply:
            pending.wait = Wait(**reply["wait"])
            self._waiting[pending.session] = pending
        else:
            if "bad" in reply:
                reply["line"] -= 1  # the opening's one isn't counted
            pending.fail(error_of(reply))

    def end(self, error: XtcError) -> None:
        """Ends all calls that are left."""
        left = [*self._sent, *self._waiting.values()]
        self._sent.clear()
        self._waiting.clear()
        for pending in left:
            pending.fail(error)

    def _give_up(self, session: int) -> None:
        given_up = self._waiting.pop(session, None)
        if given_up is not None:
            given_up.fail(Aborted("%s was given up" % given_up.request.call))
