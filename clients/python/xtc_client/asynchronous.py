"""A store over a pipe to `xtc run`, for asyncio: `AsyncStore`, its sessions, and their transactions.

A call is sent when its method is called, and what the method returns is awaited; so calls that are made before the first is awaited go together.
A task that is cancelled while it awaits a call gives up the answer and not the call: what the block of a transaction was to do is aborted then, and
with it a call that waits for another session.
"""

from __future__ import annotations

import asyncio
import contextlib
import os
from types import TracebackType
from typing import Any, AsyncIterator, Awaitable, Callable, Concatenate, Literal, ParamSpec, TypeVar

from . import calls
from .calls import Request
from .conversation import OPENING, Conversation, Numbers, Pending, line_of, pause_after
from .errors import BadLine, Closed, CommitLimit, Deadlock, Ended, NoTransaction
from .program import command_of_run, need_folder, why_ended
from .store import described
from .tracing import Trace

T = TypeVar("T")
P = ParamSpec("P")
PIECE = 65536
"""Bytes that are read at a time."""


def awaited(make: Callable[P, Request[T]]) -> Callable[Concatenate[AsyncSession, P], asyncio.Future[T]]:
    """A call as a method whose answer is awaited."""

    def method(self: AsyncSession, /, *args: P.args, **keys: P.kwargs) -> asyncio.Future[T]:
        return self.do(make(*args, **keys))

    described(method, make)
    return method


class AsyncCall(Pending[T]):
    """A call with the future of its answer, which may have been cancelled when that comes."""

    __slots__ = ("future",)

    def __init__(self, session: int, request: Request[T]) -> None:
        super().__init__(session, request)
        self.future: asyncio.Future[T] = asyncio.get_running_loop().create_future()

    def succeed(self, value: T) -> None:
        if not self.future.done():
            self.future.set_result(value)

    def fail(self, error: BaseException) -> None:
        if not self.future.done():
            self.future.set_exception(error)


class AsyncSession:
    """One of the store's 64 sessions, for one task at a time, with calls by the manual's names. Behind `async with` its number goes back to the store."""

    def __init__(self, store: AsyncStore, number: int) -> None:
        self.store, self.number = store, number

    def do(self, request: Request[T]) -> asyncio.Future[T]:
        """Sends a call; what it is answered, to be awaited."""
        call = AsyncCall(self.number, request)
        self.store.send(call)
        return call.future

    def transaction(self) -> AsyncTransaction:
        """For `async with`: begins, commits at the end of the block, and aborts where the block is left by an exception or is cancelled."""
        return AsyncTransaction(self)

    @contextlib.asynccontextmanager
    async def reading(self) -> AsyncIterator[AsyncSession]:
        """For `async with`: a transaction that only reads. It is aborted at the end of the block, so nothing is written."""
        await self.start()
        try:
            yield self
        finally:
            await self.give_up()

    async def start(self) -> int:
        """As `begin`, which a task that is cancelled in it takes back."""
        try:
            return await self.begin()
        except asyncio.CancelledError:
            await self.give_up()
            raise

    async def transactions(self, attempts: int = 100) -> AsyncIterator[AsyncAttempt]:
        """For `async for` and `async with`: the block is done again after each deadlock, until it has committed or been left by another exception.

            async for transaction in session.transactions():
                async with transaction:
                    ..
        """
        for attempt in range(1, attempts + 1):
            transaction = AsyncAttempt(self, is_last=attempt == attempts)
            yield transaction
            if not transaction.is_deadlock:
                return
            await asyncio.sleep(pause_after(attempt))

    async def transact(self, work: Callable[[AsyncSession], Awaitable[T]], attempts: int = 100) -> T:
        """What `work`, which is given the session, returns in a transaction that has committed; it is done again after each deadlock."""
        result: list[T] = []
        async for transaction in self.transactions(attempts):
            async with transaction:
                result = [await work(self)]
        return result[0]

    async def give_up(self) -> None:
        """Aborts what is live, if anything is. It is sent whatever becomes of the task, and what the session sends then comes behind it."""
        with contextlib.suppress(NoTransaction, Ended):
            await asyncio.shield(self.abort())

    async def close(self) -> None:
        """Aborts a transaction that is live, and gives the number back to the store."""
        try:
            await self.give_up()
        finally:
            self.store.give_back(self.number)

    async def __aenter__(self) -> AsyncSession:
        return self

    async def __aexit__(self, kind: type[BaseException] | None, error: BaseException | None, trace: TracebackType | None) -> None:
        await self.close()

    begin = awaited(calls.begin)
    commit = awaited(calls.commit)
    abort = awaited(calls.abort)
    docs = awaited(calls.docs)
    doc = awaited(calls.doc)
    create = awaited(calls.create)
    drop = awaited(calls.drop)
    node = awaited(calls.node)
    parent = awaited(calls.parent)
    first = awaited(calls.first)
    last = awaited(calls.last)
    next = awaited(calls.next)
    prev = awaited(calls.prev)
    children = awaited(calls.children)
    attr = awaited(calls.attr)
    has_attr = awaited(calls.has_attr)
    attrs = awaited(calls.attrs)
    text_content = awaited(calls.text_content)
    tags = awaited(calls.tags)
    find = awaited(calls.find)
    dump = awaited(calls.dump)
    length = awaited(calls.length)
    substring = awaited(calls.substring)
    append = awaited(calls.append)
    insert = awaited(calls.insert)
    replace = awaited(calls.replace)
    remove = awaited(calls.remove)
    set_attr = awaited(calls.set_attr)
    remove_attr = awaited(calls.remove_attr)
    rename = awaited(calls.rename)
    set_data = awaited(calls.set_data)
    append_data = awaited(calls.append_data)
    insert_data = awaited(calls.insert_data)
    delete_data = awaited(calls.delete_data)
    replace_data = awaited(calls.replace_data)
    split_text = awaited(calls.split_text)
    normalize = awaited(calls.normalize)
    set_text = awaited(calls.set_text)


class AsyncBounds:
    """Where a transaction begins and ends. `ordinal` is its begin's answer, `number` its commit's, None before."""

    def __init__(self, session: AsyncSession) -> None:
        self.session = session
        self.ordinal: int | None = None
        self.number: int | None = None

    async def begin(self) -> None:
        self.ordinal = await self.session.start()

    async def end(self, error: BaseException | None) -> None:
        """Commits, or aborts what an exception has left, unless it has ended by that."""
        if error is None:
            await self._commit()
        elif not isinstance(error, (Deadlock, Ended)):
            await self.session.give_up()

    async def _commit(self) -> None:
        try:
            self.number = await asyncio.shield(self.session.commit())
        except CommitLimit:
            await self.session.give_up()
            raise


class AsyncTransaction(AsyncBounds):
    """A transaction of a session, for `async with`."""

    async def __aenter__(self) -> AsyncTransaction:
        await self.begin()
        return self

    async def __aexit__(self, kind: type[BaseException] | None, error: BaseException | None, trace: TracebackType | None) -> None:
        await self.end(error)


class AsyncAttempt(AsyncBounds):
    """A transaction that is tried again after a deadlock, for `async with`: its block is left without an exception then, unless it is the last."""

    def __init__(self, session: AsyncSession, is_last: bool) -> None:
        super().__init__(session)
        self._is_last = is_last
        self.is_deadlock = False

    async def __aenter__(self) -> AsyncAttempt:
        await self.begin()
        return self

    async def __aexit__(self, kind: type[BaseException] | None, error: BaseException | None, trace: TracebackType | None) -> bool:
        await self.end(error)
        self.is_deadlock = isinstance(error, Deadlock)
        return self.is_deadlock and not self._is_last


class AsyncStore:
    """The program `xtc run` on the store of a folder, as `Store`, for `async with` or by `open` and `close`; it belongs to one loop.

    It is open when `open` returns; where it doesn't open the status is raised, as `NotAvailable`, `Damaged` or `Usage`.
    """

    def __init__(
        self,
        folder: str | os.PathLike[str] = ".",
        program: str = "xtc",
        *,
        checkpoint: int | None = None,
        frames: int | None = None,
        trace: str | os.PathLike[str] | None = None,
    ) -> None:
        self._folder = os.fspath(folder)
        self._command = command_of_run(program, checkpoint, frames)
        self._trace_prefix = trace
        self._trace: Trace | None = None
        self._conversation = Conversation()
        self._numbers = Numbers()
        self._queued: list[bytes] = []
        self._end: Ended | None = None

    async def open(self) -> None:
        """Starts the program and waits until the store is open."""
        need_folder(self._folder)
        pipe = asyncio.subprocess.PIPE
        command = asyncio.create_subprocess_exec(*self._command, cwd=self._folder, stdin=pipe, stdout=pipe, stderr=pipe, start_new_session=True)
        self._process = await command
        if self._trace_prefix is not None:
            self._trace = Trace(self._trace_prefix)
        self._reading = asyncio.create_task(self._read())
        opening = AsyncCall(0, Request("", {}, bool))
        self._send_line(opening, OPENING)
        try:
            await opening.future
        except BadLine:
            return  # the store is open: it answers
        except BaseException:
            with contextlib.suppress(Ended):
                await self.close()
            raise

    def session(self, number: int | None = None) -> AsyncSession:
        """A session with a number that is free, or with this one, from 1 to 64. It is given back by its `close`, or behind `async with`."""
        return AsyncSession(self, self._numbers.take(number))

    def give_back(self, number: int) -> None:
        """Makes a session's number free again; `AsyncSession.close` calls it."""
        self._numbers.give_back(number)

    def send(self, call: AsyncCall[Any]) -> None:
        """Queues the line of a call; all lines of one turn of the loop are written together."""
        self._send_line(call, line_of(call.session, call.request))

    def _send_line(self, call: AsyncCall[Any], line: bytes) -> None:
        if self._end is not None:
            raise self._end
        self._conversation.sent(call)
        self._queued.append(line)
        if len(self._queued) == 1:
            asyncio.get_running_loop().call_soon(self._write)

    def _write(self) -> None:
        lines, self._queued = b"".join(self._queued), []
        stdin = self._process.stdin
        if not lines or stdin is None or stdin.is_closing():
            return
        if self._trace and lines != OPENING:
            self._trace.asked(lines)
        stdin.write(lines)

    async def close(self) -> None:
        """Ends the input and waits for the program; transactions that are live leave nothing. A status other than 0 is raised."""
        self._write()
        if self._end is None:
            self._end = Closed("the store is closed")
        if self._process.stdin is not None:
            self._process.stdin.close()
        await asyncio.shield(self._reading)
        if self._end.status:
            raise self._end

    async def __aenter__(self) -> AsyncStore:
        await self.open()
        return self

    async def __aexit__(self, kind: type[BaseException] | None, error: BaseException | None, trace: TracebackType | None) -> Literal[False]:
        try:
            await self.close()
        except Ended:
            if error is None:
                raise
        return False

    async def _read(self) -> None:
        """Gives each reply to its call, and at the end an exception to those that have none."""
        assert self._process.stderr is not None
        error: Ended | None = None
        try:
            await self._read_replies()
        except Exception as wrong:  # whoever speaks there isn't xtc
            error = Ended("no reply of xtc: %r" % wrong)
            self._process.kill()
        said = (await self._process.stderr.read()).decode(errors="replace")
        status = await self._process.wait()
        if error is not None or status or self._end is None:
            self._end = error or why_ended(status, said, self._folder)
        if self._trace:
            self._trace.close()
        self._conversation.end(self._end)

    async def _read_replies(self) -> None:
        assert self._process.stdout is not None
        rest, is_opening = bytearray(), True
        while piece := await self._process.stdout.read(PIECE):
            *lines, tail = piece.split(b"\n")
            for line in lines:
                rest += line
                self._replied(bytes(rest), is_opening)
                rest, is_opening = bytearray(), False
            rest += tail

    def _replied(self, line: bytes, is_opening: bool) -> None:
        if self._trace and not is_opening:
            self._trace.answered(line + b"\n")
        self._conversation.replied(line)
