"""A store over a pipe to `xtc run`, for threads: `Store`, its sessions, and their transactions."""

from __future__ import annotations

import concurrent.futures
import contextlib
import functools
import inspect
import os
import queue
import subprocess
import threading
import time
from types import TracebackType
from typing import Any, Callable, Concatenate, Iterator, Literal, ParamSpec, TypeVar

from . import calls
from .calls import Request
from .conversation import OPENING, Conversation, Numbers, Pending, line_of, pause_after
from .errors import BadLine, Closed, CommitLimit, Deadlock, Ended, NoTransaction, WaitedTooLong
from .program import command_of_run, need_folder, why_ended
from .tracing import Trace

T = TypeVar("T")
P = ParamSpec("P")


def described(method: Callable[..., Any], make: Callable[..., Request[Any]]) -> None:
    """Gives a method the name, the text and the parameters of its call."""
    functools.update_wrapper(method, make)
    signature = inspect.signature(make)
    own = inspect.Parameter("self", inspect.Parameter.POSITIONAL_ONLY)
    setattr(method, "__signature__", signature.replace(parameters=[own, *signature.parameters.values()], return_annotation=inspect.Signature.empty))


def blocking(make: Callable[P, Request[T]]) -> Callable[Concatenate[Session, P], T]:
    """A call as a method that returns its answer."""

    def method(self: Session, /, *args: P.args, **keys: P.kwargs) -> T:
        return self.do(make(*args, **keys))

    described(method, make)
    return method


def later(make: Callable[P, Request[T]]) -> Callable[Concatenate[Futures, P], Call[T]]:
    """A call as a method that returns a future."""

    def method(self: Futures, /, *args: P.args, **keys: P.kwargs) -> Call[T]:
        return self.do(make(*args, **keys))

    described(method, make)
    return method


class Call(Pending[T], concurrent.futures.Future[T]):
    """What a call is answered, as a future. It is sent, so `cancel` answers False: only an abort of its session gives up one that waits.

    Its callbacks run in the thread that reads replies, so they make no blocking call.
    """

    def __init__(self, session: int, request: Request[T]) -> None:
        Pending.__init__(self, session, request)
        concurrent.futures.Future.__init__(self)

    def cancel(self) -> Literal[False]:
        return False

    def succeed(self, value: T) -> None:
        self.set_result(value)

    def fail(self, error: BaseException) -> None:
        self.set_exception(error)


class Awaited(Pending[T]):
    """A call for which one thread sleeps."""

    __slots__ = ("_ends", "_value", "_error")
    _value: T

    def __init__(self, session: int, request: Request[T]) -> None:
        super().__init__(session, request)
        self._ends = threading.Lock()
        self._ends.acquire()
        self._error: BaseException | None = None

    def succeed(self, value: T) -> None:
        self._value = value
        self._ends.release()

    def fail(self, error: BaseException) -> None:
        self._error = error
        self._ends.release()

    def ends(self, timeout: float | None) -> bool:
        """Sleeps until it is answered; False where that takes longer than so many seconds."""
        return self._ends.acquire(timeout=-1 if timeout is None else timeout)

    def result(self) -> T:
        if self._error is not None:
            raise self._error
        return self._value


class Session:
    """One of the store's 64 sessions, with blocking calls by the manual's names; it may be used by one thread at a time.

    `patience` is how many seconds a call may wait for other sessions; None is without end. Behind `with` its number goes back to the store.
    """

    def __init__(self, store: Store, number: int, patience: float | None = None) -> None:
        self.store, self.number, self.patience = store, number, patience
        self.futures = Futures(store, number)

    def do(self, request: Request[T]) -> T:
        """Sends a call and sleeps until it is answered, also where it waits for another session."""
        call = Awaited(self.number, request)
        self.store.send(call)
        if not call.ends(self.patience):
            self._give_up()
            raise WaitedTooLong(call.wait)
        return call.result()

    def _give_up(self) -> None:
        abort = Awaited(self.number, calls.abort())
        self.store.send(abort)
        abort.ends(None)
        try:
            abort.result()
        except NoTransaction:
            pass  # it ended while it was given up

    def transaction(self) -> Transaction:
        """For `with`: begins, commits at the end of the block, and aborts where the block is left by an exception."""
        return Transaction(self)

    @contextlib.contextmanager
    def reading(self) -> Iterator[Session]:
        """For `with`: a transaction that only reads. It is aborted at the end of the block, so nothing is written."""
        self.begin()
        try:
            yield self
        finally:
            with contextlib.suppress(NoTransaction, Ended):
                self.abort()

    def transactions(self, attempts: int = 100) -> Iterator[Attempt]:
        """For `for` and `with`: the block is done again after each deadlock, until it has committed or been left by another exception.

            for transaction in session.transactions():
                with transaction:
                    ..

        Where many read the same and then change it, all would meet again at once; so each pauses first, for a random time that may
        be longer after each deadlock, up to a second.
        """
        for attempt in range(1, attempts + 1):
            transaction = Attempt(self, is_last=attempt == attempts)
            yield transaction
            if not transaction.is_deadlock:
                return
            time.sleep(pause_after(attempt))

    def transact(self, work: Callable[[Session], T], attempts: int = 100) -> T:
        """What `work`, which is given the session, returns in a transaction that has committed; it is done again after each deadlock."""
        result: list[T] = []
        for transaction in self.transactions(attempts):
            with transaction:
                result = [work(self)]
        return result[0]

    def close(self) -> None:
        """Aborts a transaction that is live, and gives the number back to the store."""
        try:
            self._give_up()
        except Ended:
            pass  # with the program its transactions have ended
        self.store.give_back(self.number)

    def __enter__(self) -> Session:
        return self

    def __exit__(self, kind: type[BaseException] | None, error: BaseException | None, trace: TracebackType | None) -> None:
        self.close()

    begin = blocking(calls.begin)
    commit = blocking(calls.commit)
    abort = blocking(calls.abort)
    docs = blocking(calls.docs)
    doc = blocking(calls.doc)
    create = blocking(calls.create)
    drop = blocking(calls.drop)
    node = blocking(calls.node)
    parent = blocking(calls.parent)
    first = blocking(calls.first)
    last = blocking(calls.last)
    next = blocking(calls.next)
    prev = blocking(calls.prev)
    children = blocking(calls.children)
    attr = blocking(calls.attr)
    has_attr = blocking(calls.has_attr)
    attrs = blocking(calls.attrs)
    text_content = blocking(calls.text_content)
    tags = blocking(calls.tags)
    find = blocking(calls.find)
    dump = blocking(calls.dump)
    length = blocking(calls.length)
    substring = blocking(calls.substring)
    append = blocking(calls.append)
    insert = blocking(calls.insert)
    replace = blocking(calls.replace)
    remove = blocking(calls.remove)
    set_attr = blocking(calls.set_attr)
    remove_attr = blocking(calls.remove_attr)
    rename = blocking(calls.rename)
    set_data = blocking(calls.set_data)
    append_data = blocking(calls.append_data)
    insert_data = blocking(calls.insert_data)
    delete_data = blocking(calls.delete_data)
    replace_data = blocking(calls.replace_data)
    split_text = blocking(calls.split_text)
    normalize = blocking(calls.normalize)
    set_text = blocking(calls.set_text)


class Futures:
    """The calls of a session as futures: each is sent at once, those of one moment together, and its `Call` is done when it is answered."""

    def __init__(self, store: Store, number: int) -> None:
        self._store, self._number = store, number

    def do(self, request: Request[T]) -> Call[T]:
        """Sends a call and returns its future."""
        call = Call(self._number, request)
        self._store.send(call, at_once=False)
        return call

    begin = later(calls.begin)
    commit = later(calls.commit)
    abort = later(calls.abort)
    docs = later(calls.docs)
    doc = later(calls.doc)
    create = later(calls.create)
    drop = later(calls.drop)
    node = later(calls.node)
    parent = later(calls.parent)
    first = later(calls.first)
    last = later(calls.last)
    next = later(calls.next)
    prev = later(calls.prev)
    children = later(calls.children)
    attr = later(calls.attr)
    has_attr = later(calls.has_attr)
    attrs = later(calls.attrs)
    text_content = later(calls.text_content)
    tags = later(calls.tags)
    find = later(calls.find)
    dump = later(calls.dump)
    length = later(calls.length)
    substring = later(calls.substring)
    append = later(calls.append)
    insert = later(calls.insert)
    replace = later(calls.replace)
    remove = later(calls.remove)
    set_attr = later(calls.set_attr)
    remove_attr = later(calls.remove_attr)
    rename = later(calls.rename)
    set_data = later(calls.set_data)
    append_data = later(calls.append_data)
    insert_data = later(calls.insert_data)
    delete_data = later(calls.delete_data)
    replace_data = later(calls.replace_data)
    split_text = later(calls.split_text)
    normalize = later(calls.normalize)
    set_text = later(calls.set_text)


class Bounds:
    """Where a transaction begins and ends. `ordinal` is its begin's answer, `number` its commit's, None before."""

    def __init__(self, session: Session) -> None:
        self.session = session
        self.ordinal: int | None = None
        self.number: int | None = None

    def begin(self) -> None:
        self.ordinal = self.session.begin()

    def end(self, error: BaseException | None) -> None:
        """Commits, or aborts what an exception has left, unless it has ended by that."""
        if error is None:
            self._commit()
        elif not isinstance(error, (Deadlock, Ended, WaitedTooLong)):
            self._abort()

    def _commit(self) -> None:
        try:
            self.number = self.session.commit()
        except CommitLimit:
            self._abort()
            raise

    def _abort(self) -> None:
        try:
            self.session.abort()
        except NoTransaction:
            pass  # the block has ended it by itself


class Transaction(Bounds):
    """A transaction of a session, for `with`."""

    def __enter__(self) -> Transaction:
        self.begin()
        return self

    def __exit__(self, kind: type[BaseException] | None, error: BaseException | None, trace: TracebackType | None) -> None:
        self.end(error)


class Attempt(Bounds):
    """A transaction that is tried again after a deadlock, for `with`: its block is left without an exception then, unless it is the last."""

    def __init__(self, session: Session, is_last: bool) -> None:
        super().__init__(session)
        self._is_last = is_last
        self.is_deadlock = False

    def __enter__(self) -> Attempt:
        self.begin()
        return self

    def __exit__(self, kind: type[BaseException] | None, error: BaseException | None, trace: TracebackType | None) -> bool:
        self.end(error)
        self.is_deadlock = isinstance(error, Deadlock)
        return self.is_deadlock and not self._is_last


class Store:
    """The program `xtc run` on the store of a folder, which it makes where it isn't there. One program at a time has a store.

    `checkpoint` is behind how many commits what was committed goes into the pages, `frames` how many pages are kept in memory, both as the
    options of the program; `trace` the beginning of the names of two files for `tools/timeline`. It returns when the store is open;
    where it doesn't open the status is raised, as `NotAvailable`, `Damaged` or `Usage`.
    """

    def __init__(
        self,
        folder: str | os.PathLike[str] = ".",
        program: str = "xtc",
        *,
        checkpoint: int | None = None,
        frames: int | None = None,
        trace: str | os.PathLike[str] | None = None,
    ) -> None:
        self._folder = os.fspath(folder)
        need_folder(self._folder)
        self._trace = Trace(trace) if trace is not None else None
        command = command_of_run(program, checkpoint, frames)
        pipe = subprocess.PIPE
        # In a session of its own, so that a Ctrl-C at the terminal is the caller's affair and doesn't end the program.
        self._process = subprocess.Popen(command, cwd=self._folder, stdin=pipe, stdout=pipe, stderr=pipe, start_new_session=True)
        self._conversation = Conversation()
        # `_lock` is over what is queued and whether it has ended, and is never held over a write. `_writing` is over writing: the program
        # may stop reading until its replies are read, and the thread that reads them needs only `_lock`.
        self._lock = threading.Lock()
        self._writing = threading.Lock()
        self._queued: list[bytes] = []
        self._end: Ended | None = None
        self._numbers = Numbers()
        self._writer: queue.SimpleQueue[bool] | None = None
        self._reader = threading.Thread(target=self._read, name="xtc replies", daemon=True)
        self._reader.start()
        self._open()

    def _open(self) -> None:
        opening = Awaited(0, Request("", {}, bool))
        try:
            self._send_line(opening, OPENING)
            opening.ends(None)
            opening.result()
        except BadLine:
            return  # the store is open: it answers
        except Ended:
            with contextlib.suppress(Ended):
                self.close()
            raise

    def session(self, number: int | None = None, patience: float | None = None) -> Session:
        """A session with a number that is free, or with this one, from 1 to 64. It is given back by its `close`, or behind `with`. NoSession where all are taken."""
        with self._lock:
            return Session(self, self._numbers.take(number), patience)

    def give_back(self, number: int) -> None:
        """Makes a session's number free again; `Session.close` calls it."""
        with self._lock:
            self._numbers.give_back(number)

    def send(self, call: Pending[Any], at_once: bool = True) -> None:
        """Sends the line of a call, in this thread where it is to go at once; else with others, in a thread that writes."""
        self._send_line(call, line_of(call.session, call.request), at_once)

    def _send_line(self, call: Pending[Any], line: bytes, at_once: bool = True) -> None:
        with self._lock:
            if self._end is not None:
                raise self._end
            self._conversation.sent(call)
            self._queued.append(line)
            is_first = len(self._queued) == 1
        if at_once:
            self._write()
        elif is_first:
            self._wake_writer()

    def _write(self) -> None:
        """Writes all that is queued, in one piece where the pipe takes it."""
        stdin = self._process.stdin
        assert stdin is not None
        with self._writing:
            with self._lock:
                lines, self._queued = b"".join(self._queued), []
            try:
                stdin.write(lines)
                stdin.flush()
                if self._trace and lines != OPENING:
                    self._trace.asked(lines)
            except (OSError, ValueError):
                pass  # the program has ended, and the reader says why
            except BaseException:
                self._process.kill()  # a line may be cut off, and the next would be read as its rest
                raise

    def _wake_writer(self) -> None:
        if self._writer is None:
            with self._lock:
                if self._writer is None:
                    self._writer = queue.SimpleQueue()
                    threading.Thread(target=self._write_on, args=(self._writer,), name="xtc lines", daemon=True).start()
        self._writer.put(True)

    def _write_on(self, wakes: queue.SimpleQueue[bool]) -> None:
        while wakes.get():
            self._write()

    def close(self) -> None:
        """Ends the input and waits for the program; transactions that are live leave nothing. A status other than 0 is raised."""
        if self._writer is not None:
            self._writer.put(False)
        self._write()
        stdin = self._process.stdin
        assert stdin is not None
        with self._lock:
            if self._end is None:
                self._end = Closed("the store is closed")
        with self._writing, contextlib.suppress(OSError):  # the program may have ended before
            stdin.close()
        self._reader.join()
        if self._end.status:
            raise self._end

    def __enter__(self) -> Store:
        return self

    def __exit__(self, kind: type[BaseException] | None, error: BaseException | None, trace: TracebackType | None) -> Literal[False]:
        try:
            self.close()
        except Ended:
            if error is None:
                raise
        return False

    def _read(self) -> None:
        """Gives each reply to its call, and at the end an exception to those that have none."""
        stdout, stderr = self._process.stdout, self._process.stderr
        assert stdout is not None and stderr is not None
        error: Ended | None = None
        try:
            self._read_replies()
        except Exception as wrong:  # whoever speaks there isn't xtc
            error = Ended("no reply of xtc: %r" % wrong)
            self._process.kill()
        said = stderr.read().decode(errors="replace")
        status = self._process.wait()
        stdout.close()
        stderr.close()
        with self._lock:
            if error is not None or status or self._end is None:
                self._end = error or why_ended(status, said, self._folder)
            end = self._end
        if self._trace:
            self._trace.close()
        self._conversation.end(end)

    def _read_replies(self) -> None:
        stdout = self._process.stdout
        assert stdout is not None
        is_opening = True
        for line in stdout:
            if not line.endswith(b"\n"):
                return  # it was stopped in mid-line
            if self._trace and not is_opening:
                self._trace.answered(line)
            is_opening = False
            self._conversation.replied(line)
