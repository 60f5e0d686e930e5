"""A prompt over a store: calls as they are typed, in several sessions, with a history and completion."""

from __future__ import annotations

import os
import sys
import time
from dataclasses import dataclass, field
from pathlib import Path
from typing import Any, Callable

from ..calls import CALLS, Request
from ..errors import Deadlock, Ended, Refused, XtcError
from ..store import Call, Session, Store
from .advice import said_of
from .explain import explained
from .trees import json_text
from .typed import Mistyped, parameters_of, request_of, usage_of, words_of

HELP = """A line is a call with its keys, as `create x ["a"]` or `find at=1.1001 path=//b`; a transaction begins with `begin`.
    use N             goes on as session N, from 1 to 64
    sessions          what each session has done in its transaction, and which waits
    explain CALL ..   the requests that a call would make, on what is committed
    help [CALL]       the calls, or one of them
    quit              ends; what isn't committed is dropped
$1, $2 and so on stand for the labels of the last answer, $ for the first."""
OWN = ("use", "sessions", "explain", "help", "quit")
PATIENCE = 0.02
"""Seconds between two looks at whether a call that was sent waits."""


@dataclass
class Work:
    """A session as the prompt knows it: what its live transaction has done, its last call, and that with which it waits."""

    session: Session
    line: str = ""
    done: list[str] = field(default_factory=list)
    waiting: Call[Any] | None = None


Reads = Callable[[str], str]
"""Where lines come from, by a prompt: it raises EOFError at the end."""


class Shell:
    """The state of a prompt; `write` is given each line that is answered."""

    def __init__(self, store: Store, folder: str, write: Callable[[str], None] = print) -> None:
        self._store, self._folder, self._write = store, folder, write
        self._works: dict[int, Work] = {}
        self._labels: list[str] = []
        self._names: list[str] = []
        self.number = 1

    @property
    def work(self) -> Work:
        """That of the session in hand."""
        if self.number not in self._works:
            self._works[self.number] = Work(self._store.session(self.number))
        return self._works[self.number]

    def loop(self, read: Reads) -> None:
        """Does lines until they end or one says so."""
        while True:
            try:
                line = read("%d> " % self.number)
            except KeyboardInterrupt:
                continue
            except EOFError:
                return
            if not self.do(line):
                return

    def do(self, line: str) -> bool:
        """Does a line; False where it is the last."""
        self._tell_answered()
        try:
            words = words_of(line)
            if words[:1] == ["quit"]:
                return False
            if words:
                self._do_words(words)
        except Mistyped as wrong:
            self._write("? %s" % wrong)
        except Refused as error:
            self._write("! %s" % error)
        self._tell_answered()
        return True

    def _do_words(self, words: list[str]) -> None:
        own = {"use": self._use, "sessions": self._tell_sessions, "explain": self._explain, "help": self._help}
        if words[0] in own:
            own[words[0]](words[1:])
        else:
            meant = [self._label_for(word) for word in words]
            self._call(request_of(meant), " ".join(meant))

    # ---- calls

    def _label_for(self, word: str) -> str:
        """A label of the last answer for `$` or `$N`."""
        if word[:1] != "$" or not (word == "$" or word[1:].isdecimal()):
            return word
        place = int(word[1:] or "1")
        if not 1 <= place <= len(self._labels):
            raise Mistyped("the last answer has %d labels" % len(self._labels))
        return self._labels[place - 1]

    def _call(self, request: Request[Any], line: str) -> None:
        work = self.work
        work.line = line
        call = work.session.futures.do(request)
        while not call.done() and call.wait is None:
            time.sleep(PATIENCE / 20)
        if not call.done():
            work.waiting = call
            self._tell_wait(call)
            return
        self._ended(work, call)

    def _ended(self, work: Work, call: Call[Any]) -> None:
        """Writes what a call was answered, and keeps what it did while its transaction lives."""
        try:
            answer = call.result()
        except Ended:
            raise
        except XtcError as error:
            self._write("! %s" % self._told(work, error, call.request))
            return
        if call.request.call in ("begin", "commit", "abort"):
            work.done.clear()
        else:
            work.done.append(work.line)
        self._remember(call.request.call, answer)
        self._write(json_text(answer))

    @staticmethod
    def _told(work: Work, error: XtcError, request: Request[Any]) -> str:
        if isinstance(error, Deadlock):
            work.done.clear()
            return "deadlock: %s; the transaction has ended, begin again" % error
        if isinstance(error, Refused):
            return "%s: %s" % (error, type(error).__doc__)
        return said_of(error, request.keys.get("path"))

    def _remember(self, call: str, answer: Any) -> None:
        if call == "docs":
            self._names = [it.name for it in answer]
        labels = answer if isinstance(answer, list) else [answer]
        found = [str(getattr(it, "label", it)) for it in labels if isinstance(getattr(it, "label", it), str)]
        if call in ("docs", "doc", "create", "parent", "first", "last", "next", "prev", "children", "tags", "find", "append", "insert", "split_text") and found:
            self._labels = found

    # ---- waits

    def _tell_wait(self, call: Call[Any]) -> None:
        """Who holds what: the sessions that bar the call, and what each has done."""
        assert call.wait is not None
        self._write("session %d waits at %s, where it asks for %s" % (call.session, call.wait.on, call.wait.asks))
        for other in call.wait.by:
            self._write("    session %d holds it: %s" % (other, self._done_by(other)))
        self._write("    `use %d` and `commit` or `abort` there, or `abort` here" % call.wait.by[0])

    def _done_by(self, number: int) -> str:
        work = self._works.get(number)
        return "; ".join(work.done[-5:]) if work and work.done else "nothing was typed here"

    def _tell_answered(self) -> None:
        """The answers of calls that waited and are answered now."""
        for number, work in self._works.items():
            call = work.waiting
            if call is not None and call.done():
                work.waiting = None
                self._write("session %d goes on: %s" % (number, work.line))
                self._ended(work, call)

    # ---- the prompt's own words

    def _use(self, words: list[str]) -> None:
        if len(words) != 1 or not words[0].isdecimal() or not 1 <= int(words[0]) <= 64:
            raise Mistyped("use a number from 1 to 64")
        self.number = int(words[0])

    def _tell_sessions(self, _words: list[str]) -> None:
        for number, work in sorted(self._works.items()):
            waits = "waits" if work.waiting else ""
            self._write("%s session %d: %s" % ("*" if number == self.number else " ", number, "; ".join(filter(None, [*work.done, waits])) or "nothing yet"))

    def _explain(self, words: list[str]) -> None:
        if not words:
            raise Mistyped("explain which call?")
        for line in explained(self._folder, request_of([self._label_for(word) for word in words]), holds_lock=True):
            self._write(line)

    def _help(self, words: list[str]) -> None:
        if not words:
            self._write(HELP)
            self._write("Calls: " + " ".join(CALLS))
        elif words[0] in CALLS:
            self._write("%s\n    %s" % (usage_of(words[0]), CALLS[words[0]].__doc__))
        else:
            raise Mistyped("there is no call %s" % words[0])

    # ---- completion

    def completions(self, line: str) -> list[str]:
        """What the last word of a line may become: a call or a word of the prompt, then a document's name where a name goes, or a label."""
        *before, last = line.split(" ") or [""]
        before = [word for word in before if word]
        if before[:1] in (["explain"], ["help"]):
            before = before[1:]
        if not before:
            return [it for it in (*CALLS, *OWN) if it.startswith(last)]
        if before[0] not in CALLS or len(before) > len(parameters_of(before[0])):
            return []
        key = parameters_of(before[0])[len(before) - 1].name
        known = self._names if key == "name" else self._labels if key in ("at", "before", "old") else []
        return [it for it in known if it.startswith(last)]


def history_file(library: str) -> Path:
    """Where lines are kept from one prompt to the next, in the form of the library that reads them; its folder is made."""
    folder = Path(os.environ.get("XDG_STATE_HOME") or Path.home() / ".local" / "state")
    folder.mkdir(parents=True, exist_ok=True)
    return folder / ("xtc-docs-history." + library)


def reads_for(shell: Shell) -> Reads:
    """How lines are read: by prompt_toolkit where it is there, else by readline; plainly where the input is no terminal."""
    if not sys.stdin.isatty():
        return _read_plain
    try:
        return _by_prompt_toolkit(shell)
    except ImportError:
        return _by_readline(shell)


def _read_plain(prompt: str) -> str:
    line = sys.stdin.readline()
    if not line:
        raise EOFError
    return line


def _by_prompt_toolkit(shell: Shell) -> Reads:
    from prompt_toolkit import PromptSession
    from prompt_toolkit.completion import Completer, Completion
    from prompt_toolkit.history import FileHistory

    class Words(Completer):  # type: ignore[misc]  # mypy is told to look at no prompt_toolkit, which may not be there
        def get_completions(self, document: Any, _event: Any) -> Any:
            line = document.text_before_cursor
            for word in shell.completions(line):
                yield Completion(word, start_position=-len(line.split(" ")[-1]))

    prompts: Any = PromptSession(history=FileHistory(str(history_file("prompt_toolkit"))), completer=Words(), complete_while_typing=False)
    return lambda prompt: str(prompts.prompt(prompt))


def _by_readline(shell: Shell) -> Reads:
    import atexit
    import readline

    def complete(_text: str, place: int) -> str | None:
        found = shell.completions(readline.get_line_buffer()[: readline.get_endidx()])
        return found[place] if place < len(found) else None

    readline.set_completer(complete)
    readline.set_completer_delims(" ")
    readline.parse_and_bind("tab: complete")
    history = history_file("readline")
    if history.exists():
        readline.read_history_file(history)
    atexit.register(readline.write_history_file, history)
    return lambda prompt: input(prompt)
