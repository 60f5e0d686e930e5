"""Calls as they are typed: `append 1.1001.1001 ["b"]`, or with names, `append tree=["b"] at=1.1001.1001`."""

from __future__ import annotations

import inspect
import json
import re
from typing import Any, Callable

from ..calls import CALLS, Request

NUMBERS = ("offset", "count")
WORD = re.compile(r"\s*([a-z]+=)?(?=\S)")
PLAIN = re.compile(r"\S+")
DECODER = json.JSONDecoder()


class Mistyped(Exception):
    """What was typed is no call, and why."""


def parameters_of(call: str) -> list[inspect.Parameter]:
    """The keys of a call in the manual's order."""
    return list(inspect.signature(CALLS[call]).parameters.values())


def usage_of(call: str) -> str:
    """A call with its keys; one in brackets may be left out."""
    return " ".join([call, *(it.name if it.default is it.empty else "[%s]" % it.name for it in parameters_of(call))])


def words_of(line: str) -> list[str]:
    """The words of a line: JSON as it stands, a text in quotes without these, and else what stands between spaces; each may have NAME= before it."""
    words, at = [], 0
    while found := WORD.match(line, at):
        value, at = _value_at(line, found.end())
        words.append((found[1] or "") + value)
    return words


def _value_at(line: str, at: int) -> tuple[str, int]:
    """A value, and where it ends."""
    if line[at] in '["':
        try:
            value, end = DECODER.raw_decode(line, at)
        except ValueError as error:
            raise Mistyped("no JSON: %s" % error) from None
        return (value if isinstance(value, str) else line[at:end]), end
    if line[at] == "'":
        end = line.find("'", at + 1)
        if end < 0:
            raise Mistyped("a quote isn't closed")
        return line[at + 1 : end], end + 1
    plain = PLAIN.match(line, at)
    assert plain is not None
    return plain[0], plain.end()


def request_of(words: list[str]) -> Request[Any]:
    """The request for a call's name and its keys, by place or as NAME=VALUE."""
    call, *given = words
    if call not in CALLS:
        raise Mistyped("there is no call %s" % call)
    parameters = {it.name: it for it in parameters_of(call)}
    free, keys = list(parameters), {}
    for word in given:
        name, equals, value = word.partition("=")
        if not (equals and name in free):
            if not free:
                raise Mistyped("too many words: %s" % usage_of(call))
            name, value = free[0], word
        free.remove(name)
        keys[name] = _value_of(name, value)
    if any(parameters[name].default is inspect.Parameter.empty for name in free):
        raise Mistyped("%s is missing: %s" % (free[0], usage_of(call)))
    make: Callable[..., Request[Any]] = CALLS[call]
    return make(**keys)


def _value_of(name: str, word: str) -> Any:
    if name in NUMBERS:
        if not word.isdecimal():
            raise Mistyped("%s is a number, and not %s" % (name, word))
        return int(word)
    if name == "before" and word == "null":
        return None
    if name == "tree" and word.startswith("["):
        try:
            return json.loads(word)
        except ValueError as error:
            raise Mistyped("tree is no JSON: %s" % error) from None
    return word
