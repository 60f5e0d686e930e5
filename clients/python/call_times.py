#!/usr/bin/env python3
"""What the client itself adds to a call: the same lines over a bare pipe and by the client, to a program that answers at once.

    clients/python/call_times.py [CALLS]      by default 3,000 of each, in five turns; the median of the best turn is printed, in microseconds
"""

from __future__ import annotations

import os
import statistics
import subprocess
import sys
import tempfile
import time
from typing import Callable

from xtc_client import Session, Store

ANSWERS = """#!/bin/sh
exec sed -u 's/.*/{"ok":null,"s":1}/'
"""
LINE = b'{"s":1,"call":"first","at":"1.1001.1001"}\n'
TURNS = 5


def median(call: Callable[[], object], calls: int) -> float:
    """The median time of a call."""
    times = []
    for _ in range(calls):
        begun = time.perf_counter()
        call()
        times.append(time.perf_counter() - begun)
    return statistics.median(times) * 1e6


def bare(program: str, calls: int) -> float:
    """A line written, and one read."""
    with subprocess.Popen([program], stdin=subprocess.PIPE, stdout=subprocess.PIPE) as process:
        assert process.stdin is not None and process.stdout is not None
        stdin, stdout = process.stdin, process.stdout

        def ask() -> None:
            stdin.write(LINE)
            stdin.flush()
            stdout.readline()

        return median(ask, calls)


def pipelined(session: Session, calls: int) -> float:
    """The processor's time for a call of many that are sent before the first is waited for."""
    begun = time.process_time()
    sent = [session.futures.first("1.1001.1001") for _ in range(calls)]
    for call in sent:
        call.result()
    return (time.process_time() - begun) / calls * 1e6


def main(calls: str = "3000") -> int:
    turns = []
    with tempfile.TemporaryDirectory() as folder:
        program = os.path.join(folder, "answers")
        with open(program, "w", encoding="ascii") as file:
            file.write(ANSWERS)
        os.chmod(program, 0o700)
        for _ in range(TURNS):
            with Store(folder, program) as store, store.session() as session:
                by_client = median(lambda: session.first("1.1001.1001"), int(calls))
                turns.append((bare(program, int(calls)), by_client, pipelined(session, int(calls))))
    times = [min(column) for column in zip(*turns)]
    print("bare pipe %.1f us, client %.1f us; among futures %.1f us of the processor" % tuple(times))
    return 0


if __name__ == "__main__":
    sys.exit(main(*sys.argv[1:]))
