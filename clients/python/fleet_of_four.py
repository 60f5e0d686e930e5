#!/usr/bin/env python3
"""Documents on a cluster of this machine: how many a second on 1, 2 and 4 workers, and what is there behind the loss of one.

    clients/python/fleet_of_four.py [PROGRAM [DOCUMENTS [FOLDER]]]      by default `xtc`, 10,000 documents and a new folder

Each time a fleet of four stores puts so many books, each in a transaction of its own, in batches. At the last time one of four workers is killed
in the midst. Every document of a batch that was answered has to be there at the end.
"""

from __future__ import annotations

import logging
import os
import shutil
import signal
import sys
import tempfile
import threading
import time

import dask
from distributed import Client, LocalCluster

from xtc_client import Tree
from xtc_fleet import Fleet

STORES, BATCH = 4, 400


def book(number: int) -> tuple[str, Tree]:
    """A document's name, and the book in it."""
    return "book%d" % number, ["book", {"k": str(number)}, ["title", "Title %d" % number], ["price", str(number % 90)]]


def kill_one(processes: list[int]) -> None:
    """Kills one of the workers' processes."""
    os.kill(min(processes), signal.SIGKILL)


def put_books(cluster: Client, fleet: Fleet, count: int, kills: bool) -> float:
    """Puts so many books; the seconds that it took. Where it kills, a batch is under way then."""
    began = time.monotonic()
    for start in range(0, count, BATCH):
        if kills and start <= count // 2 < start + BATCH:
            threading.Timer(0.02, kill_one, [list(cluster.run(os.getpid).values())]).start()
        fleet.put_all(map(book, range(start, min(start + BATCH, count))))
    return time.monotonic() - began


def tried(folder: str, program: str, count: int, workers: int, kills: bool = False) -> bool:
    """Whether each book that was put on so many workers is there, and as it was put; prints a row."""
    with LocalCluster(n_workers=workers, threads_per_worker=1, dashboard_address=None, silence_logs=logging.CRITICAL) as local, Client(local) as cluster:
        with Fleet(cluster, folder, STORES, program=program) as fleet:
            seconds = put_books(cluster, fleet, count, kills)
            there = fleet.get_all(book(number)[0] for number in range(count))
    right = all(there.get(name) == tree for name, tree in map(book, range(count)))
    print("%d workers%s: %d documents, %.0f a second, %s" % (workers, ", one killed" if kills else "", count, count / seconds, "all there" if right else "NOT ALL THERE"), flush=True)
    return right


def main(program: str = "xtc", documents: str = "10000", folder: str | None = None) -> int:
    right = True
    dask.config.set({"distributed.comm.timeouts.connect": "3s"})  # how long who is gone is looked for
    with tempfile.TemporaryDirectory(dir=folder) as room:
        for workers, kills in ((1, False), (2, False), (4, False), (4, True)):
            place = os.path.join(room, "fleet")
            right &= tried(place, os.path.abspath(program) if os.path.dirname(program) else program, int(documents), workers, kills)
            shutil.rmtree(place)
    return 0 if right else 1


if __name__ == "__main__":
    sys.exit(main(*sys.argv[1:]))
