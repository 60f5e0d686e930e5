"""Documents over several stores, which the workers of a Dask cluster keep open: `Fleet` (docs/SCALE.md).

    from distributed import Client
    from xtc_fleet import Fleet

    with Client("scheduler:8786") as cluster, Fleet(cluster, "/shared/collection", stores=8) as fleet:
        fleet.put("x", ["book", {"k": "1"}, ["title", "One"]])
        print(fleet.select("//title"))

Each store is a folder with a program of its own, and an actor on one worker speaks with it. A document is in the store that the hash of its
name says, and a transaction stays within that store. The store of a worker that is lost is opened again by another one from its folder, so all
workers have to reach all folders; what had been answered is there. Needed are `distributed` where the fleet is used, and xtc_client and the
program on each worker.
"""

from __future__ import annotations

import collections
import contextlib
import hashlib
import itertools
import json
import os
import time
from concurrent.futures import CancelledError
from types import TracebackType
from typing import Any, Callable, Iterable, Iterator, TypeVar

from distributed import Client, KilledWorker, wait

from xtc_client import DocumentExists, Ended, Label, NotAvailable, NotFoundError, Session, Store, Tree, create_large
from xtc_client.placing import ROOM

T = TypeVar("T")

OPENING = 60
"""Seconds that an opening waits for the program of a worker that was lost to end."""

COUNT = "stores"
"""The file in a fleet's folder that says how many stores it has."""


class Lost(Exception):
    """The worker went while it did a transaction: whether that was committed isn't known."""


def is_lost(error: BaseException) -> bool:
    """Whether an actor's call failed since its worker has gone, or the program there was killed."""
    gone = (KilledWorker, CancelledError, OSError)
    return isinstance(error, gone) or type(error) is Ended or str(error).startswith("Worker holding Actor was lost")


def store_of(name: str, stores: int) -> int:
    """The store of a document with this name, of so many."""
    return int.from_bytes(hashlib.sha256(name.encode()).digest()[:8], "big") % stores


def count_of(folder: str, stores: int) -> int:
    """How many stores a folder is for: so many, where it is new."""
    os.makedirs(folder, exist_ok=True)
    path = os.path.join(folder, COUNT)
    try:
        with open(path, "x", encoding="ascii") as file:
            file.write("%d\n" % stores)
    except FileExistsError:
        with open(path, encoding="ascii") as file:
            return int(file.read())
    return stores


def opened(folder: str, program: str, checkpoint: int | None) -> Store:
    """A store, once another program that has it has ended."""
    last = time.monotonic() + OPENING
    while True:
        try:
            return Store(folder, program, checkpoint=checkpoint)
        except NotAvailable:
            if time.monotonic() > last:
                raise
            time.sleep(0.1)


class OpenStore:
    """A store that a worker keeps open. What is asked of it is done in turn, each document in a transaction of its own."""

    def __init__(self, folder: str, program: str, checkpoint: int | None) -> None:
        os.makedirs(folder, exist_ok=True)
        self._store = opened(folder, program, checkpoint)
        self._session = self._store.session()

    def put(self, documents: list[tuple[str, Tree]]) -> int:
        """Makes each document, or puts it in place of one with its name, and returns behind the last commit; how many."""
        small = [len(json.dumps(tree, ensure_ascii=False).encode()) <= ROOM for _, tree in documents]
        sent = [self._make(*document) if is_small else [] for document, is_small in zip(documents, small)]
        for (name, tree), is_small, calls in zip(documents, small, sent):
            made = is_small
            for call in calls:
                try:
                    call.result()
                except DocumentExists:
                    made = False
            if not made:
                self._session.transact(lambda session: put_in_place(session, name, tree))
        return len(documents)

    def _make(self, name: str, tree: Tree) -> list[Any]:
        """The calls of a transaction, which are sent without waiting for one of them."""
        futures = self._session.futures
        return [futures.begin(), futures.create(name, tree), futures.commit()]

    def get(self, names: list[str]) -> dict[str, Tree | None]:
        """Those of these documents that are there."""
        with self._session.reading() as session:
            there = {it.name: it.label for it in session.docs()}
            return {name: session.dump(there[name]) for name in names if name in there}

    def select(self, path: str) -> dict[str, list[Tree | None]]:
        """What a path finds in each document: a node's tree, an attribute's value."""
        with self._session.reading() as session:
            found = {it.name: [value_at(session, label) for label in session.find(it.label, path)] for it in session.docs()}
        return {name: values for name, values in found.items() if values}

    def names(self) -> list[str]:
        """The names of its documents."""
        with self._session.reading() as session:
            return [it.name for it in session.docs()]

    def transact(self, work: Callable[[Session], Any]) -> Any:
        """What `work` returns in a transaction that has committed."""
        return self._session.transact(work)

    def close(self) -> None:
        """Ends the program."""
        self._store.close()


@contextlib.contextmanager
def passed_over() -> Iterator[None]:
    """For `with`: the block may end by the loss of a worker."""
    try:
        yield
    except Exception as error:
        if not is_lost(error):
            raise


def merged(parts: dict[int, dict[str, T]]) -> dict[str, T]:
    """What several stores answered, as one."""
    return {name: it for part in parts.values() for name, it in part.items()}


def put_in_place(session: Session, name: str, tree: Tree) -> Label:
    """Makes a document in place of one with this name; its label."""
    with contextlib.suppress(NotFoundError):
        session.drop(name)
    return create_large(session, name, tree)


def value_at(session: Session, label: Label) -> Tree | None:
    """The tree of a node, or the value of an attribute."""
    return session.dump(label) if label.attribute is None else session.attr(label.node, label.attribute)


class Fleet:
    """Stores in the folders 0, 1 and so on of a folder, as many as it had when it was first opened, on the workers of a cluster by turns."""

    def __init__(self, cluster: Client, folder: str | os.PathLike[str], stores: int = 4, *, program: str = "xtc", checkpoint: int | None = None) -> None:
        self._cluster, self._folder = cluster, os.path.abspath(folder)
        self._words = (program, checkpoint)
        self.stores = count_of(self._folder, stores)
        self._turns = itertools.count()
        self._places: dict[int, str] = {}
        self._open: dict[int, Any] = {}
        self._start(range(self.stores))

    # ---- documents

    def put(self, name: str, tree: Tree) -> None:
        """Makes a document, or puts it in place of the one with this name; durable when it returns."""
        self.put_all([(name, tree)])

    def put_all(self, documents: Iterable[tuple[str, Tree]]) -> int:
        """As `put` of each, on all stores at once; how many. A document that was put twice for a lost worker's sake is there once."""
        parts: dict[int, list[tuple[str, Tree]]] = collections.defaultdict(list)
        for name, tree in documents:
            parts[store_of(name, self.stores)].append((name, tree))
        return sum(self._ask("put", {number: (part,) for number, part in parts.items()}).values())

    def get(self, name: str) -> Tree | None:
        """A document; KeyError where there is none with this name."""
        return self.get_all([name])[name]

    def get_all(self, names: Iterable[str]) -> dict[str, Tree | None]:
        """Those of these documents that are there, from all stores at once."""
        parts: dict[int, list[str]] = collections.defaultdict(list)
        for name in names:
            parts[store_of(name, self.stores)].append(name)
        return merged(self._ask("get", {number: (part,) for number, part in parts.items()}))

    def select(self, path: str) -> dict[str, list[Tree | None]]:
        """What a path finds, for each document in which it finds something, from all stores at once. Each store answers from one transaction, and no two of them from one moment."""
        return merged(self._ask("select", {number: (path,) for number in range(self.stores)}))

    def names(self) -> list[str]:
        """The names of all documents, in their order as texts."""
        return sorted(itertools.chain.from_iterable(self._ask("names", {number: () for number in range(self.stores)}).values()))

    def transact(self, name: str, work: Callable[[Session], T]) -> T:
        """What `work`, a function that the workers can import, returns in a transaction on the store of the document with this name; it is done again
        after a deadlock. Lost where the worker goes meanwhile, since it may have been committed; the store is open again then."""
        number = store_of(name, self.stores)
        answers: dict[int, T] = {}
        if not self._has_answered(number, self._asked(number, "transact", (work,)), answers):
            self._start([number])
            raise Lost("the worker of store %d was lost" % number)
        return answers[number]

    # ---- stores

    def _ask(self, method: str, given: dict[int, tuple[Any, ...]]) -> dict[int, Any]:
        """What each of these stores answers, asked at once; of a lost worker's again, by another worker."""
        answers: dict[int, Any] = {}
        while len(answers) < len(given):
            left = [number for number in given if number not in answers]
            asked = {number: self._asked(number, method, given[number]) for number in left}
            self._start([number for number, call in asked.items() if not self._has_answered(number, call, answers)])
        return answers

    def _asked(self, number: int, method: str, words: tuple[Any, ...]) -> Any:
        """The future of a call of a store's actor; None where its worker is known to have gone."""
        with passed_over():
            return getattr(self._open[number], method)(*words)

    def _has_answered(self, number: int, call: Any, answers: dict[int, Any]) -> bool:
        with passed_over():
            if call is not None:
                answers[number] = call.result()
        return number in answers

    def _start(self, numbers: Iterable[int]) -> None:
        """Opens stores on workers that live, by turns; a lost worker's on another one where there is one."""
        left = list(numbers)
        while left:
            opening = {number: self._opening(number) for number in left}
            with contextlib.suppress(TimeoutError):
                wait(list(opening.values()), timeout=2 * OPENING)
            left = [number for number, future in opening.items() if not self._has_opened(number, future)]

    def _opening(self, number: int) -> Any:
        self._places[number] = place = self._next_place(self._places.get(number))
        folder = os.path.join(self._folder, str(number))
        return self._cluster.submit(OpenStore, folder, *self._words, workers=[place], actor=True, pure=False)

    def _has_opened(self, number: int, future: Any) -> bool:
        self._open.pop(number, None)
        with passed_over():
            if future.done():
                self._open[number] = future.result()
        return number in self._open

    def _next_place(self, lost: str | None) -> str:
        """A worker's address, not that of a lost one where there is another."""
        workers: list[str] = []
        while not workers:
            self._cluster.wait_for_workers(1)
            workers = list(self._cluster.scheduler_info()["workers"])
        others = [it for it in workers if it != lost] or workers
        return others[next(self._turns) % len(others)]

    def close(self) -> None:
        """Closes all stores; what lost workers had is closed with them."""
        for store in self._open.values():
            with passed_over():
                store.close().result()
        self._open.clear()

    def __enter__(self) -> Fleet:
        return self

    def __exit__(self, kind: type[BaseException] | None, error: BaseException | None, trace: TracebackType | None) -> None:
        self.close()
