#!/usr/bin/env python3
"""Two writers in one catalogue: each in a thread with a session of its own, each adding books and counting them in an attribute.

    clients/python/two_writers.py [PROGRAM [BOOKS]]      by default `xtc` and 10 books each, on a store in a new folder

Both read the count and then change it, so each waits for the other or meets a deadlock, and goes on. At the end no book is lost and
the count is right.
"""

from __future__ import annotations

import sys
import tempfile
import threading

from xtc_client import Element, Session, Store


def add_book(session: Session, title: str) -> None:
    """In one transaction: a book more, and the count of books one higher."""
    catalogue = session.first(session.doc("catalogue")) or ""
    count = int(session.attr(catalogue, "count"))
    session.append(catalogue, ["book", {"by": str(session.number)}, ["title", title]])
    session.set_attr(catalogue, "count", str(count + 1))


def write(session: Session, books: int, tries: dict[int, int]) -> None:
    for number in range(books):
        for transaction in session.transactions():
            with transaction:
                add_book(session, "book %d of writer %d" % (number + 1, session.number))
            tries[session.number] += 1


def main(program: str = "xtc", books: str = "10") -> int:
    with tempfile.TemporaryDirectory() as folder, Store(folder, program) as store:
        sessions = [store.session(), store.session()]
        tries = {session.number: 0 for session in sessions}
        with store.session() as session:
            session.transact(lambda it: it.create("catalogue", ["catalogue", {"count": "0"}]))
            writers = [threading.Thread(target=write, args=(it, int(books), tries)) for it in sessions]
            for writer in writers:
                writer.start()
            for writer in writers:
                writer.join()
            catalogue = Element.of(session.transact(lambda it: it.dump(it.doc("catalogue"))))
    count, found = catalogue.attributes["count"], [Element.of(book) for book in catalogue.children]
    of_one = sum(book.attributes["by"] == "1" for book in found)
    print("%s: count %s, %d books, %d by writer 1; %d transactions tried" % (catalogue.name, count, len(found), of_one, sum(tries.values())))
    return 0 if count == str(len(found)) == str(2 * int(books)) else 1


if __name__ == "__main__":
    sys.exit(main(*sys.argv[1:]))
