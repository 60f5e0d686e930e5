"""A client of xtc: it starts the program on a store and speaks with it over a pipe (docs/MANUAL.md, "A client in Python").

    from xtc_client import Store

    with Store("folder") as store, store.session() as session:
        with session.transaction():
            session.create("x", ["a", {"k": "v"}, "one"])
        print(session.transact(lambda s: s.dump(s.doc("x"))))

A session has a method for each call, with the names and keys of the manual. A method blocks until its call is answered, also where it
waits for another session; `session.futures` has the same methods, which answer a future at once, and `AsyncStore` those that are awaited.
A refusal is an exception of the type that REFUSALS names, a deadlock `Deadlock`, and an end of the program one of the types of STATUSES.
"""

from .asynchronous import AsyncSession, AsyncStore
from .calls import CALLS, Request
from .errors import (
    REFUSALS,
    STATUSES,
    Aborted,
    BadLine,
    BadPath,
    BadTree,
    Closed,
    CommitLimit,
    Damaged,
    Deadlock,
    DiskFault,
    DocumentExists,
    DocumentRefused,
    Ended,
    HierarchyRequestError,
    IndexSizeError,
    InTransaction,
    InvalidCharacterError,
    IsWaiting,
    LabelLimit,
    LineLimit,
    LineTooLong,
    NoMemory,
    NoSession,
    NotAvailable,
    NotFoundError,
    NotJsonMl,
    NotSupportedError,
    NoTransaction,
    ReadFault,
    Refused,
    TextLimit,
    TooDeep,
    TxLimit,
    Usage,
    WaitedTooLong,
    WriteFault,
    XtcError,
)
from .program import get, put, query
from .placing import append_large, create_large
from .store import Attempt, Call, Futures, Session, Store, Transaction
from .values import Document, Element, Label, Node, Replaced, Tree, Wait

__version__ = "1.0.0"

__all__ = [
    "Aborted", "append_large", "AsyncSession", "AsyncStore", "Attempt", "BadLine", "BadPath", "BadTree", "Call", "CALLS", "Closed", "CommitLimit",
    "create_large", "Damaged", "Deadlock", "DiskFault", "Document", "DocumentExists", "DocumentRefused", "Element", "Ended", "Futures", "get",
    "HierarchyRequestError", "IndexSizeError", "InTransaction", "InvalidCharacterError", "IsWaiting", "Label", "LabelLimit", "LineLimit", "LineTooLong",
    "Node", "NoMemory", "NoSession", "NotAvailable", "NotFoundError", "NotJsonMl", "NoTransaction", "NotSupportedError", "put", "query", "ReadFault",
    "REFUSALS", "Refused", "Replaced", "Request", "Session", "STATUSES", "Store", "TextLimit", "TooDeep", "Transaction", "Tree", "TxLimit", "Usage",
    "Wait", "WaitedTooLong", "WriteFault", "XtcError",
]
