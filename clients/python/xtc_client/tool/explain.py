"""Which requests a call would make of the locks, by the plain model of docs/PROFILE.md on the committed tree."""

from __future__ import annotations

from typing import Any

from ..calls import Request
from . import beside
from .files import locked, records_of
from .trees import json_text


def explained(folder: str, request: Request[Any], holds_lock: bool = False) -> list[str]:
    """What a call would be answered by one session alone, and the requests that it would make, each once, in their order."""
    if holds_lock:
        records, _number = records_of(folder)
    else:
        with locked(folder):
            records, _number = records_of(folder)
    model = beside.model()
    store = model_of(records)
    reply = model.do_call(store, request.call, request.keys)
    return [json_text(reply), *dict.fromkeys(store.requests)]


def model_of(records: dict[Any, Any]) -> Any:
    """The model's tree for the records of a store, at their labels."""
    model, reader = beside.model(), beside.reader()
    kinds = {reader.DOCUMENT: "document", reader.ELEMENT: "element", reader.TEXT: "text"}
    store = model.Store()
    nodes = {reader.ROOT: store.root}
    for (label, name), (kind, value) in records.items():
        if label == reader.ROOT:
            store.names[name] = model.label_of(value)
        elif kind == reader.ATTRIBUTE:
            nodes[label].attributes[name] = value
        else:
            nodes[label] = model.Node(sum(label, ()), kinds[kind], None if kind == reader.DOCUMENT else value)
            nodes[label[:-1]].children.append(nodes[label])
    return store
