"""The repository's tools that this one stands on, as modules: the second reader of the files, the plain model of calls, and those for XML."""

from __future__ import annotations

import functools
import sys
from importlib.machinery import SourceFileLoader
from importlib.util import module_from_spec, spec_from_loader
from pathlib import Path
from typing import Any

# Of an installed package they stand beside its modules, in the repository in tools/.
INSTALLED = Path(__file__).with_name("beside")
FOLDER = INSTALLED if INSTALLED.is_dir() else Path(__file__).resolve().parents[4] / "tools"


@functools.cache
def _loaded(name: str) -> Any:
    loader = SourceFileLoader("xtc_client.tool.beside." + name.partition(".")[0], str(FOLDER / name))
    spec = spec_from_loader(loader.name, loader)
    assert spec is not None
    module = module_from_spec(spec)
    sys.modules[loader.name] = module
    kept, sys.dont_write_bytecode = sys.dont_write_bytecode, True
    try:
        loader.exec_module(module)
    finally:
        sys.dont_write_bytecode = kept
    return module


def reader() -> Any:
    """tools/read_store: what the next opening would find, by docs/FILE_FORMAT.md alone."""
    return _loaded("read_store")


def pages() -> Any:
    """tools/cut_pages: the pages that a checkpoint would make."""
    return _loaded("cut_pages")


def from_xml() -> Any:
    """tools/xml_to_jsonml."""
    return _loaded("xml_to_jsonml")


def to_xml() -> Any:
    """tools/jsonml_to_xml."""
    return _loaded("jsonml_to_xml")


def model() -> Any:
    """tools/replay: each call on a plain tree, with the requests that it makes, by docs/PROFILE.md alone."""
    sys.modules.setdefault("paths", _loaded("paths.py"))
    return _loaded("replay")
