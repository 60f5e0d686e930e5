"""The words of `xtc-docs`, and what it ends with."""

from __future__ import annotations

import argparse
import os
import sys
from typing import Any, Callable, TypeAlias

from .. import __version__
from ..errors import NotAvailable, NotJsonMl, Usage, XtcError
from ..store import Store
from . import commands, files
from .advice import said_of, status_of
from .commands import Context, Form
from .explain import explained
from .shell import Shell, reads_for
from .trees import BadFile, Reading, json_text, xml_text
from .typed import Mistyped, request_of

EPILOG = """The status is that of xtc where it says the same: 2 other words, 4 damaged, 9 no element, 10 refused, 11 not available, and 0 where all was done."""


def main(words: list[str] | None = None) -> int:
    """Does a command; its status. What goes wrong is said on standard error, with what to do."""
    given = _parser().parse_args(words)
    context = Context(given.folder, given.program)
    run: Callable[[Context, argparse.Namespace], int | None] = given.run
    try:
        return run(context, given) or 0
    except XtcError as error:
        return _failed(said_of(error, getattr(given, "path", None)), status_of(error))
    except BadFile as error:
        return _failed(str(error), NotJsonMl.status)
    except Mistyped as error:
        return _failed(str(error), Usage.status)
    except KeyboardInterrupt:
        return _failed("stopped; what wasn't committed is dropped", 130)
    except BrokenPipeError:  # whoever reads wants no more
        os.dup2(os.open(os.devnull, os.O_WRONLY), sys.stdout.fileno())
        return 0
    except FileNotFoundError as error:
        is_program = error.filename and os.path.basename(error.filename) == os.path.basename(given.program)
        return _failed("there is no program %s: name it by --program" % given.program if is_program else str(error), Usage.status)
    except OSError as error:
        return _failed(str(error), NotAvailable.status)


def _failed(what: str, status: int) -> int:
    print("xtc-docs: %s" % what, file=sys.stderr)
    return status


# ---- words


def _parser() -> argparse.ArgumentParser:
    parser = argparse.ArgumentParser(prog="xtc-docs", description="Works on the documents of a store of xtc.", epilog=EPILOG)
    parser.add_argument("-C", dest="folder", metavar="FOLDER", default=".", help="the store's folder; the working folder where none is named")
    parser.add_argument("--program", default=os.environ.get("XTC", "xtc"), help="the program xtc; the variable XTC may name it, too")
    parser.add_argument("--version", action="version", version=__version__)
    kinds = parser.add_subparsers(title="commands", required=True, metavar="COMMAND")
    _add_documents(kinds)
    _add_paths(kinds)
    _add_stores(kinds)
    return parser


ABOUT = {
    "file": "XML where its name ends with .xml or its first sign is <, else JsonML; standard input where none is named",
    "files": "as of put",
    "path": "a location path of XPath 1.0 (the manual's \"Paths\")",
    "target": "a folder, which may not be there yet",
    "call": "a call and its keys, by place or as KEY=VALUE",
}
METAVARS = {"target": "FOLDER", "names": "NAME", "files": "FILE", "call": "WORD"}

Kinds: TypeAlias = "argparse._SubParsersAction[argparse.ArgumentParser]"


def _add(kinds: Kinds, name: str, run: Callable[[Context, argparse.Namespace], int | None], about: str, *words: str) -> argparse.ArgumentParser:
    parser = kinds.add_parser(name, help=about, description=about[0].upper() + about[1:] + ".")
    parser.set_defaults(run=run)
    for word in words:
        key = word.rstrip("?*+")
        parser.add_argument(key, metavar=METAVARS.get(key, key.upper()), help=ABOUT.get(key), **_counts(word))
    return parser


def _counts(word: str) -> dict[str, Any]:
    """How often a word may stand: a sign behind its name says so."""
    counts = {"nargs": word[-1]} if word[-1] in "?*+" else {}
    return counts | ({"default": "-"} if word[-1] == "?" else {})


def _add_reading(parser: argparse.ArgumentParser) -> None:
    """The options of tools/xml_to_jsonml, for files that are XML."""
    for option in ("comments", "instructions", "doctype", "blanks"):
        parser.add_argument("--drop-" + option, dest=option, action="store_true", help="of XML, leave out %s" % {"blanks": "texts of white space alone"}.get(option, option))
    parser.add_argument("--drop-all", action="store_true", help="comments, instructions and doctype")
    parser.add_argument("--keep-namespaces", action="store_true", help="of XML, keep prefixes and xmlns of several namespaces as they stand")


def _reading(given: argparse.Namespace) -> Reading:
    dropped = {option: getattr(given, option) or given.drop_all for option in ("comments", "instructions", "doctype")}
    return Reading({**dropped, "blanks": given.blanks, "keep_namespaces": given.keep_namespaces})


def _add_form(parser: argparse.ArgumentParser, *forms: Form) -> None:
    either = parser.add_mutually_exclusive_group()
    for form in forms:
        either.add_argument("--" + form.value, dest="form", action="store_const", const=form)
    parser.set_defaults(form=forms[0])


def _add_documents(kinds: Kinds) -> None:
    _add(kinds, "list", _list, "write the documents' names")
    _add_form(_add(kinds, "get", _get, "write a document", "name"), Form.JSON, Form.XML)
    _add_reading(_add(kinds, "put", _put, "make a document of a file, of XML or JsonML, of any length", "name", "file?"))
    _add_reading(_add(kinds, "replace", _replace, "put a file in a document's place, or make it", "name", "file?"))
    _add(kinds, "rename", _rename, "give a document another name", "old", "new")
    _add(kinds, "drop", _drop, "take documents out, all or none", "names+")
    _add_form(_add(kinds, "export", _export, "write documents to files, all where none is named", "target", "names*"), Form.JSON, Form.XML)
    importing = _add(kinds, "import", _import, "make a document of each file, named as it without its suffix", "files+")
    importing.add_argument("--replace", action="store_true", help="put them in the place of those that are there")
    _add_reading(importing)


def _add_paths(kinds: Kinds) -> None:
    _add_form(_add(kinds, "select", _select, "write the values of what a path finds", "name", "path"), Form.TEXT, Form.XML, Form.JSON)
    _add(kinds, "set", _set, "give what a path finds a text", "name", "path", "text")
    _add(kinds, "delete", _delete, "take out what a path finds", "name", "path")
    _add_reading(_add(kinds, "append", _append, "place a file's element in each that a path finds", "name", "path", "file?"))


def _add_stores(kinds: Kinds) -> None:
    _add(kinds, "stats", _stats, "count documents, nodes, commits, bytes and pages")
    _add(kinds, "check", _check, "test the files, by another program than xtc")
    _add(kinds, "backup", _backup, "copy the store to another folder, and test the copy", "target")
    _add(kinds, "compact", _compact, "make the files as short as what is in them")
    _add(kinds, "shell", _shell, "type calls at a prompt")
    _add(kinds, "explain", _explain, "write the requests that a call would make", "call+")


# ---- commands


def _list(context: Context, _given: argparse.Namespace) -> None:
    _write(commands.names(context))


def _get(context: Context, given: argparse.Namespace) -> None:
    tree = commands.get(context, given.name)
    _write([xml_text(tree) if given.form is Form.XML else json_text(tree)])


def _put(context: Context, given: argparse.Namespace) -> None:
    _write([json_text(commands.put(context, given.name, _reading(given).tree(given.file)))])


def _replace(context: Context, given: argparse.Namespace) -> None:
    _write([json_text(commands.replace(context, given.name, _reading(given).tree(given.file)))])


def _rename(context: Context, given: argparse.Namespace) -> None:
    _write([json_text(commands.rename(context, given.old, given.new))])


def _drop(context: Context, given: argparse.Namespace) -> None:
    commands.drop(context, given.names)


def _export(context: Context, given: argparse.Namespace) -> None:
    _write(["%d documents" % commands.export(context, given.target, given.names, given.form)])


def _import(context: Context, given: argparse.Namespace) -> int:
    return commands.import_files(context, given.files, _reading(given), given.replace)


def _select(context: Context, given: argparse.Namespace) -> None:
    _write(commands.select(context, given.name, given.path, given.form))


def _set(context: Context, given: argparse.Namespace) -> None:
    _write(["%d set" % commands.set_values(context, given.name, given.path, given.text)])


def _delete(context: Context, given: argparse.Namespace) -> None:
    _write(["%d deleted" % commands.delete(context, given.name, given.path)])


def _append(context: Context, given: argparse.Namespace) -> None:
    _write(["%d appended" % commands.append(context, given.name, given.path, _reading(given).tree(given.file))])


def _stats(context: Context, _given: argparse.Namespace) -> None:
    _write(files.statistics(context.folder).lines())


def _check(context: Context, _given: argparse.Namespace) -> None:
    _write([files.checked(context.folder)])


def _backup(context: Context, given: argparse.Namespace) -> None:
    _write([files.backup(context.folder, given.target)])


def _compact(context: Context, _given: argparse.Namespace) -> None:
    _write(["%d bytes, now %d" % files.compact(context.folder, context.program)])


def _shell(context: Context, _given: argparse.Namespace) -> None:
    with Store(context.folder, context.program) as store:
        shell = Shell(store, context.folder)
        shell.loop(reads_for(shell))


def _explain(context: Context, given: argparse.Namespace) -> None:
    _write(explained(context.folder, request_of(given.call)))


def _write(lines: list[str]) -> None:
    for line in lines:
        print(line)
    sys.stdout.flush()


if __name__ == "__main__":
    sys.exit(main())
