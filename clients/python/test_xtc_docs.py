"""Tests of xtc-docs over the built program, which is found as by test_xtc_client; each command is run in a folder of its own."""

import contextlib
import io
import json
import os
import subprocess
import sys
import tempfile
import unittest
from unittest import mock

HERE = os.path.dirname(os.path.abspath(__file__))
ROOT = os.path.join(HERE, "..", "..")
PROGRAM = os.path.abspath(os.environ.get("XTC", os.path.join(ROOT, "bin", "xtc")))
sys.path.insert(0, HERE)

import xtc_client as client  # noqa: E402
from xtc_client.tool.main import main  # noqa: E402
from xtc_client.tool.progress import progress  # noqa: E402
from xtc_client.tool.shell import Shell  # noqa: E402

BOOKS = '["books",{"n":"2"},["book",{"k":"1"},["title","One"]],["book",{"k":"2"},["title","Two"]]]'


class WithFolder(unittest.TestCase):
    def setUp(self):
        folder = tempfile.TemporaryDirectory()
        self.addCleanup(folder.cleanup)
        self.folder = folder.name
        self.addCleanup(os.chdir, os.getcwd())
        os.chdir(self.folder)

    def path(self, *names):
        return os.path.join(self.folder, *names)

    def ran(self, *words, given="", program=PROGRAM):
        """The status of a command, what it writes, and what it says."""
        stdin = mock.patch("sys.stdin", io.TextIOWrapper(io.BytesIO(given.encode())))
        with stdin, contextlib.redirect_stdout(io.StringIO()) as written, contextlib.redirect_stderr(io.StringIO()) as said:
            status = main(["--program", program, *words])
        return status, written.getvalue(), said.getvalue()

    def done(self, *words, given=""):
        """What a command writes that has to end with 0."""
        status, written, said = self.ran(*words, given=given)
        self.assertEqual((status, said), (0, ""), words)
        return written

    def write(self, name, data):
        with open(self.path(name), "wb") as file:
            file.write(data.encode() if isinstance(data, str) else data)


class Documents(WithFolder):
    def test_documents_are_put_listed_renamed_and_dropped(self):
        for words, given, wanted in [
            (("put", "x"), '["a"]', '"1.1001"\n'),
            (("replace", "x"), '["b"]', '"1.1001"\n'),
            (("replace", "y"), "<a>t</a>", '"1.1003"\n'),
            (("get", "y"), "", '["a","t"]\n'),
            (("get", "y", "--xml"), "", '<?xml version="1.0" encoding="UTF-8"?>\n<a>t</a>\n'),
            (("rename", "x", "z"), "", '"1.1005"\n'),
            (("list",), "", "y\nz\n"),
            (("drop", "y", "z"), "", ""),
            (("list",), "", ""),
        ]:
            self.assertEqual(self.done(*words, given=given), wanted, words)

    def test_a_command_that_reads_writes_nothing(self):
        self.done("put", "x", given=BOOKS)
        size = os.path.getsize(self.path("store.journal"))
        for words in [("list",), ("get", "x"), ("select", "x", "//title"), ("stats",), ("check",), ("export", "out"), ("explain", "docs")]:
            self.done(*words)
        self.assertEqual(os.path.getsize(self.path("store.journal")), size)

    def test_files_that_may_not_be_written_are_read_from_a_copy(self):
        self.done("put", "x", given=BOOKS)
        may = os.access
        with mock.patch("os.access", lambda path, mode: not mode & os.W_OK and may(path, mode)):
            with mock.patch("xtc_client.tool.commands.Store", wraps=client.Store) as opened:
                self.assertEqual(self.done("list") + self.done("select", "x", "//title"), "x\nOne\nTwo\n")
        self.assertNotIn(mock.call(".", PROGRAM), opened.mock_calls)

    def test_a_document_of_any_length_is_put_and_got(self):
        tree = ["a", {"k": "v" * 700000, "l": "w" * 700000}, "\u20ac" * 349525, *(["b", ["c", "x" * 300000]] for _ in range(60))]
        self.done("put", "x", given=json.dumps(tree))
        self.assertGreater(len(json.dumps(tree)), 16777216)
        self.assertEqual(json.loads(self.done("get", "x")), tree)

    def test_files_are_imported_and_exported(self):
        self.write("one.json", '["a",{"k":"v"},"t"]')
        self.write("two.xml", '<?xml version="1.0" encoding="shift_jis"?><!-- c --><b>\u65e5</b>'.encode("shift_jis"))
        self.write("three.svg", '<s xmlns="u" xmlns:x="v" x:h="i"/>')
        self.write("4.json", '["a"]')
        self.write("no.json", '["a",1.5]')
        status, written, said = self.ran("import", "one.json", "two.xml", "three.svg", "4.json", "no.json", "--drop-all", "--keep-namespaces")
        self.assertEqual((status, written), (9, ""))
        for wanted in ("4.json: this is no name", "no.json: this is no element in JsonML: NotJsonMl at /1"):
            self.assertIn(wanted, said)
        self.assertEqual(self.done("list"), "one\nthree\ntwo\n")
        self.assertEqual(self.ran("import", "one.json")[0], 10)
        self.assertEqual(self.ran("import", "--replace", "one.json")[0], 0)
        self.assertEqual(self.done("export", "out", "--xml"), "3 documents\n")
        with open(self.path("out", "three.xml"), encoding="utf-8") as file:
            self.assertIn('<s x:h="i" xmlns="u" xmlns:x="v"/>', file.read())
        self.assertEqual(self.done("export", "out", "two"), "1 documents\n")
        status, _, said = self.ran("export", "out", "two")
        self.assertEqual((status, "is there already" in said), (11, True))


class Paths(WithFolder):
    def test_values_of_a_path_are_written(self):
        self.done("put", "x", given=BOOKS)
        for path, form, wanted in [
            ("//title", "--text", "One\nTwo\n"),
            ("//book/@k", "--text", "1\n2\n"),
            ("//book[2]", "--json", '["book",{"k":"2"},["title","Two"]]\n'),
            ("//book[2]/@k", "--json", '"2"\n'),
            ("//book[1]", "--xml", '<book k="1"><title>One</title></book>\n'),
            ("//book[1]/@k", "--xml", 'k="1"\n'),
            ("//title/text()", "--xml", "One\nTwo\n"),
            ("/", "--text", "OneTwo\n"),
            ("//none", "--text", ""),
        ]:
            self.assertEqual(self.done("select", "x", path, form), wanted, (path, form))

    def test_a_piece_may_have_a_prefix_that_is_declared_above(self):
        self.done("put", "x", "--keep-namespaces", given='<a xmlns="u" xmlns:p="v"><p:b/></a>')
        self.assertEqual(self.done("select", "x", "//p:b", "--xml"), "<p:b/>\n")

    def test_what_a_path_finds_is_changed(self):
        self.done("put", "x", given=BOOKS)
        for words, given, said in [
            (("set", "x", "//title", "New"), "", "2 set\n"),
            (("set", "x", "//book/@k", "3"), "", "2 set\n"),
            (("set", "x", "//book[1]/title/text()", "Old"), "", "1 set\n"),
            (("append", "x", "//book[2]"), "<price>5</price>", "1 appended\n"),
            (("delete", "x", "//book[1]/descendant-or-self::node()"), "", "3 deleted\n"),
            (("delete", "x", "/books/@n"), "", "1 deleted\n"),
        ]:
            self.assertEqual(self.done(*words, given=given), said, words)
        self.assertEqual(self.done("get", "x"), '["books",["book",{"k":"3"},["title","New"],["price","5"]]]\n')


class Stores(WithFolder):
    def test_a_store_is_counted_tested_and_copied(self):
        self.done("put", "x", given=BOOKS)
        self.assertEqual(self.done("check"), "sound: commit 1, 1 documents, 7 nodes, 3 attributes\n")
        self.assertEqual(self.done("stats").split("\n")[:4], ["documents   1", "nodes       7", "attributes  3", "commits     1"])
        self.assertEqual(self.done("backup", "copy"), self.done("check"))
        self.assertEqual(self.done("-C", "copy", "get", "x"), BOOKS + "\n")
        self.assertEqual(self.ran("backup", "copy")[0], 11)

    def test_a_store_is_compact_and_keeps_labels_and_numbers(self):
        for _ in range(3):
            self.done("replace", "x", given=json.dumps(["a", *(["b", "x" * 1000] for _ in range(40))]))
        before, found = self.done("get", "x"), self.done("select", "x", "//b[40]")
        told = next(int(line.split()[1]) for line in self.done("stats").split("\n") if line.startswith("compact"))
        size, now = map(int, self.done("compact").strip().replace(" bytes, now ", " ").split(" "))
        self.assertEqual((sum(os.path.getsize(self.path(it)) for it in ("store.journal", "store.pages")), now), (told, told))
        self.assertLess(now, size)
        self.assertEqual((self.done("get", "x"), self.done("select", "x", "//b[40]")), (before, found))
        self.assertEqual(self.done("check"), "sound: commit 4, 1 documents, 81 nodes, 0 attributes\n")
        self.assertEqual(self.done("compact"), "%d bytes, now %d\n" % (now, now))
        self.assertEqual(client.put("y", ["a"], self.folder, PROGRAM), "1.1003")

    def test_a_reader_that_wants_no_more_is_no_failure(self):
        self.done("put", "x", given=json.dumps(["a", *(["b", "text " * 10] for _ in range(3000))]))
        for tool in ([os.path.join(ROOT, "tools", "read_store")], [os.path.join(HERE, "xtc-docs"), "--program", PROGRAM, "select", "x", "//b"]):
            ran = subprocess.Popen(tool, cwd=self.folder, stdout=subprocess.PIPE, stderr=subprocess.PIPE)
            ran.stdout.readline()
            ran.stdout.close()
            self.assertEqual((ran.stderr.read(), ran.wait()), (b"", 0))
            ran.stderr.close()

    def test_what_a_call_would_ask_for_is_explained(self):
        self.done("put", "x", given='["a",["b"]]')
        wanted = '{"ok":["1.1001.1001.1001"]}\nIR node 1\nIR node 1.1001\nNR node 1.1001.1001\nLR node 1.1001.1001\n'
        self.assertEqual(self.done("explain", "children", "1.1001.1001"), wanted)
        self.assertEqual(self.done("explain", "children", "at=1.1001.1001"), wanted)


class Errors(WithFolder):
    def test_errors_say_what_to_do(self):
        self.done("put", "x", given='["a"]')
        self.write("store.other", "")
        os.mkdir(self.path("half"))
        self.write("half/store.journal", "")
        for words, given, status, wanted in [
            (("put", "x"), '["a"]', 10, "there is a document with this name"),
            (("put", "1"), '["a"]', 10, "this is no name"),
            (("get", "y"), "", 10, "there is no document with this name"),
            (("select", "x", "//b["), "", 10, "no path goes on like this\n    //b[\n        ^"),
            (("select", "x", "//b[. = 1.5]"), "", 10, "this store hasn't"),
            (("set", "x", "//b", "t"), "", 10, "finds nothing"),
            (("set", "x", "/", "t"), "", 10, "the path finds the document itself"),
            (("drop", "x", "y"), "", 10, "there is no document y"),
            (("export", "out", "y"), "", 10, "there is no document y"),
            (("put", "y"), "[1]", 9, "no element in JsonML"),
            (("put", "y"), json.dumps([5, "x" * 1100000]), 9, "no element in JsonML"),
            (("put", "y"), json.dumps(["a", {"k": "x" * 1048500, "l": 1.5}]), 9, "no element in JsonML"),
            (("put", "y"), "<a>", 9, "line 1: no XML"),
            (("put", "y"), '["a"', 9, "no JSON"),
            (("-C", "none", "list"), "", 11, "there is no folder none"),
            (("-C", "half", "list"), "", 11, "store.pages isn't there beside the other file"),
            (("explain", "chldren", "1.1001"), "", 2, "there is no call chldren"),
            (("explain", "attr", "1.1001"), "", 2, "name is missing: attr at name"),
        ]:
            with self.subTest(words):
                ran, written, said = self.ran(*words, given=given)
                self.assertEqual((ran, written), (status, ""))
                self.assertIn(wanted, said)
        self.assertEqual(self.ran("list", program="./none")[0], 2)

    def test_a_folder_without_a_store_stays_as_it_is(self):
        for command in (["list"], ["get", "x"], ["check"], ["stats"], ["compact"], ["backup", "copy"]):
            self.assertEqual(self.ran(*command)[0], 11)
        self.assertEqual(os.listdir(self.folder), [])

    def test_damage_and_another_process_are_told(self):
        self.done("put", "x", given='["a"]')
        with client.Store(self.folder, PROGRAM):
            for command in (["list"], ["check"], ["stats"], ["compact"], ["backup", "copy"]):
                status, _, said = self.ran(*command)
                self.assertEqual((status, "another process has the store" in said), (11, True), command)
        self.write("store.journal", "not a journal")
        for command in (["list"], ["check"], ["stats"], ["compact"], ["backup", "copy"]):
            status, _, said = self.ran(*command)
            self.assertEqual((status, "damaged journal at 0" in said, "copy from before" in said), (4, True, True), command)


class Prompts(WithFolder):
    def shell(self, *lines):
        """What a prompt writes for these lines."""
        written = []
        with client.Store(self.folder, PROGRAM) as store:
            shell = Shell(store, self.folder, written.append)
            for line in lines:
                shell.do(line)
            self.prompt = shell
        return written

    def test_a_wait_shows_who_holds_what(self):
        self.done("put", "x", given='["a"]')
        written = self.shell("begin", "doc x", "first $", "children $", "use 2", "begin", 'append 1.1001.1001 ["b", "two words"]', "use 1", "commit")
        self.assertEqual(written, [
            "1", '"1.1001"', '"1.1001.1001"', "[]", "1",
            "session 2 waits at node 1.1001.1001, where it asks for CX", "    session 1 holds it: doc x; first 1.1001; children 1.1001.1001", "    `use 1` and `commit` or `abort` there, or `abort` here",
            "2", 'session 2 goes on: append 1.1001.1001 ["b", "two words"]', '"1.1001.1001.1001"',
        ])

    def test_what_is_typed_is_read_as_a_call_or_refused(self):
        self.done("put", "x", given=BOOKS)
        for line, wanted in [
            ("chldren 1.1001", "? there is no call chldren"),
            ("children", "? at is missing: children at"),
            ('append 1.1001.1001 ["b"', "? no JSON: Expecting ',' delimiter: line 1 column 24 (char 23)"),
            ("node $2", "? the last answer has 0 labels"),
            ("node 1.9", "! NOT_FOUND_ERR (8): No node has this label, no document this name, or the second label is no child of the first."),
            ("find 1.1001 \"//book[title = 'Two']\"", '["1.1001.1001.1003"]'),
            ("find path=//book/@k at=1.1001", '["1.1001.1001.1001/@k","1.1001.1001.1003/@k"]'),
            ("substring 1.1001.1001.1001.1001.1001 1 two", "? count is a number, and not two"),
        ]:
            self.assertEqual(self.shell("begin", line)[1:], [wanted], line)

    def test_calls_names_and_labels_are_completed(self):
        self.done("put", "books", given=BOOKS)
        self.shell("begin", "docs", "children 1.1001.1001")
        for line, wanted in [("app", ["append", "append_data"]), ("doc b", ["books"]), ("node 1.1001.1001.1003", ["1.1001.1001.1003"]), ("explain ch", ["children"]), ("find 1.1001 ", [])]:
            self.assertEqual(self.prompt.completions(line), wanted, line)

    def test_lines_of_a_file_are_done_and_what_isnt_committed_is_dropped(self):
        status, written, _ = self.ran("shell", given="begin\ncreate x [\"a\"]\ncommit\nbegin\ndrop x\nquit\n")
        self.assertEqual((status, written), (0, '1\n"1.1001"\n1\n2\nnull\n'))
        self.assertEqual(self.done("list"), "x\n")

    def test_a_bar_says_how_far_it_is(self):
        with contextlib.redirect_stderr(io.StringIO()) as said:
            self.assertEqual(list(progress([1, 2], "work", is_shown=True)), [1, 2])
        self.assertTrue(said.getvalue().endswith("work [##############################] 2 of 2\n"))


class Words(unittest.TestCase):
    def test_man_page_and_completion_have_each_command(self):
        usage = subprocess.run([sys.executable, "-B", os.path.join(HERE, "xtc-docs"), "--help"], stdout=subprocess.PIPE, check=True).stdout.decode()
        commands = [line.split()[0] for line in usage.split("\ncommands:\n")[1].split("\n") if line.startswith("    ") and line[4] != " " and "COMMAND" not in line]
        self.assertIn("explain", commands)
        for page in ("docs/xtc-docs.1", "tools/completion.bash"):
            with open(os.path.join(ROOT, page), encoding="utf-8") as file:
                text = file.read()
            self.assertEqual([it for it in commands if it not in text], [], page)

    def test_completion_knows_commands_options_and_names(self):
        with tempfile.TemporaryDirectory() as folder:
            client.put("books", ["a"], folder, PROGRAM)
            for line, wanted in [("xtc-docs exp", "explain export"), ("xtc-docs select --", "--json --text --xml"), ("xtc-docs -C %s get " % folder, "books"), ("xtc r", "run")]:
                words = line.split(" ")
                place, typed, before, command = len(words) - 1, words[-1], words[-2], "_" + words[0].replace("-", "_")
                script = ". %s/tools/completion.bash; xtc-docs() { %s -B %s/xtc-docs --program %s \"$@\"; }; COMP_WORDS=(\"$@\"); COMP_CWORD=%d; %s %s '%s' '%s'; printf '%%s\n' \"${COMPREPLY[@]}\" | sort | xargs"
                ran = subprocess.run(["bash", "-c", script % (ROOT, sys.executable, HERE, PROGRAM, place, command, words[0], typed, before), "bash", *words], stdout=subprocess.PIPE)
                self.assertEqual(ran.stdout.decode().strip(), wanted, line)


if __name__ == "__main__":
    unittest.main()
