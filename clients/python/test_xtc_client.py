"""Tests of the client over the built program, from the repository: python3 -m unittest discover clients/python

The program is bin/xtc, which ./demo --build makes, or the one that the variable XTC names. Calls, answers and statuses are the manual's.
"""

import asyncio
import concurrent.futures
import contextlib
import io
import json
import os
import re
import shutil
import subprocess
import sys
import tempfile
import threading
import unittest

HERE = os.path.dirname(os.path.abspath(__file__))
ROOT = os.path.join(HERE, "..", "..")
PROGRAM = os.path.abspath(os.environ.get("XTC", os.path.join(ROOT, "bin", "xtc")))
sys.path.insert(0, HERE)

import two_writers  # noqa: E402
import xtc_client as client  # noqa: E402


def manual():
    with open(os.path.join(ROOT, "docs", "MANUAL.md"), encoding="utf-8") as file:
        return file.read()


def write_no_journal(path):
    with open(path, "w", encoding="ascii") as file:
        file.write("not a journal")


def lines_of_calls():
    """Each line to try of the manual's "Calls", and its answer."""
    table = manual().split("\n## Calls\n")[1].split("\n### ")[0]
    for row in re.findall(r"(?m)^\| `\w+` \|.*$", table):
        cells = [cell.strip().strip("`") for cell in row.split(" | ")]
        yield json.loads(cells[3]), json.loads(cells[4].rstrip(" |`"))


class WithStore(unittest.TestCase):
    def setUp(self):
        folder = tempfile.TemporaryDirectory()
        self.addCleanup(folder.cleanup)
        self.folder = folder.name

    def store(self):
        return client.Store(self.folder, PROGRAM)

    def shared(self, *trees):
        """A store with a document for each tree, d0, d1 and so on, and two sessions in a transaction each."""
        store = self.store()
        self.addCleanup(store.close)
        first, second = store.session(1), store.session(2)
        with first.transaction():
            for number, tree in enumerate(trees):
                first.create("d%d" % number, tree)
        first.begin()
        second.begin()
        return first, second


class Calls(WithStore):
    def test_each_call_answers_as_the_manual_says(self):
        with self.store() as store:
            session = store.session(1)
            session.begin()
            tried = set()
            for line, answer in lines_of_calls():
                keys = {key: value for key, value in line.items() if key not in ("s", "call")}
                self.assertEqual(json.loads(json.dumps(getattr(session, line["call"])(**keys))), answer, line)
                tried.add(line["call"])
            self.assertEqual(tried | {"begin", "commit", "abort"}, set(client.CALLS))
            for has_calls in (client.Session, client.Futures):
                self.assertEqual(set(client.CALLS) - set(vars(has_calls)), set())

    def test_each_refusal_is_an_exception_of_its_own(self):
        long = "x" * 1048576
        first, second = self.shared(["a", "text"])
        node, text = "1.1001.1001", "1.1001.1001.1001"
        for wanted, call in [
            (client.InTransaction, lambda: first.begin()),
            (client.DocumentExists, lambda: first.create("d0", ["a"])),
            (client.InvalidCharacterError, lambda: first.create("1", ["a"])),
            (client.NotFoundError, lambda: first.node("1.9")),
            (client.NotSupportedError, lambda: first.length(node)),
            (client.IndexSizeError, lambda: first.substring(text, 5, 1)),
            (client.HierarchyRequestError, lambda: first.append("1.1001", ["b"])),
            (client.TextLimit, lambda: (first.set_data(text, long[:700000]), first.append_data(text, long[:700000]))),
            (client.NoTransaction, lambda: (second.abort(), second.commit())),
        ]:
            with self.subTest(wanted.__name__), self.assertRaises(wanted) as caught:
                call()
            self.assertIs(client.REFUSALS[caught.exception.name], wanted)

    def test_a_bad_line_is_an_exception_with_its_reason(self):
        with self.store() as store:
            session = store.session()
            for call, kind, why, line in [
                (lambda: store.session(65).begin(), client.BadLine, "s", 1),
                (lambda: session.find("1.1001", "a["), client.BadPath, "path Syntax 2", 2),
                (lambda: session.create("x", ["a", ["1"]]), client.BadTree, "tree BadName /1/0", 3),
            ]:
                with self.subTest(why), self.assertRaises(kind) as caught:
                    call()
                self.assertEqual((caught.exception.why, caught.exception.line), (why, line))

    def test_texts_come_back_as_they_were(self):
        with self.store() as store:
            session = store.session(1)
            for text in ("", "Bücher", "\U0001f4d6 \" \\ \n\t \u2028"):
                session.begin()
                session.create("x", ["a", text])
                self.assertEqual(session.dump("1.1001"), ["a", text])
                session.abort()


class Waits(WithStore):
    def test_a_call_waits_as_a_future_and_is_answered_with_the_commit(self):
        first, second = self.shared(["a", ["b"]])
        first.children("1.1001.1001")
        call = second.futures.append("1.1001.1001", ["c"])
        with self.assertRaises(client.IsWaiting):
            second.node("1.1001.1001")
        self.assertEqual((call.done(), call.wait), (False, client.Wait("CX", [1], "node 1.1001.1001")))
        self.assertEqual(first.commit(), 2)
        self.assertEqual(call.result(10), "1.1001.1001.1003")

    def test_a_blocking_call_waits_in_its_thread(self):
        first, second = self.shared(["a"])
        first.set_attr("1.1001.1001", "k", "v")
        with concurrent.futures.ThreadPoolExecutor() as pool:
            value = pool.submit(second.attr, "1.1001.1001", "k")
            with self.assertRaises(concurrent.futures.TimeoutError):
                value.result(0.2)
            first.commit()
            self.assertEqual(value.result(10), "v")

    def test_a_call_that_waited_may_be_refused(self):
        first, second = self.shared(["a", ["b"]])
        first.remove("1.1001.1001", "1.1001.1001.1001")
        call = second.futures.node("1.1001.1001.1001")
        first.commit()
        with self.assertRaises(client.NotFoundError):
            call.result(10)

    def test_an_abort_gives_up_what_waits(self):
        first, second = self.shared(["a"])
        first.children("1.1001.1001")
        call = second.futures.append("1.1001.1001", ["c"])
        self.assertIsNone(second.abort())
        with self.assertRaises(client.Aborted):
            call.result(10)

    def test_patience_ends_and_aborts(self):
        first, second = self.shared(["a"])
        first.children("1.1001.1001")
        second.patience = 0.2
        with self.assertRaises(client.WaitedTooLong) as caught:
            second.append("1.1001.1001", ["c"])
        self.assertEqual(caught.exception.wait.by, [1])
        with self.assertRaises(client.NoTransaction):
            second.commit()

    def test_a_deadlock_shows_its_circle_and_lets_the_other_go_on(self):
        first, second = self.shared(["a"])
        first.children("1.1001.1001")
        second.children("1.1001.1001")
        call = first.futures.append("1.1001.1001", ["c"])
        with self.assertRaises(client.Deadlock) as caught:
            second.append("1.1001.1001", ["d"])
        self.assertEqual(caught.exception.cycle, [2, 1])
        self.assertEqual(call.result(10), "1.1001.1001.1001")


    def test_a_call_that_nobody_waits_for_any_more_stops_no_other(self):
        first, second = self.shared(["a"])
        first.children("1.1001.1001")
        call = second.futures.append("1.1001.1001", ["c"])

        async def give_up():
            with self.assertRaises(asyncio.TimeoutError):
                await asyncio.wait_for(asyncio.wrap_future(call), 0.1)

        asyncio.run(give_up())
        self.assertEqual((call.cancel(), call.cancelled()), (False, False))
        self.assertEqual(first.commit(), 2)
        self.assertEqual((call.result(10), first.futures.begin().result(10)), ("1.1001.1001.1001", 3))


class LongLines(WithStore):
    """The pipes hold 65,536 bytes each way, so replies and a line of more cross."""

    def test_a_long_line_crosses_long_replies_of_the_same_session(self):
        first, _second = self.shared(["a", "x" * 800000])
        replies = [first.futures.dump("1.1001") for _ in range(4)]
        with concurrent.futures.ThreadPoolExecutor() as pool:
            sent = pool.submit(first.futures.append, "1.1001.1001", ["b", "y" * 900000])
            self.assertEqual(sent.result(60).result(60), "1.1001.1001.1003")
        self.assertEqual({len(reply.result(60)[1]) for reply in replies}, {800000})

    def test_a_long_line_crosses_long_replies_of_other_threads(self):
        first, second = self.shared(["a", "x" * 300000], ["a"])
        with self.store_of(first).session(3).transaction(), concurrent.futures.ThreadPoolExecutor() as pool:
            third = self.store_of(first).session(3)
            readers = [pool.submit(lambda it: [len(it.dump("1.1001")[1]) for _ in range(6)], session) for session in (first, second)]
            writer = pool.submit(lambda: [third.append("1.1003.1001", "y" * 300000) for _ in range(6)])
            self.assertEqual([reader.result(60) for reader in readers], [[300000] * 6] * 2)
            self.assertEqual(len(writer.result(60)), 6)

    @staticmethod
    def store_of(session):
        return session.store


class Transactions(WithStore):
    def test_a_block_commits_at_its_end_and_aborts_at_an_exception(self):
        with self.store() as store:
            session = store.session(1)
            with session.transaction() as transaction:
                session.create("x", ["a"])
            self.assertEqual((transaction.ordinal, transaction.number), (1, 1))
            with self.assertRaises(KeyError), session.transaction() as transaction:
                session.create("y", ["a"])
                raise KeyError
            self.assertIsNone(transaction.number)
            with self.assertRaises(client.DocumentExists), session.transaction():
                session.create("y", ["a"])
                session.create("x", ["a"])
            self.assertEqual(session.transact(lambda it: it.docs()), [("x", "1.1001")])

    def test_a_block_is_done_again_after_a_deadlock(self):
        first, second = self.shared(["a"])
        second.abort()
        other = threading.Event()

        def read_and_append():
            for transaction in second.transactions():
                with transaction:
                    second.children("1.1001.1001")
                    other.set()
                    second.append("1.1001.1001", ["d"])
            return transaction.ordinal

        first.children("1.1001.1001")
        with concurrent.futures.ThreadPoolExecutor() as pool:
            ordinal = pool.submit(read_and_append)
            other.wait(10)
            with contextlib.suppress(client.Deadlock):
                first.append("1.1001.1001", ["c"])
                first.commit()
            self.assertIn(ordinal.result(10), (2, 3))

    def test_the_last_attempt_raises_its_deadlock(self):
        first, second = self.shared(["a"])
        second.abort()

        def work(session):
            session.children("1.1001.1001")
            call.append(first.futures.append("1.1001.1001", ["c"]))
            session.append("1.1001.1001", ["d"])

        call = []
        first.children("1.1001.1001")
        with self.assertRaises(client.Deadlock):
            second.transact(work, attempts=1)
        self.assertEqual(call[0].result(10), "1.1001.1001.1001")

    def test_two_writers_lose_nothing(self):
        with contextlib.redirect_stdout(io.StringIO()) as said:
            self.assertEqual(two_writers.main(PROGRAM, "20"), 0)
        self.assertIn("count 40, 40 books, 20 by writer 1", said.getvalue())


class Statuses(WithStore):
    def test_each_status_of_the_manual_has_its_type(self):
        rows = re.findall(r"(?m)^\| (\d+) \| *(\w*) *\|", manual().split("\n## Statuses\n")[1])
        for number, name in rows:
            if number != "0":
                self.assertEqual(client.STATUSES[int(number)].__name__, name or "NotAvailable")
        self.assertEqual({int(number) for number, _ in rows}, set(client.STATUSES))

    def test_documents_are_put_and_got(self):
        tree = ["a", {"k": "v"}, "text", ["b"]]
        self.assertEqual(client.put("x", tree, self.folder, PROGRAM), "1.1001")
        self.assertEqual(client.get("x", self.folder, PROGRAM), tree)
        for wanted, call in [
            (client.DocumentRefused, lambda: client.put("x", tree, self.folder, PROGRAM)),
            (client.DocumentRefused, lambda: client.get("y", self.folder, PROGRAM)),
            (client.NotJsonMl, lambda: client.put("y", ["a", 1.5], self.folder, PROGRAM)),
            (client.LineTooLong, lambda: client.put("y", ["a", "x" * 17000000], self.folder, PROGRAM)),
            (client.DocumentRefused, lambda: client.get("-x", self.folder, PROGRAM)),
            (client.DocumentRefused, lambda: client.query("x", "a[", self.folder, PROGRAM)),
            (client.Usage, lambda: client.Store(self.folder, PROGRAM, frames=0)),
        ]:
            with self.subTest(wanted.__name__), self.assertRaises(wanted) as caught:
                call()
            self.assertEqual(caught.exception.status, wanted.status)

    def test_an_opening_says_why_the_store_isnt_available(self):
        def without(text):
            return os.path.join(self.folder, text)

        os.mkdir(without("held"))
        os.makedirs(without("odd/store.pages"))
        with client.Store(without("held"), PROGRAM) as store:
            for folder, reason in [("held", "another process has the store, with the number %d" % store._process.pid), ("none", "there is no folder"), ("odd", "is a folder")]:
                with self.subTest(folder), self.assertRaisesRegex(client.NotAvailable, reason):
                    client.Store(without(folder), PROGRAM)

    def test_an_opening_raises_the_status(self):
        for wanted, name, made in [
            (client.Damaged, "store.journal", write_no_journal),
            (client.DiskFault, "store.journal", lambda path: os.symlink("/dev/full", path)),
        ]:
            with self.subTest(wanted.__name__), tempfile.TemporaryDirectory() as folder, self.assertRaises(wanted):
                made(os.path.join(folder, name))
                client.Store(folder, PROGRAM)

    def test_an_interrupt_at_the_terminal_doesnt_end_the_program(self):
        script = "import signal, sys, os, xtc_client\nwith xtc_client.Store(*sys.argv[1:]) as store, store.session() as session:\n    signal.signal(signal.SIGINT, lambda *_: None)\n    os.killpg(0, signal.SIGINT)\n    print(session.begin())"
        ran = subprocess.run([sys.executable, "-B", "-c", script, self.folder, PROGRAM], cwd=HERE, stdout=subprocess.PIPE, start_new_session=True)
        self.assertEqual((ran.returncode, ran.stdout), (0, b"1\n"))

    def test_a_program_that_isnt_xtc_is_an_end(self):
        with self.assertRaisesRegex(client.Ended, "no reply of xtc"):
            client.Store(self.folder, shutil.which("yes"))

    def test_a_program_that_is_killed_is_told_to_every_call(self):
        store = self.store()
        first, second = store.session(1), store.session(2)
        first.begin()
        first.create("x", ["a"])
        second.begin()
        call = second.futures.docs()
        while call.wait is None:
            self.assertFalse(call.done())
        store._process.kill()
        for told in (call.result, first.commit, store.close):
            with self.assertRaises(client.Ended) as caught:
                told()
            self.assertEqual(caught.exception.status, -9)

    def test_a_line_that_is_too_long_isnt_sent(self):
        with self.store() as store, store.session() as session:
            with session.transaction() as transaction:
                with self.assertRaises(client.LineLimit):
                    session.create("x", ["a", "x" * 1048576])
                session.create("y")
            self.assertEqual(transaction.number, 1)

    def test_nothing_is_done_behind_close(self):
        store = self.store()
        session = store.session()
        session.begin()
        store.close()
        store.close()
        for call in (session.docs, session.futures.docs):
            with self.assertRaises(client.Closed):
                call()
        session.close()


class Sessions(WithStore):
    def test_a_free_number_is_taken_and_given_back(self):
        with self.store() as store:
            with store.session() as first, store.session() as second:
                self.assertEqual((first.number, second.number, store.session(3).number, store.session().number), (1, 2, 3, 4))
            self.assertEqual(store.session().number, 1)
            rest = [store.session() for _ in range(61)]
            self.assertEqual((rest[0].number, rest[-1].number), (2, 64))
            with self.assertRaises(client.NoSession):
                store.session()

    def test_what_is_given_back_holds_nothing(self):
        first, second = self.shared(["a"])
        first.set_attr("1.1001.1001", "k", "v")
        with second.store.session() as third, concurrent.futures.ThreadPoolExecutor() as pool:
            third.begin()
            value = pool.submit(third.attr, "1.1001.1001", "k")
            first.close()
            self.assertEqual(value.result(10), "")
        first.begin()
        self.assertEqual(first.attr("1.1001.1001", "k"), "")


class Options(WithStore):
    def test_a_checkpoint_is_made_and_frames_change_nothing(self):
        with client.Store(self.folder, PROGRAM, checkpoint=1, frames=1) as store, store.session() as session:
            with session.transaction():
                session.create("x", ["a"])
        self.assertEqual(os.path.getsize(os.path.join(self.folder, "store.pages")), 24576)
        self.assertEqual(client.get("x", self.folder, PROGRAM), ["a"])

    def test_a_trace_is_drawn_by_timeline(self):
        trace = os.path.join(self.folder, "trace")
        with client.Store(self.folder, PROGRAM, trace=trace) as store:
            first, second = store.session(), store.session()
            with first.transaction():
                first.create("x", ["a"])
            first.begin()
            second.begin()
            first.children("1.1001.1001")
            call = second.futures.append("1.1001.1001", ["c"])
            first.commit()
            call.result(10)
        with tempfile.TemporaryDirectory() as beside, open(trace + ".script", "rb") as script, open(trace + ".replies", "rb") as replies:
            self.assertEqual(subprocess.run([PROGRAM, "run"], cwd=beside, stdin=script, stdout=subprocess.PIPE).stdout, replies.read())
        for words, sessions, waits in [((), 2, True), (("--lines", "1-5"), 2, False), (("--lines", "6-99"), 2, True), (("--sessions", "1"), 1, False)]:
            timeline = [os.path.join(ROOT, "tools", "timeline"), trace + ".script", trace + ".replies", *words]
            drawn = subprocess.run(timeline, stdout=subprocess.PIPE, check=True).stdout.decode()
            self.assertEqual((drawn.count(">session "), "waits for 1<" in drawn), (sessions, waits), words)


class Values(unittest.TestCase):
    def test_labels_say_what_they_name(self):
        for text, node, attribute, parent in [
            ("1.1001", "1.1001", None, None),
            ("1.1001.1002.1001", "1.1001.1002.1001", None, "1.1001"),
            ("1.1001.1001.1002.2.999", "1.1001.1001.1002.2.999", None, "1.1001.1001"),
            ("1.1001.1001/@x:k", "1.1001.1001", "x:k", "1.1001.1001"),
        ]:
            label = client.Label(text)
            self.assertEqual((label, label.node, label.attribute, label.parent), (text, node, attribute, parent))
        in_order = ["1.1001", "1.1001.1001", "1.1001.1001.1003", "1.1001.1002.1001", "1.1001.1003", "1.1003"]
        self.assertEqual(sorted(map(client.Label, reversed(in_order)), key=lambda it: it.divisions), in_order)

    def test_elements_are_taken_apart_and_put_together(self):
        for tree, parts in [(["a"], ("a", {}, [])), (["a", {"k": "v"}, "t", ["b"]], ("a", {"k": "v"}, ["t", ["b"]])), (["a", "t"], ("a", {}, ["t"]))]:
            element = client.Element.of(tree)
            self.assertEqual((element.name, element.attributes, element.children, element.tree), (*parts, tree))
        for no_element in ("a", [], [["a"]], None):
            with self.assertRaises(TypeError):
                client.Element.of(no_element)

    def test_bad_paths_and_trees_say_where(self):
        self.assertEqual([(it.word, it.place) for it in (client.BadPath("path Syntax 6", 1), client.BadPath("path", 1))], [("Syntax", 6), (None, None)])
        self.assertEqual([(it.rule, it.place) for it in (client.BadTree("tree BadName /1/0", 1), client.BadTree("tree", 1))], [("BadName", "/1/0"), (None, "")])


class Typing(unittest.TestCase):
    @unittest.skipUnless(shutil.which("mypy"), "mypy isn't there")
    def test_mypy_finds_nothing_by_its_strict_rules(self):
        ran = subprocess.run(["mypy", "--cache-dir", os.devnull], cwd=HERE, stdout=subprocess.PIPE)
        self.assertEqual(ran.returncode, 0, ran.stdout.decode())


if __name__ == "__main__":
    unittest.main()
