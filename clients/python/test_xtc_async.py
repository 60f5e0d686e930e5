"""Tests of the client for asyncio over the built program, which is found as by test_xtc_client."""

import asyncio
import os
import shutil
import sys
import tempfile
import unittest

HERE = os.path.dirname(os.path.abspath(__file__))
ROOT = os.path.join(HERE, "..", "..")
PROGRAM = os.path.abspath(os.environ.get("XTC", os.path.join(ROOT, "bin", "xtc")))
sys.path.insert(0, HERE)

import xtc_client as client  # noqa: E402

ELEMENT = "1.1001.1001"


class WithStore(unittest.IsolatedAsyncioTestCase):
    def setUp(self):
        folder = tempfile.TemporaryDirectory()
        self.addCleanup(folder.cleanup)
        self.folder = folder.name

    def store(self, **options):
        return client.AsyncStore(self.folder, PROGRAM, **options)

    async def shared(self, *trees):
        """A store with a document for each tree, d0, d1 and so on, and two sessions."""
        store = self.store()
        await store.open()
        self.addAsyncCleanup(store.close)
        first, second = store.session(), store.session()
        async with first.transaction():
            for number, tree in enumerate(trees):
                await first.create("d%d" % number, tree)
        return first, second


class Calls(WithStore):
    async def test_calls_are_awaited_one_by_one_or_together(self):
        self.assertEqual(set(client.CALLS) - set(vars(client.AsyncSession)), set())
        async with self.store(checkpoint=1) as store, store.session() as session:
            async with session.transaction() as transaction:
                label = await session.create("x", ["a", {"k": "v"}, "t"])
                values = await asyncio.gather(session.attr(ELEMENT, "k"), session.text_content(ELEMENT), session.dump(label))
            self.assertEqual((label, values, transaction.number), ("1.1001", ["v", "t", ["a", {"k": "v"}, "t"]], 1))
            async with session.reading():
                self.assertEqual(await session.docs(), [("x", "1.1001")])
        self.assertEqual(client.get("x", self.folder, PROGRAM), ["a", {"k": "v"}, "t"])

    async def test_a_block_that_fails_is_aborted(self):
        async with self.store() as store, store.session() as session:
            with self.assertRaises(client.DocumentExists):
                async with session.transaction():
                    await session.create("x", ["a"])
                    await session.create("x", ["a"])
            self.assertEqual(await session.transact(lambda it: it.docs()), [])

    async def test_a_long_line_crosses_long_replies(self):
        first, _ = await self.shared(["a", "x" * 800000])
        async with first.transaction():
            replies = [first.dump("1.1001") for _ in range(4)]
            self.assertEqual(await first.append(ELEMENT, ["b", "y" * 900000]), "1.1001.1001.1003")
            self.assertEqual({len((await reply)[1]) for reply in replies}, {800000})


class Cancelling(WithStore):
    async def test_a_call_that_waits_is_given_up_with_its_transaction(self):
        first, second = await self.shared(["a"])
        await first.begin()
        await first.children(ELEMENT)
        with self.assertRaises(asyncio.TimeoutError):
            async with second.transaction():
                await asyncio.wait_for(second.append(ELEMENT, ["c"]), 0.1)
        self.assertEqual(await first.commit(), 2)
        async with second.transaction():
            self.assertEqual(await second.append(ELEMENT, ["d"]), "1.1001.1001.1001")

    async def test_an_answer_that_nobody_awaits_any_more_stops_no_other(self):
        first, second = await self.shared(["a"])
        await first.begin()
        await first.children(ELEMENT)
        await second.begin()
        call = second.append(ELEMENT, ["c"])
        await asyncio.sleep(0.05)
        call.cancel()
        await first.commit()
        self.assertEqual(await second.children(ELEMENT), ["1.1001.1001.1001"])
        self.assertEqual(await second.commit(), 3)

    async def test_a_task_may_be_cancelled_at_any_moment(self):
        first, second = await self.shared(["a"])

        async def work(session):
            async for transaction in session.transactions():
                async with transaction:
                    await session.set_attr(ELEMENT, "k", str(len(await session.children(ELEMENT))))
                    await session.append(ELEMENT, ["b"])

        for turn in range(60):
            tasks = [asyncio.create_task(work(session)) for session in (first, second)]
            await asyncio.sleep(turn % 20 * 0.0005)
            for task in tasks:
                task.cancel()
            await asyncio.gather(*tasks, return_exceptions=True)
        await work(first)
        attributes, children = await first.transact(lambda it: asyncio.gather(it.attrs(ELEMENT), it.children(ELEMENT)))
        self.assertEqual(attributes, {"k": str(len(children) - 1)})


class Deadlocks(WithStore):
    async def test_a_block_is_done_again_after_a_deadlock(self):
        first, second = await self.shared(["a"])

        async def add(session):
            count = len(await session.children(ELEMENT))
            await asyncio.sleep(0.01)
            await session.append(ELEMENT, ["b", {"n": str(count)}])

        await asyncio.gather(*(it.transact(add) for it in (first, second)))
        tree = await first.transact(lambda it: it.dump(ELEMENT))
        self.assertEqual(tree, ["a", ["b", {"n": "0"}], ["b", {"n": "1"}]])


class Ends(WithStore):
    async def test_an_opening_raises_the_status(self):
        async with self.store():
            with self.assertRaisesRegex(client.NotAvailable, "another process"):
                await self.store().open()
        with self.assertRaisesRegex(client.NotAvailable, "there is no folder"):
            await client.AsyncStore(os.path.join(self.folder, "none"), PROGRAM).open()
        with self.assertRaises(client.Usage):
            await self.store(frames=0).open()
        with self.assertRaisesRegex(client.Ended, "no reply of xtc"):
            await client.AsyncStore(self.folder, shutil.which("yes")).open()

    async def test_nothing_is_done_behind_close(self):
        async with self.store() as store:
            session = store.session()
            await session.begin()
        with self.assertRaises(client.Closed):
            await session.docs()
        await session.close()

    async def test_a_program_that_is_killed_is_told_to_every_call(self):
        store = self.store()
        await store.open()
        first, second = store.session(), store.session()
        await asyncio.gather(first.begin(), first.create("x", ["a"]), second.begin())
        call = second.docs()
        await asyncio.sleep(0.05)
        store._process.kill()
        for told in (call, first.commit()):
            with self.assertRaises(client.Ended):
                await told
        with self.assertRaises(client.Ended) as caught:
            await store.close()
        self.assertEqual(caught.exception.status, -9)


if __name__ == "__main__":
    unittest.main()
