"""Tests of xtc_fleet over the built program, on a cluster of this machine; none where `distributed` isn't there."""

import contextlib
import logging
import os
import signal
import sys
import tempfile
import unittest

HERE = os.path.dirname(os.path.abspath(__file__))
PROGRAM = os.path.abspath(os.environ.get("XTC", os.path.join(HERE, "..", "..", "bin", "xtc")))
sys.path.insert(0, HERE)

try:
    import dask
    from distributed import Client, LocalCluster

    import xtc_fleet
except ImportError:
    dask = None

STORES = 3


def first_of(name):
    """A function for `transact`: the label of a document's element."""
    return lambda session: session.first(session.doc(name))


@unittest.skipIf(dask is None, "distributed isn't there")
class Stores(unittest.TestCase):
    def setUp(self):
        dask.config.set({"distributed.comm.timeouts.connect": "3s"})
        stack = contextlib.ExitStack()
        self.addCleanup(stack.close)
        folder = stack.enter_context(tempfile.TemporaryDirectory())
        local = stack.enter_context(LocalCluster(n_workers=2, threads_per_worker=1, dashboard_address=None, silence_logs=logging.CRITICAL))
        self.cluster = stack.enter_context(Client(local))
        self.open = lambda stores=STORES: xtc_fleet.Fleet(self.cluster, os.path.join(folder, "fleet"), stores, program=PROGRAM)

    def test_documents_are_put_replaced_found_and_there_again(self):
        documents = [("d%d" % number, ["a", {"k": str(number)}, ["b", "t%d" % number]]) for number in range(20)]
        with self.open() as fleet:
            self.assertEqual(fleet.put_all(documents), 20)
            fleet.put("d3", ["a", "other"])
            self.assertEqual(fleet.get("d3"), ["a", "other"])
            self.assertEqual(fleet.transact("d4", first_of("d4"))[-5:], ".1001")
            self.assertRaises(KeyError, fleet.get, "none")
        with self.open(stores=9) as fleet:  # it has as many stores as it was made with
            self.assertEqual(fleet.stores, STORES)
            self.assertEqual(fleet.names(), sorted(name for name, _ in documents))
            self.assertEqual(fleet.get_all(["d1", "none", "d2"]), dict(documents[1:3]))
            self.assertEqual(fleet.select("/a[@k < 2]/b"), {"d0": [["b", "t0"]], "d1": [["b", "t1"]]})
            self.assertEqual(fleet.select("//@k")["d19"], ["19"])

    def test_what_was_answered_is_there_behind_the_loss_of_a_worker(self):
        with self.open() as fleet:
            fleet.put_all(("d%d" % number, ["a", str(number)]) for number in range(30))
            os.kill(min(self.cluster.run(os.getpid).values()), signal.SIGKILL)
            fleet.put_all(("d%d" % number, ["a", str(number)]) for number in range(30, 60))
            self.assertEqual(fleet.get_all("d%d" % number for number in range(60)), {"d%d" % number: ["a", str(number)] for number in range(60)})

    def test_a_large_document_is_placed_in_parts(self):
        large = ["a", *(["b", "x" * 100_000] for _ in range(20))]
        with self.open() as fleet:
            fleet.put("large", large)
            self.assertEqual(fleet.get("large"), large)


if __name__ == "__main__":
    unittest.main()
