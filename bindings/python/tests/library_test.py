"""Loading of the library, refusals as classes, and handles that nobody closed."""

import copy
import gc
import os
import pickle
import unittest

import antientropy
from antientropy import Hints, AntientropyError, Replica, Slots
from antientropy._library import current

from tests.support import run

LIBRARY = os.environ["ANTIENTROPY_LIBRARY"]


class LibraryTest(unittest.TestCase):
    def test_version(self):
        self.assertEqual(len(antientropy.version()), 3)

    def test_load_library(self):
        code = "import os, sys; os.environ['ANTIENTROPY_LIBRARY'] = '/none'; import antientropy; " \
               "antientropy.load_library(sys.argv[1]); " \
               "print(antientropy.version()[0], antientropy.BadKeyError.__name__)"
        self.assertEqual(run("-c", code, LIBRARY), "2 BadKeyError\n")

    def test_no_library(self):
        code = "import os; os.environ['ANTIENTROPY_LIBRARY'] = '/none'; import antientropy; antientropy.Replica()"
        self.assertIn("call antientropy.load_library(path), or set ANTIENTROPY_LIBRARY", run("-c", code))

    def test_another_library_is_refused(self):
        with self.assertRaises((OSError, AttributeError)):
            antientropy.load_library("libc.so.6")
        self.assertEqual(antientropy.version()[0], 2)

    def test_a_missing_call_fails_at_its_use(self):
        with self.assertRaises(AttributeError):
            current().no_such_call

    def test_refusals_by_pickle(self):
        error = pickle.loads(pickle.dumps(antientropy.CrowdedError("put", 7, "Crowded")))
        self.assertIs(type(error), antientropy.CrowdedError)
        self.assertEqual((error.call, error.number, error.name), ("put", 7, "Crowded"))

    def test_a_handle_is_not_copied(self):
        with Replica() as replica, replica.snapshot() as snapshot:
            for handle in (replica, snapshot, Hints(), Slots(1, 1, 1)):
                for call in (copy.copy, copy.deepcopy, pickle.dumps):
                    with self.assertRaisesRegex(TypeError, "can't be copied or pickled"):
                        call(handle)
            gc.collect()
            self.assertEqual((replica.count().entries, snapshot.root()), (0, replica.root()))

    def test_unknown_number(self):
        error = current().refusal("put", 250)
        self.assertEqual((type(error), error.number, error.name), (AntientropyError, 250, ""))

    def test_each_public_item_has_a_docstring(self):
        for name in antientropy.__all__:
            item = getattr(antientropy, name)
            if name not in ("Clock", "ClockLike"):
                self.assertTrue(item.__doc__, name)
            for member, value in vars(item).items() if isinstance(item, type) else ():
                if not member.startswith("_") and (callable(value) or isinstance(value, property)):
                    self.assertTrue(value.__doc__, f"{name}.{member}")

    def test_dropped_handles_are_freed(self):
        replica = Replica()
        handle, snapshot = replica._struct, replica.snapshot()
        del replica
        gc.collect()
        self.assertFalse(handle.held)
        self.assertEqual(len(snapshot.root()), 32)

    def test_cycles_are_freed(self):
        partner, replica = Replica(), Replica()
        partner.put(1, b"cart", b"milk")
        exchange = replica.exchange(1, partner.snapshot().offer(1))
        handles = replica._struct, exchange._struct
        replica.exchange = exchange
        del replica, exchange
        gc.collect()
        self.assertEqual([handle.held for handle in handles], [False, False])


if __name__ == "__main__":
    unittest.main()
