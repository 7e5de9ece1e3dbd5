"""Hints and slots."""

import unittest

import antientropy
from antientropy import Hint, HintCounts, Hints, Replica, SlotCounts, Slots, Version

from tests.support import lacks


@unittest.skipIf(lacks("hints_new"), "the library has no hints")
class HintsTest(unittest.TestCase):
    def setUp(self):
        self.hints = Hints()
        self.addCleanup(self.hints.close)
        self.assertEqual(self.hints.keep(2, b"cart", {1: 1}, b"milk"), 1)
        self.assertEqual(self.hints.keep(2, b"list", [(3, 1), (1, 2)], None), 2)
        self.assertEqual(self.hints.keep(3, b"cart", {1: 1}, b"milk"), 3)

    def refused(self, name, call, *args):
        before = self.state()
        with self.assertRaises(getattr(antientropy, f"{name}Error")):
            call(*args)
        self.assertEqual(self.state(), before)

    def state(self):
        return self.hints.count(), list(self.hints.pending(2)), list(self.hints.pending(3))

    def test_read(self):
        self.assertEqual(self.hints.hint(1), Hint(1, 2, b"cart", {1: 1}, b"milk"))
        self.assertEqual(self.hints.hint(2), Hint(2, 2, b"list", {1: 2, 3: 1}, None))
        self.assertEqual(self.hints.hint(2).version, Version({1: 2, 3: 1}, None))
        self.assertEqual([self.hints.next(2), self.hints.next(2, 1), self.hints.next(2, 2)], [1, 2, None])
        self.assertEqual([self.hints.next(owner) for owner in (0, 9, 65538)], [None] * 3)
        self.assertEqual([hint.number for hint in self.hints.pending(3)], [3])

    def test_deliver_and_renew(self):
        with Replica() as owner:
            owner.accept(b"cart", {1: 1}, b"milk")
            for hint in self.hints.pending(2):
                taken = owner.accept(hint.key, hint.clock, hint.value)
                self.assertEqual(taken, hint.number == 2)
                self.hints.confirm(hint.number, known=not taken)
        self.assertEqual(self.hints.count(), HintCounts(1, 2))
        self.assertEqual(self.hints.hint(1).key, b"cart")
        self.hints.renew()
        self.assertEqual(self.hints.count(), HintCounts(1, 0))
        self.assertEqual(list(self.hints.pending(3)), [Hint(4, 3, b"cart", {1: 1}, b"milk")])

    def test_count_bytes(self):
        """Delivered hints count until a renewal."""
        self.assertEqual(self.hints.count_bytes(), (8 + 10) + (4 + 20) + (8 + 10))
        self.hints.confirm(2)
        self.assertEqual(self.hints.count_bytes(), 60)
        self.hints.renew()
        self.assertEqual(self.hints.count_bytes(), 36)
        with Hints() as none:
            self.assertEqual(none.count_bytes(), 0)

    def test_no_number_names_two_hints(self):
        self.hints.confirm(1)
        self.hints.renew()
        self.assertEqual([hint.key for hint in self.hints.pending(2)], [b"list"])
        payment = self.hints.keep(2, b"payment", {1: 1}, b"")
        self.refused("UnknownHint", self.hints.confirm, 2)
        self.refused("NoVersion", self.hints.hint, 2)
        self.assertEqual(self.hints.hint(payment).key, b"payment")
        with Hints.restore(100) as restored:
            self.assertEqual(restored.keep(2, b"cart", {1: 1}, b"milk"), 100)
            self.assertEqual(restored.count(), HintCounts(1, 0))
        with self.assertRaises(antientropy.UnknownHintError):
            Hints.restore(0)

    def test_the_last_number(self):
        with Hints.restore((1 << 64) - 1) as last:
            self.assertEqual(last.keep(2, b"cart", {1: 1}, b"milk"), (1 << 64) - 1)
            for call, *args in ((last.keep, 2, b"k", {1: 1}, b""), (last.renew,)):
                with self.assertRaises(antientropy.HintsFullError):
                    call(*args)

    def test_refusals(self):
        for owner in (0, 65536, 65537, 1 << 32):
            self.refused("BadClock", self.hints.keep, owner, b"k", {1: 1}, b"")
        self.refused("BadClock", self.hints.keep, 2, b"k", {0: 1}, b"")
        self.refused("ClockFull", self.hints.keep, 2, b"k", {node: 1 for node in range(1, 34)}, b"")
        self.refused("BadKey", self.hints.keep, 2, b"", {1: 1}, b"")
        self.refused("BadValue", self.hints.keep, 2, b"k", {1: 1}, bytes(65537))
        for number in (4, (1 << 32) + 1):
            self.refused("NoVersion", self.hints.hint, number)
            self.refused("UnknownHint", self.hints.confirm, number)
        self.hints.confirm(1)
        self.refused("UnknownHint", self.hints.confirm, 1)

    def test_numbers_that_c_cannot_hold(self):
        for call, *args in (
            (self.hints.keep, -1, b"k", {}, b""), (self.hints.next, 1 << 64), (self.hints.next, 2, 1 << 64),
            (self.hints.hint, 1 << 64), (self.hints.confirm, -1), (Hints.restore, 1 << 64),
        ):
            with self.subTest(args), self.assertRaises(OverflowError):
                call(*args)

    def test_hints_full(self):
        for n in range(3, 10_000):
            self.hints.keep(4, b"k", {1: n}, b"")
        self.refused("HintsFull", self.hints.keep, 4, b"k", {1: 1}, b"")

    def test_empty(self):
        self.hints.close()
        for call, *args in (
            (self.hints.keep, 2, b"k", {}, b""), (self.hints.next, 2), (self.hints.hint, 1), (self.hints.confirm, 1),
            (self.hints.renew,), (self.hints.count,), (self.hints.count_bytes,),
        ):
            with self.subTest(call), self.assertRaises(antientropy.EmptyError):
                call(*args)


@unittest.skipIf(lacks("slots_new"), "the library has no slots")
class SlotsTest(unittest.TestCase):
    def setUp(self):
        self.slots = Slots(1, 4, 10_000)
        self.addCleanup(self.slots.close)

    def refused(self, name, call, *args):
        before = self.slots.count()
        with self.assertRaises(getattr(antientropy, f"{name}Error")):
            call(*args)
        self.assertEqual(self.slots.count(), before)

    def test_lend(self):
        for _ in range(4):
            self.slots.lend()
        self.assertEqual(self.slots.count(), SlotCounts(4, 4, 0))
        self.refused("NoSlot", self.slots.lend)
        self.slots.give_back()
        with self.slots.lent():
            self.assertEqual(self.slots.count().free, 0)
        self.assertEqual(self.slots.count(), SlotCounts(4, 3, 1))

    def test_lent_gives_back_after_an_error(self):
        with self.assertRaises(KeyError), self.slots.lent():
            raise KeyError
        self.assertEqual(self.slots.count().lent, 0)

    def test_adjust(self):
        self.assertIsNone(self.slots.adjust(500))
        self.slots.sample(1000, 50_000)
        self.assertEqual(self.slots.adjust(1000), 50_000)
        self.assertEqual(self.slots.count().target, 2)
        self.slots.sample(70_000, 100)
        self.assertEqual(self.slots.adjust(70_000), 100)
        self.assertEqual(self.slots.count().target, 3)
        self.slots.set_target(1)
        self.assertEqual(self.slots.count(), SlotCounts(1, 0, 1))

    def test_refusals(self):
        for args in ((0, 4, 1), (5, 4, 1), (1, 1025, 1)):
            self.refused("BadRing", Slots, *args)
        self.refused("NoSlot", self.slots.give_back)
        self.refused("BadRing", self.slots.set_target, 5)
        self.slots.sample(1000, 1)
        self.refused("ClockBack", self.slots.sample, 999, 1)
        self.refused("ClockBack", self.slots.adjust, 999)

    def test_numbers_that_c_cannot_hold(self):
        for call, *args in ((Slots, 1, 4, 1 << 32), (self.slots.sample, -1, 1), (self.slots.set_target, 1 << 32)):
            with self.subTest(args), self.assertRaises(OverflowError):
                call(*args)

    def test_empty(self):
        self.slots.close()
        for call, *args in (
            (self.slots.lend,), (self.slots.give_back,), (self.slots.sample, 1, 1), (self.slots.adjust, 1),
            (self.slots.set_target, 1), (self.slots.count,),
        ):
            with self.subTest(call), self.assertRaises(antientropy.EmptyError):
                call(*args)


if __name__ == "__main__":
    unittest.main()
