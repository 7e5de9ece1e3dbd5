"""Each rule of the judge: a log that breaks it, and one that nearly does."""

import unittest

from .written import Run, delete, event, get, put, refused

REST = "run came to rest"
HELD = "acknowledged puts are held"
NAMED = "named places hold puts"
PUT = "held values were put"
DEFINITE = "refusals are definite"
CLOCKS = "clocks differ"
ONE = "versions have one clock"
COVERS = "clocks cover what was read"
GONE = "overwritten versions are gone"
BACK = "nothing comes back"
EQUAL = "replicas are equal"
LIVES = "lives are used once"
ENDED = "lives end with a loss"
LOST = "lost lives put nothing"
ENDS = "nodes end when they are ended"
EXPECTED = "what was expected held"
SLOTS = "background work has slots"
TWO = "puts are on two nodes"
READS = "reads see what was acknowledged"

MILK, EGGS, TEA = ("milk", "33:1"), ("eggs", "34:1"), ("tea", "33:1,34:1,35:1")
#: The put of a client that has read MILK
MORE = ("more", "33:1,34:1")


class JudgeCase(unittest.TestCase):
    def assert_broken(self, run, *rules):
        self.assertEqual(run.broken(), list(rules))


class Held(JudgeCase):
    def test_a_put_that_all_hold(self):
        self.assert_broken(Run(put(*MILK), everywhere=[MILK]))

    def test_a_put_that_nobody_holds(self):
        self.assert_broken(Run(put(*MILK)), HELD)

    def test_a_put_that_one_replica_lacks(self):
        self.assert_broken(Run(put(*MILK), everywhere=[MILK], at={3: []}), HELD, EQUAL)

    def test_a_put_that_was_overwritten(self):
        clients = put(*MILK), put("eggs", "33:1,34:1", read=["milk"], t=3.0)
        self.assert_broken(Run(*clients, everywhere=[("eggs", "33:1,34:1")]))

    def test_a_put_that_was_overwritten_unread(self):
        clients = put(*MILK), put("eggs", "33:1,34:1", t=3.0)
        self.assert_broken(Run(*clients, everywhere=[("eggs", "33:1,34:1")]), HELD)

    def test_a_put_that_was_overwritten_by_one_that_was_overwritten(self):
        clients = put(*MILK), put("eggs", "33:2", read=["milk"], t=3.0), put("tea", "33:3", read=["eggs"], t=5.0)
        self.assert_broken(Run(*clients, everywhere=[("tea", "33:3")]))

    def test_a_put_whose_overwriter_is_lost_too(self):
        clients = put(*MILK), put("eggs", "33:2", read=["milk"], t=3.0), put("tea", "34:1", t=5.0)
        self.assert_broken(Run(*clients, everywhere=[("tea", "34:1")]), HELD)

    def test_siblings_that_a_put_merged(self):
        clients = put(*MILK), put(*EGGS), put(*TEA, read=["milk", "eggs"], t=3.0)
        self.assert_broken(Run(*clients, everywhere=[TEA]))

    def test_siblings_of_which_a_put_merged_one(self):
        clients = put(*MILK), put(*EGGS), put(*TEA, read=["milk"], t=3.0)
        self.assert_broken(Run(*clients, everywhere=[TEA]), HELD)

    def test_a_put_that_was_not_acknowledged_and_is_lost(self):
        self.assert_broken(Run(put("milk", None), put("eggs", None, status=503)))

    def test_a_put_that_was_not_acknowledged_and_is_held(self):
        self.assert_broken(Run(put("milk", None), everywhere=[MILK]))

    def test_a_put_that_was_refused_by_too_few_nodes_and_is_held(self):
        self.assert_broken(Run(put("milk", None, status=503), everywhere=[MILK]))

    def test_a_put_that_was_not_acknowledged_overwrites(self):
        clients = put(*MILK), put("eggs", None, read=["milk"], t=3.0)
        self.assert_broken(Run(*clients, everywhere=[("eggs", "33:2")]))

    def test_a_put_that_was_not_acknowledged_and_is_lost_overwrites_nothing(self):
        clients = put(*MILK), put("eggs", None, read=["milk"], t=3.0)
        self.assert_broken(Run(*clients), HELD)


class Tombstones(JudgeCase):
    def test_a_tombstone_overwrites_what_its_client_read(self):
        clients = put(*MILK), delete("33:2", read=["milk"], t=3.0)
        self.assert_broken(Run(*clients, everywhere=[("tombstone", "33:2")]))

    def test_a_tombstone_must_be_held(self):
        clients = put(*MILK), delete("33:2", read=["milk"], t=3.0)
        self.assert_broken(Run(*clients, everywhere=[MILK]), HELD)

    def test_a_tombstone_that_a_put_overwrote(self):
        clients = delete("33:1"), put("milk", "33:2", read=["tombstone 33:1"], t=3.0)
        self.assert_broken(Run(*clients, everywhere=[("milk", "33:2")]))

    def test_a_tombstone_of_an_unread_value(self):
        clients = put(*MILK), delete("33:2", t=3.0)
        self.assert_broken(Run(*clients, everywhere=[("tombstone", "33:2")]), HELD)

    def test_the_tombstone_of_an_unanswered_delete(self):
        clients = put(*MILK), delete(None, read=["milk"], t=3.0)
        self.assert_broken(Run(*clients, everywhere=[("tombstone", "33:2")]))

    def test_a_tombstone_that_was_read_is_not_of_a_later_delete(self):
        tombstone = ("tombstone 34:1", "34:1")
        clients = delete(None), get(tombstone, t=2.0), put(*MILK, t=3.0), delete(None, read=["milk"], t=5.0)
        self.assert_broken(Run(*clients, everywhere=[("tombstone", "34:1")]), HELD)

    def test_what_an_unanswered_delete_overwrote(self):
        tombstone, tea = ("tombstone 33:3", "33:3"), ("tea", "33:4")
        clients = put("bread", "33:1", t=0.1), put("milk", "33:2", read=["bread"]), delete(None, read=["milk"], t=2.0)
        clients += get(tombstone, t=3.0), put(*tea, read=["tombstone 33:3"], t=4.0)
        self.assert_broken(Run(*clients, everywhere=[tea]))

    def test_a_tombstone_is_not_of_a_delete_that_was_refused(self):
        clients = put(*MILK), delete(None, read=["milk"], t=3.0, status=409), delete(None, t=4.0)
        self.assert_broken(Run(*clients, everywhere=[("tombstone", "33:2")]), HELD)

    def test_a_tombstone_that_nobody_put(self):
        self.assert_broken(Run(put(*MILK), everywhere=[MILK, ("tombstone", "34:1")]), PUT)

    def test_a_delete_that_was_done_twice(self):
        twice = [("tombstone", "33:1"), ("tombstone", "34:1")]
        self.assert_broken(Run(delete("33:1"), everywhere=twice), PUT)
        self.assert_broken(Run(delete(None), everywhere=twice), PUT)
        self.assert_broken(Run(delete(None), delete(None), everywhere=twice))


class Put(JudgeCase):
    def test_a_value_that_nobody_put(self):
        self.assert_broken(Run(everywhere=[MILK]), PUT)

    def test_a_value_of_another_key(self):
        clients = put(*MILK), put("eggs", None, key="l")
        self.assert_broken(Run(*clients, everywhere=[MILK, EGGS]), PUT)

    def test_a_value_that_a_read_alone_showed(self):
        self.assert_broken(Run(get(MILK)), PUT)


class Definite(JudgeCase):
    def test_a_value_that_was_refused(self):
        clients = put(*MILK), put("eggs", None, status=409)
        self.assert_broken(Run(*clients, everywhere=[MILK, EGGS]), DEFINITE)

    def test_a_value_that_was_refused_by_a_name(self):
        client = refused(put("milk", None), "Down", place=0)
        self.assert_broken(Run(client, everywhere=[MILK]), DEFINITE)
        self.assert_broken(Run({**client, "perhaps": True}, everywhere=[MILK]))

    def test_a_value_that_was_refused_and_shown(self):
        self.assert_broken(Run(put("milk", None, status=400), get(MILK)), DEFINITE)

    def test_a_delete_that_was_refused(self):
        client = refused(delete(None), "Down", place=0)
        self.assert_broken(Run(client, everywhere=[("tombstone", "33:1")]), PUT)


class Clocks(JudgeCase):
    def test_two_values_with_one_clock(self):
        clients = put("milk", "33:1", status=200), put("eggs", "33:1", read=["milk"], t=3.0)
        self.assert_broken(Run(*clients, everywhere=[("eggs", "33:1")]), CLOCKS)

    def test_two_values_with_one_clock_on_two_disks(self):
        clients = put("milk", None), put("eggs", None)
        run = Run(*clients, everywhere=[MILK], at={2: [("eggs", "33:1")]})
        self.assert_broken(run, CLOCKS, EQUAL)

    def test_a_value_and_a_tombstone_with_one_clock(self):
        clients = put(*MILK), delete("33:1", read=["milk"], t=3.0)
        self.assert_broken(Run(*clients, everywhere=[("tombstone", "33:1")]), CLOCKS)

    def test_one_clock_in_another_order(self):
        clients = put("milk", "34:1,33:1"), put("eggs", "33:1,34:1", read=["milk"], t=3.0)
        self.assert_broken(Run(*clients, everywhere=[("eggs", "33:1,34:1")]), CLOCKS)

    def test_one_clock_of_two_keys(self):
        clients = put(*MILK), put("eggs", None, key="l"), get(("eggs", "33:1"), key="l")
        self.assert_broken(Run(*clients, everywhere=[MILK]))

    def test_two_deletes_with_one_clock(self):
        clients = delete("33:1"), delete("33:1", t=3.0)
        self.assert_broken(Run(*clients, everywhere=[("tombstone", "33:1")]), CLOCKS)


class One(JudgeCase):
    def test_a_value_with_two_clocks(self):
        self.assert_broken(Run(put(*MILK), everywhere=[MILK, ("milk", "34:1")]), ONE)

    def test_a_value_that_was_read_with_another_clock(self):
        self.assert_broken(Run(put(*MILK), get(("milk", "34:1")), everywhere=[MILK]), ONE)

    def test_a_clock_in_another_order(self):
        self.assert_broken(Run(put("milk", "34:1,33:1"), everywhere=[("milk", "33:1,34:1")]))


class Covers(JudgeCase):
    def test_a_clock_that_covers_what_was_read(self):
        self.assert_broken(Run(put(*MILK), put(*MORE, read=["milk"], t=3.0), everywhere=[MORE]))

    def test_a_clock_that_does_not(self):
        clients = put(*MILK), put(*EGGS, read=["milk"], t=3.0)
        self.assert_broken(Run(*clients, everywhere=[EGGS]), COVERS)

    def test_a_clock_that_covers_one_of_two_siblings(self):
        clients = put(*MILK), put(*EGGS), put("tea", "34:2", read=["milk", "eggs"], t=3.0)
        self.assert_broken(Run(*clients, everywhere=[("tea", "34:2")]), COVERS)

    def test_a_clock_that_does_not_cover_a_tombstone(self):
        clients = delete("33:1"), put(*EGGS, read=["tombstone 33:1"], t=3.0)
        self.assert_broken(Run(*clients, everywhere=[EGGS]), COVERS)

    def test_a_put_that_nobody_saw(self):
        self.assert_broken(Run(put(*MILK), put("eggs", None, read=["milk"], t=3.0), everywhere=[MILK]))


class Gone(JudgeCase):
    def test_a_get_of_siblings(self):
        self.assert_broken(Run(put(*MILK), put(*EGGS), get(MILK, EGGS), everywhere=[MILK, EGGS]))

    def test_a_get_of_a_version_and_one_that_overwrote_it(self):
        clients = put(*MILK), put(*MORE, read=["milk"]), get(MILK, MORE)
        self.assert_broken(Run(*clients, everywhere=[MORE]), GONE)

    def test_a_row_with_a_version_and_one_that_overwrote_it(self):
        clients = put(*MILK), put(*MORE, read=["milk"])
        self.assert_broken(Run(*clients, everywhere=[MILK, MORE]), GONE)
        self.assert_broken(Run(*clients, everywhere=[MORE], alone={1: [MILK, MORE]}), GONE)

    def test_a_version_beside_what_overwrote_one_that_overwrote_it(self):
        last = ("last", "33:1,34:2")
        clients = put(*MILK), put(*MORE, read=["milk"], t=1.2), put(*last, read=["more"], t=3.0)
        self.assert_broken(Run(*clients, everywhere=[MILK, last]), GONE)

    def test_a_value_beside_the_tombstone_that_overwrote_it(self):
        clients = put(*MILK), delete("33:2", read=["milk"])
        self.assert_broken(Run(*clients, everywhere=[MILK, ("tombstone", "33:2")]), GONE)

    def test_a_value_beside_a_tombstone_that_may_be_of_another_delete(self):
        clients = put(*MILK), delete(None, read=["milk"]), delete(None)
        self.assert_broken(Run(*clients, everywhere=[MILK, ("tombstone", "34:1")]))


class Back(JudgeCase):
    """Place 1 shows that `milk` was overwritten or deleted, and later shows `milk` again."""

    first = put(*MILK), put("more", None, read=["milk"]), get(MORE, t=2.0)

    def test_a_value_that_comes_back(self):
        self.assert_broken(Run(*self.first, get(MILK, t=3.0), everywhere=[MORE]), BACK)

    def test_a_deleted_value_that_comes_back(self):
        tombstone = ("tombstone 33:2", "33:2")
        clients = put(*MILK), delete(None, read=["milk"]), get(tombstone, t=2.0), get(MILK, t=3.0)
        self.assert_broken(Run(*clients, everywhere=[("tombstone", "33:2")]), BACK)

    def test_a_value_that_comes_back_in_the_end(self):
        self.assert_broken(Run(*self.first, everywhere=[MILK]), BACK)
        self.assert_broken(Run(*self.first, everywhere=[MORE], alone={1: [MILK]}), BACK)

    def test_a_value_that_another_place_shows(self):
        self.assert_broken(Run(*self.first, get(MILK, t=3.0, by=2), everywhere=[MORE]))

    def test_a_value_that_was_shown_meanwhile(self):
        self.assert_broken(Run(*self.first, get(MILK, t=2.2), everywhere=[MORE]))

    def test_a_value_that_comes_back_after_a_loss(self):
        events = event("damage", 2.7, place=1, life=33), event("life", 2.9, place=1, life=65)
        run = Run(*self.first, get(MILK, t=3.0), everywhere=[MORE], events=events)
        run.dumps[1]["life"] = 65
        self.assert_broken(run)

    def test_a_value_that_was_overwritten_where_a_disk_was_full(self):
        events = event("full", 1.5, place=1), event("free", 2.2, place=1)
        self.assert_broken(Run(*self.first, get(MILK, t=3.0), everywhere=[MORE], events=events))


class Named(JudgeCase):
    """Place 1 is killed at the time 4, and is dumped while cut off."""

    def test_a_put_that_is_held(self):
        self.assert_broken(Run(put(*MILK), everywhere=[MILK], alone={1: [MILK]}))

    def test_a_put_that_is_not_held(self):
        self.assert_broken(Run(put(*MILK), everywhere=[MILK], alone={1: []}), NAMED)

    def test_a_put_that_was_overwritten(self):
        clients = put(*MILK), put(*MORE, read=["milk"], t=3.0)
        self.assert_broken(Run(*clients, everywhere=[MORE], alone={1: [MORE]}))

    def test_a_put_that_was_overwritten_elsewhere(self):
        clients = put(*MILK), put(*MORE, read=["milk"], t=3.0, on=[2, 3])
        self.assert_broken(Run(*clients, everywhere=[MORE], alone={1: []}), NAMED)

    def test_a_put_that_does_not_name_the_place(self):
        self.assert_broken(Run(put(*MILK, on=[2, 3]), everywhere=[MILK], alone={1: []}))

    def test_a_put_at_a_carrier(self):
        self.assert_broken(Run(put(*MILK, on=[1, 4]), everywhere=[MILK], alone={4: []}))

    def test_a_put_that_was_acknowledged_later(self):
        self.assert_broken(Run(put(*MILK, t=3.6), everywhere=[MILK], alone={1: []}))

    def test_a_put_before_the_disk_was_lost(self):
        events = event("damage", 2.0, place=1, life=33), event("life", 2.2, place=1, life=65)
        for t, rules in ((1.0, []), (3.0, [NAMED])):
            run = Run(put(*EGGS, t=t), everywhere=[EGGS], alone={1: []}, events=events)
            run.dumps[1]["life"] = 65
            self.assert_broken(run, *rules)


class Equal(JudgeCase):
    def test_unequal_roots(self):
        run = Run(put(*MILK), everywhere=[MILK])
        run.dumps[4]["ranges"][0]["root"] = "another"
        self.assert_broken(run, EQUAL)

    def test_equal_roots_of_different_rows(self):
        run = Run(put("milk", None), everywhere=[MILK], at={2: []})
        run.dumps[2]["ranges"][0]["root"] = run.dumps[1]["ranges"][0]["root"]
        self.assert_broken(run, EQUAL)

    def test_a_put_at_one_replica_without_rounds(self):
        self.assert_broken(Run(put("milk", None), everywhere=[], at={2: [MILK]}, mode="repair"), EQUAL)
        self.assert_broken(Run(put("milk", None), everywhere=[], at={2: [MILK]}, mode="handoff"))
        self.assert_broken(Run(put(*MILK), everywhere=[], at={2: [MILK]}, mode="handoff"), HELD)

    def test_siblings_in_another_order(self):
        run = Run(put(*MILK), put(*EGGS), everywhere=[MILK, EGGS], at={2: [EGGS, MILK]})
        run.dumps[2]["ranges"][0]["root"] = run.dumps[1]["ranges"][0]["root"]
        self.assert_broken(run)


class Lives(JudgeCase):
    def run_with_lives(self, *events, last=33):
        """A run that ends with another life of place 1."""
        run = Run(events=events)
        run.dumps[1]["life"] = last
        return run

    def test_a_life_that_goes_on(self):
        events = event("kill", place=1), event("start", place=1), event("life", place=1, life=33)
        self.assert_broken(Run(events=events))

    def test_a_life_that_begins_twice(self):
        events = event("destroy", place=1, life=33), event("life", place=1, life=33)
        self.assert_broken(Run(events=events), LIVES)

    def test_a_life_that_begins_twice_after_a_start(self):
        start, destroy = event("start", place=1), event("destroy", place=1, life=33)
        self.assert_broken(Run(events=[destroy, start, event("life", place=1, life=33)]), LIVES)
        self.assert_broken(Run(events=[start, destroy, start, event("life", place=1, life=33)]), LIVES)

    def test_a_life_that_begins_twice_in_one_process(self):
        self.assert_broken(Run(events=[event("life", place=1, life=33)]), LIVES)

    def test_a_new_life(self):
        events = event("destroy", place=1, life=33), event("start", place=1), event("life", place=1, life=65)
        self.assert_broken(self.run_with_lives(*events, last=65))

    def test_a_life_that_goes_on_after_another(self):
        loss = event("damage", place=1, life=33)
        events = loss, event("life", place=1, life=65), loss, event("life", place=1, life=33)
        self.assert_broken(self.run_with_lives(*events), LIVES)

    def test_a_life_that_ends_without_a_loss(self):
        events = event("cut", place=1), event("damage", place=2, life=34), event("life", place=1, life=65)
        self.assert_broken(self.run_with_lives(*events, last=65), ENDED)

    def test_two_lives_that_end_with_one_loss(self):
        events = event("old", place=1, life=33), event("life", place=1, life=65), event("life", place=1, life=97)
        self.assert_broken(self.run_with_lives(*events, last=97), ENDED)

    def test_a_life_of_another_place(self):
        events = event("damage", place=1, life=33), event("life", place=1, life=66)
        self.assert_broken(self.run_with_lives(*events, last=66), LIVES)

    def test_an_incarnation_that_counts_from_zero(self):
        run = Run()
        run.nemesis = [it for it in run.nemesis if it.get("life") != 33]
        run.nemesis.insert(0, event("life", 0.0, place=1, life=1))
        run.dumps[1]["life"] = 1
        self.assert_broken(run, LIVES)

    def test_the_last_incarnation(self):
        for incarnation, rules in ((2047, []), (2048, [LIVES])):
            life = 1 + 32 * incarnation
            events = event("damage", place=1, life=33), event("life", place=1, life=life)
            self.assert_broken(self.run_with_lives(*events, last=life), *rules)

    def test_a_node_with_another_life(self):
        self.assert_broken(self.run_with_lives(last=65), LIVES)

    def test_a_clock_of_a_life_that_never_began(self):
        self.assert_broken(Run(put("milk", "65:1"), everywhere=[("milk", "65:1")]), LIVES)


class Lost(JudgeCase):
    """Place 1 loses a part of its disk at the time 5, and continues with a life."""

    def lost(self, *clients, everywhere, life=65, op="damage"):
        events = event(op, 5.0, place=1, life=33), event("start", 5.2, place=1), event("life", 5.5, place=1, life=life)
        run = Run(*clients, everywhere=everywhere, events=events)
        run.dumps[1]["life"] = life
        return run

    def test_a_put_under_the_lost_life(self):
        clients = put(*MILK), put("eggs", "33:2", read=["milk"], t=6.0)
        self.assert_broken(self.lost(*clients, everywhere=[("eggs", "33:2")]), LOST)
        self.assert_broken(self.lost(*clients, everywhere=[("eggs", "33:2")], op="old"), LOST)

    def test_a_put_under_a_life_that_goes_on(self):
        clients = put(*MILK), put("eggs", "33:2", read=["milk"], t=6.0)
        self.assert_broken(self.lost(*clients, everywhere=[("eggs", "33:2")], life=33))

    def test_a_put_under_the_new_life(self):
        clients = put(*MILK), put("eggs", "33:1,65:1", read=["milk"], t=6.0)
        self.assert_broken(self.lost(*clients, everywhere=[("eggs", "33:1,65:1")]))

    def test_a_put_that_began_before(self):
        clients = put(*MILK), put("eggs", None, read=["milk"], t=4.0)
        self.assert_broken(self.lost(*clients, everywhere=[("eggs", "33:2")]))

    def test_what_was_read_of_the_lost_life(self):
        clients = put(*MILK), put("eggs", None, read=["milk"], t=4.0), get(("eggs", "33:2"), t=6.0)
        clients += (put("tea", "33:2,34:1", read=["eggs"], t=7.0),)
        self.assert_broken(self.lost(*clients, everywhere=[("tea", "33:2,34:1")]))

    def test_the_tombstone_of_a_delete_that_was_not_answered(self):
        clients = put(*MILK), delete(None, read=["milk"], t=4.0), get(("tombstone 33:2", "33:2"), t=6.0)
        clients += (put("tea", "33:2,34:1", read=["tombstone 33:2"], t=7.0),)
        self.assert_broken(self.lost(*clients, everywhere=[("tea", "33:2,34:1")]))

    def test_a_put_after_another_loss(self):
        run = self.lost(put(*MILK), put("eggs", "33:2", read=["milk"], t=6.0), everywhere=[("eggs", "33:2")], life=33)
        run.nemesis[-1:-1] = [event("damage", 7.0, place=1, life=33), event("life", 7.5, place=1, life=65)]
        run.dumps[1]["life"] = 65
        self.assert_broken(run)


class Ends(JudgeCase):
    def test_a_node_that_was_killed(self):
        self.assert_broken(Run(events=[event("end", place=1, status=-9)]))

    def test_a_node_that_ended_by_itself(self):
        self.assert_broken(Run(events=[event("end", place=1, status=1)]), ENDS)

    def test_a_node_whose_sync_failed(self):
        self.assert_broken(Run(events=[event("failing", place=1), event("end", place=1, status=1)]))

    def test_a_node_whose_sync_failed_before(self):
        events = event("failing", place=1), event("start", place=1), event("end", place=1, status=1)
        self.assert_broken(Run(events=events), ENDS)


class Expected(JudgeCase):
    def test_what_held(self):
        self.assert_broken(Run(events=[event("expect", what="it rains", met=True)]))

    def test_what_did_not_hold(self):
        self.assert_broken(Run(events=[event("expect", what="it rains", met=False)]), EXPECTED)


class Slots(JudgeCase):
    def test_an_offer_without_a_slot(self):
        self.assert_broken(Run(events=[event("unslotted", place=1, what="offer")]), SLOTS)


class Two(JudgeCase):
    def test_one_node(self):
        self.assert_broken(Run(put(*MILK, on=[1]), everywhere=[MILK]), TWO)

    def test_one_node_twice(self):
        self.assert_broken(Run(put(*MILK, on=[1, 1]), everywhere=[MILK]), TWO)

    def test_a_carrier(self):
        self.assert_broken(Run(put(*MILK, on=[1, 4]), everywhere=[MILK]))


class Reads(JudgeCase):
    def lost(self, at, *clients, everywhere, op="destroy"):
        """A run with a loss of place 1's disk at a time, and its life 65 after it."""
        events = event(op, at, place=1, life=33), event("life", at + 0.1, place=1, life=65)
        run = Run(*clients, everywhere=everywhere, events=events)
        run.dumps[1]["life"] = 65
        return run

    def test_a_read_that_shows_nothing(self):
        self.assert_broken(Run(put(*MILK), get(t=2.0), everywhere=[MILK]), READS)

    def test_a_read_that_began_before_the_acknowledgement(self):
        self.assert_broken(Run(put(*MILK), get(t=1.2), everywhere=[MILK]))

    def test_a_read_after_a_put_at_a_carrier(self):
        self.assert_broken(Run(put(*MILK, on=[1, 4]), get(t=2.0), everywhere=[MILK]))

    def test_a_read_that_shows_what_overwrote_it(self):
        clients = put(*MILK), put("eggs", "33:2", read=["milk"], t=1.6), get(("eggs", "33:2"), t=2.0)
        self.assert_broken(Run(*clients, everywhere=[("eggs", "33:2")]))

    def test_a_read_that_shows_one_sibling(self):
        clients = put(*MILK), put(*EGGS), get(EGGS, t=2.0)
        self.assert_broken(Run(*clients, everywhere=[MILK, EGGS]), READS)

    def test_a_read_that_shows_a_put_that_was_overwritten_on_other_disks(self):
        clients = put(*MILK, on=[1, 2]), put("eggs", "33:2", read=["milk"], t=1.6, on=[1, 4]), get(MILK, t=3.0)
        self.assert_broken(Run(*clients, everywhere=[("eggs", "33:2")]))

    def test_a_read_that_shows_nothing_after_a_put_that_was_overwritten_on_other_disks(self):
        clients = put(*MILK, on=[1, 2]), put("eggs", "33:2", read=["milk"], t=1.6, on=[1, 4]), get(t=3.0)
        self.assert_broken(Run(*clients, everywhere=[("eggs", "33:2")]), READS)

    def test_a_read_that_shows_two_of_three_siblings(self):
        clients = put(*MILK), put(*EGGS), put("tea", "35:1"), get(EGGS, ("tea", "35:1"), t=2.0)
        self.assert_broken(Run(*clients, everywhere=[MILK, EGGS, ("tea", "35:1")]), READS)

    def test_a_read_after_a_disk_was_lost_before_the_put(self):
        self.assert_broken(self.lost(0.5, put("milk", "65:1"), get(t=2.0), everywhere=[("milk", "65:1")]), READS)

    def test_a_read_before_a_disk_was_lost(self):
        self.assert_broken(self.lost(5.0, put(*MILK), get(t=2.0), everywhere=[MILK]), READS)

    def test_a_read_after_a_disk_was_lost(self):
        self.assert_broken(self.lost(1.8, put(*MILK), get(t=2.0), everywhere=[MILK]))

    def test_a_read_after_a_disk_was_damaged(self):
        self.assert_broken(self.lost(1.8, put(*MILK), get(t=2.0), everywhere=[MILK], op="damage"))
        self.assert_broken(self.lost(1.8, put(*MILK), get(t=2.0), everywhere=[MILK], op="old"))
        self.assert_broken(self.lost(1.8, put(*MILK), get(t=2.0), everywhere=[MILK], op="cut"), ENDED, READS)

    def test_a_read_after_one_of_three_disks_was_lost(self):
        self.assert_broken(self.lost(1.8, put(*MILK, on=[1, 2, 3]), get(t=2.0), everywhere=[MILK]), READS)

    def test_a_read_that_shows_a_tombstone(self):
        clients = put(*MILK), delete("33:2", read=["milk"], t=1.6), get(("tombstone 33:2", "33:2"), t=3.0)
        self.assert_broken(Run(*clients, everywhere=[("tombstone", "33:2")]))


class Rest(JudgeCase):
    def test_a_run_that_did_not_settle(self):
        run = Run()
        run.nemesis[-1]["op"] = "unsettled"
        self.assert_broken(run, REST)

    def test_a_place_without_a_dump(self):
        run = Run()
        del run.dumps[5]
        self.assert_broken(run, REST)

    def test_a_hint_that_is_pending(self):
        for mode, rules in (("all", [REST]), ("handoff", [REST]), ("repair", [])):
            run = Run(mode=mode)
            run.dumps[5]["pending"] = 1
            self.assert_broken(run, *rules)

    def test_a_range_that_a_place_lacks(self):
        run = Run()
        del run.dumps[1]["ranges"][0]
        self.assert_broken(run, REST)

    def test_a_key_in_two_ranges(self):
        run = Run(put(*MILK), everywhere=[MILK])
        for place in (2, 3, 4):
            dumped = {it["range"]: it for it in run.dumps[place]["ranges"]}
            dumped[1]["rows"] = run.dumps[1]["ranges"][0]["rows"]
        self.assert_broken(run, REST)
