"""The judge's rule of availability. The key is held at the places 1 to 3. Without more there are no faults."""

import unittest

from .written import Run, event, get, put, refused

SERVED = "requests are served"
ENOUGH = "enough requests are judged"
MILK = ("milk", "33:1")


class AvailabilityCase(unittest.TestCase):
    def assert_served(self, served, place, *events, line=None, name="Down", count=6):
        """Six requests are refused at the time 5: fine if they could not be served."""
        requests = [refused(line or get(), name, place=place)] * count
        run = Run(put(*MILK), *requests, everywhere=[MILK], events=events)
        self.assertEqual(run.broken(), [SERVED] if served else [])


class Counts(AvailabilityCase):
    def test_a_few_may_be_refused(self):
        self.assert_served(False, 1, count=5)
        self.assert_served(True, 1, count=6)

    def test_one_of_a_hundred_may_be_refused(self):
        requests = [refused(get(), "Down")] * 7
        for served, rules in ((692, [SERVED]), (693, [])):
            answered = [{**get(MILK, t=5.0), "place": 1}] * served
            self.assertEqual(Run(put(*MILK), *requests, *answered, everywhere=[MILK]).broken(), rules)

    def test_no_answer(self):
        requests = [{**put("eggs", None, t=5.0), "place": 1}] * 6
        self.assertEqual(Run(put(*MILK), *requests, everywhere=[MILK]).broken(), [SERVED])

    def test_no_answer_over_a_link_to_a_node_that_has_ended(self):
        begun = [{**get(MILK, t=0.1), "place": 1}]
        for t, rules in ((0.7, []), (0.05, [SERVED])):
            again = event("kill", t, place=1), event("start", t, place=1), event("ready", t, place=1)
            clients = [*begun, {**put("eggs", None, t=5.0), "place": 1}]
            run = Run(put(*MILK), *clients * 6, everywhere=[MILK], events=again)
            self.assertEqual(run.broken(), rules)

    def test_a_key_that_no_node_holds(self):
        requests = [refused(get(key="l"), "Down")] * 6
        self.assertEqual(Run(put(*MILK), *requests, everywhere=[MILK]).broken(), [])

    def test_a_machine_that_is_late(self):
        self.assert_served(False, 1, event("late", 1.0, seconds=1.5))
        self.assert_served(True, 1, event("late", 1.0, seconds=0.5))
        self.assert_served(False, 1, event("late", 1.0, seconds=0.5), event("late", 5.4, seconds=2.0))
        self.assert_served(True, 1, event("late", 1.0, seconds=0.5), event("late", 9.0, seconds=2.0))

    def test_processors_that_are_late_at_the_same_time(self):
        late = [event("late", 0.5, seconds=1.6), event("late", 0.6, seconds=0.5), event("late", 0.7, seconds=0.3)]
        self.assert_served(False, 1, *late)
        self.assert_served(True, 1, *late[1:])

    def test_a_stale_put(self):
        requests = [{**put("eggs", None, status=409, t=5.0), "place": 1, "refused": "StaleContext"}] * 6
        self.assertEqual(Run(put(*MILK), *requests, everywhere=[MILK]).broken(), [])


class Enough(AvailabilityCase):
    def assert_enough(self, enough, *events, judged=100, others=900, seconds=45):
        """Some requests can be served, and others can't, since nobody holds their key."""
        answered = [{**get(MILK, t=5.0), "place": 1}] * judged
        missed = [{**get(t=5.0, key="l"), "place": 1}] * others
        whole = event("run", 0.0, seconds=seconds, mode="all")
        run = Run(put(*MILK), *answered, *missed, everywhere=[MILK], events=[whole, *events])
        self.assertEqual(run.broken(), [] if enough else [ENOUGH])

    def test_few_are_judged(self):
        self.assert_enough(False)
        self.assert_enough(False, judged=199, others=801)
        self.assert_enough(True, judged=201, others=799)

    def test_few_are_made(self):
        self.assert_enough(True, judged=1, others=700)

    def test_a_machine_that_is_late_for_most_requests(self):
        self.assert_enough(True, event("late", 4.0, seconds=1.5))
        self.assert_enough(False, event("late", 9.0, seconds=1.5))

    def test_a_run_without_a_duration(self):
        self.assert_enough(True, seconds=0)


class Places(AvailabilityCase):
    def test_a_holder_that_is_paused(self):
        self.assert_served(False, 1, event("pause", place=1))
        self.assert_served(True, 1, event("pause", place=2))

    def test_a_pause_that_ended_before(self):
        self.assert_served(False, 1, event("pause", place=1), event("resume", 2.5, place=1))
        self.assert_served(True, 1, event("pause", place=1), event("resume", 1.9, place=1))

    def test_a_pause_that_begins_as_the_request_ends(self):
        self.assert_served(False, 1, event("pause", 5.4, place=1))
        self.assert_served(True, 1, event("pause", 6.5, place=1))

    def test_two_holders_that_are_paused(self):
        events = event("pause", place=2), event("pause", place=3)
        self.assert_served(False, 1, *events)
        self.assert_served(True, 1, *events, line=put("eggs", None))
        self.assert_served(False, 1, *events, line=put("eggs", None), name="HintsFull")
        self.assert_served(True, 4, *events, line=put("eggs", None))

    def test_nodes_that_end(self):
        for op in ("kill", "cut", "end"):
            events = [event(op, place=place, status=-9) for place in (2, 3)]
            self.assert_served(False, 1, *events)
            self.assert_served(True, 1, *events, line=put("eggs", None))

    def test_a_node_that_starts(self):
        events = event("kill", place=1), event("start", 1.1, place=1), event("life", 1.2, place=1, life=33)
        self.assert_served(False, 1, *events)
        self.assert_served(True, 1, *events, event("ready", 1.5, place=1))

    def test_a_disk_that_is_not_well(self):
        for op in ("full", "failing", "slow"):
            self.assert_served(False, 1, event(op, place=1))
            self.assert_served(True, 1, event(op, place=1), event("disks", 1.5))
        self.assert_served(True, 1, event("full", place=1), event("free", 1.5, place=1))

    def test_a_disk_that_was_lost(self):
        self.assert_served(False, 1, event("old", place=1, life=33))
        self.assert_served(True, 1, event("old", place=1, life=33), event("work", 1.5, settled=True))


class Links(AvailabilityCase):
    def links(self, *pairs, t=1.0, **more):
        """Drops messages between two places of each pair, in this direction."""
        return event("links", t, drop=[list(pair) for pair in pairs], **more)

    def test_a_holder_that_is_cut_off(self):
        self.assert_served(False, 1, self.links((1, 2), (3, 1)))
        self.assert_served(True, 1, self.links((1, 2)))
        self.assert_served(True, 1, self.links((1, 2), (3, 1)), line=put("eggs", None))

    def test_links_that_were_healed(self):
        self.assert_served(True, 1, self.links((1, 2), (1, 3)), self.links(t=1.5))
        self.assert_served(False, 1, self.links((1, 2), (1, 3)), self.links(t=2.5))

    def test_a_place_that_reaches_one_holder(self):
        self.assert_served(True, 4, self.links((4, 1), (4, 2)))
        self.assert_served(False, 4, self.links((4, 1), (4, 2), (4, 3)))

    def test_a_place_that_reaches_a_holder_that_is_cut_off(self):
        line = put("eggs", None)
        self.assert_served(True, 4, self.links((1, 2), (1, 3)))
        self.assert_served(True, 4, self.links((1, 2), (1, 3)), line=line)
        self.assert_served(False, 4, self.links((1, 2), (1, 3)), line=line, name="HintsFull")
        self.assert_served(True, 4, self.links((1, 2), (1, 3), (4, 1)), line=line, name="HintsFull")

    def test_a_put_that_a_holder_may_take_that_is_not_well(self):
        full = event("full", place=1)
        self.assert_served(True, 4, full)
        self.assert_served(False, 4, full, line=put("eggs", None))
        self.assert_served(False, 2, full, line=put("eggs", None))
        self.assert_served(True, 4, full, event("pause", place=1), line=put("eggs", None))

    def test_late_messages(self):
        for late_ms, served in ((100, True), (101, False)):
            late = [[1, 2, 0, late_ms], [3, 1, 0, late_ms]]
            self.assert_served(served, 1, self.links(late=late))
            self.assert_served(served, 1, self.links(slow={"1": late_ms}))
