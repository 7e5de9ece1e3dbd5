"""Judges a run only by its logs: the responses to clients, the deeds of the nemesis, and the rows of nodes in the end.

    python3 -m nemesis.judge LOGS

A version may only be gone if a put overwrote it whose client had read it, or had read one that overwrote it. Clocks
aren't used for that: a counter that was used twice hides a loss from clocks. The last line is `N passed, M failed`.
"""

from __future__ import annotations

import sys
from pathlib import Path
from typing import Dict, List, Sequence, Tuple

from . import rules_of_lives, rules_of_nodes, rules_of_requests, rules_of_versions
from .availability import enough_requests_are_judged, requests_are_served
from .case import Breach, Case, Rule
from .history import BadLog, History, read

#: Maximum number of breaches of a rule that are shown.
MOST_SHOWN = 5

RULES: Tuple[Rule, ...] = (
    rules_of_nodes.run_came_to_rest,
    rules_of_versions.acknowledged_puts_are_held,
    rules_of_versions.named_places_hold_puts,
    rules_of_versions.held_values_were_put,
    rules_of_versions.refusals_are_definite,
    rules_of_versions.clocks_differ,
    rules_of_versions.versions_have_one_clock,
    rules_of_versions.clocks_cover_what_was_read,
    rules_of_versions.overwritten_versions_are_gone,
    rules_of_versions.nothing_comes_back,
    rules_of_nodes.replicas_are_equal,
    rules_of_lives.lives_are_used_once,
    rules_of_lives.lives_end_with_a_loss,
    rules_of_lives.lost_lives_put_nothing,
    rules_of_nodes.nodes_end_when_they_are_ended,
    rules_of_nodes.what_was_expected_held,
    rules_of_nodes.background_work_has_slots,
    rules_of_requests.puts_are_on_two_nodes,
    rules_of_requests.reads_see_what_was_acknowledged,
    requests_are_served,
    enough_requests_are_judged,
)


class Verdict(Dict[str, List[Breach]]):
    """The breaches of each rule, and the notes of the report."""

    notes: Sequence[str] = ()


def judge(history: History) -> Verdict:
    """Judges a run by each rule."""
    case = Case(history)
    verdict = Verdict((rule.__name__.replace("_", " "), list(rule(case))) for rule in RULES)
    verdict.notes = case.notes
    return verdict


def report(verdict: Verdict) -> int:
    """Prints a verdict, and returns the number of broken rules."""
    for note in verdict.notes:
        print(note)
    for rule, breaches in verdict.items():
        if not breaches:
            print(f"passed: {rule}")
            continue
        print(f"FAILED: {rule}: {len(breaches)} breaches")
        for breach in breaches[:MOST_SHOWN]:
            print(f"  {breach.what}")
            for line in breach.lines:
                print(f"    {line}")
    failed = sum(1 for breaches in verdict.values() if breaches)
    print(f"{len(verdict) - failed} passed, {failed} failed")
    return failed


def main(words: Sequence[str]) -> int:
    """Judges the logs of a folder."""
    if len(words) != 1:
        print("usage: python3 -m nemesis.judge LOGS")
        return 2
    try:
        return 1 if report(judge(read(Path(words[0])))) else 0
    except BadLog as fault:
        print(f"FAILED: {fault}")
        print("0 passed, 1 failed")
        return 1


if __name__ == "__main__":
    sys.exit(main(sys.argv[1:]))
