"""Rules of versions: those that may be seen, their clocks, and those that must be gone."""

from __future__ import annotations

from typing import Dict, Iterator, List, Set, Tuple

from .case import Breach, Case, Row, shown
from .history import TOMBSTONE, Held, Line, Write, clock_pairs


def acknowledged_puts_are_held(case: Case) -> Iterator[Breach]:
    """Each acknowledged put is held at each replica, or a held version overwrote it.

    That is so if rounds or hints work, so a run by only one of them is judged as well.
    """
    for key, writes in case.writes.items():
        overwrites, replicas = case.overwrites[key], case.replicas_of(key)
        covered = [(it, overwrites.covered(version.mark for version in it.rows.get(key, ()))) for it in replicas]
        for write in (it for it in writes if it.acknowledged and it.mark is not None):
            lacking = [it for it, held in covered if not held & overwrites.bit(write.mark)]
            if lacking or not replicas:
                where = ", ".join(str(it.place) for it in lacking) or "any place"
                what = f"{write.mark} of {key} isn't held at {where}, nor is what overwrote it"
                yield Breach(what, [write.line, *(shown(it, key) for it in lacking)])


def named_places_hold_puts(case: Case) -> Iterator[Breach]:
    """A node that was killed and started alone holds each put that named its place, or a version that overwrote it.

    The put was acknowledged before the node was killed. It may be gone if the place lost a part of its disk, or began
    another life, since the put began.
    """
    for held in case.history.held:
        place = held.dump.place
        for key in case.ranges:
            overwrites = case.overwrites[key]
            for replica in case.held_of(held.dump, key):
                has = overwrites.covered(version.mark for version in replica.rows.get(key, ()))
                for write in case.writes.get(key, ()):
                    is_gone = write.mark is not None and not has & overwrites.bit(write.mark)
                    if is_gone and _must_be_held(case, write, held):
                        what = f"place {place} alone doesn't hold {write.mark} of {key}, nor what overwrote it"
                        yield Breach(what, [write.line, shown(replica, key)])


def held_values_were_put(case: Case) -> Iterator[Breach]:
    """Each version that a node held or showed was put by a client.

    A key has at most as many tombstones of unknown deletes as there are deletes that may have made them.
    """
    for key, versions in case.versions.items():
        writes = case.writes.get(key, ())
        put = {it.mark for it in writes}
        unknown = [mark for mark in versions if mark not in put]
        deletes = [it for it in writes if it.mark is None and it.may_have_happened]
        tombstones = [mark for mark in unknown if mark.startswith(TOMBSTONE)]
        if len(tombstones) <= len(deletes):
            unknown = [mark for mark in unknown if mark not in tombstones]
        for mark in unknown:
            yield Breach(f"{mark} of {key} was put by nobody", [*versions[mark].values(), *(it.line for it in deletes)])


def refusals_are_definite(case: Case) -> Iterator[Breach]:
    """A put that was refused without `perhaps` happened nowhere, whatever the status."""
    for key, writes in case.writes.items():
        versions = case.versions.get(key, {})
        for write in writes:
            if write.is_refused and write.mark in versions:
                yield Breach(f"{write.mark} of {key} was refused", [write.line, *versions[write.mark].values()])


def clocks_differ(case: Case) -> Iterator[Breach]:
    """Two different versions of a key have different clocks, and so have two deletes."""
    first: Dict[Tuple[str, str], Tuple[str, Line]] = {}
    for key, mark, clock, line in case.seen():
        other, where = first.setdefault((key, clock), (mark, line))
        if other != mark:
            yield Breach(f"{other} and {mark} of {key} both have the clock {clock}", [where, line])
    deletes: Dict[Tuple[str, str], Line] = {}
    for write in case.history.writes:
        if write.acknowledged and write.is_delete and write.mark is not None:
            where = deletes.setdefault((write.key, write.mark), write.line)
            if where is not write.line:
                yield Breach(f"two deletes of {write.key} made the {write.mark}", [where, write.line])


def versions_have_one_clock(case: Case) -> Iterator[Breach]:
    """A value has one clock wherever it was seen: its put was done once.

    A tombstone has its clock in its mark. A delete that was done twice is therefore seen as a tombstone that nobody
    put.
    """
    for key, versions in case.versions.items():
        for mark, clocks in versions.items():
            if len(clocks) > 1:
                puts = (it.line for it in case.puts_of(key, mark))
                yield Breach(f"{mark} of {key} has the clocks {' and '.join(clocks)}", [*puts, *clocks.values()])


def clocks_cover_what_was_read(case: Case) -> Iterator[Breach]:
    """The clock of a put covers, for each version that its client had read, a clock under which anyone saw it."""
    for write in case.history.writes:
        versions = case.versions.get(write.key, {})
        for clock, line in versions.get(write.mark or "", {}).items():
            for mark in write.read:
                clocks = versions.get(mark, {})
                if clocks and not any(_is_covered(it, clock) for it in clocks):
                    what = f"{write.mark} of {write.key} at {clock} doesn't cover {mark} at {' or '.join(clocks)}"
                    yield Breach(what, [write.line, line, *clocks.values()])


def overwritten_versions_are_gone(case: Case) -> Iterator[Breach]:
    """No get and no node shows both a version and one that overwrote it, directly or through others.

    This holds whatever the faults were: the clock of the later one covers the other's, and a row has only the greatest.
    A tombstone overwrote something only if a client knows its clock.
    """
    shown: Set[Tuple[str, str, str]] = set()
    for key in case.keys:
        certain = case.certain[key]
        for row in [*case.rows_shown(key), *case.rows_held(key)]:
            if len(row.versions) < 2:
                continue
            marks = [it.mark for it in row.versions]
            for mark in marks:
                gone = certain.overwritten(mark)
                for other in marks:
                    if gone & certain.bit(other) and (key, mark, other) not in shown:
                        shown.add((key, mark, other))
                        puts = (it.line for it in case.puts_of(key, mark))
                        yield Breach(f"{other} of {key} is beside {mark}, which overwrote it", [*puts, row.line])


def nothing_comes_back(case: Case) -> Iterator[Breach]:
    """A place that has shown a version shows it again, or a version that overwrote it: no deleted value is back there.

    A coordinator shows only versions on its disk. They may be gone if the place lost a part of its disk, or began
    another life. A coordinator with a full disk shows versions that others hold, and need not show them again.
    """
    for key in case.keys:
        overwrites = case.overwrites[key]
        shown_rows = case.rows_shown(key)
        earlier = sorted((it for it in shown_rows if _is_kept(case, it)), key=lambda it: it.end, reverse=True)
        had: Dict[int, Tuple[int, int]] = {}
        for row in sorted([*shown_rows, *case.rows_held(key)], key=lambda it: it.begin):
            while earlier and earlier[-1].end < row.begin:
                _add(case, had, earlier.pop())
            losses, marks = had.get(row.place, (0, 0))
            gone = marks & ~overwrites.covered(it.mark for it in row.versions)
            if gone and losses == case.losses_before(row.place, row.end):
                mark = overwrites.marks(gone)[0]
                what = f"place {row.place} had shown {mark} of {key}, and doesn't any more, nor what overwrote it"
                yield Breach(what, [*_first_shown(shown_rows, row, mark), row.line])


def _must_be_held(case: Case, write: Write, held: Held) -> bool:
    """Returns true if a put named the place of a node before it was killed, and the place has lost nothing since."""
    place = held.dump.place
    named = write.acknowledged and place in write.on and write.end < held.since
    return named and not case.has_lost(place, write.begin, held.at)


def _is_kept(case: Case, row: Row) -> bool:
    """Returns true if the coordinator of a get has the shown versions on its disk, until the disk loses something."""
    return not case.has_lost(row.place, row.begin, row.end) and not case.was_full(row.place, row.begin, row.end)


def _add(case: Case, had: Dict[int, Tuple[int, int]], row: Row) -> None:
    """Adds a get's versions to those that its place has shown since its last loss: the number of losses, and marks."""
    losses = case.losses_before(row.place, row.end)
    before, marks = had.get(row.place, (losses, 0))
    if before != losses:
        marks = 0
    for version in row.versions:
        marks |= case.overwrites[row.key].bit(version.mark)
    had[row.place] = losses, marks


def _first_shown(rows: List[Row], later: Row, mark: str) -> List[Line]:
    """Returns the line of the first get at a place that showed a mark."""
    them = [it for it in rows if it.place == later.place and it.end < later.begin]
    return [it.line for it in them if any(version.mark == mark for version in it.versions)][:1]


def _is_covered(clock: str, by: str) -> bool:
    """Returns true if a clock is at most another one."""
    counters = dict(clock_pairs(by))
    return all(counters.get(life, 0) >= counter for life, counter in clock_pairs(clock))
