"""The modes of a run: all paths bring versions to replicas, or only one, so that none hides a fault of another."""

from __future__ import annotations

from dataclasses import dataclass, field
from typing import Mapping


@dataclass(frozen=True)
class Mode:
    """The settings of the nodes, the faults of a run, and the conditions for its end."""

    name: str
    settings: Mapping[str, str] = field(default_factory=dict)
    has_kills: bool = True
    has_losses: bool = True
    needs_equal_roots: bool = True
    needs_no_hints: bool = True
    #: Seconds that the nodes must be at rest: a copy that no place took becomes a hint some time after its put.
    steady_s: float = 0.0


ALL = Mode("all")

#: Only rounds bring versions to replicas. A lost disk may have been one of two that had a put.
REPAIR = Mode(
    "repair", {"handoff": "off", "read_repair": "off"}, has_losses=False, needs_no_hints=False
)

#: Only hints do. A copy in progress is lost with its coordinator, so no node is killed.
HANDOFF = Mode(
    "handoff",
    {"repair": "off", "read_repair": "off"},
    has_kills=False,
    has_losses=False,
    needs_equal_roots=False,
    steady_s=3.0,
)
MODES = {mode.name: mode for mode in (ALL, REPAIR, HANDOFF)}
