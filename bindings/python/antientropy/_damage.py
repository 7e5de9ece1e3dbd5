"""The exception of a damaged checkpoint."""

from __future__ import annotations

from enum import Enum
from typing import Optional


class Damage(Enum):
    """Kinds of damage of a checkpoint. Each has its sentence."""

    NOT_CHECKPOINT = "this isn't a checkpoint"
    TRUNCATED = "the checkpoint is truncated, or a length in it is damaged"
    TOO_LONG = "the checkpoint is damaged: bytes follow its last leaf"
    ROOT = "the checkpoint is damaged: its root differs"
    LEAF = "the checkpoint is damaged: the rows of a leaf are refused"


class DamagedError(ValueError):
    """A checkpoint is damaged.

    A file that can't be read raises OSError, and a refused call AntientropyError.
    """

    #: Kind of the damage.
    kind: Damage
    #: Number of the leaf if the kind is LEAF.
    leaf: Optional[int]

    def __init__(self, kind: Damage, leaf: Optional[int] = None) -> None:
        super().__init__(kind, leaf)
        self.kind = kind
        self.leaf = leaf

    def __str__(self) -> str:
        return self.kind.value if self.leaf is None else self.kind.value.replace("a leaf", f"leaf {self.leaf}")
