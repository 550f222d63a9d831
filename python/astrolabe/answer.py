"""What the calls answer."""
from enum import IntEnum
from typing import NamedTuple


class RowPropagation(NamedTuple):
    """`ending` is infeasible, tightened or unchanged."""
    ending: str
    moved: int


class Propagation(NamedTuple):
    """`ending` is infeasible, converged or budget_spent."""
    ending: str
    passes: int
    moved: int

    @classmethod
    def of(cls, places):
        case, passes, moved, *_ = places
        return cls(("infeasible", "converged", "budget_spent")[case], passes, moved)


class Side(NamedTuple):
    passes: int
    spent: bool
    moved: int


class Probe(NamedTuple):
    """`ending` is infeasible, fixed (then `value` says to what) or both_feasible (then `new_implications` counts)."""
    ending: str
    value: int
    new_implications: int
    sides: tuple

    @classmethod
    def of(cls, places):
        case, value, *rest = places
        sides = tuple(Side(rest[i], rest[i + 1] == 1, rest[i + 2]) for i in (0, 3))
        ending = ("infeasible", "fixed", "both_feasible")[case]
        return cls(ending, value if case == 1 else 0, value if case == 2 else 0, sides)


class Rest(NamedTuple):
    """Whether the box is a probing fixpoint; of a no, the row or the variable that shows it."""
    yes: bool
    row: int | None = None
    variable: int | None = None


class Class(IntEnum):
    """What a call of a list did. Its number is the place of its count among the four."""
    REFUSED = 0
    INFEASIBLE = 1
    CHANGED = 2
    UNCHANGED = 3


class Counts(NamedTuple):
    refused: int
    infeasible: int
    changed: int
    unchanged: int


class Rounds(NamedTuple):
    """`ending` is infeasible, unchanged or limit_reached; `spent` says whether a probe's side was spent in the last round."""
    ending: str
    rounds: int
    spent: bool
