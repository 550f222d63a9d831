"""A model checked once and kept in a workspace, for a call at every branch."""
from enum import Enum
from typing import NamedTuple

from ._library import NO_ROW, WORKSPACE_LEN, Lent, call
from .answer import Probe, Propagation


class Bound(Enum):
    """Which of a variable's bounds."""
    LOWER = 0
    UPPER = 1


class Moved(NamedTuple):
    """A bound that a propagation moved, or that of a probe's side, and the row that moved it last."""
    variable: int
    bound: Bound
    row: int


class Propagated(NamedTuple):
    """What a propagation of a prepared model tells. `infeasible_row` is None where the propagation ended otherwise, or where the
    lent box was the empty one. `reasons` has a number for each bound, NO_ROW where no row moved it; moved() reads it.
    """
    propagation: Propagation
    infeasible_row: int | None
    reasons: object

    def moved(self):
        """The bounds that moved, each with the row that moved it last; those of a variable together, upwards. Where the
        propagation ended infeasible they are those that had moved before the box was made empty.
        """
        return _moved(self.reasons)


class Probed(NamedTuple):
    """What a probe of a prepared model tells where it is asked which row did what. `infeasible_rows` has the row of each side, None
    where the side is feasible, or where the lent box was the empty one, of which no side is tried. `reasons` has for each side a
    number for each bound, NO_ROW where no row moved it; moved(value) reads them. A bound of the new box, but for the probed
    variable's, moved exactly if it moved in each side that is feasible.
    """
    probe: Probe
    infeasible_rows: tuple
    reasons: tuple

    def moved(self, value):
        """The bounds that moved in the side where the variable is `value`, 0 or 1, each with the row that moved it last there."""
        if value not in (0, 1):
            raise ValueError(f"a side is 0 or 1, not {value}")
        return _moved(self.reasons[value])


def _moved(reasons):
    return (Moved(i // 2, Bound(i % 2), row) for i, row in enumerate(reasons) if row != NO_ROW)


def _row(place):
    return None if place == NO_ROW else place


class Prepared:
    """A model's rows, prepared for a call at every branch. A call is lent a box, a buffer of 2n numbers, and does what
    Model.propagate and Model.probe do on the model that was prepared, with these bounds; boxes may come in any order. What it
    saves is work: only rows are looked at that a bound which differs from the last box could make move another one.

    Every call writes into the workspace, so each thread needs one of its own: copy() goes on from where the original stood. The
    rows are those of the model when it was prepared: to change one, prepare again.

    >>> from array import array
    >>> from astrolabe import Model, Prepared
    >>> prepared = Prepared(Model([0, 1] * 3, [2, 3, 4, -1, 1, 0], [5, 0]))  # 2x + 3y + 4z <= 5 and y <= x
    >>> branch = array("i", [0, 1, 0, 1, 1, 1])  # z is 1: then 2x + 3y <= 1
    >>> told = prepared.propagate(branch, 1_000)
    >>> told.propagation, list(branch)
    (Propagation(ending='converged', passes=2, moved=2), [0, 0, 0, 0, 1, 1])
    >>> [(one.variable, one.bound.name, one.row) for one in told.moved()]
    [(0, 'UPPER', 0), (1, 'UPPER', 0)]
    >>> prepared.propagate(array("i", [0, 0, 1, 1, 0, 1]), 1_000).infeasible_row  # x is 0 and y is 1: against y <= x
    1
    """

    def __init__(self, model):
        self._workspace, self.n = Lent([0] * WORKSPACE_LEN, "I"), model.n
        model._prepare_into(self._workspace)

    def copy(self):
        """Another one for the same model, that goes on from where this one stands."""
        other = object.__new__(Prepared)
        other._workspace, other.n = Lent(self._workspace.owner[:], "I"), self.n
        return other

    __copy__ = copy

    def __deepcopy__(self, memo):
        return self.copy()

    def propagate(self, bounds, budget):
        """Propagates all rows, as Model.propagate does, over the bounds l0 u0 l1 u1 ..; and tells which row moved which bound,
        and which was infeasible.
        """
        reasons = Lent([NO_ROW] * (2 * self.n), "I")
        (box,) = _lent((bounds, "i"))
        places = call("prepared_propagate", *self._workspace.pair, *box.pair, budget, *reasons.pair)
        return Propagated(Propagation.of(places), _row(places[3]), reasons.owner)

    def probe(self, bounds, table, variable, budget):
        """Probes a free binary variable, as Model.probe does, over the bounds; the implications go into `table`, 4n^2 bytes. Which
        row moved what is told by probe_with_reasons().

        >>> from array import array
        >>> from astrolabe import Model, Prepared
        >>> prepared = Prepared(Model([0, 1, 0, 1], [1, -1, 1, 1], [0, 1]))  # x <= y and x + y <= 1
        >>> box, table = array("i", [0, 1, 0, 1]), bytearray(16)
        >>> prepared.probe(box, table, 0, 1_000).ending, list(box)
        ('fixed', [0, 0, 0, 1])
        """
        return Probe.of(self._probe(bounds, table, variable, budget, Lent([], "I")))

    def probe_with_reasons(self, bounds, table, variable, budget):
        """Probes as probe() does, and tells of each side which row moved which bound, and which was infeasible.

        >>> from array import array
        >>> from astrolabe import Model, Prepared
        >>> prepared = Prepared(Model([0, 1, 0, 1], [1, -1, 1, 1], [0, 1]))  # x <= y and x + y <= 1
        >>> told = prepared.probe_with_reasons(array("i", [0, 1, 0, 1]), bytearray(16), 0, 1_000)
        >>> told.infeasible_rows  # x at 1 raises y by row 0, and then row 1 is infeasible
        (None, 1)
        >>> [(one.variable, one.bound.name, one.row) for one in told.moved(1)]
        [(1, 'LOWER', 0)]
        """
        reasons = Lent([NO_ROW] * (4 * self.n), "I")
        places = self._probe(bounds, table, variable, budget, reasons)
        sides = reasons.owner[:2 * self.n], reasons.owner[2 * self.n:]
        return Probed(Probe.of(places), (_row(places[8]), _row(places[9])), sides)

    def _probe(self, bounds, table, variable, budget, reasons):
        box, implications = _lent((bounds, "i"), (table, "B"))
        return call("prepared_probe", *self._workspace.pair, *box.pair, *implications.pair, variable, budget, *reasons.pair)


def _lent(*buffers):
    if any(isinstance(source, (list, tuple)) for source, _ in buffers):
        raise TypeError("a box and a table are buffers that can be written, as array('i') and bytearray")
    lent = [Lent(source, code) for source, code in buffers]
    if len(lent) == 2 and lent[0].overlaps(lent[1]):
        raise ValueError("the two buffers overlap")
    return lent
