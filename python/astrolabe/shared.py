"""Rows that many boxes share: a search keeps one copy of the rows and a box for each node."""


class Rows:
    """The rows of a model, lent to boxes and tables that stand on their own; threads may share it. The calls that it has are
    those that change no row. A box is a buffer of 2n numbers, a table one of 4n^2 bytes that start with all 0.

    >>> from array import array
    >>> from astrolabe import Model
    >>> rows = Model([0, 1] * 3, [2, 3, 4], [5]).shared_rows()  # 2x + 3y + 4z <= 5
    >>> box, table = array("i", [0, 1, 0, 1, 1, 1]), bytearray(36)  # z is 1
    >>> rows.propagate(box, 1_000).ending, list(box)
    ('converged', [0, 0, 0, 0, 1, 1])
    >>> rows.probe(array("i", [0, 1] * 3), table, 2, 1_000).new_implications, sum(table)
    (4, 4)
    """

    def __init__(self, model):
        self._model, self._rows = type(model), (model.coefs, model.rhs, model.kinds)

    def _with(self, bounds, table=None):
        if any(isinstance(lent, (list, tuple)) for lent in (bounds, table)):
            raise TypeError("a box and a table are buffers that can be written, as array('i') and bytearray")
        return self._model(bounds, *self._rows, table)

    def propagate_row(self, bounds, row):
        """As Model.propagate_row, on this box."""
        return self._with(bounds).propagate_row(row)

    def propagate(self, bounds, budget):
        """As Model.propagate, on this box."""
        return self._with(bounds).propagate(budget)

    def probe(self, bounds, table, variable, budget):
        """As Model.probe, on this box and this table."""
        return self._with(bounds, table).probe(variable, budget)

    def is_probing_fixpoint(self, bounds):
        """As Model.is_probing_fixpoint, of this box."""
        return self._with(bounds).is_probing_fixpoint()

    def run(self, bounds, table, calls):
        """As Model.run, on this box and this table."""
        return self._with(bounds, table).run(calls)

    def run_classes(self, bounds, table, calls):
        """As Model.run_classes, on this box and this table."""
        return self._with(bounds, table).run_classes(calls)
