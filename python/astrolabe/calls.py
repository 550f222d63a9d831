"""Call lists."""
from typing import NamedTuple

from ._library import Lent


class Call(NamedTuple):
    """One call of a list: kind 1 to 5, row, variable, budget. A field that its kind lacks may hold anything.

    >>> Call.probe(3, 1_000)
    Call(kind=3, row=0, variable=3, budget=1000)
    """
    kind: int
    row: int = 0
    variable: int = 0
    budget: int = 0

    @classmethod
    def propagate_row(cls, row):
        return cls(1, row=row)

    @classmethod
    def propagate(cls, budget):
        return cls(2, budget=budget)

    @classmethod
    def probe(cls, variable, budget):
        return cls(3, variable=variable, budget=budget)

    @classmethod
    def tighten_coefficient(cls, row, variable):
        """Kind 4, which lists refuse by 18: make the call directly."""
        return cls(4, row=row, variable=variable)

    @classmethod
    def remove_redundant_row(cls, row):
        """Kind 5, which lists refuse by 18: make the call directly."""
        return cls(5, row=row)

    @staticmethod
    def lent(calls):
        """The records as one list of numbers, four a record; a buffer of such numbers is taken as it is."""
        if isinstance(calls, (list, tuple)):
            calls = [number for record in calls for number in record]
        return Lent(calls, "I", written=False)
