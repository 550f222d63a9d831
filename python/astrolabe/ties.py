"""Tied variables (02, C-19): which variable stands for which, and how a solution is read back."""
from array import array

from ._library import Refusal


class CircularTies(ValueError):
    """A list from elsewhere ties variables in a circle; `variable` is the lowest that leads into one."""

    def __init__(self, variable):
        self.variable = variable
        super().__init__(f"the ties of variable {variable} lead into a circle")


class Ties:
    """The tie list of a model: for each variable a place of 16 bits, 0 where it is not replaced, else 1 plus the number of the
    literal that holds just when it is 1. No book holds it: store `places` beside the book of a tied model.

    >>> ties = Ties.from_places([6, 1, 0])  # variable 0 is variable 2, variable 1 is 1 - variable 0
    >>> ties.literal(1), ties.expand([9, 9, 1])
    ((0, False), [1, 0, 1])
    """

    def __init__(self, n):
        """The list of a model of n variables in which none is tied."""
        self.places = array("H", bytes(2 * n))

    @classmethod
    def from_places(cls, places):
        """A stored list, used in place where it is an array; refused by check 21 where a place is above 2n."""
        ties = cls(0)
        ties.places = array("H", places) if isinstance(places, (list, tuple)) else places
        if any(place > 2 * len(places) for place in places):
            raise Refusal(21)
        return ties

    def literal(self, j):
        """The variable k and the value v for which variable j is 1 just when k is v; None where j is not replaced."""
        place = self.places[j]
        return ((place - 1) // 2, (place - 1) % 2 == 1) if place else None

    def expand(self, point):
        """The point with the value of each replaced variable; CircularTies where variables are tied in a circle."""
        return [self._value(point, j) for j in range(len(self.places))]

    def _value(self, point, j):
        at, opposite = j, False
        for _ in range(len(self.places) + 1):
            literal = self.literal(at)
            if literal is None:
                return 1 - point[at] if opposite else point[at]
            at, opposite = literal[0], opposite == literal[1]
        raise CircularTies(j)
