"""What a book and a list of calls will take, told before they are loaded (02, C-17). No row is read.

>>> from astrolabe import Call, Model, plan
>>> model = Model([0, 5, 0, 5], [2, 0, -1, 1], [5, 0])
>>> book = model.to_book()
>>> plan.lengths(book[-16:]).book == len(book)
True
>>> plan.width(model.bounds)
Width(width=10, budget=11)
>>> plan.passes(model.bounds, [Call.propagate(8), Call.probe(0, 1_000)]).passes
30
"""
from typing import NamedTuple

from ._library import Lent, call
from .calls import Call

MAX_RECORDS = 1_000_000  # the most records of a list that is planned


class Lengths(NamedTuple):
    """n and m of a book, and the length in elements of each buffer that they fix."""
    n: int
    m: int
    bounds: int
    coefs: int
    rhs: int
    kinds: int
    table: int
    ties: int
    clique_coefs: int
    clique_rhs: int
    book: int


class Width(NamedTuple):
    """The total width, and a budget that is never spent."""
    width: int
    budget: int


class Passes(NamedTuple):
    """The width, and the most passes that the list makes on any model with these bounds."""
    width: Width
    passes: int


def lengths(trailer):
    """The lengths, from the 16 bytes of a book's trailer."""
    return Lengths(*call("plan_lengths", *Lent(trailer, "B", written=False).pair)[:11])


def width(bounds):
    """The total width of the bounds l0 u0 l1 u1 .., and a budget that is never spent."""
    lent = Lent(bounds, "i", written=False)
    return Width(*call("plan_width", lent.length // 2, *lent.pair)[:2])


def passes(bounds, calls):
    """The same, and an upper limit on the passes that a list makes."""
    lent = Lent(bounds, "i", written=False)
    places = call("plan_run", lent.length // 2, *lent.pair, *Call.lent(calls).pair)
    return Passes(Width(*places[:2]), places[2])
