"""A presolve library for 0-1 and small-integer linear models whose every function is proved; this module is outside the
proofs and calls it. The names are those of the Rust wrapper.

>>> from astrolabe import Model
>>> model = Model([0, 5, 0, 5], [2, 0, -1, 1], [5, 0])  # 2x <= 5, y <= x
>>> model.propagate(1_000)
Propagation(ending='converged', passes=2, moved=2)
>>> list(model.bounds)
[0, 2, 0, 2]

A refusal is an exception with its number, and changes nothing:

>>> Model([0, 5_000], [], [])
Traceback (most recent call last):
    ...
astrolabe._library.Refusal: refused by check 23: a variable is over 4096 wide

Buffers are used where they are: an array('i'), a numpy array of int32 or a memoryview is read and written in place, and
two models may share their rows, each with a box of its own:

>>> from array import array
>>> box = array('i', [0, 1, 0, 1])
>>> root = Model(box, [3, 2], [4])
>>> branch = Model([1, 1, 0, 1], root.coefs, root.rhs, root.kinds)  # x is 1; the same rows
>>> branch.propagate(1_000).ending, list(branch.bounds), list(box)
('converged', [1, 1, 0, 0], [0, 1, 0, 1])
"""
from enum import IntEnum
from typing import NamedTuple

from . import plan
from ._library import TRAILER_LEN, VERSION, Lent, Refusal, call, call_without_answer
from .answer import Class, Counts, Probe, Propagation, Rest, Rounds, RowPropagation, Side
from .calls import Call
from .prepared import Bound, Moved, Prepared, Probed, Propagated
from .shared import Rows
from .ties import CircularTies, Ties

__all__ = ["Bound", "Call", "CircularTies", "Class", "Clique", "Counts", "Model", "Moved", "Prepared", "Probe", "Probed", "Propagated",
           "Propagation"]
__all__ += ["Refusal", "Rest", "Rounds", "Row", "RowKind", "RowPropagation", "Rows", "Side", "Ties", "Verdict"]
__all__ += ["book_size", "book_to_sparse", "plan", "sparse_size", "sparse_to_book"]
__all__ += ["MAX_BUDGET", "MAX_PROPOSALS", "MAX_ROWS", "MAX_VARIABLES", "MAX_WIDTH", "NO_LIMIT", "PAGE", "VERSION"]

MAX_VARIABLES, MAX_ROWS, MAX_WIDTH, MAX_BUDGET, MAX_PROPOSALS = 128, 120, 4_096, 8_388_481, 64
NO_LIMIT = 2**64 - 1  # of rounds
PAGE = 4_860  # the bytes of a page


class RowKind(IntEnum):
    AT_MOST = 0
    EQUAL = 1


class Clique(NamedTuple):
    """A row that says that at most one of some literals is true."""
    coefs: list
    rhs: int

    def literals(self):
        """Each variable of the clique with the value that it is meant at."""
        return [(j, a > 0) for j, a in enumerate(self.coefs) if a]


class Verdict(NamedTuple):
    """`ending` is inside; or outside, at the lowest variable; or breaks, the lowest row."""
    ending: str
    variable: int | None = None
    row: int | None = None

    def is_inside(self):
        return self.ending == "inside"


class Row(NamedTuple):
    """`kind` is a RowKind: 0 for a <= row and 1 for an = row."""
    coefs: list
    rhs: int
    kind: int


def book_size(trailer):
    """n and m of a book, from the 16 bytes of its trailer.

    >>> book = Model([0, 1, 0, 1], [3, 2], [4]).to_book()
    >>> book_size(book[-16:])
    (2, 1)
    """
    places = call("book_trailer", *Lent(trailer, "B", written=False).pair)
    return places[0], places[1]


def sparse_size(trailer):
    """n and m of a sparse book, from the 16 bytes of its trailer."""
    places = call("sparse_trailer", *Lent(trailer, "B", written=False).pair)
    return places[0], places[1]


def book_to_sparse(book):
    """Turns a book of the first edition into a sparse one; sparse_to_book gives back the same bytes."""
    lent = Lent(book, "B", written=False)
    sparse = bytearray(call("book_to_sparse_length", *lent.pair)[0])
    call_without_answer("book_to_sparse", *lent.pair, *Lent(sparse, "B").pair)
    return bytes(sparse)


def sparse_to_book(sparse):
    """Turns a sparse book whose rows are all <= rows into one of the first edition."""
    n, m = _size_or_none(sparse_size, sparse)
    book = bytearray(8 * n + m * (4 + 4 * n) + TRAILER_LEN)
    call_without_answer("sparse_to_book", *Lent(sparse, "B", written=False).pair, *Lent(book, "B").pair)
    return bytes(book)


def _size_or_none(size, book):
    """n and m of the book's trailer; 0 and 0 where it is refused: then the book's own checks, which come first, say why."""
    try:
        return size(bytes(memoryview(book)[-TRAILER_LEN:]))
    except Refusal:
        return 0, 0


class Model:
    """A model and its implication table. Lists are put into arrays; other buffers are the caller's and used in place."""

    def __init__(self, bounds, coefs, rhs, kinds=None, table=None):
        self._bounds, self._coefs, self._rhs = (Lent(numbers, "i") for numbers in (bounds, coefs, rhs))
        self.n, self.m = self._bounds.length // 2, self._rhs.length
        self._kinds = Lent(bytearray(self.m) if kinds is None else _bytes_of(kinds), "B")
        self._table = Lent(bytearray(4 * min(self.n, MAX_VARIABLES) ** 2) if table is None else table, "B")
        lent = (self._bounds, self._coefs, self._rhs, self._kinds, self._table)
        if any(one.overlaps(other) for index, one in enumerate(lent) for other in lent[:index]):
            raise ValueError("two of the buffers overlap")
        # The last check of this call is the row's number, which no model has: it is the refusal exactly where all else is right.
        try:
            self.propagate_row(2**32 - 1)
        except Refusal as refusal:
            if refusal.check != 12:
                raise

    @classmethod
    def from_book(cls, book):
        """Reads a book.

        >>> model = Model([0, 1, 0, 1], [3, 2], [4])
        >>> Model.from_book(model.to_book()) == model
        True
        >>> try: Model.from_book(b"no book")
        ... except Refusal as refusal: print(refusal.check, refusal.name)
        1 BookTooShort
        """
        return cls._read("book_read", book_size, book)

    @classmethod
    def from_sparse_book(cls, book):
        """Reads a sparse book, = rows too."""
        return cls._read("sparse_read", sparse_size, book)

    @classmethod
    def _read(cls, name, size, book):
        lent = Lent(book, "B", written=False)
        n, m = _size_or_none(size, book)
        buffers = [Lent([0] * count, "i") for count in (2 * n, m * n, m)] + [Lent(bytearray(m), "B")]
        call(name, *lent.pair, *(number for buffer in buffers for number in buffer.pair))
        return cls(*(buffer.owner for buffer in buffers))

    def to_book(self):
        """The bytes of the model's book; a model with an = row has none of the first edition."""
        book = bytearray(8 * self.n + self.m * (4 + 4 * self.n) + TRAILER_LEN)
        call_without_answer("book_write", *self._model(), *Lent(book, "B").pair)
        return bytes(book)

    def to_sparse_book(self):
        """The bytes of the model's sparse book, = rows too."""
        book = bytearray(call("sparse_length", *self._model())[0])
        call_without_answer("sparse_write", *self._model(), *Lent(book, "B").pair)
        return bytes(book)

    def _model(self):
        pairs = (self._bounds.pair, self._coefs.pair, self._rhs.pair, self._kinds.pair)
        return (self.n, self.m, *(number for pair in pairs for number in pair))

    def __eq__(self, other):
        buffers = ("bounds", "coefs", "rhs", "kinds", "table")
        return isinstance(other, Model) and all(list(getattr(self, name)) == list(getattr(other, name)) for name in buffers)

    @property
    def bounds(self):
        """l0 u0 l1 u1 ..; may be changed in place."""
        return self._bounds.owner

    @property
    def coefs(self):
        """The coefficients, row after row."""
        return self._coefs.owner

    @property
    def rhs(self):
        """The right-hand sides."""
        return self._rhs.owner

    @property
    def kinds(self):
        """0 for a <= row, 1 for an = row."""
        return self._kinds.owner

    @property
    def table(self):
        """The implication table: byte p * 2n + q is 1 when literal p implies literal q; literal 2k + v is "k is v"."""
        return self._table.owner

    def set_bounds(self, variable, lower, upper):
        flat = memoryview(self.bounds)
        flat[2 * variable], flat[2 * variable + 1] = lower, upper

    def set_rhs(self, row, rhs):
        memoryview(self.rhs)[row] = rhs

    def set_kind(self, row, kind):
        memoryview(self.kinds)[row] = kind

    def reset_table(self):
        """Makes every byte of the table 0, as it was at the start."""
        flat = memoryview(self.table).cast("B")
        flat[:] = bytes(len(flat))

    def rows(self):
        """The rows one after another.

        >>> next(Model([0, 1, 0, 1], [3, 2], [4]).rows())
        Row(coefs=[3, 2], rhs=4, kind=<RowKind.AT_MOST: 0>)
        """
        coefs = list(memoryview(self.coefs).cast("B").cast("i")) if self.m else []
        for i, (rhs, kind) in enumerate(zip(self.rhs, self.kinds)):
            yield Row(coefs[i * self.n:(i + 1) * self.n], int(rhs), RowKind(kind))

    def shared_rows(self):
        """The rows, to be shared by many boxes without a copy."""
        return Rows(self)

    def _prepare_into(self, workspace):
        """Checks the model and writes it into a workspace, for Prepared."""
        call_without_answer("prepare", *self._model(), *workspace.pair)

    def implies(self, k, v, j, w):
        """Whether "variable k is v" is recorded to imply "variable j is w"."""
        return memoryview(self.table).cast("B")[(2 * k + int(v)) * 2 * self.n + 2 * j + int(w)] == 1

    def is_empty_box(self):
        """Whether the box is the empty one: every lower bound 1, every upper bound 0."""
        return list(self.bounds) == [1, 0] * self.n

    def propagate_row(self, row):
        """Propagates one row over the box once (01's visit).

        >>> model = Model([-5, 5], [2], [-3])  # 2x <= -3
        >>> model.propagate_row(0), list(model.bounds)
        (RowPropagation(ending='tightened', moved=1), [-5, -2])
        """
        places = call("propagate_row", *self._model(), row)
        return RowPropagation(("infeasible", "tightened", "unchanged")[places[0]], places[1])

    def propagate(self, budget):
        """Propagates all rows until nothing moves or the budget's passes are made (01's settle)."""
        return Propagation.of(call("propagate", *self._model(), budget))

    def probe(self, variable, budget):
        """Probes a free binary variable, and records what each side implies.

        >>> model = Model([0, 1, 0, 1], [1, 1], [1])  # x + y <= 1
        >>> model.probe(0, 1_000).new_implications, model.implies(0, True, 1, False)
        (2, True)
        """
        return Probe.of(call("probe", *self._model(), *self._table.pair, variable, budget))

    def tighten_coefficient(self, row, variable):
        """Tightens a coefficient (01's sharpen); it then holds for this box and those inside it only.

        >>> model = Model([0, 1, 0, 1], [3, 2], [4])
        >>> model.tighten_coefficient(0, 0), list(model.coefs), list(model.rhs)
        ('changed', [1, 2], [2])
        """
        return ("infeasible", "changed", "unchanged")[call("tighten_coefficient", *self._model(), row, variable)[0]]

    def remove_redundant_row(self, row):
        """Zeroes a row that the box alone implies (01's drop); it is gone for this box and those inside it only."""
        return ("infeasible", "changed", "unchanged")[call("remove_redundant_row", *self._model(), row)[0]]

    def is_probing_fixpoint(self):
        """Whether no row and no probe carried to its end narrows anything (01's at rest).

        >>> Model([0, 1, 0, 1], [1, -1, 1, 1], [0, 1]).is_probing_fixpoint()
        Rest(yes=False, row=None, variable=0)
        """
        yes, by_variable, number, *_ = call("is_probing_fixpoint", *self._model())
        if yes:
            return Rest(True)
        return Rest(False, variable=number) if by_variable else Rest(False, row=number)

    def run(self, calls):
        """Makes the calls of a list one after another (01's run sheet); a refused one changes nothing.

        >>> model = Model([0, 5, 0, 5], [2, 0, -1, 1], [5, 0])
        >>> model.run([Call.propagate_row(1), Call.propagate_row(0), Call.propagate_row(7)])
        Counts(refused=1, infeasible=0, changed=1, unchanged=1)
        """
        places = call("run", *self._model(), *self._table.pair, *Call.lent(calls).pair)
        return Counts(*places[:4])

    def run_classes(self, calls):
        """As run, and what each call did, in the list's order: the counts are the counts of these classes.

        >>> model = Model([0, 5, 0, 5], [2, 0, -1, 1], [5, 0])
        >>> counts, classes = model.run_classes([Call.propagate_row(1), Call.propagate_row(0), Call.propagate_row(7)])
        >>> [one.name for one in classes], counts.changed
        (['UNCHANGED', 'CHANGED', 'REFUSED'], 1)
        """
        lent = Call.lent(calls)
        classes = Lent(bytearray(lent.length // 4), "B")
        places = call("run_classes", *self._model(), *self._table.pair, *lent.pair, *classes.pair)
        return Counts(*places[:4]), [Class(byte) for byte in classes.owner]

    def cliques(self):
        """The clique rows of the implication table; every integer point meets them."""
        coefs, rhs = Lent([0] * (2 * self.n * self.n), "i"), Lent([0] * (2 * self.n), "i")
        number = call("cliques", self.n, *self._table.pair, *coefs.pair, *rhs.pair)[0]
        flat = list(coefs.owner)
        return [Clique(flat[i * self.n:(i + 1) * self.n], rhs.owner[i]) for i in range(number)]

    def tie(self, ties, k, j):
        """Puts variable j away, where the table says that it is k or 1 - k: 'tied', and `ties` says so; else 'unchanged'."""
        places = Lent(ties.places, "H")
        return (None, "tied", "unchanged")[call("tie", *self._model(), *self._table.pair, *places.pair, k, j)[0]]

    def check_allocations(self, proposals):
        """Holds up to 64 proposals, each a number for each variable, against the model. They come as a list of proposals, or one
        after another in a buffer of 32-bit numbers, which is used in place.

        >>> model = Model([0, 1, 0, 1], [3, 2], [4])
        >>> [verdict.ending for verdict in model.check_allocations([[1, 0], [0, 2], [1, 1]])]
        ['inside', 'outside', 'breaks']
        """
        count = len(proposals) if isinstance(proposals, (list, tuple)) else None
        numbers = proposals if count is None else [number for proposal in proposals for number in proposal]
        flat = Lent(numbers, "i", written=False)
        count = flat.length // self.n if count is None else count
        told = Lent([0] * (2 * count), "I")
        call_without_answer("check_allocations", *self._model(), *flat.pair, count, *told.pair)
        pairs = zip(told.owner[::2], told.owner[1::2])
        return [(Verdict("inside"), Verdict("outside", variable=i), Verdict("breaks", row=i))[case] for case, i in pairs]

    def page_count(self):
        """The number of pages for the floor."""
        return call("page_count", self.n, *self._table.pair)[0]

    def pages(self):
        """The bounds and what each variable implies at 1, as pages of 60 lines of ASCII text."""
        pages = bytearray(PAGE * self.page_count())
        call_without_answer("write_pages", self.n, *self._bounds.pair, *self._table.pair, *Lent(pages, "B").pair)
        return bytes(pages)

    def rounds(self, limit=NO_LIMIT):
        """Makes the rounds of the program `reduce`, at most `limit` of them.

        >>> model = Model([0, 1, 0, 1], [3, 2], [4])  # 3x + 2y <= 4
        >>> model.rounds(8), list(model.coefs), list(model.rhs)  # x + y <= 1
        (Rounds(ending='unchanged', rounds=2, spent=False), [1, 1], [1])
        """
        if not 0 <= limit <= NO_LIMIT:
            raise ValueError("a limit is a number of 64 bits")
        case, rounds, spent, *_ = call("rounds", *self._model(), *self._table.pair, limit)
        return Rounds(("infeasible", "unchanged", "limit_reached")[case], rounds, spent == 1)


def _bytes_of(kinds):
    return bytearray(kinds) if isinstance(kinds, (list, tuple, bytes)) else kinds
