"""The shared library, its functions, and buffers that are lent to it without copying. Outside the proofs."""
import array
import ctypes
import os

VERSION = "0.1.0"
ANSWER_LEN = 12
TRAILER_LEN = 16
WORKSPACE_LEN = 16_768
NO_ROW = 2**32 - 1

_SONAME = "libastrolabe.so." + VERSION.rsplit(".", 1)[0]


def _load():
    """ASTROLABE_LIBRARY names the file; else the one that ./install put beside this module; else the system's."""
    named = os.environ.get("ASTROLABE_LIBRARY")
    if named:
        return ctypes.CDLL(named)
    here = os.path.dirname(os.path.abspath(__file__))
    installed = os.path.join(here, "..", "..", "..", _SONAME)  # PREFIX/lib/python3/dist-packages/astrolabe
    if os.path.exists(installed):
        return ctypes.CDLL(installed)
    try:
        return ctypes.CDLL(_SONAME)
    except OSError as error:
        raise ImportError(f"{_SONAME} is not found: ./install PREFIX puts it in place, ASTROLABE_LIBRARY names it") from error


_SIZE = [ctypes.c_size_t]
_BUFFER = [ctypes.c_void_p, ctypes.c_size_t]
_NUMBER = [ctypes.c_uint32]
_LONG = [ctypes.c_uint64]
_MODEL = 2 * _SIZE + 4 * _BUFFER  # n, m, bounds, coefs, rhs, kinds
_ANSWER = _BUFFER

# The arguments of each function of include/astrolabe.h.
_ARGUMENTS = {
    "propagate_row": _MODEL + _NUMBER + _ANSWER,
    "propagate": _MODEL + _NUMBER + _ANSWER,
    "probe": _MODEL + _BUFFER + 2 * _NUMBER + _ANSWER,
    "tighten_coefficient": _MODEL + 2 * _NUMBER + _ANSWER,
    "remove_redundant_row": _MODEL + _NUMBER + _ANSWER,
    "is_probing_fixpoint": _MODEL + _ANSWER,
    "run": _MODEL + 2 * _BUFFER + _ANSWER,
    "run_classes": _MODEL + 3 * _BUFFER + _ANSWER,
    "rounds": _MODEL + _BUFFER + _LONG + _ANSWER,
    "prepare": _MODEL + _BUFFER,
    "prepared_propagate": 2 * _BUFFER + _NUMBER + _BUFFER + _ANSWER,
    "prepared_probe": 3 * _BUFFER + 2 * _NUMBER + _BUFFER + _ANSWER,
    "plan_lengths": _BUFFER + _ANSWER,
    "plan_width": _SIZE + _BUFFER + _ANSWER,
    "plan_run": _SIZE + 2 * _BUFFER + _ANSWER,
    "book_trailer": _BUFFER + _ANSWER,
    "book_read": 5 * _BUFFER + _ANSWER,
    "book_write": _MODEL + _BUFFER,
    "sparse_trailer": _BUFFER + _ANSWER,
    "sparse_read": 5 * _BUFFER + _ANSWER,
    "sparse_write": _MODEL + _BUFFER,
    "sparse_length": _MODEL + _ANSWER,
    "book_to_sparse_length": _BUFFER + _ANSWER,
    "book_to_sparse": 2 * _BUFFER,
    "sparse_to_book": 2 * _BUFFER,
    "cliques": _SIZE + 3 * _BUFFER + _ANSWER,
    "tie": _MODEL + 2 * _BUFFER + 2 * _NUMBER + _ANSWER,
    "check_allocations": _MODEL + _BUFFER + _NUMBER + _BUFFER,
    "page_count": _SIZE + _BUFFER + _ANSWER,
    "write_pages": _SIZE + 3 * _BUFFER,
}

_REASONS = {
    1: ("BookTooShort", "the book has under 16 bytes"),
    2: ("BookLengthMismatch", "the trailer's length is not the book's"),
    3: ("SizeOutOfRange", "n is not 1 to 128, or m is over 120"),
    4: ("BookLayout", "an offset or the length is not what n and m give"),
    5: ("BufferLength", "a buffer has not exactly the length needed"),
    6: ("BoundOutOfRange", "a bound is outside -32768 to 32767"),
    7: ("BoundsCrossed", "a lower bound is above its upper in a box that is not empty"),
    8: ("CoefficientOutOfRange", "a coefficient is outside -1000000 to 1000000"),
    9: ("RightHandSideOutOfRange", "a right-hand side is outside -1000000000 to 1000000000"),
    10: ("TableByte", "a table byte is neither 0 nor 1"),
    11: ("UnknownKind", "the kind is not 1 to 5"),
    12: ("NoSuchRow", "the row is not below m"),
    13: ("NoSuchVariable", "the variable is not below n"),
    14: ("VariableNotFree", "the variable is not free binary"),
    15: ("BudgetOutOfRange", "the budget is not 1 to 8388481"),
    16: ("RowKind", "a kind byte is above 1"),
    17: ("EqualityRow", "a book of the first edition holds no = row"),
    18: ("RetiredKind", "the kind is retired from call lists"),
    19: ("SparseColumn", "a column is not below n or not above the one before"),
    20: ("SparseZero", "an entry of a sparse book has the coefficient 0"),
    21: ("TiePlace", "a place of the tie list is above 2n"),
    22: ("ProposalCount", "the count of proposals is not 1 to 64"),
    23: ("VariableTooWide", "a variable is over 4096 wide"),
}


class Refusal(Exception):
    """The first check that failed. A refused call changes nothing. `check` is its number, `name` as in Rust."""

    def __init__(self, check):
        self.check = check
        self.name, reason = _REASONS.get(check, ("Unknown", "a check that this module does not know"))
        super().__init__(f"refused by check {check}: {reason}")


def _declared(library):
    for name, arguments in _ARGUMENTS.items():
        function = getattr(library, "astrolabe_" + name)
        function.argtypes, function.restype = arguments, ctypes.c_uint32
    return library


_LIBRARY = _declared(_load())


class _PyBuffer(ctypes.Structure):
    """CPython's Py_buffer."""
    _fields_ = [("buf", ctypes.c_void_p), ("obj", ctypes.c_void_p), ("len", ctypes.c_ssize_t), ("itemsize", ctypes.c_ssize_t),
                ("readonly", ctypes.c_int), ("ndim", ctypes.c_int), ("format", ctypes.c_char_p), ("shape", ctypes.c_void_p),
                ("strides", ctypes.c_void_p), ("suboffsets", ctypes.c_void_p), ("internal", ctypes.c_void_p)]


class _Pointer(ctypes.c_void_p):
    """Where a view's memory starts. It keeps the view, and with it the memory, as long as it is an argument itself."""

    def __init__(self, view):
        buffer = _PyBuffer()
        ctypes.pythonapi.PyObject_GetBuffer(ctypes.py_object(view), ctypes.byref(buffer), 0)  # 0: PyBUF_SIMPLE
        ctypes.pythonapi.PyBuffer_Release(ctypes.byref(buffer))
        super().__init__(buffer.buf)
        self.view = view


class Lent:
    """A buffer of numbers of one size, lent as it is: the caller's memory is what the library reads and writes.

    `code` is array's: i for 32 bits with a sign, I without, H for 16, B for bytes. A list, a tuple or a range is put into an array
    first. Whatever has the buffer protocol (array, bytes, bytearray, memoryview, numpy) is taken without copying, if its
    numbers have that size and stand one after another. What cannot be written (bytes) is taken only where `written` is false.
    """

    def __init__(self, source, code, written=True):
        self.owner = array.array(code, source) if isinstance(source, (list, tuple, range)) else source
        view = memoryview(self.owner)
        size = array.array(code).itemsize
        if view.itemsize != size or not view.c_contiguous or view.format.lstrip("@<=") not in self._formats(code):
            raise TypeError(f"a buffer of {view.format!r} where numbers of {size} bytes one after another are needed")
        self.length = view.nbytes // size
        if view.readonly and written:
            raise TypeError("this buffer cannot be written")
        self._pointer = _Pointer(view) if self.length else None
        if self.length and self._pointer.value % size:
            raise TypeError(f"a buffer that does not start at a multiple of {size} bytes")

    @staticmethod
    def _formats(code):
        return {"i": ("i", "l"), "I": ("I", "L"), "H": ("H",), "B": ("B", "b", "?", "c")}[code]

    def overlaps(self, other):
        if not self.length or not other.length:
            return False  # no memory at all
        (mine, mine_end), (its, its_end) = self._span(), other._span()
        return mine < its_end and its < mine_end

    def _span(self):
        return self._pointer.value, self._pointer.value + self._pointer.view.nbytes

    @property
    def pair(self):
        """Pointer and count, as two arguments of a call."""
        return self._pointer, self.length


def call(name, *arguments):
    """Makes a call with an answer; gives the twelve places, or raises the refusal."""
    answer = (ctypes.c_uint64 * ANSWER_LEN)()
    check = getattr(_LIBRARY, "astrolabe_" + name)(*arguments, ctypes.addressof(answer), ANSWER_LEN)
    if check:
        raise Refusal(check)
    return list(answer)


def call_without_answer(name, *arguments):
    check = getattr(_LIBRARY, "astrolabe_" + name)(*arguments)
    if check:
        raise Refusal(check)
