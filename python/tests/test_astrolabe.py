"""The module's tests: `python3 -m unittest discover -s python/tests`, with `python` on PYTHONPATH. The doctests run too."""
import copy
import doctest
import random
import re
import threading
import unittest
from array import array
from pathlib import Path

import astrolabe
from astrolabe import Bound, Call, CircularTies, Class, Clique, Model, Prepared, Probed, Propagated, Refusal, RowKind, Ties, Verdict
from astrolabe import _library, calls, plan, prepared, shared, ties

try:
    import numpy
except ImportError:
    numpy = None

ROOT = Path(__file__).resolve().parents[2]
HEADER = ROOT / "include" / "astrolabe.h"


def load_tests(loader, tests, pattern):
    for module in (astrolabe, calls, plan, prepared, shared, ties):
        tests.addTests(doctest.DocTestSuite(module, optionflags=doctest.IGNORE_EXCEPTION_DETAIL))
    return tests


def check_of(make):
    try:
        make()
    except Refusal as refusal:
        return refusal.check
    return 0


class Buffers(unittest.TestCase):
    def test_an_array_is_used_in_place(self):
        bounds = array("i", [0, 5, 0, 5])
        model = Model(bounds, array("i", [2, 0, -1, 1]), array("i", [5, 0]))
        model.propagate(1_000)
        self.assertEqual(list(bounds), [0, 2, 0, 2])
        self.assertIs(model.bounds, bounds)

    def test_rows_are_shared_by_boxes_and_threads(self):
        root = Model([0, 1] * 3, [2, 3, 4], [5])
        boxes = [array("i", [0, 1, 0, 1, v, v]) for v in (0, 1)]
        branches = [Model(box, root.coefs, root.rhs, root.kinds) for box in boxes]
        threads = [threading.Thread(target=branch.propagate, args=(1_000,)) for branch in branches]
        for thread in threads:
            thread.start()
        for thread in threads:
            thread.join()
        self.assertEqual([list(box) for box in boxes], [[0, 1, 0, 1, 0, 0], [0, 0, 0, 0, 1, 1]])

    def test_shared_rows_take_buffers_only(self):
        rows = Model([0, 1] * 3, [2, 3, 4], [5]).shared_rows()
        box, table = array("i", [0, 1, 0, 1, 1, 1]), bytearray(36)
        self.assertEqual(rows.run_classes(box, table, [Call.propagate(10)])[1], [Class.CHANGED])
        self.assertEqual(rows.run(box, table, [Call.propagate(10)]).unchanged, 1)
        self.assertEqual((rows.propagate_row(box, 0).ending, rows.is_probing_fixpoint(box).yes), ("unchanged", True))
        with self.assertRaises(TypeError):
            rows.propagate([0, 1] * 3, 10)

    def test_a_table_is_lent_and_reset(self):
        table = bytearray(16)
        model = Model([0, 1, 0, 1], [1, 1], [1], table=table)
        model.probe(0, 1_000)
        self.assertEqual(sum(table), 2)
        model.reset_table()
        self.assertEqual(sum(table), 0)

    def test_wrong_buffers_are_turned_back(self):
        for numbers in (array("q", [0, 1]), array("f", [0, 1]), array("h", [0, 1]), b"\0" * 8, memoryview(array("i", [0, 1, 2, 3]))[::2]):
            with self.assertRaises(TypeError):
                Model(numbers, [], [])
        with self.assertRaises(TypeError):
            Model(memoryview(bytearray(20))[2:18].cast("i"), [], [])  # not aligned
        shared = array("i", [0, 1, 0, 1])
        with self.assertRaises(ValueError):
            Model(shared, memoryview(shared)[:2], [1])
        with self.assertRaises(OverflowError):
            Model([0, 2**40], [], [])

    def test_a_book_is_read_from_whatever_holds_bytes(self):
        book = Model([0, 1, 0, 1], [3, 2], [4]).to_book()
        for kept in (book, bytearray(book), memoryview(book), array("B", book), memoryview(b"x" + book)[1:]):
            self.assertEqual(list(Model.from_book(kept).coefs), [3, 2])

    def test_nothing_is_copied(self):
        held = bytes(range(100))
        whole = _library.Lent(held, "B", written=False)
        part = _library.Lent(memoryview(held)[10:20], "B", written=False)
        self.assertEqual((part.pair[0].value - whole.pair[0].value, part.length), (10, 10))
        self.assertTrue(whole.overlaps(part))

    @unittest.skipUnless(numpy, "left out: numpy is not installed")
    def test_numpy_is_used_in_place(self):
        bounds = numpy.array([[0, 5], [0, 5]], dtype=numpy.int32)
        coefs = numpy.array([[2, 0], [-1, 1]], dtype=numpy.int32)
        model = Model(bounds, coefs, numpy.array([5, 0], dtype=numpy.int32))
        model.propagate(1_000)
        self.assertEqual(bounds.tolist(), [[0, 2], [0, 2]])
        with self.assertRaises(TypeError):
            Model(numpy.array([0, 1]), [], [])  # 64 bits
        with self.assertRaises(TypeError):
            Model(numpy.zeros((2, 4), dtype=numpy.int32)[:, ::2], [], [])


class Refusals(unittest.TestCase):
    def test_the_number_is_carried_and_nothing_changes(self):
        cases = [
            (3, [], [], []),
            (5, [0, 1, 0, 1], [3], [4]),
            (6, [0, 40_000], [], []),
            (7, [2, 1], [], []),
            (23, [0, 4_097], [], []),
            (8, [0, 1], [2_000_000], [0]),
            (9, [0, 1], [1], [2_000_000_000]),
        ]
        for check, *buffers in cases:
            self.assertEqual(check_of(lambda: Model(*buffers)), check)
        self.assertEqual(check_of(lambda: Model([0, 1], [1], [1], [2])), 16)
        self.assertEqual(check_of(lambda: Model([0, 1], [1], [1], [1]).to_book()), 17)
        model = Model([0, 5], [2], [5])
        for check, make in [(12, lambda: model.propagate_row(1)), (13, lambda: model.probe(1, 1)),
                            (14, lambda: model.probe(0, 1)), (15, lambda: model.propagate(0))]:
            self.assertEqual(check_of(make), check)
        model.set_bounds(0, 0, 9_000)
        self.assertEqual((check_of(lambda: model.propagate(1)), list(model.bounds)), (23, [0, 9_000]))

    def test_books_in_pieces(self):
        book = Model([0, 1, 0, 1], [3, 2], [4]).to_book()
        self.assertEqual([check_of(lambda: Model.from_book(book[i:])) for i in (0, 1, 29)], [0, 2, 1])
        self.assertEqual(check_of(lambda: Model.from_book(b"")), 1)
        self.assertEqual(check_of(lambda: Model.from_book(bytes(100))), 2)

    def test_text_and_name(self):
        self.assertEqual(str(Refusal(6)), "refused by check 6: a bound is outside -32768 to 32767")
        self.assertEqual(Refusal(23).name, "VariableTooWide")


class Calls(unittest.TestCase):
    def test_an_equality_row(self):
        model = Model([0, 1] * 3, [30, 25, 20], [45], [RowKind.EQUAL])
        self.assertEqual(model.probe(0, 1_000).value, 0)
        self.assertEqual(list(model.bounds), [0, 0, 1, 1, 1, 1])

    def test_infeasible_is_the_empty_box(self):
        model = Model([0, 1, 0, 1], [-1, -1, 1, 1], [-2, 1])
        self.assertEqual(model.propagate(1_000), ("infeasible", 1, 2))
        self.assertTrue(model.is_empty_box())
        self.assertEqual(model.rounds(8).ending, "infeasible")

    def test_a_list_refuses_what_changes_rows(self):
        model = Model([0, 1, 0, 1], [3, 2], [4])
        retired = [Call.tighten_coefficient(0, 0), Call.remove_redundant_row(0)]
        self.assertEqual(model.run([*retired, Call(9), Call.propagate(10)]), (3, 0, 0, 1))
        self.assertEqual(model.run(array("I", [2, 0, 0, 10])), (0, 0, 0, 1))
        self.assertEqual(model.run([]), (0, 0, 0, 0))
        self.assertEqual(model.run_classes([]), ((0, 0, 0, 0), []))
        self.assertEqual(check_of(lambda: model.run(array("I", [2, 0, 0]))), 5)

    def test_set_rhs_and_removal(self):
        model = Model([0, 9], [2], [15])
        model.set_rhs(0, 5)
        model.propagate(1_000)
        self.assertEqual(list(model.bounds), [0, 2])
        self.assertEqual(model.remove_redundant_row(0), "changed")
        self.assertTrue(Model([0, 2], [0], [0]).is_probing_fixpoint().yes)


class Requests(unittest.TestCase):
    """The calls of 02's later requests."""

    def test_sparse_books(self):
        model = Model([0, 1] * 3, [1, 2, 0], [2], [1])
        book = model.to_sparse_book()
        self.assertEqual((len(book), Model.from_sparse_book(book) == model), (8 * 3 + 7 + 2 * 6 + 16, True))
        self.assertEqual(check_of(lambda: astrolabe.sparse_to_book(book)), 17)
        first = Model([0, 1, 0, 1], [3, 0], [4]).to_book()
        self.assertEqual(astrolabe.sparse_to_book(astrolabe.book_to_sparse(first)), first)
        self.assertEqual(check_of(lambda: Model.from_sparse_book(b"short")), 1)

    def test_cliques(self):
        model = Model([0, 1] * 3, [1, 1, 0, 1, 0, 1, 0, 1, 1], [1, 1, 1])
        self.assertEqual(model.cliques(), [])
        for variable in range(3):
            model.probe(variable, 1_000)
        self.assertEqual(model.cliques(), [([1, 1, 1], 1)])
        self.assertEqual(Clique([1, 0, -1], 0).literals(), [(0, True), (2, False)])

    def test_ties(self):
        model = Model([0, 1] * 3, [1, -1, 0, 2, 3, 1], [0, 5], [1, 0])
        model.probe(0, 1_000)
        tied = Ties(model.n)
        self.assertEqual((model.tie(tied, 0, 1), list(model.coefs)), ("tied", [0, 0, 0, 5, 0, 1]))
        self.assertEqual((tied.literal(1), tied.expand([1, 0, 0])), ((0, True), [1, 1, 0]))
        self.assertEqual(model.tie(tied, 0, 1), "unchanged")
        with self.assertRaises(CircularTies) as circle:
            Ties.from_places([0, 6, 4]).expand([0, 0, 0])
        self.assertEqual(circle.exception.variable, 1)
        self.assertEqual(check_of(lambda: Ties.from_places([0, 5])), 21)
        stored = array("H", [6, 1, 0])
        self.assertIs(Ties.from_places(stored).places, stored)

    def test_allocations(self):
        model = Model([0, 1, 0, 1], [3, 2], [4])
        verdicts = model.check_allocations([[1, 0], [0, 2], [1, 1]])
        self.assertEqual(verdicts, [Verdict("inside"), Verdict("outside", variable=1), Verdict("breaks", row=0)])
        self.assertEqual([verdict.is_inside() for verdict in verdicts], [True, False, False])
        self.assertEqual(model.check_allocations(array("i", [1, 0, 0, 2, 1, 1])), verdicts)
        self.assertEqual(check_of(lambda: model.check_allocations(array("i", [1, 0, 0]))), 5)
        self.assertEqual(check_of(lambda: model.check_allocations([[0, 0]] * 65)), 22)
        self.assertEqual(check_of(lambda: model.check_allocations([[0]])), 5)

    def test_pages(self):
        model = Model([0, 1, 0, 1], [1, 1], [1])
        model.rounds(8)
        lines = model.pages().decode("ascii").splitlines()
        self.assertEqual((model.page_count(), len(lines), lines[1].rstrip()), (1, 60, "     0       0       1 -1"))


class PreparedModels(unittest.TestCase):
    """The calls at every branch say, count and leave what the plain ones do."""

    @staticmethod
    def small():
        """x + y + z <= 2, x >= y and 2x + 3z = 3, all binary."""
        return Model([0, 1] * 3, [1, 1, 1, -1, 1, 0, 2, 0, 3], [2, 0, 3], [0, 0, 1])

    def test_a_walk_down_and_up_is_that_of_the_plain_calls(self):
        numbers, endings = random.Random(31), set()
        for _ in range(40):
            n, m = numbers.randint(1, 12), numbers.randint(0, 8)
            coefs = [numbers.choice((0, 0, numbers.randint(-9, 9))) for _ in range(m * n)]
            rhs, kinds = [numbers.randint(-5, 12) for _ in range(m)], [int(numbers.random() < 0.2) for _ in range(m)]
            root = Model([0, 1] * n, coefs, rhs, kinds)
            model, path = Prepared(root), [array("i", root.bounds)]
            for _ in range(40):
                box = array("i", path[-1])
                j = numbers.randrange(n)
                box[2 * j + numbers.randrange(2)] = box[2 * j + numbers.randrange(2)]
                box[2 * j], box[2 * j + 1] = sorted(box[2 * j:2 * j + 2])
                if numbers.random() < 0.1:
                    model = model.copy()
                ending = self.compare(numbers, root, model, box)
                endings.add(ending)
                if ending == "infeasible" or numbers.random() < 0.2:
                    del path[numbers.randint(1, len(path)):]  # up, by any number of branches
                else:
                    path.append(box)
        self.assertEqual(endings, {"converged", "budget_spent", "infeasible", "fixed", "both_feasible"})

    def compare(self, numbers, root, model, box):
        """One call on the box, plain and prepared; the ending."""
        before, rows, budget = list(box), (root.coefs, root.rhs, root.kinds), numbers.choice((1, 1_000))
        free = [k for k in range(root.n) if before[2 * k:2 * k + 2] == [0, 1]]
        if free and numbers.random() < 0.3:
            plain, table, variable = Model(before, *rows), bytearray(4 * root.n**2), numbers.choice(free)
            if numbers.random() < 0.3:
                told = model.probe(box, table, variable, budget)
            else:
                traced = model.probe_with_reasons(box, table, variable, budget)
                told = traced.probe
                for value, side in enumerate(told.sides):
                    fixed = before[:2 * variable] + [value, value] + before[2 * variable + 2:]
                    by_rows = self.by_rows(Model(fixed, *rows), side.passes)
                    self.assertEqual((traced.infeasible_rows[value], traced.reasons[value]), by_rows)
            self.assertEqual((told, list(box), table), (plain.probe(variable, budget), list(plain.bounds), plain.table))
            return told.ending
        plain = Model(before, *rows)
        told = model.propagate(box, budget)
        self.assertEqual((told.propagation, list(box)), (plain.propagate(budget), list(plain.bounds)))
        self.assertEqual((told.infeasible_row, told.reasons), self.by_rows(Model(before, *rows), told.propagation.passes))
        return told.propagation.ending

    @staticmethod
    def by_rows(model, passes):
        """The infeasible row and the reasons, by the plain call on one row after another."""
        reasons = array("I", [_library.NO_ROW] * (2 * model.n))
        for row in [*range(model.m)] * passes:
            before = list(model.bounds)
            if model.propagate_row(row).ending == "infeasible":
                return row, reasons
            for i, (old, new) in enumerate(zip(before, model.bounds)):
                reasons[i] = row if old != new else reasons[i]
        return None, reasons

    def test_reasons_and_the_infeasible_row(self):
        model = Prepared(self.small())
        box = array("i", [0, 1] * 3)
        told = model.propagate(box, 1_000)  # row 2: z is 1 and x is 0; then row 1: y is 0
        self.assertEqual(list(told.moved()), [(0, Bound.UPPER, 2), (1, Bound.UPPER, 1), (2, Bound.LOWER, 2)])
        self.assertEqual((list(box), told.infeasible_row), ([0, 0, 0, 0, 1, 1], None))
        box = array("i", [0, 1, 1, 1, 0, 1])  # up again: y is 1, so x is 1 by row 1, and row 2 cannot be met
        told = model.propagate(box, 1_000)
        self.assertEqual((told.propagation.ending, told.infeasible_row, next(told.moved())), ("infeasible", 2, (0, Bound.LOWER, 1)))
        told = model.propagate(box, 1_000)  # the empty box
        self.assertEqual((told.propagation, told.infeasible_row, list(told.moved())), (("infeasible", 1, 0), None, []))

    def test_reasons_of_the_sides_of_a_probe(self):
        model, box = Prepared(self.small()), array("i", [0, 1] * 3)
        told = model.probe_with_reasons(box, bytearray(36), 1, 1_000)
        self.assertEqual(list(told.moved(0)), [(0, Bound.UPPER, 2), (2, Bound.LOWER, 2)])
        self.assertEqual((next(told.moved(1)), told.infeasible_rows), ((0, Bound.LOWER, 1), (None, 2)))
        told = model.probe_with_reasons(array("i", [1, 0] * 3), bytearray(36), 1, 1_000)  # the empty box: no side is tried
        self.assertEqual((list(told.moved(0)), list(told.moved(1)), told.infeasible_rows), ([], [], (None, None)))
        with self.assertRaises(ValueError):
            told.moved(2)

    def test_a_copy_goes_its_own_way_and_threads_have_one_each(self):
        root = Prepared(self.small())
        boxes = [array("i", [0, 1, v, v, 0, 1]) for v in (0, 1)]
        kept = list(root._workspace.owner)
        copies = [root.copy(), copy.deepcopy(root)]
        threads = [threading.Thread(target=one.propagate, args=(box, 9)) for one, box in zip(copies, boxes)]
        for thread in threads:
            thread.start()
        for thread in threads:
            thread.join()
        self.assertEqual([list(box) for box in boxes], [[0, 0, 0, 0, 1, 1], [1, 0] * 3])
        self.assertEqual((list(root._workspace.owner), copies[0].n), (kept, 3))

    def test_refusals_and_wrong_buffers(self):
        crossed = self.small()
        crossed.set_bounds(0, 2, 1)
        self.assertEqual(check_of(lambda: Prepared(crossed)), 7)
        model, table = Prepared(self.small()), bytearray(36)
        cases = [(5, [0, 1, 0, 1], 1), (6, [0, 1, 0, 1, 0, 40_000], 0), (7, [0, 1, 0, 1, 1, 0], 0), (23, [0, 1, 0, 1, 0, 4_097], 0),
                 (15, [0, 1] * 3, 0)]
        for check, bounds, budget in cases:
            box = array("i", bounds)
            self.assertEqual((check_of(lambda: model.propagate(box, budget)), list(box)), (check, bounds))
        box = array("i", [0, 1, 0, 0, 0, 1])
        self.assertEqual([check_of(lambda: model.probe(box, table, k, 0)) for k in (3, 1, 0)], [13, 14, 15])
        for wrong in ([0, 1] * 3, array("q", [0, 1] * 3), bytes(24)):
            with self.assertRaises(TypeError):
                model.propagate(wrong, 1)
        shared_memory = bytearray(36)
        with self.assertRaises(ValueError):
            model.probe(memoryview(shared_memory)[:24].cast("i"), shared_memory, 0, 1)

    def test_a_workspace_that_is_not_ours_is_refused(self):
        for place in range(3):
            model, box = Prepared(self.small()), array("i", [0, 1] * 3)
            model._workspace.owner[place] ^= 2**31
            self.assertEqual((check_of(lambda: model.propagate(box, 9)), list(box)), (5, [0, 1] * 3))
            self.assertEqual(check_of(lambda: model.probe(box, bytearray(36), 0, 9)), 5)


class Header(unittest.TestCase):
    """The module says what include/astrolabe.h says."""

    @unittest.skipUnless(HEADER.exists(), "left out: the header is not beside this folder")
    def test_version_limits_refusals_and_functions(self):
        text = HEADER.read_text(encoding="utf-8")
        constants = dict(re.findall(r"^#define ASTROLABE_(\w+) (\d+)\b", text, re.M))
        version = ".".join(constants["VERSION_" + part] for part in ("MAJOR", "MINOR", "PATCH"))
        self.assertEqual(version, astrolabe.VERSION)
        self.assertEqual(int(constants["ANSWER_LEN"]), _library.ANSWER_LEN)
        self.assertEqual(int(constants["WORKSPACE_LEN"]), _library.WORKSPACE_LEN)
        self.assertIn(f"#define ASTROLABE_NO_ROW {_library.NO_ROW}u\n", text)
        for name in ("MAX_VARIABLES", "MAX_ROWS", "MAX_WIDTH", "MAX_BUDGET"):
            self.assertEqual(int(constants[name]), getattr(astrolabe, name))
        refusals = {int(number) for name, number in constants.items() if name.startswith("REFUSED_")}
        self.assertEqual(refusals - set(_library._REASONS), set())
        functions = set(re.findall(r"^uint32_t astrolabe_(\w+)\(", text, re.M))
        self.assertEqual(functions - set(_library._ARGUMENTS), set())
        self.assertTrue(all(hasattr(_library._LIBRARY, "astrolabe_" + name) for name in functions))

    @unittest.skipUnless(HEADER.exists(), "left out: the header is not beside this folder")
    def test_each_function_takes_as_many_arguments(self):
        text = HEADER.read_text(encoding="utf-8")
        for name, arguments in re.findall(r"^uint32_t astrolabe_(\w+)\((.*?)\);", text, re.M | re.S):
            self.assertEqual(arguments.count(",") + 1, len(_library._ARGUMENTS[name]), name)


class Wrapper(unittest.TestCase):
    """The module has the names of the Rust wrapper."""

    # Rust's name, and what Python has in its place.
    OTHERWISE = {
        "new": "the class is called",
        "with_kinds": "the class is called",
        "bounds_mut": "the buffer is the caller's",
        "table_mut": "the buffer is the caller's",
        "Outcome": "the words infeasible, changed, unchanged",
        "Tie": "the words tied, unchanged",
    }

    @unittest.skipUnless((ROOT / "rust/src").exists(), "left out: the wrapper is not beside this folder")
    def test_every_public_name_is_there(self):
        texts = [path.read_text(encoding="utf-8") for path in (ROOT / "rust/src").glob("*.rs") if path.name != "ffi.rs"]
        item = r"^ *pub (?:const fn|fn|const|struct|enum) (\w+)"
        names = {name for text in texts for name in re.findall(item, text, re.M)} - set(self.OTHERWISE)
        owners = [astrolabe, plan, Model, Call, Ties, Refusal, Verdict, Clique, Prepared, Probed, Propagated, Refusal(1), Ties(1)]
        owners.append(Model([0, 1], [], []))
        missing = {name for name in names if not any(hasattr(owner, name) for owner in owners)}
        self.assertEqual(missing, set())

    @unittest.skipUnless((ROOT / "rust/src").exists(), "left out: the wrapper is not beside this folder")
    def test_refusals_have_the_same_names(self):
        text = (ROOT / "rust/src/refusal.rs").read_text(encoding="utf-8")
        body = re.search(r"pub enum Refusal \{(.*?)^\}", text, re.M | re.S)[1]
        rust = set(re.findall(r"^    (\w+)(?: = \d+)?,", body, re.M))
        self.assertEqual(rust - {name for name, _ in _library._REASONS.values()}, set())


if __name__ == "__main__":
    unittest.main()
