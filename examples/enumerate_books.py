#!/usr/bin/env python3
"""Enumerates small books and compares: what a user does by hand to believe that a reduced book is the raw one.

    PYTHONPATH=PREFIX/lib/python3/dist-packages python3 examples/enumerate_books.py [COUNT]

For each of COUNT small models (2,000 if no number is given), all points of its box before; then the book is written, read,
reduced, written and read again, and all points of it after. The two lists must be the same, "infeasible" must be said only
where the list is empty, and every recorded implication must hold at every point. The models are the same in every run.
"""
import itertools
import random
import sys

from astrolabe import Model


def points(model):
    """Every whole point of the box that meets every row."""
    bounds = list(model.bounds)
    ranges = [range(bounds[2 * j], bounds[2 * j + 1] + 1) for j in range(model.n)]
    rows = list(model.rows())

    def meets(point):
        sums = [(sum(a * x for a, x in zip(row.coefs, point)), row) for row in rows]
        return all(value == row.rhs if row.kind else value <= row.rhs for value, row in sums)

    return [point for point in itertools.product(*ranges) if meets(point)]


def small_model(source):
    """A model of 1 to 4 variables and 0 to 4 rows with small numbers, most variables 0 or 1."""
    n, m = source.randint(1, 4), source.randint(0, 4)
    bounds = []
    for _ in range(n):
        lower = source.choice([0, 0, 0, -2, 1])
        bounds += [lower, lower + source.choice([1, 1, 1, 0, 3])]
    coefs = [source.choice([0, 0, 1, -1, 2, -3, 5]) for _ in range(m * n)]
    return Model(bounds, coefs, [source.randint(-4, 6) for _ in range(m)])


def literals(point):
    """The numbers of the literals that hold at a point."""
    return {2 * j + x for j, x in enumerate(point) if x in (0, 1)}


def compare(model):
    """What is wrong with the reduced model, or nothing."""
    before = points(model)
    reduced = Model.from_book(model.to_book())
    ending = reduced.rounds(8).ending
    after = points(Model.from_book(reduced.to_book()))
    if before != after:
        return "the points differ"
    if ending == "infeasible" and before:
        return "infeasible is said where there is a point"
    implied = [divmod(place, 2 * model.n) for place, byte in enumerate(reduced.table) if byte]
    if any(p in literals(point) and q not in literals(point) for point in before for p, q in implied):
        return "an implication does not hold"
    return None


def main(count):
    source = random.Random(2)
    found, kept = 0, 0
    for number in range(count):
        model = small_model(source)
        kept += len(points(model))
        wrong = compare(model)
        if wrong:
            found += 1
            print(f"model {number}: {wrong}: {list(model.bounds)} {list(model.rows())}")
    print(f"{count:,} small books, {kept:,} integer points before and after, {found} differences")
    return 1 if found else 0


if __name__ == "__main__":
    sys.exit(main(int(sys.argv[1]) if len(sys.argv) > 1 else 2_000))
