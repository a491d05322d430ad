#!/usr/bin/env python3
"""A second solver, apart from lp's: the two-phase bounded simplex by Bland's rule on a whole table of exact fractions.

Run by itself it reads a deck and prints its report. The words may be --log, --greatest (the deck asks for the greatest objective),
--budget N and --width W (a number of bits that numerators and denominators stay within).

An instance has n structural columns, m logicals and m artificials. The logical of row i lies so that it and the activity make the right side; the artificial
stands in for it where the first residual is past an end of the logical. Phase 1 makes the artificials small, phase 2 the objective. The least column that may
better the objective enters; the limit that comes first decides, and among equal ones that of the least column (Bland 1977).
"""
import sys
from dataclasses import dataclass
from fractions import Fraction

from second_checker import fits, fraction_text, logical_ends
from second_reader import Fault, read

ZERO, ONE = Fraction(0), Fraction(1)
# The kinds of values, and those that a solver by factors has too, which has no table and no row of reduced costs.
KINDS = frozenset(("start", "entry", "value", "ratio", "cost", "total"))
WITHOUT_TABLE = KINDS - {"entry", "cost"}


class Overflow(Exception):
    """The first value that does not fit: its number, kind, row and column."""

    @property
    def kind(self):
        return self.args[1]

    def __str__(self):
        number, kind, row, column = self.args
        return f"lp: overflow at number {number}, {kind}, row {'-' if row is None else row}, column {'-' if column is None else column}"


class Spent(Exception):
    """The budget of moves is spent, and the next entry is a move."""


@dataclass
class Solved:
    """How a run ended: the outcome, its lists of numbers, and the log."""

    outcome: str
    objective: Fraction | None
    values: list
    prices: list
    ray: list
    log: list
    basic: list
    upper: list


class Run:
    """A table at a state of the run: for each position the row in terms of the basis and the basic value, for each column the reduced cost."""

    def __init__(self, deck, width, kinds):
        self.deck, self.width, self.kinds, self.number = deck, width, kinds, 0
        self.m, self.n = len(deck.rows), len(deck.columns)
        self.all = self.n + 2 * self.m
        self.log, self.phase = [], 2
        self.ends = [(column.lower, column.upper) for column in deck.columns] + [logical_ends(row) for row in deck.rows]
        self.ends += [(ZERO, ZERO)] * self.m
        self.status = [self.first_status(*ends) for ends in self.ends[: self.n]] + ["LOWER"] * 2 * self.m
        self.start()
        self.price_all()

    @staticmethod
    def first_status(lower, upper):
        return "LOWER" if lower is not None else "UPPER" if upper is not None else "ZERO"

    def put(self, value, kind, row, column):
        if kind in self.kinds and not fits(value, self.width):
            raise Overflow(self.number, kind, row, column)
        return value

    def rest(self, j):
        """The value of a column that is not basic."""
        return {"LOWER": self.ends[j][0], "UPPER": self.ends[j][1], "ZERO": ZERO}[self.status[j]]

    def start(self):
        n, m = self.n, self.m
        self.basis, self.value, self.table = [], [], []
        self.needed, signs = set(), []
        by_row = [[] for _ in range(m)]
        for j, column in enumerate(self.deck.columns):
            for i, number in column.entries.items():
                by_row[i].append((j, number))
        for i, row in enumerate(self.deck.rows):
            residual = row.right
            for j, number in by_row[i]:
                if self.rest(j) != 0:
                    product = self.put(number * self.rest(j), "start", i, j)
                    residual = self.put(residual - product, "start", i, j)
            signs.append(self.start_row(i, residual))
            least, greatest = row.interval()
            if row.range is not None and not (row.kind == "E" and row.range == 0):
                # the end that the range gives; the other is the right side
                self.put(least if greatest == row.right else greatest, "start", i, None)
        for p in range(m):
            line = [ZERO] * self.all
            for j, number in [*by_row[p], (n + p, ONE), (n + m + p, signs[p])]:
                line[j] = self.put(signs[p] * number, "entry", p, j)
            self.table.append(line)
        for p in range(m):
            self.put(self.value[p], "value", p, None)

    def start_row(self, i, residual):
        """Makes the logical or the artificial of a row basic, and answers the artificial's sign."""
        lower, upper = self.ends[self.n + i]
        passed = lower if lower is not None and residual < lower else upper if upper is not None and residual > upper else None
        if passed is None:
            self.basis.append(self.n + i)
            self.status[self.n + i] = "BASIC"
            self.value.append(residual)
            return ONE
        artificial = self.n + self.m + i
        self.phase = 1
        self.needed.add(artificial)
        self.ends[artificial] = (ZERO, None)
        self.status[self.n + i] = "LOWER" if lower is not None and residual < lower else "UPPER"
        self.status[artificial] = "BASIC"
        self.basis.append(artificial)
        past = self.put(residual - passed, "start", i, None)
        self.value.append(abs(past))
        return ONE if past > 0 else -ONE

    def cost(self, j):
        if self.phase == 1:
            return ONE if j in self.needed else ZERO
        return self.deck.sense * self.deck.columns[j].cost if j < self.n else ZERO

    def price_all(self):
        self.reduced = []
        for j in range(self.all):
            reduced, had = self.cost(j), False
            for p, line in enumerate(self.table):
                basic = self.cost(self.basis[p])
                if basic != 0 and line[j] != 0:
                    reduced, had = self.put(reduced - self.put(basic * line[j], "cost", None, j), "cost", None, j), True
            self.reduced.append(reduced if had else self.put(reduced, "cost", None, j))

    def entering(self):
        """The least column that may better the objective."""
        for j, (reduced, status) in enumerate(zip(self.reduced, self.status)):
            lower, upper = self.ends[j]
            if status == "BASIC" or (lower is not None and lower == upper):
                continue
            if (status == "LOWER" and reduced < 0) or (status == "UPPER" and reduced > 0) or (status == "ZERO" and reduced != 0):
                return j
        return None

    def leaving(self, q):
        """The limit that comes first: the ratio, the column, and its position and end where it is not q; or none."""
        found = []
        for p, line in enumerate(self.table):
            rate = -self.direction(q) * line[q]
            end = self.ends[self.basis[p]][0 if rate < 0 else 1]
            if rate != 0 and end is not None:
                distance = self.put(abs(self.value[p] - end), "ratio", p, None)
                ratio = self.put(distance / abs(line[q]), "ratio", p, None)
                found.append((ratio, self.basis[p], p, "LOWER" if rate < 0 else "UPPER"))
        lower, upper = self.ends[q]
        if lower is not None and upper is not None:
            found.append((self.put(upper - lower, "ratio", None, q), q, None, None))
        return min(found, default=None)

    def direction(self, q):
        return 1 if self.reduced[q] < 0 else -1

    def move(self, q, ratio, position, end):
        direction, column = self.direction(q), [line[q] for line in self.table]
        entered = None if position is None else self.rest(q) + direction * ratio
        if position is not None:
            self.pivot(q, position)
        for p, number in enumerate(column):
            if p == position:
                self.value[p] = self.put(entered, "value", p, None)
            elif number != 0 and ratio != 0:
                product = self.put(number * ratio, "value", p, None)
                self.value[p] = self.put(self.value[p] - direction * product, "value", p, None)
        if position is None:
            self.status[q] = "UPPER" if self.status[q] == "LOWER" else "LOWER"
            self.log.append(f"FLIP {q}")
            return
        cost, line = self.reduced[q], self.table[position]
        for j in range(self.all):
            if line[j] != 0:
                self.reduced[j] = self.put(self.reduced[j] - self.put(cost * line[j], "cost", None, j), "cost", None, j)
        self.status[self.basis[position]], self.status[q], self.basis[position] = end, "BASIC", q
        self.log.append(f"SWAP {q} {position} {end}")

    def pivot(self, q, position):
        """The table with q in this position."""
        line = self.table[position]
        line[:] = [self.put(number / line[q], "entry", position, j) for j, number in enumerate(line[:])] if line[q] != 1 else line
        some = [(j, number) for j, number in enumerate(line) if number != 0]
        for i, other in enumerate(self.table):
            factor = other[q]
            if i != position and factor != 0:
                for j, number in some:
                    other[j] = self.put(other[j] - self.put(factor * number, "entry", i, j), "entry", i, j)

    def turn(self):
        self.phase = 2
        for j in self.needed:
            self.ends[j] = (ZERO, ZERO)
        self.log.append("TURN")
        self.price_all()

    def point(self):
        at = {column: p for p, column in enumerate(self.basis)}
        return [self.value[at[j]] if j in at else self.rest(j) for j in range(self.n)]

    def prices(self):
        return [-self.reduced[self.n + i] for i in range(self.m)]

    def optimum(self):
        values, total, had = self.point(), self.deck.constant, False
        for j, (column, value) in enumerate(zip(self.deck.columns, values)):
            if column.cost != 0 and value != 0:
                total, had = self.put(total + self.put(column.cost * value, "total", None, j), "total", None, j), True
        if not had:
            self.put(total, "total", None, None)
        return self.solved("OPTIMAL", total, values, [self.deck.sense * price for price in self.prices()], [])

    def solved(self, outcome, objective, values, prices, ray):
        upper = [j for j, status in enumerate(self.status) if status == "UPPER"]
        return Solved(outcome, objective, values, prices, ray, self.log, self.basis, upper)

    def ray(self, q):
        ray, direction = [ZERO] * self.n, self.direction(q)
        if q < self.n:
            ray[q] = Fraction(direction)
        for p, line in enumerate(self.table):
            if self.basis[p] < self.n:
                ray[self.basis[p]] = -direction * line[q]
        return ray


def solve(deck, width=127, budget=1_000_000, kinds=KINDS):
    """The end of the deck's one run; a value of these kinds that does not fit, or a spent budget, is raised."""
    run, moves = Run(deck, width, kinds), 0
    while True:
        q = run.entering()
        if q is not None:
            least = run.leaving(q)
            if least is None:
                return run.solved("UNBOUNDED", None, run.point(), [], run.ray(q))
            if moves == budget:
                raise Spent(moves)
            run.move(q, least[0], *least[2:])
            moves += 1
        elif run.phase == 2:
            return run.optimum()
        elif all(value == 0 for value, column in zip(run.value, run.basis) if column >= run.n + run.m):
            run.turn()
        else:
            return run.solved("INFEASIBLE", None, [], run.prices(), [])
        run.number += 1


def report_text(deck, solved, with_log, version=1):
    """The report of an end, as docs/FORMATS.md lays it out."""
    lines = [b"LPCERT %d" % version, b"DECK " + deck.name, solved.outcome.encode()]

    def add(word, values, named):
        lines.extend(b" ".join((word, fraction_text(value).encode(), it.name)) for value, it in zip(values, named))

    if solved.outcome == "OPTIMAL":
        lines.append(b"OBJECTIVE " + fraction_text(solved.objective).encode())
    add(b"VALUE", solved.values, deck.columns)
    add(b"FARKAS" if solved.outcome == "INFEASIBLE" else b"PRICE", solved.prices, deck.rows)
    add(b"RAY", solved.ray, deck.columns)
    if version == 2:
        lines.append(b"BASIS %d" % len(solved.basic))
        lines.extend(b"BASIC %d" % column for column in solved.basic)
        lines.append(b"UPPER %d" % len(solved.upper))
        lines.extend(b"AT %d" % column for column in solved.upper)
    if with_log:
        lines.append(b"LOG %d" % len(solved.log))
        lines.extend(entry.encode() for entry in solved.log)
    return b"\n".join([*lines, b"END", b""])


def main(words):
    options = {word: int(words[at + 1]) for at, word in enumerate(words) if word in ("--budget", "--width", "--report")}
    try:
        deck = read(sys.stdin.buffer.read())
        deck.sense = -1 if "--greatest" in words else 1
        solved = solve(deck, options.get("--width", 127), options.get("--budget", 1_000_000))
    except Fault as fault:
        print(fault, file=sys.stderr)
        return 3
    except Overflow as place:
        print(place, file=sys.stderr)
        return 6
    except Spent as spent:
        print(f"lp: budget spent after {spent} moves", file=sys.stderr)
        return 7
    sys.stdout.buffer.write(report_text(deck, solved, "--log" in words, options.get("--report", 2)))
    return 0


if __name__ == "__main__":
    sys.exit(main(sys.argv[1:]))
