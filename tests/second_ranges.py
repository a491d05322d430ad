#!/usr/bin/env python3
"""A second look at ranges, apart from lp's: how far each cost and each right side of a deck may change, alone, with the last basis staying optimal.

Of the run of second_solver.py it takes the last basis, and which columns rest at their upper ends, and no other number. Each reduced cost moves in a straight
line with a change, and so does each basic value: so it is worked anew with no change and with a change of one, and the two say for which changes it keeps its
sign, or its bounds. Run by itself it reads a deck and prints what `lp range` would. The word --free reads the deck in free form.
"""
import sys
from fractions import Fraction

from second_checker import WIDTH, fits, fraction_text, logical_ends
from second_reader import Failed, Fault, read
from second_solver import Overflow, Spent, solve

ZERO, ONE = Fraction(0), Fraction(1)


class Wide(Exception):
    """The first value of the ranges that does not fit."""

    def __init__(self, word, name):
        super().__init__(f"lp: range overflow at {word} {name.decode()}")


def inverse(matrix):
    """The inverse of a square matrix."""
    size = len(matrix)
    rows = [list(row) + [ONE if i == k else ZERO for k in range(size)] for i, row in enumerate(matrix)]
    for c in range(size):
        found = next(r for r in range(c, size) if rows[r][c] != 0)
        rows[c], rows[found] = rows[found], rows[c]
        rows[c] = [value / rows[c][c] for value in rows[c]]
        for r, row in enumerate(rows):
            if r != c and row[c] != 0:
                rows[r] = [value - row[c] * other for value, other in zip(row, rows[c])]
    return [row[size:] for row in rows]


class Interval:
    """The changes for which all that was asked so far holds; an end of None is infinite."""

    def __init__(self):
        self.least = self.greatest = None

    def keep(self, value, rate, lower, upper):
        """Only the changes for which a value that moves at this rate stays from lower to upper."""
        for end, is_lower in ((lower, True), (upper, False)):
            if end is None or rate == 0:
                continue
            at = (end - value) / rate
            if is_lower == (rate > 0):
                self.least = at if self.least is None else max(self.least, at)
            else:
                self.greatest = at if self.greatest is None else min(self.greatest, at)

    def __str__(self):
        least = "-INF" if self.least is None else fraction_text(self.least)
        return f"{least} {'INF' if self.greatest is None else fraction_text(self.greatest)}"


class Last:
    """The last basis of a deck's run. An artificial column stands there with the sign of its row: at an end of 0 it makes no difference."""

    def __init__(self, deck, basic, upper):
        self.deck, self.basic, self.upper = deck, basic, set(upper)
        self.m, self.n = len(deck.rows), len(deck.columns)
        self.ends = [(column.lower, column.upper) for column in deck.columns] + [logical_ends(row) for row in deck.rows] + [(ZERO, ZERO)] * self.m
        taken = set(basic)
        self.others = [j for j in range(self.n + 2 * self.m) if j not in taken]
        by_position = [self.column(j) for j in basic]
        self.inverse = inverse([[column.get(i, ZERO) for column in by_position] for i in range(self.m)])

    def column(self, j):
        return self.deck.columns[j].entries if j < self.n else {(j - self.n) % self.m: ONE}

    def costs(self):
        return [self.deck.sense * column.cost for column in self.deck.columns] + [ZERO] * 2 * self.m

    def status(self, j):
        lower, upper = self.ends[j]
        return "UPPER" if j in self.upper else "LOWER" if lower is not None else "ZERO"

    def rest(self, j):
        return {"LOWER": self.ends[j][0], "UPPER": self.ends[j][1], "ZERO": ZERO}[self.status(j)]

    def reduced(self, costs):
        """The reduced costs of the columns that are not basic and have two ends that differ."""
        prices = [sum((costs[j] * row[i] for j, row in zip(self.basic, self.inverse) if costs[j]), ZERO) for i in range(self.m)]
        looked_at = [j for j in self.others if self.ends[j][0] is None or self.ends[j][0] != self.ends[j][1]]
        return {j: costs[j] - sum((prices[i] * value for i, value in self.column(j).items()), ZERO) for j in looked_at}

    def values(self, rights):
        """The basic values, by positions."""
        left = list(rights)
        for j in self.others:
            for i, value in self.column(j).items():
                left[i] -= value * self.rest(j)
        return [sum((value * right for value, right in zip(row, left) if value), ZERO) for row in self.inverse]

    def cost_range(self, j):
        """How far the cost of a column may change: no reduced cost comes to improve the objective."""
        costs = self.costs()
        changed = [cost + self.deck.sense * (k == j) for k, cost in enumerate(costs)]
        found, after = Interval(), self.reduced(changed)
        for k, reduced in self.reduced(costs).items():
            status = self.status(k)
            found.keep(reduced, after[k] - reduced, None if status == "UPPER" else ZERO, None if status == "LOWER" else ZERO)
        return found

    def right_range(self, i):
        """How far the right side of a row may change: no basic value comes to pass an end."""
        rights = [row.right for row in self.deck.rows]
        found, after = Interval(), self.values([right + (k == i) for k, right in enumerate(rights)])
        for k, value, moved in zip(self.basic, self.values(rights), after):
            found.keep(value, moved - value, *self.ends[k])
        return found

    def crossing(self, p, j):
        """The entry of the table in this position and column."""
        return sum((self.inverse[p][i] * value for i, value in self.column(j).items()), ZERO)

    def see_widths(self, width):
        """Raises the first of the quotients and differences of the ranges that does not fit the width."""
        reduced, values = self.reduced(self.costs()), self.values([row.right for row in self.deck.rows])
        for j, column in enumerate(self.deck.columns):
            for p in [p for p, basic in enumerate(self.basic) if basic == j]:
                entries = ((cost, self.crossing(p, k)) for k, cost in reduced.items())
                if any(entry and not fits(cost / entry, width) for cost, entry in entries):
                    raise Wide("COST", column.name)
        for i, row in enumerate(self.deck.rows):
            for p, value in enumerate(values):
                rate = self.inverse[p][i]
                gaps = [end - value for end in self.ends[self.basic[p]] if end is not None] if rate else []
                if not all(fits(gap, width) and fits(gap / rate, width) for gap in gaps):
                    raise Wide("RIGHT", row.name)


def range_text(deck, solved, width=WIDTH):
    """What is told of a deck by the end of its run; a value of the ranges that does not fit is raised."""
    lines = [b"LPRANGE 1", b"DECK " + deck.name, solved.outcome.encode()]
    if solved.outcome == "OPTIMAL":
        last = Last(deck, solved.basic, solved.upper)
        last.see_widths(width)
        lines += [b"COST %s %s" % (str(last.cost_range(j)).encode(), column.name) for j, column in enumerate(deck.columns)]
        lines += [b"RIGHT %s %s" % (str(last.right_range(i)).encode(), row.name) for i, row in enumerate(deck.rows)]
    return b"\n".join([*lines, b"END", b""])


def answer(text, free=False, fails=False, **solving):
    """What is answered to a deck: the status, what is written, and the line on standard error. The last words are those of `solve`."""
    try:
        deck = read(text, free, fails)
        return 0, range_text(deck, solve(deck, **solving)), ""
    except Failed as failed:
        return 4, b"", str(failed)
    except Fault as fault:
        return 3, b"", str(fault)
    except (Overflow, Wide) as place:
        return 6, b"", str(place)
    except Spent as moves:
        return 7, b"", f"lp: budget spent after {moves} moves"


def main():
    status, written, fault = answer(sys.stdin.buffer.read(), sys.argv[1:] == ["--free"])
    sys.stdout.buffer.write(written)
    if fault:
        print(fault, file=sys.stderr)
    return status


if __name__ == "__main__":
    sys.exit(main())
