#!/usr/bin/env python3
"""A second reading of the factors of a basis, apart from lp's: what each call works, by the definition, on exact fractions of any size.

A call is unfit at a width of w bits exactly where one of its worked values has a numerator or a denominator of size 2^w or more. The worked values:

- applying operations to a vector v: for a column operation of p each product k_i·v_p and the new v_i; for a row operation of p each product k_i·v_i, in
  rising i, and what is left of v_p. Backwards the operations come in reverse, each as the other kind.
- solving for a column: from the last position to the first the quotient of the item in its row by its diagonal, and for each other entry of its column
  the product and the new item. Solving for a row: from the first position to the last what each other entry of its column leaves of its cost, in rising
  rows, with each product, and the quotient by the diagonal.
- factoring: for each pivot the quotient of each other active entry of its column, and for each of these and each other active entry of its row the product
  and the new entry. Where a row has no pivot, those of the operations back from the unit vector of the least such row.
- an update in position p: for each position behind it, in order, what the multipliers before leave of the entry in p's row, with each product, and the
  quotient by the diagonal; then what they leave of the spike's item in p's row, with each product.

A product of a zero factor is skipped, and nothing is left anew by it.

Run by itself it prints the table of widths that `bench_parts factors calls` begins with. `--check` compares it with the stored run of that program, and judges
the answers at full width that stand behind it there: each solution is multiplied back by the matrix as it is then; each matrix that is called dependent has no
inverse by plain elimination, and a combination of its rows by the numbers given is 0; and each chain of exchanges comes to 64 updates and no more.
"""
import os
import sys
from fractions import Fraction

MASK = (1 << 64) - 1
STORED = os.path.join(os.path.dirname(os.path.dirname(os.path.abspath(__file__))), "crates", "bench_parts", "stdout")
# A basis takes so many updates.
UPDATES = 64
# Chains of exchanges: how many rows, and one number in how many that are drawn may differ from 0.
CHAINS = ((9, 4), (70, 40))
# The columns (1, 2) and (2, 4), and the numbers by which their rows combine to 0, by hand: the pivot is the first entry, its column's multiplier 2, and the
# second row, left without a pivot, is the combination.
MULTIPLES = [[1, 2], [2, 4]]
COMBINATION = ["-2", "1"]


class Listing:
    """The worked values of a call."""

    def __init__(self):
        self.values = []

    def list(self, value):
        self.values.append(value)
        return value

    def less(self, x, a, b):
        """x less a·b."""
        if a == 0 or b == 0:
            return x
        return self.list(x - self.list(a * b))

    def quotient(self, a, b):
        return self.list(a / b)

    def fits(self, bits):
        return all(abs(value.numerator) < 1 << bits and value.denominator < 1 << bits for value in self.values)


class Dependent(Exception):
    """The rows combine to 0 by these numbers."""


class Factors:
    """Operations (kind, row, multipliers by row), the columns of the triangular form by position, the row of each position, and their order."""

    def __init__(self, columns, listing):
        size = len(columns)
        self.operations, self.columns, self.row_of, self.order = [], [{} for _ in range(size)], {}, []
        active = {(r, p): value for p, column in enumerate(columns) for r, value in enumerate(column) if value}
        while active:
            self.eliminate(active, self.least(active), listing)
        if len(self.order) < size:
            unit = [Fraction(0)] * size
            unit[min(set(range(size)) - set(self.row_of.values()))] = Fraction(1)
            raise Dependent(self.apply_back(unit, listing))

    @staticmethod
    def least(active):
        """The entry of least cost, then least row, then least position."""

        def cost(at):
            in_row = sum(r == at[0] for r, _ in active)
            in_column = sum(p == at[1] for _, p in active)
            return (in_row - 1) * (in_column - 1)

        return min(active, key=lambda at: (cost(at), at))

    def eliminate(self, active, pivot, listing):
        r, c = pivot
        row = {p: value for (i, p), value in active.items() if i == r}
        column = {i: value for (i, p), value in active.items() if p == c and i != r}
        multipliers = {i: listing.quotient(value, row[c]) for i, value in column.items()}
        for i, k in multipliers.items():
            for p, u in row.items():
                if p != c:
                    active[i, p] = listing.less(active.get((i, p), Fraction(0)), k, u)
        for at in [at for at, value in active.items() if at[0] == r or at[1] == c or not value]:
            del active[at]
        for p, u in row.items():
            self.columns[p][r] = u
        self.operations.append(("column", r, multipliers))
        self.row_of[c] = r
        self.order.append(c)

    @staticmethod
    def operate(kind, p, multipliers, v, listing):
        if kind == "column":
            x = v[p]
            for i, k in sorted(multipliers.items()):
                v[i] = listing.less(v[i], k, x)
        else:
            for i, k in sorted(multipliers.items()):
                v[p] = listing.less(v[p], k, v[i])

    def apply(self, v, listing):
        v = list(v)
        for kind, p, multipliers in self.operations:
            self.operate(kind, p, multipliers, v, listing)
        return v

    def apply_back(self, v, listing):
        v = list(v)
        for kind, p, multipliers in reversed(self.operations):
            self.operate("row" if kind == "column" else "column", p, multipliers, v, listing)
        return v

    def diagonal(self, p):
        return self.columns[p][self.row_of[p]]

    def ftran(self, a, listing):
        """The spike, and the x with B·x = a by position."""
        spike = self.apply(a, listing)
        v, out = list(spike), list(spike)
        for p in reversed(self.order):
            out[p] = listing.quotient(v[self.row_of[p]], self.diagonal(p))
            for i, u in self.columns[p].items():
                if i != self.row_of[p]:
                    v[i] = listing.less(v[i], u, out[p])
        return spike, out

    def btran(self, c, listing):
        """The y with y·B = c by row."""
        out = [Fraction(0)] * len(c)
        for p in self.order:
            rest = c[p]
            for i, u in sorted(self.columns[p].items()):
                if i != self.row_of[p]:
                    rest = listing.less(rest, u, out[i])
            out[self.row_of[p]] = listing.quotient(rest, self.diagonal(p))
        return self.apply_back(out, listing)

    def update(self, p, spike, listing):
        row, behind = self.row_of[p], self.order[self.order.index(p) + 1 :]
        multipliers = {}
        for s in behind:
            rest = self.columns[s].get(row, Fraction(0))
            for t in behind[: behind.index(s)]:
                i = self.row_of[t]
                rest = listing.less(rest, multipliers[i], self.columns[s].get(i, Fraction(0)))
            multipliers[self.row_of[s]] = listing.quotient(rest, self.diagonal(s))
        diagonal = spike[row]
        for s in behind:
            i = self.row_of[s]
            diagonal = listing.less(diagonal, multipliers[i], spike[i])
        self.operations.append(("row", row, multipliers))
        for s in behind:
            self.columns[s].pop(row, None)
        self.columns[p] = {i: value for i, value in enumerate(spike) if value and i != row} | {row: diagonal}
        self.order = [q for q in self.order if q != p] + [p]


class Draws:
    def __init__(self):
        self.state = 20_260_701

    def below(self, bound):
        self.state = (self.state * 6_364_136_223_846_793_005 + 1_442_695_040_888_963_407) & MASK
        return (self.state ^ (self.state >> 32)) % bound

    def number(self, rare):
        if self.below(rare) + 1 < rare:
            return Fraction(0)
        numerator = self.below(9) - 4
        return Fraction(numerator, self.below(3) + 1)

    def vector(self, size, rare=2):
        return [self.number(rare) for _ in range(size)]


class Case:
    """What the calls say of one drawn matrix at a width. What is unfit is worked on without a width."""

    checksum = 0xCBF29CE484222325

    def __init__(self, draws, size, bits):
        self.draws, self.bits, self.words = draws, bits, []
        columns = [draws.vector(size) for _ in range(size)]
        listing = Listing()
        try:
            factors = Factors(columns, listing)
            self.say(listing, [])
        except Dependent as dependent:
            self.say(listing, dependent.args[0], "dependent")
            return
        for _ in range(4):
            self.solve(factors, draws.vector(size))
            self.exchange(factors, size)

    def say(self, listing, answer, word="fits"):
        if not listing.fits(self.bits):
            self.words.append("unfit")
            return
        self.words.append(word)
        for value in answer:
            for part in (int(value < 0), abs(value.numerator) & MASK, value.denominator & MASK):
                Case.checksum = (Case.checksum ^ part) * 0x100000001B3 & MASK

    def solve(self, factors, items):
        listing = Listing()
        self.say(listing, factors.ftran(items, listing)[1] if items else [])
        listing = Listing()
        self.say(listing, factors.btran(items, listing))

    def exchange(self, factors, size):
        if size == 0:
            self.words.append("none")
            return
        p, items = self.draws.below(size), self.draws.vector(size)
        spike, solution = factors.ftran(items, Listing())
        if solution[p] == 0:
            self.words.append("dependent")
            return
        listing = Listing()
        factors.update(p, spike, listing)
        self.say(listing, [])


def table(draws):
    for size in range(7):
        for bits in range(1, 21):
            for _ in range(3):
                yield f"{size} rows, {bits} bits: {' '.join(Case(draws, size, bits).words)}\n"
    yield f"checksum {Case.checksum:016x}\n"


# The basis of a blending problem at its optimum: five rows of feeds, four of demands, three of qualities.
BLEND = [
    [1, 0, 0, 0, 0, 0, 0, 0, 0, 0, 0, 0],
    [0, 1, 0, 0, 0, 0, 0, 0, 0, 0, 0, 0],
    [0, 0, 1, 0, 0, 0, 0, 0, 0, 0, 0, 0],
    [0, 0, 0, 0, 1, 0, 0, 0, 0, 0, 0, 0],
    [0, 1, 0, 0, 0, 1, 0, 0, 0, -5, 0, 0],
    [0, 1, 0, 0, 0, 0, 1, 0, 0, 0, -3, 0],
    [0, 1, 0, 0, 0, 0, 0, 1, 0, 0, 0, -7],
    [0, 1, 0, 0, 0, 0, 0, 0, 1, 0, 0, 0],
    [0, 0, 1, 0, 0, 1, 0, 0, 0, 0, 0, 0],
    [0, 0, 0, 1, 0, 1, 0, 0, 0, 5, 0, 0],
    [0, 0, 0, 1, 0, 0, 1, 0, 0, 0, 7, 0],
    [0, 0, 0, 1, 0, 0, 0, 1, 0, 0, 0, 3],
]


def unit(size, row):
    return [Fraction(int(i == row)) for i in range(size)]


def dot(x, y):
    return sum((a * b for a, b in zip(x, y) if a and b), Fraction(0))


def are_independent(columns):
    """Whether the columns are independent, by plain elimination."""
    lines = [list(column) for column in columns]
    while lines:
        pivot = lines.pop()
        place = next((i for i, item in enumerate(pivot) if item), None)
        if place is None:
            return False
        for line in lines:
            factor = line[place] / pivot[place]
            if factor:
                line[:] = [a - factor * b for a, b in zip(line, pivot)]
    return True


class Judge:
    """The answers for one matrix at full width, judged without factors: the words are those that the program printed."""

    def __init__(self, draws, columns, words):
        self.draws, self.columns, self.words, self.updates = draws, [[Fraction(item) for item in items] for items in columns], words, 0
        self.size, self.failed = len(columns), []

    def wants(self, holds, what):
        if not holds:
            self.failed.append(what)

    def numbers(self):
        said, self.words = self.words[: self.size], self.words[self.size :]
        self.wants(len(said) == self.size, "too few numbers")
        return [Fraction(word) for word in said]

    def word(self):
        return self.words.pop(0) if self.words else "nothing"

    def is_factored(self):
        """Judges what factoring says, and tells whether there are factors."""
        word, is_regular = self.word(), are_independent(self.columns)
        self.wants(word == ("fits" if is_regular else "dependent"), f"factoring says {word}")
        if word == "dependent":
            numbers = self.numbers()
            self.wants(any(numbers) and not any(dot(numbers, column) for column in self.columns), "no combination of the rows that is 0")
        return word == "fits"

    def solve(self, items):
        for is_row in (False, True):
            self.wants(self.word() == "fits", "a solve does not fit")
            answer = self.numbers()
            back = [dot(answer, column) for column in self.columns] if is_row else [dot(answer, row) for row in zip(*self.columns)]
            self.wants(back == items, "a row's solution" if is_row else "a column's solution")

    def exchange(self, rare, has_own):
        word = self.word()
        if not self.size or self.updates == UPDATES:
            self.wants(word == "none", f"an exchange too many says {word}")
            return
        p, items = self.draws.below(self.size), self.draws.vector(self.size, rare)
        if has_own:
            items[p] = Fraction(2)
        columns = self.columns[:p] + [items] + self.columns[p + 1 :]
        is_regular = are_independent(columns)
        self.wants(word == ("fits" if is_regular else "dependent"), f"an exchange says {word}")
        if is_regular:
            self.columns, self.updates = columns, self.updates + 1


def drawn(draws, size, is_repeated):
    """Drawn columns, of which the last may be the one before it again, or 0 where there is none."""
    columns = [draws.vector(size) for _ in range(size - is_repeated)]
    return columns + [columns[-1] if columns else [Fraction(0)]] if is_repeated and size else columns


def judged(draws, text):
    """Judges the answers that the program printed, a judge for each matrix: a line with a blank at its head goes on with the line before it."""
    cases = [case.split() for case in text.replace("\n ", " ").split("\n") if case]

    def judge(columns, rounds, rare=2, is_chain=False):
        words, head = cases.pop(0) if cases else [], f"{len(columns)} rows, 127 bits:".split()
        at = Judge(draws, columns, words[len(head) :])
        at.wants(words[: len(head)] == head, f"it begins with {words[:4]}")
        for row in range(rounds) if at.is_factored() else ():
            if columns is BLEND:
                at.solve(unit(at.size, row))
            else:
                at.solve(draws.vector(at.size, rare))
                at.exchange(rare, is_chain)
        at.wants(not at.words, f"words behind: {at.words[:3]}")
        at.wants(not is_chain or at.updates == UPDATES, f"{at.updates} updates")
        return at

    multiples = cases[0][-3:] if cases else []
    judges = [judge(MULTIPLES, 0), judge(BLEND, 12)]
    judges[0].wants(multiples == ["dependent", *COMBINATION], f"{multiples}")
    judges += [judge([unit(size, row) for row in range(size)], 80, rare, True) for size, rare in CHAINS]
    judges += [judge(drawn(draws, size, k % 3 == 0), 2) for size in range(13) for k in range(12)]
    judges[-1].wants(not cases, f"{len(cases)} matrices too many")
    return judges


def main():
    draws = Draws()
    text = "".join(table(draws))
    if sys.argv[1:] != ["--check"]:
        sys.stdout.write(text)
        return 0
    with open(STORED, encoding="utf-8") as stored:
        _, found, answers = stored.read().partition(text)
    if not found:
        print("failed: the table of widths is another one", file=sys.stderr)
    judges = judged(draws, answers)
    failed = [(number, what) for number, judge in enumerate(judges) for what in judge.failed[:1]]
    for number, what in failed:
        print(f"failed: matrix {number}, {judges[number].size} rows: {what}", file=sys.stderr)
    passed = bool(found) + len(judges) - len(failed)
    print(f"{passed} passed, {len(judges) + 1 - passed} failed")
    return 0 if passed > len(judges) else 1


if __name__ == "__main__":
    sys.exit(main())
