#!/usr/bin/env python3
"""A second checker of reports, written from docs/FORMATS.md and apart from lp's: it reads a report, and judges by exact fractions whether its numbers prove it.

Run by itself it reads a deck and after its last line a report, and prints one line as `lp check` would, with its status.
With the word --greatest the deck asks for the greatest objective.
"""
import re
import sys
from dataclasses import dataclass, field
from fractions import Fraction

from second_reader import Failed, Fault, read

LONGEST, BYTES, WIDTH = 255, 33_554_432, 127
NUMBER = re.compile(rb"-?[1-9]\d*(/[1-9]\d*)?|0")
COUNT = re.compile(rb"0|[1-9]\d*")
OUTCOMES = (b"OPTIMAL", b"INFEASIBLE", b"UNBOUNDED")


class Flaw(Exception):
    """The first flaw of a report's text: the line, counted from the report's first, and what is wrong with it."""


class Broken(Exception):
    """The first rule that a report breaks."""


class Unfit(Exception):
    """The first rule that has a sum which does not fit."""


@dataclass
class Report:
    outcome: str
    objective: Fraction | None = None
    values: list = field(default_factory=list)
    prices: list = field(default_factory=list)
    farkas: list = field(default_factory=list)
    ray: list = field(default_factory=list)
    basis: tuple | None = None
    log: list | None = None


def fraction(text):
    """The value of a fraction's only text, or none."""
    if not NUMBER.fullmatch(text):
        return None
    value = Fraction(text.decode())
    return value if fraction_text(value).encode() == text and fits(value, WIDTH) else None


def fraction_text(value):
    return str(value.numerator) if value.denominator == 1 else f"{value.numerator}/{value.denominator}"


def fits(value, width):
    return abs(value.numerator) < 2**width and value.denominator < 2**width


class Lines:
    """The lines of a report, each asked for by what it must be. Where the read behind the text fails, a line that has not ended is none."""

    def __init__(self, text, fails=False):
        self.lines, self.fails = text.split(b"\n"), fails
        self.at, self.used = 0, 0
        if fails or self.lines[-1] == b"":
            self.lines.pop()

    def next(self):
        self.at += 1
        if self.at > len(self.lines):
            raise Failed if self.fails else Flaw(self.at, "missing")
        line = self.lines[self.at - 1]
        self.used += len(line) + 1
        if self.used > BYTES:
            raise Flaw(self.at, "bytes")
        if len(line) > LONGEST:
            raise Flaw(self.at, "long")
        return line

    def must(self, holds, which):
        if not holds:
            raise Flaw(self.at, which)

    def fixed(self, *texts):
        line = self.next()
        self.must(line in texts, "word")
        return line

    def words(self, word, parts):
        """What follows the line's word: its parts, of which the last runs to the line's end."""
        line = self.next()
        first, *rest = line.split(b" ", parts)
        self.must(first == word, "word")
        return rest

    def valued(self, word, name):
        """A line of a value and a name."""
        rest = self.words(word, 2)
        value = fraction(rest[0]) if rest else None
        self.must(value is not None, "number")
        self.must(rest[1:] == [name], "name")
        return value

    def single(self, word, read_number):
        rest = self.words(word, 1)
        value = read_number(rest[0]) if rest else None
        self.must(value is not None, "number")
        return value


def count(text):
    return int(text) if COUNT.fullmatch(text) else None


def entry(lines, deck):
    """A line of the log."""
    line = lines.next()
    if line == b"TURN":
        return ("TURN",)
    word, *rest = line.split(b" ", 3)
    lines.must(word in (b"FLIP", b"SWAP"), "word")
    if word == b"FLIP":
        rest = line.split(b" ", 1)[1:]
    else:
        lines.must(rest[2:] in ([b"LOWER"], [b"UPPER"]), "word")
    lines.must(rest, "number")
    numbers = [count(part) for part in rest[:2]]
    lines.must(None not in numbers, "number")
    ends = (len(deck.columns) + 2 * len(deck.rows), len(deck.rows))
    lines.must(all(number < end for number, end in zip(numbers, ends)), "name")
    return (word.decode(), *numbers, *[part.decode() for part in rest[2:]])


def basis(lines, deck):
    """The basic columns by position, and the columns at their upper ends."""
    most = len(deck.columns) + 2 * len(deck.rows)

    def index(word, least):
        column = lines.single(word, count)
        lines.must(least <= column < most, "name")
        return column

    lines.must(lines.single(b"BASIS", count) == len(deck.rows), "number")
    basic = [index(b"BASIC", 0) for _ in deck.rows]
    at_upper = lines.single(b"UPPER", count)
    lines.must(at_upper <= most, "number")
    upper = []
    for _ in range(at_upper):
        upper.append(index(b"AT", upper[-1] + 1 if upper else 0))
    return basic, upper


def parse(deck, text, fails=False):
    """The report of a text, which is one of this deck; the first flaw is raised."""
    lines = Lines(text, fails)
    version = lines.fixed(b"LPCERT 1", b"LPCERT 2")
    rest = lines.words(b"DECK", 1)
    lines.must(rest == [deck.name], "name")
    report = Report(lines.fixed(*OUTCOMES).decode())
    if report.outcome == "OPTIMAL":
        report.objective = lines.single(b"OBJECTIVE", fraction)
    if report.outcome != "INFEASIBLE":
        report.values = [lines.valued(b"VALUE", column.name) for column in deck.columns]
    if report.outcome == "OPTIMAL":
        report.prices = [lines.valued(b"PRICE", row.name) for row in deck.rows]
    elif report.outcome == "INFEASIBLE":
        report.farkas = [lines.valued(b"FARKAS", row.name) for row in deck.rows]
    else:
        report.ray = [lines.valued(b"RAY", column.name) for column in deck.columns]
    if version == b"LPCERT 2":
        report.basis = basis(lines, deck)
    line = lines.next()
    if line != b"END":
        lines.at, lines.used = lines.at - 1, lines.used - len(line) - 1
        report.log = []
        for _ in range(lines.single(b"LOG", count)):
            report.log.append(entry(lines, deck))
        lines.fixed(b"END")
    if lines.at < len(lines.lines):
        raise Flaw(lines.at + 1, "rest")
    if fails:
        raise Failed
    return report


class Walk:
    """Judges the rules in their order. Each item's sums are worked one after another, and each is tried against the width."""

    def __init__(self, deck, width):
        self.deck, self.width, self.is_unfit = deck, width, False

    def put(self, value):
        self.is_unfit = self.is_unfit or (self.width is not None and not fits(value, self.width))
        return value

    def sum(self, start, pairs, sign=1):
        """The start and the products, or less them; products of a zero factor are skipped."""
        total, had = start, False
        for one, other in pairs:
            if one != 0 and other != 0:
                total, had = self.put(total + sign * self.put(one * other)), True
        return total, had

    def end(self, rule, holds):
        if self.is_unfit:
            raise Unfit(rule)
        if not holds:
            raise Broken(rule)

    def row_pairs(self, i, values):
        return [(column.entries[i], value) for column, value in zip(self.deck.columns, values) if i in column.entries]

    def interval(self, row):
        least, greatest = row.interval()
        if row.range is not None and not (row.kind == "E" and row.range == 0):
            self.put(least)
            self.put(greatest)
        return least, greatest

    def columns(self, values):
        for column, value in zip(self.deck.columns, values):
            self.put(value)
            self.end(f"COLUMN {column.name.decode()}", is_within(column.lower, value, column.upper))

    def rows(self, values):
        self.activities = []
        for i, row in enumerate(self.deck.rows):
            activity, _ = self.sum(Fraction(0), self.row_pairs(i, values))
            self.activities.append(activity)
            least, greatest = self.interval(row)
            self.end(f"ROW {row.name.decode()}", is_within(least, activity, greatest))

    def optimal(self, report):
        deck, sense = self.deck, self.deck.sense
        self.columns(report.values)
        self.rows(report.values)
        total, had = self.sum(deck.constant, [(column.cost, value) for column, value in zip(deck.columns, report.values)])
        if not had:
            self.put(total)
        self.end("OBJECTIVE", total == report.objective)
        for column, value in zip(deck.columns, report.values):
            reduced, had = self.sum(column.cost, [(report.prices[i], number) for i, number in column.entries.items()], -1)
            if not had:
                self.put(reduced)
            allowed = (sense * reduced <= 0 or value == column.lower) and (sense * reduced >= 0 or value == column.upper)
            self.end(f"REDUCED {column.name.decode()}", allowed)
        for row, price, activity in zip(deck.rows, report.prices, self.activities):
            least, greatest = row.interval()
            allowed = (sense * price <= 0 or activity == least) and (sense * price >= 0 or activity == greatest)
            self.end(f"PRICE {row.name.decode()}", allowed)

    def infeasible(self, report):
        deck, greatest = self.deck, []
        for column in deck.columns:
            factor, _ = self.sum(Fraction(0), [(report.farkas[i], number) for i, number in column.entries.items()])
            self.greatest(f"ENDLESS {column.name.decode()}", factor, column.lower, column.upper, greatest)
        for row, price in zip(deck.rows, report.farkas):
            self.greatest(f"ENDLESS {row.name.decode()}", price, *logical_ends(row), greatest)
        total = Fraction(0)
        for value in greatest:
            total = self.put(total + value)
        right, _ = self.sum(Fraction(0), [(price, row.right) for row, price in zip(deck.rows, report.farkas)])
        self.end("GAP", total < right)

    def greatest(self, rule, factor, lower, upper, found):
        """The greatest value of a factor times what lies between the ends; a factor of 0 gives 0."""
        end = upper if factor > 0 else lower
        if factor != 0 and end not in (None, 0):
            found.append(self.put(factor * end))
        self.end(rule, factor == 0 or end is not None)

    def unbounded(self, report):
        deck = self.deck
        self.columns(report.values)
        self.rows(report.values)
        for column, along in zip(deck.columns, report.ray):
            self.put(along)
            self.end(f"RAYCOLUMN {column.name.decode()}", (along <= 0 or column.upper is None) and (along >= 0 or column.lower is None))
        for i, row in enumerate(deck.rows):
            along, _ = self.sum(Fraction(0), self.row_pairs(i, report.ray))
            least, greatest = row.interval()
            self.end(f"RAYROW {row.name.decode()}", (along <= 0 or greatest is None) and (along >= 0 or least is None))
        total, _ = self.sum(Fraction(0), [(column.cost, along) for column, along in zip(deck.columns, report.ray)])
        self.end("RAYCOST", deck.sense * total < 0)

    def basis(self, report):
        """The rules of a report that tells a basis; their sums were all worked before."""
        deck, basic, upper = self.deck, set(report.basis[0]), set(report.basis[1])
        self.end("BASIS", len(basic) == len(report.basis[0]) and not basic & upper)
        if report.outcome != "INFEASIBLE":
            for j, (column, value) in enumerate(zip(deck.columns, report.values)):
                rest = column.upper if j in upper else Fraction(0) if column.lower is None else column.lower
                self.end(f"REST {column.name.decode()}", j in basic or value == rest)
        if report.outcome != "UNBOUNDED":
            prices = report.prices or report.farkas
            for j, column in enumerate(deck.columns):
                priced = sum(prices[i] * number for i, number in column.entries.items())
                self.end(f"BASIC {column.name.decode()}", j not in basic or priced == (column.cost if report.outcome == "OPTIMAL" else 0))


def is_within(lower, value, upper):
    return (lower is None or lower <= value) and (upper is None or value <= upper)


def logical_ends(row):
    """The ends of a row's logical, which the activity and it together make the right side."""
    least, greatest = row.interval()
    return None if greatest is None else row.right - greatest, None if least is None else row.right - least


def check(deck, report, width=WIDTH):
    """Raises the first rule that is broken, or that has a sum which does not fit; without a width all sums fit."""
    walk = Walk(deck, width)
    getattr(walk, report.outcome.lower())(report)
    if report.basis:
        walk.basis(report)


def verdict(deck, report):
    """The status of a check of a report, the line on standard output, and the one on standard error."""
    try:
        check(deck, report)
    except Broken as rule:
        return 1, f"REFUSED {rule}", ""
    except Unfit as rule:
        return 6, "", f"lp: check overflow at {rule}"
    return 0, f"ACCEPTED {report.outcome}", ""


def answer(text, greatest=False, free=False, fails=False, judge=verdict):
    """What a judge answers to a deck and the report behind it: the status, the line on standard output, and the one on standard error."""
    try:
        deck = read(text, free, fails)
        if greatest:
            deck.sense = -1
        own = text.split(b"\n", deck.last_line)[deck.last_line :]
        report = parse(deck, own[0] if own else b"", fails)
    except Fault as fault:
        return 3, "", str(fault)
    except Failed as failed:
        return 4, "", str(failed)
    except Flaw as flaw:
        return 3, "", f"lp: report line {deck.last_line + flaw.args[0]}: {flaw.args[1]}"
    return judge(deck, report)


def main():
    status, line, fault = answer(sys.stdin.buffer.read(), sys.argv[1:] == ["--greatest"])
    for said, end in ((line, sys.stdout), (fault, sys.stderr)):
        if said:
            print(said, file=end)
    return status


if __name__ == "__main__":
    sys.exit(main())
