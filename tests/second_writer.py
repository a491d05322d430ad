#!/usr/bin/env python3
"""A second writer of decks, and a second maker of transport decks, written from docs/FORMATS.md and apart from lp's.

Run by itself it reads a deck and writes it in the one layout; with the word --free it reads and writes free form. With a number it prints the five lines of the
transport deck of that size, whose run is the second solver's.
"""
import sys
from fractions import Fraction

from second_checker import fraction_text
from second_reader import Column, Deck, Fault, Row, read
from second_solver import solve

# The bytes of a number on a card, and the size of its exponent.
FIELD, POWER = 12, 30
PLACES = (1, 4, 14, 24)


class Wide(Exception):
    """The first number without a spelling on a card, by its line on standard error."""


def spelled(value):
    """The spelling of a number on a card, or none: its digits with a point, or, where these are too many, those between its zeros with an exponent."""
    sign, size, places = "-" if value < 0 else "", abs(value), 0
    while (size * 10**places).denominator != 1:
        places += 1
    digits = str(int(size * 10**places))
    plain = sign + pointed(digits, places)
    if places:
        scaled = sign + pointed(digits, max(places - POWER, 0)) + f"E-{min(places, POWER)}"
    else:
        zeros = len(digits) - len(digits.rstrip("0"))
        scaled = sign + digits[: len(digits) - min(zeros, POWER)] + f"E{min(zeros, POWER)}"
    return next((text for text in (plain, scaled) if len(text) <= FIELD), None)


def pointed(digits, places):
    """The digits with a point before the last of so many places, and no 0 before the point."""
    return digits if places == 0 else digits[:-places] + "." + digits[-places:].rjust(places, "0")


class Page:
    """The lines of a deck in a form."""

    def __init__(self, free):
        self.free, self.lines = free, []

    def card(self, kind, first, second, value=None, owner=None):
        number = b"" if value is None else (spelled(value) or "").encode()
        if value is not None and not number:
            raise Wide(f"lp: number without card spelling at {owner.decode()}")
        self.put(zip(PLACES, (kind, first, second, number)))

    def put(self, fields, line=b""):
        for place, field in fields:
            if field:
                line = (line + b" " if self.free else line.ljust(place)) + field
        self.lines.append(line)

    def section(self, word, cards):
        if cards:
            self.lines.append(word)
        for card in cards:
            self.card(*card)


def bounds(column):
    """The cards of a column's bounds."""
    lower, upper, name = column.lower, column.upper, column.name
    if lower is None and upper is None:
        return [(b"FR", b"S", name)]
    if lower == upper:
        return [(b"FX", b"S", name, lower, name)]
    first = [(b"MI", b"S", name)] if lower is None else [(b"LO", b"S", name, lower, name)] if lower else []
    return first + ([] if upper is None else [(b"UP", b"S", name, upper, name)])


def deck_text(deck, free=False):
    """The one text of a deck in a form; the first number without a spelling is raised."""
    page = Page(free)
    page.put([(PLACES[2], deck.name)], b"NAME")
    page.lines += [b"OBJSENSE", b"    MAX"] if deck.sense < 0 else []
    page.lines.append(b"ROWS")
    for kind, name in [("N", deck.objective), *((row.kind, row.name) for row in deck.rows)]:
        page.card(kind.encode(), name, b"")
    page.lines.append(b"COLUMNS")
    for column in deck.columns:
        pairs = [(deck.objective, column.cost)] if column.cost or not column.entries else []
        for name, value in pairs + [(deck.rows[i].name, value) for i, value in column.entries.items()]:
            page.card(b"", column.name, name, value, column.name)
    rights = [(deck.objective, -deck.constant), *((row.name, row.right) for row in deck.rows)]
    page.section(b"RHS", [(b"", b"S", name, value, name) for name, value in rights if value])
    page.section(b"RANGES", [(b"", b"S", row.name, row.range, row.name) for row in deck.rows if row.range is not None])
    page.section(b"BOUNDS", [card for column in deck.columns for card in bounds(column)])
    return b"\n".join([*page.lines, b"ENDATA", b""])


def made(size):
    """The transport deck of a size."""
    numbers = range(1, size + 1)
    rows = [Row(b"S%d" % i, "L", Fraction(20 + i % 5)) for i in numbers] + [Row(b"D%d" % i, "G", Fraction(15 + i % 4)) for i in numbers]
    one = Fraction(1)
    columns = [
        Column(b"X%d_%d" % (i, j), Fraction((7 * i + 13 * j + 5 * i * j) % 97 + 1), {i - 1: one, size + j - 1: one}) for i in numbers for j in numbers
    ]
    return Deck(b"MAKE", b"COST", rows, columns, Fraction(0), 0)


def summary(size):
    """What is written of the transport deck of a size."""
    solved = solve(made(size))
    moves = sum(entry != "TURN" for entry in solved.log)
    return f"MAKE {size}\nROWS {2 * size}\nCOLUMNS {size * size}\nMOVES {moves}\nOBJECTIVE {fraction_text(solved.objective)}\n".encode()


def main(words):
    if words and words[0].isdigit():
        sys.stdout.buffer.write(summary(int(words[0])))
        return 0
    try:
        sys.stdout.buffer.write(deck_text(read(sys.stdin.buffer.read(), "--free" in words), "--free" in words))
    except (Fault, Wide) as fault:
        print(fault, file=sys.stderr)
        return 3
    return 0


if __name__ == "__main__":
    sys.exit(main(sys.argv[1:]))
