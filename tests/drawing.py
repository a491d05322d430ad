"""Draws decks: by changes of lines, and from nothing."""
import glob
import os

from second_reader import BYTES, COLUMNS, ENTRIES, FIELDS, LINE, ROWS, TOKEN

PIECES = [
    piece.encode()
    for piece in (
        "1E30 -1e30 1D2 .5 -.5 1E31 999999999E30 5. . +3 -0 0 1/2 'MARKER' RHS RANGES BOUNDS ENDATA NAME ROWS COLUMNS".split()
        + [" N  X", " E  LIM1", " G  ", "* x\t", "\t", "\r", "", " UP", " LO", " FX", " FR", " MI", " PL", " BV", " SC", " XX"]
    )
]


def put(line, column, piece, width):
    """The line with a piece from a column on, of this width."""
    line = line.ljust(column - 1 + width)
    return line[: column - 1] + piece[:width].ljust(width) + line[column - 1 + width :]


def change(lines, chance):
    """Changes a line or two."""
    here, there = chance.randrange(len(lines)), chance.randrange(len(lines))
    line, other = lines[here], lines[there]
    piece = chance.choice(PIECES)
    kind = chance.randrange(9)
    if kind == 0:
        del lines[here]
    elif kind == 1:
        lines.insert(here, other)
    elif kind == 2:
        lines[here], lines[there] = other, line
    elif kind == 3:
        at = chance.randrange(len(line) + 1)
        lines[here] = line[:at] + bytes([chance.choice(b" 0123456789.-+EeDdXN*\tA")]) + line[at + 1 :]
    elif kind == 4:
        lines[here] = line[: chance.randrange(len(line) + 1)]
    elif kind == 5:
        lines[here] = piece
    elif kind == 6:
        lines[here] = put(line, 25, piece, 12)
    elif kind == 7:
        column = chance.choice((5, 15))
        lines[here] = put(line, column, other[column - 1 : column + 7], 8)
    else:
        lines[here] = put(line, 1, piece, 3)


def card(kind, first, *pairs):
    """A card of data: its kind, its first name, and one or two pairs of a name and a number."""
    line = f" {kind:<2} {first:<10}" + "   ".join(f"{name:<10}{number:<12}" for name, number in pairs)
    return line.rstrip(" ").encode()


class Draw:
    """A deck written from nothing: a simple one (rows of the kind L alone, right sides from 0 up, columns from 0 up), or one with all kinds of rows and bounds."""

    def __init__(self, chance, is_simple):
        self.chance, self.is_simple = chance, is_simple
        self.m, self.n = chance.choice((0, 1, 1, 2, 2, 3, 3, 4, 5, 6, 8)), chance.choice((0, 1, 2, 2, 3, 3, 4, 5, 6, 8))
        self.is_wide = chance.random() < 0.1
        self.m, self.n = (9, 9) if self.is_wide else (self.m, self.n)
        self.rows = [f"R{i}" for i in range(self.m)]
        self.columns = [chance.choice((f"X{j}", f"X {j}", f"x.{j}")) for j in range(self.n)]

    def number(self, least=-4):
        """The text of a number from so much on."""
        chance = self.chance
        if self.is_wide and chance.random() < 0.2:
            return f"{'-' if least < 0 and chance.random() < 0.3 else ''}{chance.randrange(1, 10)}E{chance.randrange(5, 25)}"
        if self.is_wide:
            text = f"{chance.randrange(10**5, 10**6)}.{chance.randrange(1, 10**4)}"
            return ("-" if least < 0 and chance.random() < 0.3 else "") + text
        value = chance.randrange(least, 7)
        sign = "+" if value >= 0 and chance.random() < 0.1 else ""
        return f"{sign}{value}" + chance.choice(("",) * 7 + (".", ".5", ".25", "E1", "D-1", "e+0"))

    def pairs(self, first, found):
        """The cards of pairs, one or two pairs each."""
        lines = []
        while found:
            take = self.chance.choice((1, 2))
            lines.append(card("", first, *found[:take]))
            found = found[take:]
        return lines

    def lines(self):
        chance, dense = self.chance, self.chance.choice((0.3, 0.6, 0.9))
        kinds = ["L" if self.is_simple else chance.choice("LLGE") for _ in self.rows]
        lines = [b"NAME          DRAWN", b"ROWS", card("N", "COST")]
        for kind, name in zip(kinds, self.rows):
            lines.append(card(kind, name))
            lines += [card("N", f"FREE{len(lines)}")] * (chance.random() < 0.05)
        lines.append(b"COLUMNS")
        for name in self.columns:
            found = [("COST", self.number(-6))] if chance.random() < 0.9 else []
            found += [(row, self.number()) for row in self.rows if chance.random() < dense]
            lines += self.pairs(name, found or [("COST", "0")])
        lines += self.rights() + (self.ranges() + self.bounds() if not self.is_simple else [])
        return [*lines, b"ENDATA", b""]

    def rights(self):
        chance, least = self.chance, 0 if self.is_simple else -4
        found = [(row, self.number(least)) for row in self.rows if chance.random() < 0.8]
        found += [("COST", self.number())] if chance.random() < 0.1 else []
        return [b"RHS", *self.pairs("S", found)] if found else []

    def ranges(self):
        found = [(row, self.number()) for row in self.rows if self.chance.random() < 0.3]
        return [b"RANGES", *self.pairs("S", found)] if found else []

    def bounds(self):
        lines = []
        for name in self.columns:
            for _ in range(self.chance.choice((0, 0, 1, 1, 2, 3))):
                kind = self.chance.choice(("UP", "LO", "UP", "LO", "FX", "FR", "MI", "PL"))
                number = self.chance.choice(("1E30", "-1E30")) if self.chance.random() < 0.05 else self.number()
                lines.append(card(kind, "S", (name, number)))
        return [b"BOUNDS", *lines] if lines else []


def vast(chance):
    """A deck of a row or two and a column or two, of numbers that are a digit and a power of ten: a ratio or the objective may be too wide."""

    def number(least=-1):
        sign = "-" if least < 0 and chance.random() < 0.4 else ""
        return f"{sign}{chance.randrange(1, 10)}E{chance.choice((chance.randrange(-30, 30), chance.randrange(-30, 30), 0))}"

    rows, columns = [f"R{i}" for i in range(chance.choice((1, 1, 2)))], [f"X{j}" for j in range(chance.choice((1, 2)))]
    lines = [b"NAME          VAST", b"ROWS", card("N", "COST"), *(card(chance.choice("LLGE"), row) for row in rows), b"COLUMNS"]
    lines += [card("", column, (row, number())) for column in columns for row in ["COST", *rows]]
    lines += [b"RHS", *(card("", "S", (row, number(0))) for row in rows)]
    ends = [card("UP", "S", (column, number(0))) for column in columns]
    return lines + ([b"BOUNDS", *ends] if chance.random() < 0.5 else []) + [b"ENDATA", b""]


def past(limit, lines):
    """A deck that passes a limit, made of another's lines: before the card of its columns, or before its last line."""
    if limit == "rows":
        more = [card("G", f"M{i}") for i in range(ROWS + 1)]
    elif limit == "columns":
        more = [card("", f"M{i}", ("COST", 1)) for i in range(COLUMNS + 1)]
    elif limit == "entries":
        tall = ROWS // 2
        return [b"ROWS", card("N", "COST"), *[card("L", f"M{i}") for i in range(tall)], b"COLUMNS"] + [
            card("", f"M{j}", (f"M{i}", 1), (f"M{i + 1}", 1)) for j in range(ENTRIES // tall + 1) for i in range(0, tall - 1, 2)
        ]
    else:
        more = [b"*" + b"x" * 999] * (BYTES // 1000 + 1)
    at = lines.index(b"COLUMNS") + (limit == "columns")
    return lines[:at] + more + lines[at:]


# Pieces of a line in free form.
TOKENS = [piece.encode() for piece in "1E30 -1e30 1D2 .5 -.5 5. . 0 1/2 'MARKER' R1 X1 COST S UP LO FX FR MI PL BV SC XX N L G E QQ".split()]
SENSES = [word.encode() for word in "MAX MAXIMIZE MAXIMISE MIN MINIMIZE MINIMISE max Maximise mIn MAXI MINUS MAX-".split()]


def freed(line, chance):
    """A line in fixed columns as one in free form; a card of data may lose its set, and names lose their blanks."""
    if not line or line[:1] == b"*":
        return line
    if line[:1] != b" ":
        return b" ".join([word for word in line.split(b" ") if word])
    fields = [line[first - 1 : last].strip(b" ").replace(b" ", b"_") for first, last in FIELDS]
    tokens = [field for field in fields if field]
    gaps = [b" " * chance.choice((1, 1, 1, 2, 5)) for _ in tokens]
    return b"".join(gap + token for gap, token in zip(gaps, tokens)) + b" " * chance.choice((0, 0, 0, 1, 3)) + b"\r" * (chance.random() < 0.05)


def without_sets(lines, chance):
    """The lines in free form without the name of the sets, here or there or throughout."""
    share = chance.choice((0.0, 0.0, 0.1, 1.0))
    bounds, found = False, []
    for line in lines:
        tokens = line.split()
        bounds = bounds if line[:1] == b" " else line[:6] == b"BOUNDS"
        at = 1 if bounds else 0
        if line[:1] == b" " and tokens[at : at + 1] == [b"S"] and chance.random() < share:
            line = b" " + b" ".join(tokens[:at] + tokens[at + 1 :])
        found.append(line)
    return found


def with_sense(lines, chance):
    """The lines with a section of the sense: in its place mostly, with the word on its card or on the next."""
    word, at = chance.choice(SENSES[: chance.choice((2, 9, 12))]), 1
    if chance.random() < 0.1:
        at = chance.randrange(len(lines) + 1)
    more = chance.choice(([b"OBJSENSE " + word], [b"OBJSENSE", b"    " + word], [b"OBJSENSE", b"* a comment", b"   " + word + b" more"]))
    if chance.random() < 0.1:
        more = chance.choice(([b"OBJSENSE"], [b"OBJSENSE", b"    " + word, b"    " + word], more + [b"OBJSENSE " + word], [*more, b"   MAX"]))
    return lines[:at] + more + lines[at:]


def change_free(lines, chance):
    """Changes a line in free form."""
    here, there = chance.randrange(len(lines)), chance.randrange(len(lines))
    tokens = lines[here].split()
    at, kind = chance.randrange(len(tokens) + 1), chance.randrange(10)
    lead = b"" if lines[here][:1] not in (b" ", b"") else b" "
    if kind == 0:
        del lines[here]
    elif kind == 1:
        lines.insert(here, lines[there])
    elif kind == 2:
        lines[here], lines[there] = lines[there], lines[here]
    elif kind == 3:
        lines[here] = lead + b" ".join(tokens[:at] + tokens[at + 1 :])
    elif kind == 4:
        lines[here] = lead + b" ".join(tokens[:at] + [chance.choice(TOKENS)] + tokens[at:])
    elif kind == 5:
        lines[here] = lead + b" ".join(tokens[:at] + [chance.choice(TOKENS)] + tokens[at + 1 :])
    elif kind == 6:
        lines[here] = lead + b" ".join(tokens[:at] + [b"T" * chance.choice((TOKEN, TOKEN + 1))] + tokens[at + 1 :])
    elif kind == 7:
        lines[here] = lines[here].ljust(chance.choice((LINE, LINE + 1))) + b"\r" * chance.randrange(2)
    elif kind == 8:
        lines[here] = lines[here].ljust(chance.choice((LINE - 1, LINE, 10))) + bytes([chance.choice(b"\t\x7f\rX")])
    else:
        lines.insert(here, b" " * chance.choice((0, 61, LINE, LINE + 1)))


def decks_to_change():
    """The lines of the decks of examples/ and tests/worked."""
    here = os.path.dirname(os.path.dirname(os.path.abspath(__file__)))
    decks = []
    for path in sorted(glob.glob(os.path.join(here, "examples", "*.mps")) + glob.glob(os.path.join(here, "tests", "worked", "*.mps"))):
        # glpsol may go round in circles on a deck that was made for that
        if "cycling" not in path:
            with open(path, "rb") as deck:
                decks.append(deck.read().split(b"\n"))
    return decks


def drawn(chance, decks, number):
    """The text of the deck of this number."""
    if number % 2 == 0:
        lines = list(chance.choice(decks))
        for _ in range(chance.choice((1, 1, 1, 2, 2, 3, 5))):
            change(lines, chance)
        return b"\n".join(lines)
    if number % 10 == 9:
        return b"\n".join(vast(chance))
    lines = Draw(chance, chance.random() < 0.3).lines()
    limits = ("rows", "columns", "entries", "bytes")
    if number < 2 * len(limits):
        lines = past(limits[number // 2], lines)
    elif chance.random() < 0.03:
        lines = [line for line in lines if line != card("N", "COST") and b"COST" not in line and b"FREE" not in line]
    return b"\n".join(lines)
