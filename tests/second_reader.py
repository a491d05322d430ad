#!/usr/bin/env python3
"""A second reader of fixed MPS and of its free form, written from docs/FORMATS.md and apart from lp's: the deck of a text, or its first fault.

With the word --limits it prints the limits of a deck: rows, columns, entries and bytes.
"""
import os
import re
import sys
from dataclasses import dataclass, field
from fractions import Fraction

FORMATS = os.path.join(os.path.dirname(os.path.dirname(os.path.abspath(__file__))), "docs", "FORMATS.md")


def limits():
    """The limits of a deck, as docs/FORMATS.md gives them: the one place from which all tests take them."""
    with open(FORMATS, encoding="utf-8") as text:
        table = dict(re.findall(r"^\| (rows|columns|entries|bytes)\b[^|]*\| ([\d,]+) \|$", text.read(), re.M))
    return [int(table[what].replace(",", "")) for what in ("rows", "columns", "entries", "bytes")]


ROWS, COLUMNS, ENTRIES, BYTES = limits()
INFINITY = Fraction(10) ** 30
GAPS = (4, 13, 14, 23, 24, 37, 38, 39, 48, 49)
FIELDS = ((2, 3), (5, 12), (15, 22), (25, 36), (40, 47), (50, 61))
LINE, TOKEN = 255, 64
MARKER = b"'MARKER'"
SENSES = {b"MAX": -1, b"MAXIMIZE": -1, b"MAXIMISE": -1, b"MIN": 1, b"MINIMIZE": 1, b"MINIMISE": 1}
INTEGERS, NUMBERED, UNNUMBERED = (b"BV", b"LI", b"UI", b"SC"), (b"UP", b"LO", b"FX"), (b"FR", b"MI", b"PL")
NUMBER = re.compile(rb"([+-]?)(?:(\d+)(?:\.(\d*))?|\.(\d+))(?:[EeDd]([+-]?)(\d+))?")


class Fault(Exception):
    """The first fault of a text, by its line on standard error."""


class Failed(Exception):
    """A read that failed, before a line that has ended had a fault or was the last, by its line on standard error."""

    def __init__(self):
        super().__init__("lp: read failed")


@dataclass
class Row:
    name: bytes
    kind: str
    right: Fraction = Fraction(0)
    range: Fraction | None = None

    def interval(self):
        """Where the activity lies: its least and its greatest value, None for no end."""
        size = None if self.range is None else abs(self.range)
        if self.kind == "L":
            return None if size is None else self.right - size, self.right
        if self.kind == "G":
            return self.right, None if size is None else self.right + size
        if size is None:
            return self.right, self.right
        return (self.right, self.right + size) if self.range >= 0 else (self.right - size, self.right)


@dataclass
class Column:
    name: bytes
    cost: Fraction = Fraction(0)
    entries: dict = field(default_factory=dict)
    lower: Fraction | None = Fraction(0)
    upper: Fraction | None = None


@dataclass
class Deck:
    """A linear program. An end of None is infinite. The sense is 1 for the least objective, and -1 for the greatest."""

    name: bytes
    objective: bytes
    rows: list
    columns: list
    constant: Fraction
    last_line: int
    sense: int = 1


def number(text):
    """The value of a number field, or none."""
    parts = NUMBER.fullmatch(text)
    if parts is None:
        return None
    whole = parts[2] or b""
    decimals = (parts[3] if parts[2] is not None else parts[4]) or b""
    exponent = int(parts[6] or 0) * (-1 if parts[5] == b"-" else 1)
    if abs(exponent) > 30:
        return None
    value = Fraction(int(whole + decimals), 10 ** len(decimals)) * Fraction(10) ** exponent
    fits = value.numerator < 2**127 and value.denominator < 2**127
    return (-value if parts[1] == b"-" else value) if fits else None


class Reader:
    """A deck as far as its lines have come. The sense is None while none is given, and awaited where the next card is to have it."""

    def __init__(self, free=False):
        self.free_form, self.sense, self.awaits_sense = free, None, False
        self.line, self.used = 0, 0
        self.begun, self.title = [], b""
        self.kinds, self.free = {}, []
        self.bounds, self.last, self.lowered = {}, None, set()
        self.rights, self.ranges = {}, {}
        self.numbers = {}
        self.set, self.named, self.entries = None, set(), 0

    def fault(self, what):
        return Fault(f"lp: line {self.line}: {what}")

    def take(self, raw, ended):
        """Takes a line, and answers whether it ends the deck."""
        self.line += 1
        self.used += len(raw) + ended
        if self.used > BYTES:
            raise self.fault("limit of bytes")
        text = raw.removesuffix(b"\r")
        text = text if self.free_form else text[:61]
        words = [word for word in text.split(b" ") if word]
        if text[:1] == b"*" or (not words and not self.free_form):
            return False
        if any(byte < 32 or byte > 126 for byte in text[:LINE]):
            raise self.fault("byte not printable")
        if self.free_form and (len(text) > LINE or any(len(word) > TOKEN for word in words)):
            raise self.fault("token")
        if not words:
            return False
        if text[:1] != b" ":
            names = words[1:2] if self.free_form else [text[14:22].strip(b" ")]
            return self.begin(words[0], words[1:2], names)
        if self.awaits_sense:
            self.take_sense(words[0])
        elif self.free_form:
            section = self.section_of_data()
            self.take_data(section, self.fields_of(section, words))
        else:
            text = text.ljust(61)
            for column in GAPS:
                if text[column - 1 : column] != b" ":
                    raise self.fault(f"column {column}")
            section = self.section_of_data()
            fields = [None] + [text[first - 1 : last].strip(b" ") for first, last in FIELDS]
            if section == b"COLUMNS" and MARKER in (fields[3], fields[4]):
                raise self.fault("integer")
            self.take_data(section, fields)
        return False

    def take_sense(self, word):
        self.sense, self.awaits_sense = SENSES.get(word.upper()), False
        if self.sense is None:
            raise self.fault("sense")

    def begin(self, word, second, names):
        if self.awaits_sense:
            raise self.fault("sense")
        if word == b"OBJSENSE" and second and second[0].upper() not in SENSES:
            raise self.fault("sense")
        rows, columns = b"ROWS" in self.begun, b"COLUMNS" in self.begun
        may_begin = {b"NAME": not self.begun, b"ROWS": not rows, b"COLUMNS": rows and not columns, b"ENDATA": columns}
        may_begin[b"OBJSENSE"] = not rows and b"OBJSENSE" not in self.begun
        for later in (b"RHS", b"RANGES", b"BOUNDS"):
            may_begin[later] = columns and later not in self.begun
        if not may_begin.get(word):
            raise self.fault("section")
        self.begun.append(word)
        self.set, self.named = None, set()
        if word == b"NAME":
            self.title = names[0] if names else b""
        elif word == b"OBJSENSE" and second:
            self.take_sense(second[0])
        elif word == b"OBJSENSE":
            self.awaits_sense = True
        return word == b"ENDATA"

    def section_of_data(self):
        """The section that admits a card of data here."""
        section = self.begun[-1] if self.begun else None
        if section == b"OBJSENSE":
            raise self.fault("sense")
        if section not in (b"ROWS", b"COLUMNS", b"RHS", b"RANGES", b"BOUNDS"):
            raise self.fault("section")
        return section

    def judge_kind(self, kind):
        if kind in INTEGERS:
            raise self.fault("integer")
        if kind not in NUMBERED + UNNUMBERED:
            raise self.fault("bound")

    def fields_of(self, section, words):
        """The fields that the tokens of a card are: kind, name or set, and two pairs."""
        count, none = len(words), [None, b"", b""]
        if section == b"COLUMNS" and words[1:2] == [MARKER]:
            raise self.fault("integer")
        if section == b"BOUNDS":
            self.judge_kind(words[0])
        if section == b"ROWS" and count == 2:
            fields = [None, *words]
        elif section == b"COLUMNS" and count in (3, 5):
            fields = [None, b"", *words]
        elif section in (b"RHS", b"RANGES") and count in (2, 3, 4, 5):
            fields = none[: 2 if count % 2 else 3] + words
        elif section == b"BOUNDS" and count in ((3, 4) if words[0] in NUMBERED else (2, 3, 4)):
            without_set = count == (3 if words[0] in NUMBERED else 2)
            fields = [None, words[0], *([b""] if without_set else []), *words[1:]]
        else:
            raise self.fault("token")
        return fields + [b""] * (7 - len(fields))

    def take_data(self, section, fields):
        if section == b"ROWS":
            self.take_row(fields)
        elif section == b"COLUMNS":
            self.take_column(fields)
        else:
            self.set = fields[2] if self.set is None else self.set
            if fields[2] != self.set:
                return
            if section == b"BOUNDS":
                self.take_bound(fields)
            else:
                self.take_pairs(fields, self.rights if section == b"RHS" else self.ranges)

    def take_row(self, fields):
        kind, name = fields[1], fields[2]
        if kind not in (b"N", b"E", b"L", b"G"):
            raise self.fault("row type")
        if name in self.kinds or name in self.free:
            raise self.fault("repeated")
        if kind == b"N":
            self.free.append(name)
        elif len(self.kinds) >= ROWS:
            raise self.fault("limit of rows")
        else:
            self.kinds[name] = kind

    def take_column(self, fields):
        name = fields[2]
        if name not in self.bounds:
            if len(self.bounds) >= COLUMNS:
                raise self.fault("limit of columns")
            self.bounds[name], self.last, self.named, self.numbers[name] = (Fraction(0), None), name, set(), {}
        elif name != self.last:
            raise self.fault("scattered column")
        self.take_pairs(fields, None)

    def take_pairs(self, fields, numbers):
        pairs = [(fields[3], fields[4])]
        if fields[5] or fields[6]:
            pairs.append((fields[5], fields[6]))
        for row, text in pairs:
            if row not in self.kinds and row not in self.free:
                raise self.fault("unknown row")
            if row in self.named:
                raise self.fault("repeated")
            value = number(text)
            if value is None:
                raise self.fault("number")
            self.named.add(row)
            if numbers is None:
                self.count(row, value)
                self.numbers[self.last][row] = value
            elif row in self.kinds or row == self.free[0]:
                numbers[row] = value

    def count(self, row, value):
        if value != 0 and row not in self.free[1:]:
            if self.entries >= ENTRIES:
                raise self.fault("limit of entries")
            self.entries += 1

    def take_bound(self, fields):
        kind, name = fields[1], fields[3]
        self.judge_kind(kind)
        if name not in self.bounds:
            raise self.fault("unknown column")
        value = number(fields[4]) if kind in NUMBERED else Fraction(0)
        if value is None:
            raise self.fault("number")
        if (value >= INFINITY and kind in (b"LO", b"FX")) or (value <= -INFINITY and kind in (b"UP", b"FX")):
            raise self.fault("bound")
        self.bounds[name] = self.ends_after(kind, value, name)
        if kind in (b"LO", b"FX", b"FR", b"MI"):
            self.lowered.add(name)

    def ends_after(self, kind, value, name):
        lower, upper = self.bounds[name]
        if kind == b"UP":
            return (None if value < 0 and name not in self.lowered else lower, None if value >= INFINITY else value)
        if kind == b"LO":
            return (None if value <= -INFINITY else value, upper)
        return {b"FX": (value, value), b"FR": (None, None), b"MI": (None, upper), b"PL": (lower, None)}[kind]

    def finish(self):
        """The deck, once its last line has come."""
        if not self.free:
            raise Fault("lp: no objective row")
        for name, (lower, upper) in self.bounds.items():
            if lower is not None and upper is not None and lower > upper:
                raise Fault(f"lp: column {name.decode()}: crossed bounds")
        objective, at = self.free[0], {name: i for i, name in enumerate(self.kinds)}
        rows = [Row(name, kind.decode(), self.rights.get(name, Fraction(0)), self.ranges.get(name)) for name, kind in self.kinds.items()]
        columns = []
        for name, ends in self.bounds.items():
            numbers = self.numbers[name]
            entries = {at[row]: value for row, value in numbers.items() if row in at and value != 0}
            columns.append(Column(name, numbers.get(objective, Fraction(0)), dict(sorted(entries.items())), *ends))
        return Deck(self.title, objective, rows, columns, -self.rights.get(objective, Fraction(0)), self.line, self.sense or 1)


def read(text, free=False, fails=False):
    """The deck of a text, in fixed columns or in free form; its first fault is raised. Where the read behind the text fails, only lines that ended count."""
    reader, lines = Reader(free), text.split(b"\n")
    ended = [(line, True) for line in lines[:-1]] + ([(lines[-1], False)] if lines[-1] and not fails else [])
    for line, is_ended in ended:
        if reader.take(line, is_ended):
            return reader.finish()
    if fails:
        raise Failed
    raise Fault(f"lp: deck ends without ENDATA after {len(ended)} lines")


if __name__ == "__main__" and sys.argv[1:] == ["--limits"]:
    print(*limits())
