"""Reports behind decks, each with what must be said of it: worked out by hand, and by a reader that was written in another language from the format."""
import os

from judge import HERE

with open(os.path.join(HERE, "tests", "worked", "one-of-each-kind.mps"), "rb") as found:
    # 21 lines, so a report behind it begins in line 22
    OF_EACH_KIND = found.read()

REPORT = b"""LPCERT 2
DECK TESTPROB
OPTIMAL
OBJECTIVE 50
VALUE 0 XONE
VALUE -1 YTWO
VALUE 6 ZTHREE
PRICE 0 LIM1
PRICE 0 LIM2
PRICE 9 MYEQN
BASIS 3
BASIC 3
BASIC 2
BASIC 4
UPPER 1
AT 5
LOG 4
SWAP 0 1 LOWER
SWAP 2 1 LOWER
SWAP 4 2 LOWER
TURN
END
"""
FARKAS = b"""LPCERT 1
DECK TESTPROB
INFEASIBLE
FARKAS -1/3 LIM1
FARKAS 0 LIM2
FARKAS 170141183460469231731687303715884105727 MYEQN
LOG 0
END
"""
RAY = b"""LPCERT 1
DECK TESTPROB
UNBOUNDED
VALUE 0 XONE
VALUE 1/2 YTWO
VALUE 3 ZTHREE
RAY 1 XONE
RAY 0 YTWO
RAY -7/5 ZTHREE
LOG 2
FLIP 8
SWAP 8 2 LOWER
END
"""

# A line of that report, counted from 0, what stands in its place, and the line and the flaw that are told then.
FLAWS = [
    (0, b"LPCERT 3", 22, "word"),
    (0, b"LPCERT 1", 32, "word"),
    (0, b"LPCERT 2\r", 22, "word"),
    (1, b"DECK", 23, "name"),
    (1, b"DECK TESTPROB ", 23, "name"),
    (1, b" " * 255, 23, "word"),
    (1, b" " * 256, 23, "long"),
    (2, b"OPTIMAL ", 24, "word"),
    (2, b"INFEASIBLE", 25, "word"),
    (3, b"OBJECTIVE 100/2", 25, "number"),
    (3, b"OBJECTIVE", 25, "number"),
    (4, b"VALUE -0 XONE", 26, "number"),
    (4, b"VALUE 2/4 XONE", 26, "number"),
    (4, b"VALUE +1 XONE", 26, "number"),
    (4, b"VALUE 01 XONE", 26, "number"),
    (4, b"VALUE 170141183460469231731687303715884105728 XONE", 26, "number"),
    (4, b"VALUE 0", 26, "name"),
    (4, b"VALUE 0 YTWO", 26, "name"),
    (4, b"PRICE 0 XONE", 26, "word"),
    (10, b"BASIS 4", 32, "number"),
    (10, b"BASIS 03", 32, "number"),
    (11, b"BASIC 9", 33, "name"),
    (11, b"BASIC", 33, "number"),
    (14, b"UPPER 10", 36, "number"),
    (14, b"UPPER 2", 38, "word"),
    (14, b"UPPER 0", 37, "word"),
    (15, b"AT 9", 37, "name"),
    (15, b"LOG 4", 37, "word"),
    (16, b"LOG 5", 43, "word"),
    (16, b"LOG 3", 42, "word"),
    (16, b"LOG 18446744073709551616", 43, "word"),
    (17, b"SWAP 9 1 LOWER", 39, "name"),
    (17, b"SWAP 0 3 LOWER", 39, "name"),
    (17, b"SWAP 0 LOWER", 39, "word"),
    (17, b"SWAP x 1 LOWER", 39, "number"),
    (17, b"FLIP 9", 39, "name"),
    (21, b"END ", 43, "word"),
    (21, b"END\nEND", 44, "rest"),
    (21, b"END\n", 44, "rest"),
]

# For each number of bytes from 0 on: what is wrong with so many first bytes of that report. `w` a word, `n` a number, `a` a name, `m` a line that is missing,
# `o` nothing.
CUT = (
    "mwwwwwwwmmwwwaaaaaaaaammwwwwwwmmwwwwwwwwnnmmmwwwwnnaaaaammwwwwnnnaaaaammwwwwnnaaaaaaammwww"
    "wnnaaaaammwwwwnnaaaaammwwwwnnaaaaaammwwwwnnmmwwwwnnmmwwwwnnmmwwwwnnmmwwwwnnmmwnnmmwwnnmmww"
    "wwwwwwwwwwwmmwwwwwwwwwwwwwmmwwwwwwwwwwwwwmmwwwmmwwoo"
)
LETTERS = {"w": "word", "n": "number", "a": "name", "m": "missing"}

# The least of 1 + 2 X + 3 Y with X at most 4 and Y from 0 up, so that X + 2 Y is at most 10 and X - Y from 1 to 6.
TWO = b"""NAME          TWO
ROWS
 N  COST
 L  R
 G  S
COLUMNS
    X         COST      2              R         1
    X         S         1
    Y         COST      3              R         2
    Y         S         -1
RHS
    S         R         10             S         1
    S         COST      -1
RANGES
    S         S         5
BOUNDS
 MI S         X
 UP S         X         4
ENDATA
"""
# A report on it, in short, and the verdict: each rule is broken once.
VERDICTS = [
    ("OPTIMAL 3 | VALUE 1 0 | PRICE 0 2", "ACCEPTED OPTIMAL"),
    ("OPTIMAL 3 | VALUE 5 0 | PRICE 0 2", "REFUSED COLUMN X"),
    ("OPTIMAL 3 | VALUE 4 4 | PRICE 0 2", "REFUSED ROW R"),
    ("OPTIMAL 4 | VALUE 1 0 | PRICE 0 2", "REFUSED OBJECTIVE"),
    ("OPTIMAL 3 | VALUE 1 0 | PRICE 0 0", "REFUSED REDUCED X"),
    ("OPTIMAL 3 | VALUE 1 0 | PRICE -1 3", "REFUSED PRICE R"),
    ("INFEASIBLE | FARKAS 1 0", "REFUSED ENDLESS Y"),
    ("INFEASIBLE | FARKAS 1 2", "REFUSED ENDLESS R"),
    ("INFEASIBLE | FARKAS 0 1", "REFUSED GAP"),
    ("UNBOUNDED | VALUE 1 0 | RAY 1 0", "REFUSED RAYCOLUMN X"),
    ("UNBOUNDED | VALUE 1 0 | RAY 0 1", "REFUSED RAYROW R"),
    ("UNBOUNDED | VALUE 1 0 | RAY 0 0", "REFUSED RAYCOST"),
    ("OPTIMAL 3 | VALUE 1 0 | PRICE 0 2 | BASIS 2 0 | UPPER", "ACCEPTED OPTIMAL"),
    ("OPTIMAL 3 | VALUE 1 0 | PRICE 0 2 | BASIS 0 0 | UPPER", "REFUSED BASIS"),
    ("OPTIMAL 3 | VALUE 1 0 | PRICE 0 2 | BASIS 2 0 | UPPER 2", "REFUSED BASIS"),
    ("OPTIMAL 3 | VALUE 1 0 | PRICE 0 2 | BASIS 2 3 | UPPER", "REFUSED REST X"),
    ("OPTIMAL 3 | VALUE 1 0 | PRICE 0 2 | BASIS 0 1 | UPPER", "REFUSED BASIC Y"),
]

# A deck of X and Y, from 0 up, in one row: the kind of the row, its numbers in the columns, their costs, the right side and the range. A report on it, in
# short, whose greatest number is 2^127 - 1; and what is said: the first number that does not fit is that of each rule.
MOST = "170141183460469231731687303715884105727"
WIDE = [
    ("L", (1, 1), (0, 0), 1, None, f"OPTIMAL 0 | VALUE {MOST} 0 | PRICE 0", "REFUSED ROW R"),
    ("L", (1, 1), (0, 0), 1, None, f"OPTIMAL 0 | VALUE {MOST} 1 | PRICE 0", "ROW R"),
    ("L", ("1E20", 0), (0, 0), 1, None, "OPTIMAL 0 | VALUE 10000000000000000000 0 | PRICE 0", "ROW R"),
    ("L", (0, 0), (1, 1), 1, None, f"OPTIMAL 0 | VALUE {MOST} 0 | PRICE 0", "REFUSED OBJECTIVE"),
    ("L", (0, 0), (1, 1), 1, None, f"OPTIMAL 0 | VALUE {MOST} 1 | PRICE 0", "OBJECTIVE"),
    ("L", (0, 1), (0, 1), 1, None, f"OPTIMAL 0 | VALUE 0 0 | PRICE -{MOST}", "REDUCED Y"),
    ("L", (0, 1), (0, 0), 1, None, f"OPTIMAL 0 | VALUE 0 0 | PRICE -{MOST}", "REFUSED PRICE R"),
    ("L", (2, 0), (0, 0), 1, None, f"INFEASIBLE | FARKAS -{MOST}", "ENDLESS X"),
    ("L", (0, 0), (0, 0), 1, 2, f"INFEASIBLE | FARKAS {MOST}", "ENDLESS R"),
    ("L", (0, 0), (0, 0), 1, 1, f"INFEASIBLE | FARKAS {MOST}", "REFUSED GAP"),
    ("E", (0, 0), (0, 0), 2, None, f"INFEASIBLE | FARKAS {MOST}", "GAP"),
    ("E", (0, 0), (0, 0), 1, None, f"INFEASIBLE | FARKAS {MOST}", "ACCEPTED INFEASIBLE"),
    ("G", (2, 0), (0, 0), 0, None, f"UNBOUNDED | VALUE 0 0 | RAY {MOST} 0", "RAYROW R"),
    ("G", (1, 1), (0, 0), 0, None, f"UNBOUNDED | VALUE 0 0 | RAY {MOST} 1", "RAYROW R"),
    ("G", (1, 1), (0, -2), 0, None, f"UNBOUNDED | VALUE 0 0 | RAY 0 {MOST}", "RAYCOST"),
    ("G", (1, 1), (0, -1), 0, None, f"UNBOUNDED | VALUE 0 0 | RAY 0 {MOST}", "ACCEPTED UNBOUNDED"),
]


def lines_of(short, title, rows):
    """The text of a report in short, whose columns are X and Y."""
    head, *parts = [part.split() for part in short.split("|")]
    tells = parts[-1][0] == "UPPER"
    lines = [f"LPCERT {2 if tells else 1}", f"DECK {title}", head[0], *(f"OBJECTIVE {number}" for number in head[1:])]
    for word, *numbers in parts:
        if word in ("BASIS", "UPPER"):
            lines += [f"{word} {len(numbers)}", *(f"{'BASIC' if word == 'BASIS' else 'AT'} {number}" for number in numbers)]
        else:
            lines += [f"{word} {number} {name}" for number, name in zip(numbers, rows if word in ("PRICE", "FARKAS") else "XY")]
    return "\n".join([*lines, "END", ""]).encode()


def wide_deck(kind, entries, costs, right, reach):
    """The text of a deck of one row."""
    lines = ["NAME          WIDE", "ROWS", " N  COST", f" {kind}  R", "COLUMNS"]
    lines += [f"    {name}         COST      {cost:<15}R         {entry}" for name, cost, entry in zip("XY", costs, entries)]
    lines += ["RHS", f"    S         R         {right}", *(["RANGES", f"    S         R         {reach}"] if reach is not None else [])]
    return "\n".join([*lines, "ENDATA", ""]).encode()


def flaw(number, which):
    return 3, "", f"lp: report line {number}: {which}"


def rows():
    """Each text of a deck and a report, with the status, the line on standard output, and the one on standard error."""
    lines = REPORT.split(b"\n")
    for at, other, number, which in FLAWS:
        yield OF_EACH_KIND + b"\n".join(lines[:at] + [other] + lines[at + 1 :]), flaw(number, which)
    for size, letter in enumerate(CUT):
        text = REPORT[:size]
        # a line that is missing is the one behind the last, which may lack its line feed
        behind = letter == "m" and text[-1:] not in (b"", b"\n")
        told = flaw(22 + text.count(b"\n") + behind, LETTERS[letter]) if letter != "o" else (0, "ACCEPTED OPTIMAL", "")
        yield OF_EACH_KIND + text, told
    yield OF_EACH_KIND + FARKAS, (6, "", "lp: check overflow at ENDLESS YTWO")
    yield OF_EACH_KIND + RAY, (1, "REFUSED ROW MYEQN", "")
    for short, line in VERDICTS:
        yield TWO + lines_of(short, "TWO", "RS"), (0 if line.startswith("ACCEPTED") else 1, line, "")
    for *deck, short, said in WIDE:
        status = {"ACCEPTED": 0, "REFUSED": 1}.get(said.split()[0], 6)
        line, fault = (said, "") if status < 6 else ("", f"lp: check overflow at {said}")
        yield wide_deck(*deck) + lines_of(short, "WIDE", "R"), (status, line, fault)
