"""Judges what the built program answers to a text, by the second reader, solver, checker and writer, and `glpsol --exact` where that is there."""
import os
import shutil
import subprocess
import sys
import tempfile
import zlib

from second_checker import Broken, Flaw, check, parse
from second_reader import Fault, read
from second_solver import WITHOUT_TABLE, Overflow, Spent, report_text, solve
from second_writer import Wide, deck_text

HERE = os.path.dirname(os.path.dirname(os.path.abspath(__file__)))
# The built program; or the one that the variable LP names, as that of `./try`, which nothing builds then.
LP = os.environ.get("LP") or os.path.join(HERE, "crates", "lp_main", "out", "lp_main")
# What is asked of the program, in turn: both versions of the report, with the log and without, by workers and without.
WORDS = [["solve", *workers, *log, *report] for workers in (["--workers", "0"], []) for log in ([], ["--log"]) for report in (["--report", "1"], [])]
# One text in so many is solved with a budget of so few moves.
EVERY, FEW = 8, 2
GLPSOL = shutil.which("glpsol")


def make_sure():
    """Builds the program, or ends this run with the build's status."""
    if os.environ.get("LP"):
        return
    built = subprocess.run([os.path.join(HERE, "tools", "build")], stdin=subprocess.DEVNULL)
    if built.returncode:
        sys.exit(built.returncode)


def decimal(value):
    """The decimal text of a number that has one, without an exponent."""
    places = 0
    while 10**places % value.denominator:
        places += 1
    digits = str(abs(value.numerator) * (10**places // value.denominator)).rjust(places + 1, "0")
    return ("-" if value < 0 else "") + (digits[:-places] + "." + digits[-places:] if places else digits)


def free_text(deck):
    """The deck in the free form of MPS that glpsol reads, without its constant."""
    lines = ["NAME T", "ROWS", " N Z", *[f" {row.kind} R{i}" for i, row in enumerate(deck.rows)], "COLUMNS"]
    for j, column in enumerate(deck.columns):
        lines.append(f" C{j} Z {decimal(column.cost)}")
        lines += [f" C{j} R{i} {decimal(value)}" for i, value in column.entries.items()]
    lines += ["RHS", *[f" S R{i} {decimal(row.right)}" for i, row in enumerate(deck.rows) if row.right]]
    lines += ["RANGES", *[f" S R{i} {decimal(row.range)}" for i, row in enumerate(deck.rows) if row.range is not None]]
    lines.append("BOUNDS")
    for j, column in enumerate(deck.columns):
        lines.append(f" MI B C{j}" if column.lower is None else f" LO B C{j} {decimal(column.lower)}")
        lines += [] if column.upper is None else [f" UP B C{j} {decimal(column.upper)}"]
    return "\n".join([*lines, "ENDATA", ""])


def is_moderate(deck):
    """Whether all numbers of a deck are such that glpsol takes them as they are: a cost of 3e-18 is 0 to it, and so is a reduced cost."""
    numbers = [row.right for row in deck.rows] + [column.cost for column in deck.columns]
    numbers += [value for column in deck.columns for value in column.entries.values()]
    numbers += [end for column in deck.columns for end in (column.lower, column.upper) if end is not None]
    return all(value == 0 or 1e-6 <= abs(value) <= 1e9 for value in numbers)


def objective_by_glpsol(deck):
    """The best objective that glpsol finds, as it prints it; or none, where it is not there, does not end soon, does not take the deck as optimal, or where a
    number is too small or too great for it."""
    if GLPSOL is None or not deck.rows or not deck.columns or not is_moderate(deck):
        return None
    with tempfile.TemporaryDirectory() as room:
        with open(f"{room}/deck", "w", encoding="ascii") as text:
            text.write(free_text(deck))
        sense = "--min" if deck.sense > 0 else "--max"
        try:
            subprocess.run([GLPSOL, "--exact", sense, "--freemps", f"{room}/deck", "--write", f"{room}/found"], capture_output=True, timeout=5)
        except subprocess.TimeoutExpired:
            return None
        if not os.path.exists(f"{room}/found"):
            return None
        with open(f"{room}/found", encoding="ascii") as found:
            parts = next(line.split() for line in found if line.startswith("s bas "))
    return float(parts[6]) if parts[4:6] == ["f", "f"] else None


def is_near(found, value):
    return abs(found - float(value)) <= 1e-8 * max(1.0, abs(float(value)))


def words_for(text, by_solver=True):
    """The words for a text, which are the same each time; only where the second solver knows what must come may the moves be few."""
    drawn = zlib.crc32(text)
    is_short = by_solver and drawn // len(WORDS) % EVERY == 0
    return WORDS[drawn % len(WORDS)] + (["--budget", str(FEW)] if is_short else [])


def budget_for(text):
    """The moves that the run of a text may take."""
    return FEW if "--budget" in words_for(text) else 1_000_000


def wanted(text, by_solver=True, free=False):
    """What the program must answer: a kind, the status, the line on standard error, the bytes written (none: a report to be judged), and a solved deck.

    A deck has one run, so the second solver's report is the program's byte for byte, and so is the place of the first value that does not fit; what else may
    stand in place of that is told by `in_place_of_overflow`.
    """
    try:
        deck = read(text, free)
    except Fault as fault:
        line = str(fault)
        kind = line.split(": ", 2)[-1].split(" after ")[0].rstrip(" 0123456789")
        return kind, 3, line, b"", None
    if not by_solver:
        return "solved", 0, "", None, deck
    try:
        solved = solve(deck, budget=budget_for(text))
    except Overflow as place:
        return f"overflow of {place.kind}", 6, str(place), b"", None
    except Spent as spent:
        return "budget", *spent_line(spent)
    return solved.outcome.lower(), 0, "", report_of(deck, solved, text), deck


def spent_line(spent):
    """What is answered where the budget is spent."""
    return 7, f"lp: budget spent after {spent} moves", b"", None


def report_of(deck, solved, text):
    return report_text(deck, solved, "--log" in words_for(text), 1 if "--report" in words_for(text) else 2)


def in_place_of_overflow(text, free):
    """What the program may answer where a value of the plain table does not fit: a status, the line on standard error, the bytes written, and a solved deck.

    It works over factors, which do not meet each value of the table. So where the others fit it may answer the end of the run. Where of those the first that does
    not fit is a sum of the objective, it may answer that place.
    """
    deck = read(text, free)
    try:
        return 0, "", report_of(deck, solve(deck, budget=budget_for(text), kinds=WITHOUT_TABLE), text), deck
    except Overflow as place:
        return (6, str(place), b"", None) if place.kind == "total" else None
    except Spent as spent:
        return spent_line(spent)


def fault_of_report(deck, written):
    """What is wrong with a report that was written, by the second checker and by glpsol; none where nothing is."""
    try:
        report = parse(deck, written)
        check(deck, report, width=None)
    except Flaw as flaw:
        return f"line {flaw.args[0]} of the report: {flaw.args[1]}"
    except Broken as rule:
        return f"the report breaks the rule {rule}"
    if report.outcome == "OPTIMAL":
        found = objective_by_glpsol(deck)
        if found is not None and not is_near(found, report.objective - deck.constant):
            return f"glpsol finds the objective {found}, without the constant"
    return None


def judge(text, by_solver=True, seconds=120, free=False):
    """The kind of answer that a text must have, and what is wrong with the program's, if anything is."""
    kind, status, line, bytes_written, deck = wanted(text, by_solver, free)
    try:
        done = subprocess.run([LP, *words_for(text, by_solver), *(["--free"] if free else [])], input=text, capture_output=True, timeout=seconds)
    except subprocess.TimeoutExpired:
        return kind, f"it does not end within {seconds} seconds"
    said = done.stderr.decode(errors="replace").removesuffix("\n")
    if status == 6 and (done.returncode, said) != (status, line):
        status, line, bytes_written, deck = in_place_of_overflow(text, free) or (status, line, bytes_written, deck)
    if (done.returncode, said) != (status, line):
        return kind, f"status {done.returncode} and the line '{said[:200]}' in place of {status} and '{line}'"
    if deck is not None:
        why = fault_of_report(deck, done.stdout)
        if why:
            return kind, why
    if bytes_written is not None and done.stdout != bytes_written:
        return kind, f"it wrote {done.stdout[:300]} in place of {bytes_written[:300]}"
    return kind, None


def fault_of_layout(text, free=False):
    """What is wrong with the deck that the program writes of a text, or with its refusal, if anything is."""
    try:
        wanted = 0, deck_text(read(text, free), free), ""
    except (Fault, Wide) as fault:
        wanted = 3, b"", str(fault)
    done = subprocess.run([LP, "deck", *(["--free"] if free else [])], input=text, capture_output=True, timeout=120)
    said = done.returncode, done.stdout, done.stderr.decode(errors="replace").removesuffix("\n")
    return None if said == wanted else f"deck: {said} in place of {wanted}"
