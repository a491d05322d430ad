"""A solver class for PuLP (Debian's python3-pulp) over `lp`, which answers exactly and proves its answer.

    from pulp_lp import LP_CMD
    problem.solve(LP_CMD(path="/usr/local/bin/lp"))
    problem.exact.values["x"], problem.exact.prices["row"], problem.exact.report

As after the library's other solvers a variable has its value and its reduced cost, and a constraint its price and its slack, as floats. The exact
fractions stand beside them in `problem.exact`, by the library's names, with the deck and the report that `lp check` has accepted.

| the answer of `lp` | the library's status | what `problem.exact` has |
|---|---|---|
| optimal | Optimal | values, reduced costs, prices, slacks, objective |
| infeasible | Infeasible | `farkas`, the factor of each constraint; none where the bounds of a variable cross |
| unbounded | Unbounded | values and slacks of a feasible point, and `ray` |
| a number that does not fit, the budget of moves spent, or the time limit | Undefined | `refusal`, the line that says so |

The deck is written here and not by the library, whose own writer puts the sense into a comment, so that a maximum would be read as a minimum.

All else is refused by `PulpSolverError`: an integer variable (with `mip=False` it is taken as if it were none), a set of variables of which few may be
above 0, a number that is no decimal of at most 30 places, a deck that `lp` refuses as a whole, and an answer that `lp check` does not accept. A float is
taken as the shortest decimal that is read back as it: 0.1 is one tenth.
"""
import subprocess
from dataclasses import dataclass, field
from decimal import Decimal
from fractions import Fraction

from pulp import constants
from pulp.apis.core import LpSolver_CMD, PulpSolverError, clock

KINDS = {constants.LpConstraintLE: "L", constants.LpConstraintEQ: "E", constants.LpConstraintGE: "G"}
STATUSES = {
    "OPTIMAL": constants.LpStatusOptimal,
    "INFEASIBLE": constants.LpStatusInfeasible,
    "UNBOUNDED": constants.LpStatusUnbounded,
}
# The statuses of lp that say that there may be an answer which it did not come to.
UNDECIDED = (6, 7)
OBJECTIVE, PLACES, LONGEST = "OBJECTIVE", 30, 64


@dataclass
class Exact:
    """What `lp` answers, by the names of the library. What an answer does not have is empty."""

    deck: str = ""
    report: str = ""
    outcome: str = ""
    refusal: str = ""
    objective: Fraction = None
    values: dict = field(default_factory=dict)
    reduced_costs: dict = field(default_factory=dict)
    prices: dict = field(default_factory=dict)
    slacks: dict = field(default_factory=dict)
    farkas: dict = field(default_factory=dict)
    ray: dict = field(default_factory=dict)


def exact(value):
    """A number of the library as a fraction."""
    if isinstance(value, (int, Fraction, Decimal)):
        return Fraction(value)
    value = float(value)
    if value != value or value in (float("inf"), float("-inf")):
        raise PulpSolverError(f"lp has no number {value}")
    return Fraction(repr(value))


def spelled(value):
    """The text of a number in a deck."""
    value = exact(value)
    places = 0
    while value.denominator != 1 and 10**places % value.denominator:
        places += 1
        if places > PLACES:
            raise PulpSolverError(f"lp: the number {value} is no decimal of at most {PLACES} places")
    digits = str(value.numerator * 10**places // value.denominator)
    return f"{digits}E-{places}" if places else digits


def end(bound):
    """An end of a variable as a fraction, or None where it is infinite."""
    return None if bound is None or bound in (float("inf"), float("-inf")) else exact(bound)


def fits(name):
    return 0 < len(name) <= LONGEST and all(33 <= ord(sign) <= 126 for sign in name) and name not in ("'MARKER'", OBJECTIVE)


def named(names, letter):
    """The names in the deck: the library's own, or numbers where one of these does not fit into a deck."""
    names = list(names)
    return dict(zip(names, names if all(map(fits, names)) else (f"{letter}{at}" for at in range(1, len(names) + 1))))


def bound_cards(variable, name):
    lower, upper = end(variable.lowBound), end(variable.upBound)
    if lower is None and upper is None:
        return [f" FR S {name}"]
    if lower is not None and lower == upper:
        return [f" FX S {name} {spelled(lower)}"]
    cards = [f" MI S {name}"] if lower is None else [f" LO S {name} {spelled(lower)}"] if lower or (upper is not None and upper < 0) else []
    return cards + ([f" UP S {name} {spelled(upper)}"] if upper is not None else [])


class Model:
    """A problem of the library, as a deck in free form."""

    def __init__(self, problem):
        self.problem, self.variables = problem, problem.variables()
        self.rows = named(problem.constraints, "R")
        self.columns = named((it.name for it in self.variables), "C")
        self.costs = {it.name: exact(value) for it, value in problem.objective.items()}
        self.entries = {it.name: [] for it in self.variables}
        for row, constraint in problem.constraints.items():
            for variable, value in constraint.items():
                self.entries[variable.name].append((row, exact(value)))

    def crossed(self):
        """A variable whose bounds cross, or none."""
        for it in self.variables:
            lower, upper = end(it.lowBound), end(it.upBound)
            if lower is not None and upper is not None and lower > upper:
                return it.name
        return None

    def right(self, row):
        return -exact(self.problem.constraints[row].constant)

    def deck(self):
        """The text of the deck."""
        rows = [f" {KINDS[it.sense]} {self.rows[name]}" for name, it in self.problem.constraints.items()]
        columns, bounds = [], []
        for it in self.variables:
            name = self.columns[it.name]
            columns.append(f" {name} {OBJECTIVE} {spelled(self.costs.get(it.name, 0))}")
            columns += [f" {name} {self.rows[row]} {spelled(value)}" for row, value in self.entries[it.name] if value]
            bounds += bound_cards(it, name)
        rights = [f" S {self.rows[row]} {spelled(self.right(row))}" for row in self.rows if self.right(row)]
        constant = exact(self.problem.objective.constant)
        rights += [f" S {OBJECTIVE} {spelled(-constant)}"] if constant else []
        sense = ["OBJSENSE", " MAX"] if self.problem.sense == constants.LpMaximize else []
        cards = ["NAME", *sense, "ROWS", f" N {OBJECTIVE}", *rows, "COLUMNS", *columns, "RHS", *rights, "BOUNDS", *bounds]
        return "\n".join([*cards, "ENDATA", ""])

    def answer(self, deck, report):
        """What a report says, by the names of the library."""
        said = {}
        for line in report.split("\n"):
            word, _, rest = line.partition(" ")
            if word in ("OBJECTIVE", "VALUE", "PRICE", "FARKAS", "RAY"):
                said.setdefault(word, []).append(Fraction(rest.split(" ")[0]))
        found = Exact(deck, report, report.split("\n")[2], objective=said.get("OBJECTIVE", [None])[0])
        found.values, found.ray = (dict(zip(self.columns, said.get(word, []))) for word in ("VALUE", "RAY"))
        found.prices, found.farkas = (dict(zip(self.rows, said.get(word, []))) for word in ("PRICE", "FARKAS"))
        if found.values:
            found.slacks = {row: self.right(row) for row in self.rows}
            for column, entries in self.entries.items():
                for row, value in entries:
                    found.slacks[row] -= value * found.values[column]
        if found.outcome == "OPTIMAL":
            for column, entries in self.entries.items():
                found.reduced_costs[column] = self.costs.get(column, Fraction(0)) - sum(value * found.prices[row] for row, value in entries)
        return found


class LP_CMD(LpSolver_CMD):
    """The exact solver `lp`. Its options are those of `lp solve`, as `["--budget", "1000"]`."""

    name = "LP_CMD"

    def __init__(self, path=None, keepFiles=False, mip=True, msg=True, options=None, timeLimit=None):
        LpSolver_CMD.__init__(self, mip=mip, msg=msg, timeLimit=timeLimit, options=options, path=path, keepFiles=keepFiles)

    def defaultPath(self):
        return self.executableExtension("lp")

    def available(self):
        """Whether the program is there."""
        return self.executable(self.path)

    def refuse(self, problem):
        """Refuses what is no linear program."""
        if not self.available():
            raise PulpSolverError(f"lp: cannot execute {self.path}")
        for it in problem.variables():
            if it.cat != constants.LpContinuous and self.mip:
                raise PulpSolverError(f"lp has no integer variables, and {it.name} is one; with mip=False it is solved as if it were not")
        if problem.sos1 or problem.sos2:
            raise PulpSolverError("lp has no sets of variables of which few may be above 0")

    def run(self, words, text):
        """What the program answers to words: its status, its output and its line."""
        done = subprocess.run([self.path, *words], input=text.encode(), capture_output=True, timeout=self.timeLimit, check=False)
        return done.returncode, done.stdout.decode(), done.stderr.decode(errors="replace").strip()

    def answer(self, model):
        """What the program answers to a problem, once it has checked it."""
        deck = model.deck()
        try:
            status, report, line = self.run(["solve", "--free", "--report", "1", *self.options], deck)
        except subprocess.TimeoutExpired:
            return Exact(deck, refusal=f"lp: not solved within {self.timeLimit} seconds")
        if status in UNDECIDED:
            return Exact(deck, refusal=line)
        if status:
            raise PulpSolverError(line or f"lp ended with status {status}")
        status, verdict, line = self.run(["check", "--free"], deck + report)
        if status:
            raise PulpSolverError(f"lp check: {line or verdict.strip()}")
        return model.answer(deck, report)

    def keep(self, problem, found):
        """Keeps the deck and the report as files, where that is asked for."""
        for path, text in zip(self.create_tmp_files(problem.name, "mps", "report"), (found.deck, found.report)):
            with open(path, "w", encoding="ascii") as file:
                file.write(text)

    def actualSolve(self, lp):
        """Solves a problem, and sets what the library keeps of its answer."""
        self.refuse(lp)
        self.solution_time = -clock()
        model = Model(lp)
        crossed = model.crossed()
        found = Exact(outcome="INFEASIBLE", refusal=f"lp: column {crossed}: crossed bounds") if crossed else self.answer(model)
        self.solution_time += clock()
        if self.keepFiles:
            self.keep(lp, found)
        if self.msg:
            print(found.refusal or f"lp: {found.outcome.lower()}, accepted by lp check")
        lp.exact = found
        lp.assignVarsVals({name: float(value) for name, value in found.values.items()})
        lp.assignVarsDj({name: float(value) for name, value in found.reduced_costs.items()})
        lp.assignConsPi({name: float(value) for name, value in found.prices.items()})
        lp.assignConsSlack({name: float(value) for name, value in found.slacks.items()})
        status = STATUSES.get(found.outcome, constants.LpStatusUndefined)
        lp.assignStatus(status)
        return status
