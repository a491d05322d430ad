#!/usr/bin/env python3
"""A second audit of reports, apart from lp's: it follows the deck's one run by the table of second_solver.py, and says where the report's log leaves it.

Run by itself it reads a deck and after its last line a report, and prints one line as `lp audit` would, with its status.
"""
import sys

from second_checker import WIDTH, answer
from second_solver import KINDS, Overflow, Run


def next_of(run):
    """The next entry of the run, with what a step needs; or how it ends, and the column that moves without end."""
    q = run.entering()
    if q is not None:
        least = run.leaving(q)
        if least is None:
            return None, ("UNBOUNDED", q)
        _, _, position, end = least
        entry = ("FLIP", q) if position is None else ("SWAP", q, position, end)
        return entry, (q, least[0], position, end)
    if run.phase == 2:
        return None, ("OPTIMAL", None)
    if all(value == 0 for value, column in zip(run.value, run.basis) if column >= run.n + run.m):
        return ("TURN",), None
    return None, ("INFEASIBLE", None)


def is_outcome(run, end, report):
    """Whether the report states how the run ended. The sums of the objective are worked only where its point and prices are the run's."""
    kind, q = end
    if report.outcome != kind:
        return False
    if kind == "INFEASIBLE":
        return report.farkas == run.prices()
    if report.values != run.point():
        return False
    if kind == "UNBOUNDED":
        return report.ray == run.ray(q)
    return report.prices == [run.deck.sense * price for price in run.prices()] and run.optimum().objective == report.objective


def judge(deck, report, width):
    """The line of the audit; a value that does not fit is raised."""
    if report.log is None:
        return "REFUSED NOLOG"
    run = Run(deck, width, KINDS)
    while True:
        entry, how = next_of(run)
        if entry is None and len(report.log) == run.number:
            break
        if entry is None or report.log[run.number : run.number + 1] != [entry]:
            return f"REFUSED LOG {run.number}"
        run.turn() if how is None else run.move(*how)
        run.number += 1
    if not is_outcome(run, how, report):
        return "REFUSED OUTCOME"
    upper = [j for j, status in enumerate(run.status) if status == "UPPER"]
    if report.basis is not None and tuple(map(list, report.basis)) != (run.basis, upper):
        return "REFUSED BASIS"
    return f"AUDITED {run.number}"


def judgement(deck, report, width=WIDTH):
    """The status of an audit of a report, the line on standard output, and the one on standard error."""
    try:
        line = judge(deck, report, width)
    except Overflow as place:
        return 6, "", str(place)
    return int(not line.startswith("AUDITED")), line, ""


def main():
    status, line, fault = answer(sys.stdin.buffer.read(), judge=judgement)
    for said, end in ((line, sys.stdout), (fault, sys.stderr)):
        if said:
            print(said, file=end)
    return status


if __name__ == "__main__":
    sys.exit(main())
