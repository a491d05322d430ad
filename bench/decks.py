#!/usr/bin/env python3
"""Makes a deck from a seed: decks.py KIND ROWS COLUMNS SEED

KIND is `dense` (every entry from 1 to 9), `sparse` (four entries a column), `chain` (a column a row) or `stair` (periods of ten rows; a column takes in one
period and gives to the next): decks of less-than rows, with costs below 0, right sides from 1 up, and an entry above 0 in each column, so that the deck has
an optimum. Or it is `transport`: from half as many sources as there are
rows to as many sinks, which begins in phase one (the seed and the columns do not matter). Or it is `whole`: rows of all kinds, a cost and nine entries a
column with decimals, two pairs a card, ranges and bounds of all kinds. Or it is `mixed`: rows of all kinds with ranges, bounds of all kinds, and two
to five entries a column of small whole numbers, so that fractions stay short; it has a feasible point, and an optimum.
"""
import random
import sys


def column_entries(kind, rows, index, chance):
    if kind == "dense":
        return [(row, chance.randint(1, 9)) for row in range(rows)]
    if kind == "sparse":
        chosen = sorted(chance.sample(range(rows), min(4, rows)))
        return [(row, chance.randint(1, 9)) for row in chosen]
    if kind == "stair":
        first = index % max(1, rows // 10) * 10
        taken = sorted(chance.sample(range(first, min(first + 10, rows)), 2))
        given = [(first + 10 + chance.randrange(10), -1)] if first + 20 <= rows else []
        return [(row, 1) for row in taken] + given
    return [(index % rows, 1)]


def card(first, second, value):
    return f"    {first:<10}{second:<10}{value}"


def paired(name, pairs):
    cards = []
    for first in range(0, len(pairs), 2):
        line = f"    {name:<10}"
        line += "   ".join(f"{row:<10}{value:>12}" for row, value in pairs[first : first + 2])
        cards.append(line)
    return cards


def decimal(chance):
    return f"{chance.randint(-99999, 99999) / 1000:.3f}"


def whole_deck(rows, columns, chance):
    lines = ["NAME          WHOLE", "ROWS", " N  COST"]
    lines += [f" {'LGE'[row % 3]}  R{row + 1}" for row in range(rows)]
    lines.append("COLUMNS")
    for index in range(columns):
        chosen = sorted(chance.sample(range(rows), min(9, rows)))
        pairs = [("COST", decimal(chance))] + [(f"R{row + 1}", decimal(chance)) for row in chosen]
        lines += paired(f"X{index + 1}", pairs)
    lines.append("RHS")
    lines += paired("S", [(f"R{row + 1}", decimal(chance)) for row in range(rows)])
    lines.append("RANGES")
    lines += paired("S", [(f"R{row + 1}", f"{row % 50 + 1}.5") for row in range(0, rows, 2)])
    lines.append("BOUNDS")
    for index in range(columns):
        kind = ("UP", "LO", "FX", "FR", "MI", "PL")[index % 6]
        number = f"{index % 70 + 1}.25" if kind in ("UP", "LO", "FX") else ""
        lines.append(f" {kind} {'S':<10}{f'X{index + 1}':<10}{number:>12}".rstrip())
    lines.append("ENDATA")
    print("\n".join(lines))


def mixed_bounds(index, chance):
    """The kind of bound card, its number, and a whole number between the ends."""
    kind = ("PL", "UP", "LO", "FX", "FR", "MI")[chance.choices(range(6), (6, 6, 3, 1, 1, 1))[0]]
    number = chance.randint(1, 9)
    at = {"UP": chance.randint(0, number), "LO": number + chance.randint(0, 3), "FX": number}.get(kind, chance.randint(0, 5))
    return kind, number, -at if kind == "MI" and index % 2 else at


def mixed_deck(rows, columns, chance):
    lines = ["NAME          MIXED", "ROWS", " N  COST"]
    kinds = [chance.choice("LLLGGE") for _ in range(rows)]
    lines += [f" {kinds[row]}  R{row + 1}" for row in range(rows)]
    prices = [{"L": -chance.randint(0, 3), "G": chance.randint(0, 3), "E": chance.randint(-3, 3)}[kind] for kind in kinds]
    bounds, activity, columns_of = [], [0] * rows, []
    for index in range(columns):
        bounds.append(mixed_bounds(index, chance))
        entries = [(row, chance.choice((-1, 1, 1, 1, 2))) for row in sorted(chance.sample(range(rows), min(rows, chance.randint(2, 5))))]
        columns_of.append(entries)
        for row, value in entries:
            activity[row] += value * bounds[-1][2]
    lines.append("COLUMNS")
    for index, entries in enumerate(columns_of):
        # the cost is what the prices pay, and more: less where the upper end is finite, as much where there is no lower end
        paid = sum(prices[row] * value for row, value in entries)
        kind = bounds[index][0]
        more = {"UP": chance.randint(-5, 5), "FX": chance.randint(-5, 5), "FR": 0, "MI": 0}.get(kind, chance.randint(0, 7))
        lines.append(card(f"X{index + 1}", "COST", paid + more))
        lines += [card(f"X{index + 1}", f"R{row + 1}", value) for row, value in entries]
    lines.append("RHS")
    slack = [chance.randint(0, 4) for _ in range(rows)]
    rights = [activity[row] + {"L": slack[row], "G": -slack[row], "E": 0}[kinds[row]] for row in range(rows)]
    lines += [card("S", f"R{row + 1}", right) for row, right in enumerate(rights)]
    lines.append("RANGES")
    lines += [card("S", f"R{row + 1}", slack[row] + chance.randint(1, 6)) for row in range(0, rows, 3)]
    lines.append("BOUNDS")
    for index, (kind, number, _) in enumerate(bounds):
        lines.append(f" {kind} {'S':<10}{f'X{index + 1}':<10}{number if kind in ('UP', 'LO', 'FX') else ''}".rstrip())
    lines.append("ENDATA")
    print("\n".join(lines))


def transport_deck(count):
    ends = range(1, count + 1)
    lines = ["NAME          MAKE", "ROWS", " N  COST", *[f" L  S{i}" for i in ends], *[f" G  D{j}" for j in ends], "COLUMNS"]
    for i in ends:
        for j in ends:
            lines += [card(f"X{i}_{j}", row, value) for row, value in (("COST", (7 * i + 13 * j + 5 * i * j) % 97 + 1), (f"S{i}", 1), (f"D{j}", 1))]
    lines += ["RHS", *[card("S", f"S{i}", 20 + i % 5) for i in ends], *[card("S", f"D{j}", 15 + j % 4) for j in ends], "ENDATA"]
    print("\n".join(lines))


def main():
    kind, rows, columns, seed = sys.argv[1], int(sys.argv[2]), int(sys.argv[3]), int(sys.argv[4])
    chance = random.Random(seed)
    if kind == "whole":
        return whole_deck(rows, columns, chance)
    if kind == "mixed":
        return mixed_deck(rows, columns, chance)
    if kind == "transport":
        return transport_deck(rows // 2)
    lines = ["NAME          BENCH", "ROWS", " N  COST"]
    lines += [f" L  R{row + 1}" for row in range(rows)]
    lines.append("COLUMNS")
    for index in range(columns):
        cost = -1 if kind == "chain" else -chance.randint(1, 9)
        lines.append(card(f"X{index + 1}", "COST", cost))
        for row, value in column_entries(kind, rows, index, chance):
            lines.append(card(f"X{index + 1}", f"R{row + 1}", value))
    lines.append("RHS")
    for row in range(rows):
        right = 1 if kind == "chain" else chance.randint(1, 99)
        lines.append(card("S", f"R{row + 1}", right))
    lines.append("ENDATA")
    print("\n".join(lines))


main()
