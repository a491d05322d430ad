#!/usr/bin/env python3
"""What `bench_parts links` prints for three words, by plain lists: a second reader of its drawing, its search and its elimination."""
import sys

MASK = (1 << 64) - 1


def columns(shape, size):
    state = 20_260_701

    def word():
        nonlocal state
        state = (state * 6_364_136_223_846_793_005 + 1_442_695_040_888_963_407) & MASK
        return state ^ (state >> 32)

    for c in range(size):
        bound = c + 1 if shape == "triangular" and c % 16 else size
        column = {}
        for _ in range(64):
            drawn = c if not column and bound < size else word() % bound
            r = drawn * 7919 % size if shape == "triangular" else drawn
            if len(column) < 5 and r not in column:
                column[r] = word() % 9 + 1
        yield column


def run(search, shape, size):
    rows = [[] for _ in range(size)]  # the columns of each row's entries, in the order in which they came
    cols = [[] for _ in range(size)]
    value = {}
    for c, column in enumerate(columns(shape, size)):
        for r in sorted(column):
            rows[r].append(c)
            cols[c].append(r)
            value[r, c] = column[r]

    def cancel(r, c):
        rows[r].remove(c)
        cols[c].remove(r)
        del value[r, c]

    total = 0xCBF29CE484222325
    pivots = 0

    def fold(*words):
        nonlocal total
        for word in words:
            total = (total ^ word) * 0x100000001B3 & MASK

    while value and search != "load":
        r, c = min(value, key=lambda at: ((len(rows[at[0]]) - 1) * (len(cols[at[1]]) - 1), at))
        if search == "eliminate":
            in_col = [(i, value[i, c]) for i in cols[c]]
            in_row = [(j, value[r, j]) for j in rows[r]]
            for i, digit in in_col + in_row:
                fold(i, digit)
            for i, a in in_col:
                for j, b in in_row:
                    if i == r or j == c:
                        continue
                    more = a * b % 10
                    if (i, j) in value:
                        value[i, j] = (value[i, j] + more) % 10
                        if not value[i, j]:
                            cancel(i, j)
                    elif more:
                        rows[i].append(j)
                        cols[j].append(i)
                        value[i, j] = more
        for j in list(rows[r]):
            cancel(r, j)
        for i in list(cols[c]):
            cancel(i, c)
        fold(r, c)
        pivots += 1
    return f"{pivots} pivots, checksum {total:016x}"


if __name__ == "__main__":
    print(run(sys.argv[1], sys.argv[2], int(sys.argv[3])))
