#!/usr/bin/env python3
"""A second reading of the arithmetic on fractions, by Python's own: all operations on each pair of fractions at the edges of 127 bits.

An answer is unfit exactly where its numerator or its denominator, reduced, has a size of 2^127 or more. Products and quotients are counted, whether they fit or
not. A quotient by 0, which no arithmetic is asked for, is the left fraction here.

Run by itself it prints what `bench_parts arith edges` prints; `--check` compares it with the stored run of that program.
"""
import os
import sys
from fractions import Fraction

MASK = (1 << 64) - 1
STORED = os.path.join(os.path.dirname(os.path.dirname(os.path.abspath(__file__))), "crates", "bench_parts", "stdout")
TOP = (1 << 127) - 1
W126, W64, W63, THREES = 1 << 126, 1 << 64, 1 << 63, 3**80
WHOLE = [(0, 1), (1, 1), (1, 2), (1, 3), (2, 3), (7, 2), (8, 9), (1, 10)]
OF_TOP = [(TOP, 1), (TOP - 1, 1), (TOP, 2), (TOP, 3), (TOP, 5), (TOP, 7), (1, TOP), (2, TOP), (1, TOP - 1), (TOP - 1, TOP), (TOP, TOP - 1), (TOP - 2, TOP - 1)]
OF_HALF = [(W126, 1), (1, W126), (W126 + 1, W64), (W126 + 5, W63), (W126, THREES), (THREES, 2), (1, THREES)]
OF_WORDS = [(W64, 1), (W64, 3), (1, W64), (W64, W64 - 1), (W64 - 1, W64 - 3), (W63, 1), (W63, 3), (1, W63), (W64 - 1, W63), (W63 + 1, W63 - 1)]
DRAWN = [
    (10**19, 3 * 10**19 + 1),
    (192320266220262531359177576783, 88585878885557616817654631760),
    (98566618787398639810858690649, 23937196531179312158127754260),
]
EDGES = [Fraction(*parts) for parts in WHOLE + OF_TOP + OF_HALF + OF_WORDS + DRAWN]


def words_of(answer):
    """The words of 64 bits that stand for an answer in the checksum."""
    if max(abs(answer.numerator), answer.denominator) > TOP:
        return [MASK]
    sizes = [abs(answer.numerator), answer.denominator]
    return [int(answer < 0)] + [part for size in sizes for part in (size >> 64, size & MASK)]


def line(left):
    unfit = work = 0
    checksum = 0xCBF29CE484222325
    for edge in EDGES:
        for number, work_of in enumerate((lambda a, b: a + b, lambda a, b: a - b, lambda a, b: a * b, lambda a, b: a / b if b else a, min)):
            for right in (edge, -edge):
                answer = words_of(work_of(left, right))
                unfit += answer == [MASK]
                work += number == 2 or (number == 3 and right != 0)
                for word in answer:
                    checksum = (checksum ^ word) * 0x100000001B3 & MASK
    return f"{unfit} unfit, {work} worked, checksum {checksum:016x}\n"


def main():
    text = "".join(line(sign * edge) for edge in EDGES for sign in (1, -1))
    if sys.argv[1:] != ["--check"]:
        sys.stdout.write(text)
        return 0
    with open(STORED, encoding="utf-8") as stored:
        same = text in stored.read()
    print(f"{int(same)} passed, {int(not same)} failed")
    return 0 if same else 1


if __name__ == "__main__":
    sys.exit(main())
