#!/usr/bin/env python3
"""directions.py write|check: the table of directions of document 01, section 4, in decimal arithmetic of 60 digits.

write: prints the Rattle source of the table.
check: reads the numbers of crates/ring/src/table.rt and tests that each is 2^24 times the true sine or cosine, to the
nearest whole number. The series are summed until a term is below 10^-55, so a number that passes differs from the true
value by at most one half.
"""
import os
import re
import sys
from decimal import Decimal, getcontext

getcontext().prec = 60
PI = Decimal("3.14159265358979323846264338327950288419716939937510582097494459")
HALF = Decimal("0.5")
TABLE = os.path.join(os.path.dirname(os.path.abspath(__file__)), "..", "crates", "ring", "src", "table.rt")


def series(x, term, power):
    """The sum of term - term x^2 / ((power + 1)(power + 2)) + .., a sine from (x, 1) or a cosine from (1, 0)."""
    total = term
    while abs(term) > Decimal(10) ** -55:
        term = -term * x * x / ((power + 1) * (power + 2))
        power += 2
        total += term
    return total


def directions():
    """The true values, 2^24 times the sine and the cosine, in the table's order."""
    for s in range(16):
        for i in range(10 * s + 1):
            x = 2 * PI * i / (10 * (s + 1))
            yield 2**24 * series(x, x, 1)
            yield 2**24 * series(x, Decimal(1), 0)


def write():
    print("// Document 01, section 4: the pairs (A, B) of the steps 0 to 15, one after the other, written by tools/directions.py.")
    print("pub const DIRECTIONS: [i32; 2432] = [")
    for v in directions():
        print("    %d," % v.to_integral_value())
    print("];")


def check():
    text = open(TABLE, encoding="utf-8").read()
    numbers = [int(n) for n in re.findall(r"-?\d+", text[text.index("= [") :])]
    true = list(directions())
    wrong = [k for k in range(max(len(numbers), len(true))) if k >= min(len(numbers), len(true)) or abs(numbers[k] - true[k]) > HALF]
    for k in wrong:
        print("directions: number %d of the table is not the nearest" % k)
    worst = max((abs(a - b) for a, b in zip(numbers, true)), default=0)
    print("directions: %d numbers, the farthest from the true value by %.6f" % (len(numbers), worst))
    return 1 if wrong else 0


if __name__ == "__main__":
    if sys.argv[1:] == ["write"]:
        write()
    elif sys.argv[1:] == ["check"]:
        sys.exit(check())
    else:
        sys.exit(__doc__)
