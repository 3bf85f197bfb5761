#!/usr/bin/env python3
"""geometry_cases.py write|check: cases of the geometry, the ring samples and the square root, with their answers.

write: writes crates/geometry_cases/stdin, the cases, and stdout, the answers.
check: exits with 1 where one of the two files differs from what is computed here.

The answers come from IEEE 754 and document 01, sections 1, 3, 4, 6 and 8: each operation is done on exact rationals and
rounded once to binary32, to nearest and ties to even; the root, document 02, point 2, is found among all patterns. No float
of the machine and nothing of the Rattle code takes part.
"""
import os
import random
import sys
from fractions import Fraction

sys.path.insert(0, os.path.dirname(os.path.abspath(__file__)))
sys.dont_write_bytecode = True  # nothing is left beside the tools
import stored_cases
from directions import directions

# ---- binary32. A float is (sign, size): sign is 1 for a minus, size a Fraction, or INFINITE. A NaN is NAN.

NAN = "nan"
INFINITE = "infinite"


def power(e):
    return Fraction(2) ** e


def rounded(sign, size):
    """The float nearest to a size: 24 digits, or down to 2^-149, whichever is coarser."""
    if size == 0:
        return (sign, Fraction(0))
    e = size.numerator.bit_length() - size.denominator.bit_length()
    if size < power(e):
        e -= 1
    unit = power(max(e, -126) - 23)
    quotient = size / unit
    whole = quotient.numerator // quotient.denominator
    rest = quotient - whole
    if rest > Fraction(1, 2) or (rest == Fraction(1, 2) and whole % 2 == 1):
        whole += 1
    size = whole * unit
    return (sign, INFINITE if size >= power(128) else size)


def of_bits(n):
    sign, exponent, digits = n >> 31, n >> 23 & 255, n & 0x7FFFFF
    if exponent == 255:
        return NAN if digits else (sign, INFINITE)
    if exponent == 0:
        return (sign, digits * power(-149))
    return (sign, (digits + 2**23) * power(exponent - 150))


def to_bits(x):
    sign, size = x
    if size == INFINITE:
        return sign << 31 | 0x7F800000
    if size < power(-126):
        return sign << 31 | int(size / power(-149))
    e = size.numerator.bit_length() - size.denominator.bit_length()
    if size < power(e):
        e -= 1
    return sign << 31 | (e + 127) << 23 | int(size / power(e - 23)) - 2**23


def exact(x):
    return -x[1] if x[0] else x[1]


def neg(x):
    return x if x == NAN else (1 - x[0], x[1])


def add(x, y):
    if x == NAN or y == NAN:
        return NAN
    if INFINITE in (x[1], y[1]):
        if x[1] == y[1] and x[0] != y[0]:
            return NAN
        return x if x[1] == INFINITE else y
    total = exact(x) + exact(y)
    if total == 0:
        return (x[0] & y[0], Fraction(0))  # -0 only where both are -0
    return rounded(1 if total < 0 else 0, abs(total))


def sub(x, y):
    return add(x, neg(y))


def mul(x, y):
    if x == NAN or y == NAN:
        return NAN
    sign = x[0] ^ y[0]
    if INFINITE in (x[1], y[1]):
        return NAN if 0 in (x[1], y[1]) else (sign, INFINITE)
    return rounded(sign, x[1] * y[1])


def div(x, y):
    if x == NAN or y == NAN or (x[1] == y[1] and x[1] in (0, INFINITE)):
        return NAN
    sign = x[0] ^ y[0]
    if x[1] == INFINITE or y[1] == 0:
        return (sign, INFINITE)
    if y[1] == INFINITE:
        return (sign, Fraction(0))
    return rounded(sign, x[1] / y[1])


def less(x, y):
    if x == NAN or y == NAN or x == y:
        return False
    if x[1] == INFINITE or y[1] == INFINITE:
        return x == (1, INFINITE) or y == (0, INFINITE)
    return exact(x) < exact(y)


def equal(x, y):
    return x != NAN and y != NAN and (x == y or (x[1] == 0 and y[1] == 0))


def at_most(x, y):
    return less(x, y) or equal(x, y)


def nearest(text):
    """The float nearest to a number in decimal, as a literal has it; -0 is kept."""
    return rounded(1 if text.startswith("-") else 0, abs(Fraction(text)))


ZERO = nearest("0")
EDGE_WIDTH = nearest("1e-4")
BOX_MARGIN = nearest("1e-6")

# ---- document 01. A point is a pair of floats.


def minus(a, b):
    return (sub(a[0], b[0]), sub(a[1], b[1]))


def perp_dot(a, b):
    return sub(mul(a[0], b[1]), mul(a[1], b[0]))


def dot(a, b):
    return add(mul(a[0], b[0]), mul(a[1], b[1]))


def absolute(x):
    return x if x == NAN else (0, x[1])


def least(x, y):
    """helpers.rs: y unless x is the smaller."""
    return x if less(x, y) else y


def most(x, y):
    return x if less(y, x) else y


EDGE, LEFT, RIGHT = 0, 1, 2
INSIDE, OUTSIDE, NEXT = 0, 1, 2


def side(p, a, b):
    c = perp_dot(minus(b, a), minus(p, a))
    if less(absolute(c), EDGE_WIDTH):
        return EDGE
    return LEFT if less(ZERO, c) else RIGHT


def in_bounding_box(p, a, b):
    for k in (0, 1):
        if not at_most(sub(least(a[k], b[k]), BOX_MARGIN), p[k]):
            return False
        if not at_most(p[k], add(most(a[k], b[k]), BOX_MARGIN)):
            return False
    return True


def on_segment(p, a, b):
    return in_bounding_box(p, a, b) and side(p, a, b) == EDGE


def edge_test(p, a, b):
    where = side(p, a, b)
    if where == EDGE:
        return INSIDE if in_bounding_box(p, a, b) else NEXT
    return OUTSIDE if where == RIGHT else NEXT


def height_along(p, a, b, h0, h1):
    edge = minus(b, a)
    divisor = dot(edge, edge)
    if equal(divisor, ZERO):
        return None
    t = div(dot(minus(p, a), edge), divisor)
    return add(h0, mul(sub(h1, h0), t))


def mean(heights):
    total = heights[0]
    for h in heights[1:]:
        total = add(total, h)
    return div(total, nearest(str(len(heights))))


TABLE = [int(v.to_integral_value()) for v in directions()]
PROBES = [(0, 0), (1, 0), (1, 1), (0, 1), (-1, 1), (-1, 0), (-1, -1), (0, -1), (1, -1)]


def sample(p, reach, s, i):
    pair = 5 * s * s - 4 * s + i
    way = [div(nearest(str(n)), nearest(str(2**24))) for n in TABLE[2 * pair : 2 * pair + 2]]
    return [add(p[k], mul(mul(way[k], reach), nearest(str(s)))) for k in (0, 1)]


def probe(p, reach, k):
    return [add(p[j], mul(nearest(str(PROBES[k][j])), reach)) for j in (0, 1)]


# ---- document 02, point 2: the root, of patterns

INFINITY = 0x7F800000


def units(n):
    """The size of a pattern's float in units of 2^-149."""
    return int(of_bits(n)[1] * 2**149)


def root(n):
    """The pattern nearest to the root: the last whose square is at most the number, or the next where the midpoint is below the root."""
    number, low, high = units(n) << 149, 0, INFINITY
    while high - low > 1:
        middle = (low + high) // 2
        if units(middle) ** 2 <= number:
            low = middle
        else:
            high = middle
    midpoint = (units(low) + units(low + 1)) ** 2  # four times its square
    up = midpoint < 4 * number or (midpoint == 4 * number and low % 2 == 1)
    return low + 1 if up else low


# ---- a case and its answer

WORDS = {"S": 5, "P": 4, "E": 6, "B": 6, "G": 6, "T": 6, "H": 8, "M": 5, "A": 1, "R": 1, "N": 2, "X": 2, "D": 4, "C": 4}


def spelled(x):
    return "nan" if x == NAN else "%08x" % to_bits(x)


def result(letter, words, v):
    """The answer's words, or None for a case that the function does not take."""
    places = [(v[k], v[k + 1]) for k in range(0, len(v) - 1, 2)]
    if letter == "S":
        s, i = words[3:5]
        return [spelled(x) for x in sample(places[0], v[2], s, i)] if s < 16 and i <= 10 * s else None
    if letter == "P":
        return [spelled(x) for x in probe(places[0], v[2], words[3])] if words[3] < 9 else None
    if letter == "M":
        return [spelled(mean(v[1 : 1 + words[0]]))] if 1 <= words[0] <= 4 else None
    if letter == "R":
        return ["%08x" % root(words[0])] if 0 < words[0] < INFINITY else None
    if letter == "H":
        h = height_along(*places[:3], v[6], v[7])
        return ["-" if h is None else spelled(h)]
    if letter in "EBGT":
        return ["%08x" % {"E": side, "B": in_bounding_box, "G": on_segment, "T": edge_test}[letter](*places)]
    if letter in "DC":
        return [spelled({"D": dot, "C": perp_dot}[letter](*places))]
    return [spelled({"A": absolute, "N": least, "X": most}[letter](*v))]


def answer(line):
    """The answer to a line of any form."""
    letter, words = line[:1], line[1:]
    if letter not in WORDS or len(words) != 9 * WORDS[letter]:
        return "bad"
    parts = [words[9 * k : 9 * k + 9] for k in range(WORDS[letter])]
    if any(p[0] != " " or set(p[1:]) - set("0123456789ABCDEF") for p in parts):
        return "bad"
    numbers = [int(p, 16) for p in parts]
    floats = [of_bits(n) for n in numbers]
    said = None if NAN in floats else result(letter, numbers, floats)
    return "bad" if said is None else " ".join([letter] + said)


# ---- the cases. An argument is a whole number as it is, or a float: a decimal text or a float's value.


def case(letter, *arguments):
    words = [a if isinstance(a, int) else to_bits(nearest(a) if isinstance(a, str) else a) for a in arguments]
    return " ".join([letter] + ["%08X" % w for w in words])


def up(x, n=1):
    """The float n steps away from 0, or towards it where n is negative."""
    return of_bits(to_bits(x) + n)


def points(text):
    """The coordinates of points written 'x y x y ..'."""
    return text.split()


def side_cases():
    line = points("0 0 1 0")
    for x in [EDGE_WIDTH, up(EDGE_WIDTH, -1), up(EDGE_WIDTH), ZERO]:
        yield case("E", "0.5", x, *line)  # here c is the point's y
        yield case("E", "0.5", neg(x), *line)
    for text in [
        "1 1 0 0 4 0",
        "1 -1 0 0 4 0",
        "1 1 4 0 0 0",
        "3 7 -2 5 8 9",
        "9 9 0 0 0 0",
        "0.1 0.1 0 0 0.3 0.3",
        "0.1 0.3 0 0 0.2 0.6",
        "1000000 1000000 999999 999999 -1000000 -1000000",
        "999999.5 999999.9375 -1000000 -1000000 1000000 1000000",
        "999999.9375 999999.5 -1000000 -1000000 1000000 1000000",
        "0.01 0.01 0 0 0.01 0",
        "1e-20 1e-25 0 0 1e-20 0",
        "1e30 1e30 0 0 1e30 2e30",
    ]:
        yield case("E", *points(text))
    yield case("E", (0, INFINITE), "1", *line)  # 0 times an infinity: c is a NaN, which is Right
    yield case("E", "1", (0, INFINITE), *line)


def box_cases():
    for ends in ("0 0 1 2", "-3 5 -7 -5", "1000 -1000 1000000 999999.9375", "0.1 0.1 0.1 0.1"):
        ax, ay, bx, by = [nearest(t) for t in points(ends)]
        corners = (ax, ay, bx, by)
        low_x, high_x = sub(least(ax, bx), BOX_MARGIN), add(most(ax, bx), BOX_MARGIN)
        low_y, high_y = sub(least(ay, by), BOX_MARGIN), add(most(ay, by), BOX_MARGIN)
        yield case("B", low_x, low_y, *corners)
        yield case("B", high_x, high_y, *corners)
        yield case("B", up(low_x, 1 if low_x[0] else -1), ay, *corners)
        yield case("B", up(high_x, -1 if high_x[0] else 1), ay, *corners)
        yield case("B", ax, up(low_y, 1 if low_y[0] else -1), *corners)
        yield case("B", ax, up(high_y, -1 if high_y[0] else 1), *corners)
    for text in ["0 0 -0 -0 0 0", "-0 -0 0 0 -0 -0", "-1e-6 1e-6 -0 0 0 -0", "-1.0000001e-6 0 -0 0 0 -0", "2 1 0 0 1 2"]:
        yield case("B", *points(text))
    yield case("B", (0, INFINITE), "0", "0", "0", (0, INFINITE), "1")


def segment_cases():
    for text in [
        "0.5 0.5 0 0 1 1",
        "2 2 0 0 1 1",  # Edge, and not in the box
        "0.5 0.6 0 0 1 1",  # in the box, and not Edge
        "0.5 0.50005 0 0 1 1",
        "1.000001 1.000001 0 0 1 1",
        "1.00001 1.00001 0 0 1 1",
        "-0.000001 0 0 0 4 0",
        "2 -0.000001 0 0 4 0",
        "2 -0.0000011 0 0 4 0",
        "3 3 3 3 3 3",
        "9 9 3 3 3 3",
        "-0 0 0 -0 0 4",
        "1000000 1000000 -1000000 -1000000 1000000 1000000",
    ]:
        yield case("G", *points(text))


def polygon_cases():
    """Document 01, edges of the behaviour: the square, and polygons of one and two vertices."""
    square = ["0 0", "4 0", "4 4", "0 4"]
    for p in ["1 1", "0 2", "5 5", "2 -0.00001", "2 -0.0001"]:
        for k in range(4):
            yield case("T", *points("%s %s %s" % (p, square[k], square[(k + 1) % 4])))
    for text in ["1 1 0 4 4 4", "9 9 0 0 0 0", "0 0 0 0 0 0", "9 0 0 0 4 0", "9 0 4 0 0 0", "9 1 0 0 4 0", "9 1 4 0 0 0"]:
        yield case("T", *points(text))


def height_cases():
    for text in [
        "1 1 0 0 4 0 1 3",
        "2 0 0 0 4 0 1 3",
        "-1 0 0 0 4 0 1 3",
        "0 3 0 4 0 0 3 1",
        "0.1 0.2 0.3 0.4 0.5 0.7 1.1 -2.3",
        "5 5 5 5 5 5 1 2",  # an edge of length 0
        "-0 0 0 0 -0 -0 1 2",
        "1 1 0 0 1e-30 0 1 2",  # squares that round to 0
        "1 1 0 0 1e-23 1e-23 1 2",
        "1 0 0 0 1e-22 0 1 2",
        "0 0 0 0 1e-40 1e-45 1 2",
        "3 0 0 0 4 0 -0 -0",
        "-3 0 0 0 4 0 -0 -0",
        "0 0 0 0 4 0 -0 2",
        "4 0 0 0 4 0 0.1 0.3",
        "999999 999999 1000000 1000000 -1000000 -1000000 1000000 -1000000",
        "1000000 -1000000 0 0 0.0001 0 1 2",
        "1 0 0 0 2 0 3e38 -3e38",
        "0 0 0 0 2 0 3e38 -3e38",  # an infinity times 0
        "1e15 0 0 0 1e20 0 1 2",  # the divisor is infinite, t is 0
        "1e20 0 0 0 1e20 0 1 2",  # and t is a NaN
    ]:
        yield case("H", *points(text))
    half = (0, power(-75))
    for length in (half, up(half), up(half, -1)):  # 2^-75 squared is half of the least float: a tie, to 0
        yield case("H", length, "0", "0", "0", length, "0", "1", "2")
    yield case("H", "0", "0", (0, INFINITE), "0", (0, INFINITE), "0", "1", "2")  # the divisor is a NaN, not 0


def mean_cases():
    for text in ["-0", "7.25", "-0 -0", "-0 0", "0 -0", "1 1 3 3", "16777216 1 -16777216", "1 16777216 -16777216 1", "1 1 1", "0.1 0.2 0.3"]:
        heights = text.split()
        yield case("M", len(heights), *(heights + ["0"] * 4)[:4])
    for text in ["3e38 3e38", "3e38 3e38 -3e38 -3e38", "1e-45 1e-45 1e-45", "1e-45 0", "1e-45 1e-45 1e-45 1e-45"]:
        heights = text.split()
        yield case("M", len(heights), *(heights + ["0"] * 4)[:4])
    yield case("M", 2, (0, INFINITE), (1, INFINITE), "0", "0")
    yield case("M", 0, "1", "2", "3", "4")
    yield case("M", 5, "1", "2", "3", "4")


def number_cases():
    # The size of -0 is left out: IEEE 754's abs gives +0 and the helper -0, which no comparison tells apart.
    for x in ["0", "1", "-1", "-1000000", "1e-45", "-1e-45", "-3.4028235e38", (0, INFINITE), (1, INFINITE)]:
        yield case("A", x)
    pairs = [("-0", "0"), ("0", "-0"), ("-0", "-0"), ("1", "2"), ("2", "1"), ("-1", "1"), ("5", "5"), ("1e-45", "0"), ("-1e-45", "-0")]
    for x, y in pairs + [((1, INFINITE), "-3.4028235e38"), ("3", (0, INFINITE))]:
        yield case("N", x, y)
        yield case("X", x, y)


def product_cases():
    for text in [
        "1 2 3 4",
        "0 0 5 -3",  # perp_dot is -0
        "-0 0 5 3",
        "-0 -0 1 1",
        "1 1 1 -1",
        "16777216 1 1 1",
        "16777215 1 1 1",
        "4097 4097 4097 -4095",
        "3e38 3e38 2 2",
        "3e38 1 2 -3e38",
        "3e38 3e38 2 -2",
        "1e-30 1e-30 1e-15 -1e-15",
        "1e-23 1e-23 1e-23 1e-23",
        "1.5e-23 1e-30 1e-22 1e-30",
        "0.1 0.2 0.3 0.4",
        "0.1 0.3 0.3 0.9",
        "1000000 999999.9375 -999999.9375 1000000",
    ]:
        yield case("D", *points(text))
        yield case("C", *points(text))
    yield case("D", (0, INFINITE), "1", "0", "1")
    yield case("C", (0, INFINITE), "1", "1", (1, INFINITE))


def sample_cases():
    for text in ["-0 -0 0.5", "-0 -0 -0", "0 0 -0", "1 1 0.5", "-0.5 2 0", "1000000 -1000000 1000"]:
        yield case("S", *points(text), 0, 0)
    for s in range(1, 16):
        yield case("S", "0.3", "-2.7", "0.5", s, 0)
        yield case("S", "999999.9375", "-1000000", "1000", s, 10 * s)
    for s, i in [(1, 3), (1, 5), (2, 7), (3, 10), (5, 15), (7, 33), (9, 50), (12, 65), (15, 80), (15, 149)]:
        yield case("S", "-0", "0", "0.1", s, i)
    yield case("S", "-0.5", "2", "0.5", 1, 5)  # section 7's third seat: 00000000 40000000
    yield case("S", "-0", "-0", "-0", 1, 5)
    yield case("S", "1e-45", "-1e-45", "1e-45", 3, 4)
    yield case("S", "0", (1, INFINITE), "3e38", 15, 40)
    yield case("S", "0", "0", (0, INFINITE), 1, 0)
    for s, i in [(0, 1), (1, 11), (15, 151), (16, 0), (2**31, 0), (15, 2**32 - 2**24)]:
        yield case("S", "0", "0", "1", s, i)


def probe_cases():
    for k in range(9):
        yield case("P", "1.1", "-2.3", "0.5", k)
        yield case("P", "-0", "-0", "0.5", k)
        yield case("P", "-0", "-0", "-0", k)
    yield case("P", "1000000", "-1000000", "0.03125", 2)
    yield case("P", "-0", "0", "0", 6)
    yield case("P", "0", "0", "1", 9)
    yield case("P", "0", "0", "1", 2**32 - 2**24)


def near_midpoints():
    """Patterns whose root is as close to a midpoint as there are. With q the whole root of digits * 2^k, k being 23 or 24, the
    midpoint's square is q^2 + q + 1/4. So c of q^2 + q + c = digits * 2^k says how close; mod 2^k there are two q for each even c."""
    for c in range(-40, 42, 2):
        for k, fields in ((23, (1, 127, 253)), (24, (2, 128, 254))):
            for q in (0, 1):
                for _ in range(5):  # each turn doubles the digits that are right
                    q = (q - (q * q + q + c) * pow(2 * q + 1, -1, 2**k)) % 2**k
                if q < 2**23:
                    q += 2**23
                digits, rest = divmod(q * q + q + c, 2**k)
                if rest == 0 and 2**23 <= digits < 2**24:
                    for field in fields:
                        yield field << 23 | digits - 2**23


def root_cases():
    for n in [0, 0x80000000, 0x80000001, 0xBF800000, INFINITY, 0xFF800000]:
        yield case("R", n)
    numbers = [to_bits(nearest(t)) for t in "1 2 3 4 0.5 8e12 2000000 0.0001".split()]
    numbers += [to_bits((0, power(e))) for e in (-148, -140, -127, -126, 43, 127)]
    numbers += [0x12345, 0x2AAAAA, 0x7FFFFF]
    numbers += [to_bits(nearest(str(n * n))) for n in (3, 5, 255, 1000, 2047, 4093, 4095, 4096)]
    for n in numbers:
        for k in (-1, 0, 1):
            yield case("R", n + k)
    for n in [1, INFINITY - 2, INFINITY - 1]:
        yield case("R", n)
    for n in near_midpoints():
        yield case("R", n)
    draw = random.Random(1960).getrandbits
    for length in range(2, 24):  # subnormals by their count of digits
        for _ in range(12):
            yield case("R", 1 << length - 1 | draw(length - 1))
    for _ in range(150):  # squares
        n = to_bits((0, (draw(12) | 1) ** 2 * power(2 * (draw(6) - 32))))
        for k in (-1, 0, 1):
            yield case("R", n + k)
    for _ in range(150):  # squares of midpoints
        n = to_bits(rounded(0, (2 * (draw(23) + 2**23) + 1) ** 2 * power(draw(7) - 112)))
        for k in (-1, 0, 1):
            yield case("R", n + k)
    for _ in range(1570):
        yield case("R", draw(31) % (INFINITY - 1) + 1)


def bad_lines():
    good = case("D", "1", "2", "3", "4")
    yield "D 7FC00000" + good[10:]
    yield good[:-8] + "FF800001"
    yield "A FFFFFFFF"
    yield "A 3f800000"
    yield good.replace(" ", "-", 1)
    yield good[:-1]
    yield good + " "
    yield "Z" + good[1:]
    yield "D"
    yield ""


def random_cases():
    draw = random.Random(1951).getrandbits

    def on_plan():
        return "%d" % (draw(11) - 1024)

    def on_grid():
        return str(Fraction(draw(14) - 8192, 64))

    def far():
        return str(Fraction(999000 * 16 + draw(13) % 16001, 16) * (1 - 2 * draw(1)))

    def any_size():
        return (draw(1), rounded(0, (draw(23) + 2**23) * power(draw(5) - 35))[1])

    def any_pattern():
        return of_bits(draw(1) << 31 | draw(8) % 255 << 23 | draw(23))

    for k in range(6):
        kind = [on_plan, on_grid, far, any_size, any_pattern, any_size][k]
        for letter in "EBGTH":
            yield case(letter, *[kind() for _ in range(WORDS[letter])])
        for letter in "DCNX":
            yield case(letter, *[kind() for _ in range(WORDS[letter])])
        yield case("M", 1 + draw(2), *[kind() for _ in range(4)])
        s = draw(4)
        yield case("S", kind(), kind(), any_size(), s, draw(16) % (10 * s + 1))
        yield case("P", kind(), kind(), any_size(), draw(16) % 9)
    for _ in range(6):  # a point between the ends, where rounding decides
        a, b = (any_size(), any_size()), (any_size(), any_size())
        t = rounded(0, Fraction(draw(8), 256))
        p = [add(a[k], mul(sub(b[k], a[k]), t)) for k in (0, 1)]
        for letter in "EGT":
            yield case(letter, *p, *a, *b)
        yield case("H", *p, *a, *b, any_size(), any_size())


def files():
    """What the two files hold."""
    groups = [side_cases, box_cases, segment_cases, polygon_cases, height_cases, mean_cases, number_cases]
    groups += [product_cases, sample_cases, probe_cases, bad_lines, random_cases, root_cases]
    lines = [line for group in groups for line in group()]
    texts = {"stdin": lines, "stdout": [answer(l) for l in lines]}
    return {name: "".join(l + "\n" for l in text).encode("ascii") for name, text in texts.items()}


def write():
    stored_cases.write("geometry_cases", files())


def check():
    some = files()
    return stored_cases.check("geometry_cases", some, some["stdin"].count(b"\n"))


if __name__ == "__main__":
    stored_cases.run(__doc__, write=write, check=check)
