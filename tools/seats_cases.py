#!/usr/bin/env python3
"""seats_cases.py write|check|list: cases of the seat run, the closest points and the height call, with their answers.

write: writes crates/seats_cases/stdin, the cases, and stdout, the answers.
check: exits with 1 where one of the two files differs from what is computed here.
list: prints the cases, in the order of their answers in stdout.

Records, entries and heights are worked out from document 01, sections 3 to 7, and document 02, points 1 and 5, over exact fractions
that are rounded once an operation (tools/geometry_cases.py). The number of a refusal is what its case is built to fail, and stands
beside the case: nothing here asks a question. Nothing of the Rattle code takes part.

A place that is an argument is never a NaN, since no float can be made of a NaN's pattern there; NaNs stand in seats, which are
bytes. The last line of stdout is `bad`, for a case that is cut short.
"""
import os
import random
import struct
import sys
from functools import lru_cache

sys.path.insert(0, os.path.dirname(os.path.abspath(__file__)))
sys.dont_write_bytecode = True  # nothing is left beside the tools
import geometry_cases as g
import stored_cases
from ship_cases import LONG_HULL, REFUSED_HULLS, SHORT_HULL
from ship_file import ALL_ONES, SQUARE, bits, blocked, put, seat, ship_file, u32

MOST_BYTES = 260000  # they fit the program's array
MOST_OUTPUT = 4096

# ---- numbers


def value(x):
    return g.of_bits(bits(x))


NAN = float("nan")
INFINITY = float("inf")
MILLION = 1000000.0
ABOVE = 1000000.0625  # the next float

# ---- document 01, sections 3 to 7. A seat is x, y, deck and wish; a candidate is deck, polygon, sample and place.

sample = lru_cache(None)(g.sample)


class Deck:
    def __init__(self, deck):
        vertices = [(value(x), value(y)) for x, y, _ in deck["vertices"]]
        self.offset = tuple(value(c) for c in deck["offset"])
        self.polygons = [[vertices[v] for v in polygon] for polygon in deck["polygons"]]
        self.heights = [[value(deck["heights"][v]) for v in polygon] for polygon in deck["polygons"]] if deck["heights"] else None


class Ship:
    def __init__(self, *decks, reach=0.5, steps=2):
        self.file = ship_file(decks, reach, steps)
        self.decks = [Deck(d) for d in decks]
        self.reach = value(reach)
        self.steps = steps


def round_trip(some):
    """The edges of a polygon: in list order, then from the last to the first."""
    return list(zip(some, some[1:] + some[:1]))


def passes(polygon, p):
    """Section 3."""
    for a, b in round_trip(polygon):
        test = g.edge_test(p, a, b)
        if test != g.NEXT:
            return test == g.INSIDE
    return True


def open_decks(ship, named, closed):
    """Document 02, point 1: the decks not in the blocked set and, where a deck is named, that one."""
    return [d for d in range(len(ship.decks)) if d not in closed and named in (ALL_ONES, d)]


def turn(ship, p, s, d):
    """A deck's turn in step s: its candidates, and how many samples it tried."""
    deck = ship.decks[d]
    around = g.minus(p, deck.offset)
    for i in range(10 * s + 1):
        q = sample(around, ship.reach, s, i)
        hits = [k for k, polygon in enumerate(deck.polygons) if passes(polygon, q)]
        if hits:
            place = tuple(g.add(q[c], deck.offset[c]) for c in (0, 1))
            return [(d, k, i, place) for k in hits], i + 1
    return [], 10 * s + 1


@lru_cache(None)
def search(ship, p, named, closed):
    """Section 5: the last step, its candidates, and the samples tried in all."""
    tried = 0
    for s in range(ship.steps):
        found = []
        for d in open_decks(ship, named, closed):
            some, more = turn(ship, p, s, d)
            found += some
            tried += more
        if found:
            return s, found, tried
    return None, [], tried


def height(ship, d, k, place):
    """Section 6: a height, or None."""
    deck = ship.decks[d]
    if deck.heights is None:
        return None
    for (a, b), (h0, h1) in zip(round_trip(deck.polygons[k]), round_trip(deck.heights[k])):
        if g.on_segment(place, a, b):
            return g.height_along(place, a, b, h0, h1)
    return g.mean(deck.heights[k])


def chosen(found, heights, wish):
    """Which of the candidates a seat takes."""
    best = least = None
    for c in range(len(found)):
        if wish is not None and heights[c] is not None:
            away = g.absolute(g.sub(heights[c], value(wish)))
            if best is None or g.less(away, least):
                best, least = c, away
    return 0 if best is None else best


def record(ship, one, closed):
    """Section 7: a seat's nine numbers."""
    x, y, named, wish = one
    s, found, tried = search(ship, (value(x), value(y)), named, tuple(closed))
    if not found:
        return [ALL_ONES, 0, 0, 0, 0, 0, 0, tried, 0]
    heights = [height(ship, d, k, place) for d, k, _, place in found]
    c = chosen(found, heights, wish)
    d, k, i, place = found[c]
    tall = [0, 0] if heights[c] is None else [1, g.to_bits(heights[c])]
    return [d << 24 | k, g.to_bits(place[0]), g.to_bits(place[1])] + tall + [s, i, tried, len(found)]


def entry(candidate):
    d, k, _, place = candidate
    return [d << 24 | k, g.to_bits(place[0]), g.to_bits(place[1])]


# ---- a case: its name, the number of its refusal or None, its entries, and its bytes. `no` is the question that it is built to fail.


def bytes_of(ship, closed):
    file = ship if isinstance(ship, bytes) else ship.file
    return file, closed if isinstance(closed, bytes) else blocked(closed)


def run(name, ship, seats, no=None, closed=(), room=None):
    """The run, on a list of seats or its bytes, with room for the records unless it is given."""
    file, closed_set = bytes_of(ship, closed)
    listed = seats if isinstance(seats, bytes) else b"".join(seat(*one) for one in seats)
    entries = None if no else [record(ship, one, closed) for one in seats]
    room = 36 * (len(listed) // 20) if room is None else room
    head = u32(ord("R"), len(file), len(closed_set), len(listed), room)
    return "run, " + name, no, entries, head + file + closed_set + listed


def closest(letter, name, ship, x, y, deck, no, closed, room):
    file, closed_set = bytes_of(ship, closed)
    found = None if no else search(ship, (value(x), value(y)), deck, tuple(closed))[1]
    entries = None if no else [entry(c) for c in (found[:1] if letter == "Q" else found)]
    room = 12 * len(entries or []) if room is None else room
    return name, no, entries, u32(ord(letter), len(file), len(closed_set), bits(x), bits(y), deck, room) + file + closed_set


def points(name, ship, x, y, deck=ALL_ONES, no=None, closed=(), room=None):
    return closest("P", "closest points, " + name, ship, x, y, deck, no, closed, room)


def point(name, ship, x, y, deck=ALL_ONES, no=None, closed=(), room=None):
    return closest("Q", "closest point, " + name, ship, x, y, deck, no, closed, room)


def height_call(name, ship, x, y, polygon, no=None, room=4):
    file, _ = bytes_of(ship, ())
    known = None if no or polygon == ALL_ONES else height(ship, polygon >> 24, polygon & 0xFFFFFF, (value(x), value(y)))
    entries = None if no else [] if known is None else [[g.to_bits(known)]]
    return "height, " + name, no, entries, u32(ord("H"), len(file), bits(x), bits(y), polygon, room) + file


def at(x, y, deck=ALL_ONES, wish=None):
    return (x, y, deck, wish)


# ---- decks and ships


def deck(corners, polygons=None, heights=(), offset=(0.0, 0.0)):
    """Corners written 'x y x y ..'; one polygon of all of them unless polygons are given."""
    numbers = [float(t) for t in corners.split()]
    vertices = [(x, y, []) for x, y in zip(numbers[::2], numbers[1::2])]
    return {"offset": offset, "vertices": vertices, "polygons": polygons or [list(range(len(vertices)))], "heights": list(heights)}


CORNERS = "0 0 4 0 4 4 0 4"
FAR = deck("100 100 104 100 104 104 100 104", heights=[9.0] * 4)  # no seat here comes near it
BARE = deck(CORNERS)
POINT = deck("0 0")  # every place passes


def level(h, offset=(0.0, 0.0)):
    return deck(CORNERS, heights=[h] * 4, offset=offset)


EXAMPLE = Ship(SQUARE)
HULL = Ship()  # document 02, point 5: no decks yet
EXAMPLE_SEATS = [at(1.0, 1.0), at(5.0, 5.0), at(-0.5, 2.0)]
L_PLACE, S_PLACE = 0, 8
ONE = [at(1.0, 1.0)]

# ---- the run


def example_cases():
    yield run("the example of document 01", EXAMPLE, EXAMPLE_SEATS)
    for k in range(3):
        yield run("seat %d of the example alone" % k, EXAMPLE, EXAMPLE_SEATS[k : k + 1])
    yield run("its seats from the last to the first", EXAMPLE, EXAMPLE_SEATS[::-1])
    yield run("no seats", EXAMPLE, [])
    yield run("no seats, output of 5 bytes", EXAMPLE, [], room=5)


def deck_count_cases():
    tall = dict(POINT, heights=[7.0])
    most = Ship(*[POINT] * 255 + [tall])
    yield run("L 256", most, [at(9.0, 9.0), at(9.0, 9.0, wish=1.0), at(9.0, 9.0, 255)])
    yield run("L 256, all blocked but 200", most, [at(9.0, 9.0), at(9.0, 9.0, 255), at(9.0, 9.0, 200)], closed=[d for d in range(256) if d != 200])
    yield run("L 257", Ship(*[POINT] * 257).file, [at(9.0, 9.0)], no=2)
    yield run("L 0", HULL, ONE)
    yield height_call("L 256, polygon 16,777,214 of the last deck", most, 0.0, 0.0, ALL_ONES - 1, no=18)
    yield height_call("L 256, polygon 0 of the last deck", most, 9.0, 9.0, 255 << 24)


def steps_cases():
    deep = Ship(SQUARE, steps=16)
    yield run("S 16, all 1,216 samples, and a hit at sample 120 of step 15", deep, [at(50.0, 50.0), at(11.5, 2.0)])
    yield run("S 17", put(EXAMPLE.file, S_PLACE, 17), ONE, no=4)
    yield run("S 1, a place that only step 1 reaches", Ship(SQUARE, steps=1), [at(1.0, 1.0), at(-0.5, 2.0)])
    longer = Ship(SQUARE, steps=4)
    yield run("S 4, the example's seats", longer, EXAMPLE_SEATS)


def length_cases():
    """Question 14."""
    for length in (0, 31, 33, 64):
        yield run("blocked set of %d bytes" % length, EXAMPLE, ONE, no=14, closed=bytes(length))
    yield run("blocked set of 32 bytes", EXAMPLE, ONE)
    listed = seat(*ONE[0]) * 3
    for length in (1, 19, 21, 39, 41):
        yield run("seats of %d bytes" % length, EXAMPLE, listed[:length], no=14, room=200)
    for count in (1, 2):
        yield run("seats of %d bytes" % (20 * count), EXAMPLE, ONE * count)


def kind_cases():
    """Question 15. The kind stands at byte 12 of a seat, the height at 16."""
    plain = seat(*ONE[0])
    for kind in (2, 3, 256, 1 << 24, ALL_ONES):
        yield run("kind %d" % kind, EXAMPLE, put(plain, 12, kind, 0), no=15)
    for name, pattern in [("1", bits(1.0)), ("-0", bits(-0.0)), ("the least float", 1), ("infinity", bits(INFINITY)), ("a NaN", bits(NAN))]:
        yield run("kind 0 with the height " + name, EXAMPLE, put(plain, 12, 0, pattern), no=15)
    for wish in (0.0, -0.0, 1.0, -2.5, MILLION, -MILLION):
        yield run("kind 1 with the height %s" % wish, EXAMPLE, [at(1.0, 1.0, wish=wish)])


def size_cases():
    """Question 16."""
    for sign in (1.0, -1.0):
        yield run("x of %s" % (sign * MILLION), EXAMPLE, [at(sign * MILLION, 1.0)])
        yield run("y of %s" % (sign * MILLION), EXAMPLE, [at(1.0, sign * MILLION)])
    for x in (ABOVE, -ABOVE, INFINITY, -INFINITY, NAN, 3e38):
        yield run("x of %s" % x, EXAMPLE, seat(x, 1.0), no=16)
        yield run("y of %s" % x, EXAMPLE, seat(1.0, x), no=16)
        yield run("kind 1 with the height %s" % x, EXAMPLE, seat(1.0, 1.0, wish=x), no=16)


def named_deck_cases():
    """Question 17."""
    for count in (1, 2, 3):
        ship = Ship(*[SQUARE] * count)
        yield run("L %d, the last deck named" % count, ship, [at(1.0, 1.0, count - 1), at(1.0, 1.0)])
        yield run("L %d, deck %d named" % (count, count), ship, seat(1.0, 1.0, count), no=17)
    for named in (256, 1 << 24, 1 << 31, ALL_ONES - 1):
        yield run("deck %d named" % named, EXAMPLE, seat(1.0, 1.0, named), no=17)


def order_cases():
    """Two faults: the earlier question, and of two seats the earlier seat, decides."""
    bad_kind = put(seat(1.0, 1.0), 12, 2)
    bad_size = seat(1.0, NAN)
    bad_deck = seat(1.0, 1.0, 1)
    good = seat(1.0, 1.0)
    yield run("2 and 14", put(EXAMPLE.file, L_PLACE, 257), ONE, no=2, closed=bytes(31))
    yield run("13 and 14", put(EXAMPLE.file, 164, 4), ONE, no=13, closed=bytes(31))  # C is at 164
    yield run("4 and 15", put(EXAMPLE.file, S_PLACE, 17), bad_kind, no=4)
    yield run("13 and 20", put(EXAMPLE.file, 164, 4), ONE, no=13, room=0)
    yield run("14 of the blocked set and 15", EXAMPLE, bad_kind, no=14, closed=bytes(31))
    yield run("14 of the seats and 15", EXAMPLE, bad_kind + b"\0", no=14)
    yield run("14 and 20", EXAMPLE, ONE, no=14, closed=bytes(33), room=0)
    yield run("15 and 16 of a seat", EXAMPLE, put(bad_size, 12, 2), no=15)
    yield run("15 and 17 of a seat", EXAMPLE, put(bad_deck, 12, 2), no=15)
    yield run("16 and 17 of a seat", EXAMPLE, put(bad_size, 8, 1), no=16)
    yield run("15 and 20", EXAMPLE, bad_kind, no=15, room=0)
    yield run("17 and 20", EXAMPLE, bad_deck, no=17, room=0)
    yield run("17 of seat 0, 15 of seat 1", EXAMPLE, bad_deck + bad_kind, no=17)
    yield run("17 of seat 0, 16 of seat 1", EXAMPLE, bad_deck + bad_size, no=17)
    yield run("16 of seat 0, 15 of seat 1", EXAMPLE, bad_size + bad_kind, no=16)
    yield run("15 of seat 0, 17 of seat 1", EXAMPLE, bad_kind + bad_deck, no=15)
    for k in range(3):
        yield run("17 of seat %d of 3" % k, EXAMPLE, good * k + bad_deck + good * (2 - k), no=17)


def no_deck_cases():
    """Document 02, point 5: no seat is placed and nothing is tried."""
    for name, no, file in REFUSED_HULLS:
        yield run(name, file, ONE, no=no)
        yield run(name + ", no seats", file, [], no=no)
    yield run("L 0, the example's seats", HULL, EXAMPLE_SEATS)
    yield run("L 0, wishes", HULL, [at(1.0, 1.0, wish=2.0), at(-0.0, MILLION, wish=-MILLION)])
    yield run("L 0, S 16, reach 1,000", Ship(reach=1000.0, steps=16), EXAMPLE_SEATS)
    yield run("L 0, S 1, reach -0", Ship(reach=-0.0, steps=1), ONE)
    yield run("L 0, deck 0 blocked", HULL, ONE, closed=[0])
    yield run("L 0, every deck blocked", HULL, ONE, closed=range(256))
    yield run("L 0, no seats", HULL, [])
    yield run("L 0, no seats, output of 5 bytes", HULL, [], room=5)
    for count, room, no in [(1, 0, 20), (1, 35, 20), (1, 36, None), (1, 41, None), (3, 72, 20), (3, 107, 20), (3, 108, None), (3, 144, None)]:
        yield run("L 0, %d seats, output of %d bytes" % (count, room), HULL, EXAMPLE_SEATS[:count], no=no, room=room)


def no_deck_order_cases():
    """Of a hull every deck that is named is one that is not there."""
    good, named = seat(1.0, 1.0), seat(1.0, 1.0, 0)
    bad_kind, bad_size = put(good, 12, 2), seat(NAN, 1.0)
    for d in (0, 1, 255, 256, ALL_ONES - 1):
        yield run("L 0, deck %d named" % d, HULL, seat(1.0, 1.0, d), no=17)
    yield run("L 0, deck 0 named, with a wish", HULL, seat(1.0, 1.0, 0, wish=2.0), no=17)
    for closed in ([0], range(256)):
        yield run("L 0, deck 0 named, %d blocked" % len(closed), HULL, named, no=17, closed=closed)
    for k in range(3):
        yield run("L 0, 17 of seat %d of 3" % k, HULL, good * k + named + good * (2 - k), no=17)
    yield run("L 0, 1 and 17", SHORT_HULL, named, no=1)
    yield run("L 0, 6 and 14", LONG_HULL, good, no=6, closed=bytes(31))
    yield run("L 0, 6 and 15", LONG_HULL, bad_kind, no=6)
    yield run("L 0, 6 and 17", LONG_HULL, named, no=6)
    yield run("L 0, 6 and 20", LONG_HULL, good, no=6, room=0)
    yield run("L 0, blocked set of 33 bytes", HULL, good, no=14, closed=bytes(33))
    yield run("L 0, no seats, blocked set of 0 bytes", HULL, b"", no=14, closed=b"")
    yield run("L 0, 14 of the blocked set and 17", HULL, named, no=14, closed=bytes(31))
    yield run("L 0, 14 of the seats and 17", HULL, named + b"\0", no=14)
    yield run("L 0, 14 and 20", HULL, good + b"\0", no=14, room=0)
    yield run("L 0, 15 and 17 of a seat", HULL, put(named, 12, 2), no=15)
    yield run("L 0, 15 and 20", HULL, bad_kind, no=15, room=0)
    yield run("L 0, 16 and 17 of a seat", HULL, put(bad_size, 8, 0), no=16)
    yield run("L 0, 16 of a wish and 17 of a seat", HULL, seat(1.0, 1.0, 0, wish=ABOVE), no=16)
    yield run("L 0, 16 and 20", HULL, bad_size, no=16, room=0)
    yield run("L 0, 17 and 20", HULL, named, no=17, room=0)
    yield run("L 0, 15 of seat 0, 17 of seat 1", HULL, bad_kind + named, no=15)
    yield run("L 0, 16 of seat 0, 17 of seat 1", HULL, bad_size + named, no=16)
    yield run("L 0, 17 of seat 0, 15 of seat 1", HULL, named + bad_kind, no=17)
    yield run("L 0, 17 of seat 0, 16 of seat 1", HULL, named + bad_size, no=17)
    yield run("L 0, 16 of seat 0, 15 of seat 1", HULL, bad_size + bad_kind, no=16)


def output_cases():
    """Question 20."""
    for count in (1, 3):
        some = EXAMPLE_SEATS[:count]
        for room in (0, 36 * count - 36, 36 * count - 1):
            yield run("%d seats, output of %d bytes" % (count, room), EXAMPLE, some, no=20, room=room)
        for room in (36 * count, 36 * count + 1, 36 * count + 5, 36 * count + 36):
            yield run("%d seats, output of %d bytes" % (count, room), EXAMPLE, some, room=room)
    yield run("unplaced, output of 35 bytes", EXAMPLE, [at(5.0, 5.0)], no=20, room=35)


def open_deck_cases():
    same = Ship(level(1.0), level(2.0), level(3.0))
    yield run("deck 0 blocked", same, ONE + [at(5.0, 5.0)], closed=[0])
    yield run("deck 1 blocked", same, ONE + [at(1.0, 1.0, wish=2.0)], closed=[1])
    yield run("decks 0 and 2 blocked", same, ONE + [at(-0.5, 2.0)], closed=[0, 2])
    yield run("every deck blocked", same, ONE, closed=[0, 1, 2])
    yield run("every deck blocked, and all that are not there", same, ONE, closed=range(256))
    yield run("all blocked that are not there", same, ONE, closed=range(3, 256))
    yield run("a named deck that is blocked", same, [at(1.0, 1.0, 1), at(5.0, 5.0, 1), at(1.0, 1.0)], closed=[0, 1, 2])
    yield run("deck 1 named and blocked, the others free", same, [at(1.0, 1.0, 1), at(1.0, 1.0), at(5.0, 5.0, 1), at(1.0, 1.0, 0)], closed=[1])
    yield run("deck 1 named and blocked, a wish", same, [at(1.0, 1.0, 1, wish=2.0), at(1.0, 1.0, wish=2.0)], closed=[1])
    yield run("deck 1 named, the others blocked", same, [at(1.0, 1.0, 1), at(-0.5, 2.0, 1)], closed=[0, 2])
    for closed in ([3], range(256)):
        yield run("a deck named that is not there, %d blocked" % len(closed), same, [at(1.0, 1.0, 3)], no=17, closed=closed)
    yield run("a named deck alone, the others open", same, [at(1.0, 1.0, 2), at(1.0, 1.0, 0), at(-0.5, 2.0, 1)])
    nine = Ship(*[level(float(d)) for d in range(9)])
    yield run("decks 7 and 8, bits of two bytes", nine, [at(1.0, 1.0)], closed=range(7))
    yield run("deck 8 blocked of 9", nine, [at(1.0, 1.0, wish=8.0)], closed=[8])
    yield run("deck 8 blocked of 9, decks 0 and 8 named", nine, [at(1.0, 1.0, 0), at(1.0, 1.0, 8)], closed=[8])
    yield run("deck 0 blocked of 9, decks 0 and 8 named", nine, [at(1.0, 1.0, 0), at(1.0, 1.0, 8)], closed=[0])


def wish_cases():
    def wishes(*some):
        return [at(1.0, 1.0)] + [at(1.0, 1.0, wish=w) for w in some]

    yield run("heights 1 and 5: by the wish, the first on a tie", Ship(level(1.0), level(5.0)), wishes(1.0, 2.9, 3.0, 3.1, 5.0, 100.0, -100.0))
    yield run("heights 5 and 1", Ship(level(5.0), level(1.0)), wishes(1.0, 2.9, 3.0, 3.1, 5.0))
    near = 1.0000001192092896  # the next float above 1
    yield run("heights equally far in f32, the second nearer", Ship(level(1.0), level(near)), wishes(MILLION, near, 1.0))
    yield run("three equal heights", Ship(level(2.0), level(2.0), level(2.0)), wishes(2.0, 7.0))
    yield run("the first without a height", Ship(BARE, level(5.0)), wishes(0.0, -MILLION, 5.0))
    yield run("the second without a height", Ship(level(5.0), BARE), wishes(0.0, -MILLION, 5.0))
    yield run("none, 5 and 1", Ship(BARE, level(5.0), level(1.0)), wishes(2.0, 4.0, 3.0))
    yield run("5, none and 1", Ship(level(5.0), BARE, level(1.0)), wishes(2.0, 4.0, 3.0))
    yield run("no candidate with a height: the first", Ship(BARE, BARE), wishes(0.0, 3.0))
    yield run("heights on the deck that does not hit", Ship(FAR, BARE), wishes(9.0))
    yield run("a wish does not lengthen the search", Ship(level(1.0), level(5.0, offset=(4.5, 0.0))), [at(4.0, 2.0, wish=5.0)])
    yield run("heights of -0 and 0", Ship(level(-0.0), level(0.0)), wishes(0.0, -0.0))
    two = deck("0 0 4 0 4 4 0 4 0 0 4 0 4 4 0 4", [[0, 1, 2, 3], [4, 5, 6, 7]], [1.0] * 4 + [5.0] * 4)
    yield run("two polygons of a deck, heights 1 and 5", Ship(two), wishes(1.0, 2.9, 3.0, 3.1, 5.0))
    yield run("on an edge, where the height is not the mean", EXAMPLE, [at(2.0, 0.0), at(4.0, 1.0), at(3.0, 4.0), at(0.0, 3.0), at(0.0, 0.0)])


def offset_cases():
    slope = [1.0, 2.0, 4.0, 8.0]
    yield run("offset (10, 20)", Ship(deck(CORNERS, heights=slope, offset=(10.0, 20.0))), [at(11.0, 21.0), at(1.0, 1.0), at(9.5, 22.0)])
    moved = Ship(deck(CORNERS, heights=slope, offset=(1.0, 0.0)))
    yield run("the sample inside, the place on an edge", moved, [at(4.0, 2.0), at(2.0, 4.0)])
    yield run("the sample on an edge, the place inside", moved, [at(1.0, 2.0)])
    yield run("the sample inside, the place outside: the mean", moved, [at(4.5, 2.0)])
    rough = Ship(deck(CORNERS, heights=slope, offset=(0.1, -0.3)))
    yield run("an offset that rounds", rough, [at(0.3, 0.7), at(1000.1, 0.0), at(-0.4, 1.7)])
    yield run("offsets of 1,000,000", Ship(deck(CORNERS, heights=slope, offset=(MILLION, -MILLION))), [at(999999.9375, -999999.9375), at(MILLION, -MILLION)])
    both = Ship(level(1.0), level(5.0, offset=(3.0, 3.0)))
    yield run("two decks, one moved", both, [at(3.5, 3.5), at(3.5, 3.5, wish=5.0), at(1.0, 1.0), at(6.0, 6.0)])


def zero_cases():
    """A coordinate of -0 becomes +0 in step 0, also where the reach is -0, since the offset is put on."""
    for reach in (0.5, 0.0, -0.0):
        for offset in ((0.0, 0.0), (-0.0, -0.0)):
            ship = Ship(dict(SQUARE, offset=offset), reach=reach)
            yield run("reach %s, offset %s" % (reach, offset), ship, [at(-0.0, -0.0), at(-0.0, 2.0), at(5.0, 5.0), at(-0.5, 2.0)])
    yield run("reach of the least float", Ship(SQUARE, reach=1e-45), [at(-0.0, -0.0), at(-0.00001, 2.0)])
    yield run("reach 1,000", Ship(SQUARE, reach=1000.0), [at(1000.0, 2.0), at(-1000.0, 2.0), at(2.0, -996.0), at(5.0, 5.0)])


def tried_cases():
    four = Ship(SQUARE, steps=4)
    yield run("sample 10 of step 3", four, [at(-1.5, 2.0)])
    yield run("sample 30 of step 3, the last of all", four, [at(5.5, 2.0)])
    yield run("sample 0 of step 3", four, [at(2.0, -1.5)])
    yield run("sample 20 of step 3", four, [at(2.0, 5.5)])
    second = Ship(FAR, SQUARE)
    yield run("only deck 1 hits", second, [at(1.0, 1.0), at(-0.5, 2.0), at(5.0, 5.0)])
    first = Ship(SQUARE, FAR)
    yield run("only deck 0 hits: deck 1 is searched in that step", first, [at(1.0, 1.0), at(-0.5, 2.0)])
    apart = Ship(level(1.0), level(5.0, offset=(-5.0, 0.0)), steps=3)
    yield run("two decks hit at different samples", apart, [at(-0.5, 2.0), at(-0.5, 2.0, wish=5.0), at(-0.5, 2.0, 1)])
    yield run("a hit in step 1 stops the deck of step 2", Ship(level(1.0), level(5.0, offset=(-5.5, 0.0)), steps=3), [at(-0.5, 2.0)])


def small_polygon_cases():
    one = Ship(deck("0 0", heights=[7.0]))
    yield run("one vertex: everywhere, and no height at the vertex", one, [at(9.0, 9.0), at(0.0, 0.0), at(0.0000005, 0.0), at(0.00001, 0.0)])
    two = Ship(deck("0 0 4 0", heights=[1.0, 3.0]))
    yield run("two vertices: the line", two, [at(9.0, 0.0), at(9.0, 1.0), at(1.0, 0.0), at(9.0, -0.5), at(0.0, 0.0)])
    turned = Ship(deck("0 0 0 4 4 4 4 0", heights=[1.0, 2.0, 4.0, 8.0]))
    yield run("a square turned round", turned, [at(1.0, 1.0), at(0.0, 2.0), at(2.0, 0.0), at(-0.5, 2.0), at(2.0, 4.0)])
    line = Ship(deck("0 0 4 0 2 0", heights=[1.0, 3.0, 5.0]))
    yield run("three vertices on a line", line, [at(1.0, 0.0), at(3.0, 0.0), at(9.0, 0.0), at(3.0, 0.00002), at(3.0, 1.0)])
    yield run("the table of document 01", EXAMPLE, [at(1.0, 1.0), at(0.0, 2.0), at(5.0, 5.0), at(2.0, -0.00001), at(2.0, -0.0001)])
    many = deck("0 0 4 0 4 4 0 4", [[3], [0, 1], [0, 1, 2, 3], [3, 2, 1, 0], [0, 1, 2], [0, 2, 3]], [1.0, 2.0, 4.0, 8.0])
    yield run("six polygons over each other", Ship(many), [at(1.0, 1.0), at(3.0, 1.0), at(2.0, 2.0), at(2.0, 2.0, wish=3.0), at(0.0, 4.0, wish=2.0)])


def no_length_cases():
    """An edge of length 0 under the place: the first edge decides, and there is no height."""
    double = Ship(deck("0 0 0 0 4 0 4 4 0 4", heights=[1.0, 2.0, 3.0, 4.0, 5.0]))
    yield run("the first edge of length 0", double, [at(0.0, 0.0), at(0.0000005, 0.0), at(0.000002, 0.0), at(1.0, 1.0), at(2.0, 0.0)])
    later = Ship(deck("0 0 4 0 4 0 4 4 0 4", heights=[1.0, 2.0, 3.0, 4.0, 5.0]))
    yield run("the second edge of length 0: the first decides", later, [at(4.0, 0.0), at(4.0, 2.0)])
    short = Ship(deck("0 0 1e-30 0 4 0 4 4 0 4", heights=[1.0, 2.0, 3.0, 4.0, 5.0]))
    yield run("an edge whose square rounds to 0", short, [at(0.0, 0.0), at(0.0000005, 0.0)])
    both = Ship(deck("0 0 0 0 4 0 4 4 0 4", heights=[1.0] * 5), level(5.0))
    yield run("no height there: a wish passes it over", both, [at(0.0, 0.0), at(0.0, 0.0, wish=1.0), at(1.0, 1.0, wish=1.0)])


# ---- the closest points


def points_cases():
    two = Ship(level(1.0), level(5.0))
    yield points("(1, 1)", EXAMPLE, 1.0, 1.0)
    yield points("(-0.5, 2)", EXAMPLE, -0.5, 2.0)
    yield points("(-0, -0)", EXAMPLE, -0.0, -0.0)
    yield points("(5, 5): none, output of 0 bytes", EXAMPLE, 5.0, 5.0)
    yield points("(5, 5): none, output of 7 bytes", EXAMPLE, 5.0, 5.0, room=7)
    yield points("two entries, output of 24 bytes", two, 1.0, 1.0)
    yield points("two entries, output of 23 bytes", two, 1.0, 1.0, no=20, room=23)
    yield points("two entries, output of 12 bytes", two, 1.0, 1.0, no=20, room=12)
    yield points("two entries, output of 0 bytes", two, 1.0, 1.0, no=20, room=0)
    yield points("two entries, output of 29 bytes", two, 1.0, 1.0, room=29)
    yield points("a named deck", two, 1.0, 1.0, deck=1)
    yield points("a named deck that is blocked", two, 1.0, 1.0, deck=1, closed=[0, 1])
    yield points("a named deck that is blocked, the other free, output of 12 bytes", two, 1.0, 1.0, deck=1, closed=[1], room=12)
    yield points("a named deck, the other blocked", two, 1.0, 1.0, deck=1, closed=[0])
    yield points("deck 0 blocked", two, 1.0, 1.0, closed=[0])
    yield points("all blocked", two, 1.0, 1.0, closed=[0, 1], room=24)
    apart = Ship(level(1.0), level(5.0, offset=(-5.0, 0.0)), steps=3)
    yield points("two decks at two samples", apart, -0.5, 2.0)
    many = deck("0 0 4 0 4 4 0 4", [[3], [0, 1], [0, 1, 2, 3], [3, 2, 1, 0], [0, 1, 2], [0, 2, 3]])
    yield points("polygons of two decks", Ship(many, FAR, many), 2.0, 2.0)


def point_cases():
    two = Ship(FAR, level(1.0), level(5.0))
    yield point("(1, 1)", two, 1.0, 1.0)
    yield point("(-0.5, 2)", two, -0.5, 2.0)
    yield point("(5, 5): none, output of 0 bytes", two, 5.0, 5.0)
    yield point("(5, 5): none, output of 11 bytes", two, 5.0, 5.0, room=11)
    yield point("output of 11 bytes", two, 1.0, 1.0, no=20, room=11)
    yield point("output of 0 bytes", two, 1.0, 1.0, no=20, room=0)
    yield point("output of 12 bytes", two, 1.0, 1.0, room=12)
    yield point("output of 24 bytes", two, 1.0, 1.0, room=24)
    yield point("a named deck that is blocked", two, 1.0, 1.0, deck=2, closed=[1, 2])
    yield point("a named deck that is blocked, the others free, output of 12 bytes", two, 1.0, 1.0, deck=2, closed=[2], room=12)
    yield point("a named deck, the others blocked", two, 1.0, 1.0, deck=2, closed=[0, 1])
    yield point("deck 1 blocked", two, 1.0, 1.0, closed=[1])


def query_cases():
    """Questions of the two calls."""
    for call in (points, point):
        yield call("L 257", put(EXAMPLE.file, L_PLACE, 257), 1.0, 1.0, no=2, room=12)
        yield call("blocked set of 31 bytes", EXAMPLE, 1.0, 1.0, no=14, closed=bytes(31), room=12)
        yield call("blocked set of 33 bytes", EXAMPLE, 1.0, 1.0, no=14, closed=bytes(33), room=12)
        for x in (MILLION, -MILLION):
            yield call("x of %s" % x, EXAMPLE, x, 1.0)
            yield call("y of %s" % x, EXAMPLE, 1.0, x)
        for x in (ABOVE, -ABOVE, INFINITY, -INFINITY, 3e38):
            yield call("x of %s" % x, EXAMPLE, x, 1.0, no=16, room=12)
            yield call("y of %s" % x, EXAMPLE, 1.0, x, no=16, room=12)
        for named in (1, 256, ALL_ONES - 1):
            yield call("deck %d named" % named, EXAMPLE, 1.0, 1.0, deck=named, no=17, room=12)
        yield call("deck 1 named and blocked, which is not there", EXAMPLE, 1.0, 1.0, deck=1, no=17, closed=[1], room=12)
        yield call("deck 0 named", EXAMPLE, 1.0, 1.0, deck=0)
        yield call("4 and 14", put(EXAMPLE.file, S_PLACE, 0), 1.0, 1.0, no=4, closed=b"")
        yield call("14 and 16", EXAMPLE, INFINITY, 1.0, no=14, closed=bytes(31))
        yield call("16 and 17", EXAMPLE, 1.0, INFINITY, deck=1, no=16)
        yield call("17 and 20", EXAMPLE, 1.0, 1.0, deck=1, no=17, room=0)


def no_deck_query_cases():
    """Document 02, point 5, of the two calls."""
    for call in (points, point):
        for name, no, file in REFUSED_HULLS:
            yield call(name, file, 1.0, 1.0, no=no, room=12)
        for room in (0, 7, 12):
            yield call("L 0, output of %d bytes" % room, HULL, 1.0, 1.0, room=room)
        yield call("L 0, S 16, far out", Ship(steps=16), MILLION, -MILLION)
        yield call("L 0, every deck blocked", HULL, 1.0, 1.0, closed=range(256))
        for named in (0, 1, 255, 256, ALL_ONES - 1):
            yield call("L 0, deck %d named" % named, HULL, 1.0, 1.0, deck=named, no=17, room=12)
        for closed in ([0], range(256)):
            yield call("L 0, deck 0 named, %d blocked" % len(closed), HULL, 1.0, 1.0, deck=0, no=17, closed=closed, room=12)
        yield call("L 0, 1 and 17", SHORT_HULL, 1.0, 1.0, deck=0, no=1)
        yield call("L 0, 6 and 14", LONG_HULL, 1.0, 1.0, no=6, closed=bytes(31))
        yield call("L 0, 6 and 16", LONG_HULL, INFINITY, 1.0, no=6)
        yield call("L 0, 6 and 17", LONG_HULL, 1.0, 1.0, deck=0, no=6)
        yield call("L 0, blocked set of 31 bytes", HULL, 1.0, 1.0, no=14, closed=bytes(31))
        yield call("L 0, x of %s" % ABOVE, HULL, ABOVE, 1.0, no=16)
        yield call("L 0, 14 and 16", HULL, 1.0, -ABOVE, no=14, closed=bytes(33))
        yield call("L 0, 14 and 17", HULL, 1.0, 1.0, deck=0, no=14, closed=b"")
        yield call("L 0, 16 and 17", HULL, 1.0, INFINITY, deck=0, no=16)
        yield call("L 0, 17 and 20", HULL, 1.0, 1.0, deck=0, no=17, room=0)


# ---- the height call


def height_cases():
    slope = Ship(deck(CORNERS, heights=[1.0, 2.0, 4.0, 8.0]), deck(CORNERS, heights=[1.0, 2.0, 4.0, 8.0], offset=(1.0, 0.0)), BARE)
    for x, y in [(1.0, 1.0), (2.0, 0.0), (4.0, 1.0), (1.0, 4.0), (0.0, 3.0), (0.0, 0.0), (4.0, 4.0), (50.0, -7.0), (-0.0000005, 0.0)]:
        yield height_call("deck 0 at (%s, %s)" % (x, y), slope, x, y, 0)
    for x, y in [(1.0, 2.0), (4.0, 2.0), (5.0, 2.0), (MILLION, -MILLION)]:
        yield height_call("deck 1, moved by (1, 0), at (%s, %s)" % (x, y), slope, x, y, 1 << 24)
    yield height_call("all ones", slope, 1.0, 1.0, ALL_ONES)
    yield height_call("all ones, output of 0 bytes", slope, 1.0, 1.0, ALL_ONES, room=0)
    yield height_call("a deck without heights", slope, 1.0, 1.0, 2 << 24)
    yield height_call("a deck without heights, output of 3 bytes", slope, 1.0, 1.0, 2 << 24, room=3)
    yield height_call("the second polygon of a deck", Ship(deck(CORNERS, [[0, 1, 2], [0, 2, 3]], [1.0, 2.0, 4.0, 8.0])), 2.0, 2.0, 1)
    lone = Ship(deck("3 3", heights=[7.0]))
    yield height_call("one vertex, at the vertex", lone, 3.0, 3.0, 0)
    yield height_call("one vertex, at the vertex, output of 0 bytes", lone, 3.0, 3.0, 0, room=0)
    yield height_call("one vertex, away from it", lone, 4.0, 3.0, 0)
    yield height_call("heights of -0", Ship(deck(CORNERS, heights=[-0.0] * 4)), 1.0, 1.0, 0)
    yield height_call("heights of 1,000,000", Ship(deck(CORNERS, heights=[MILLION, -MILLION, MILLION, MILLION])), 1.0, 0.0, 0)


def height_question_cases():
    ship = Ship(SQUARE, SQUARE)
    yield height_call("L 257", put(EXAMPLE.file, L_PLACE, 257), 1.0, 1.0, 0, no=2)
    for x in (ABOVE, -ABOVE, INFINITY, -INFINITY):
        yield height_call("x of %s" % x, ship, x, 1.0, 0, no=16)
        yield height_call("y of %s" % x, ship, 1.0, x, 0, no=16)
    yield height_call("x of %s and all ones" % ABOVE, ship, ABOVE, 1.0, ALL_ONES, no=16)
    for polygon in (2 << 24, 255 << 24, ALL_ONES - 1):
        yield height_call("%08X, a deck that is not there" % polygon, ship, 1.0, 1.0, polygon, no=17)
    for polygon in (1, 1 << 24 | 1, 0x00FFFFFF, 0x01FFFFFF):
        yield height_call("%08X, a polygon that is not there" % polygon, ship, 1.0, 1.0, polygon, no=18)
    yield height_call("16 and 17", ship, INFINITY, 1.0, 2 << 24, no=16)
    yield height_call("16 and 18", ship, 1.0, -INFINITY, 1, no=16)
    yield height_call("17 and 18", ship, 1.0, 1.0, 2 << 24 | 1, no=17)
    yield height_call("18 and 20", ship, 1.0, 1.0, 1, no=18, room=0)
    for room in (0, 1, 3):
        yield height_call("output of %d bytes" % room, ship, 1.0, 1.0, 0, no=20, room=room)
    for room in (4, 5, 9):
        yield height_call("output of %d bytes" % room, ship, 1.0, 1.0, 0, room=room)


def no_deck_height_cases():
    """Document 02, point 5: all ones alone passes 17."""
    for name, no, file in REFUSED_HULLS:
        yield height_call(name + ", all ones", file, 1.0, 1.0, ALL_ONES, no=no)
        yield height_call(name + ", polygon 0", file, 1.0, 1.0, 0, no=no)
    for room in (0, 3, 4):
        yield height_call("L 0, all ones, output of %d bytes" % room, HULL, 1.0, 1.0, ALL_ONES, room=room)
    yield height_call("L 0, all ones, far out", HULL, -MILLION, MILLION, ALL_ONES)
    for polygon in (0, 1, 0x00FFFFFF, 255 << 24, ALL_ONES - 1):
        yield height_call("L 0, %08X" % polygon, HULL, 1.0, 1.0, polygon, no=17)
    yield height_call("L 0, 6 and 16", LONG_HULL, ABOVE, 1.0, ALL_ONES, no=6)
    yield height_call("L 0, 16 and all ones", HULL, ABOVE, 1.0, ALL_ONES, no=16)
    yield height_call("L 0, 16 and 17", HULL, 1.0, -INFINITY, 0, no=16)
    yield height_call("L 0, 17 and 20", HULL, 1.0, 1.0, 0, no=17, room=0)


# ---- ships from a fixed seed


def random_cases():
    draw = random.Random(1951).getrandbits

    def below(n):
        return draw(16) % n

    def number(low, high):
        """On a grid of halves half of the time, so that places fall on edges."""
        whole = low + (draw(16) % (16 * (high - low) + 1)) / 16
        return struct.unpack("<f", struct.pack("<f", round(2 * whole) / 2 if draw(1) else whole + draw(16) / 2**23))[0]

    def polygon(vertices):
        """A triangle or a box, in either direction; a box has at times its first vertex twice."""
        x, y, w, h = number(-2, 3), number(-2, 3), 0.5 + below(8), 0.5 + below(8)
        corners = [(x, y), (x + w, y), (x + w, y + h), (x, y + h)]
        corners = [corners[below(4)]] * (below(8) == 0) + corners[draw(1) :]
        corners = corners[::-1] if below(5) == 0 else corners
        vertices += [struct.unpack("<ff", struct.pack("<ff", *c)) + ([],) for c in corners]
        return list(range(len(vertices) - len(corners), len(vertices)))

    def any_deck():
        vertices = []
        polygons = [polygon(vertices) for _ in range(1 + below(6))]
        heights = [number(-4, 4) for _ in vertices] if below(4) else []
        offset = (0.0, 0.0) if draw(1) else (number(-2, 2), number(-2, 2))
        return {"offset": offset, "vertices": vertices, "polygons": polygons, "heights": heights}

    for k in range(12):
        decks = 1 + below(3)
        ship = Ship(*[any_deck() for _ in range(decks)], reach=number(0, 1), steps=1 + below(4))
        closed = [d for d in range(decks) if below(4) == 0]
        seats = [at(number(-3, 7), number(-3, 7), below(decks) if below(4) == 0 else ALL_ONES, number(-4, 4) if draw(1) else None) for _ in range(5)]
        yield run("ship %d of the seed" % k, ship, seats, closed=closed)
        x, y = number(-3, 7), number(-3, 7)
        yield points("ship %d of the seed" % k, ship, x, y, closed=closed)
        yield point("ship %d of the seed" % k, ship, x, y, closed=closed)
        yield height_call("ship %d of the seed" % k, ship, x, y, 0)


# ---- the two files

GROUPS = [example_cases, deck_count_cases, steps_cases, length_cases, kind_cases, size_cases, named_deck_cases, order_cases]
GROUPS += [no_deck_cases, no_deck_order_cases, output_cases, open_deck_cases, wish_cases, offset_cases, zero_cases, tried_cases]
GROUPS += [small_polygon_cases, no_length_cases, points_cases, point_cases, query_cases, no_deck_query_cases]
GROUPS += [height_cases, height_question_cases, no_deck_height_cases, random_cases]


def cases():
    return [case for group in GROUPS for case in group()]


def lines(no, entries):
    if no:
        return ["refused %d kept" % no]
    return ["wrote %d kept" % len(entries)] + ["".join(" %08x" % word for word in one) for one in entries]


def files(some):
    """What the two files hold."""
    stdin = b"".join(case for _, _, _, case in some) + u32(ord("R"), 1)
    assert len(stdin) <= MOST_BYTES
    answers = [line for _, no, entries, _ in some for line in lines(no, entries)] + ["bad"]
    return {"stdin": stdin, "stdout": "".join(line + "\n" for line in answers).encode("ascii")}


def write():
    stored_cases.write("seats_cases", files(cases()))


def check():
    some = cases()
    return stored_cases.check("seats_cases", files(some), len(some))


def show():
    for k, (name, no, entries, case) in enumerate(cases()):
        print("%d: %s (%d bytes): %s" % (k + 1, name, len(case), lines(no, entries)[0]))


if __name__ == "__main__":
    stored_cases.run(__doc__, write=write, check=check, list=show)
