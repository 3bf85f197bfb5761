#!/usr/bin/env python3
"""loads_cases.py write|check|list: cases of the seat run with a load sheet (document 02, point 4), with their answers.

write: writes crates/loads_cases/stdin, the cases, and stdout, the answers.
check: exits with 1 where one of the two files differs from what is computed here.
list: prints the cases, in the order of their answers in stdout.

Records are those of tools/seats_cases.py, labels those of tools/other_cases.py, by the closure of reach. A count is how many records of
the list stand there, taken anew for each place; a hull with no decks (point 5) has the unplaced alone. Of a ship the questions 14 to
17, 19 and 20 are asked here; of a damaged file the number that it is built to fail stands beside the case. Where a case is built to be
refused, both are there and have to agree. Nothing of the Rattle code takes part.

The last line of stdout is `bad`, for a case that is cut short.
"""
import os
import random
import struct
import sys

sys.path.insert(0, os.path.dirname(os.path.abspath(__file__)))
sys.dont_write_bytecode = True  # nothing is left beside the tools
import other_cases as other
import seats_cases as seats
import ship_cases
import stored_cases
from other_cases import HULL, MOST, Ship, boxes, listed, packed
from seats_cases import ABOVE, MILLION, NAN, at
from ship_cases import LONG_HULL, REFUSED_HULLS, SHORT_HULL
from ship_file import ALL_ONES, EXAMPLE_SHIP, SQUARE, bits, blocked, deck_blocks, put, seat, u32

MOST_BYTES = 190000  # they fit the program's array
MOST_LENT = 16384

# ---- document 02, point 4


def stand(records, packed_polygon):
    return sum(1 for record in records if record[0] == packed_polygon)


def sheet(ship, records):
    """The counts: by polygon, by island at its label's place, by deck, and the unplaced."""
    counts = [ship.count(d) for d in range(len(ship.plan))]
    polygons = [[stand(records, packed(d, k)) for k in range(n)] for d, n in enumerate(counts)]
    islands = []
    for d, n in enumerate(counts):
        labels = other.island_labels(ship, d)
        islands.append([sum(polygons[d][k] for k in range(n) if labels[k] == place) for place in range(n)])
    decks = [sum(1 for record in records if record[0] != ALL_ONES and record[0] >> 24 == d) for d in range(len(counts))]
    return sum(polygons, []) + sum(islands, []) + decks + [stand(records, ALL_ONES)]


def polygons_in_all(ship):
    return sum(ship.count(d) for d in range(len(ship.plan)))


def sheet_size(ship):
    return 8 * (2 * polygons_in_all(ship) + len(ship.plan) + 1)


# ---- the questions of the call


def numbers_of_seats(some):
    return [struct.unpack("<ffIII", some[i : i + 20]) for i in range(0, len(some), 20)]


def sized(x):
    """Not so of a NaN."""
    return abs(x) <= MILLION


def seat_question(ship, one):
    """The first of 15 to 17 that a seat does not pass, or None."""
    x, y, deck, kind, height = one
    wish = struct.unpack("<f", u32(height))[0]
    if kind not in (0, 1) or (kind == 0 and height != 0):
        return 15
    if not (sized(x) and sized(y) and sized(wish)):
        return 16
    return None if deck == ALL_ONES or deck < len(ship.plan) else 17


def first_no(ship, closed, some, room, table, work):
    if len(closed) != 32 or len(some) % 20:
        return 14
    for one in numbers_of_seats(some):
        if seat_question(ship, one):
            return seat_question(ship, one)
    if not all(other.in_range(ship, d) for d in range(len(ship.plan))):
        return 19
    short = room < 36 * (len(some) // 20) or table < sheet_size(ship) or work < 8 * polygons_in_all(ship)
    return 20 if short else None


# ---- a case: its name, the lines of its answer, and its bytes


def records_of(ship, closed, some):
    def wish(kind, height):
        return struct.unpack("<f", u32(height))[0] if kind else None

    return [seats.record(ship, (x, y, deck, wish(kind, height)), closed) for x, y, deck, kind, height in numbers_of_seats(some)]


def lines(refused, records, counts):
    if refused:
        return ["refused %d kept kept untouched" % refused]
    entries = records + [struct.unpack("<2I", struct.pack("<Q", count)) for count in counts]
    return ["wrote %d kept kept zeros" % len(records)] + ["".join(" %08x" % word for word in one) for one in entries]


def loads(name, ship, some, no=None, closed=(), room=None, table=None, work=None):
    """The run on a list of seats or its bytes; `no` is the question that it is built to fail. What is lent fits unless it is given."""
    bytes_of_seats = some if isinstance(some, bytes) else b"".join(seat(*one) for one in some)
    closed_set = closed if isinstance(closed, bytes) else blocked(closed)
    damaged = isinstance(ship, bytes)
    file, size, total = (ship, 0, 0) if damaged else (ship.file, sheet_size(ship), polygons_in_all(ship))
    room = 36 * (len(bytes_of_seats) // 20) if room is None else room
    table = (64 if damaged else size) if table is None else table
    work = (64 if damaged else 8 * total) if work is None else work
    refused = no if damaged else first_no(ship, closed_set, bytes_of_seats, room, table, work)
    assert no == refused, (name, no, refused)
    records = None if refused else records_of(ship, closed, bytes_of_seats)
    assert max(room, table, work) <= MOST_LENT, name
    head = u32(ord("L"), len(file), len(closed_set), len(bytes_of_seats), room, table, work, size)
    return name, lines(refused, records, None if refused else sheet(ship, records)), head + file + closed_set + bytes_of_seats


# ---- ships


def row(*lists, offset=(0.0, 0.0), heights=()):
    """Squares of side 1 around (0, 0), (2, 0), (4, 0) .., the first vertex of each with one of these neighbour lists."""
    deck = boxes([(2.0 * k, 0.0) for k in range(len(lists))], 0.5)
    return dict(listed(deck, *[some for one in lists for some in (one, [], [], [])]), offset=offset, heights=list(heights))


# Labels 0, 1, 1, two islands, since reach is one way; and on deck 1 one island of two polygons. Ten apart, so that no seat sees both.
DECK_0 = row([], [0, 2], [])
DECK_1 = row([1], [0], offset=(0.0, 10.0))
TWO = Ship(DECK_0, DECK_1)
SEATS = [
    at(0.0, 0.0),
    at(4.0, 0.0),
    at(2.0, 10.0),
    at(50.0, 50.0),
    at(4.25, 0.25),
    at(2.0, -0.75),  # sample 0 of step 1
    at(0.0, 0.0, 1),  # not on the deck that it names
    at(2.25, 10.0, 1),
    at(0.0, 9.75),
    at(2.0, 10.25),
]
LENT = {"room": 36 * len(SEATS), "table": sheet_size(TWO), "work": 8 * polygons_in_all(TWO)}

# ---- the sheet


def sheet_cases():
    yield loads("two decks, three islands", TWO, SEATS)
    yield loads("the same from the last seat to the first", TWO, SEATS[::-1])
    for k, one in enumerate(SEATS):
        yield loads("seat %d of the list alone" % k, TWO, [one])
    yield loads("a seat five times", TWO, SEATS[1:2] * 5)
    yield loads("all unplaced", TWO, SEATS[3:4] * 3)
    yield loads("the decks in the other order", Ship(DECK_1, DECK_0), SEATS[:6])
    yield loads("the example of document 01", Ship(SQUARE), seats.EXAMPLE_SEATS)


def empty_cases():
    yield loads("no seats", TWO, [])
    yield loads("no seats, more of everything", TWO, [], room=5, table=LENT["table"] + 11, work=LENT["work"] + 9)
    yield loads("no seats, table of 0 bytes", TWO, [], no=20, table=0)
    yield loads("no seats, table one byte short", TWO, [], no=20, table=LENT["table"] - 1)
    yield loads("no seats, work of 0 bytes", TWO, [], no=20, work=0)
    yield loads("no seats, work one byte short", TWO, [], no=20, work=LENT["work"] - 1)
    yield loads("no seats, every deck blocked", TWO, [], closed=[0, 1])


def blocked_cases():
    for name, closed in [("deck 0", [0]), ("deck 1", [1]), ("both decks", [0, 1]), ("a deck that is not there", [7]), ("all such", range(2, 256))]:
        yield loads("blocked: " + name, TWO, SEATS, closed=closed)
    yield loads("seats that name a blocked deck", TWO, [at(0.0, 0.0, 0), at(2.0, 10.0, 1)], closed=[0])


def height_cases():
    """Two decks over each other: a wish says on which of them a seat is counted."""
    low, high = row([1], [0], heights=[1.0] * 8), row([], [0], heights=[5.0] * 8)
    some = [at(2.0, 0.0, wish=5.0), at(2.0, 0.0), at(0.0, 0.0, wish=4.0), at(0.25, 0.0, wish=0.0), at(2.0, 0.25, wish=9.0)]
    yield loads("by wish", Ship(low, high), some)
    yield loads("by wish, the lower deck blocked", Ship(low, high), some, closed=[0])
    yield loads("polygons over each other: the first", Ship(other.stack(3, (2, 0), (0, 1))), [at(1.0, 1.0)] * 2)


def reach_cases():
    """On polygon k stand k + 1 seats."""
    for name, lists in [
        ("no entries", [[], [], []]),
        ("all ones, and each itself", [[ALL_ONES, 0], [1, ALL_ONES], [2]]),
        ("a chain up", [[1], [2], [3], []]),
        ("a chain down: one way, so that each is an island", [[], [0], [1], [2]]),
        ("a cycle", [[2], [0], [1]]),
        ("two cycles", [[2], [3], [0], [1]]),
        ("a cycle that names a lower one", [[], [2], [1, 0]]),
        ("through a higher one", [[3], [], [], [1]]),
        ("the last names all", [[], [], [], [0, 1, 2, 3]]),
        ("the first names all", [[0, 1, 2, 3], [], [], []]),
        ("back and forth over five", [[4], [2], [3], [1], [2]]),
    ]:
        some = [at(2.0 * k, 0.0) for k in range(len(lists)) for _ in range(k + 1)]
        yield loads("reach, " + name, Ship(row(*lists)), some)
    lists = [[], [2], []]
    yield loads("labels of deck 2 start anew", Ship(row([]), row([], []), row(*lists)), [at(4.0, 0.0, 2), at(2.0, 0.0, 1), at(0.0, 0.0, 2)])


def size_cases():
    many = [at(4.0, 0.0)] * 257 + [at(2.0, 10.0)] * 2
    yield loads("257 seats on a polygon: a count of two bytes", TWO, many)
    yield loads("256 decks", MOST, [at(9.0, 9.0), at(9.0, 9.0, 255), at(9.0, 9.0, 200), at(9.0, 9.0, 255)], closed=[0, 200])


# ---- portions


def added(one, more):
    return [a + b for a, b in zip(one, more)]


def portion_cases():
    """A list cut in two: the tables add up to that of the whole, which is the first case."""
    records = records_of(TWO, (), b"".join(seat(*one) for one in SEATS))
    for cut in (1, 4, 7, 9):
        assert added(sheet(TWO, records[:cut]), sheet(TWO, records[cut:])) == sheet(TWO, records)
        yield loads("the first %d seats" % cut, TWO, SEATS[:cut])
        yield loads("the seats after the first %d" % cut, TWO, SEATS[cut:])


# ---- what is lent


def room_cases():
    """Question 20: each of the three a byte short, and with nothing."""
    for name, need in LENT.items():
        for size in (0, 1, need - 8, need - 1):
            yield loads("%s of %d bytes" % (name, size), TWO, SEATS, no=20, **{name: size})
        for more in (1, 7, 8, 100):
            yield loads("%s of %d bytes" % (name, need + more), TWO, SEATS, **{name: need + more})
    yield loads("more of everything", TWO, SEATS, **{name: need + 37 for name, need in LENT.items()})
    yield loads("a byte less of everything", TWO, SEATS, no=20, **{name: need - 1 for name, need in LENT.items()})
    yield loads("a table that is too short, more of the others", TWO, SEATS, no=20, room=500, table=LENT["table"] - 1, work=500)
    yield loads("work for the polygons of deck 0 alone", TWO, SEATS, no=20, work=8 * TWO.count(0))
    yield loads("work of 4 bytes a polygon", TWO, SEATS, no=20, work=LENT["work"] // 2)


# ---- question 19, and the order of the questions


def label_cases():
    """Question 19: of every deck, whoever sits there."""
    bad = row([], [2])  # of two polygons
    deck_0 = [at(0.0, 0.0, 0)]
    first, second, third = Ship(bad, DECK_1), Ship(DECK_0, bad), Ship(DECK_0, DECK_1, bad)
    yield loads("19 on deck 0", first, deck_0, no=19)
    yield loads("19 on deck 1, and a seat there", second, [at(0.0, 0.0, 1)], no=19)
    yield loads("19 on deck 1, and no seat there", second, deck_0, no=19)
    yield loads("19 on deck 2", third, deck_0, no=19)
    yield loads("19 on a blocked deck", second, deck_0, no=19, closed=[1])
    yield loads("19 where every deck is blocked", first, deck_0, no=19, closed=range(256))
    yield loads("19 and no seats", second, [], no=19)
    yield loads("19 and a seat that is unplaced", second, [at(50.0, 50.0)], no=19)
    yield loads("19 on both decks", Ship(bad, bad), deck_0, no=19)
    for entry in (3, packed(0, 1), packed(1, 0), ALL_ONES - 1, ALL_ONES):
        no = None if entry in (packed(0, 1), ALL_ONES) else 19
        yield loads("an entry %08x of 3 polygons" % entry, Ship(row([], [0, entry], [])), deck_0, no=no)
    yield loads("a packed entry of the deck itself, on deck 1", Ship(DECK_0, row([packed(1, 1)], [])), deck_0, no=19)
    loose = listed(seats.deck("-1 -1 1 -1 1 1 -1 1 9 9", [[0, 1, 2, 3]]), [], [], [], [], [7])
    yield loads("an entry at a vertex that no polygon uses", Ship(loose), deck_0)
    last = listed(boxes([(0.0, 0.0), (2.0, 0.0)], 0.5), *[[]] * 7, [2])
    yield loads("an entry at the last vertex of the last polygon", Ship(last), deck_0, no=19)


def order_cases():
    bad = Ship(DECK_0, row([], [2]))
    good = seat(0.0, 0.0)
    bad_kind, bad_size, bad_deck = put(good, 12, 2), seat(0.0, NAN), seat(0.0, 0.0, 2)
    short = {"room": 0, "table": 0, "work": 0}
    damaged = ship_cases.ship_of(deck_blocks(DECK_0) + ship_cases.square_with(ship_cases.corner_not_there))
    yield loads("13 and 14", damaged, good, no=13, closed=bytes(31))
    yield loads("2 and 20", put(EXAMPLE_SHIP, 0, 257), good, no=2, **short)
    for length in (31, 33):
        yield loads("14 of a blocked set of %d bytes, and 19" % length, bad, good, no=14, closed=bytes(length))
    yield loads("14 of the seats, and 19", bad, good + b"\0", no=14)
    yield loads("15 of a seat, and 19", bad, good + bad_kind, no=15)
    yield loads("15 of an unused height, and 19", bad, put(good, 16, bits(-0.0)), no=15)
    yield loads("16 of a seat, and 19", bad, good + bad_size, no=16)
    yield loads("16 of a wish, and 19", bad, seat(0.0, 0.0, wish=ABOVE), no=16)
    yield loads("17 of the last seat, and 19", bad, good * 2 + bad_deck, no=17)
    yield loads("17 of a seat, and 19 on deck 0", Ship(row([1]), DECK_1), bad_deck, no=17)
    yield loads("19 and 20", bad, good, no=19, **short)
    for name in LENT:
        yield loads("17 and 20 of the %s" % name, TWO, good + bad_deck, no=17, **{name: 0})
        yield loads("19 and 20 of the %s" % name, bad, good, no=19, **{name: 0})
    yield loads("17 of a seat", TWO, bad_deck, no=17)
    yield loads("17 of a seat that names a blocked deck which is not there", TWO, bad_deck, no=17, closed=[2])
    yield loads("17 of seat 0, 15 of seat 1", TWO, bad_deck + bad_kind, no=17)
    yield loads("15 of seat 0, 17 of seat 1", TWO, bad_kind + bad_deck, no=15)


def damaged_cases():
    for name, no, file in other.DAMAGED:
        yield loads(name, file, SEATS[:1], no=no)
    yield loads("no bytes, and nothing lent", b"", [], no=1, room=0, table=0, work=0)
    yield loads("L 257", Ship(*[other.dots([])] * 257).file, [], no=2)


# ---- a hull with no decks


def no_deck_cases():
    """Document 02, point 5: the sheet is one count, of 8 bytes, and no work is needed."""
    some = seats.EXAMPLE_SEATS
    for name, no, file in REFUSED_HULLS:
        yield loads(name, file, some, no=no)
        yield loads(name + ", nothing lent", file, [], no=no, room=0, table=0, work=0)
    yield loads("L 0, the example's seats", HULL, some)
    yield loads("L 0, wishes", HULL, [at(1.0, 1.0, wish=2.0), at(-0.0, MILLION, wish=-MILLION)])
    yield loads("L 0, no seats", HULL, [])
    yield loads("L 0, 257 seats: a count of two bytes", HULL, [at(1.0, 1.0)] * 257)
    yield loads("L 0, S 16, reach 1,000", Ship(reach=1000.0, steps=16), some)
    yield loads("L 0, every deck blocked", HULL, some, closed=range(256))
    for cut in (1, 2):
        yield loads("L 0, the first %d seats" % cut, HULL, some[:cut])
        yield loads("L 0, the seats after the first %d" % cut, HULL, some[cut:])


def no_deck_room_cases():
    some = seats.EXAMPLE_SEATS
    for name, need in [("room", 36 * len(some)), ("table", 8)]:
        for size in (0, need - 1):
            yield loads("L 0, %s of %d bytes" % (name, size), HULL, some, no=20, **{name: size})
        for size in (need + 1, need + 8):
            yield loads("L 0, %s of %d bytes" % (name, size), HULL, some, **{name: size})
    for work in (0, 1, 8, 64):
        yield loads("L 0, work of %d bytes" % work, HULL, some, work=work)
    yield loads("L 0, more of everything", HULL, some, room=200, table=37, work=37)
    yield loads("L 0, table of 7 bytes, work of 64", HULL, some, no=20, table=7, work=64)
    yield loads("L 0, no seats, table of 7 bytes", HULL, [], no=20, table=7)
    yield loads("L 0, no seats, more of everything", HULL, [], room=5, table=19, work=9)


def no_deck_order_cases():
    good, named = seat(1.0, 1.0), seat(1.0, 1.0, 0)
    bad_kind, bad_size = put(good, 12, 2), seat(1.0, NAN)
    short = {"room": 0, "table": 0, "work": 0}
    for d in (0, 1, 255, 256, ALL_ONES - 1):
        yield loads("L 0, deck %d named" % d, HULL, seat(1.0, 1.0, d), no=17, work=8)
    yield loads("L 0, deck 0 named and blocked", HULL, named, no=17, closed=[0])
    for k in range(3):
        yield loads("L 0, 17 of seat %d of 3" % k, HULL, good * k + named + good * (2 - k), no=17)
    yield loads("L 0, 1 and 17", SHORT_HULL, named, no=1)
    yield loads("L 0, 6 and 14", LONG_HULL, good, no=6, closed=bytes(31))
    yield loads("L 0, 6 and 17", LONG_HULL, named, no=6)
    yield loads("L 0, 6 and 20", LONG_HULL, good, no=6, **short)
    yield loads("L 0, blocked set of 33 bytes", HULL, good, no=14, closed=bytes(33))
    yield loads("L 0, 14 of the blocked set and 17", HULL, named, no=14, closed=bytes(31), work=8)
    yield loads("L 0, 14 of the seats and 17", HULL, named + b"\0", no=14)
    yield loads("L 0, 14 and 20", HULL, good, no=14, closed=b"", **short)
    yield loads("L 0, 15 and 17 of a seat", HULL, put(named, 12, 2), no=15)
    yield loads("L 0, 15 and 20", HULL, bad_kind, no=15, **short)
    yield loads("L 0, 16 and 17 of a seat", HULL, put(bad_size, 8, 0), no=16)
    yield loads("L 0, 16 and 20", HULL, bad_size, no=16, **short)
    for name in ("room", "table"):
        yield loads("L 0, 17 and 20 of the %s" % name, HULL, named, no=17, **{name: 0})
    yield loads("L 0, 15 of seat 0, 17 of seat 1", HULL, bad_kind + named, no=15)
    yield loads("L 0, 16 of seat 0, 17 of seat 1", HULL, bad_size + named, no=16)
    yield loads("L 0, 17 of seat 0, 15 of seat 1", HULL, named + bad_kind, no=17)


# ---- ships from a fixed seed


def random_cases(ships=8):
    draw = random.Random(1912).getrandbits

    def below(n):
        return draw(16) % n

    def any_deck():
        """Squares in a row, moved so that decks overlap, with entries of any reach."""
        n = 1 + below(5)
        lists = [[[ALL_ONES, below(n), below(n)][below(3)] for _ in range(below(3))] for _ in range(n)]
        heights = [below(16) / 4.0 for _ in range(4 * n)] if draw(1) else []
        return row(*lists, offset=(below(9) / 2.0 - 2, below(5) / 2.0 - 1), heights=heights)

    for k in range(ships):
        decks = 1 + below(3)
        ship = Ship(*[any_deck() for _ in range(decks)], reach=below(8) / 8.0, steps=1 + below(2))
        closed = [d for d in range(decks) if below(5) == 0]

        def any_seat():
            return at(below(96) / 8.0 - 2, below(32) / 8.0 - 2, below(decks) if below(4) == 0 else ALL_ONES, below(8) / 2.0 if draw(1) else None)

        some = [any_seat() for _ in range(4 + below(9))]
        cut = below(len(some) + 1)
        yield loads("ship %d of the seed" % k, ship, some, closed=closed)
        yield loads("ship %d of the seed, its first %d seats" % (k, cut), ship, some[:cut], closed=closed)
        yield loads("ship %d of the seed, the seats after them" % k, ship, some[cut:], closed=closed)


# ---- the two files

GROUPS = [sheet_cases, empty_cases, blocked_cases, height_cases, reach_cases, size_cases, portion_cases]
GROUPS += [room_cases, label_cases, order_cases, damaged_cases, no_deck_cases, no_deck_room_cases, no_deck_order_cases, random_cases]


def cases():
    return [case for group in GROUPS for case in group()]


def files(some):
    """What the two files hold."""
    stdin = b"".join(case for _, _, case in some) + u32(ord("L"), 1)
    assert len(stdin) <= MOST_BYTES, len(stdin)
    answers = [line for _, answer, _ in some for line in answer] + ["bad"]
    return {"stdin": stdin, "stdout": "".join(line + "\n" for line in answers).encode("ascii")}


def write():
    stored_cases.write("loads_cases", files(cases()))


def check():
    some = cases()
    return stored_cases.check("loads_cases", files(some), len(some))


def show():
    for k, (name, answer, case) in enumerate(cases()):
        print("%d: %s (%d bytes): %s" % (k + 1, name, len(case), answer[0]))


if __name__ == "__main__":
    stored_cases.run(__doc__, write=write, check=check, list=show)
