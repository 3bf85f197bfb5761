#!/usr/bin/env python3
"""other_cases.py write|check|list: cases of the calls of document 01, section 8, and document 02, point 2, with their answers.

write: writes crates/other_cases/stdin, the cases, and stdout, the answers.
check: exits with 1 where one of the two files differs from what is computed here.
list: prints the cases, in the order of their answers in stdout.

The answers are worked out from document 01, section 8, over a ship's plan and not its file: locating by the nine probes, merging and
islands by the closure of their relation, stitch points by pairs of vertices, and removal by a plan whose lists are filtered and whose
file is written anew; and from document 02, point 2, the place towards a point. A hull with no decks (point 5) is an empty plan. The
search and the arithmetic are those of tools/seats_cases.py. Of a ship the questions 14, 16 to 20 and 22 are asked here; of a damaged
file the number that it is built to fail stands beside the case. Where a case is built to be refused, both are there and have to agree.
Nothing of the Rattle code takes part.

A place that is an argument is never a NaN, since no float can be made of a NaN's pattern there. The last line of stdout is `bad`, for
a case that is cut short.
"""
import os
import random
import struct
import sys

sys.path.insert(0, os.path.dirname(os.path.abspath(__file__)))
sys.dont_write_bytecode = True  # nothing is left beside the tools
import geometry_cases as g
import seats_cases as seats
import ship_cases
import stored_cases
from seats_cases import ABOVE, BARE, CORNERS, INFINITY, MILLION, round_trip, value
from ship_cases import LONG_HULL, REFUSED_HULLS, SHORT_HULL
from ship_file import ALL_ONES, EXAMPLE_SHIP, SQUARE, bits, blocked, deck_blocks, put, u32

MOST_BYTES = 290000  # they fit the program's array
MOST_LENT = 32768
ANY = -1  # of a case that is drawn: whatever the questions say

# ---- document 01, section 8. A ship has beside the coordinates of its polygons the plan that its file is written from.


class Ship(seats.Ship):
    def __init__(self, *plan, reach=0.5, steps=2):
        super().__init__(*plan, reach=reach, steps=steps)
        self.plan = plan
        self.header = {"reach": reach, "steps": steps}

    def count(self, d):
        return len(self.plan[d]["polygons"])


def packed(d, k):
    return d << 24 | k


def deck_of(entry):
    return entry >> 24


def located(ship, p, d):
    """The polygon of a deck that the nine probes find first, packed, or None."""
    around = g.minus(p, ship.decks[d].offset)
    for k in range(9):
        q = g.probe(around, ship.reach, k)
        for n, polygon in enumerate(ship.decks[d].polygons):
            if seats.passes(polygon, q):
                return packed(d, n)
    return None


def point_layers(ship, p, named):
    """`get_point_layer`: one a deck, of those there are."""
    decks = range(len(ship.decks)) if named == ALL_ONES else [d for d in [named] if d < len(ship.decks)]
    return [found for found in (located(ship, p, d) for d in decks) if found is not None]


def closure(n, related):
    """Which of n reaches which, by one hop or more."""
    reaches = [[related(a, b) for b in range(n)] for a in range(n)]
    for k in range(n):
        for a in range(n):
            if reaches[a][k]:
                reaches[a] = [x or y for x, y in zip(reaches[a], reaches[k])]
    return reaches


def touches(ship, a, b):
    """Whether an edge of a has b in both ends' lists."""
    plan = ship.plan[deck_of(a)]
    corners = plan["polygons"][a & 0xFFFFFF]
    return any(b in plan["vertices"][v][2] and b in plan["vertices"][w][2] for v, w in round_trip(corners))


def merged(ship, some):
    """Without those that an earlier one reaches through the list."""
    reaches = closure(len(some), lambda a, b: touches(ship, some[a], some[b]))
    return [c for k, c in enumerate(some) if not any(reaches[e][k] for e in range(k))]


def candidate_polygons(ship, p, named, polygon, closed):
    if polygon != ALL_ONES:
        return [polygon]
    if named != ALL_ONES and (named in closed or named >= len(ship.decks)):
        return []
    return merged(ship, [packed(d, k) for d, k, _, _ in seats.search(ship, p, named, tuple(closed))[1]])


def entries_used(ship, d):
    """Of each polygon, the entries in its vertices' lists."""
    plan = ship.plan[d]
    return [{entry for v in polygon for entry in plan["vertices"][v][2]} for polygon in plan["polygons"]]


def island_labels(ship, d):
    named = entries_used(ship, d)
    reaches = closure(len(named), lambda a, b: b in named[a])
    return [min(a for a in range(len(named)) if a == b or reaches[a][b]) for b in range(len(named))]


def stitch_points(ship):
    found = []
    for a in range(len(ship.plan)):
        for b in range(a + 1, len(ship.plan)):
            for x, y, _ in ship.plan[a]["vertices"]:
                for u, v, _ in ship.plan[b]["vertices"]:
                    if g.equal(value(x), value(u)) and g.equal(value(y), value(v)):
                        found.append([a, b, bits(x), bits(y)])
    return found


def kept(d, entry, t):
    """What a removal leaves of an entry of deck d, as a list; t is None where all stitches go."""
    if entry == ALL_ONES:
        return [entry]
    if t is None or d == t:
        return [entry & 0xFFFFFF] if deck_of(entry) == d else []
    return [] if deck_of(entry) == t else [entry]


def removed(ship, t=None):
    """The ship after a removal, from its plan."""
    plan = []
    for d, deck in enumerate(ship.plan):
        vertices = [(x, y, [e for entry in some for e in kept(d, entry, t)]) for x, y, some in deck["vertices"]]
        plan.append(dict(deck, vertices=vertices))
    return Ship(*plan, **ship.header)


# ---- document 02, point 2


def direction(p, towards):
    v = g.minus(p, towards)
    length = g.of_bits(g.root(g.to_bits(g.dot(v, v))))
    scale = g.div(g.nearest("1"), length)
    return [g.neg(g.mul(c, scale)) for c in v]


def place_towards(ship, p, towards, named):
    """The first place, as an entry, of those there are: step by step, in a step deck by deck, and there polygon by polygon."""
    way = direction(p, towards)
    for s in range(ship.steps):
        for d in range(len(ship.decks)) if named == ALL_ONES else [named]:
            offset = ship.decks[d].offset
            around = g.minus(p, offset)
            q = [g.add(around[c], g.mul(g.mul(way[c], ship.reach), g.nearest(str(s)))) for c in (0, 1)]
            for k, polygon in enumerate(ship.decks[d].polygons):
                if seats.passes(polygon, q):
                    return [[packed(d, k)] + [g.to_bits(g.add(q[c], offset[c])) for c in (0, 1)]]
    return []


def words(file):
    return [[word] for word in struct.unpack("<%dI" % (len(file) // 4), file)]


# ---- the questions of a call


def sized(*floats):
    """Question 16."""
    return all(g.at_most(g.absolute(value(x)), value(MILLION)) for x in floats)


def there(ship, d):
    """Question 17, of a call that has to name a deck."""
    return d < len(ship.plan)


def apart(p, towards):
    """Question 22."""
    v = g.minus(p, towards)
    return not g.equal(g.dot(v, v), g.ZERO)


def in_range(ship, d):
    """Question 19."""
    return all(entry == ALL_ONES or entry < ship.count(d) for some in entries_used(ship, d) for entry in some)


def first_no(questions):
    for number, passed in questions:
        if not passed():
            return number
    return None


# ---- a case: its name, the lines of its answer, and its bytes


def replied(questions, answer, room, need, work):
    """The number of the refusal or None, the entries, and the lengths of output and work, which fit where they are not given."""
    refused = first_no(questions)
    if refused:
        return refused, None, room, work
    entries = answer()
    length = 4 * sum(len(one) for one in entries)
    room = length if room is None else room
    work = need if work is None else work
    return 20 if room < length or work < need else None, entries, room, work


def stored(letter, name, ship, no, questions, answer, unit=1, need=None, p=(0.0, 0.0), deck=0, number=0, closed=b"", room=None, work=None):
    """`no` is the question that the case is built to fail, and `need` what it takes of work, None for a call that is lent none."""
    if isinstance(ship, bytes):
        file, refused, entries = ship, no, None
    else:
        file = ship.file
        refused, entries, room, work = replied(questions, answer, room, need() if need else 0, work)
        assert no in (ANY, refused), (name, no, refused)
    room = 64 if room is None else room
    work = 0 if need is None else 64 if work is None else work
    assert max(room, work) <= MOST_LENT
    head = u32(ord(letter), len(file), len(closed), bits(p[0]), bits(p[1]), deck, number, room, work)
    return name, lines(letter, refused, entries, unit, need is not None), head + file + closed


def lines(letter, refused, entries, unit, lent):
    if letter == "P":
        return ["refused %d" % refused if refused else "found %08x" % entries[0][0]]
    if refused:
        return ["refused %d kept" % refused + " untouched" * lent]
    return ["wrote %d kept" % (unit * len(entries)) + " zeros" * lent] + ["".join(" %08x" % word for word in one) for one in entries]


def place(x, y):
    return (value(x), value(y))


def each(some):
    """Entries of a number each."""
    return [[one] for one in some]


def location(name, ship, x=1.0, y=1.0, deck=ALL_ONES, no=None):
    """It is lent no output, so that 20 is not asked."""

    def answer():
        return each((point_layers(ship, place(x, y), deck) + [ALL_ONES])[:1])

    return stored("P", "location, " + name, ship, no, [(16, lambda: sized(x, y))], answer, p=(x, y), deck=deck, room=4)


def layer(name, ship, x=1.0, y=1.0, deck=ALL_ONES, no=None, room=None):
    def answer():
        return each(point_layers(ship, place(x, y), deck))

    return stored("L", "layer, " + name, ship, no, [(16, lambda: sized(x, y))], answer, p=(x, y), deck=deck, room=room)


def polygons(name, ship, x=1.0, y=1.0, deck=ALL_ONES, polygon=ALL_ONES, no=None, closed=(), room=None, work=None):
    closed_set = closed if isinstance(closed, bytes) else blocked(closed)
    questions = [(14, lambda: len(closed_set) == 32), (16, lambda: sized(x, y))]

    def answer():
        return each(candidate_polygons(ship, place(x, y), deck, polygon, closed))

    def need():
        return 4 * sum(ship.count(d) for d in range(len(ship.plan)))

    lent = {"room": room, "work": work, "need": need}
    return stored("C", "candidates, " + name, ship, no, questions, answer, p=(x, y), deck=deck, number=polygon, closed=closed_set, **lent)


def islands(name, ship, deck=0, no=None, room=None, work=None):
    questions = [(17, lambda: there(ship, deck)), (19, lambda: in_range(ship, deck))]

    def answer():
        return each(island_labels(ship, deck))

    def need():
        return 4 * ship.count(deck) if there(ship, deck) else 0

    return stored("I", "islands, " + name, ship, no, questions, answer, need=need, deck=deck, room=room, work=work)


def stitches(name, ship, no=None, room=None):
    return stored("S", "stitch points, " + name, ship, no, [], lambda: stitch_points(ship), room=room)


def removal(name, ship, no=None, room=None):
    return stored("R", "removal, " + name, ship, no, [], lambda: words(removed(ship).file), unit=4, room=room)


def removal_to(name, ship, t=0, no=None, room=None):
    return stored("T", "removal to %d, %s" % (t, name), ship, no, [], lambda: words(removed(ship, t).file), unit=4, number=t, room=room)


def towards(name, ship, x=1.0, y=1.0, to=(3.0, 1.0), deck=ALL_ONES, no=None, room=None):
    """The point to go towards stands in the blocked set's place."""
    questions = [(16, lambda: sized(x, y) and sized(*to)), (17, lambda: deck == ALL_ONES or there(ship, deck))]
    questions += [(22, lambda: apart(place(x, y), place(*to)))]

    def answer():
        return place_towards(ship, place(x, y), place(*to), deck)

    end = u32(bits(to[0]), bits(to[1]))
    return stored("D", "towards, " + name, ship, no, questions, answer, p=(x, y), deck=deck, closed=end, room=room)


CALLS = [location, layer, polygons, islands, stitches, removal, removal_to, towards]
PLACED = [location, layer, polygons, towards]  # they take a place and a deck

# ---- decks and ships


def listed(deck, *lists):
    """A deck with neighbour lists, a vertex each; those after them are empty."""
    some = list(lists) + [[]] * (len(deck["vertices"]) - len(lists))
    return dict(deck, vertices=[(x, y, neighbours) for (x, y, _), neighbours in zip(deck["vertices"], some)])


FAR = seats.deck("100 100 104 100 104 104 100 104")  # no place here comes near it
EXAMPLE = Ship(SQUARE)
HULL = Ship()  # document 02, point 5: no decks yet


def box(x, y, half):
    return " ".join("%s %s" % (x + half * u, y + half * v) for u, v in ((-1, -1), (1, -1), (1, 1), (-1, 1)))


def boxes(places, half=0.25):
    """A deck of squares, a polygon each with vertices of its own."""
    return seats.deck(" ".join(box(x, y, half) for x, y in places), [list(range(4 * k, 4 * k + 4)) for k in range(len(places))])


def stack(n, *hops):
    """n squares over each other. A hop (a, entry) puts the entry into the lists of both ends of the first edge of square a."""
    lists = [[entry for a, entry in hops if v // 4 == a and v % 4 < 2] for v in range(4 * n)]
    return listed(boxes([(2.0, 2.0)] * n, 2.0), *lists)


def dots(*lists):
    """Polygons of a vertex each, which pass everywhere, with these neighbour lists."""
    return listed(seats.deck("0 0 " * len(lists), [[k] for k in range(len(lists))]), *lists)


MOST = Ship(*[dots([])] * 256)

# ---- locating

PROBES = g.PROBES  # their order is document 01's


def probe_cases():
    """A reach of 1, and squares around whole numbers, so that a probe meets one of them or none."""
    one = Ship(boxes([(0.0, 0.0)]), reach=1.0)
    two = Ship(boxes([(0.0, 0.0)]), boxes([(1.0, 0.0), (0.0, 0.0)]), reach=1.0)
    for k, (x, y) in enumerate(PROBES):
        yield location("probe %d alone" % k, one, -x, -y)
        if k % 4 == 0:
            yield layer("probe %d alone on deck 0" % k, two, -x, -y)
    for k in range(9):
        left = Ship(boxes([(float(x), float(y)) for x, y in PROBES[k:]][::-1]), reach=1.0)
        yield location("probe %d before those after it" % k, left, 0.0, 0.0)
    yield location("two steps away", one, 2.0, 0.0)
    yield location("off the nine", one, 1.5, 0.0)
    yield location("two polygons at a probe: the lower number", Ship(FAR, stack(3)), 1.0, 1.0)
    yield location("the lower number at a later probe", Ship(boxes([(1.0, 0.0), (0.0, 0.0)]), reach=1.0), 0.0, 0.0)


def located_deck_cases():
    late = boxes([(1.0, -1.0)])  # at the last probe from (0, 0)
    soon = boxes([(0.0, 0.0)])
    ship = Ship(FAR, late, soon, reach=1.0)
    for call in (location, layer):
        yield call("decks rising, not probes", ship, 0.0, 0.0)
        for d in (0, 2):
            yield call("deck %d named" % d, ship, 0.0, 0.0, deck=d)
        for d in (3, 256 + 2, ALL_ONES - 1):
            yield call("deck %d named, which is not there" % d, ship, 0.0, 0.0, deck=d)
        yield call("nothing found", ship, 50.0, 50.0)
        moved = Ship(dict(soon, offset=(10.0, 20.0)), soon, dict(soon, offset=(9.0, 20.0)), reach=1.0)
        yield call("an offset is taken off", moved, 10.0, 20.0)
        yield call("an offset of another deck is not", moved, 0.0, 0.0)
    yield layer("all of 256 decks", MOST, 9.0, 9.0)


def located_reach_cases():
    for reach in (0.0, -0.0, 1e-45, 0.5):
        ship = Ship(SQUARE, dict(SQUARE, offset=(-0.0, -0.0)), reach=reach)
        for x, y in ((-0.0, -0.0), (4.5, 2.0)):
            yield location("reach %s, (%s, %s)" % (reach, x, y), ship, x, y)
        yield layer("reach %s, (-0.0, 2.0)" % reach, ship, -0.0, 2.0)
    yield layer("reach 1,000 from 1,000 away", Ship(SQUARE, reach=1000.0), -999.0, -999.0)
    rough = Ship(dict(BARE, offset=(0.1, -0.3)), reach=0.1)
    for x, y in ((0.0, 0.0), (4.2, 1.0), (4.3, 1.0)):
        yield location("a reach and an offset that round, (%s, %s)" % (x, y), rough, x, y)


def layer_output_cases():
    ship = Ship(SQUARE, FAR, SQUARE, SQUARE)
    for room in (0, 8, 11):
        yield layer("three entries, output of %d bytes" % room, ship, no=20, room=room)
    for room in (12, 13, 40):
        yield layer("three entries, output of %d bytes" % room, ship, room=room)
    yield layer("a deck named, output of 3 bytes", ship, deck=3, no=20, room=3)
    yield layer("nothing, output of 0 bytes", ship, 50.0, 50.0, room=0)
    yield layer("nothing, output of 7 bytes", ship, 50.0, 50.0, room=7)
    yield layer("a deck that is not there, output of 0 bytes", ship, deck=4, room=0)


def located_size_cases():
    """Question 16."""
    for call in (location, layer):
        yield call("x of 1,000,000", EXAMPLE, MILLION, 1.0)
        yield call("y of -1,000,000", EXAMPLE, 1.0, -MILLION)
        yield call("x of %s" % ABOVE, EXAMPLE, ABOVE, 1.0, no=16)
        yield call("y of minus infinity", EXAMPLE, 1.0, -INFINITY, no=16)
        yield call("16 and a deck that is not there", EXAMPLE, INFINITY, 1.0, deck=1, no=16)
    yield layer("16 and 20", EXAMPLE, ABOVE, 1.0, no=16, room=0)


# ---- candidate polygons


def named_polygon_cases():
    """It comes back, whatever the rest says."""
    ship = Ship(stack(3, (0, 1)), FAR)
    for polygon in (0, 1, packed(1, 0), 3, packed(2, 0), ALL_ONES - 1):
        yield polygons("%08x named" % polygon, ship, polygon=polygon)
    yield polygons("a polygon named, far from it", ship, 50.0, 50.0, polygon=1)
    yield polygons("a polygon named, and a deck that is not there", ship, deck=9, polygon=1)
    yield polygons("a polygon named, and a deck that is blocked", ship, deck=0, polygon=1, closed=[0, 1])
    for room in (0, 3):
        yield polygons("a polygon named, output of %d bytes" % room, ship, polygon=1, no=20, room=room)
    yield polygons("a polygon named, output of 5 bytes", ship, polygon=1, room=5)
    for work in (0, 15):
        yield polygons("a polygon named, work of %d bytes" % work, ship, polygon=1, no=20, work=work)
    for work in (16, 40):
        yield polygons("a polygon named, work of %d bytes" % work, ship, polygon=1, work=work)
    yield polygons("a polygon that is not there, work of 15 bytes", ship, polygon=packed(2, 0), no=20, work=15)
    yield polygons("a polygon that is not there, output of 3 bytes", ship, polygon=packed(2, 0), no=20, room=3)
    yield polygons("a polygon named, blocked set of 31 bytes", ship, polygon=1, no=14, closed=bytes(31))
    yield polygons("a polygon named, x of %s" % ABOVE, ship, ABOVE, polygon=1, no=16)


def candidate_deck_cases():
    ship = Ship(BARE, SQUARE, FAR)
    yield polygons("two decks", ship)
    for d in (0, 1):
        yield polygons("deck %d named, the others blocked" % d, ship, deck=d, closed=[e for e in (0, 1, 2) if e != d])
        yield polygons("deck %d named and blocked" % d, ship, deck=d, closed=[d], room=8)
    for d in (3, 256, ALL_ONES - 1):
        yield polygons("deck %d named, which is not there" % d, ship, deck=d, room=8)
    yield polygons("deck 0 blocked", ship, closed=[0])
    yield polygons("all decks blocked", ship, closed=range(256))
    yield polygons("nothing found, output of 0 bytes", ship, 50.0, 50.0)
    yield polygons("nothing found, output of 9 bytes, work of 20", ship, 50.0, 50.0, room=9, work=20)
    yield polygons("nothing found, work of 11 bytes", ship, 50.0, 50.0, no=20, work=11)
    yield polygons("deck 3 named, which is not there, work of 11 bytes", ship, deck=3, no=20, work=11)
    yield polygons("a blocked deck named, work of 0 bytes", ship, deck=1, no=20, closed=[1], work=0)
    yield polygons("step 1", ship, -0.5, 2.0)
    yield polygons("step 1, an offset", Ship(dict(BARE, offset=(10.0, 20.0)), BARE), 9.5, 22.0)
    yield polygons("256 decks", MOST, 9.0, 9.0, closed=range(2, 254), room=20, work=1025)


def chain_cases():
    """a>b: an edge of a has b in both ends' lists."""
    for n, text in [
        (2, "0>1"),
        (2, "1>0"),
        (3, "0>1 1>2"),
        (3, "0>2 2>1"),
        (3, "1>0 0>2"),
        (3, "1>2 2>0"),
        (3, "2>1 1>0"),
        (3, "0>1 1>2 2>0"),
        (4, "0>1 1>2 2>3"),
        (4, "0>3 3>2 2>1"),
        (4, "3>2 2>1 1>0"),
        (4, "0>3 3>1"),
        (4, "0>3 2>1"),
        (4, "1>3 3>2"),
        (5, "0>4 4>1 1>3 3>2"),
        (5, "1>4 4>2 3>0"),
        (6, "0>2 2>4 1>3 3>5"),
        (6, "5>4 4>3 0>5"),
        (3, "0>0 1>1"),
    ]:
        hops = [tuple(int(end) for end in hop.split(">")) for hop in text.split()]
        yield polygons("%d: %s" % (n, text), Ship(stack(n, *hops)))
        if text in ("0>2 2>1", "2>1 1>0", "0>3 3>1"):
            deck = stack(n, *[(a, packed(1, b)) for a, b in hops])
            yield polygons("%d on deck 1, packed: %s" % (n, text), Ship(FAR, deck), deck=1)
    yield polygons("a ring of 30, each names the seventh after it", Ship(dots(*[[(k + 7) % 30] for k in range(30)])))
    yield polygons("a chain of 30, backwards", Ship(dots(*[[max(k - 1, 0)] for k in range(30)])))


def touch_cases():
    """What counts as a touch: both ends of one edge."""
    two = boxes([(2.0, 2.0)] * 2, 2.0)
    for name, lists in [
        ("in one end's list", [[1]]),
        ("in the lists of two vertices without an edge", [[1], [], [1]]),
        ("in the lists of the second edge", [[], [1], [1]]),
        ("in the lists of the last and the first vertex", [[1], [], [], [1]]),
        ("among others", [[ALL_ONES, 7, 1, 0], [5, 1, ALL_ONES]]),
        ("all ones in both lists", [[ALL_ONES], [ALL_ONES]]),
        ("packed for a deck that is not there", [[packed(1, 1)], [packed(1, 1)]]),
        ("in the lists of the second polygon alone", [[], [], [], [], [1], [1], [1], [1]]),
    ]:
        yield polygons(name, Ship(listed(two, *lists)))
    shared = seats.deck(CORNERS, [[0, 1, 2, 3], [0, 1, 2]])
    yield polygons("shared vertices that name both", Ship(listed(shared, [0, 1], [0, 1], [0, 1], [0])))
    pair = seats.deck("0 0 4 0 4 0", [[0, 1], [2, 1]])
    yield polygons("a polygon of two vertices", Ship(listed(pair, [1], [1])), 4.0, 0.0)
    yield polygons("a polygon of one vertex", Ship(dots([1], [])))
    aside = listed(boxes([(2.0, 2.0), (2.0, 2.0), (50.0, 50.0)], 2.0), *[[2]] * 4, *[[]] * 4, *[[1]] * 4)
    yield polygons("by way of a polygon that is no candidate", Ship(aside))


def stitched_cases():
    plain = stack(3, (0, 1), (1, 2))
    ours = stack(3, (0, packed(1, 1)), (1, packed(1, 2)))
    yield polygons("deck 1 with plain entries: none matches", Ship(FAR, plain))
    yield polygons("deck 1 with packed entries", Ship(FAR, ours))
    yield polygons("decks 0 and 1 with plain entries", Ship(plain, plain))
    yield polygons("decks 0 and 1, each its own", Ship(plain, ours))
    yield polygons("packed for deck 2, on deck 1", Ship(FAR, stack(3, (0, packed(2, 1)))))
    across = Ship(stack(1, (0, packed(1, 0))), stack(2))
    yield polygons("from deck 0 to deck 1", across)
    yield polygons("the same, deck 1 named", across, deck=1)
    yield polygons("from deck 1 to deck 0", Ship(stack(1), stack(1, (0, 0))))
    yield polygons("back to deck 0 by a plain entry of deck 1", Ship(stack(2, (0, packed(1, 0))), stack(1, (0, 1))))
    three = Ship(stack(1, (0, packed(1, 0))), stack(1, (0, packed(2, 0))), stack(1))
    yield polygons("through three decks", three)
    yield polygons("through three decks, the middle one blocked", three, closed=[1])
    yield polygons("through three decks, the first one blocked", three, closed=[0])
    yield polygons("through three decks, in step 1", three, -0.5, 2.0)


def candidate_output_cases():
    """Five are found, and two are left: 0 and 3."""
    ship = Ship(stack(5, (0, 2), (2, 1), (1, 4)), FAR)
    for room in (0, 4, 7):
        yield polygons("five found, two left, output of %d bytes" % room, ship, no=20, room=room)
    for room in (8, 9, 19, 20, 21, 40):
        yield polygons("five found, two left, output of %d bytes" % room, ship, room=room)
    for work in (0, 23):
        yield polygons("six polygons, work of %d bytes" % work, ship, no=20, work=work)
        yield polygons("six polygons, output of 8 bytes, work of %d" % work, ship, no=20, room=8, work=work)
    for work in (24, 25, 100):
        yield polygons("six polygons, work of %d bytes" % work, ship, work=work)
        yield polygons("six polygons, output of 8 bytes, work of %d" % work, ship, room=8, work=work)
    yield polygons("output of 7 bytes, work of 100", ship, no=20, room=7, work=100)
    yield polygons("output of 7 bytes, work of 23", ship, no=20, room=7, work=23)
    apart = Ship(stack(3))
    yield polygons("three found, three left, output of 11 bytes", apart, no=20, room=11)
    yield polygons("three found, three left, output of 12 bytes", apart, room=12)
    chain = Ship(stack(4, (0, 3), (3, 2), (2, 1)))
    for room, no in ((0, 20), (3, 20), (4, None), (15, None)):
        yield polygons("four found, one left, output of %d bytes" % room, chain, no=no, room=room)


def candidate_question_cases():
    for length in (0, 31, 33):
        yield polygons("blocked set of %d bytes" % length, EXAMPLE, no=14, closed=bytes(length))
    yield polygons("x of 1,000,000", EXAMPLE, MILLION, 1.0)
    for x in (-ABOVE, INFINITY):
        yield polygons("x of %s" % x, EXAMPLE, x, 1.0, no=16)
        yield polygons("y of %s" % x, EXAMPLE, 1.0, x, no=16)
    yield polygons("4 and 14", put(EXAMPLE_SHIP, 8, 0), no=4, closed=b"")
    yield polygons("14 and 16", EXAMPLE, INFINITY, no=14, closed=bytes(31))
    yield polygons("14 and 20", EXAMPLE, no=14, closed=bytes(31), room=0, work=0)
    yield polygons("16 and 20", EXAMPLE, 1.0, ABOVE, no=16, room=0, work=0)
    yield polygons("16 and a deck that is not there", EXAMPLE, 1.0, ABOVE, deck=1, no=16)


# ---- islands


def island_cases():
    yield islands("document 01: only 1 names others, 0 and 2", Ship(dots([], [0, 2], [])))
    for name, lists in [
        ("one polygon", [[]]),
        ("no entries", [[], [], []]),
        ("all ones", [[ALL_ONES], [ALL_ONES, ALL_ONES], []]),
        ("each names itself", [[0], [1], [2]]),
        ("a chain up", [[1], [2], [3], []]),
        ("a chain down", [[], [0], [1], [2]]),
        ("a cycle", [[1], [2], [0]]),
        ("a cycle down", [[2], [0], [1]]),
        ("two cycles", [[2], [3], [0], [1]]),
        ("a cycle that names a lower one", [[], [2], [1, 0]]),
        ("a cycle that a lower one names", [[2], [2], [1]]),
        ("the last names all", [[], [], [], [0, 1, 2, 3]]),
        ("the first names all", [[0, 1, 2, 3], [], [], []]),
        ("through a higher one", [[3], [], [], [1]]),
        ("back and forth over five", [[4], [2], [3], [1], [2]]),
        ("the same entry twice", [[1, 1], [1, 0, 0]]),
        ("all ones among others", [[ALL_ONES, 2], [ALL_ONES], [ALL_ONES, 0, ALL_ONES]]),
    ]:
        yield islands(name, Ship(dots(*lists)))
    yield islands("a ring of 40, each names the thirteenth after it", Ship(dots(*[[(k + 13) % 40] for k in range(40)])))
    yield islands("a chain of 40 down", Ship(dots(*[[max(k - 1, 0)] for k in range(40)])))
    grid = seats.deck("0 0 2 0 4 0 0 2 2 2 4 2 9 9 9 8", [[0, 1, 4, 3], [1, 2, 5, 4], [6, 7, 7]])
    yield islands("vertices that polygons share", Ship(listed(grid, [0], [0, 1], [1], [0], [1, 0], [1], [2], [ALL_ONES])))
    yield islands("one names the other by its last vertex", Ship(listed(grid, [], [], [], [], [], [2])))
    yield islands("the other way round", Ship(listed(grid, [], [], [], [], [], [], [], [1])))


def island_deck_cases():
    ship = Ship(dots([], [0, 2], []), dots([1], []), dots([packed(2, 0)]))
    yield islands("deck 0 of 3", ship, deck=0)
    yield islands("deck 1 of 3: an entry of deck 2 is not asked for", ship, deck=1)
    yield islands("deck 2 of 3: its entry is packed", ship, deck=2, no=19)
    for d in (3, 256, ALL_ONES - 1, ALL_ONES):
        yield islands("deck %d named" % d, ship, deck=d, no=17)
    yield islands("deck 1 of 1 named", EXAMPLE, deck=1, no=17)
    yield islands("the example", EXAMPLE)


def entry_range_cases():
    """Question 19."""
    for entry in (2, 3, packed(1, 0), ALL_ONES - 1, ALL_ONES):
        no = None if entry in (2, ALL_ONES) else 19
        yield islands("%08x of 3 polygons at a used vertex" % entry, Ship(dots([0], [1, entry], [])), no=no)
    for entry in (3, ALL_ONES - 1):
        loose = listed(seats.deck("0 0 1 0 2 0 3 0", [[0], [2], [2]]), [2], [0, entry], [1], [entry])
        yield islands("%08x of 3 polygons at vertices that none uses" % entry, Ship(loose))
    late = listed(seats.deck(CORNERS, [[0, 1, 2], [0, 2, 3]]), [0], [1], [0], [1, 2])
    yield islands("out of range at the last vertex of the last polygon", Ship(late), no=19)
    first = listed(seats.deck(CORNERS, [[0, 1, 2], [0, 2, 3]]), [2], [1], [0], [1])
    yield islands("out of range at the first vertex", Ship(first), no=19)


def island_output_cases():
    ship = Ship(dots([], [0, 2], []), dots([]), dots(*[[]] * 6))
    for room in (0, 11):
        yield islands("output of %d bytes" % room, ship, no=20, room=room)
    for room in (12, 13, 40):
        yield islands("output of %d bytes" % room, ship, room=room)
    for work in (0, 11):
        yield islands("work of %d bytes" % work, ship, no=20, work=work)
    for work in (12, 13, 40):
        yield islands("work of %d bytes" % work, ship, work=work)
    yield islands("the deck's own polygons count, work of 4 bytes", ship, deck=1, work=4)
    yield islands("the deck's own polygons count, work of 23 bytes", ship, deck=2, no=20, work=23)
    yield islands("output of 11 bytes, work of 11", ship, no=20, room=11, work=11)
    bad = Ship(dots([7]))
    yield islands("17 and 19", bad, deck=1, no=17)
    yield islands("17 and 20", ship, deck=3, no=17, room=0, work=0)
    yield islands("19 and 20", bad, no=19, room=0, work=0)
    yield islands("13 and 17", put(EXAMPLE_SHIP, 164, 4), deck=1, no=13)  # C is at 164


# ---- stitch points


def stitch_cases():
    yield stitches("one deck", EXAMPLE)
    yield stitches("two decks of the same vertices", Ship(SQUARE, SQUARE))
    yield stitches("no vertex in common", Ship(SQUARE, FAR))
    zeros = Ship(seats.deck("-0.0 0 0 -0.0"), seats.deck("0 0 -0.0 -0.0 0 1"))
    yield stitches("-0 equals 0, and the lower deck's bits are written", zeros)
    yield stitches("the same, the other way round", Ship(*zeros.plan[::-1]))
    yield stitches("repeats are kept", Ship(seats.deck("1 2 3 4 1 2"), seats.deck("1 2 1 2 3 4")))
    yield stitches("repeats in a deck alone", Ship(seats.deck("1 2 1 2"), FAR))
    yield stitches("x alone in common, y alone in common", Ship(seats.deck("1 2"), seats.deck("1 3 0 2")))
    yield stitches("x and y in each other's place", Ship(seats.deck("1 2"), seats.deck("2 1")))
    yield stitches("the next float", Ship(seats.deck("1 2"), seats.deck("1 2.0000002384185791 1.0000001192092896 2 1 2")))
    yield stitches("three decks", Ship(seats.deck("1 2 3 4 5 6"), seats.deck("5 6 3 4"), seats.deck("3 4 1 2 5 6")))
    yield stitches("four decks, the first and the last", Ship(seats.deck("1 2"), FAR, SQUARE, seats.deck("1 2")))
    moved = dict(SQUARE, offset=(4.0, 0.0))
    yield stitches("offsets are ignored", Ship(SQUARE, moved))
    yield stitches("an offset that would make them meet", Ship(seats.deck("4 0"), dict(seats.deck("0 0"), offset=(4.0, 0.0))))
    unused = seats.deck("9 9 1 2", [[0]])
    yield stitches("a vertex that no polygon uses", Ship(unused, seats.deck("1 2")))
    yield stitches("the ends of the range", Ship(*[seats.deck("1000000 -1000000 1e-45 -1e-45")] * 2))


def stitch_output_cases():
    ship = Ship(SQUARE, seats.deck("4 4 0 0"), FAR)
    for room in (0, 16, 31):
        yield stitches("two points, output of %d bytes" % room, ship, no=20, room=room)
    for room in (32, 33, 48):
        yield stitches("two points, output of %d bytes" % room, ship, room=room)
    yield stitches("no point, output of 0 bytes", EXAMPLE, room=0)
    yield stitches("no point, output of 15 bytes", EXAMPLE, room=15)


# ---- removal

EDGE_LIST = [ALL_ONES, packed(1, 2), 5]  # document 01, 'Edges of the behaviour', of deck 1


def several(heights=()):
    """Two decks whose lists name both, some of them empty."""
    first = listed(dict(BARE, heights=list(heights)), [0, packed(1, 0)], [], [ALL_ONES, packed(1, 1), 2, packed(0, 7)], [packed(2, 0)])
    second = listed(dict(BARE, heights=list(heights)), EDGE_LIST, [packed(1, 1), packed(0, 0), ALL_ONES, ALL_ONES], [], [packed(1, 0)] * 2)
    return first, second


def every_removal(name, ship):
    yield removal(name, ship)
    for t in range(len(ship.plan) + 1):
        yield removal_to(name, ship, t)


def removal_cases():
    edge = Ship(BARE, listed(BARE, EDGE_LIST))
    yield removal("document 01's list", edge)
    yield removal("document 01's list, a second time", removed(edge))
    yield removal("document 01's list, a third time", removed(removed(edge)))
    yield removal_to("document 01's list", edge, 1)
    yield removal_to("document 01's list, a second time", removed(edge, 1), 1)
    yield removal_to("document 01's list", edge, 0)
    yield removal_to("document 01's list, a second time", removed(edge, 0), 0)
    yield removal("the example: nothing goes", EXAMPLE)
    yield removal("no entries", Ship(BARE, BARE))
    yield removal("one vertex", Ship(dots([packed(0, 3), packed(1, 3), ALL_ONES])))
    two = Ship(*several())
    yield from every_removal("two decks", two)
    yield removal("two decks, a second time", removed(two))
    yield removal("to deck 0 first, then all", removed(two, 0))
    yield removal_to("all first", removed(two), 1)
    tall = Ship(*several([1.0, -0.0, 3.0, 1e-45]), dict(FAR, offset=(-0.0, 2.5)), reach=-0.0, steps=16)
    yield from every_removal("three decks, heights, an offset", tall)
    yield removal("three decks, a second time", removed(tall))
    lists = [[packed(2, 0), packed(0, 1)], [packed(1, 1)], [2, packed(1, 3), packed(2, 4), ALL_ONES], [packed(3, 0)]]
    shared = dict(SQUARE, polygons=[[0, 1, 2], [0, 2, 3], [3]])
    yield from every_removal("three decks of the same lists", Ship(*[listed(shared, *lists)] * 3))
    gone = listed(BARE, [packed(1, 0)] * 3, [packed(1, 0)], [], [packed(1, 9)])
    yield removal("every entry of deck 0 goes", Ship(gone, BARE))
    yield removal_to("every entry of deck 0 goes", Ship(gone, BARE), 1)
    stay = listed(BARE, [packed(1, 0)] * 3, [packed(1, 0xFFFFFF)], [], [packed(1, 9)])
    yield removal("every entry of deck 1 stays", Ship(BARE, stay))


def layer_cases():
    """All ones stays, also where its upper byte is the layer; a layer without a deck is allowed."""
    high = [ALL_ONES, packed(255, 3), ALL_ONES - 1, packed(254, 3), 3, packed(7, 1)]
    two = Ship(listed(BARE, high, [packed(1, 1)]), listed(BARE, [], high, [packed(1, 1)]))
    for t in (0, 1, 2, 7, 254, 255):
        yield removal_to("two decks with entries of high decks", two, t)
    yield removal("two decks with entries of high decks", two)
    most = Ship(dots(high, [5]), *[dots([])] * 254, dots(high, [packed(255, 0)]))
    yield removal_to("256 decks", most, 255)


def removal_output_cases():
    two = Ship(*several())
    full = len(two.file)
    size = len(removed(two).file)
    part = len(removed(two, 1).file)
    for room in (0, size - 1):
        yield removal("%d bytes, output of %d" % (size, room), two, no=20, room=room)
    for room in (size, size + 1, full):
        yield removal("%d bytes, output of %d" % (size, room), two, room=room)
    yield removal_to("%d bytes, output of %d" % (part, part - 1), two, 1, no=20, room=part - 1)
    yield removal_to("%d bytes, output of %d" % (part, part + 3), two, 1, room=part + 3)
    yield removal_to("nothing goes, output one byte short", two, 9, no=20, room=full - 1)


# ---- towards a point

LINE = Ship(BARE, steps=4)  # a reach of 0.5, and the square from (0, 0) to (4, 4)


def step_cases():
    yield towards("step 0", LINE, 1.0, 1.0, (9.0, 7.0))
    yield towards("step 0 on an edge", LINE, 0.0, 2.0, (-5.0, 2.0))
    for name, x, y, to in [
        ("to the right", -0.5, 2.0, (1.5, 2.0)),
        ("to the left", 4.5, 2.0, (0.5, 2.0)),
        ("up", 2.0, -0.5, (2.0, 0.5)),
        ("down", 2.0, 4.5, (2.0, -3.5)),
    ]:
        yield towards("step 1, " + name, LINE, x, y, to)
    yield towards("away from the square", LINE, -0.5, 2.0, (-2.5, 2.0))
    yield towards("step 3, on the edge", LINE, -1.5, 2.0, (0.5, 2.0))
    yield towards("the same, S 3", Ship(BARE, steps=3), -1.5, 2.0, (0.5, 2.0))
    yield towards("past the point", LINE, -1.25, 2.0, (-1.0, 2.0))
    yield towards("over a corner, between two steps", Ship(BARE, reach=1.0, steps=9), -0.5, 0.25, (0.25, -0.5))
    for x, y, to in [(-0.3, -0.4, (0.0, 0.0)), (-1.0, 0.3, (2.1, 1.7)), (5.0, 5.1, (1.1, 0.7)), (0.1, -0.7, (0.2, 3.3))]:
        yield towards("a length that is rounded, (%s, %s)" % (x, y), Ship(BARE, reach=0.7, steps=9), x, y, to)
    yield towards("S 16, step 15", Ship(BARE, steps=16), -7.5, 1.0, (0.5, 1.0))


def length_cases():
    """Next floats far out, and points whose squared distance is subnormal, the least float above 0, or 0."""
    end = seats.deck("999997 999997 1000000 999997 1000000 1000000 999997 1000000")
    yield towards("next floats far out", Ship(end, reach=0.7, steps=9), MILLION, 999996.0, (MILLION, 999996.0625))
    right = Ship(seats.deck("0.25 -2 9 -2 9 2 0.25 2"), steps=6)
    half = 2.0**-75  # its square is half of the least float: a tie, to 0
    above = struct.unpack("<f", u32(bits(half) + 1))[0]
    for x in (1e-18, 1e-20, 1e-22, 3e-23, above):
        yield towards("points apart by %s" % x, right, 0.0, 0.0, (x, 0.0))
    for name, p, to in [
        ("a part whose square is 0", (0.0, 0.0), (1e-22, half)),
        ("both parts just above", (0.0, 0.0), (above, -above)),
        ("on both sides of 0", (-2e-23, 3e-23), (2e-23, -1e-23)),
    ]:
        yield towards("nearly equal points, " + name, right, *p, to)
    for name, p, to in [
        ("apart by 2^-75", (0.0, 0.0), (half, 0.0)),
        ("apart by 2^-75 in both parts", (0.0, 0.0), (-half, half)),
        ("equal", (1.0, 1.0), (1.0, 1.0)),
        ("0 and -0", (0.0, -0.0), (-0.0, 0.0)),
        ("equal, far out", (MILLION, -MILLION), (MILLION, -MILLION)),
    ]:
        yield towards("points " + name, right, *p, to, no=22)


def reach_cases():
    for reach in (0.0, -0.0):
        for x, y in ((-0.0, -0.0), (-0.5, 2.0)):
            yield towards("reach %s from (%s, %s)" % (reach, x, y), Ship(BARE, reach=reach, steps=3), x, y, (3.5, 2.5))


def towards_deck_cases():
    two = Ship(BARE, dict(BARE, offset=(2.0, 0.0)))
    yield towards("both decks in step 1: the lower", two, 3.0, -0.5, (3.0, 0.5))
    yield towards("deck 1 in step 0, deck 0 in step 1", two, 4.5, 1.0, (2.5, 1.0))
    yield towards("deck 1 alone", two, 6.5, 1.0, (4.5, 1.0))
    for d in (0, 1):
        yield towards("deck %d named, both are there" % d, two, 3.0, -0.5, (3.0, 0.5), deck=d)
        yield towards("deck %d named, only deck 1 is there" % d, two, 6.5, 1.0, (4.5, 1.0), deck=d)
    moved = Ship(dict(BARE, offset=(0.1, -0.3)), dict(BARE, offset=(-900000.0, 0.7)), reach=0.3, steps=5)
    for x, y, to in [(0.0, 0.0, (1.0, 1.0)), (-0.7, 1.1, (0.9, 1.7)), (-900000.3, 1.0, (0.0, 0.0))]:
        yield towards("offsets that round, (%s, %s)" % (x, y), moved, x, y, to)
    yield towards("the point to go towards is not moved", Ship(dict(BARE, offset=(10.0, 0.0))), 9.5, 2.0, (11.5, 2.0))


def towards_polygon_cases():
    yield towards("three polygons at the sample: the lowest", Ship(stack(3)), -0.5, 2.0, (1.5, 2.0))
    yield towards("the second polygon in step 1, the first in step 2", Ship(boxes([(1.0, 0.0), (0.5, 0.0)], 0.125), steps=4), 0.0, 0.0, (1.0, 0.0))
    yield towards("a polygon of two vertices", Ship(seats.deck("0 0 4 0"), steps=4), 9.0, -1.0, (9.0, 1.0))


def towards_question_cases():
    for x in (-ABOVE, INFINITY):
        yield towards("x of %s" % x, EXAMPLE, x, 1.0, no=16)
        yield towards("y of %s" % x, EXAMPLE, 1.0, x, no=16)
        yield towards("towards an x of %s" % x, EXAMPLE, to=(x, 1.0), no=16)
        yield towards("towards a y of %s" % x, EXAMPLE, to=(1.0, x), no=16)
    yield towards("1,000,000 in all four", EXAMPLE, MILLION, -MILLION, (-MILLION, MILLION))
    for d in (1, ALL_ONES - 1):
        yield towards("deck %d named" % d, EXAMPLE, deck=d, no=17)
    yield towards("16 of the point and 17", EXAMPLE, 1.0, ABOVE, deck=1, no=16)
    yield towards("16 of the other point and 17", EXAMPLE, to=(1.0, ABOVE), deck=1, no=16)
    yield towards("16 and 22", EXAMPLE, ABOVE, 1.0, (ABOVE, 1.0), no=16)
    yield towards("16 and 20", EXAMPLE, to=(ABOVE, 1.0), no=16, room=0)
    yield towards("17 and 22", EXAMPLE, to=(1.0, 1.0), deck=1, no=17)
    yield towards("17 and 20", EXAMPLE, deck=1, no=17, room=0)
    yield towards("22 and 20", EXAMPLE, to=(1.0, 1.0), no=22, room=0)
    yield towards("13 and 22", ship_cases.ship_of(ship_cases.square_with(ship_cases.corner_not_there)), to=(1.0, 1.0), no=13)
    for room in (0, 11):
        yield towards("output of %d bytes" % room, EXAMPLE, no=20, room=room)
    for room in (12, 13):
        yield towards("output of %d bytes" % room, EXAMPLE, room=room)
    for room in (0, 7):
        yield towards("none, output of %d bytes" % room, EXAMPLE, 9.0, 9.0, (10.0, 9.0), room=room)


# ---- damaged files

GOOD = deck_blocks(SQUARE)
DAMAGED = [("no bytes", 1, b""), ("S 17", 4, put(EXAMPLE_SHIP, 8, 17)), ("the last byte not there", 6, EXAMPLE_SHIP[:-1])]
DAMAGED += [("deck 1 fails %d" % no, no, ship_cases.ship_of(GOOD + ship_cases.square_with(fault))) for no, fault in ship_cases.FAULTS[4:]]


def damaged_cases():
    for call in CALLS:
        for name, no, file in DAMAGED:
            yield call(name, file, no=no)
    for call in CALLS[1:]:
        yield call("no bytes and an output of 0", b"", no=1, room=0)
    for call in (polygons, islands):
        yield call("no bytes, an output of 0 and work of 0", b"", no=1, room=0, work=0)
    for call in PLACED:
        yield call("2 and 16", put(EXAMPLE_SHIP, 0, 257), INFINITY, no=2)


# ---- a hull with no decks


def no_deck_file_cases():
    """Document 02, point 5: the file ends with its header."""
    for call in CALLS:
        for name, no, file in REFUSED_HULLS:
            yield call(name, file, no=no)
    for call in PLACED:
        yield call("L 0, 11 bytes, deck 0 named", SHORT_HULL, deck=0, no=1)
        yield call("L 0, 13 bytes, deck 0 named", LONG_HULL, deck=0, no=6)
        yield call("L 0, 6 and 16", LONG_HULL, INFINITY, no=6)
    for call in CALLS[1:]:
        yield call("L 0, 13 bytes, output of 0 bytes", LONG_HULL, no=6, room=0)
    for call in (polygons, islands):
        yield call("L 0, 13 bytes, work of 0 bytes", LONG_HULL, no=6, work=0)
    yield polygons("L 0, 6 and 14", LONG_HULL, no=6, closed=bytes(31))
    yield polygons("L 0, 13 bytes, a polygon named", LONG_HULL, polygon=0, no=6)
    yield towards("L 0, 6 and 22", LONG_HULL, to=(1.0, 1.0), no=6)


def no_deck_place_cases():
    """Nothing is found, whatever deck is named."""
    for call in (location, layer):
        yield call("L 0", HULL)
        for d in (0, 1, 255, 256, ALL_ONES - 1):
            yield call("L 0, deck %d named" % d, HULL, deck=d)
        yield call("L 0, reach 1,000, far out", Ship(reach=1000.0, steps=16), MILLION, -MILLION)
        yield call("L 0, x of %s" % ABOVE, HULL, ABOVE, no=16)
        yield call("L 0, 16 and a deck named", HULL, 1.0, -INFINITY, deck=0, no=16)
    for room in (3, 4):
        yield layer("L 0, output of %d bytes" % room, HULL, room=room)
    yield layer("L 0, deck 0 named, output of 4 bytes", HULL, deck=0, room=4)
    yield layer("L 0, 16 and an output of 0 bytes", HULL, ABOVE, no=16, room=0)


def no_deck_candidate_cases():
    """Nothing is found, whatever deck is named; there is no polygon, so that no work is needed."""
    yield polygons("L 0", HULL)
    for d in (0, 1, 255, 256, ALL_ONES - 1):
        yield polygons("L 0, deck %d named" % d, HULL, deck=d)
    yield polygons("L 0, deck 0 named and blocked", HULL, deck=0, closed=[0])
    yield polygons("L 0, every deck blocked", HULL, closed=range(256))
    yield polygons("L 0, S 16, far out", Ship(steps=16), MILLION, -MILLION)
    yield polygons("L 0, output of 7 bytes, work of 9", HULL, room=7, work=9)
    yield polygons("L 0, deck 0 named, output of 4 bytes, work of 1", HULL, deck=0, room=4, work=1)
    for polygon in (0, 1, packed(1, 0), packed(255, 5), ALL_ONES - 1):
        yield polygons("L 0, %08x named" % polygon, HULL, polygon=polygon)
    yield polygons("L 0, a polygon and a deck named", HULL, deck=0, polygon=5)
    yield polygons("L 0, a polygon named, every deck blocked", HULL, polygon=5, closed=range(256))
    for room, work, no in [(0, 0, 20), (3, 0, 20), (3, 40, 20), (4, 0, None), (4, 1, None), (5, 40, None)]:
        yield polygons("L 0, a polygon named, output of %d bytes, work of %d" % (room, work), HULL, polygon=5, no=no, room=room, work=work)
    for length in (0, 31, 33):
        yield polygons("L 0, blocked set of %d bytes" % length, HULL, no=14, closed=bytes(length))
    yield polygons("L 0, y of %s" % -ABOVE, HULL, 1.0, -ABOVE, no=16)
    yield polygons("L 0, 14 and 16", HULL, INFINITY, no=14, closed=bytes(31))
    yield polygons("L 0, 14 and a deck named", HULL, deck=0, no=14, closed=bytes(31))
    yield polygons("L 0, 16 and a deck named", HULL, INFINITY, deck=0, no=16)
    yield polygons("L 0, 14 and 20", HULL, polygon=5, no=14, closed=bytes(33), room=0)
    yield polygons("L 0, 16 and 20", HULL, ABOVE, polygon=5, no=16, room=0)


def no_deck_island_cases():
    """There is no deck to be asked for."""
    for d in (0, 1, 255, 256, ALL_ONES - 1, ALL_ONES):
        yield islands("L 0, deck %d" % d, HULL, deck=d, no=17)
    for room, work in [(0, 0), (0, 8), (8, 0)]:
        yield islands("L 0, 17 and an output of %d bytes, work of %d" % (room, work), HULL, no=17, room=room, work=work)


def no_deck_stitch_cases():
    """No points, and a removal that has the header to write."""
    for name, ship in [("L 0", HULL), ("L 0, S 16, reach -0", Ship(reach=-0.0, steps=16))]:
        yield stitches(name, ship)
        yield removal(name, ship)
        for t in (0, 1, 255):
            yield removal_to(name, ship, t)
    for room in (15, 16):
        yield stitches("L 0, output of %d bytes" % room, HULL, room=room)
    for room, no in [(0, 20), (11, 20), (12, None), (13, None)]:
        yield removal("L 0, output of %d bytes" % room, HULL, no=no, room=room)
        yield removal_to("L 0, output of %d bytes" % room, HULL, 0, no=no, room=room)
    yield removal("L 0, a second time", removed(HULL))
    yield removal_to("L 0, a second time", removed(HULL, 255), 255)


def no_deck_towards_cases():
    for room in (0, 7, 12):
        yield towards("L 0, output of %d bytes" % room, HULL, room=room)
    yield towards("L 0, S 16, 1,000,000 in all four", Ship(steps=16), MILLION, -MILLION, (-MILLION, MILLION))
    for d in (0, 1, 255, 256, ALL_ONES - 1):
        yield towards("L 0, deck %d named" % d, HULL, deck=d, no=17)
    yield towards("L 0, equal points", HULL, to=(1.0, 1.0), no=22)
    yield towards("L 0, towards an x of %s" % ABOVE, HULL, to=(ABOVE, 1.0), no=16)
    yield towards("L 0, 16 of the point and 17", HULL, ABOVE, 1.0, deck=0, no=16)
    yield towards("L 0, 16 of the other point and 17", HULL, to=(1.0, -INFINITY), deck=0, no=16)
    yield towards("L 0, 16 and 22", HULL, ABOVE, 1.0, (ABOVE, 1.0), no=16)
    yield towards("L 0, 17 and 22", HULL, to=(1.0, 1.0), deck=0, no=17)
    yield towards("L 0, 17 and 20", HULL, deck=0, no=17, room=0)
    yield towards("L 0, 22 and an output of 0 bytes", HULL, to=(1.0, 1.0), no=22, room=0)


# ---- ships from a fixed seed


def random_cases(seed=1873, ships=4, relations=8, ways=6):
    draw = random.Random(seed).getrandbits

    def below(n):
        return draw(16) % n

    def entry(d, decks, most):
        return [ALL_ONES, below(most), packed(d, below(most)), packed(below(decks), below(most)), packed(d, below(most))][below(5)]

    def any_deck(d, decks, plain):
        """Boxes and triangles over nine vertices of a grid, in either direction, so that they overlap and share."""
        most = 1 + below(5)
        step = 1.0 + below(3)
        grid = [(step * x - 1, step * y - 1 + below(8) / 8.0) for y in range(3) for x in range(3)]
        shapes = [[0, 1, 4, 3], [1, 2, 5, 4], [3, 4, 7, 6], [4, 5, 8, 7], [0, 2, 8, 6], [0, 1, 4], [4, 8, 7], [4], [3, 5], [0, 8, 6]]
        some = [shapes[below(10)] for _ in range(most)]
        some = [one[::-1] if below(6) == 0 else one for one in some]
        lists = [[([ALL_ONES, below(most)][draw(1)] if plain else entry(d, decks, most)) for _ in range(below(4))] for _ in grid]
        vertices = [(x, y, neighbours) for (x, y), neighbours in zip(grid, lists)]
        heights = [below(32) / 4.0 for _ in grid] if draw(1) else []
        offset = (0.0, 0.0) if draw(1) else (below(16) / 8.0 - 1, below(16) / 8.0 - 1)
        return {"offset": offset, "vertices": vertices, "polygons": some, "heights": heights}

    def any_ship(plain=False):
        decks = 1 + below(3)
        return Ship(*[any_deck(d, decks, plain) for d in range(decks)], reach=below(16) / 8.0, steps=1 + below(3))

    def coordinate():
        return below(64) / 8.0 - 2

    for k in range(ships):
        ship, name = any_ship(), "ship %d of the seed" % k
        decks = len(ship.plan)
        for call in (location, layer, polygons):
            yield call(name, ship, coordinate(), coordinate(), deck=below(decks) if below(4) == 0 else ALL_ONES)
        yield polygons(name, ship, coordinate(), coordinate(), closed=[below(decks)], room=4 * below(3), work=4 * below(20), no=ANY)
        yield islands(name, any_ship(plain=True))
        yield islands(name, ship, deck=below(decks), no=ANY)
        yield stitches(name, ship)
        yield removal(name, ship)
        yield removal_to(name, ship, below(decks + 1))
    for k in range(relations):
        n, first = 3 + below(7), 1 + below(2)
        lists = [[packed(int(b >= first), b if b < first else b - first) for b in range(n) if below(n) == 0] for _ in range(n)]
        ship = Ship(dots(*lists[:first]), dots(*lists[first:]))
        yield polygons("relation %d of the seed" % k, ship)
        yield polygons("relation %d of the seed, output of 8 bytes" % k, ship, room=8, no=ANY)
    for k in range(ways):
        ship, to = any_ship(), (coordinate(), coordinate())
        name = "way %d of the seed" % k
        yield towards(name, ship, coordinate(), coordinate() - 3, to, deck=below(len(ship.plan)) if below(4) == 0 else ALL_ONES, no=ANY)


# ---- the two files

GROUPS = [probe_cases, located_deck_cases, located_reach_cases, layer_output_cases, located_size_cases]
GROUPS += [named_polygon_cases, candidate_deck_cases, chain_cases, touch_cases, stitched_cases, candidate_output_cases]
GROUPS += [candidate_question_cases, island_cases, island_deck_cases, entry_range_cases, island_output_cases]
GROUPS += [stitch_cases, stitch_output_cases, removal_cases, layer_cases, removal_output_cases]
GROUPS += [step_cases, length_cases, reach_cases, towards_deck_cases, towards_polygon_cases, towards_question_cases, damaged_cases]
GROUPS += [no_deck_file_cases, no_deck_place_cases, no_deck_candidate_cases, no_deck_island_cases, no_deck_stitch_cases]
GROUPS += [no_deck_towards_cases, random_cases]


def cases():
    return [case for group in GROUPS for case in group()]


def files(some):
    """What the two files hold."""
    stdin = b"".join(case for _, _, case in some) + u32(ord("S"), 1)
    assert len(stdin) <= MOST_BYTES, len(stdin)
    answers = [line for _, answer, _ in some for line in answer] + ["bad"]
    return {"stdin": stdin, "stdout": "".join(line + "\n" for line in answers).encode("ascii")}


def write():
    stored_cases.write("other_cases", files(cases()))


def check():
    some = cases()
    return stored_cases.check("other_cases", files(some), len(some))


def show():
    for k, (name, answer, case) in enumerate(cases()):
        print("%d: %s (%d bytes): %s" % (k + 1, name, len(case), answer[0]))


if __name__ == "__main__":
    stored_cases.run(__doc__, write=write, check=check, list=show)
