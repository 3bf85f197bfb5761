#!/usr/bin/env python3
"""ship_cases.py write|check|list: ship files, each built to fail one question or to pass all, with their answers.

write: writes crates/ship_cases/stdin, the cases, and stdout, the answers.
check: exits with 1 where one of the two files differs from what is built here.
list: prints the cases, in the order of the lines of stdout.

A case is its name, its answer and the file's bytes. The answer is the number of the question that the file is built to fail
(document 01, section 2 and 'The questions, in order', and document 02, point 5), or PASSED. Nothing here asks a question of a file,
and nothing of the Rattle code takes part. Question 9 is left out: its no takes 16,777,216 polygons, a file of 128 MiB, and its
nearest yes one polygon less. The last line of stdout is `bad`, for a length with no file after it.
"""
import os
import struct
import sys

sys.path.insert(0, os.path.dirname(os.path.abspath(__file__)))
sys.dont_write_bytecode = True  # nothing is left beside the tools
import stored_cases
from ship_file import ALL_ONES, EXAMPLE_SHIP, NO_DECKS, SQUARE, bits, deck_blocks, file_of_blocks, put, ship_file, u32

PASSED = "passed"
MOST_BYTES = 250000  # they fit the program's array

NAN = 0x7FC00000
INFINITY = 0x7F800000
MINUS = 0x80000000

# ---- decks and files

V, N, P, C, H = range(5)
L_PLACE, REACH_PLACE, S_PLACE = 0, 4, 8

POINT = {"offset": (0.0, 0.0), "vertices": [(0.0, 0.0, [])], "polygons": [[0]], "heights": []}  # the smallest deck
TRIANGLES = dict(SQUARE, polygons=[[0, 1, 2], [0, 2, 3]])


def ship(*decks):
    return ship_file(decks, 0.5, 2)


def ship_of(blocks):
    return file_of_blocks(blocks, 0.5, 2)


def resized(deck, block, length):
    """The deck's blocks, one of them cut or filled up with zeros to a length."""
    blocks = deck_blocks(deck)
    blocks[block] = blocks[block][:length].ljust(length, b"\0")
    return blocks


def row(block, deck=0):
    """Where the offset and the length of a block stand."""
    return 12 + 40 * deck + 8 * block


def place(file, block, deck=0):
    return struct.unpack_from("<I", file, row(block, deck))[0]


def neighbour_list(file, vertex):
    """Where the start and the count of a vertex's list stand."""
    return place(file, V) + 16 + 16 * vertex


def corner_list(file, polygon):
    return place(file, P) + 8 * polygon


# ---- questions 1 to 6, of the file. The example: V at 52, N at 124, P at 156, C at 164, H at 180, 196 bytes in all.


def size_cases():
    yield "no bytes", 1, b""
    yield "1 byte", 1, b"\1"
    yield "11 bytes", 1, EXAMPLE_SHIP[:11]
    yield "11 bytes of zeros", 1, bytes(11)
    yield "12 bytes of zeros: no decks, a reach of 0, S 0", 4, bytes(12)
    yield "13 bytes of zeros", 4, bytes(13)
    yield "12 bytes: a header that passes, no table", 5, EXAMPLE_SHIP[:12]
    yield "the example of document 01", PASSED, EXAMPLE_SHIP


def deck_count_cases():
    yield "L 0", PASSED, NO_DECKS
    yield "L 1", PASSED, ship(POINT)
    yield "L 2", PASSED, ship(SQUARE, TRIANGLES)
    yield "L 256", PASSED, ship(*[POINT] * 256)
    yield "L 257", 2, ship(*[POINT] * 257)
    yield "L 256, 12 bytes", 5, put(EXAMPLE_SHIP[:12], L_PLACE, 256)
    yield "L 257, 12 bytes", 2, put(EXAMPLE_SHIP[:12], L_PLACE, 257)
    yield "L all ones", 2, put(EXAMPLE_SHIP, L_PLACE, ALL_ONES)
    yield "L 1 with the high byte first", 2, put(EXAMPLE_SHIP, L_PLACE, 1 << 24)


# Document 02, point 5: files of no decks that are refused, with the number. One that passes is its header alone.
SHORT_HULL = NO_DECKS[:11]
LONG_HULL = NO_DECKS + b"\0"
REFUSED_HULLS = [
    ("L 0, 11 bytes", 1, SHORT_HULL),
    ("L 0, 13 bytes", 6, LONG_HULL),
    ("L 0, a deck after the header", 6, put(EXAMPLE_SHIP, L_PLACE, 0)),
    ("L 0, 3 and 6", 3, put(LONG_HULL, REACH_PLACE, NAN)),
    ("L 0, 4 and 6", 4, put(LONG_HULL, S_PLACE, 17)),
]


def no_deck_cases():
    yield from REFUSED_HULLS
    yield "L 0, 16 bytes", 6, NO_DECKS + bytes(4)
    yield "L 0, 20 bytes: an offset of 20 and a length of 0", 6, NO_DECKS + u32(20, 0)
    yield "L 0, 52 bytes of which 40 are zeros", 6, NO_DECKS + bytes(40)
    yield "L 0, the table of a deck, every block empty", 6, put(ship_of([b""] * 5), L_PLACE, 0)
    yield "L 0, a table of blocks from 12 to the file's end", 6, NO_DECKS + u32(12, 40, 52, 0, 52, 0, 52, 0, 52, 0)
    yield "L 0, two decks after the header", 6, put(ship(SQUARE, TRIANGLES), L_PLACE, 0)
    yield "L 0, a damaged deck after the header", 6, put(EXAMPLE_SHIP, L_PLACE, 0)[:-1]
    yield "L 0, 1 and 3", 1, put(NO_DECKS, REACH_PLACE, NAN)[:11]
    yield "L 0, 1 and 4", 1, put(NO_DECKS, S_PLACE, 17)[:11]
    yield "L 0, 3 and 4", 3, put(NO_DECKS, REACH_PLACE, NAN, 17)


def reach_cases():
    for name, pattern, answer in [
        ("0", 0, PASSED),
        ("-0", MINUS, PASSED),
        ("the smallest above 0", 1, PASSED),
        ("the smallest negative", MINUS | 1, 3),
        ("-1", bits(-1.0), 3),
        ("1,000", bits(1000.0), PASSED),
        ("next above 1,000", bits(1000.0) + 1, 3),
        ("-1,000", bits(-1000.0), 3),
        ("infinity", INFINITY, 3),
        ("minus infinity", MINUS | INFINITY, 3),
        ("a NaN", NAN, 3),
        ("a NaN with a sign", MINUS | NAN, 3),
        ("the NaN next to infinity", INFINITY + 1, 3),
        ("all ones", ALL_ONES, 3),
    ]:
        yield "reach " + name, answer, put(EXAMPLE_SHIP, REACH_PLACE, pattern)
        yield "L 0, reach " + name, answer, put(NO_DECKS, REACH_PLACE, pattern)


def steps_cases():
    for steps, answer in [(0, 4), (1, PASSED), (16, PASSED), (17, 4), (257, 4), (1 << 24, 4), (ALL_ONES, 4)]:
        yield "S %d" % steps, answer, put(EXAMPLE_SHIP, S_PLACE, steps)
        yield "L 0, S %d" % steps, answer, put(NO_DECKS, S_PLACE, steps)


def table_cases():
    two = ship(SQUARE, SQUARE)
    most = ship(*[POINT] * 256)
    yield "L 1, one byte short of its table", 5, EXAMPLE_SHIP[:51]
    yield "L 1, the table alone", 6, EXAMPLE_SHIP[:52]
    yield "L 1, the table alone, every block empty", 7, ship_of([b""] * 5)
    yield "L 2, one byte short of its table", 5, two[:91]
    yield "L 2, the table alone", 6, two[:92]
    yield "L 2, the table of one deck", 5, two[:52]
    yield "L 256, one byte short of its table", 5, most[:10251]
    yield "L 256, the table alone", 6, most[:10252]


def block_cases():
    def at(block, *numbers):
        return put(EXAMPLE_SHIP, row(block), *numbers)

    two = ship(SQUARE, SQUARE)
    yield "V one byte early, its end in place", 6, at(V, 51, 73)
    yield "V one byte late, its end in place", 6, at(V, 53, 71)
    yield "V four bytes early, its length kept", 6, at(V, 48)
    yield "V at 0", 6, at(V, 0, 124)
    yield "a gap of a byte between N and P", 6, at(N, 124, 31)
    yield "a gap of an entry between N and P", 6, at(N, 124, 28)
    yield "N and P overlap by a byte", 6, at(N, 124, 33)
    yield "N and P overlap by an entry", 6, at(N, 124, 36)
    yield "C begins one entry early, its end in place", 6, at(C, 160, 20)
    yield "N before V", 6, at(V, 124, 32, 52, 72)
    yield "the sum for V is 2^32, N at 0", 6, at(V, 52, 2**32 - 52, 0, 156)
    yield "the sum for V is 51 above 2^32, N at 51", 6, at(V, 52, 2**32 - 1, 51, 105)
    yield "the sum for C is 2^32, H at 0", 6, at(C, 164, 2**32 - 164, 0, 196)
    yield "H of all ones", 6, at(H, 180, ALL_ONES)
    yield "one byte after the last block", 6, EXAMPLE_SHIP + b"\0"
    yield "four bytes after the last block", 6, EXAMPLE_SHIP + bytes(4)
    yield "the last block's last byte not there", 6, EXAMPLE_SHIP[:-1]
    yield "the last block's last entry not there", 6, EXAMPLE_SHIP[:-4]
    yield "the last length one more", 6, at(H, 180, 17)
    yield "the last length one less", 6, at(H, 180, 15)
    yield "two decks, a gap between them", 6, put(two, row(H), place(two, H), 12)
    yield "two decks, the second on the blocks of the first", 6, put(two, row(V, 1), *struct.unpack_from("<10I", two, row(V)))
    yield "blocks of no bytes, N and H", PASSED, ship(dict(SQUARE, vertices=[(1.0, 2.0, [])] * 4, heights=[]))


# ---- questions 7 to 13, of a deck


def whole_rows_cases():
    lengths = {V: [0, 4, 7, 16, 8 + 15, 8 + 17, 8 + 63, 8 + 65, 8 + 72]}
    lengths[N] = [1, 29, 30, 31, 33]
    lengths[P] = [1, 4, 7, 9, 12]
    lengths[C] = [1, 14, 15, 17]
    lengths[H] = [1, 2, 3, 15, 17]
    for block, some in lengths.items():
        for length in some:
            yield "%s of %d bytes" % ("VNPCH"[block], length), 7, ship_of(resized(SQUARE, block, length))
    yield "V of 8 + 16, N of 0, P of 8, C of 4, H of 4 bytes", PASSED, ship(dict(POINT, heights=[1.0]))


def empty_cases():
    yield "no vertex: V of 8 bytes", 8, ship_of(resized(POINT, V, 8))
    yield "no polygon", 8, ship(dict(SQUARE, polygons=[]))
    yield "no polygon, and entries in C", 8, ship_of(resized(SQUARE, P, 0))
    yield "no vertex and no polygon", 8, ship(dict(POINT, vertices=[], polygons=[]))
    yield "one vertex and one polygon", PASSED, ship(POINT)


def height_cases():
    for count, answer in [(0, PASSED), (1, 10), (3, 10), (4, PASSED), (5, 10), (8, 10)]:
        yield "4 vertices, %d heights" % count, answer, ship(dict(SQUARE, heights=[1.0] * count))
    yield "one vertex, 2 heights", 10, ship(dict(POINT, heights=[1.0] * 2))
    yield "1 and 4 vertices, 1 and 4 heights", PASSED, ship(dict(POINT, heights=[1.0]), SQUARE)
    yield "1 and 4 vertices, 4 and 1 heights", 10, ship(dict(POINT, heights=[1.0] * 4), dict(SQUARE, heights=[1.0]))


def float_cases():
    million = bits(1e6)
    places = [("offset x", place(EXAMPLE_SHIP, V)), ("offset y", place(EXAMPLE_SHIP, V) + 4)]
    for vertex in (0, 3):
        at = place(EXAMPLE_SHIP, V) + 8 + 16 * vertex
        places += [("x of vertex %d" % vertex, at), ("y of vertex %d" % vertex, at + 4)]
        places += [("height %d" % vertex, place(EXAMPLE_SHIP, H) + 4 * vertex)]
    for where, at in places:
        for name, pattern, answer in [
            ("1,000,000", million, PASSED),
            ("next above 1,000,000", million + 1, 11),
            ("-1,000,000", MINUS | million, PASSED),
            ("next below -1,000,000", MINUS | million + 1, 11),
            ("a NaN", NAN, 11),
            ("infinity", INFINITY, 11),
            ("minus infinity", MINUS | INFINITY, 11),
        ]:
            yield "%s: %s" % (where, name), answer, put(EXAMPLE_SHIP, at, pattern)
    for name, pattern, answer in [
        ("-0", MINUS, PASSED),
        ("the smallest negative", MINUS | 1, PASSED),
        ("the NaN next to infinity", INFINITY + 1, 11),
        ("all ones", ALL_ONES, 11),
    ]:
        yield "height 1: " + name, answer, put(EXAMPLE_SHIP, place(EXAMPLE_SHIP, H) + 4, pattern)


def neighbour_list_cases():
    """N of the example has eight entries, two a vertex."""

    def lists(pairs):
        file = EXAMPLE_SHIP
        for vertex, pair in pairs.items():
            file = put(file, neighbour_list(file, vertex), *pair)
        return file

    yield "N: the first list from entry 1", 12, lists({0: (1, 1)})
    yield "N: a list one late, its end in place", 12, lists({1: (3, 1)})
    yield "N: a list one early, its end in place", 12, lists({1: (1, 3)})
    yield "N: the last list one late, its end in place", 12, lists({3: (7, 1)})
    yield "N: the last list ends one short", 12, lists({3: (6, 1)})
    yield "N: the last list ends one past", 12, lists({3: (6, 3)})
    yield "N: two lists in each other's place", 12, lists({1: (4, 2), 2: (2, 2)})
    yield "N: a sum of 2^32, then from 0", 12, lists({0: (0, ALL_ONES), 1: (ALL_ONES, 1), 2: (0, 6)})
    yield "N: a sum above 2^32", 12, lists({0: (0, ALL_ONES), 1: (ALL_ONES, 5)})
    yield "N: an entry more than the lists have", 12, ship_of(resized(SQUARE, N, 36))
    yield "N: an entry fewer than the lists have", 12, ship_of(resized(SQUARE, N, 28))
    yield "N: no entry", 12, ship_of(resized(SQUARE, N, 0))
    yield "N: all entries in the first list", PASSED, lists({0: (0, 8), 1: (8, 0), 2: (8, 0), 3: (8, 0)})
    yield "N: all entries in the last list", PASSED, lists({0: (0, 0), 1: (0, 0), 2: (0, 0), 3: (0, 8)})
    yield "N: entries are read as they are", PASSED, put(EXAMPLE_SHIP, place(EXAMPLE_SHIP, N), 4, 0x03000007)


def corner_list_cases():
    """C of the triangles has six entries, three a polygon."""
    triangles = ship(TRIANGLES)

    def lists(first, second):
        return put(triangles, corner_list(triangles, 0), *first, *second)

    def polygons(*some):
        return ship(dict(SQUARE, polygons=some))

    yield "C: two lists end to end", PASSED, triangles
    yield "C: the first list from entry 1", 12, lists((1, 2), (3, 3))
    yield "C: the second list one late, its end in place", 12, lists((0, 3), (4, 2))
    yield "C: the second list one early, its end in place", 12, lists((0, 3), (2, 4))
    yield "C: the last list ends one short", 12, lists((0, 3), (3, 2))
    yield "C: the last list ends one past", 12, lists((0, 3), (3, 4))
    yield "C: two lists in each other's place", 12, lists((3, 3), (0, 3))
    yield "C: an entry more than the lists have", 12, ship_of(resized(TRIANGLES, C, 28))
    yield "C: an entry fewer than the lists have", 12, ship_of(resized(TRIANGLES, C, 20))
    yield "the only polygon of 0 vertices", 12, polygons([])
    yield "the first polygon of 0 vertices", 12, polygons([], [0, 1, 2, 3])
    yield "the last polygon of 0 vertices", 12, polygons([0, 1, 2, 3], [])
    yield "polygons of 1, 2 and 1 vertices", PASSED, polygons([0], [1, 2], [3])
    yield "a polygon of 4,096 vertices", PASSED, polygons([0] * 4096)
    yield "a polygon of 4,097 vertices", 12, polygons([3], [0] * 4097)


def corner_cases():
    corners = place(EXAMPLE_SHIP, C)
    for entry in (0, 3):
        for number, answer in [(3, PASSED), (4, 13), (ALL_ONES, 13)]:
            yield "entry %d of C is %d, of 4 vertices" % (entry, number), answer, put(EXAMPLE_SHIP, corners + 4 * entry, number)
    yield "the one entry of C is 1, of 1 vertex", 13, ship(dict(POINT, polygons=[[1]]))
    yield "4 vertices and 1, entry 3 in the first deck", PASSED, ship(SQUARE, POINT)
    yield "4 vertices and 1, entry 1 in the second deck", 13, ship(SQUARE, dict(POINT, polygons=[[1]]))


# ---- their order


def h_one_byte_more(b):
    b[H] += b"\0"


def p_empty(b):
    b[P] = b""


def h_one_entry_less(b):
    b[H] = b[H][:-4]


def offset_nan(b):
    b[V] = put(b[V], 0, NAN)


def n_one_entry_less(b):
    b[N] = b[N][:-4]


def corner_not_there(b):
    b[C] = put(b[C], 0, 4)


FAULTS = [(7, h_one_byte_more), (8, p_empty), (10, h_one_entry_less), (11, offset_nan), (12, n_one_entry_less), (13, corner_not_there)]


def square_with(*faults):
    """The square's blocks with faults: the order in which they are made makes no difference."""
    blocks = deck_blocks(SQUARE)
    for fault in faults:
        fault(blocks)
    return blocks


def header_order_cases():
    bad_reach = put(EXAMPLE_SHIP, REACH_PLACE, NAN)
    bad_steps = put(EXAMPLE_SHIP, S_PLACE, 0)
    gap = put(EXAMPLE_SHIP, row(N), 124, 28)
    yield "2 and 3", 2, put(bad_reach, L_PLACE, 257)
    yield "2 and 4", 2, put(bad_steps, L_PLACE, 257)
    yield "3 and 4", 3, put(bad_steps, REACH_PLACE, bits(-1.0))
    yield "3 and 5", 3, bad_reach[:51]
    yield "4 and 5", 4, bad_steps[:51]
    yield "4 and 6", 4, put(gap, S_PLACE, 17)
    yield "5, with a table that is not end to end", 5, put(EXAMPLE_SHIP, row(V), 53)[:51]
    yield "6 and 7", 6, ship_of(square_with(h_one_byte_more)) + b"\0"
    yield "6 and 11", 6, put(gap, place(gap, V), NAN)


def deck_order_cases():
    for k, (first, fault) in enumerate(FAULTS):
        for second, other in FAULTS[k + 1 :]:
            yield "%d and %d in a deck" % (first, second), first, ship_of(square_with(fault, other))


def two_deck_cases():
    good = deck_blocks(SQUARE)
    for number, fault in FAULTS:
        yield "deck 0 alone fails %d" % number, number, ship_of(square_with(fault) + good)
        yield "deck 1 alone fails %d" % number, number, ship_of(good + square_with(fault))
    for k, (late, fault) in enumerate(FAULTS):
        for early, other in FAULTS[:k]:
            yield "deck 0 fails %d, deck 1 fails %d" % (late, early), late, ship_of(square_with(fault) + square_with(other))
    both = ship_of(square_with(h_one_byte_more) + good)
    yield "deck 0 fails 7, and 6 in the blocks of deck 1", 6, both + b"\0"
    yield "the last of 256 decks fails 13", 13, ship_of(deck_blocks(POINT) * 255 + square_with(corner_not_there))


# ---- the two files

GROUPS = [size_cases, deck_count_cases, no_deck_cases, reach_cases, steps_cases, table_cases, block_cases, whole_rows_cases, empty_cases]
GROUPS += [height_cases, float_cases, neighbour_list_cases, corner_list_cases, corner_cases]
GROUPS += [header_order_cases, deck_order_cases, two_deck_cases]


def cases():
    return [case for group in GROUPS for case in group()]


def line(answer):
    return PASSED if answer == PASSED else "no %d" % answer


def files():
    """What the two files hold."""
    some = cases()
    stdin = b"".join(u32(len(file)) + file for _, _, file in some) + u32(1)
    assert len(stdin) <= MOST_BYTES
    return {"stdin": stdin, "stdout": "".join(line(a) + "\n" for _, a, _ in some).encode("ascii") + b"bad\n"}


def write():
    stored_cases.write("ship_cases", files())


def check():
    return stored_cases.check("ship_cases", files(), len(cases()))


def show():
    for k, (name, answer, file) in enumerate(cases()):
        print("%d: %s (%d bytes): %s" % (k + 1, name, len(file), line(answer)))


if __name__ == "__main__":
    stored_cases.run(__doc__, write=write, check=check, list=show)
