"""Ship files, seat lists and blocked sets as bytes (document 01, sections 2, 5 and 7, and document 02, point 5), for the scripts
beside this one."""
import struct

ALL_ONES = 0xFFFFFFFF


def u32(*numbers):
    return struct.pack("<%dI" % len(numbers), *numbers)


def bits(x):
    """The pattern of a float of one rounding; one more is the next float away from 0."""
    return struct.unpack("<I", struct.pack("<f", x))[0]


def put(some, at, *numbers):
    """The bytes with these numbers at a place."""
    return some[:at] + u32(*numbers) + some[at + 4 * len(numbers) :]


def deck_blocks(deck):
    """The blocks V, N, P, C, H of a deck: offset (x, y), vertices [(x, y, [neighbours])], polygons [[vertices]], heights []."""
    v = struct.pack("<ff", *deck["offset"])
    n = p = c = b""
    start = 0
    for x, y, neighbours in deck["vertices"]:
        v += struct.pack("<ffII", x, y, start, len(neighbours))
        n += u32(*neighbours)
        start += len(neighbours)
    start = 0
    for polygon in deck["polygons"]:
        p += u32(start, len(polygon))
        c += u32(*polygon)
        start += len(polygon)
    return [v, n, p, c, struct.pack("<%df" % len(deck["heights"]), *deck["heights"])]


def file_of_blocks(blocks, reach, steps):
    """The file of whole decks' blocks, five a deck, laid end to end."""
    head = struct.pack("<IfI", len(blocks) // 5, reach, steps)
    at = 12 + 8 * len(blocks)
    for b in blocks:
        head += u32(at, len(b))
        at += len(b)
    return head + b"".join(blocks)


def ship_file(decks, reach, steps):
    return file_of_blocks([b for deck in decks for b in deck_blocks(deck)], reach, steps)


def seat(x, y, deck=ALL_ONES, wish=None):
    return struct.pack("<ffII", x, y, deck, 0 if wish is None else 1) + struct.pack("<f", 0.0 if wish is None else wish)


def blocked(decks=()):
    return bytes(sum(1 << d % 8 for d in decks if d // 8 == byte) for byte in range(32))


SQUARE = {
    "offset": (0.0, 0.0),
    "vertices": [(x, y, [0, ALL_ONES]) for x, y in ((0.0, 0.0), (4.0, 0.0), (4.0, 4.0), (0.0, 4.0))],
    "polygons": [[0, 1, 2, 3]],
    "heights": [1.0, 1.0, 3.0, 3.0],
}

# the example of document 01, section 7
EXAMPLE_SHIP = ship_file([SQUARE], 0.5, 2)
EXAMPLE_SEATS = seat(1.0, 1.0) + seat(5.0, 5.0) + seat(-0.5, 2.0)

# document 02, point 5: a hull with no decks yet, which is a header alone
NO_DECKS = ship_file([], 0.5, 2)
