#!/usr/bin/env python3
"""load_sheet.py stored|runs|FILE RECORDS TABLE: holds load sheets against counts made anew from the records (document 02, point 4).

stored: of the cases in crates/loads_cases that are answered, from stdin and stdout there.
runs: of runs on standard input, as rust/examples/load_sheets.rs writes them.
FILE RECORDS TABLE: of one run, from three files: the ship file, the records, and the table with nothing after the sheet.

Each exits with 1 at the first sheet that is not what is counted here. The counts come from the bytes of the records, and the labels from
the ship file by plain reach: from each polygon in rising order, whatever can be come to. Nothing of the crates takes part, nor of
tools/loads_cases.py, which computes the stored answers.
"""
import os
import struct
import sys

CASES = os.path.join(os.path.dirname(os.path.abspath(__file__)), "..", "crates", "loads_cases")
ALL_ONES = 0xFFFFFFFF
HEAD_WORDS = 8  # of a stored case

# ---- bytes


def words(some):
    return struct.unpack("<%dI" % (len(some) // 4), some)


def cut(some, size):
    return [some[i : i + size] for i in range(0, len(some), size)]


class Wrong(Exception):
    pass


def want(true, what):
    if not true:
        raise Wrong(what)


# ---- the ship file


def deck_blocks(file, d):
    """The blocks V, N, P, C and H of a deck."""
    pairs = cut(words(file[12 + 40 * d : 12 + 40 * d + 40]), 2)
    return [file[start : start + length] for start, length in pairs]


def deck_lists(file, d):
    """Of each polygon of a deck, the entries in its vertices' lists."""
    v, n, p, c, _ = deck_blocks(file, d)
    entries, corners = words(n), words(c)
    vertices = [words(row)[2:] for row in cut(v[8:], 16)]
    around = [entries[start : start + count] for start, count in vertices]
    return [{entry for k in corners[start : start + count] for entry in around[k]} for start, count in cut(words(p), 2)]


def reached(lists, start):
    """All polygons that one comes to from a polygon, itself among them."""
    found, left = {start}, [start]
    while left:
        for entry in lists[left.pop()]:
            if entry != ALL_ONES and entry not in found:
                found.add(entry)
                left.append(entry)
    return found


def labels_of(lists):
    labels = {}
    for start in range(len(lists)):
        for k in reached(lists, start):
            labels.setdefault(k, start)
    return [labels[k] for k in range(len(lists))]


# ---- a run: the ship file, the records, the table


class Seen:
    """What was held against the counts, so that a check of nothing fails."""

    def __init__(self):
        self.sheets = self.seats = self.unplaced = self.elsewhere = self.one_way = self.portions = self.no_decks = 0

    def line(self):
        counts = (self.sheets, self.seats, self.unplaced, self.elsewhere, self.one_way)
        line = "%d sheets are as counted: %d seats, %d of them unplaced, %d at another polygon's place, %d by reach that is one way" % counts
        line += "; %d lists in portions" % self.portions if self.portions else ""
        return line + ("; %d sheets of hulls with no decks" % self.no_decks if self.no_decks else "")


def counted(file, records, seen):
    """The sheet of these records."""
    decks = words(file[:4])[0]
    lists = [deck_lists(file, d) for d in range(decks)]
    labels = [labels_of(some) for some in lists]
    polygons = [[0] * len(some) for some in lists]
    islands = [[0] * len(some) for some in lists]
    on_deck, unplaced = [0] * decks, 0
    for record in cut(records, 36):
        packed = words(record)[0]
        seen.seats += 1
        if packed == ALL_ONES:
            unplaced += 1
            continue
        d, k = packed >> 24, packed & 0xFFFFFF
        want(d < decks and k < len(lists[d]), "a record has the polygon %08x, which is not there" % packed)
        label = labels[d][k]
        polygons[d][k] += 1
        islands[d][label] += 1
        on_deck[d] += 1
        seen.elsewhere += label != k
        seen.one_way += label != k and label not in reached(lists[d], k)
    seen.unplaced += unplaced
    return sum(polygons, []) + sum(islands, []) + on_deck + [unplaced]


def compare(file, records, table, seen):
    """The table's counts, which are those of the records."""
    want(len(records) % 36 == 0, "records of %d bytes" % len(records))
    expected = counted(file, records, seen)
    want(len(table) == 8 * len(expected), "a table of %d bytes, where %d counts are due" % (len(table), len(expected)))
    counts = list(struct.unpack("<%dQ" % len(expected), table))
    want(counts == expected, "the sheet is %s, and the records have %s" % (counts, expected))
    decks = words(file[:4])[0]
    want(sum(counts[-decks - 1 :]) == len(records) // 36, "the decks and the unplaced are not all seats")
    seen.sheets += 1
    seen.no_decks += decks == 0
    return counts


# ---- where runs come from


def stored_runs():
    """Of the stored cases that are answered: the name, the ship file, the records and the table."""
    with open(os.path.join(CASES, "stdin"), "rb") as file:
        cases = file.read()
    with open(os.path.join(CASES, "stdout"), encoding="ascii") as file:
        lines = file.read().split("\n")
    at = line = number = 0
    while lines[line] != "bad":
        letter, file, blocked, seats, _, _, _, sheet = words(cases[at : at + 4 * HEAD_WORDS])
        number += 1
        want(letter == ord("L"), "case %d is of another call" % number)
        start = at + 4 * HEAD_WORDS
        at = start + file + blocked + seats
        word, count = lines[line].split()[:2]
        line += 1
        if word == "wrote":
            taken = [bytes.fromhex(w)[::-1] for one in lines[line : line + int(count) + sheet // 8] for w in one.split()]
            answer = b"".join(taken)
            line += int(count) + sheet // 8
            yield "case %d" % number, cases[start : start + file], answer[: 36 * int(count)], answer[36 * int(count) :]


def stored(seen):
    for name, file, records, table in stored_runs():
        try:
            compare(file, records, table, seen)
        except Wrong as what:
            raise Wrong("%s: %s" % (name, what))


def taken(some, size):
    found = some.read(size)
    want(len(found) == size, "the runs are cut short")
    return found


def runs(seen):
    """A ship: lengths of its file and number of runs, the file, and of each run the lengths of records and table, then both. The first run is
    of a whole list, the others of its portions."""
    some = sys.stdin.buffer
    ship = 0
    while True:
        head = some.read(8)
        if not head:
            return
        length, count = words(head)
        file = taken(some, length)
        whole, portions = None, []
        try:
            for _ in range(count):
                sizes = words(taken(some, 8))
                records, table = taken(some, sizes[0]), taken(some, sizes[1])
                run = records, compare(file, records, table, seen)
                if whole is None:
                    whole = run
                else:
                    portions.append(run)
            if portions:
                want(b"".join(records for records, _ in portions) == whole[0], "the portions' records are not those of the list")
                want([sum(counts) for counts in zip(*[sheet for _, sheet in portions])] == whole[1], "the portions' tables do not add up to that of the list")
                seen.portions += 1
        except Wrong as what:
            raise Wrong("ship %d: %s" % (ship, what))
        ship += 1


def three(paths, seen):
    compare(*[open(path, "rb").read() for path in paths], seen)


# ---- the command


def main():
    arguments, seen = sys.argv[1:], Seen()
    try:
        if arguments == ["stored"]:
            stored(seen)
            want(seen.no_decks, "no hull with no decks")
        elif arguments == ["runs"]:
            runs(seen)
            want(seen.portions, "no list in portions")
        elif len(arguments) == 3:
            three(arguments, seen)
        else:
            sys.exit(__doc__)
        if len(arguments) == 1:
            want(seen.sheets and seen.unplaced and seen.elsewhere and seen.one_way, "not all was seen: " + seen.line())
    except Wrong as what:
        print("load_sheet: %s" % what)
        return 1
    print("load_sheet: " + seen.line())
    return 0


if __name__ == "__main__":
    sys.exit(main())
