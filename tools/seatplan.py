#!/usr/bin/env python3
"""seatplan.py check: runs seatplan on the ferry and on random plans, and compares all that it writes with what is worked out here.

The plan and the seats are read here by Python's own reader of CSV; the ship file and the seats' bytes are laid out by tools/ship_file.py,
the records worked out over exact fractions by tools/seats_cases.py, the table written anew from them. The picture is read as XML: its
seats stand at the records' places, its decks where the plan has them. A random plan is written from a model, and the ship file has to be
the model's. seatlist, where it is built, prints the same records from --seatlist. Nothing of the Rust or Rattle code takes part.
"""
import csv
import math
import os
import random
import struct
import subprocess
import sys
import tempfile
import xml.etree.ElementTree as xml

import stored_cases
from seats_cases import Ship, record
from ship_file import ALL_ONES, blocked, seat, u32

ROOT = os.path.join(os.path.dirname(os.path.abspath(__file__)), "..")
PROGRAM = os.path.join(ROOT, "seatplan", "target", "release", "seatplan")
SEATLIST = os.path.join(ROOT, "crates", "seatlist", "out", "seatlist")
FERRY = os.path.join(ROOT, "examples", "ferry")
RANDOM_PLANS = 150
OUTPUTS = ["ship", "seats", "records", "seatlist", "svg"]


class Difference(Exception):
    pass


def same(what, found, wanted):
    if found != wanted:
        raise Difference("%s: %.2000r, and not %.2000r" % (what, found, wanted))


def f32(x):
    return struct.unpack("<f", struct.pack("<f", float(x)))[0]


# ---- plans: reach, steps and decks, a deck with a name beside what tools/ship_file.py takes


def around(deck):
    """The polygons at each vertex by the angle of the edge that leaves it, the outside between two that share no edge there."""
    vertices, polygons = deck["vertices"], deck["polygons"]
    lists = []
    for v, (x, y, _) in enumerate(vertices):
        at = []
        for k, polygon in enumerate(polygons):
            if v in polygon:
                i = polygon.index(v)
                after, before = polygon[(i + 1) % len(polygon)], polygon[i - 1]
                at.append((math.atan2(vertices[after][1] - y, vertices[after][0] - x), k, after, before))
        at.sort()
        shared = [at[i][3] == at[(i + 1) % len(at)][2] for i in range(len(at))]
        if not at:
            lists.append([ALL_ONES])
        elif all(shared):
            numbers = [k for _, k, _, _ in at]
            first = numbers.index(min(numbers))
            lists.append(numbers[first:] + numbers[:first])
        else:
            start = shared.index(False) + 1
            runs = [[]]
            for i in range(start, start + len(at)):
                runs[-1].append(at[i % len(at)][1])
                if not shared[i % len(at)]:
                    runs.append([])
            lists.append([entry for run in sorted(runs[:-1]) for entry in run + [ALL_ONES]])
    return lists


def read_mesh(path, offset, height):
    rows = [line.split() for line in open(path) if line.split()]
    count = int(rows[2][0])
    entry = lambda word: int(word) % 2**32
    vertices = [(float(x), float(y), [entry(w) for w in more]) for x, y, _, *more in rows[3 : 3 + count]]
    polygons = [[int(w) for w in row[1 : 1 + int(row[0])]] for row in rows[3 + count :]]
    return {"offset": offset, "vertices": vertices, "polygons": polygons, "heights": [] if height == "" else [float(height)] * count}


def read_plan(path):
    """A plan whose cells are set apart by commas and whose lists are all worked out or taken from a mesh."""
    plan = {"decks": []}
    for row in csv.reader(line for line in open(path) if not line.startswith("#")):
        word, cells = (row[0], row[1:] + [""] * 3) if row else ("", [])
        if word in ("reach", "steps"):
            plan[word] = float(cells[0]) if word == "reach" else int(cells[0])
        elif word == "deck":
            offset = tuple(float(c or 0) for c in cells[1:3])
            plan["decks"].append({"name": cells[0], "offset": offset, "vertices": [], "polygons": [], "heights": []})
        elif word == "vertex":
            plan["decks"][-1]["vertices"].append((float(cells[0]), float(cells[1]), []))
            plan["decks"][-1]["heights"] += [float(cells[2])] if cells[2] else []
        elif word == "polygon":
            plan["decks"][-1]["polygons"].append([int(c) for c in cells if c])
        elif word == "mesh":
            plan["decks"][-1].update(read_mesh(os.path.join(os.path.dirname(path), cells[0]), plan["decks"][-1]["offset"], cells[1]))
        elif word:
            raise Difference("%s has a row '%s', which is not read here" % (path, word))
    for deck in plan["decks"]:
        if not any(entries for _, _, entries in deck["vertices"]):
            deck["vertices"] = [(x, y, entries) for (x, y, _), entries in zip(deck["vertices"], around(deck))]
    return plan


def read_seats(path):
    rows = list(csv.reader(open(path)))
    return [(name, float(x), float(y), deck, wish) for name, x, y, deck, wish in rows[1:]]


# ---- what has to come out


class Wanted:
    def __init__(self, plan, seats, closed=()):
        self.plan, self.seats, self.closed = plan, seats, closed
        names = [deck["name"] for deck in plan["decks"]]
        self.ship = Ship(*plan["decks"], reach=plan["reach"], steps=plan["steps"])
        self.asked = [(x, y, names.index(deck) if deck else ALL_ONES, float(wish) if wish else None) for _, x, y, deck, wish in seats]
        self.records = [record(self.ship, one, closed) for one in self.asked]

    def files(self):
        seats = b"".join(seat(*one) for one in self.asked)
        records = b"".join(u32(*numbers) for numbers in self.records)
        return {"ship": self.ship.file, "seats": seats, "records": records, "seatlist": u32(len(self.ship.file)) + self.ship.file + blocked(self.closed) + seats}

    def placed(self):
        """Of each placed seat: its name, what was asked, deck, polygon, x, y, height, step, candidates, tried."""
        of_bits = lambda n: struct.unpack("<f", u32(n))[0]
        for (name, *_), asked, r in zip(self.seats, self.asked, self.records):
            if r[0] != ALL_ONES:
                yield name, asked, r[0] >> 24, r[0] & 0xFFFFFF, of_bits(r[1]), of_bits(r[2]), of_bits(r[4]) if r[3] else None, r[5], r[8], r[7]

    def unplaced(self):
        return [(name, asked, r[7]) for (name, *_), asked, r in zip(self.seats, self.asked, self.records) if r[0] == ALL_ONES]

    def loads(self):
        stand = [deck for _, _, deck, *_ in self.placed()]
        return [stand.count(d) for d in range(len(self.plan["decks"]))]


def metres(x):
    return ("%.3f" % x).replace("-0.000", "0.000") if abs(x) < 0.001 else "%.3f" % x


def counted(number, thing):
    return "%d %s" % (number, thing if number == 1 else thing + "s")


def columns(rows, left):
    """Rows under their titles; the columns of these numbers set to the left."""
    widths = [max(len(row[i]) for row in rows) for i in range(len(rows[0]))]
    lines = ["  ".join(c.ljust(w) if i in left else c.rjust(w) for i, (c, w) in enumerate(zip(row, widths))).rstrip() for row in rows]
    return "\n".join(lines) + "\n"


def table(wanted):
    decks = [deck["name"] for deck in wanted.plan["decks"]]
    placed = [["seat", "deck", "polygon", "x", "y", "height", "step", "distance", "candidates", "tried"]]
    for name, asked, d, k, x, y, height, step, candidates, tried in wanted.placed():
        away = math.hypot(x - f32(asked[0]), y - f32(asked[1]))
        tall = "-" if height is None else metres(height)
        placed.append([name, decks[d], str(k), metres(x), metres(y), tall, str(step), metres(away), str(candidates), str(tried)])
    unplaced = [["seat", "x", "y", "deck asked", "samples tried"]]
    for name, (x, y, d, _), tried in wanted.unplaced():
        unplaced.append([name, metres(f32(x)), metres(f32(y)), "any" if d == ALL_ONES else decks[d], str(tried)])
    loads = wanted.loads()
    totals = [["deck", "seats"]] + [[name, str(n)] for name, n in zip(decks, loads)]
    totals += [["(placed)", str(sum(loads))], ["(unplaced)", str(len(unplaced) - 1)]]
    reach = ("%.6f" % wanted.plan["reach"]).rstrip("0").rstrip(".")
    text = "Lengths in metres. Reach %s, %s.\n" % (reach, counted(wanted.plan["steps"], "step"))
    for title, rows, left in [("Placed", placed, [0, 1]), ("Unplaced: no deck within reach", unplaced, [0, 3]), ("Seats by deck", totals, [0])]:
        text += "\n%s\n\n%s" % (title, columns(rows, left)) if len(rows) > 1 else ""
    return text


def seatlist_lines(wanted):
    lines = []
    for i, r in enumerate(wanted.records):
        tall = "%08X" % r[4] if r[3] else "-"
        place = "%d placed %d %d %08X %08X %s %d %d %d %d" % (i, r[0] >> 24, r[0] & 0xFFFFFF, r[1], r[2], tall, *r[5:])
        lines.append("%d none %d" % (i, r[7]) if r[0] == ALL_ONES else place)
    placed = len(list(wanted.placed()))
    return "\n".join(lines + ["end %d %d" % (placed, len(wanted.records) - placed)]) + "\n"


# ---- the picture

SVG = "{http://www.w3.org/2000/svg}"


def of_class(group, name):
    return [element for element in group if element.get("class") == name]


def check_svg(text, wanted):
    """A group a deck; in it a point of the ship stands at x and -y."""
    root = xml.fromstring(text)
    groups = of_class(root, "deck")
    decks = wanted.plan["decks"]
    same("groups", len(groups), max(1, len(decks)))
    unit = float(root.get("viewBox").split()[2]) / 100
    placed = list(wanted.placed())
    for d, group in enumerate(groups):
        title = "%s: %s%s" % (decks[d]["name"], counted(wanted.loads()[d], "seat"), ", blocked" if d in wanted.closed else "") if decks else "No decks"
        same("title", [element.text for element in of_class(group, "title")], [title])
        same("name", group.get("data-deck"), decks[d]["name"] if decks else "")
        here = [one for one in placed if one[2] == d]
        point = lambda element, x, y: (f32(element.get(x)), -f32(element.get(y)))
        stand = [(one[0], (one[4], one[5])) for one in here]
        asked = [(one[0], (f32(one[1][0]), f32(one[1][1]))) for one in here]
        same("seats that stand", [(e.get("data-seat"), point(e, "cx", "cy")) for e in of_class(group, "placed")], stand)
        same("seats asked", [(e.get("data-seat"), point(e, "cx", "cy")) for e in of_class(group, "asked")], asked)
        lines = [(a, b) for (_, a), (_, b) in zip(asked, stand) if a != b]
        same("lines", [(point(e, "x1", "y1"), point(e, "x2", "y2")) for e in of_class(group, "move")], lines)
        absent = [(name, (f32(one[0]), f32(one[1]))) for name, one, _ in wanted.unplaced() if not decks or one[2] in (ALL_ONES, d)]
        moved = lambda e: e.get("transform")[len("translate(") : -1].split()
        found = [(e.get("data-seat"), (f32(moved(e)[0]), -f32(moved(e)[1]))) for e in of_class(group, "unplaced")]
        same("unplaced", found, absent)
        same("names", [e.text for e in of_class(group, "name")], [name for name, _ in stand])
        same("names of the unplaced", [e.text for e in of_class(group, "unplaced-name")], [name for name, _ in absent])
        for element, corners in zip(floors(group, len(decks[d]["polygons"]) if decks else 0), decks[d]["polygons"] if decks else []):
            points = [[float(c) for c in pair.split(",")] for pair in element.get("points").split()]
            same("corners", len(points), len(corners))
            for (x, y), v in zip(points, corners):
                vx, vy = (f32(decks[d]["vertices"][v][c]) + f32(decks[d]["offset"][c]) for c in (0, 1))
                same("corner %d" % v, abs(x - vx) < 0.01 * unit and abs(-y - vy) < 0.01 * unit, True)
        (bar,) = of_class(group, "bar")
        start, end = (float(bar.get("d").split(mark)[1].split(stop)[0]) for mark, stop in (("M", " "), ("H", "v")))
        same("scale bar", abs(end - start - float(bar.get("data-metres"))) < 0.01 * unit, True)
        same("its length", of_class(group, "scale")[0].text, "%s m" % bar.get("data-metres"))


def floors(group, count):
    found = of_class(group, "floor")
    same("polygons", len(found), count)
    return found


# ---- a run


def run(plan, seats, folder, wanted, closed=()):
    files = {kind: os.path.join(folder, "out." + kind) for kind in OUTPUTS}
    command = [PROGRAM, plan, seats] + [part for kind in OUTPUTS for part in ("--" + kind, files[kind])]
    command += [part for d in closed for part in ("--blocked", wanted.plan["decks"][d]["name"])]
    done = subprocess.run(command, capture_output=True, encoding="utf-8")
    same("exit status and errors", (done.returncode, done.stderr), (0, ""))
    for kind, content in wanted.files().items():
        same("--" + kind, open(files[kind], "rb").read(), content)
    same("table", done.stdout, table(wanted))
    check_svg(open(files["svg"], encoding="utf-8").read(), wanted)
    if os.path.exists(SEATLIST) and os.path.getsize(files["seatlist"]) <= 65536:
        listed = subprocess.run([SEATLIST], stdin=open(files["seatlist"], "rb"), capture_output=True, encoding="ascii")
        same("seatlist", listed.stdout, seatlist_lines(wanted))
        return True
    return False


# ---- random plans, written as text in one of the ways there are

NAMES = ["Main", "Sun deck", 'A "B" & <C>', "Brücke; oben", "1,5 m", "'", "-"]


def random_deck(rng, name, far):
    """Squares of side 2 with corners that are a little off, some left out."""
    wide, high = rng.randint(1, 3), rng.randint(1, 3)
    at = lambda i, j: (2 * i + rng.randint(-3, 3) / 8, 2 * j + rng.randint(-3, 3) / 8, [])
    vertices = [at(i, j) for j in range(high + 1) for i in range(wide + 1)]
    square = lambda i, j: [j * (wide + 1) + i, j * (wide + 1) + i + 1, (j + 1) * (wide + 1) + i + 1, (j + 1) * (wide + 1) + i]
    polygons = [square(i, j) for j in range(high) for i in range(wide) if rng.randint(0, 3)] or [square(0, 0)]
    rng.shuffle(polygons)
    heights = [rng.randint(-20, 80) / 10 for _ in vertices] if rng.randint(0, 2) else []
    offset = (far + rng.randint(-9, 9) / 10, rng.randint(-9, 9) / 10)
    deck = {"name": name, "offset": offset, "vertices": vertices, "polygons": polygons, "heights": heights}
    deck["vertices"] = [(x, y, entries) for (x, y, _), entries in zip(vertices, around(deck))]
    return deck


def random_entries(rng):
    return [rng.choice([ALL_ONES, rng.randint(0, 5), rng.randint(0, 2**32 - 2)]) for _ in range(rng.randint(0, 4))]


def write_rows(rng, path, rows, comments):
    """As CSV in one of its forms; a cell that has what could set cells apart stands in quotes."""
    separator, end, width, quote_all = rng.choice(",;\t"), rng.choice(["\n", "\r\n"]), rng.choice([0, 12]), rng.randint(0, 1)
    quoted = lambda cell: '"%s"' % cell.replace('"', '""') if quote_all or any(c in cell for c in ',;"') else cell
    with open(path, "w", encoding=rng.choice(["utf-8", "utf-8-sig"]), newline="") as out:
        for row in rows:
            if comments and rng.randint(0, 9) == 0:
                out.write(rng.choice(["# a, comment; of\t'no' \"use", ' "# one, in ""quotes""",,', ""]) + end)
            out.write(separator.join(quoted(cell) for cell in row + [""] * (width - len(row))) + end)


def entry_text(rng, entry):
    return rng.choice(["-1", "outside"]) if entry == ALL_ONES else str(entry)


def random_plan(rng, folder, far):
    """A plan's model, and its text in the folder. Far off, where floats are millimetres apart, a distance is no longer step times reach."""
    names = rng.sample(NAMES, rng.randint(0, 3))
    plan = {"reach": rng.randint(0, 12) / 8, "steps": rng.randint(1, 3), "decks": [random_deck(rng, name, far) for name in names]}
    rows = []
    for d, deck in enumerate(plan["decks"]):
        rows.append(["deck", deck["name"], str(deck["offset"][0]), str(deck["offset"][1])])
        if rng.randint(0, 3) == 0:
            deck["heights"] = [deck["heights"][0]] * len(deck["vertices"]) if deck["heights"] else []
            rows.append(["mesh", "deck %d.mesh" % d, str(deck["heights"][0]) if deck["heights"] else ""])
            deck["vertices"] = [(x, y, random_entries(rng) or entries) for x, y, entries in deck["vertices"]]
            write_mesh(os.path.join(folder, "deck %d.mesh" % d), deck)
            continue
        heights = deck["heights"] or [""] * len(deck["vertices"])
        own = [["vertex", str(x), str(y), str(h)] for (x, y, _), h in zip(deck["vertices"], heights)]
        for v in rng.sample(range(len(own)), rng.choice([0, 0, 2, len(own)])):
            x, y, _ = deck["vertices"][v]
            deck["vertices"][v] = (x, y, random_entries(rng))
            own.append(["neighbours", str(v)] + [entry_text(rng, entry) for entry in deck["vertices"][v][2]])
        own += [["polygon"] + [str(v) for v in polygon] for polygon in deck["polygons"]]
        rows += own
    where = rng.choice([0, len(rows)])
    rows[where:where] = [["reach", str(plan["reach"])], ["steps", str(plan["steps"])]]
    write_rows(rng, os.path.join(folder, "plan.csv"), rows, True)
    return plan


def write_mesh(path, deck):
    signed = lambda entry: "-1" if entry == ALL_ONES else str(entry)
    with open(path, "w") as out:
        out.write("mesh\n2\n%d %d\n" % (len(deck["vertices"]), len(deck["polygons"])))
        for x, y, entries in deck["vertices"]:
            out.write(" ".join([str(x), str(y), str(len(entries))] + [signed(entry) for entry in entries]) + "\n")
        for polygon in deck["polygons"]:
            out.write(" ".join(str(n) for n in [len(polygon)] + polygon + [-1] * len(polygon)) + "\n")


def random_seats(rng, plan, folder, far):
    names = [deck["name"] for deck in plan["decks"]]
    seats = []
    for i in range(rng.randint(0, 9)):
        deck = rng.choice(names) if names and rng.randint(0, 2) == 0 else ""
        name = rng.choice(["%d", "#%d", "A,%d", 'no. "%d"', "é%d", "<%d>"]) % i
        seats.append((name, far + rng.randint(-20, 80) / 10, rng.randint(-20, 80) / 10, deck, rng.choice(["", "1.5"])))
    head = [["name", "x", "y", "deck", "height"]] if rng.randint(0, 1) else []
    write_rows(rng, os.path.join(folder, "seats.csv"), head + [[str(c) for c in one] for one in seats], False)
    return seats


def check():
    if not os.path.exists(PROGRAM):
        sys.exit("seatplan.py: no %s: 'make plan' builds it" % os.path.relpath(PROGRAM))
    rng = random.Random(1912)
    listed = 0
    for i in range(RANDOM_PLANS + 1):
        with tempfile.TemporaryDirectory() as folder:
            if i == 0:
                where, name, closed = FERRY, "the ferry", ()
                plan, seats = read_plan(os.path.join(where, "plan.csv")), read_seats(os.path.join(where, "seats.csv"))
            else:
                where, name = folder, "random plan %d" % i
                far = rng.choice([0, 0, 0, 90000])
                plan = random_plan(rng, folder, far)
                seats = random_seats(rng, plan, folder, far)
                closed = tuple(d for d in range(len(plan["decks"])) if rng.randint(0, 4) == 0)
            try:
                listed += run(os.path.join(where, "plan.csv"), os.path.join(where, "seats.csv"), folder, Wanted(plan, seats, closed), closed)
            except Difference as difference:
                print("seatplan: %s: %s" % (name, difference))
                return 1
    print("seatplan: the ferry and %d random plans, table, bytes and picture as worked out; seatlist ran on %d of them" % (RANDOM_PLANS, listed))
    return 0


if __name__ == "__main__":
    stored_cases.run(__doc__, check=check)
