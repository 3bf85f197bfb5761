#!/usr/bin/env python3
"""forms.py [COMMIT]: how many places of the sources have a form that docs/DESIGN-PASS.md counts, in the files at hand or at a commit.

It goes by text: a place is a line or a function that fits a pattern, and whether it is rightly as it is, the page says.
"""
import collections
import os
import re
import subprocess
import sys

ROOT = os.path.join(os.path.dirname(os.path.abspath(__file__)), "..")

# What a line of the sources has to fit.
LINES = {
    "1 enums of one's own": r"^\s*(?:pub )?enum ",
    "1 a match that hands a refusal on": r"Check::No\(number\) => ",
    "1 a refusal by its number": r"\b(?:Check::No|Answer::Refused)\(\d+\)",
    "1 all ones for none": r"0xFFFF_FFFF\b(?!_)",
    "3 a loop whose index is counted by hand": r"^\s*(?:'\w+: )?(?:while|loop)\b",
    "4 an arm that turns a variant into a bool": r"=> (?:true|false),",
    "5 'the deck passed' asked of a caller": r"^(?!.*(?:ensures|invariant)).*DeckOfPassed [\w.]+\.now",
    "5 'the file passed' asked of a caller": r"^(?!.*(?:ensures|invariant)).*first_no [\w.]+\.now ≡",
    "5 'room for the lists' in a contract": r"\bListsRoom\b.*\}|ListsRoom \w+\.\w+",
    "5 'ready for a walk' in a contract": r"\bWalkReady\b",
}

# Functions that do by hand what a derive or a trait of the library does, by their names.
BY_HAND = r"(?:same_\w+|min|max|abs|add|sub|copy|copy_part|clear|swap|choice_of|code|packed\w*|height_words|glyph|digit|flag|is_left|is_edge|put_hex|put_decimal)"

# Parameters that stand together.
SHIP = {"file", "ship"}
TABLE = {"table", "directions"}

GROUPS = {
    "5 file and blocks": lambda names, types: bool(SHIP & names) and any("Blocks" in t for t in types),
    "5 file, blocked, table and seat": lambda names, types: bool(SHIP & names) and bool(TABLE & names) and {"blocked", "seat"} <= names,
    "5 file, table and point": lambda names, types: bool(SHIP & names) and bool(TABLE & names) and "p" in names,
    "5 an array and the list in it": lambda names, types: {"array", "kept"} <= names or {"from", "source"} <= names,
    "5 which stitches and which deck": lambda names, types: {"which", "d"} <= names,
    "5 a step and its count": lambda names, types: {"s", "count"} <= names,
    "5 seven parameters or more": lambda names, types: len(names) >= 7,
    "6 a slice and a place or a length in it": lambda names, types: any("&mut [u" in t for t in types) and bool({"at", "n", "count", "tail"} & names),
    "7 a bool that says what is done": lambda names, types: any(t == "bool" for t in types),
}


def files(commit):
    """Every source and proof file's path and text."""
    if commit is None:
        listed = subprocess.run(["git", "ls-files", "crates"], cwd=ROOT, capture_output=True, text=True, check=True).stdout.split()
        paths = [path for path in listed if os.path.exists(os.path.join(ROOT, path))]
    else:
        paths = subprocess.run(["git", "ls-tree", "-r", "--name-only", commit, "crates"], cwd=ROOT, capture_output=True, text=True, check=True).stdout.split()
    for path in paths:
        if path.endswith((".rt", ".antt")):
            if commit is None:
                with open(os.path.join(ROOT, path), encoding="utf-8") as file:
                    yield path, file.read()
            else:
                yield path, subprocess.run(["git", "show", "%s:%s" % (commit, path)], cwd=ROOT, capture_output=True, text=True, check=True).stdout


def functions(text):
    """Name, parameters' names and types, and result of each function."""
    for found in re.finditer(r"^\s*(?:pub )?(?:extern \"C\" )?fn (\w+)(?:<[^>]*>)?\(((?:[^()]|\([^()]*\))*)\)(?: -> (.*))?", text, re.M):
        parameters = [part.strip().split(": ", 1) for part in found.group(2).split(",") if ": " in part]
        yield found.group(1), {name for name, _ in parameters}, [kind for _, kind in parameters], found.group(3) or ""


def conditions(text):
    """Each part of a function's conditions, by its words."""
    for clause in re.findall(r"^\s*requires (?:\w+ )?\{((?:.|\n)*?)\}\n", text, re.M):
        for part in re.split(r"\s×\s", clause):
            yield " ".join(part.split()).strip("() ")


def same_runs(sources, length):
    """Pairs of places that share so many lines or more."""
    starts = collections.defaultdict(list)
    lines = {path: [line.strip() for line in text.split("\n")] for path, text in sources}
    for path, rows in lines.items():
        for at in range(len(rows) - length + 1):
            run = tuple(rows[at:at + length])
            if sum(len(row) > 3 for row in run) >= length - 2:
                starts[run].append((path, at))
    pairs = set()
    for places in starts.values():
        for i, (a, x) in enumerate(places):
            for b, y in places[i + 1:]:
                if not (x and y and lines[a][x - 1] == lines[b][y - 1]):
                    pairs.add((a, x, b, y))
    return len(pairs)


def main():
    commit = sys.argv[1] if len(sys.argv) > 1 else None
    counts = collections.OrderedDict()
    everything = list(files(commit))
    sources = [(path, text) for path, text in everything if path.endswith(".rt")]
    answers = [text for path, text in everything if path.endswith("/Answers.antt")]
    for name, pattern in LINES.items():
        lines = (line for _, text in sources for line in text.split("\n") if "ghost use" not in line)
        counts[name] = sum(re.search(pattern, line) is not None for line in lines)
    counts["1 a function that fills what it is lent and answers a flag"] = sum(
        result.startswith("bool") and any(t.startswith("&mut ") for t in types)
        for _, text in sources for _, _, types, result in functions(text))
    counts["2 pairs of places with six lines or more alike"] = same_runs(sources, 6)
    public = collections.Counter(name for path, text in sources for name in set(re.findall(r"^pub fn (\w+)", text, re.M)))
    counts["2 names of public functions in two crates"] = sum(n > 1 for n in public.values())
    counts["4 functions that a derive or the library may have"] = sum(
        re.fullmatch(BY_HAND, name) is not None for _, text in sources for name, _, _, _ in functions(text))
    for name, fits in GROUPS.items():
        counts[name] = sum(bool(fits(names, types)) for _, text in sources for _, names, types, _ in functions(text))
    asked = collections.Counter(part for _, text in sources for part in conditions(text))
    counts["5 conditions that stand in three functions or more"] = sum(n for n in asked.values() if n > 2)
    counts["8 files of answers"] = len(answers)
    bodies = [re.findall(r"^\S+ c = (.*)$", text, re.M) for text in answers]
    counts["8 of these, those that say only which laws are searched"] = sum(
        bool(lines) and all(re.fullmatch(r"search \([\w, ]+, rules\)(?: depth \d+)?", line) for line in lines) for lines in bodies)
    counts["8 lines of proofs"] = sum(
        sum(bool(line.strip()) for line in text.split("\n")) for path, text in everything if "/proofs/" in path)
    for name in sorted(counts, key=lambda name: name[0]):
        print("%5d  %s" % (counts[name], name))


if __name__ == "__main__":
    main()
