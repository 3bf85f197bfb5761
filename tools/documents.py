#!/usr/bin/env python3
"""documents.py check: what the documents quote stands in the files that they quote it from.

docs/SURVEYOR.md: each line of its table is a line of the statement. docs/FORMAT.md: the refusals' sentences are those of the Rust crate.
Every path between backquotes that names a file of the repository is there.
"""
import os
import re
import sys

import stored_cases

ROOT = os.path.join(os.path.dirname(os.path.abspath(__file__)), "..")
STATEMENTS = {
    "A": "crates/survey/specs/Survey.antt",
    "B": "crates/seat_run/specs/Survey.antt",
    "C": "crates/seat_run/specs/Blocked.antt",
    "D": "crates/towards/specs/Statement.antt",
    "E": "crates/loads/specs/Sheet.antt",
    "F": "crates/loads/specs/Totals.antt",
    "G": "crates/loads/specs/Portions.antt",
    "H": "crates/seat_run/specs/NoDecks.antt",
}
DOCUMENTS = ["README.md"] + ["docs/%s" % name for name in sorted(os.listdir(os.path.join(ROOT, "docs"))) if name.endswith(".md")]


def read(path):
    with open(os.path.join(ROOT, path), encoding="utf-8") as file:
        return file.read()


def statement_lines():
    """The surveyor's table: what it quotes and no line of the file is."""
    rows = re.findall(r"^\| .* \| ([A-Z]) \| `(.*)` \|$", read("docs/SURVEYOR.md"), re.M)
    lines = {letter: [line.strip() for line in read(path).split("\n")] for letter, path in STATEMENTS.items()}
    wrong = ["docs/SURVEYOR.md quotes '%s', which is no line of %s" % (quote, STATEMENTS[letter]) for letter, quote in rows if quote not in lines[letter]]
    return len(rows), wrong


def refusal_sentences():
    """The table of refusals against the crate's list."""
    rows = re.findall(r"^\| (\d+) \| ([^|]*\.) \|", read("docs/FORMAT.md"), re.M)
    crate = re.search(r"SENTENCES: [^=]*= \[\n(.*?)\n\];", read("rust/src/refusal.rs"), re.S).group(1)
    sentences = re.findall(r'"(.*)",', crate)
    wrong = [] if [int(number) for number, _ in rows] == list(range(1, len(sentences) + 1)) else ["docs/FORMAT.md has not one row for each refusal"]
    wrong += ["docs/FORMAT.md says of %s '%s'" % row for row, sentence in zip(rows, sentences) if row[1] != sentence]
    return len(rows), wrong


def paths():
    """Paths of the repository that the documents name."""
    named = [(document, path) for document in DOCUMENTS for path in re.findall(r"`((?:crates|docs|rust|seatplan|tools|compare|include|examples|\.ci)/[\w./-]*)`", read(document))]
    return len(named), ["%s names %s, which is not there" % pair for pair in named if not os.path.exists(os.path.join(ROOT, pair[1]))]


def check():
    found = [statement_lines(), refusal_sentences(), paths()]
    wrong = [line for _, lines in found for line in lines]
    for line in wrong:
        print("documents: " + line)
    if not wrong:
        print("documents: %d lines of the statement, %d refusals, %d paths, all as quoted" % tuple(count for count, _ in found))
    return 1 if wrong or not all(count for count, _ in found) else 0


if __name__ == "__main__":
    stored_cases.run(__doc__, check=check)
