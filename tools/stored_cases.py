"""The files stdin and stdout of a program of stored cases, and the commands of the scripts beside this one that compute them."""
import os
import sys

CRATES = os.path.join(os.path.dirname(os.path.abspath(__file__)), "..", "crates")


def write(name, files):
    for file, content in files.items():
        with open(os.path.join(CRATES, name, file), "wb") as out:
            out.write(content)


def check(name, files, count):
    """Says which files are not as computed; 1 if there are any."""
    wrong = 0
    for file, content in files.items():
        if open(os.path.join(CRATES, name, file), "rb").read() != content:
            print("%s: crates/%s/%s is not what tools/%s.py computes" % (name, name, file, name))
            wrong = 1
    if not wrong:
        print("%s: %d cases, both files as computed" % (name, count))
    return wrong


def run(usage, **commands):
    """Runs the command that the one argument names. What it answers is the exit status."""
    if len(sys.argv) != 2 or sys.argv[1] not in commands:
        sys.exit(usage)
    sys.exit(commands[sys.argv[1]]())
