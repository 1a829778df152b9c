#!/usr/bin/env python3
"""Prints how many lines each crate has of code, definitions and proofs, at some commits beside each other.

  tools/lines_by_crate.py 6ee7281 a7d3185 HEAD

A line of more than 120 columns counts as the lines that it would fill, so a line that was only wrapped changes nothing.
The last column is what the last commit has more than the first one.
"""
import io
import os
import subprocess
import sys
import tarfile

from fluxtools.command import Fault, Parser, finish

TOP = os.path.normpath(os.path.join(os.path.dirname(os.path.realpath(__file__)), ".."))
FOLDERS = ("src", "specs", "proofs")
WIDTH = 120


def lines_in(text):
    """How many lines of at most so many columns a text fills."""
    return sum(max(1, -(-len(line) // WIDTH)) for line in text.removesuffix("\n").split("\n")) if text else 0


def lines_at(commit):
    """By crate, its lines of code, definitions and proofs."""
    packed = subprocess.run(["git", "-C", TOP, "archive", commit, "crates"], capture_output=True)
    if packed.returncode != 0:
        raise Fault(commit, "is no commit with crates")
    crates = {}
    with tarfile.open(fileobj=io.BytesIO(packed.stdout)) as files:
        for file in files:
            path = file.name.split("/")
            if file.isfile() and len(path) > 3 and path[2] in FOLDERS and path[-1].endswith((".rt", ".antt")):
                counts = crates.setdefault(path[1], [0, 0, 0])
                counts[FOLDERS.index(path[2])] += lines_in(files.extractfile(file).read().decode())
    return crates


def row(name, columns):
    """A row of the table: the sum of each column's three numbers is what the change is told of."""
    cells = [" + ".join(map(str, counts)) if any(counts) else "" for counts in columns]
    return f"| {name} | {' | '.join(cells)} | {sum(columns[-1]) - sum(columns[0]):+d} |"


def table(commits):
    """The lines of the table, by the names of crates, and the sums at its end."""
    columns = [lines_at(commit) for commit in commits]
    names = sorted(set().union(*columns))
    rows = [row(f"`{name}`", [column.get(name, [0, 0, 0]) for column in columns]) for name in names]
    sums = [[sum(counts) for counts in zip(*column.values())] for column in columns]
    return rows + [row("all", sums)]


def main(words):
    parser = Parser("lines_by_crate.py", __doc__, "tools/lines_by_crate.py COMMIT ..")
    parser.add_argument("commits", nargs="+", metavar="COMMIT")
    print("\n".join(table(parser.parse_args(words).commits)))


if __name__ == "__main__":
    sys.exit(finish("lines_by_crate.py", main, sys.argv[1:]))
