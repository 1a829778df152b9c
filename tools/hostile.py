#!/usr/bin/python3
"""Runs the built program on graph files and inputs that were cut, doubled or changed in a few bytes.

hostile.py PROGRAM FIRST LAST [LIMIT]    one run for each seed, each of at most LIMIT seconds (10 without it); prints how
                                         many runs ended with each status, and each run that did what it must not

Files and inputs are those of lines_oracle.py. Each is spoiled in one of three ways: a piece of it is cut out, a piece
stands twice, or up to five bytes are others. A run must end in time and by no signal, with a status of docs/FORMATS.md
and its line on standard error, and with nothing written but for status 0; where nothing was done to the graph file it has
no fault. What status 0 wrote is judged by the oracle. Where the graph file was spoiled, that is done for a file the
oracle can read; the oracle doesn't look for faults of a graph.
"""
import os
import random
import re
import subprocess
import sys
import tempfile

import lines_oracle

LINES = {
    0: rb"",
    3: rb"fluxion: graph: (json|field [^ \n]+ (missing|kind|small|large|text)|no root|cycle [0-9]+|(node|edge|vertices|kinds|roots|depth"
    rb"|nested|reserved|pool child|sized|large|loose|no id|id|name|ranks) [0-9]+)\n",
    4: rb"fluxion: read fault\n",
    7: rb"fluxion: limit: (lines|line-bytes|clients|barred) [0-9]+\n",
}
BYTES = b"\x00\x09\x0a\x0d\x20\x22\x2c\x2d\x2e\x30\x31\x39\x3a\x45\x5b\x5c\x5d\x65\x7b\x7d\x7f\x80\xbf\xc0\xe2\xed\xef\xf0\xff"


def spoiled(mixed, data):
    """The bytes with a piece cut out, with a piece twice, or with up to five bytes changed."""
    how = mixed.randrange(3)
    if not data:
        return data
    if how == 2:
        changed = bytearray(data)
        for _ in range(mixed.randint(1, 5)):
            changed[mixed.randrange(len(changed))] = mixed.choice([mixed.randrange(256), mixed.choice(BYTES)])
        return bytes(changed)
    start = mixed.randrange(len(data))
    end = mixed.choice([len(data), min(len(data), start + mixed.randint(1, 64))])
    if how == 1:
        return data[:end] + data[start:]
    return data[:start] + data[end:]


def case(seed):
    """A graph file, an input, the words behind them, and whether the graph file was spoiled."""
    mixed = random.Random(f"hostile {seed}")
    graph, data, horizon = lines_oracle.make(seed, 5 + seed % 40, mixed.choice([None, None, 2, 64]))
    which = mixed.randrange(3)
    if which != 1:
        data = spoiled(mixed, data)
    if which != 0:
        graph = spoiled(mixed, graph)
    return graph, data, horizon, which != 0


def answer_is_wrong(graph, data, horizon, wrote, was_spoiled):
    """Why what was written can't be an answer; None where it can be, or where nobody can tell."""
    try:
        read = lines_oracle.Graph(graph)
    except Exception as fault:  # a file that the oracle wasn't made for
        return None if was_spoiled else f"the oracle can't read the graph: {fault!r}"
    got = wrote.decode().splitlines(keepends=True)
    wanted, wrong = lines_oracle.judged(read, data, lines_oracle.HORIZON if horizon is None else horizon, "rfc14", got)
    if wrong:
        return wrong
    at = next((i for i, (a, b) in enumerate(zip(got, wanted)) if a != b), None)
    if at is not None or len(got) != len(wanted):
        at = min(len(got), len(wanted)) if at is None else at
        return f"output line {at + 1}: told {got[at : at + 1]}, wanted {wanted[at : at + 1]}"
    return None


def run(program, graph, data, horizon, limit):
    """The status, what was written to standard output and to standard error; None where the run didn't end."""
    words = [] if horizon is None else ["--horizon", str(horizon)]
    with tempfile.TemporaryDirectory() as folder:
        path = os.path.join(folder, "graph.json")
        with open(path, "wb") as file:
            file.write(graph)
        try:
            ran = subprocess.run([program, "serve", path, *words], input=data, capture_output=True, timeout=limit)
        except subprocess.TimeoutExpired:
            return None
    return ran.returncode, ran.stdout, ran.stderr


def judged(program, seed, limit):
    """The status of the seed's run, and why the run is wrong, if it is."""
    graph, data, horizon, was_spoiled = case(seed)
    ran = run(program, graph, data, horizon, limit)
    if ran is None:
        return "none", f"did not end in {limit} seconds"
    status, wrote, said = ran
    if status not in LINES:
        return status, f"status {status}: {said[:200]!r}"
    if not re.fullmatch(LINES[status], said):
        return status, f"status {status} with the line {said[:200]!r}"
    if status != 0:
        if wrote:
            return status, f"status {status}, and {len(wrote)} bytes were written"
        return status, None if status != 3 or was_spoiled else f"a sound graph file has the fault {said!r}"
    return status, answer_is_wrong(graph, data, horizon, wrote, was_spoiled)


def main(words):
    program, first, last = words[0], int(words[1]), int(words[2])
    limit = float(words[3]) if len(words) > 3 else 10.0
    counts, bad = {}, 0
    for seed in range(first, last + 1):
        status, wrong = judged(program, seed, limit)
        counts[status] = counts.get(status, 0) + 1
        if wrong:
            bad += 1
            print(f"seed {seed}: {wrong}", flush=True)
    for status in sorted(counts, key=str):
        print(f"{counts[status]:7} runs ended with status {status}")
    print(f"{last + 1 - first} runs, {bad} of them wrong")
    return 1 if bad else 0


if __name__ == "__main__":
    sys.exit(main(sys.argv[1:]))
