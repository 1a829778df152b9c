#!/usr/bin/python3
"""Refuses each request for memory of a built program in turn, one a run, and says how the runs ended.

refused.py PROGRAM [OPTION ..] -- [WORD ..]    the words are the program's; standard input is empty, or --input FILE

--first N, --last N, --step N    which requests are refused, counted from 1; all without them
--beside N                       how many runs there are at once, 2 without it
--limit SECONDS                  how long a run may take, 10 without it
--same                           each run has to end as without a refusal

A request is a call of malloc, calloc, realloc or their kin, or of a thread. tools/refuse.c counts and refuses them; it
is compiled with cc into a folder that is gone at the end. A run has to end by no signal, with status 0 and the whole
answer, or with status 6, its line of docs/FORMATS.md and a front of the answer. Where clients of `serve` take their
lines in another order, the oracle says whether the answer is whole. Each run that did otherwise is printed.
"""
import argparse
import concurrent.futures
import os
import subprocess
import sys
import tempfile

import hostile

HERE = os.path.dirname(os.path.realpath(__file__))
MEMORY = b"fluxion: out of memory\n"


def compiled(folder):
    """The path of what refuses, compiled."""
    path = os.path.join(folder, "refuse.so")
    source = os.path.join(HERE, "refuse.c")
    subprocess.run(["cc", "-O2", "-shared", "-fPIC", "-o", path, source, "-ldl"], check=True)
    return path


class Trial:
    """A call of a program of which each request may be refused."""

    def __init__(self, command, data, limit, refuser, folder):
        self.command, self.data, self.limit = command, data, limit
        self.refuser, self.folder = refuser, folder

    def run(self, number):
        """The status, what was written to standard output and to standard error, and how many requests were made."""
        told = os.path.join(self.folder, f"count-{number}")
        with_it = {**os.environ, "LD_PRELOAD": self.refuser, "REFUSE": str(number), "REFUSE_COUNT": told}
        try:
            ran = subprocess.run(self.command, input=self.data, capture_output=True, timeout=self.limit, env=with_it)
        except subprocess.TimeoutExpired:
            return None, b"", b"", 0
        count = 0
        if os.path.exists(told):
            with open(told, "rb") as file:
                count = int.from_bytes(file.read(), sys.byteorder)
            os.remove(told)
        return ran.returncode, ran.stdout, ran.stderr, count

    def is_whole(self, wrote, whole):
        """Whether this is an answer to the call, as `whole` is."""
        if wrote == whole:
            return True
        if len(self.command) < 3 or self.command[1] != "serve":
            return False
        with open(self.command[2], "rb") as file:
            return hostile.answer_is_wrong(file.read(), self.data, None, wrote, False) is None

    def judged(self, ended, whole, same):
        """How a run ended, in words, and whether it may end so."""
        status, wrote, said, _ = ended
        if status is None:
            return f"no end in {self.limit} seconds", False
        if status == 0:
            fits = self.is_whole(wrote, whole) and said == b""
            return ("status 0, the whole answer" if fits else "status 0, another answer"), fits
        if status == 6 and said == MEMORY and whole.startswith(wrote):
            return f"status 6, {'a front' if wrote else 'nothing'} written", not same
        return f"status {status}, {len(wrote)} bytes written, {said[:200]!r}", False


def main(words):
    known = argparse.ArgumentParser(description=__doc__, formatter_class=argparse.RawDescriptionHelpFormatter)
    known.add_argument("program")
    known.add_argument("--input")
    known.add_argument("--first", type=int, default=1)
    known.add_argument("--last", type=int)
    known.add_argument("--step", type=int, default=1)
    known.add_argument("--beside", type=int, default=2)
    known.add_argument("--limit", type=float, default=10.0)
    known.add_argument("--same", action="store_true")
    cut = words.index("--") if "--" in words else len(words)
    given = known.parse_args(words[:cut])
    data = b""
    if given.input:
        with open(given.input, "rb") as file:
            data = file.read()
    with tempfile.TemporaryDirectory() as folder:
        command = [os.path.abspath(given.program), *words[cut + 1 :]]
        trial = Trial(command, data, given.limit, compiled(folder), folder)
        status, whole, said, count = trial.run(0)
        if status != 0 or said or not count:
            print(f"refused.py: without a refusal: status {status}, {said!r}, {count} requests", file=sys.stderr)
            return 2
        last = count if given.last is None else given.last
        ends, bad = {}, 0
        with concurrent.futures.ThreadPoolExecutor(given.beside) as pool:
            numbers = range(given.first, last + 1, given.step)
            for number, ended in zip(numbers, pool.map(trial.run, numbers)):
                end, right = trial.judged(ended, whole, given.same)
                ends[end] = ends.get(end, 0) + 1
                if not right:
                    bad += 1
                    print(f"request {number} refused: {end}", flush=True)
    print(f"{count} requests, {sum(ends.values())} runs, {bad} wrong")
    for end in sorted(ends):
        print(f"{ends[end]} {end}")
    return 1 if bad else 0


if __name__ == "__main__":
    sys.exit(main(sys.argv[1:]))
