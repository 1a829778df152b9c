#!/usr/bin/env python3
"""Measures the program: how long it takes, how much memory, and how both grow with the input.

  tools/bench.py                          every bench, with the program that ./fluxion built, as ./fluxion runs it
  tools/bench.py --only load,satisfy --scale 0.1
  tools/bench.py --beside /path/to/other  a second program on the same inputs, run in turn with the first

Each bench is run at half of its size and at the whole of it. Of the runs of a size the fastest is told: seconds of the
processor (user and system), seconds by the clock, the most memory that was resident, in megabytes, and lines a second.
`growth` is g where twice the input takes 2^g times the seconds: 1 grows with the input, 2 with its square. A run that
takes longer than --seconds is ended, and told as such. With --beside the last column says whether both programs wrote
the same.

The inputs are made anew each time, always the same for a size; nothing else should run on the machine meanwhile. Memory
is looked at every few milliseconds, so a peak at the very end of a run may be missed.
"""
import argparse
import hashlib
import math
import os
import subprocess
import sys
import tempfile
import time

from fluxtools.benches import BENCHES
from fluxtools.command import Fault, Parser, counted, finish, reason

USAGE = """tools/bench.py [--program PATH] [--beside PATH] [--only NAME,..] [--scale X] [--runs N] [--seconds N]"""
TOP = os.path.dirname(os.path.dirname(os.path.realpath(__file__)))
PROGRAM = os.path.join(TOP, "fluxion")
BUILT = os.path.join(TOP, "crates", "fluxion", "out", "fluxion")
HEAD = ("bench", "size", "program", "cpu s", "clock s", "MB", "a second", "growth", "output")
LOOK = 0.004  # seconds between two looks at a run's memory


class Run:
    """What one run took."""

    def __init__(self, cpu, clock, memory, digest, ended):
        self.cpu = cpu
        self.clock = clock
        self.memory = memory
        self.digest = digest
        self.ended = ended


def names(text):
    """Names of benches, for argparse."""
    chosen = text.split(",")
    for name in chosen:
        if name not in BENCHES:
            raise argparse.ArgumentTypeError(f"{ascii(name)} is none of {', '.join(BENCHES)}")
    return chosen


def share(text):
    """A part of the whole size, for argparse."""
    try:
        value = float(text)
    except ValueError:
        value = math.nan
    if not 0 < value <= 100:
        raise argparse.ArgumentTypeError(f"{ascii(text)} is no number above 0, and at most 100")
    return value


def peak_of(process):
    """The most memory that a process had resident so far, in kilobytes; none once it has ended."""
    try:
        with open(f"/proc/{process.pid}/status") as status:
            for line in status:
                if line.startswith("VmHWM:"):
                    return int(line.split()[1])
    except OSError:
        pass
    return 0


def watch(process, started, most_seconds):
    """Waits for a process, and ends it once it took too long: its greatest memory, and whether it was ended."""
    peak, ended = 0, False
    while os.waitid(os.P_PID, process.pid, os.WEXITED | os.WNOHANG | os.WNOWAIT) is None:
        peak = max(peak, peak_of(process))
        if time.monotonic() - started > most_seconds and not ended:
            process.kill()
            ended = True
        time.sleep(LOOK)
    return peak, ended


def digest_of(path):
    """A digest of a file's bytes."""
    own = hashlib.sha256()
    with open(path, "rb") as file:
        for piece in iter(lambda: file.read(1 << 20), b""):
            own.update(piece)
    return own.hexdigest()


def run_once(command, input_path, output_path, most_seconds):
    """Runs a command over files, and says what it took."""
    with open(input_path, "rb") as lines, open(output_path, "wb") as output:
        started = time.monotonic()
        try:
            process = subprocess.Popen(command, stdin=lines, stdout=output, stderr=subprocess.PIPE)
        except OSError as error:
            raise Fault(command[0], reason(error)) from None
        with process.stderr:
            peak, ended = watch(process, started, most_seconds)
            _, status, usage = os.wait4(process.pid, 0)
            clock = time.monotonic() - started
            process.returncode = os.waitstatus_to_exitcode(status)
            told = process.stderr.read(200).decode(errors="replace").strip()
    if process.returncode != 0 and not ended:
        raise Fault(command[0], f"ended with status {process.returncode}: {told}")
    return Run(usage.ru_utime + usage.ru_stime, clock, peak / 1024, digest_of(output_path), ended)


def write_pieces(path, pieces, end=""):
    """Writes texts one after another, each with this end."""
    with open(path, "w") as file:
        for piece in pieces:
            file.write(piece + end)


def sized(whole, scale):
    """Half of a size and the whole of it, both scaled."""
    full = max(2, round(whole * scale))
    return full // 2, full


def fastest(programs, name, size, chosen, folder):
    """Of each program its fastest run of a bench at a size; the programs take turns."""
    bench = BENCHES[name][0](size)
    graph, lines, output = (os.path.join(folder, own) for own in ("graph.json", "lines.txt", "output"))
    write_pieces(graph, bench.graph)
    write_pieces(lines, bench.lines, "\n")
    words = bench.words if bench.words[0] == "load" else [*bench.words, graph]
    best = {}
    for _ in range(chosen.runs):
        for program in programs:
            run = run_once([program, *words], lines, output, chosen.seconds)
            if program not in best or run.cpu < best[program].cpu:
                best[program] = run
    return best


def growth(before, after):
    """By which power the seconds grow where the input doubles, as a text."""
    if before is None or before.ended or after.ended or before.cpu < 0.02:
        return "-"
    return f"{math.log2(max(after.cpu, 0.001) / before.cpu):.2f}"


def compared(runs):
    """What the outputs of all programs say of one another."""
    if len(runs) < 2 or any(run.ended for run in runs):
        return "-"
    return "same" if len({run.digest for run in runs}) == 1 else "DIFFER"


def row(name, size, program, run, before, others):
    """The cells of a run."""
    start = (name, f"{size:,}", os.path.basename(program))
    if run.ended:
        return (*start, "ended", f"{run.clock:.2f}", f"{run.memory:.0f}", "-", "-", "-")
    speed = f"{size / run.cpu:,.0f}" if run.cpu > 0 else "-"
    return (*start, f"{run.cpu:.2f}", f"{run.clock:.2f}", f"{run.memory:.0f}", speed, growth(before, run), others)


def measure(chosen):
    """The rows of the table, bench by bench."""
    programs = [chosen.program] + ([chosen.beside] if chosen.beside else [])
    with tempfile.TemporaryDirectory(prefix="bench-") as folder:
        for name in chosen.only:
            before = {}
            for size in sized(BENCHES[name][1], chosen.scale):
                best = fastest(programs, name, size, chosen, folder)
                others = compared(list(best.values()))
                for program in programs:
                    yield row(name, size, program, best[program], before.get(program), others)
                before = best


def line_of(cells):
    """A line of the table."""
    widths = (9, 8, 16, 8, 8, 7, 11, 7, 6)
    shown = [
        cell[:width].ljust(width) if at in (0, 2) else cell.rjust(width)
        for at, (cell, width) in enumerate(zip(cells, widths))
    ]
    return " ".join(shown).rstrip()


def main(words):
    parser = Parser("bench.py", __doc__, USAGE)
    parser.add_argument("--program", default=PROGRAM, metavar="PATH", help="the program; default: ./fluxion")
    parser.add_argument("--beside", metavar="PATH", help="a program that takes the same words, measured in turn")
    known = ", ".join(BENCHES)
    parser.add_argument("--only", type=names, default=list(BENCHES), metavar="NAME,..", help=f"benches, of {known}")
    parser.add_argument("--scale", type=share, default=1.0, metavar="X", help="part of the whole sizes; default: 1")
    parser.add_argument("--runs", type=counted, default=1, metavar="N", help="runs of each size; default: 1")
    parser.add_argument("--seconds", type=counted, default=300, metavar="N", help="most seconds of a run; default: 300")
    chosen = parser.parse_args(words)
    if chosen.program == PROGRAM and not os.path.exists(BUILT):
        raise Fault(BUILT, "isn't built; ./fluxion builds it")
    print(line_of(HEAD), flush=True)
    for cells in measure(chosen):
        print(line_of(cells), flush=True)


if __name__ == "__main__":
    sys.exit(finish("bench.py", main, sys.argv[1:]))
