"""Programs that run unproved: those of tools/programs, in a copy of the crates."""
import os
import shutil
import subprocess
import sys

from fluxtools.command import Fault, counted, reason

FOLDER = os.path.join("tools", "programs")
LIBRARIES = os.path.join(FOLDER, "libraries.txt")
LIST = "crates.txt"
HANDLES = "HANDLES"
SOURCE = ".rt"
ENDING = ".txt"  # behind the name of a source, so that no check takes it for one
OUTPUT = "stdout"
MOST_SECONDS = 1800


def read(path):
    with open(path, encoding="utf-8") as file:
        return file.read()


def write(path, text):
    with open(path, "w", encoding="utf-8") as file:
        file.write(text)


def listed(lines):
    """The names of a list such as crates.txt, each with the libraries that stand behind it."""
    names = {}
    for line in lines.splitlines():
        if line and not line.startswith("#"):
            head, _, libraries = line.partition(":")
            names[head.split()[0]] = libraries.split()
    return names


def added_lines(own, crates):
    """The lines of crates.txt for what has a line of `own`, lowest first: the libraries there, and all below them."""
    known, lines = listed(crates), []
    for name, used in listed(own).items():
        lower = [below for library in used for below in known.get(library, ())]
        known[name] = list(dict.fromkeys([*used, *lower]))
        lines.append(f"{name}: {' '.join(known[name])}\n")
    return "".join(lines)


def with_output(top):
    """The names of the programs of which it is stored what they write."""
    folder = os.path.join(top, FOLDER)
    if not os.path.isdir(folder):
        raise Fault(folder, "is no folder")
    return sorted(name for name in os.listdir(folder) if os.path.isfile(os.path.join(folder, name, OUTPUT)))


def stored_output(top, name):
    """What a program has to write."""
    return read(os.path.join(top, FOLDER, name, OUTPUT))


def add_seconds(parser):
    """Adds the option of how long a run may take."""
    seconds = {"type": counted, "default": MOST_SECONDS, "metavar": "N"}
    parser.add_argument("--seconds", **seconds, help="most seconds of a run")


def refuse_others(names, known):
    """Refuses a name that isn't known."""
    for name in names:
        if name not in known:
            raise Fault(ascii(name), f"is none of {', '.join(known)}")


def make_copy(top, folder):
    """Copies the crates, without what checks left, and puts what stands in tools/programs beside them."""
    for name in (LIST, HANDLES):
        shutil.copy(os.path.join(top, name), folder)
    shutil.copytree(os.path.join(top, "crates"), os.path.join(folder, "crates"), ignore=shutil.ignore_patterns("out"))
    own = read(os.path.join(top, LIBRARIES))
    lines = read(os.path.join(folder, LIST))
    write(os.path.join(folder, LIST), lines + added_lines(own, lines))
    for name in listed(own):
        sources = os.path.join(top, FOLDER, name)
        made = os.path.join(crate_in(folder, name), "src")
        os.makedirs(made)
        for source in sorted(os.listdir(sources)):
            if source.endswith(SOURCE + ENDING):
                shutil.copy(os.path.join(sources, source), os.path.join(made, source.removesuffix(ENDING)))


def crate_in(folder, name):
    """The folder of a crate of the copy."""
    return os.path.join(folder, "crates", name)


def try_program(crate, words, seconds):
    """Runs a program on its words by `rt try`: without proofs, and with checks."""
    # One step of the interpreter, which can't run a program that reads words, and the compiled run alone is left.
    command = ["rt", "try", "--steps", "1", "--seconds", str(seconds), "--", *words]
    try:
        return subprocess.run(command, cwd=crate, stdin=subprocess.DEVNULL, capture_output=True, check=False)
    except OSError as error:
        raise Fault("rt", reason(error)) from None


def refuse_failed(place, ran):
    """Refuses a run that failed, and says what `rt` said of it."""
    if ran.returncode:
        sys.stderr.write(ran.stderr.decode(errors="replace"))
        raise Fault(place, f"rt try ended with status {ran.returncode}")
