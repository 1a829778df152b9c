"""Runs the tools as a shell would, within this process where that is enough."""
import contextlib
import importlib.machinery
import importlib.util
import io
import json
import os
import stat
import subprocess
import sys
import tempfile
import unittest

TESTS = os.path.dirname(os.path.realpath(__file__))
TOOLS = os.path.dirname(TESTS)
TOP = os.path.dirname(TOOLS)
PROGRAM = os.path.join(TOP, "crates/fluxion/out/fluxion")
EXAMPLES = os.path.join(TOP, "examples")
DATA = os.path.join(TESTS, "data")

sys.dont_write_bytecode = True
sys.path.insert(0, TOOLS)
ENVIRONMENT = {**os.environ, "PYTHONDONTWRITEBYTECODE": "1"}
LOADED = {}


def tool(name):
    """A tool as a module."""
    if name not in LOADED:
        loader = importlib.machinery.SourceFileLoader(f"tool_{name}", os.path.join(TOOLS, name))
        LOADED[name] = importlib.util.module_from_spec(importlib.util.spec_from_loader(loader.name, loader))
        loader.exec_module(LOADED[name])
    return LOADED[name]


def run(name, *words, stdin=""):
    """The status, standard output and standard error of a tool."""
    command = tool(name)
    streams = [io.TextIOWrapper(io.BytesIO(own), encoding="utf-8") for own in (stdin.encode(), b"", b"")]
    before, sys.stdin = sys.stdin, streams[0]
    try:
        with contextlib.redirect_stdout(streams[1]), contextlib.redirect_stderr(streams[2]):
            status = command.finish(name, command.main, list(words))
    finally:
        sys.stdin = before
    for stream in streams[1:]:
        stream.flush()
    return (status, *(stream.buffer.getvalue().decode() for stream in streams[1:]))


def shell(name, *words, stdin="", **more):
    """The same in a process of its own."""
    command = [os.path.join(TOOLS, name), *words]
    more = {"stdout": subprocess.PIPE, **more}
    made = subprocess.run(command, input=stdin.encode(), stderr=subprocess.PIPE, env=ENVIRONMENT, **more)
    return made.returncode, (made.stdout or b"").decode(), made.stderr.decode()


class ToolTest(unittest.TestCase):
    """A test of a tool, with what all of them ask."""

    def told(self, name, *words, stdin=""):
        """What a tool writes, which has to go well."""
        status, out, err = run(name, *words, stdin=stdin)
        self.assertEqual((status, err), (0, ""))
        return out

    def json(self, name, *words, stdin=""):
        """The JSON that a tool writes in one line."""
        out = self.told(name, *words, stdin=stdin)
        self.assertEqual(out.count("\n"), 1)
        return json.loads(out)

    def refused(self, name, *words, stdin=""):
        """What a tool says of a fault: one line after its name, status 2, and nothing on standard output."""
        status, out, err = run(name, *words, stdin=stdin)
        self.assertEqual((status, out), (2, ""))
        self.assertEqual(err.count("\n"), 1)
        self.assertTrue(err.startswith(f"tools/{name}: ") and err.endswith("\n"), err)
        return err[len(f"tools/{name}: ") : -1]


# A checkout with one crate, two programs that run unproved, and a library of theirs.
SMALL = {
    "crates.txt": "low: kit\n",
    "HANDLES": "none",
    "crates/low/src/lib.rt": "low",
    "crates/low/out/kept": "",
    "tools/programs/libraries.txt": "# words\nshared: low\nfirst: shared\nsecond: low other\n",
    "tools/programs/shared/lib.rt.txt": "lib",
    "tools/programs/first/main.rt.txt": "main of first",
    "tools/programs/first/stdout": "one\ntwo\n",
    "tools/programs/second/main.rt.txt": "main of second",
    "tools/programs/second/stdout": "three\n",
}


class RtTest(ToolTest):
    """A test of a tool that calls `rt`, in whose place a small program stands."""

    def setUp(self):
        folder = tempfile.TemporaryDirectory()
        self.addCleanup(folder.cleanup)
        self.folder = folder.name

    def with_rt(self, text):
        """Puts a program `rt` of this text for the shell on the path."""
        path = os.path.join(self.folder, "rt")
        with open(path, "w") as file:
            file.write(f"#!/bin/sh\n{text}\n")
        os.chmod(path, os.stat(path).st_mode | stat.S_IXUSR)
        before = os.environ["PATH"]
        self.addCleanup(os.environ.__setitem__, "PATH", before)
        os.environ["PATH"] = f"{self.folder}:{before}"

    def small_top(self, more=()):
        """Makes a small checkout, with more files."""
        top = os.path.join(self.folder, "top")
        for path, text in {**SMALL, **dict(more)}.items():
            path = os.path.join(top, path)
            os.makedirs(os.path.dirname(path), exist_ok=True)
            with open(path, "w") as file:
                file.write(text)
        return top


def oracle(graph, lines, *words):
    """What the other model of the program answers, which is at hand without a build."""
    command = [sys.executable, os.path.join(TOOLS, "lines_oracle.py"), "answer", graph, lines, *words]
    return subprocess.run(command, stdout=subprocess.PIPE, check=True, env=ENVIRONMENT).stdout.decode()


def example(name):
    """The path of an example."""
    return os.path.join(EXAMPLES, name)


def data(name):
    """The path of a file that only tests need."""
    return os.path.join(DATA, name)


def text_of(path):
    """The text of a file."""
    with open(path) as file:
        return file.read()
