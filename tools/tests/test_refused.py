"""Requests for memory that are refused: what the tool says of small programs in C, and of the built program."""
import contextlib
import io
import os
import shutil
import subprocess
import tempfile
import unittest

from helper import PROGRAM, TOP, example

import refused

BOOK_CALLS = os.path.join(TOP, "out/refused_growths")  # as tools/unproved --program refused_growths makes it

# It asks twice, and prints a line. Where the first answer is none it ends as the word says: well, or by a signal.
SMALL = r"""
#include <stdio.h>
#include <stdlib.h>
#include <string.h>
#include <unistd.h>
int main(int count, char **words) {
    char *volatile first = malloc(1000), *volatile second = malloc(2000);
    if ((first == NULL || second == NULL) && count > 1) {
        fputs("fluxion: out of memory\n", stderr);
        return 6;
    }
    strcpy(first, "whole\n");
    return write(1, first, 6) == 6 ? 0 : 5;
}
"""


def told(*words):
    """The status of the tool, and the lines that it prints."""
    with contextlib.redirect_stdout(io.StringIO()) as out:
        status = refused.main(list(words))
    return status, out.getvalue().splitlines()


@unittest.skipUnless(shutil.which("cc"), "no C compiler")
class Refused(unittest.TestCase):
    def setUp(self):
        room = tempfile.TemporaryDirectory()
        self.addCleanup(room.cleanup)
        self.small = os.path.join(room.name, "small")
        subprocess.run(["cc", "-O0", "-x", "c", "-o", self.small, "-"], input=SMALL.encode(), check=True)

    def test_a_program_that_says_so(self):
        status, lines = told(self.small, "--", "careful")
        self.assertEqual(status, 0)
        self.assertEqual(lines, ["2 requests, 2 runs, 0 wrong", "2 status 6, nothing written"])

    def test_a_program_that_does_not_look(self):
        status, lines = told(self.small)
        self.assertEqual(status, 1)
        fault = "status -11, 0 bytes written, b''"
        self.assertEqual(lines[:2], [f"request 1 refused: {fault}", "2 requests, 2 runs, 1 wrong"])
        self.assertEqual(lines[2:], [f"1 {fault}", "1 status 0, the whole answer"])

    def test_each_run_the_same(self):
        status, lines = told(self.small, "--same", "--last", "1", "--", "careful")
        self.assertEqual((status, lines[0]), (1, "request 1 refused: status 6, nothing written"))

    @unittest.skipUnless(os.path.exists(PROGRAM), "no program is built")
    def test_the_program(self):
        for words in (["serve", example("two-nodes.json")], ["graph", example("two-nodes.json")]):
            status, lines = told(PROGRAM, "--step", "9", "--input", example("first.txt"), "--", *words)
            self.assertEqual(status, 0, lines)
            self.assertTrue(lines[0].endswith(", 0 wrong"), lines)

    @unittest.skipUnless(os.path.exists(BOOK_CALLS), "no program of book calls is built")
    def test_calls_of_a_book(self):
        status, lines = told(BOOK_CALLS)
        self.assertEqual(status, 0, lines)
        self.assertTrue(lines[0].endswith(", 0 wrong"), lines)
        ends = [line.split(" ", 1)[1] for line in lines[1:]]
        self.assertEqual(ends, ["status 0, the whole answer", "status 6, nothing written"])


if __name__ == "__main__":
    unittest.main()
