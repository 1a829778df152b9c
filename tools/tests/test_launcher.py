"""The script `fluxion`, with a small program in the place of the one that it runs."""
import os
import shutil
import stat
import subprocess
import tempfile
import unittest

from helper import TOP


class Launcher(unittest.TestCase):
    def setUp(self):
        folder = tempfile.TemporaryDirectory()
        self.addCleanup(folder.cleanup)
        self.script = shutil.copy(os.path.join(TOP, "fluxion"), folder.name)
        built = os.path.join(folder.name, "crates", "fluxion", "out")
        os.makedirs(built)
        program = os.path.join(built, "fluxion")
        with open(program, "w") as file:
            file.write('#!/bin/sh\necho "$GLIBC_TUNABLES" "$@"\nexit 3\n')
        os.chmod(program, os.stat(program).st_mode | stat.S_IXUSR)

    def told(self, **more):
        """What the program tells of its words and of the variable, and its status."""
        own = {name: value for name, value in os.environ.items() if name != "GLIBC_TUNABLES"}
        ran = subprocess.run([self.script, "load", "a b"], env={**own, **more}, capture_output=True, text=True)
        self.assertEqual(ran.stderr, "")
        return ran.stdout, ran.returncode

    def test_words_status_and_large_pages(self):
        self.assertEqual(self.told(), ("glibc.malloc.hugetlb=1 load a b\n", 3))

    def test_a_caller_chooses_for_himself(self):
        for chosen in ("glibc.malloc.hugetlb=0", ""):
            self.assertEqual(self.told(GLIBC_TUNABLES=chosen), (f"{chosen} load a b\n", 3))
