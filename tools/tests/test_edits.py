"""Must-fail edits: that each can be applied, and how those are tried that the gate leaves out, with a small `rt`."""
import os
import re
import stat
import tempfile

from helper import TOP, ToolTest, text_of, tool


class Edits(ToolTest):
    def setUp(self):
        folder = tempfile.TemporaryDirectory()
        self.addCleanup(folder.cleanup)
        self.top = folder.name
        self.tool = tool("edits")

    def write(self, path, text):
        path = os.path.join(self.top, path)
        os.makedirs(os.path.dirname(path), exist_ok=True)
        with open(path, "w") as file:
            file.write(text)
        return path

    def with_rt(self, text):
        """Puts a program `rt` of this text for the shell on the path."""
        path = self.write("bin/rt", f"#!/bin/sh\n{text}\n")
        os.chmod(path, os.stat(path).st_mode | stat.S_IXUSR)
        before = os.environ["PATH"]
        self.addCleanup(os.environ.__setitem__, "PATH", before)
        os.environ["PATH"] = f"{os.path.dirname(path)}:{before}"

    def edits(self):
        """Each edit of the repository: its crate, its name, and its text."""
        for crate in sorted(os.listdir(os.path.join(TOP, "crates"))):
            for folder in (f"crates/{crate}/must-fail", f"tools/more_edits/{crate}"):
                folder = os.path.join(TOP, folder)
                for name in sorted(os.listdir(folder)) if os.path.isdir(folder) else []:
                    yield crate, name, text_of(os.path.join(folder, name))

    def test_each_can_be_applied(self):
        seen = set()
        for crate, name, text in self.edits():
            with self.subTest(crate=crate, edit=name):
                self.assertRegex(name, "^[a-z0-9_]+[.]edit$")
                self.assertNotIn((crate, name), seen)
                seen.add((crate, name))
                told = re.sub(r"(?m)^#.*\n", "", text)
                file = re.fullmatch(r"file: (src/\S+[.]rt)\n((?:old: .+\nnew: .*\n)+)", told)
                self.assertIsNotNone(file)
                code = text_of(os.path.join(TOP, "crates", crate, file[1]))
                for old in re.findall("(?m)^old: (.+)$", file[2]):
                    self.assertEqual(code.count(old), 1, old)
        self.assertGreater(len(seen), 100)

    def test_no_crate_has_more_than_ten_in_the_gate(self):
        for crate in os.listdir(os.path.join(TOP, "crates")):
            folder = os.path.join(TOP, "crates", crate, "must-fail")
            self.assertLessEqual(len(os.listdir(folder)) if os.path.isdir(folder) else 0, 10, crate)

    def test_those_of_a_crate_stand_among_the_others_for_a_while(self):
        own = self.write("crates/low/must-fail/own.edit", "own\n")
        self.write("tools/more_edits/low/more.edit", "more\n")
        self.write("tools/more_edits/low/notes.txt", "no edit\n")
        self.write("tools/more_edits/high/other.edit", "other\n")
        os.makedirs(os.path.join(self.top, "crates/high"))
        self.with_rt('echo "$1 $2" $(ls crates/$2/must-fail) >> seen')
        self.assertEqual(self.tool.crates_in(self.top), ["high", "low"])
        for crate in ("low", "high"):
            self.assertTrue(self.tool.try_edits(self.top, crate))
        seen = text_of(os.path.join(self.top, "seen"))
        self.assertEqual(seen, "must-fail low more.edit own.edit\nmust-fail high other.edit\n")
        self.assertEqual(os.listdir(os.path.dirname(own)), ["own.edit"])
        self.assertFalse(os.path.exists(os.path.join(self.top, "crates/high/must-fail")))

    def test_what_is_not_refused(self):
        self.write("tools/more_edits/low/more.edit", "more\n")
        os.makedirs(os.path.join(self.top, "crates/low"))
        self.with_rt("exit 1")
        self.assertFalse(self.tool.try_edits(self.top, "low"))
        self.assertFalse(os.path.exists(os.path.join(self.top, "crates/low/must-fail")))

    def test_a_name_twice(self):
        own = self.write("crates/low/must-fail/own.edit", "own\n")
        self.write("tools/more_edits/low/own.edit", "more\n")
        with self.assertRaises(self.tool.Fault):
            self.tool.try_edits(self.top, "low")
        self.assertEqual(text_of(own), "own\n")
