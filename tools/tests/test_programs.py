"""Programs that run unproved: their list, and the copy of the crates in which they stand."""
import os
import re
import unittest

from helper import TOP, RtTest, text_of

from fluxtools import programs
from fluxtools.command import Fault

OF_THE_KIT = {"anyhow"}
PROVED = re.compile(r"\s*(requires|ensures|ghost use|#!?\[tactic|#\[cycle)\b")
# It makes a view of its own, and a trait of views has ghosts.
WITH_GHOSTS = "counted_steps/looking.rt.txt"


def sources():
    """The places of all sources below tools/programs, each with its lines."""
    top = os.path.join(TOP, programs.FOLDER)
    for name in sorted(programs.listed(text_of(os.path.join(TOP, programs.LIBRARIES)))):
        for source in sorted(os.listdir(os.path.join(top, name))):
            if source != programs.OUTPUT:
                yield f"{name}/{source}", text_of(os.path.join(top, name, source)).splitlines()


class Programs(RtTest):
    def setUp(self):
        super().setUp()
        self.own = programs.listed(text_of(os.path.join(TOP, programs.LIBRARIES)))

    def test_the_list_names_each_folder(self):
        top = os.path.join(TOP, programs.FOLDER)
        folders = [name for name in os.listdir(top) if os.path.isdir(os.path.join(top, name))]
        self.assertEqual(sorted(self.own), sorted(folders))

    def test_each_library_is_known(self):
        known = set(programs.listed(text_of(os.path.join(TOP, "crates.txt")))) | OF_THE_KIT
        for name, used in self.own.items():
            self.assertEqual([library for library in used if library not in known], [], name)
            known.add(name)  # lowest first: those below stand above

    def test_no_crate_has_such_a_name(self):
        self.assertEqual([name for name in self.own if os.path.exists(os.path.join(TOP, "crates", name))], [])

    def test_sources(self):
        for place, lines in sources():
            self.assertTrue(place.endswith(programs.SOURCE + programs.ENDING), place)
            wide = [number for number, line in enumerate(lines, 1) if len(line) > 120 and '"' not in line]
            self.assertEqual(wide, [], place)
            proved = [line for line in lines if PROVED.match(line) and place != WITH_GHOSTS]
            self.assertEqual(proved, [], place)

    def test_all_below_is_named_once(self):
        crates = "# words\nlow:\nmid may_wait=2: low kit\nhigh: mid low kit\n"
        own = "# words\nshared: mid\nprogram: shared high anyhow\n"
        wanted = "shared: mid low kit\nprogram: shared high anyhow mid low kit\n"
        self.assertEqual(programs.added_lines(own, crates), wanted)

    def test_a_copy(self):
        top, copy = self.small_top(), os.path.join(self.folder, "copy")
        os.mkdir(copy)
        programs.make_copy(top, copy)
        lines = "low: kit\nshared: low kit\nfirst: shared low kit\nsecond: low other kit\n"
        self.assertEqual(text_of(os.path.join(copy, "crates.txt")), lines)
        self.assertEqual(text_of(os.path.join(copy, "HANDLES")), "none")
        self.assertEqual(sorted(os.listdir(os.path.join(copy, "crates"))), ["first", "low", "second", "shared"])
        self.assertEqual(os.listdir(os.path.join(copy, "crates/low")), ["src"])
        crate = programs.crate_in(copy, "first")
        self.assertEqual((os.listdir(crate), os.listdir(os.path.join(crate, "src"))), (["src"], ["main.rt"]))
        self.assertEqual(text_of(os.path.join(crate, "src/main.rt")), "main of first")

    def test_what_is_stored(self):
        top = self.small_top()
        self.assertEqual(programs.with_output(top), ["first", "second"])
        self.assertEqual(programs.stored_output(top, "second"), "three\n")

    def test_a_folder_without_programs(self):
        with self.assertRaises(Fault):
            programs.with_output(self.folder)


if __name__ == "__main__":
    unittest.main()
