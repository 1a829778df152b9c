"""Programs beside what they have to write, in a small checkout, with a small program for `rt`."""
import os

from helper import RtTest, run, text_of, tool


class Compared(RtTest):
    def setUp(self):
        super().setUp()
        top = self.small_top()
        compared = tool("compared")
        self.addCleanup(setattr, compared, "TOP", compared.TOP)
        compared.TOP = top
        # It writes what is stored of the program in whose folder it is run.
        self.stored = f"cat {top}/tools/programs/$(basename $PWD)/stdout"

    def test_all_of_which_the_output_is_stored(self):
        self.with_rt(self.stored)
        status, out, err = run("compared")
        self.assertEqual((status, out), (0, "first ok\nsecond ok\n"))
        self.assertEqual(err, "first, second: not proved; compiling takes one to two minutes each\n")

    def test_how_rt_is_called(self):
        told = os.path.join(self.folder, "told")
        self.with_rt(f'echo "$@" > {told}; cat src/main.rt ../shared/src/lib.rt >> {told}; {self.stored}')
        status, out, _ = run("compared", "--seconds", "7", "first")
        self.assertEqual((status, out), (0, "first ok\n"))
        self.assertEqual(text_of(told), "try --steps 1 --seconds 7 --\nmain of firstlib")

    def test_another_output(self):
        self.with_rt(f"{self.stored} | sed s/two/2/")
        status, out, err = run("compared", "second", "first")
        self.assertEqual(status, 2)
        told = ["second ok", "first differs", "--- wanted", "+++ found", "@@ -1,2 +1,2 @@", " one", "-two", "+2"]
        self.assertEqual(out.splitlines(), told)
        self.assertTrue(err.endswith("tools/compared: compared: not all wrote what is stored, as told above\n"), err)

    def test_differences(self):
        differences = tool("compared").differences
        self.assertEqual(differences("a\nb\n", "a\nb\n"), [])
        self.assertEqual(differences("a\nb\n", "a\nc\n")[-2:], ["-b", "+c"])
        self.assertEqual(differences("a\n", "a"), ["line ends differ"])

    def test_a_run_that_fails(self):
        self.with_rt("echo a fault >&2; exit 4")
        status, out, err = run("compared", "first")
        self.assertEqual((status, out), (2, ""))
        self.assertTrue(err.endswith("a fault\ntools/compared: first: rt try ended with status 4\n"), err)

    def test_an_unknown_name(self):
        self.assertEqual(self.refused("compared", "shared"), "'shared': is none of first, second")
