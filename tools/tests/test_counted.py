"""Steps that count: what is changed in a copy of the crates, and what runs there, with a small program for `rt`."""
import os

from helper import TOP, RtTest, run, text_of, tool

STEPS = os.path.join(TOP, "crates/flux_defs/src/steps.rt")


class Counted(RtTest):
    def setUp(self):
        super().setUp()
        self.tool = tool("counted")

    def test_each_text_that_is_replaced_stands_once(self):
        text = text_of(STEPS)
        for old, new in self.tool.PIECES:
            self.assertEqual((text.count(old), text.count(new)), (1, 0))
        made = self.tool.counting(text)
        for part in ("    count: u64,\n}", " count: 0,\n", "self.count = self.count + 1;", "fn count(&self) -> u64"):
            self.assertEqual(made.count(part), 1)
        # what was there stays, but for the line of the fields
        kept = [line for line in text.splitlines() if line != "        Steps { book, share }"]
        left = iter(made.splitlines())
        self.assertTrue(all(line in left for line in kept))

    def test_another_text_is_refused(self):
        text = text_of(STEPS)
        for other in ("", text.replace("book.add", "book.put"), text + text):
            with self.assertRaises(self.tool.Fault):
                self.tool.counting(other)

    def test_a_copy_counts(self):
        program = {
            "crates/flux_defs/src/steps.rt": text_of(STEPS),
            "tools/programs/libraries.txt": "counted_steps: low\n",
            "tools/programs/counted_steps/main.rt.txt": "main",
        }
        top, copy = self.small_top(program), os.path.join(self.folder, "copy")
        os.mkdir(copy)
        crate = self.tool.make_copy(top, copy)
        self.assertIn("self.count", text_of(os.path.join(copy, "crates/flux_defs/src/steps.rt")))
        self.assertEqual(text_of(os.path.join(top, "crates/flux_defs/src/steps.rt")), text_of(STEPS))
        self.assertEqual(text_of(os.path.join(crate, "src/main.rt")), "main")

    def test_a_run(self):
        self.with_rt('echo "$@"; ls src | grep main; grep -c self.count ../flux_defs/src/steps.rt')
        status, out, err = run("counted", "--seconds", "7", "cases", "busy")
        self.assertEqual(status, 0, err)
        told = [f"try --steps 1 --seconds 7 -- {word}\nmain.rt\n2\n" for word in ("cases", "busy")]
        self.assertEqual(out, "".join(told))
        self.assertEqual(err.count("not proved"), 2)

    def test_a_run_that_fails(self):
        self.with_rt("echo a fault >&2; exit 4")
        status, out, err = run("counted", "cases")
        self.assertEqual((status, out), (2, ""))
        self.assertTrue(err.endswith("a fault\ntools/counted: cases: rt try ended with status 4\n"), err)

    def test_an_unknown_word(self):
        self.assertEqual(self.refused("counted", "steps"), "'steps': is none of commits, busy, behind, cases, looks")
