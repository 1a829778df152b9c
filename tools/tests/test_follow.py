"""What tools/follow says of journals, counted by hand."""
import tempfile
import unittest

from helper import ToolTest, data, example, text_of
from test_schedule import answer

LINES, TWO, JOURNAL = example("lines.txt"), example("two-nodes.json"), data("lines-journal.txt")


def step(first, last, cores, jobs, waiting, gpus=0):
    """A step as JSON has it."""
    return {"first": first, "last": last, "cores": cores, "gpus": gpus, "jobs": jobs, "waiting": waiting}


class Tables(ToolTest):
    def test_table(self):
        self.assertEqual(self.told("follow", JOURNAL, "--graph", TWO), (
            "answers   8: allocated 1, busy 1, cancelled 1, exists 1, info 1, now 1, reserved 1, unsatisfiable 1\n"
            "jobs      2 accepted, 1 cancelled (which ones, only --input tells)\n"
            "refused   3: busy 1, exists 1, unsatisfiable 1\n"
            "wait      mean 30.0 s over 2 jobs, greatest 60 s (job 2 of b, line 5)\n"
            "site      8 cores, 0 gpus\n"
            "\n"
            "from  to  cores  most  jobs  waiting\n"
            "   0  60      6     6     1        1  ######################\n"
            "  60  90      4     4     1        0  ###############\n"
        ))

    def test_input(self):
        out = self.told("follow", "--input", LINES, stdin=text_of(JOURNAL))
        self.assertIn("jobs      2 accepted, 1 cancelled\nrefused   2: busy 1, exists 1\n", out)

    def test_few_rows(self):
        out = self.told("follow", JOURNAL, "--rows", "1")
        self.assertEqual(out.splitlines()[-1].split()[:6], ["0", "90", "5.3", "6", "1", "1"])  # (60 * 6 + 30 * 4) / 90

    def test_nothing(self):
        self.assertEqual(
            self.told("follow"),
            "answers   0: none\njobs      0 accepted, 0 cancelled\nrefused   0: none\nwait      no job got a start\n\n"
            "from  to  cores  most  jobs  waiting\n",
        )


class Facts(ToolTest):
    def test_lines(self):
        self.assertEqual(self.json("follow", JOURNAL, "--json", "--graph", TWO, "--input", LINES), {
            "answers": {"allocated": 1, "busy": 1, "cancelled": 1, "exists": 1, "info": 1, "now": 1, "reserved": 1,
                        "unsatisfiable": 1},
            "accepted": 2,
            "cancelled": 1,
            "refused": {"busy": 1, "exists": 1},
            "wait": {"jobs": 2, "mean": 30.0, "greatest": 60, "job": 2},
            "cores": 8,
            "gpus": 0,
            "steps": [step(0, 60, 6, 1, 1), step(60, 90, 4, 1, 0)],
        })

    def test_cancelled_jobs(self):
        """Job 1 is cancelled while it runs, job 2 before its start, job 3 after its end."""
        journal = (
            answer(0, "a", 1, 0, 100, [("0-1", "0-3")], ["node[0-1]"])
            + answer(1, "b", 2, 100, 200, [("0", "0-1")], ["node0"], "reserved")
            + answer(2, "b", 3, 0, 10, [("0", "0"), ("1", "0-1")], ["node[0-1]"])
            + "3 4 a now 40\n4 5 a cancelled\n5 6 b cancelled\n6 7 b cancelled\n"
        )
        with open(self.input(), "w") as file:
            file.write("a allocate 1 {}\nb reserve 2 {}\nb allocate 3 {}\na advance 40\n")
            file.write("a cancel 1\nb cancel 2\nb cancel 3\n")
        told = self.json("follow", "--json", "--input", self.input(), stdin=journal)
        self.assertEqual(told["steps"], [step(0, 10, 11, 2, 1), step(10, 40, 8, 1, 1)])
        self.assertEqual(told["wait"], {"jobs": 2, "mean": 0.0, "greatest": 0, "job": 1})
        without = self.json("follow", "--json", stdin=journal)
        self.assertEqual(without["steps"], [step(0, 10, 11, 2, 1), step(10, 100, 8, 1, 1), step(100, 200, 2, 1, 0)])
        self.assertEqual(without["wait"], {"jobs": 3, "mean": 100 / 3, "greatest": 100, "job": 2})

    def input(self):
        """A path for an input, which goes with the test."""
        if not hasattr(self, "folder"):
            self.folder = tempfile.TemporaryDirectory()
            self.addCleanup(self.folder.cleanup)
        return f"{self.folder.name}/input"

    def test_waits_count_from_the_present_moment(self):
        journal = "0 1 a now 30\n" + answer(1, "a", 5, 90, 100, [("0", "0")], ["node0"], "reserved")
        told = self.json("follow", "--json", stdin=journal)
        self.assertEqual(told["wait"], {"jobs": 1, "mean": 60.0, "greatest": 60, "job": 5})
        self.assertEqual(told["steps"], [step(0, 30, 0, 0, 0), step(30, 90, 0, 0, 1), step(90, 100, 1, 1, 0)])

    def test_causes(self):
        journal = (
            "0 1 - invalid client\n1 2 a invalid field attributes.system.duration kind\n"
            "2 3 a invalid shape nested node core\n3 4 a invalid profile resources[0].*\n"
            "4 5 a busy\n5 6 a busy\n6 7 a toolong\n7 8 a absent\n"
        )
        told = self.json("follow", "--json", stdin=journal)
        self.assertEqual(told["refused"], {
            "busy": 2, "invalid client": 1, "invalid field kind": 1, "invalid profile": 1, "invalid shape nested": 1,
            "toolong": 1,
        })
        self.assertEqual(told["answers"], {"absent": 1, "busy": 2, "invalid": 4, "toolong": 1})

    def test_gpus(self):
        journal = answer(0, "a", 1, 0, 9, [("0", "0")], ["node0"])
        journal = journal.replace('{"core": "0"}', '{"core": "0", "gpu": "0-2"}')
        self.assertEqual(self.json("follow", "--json", stdin=journal)["steps"], [step(0, 9, 1, 1, 0, gpus=3)])
        self.assertIn("gpus", self.told("follow", stdin=journal))


class Faults(ToolTest):
    def test_faults(self):
        for words, stdin, wanted in (
            (["--rows", "0"], "", "--rows: 0 is not from 1 to 70368744177664"),
            (["a", "b"], "", "b: is no option or word of this tool; --help lists them"),
            (["-", "--input", "-"], "", "standard input: can be read once only"),
            (["--graph", TWO], answer(0, "a", 1, 0, 9, [("7", "0")], ["n7"]),
             "standard input:1: rank 7 is no node of the graph"),
            (["--input", LINES], "0 1 a cancelled\n", "standard input:1: line 1 of the input is no cancel"),
            (["--input", LINES], "0 8 a cancelled\n",
             "standard input:1: job 1 is no accepted job that could be cancelled"),
            ([JOURNAL, "--graph", LINES], "", f"{LINES}: is no graph file; `fluxion graph` says what is wrong"),
        ):
            self.assertEqual(self.refused("follow", *words, stdin=stdin), wanted)


if __name__ == "__main__":
    unittest.main()
