"""The oracle's judgement of an output of several clients, by the order that its column LINE names."""
import os
import subprocess
import sys
import tempfile
import unittest

from helper import TOOLS, ToolTest, example, oracle

LINES, TWO = example("lines.txt"), example("two-nodes.json")


def judged(output):
    """What the oracle says of an output: nothing where it may be the program's."""
    with tempfile.NamedTemporaryFile("w", suffix=".txt") as file:
        file.write(output)
        file.flush()
        command = [sys.executable, os.path.join(TOOLS, "lines_oracle.py"), "judge", TWO, LINES, file.name]
        return subprocess.run(command, stdout=subprocess.PIPE).stdout.decode()


def in_order(order):
    """What answers the lines of examples/lines.txt in an order of their numbers."""
    script = (
        "import lines_oracle as o, sys\n"
        f"graph = o.Graph(open({TWO!r}, 'rb').read())\n"
        f"sys.stdout.writelines(o.answers(graph, open({LINES!r}, 'rb').read(), o.HORIZON, 'rfc14', {order}))\n"
    )
    ran = subprocess.run([sys.executable, "-c", script], stdout=subprocess.PIPE, check=True, cwd=TOOLS)
    return ran.stdout.decode()


class Judge(ToolTest):
    """Lines 1 to 3, 6 and 8 are of client a, the others of b."""

    def test_the_order_of_the_input(self):
        self.assertEqual(judged(oracle(TWO, LINES)), "")

    def test_another_order_of_the_clients(self):
        order = [4, 1, 5, 2, 3, 7, 6, 8]
        output = in_order(order)
        self.assertEqual([int(line.split()[1]) for line in output.splitlines()], order)
        self.assertEqual(judged(output), "")

    def test_lines_of_a_client_exchanged(self):
        self.assertIn("of client a are answered in the other order", judged(in_order([2, 1, 3, 4, 5, 6, 7, 8])))

    def test_a_line_dropped_or_twice(self):
        wrong = "the column LINE doesn't have each line once\n"
        self.assertEqual(judged(in_order([1, 2, 3, 4, 5, 6, 7])), wrong)
        self.assertEqual(judged(in_order([1, 1, 2, 3, 4, 5, 6, 7, 8])), wrong)
        self.assertEqual(judged(""), wrong)

    def test_answers_of_another_order(self):
        lines = oracle(TWO, LINES).splitlines(keepends=True)
        first, fourth = (line.split(" ", 2) for line in (lines[0], lines[3]))
        lines[0] = " ".join([first[0], fourth[1], fourth[2]])
        lines[3] = " ".join([fourth[0], first[1], first[2]])
        self.assertNotEqual(judged("".join(lines)), "")


if __name__ == "__main__":
    unittest.main()
