"""What README and docs/TOOLS.md print of the program and its tools is what they print."""
import os
import tempfile
import unittest

from helper import TOP, ToolTest, example, oracle, text_of

README = os.path.join(TOP, "README.md")
TOOLS = os.path.join(TOP, "docs/TOOLS.md")


class Examples(ToolTest):
    """The answers are those of the other model of the program, which is at hand without a build."""

    def test_the_first_answer(self):
        folded = text_of(README).split("```")[5]
        answer = oracle(example("two-nodes.json"), example("first.txt"))
        self.assertEqual("".join(folded.split()), "".join(answer.split()))

    def test_replies(self):
        for graph, lines in (
            ("two-nodes.json", "one-client.txt"),
            ("two-nodes.json", "lines.txt"),
            ("four-nodes.json", "memory.txt"),
        ):
            self.assertIn(f"```\n{oracle(example(graph), example(lines))}```\n", text_of(TOOLS))

    def test_the_example_to_copy_has_one_client(self):
        clients = {line.split()[0] for line in text_of(example("one-client.txt")).splitlines()}
        self.assertEqual(clients, {"a"})

    def test_from_a_machine_to_a_picture(self):
        page = text_of(TOOLS)
        with tempfile.TemporaryDirectory() as folder:
            graph, lines, journal = (os.path.join(folder, name) for name in ("site.json", "lines.txt", "journal.txt"))
            words = ["--hosts", "node[0-7]", "--property", "fast:4-7"]
            self.told("graph", example("machine.xml"), *words, "-o", graph)
            with open(lines, "w") as file:
                for start, options in (
                    ("ann allocate 1", "-N4 -t 2h"),
                    ("ann allocate 2", "-n6 -c2 -t 1h"),
                    ("ann reserve 3", "-N2 -n8 -t 30m --requires fast"),
                ):
                    self.assertIn(f'echo "{start} $(tools/jobspec {options} -- app)"\n', page)
                    file.write(f"{start} {self.told('jobspec', *options.split(), '--', 'app')}")
            with open(journal, "w") as file:
                file.write(oracle(graph, lines))
            self.assertIn(self.told("schedule", graph, journal, "--text", "--width", "90"), page)
            self.assertIn(self.told("follow", journal, "--graph", graph), page)

    def test_a_jobspec(self):
        words = "-N2 -n4 -c2 -g1 -t 1h --exclusive --requires properties:gpu,^bad -- app args".split()
        self.assertIn(self.told("jobspec", *words), text_of(TOOLS))


if __name__ == "__main__":
    unittest.main()
