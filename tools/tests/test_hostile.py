"""What tools/hostile.py says of programs that do what they must not."""
import os
import stat
import tempfile
import unittest

import helper  # puts tools/ on the path
import hostile


class Judged(unittest.TestCase):
    def judged(self, body, seed=1, limit=10):
        """The status and the fault of a program that is a shell script."""
        with tempfile.TemporaryDirectory() as folder:
            path = os.path.join(folder, "program")
            with open(path, "w") as file:
                file.write("#!/bin/sh\n" + body + "\n")
            os.chmod(path, os.stat(path).st_mode | stat.S_IXUSR)
            return hostile.judged(path, seed, limit)

    def seed(self, was_spoiled):
        """The first seed whose graph file was spoiled, or was not."""
        return next(seed for seed in range(1, 100) if hostile.case(seed)[3] == was_spoiled)

    def test_a_signal(self):
        self.assertEqual(self.judged("kill -9 $$")[0], -9)
        self.assertIsNotNone(self.judged("kill -9 $$")[1])

    def test_no_end(self):
        self.assertEqual(self.judged("exec sleep 5", limit=0.2), ("none", "did not end in 0.2 seconds"))

    def test_no_line(self):
        self.assertIsNotNone(self.judged("exit 3")[1])

    def test_a_fault_of_the_graph(self):
        body = "echo 'fluxion: graph: json' >&2; exit 3"
        self.assertIsNone(self.judged(body, self.seed(True))[1])
        self.assertIsNotNone(self.judged(body, self.seed(False))[1])

    def test_bytes_with_a_fault(self):
        body = "echo 'fluxion: graph: json' >&2; echo x; exit 3"
        self.assertIsNotNone(self.judged(body, self.seed(True))[1])

    def test_a_wrong_answer(self):
        self.assertIsNotNone(self.judged("echo '0 1 a absent 1'", self.seed(False))[1])


class Spoiled(unittest.TestCase):
    def test_each_seed_makes_one_case(self):
        self.assertEqual(hostile.case(7), hostile.case(7))
        self.assertNotEqual(hostile.case(7), hostile.case(8))

    def test_most_texts_are_others(self):
        mixed = hostile.random.Random(1)
        others = [hostile.spoiled(mixed, b"0123456789") for _ in range(100)]
        self.assertGreater(sum(other != b"0123456789" for other in others), 80)


if __name__ == "__main__":
    unittest.main()
