"""The worked rows are such that the gate always finds the same output."""
import os
import re
import unittest

from helper import tool

ANSWER = re.compile(rb"[0-9]+ [0-9]+ (\S+) ")


class Rows(unittest.TestCase):
    def setUp(self):
        self.rows = tool("rows")

    def test_each_row_has_lines_of_one_client(self):
        """Lines of several clients are answered in any order that keeps that of each."""
        answered = 0
        for row in self.rows.rows_of([]):
            answers = map(ANSWER.match, self.rows.bytes_of(row, "stdout").splitlines())
            clients = {answer[1] for answer in answers if answer}
            self.assertLessEqual(len(clients), 1, row)
            answered += len(clients)
        self.assertGreater(answered, 0)

    def test_the_stored_output_has_each_row(self):
        with open(os.path.join(self.rows.CRATE, "stdout")) as stored:
            self.assertEqual([f"{row} ok" for row in self.rows.rows_of([])], stored.read().splitlines())


if __name__ == "__main__":
    unittest.main()
