"""How wide lines are: one of code, of a definition or of a proof ends at 120 columns, unless a text stands in it."""
import os
import unittest

from helper import TOP

MOST_COLUMNS = 120


def lines_of_crates():
    """Each line, with its place."""
    for crate in sorted(os.listdir(os.path.join(TOP, "crates"))):
        for part in ("src", "specs", "proofs"):
            for folder, _, names in os.walk(os.path.join(TOP, "crates", crate, part)):
                for name in sorted(names):
                    with open(os.path.join(folder, name), encoding="utf-8") as file:
                        for number, line in enumerate(file, 1):
                            yield f"{os.path.relpath(folder, TOP)}/{name}:{number}", line.rstrip("\n")


class Lines(unittest.TestCase):
    def test_only_lines_with_a_text_are_wider(self):
        lines = list(lines_of_crates())
        self.assertGreater(len(lines), 0)
        wider = [place for place, line in lines if len(line) > MOST_COLUMNS and '"' not in line]
        self.assertEqual(wider, [])


if __name__ == "__main__":
    unittest.main()
