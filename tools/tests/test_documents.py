"""The pages that a stranger reads: their lengths, their links, and that what they name is there."""
import os
import re
import unittest

from helper import TOP, text_of

README = "README.md"
MEASUREMENTS = "docs/MEASUREMENTS.md"
ARCHITECTURE = "docs/ARCHITECTURE.md"
DECISIONS = "docs/DECISIONS.md"
PROMISES = "docs/PROMISES.md"
PAGES = (README, MEASUREMENTS, ARCHITECTURE, DECISIONS, PROMISES, "docs/TOOLS.md", "docs/WORKING.md")
MOST_LINES = {README: 120, MEASUREMENTS: 300}
MOST_COLUMNS = 130
MOST_CELL = 200
MOST_DECISION = 6
LINK = re.compile(r"\]\(([^)#\s]+)(?:#[^)]*)?\)")
PLACE = re.compile(r"`((?:tools|crates|docs|examples)/[A-Za-z0-9_./-]+)`")
# What tells of an earlier state, and no order of what happens now.
DIARY = re.compile(r"since then|\bof before\b|(?:^|[.:] )Before,|\| Before\b|\bused to\b", re.I)


def page(name):
    return text_of(os.path.join(TOP, name))


def lines_of(name):
    """The lines of a page with their numbers and whether they stand in a block of code."""
    code = False
    for number, line in enumerate(page(name).splitlines(), 1):
        if line.startswith("```"):
            code = not code
            continue
        yield number, line, code


def all_pages():
    """Every page of the repository, but for what was built."""
    for folder, folders, names in os.walk(TOP):
        folders[:] = [own for own in folders if own not in (".git", "out")]
        for name in sorted(names):
            if name.endswith(".md"):
                yield os.path.relpath(os.path.join(folder, name), TOP)


def rows(name):
    """The cells of each row of the tables of a page."""
    for number, line, code in lines_of(name):
        if line.startswith("|") and not code:
            yield number, [cell.strip() for cell in re.split(r"(?<!\\)\|", line.strip("|"))]


class Lengths(unittest.TestCase):
    def test_pages(self):
        for name, most in MOST_LINES.items():
            self.assertLessEqual(len(page(name).splitlines()), most, name)

    def test_lines(self):
        lines = enumerate(page(README).splitlines(), 1)
        self.assertEqual([number for number, line in lines if len(line) > MOST_COLUMNS], [])
        for name in PAGES:
            wide = [
                number
                for number, line, code in lines_of(name)
                if len(line) > MOST_COLUMNS and not code and not line.startswith("|")
            ]
            self.assertEqual(wide, [], name)

    def test_cells(self):
        for name in PAGES:
            wide = [number for number, cells in rows(name) if max(map(len, cells)) > MOST_CELL]
            self.assertEqual(wide, [], name)

    def test_decisions(self):
        long = [part.splitlines()[0] for part in page(DECISIONS).split("\n\n")
                if part.lstrip().startswith("**") and len(part.strip().splitlines()) > MOST_DECISION]
        self.assertEqual(long, [])


class Links(unittest.TestCase):
    def test_targets_are_there(self):
        gone = []
        for name in all_pages():
            for target in LINK.findall(page(name)):
                if "://" not in target and not os.path.exists(os.path.join(TOP, os.path.dirname(name), target)):
                    gone.append((name, target))
        self.assertEqual(gone, [])

    def test_named_places_are_there(self):
        gone = [
            (name, place)
            for name in PAGES
            for place in PLACE.findall(page(name))
            if not re.search(r"CRATE|NAME|LIBRARY|/out\b|\.\.", place) and not os.path.exists(os.path.join(TOP, place))
        ]
        self.assertEqual(gone, [])

    def test_readme_names_each_page(self):
        for name in sorted(os.listdir(os.path.join(TOP, "docs"))):
            if name.endswith(".md"):
                self.assertIn(f"(docs/{name})", page(README))


class Crates(unittest.TestCase):
    def test_each_has_one_row(self):
        found = [cells[0].strip("`") for _, cells in rows(ARCHITECTURE) if len(cells) == 4 and cells[0].startswith("`")]
        self.assertEqual(sorted(found), sorted(os.listdir(os.path.join(TOP, "crates"))))


class Diary(unittest.TestCase):
    def test_no_page_tells_what_was(self):
        told = [
            (name, number)
            for name in (*PAGES, "tools/programs/README.md")
            for number, line, code in lines_of(name)
            if DIARY.search(line) and not code
        ]
        self.assertEqual(told, [])


class Promises(unittest.TestCase):
    """The second or third cell of a row names functions as `crate::name`, and behind a colon their clauses."""

    def named(self):
        for number, cells in rows(PROMISES):
            for part in (part for cell in cells for part in cell.split(";")):
                functions = list(re.finditer(r"`([a-z_0-9]+)::([A-Za-z_]+)`", part))
                if functions:
                    behind = part[functions[-1].end() :]
                    clauses = re.findall(r"`([a-z_]+)`", behind) if behind.startswith(":") else []
                    yield number, [function.groups() for function in functions], clauses

    def source(self, crate):
        folder = os.path.join(TOP, "crates", crate, "src")
        self.assertTrue(os.path.isdir(folder), crate)
        return "\n".join(text_of(os.path.join(folder, name)) for name in sorted(os.listdir(folder)))

    def test_functions_and_clauses_are_there(self):
        promised = list(self.named())
        self.assertGreater(len(promised), 40)
        for number, functions, clauses in promised:
            text = "\n".join(self.source(crate) for crate, _ in functions)
            for crate, name in functions:
                found = re.search(rf"\b(?:fn|struct|trait|enum) {name}\b", self.source(crate))
                self.assertTrue(found, f"{PROMISES}:{number}: {crate}::{name}")
            gone = [clause for clause in clauses if not re.search(rf"ensures {clause}\b", text)]
            self.assertEqual(gone, [], f"{PROMISES}:{number}")

    def test_readme_names_what_is_there(self):
        for text, path in re.findall(r"\[`([a-z_]+)`\]\((crates/[^)]+)\)", page(README)):
            self.assertTrue(re.search(rf"pub fn {text}\b", page(path)), path)


class Names(unittest.TestCase):
    """What pages call a clause is one, and the walk of a line goes through functions that are there."""

    def setUp(self):
        self.sources = {}
        for crate in os.listdir(os.path.join(TOP, "crates")):
            folder = os.path.join(TOP, "crates", crate, "src")
            self.sources[crate] = "\n".join(text_of(os.path.join(folder, name)) for name in os.listdir(folder))

    def test_clauses(self):
        known = set(re.findall(r"ensures ([a-z_]+)\b", "\n".join(self.sources.values())))
        for name in PAGES:
            for listed in re.findall(r"\bclauses?\s((?:`[a-z_]+`(?:, |\sand )?)+)", page(name)):
                self.assertEqual([own for own in re.findall(r"`([a-z_]+)`", listed) if own not in known], [], name)

    def test_the_walk_of_a_line(self):
        walk = page(ARCHITECTURE).split("## How does a line become an answer?")[1].split("## ")[0]
        named = re.findall(r"\b([a-z_0-9]+)::([A-Za-z_]+)", walk)
        self.assertGreater(len(named), 10)
        for crate, name in named:
            self.assertTrue(re.search(rf"\b(?:fn|struct) {name}\b", self.sources[crate]), f"{crate}::{name}")


if __name__ == "__main__":
    unittest.main()
