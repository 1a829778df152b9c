"""Pictures of journals: what docs/TOOLS.md says of examples/lines.txt, and journals that are written here by hand."""
import json
import re
import tempfile
import time
import unittest
import xml.etree.ElementTree as xml

from helper import ToolTest, data, example, text_of

LINES, TWO, JOURNAL = example("lines.txt"), example("two-nodes.json"), data("lines-journal.txt")
SVG = "{http://www.w3.org/2000/svg}"


def answer(at, client, number, start, end, rows, hosts, verb="allocated"):
    """A line of a journal that accepts a job; rows are (ranks, cores)."""
    lite = [{"children": {"core": cores} if cores else {}, "rank": ranks} for ranks, cores in rows]
    execution = {"R_lite": lite, "expiration": end, "nodelist": hosts, "starttime": start}
    return f"{at} {at + 1} {client} {verb} {number} {start} {json.dumps({'execution': execution, 'version': 1})}\n"


def site(nodes, cores):
    """A graph file of nodes `n0`, `n1` and so on."""
    vertices, edges = [{"id": "c", "metadata": {"type": "cluster"}}], []
    for at in range(nodes):
        vertices.append({"id": f"n{at}", "metadata": {"type": "node", "name": f"n{at}"}})
        edges.append({"source": "c", "target": f"n{at}"})
        for core in range(cores):
            vertices.append({"id": f"n{at}c{core}", "metadata": {"type": "core", "id": core}})
            edges.append({"source": f"n{at}", "target": f"n{at}c{core}"})
    return json.dumps({"graph": {"nodes": vertices, "edges": edges}})


class Drawing:
    """An SVG picture that was read."""

    def __init__(self, text):
        self.top = xml.fromstring(text)
        self.words = [own.text for own in self.top.iter(f"{SVG}text")]

    def paths(self, kind):
        """The paths of a kind, each with its title."""
        return [
            (own.find(f"{SVG}title").text if own.find(f"{SVG}title") is not None else None, own.get("d"))
            for own in self.top.iter(f"{SVG}path") if own.get("class", "").split()[0] == kind
        ]

    def boxes(self, job, kind="bar"):
        """The boxes of a job's bars, each (left, top, width, height)."""
        found = [
            own.get("d") for own in self.top.iter(f"{SVG}path")
            if own.get("class", "").split()[:1] == ["bar"] and ("gone" in own.get("class")) == (kind == "gone")
            and own.find(f"{SVG}title").text.startswith(f"job {job} ")
        ]
        box = r"M([\d.]+) ([\d.]+)h([\d.]+)v([\d.]+)h-[\d.]+z"
        return [tuple(map(float, numbers)) for path in found for numbers in re.findall(box, path)]


class Pictures(ToolTest):
    def draw(self, *words, **more):
        """A picture that a tool drew."""
        return Drawing(self.told("schedule", *words, **more))

    def test_bars_are_as_long_as_jobs_and_as_high_as_cores(self):
        for by in ("node", "core"):
            drawn = self.draw(TWO, JOURNAL, "--by", by)
            upper, lower = drawn.boxes(1)
            [other] = drawn.boxes(2)
            self.assertAlmostEqual(upper[2] / other[2], 60 / 30, places=3)
            self.assertAlmostEqual(upper[0] + upper[2], other[0], places=1)
            self.assertAlmostEqual(upper[3] / other[3], 3 / 4, places=3)
            self.assertEqual(upper[3], lower[3])
            self.assertEqual(upper[1], other[1])
            self.assertGreater(lower[1], other[1] + other[3] - 0.01)
            names_of_cores = 2 if by == "core" else 0
            self.assertEqual(drawn.words.count("1"), 2 + names_of_cores)
            for words in ("a: 1 job", "b: 1 job", "node0", "node1", "2 jobs of 2 clients on 2 nodes"):
                self.assertIn(words, drawn.words)

    def test_marks_without_the_input(self):
        drawn = self.draw(TWO, stdin=text_of(JOURNAL))
        [(title, _)] = drawn.paths("refused")
        self.assertEqual(title, "at 0\nline 2: a exists\nline 3: a unsatisfiable\nline 4: b busy")
        self.assertEqual([title for title, _ in drawn.paths("cancelled")], ["at 60\nline 8: a cancelled a job"])
        self.assertIn("1 cancelling: which jobs they gave back, only the input tells (--input)", drawn.words)

    def test_marks_with_the_input(self):
        drawn = self.draw(TWO, JOURNAL, "--input", LINES)
        [(title, _)] = drawn.paths("refused")
        self.assertEqual(title, "at 0\nline 2: a job 1 exists\nline 4: b job 2 busy")
        self.assertEqual([title for title, _ in drawn.paths("cancelled")], ["at 60\nline 8: a cancelled job 1"])
        self.assertFalse(any("cancelling" in words for words in drawn.words))

    def test_moves(self):
        drawn = self.draw(TWO, JOURNAL)
        self.assertEqual([title for title, _ in drawn.paths("move")], ["the present moment: 0"])
        self.assertEqual([title for title, _ in drawn.paths("now")], ["the present moment: 60"])
        self.assertIn("now 60s", drawn.words)

    def test_a_running_job_that_is_cancelled_ends_there(self):
        journal = answer(0, "a", 7, 0, 100, [("0", "0-3")], ["node0"]) + "1 2 a now 40\n2 3 a cancelled\n"
        with open(self.file("in"), "w") as file:
            file.write("a allocate 7 {}\na advance 40\na cancel 7\n")
        drawn = self.draw(TWO, "--input", self.file("in"), stdin=journal)
        [bar], [gone] = drawn.boxes(7), drawn.boxes(7, "gone")
        self.assertAlmostEqual(bar[2] / gone[2], 40 / 60, places=3)
        self.assertAlmostEqual(bar[0] + bar[2], gone[0], places=1)
        self.assertEqual(len(drawn.paths("cancelled")), 2)

    def file(self, name):
        """A path in a folder that goes with the test."""
        if not hasattr(self, "folder"):
            self.folder = tempfile.TemporaryDirectory()
            self.addCleanup(self.folder.cleanup)
        return f"{self.folder.name}/{name}"

    def test_jobs_without_cores_and_without_an_end(self):
        ten_years = 315_360_000
        journal = answer(0, "a", 1, 0, ten_years, [("0", "")], ["node0"])
        journal += answer(1, "a", 2, 0, 100, [("1", "0")], ["node1"])
        drawn = self.draw(TWO, stdin=journal)
        [without], [other] = drawn.boxes(1), drawn.boxes(2)
        self.assertAlmostEqual(without[2] / other[2], 1.1, places=3)
        self.assertAlmostEqual(without[3] / other[3], 4, places=3)
        self.assertIn("1 job goes on past 1m50s", drawn.words)

    def test_part_of_the_time(self):
        drawn = self.draw(TWO, JOURNAL, "--from", "30", "--until", "75")
        (upper, _), [other] = drawn.boxes(1), drawn.boxes(2)
        self.assertAlmostEqual(upper[2] / other[2], 2, places=3)

    def test_nothing_to_draw(self):
        self.assertIn("0 jobs of 0 clients on 2 nodes", self.draw(TWO).words)

    def test_it_stands_alone(self):
        text = self.told("schedule", TWO, JOURNAL)
        self.assertEqual(re.findall(r"https?://[^\"]*", text), ["http://www.w3.org/2000/svg"])
        self.assertNotIn("href", text)
        self.assertNotIn("<script", text)

    def test_names_are_escaped(self):
        graph = site(1, 1).replace('"name": "n0"', '"name": "<&\\">"')
        with open(self.file("graph"), "w") as file:
            file.write(graph)
        self.assertIn('<&">', self.draw(self.file("graph")).words)

    def test_a_thousand_nodes(self):
        with open(self.file("graph"), "w") as file:
            file.write(site(1000, 8))
        journal = ""
        for at in range(500):
            start, ranks = 10 * (at // 10), f"{at % 10 * 100}-{at % 10 * 100 + 99}"
            journal += answer(at, f"c{at % 64}", at, start, start + 10, [(ranks, "0-7")], [f"n[{ranks}]"])
        began = time.process_time()
        text = self.told("schedule", self.file("graph"), stdin=journal)
        self.assertLess(time.process_time() - began, 10)
        drawn = Drawing(text)
        self.assertEqual([len(drawn.boxes(job)) for job in (0, 499)], [1, 1])
        names = [words for words in drawn.words if re.fullmatch("n[0-9]+", words)]
        self.assertEqual(names, [f"n{at}" for at in range(0, 1000, 10)])
        self.assertLess(float(drawn.top.get("height")), 2000)

    def test_the_picture_of_the_readme(self):
        words = [example("site.json"), data("day-journal.txt"), "--input", example("day.txt")]
        self.assertEqual(self.told("schedule", *words), text_of(example("../docs/pictures/day.svg")))


class Texts(ToolTest):
    def test_by_node(self):
        self.assertEqual(self.told("schedule", TWO, JOURNAL, "--text", "--width", "51"), (
            "      0              30s            60s\n"
            "      '                             |\n"
            "node0 AAAAAAAAAAAAAAAAAAAAAAAAAAAAAABBBBBBBBBBBBBBB\n"
            "node1 AAAAAAAAAAAAAAAAAAAAAAAAAAAAAA...............\n"
            "\n"
            "   job  client  start  end  cores  nodes  hosts\n"
            "A    1  a           0   60      6      2  node[0-1]\n"
            "B    2  b          60   90      4      1  node0\n"
            "\n"
            ". free, * several jobs, ' and | where the present..\n"
            "refused: busy 1, exists 1, unsatisfiable 1\n"
            "1 cancelling: which jobs they gave back, only the..\n"
        ))

    def test_by_core(self):
        out = self.told("schedule", TWO, JOURNAL, "--text", "--width", "105", "--by", "core", "--input", LINES)
        self.assertEqual([line[:15].strip() for line in out.splitlines()[2:6]],
                         ["node0 core 0-2", "node0 core 3", "node1 core 0-2", "node1 core 3"])
        rows = [line[15:] for line in out.splitlines()[2:6]]
        self.assertEqual(rows, ["A" * 60 + "B" * 30, "." * 60 + "B" * 30, "A" * 60 + "." * 30, "." * 90])
        self.assertIn("A    1  a           0   60      6      2  node[0-1]  cancelled at 60\n", out)

    def test_nodes_that_tell_the_same_share_a_row(self):
        journal = answer(0, "a", 1, 0, 10, [("0-1", "0")], ["node[0-1]"])
        journal += answer(1, "a", 2, 5, 10, [("0", "1")], ["node0"])
        rows = self.told("schedule", TWO, "--text", "--width", "46", stdin=journal).splitlines()
        self.assertEqual(rows[2:4], ["node0 " + "A" * 20 + "*" * 20, "node1 " + "A" * 40])
        journal = answer(0, "a", 1, 0, 10, [("0-1", "0")], ["node[0-1]"])
        rows = self.told("schedule", TWO, "--text", "--width", "50", stdin=journal).splitlines()
        self.assertEqual(rows[2], "node[0-1] " + "A" * 40)

    def test_width(self):
        for width in (40, 79, 200):
            out = self.told("schedule", TWO, JOURNAL, "--text", "--width", str(width), "--by", "core")
            self.assertTrue(all(len(line) <= width for line in out.splitlines()))


class Faults(ToolTest):
    def test_words(self):
        for words, wanted in (
            ([], "GRAPH: is missing"),
            ([TWO, "--by", "rack"], "--by: invalid choice: 'rack' (choose from 'node', 'core')"),
            ([TWO, "--width", "10"], "--width: 10 is not from 40 to 20000"),
            ([TWO, JOURNAL, "--from", "90"], "--from: 90 is not before the last second, 90"),
            (["-", "-"], "standard input: can be read once only"),
            ([LINES], f"{LINES}: is no graph file; `fluxion graph` says what is wrong"),
            ([TWO, "/nonexistent"], "/nonexistent: No such file or directory"),
        ):
            self.assertEqual(self.refused("schedule", *words), wanted)

    def test_graphs(self):
        graph = json.loads(site(2, 1))
        own = [node["metadata"] for node in graph["graph"]["nodes"] if node["metadata"]["type"] == "node"]
        for change, wanted in (
            ({"rank": 0}, "is no graph file; `fluxion graph` says what is wrong"),
            ({"rank": "x"}, "is no graph file; `fluxion graph` says what is wrong"),
            ({"name": 7}, "is no graph file; `fluxion graph` says what is wrong"),
        ):
            before = dict(own[0])
            own[0].update(change)
            told = self.refused("schedule", "-", JOURNAL, stdin=json.dumps(graph))
            self.assertEqual(told, f"standard input: {wanted}")
            own[0].clear()
            own[0].update(before)
        own[0]["rank"] = own[1]["rank"] = 3
        self.assertEqual(self.refused("schedule", "-", JOURNAL, stdin=json.dumps(graph)),
                         "standard input: two nodes have one rank")
        self.assertEqual(self.refused("schedule", "-", JOURNAL, stdin='{"graph":{"nodes":[],"edges":[]}}'),
                         "standard input: has no node")

    def test_journals(self):
        good = answer(0, "a", 1, 0, 10, [("0", "0")], ["node0"])
        for journal, wanted in (
            ("hello\n", "1: is no line POSITION LINE CLIENT REPLY: 'hello'"),
            ("0 1 a now 5\n\n", "2: is no line POSITION LINE CLIENT REPLY: ''"),
            ("0 1 a frob\n", "1: 'frob' is no reply"),
            ("0 1 a now\n", "1: 'now' is no reply"),
            ("0 1 a now x\n", "1: 'x' is no number"),
            ("0 1 a now 5\n1 2 a now 4\n", "2: the present moment goes back from 5"),
            ("0 1 a allocated 1 0 {}\n", "1: has no R of version 1 behind its start"),
            (good + good, "2: job 1 was accepted before"),
            (good.replace('"expiration": 10', '"expiration": "x"'),
             "1: its R has another start than 0, or no end behind it"),
            (good.replace('"starttime": 0', '"starttime": 5'),
             "1: its R has another start than 0, or no end behind it"),
            (good.replace('"node0"', '"node[0-1]"'), "1: its R has not as many hosts as ranks"),
            (good.replace('"rank": "0"', '"rank": "9"'), "1: rank 9 is no node of the graph"),
            (good.replace('"core": "0"', '"core": "3-4"'), "1: rank 0 has not all cores from 3 to 4 in the graph"),
        ):
            self.assertEqual(self.refused("schedule", TWO, stdin=journal), f"standard input:{wanted}")

    def test_another_input(self):
        self.assertEqual(
            self.refused("schedule", TWO, "--input", LINES, stdin="0 5 a cancelled\n"),
            "standard input:1: line 5 of the input is no cancel",
        )


if __name__ == "__main__":
    unittest.main()
