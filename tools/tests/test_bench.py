"""The benches: their inputs, and the table of what runs took, with small programs in the place of the real one."""
import json
import os
import stat
import tempfile

from helper import ToolTest, run, tool

KINDS = ("load", "wide", "overfull", "site", "crowded", "backlog", "gaps", "graph", "json", "written", "satisfy")


class Bench(ToolTest):
    def setUp(self):
        folder = tempfile.TemporaryDirectory()
        self.addCleanup(folder.cleanup)
        self.folder = folder.name
        self.benches = tool("bench.py").BENCHES

    def program(self, name, text):
        """A program of this text for the shell."""
        path = os.path.join(self.folder, name)
        with open(path, "w") as file:
            file.write(f"#!/bin/sh\n{text}\n")
        os.chmod(path, os.stat(path).st_mode | stat.S_IXUSR)
        return path

    def table(self, *words):
        """The cells of the table's rows, and the exit status."""
        status, out, err = run("bench.py", *words)
        self.assertEqual(err, "")
        return [line.split() for line in out.splitlines()], status

    def test_inputs_are_of_their_size_and_always_the_same(self):
        self.assertEqual(tuple(self.benches), KINDS)
        for name, (make, whole, counts) in self.benches.items():
            first, second = make(40), make(40)
            lines = list(first.lines)
            self.assertEqual(lines, list(second.lines))
            self.assertEqual(len(lines), 40 if counts == "lines" else 0)
            graph = "".join(first.graph)
            self.assertEqual(graph, "".join(second.graph))
            if name != "load":
                self.assertEqual(set(json.loads(graph)["graph"]), {"nodes", "edges"})
            self.assertTrue(whole > 40)

    def test_sizes_of_graphs(self):
        counted = {name: json.loads("".join(self.benches[name][0](60_000 if name == "graph" else 2).graph))
                   for name in KINDS if name != "load"}
        sizes = {name: len(graph["graph"]["nodes"]) for name, graph in counted.items()}
        self.assertEqual((sizes["wide"], sizes["overfull"], sizes["satisfy"]), (50_651, 50_651, 1_097))
        self.assertEqual((sizes["site"], sizes["crowded"]), (50_241, 50_241))
        self.assertTrue(55_000 < sizes["graph"] < 61_000, sizes["graph"])
        for graph in counted.values():
            self.assertEqual(len(graph["graph"]["edges"]), len(graph["graph"]["nodes"]) - 1)

    def test_jobspecs_are_json(self):
        for name in KINDS:
            for line in self.benches[name][0](30).lines:
                words = line.split(" ", 3)
                if words[1] in ("allocate", "reserve"):
                    self.assertEqual(set(json.loads(words[3])) & {"resources", "tasks"}, {"resources", "tasks"})

    def test_the_table(self):
        one, two = self.program("one", "cat >/dev/null; echo same"), self.program("two", "cat >/dev/null; echo same")
        rows, status = self.table("--program", one, "--beside", two, "--only", "satisfy,load", "--scale", "0.001")
        self.assertEqual(status, 0)
        self.assertEqual(rows[0][:3], ["bench", "size", "program"])
        self.assertEqual([(own[0], own[1], own[2], own[-1]) for own in rows[1:]], [
            (name, size, program, "same")
            for name in ("satisfy", "load") for size in ("10", "20") for program in ("one", "two")
        ])

    def test_outputs_that_differ(self):
        one, two = self.program("one", "echo a"), self.program("two", "echo b")
        rows, _ = self.table("--program", one, "--beside", two, "--only", "load", "--scale", "0.001")
        self.assertEqual([own[-1] for own in rows[1:]], ["DIFFER"] * 4)

    def test_a_run_that_takes_too_long_is_ended(self):
        slow = self.program("slow", "exec sleep 30")
        rows, status = self.table("--program", slow, "--only", "load", "--scale", "0.0001", "--seconds", "1")
        self.assertEqual((status, [own[3] for own in rows[1:]]), (0, ["ended", "ended"]))

    def test_what_is_refused(self):
        self.assertIn("none of load, wide", self.refused_bench("--only", "nothing"))
        self.assertIn("no number above 0", self.refused_bench("--scale", "0"))

    def refused_bench(self, *words):
        status, out, err = run("bench.py", *words)
        self.assertEqual((status, out, err.count("\n")), (2, "", 1))
        return err

    def test_a_program_that_fails(self):
        status, _, err = run("bench.py", "--program", self.program("bad", "echo no >&2; exit 3"), "--only", "load")
        self.assertEqual((status, "ended with status 3: no" in err), (2, True))
