"""The edge of the tools: called from anywhere, a full disk, a closed pipe, the program that is built."""
import glob
import os
import re
import resource
import signal
import subprocess
import tempfile
import unittest

from helper import PROGRAM, TOOLS, ToolTest, data, example, shell, text_of


class Shell(ToolTest):
    def test_from_another_folder(self):
        for name in ("jobspec", "graph", "schedule", "follow", "definitions", "counted"):
            status, out, err = shell(name, "--help", cwd="/")
            self.assertEqual((status, err), (0, ""))
            self.assertTrue(out.startswith(f"usage: tools/{name} "), out)
            self.assertTrue(all(len(line) <= 120 for line in out.splitlines()))

    def test_through_a_link(self):
        with tempfile.TemporaryDirectory() as folder:
            link = os.path.join(folder, "spec")
            os.symlink(os.path.join(TOOLS, "jobspec"), link)
            made = subprocess.run([link, "-N1", "app"], stdout=subprocess.PIPE, cwd=folder)
        self.assertEqual(made.stdout.decode(), self.told("jobspec", "-N1", "app"))

    def test_a_full_disk_behind_standard_output(self):
        with open("/dev/full", "w") as full:
            status, _, err = shell("graph", "--nodes", "1", "--cores", "1", stdout=full)
        self.assertEqual((status, err), (2, "tools/graph: standard output: No space left on device\n"))

    def test_no_utf_8(self):
        made = subprocess.run([os.path.join(TOOLS, "jobspec"), "-N", b"\xff"], stderr=subprocess.PIPE)
        wanted = b"tools/jobspec: -N/--nodes: '\\udcff' is no whole number\n"
        self.assertEqual((made.returncode, made.stderr), (2, wanted))


class Files(ToolTest):
    def setUp(self):
        folder = tempfile.TemporaryDirectory()
        self.addCleanup(folder.cleanup)
        self.folder, self.path = folder.name, os.path.join(folder.name, "out.json")

    def test_a_file_is_written(self):
        out = self.told("graph", "--nodes", "1", "--cores", "1")
        self.assertEqual(self.told("graph", "--nodes", "1", "--cores", "1", "-o", self.path), "")
        self.assertEqual(text_of(self.path), out)
        self.assertEqual(os.listdir(self.folder), ["out.json"])
        mask = os.umask(0)
        os.umask(mask)
        self.assertEqual(os.stat(self.path).st_mode & 0o777, 0o666 & ~mask)

    def test_a_file_that_is_there_keeps_its_rights(self):
        with open(self.path, "w") as file:
            file.write("before")
        os.chmod(self.path, 0o640)
        self.told("jobspec", "-o", self.path, "app")
        self.assertEqual(text_of(self.path), self.told("jobspec", "app"))
        self.assertEqual(os.stat(self.path).st_mode & 0o777, 0o640)

    def test_a_link_stays_a_link(self):
        link = os.path.join(self.folder, "link")
        os.symlink(self.path, link)
        self.told("jobspec", "-o", link, "app")
        self.assertTrue(os.path.islink(link))
        self.assertEqual(text_of(self.path), self.told("jobspec", "app"))

    def test_a_disk_that_is_too_small(self):
        """No file can grow past 4,096 bytes, so the graph's 70 kB can't be written; what was there stays."""
        with open(self.path, "w") as file:
            file.write("before")

        def small_disk():
            signal.signal(signal.SIGXFSZ, signal.SIG_IGN)
            resource.setrlimit(resource.RLIMIT_FSIZE, (4096, 4096))

        words = ["--nodes", "100", "--cores", "10", "-o", self.path]
        status, out, err = shell("graph", *words, preexec_fn=small_disk)
        self.assertEqual((status, out, err), (2, "", f"tools/graph: {self.path}: File too large\n"))
        self.assertEqual(text_of(self.path), "before")
        self.assertEqual(os.listdir(self.folder), ["out.json"])

    def test_a_folder_that_is_not_there(self):
        wanted = "/nonexistent/out.json: No such file or directory"
        self.assertEqual(self.refused("jobspec", "-o", "/nonexistent/out.json", "app"), wanted)
        self.assertEqual(self.refused("jobspec", "-o", self.folder, "app"), f"{self.folder}: Is a directory")

    def test_a_device(self):
        self.told("jobspec", "-o", "/dev/null", "app")
        self.assertTrue(os.path.exists("/dev/null") and not os.path.isfile("/dev/null"))


class Sources(unittest.TestCase):
    def test_lines_are_short(self):
        paths = [os.path.join(TOOLS, name) for name in ("jobspec", "graph", "schedule", "follow", "definitions")]
        for folder in ("fluxtools", "tests"):
            paths += glob.glob(os.path.join(TOOLS, folder, "*.py"))
        for path in paths:
            for at, line in enumerate(text_of(path).splitlines()):
                self.assertLessEqual(len(line), 120, f"{path}:{at + 1}")


@unittest.skipUnless(os.access(PROGRAM, os.X_OK), "the program isn't built")
class Program(ToolTest):
    """From a machine to a picture, through the program."""

    def serve(self, graph, lines):
        """What the program answers to lines of one client, whose order is that of the input."""
        pipes = {"stdout": subprocess.PIPE, "stderr": subprocess.PIPE}
        made = subprocess.run([PROGRAM, "serve", graph], input=lines.encode(), **pipes)
        self.assertEqual((made.returncode, made.stderr), (0, b""))
        return made.stdout.decode()

    def test_journals_of_the_other_tests(self):
        for graph, lines, journal in (
            ("two-nodes.json", "lines.txt", "lines-journal.txt"),
            ("site.json", "day.txt", "day-journal.txt"),
        ):
            own = re.sub("(?m)^[a-z]+", "a", text_of(example(lines)))
            wanted = re.sub("(?m)^([0-9]+ [0-9]+) [a-z]+", r"\1 a", text_of(data(journal)))
            self.assertEqual(self.serve(example(graph), own), wanted)

    def test_from_a_machine_to_a_picture(self):
        with tempfile.TemporaryDirectory() as folder:
            graph, path = os.path.join(folder, "graph.json"), os.path.join(folder, "lines.txt")
            words = ["--hosts", "fat[01-04]", "--property", "big:2-3", "--check", "-o", graph]
            self.told("graph", data("gpus.xml"), *words)
            specs = (
                ["-N2", "-n4", "-c2", "-g1", "-t", "1h", "--requires", "properties:big"],
                ["-n3", "-g1", "--memory", "100", "-t", "90s", "--requires=hosts:fat[01-02]"],
                ["-N3", "-n7", "-t", "inf"],
            )
            specs = [self.told("jobspec", *words, "--", "app") for words in specs]
            lines = "".join(f"a reserve {number} {spec}" for number, spec in enumerate(specs))
            with open(path, "w") as file:
                file.write(lines)
            journal = self.serve(graph, lines)
            told = self.json("follow", "--json", "--graph", graph, "--input", path, stdin=journal)
            self.assertEqual((told["accepted"], told["refused"]), (3, {}), journal)
            step = {"first": 0, "last": 90, "cores": 11, "gpus": 7, "jobs": 2, "waiting": 1}
            self.assertEqual(told["steps"][0], step)
            self.assertIn("3 jobs of 1 client on 4 nodes", self.told("schedule", graph, stdin=journal))


if __name__ == "__main__":
    unittest.main()
