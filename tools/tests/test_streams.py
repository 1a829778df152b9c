"""The built program at pipes, devices and files of other kinds than it was made for; skipped where none is built."""
import fcntl
import os
import subprocess
import tempfile
import threading
import time
import unittest

from helper import PROGRAM, example, oracle, text_of

LINES, TWO = example("lines.txt"), example("two-nodes.json")
READ, WRITE = b"fluxion: read fault\n", b"fluxion: write fault\n"


def program(*words, **streams):
    """The status and the line on standard error of a run, which ends in ten seconds."""
    ran = subprocess.run([PROGRAM, *words], stderr=subprocess.PIPE, timeout=10, **streams)
    return ran.returncode, ran.stderr


def shell(text, *words):
    """The same of a line of the shell, in which the program is "$0" and the words "$1" and so on."""
    ran = subprocess.run(["bash", "-c", text, PROGRAM, *words], stderr=subprocess.PIPE, timeout=10)
    return ran.returncode, ran.stderr


@unittest.skipUnless(os.path.exists(PROGRAM), "no program is built")
class Streams(unittest.TestCase):
    def setUp(self):
        self.room = tempfile.TemporaryDirectory()
        self.addCleanup(self.room.cleanup)

    def path(self, name):
        return os.path.join(self.room.name, name)

    def fill(self, path, text):
        with open(path, "w") as file:
            file.write(text)

    def test_a_full_device(self):
        with open("/dev/full", "wb") as full:
            self.assertEqual(program("graph", TWO, stdout=full), (5, WRITE))

    def test_a_reader_that_has_gone(self):
        reader, writer = os.pipe()
        os.close(reader)
        self.assertEqual(program("graph", TWO, stdout=writer), (5, WRITE))
        os.close(writer)

    def test_closed_streams(self):
        self.assertEqual(shell('"$0" graph "$1" >&-', TWO), (5, WRITE))
        self.assertEqual(shell('"$0" serve "$1" <&-', TWO), (4, READ))
        self.assertEqual(shell('"$0" serve "$1" 2>&- </dev/full >/dev/null', self.path("none")), (8, b""))

    def test_a_folder(self):
        self.assertEqual(program("serve", self.room.name, stdin=subprocess.DEVNULL), (4, READ))
        folder = os.open(self.room.name, os.O_RDONLY)
        self.assertEqual(program("serve", TWO, stdin=folder), (4, READ))
        os.close(folder)

    def test_a_file_without_permission(self):
        with open(self.path("graph"), "w") as file:
            file.write(text_of(TWO))
        os.chmod(self.path("graph"), 0)
        os.chmod(self.room.name, 0o755)
        with tempfile.TemporaryDirectory() as room:
            own = os.path.join(room, "fluxion")
            subprocess.run(["install", "-m", "755", PROGRAM, own], check=True)
            os.chmod(room, 0o755)
            ran = subprocess.run(
                [own, "graph", self.path("graph")],
                stderr=subprocess.PIPE,
                timeout=10,
                user=65534 if os.geteuid() == 0 else None,
            )
        self.assertEqual((ran.returncode, ran.stderr), (4, READ))

    def test_a_fifo_as_the_graph_file(self):
        os.mkfifo(self.path("fifo"))
        writer = threading.Thread(target=self.fill, args=(self.path("fifo"), text_of(TWO)))
        writer.start()
        self.assertEqual(program("graph", self.path("fifo"), stdout=subprocess.DEVNULL), (0, b""))
        writer.join()

    def test_standard_input_as_the_graph_file(self):
        with open(TWO, "rb") as graph:
            self.assertEqual(program("graph", "/dev/stdin", stdin=graph, stdout=subprocess.DEVNULL), (0, b""))

    def test_an_input_that_comes_in_pieces(self):
        ran = subprocess.Popen([PROGRAM, "serve", TWO], stdin=subprocess.PIPE, stdout=subprocess.PIPE)
        for piece in text_of(LINES).encode().partition(b"reserve"):
            ran.stdin.write(piece)
            ran.stdin.flush()
            time.sleep(0.05)
        wrote, _ = ran.communicate(timeout=10)
        self.assertEqual(ran.returncode, 0)
        self.assertEqual(len(wrote.splitlines()), len(oracle(TWO, LINES).splitlines()))

    def test_a_slow_reader(self):
        reader, writer = os.pipe()
        fcntl.fcntl(writer, fcntl.F_SETPIPE_SZ, 4096)
        ran = subprocess.Popen([PROGRAM, "graph", TWO], stdout=writer)
        os.close(writer)
        time.sleep(0.1)
        with os.fdopen(reader, "rb") as all_of_it:
            wrote = all_of_it.read()
        self.assertEqual(ran.wait(timeout=10), 0)
        self.assertTrue(wrote.endswith(b"\n"))

    def test_an_input_that_does_not_wait(self):
        reader, writer = os.pipe()
        os.set_blocking(reader, False)
        ran = subprocess.Popen([PROGRAM, "serve", TWO], stdin=reader, stdout=subprocess.PIPE, stderr=subprocess.PIPE)
        os.close(reader)
        for piece in text_of(LINES).encode().partition(b"reserve"):
            time.sleep(0.1)
            os.write(writer, piece)
        time.sleep(0.1)
        os.close(writer)
        wrote, told = ran.communicate(timeout=10)
        self.assertEqual((ran.returncode, told), (0, b""))
        self.assertEqual(len(wrote.splitlines()), len(oracle(TWO, LINES).splitlines()))

    def test_an_output_that_does_not_wait(self):
        lines = b"a advance 0\n" * 8_000
        reader, writer = os.pipe()
        os.set_blocking(writer, False)
        ran = subprocess.Popen([PROGRAM, "serve", TWO], stdin=subprocess.PIPE, stdout=writer, stderr=subprocess.PIPE)
        os.close(writer)
        ran.stdin.write(lines)
        ran.stdin.close()
        time.sleep(0.5)
        self.assertIsNone(ran.poll())
        with os.fdopen(reader, "rb") as all_of_it:
            wrote = all_of_it.read()
        self.assertEqual((ran.wait(timeout=10), ran.stderr.read()), (0, b""))
        ran.stderr.close()
        self.assertGreater(len(wrote), 65_536)
        self.assertEqual(wrote, b"".join(b"%d %d a now 0\n" % (at, at + 1) for at in range(8_000)))

    def test_a_standard_error_that_does_not_wait(self):
        reader, writer = os.pipe()
        os.set_blocking(writer, False)
        with self.assertRaises(BlockingIOError):
            while True:
                os.write(writer, bytes(4096))
        ran = subprocess.Popen([PROGRAM, "serve", self.path("none")], stderr=writer)
        os.close(writer)
        time.sleep(0.1)
        self.assertIsNone(ran.poll())
        with os.fdopen(reader, "rb") as all_of_it:
            self.assertTrue(all_of_it.read().endswith(b"\0fluxion: no such file\n"))
        self.assertEqual(ran.wait(timeout=10), 8)


if __name__ == "__main__":
    unittest.main()
