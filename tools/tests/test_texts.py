"""Idsets and hostlists, by the tables of docs/FORMATS.md and by what ClusterShell's users write."""
import unittest

import helper  # noqa: F401: finds the modules
from fluxtools.texts import BadText, folded, read_hosts, read_idset, write_hosts, write_idset


class Idsets(unittest.TestCase):
    def test_read(self):
        self.assertEqual(read_idset("0-3,7,9-10"), [(0, 3), (7, 7), (9, 10)])
        self.assertEqual(read_idset("[0-3]"), [(0, 3)])
        self.assertEqual(read_idset("5-5"), [(5, 5)])
        self.assertEqual(read_idset(""), [])
        self.assertEqual(read_idset("4294967294"), [(4294967294, 4294967294)])

    def test_refused(self):
        for text in ("3,1", "01", "1,", "[]", "[0-3", "[0-3],[5]", "4294967295", "2-1", " 1", "1-", "0-3,3"):
            with self.assertRaises(BadText, msg=text):
                read_idset(text)

    def test_write(self):
        self.assertEqual(write_idset([0, 1, 2, 5]), "0-2,5")
        self.assertEqual(write_idset([7, 8]), "7-8")
        self.assertEqual(write_idset([]), "")


class Hostlists(unittest.TestCase):
    def test_read(self):
        self.assertEqual(read_hosts("n[01-03,7]"), ["n01", "n02", "n03", "n7"])
        self.assertEqual(read_hosts("login,node[9-10],node12"), ["login", "node9", "node10", "node12"])
        self.assertEqual(read_hosts("n[1-03]"), ["n1", "n2", "n3"])
        self.assertEqual(read_hosts(""), [])
        self.assertEqual(len(read_hosts("node[0-127]")), 128)

    def test_what_clustershell_knows_besides(self):
        self.assertEqual(read_hosts("r[0-1]n[08-09]"), ["r0n08", "r0n09", "r1n08", "r1n09"])
        self.assertEqual(read_hosts("n[1-2]-ib"), ["n1-ib", "n2-ib"])
        self.assertEqual(read_hosts("n[0-8/4]"), ["n0", "n4", "n8"])

    def test_refused(self):
        many = "r[0-999]n[0-999]x[0-1]"
        for text in ("n[0-3", "n]", "n[]", "a,,b", "a b", "n[3-1]", "n[01-003]", "n[0-4/0]", "@all", "n[1-4]!n2", many):
            with self.assertRaises(BadText, msg=text):
                read_hosts(text)

    def test_write(self):
        self.assertEqual(write_hosts(["node08", "node09", "node10"]), ["node[08-10]"])
        self.assertEqual(write_hosts(["login", "node9", "node10", "node12"]), ["login", "node[9-10]", "node12"])
        self.assertEqual(write_hosts(["n0", "n1", "n01", "n02"]), ["n[0-1]", "n[01-02]"])
        self.assertEqual(write_hosts(["n999999999", "n1000000000"]), ["n999999999", "n1000000000"])

    def test_folded(self):
        self.assertEqual(folded(["node0", "node1", "node4", "node6", "node7"]), "node[0-1,4,6-7]")
        self.assertEqual(folded(["login", "login", "a1"]), "login,login,a1")
        self.assertEqual(folded([]), "")


if __name__ == "__main__":
    unittest.main()
