"""Graph files from counts, hosts and machines, compared with what the options and the XML files say."""
import json
import os
import tempfile
import unittest

import helper
from helper import PROGRAM, ToolTest, data, example, text_of


def shape(text):
    """A graph file as paths of types with numbers, each with its metadata's other keys, and its children's order."""
    graph = json.loads(text)["graph"]
    about = {node["id"]: node["metadata"] for node in graph["nodes"]}
    parent = {edge["target"]: edge["source"] for edge in graph["edges"]}
    rows = []
    for key, own in about.items():
        path, at = [], key
        while at is not None:
            path.insert(0, f"{about[at]['type']}{about[at]['id']}")
            at = parent.get(at)
        rows.append(("/".join(path), {name: value for name, value in own.items() if name not in ("type", "id")}))
    return rows


class Counts(ToolTest):
    def test_one_node_of_each(self):
        words = "--racks 1 --nodes 1 --sockets 2 --cores 3 --gpus 1 --memory 512".split()
        self.assertEqual(shape(self.told("graph", *words)), [
            ("cluster0", {}),
            ("cluster0/rack0", {}),
            ("cluster0/rack0/node0", {"name": "node0", "rank": 0}),
            ("cluster0/rack0/node0/socket0", {}),
            ("cluster0/rack0/node0/socket0/core0", {}),
            ("cluster0/rack0/node0/socket0/core1", {}),
            ("cluster0/rack0/node0/socket0/gpu0", {}),
            ("cluster0/rack0/node0/socket1", {}),
            ("cluster0/rack0/node0/socket1/core2", {}),
            ("cluster0/rack0/node0/memory0", {"size": 512, "unit": "GiB"}),
        ])

    def test_sizes(self):
        words = "--racks 16 --nodes 16 --sockets 2 --cores 48 --gpus 4 --memory 512".split()
        paths = [path.split("/") for path, _ in shape(self.told("graph", *words))]
        self.assertEqual(len(paths), 1 + 16 + 256 * (1 + 2 + 48 + 4 + 1))
        self.assertIn("cluster0/rack15/node255/socket1/core47".split("/"), paths)
        self.assertIn("cluster0/rack15/node255/socket1/gpu3".split("/"), paths)
        self.assertEqual(sum(path[1:2] == ["rack7"] and len(path) == 3 for path in paths), 16)

    def test_no_sockets(self):
        rows = shape(self.told("graph", "--nodes", "2", "--cores", "1", "--memory", "2048", "--unit", "MiB"))
        self.assertEqual([path for path, _ in rows], [
            "cluster0", "cluster0/node0", "cluster0/node0/core0", "cluster0/node0/memory0",
            "cluster0/node1", "cluster0/node1/core0", "cluster0/node1/memory0",
        ])
        self.assertEqual(rows[3][1], {"size": 2048, "unit": "MiB"})

    def test_ids_and_edges(self):
        graph = json.loads(self.told("graph", "--nodes", "3", "--cores", "2"))["graph"]
        ids = [node["id"] for node in graph["nodes"]]
        self.assertEqual(len(set(ids)), len(ids))
        self.assertEqual(sorted(edge["target"] for edge in graph["edges"]), sorted(ids[1:]))

    def test_faults(self):
        for words, wanted in (
            ("", "--cores: is missing"),
            ("--nodes 2", "--cores: is missing"),
            ("--cores 2", "--nodes: is missing"),
            ("--nodes 0 --cores 1", "--nodes: 0 is not from 1 to 70368744177664"),
            ("--nodes 2 --cores 1 --hosts n1", "--nodes: is said by --hosts"),
            ("--nodes 1024 --cores 64", "graph: has more than 65536 vertices"),
            ("--nodes 70368744177664 --cores 1", "--nodes: 70368744177664 nodes are more than 65536 vertices"),
            ("--nodes 1 --cores 70368744177664", "graph: has more than 65536 vertices"),
            ("--nodes 2 --cores 1 --property a:2", "--property a:2: there is no rank 2 among 2 nodes"),
            ("--nodes 2 --cores 1 --property a:x", "--property a:x: 'x' is no id and no range LO-HI of ids"),
            ("--nodes 2 --cores 1 --property a,b",
             "--property a,b: the name is not 1 to 255 letters, digits, '_', '-' and '.'"),
            ("--nodes 2 --cores 1 --racks x", "--racks: 'x' is no whole number"),
            ("--nodes 2 --cores 1 --bays 4", "--bays: is no option or word of this tool; --help lists them"),
        ):
            self.assertEqual(self.refused("graph", *words.split()), wanted)


class Hosts(ToolTest):
    def names(self, *words):
        """The names of the nodes, with their racks and ranks."""
        rows = shape(self.told("graph", "--cores", "1", *words))
        return [(path, own["name"], own["rank"]) for path, own in rows if "rank" in own]

    def test_names(self):
        self.assertEqual(self.names("--hosts", "login,n[08-09]"), [
            ("cluster0/node0", "login", 0), ("cluster0/node1", "n08", 1), ("cluster0/node2", "n09", 2),
        ])

    def test_racks(self):
        self.assertEqual(self.names("--hosts", "r[0-1]n[0-1]", "--racks", "2"), [
            ("cluster0/rack0/node0", "r0n0", 0), ("cluster0/rack0/node1", "r0n1", 1),
            ("cluster0/rack1/node2", "r1n0", 2), ("cluster0/rack1/node3", "r1n1", 3),
        ])

    def test_properties(self):
        words = ["--hosts", "n[0-3]", "--cores", "1"]
        for text in ("big:1-2", "all", "big:2-3"):
            words += ["--property", text]
        rows = shape(self.told("graph", *words))
        self.assertEqual(
            [own["properties"] for _, own in rows if "rank" in own],
            [["all"], ["big", "all"], ["big", "all"], ["all", "big"]],
        )

    def test_faults(self):
        for hosts, wanted in (
            (["n[0-2]", "--racks", "2"], "--racks: 3 nodes can't be dealt evenly to 2 racks"),
            (["n[0-2],n1"], "--hosts: host n1 stands 2 times"),
            (["n[0-"], "--hosts: 'n[0-' gives no name of 1 to 255 letters, digits, '_', '-' and '.'"),
            ([""], "--hosts: has no hosts"),
            (["a", "--hosts", "b"], "--hosts: stands more than once, and there are no XML files"),
        ):
            self.assertEqual(self.refused("graph", "--cores", "1", "--hosts", *hosts), wanted)


class Machines(ToolTest):
    """A machine of lstopo 2.9 as it is, and three written by hand: with gpus, of hwloc 1, and without cores."""

    def test_this_kind_of_machine(self):
        self.assertEqual(shape(self.told("graph", example("machine.xml"))), [
            ("cluster0", {}),
            ("cluster0/node0", {"name": "vm", "rank": 0}),
            ("cluster0/node0/socket0", {}),
            *((f"cluster0/node0/socket0/core{at}", {}) for at in range(4)),
            ("cluster0/node0/memory0", {"size": 20, "unit": "GiB"}),
        ])

    def test_gpus(self):
        node = "cluster0/node0"
        self.assertEqual([(path, own) for path, own in shape(self.told("graph", data("gpus.xml")))][1:], [
            (node, {"name": "fat01", "rank": 0}),
            (f"{node}/socket0", {}), (f"{node}/socket0/core0", {}), (f"{node}/socket0/core1", {}),
            (f"{node}/socket0/gpu0", {}),
            (f"{node}/socket1", {}), (f"{node}/socket1/core2", {}), (f"{node}/socket1/core3", {}),
            (f"{node}/socket1/gpu1", {}), (f"{node}/socket1/gpu2", {}),
            (f"{node}/memory0", {"size": 255, "unit": "GiB"}),
        ])

    def test_hwloc_1(self):
        node = "cluster0/node0"
        self.assertEqual(shape(self.told("graph", data("hwloc1.xml")))[1:], [
            (node, {"name": "hwloc1", "rank": 0}),
            (f"{node}/socket0", {}), (f"{node}/socket0/core0", {}), (f"{node}/socket0/core1", {}),
            (f"{node}/socket1", {}), (f"{node}/socket1/core2", {}), (f"{node}/socket1/core3", {}),
            (f"{node}/gpu0", {}), (f"{node}/gpu1", {}), (f"{node}/memory0", {"size": 16, "unit": "GiB"}),
        ])

    def test_threads_where_there_are_no_cores(self):
        node = "cluster0/node0"
        self.assertEqual(shape(self.told("graph", data("threads.xml")))[1:], [
            (node, {"name": "small", "rank": 0}), (f"{node}/core0", {}), (f"{node}/core1", {}), (f"{node}/core2", {}),
        ])
        sized = shape(self.told("graph", data("threads.xml"), "--unit", "MiB"))
        self.assertEqual(sized[-1], (f"{node}/memory0", {"size": 1023, "unit": "MiB"}))

    def test_several(self):
        words = [data("threads.xml"), data("gpus.xml"), "--hosts", "a[0-1]", "--hosts", "b0"]
        words += ["--gpus", "3", "--memory", "9"]
        rows = shape(self.told("graph", *words))
        self.assertEqual([own["name"] for _, own in rows if "name" in own], ["a0", "a1", "b0"])
        self.assertEqual([path for path, _ in rows if "gpu" in path], [
            *(f"cluster0/node0/gpu{at}" for at in range(3)), *(f"cluster0/node1/gpu{at}" for at in range(3)),
            "cluster0/node2/socket0/gpu0", "cluster0/node2/socket0/gpu1", "cluster0/node2/socket1/gpu2",
        ])
        self.assertEqual([own["size"] for _, own in rows if "size" in own], [9, 9, 9])

    def test_standard_input(self):
        self.assertEqual(self.told("graph", "-", stdin=text_of(data("gpus.xml"))), self.told("graph", data("gpus.xml")))
        self.assertIn('"name": "node0"', self.told("graph", "-", stdin=text_of(data("hwloc1.xml"))))

    def test_faults(self):
        gpus, threads = data("gpus.xml"), data("threads.xml")
        machine = '<topology><object type="Machine">{}</object></topology>'
        for words, stdin, wanted in (
            ([gpus, gpus], "", "XML: host fat01 stands 2 times"),
            ([gpus, threads, "--hosts", "n1"], "", "--hosts: 2 XML files need as many --hosts, or none; there are 1"),
            ([gpus, "--cores", "4"], "", "--cores: is said by the XML files"),
            (["none.xml"], "", "none.xml: No such file or directory"),
            (["-"], "<topology>\n  <object>", "-:2:11: is no XML"),
            (["-"], "", "-:1:1: is no XML"),
            (["-"], "<html/>", "-: has no machine; it should be what `lstopo --of xml` prints"),
            (["-"], machine.format(""), "-: has no core"),
            (["-"], machine.format('<object type="Core" local_memory="x"/>'),
             "-: has a local_memory that is no number of bytes"),
            (["-"], machine.format('<info name="HostName" value="a b"/><object type="PU"/>'),
             "-: its name 'a b' is no name of a host; --hosts gives another"),
            (["-"], machine.format("<object>" * 3000 + "</object>" * 3000),
             "input: is nested too deep"),
        ):
            self.assertEqual(self.refused("graph", *words, stdin=stdin), wanted)


class Checked(ToolTest):
    """`fluxion graph` reads what is written."""

    def test_the_example_is_what_the_tool_writes(self):
        words = [example("machine.xml"), "--hosts", "node[0-7]", "--property", "fast:4-7"]
        self.assertEqual(self.told("graph", *words), text_of(example("site.json")))

    def test_without_a_program(self):
        own, path = helper.tool("graph"), helper.tool("graph").PROGRAM
        own.PROGRAM = "/nonexistent/fluxion"
        try:
            wanted = "--check: the program isn't built; `./fluxion graph FILE` builds it"
            self.assertEqual(self.refused("graph", "--nodes", "1", "--cores", "1", "--check"), wanted)
        finally:
            own.PROGRAM = path

    def test_with_a_program_that_refuses(self):
        own, path = helper.tool("graph"), helper.tool("graph").PROGRAM
        with tempfile.TemporaryDirectory() as folder:
            own.PROGRAM = os.path.join(folder, "fluxion")
            with open(own.PROGRAM, "w") as file:
                file.write('#!/bin/sh\n[ "$1" = graph ] && grep -q cluster "$2" && ')
                file.write('echo "fluxion: graph: no root" >&2\nexit 3\n')
            os.chmod(own.PROGRAM, 0o755)
            try:
                wanted = "--check: fluxion: graph: no root"
                self.assertEqual(self.refused("graph", "--nodes", "1", "--cores", "1", "--check"), wanted)
            finally:
                own.PROGRAM = path

    @unittest.skipUnless(os.access(PROGRAM, os.X_OK), "the program isn't built")
    def test_with_the_program(self):
        for words in (
            "--racks 4 --nodes 4 --sockets 2 --cores 5 --gpus 3 --memory 7 --property a:0-3".split(),
            ["--hosts", "login,r[0-1]n[08-11]", "--cores", "2"],
            [data("gpus.xml"), data("hwloc1.xml"), data("threads.xml"), example("machine.xml")],
        ):
            self.assertIn('"type": "cluster"', self.told("graph", *words, "--check"))


if __name__ == "__main__":
    unittest.main()
