"""Command lines and their jobspecs, each written out by hand from RFC 25, RFC 14, RFC 31 and flux-submit(1)."""
import tempfile
import unittest

from helper import ToolTest, example, oracle, run


def slot(count, *parts):
    """A task slot."""
    return {"type": "slot", "count": count, "label": "task", "with": [{"type": t, "count": c} for t, c in parts]}


class Requests(ToolTest):
    def request(self, *words):
        """The request and how its tasks are counted."""
        spec = self.json("jobspec", *words, "--", "app")
        self.assertEqual(spec["tasks"][0]["slot"], "task")
        return spec["version"], spec["resources"], spec["tasks"][0]["count"]

    def test_whole_line(self):
        words = ["-N2", "-n4", "-c2", "-g1", "-t", "1h", "--exclusive", "--requires", "properties:gpu,^bad"]
        self.assertEqual(
            self.told("jobspec", *words, "--", "app", "args"),
            '{"version":1,"resources":[{"type":"node","count":2,"exclusive":true,"with":[{"type":"slot","count":2,'
            '"label":"task","with":[{"type":"core","count":2},{"type":"gpu","count":1}]}]}],"tasks":[{"command":["app",'
            '"args"],"slot":"task","count":{"per_slot":1}}],"attributes":{"system":{"duration":3600,"constraints":'
            '{"properties":["gpu","^bad"]}}}}\n',
        )

    def test_one_task_with_one_core(self):
        self.assertEqual(self.request(), (1, [slot(1, ("core", 1))], {"per_slot": 1}))

    def test_tasks_without_nodes(self):
        self.assertEqual(self.request("--ntasks=3", "-c", "4"), (1, [slot(3, ("core", 4))], {"per_slot": 1}))

    def test_nodes_alone_are_exclusive(self):
        node = {"type": "node", "count": 3, "exclusive": True, "with": [slot(1, ("core", 1))]}
        self.assertEqual(self.request("-N3"), (1, [node], {"per_slot": 1}))

    def test_tasks_that_nodes_do_not_divide(self):
        node = {"type": "node", "count": 2, "with": [slot(3, ("core", 1))]}
        self.assertEqual(self.request("-N2", "-n5"), (1, [node], {"total": 5}))

    def test_memory_is_canonical(self):
        self.assertEqual(self.request("--memory", "10"), (999, [slot(1, ("core", 1), ("memory", 10))], {"per_slot": 1}))

    def test_no_gpus(self):
        self.assertEqual(self.request("-g0"), (1, [slot(1, ("core", 1))], {"per_slot": 1}))

    def test_faults(self):
        for words, wanted in (
            (["-x", "app"], "-x: nodes can be exclusive only where -N says how many"),
            (["-N2", "-n1", "app"], "-n: 1 tasks are fewer than 2 nodes"),
            (["-N0", "app"], "-N/--nodes: 0 is not from 1 to 70368744177664"),
            (["-N", "2-4", "app"], "-N/--nodes: '2-4' is no whole number"),
            (["-n", "1", "-c", "x", "app"], "-c/--cores-per-task: 'x' is no whole number"),
            (["-N1", "-n70368744177664", "-c2", "app"],
             "-n: 70368744177664 tasks of 2 of type core on a node are past 70368744177664"),
            (["--queue", "debug", "app"], "--queue: is no option or word of this tool; --help lists them"),
            (["-N2"], "COMMAND: is missing"),
            (["-N2", "--"], "COMMAND: is missing"),
            (["-N2", "--", "app", "\udc80"], "COMMAND word 2: is no UTF-8"),
            (["-N"], "-N/--nodes: expected one argument"),
            (["--", "a" * 1_048_576], "COMMAND: makes a jobspec of 1048782 bytes, too long for a line of 1048576"),
        ):
            self.assertEqual(self.refused("jobspec", *words), wanted)

    def test_the_command_is_left_alone(self):
        spec = self.json("jobspec", "sh", "-c", 'echo "\u00e9"\n', "-N2")
        self.assertEqual(spec["tasks"][0]["command"], ["sh", "-c", 'echo "\u00e9"\n', "-N2"])


class Durations(ToolTest):
    def test_read(self):
        for text, seconds in (
            ("30s", 30), ("1.5h", 5400), ("90m", 5400), ("2d", 172800), ("5", 300), ("0.5", 30), ("2000ms", 2),
            ("1e3s", 1000), (".5m", 30), ("0", 0), ("inf", 0), ("infinity", 0), ("70368744177664s", 2**46),
        ):
            system = self.json("jobspec", "-t", text, "app")["attributes"]["system"]
            self.assertEqual(system, {"duration": seconds}, text)
        self.assertEqual(self.json("jobspec", "app")["attributes"], {"system": {"duration": 0}})

    def test_refused(self):
        for text, cause in (
            ("1.5s", "1.5s is no whole number of seconds"),
            ("500ms", "500ms is no whole number of seconds"),
            ("0.001", "0.001 is no whole number of seconds"),
            ("70368744177665s", "70368744177665s is more than 70368744177664 seconds"),
            ("1w", "'1w' is no duration such as 30s, 90m, 1.5h or 2d"),
            ("1h30m", "'1h30m' is no duration such as 30s, 90m, 1.5h or 2d"),
            (".h", "'.h' is no duration such as 30s, 90m, 1.5h or 2d"),
            ("", "'' is no duration such as 30s, 90m, 1.5h or 2d"),
        ):
            self.assertEqual(self.refused("jobspec", "-t", text, "app"), f"-t/--time-limit: {cause}")


class Constraints(ToolTest):
    def test_read(self):
        a, b, c = ({"properties": [name]} for name in "abc")
        for query, wanted in (
            ("gpu", {"properties": ["gpu"]}),
            ("properties:gpu,^bad", {"properties": ["gpu", "^bad"]}),
            ("a b", {"properties": ["a", "b"]}),
            ("a and b & c", {"properties": ["a", "b", "c"]}),
            ("a|b", {"or": [a, b]}),
            ("a or b c", {"or": [a, {"properties": ["b", "c"]}]}),
            ("(a|b) c", {"and": [{"or": [a, b]}, c]}),
            ("not (a||b)", {"not": [{"or": [a, b]}]}),
            ("not a b", {"and": [{"not": [a]}, b]}),
            ("b && -a", {"and": [b, {"not": [a]}]}),
            ("ranks:0-3,7", {"ranks": ["0-3,7"]}),
            ("host:node1", {"hostlist": ["node1"]}),
            ("hosts:node[1-3,5]", {"hostlist": ["node[1-3]", "node5"]}),
            ("hosts:r[0-1]n[08-10]", {"hostlist": ["r0n[08-10]", "r1n[08-10]"]}),
            ("hostlist:n10,n9,login,n9", {"hostlist": ["login", "n[9-10]"]}),
            ("properties:'a b'", {"properties": ["a b"]}),
        ):
            system = self.json("jobspec", f"--requires={query}", "app")["attributes"]["system"]
            self.assertEqual(system["constraints"], wanted, query)

    def test_refused(self):
        for query, cause in (
            ("", "the end stands where a term should"),
            ("a |", "the end stands where a term should"),
            ("(a|b", "the end stands where ')' should"),
            ("a)", "')' stands where the query should end"),
            ("x:a", "'x:a' has no operator of properties, hosts and ranks before ':'"),
            (":a", "':a' has no operator of properties, hosts and ranks before ':'"),
            ("hosts:", "'hosts:' has nothing to look for"),
            ("properties:a,,b", "'' is no property"),
            ("^", "'^' is no property"),
            ("ranks:3,1", "'1' doesn't lie above the id before it"),
            ("hosts:n[3-1]", "'3-1' is no range"),
            ("hosts:@all", "'@all': groups of hosts, written with @, aren't read"),
            ("'a", "\"'a\" has a quote without its end"),
            ("(" * 60 + "a" + ")" * 60, "it is nested more than 40 deep"),
        ):
            self.assertEqual(self.refused("jobspec", f"--requires={query}", "app"), f"--requires: {cause}")


class Readers(ToolTest):
    """What is written is read by the other model of the program, in the form that it claims."""

    def answer(self, form, *specs):
        """What the model answers to `satisfy` of each."""
        with tempfile.NamedTemporaryFile("w") as lines:
            lines.write("".join(f"a satisfy {spec}" for spec in specs))
            lines.flush()
            told = oracle(example("four-nodes.json"), lines.name, "--form", form)
        return [line.split(" ", 3)[3] for line in told.splitlines()]

    def test_forms(self):
        plain = [
            self.told("jobspec", *words, "app")
            for words in (
                ["-N2"], ["-n8"], ["-n9"], ["-N3", "--requires=^bad"], ["-N4", "--requires=^bad"], ["-N1", "-n3"]
            )
        ]
        wanted = ["satisfiable", "satisfiable", "unsatisfiable", "satisfiable", "unsatisfiable", "unsatisfiable"]
        self.assertEqual(self.answer("v1", *plain), wanted)
        self.assertEqual(self.answer("rfc14", *plain), wanted)
        memory = [self.told("jobspec", "--memory", size, "-n4", "app") for size in ("16", "17")]
        self.assertEqual(self.answer("rfc14", *memory), ["satisfiable", "unsatisfiable"])

    def test_help(self):
        with self.assertRaises(SystemExit) as left:
            run("jobspec", "--help")
        self.assertEqual(left.exception.code, 0)


if __name__ == "__main__":
    unittest.main()
