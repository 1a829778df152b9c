"""The built program on the deepest and longest texts, with little stack; skipped where none is built.

`python3 tools/tests/test_stack.py --least` prints the least stack with which each text is answered as it has to be.
"""
import functools
import json
import os
import resource
import subprocess
import sys
import tempfile
import unittest

from helper import PROGRAM, example, oracle, text_of

# With so much stack, for the first thread and for each other one, everything below is answered as it has to be.
TRUSTED_KIB = 256
TWO = example("two-nodes.json")


def nested(levels, inner=""):
    """So many lists in one another."""
    return "[" * levels + inner + "]" * levels


def spec(resources, more="", system=""):
    """A jobspec; its text has the levels that `resources`, `more` and `system` have, and one, one and three more."""
    tasks = '"tasks":[{"command":["app"],"slot":"a","count":{"per_slot":1}}]'
    return f'{{"version":1,"resources":{resources},{tasks},"attributes":{{"system":{{"duration":60{system}}}}}{more}}}'


SLOT = '{"type":"slot","count":1,"label":"a","with":[{"type":"core","count":1}]}'


def jobspec_of_levels(levels):
    return spec(f"[{SLOT}]", more=f',"x":{nested(levels - 1)}')


def request(deep, kind, inner=""):
    """Requests in one another, so many with the slot and its core, which are the last two."""
    text = f'{{"type":"slot","count":1,"label":"a","with":[{{"type":"core","count":1{inner}}}]}}'
    for _ in range(deep - 2):
        text = f'{{"type":"{kind}","count":1,"with":[{text}]}}'
    return spec(f"[{text}]")


def constraint(deep, inner='"bad"'):
    """A constraint within so many `not`s."""
    return spec(f"[{SLOT}]", system=',"constraints":' + '{"not":[' * deep + f'{{"properties":[{inner}]}}' + "]}" * deep)


def graph(vertices, more=""):
    """A graph file of vertices, each a type, an id and the place of its parent."""
    nodes = [{"id": str(at), "metadata": {"type": kind, "id": own}} for at, (kind, own, _) in enumerate(vertices)]
    edges = [{"source": str(up), "target": str(at)} for at, (_, _, up) in enumerate(vertices) if up is not None]
    return json.dumps({"graph": {"nodes": nodes, "edges": edges}})[:-1] + more + "}"


def chain(deep):
    """A graph file of so many vertices in one another; all have types of their own."""
    return graph([(f"t{at}", 0, at - 1 if at else None) for at in range(deep)])


TOWER = [f"t{at}" for at in range(14)] + ["node", "core"]


def tower():
    """A graph file of 16 vertices in one another, the last a core."""
    return graph([(kind, 0, at - 1 if at else None) for at, kind in enumerate(TOWER)])


def up_the_tower():
    """A request for all of them but the first, each within the one above."""
    text = SLOT
    for kind in reversed(TOWER[1:-1]):
        text = f'{{"type":"{kind}","count":1,"with":[{text}]}}'
    return spec(f"[{text}]")


def wide(more):
    """A graph file of 65,536 vertices, 255 racks of 256 nodes each, and of so many racks more."""
    racks = [("rack", at, 0) for at in range(255)]
    nodes = [("node", at, 1 + at % 255) for at in range(65_280)]
    return graph([("cluster", 0, None), *racks, *nodes] + [("rack", 255 + at, 0) for at in range(more)])


def lines(count):
    return "a advance 0\n" * count


def clients(count, text):
    return "".join(f"c{at} allocate {at} {text}\n" for at in range(count))


def fault(words):
    return f"fluxion: {words}\n".encode()


class Case:
    """A call, and what it has to come to: a status, a line, and what is written where this is known."""

    def __init__(self, words, graph_text=None, data="", status=0, said=b"", wrote=None):
        self.words, self.graph_text, self.data = words, graph_text, data
        self.status, self.said, self.wrote = status, said, wrote

    def ends(self, kib):
        """The status, the line and what was written, with so much stack."""
        most = (kib * 1024, kib * 1024)
        with tempfile.TemporaryDirectory() as room:
            path = TWO
            if self.graph_text is not None:
                path = os.path.join(room, "graph.json")
                with open(path, "w") as file:
                    file.write(self.graph_text)
            command = [PROGRAM, *(path if word == "GRAPH" else word for word in self.words)]
            ran = subprocess.run(
                command,
                input=self.data.encode(),
                capture_output=True,
                timeout=60,
                env={},
                preexec_fn=lambda: resource.setrlimit(resource.RLIMIT_STACK, most),
            )
        return ran.returncode, ran.stderr, ran.stdout

    def is_right(self, ended):
        status, said, wrote = ended
        return (status, said) == (self.status, self.said) and (self.wrote is None or wrote == self.wrote())


def answered(*texts, graph_text=None):
    """A case of one client's lines, over two nodes where no graph file is given; the oracle answers them."""
    data = "".join(f"a allocate {at} {text}\n" for at, text in enumerate(texts))

    def wrote():
        with tempfile.TemporaryDirectory() as room:
            paths = [os.path.join(room, name) for name in ("graph.json", "lines.txt")]
            for path, text in zip(paths, (graph_text or text_of(TWO), data)):
                with open(path, "w") as file:
                    file.write(text)
            return oracle(*paths).encode()

    return Case(["serve", "GRAPH"], graph_text, data, wrote=wrote)


def invalid(text):
    return Case(["serve", "GRAPH"], data=f"a allocate 1 {text}\n", wrote=lambda: b"0 1 a invalid json\n")


def written(text):
    return Case(["graph", "GRAPH"], graph_text=text)


def refused(text, words):
    return Case(["graph", "GRAPH"], graph_text=text, status=3, said=fault(f"graph: {words}"))


CASES = {
    "a jobspec of 127 levels": lambda: answered(jobspec_of_levels(127)),
    "a jobspec of 128 levels": lambda: invalid(jobspec_of_levels(128)),
    "63 requests in one another": lambda: answered(request(63, "rack"), request(63, "node"), request(63, "core")),
    "15 requests in one another, served": lambda: answered(up_the_tower(), graph_text=tower()),
    "a list within 63 requests": lambda: invalid(request(63, "node", ',"x":[]')),
    "a constraint within 61": lambda: answered(constraint(61)),
    "a constraint within 61 of 128 levels": lambda: invalid(constraint(61, "[]")),
    "a graph file of 127 levels": lambda: written(graph([("cluster", 0, None)], f',"x":{nested(126)}')),
    "a graph file of 128 levels": lambda: refused(graph([("cluster", 0, None)], f',"x":{nested(127)}'), "json"),
    "a vertex that is 16 deep": lambda: written(chain(16)),
    "a vertex that is 17 deep": lambda: refused(chain(17), "depth 16"),
    "65,536 vertices": lambda: written(wide(0)),
    "65,537 vertices": lambda: refused(wide(1), "vertices 65537"),
    "262,144 lines": lambda: Case(["serve", "GRAPH"], data=lines(262_144)),
    "262,145 lines": lambda: Case(
        ["serve", "GRAPH"], data=lines(262_145), status=7, said=fault("limit: lines 262145"), wrote=lambda: b""
    ),
    "64 clients with 63 requests in one another": lambda: Case(
        ["serve", "GRAPH"], data=clients(64, request(63, "node"))
    ),
    "300 commands over 4,625 vertices": lambda: Case(["load", "300"]),
}


def least(name):
    """The least stack in KiB, in steps of 4, with which a case ends as it has to; up to 8 MiB."""
    case, low, high = CASES[name](), 0, 2048
    if not case.is_right(case.ends(high * 4)):
        return None
    while high - low > 1:
        middle = (low + high) // 2
        try:
            right = case.is_right(case.ends(middle * 4))
        except OSError:  # too little for the words
            right = False
        low, high = (low, middle) if right else (middle, high)
    return high * 4


@unittest.skipUnless(os.path.exists(PROGRAM), "no program is built")
class Stack(unittest.TestCase):
    def test_little_stack_suffices(self):
        for name, case in CASES.items():
            with self.subTest(name):
                made = case()
                ended = made.ends(TRUSTED_KIB)
                self.assertEqual(ended[:2], (made.status, made.said))
                self.assertTrue(made.is_right(ended), ended[2][:200])


if __name__ == "__main__":
    if sys.argv[1:] == ["--least"]:
        for name in CASES:
            print(f"{name}: {least(name)} KiB", flush=True)
    else:
        unittest.main()
