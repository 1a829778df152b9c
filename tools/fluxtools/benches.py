"""Inputs to measure the program with: for each bench the words, a graph file and lines, made anew from a size alone."""
import json
import random

SECONDS_A_YEAR = 31_536_000


class Bench:
    """A call of the program: its words, the text of its graph file, and the lines of its input."""

    def __init__(self, words, graph=(), lines=()):
        self.words = words
        self.graph = graph
        self.lines = lines


# ---- graph files


def tree_text(racks, nodes, cores, memory=0):
    """The pieces of a graph file of one cluster: racks of so many nodes, each of so many cores and units of memory."""
    vertices, edges = [], []

    def vertex(above, kind, number, **more):
        own = len(vertices)
        metadata = {"type": kind, "id": number, **more}
        vertices.append(json.dumps({"id": str(own), "metadata": metadata}))
        if above is not None:
            edges.append(json.dumps({"source": str(above), "target": str(own)}))
        return own

    cluster = vertex(None, "cluster", 0)
    for rack in range(racks):
        housing = vertex(cluster, "rack", rack)
        for node in range(rack * nodes, (rack + 1) * nodes):
            own = vertex(housing, "node", node, rank=node)
            for core in range(cores):
                vertex(own, "core", core)
            if memory:
                vertex(own, "memory", 0, size=memory, unit="GB")
    yield '{"graph":{"nodes":['
    yield ",".join(vertices)
    yield '],"edges":['
    yield ",".join(edges)
    yield "]}}"


# ---- jobspecs


def jobspec(request, seconds, more=None):
    """A jobspec in one line; `more` is put into its attributes."""
    return json.dumps(
        {
            "version": 1,
            "resources": [request],
            "tasks": [{"command": ["app"], "slot": "task", "count": {"per_slot": 1}}],
            "attributes": {"system": {"duration": seconds}, **(more or {})},
        },
        separators=(",", ":"),
    )


def slots(count, cores, memory=0):
    """So many slots of cores, and of memory."""
    within = [{"type": "core", "count": cores}]
    if memory:
        within.append({"type": "memory", "count": memory})
    return {"type": "slot", "count": count, "label": "task", "with": within}


def nodes_of(count, cores, slots_each=1, **more):
    """So many nodes with slots of cores in each."""
    return {"type": "node", "count": count, **more, "with": [slots(slots_each, cores)]}


# ---- benches


def load(size):
    """A load of the program's own."""
    return Bench(["load", str(size)])


def wide(size):
    """Short jobs on a wide cluster of 50,625 vertices that has room for each of them."""
    return Bench(["serve"], tree_text(25, 45, 44), mixed_lines(size, most_cores=2, longest=600))


def overfull(size):
    """The same cluster, asked for three times what it has."""
    cores = 25 * 45 * 44
    each = max(1, 3 * cores // max(1, size))
    lines = mixed_lines(size, most_cores=2 * each, longest=SECONDS_A_YEAR // 100)
    return Bench(["serve"], tree_text(25, 45, 44), lines)


def mixed_lines(size, most_cores, longest):
    """Allocations and reservations of slots, with a cancel and an advance now and then."""
    dice = random.Random(20)
    second = 0
    for line in range(1, size + 1):
        kind = dice.randrange(16)
        if kind == 0 and line > 1:
            yield f"a cancel {dice.randrange(1, line)}"
        elif kind == 1:
            second += dice.randrange(5)
            yield f"a advance {second}"
        else:
            verb = "allocate" if kind % 2 else "reserve"
            request = slots(dice.randrange(1, most_cores + 1), 1)
            yield f"a {verb} {line} {jobspec(request, dice.randrange(60, longest))}"


def site(size):
    """Jobs of many sizes, some of them on whole nodes, on a cluster of 50,241 vertices that they about fill."""
    return Bench(["serve"], tree_text(64, 16, 48), site_lines(size, longest_pause=600))


def crowded(size):
    """The same jobs four times as soon after one another, which is three times what the cluster has."""
    return Bench(["serve"], tree_text(64, 16, 48), site_lines(size, longest_pause=150))


def site_lines(size, longest_pause):
    """Lines of a site's users: of a hundred some ten cancel a job of late, and ten advance by up to so many seconds."""
    dice = random.Random(64)
    second = 0
    for line in range(1, size + 1):
        seconds = 60 * dice.choice((1, 2, 5, 10, 30, 60, 120, 240, 720))
        chance = dice.randrange(100)
        if chance < 10:
            yield f"a cancel {dice.randint(max(1, line - 2_000), line)}"
        elif chance < 20:
            second += dice.randint(0, longest_pause)
            yield f"a advance {second}"
        else:
            verb, request = site_request(dice)
            yield f"a {verb} {line} {jobspec(request, seconds)}"


def site_request(dice):
    """What is asked for: parts of nodes, slots anywhere, nodes for oneself, and all cores of nodes."""
    chance = dice.randrange(80)
    if chance < 30:
        return "reserve", nodes_of(dice.choice((1, 1, 1, 2, 2, 4, 8)), dice.randint(1, 24))
    if chance < 45:
        return "reserve", slots(dice.randint(1, 64), dice.choice((1, 2, 4)))
    if chance < 53:
        return "reserve", nodes_of(dice.choice((1, 4, 16, 64, 128)), 1, exclusive=True)
    if chance < 57:
        return "reserve", nodes_of(dice.choice((4, 8, 16)), 48)
    if chance < 70:
        return "allocate", nodes_of(dice.choice((1, 2, 4)), dice.randint(1, 16), slots_each=2)
    return "allocate", slots(dice.randint(1, 48), 1)


def backlog(size):
    """Jobs that each want the whole of a small cluster, one behind the other."""
    for_all = jobspec(nodes_of(16, 4), 60)
    return Bench(["serve"], tree_text(2, 8, 4), (f"a reserve {job} {for_all}" for job in range(1, size + 1)))


def gaps(size):
    """Every other job leaves a gap before a later one, and the small jobs between them fill these."""

    def lines():
        for job in range(1, size + 1):
            if job % 2:
                yield f"a reserve {job} {jobspec(nodes_of(9, 4), 600)}"
            else:
                yield f"a reserve {job} {jobspec(nodes_of(1 + job % 7, 1 + job % 4), 30 + job % 300)}"

    return Bench(["serve"], tree_text(2, 8, 4), lines())


def graph(size):
    """A graph file of about so many vertices, read and written."""
    return Bench(["graph"], tree_text(max(1, size // (1 + 40 * 37)), 40, 36))


def json_lines(size):
    """Lines of jobspecs that say much that the scheduler passes over."""
    told = {"user": {f"key{at}": [at, str(at), {"deep": [None, True, at]}] for at in range(60)}}
    spec = jobspec(slots(1, 1), 60, told)
    return Bench(["serve"], tree_text(1, 2, 4), (f"a satisfy {spec}" for _ in range(size)))


def written(size):
    """Lines of a kilobyte as people and shells write them: with spaces, escapes, fractions and a long environment."""
    dice = random.Random(11)
    words = ("alpha", "beta", "module-env", "/usr/lib/x86_64", "caf\\u00e9", "a\\tb\\\\c")

    def lines():
        for line in range(1, size + 1):
            names = ", ".join(
                f'"VARIABLE_{at}" : "{" ".join(dice.choice(words) for _ in range(3))}"'
                for at in range(dice.randint(9, 13)))
            numbers = ",".join(dice.choice(("1.5", "2e3", "0", "-7", "12.0", "true", "null")) for _ in range(12))
            request = json.dumps(nodes_of(dice.randint(1, 3), dice.randint(1, 9)))
            seconds = dice.choice(("60", "3600.0", "120.000"))
            yield (
                f'a satisfy {{"resources" : [{request}], "tasks" : [{{"command" : ["app", "--input", "file{line}"], '
                '"slot" : "task", "count" : {"per_slot" : 1}}], "attributes" : {"system" : {"duration" : '
                f'{seconds}, "cwd" : "/home/user{line % 97}/run", "environment" : {{{names}}}, '
                f'"shell" : {{"options" : {{"load" : [{numbers}]}}}}, "job" : {{"name" : "run-{line}"}}}}}}, '
                '"version" : 1}'
            )

    return Bench(["serve"], tree_text(2, 4, 8), lines())


def satisfy(size):
    """Questions whether a cluster of 1,097 vertices could ever serve a request."""

    def lines():
        for line in range(size):
            yield f"a satisfy {jobspec(nodes_of(1 + line % 64, 1 + line % 16), 60)}"

    return Bench(["serve"], tree_text(8, 8, 16), lines())


# by name: how a bench is made, its whole size, and what the size counts
BENCHES = {
    "load": (load, 20_000, "commands"),
    "wide": (wide, 20_000, "lines"),
    "overfull": (overfull, 20_000, "lines"),
    "site": (site, 20_000, "lines"),
    "crowded": (crowded, 20_000, "lines"),
    "backlog": (backlog, 5_000, "lines"),
    "gaps": (gaps, 5_000, "lines"),
    "graph": (graph, 60_000, "vertices"),
    "json": (json_lines, 20_000, "lines"),
    "written": (written, 50_000, "lines"),
    "satisfy": (satisfy, 20_000, "lines"),
}
