#!/usr/bin/python3
"""Answers the program's input on a graph file by the rules of docs/FORMATS.md, and makes such files.

lines_oracle.py make SEED LINES GRAPH INPUT             writes a graph file and an input; prints the words behind GRAPH
lines_oracle.py answer GRAPH INPUT [--horizon N] [--form v1|rfc14]
                                                        prints what `fluxion serve GRAPH [--horizon N] < INPUT` has to print
lines_oracle.py judge GRAPH INPUT OUTPUT [--horizon N] [--form v1|rfc14]
                                                        says whether this may be what the program prints, in some order of
                                                        its clients: status 1 and why, if not
lines_oracle.py compare PROGRAM FIRST LAST [CLIENTS]    makes an input for each seed, of up to so many clients, and judges
                                                        what the program prints

The form is that of the jobspecs: version 1 alone, or the canonical one (rfc14), which is what `compare` reads and where
nothing is said. Jobspecs of both forms are made, with constraints, and graphs with pools.

With several clients the program may answer in any order that keeps the lines of each client in theirs. The column LINE of
its output names the order; by that the whole output is judged: each line once, and every answer as of one history.

It shares no code with the program; id sets and host lists come from text_oracle.py. Claims are looked for by walking all
vertices and all jobs, and the earliest start by trying every second of a horizon up to 100, else now and every end of a job.
Graphs have to be valid ones, and the limits on lines, bytes, clients and barred nodes aren't looked at.
"""
import json
import os
import random
import re
import subprocess
import sys
import tempfile
from bisect import bisect_left
from collections import namedtuple
from itertools import chain, combinations, islice

from text_oracle import has_host, has_id, hostlist_items, write_idset

sys.set_int_max_str_digits(0)
MOST_CLAIMS = 2_097_152
MOST_WHOLE = 2**46
HORIZON = 315_360_000
JSON_NUMBER = re.compile(rb"(-?)(0|[1-9][0-9]*)(\.[0-9]+)?([eE][+-]?[0-9]+)?")
NAME = re.compile(r"[A-Za-z0-9_.-]{1,255}")


class Fault(Exception):
    """A jobspec or line that can't be read, with the words of its reason."""


# Texts


def plain_run(run):
    parts = JSON_NUMBER.fullmatch(run)
    if not parts:
        return run
    sign, digits, fraction, exponent = parts.groups()
    if not exponent and not sign and int(digits) < 2**64 and not (fraction or b"").strip(b".0"):
        return digits
    if not exponent and not fraction and sign and 1 <= int(digits) <= 2**63:
        return run
    return b'["' + run + b'"]'


def plain(data):
    """The text without floating-point numbers."""
    pieces = re.findall(rb'"(?:[^"\\]|\\.)*(?:"|\\?\Z)|[0-9-][0-9+.eE-]*|[^"0-9-]+', data, re.DOTALL)
    assert b"".join(pieces) == data
    return b"".join(piece if piece[0] not in b"0123456789-" else plain_run(piece) for piece in pieces)


def levels(text):
    deep = most = 0
    for piece in re.findall(r'"(?:[^"\\]|\\.)*"|[\[\]{}]', text, re.DOTALL):
        deep += 1 if piece in "[{" else -1 if piece in "]}" else 0
        most = max(most, deep)
    return most


def read_json(data):
    def refuse(_):
        raise ValueError

    def whole_text(value):
        if isinstance(value, str) and re.search("[\ud800-\udfff]", value):
            raise ValueError
        for member in value if isinstance(value, list) else []:
            whole_text(member)

    def pairs(listed):
        for key, value in listed:
            whole_text(key)
            whole_text(value)
        return dict(listed)

    try:
        text = plain(data).decode("utf-8")
        if levels(text) > 127:
            raise ValueError
        value = json.loads(text, parse_constant=refuse, object_pairs_hook=pairs)
        whole_text(value)
    except ValueError:
        raise Fault("json") from None
    return value


# Jobspecs


def field(path, word):
    return Fault(f"field {path} {word}")


def is_whole(value):
    return isinstance(value, int) and not isinstance(value, bool)


def whole(value, path, least):
    if not is_whole(value):
        raise field(path, "kind")
    if value < least:
        raise field(path, "small")
    if value > MOST_WHOLE:
        raise field(path, "large")
    return value


def needed(holder, key, path):
    if key not in holder:
        raise field(path, "missing")
    return holder[key]


def filled(value, path):
    """A list that isn't empty."""
    if not isinstance(value, list):
        raise field(path, "kind")
    if not value:
        raise field(path, "small")
    return value


def texts(value):
    return isinstance(value, list) and all(isinstance(member, str) for member in value)


class Wanted:
    """A request vertex."""

    def __init__(self, value, path, labels, in_slot):
        if not isinstance(value, dict):
            raise field(path, "kind")
        if value.keys() - {"type", "count", "unit", "exclusive", "label", "with"}:
            raise Fault(f"profile {path}.*")
        self.kind = needed(value, "type", f"{path}.type")
        if not isinstance(self.kind, str):
            raise field(f"{path}.type", "kind")
        if not NAME.fullmatch(self.kind) or len(self.kind) > 64:
            raise field(f"{path}.type", "text")
        slot = self.kind == "slot"
        if slot and in_slot:
            raise Fault(f"profile {path}.type")
        count = needed(value, "count", f"{path}.count")
        if isinstance(count, (dict, str)):
            raise Fault(f"profile {path}.count")
        self.count = whole(count, f"{path}.count", 1)
        if not isinstance(value.get("unit", ""), str):
            raise field(f"{path}.unit", "kind")
        self.exclusive = value.get("exclusive")
        if "exclusive" in value and not isinstance(self.exclusive, bool):
            raise field(f"{path}.exclusive", "kind")
        if slot and self.exclusive is False:
            raise Fault(f"profile {path}.exclusive")
        if slot:
            label = needed(value, "label", f"{path}.label")
            if not isinstance(label, str):
                raise field(f"{path}.label", "kind")
            if label == "" or label in labels:
                raise Fault(f"label {path}.label")
            labels.add(label)
        below = needed(value, "with", f"{path}.with") if slot else value.get("with", [])
        if slot:
            filled(below, f"{path}.with")
        if not isinstance(below, list):
            raise field(f"{path}.with", "kind")
        self.below = [Wanted(v, f"{path}.with[{at}]", labels, slot or in_slot) for at, v in enumerate(below)]


def slot_form(slot):
    kinds = sorted(v.kind for v in slot.below)
    return slot.kind == "slot" and kinds in (["core"], ["core", "gpu"]) and not any(v.below for v in slot.below)


def is_form(listed):
    if len(listed) != 1:
        return False
    top = listed[0]
    return slot_form(top) or (top.kind == "node" and len(top.below) == 1 and slot_form(top.below[0]))


def is_task(task, labels):
    command, count = task.get("command"), task.get("count")
    return bool(
        texts(command)
        and command
        and isinstance(task.get("slot"), str)
        and task["slot"] in labels
        and isinstance(count, dict)
        and count.keys() & {"per_slot", "total"}
        and all(is_whole(count[k]) and 1 <= count[k] <= MOST_WHOLE for k in ("per_slot", "total") if k in count)
    )


def object_at(holder, key, path):
    value = holder.get(key)
    if value is not None and not isinstance(value, dict):
        raise field(path, "kind")
    return value or {}


class Ask:
    """What a jobspec asks for: needs, a duration, and the nodes that it bars."""

    def __init__(self, graph, data, form):
        spec = read_json(data)
        if not isinstance(spec, dict):
            raise field(".", "kind")
        version = whole(needed(spec, "version", "version"), "version", 1)
        if form == "v1" and version != 1:
            raise Fault("version")
        resources = filled(needed(spec, "resources", "resources"), "resources")
        labels = set()
        listed = [Wanted(value, f"resources[{at}]", labels, False) for at, value in enumerate(resources)]
        if form == "v1" and not is_form(listed):
            raise Fault("form")
        tasks = filled(needed(spec, "tasks", "tasks"), "tasks")
        if form == "v1" and len(tasks) > 1:
            raise Fault("task tasks")
        for at, task in enumerate(tasks):
            if not isinstance(task, dict):
                raise field(f"tasks[{at}]", "kind")
            if not is_task(task, labels):
                raise Fault(f"task tasks[{at}]")
        system = object_at(object_at(spec, "attributes", "attributes"), "system", "attributes.system")
        self.duration = whole(system.get("duration", 0), "attributes.system.duration", 0)
        constraint = system.get("constraints")
        self.barred = [] if constraint is None else barred(graph, constraint)
        self.needs = shaped(graph, listed)


# Constraints


GRAMMARS = {
    "properties": lambda text: True,
    "hostlist": lambda text: has_host(text, "") is not None,
    "ranks": lambda text: has_id(text, 0) is not None,
}


def check_constraint(value, path):
    if not isinstance(value, dict):
        raise Fault(f"constraint {path}")
    for key in sorted(value):
        if isinstance(value[key], list) and key in ("and", "or", "not"):
            for at, member in enumerate(value[key]):
                check_constraint(member, f"{path}.{key}[{at}]")
        elif not (texts(value[key]) and key in GRAMMARS and all(map(GRAMMARS[key], value[key]))):
            raise Fault(f"constraint {path}")


def is_true(graph, node, constraint):
    properties = graph.properties[node]
    tests = {
        "properties": lambda own: all(p[1:] not in properties if p[:1] == "^" else p in properties for p in own),
        "hostlist": lambda own: any(has_host(text, graph.names[node]) for text in own),
        "ranks": lambda own: any(has_id(text, graph.ranks[node]) for text in own),
        "and": lambda own: all(is_true(graph, node, member) for member in own),
        "or": lambda own: not own or any(is_true(graph, node, member) for member in own),
        "not": lambda own: any(not is_true(graph, node, member) for member in own),
    }
    return all(tests[key](own) for key, own in constraint.items())


def barred(graph, constraint):
    check_constraint(constraint, "attributes.system.constraints")
    return [node for node in graph.nodes if not is_true(graph, node, constraint)]


# Needs: `count` is the quantity of a pool, and a spread slot has the kind of a node


Vert = namedtuple("Vert", "kind count hold needs")
Pool = namedtuple("Pool", "kind count")
Spread = namedtuple("Spread", "kind count needs")


def times(needs, copies):
    return [need._replace(count=need.count * copies) for need in needs]


def shaped(graph, listed, in_node=False, in_slot=False):
    """The needs of request vertices that stand side by side, with the faults of pairs of them."""
    needs = members(graph, listed, in_node, in_slot)
    for first, second in combinations([need.kind for need in needs], 2):
        if first == second:
            raise Fault(f"shape same {first}")
        for upper, lower in ((first, second), (second, first)):
            if graph.contains(upper, lower):
                raise Fault(f"shape nested {upper} {lower}")
    return needs


def members(graph, listed, in_node, in_slot):
    return [need for wanted in listed for need in needs_of(graph, wanted, in_node, in_slot)]


def needs_of(graph, wanted, in_node, in_slot):
    if wanted.kind in graph.pools:
        if wanted.exclusive:
            raise Fault(f"shape held {wanted.kind}")
        if wanted.below:
            raise Fault(f"shape with {wanted.kind}")
        return [Pool(wanted.kind, wanted.count)]
    if wanted.kind != "slot":
        hold = in_slot if wanted.exclusive is None else wanted.exclusive
        inside = in_node or wanted.kind == "node" or graph.contains("node", wanted.kind)
        return [Vert(wanted.kind, wanted.count, hold, shaped(graph, wanted.below, inside, in_slot))]
    if not in_node and not names_node(graph, wanted):
        return [Spread("node", wanted.count, shaped(graph, wanted.below, False, True))]
    needs = times(members(graph, wanted.below, in_node, True), wanted.count)
    if any(need.count > MOST_WHOLE for need in needs):
        raise Fault("shape count")
    return needs


def names_node(graph, wanted):
    """Whether what stands in the vertex names a node, or a type that contains nodes."""
    return any(v.kind == "node" or graph.contains(v.kind, "node") or names_node(graph, v) for v in wanted.below)


# Graphs


class Graph:
    """Vertices in preorder, siblings in the order of the file."""

    def __init__(self, data):
        graph = json.loads(data)["graph"]
        key_of = lambda value: str(value)
        parent = {key_of(edge["target"]): key_of(edge["source"]) for edge in graph["edges"]}
        about = {key_of(node["id"]): node["metadata"] for node in graph["nodes"]}
        below = {key: [] for key in about}
        for key in about:
            if key in parent:
                below[parent[key]].append(key)
        self.above, self.past, self.kinds, self.sizes = [], [], [], []
        self.ids, self.names, self.properties, self.ranks = [], [], [], {}

        def walk(key, above):
            own = about[key]
            at, number = len(self.above), own.get("id")
            number = None if number in (None, -1) else number
            self.above.append(above)
            self.past.append(None)
            self.kinds.append(own["type"])
            self.sizes.append(1 if own.get("size") is None else own["size"])
            self.ids.append(number)
            default = (own.get("basename") or own["type"]) + ("" if number is None else str(number))
            self.names.append(own.get("name") or default)
            self.properties.append(set(own.get("properties") or []))
            if own["type"] == "node" and own.get("rank") not in (None, -1):
                self.ranks[at] = own["rank"]
            for child in below[key]:
                walk(child, [*above, at])
            self.past[at] = len(self.above)

        walk(next(key for key in about if key not in parent), [])
        self.of_kind = {}
        for at, kind in enumerate(self.kinds):
            self.of_kind.setdefault(kind, []).append(at)
        self.nodes = self.of_kind.get("node", [])
        if not self.ranks:
            self.ranks = {at: rank for rank, at in enumerate(self.nodes)}
        self.pools = {kind for kind, size in zip(self.kinds, self.sizes) if size != 1}
        self.nested = {(self.kinds[u], kind) for kind, above in zip(self.kinds, self.above) for u in above}

    def contains(self, upper, lower):
        return (upper, lower) in self.nested

    def all(self):
        return range(len(self.kinds))

    def below(self, v):
        return range(v + 1, self.past[v])

    def members(self, kind, place):
        own = self.of_kind.get(kind, [])
        return own[bisect_left(own, place.start) : bisect_left(own, place.stop)]

    def path(self, v):
        return "".join(f"/{self.names[u]}" for u in (*self.above[v], v))


# The scheduler


class Job:
    """Claims are a mode (take, hold or pass), a vertex, and the quantity of a take, else None."""

    def __init__(self, graph, start, end, claims):
        self.start, self.end, self.claims = start, end, claims
        self.held = {v for mode, v, _ in claims if mode == "hold"}
        self.takes = {v: quantity for mode, v, quantity in claims if mode == "take"}
        self.touched = {u for _, v, _ in claims for u in (v, *graph.above[v])}


class View:
    """What is left to an ask over a window: `jobs` are those that overlap it."""

    def __init__(self, graph, jobs, barred, start):
        self.graph, self.jobs, self.start = graph, jobs, start
        self.held = set(barred).union(*(job.held for job in jobs))
        self.touched = {u for v in barred for u in (v, *graph.above[v])}.union(*(job.touched for job in jobs))

    def is_closed(self, v):
        return v in self.held or any(u in self.held for u in self.graph.above[v])

    def free(self, pool):
        if self.is_closed(pool):
            return 0
        jobs = [job for job in self.jobs if pool in job.takes]
        moments = [max(self.start, job.start) for job in jobs]
        taken = [sum(job.takes[pool] for job in jobs if job.start <= moment < job.end) for moment in moments]
        return self.graph.sizes[pool] - max(taken, default=0)

    def lowest(self, needs, place):
        """The lowest-first claims of the needs in a place, which is a range of vertices; None where none fit."""
        claims = []
        for need in needs:
            group = {Vert: self.verts, Pool: self.takes, Spread: self.spread}[type(need)](need, place)
            if group is None:
                return None
            claims += group
        return claims

    def pieces(self, need, place):
        """The claims of each vertex that qualifies, in preorder."""
        for v in self.graph.members(need.kind, place):
            if not (self.is_closed(v) or (need.hold and v in self.touched)):
                inner = self.lowest(need.needs, self.graph.below(v))
                if inner is not None:
                    yield [("hold", v, None)] if need.hold else [("pass", v, None), *inner]

    def verts(self, need, place):
        pieces = list(islice(self.pieces(need, place), need.count))
        return list(chain(*pieces)) if len(pieces) == need.count else None

    def takes(self, need, place):
        claims, missing = [], need.count
        for pool in self.graph.members(need.kind, place):
            quantity = min(missing, self.free(pool))
            if quantity:
                claims.append(("take", pool, quantity))
            missing -= quantity
        return None if missing else claims

    def spread(self, need, place):
        claims, missing = [], need.count
        for node in self.graph.members("node", place):
            own = self.graph.below(node)
            copies = 0 if self.is_closed(node) else min(missing, *(self.copies(inner, own) for inner in need.needs))
            if copies:
                claims += [("pass", node, None), *self.lowest(times(need.needs, copies), own)]
            missing -= copies
            if not missing:
                return claims
        return None

    def copies(self, need, place):
        """How many times the need fits in the place."""
        if isinstance(need, Pool):
            return sum(self.free(pool) for pool in self.graph.members(need.kind, place)) // need.count
        return sum(1 for _ in self.pieces(need, place)) // need.count


class Scheduler:
    def __init__(self, graph, horizon):
        self.graph, self.horizon, self.now = graph, horizon, 0
        self.jobs, self.used, self.claims = {}, set(), 0

    def found(self, ask, jobs, start=0):
        """The lowest-first claims, None where none fit. `jobs` overlap the window, which begins at `start`."""
        return View(self.graph, jobs, ask.barred, start).lowest(ask.needs, self.graph.all())

    def at(self, ask, start):
        end = start + ask.duration if ask.duration else self.horizon
        jobs = [job for job in self.jobs.values() if job.start < end and start < job.end]
        return self.found(ask, jobs, start) if start < self.horizon and end <= self.horizon else None

    def starts(self):
        if self.horizon <= 100:
            return range(self.now, self.horizon)
        return sorted({self.now, *(job.end for job in self.jobs.values() if job.end > self.now)})

    def place(self, id, ask, starts, none):
        if id in self.used:
            return "exists"
        if self.found(ask, []) is None:
            return "unsatisfiable"
        if self.now == self.horizon or self.now + ask.duration > self.horizon:
            return "toolong"
        for start in starts():
            claims = self.at(ask, start)
            if claims is not None:
                break
        else:
            return none
        if self.claims + len(claims) > MOST_CLAIMS:
            return "full"
        self.claims += len(claims)
        self.used.add(id)
        job = Job(self.graph, start, start + ask.duration if ask.duration else self.horizon, claims)
        self.jobs[id] = job
        return f"{'allocated' if start == self.now else 'reserved'} {id} {start} {self.r_of(job)}"

    def info(self, id):
        if id not in self.jobs:
            return "absent"
        job = self.jobs[id]
        phase = "planned" if self.now < job.start else "running" if self.now < job.end else "ended"
        return f"info {phase} {job.start} {job.end}"

    def cancel(self, id):
        return "absent" if self.jobs.pop(id, None) is None else "cancelled"

    def advance(self, to):
        if to < self.now:
            return "backwards"
        if to > self.horizon:
            return "beyond"
        self.now = to
        return f"now {to}"

    def r_of(self, job):
        graph, rows = self.graph, []
        given = {v for _, v, _ in job.claims}

        def is_given(v):
            return v in given or any(u in job.held for u in graph.above[v])

        for node in sorted(graph.nodes, key=graph.ranks.get):
            if not (node in job.touched or is_given(node)):
                continue
            children = {}
            for kind in ("core", "gpu"):
                ids = sorted(graph.ids[v] for v in graph.members(kind, graph.below(node)) if is_given(v))
                if ids:
                    children[kind] = write_idset(ids)
            if rows and rows[-1][0] == children:
                rows[-1][1].append(node)
            else:
                rows.append((children, [node]))
        ranks = [{"children": children, "rank": write_idset([graph.ranks[n] for n in nodes])} for children, nodes in rows]
        names = hostlist_items([graph.names[node] for _, nodes in rows for node in nodes])
        execution = {"R_lite": ranks, "expiration": job.end, "nodelist": names, "starttime": job.start}
        others = [claim for claim in job.claims if graph.kinds[claim[1]] not in ("node", "core", "gpu")]
        told = [{"mode": mode, "path": graph.path(v), **({"quantity": quantity} if mode == "take" else {})}
                for mode, v, quantity in others]
        scheduling = {"scheduling": {"claims": told}} if told else {}
        return json.dumps({"execution": execution, **scheduling, "version": 1}, separators=(",", ":"))


# Lines


def number(word, why):
    if not re.fullmatch(rb"0|[1-9][0-9]*", word) or int(word) >= 2**64:
        raise Fault(why)
    return int(word)


def reply_to(scheduler, line, client, form):
    if client is None:
        raise Fault("client")
    words = [word for word in line.split(b" ") if word]
    command = words[1] if len(words) > 1 else b""
    if command not in (b"allocate", b"reserve", b"satisfy", b"cancel", b"info", b"advance"):
        raise Fault("command")
    with_spec = command in (b"allocate", b"reserve")
    least = 4 if with_spec else 3
    if len(words) < least or (command in (b"cancel", b"info", b"advance") and len(words) > 3):
        raise Fault("words")
    if command == b"satisfy":
        spec = line.strip(b" ").split(b" ", 1)[1].lstrip(b" ")[len("satisfy") :].lstrip(b" ")
        ask = Ask(scheduler.graph, spec, form)
        return "unsatisfiable" if scheduler.found(ask, []) is None else "satisfiable"
    value = number(words[2], "time" if command == b"advance" else "job")
    if not with_spec:
        return {b"cancel": scheduler.cancel, b"info": scheduler.info, b"advance": scheduler.advance}[command](value)
    rest = line.strip(b" ")
    for word in words[:3]:
        rest = rest[len(word) :].lstrip(b" ")
    ask = Ask(scheduler.graph, rest, form)
    if command == b"allocate":
        return scheduler.place(value, ask, lambda: [scheduler.now], "busy")
    return scheduler.place(value, ask, scheduler.starts, "nostart")


def lines_of(data):
    """The lines of an input, each with its client's name, None where its first word is none."""
    lines = data.split(b"\n")
    if lines[-1] == b"":
        lines.pop()
    for line in lines:
        line = line[:-1] if line.endswith(b"\r") else line
        first = line.lstrip(b" ").split(b" ")[0]
        yield first.decode() if re.fullmatch(rb"[a-z0-9]{1,16}", first) else None, line


def answers(graph, data, horizon, form="rfc14", order=None):
    """The output that answers the input's lines in an order of their numbers, or as they stand."""
    scheduler = Scheduler(graph, horizon)
    lines = list(lines_of(data))
    for at, number in enumerate(range(1, len(lines) + 1) if order is None else order):
        client, line = lines[number - 1]
        try:
            reply = reply_to(scheduler, line, client, form)
        except Fault as fault:
            reply = f"invalid {fault}"
        yield f"{at} {number} {client or '-'} {reply}\n"


def order_in(data, told):
    """The order that the column LINE of an output names, and what is wrong with it, or None."""
    order = [int(words[1]) if words[1:] and words[1].isdecimal() else 0 for words in (line.split(" ") for line in told)]
    clients = [client for client, _ in lines_of(data)]
    if sorted(order) != list(range(1, len(clients) + 1)):
        return order, "the column LINE doesn't have each line once"
    last = {}
    for number in order:
        client = clients[number - 1]
        if last.get(client, 0) > number:
            return order, f"lines {last[client]} and {number} of client {client or '-'} are answered in the other order"
        last[client] = number
    return order, None


def judged(graph, data, horizon, form, told):
    """What an output has to be, by the order that it names, and what is wrong with that order, or None."""
    order, wrong = order_in(data, told)
    return list(answers(graph, data, horizon, form, None if wrong else order)), wrong


# Graphs and inputs at random


PROPERTIES = ["big", "fast", "x.1", "old-2"]
NO_CONSTRAINTS = [{"xor": []}, {"properties": "big"}, {"hostlist": ["n1", "n[1-2]x"]}, {"ranks": ["0-1", "3,1"]}, [], "big",
                  {"properties": ["big", 1]}, {"and": [{}, {"ranks": "0"}]}, {"or": [{"not": [1.5]}]}, {"not": {}, "And": 1},
                  {"ranks": 0, "and": [{"x": []}]}, {"or": [{}], "and": [{"x": []}, 0], "b": []}]


def a_graph(mixed):
    """A cluster over racks or none, nodes, sockets or none, cores, gpus, pools and others; mixed order and numbers."""
    listed, edges = [], []
    racks, nodes, sockets = mixed.choice([0, 0, 1, 2, 3]), mixed.choice([1, 2, 2, 3, 4, 6, 9]), mixed.choice([0, 0, 1, 2])
    cores, gpus = mixed.choice([0, 1, 2, 3, 4, 4, 4, 6, 8]), mixed.choice([0, 0, 0, 1, 2, 3])
    memories, sizes = mixed.choice([0, 0, 1, 1, 2, 3]), mixed.choice([[1], [8], [1, 2, 8], [4, 16], [0, 3], [2**46]])
    under_core, twisted = mixed.random() < 0.08, mixed.random() < 0.12
    own_names, first = mixed.choice([0, 0, 0, 1, 2, 3]), mixed.choice([0, 0, 0, 7, 97])
    ranked, gaps, uneven = mixed.choice(["", "", "mixed", "gaps"]), mixed.random() < 0.3, mixed.random() < 0.3

    def add(above, kind, number, **more):
        key = len(listed)
        key = mixed.choice([key, f"v{key}", f"{kind}-{key}"])
        listed.append({"id": key, "metadata": {"type": kind, **({} if number is None else {"id": number}), **more}})
        if above is not None:
            about = mixed.choice([None, {}, {"subsystem": "containment"}, {"name": {"containment": "contains"}}])
            edges.append({"source": above, "target": key if mixed.random() < 0.7 else str(key), "metadata": about})
        return key

    def numbers(count):
        return mixed.sample(range(count * 2), count) if gaps else mixed.sample(range(count), count)

    top = add(None, "cluster", mixed.choice([0, None]))
    holders = [top, *(add(top, "rack", n) for n in numbers(racks))][1 if racks and mixed.random() < 0.8 else 0 :]
    bay = add(top, "bay", 0) if twisted else None
    ranks = mixed.sample(range(nodes * (3 if ranked == "gaps" else 1)), nodes)
    for at, n in enumerate(number + first for number in numbers(nodes)):
        names = [{}, {"name": f"n{n:02}"}, {"name": f"n{n:03}"}, {"basename": "host"}, {"name": f"x{n}-{n % 3}"}]
        own_name = names[mixed.randrange(5) if mixed.random() < 0.2 else own_names]
        properties = mixed.sample(PROPERTIES, mixed.choice([0, 1, 1, 2, 4]))
        more = {**own_name, "properties": mixed.choice([properties, dict.fromkeys(properties, ""), properties or None])}
        if ranked:
            more["rank"] = ranks[at]
        in_bay = twisted and mixed.random() < 0.5
        node = add(bay if in_bay else mixed.choice(holders), "node", n, **more)
        inner = add(node, "bay", 0) if twisted and not in_bay else node
        places = [add(inner, "socket", s) for s in range(sockets)] or [inner]
        own_cores = [add(mixed.choice(places), "core", c) for c in numbers(mixed.randint(0, cores) if uneven else cores)]
        for g in numbers(gpus):
            add(mixed.choice(own_cores) if under_core and own_cores else mixed.choice([*places, node]), "gpu", g)
        for m in numbers(memories):
            add(mixed.choice([node, *places]), "memory", m, size=mixed.choice(sizes), unit="GB")
    for n in numbers(mixed.choice([0, 0, 1, 3])):
        add(mixed.choice(holders), mixed.choice(["switch", "licence"]), n, size=mixed.choice([1, 1, 5]))
    mixed.shuffle(listed)
    mixed.shuffle(edges)
    return json.dumps({"graph": {"nodes": listed, "edges": edges}})


def a_size(mixed, most):
    some, fewer = mixed.randint(1, most), mixed.randint(1, (most + 1) // 2)
    return mixed.choices([1, some, fewer, most, most + 1], [16, 8, 12, 4, 1])[0]


def a_request(mixed, graph, kind, place, labels, in_slot):
    """A request vertex of the kind, and what stands in it, about as large as what the place has."""
    own = graph.members(kind, place)
    if kind in graph.pools:
        pool = {"type": kind, "count": a_size(mixed, max(1, sum(graph.sizes[v] for v in own)))}
        cores = [{"type": "core", "count": 1}]
        odd = [{"exclusive": True}, {"exclusive": True, "with": cores}, {"with": cores}, {"with": [], "exclusive": False}]
        return {**pool, **(mixed.choice(odd) if mixed.random() < 0.08 else {})}
    vertex = {"type": kind, "count": a_size(mixed, max(1, len(own)))}
    if mixed.random() < 0.15:
        vertex["exclusive"] = mixed.choice([True, False])
    inner = graph.below(mixed.choice(own)) if own else place
    if inner and mixed.random() < (0.4 if in_slot else 0.85):
        vertex["with"] = a_list(mixed, graph, inner, labels, in_slot)
    return vertex


def a_slot(mixed, graph, place, labels):
    labels.append(f"t{len(labels)}")
    count = mixed.choices([1, 2, 3, len(graph.nodes), 2**45, 2**46], [50, 12, 4, 4, 1, 1])[0]
    if mixed.random() < 0.7:
        place = next((graph.below(node) for node in graph.members("node", place) if graph.below(node)), place)
    slot = {"type": "slot", "count": count, "label": labels[-1], "with": a_list(mixed, graph, place, labels, True)}
    return {**slot, **({"exclusive": True} if mixed.random() < 0.1 else {})}


def a_list(mixed, graph, place, labels, in_slot=False):
    """Request vertices that stand side by side, of kinds that the place has; seldom of kinds that contain each other."""
    slots = [a_slot(mixed, graph, place, labels)] if not in_slot and mixed.random() < 0.35 else []
    if slots and mixed.random() < 0.88:
        return slots
    kinds = [*sorted({graph.kinds[v] for v in place}), *(["fpga"] if mixed.random() < 0.02 else [])]
    chosen = ["node"] if slots else mixed.choices(kinds, [2 if graph.contains(kind, "core") else 1 for kind in kinds])
    for kind in mixed.choices(kinds, k=mixed.choice([0, 0, 1, 2, 3, 4])):
        apart = not any(kind == other or graph.contains(kind, other) or graph.contains(other, kind) for other in chosen)
        if apart or mixed.random() < 0.03:
            chosen.append(kind)
    beside = [a_request(mixed, graph, kind, place, labels, in_slot) for kind in chosen[len(slots) :]]
    return mixed.sample(slots + beside, len(slots + beside))


def copied(value):
    return json.loads(json.dumps(value))


def a_constraint(mixed, graph, deep=2):
    if mixed.random() < 0.03:
        return copied(mixed.choice(NO_CONSTRAINTS))
    most = len(graph.nodes)
    nodes = mixed.sample(graph.nodes, mixed.randint(mixed.choice([0, (most + 1) // 2]), most))
    names, ranks = [graph.names[node] for node in nodes], sorted(graph.ranks[node] for node in nodes)
    prefix, odd = re.sub("[0-9]*$", "", graph.names[graph.nodes[0]]), ["[0-3,5]", "[00-12]", "[1-03,007]", "[0-2]x", "[]"]
    hosts = [names, hostlist_items(names), [",".join(hostlist_items(names))], [prefix + mixed.choice(odd)], ["", *names]]
    idset = write_idset(ranks)
    idsets = [[idset], [str(rank) for rank in ranks], [f"[{idset}]"], [f"0-{max(ranks, default=1)}"], ["01"]]
    inner = lambda: [a_constraint(mixed, graph, deep - 1) for _ in range(mixed.choice([0, 1, 1, 2]))]
    wanted = [*PROPERTIES, *(f"^{own}" for own in PROPERTIES), "^", "", "^^big"]
    makers = {
        "properties": lambda: mixed.choices(wanted, [4] * 8 + [1] * 3, k=mixed.choice([0, 1, 1, 2])),
        "hostlist": lambda: mixed.choices(hosts, [6, 6, 6, 3, 3])[0],
        "ranks": lambda: mixed.choices(idsets, [9, 6, 6, 3, 1])[0],
        **{key: inner for key in ("and", "or", "not")},
    }
    keys = mixed.sample(list(makers)[: 6 if deep else 3], mixed.choice([0, 1, 1, 1, 1, 2]))
    return {key: makers[key]() for key in keys}


def a_form(mixed, graph):
    """The request vertex of a jobspec of version 1, whose slot is called t0."""
    cores, gpus = (max(len(graph.members(kind, graph.below(node))) for node in graph.nodes) for kind in ("core", "gpu"))
    parts = [{"type": "core", "count": a_size(mixed, max(1, cores))}]
    if mixed.random() < (0.4 if gpus else 0.05):
        parts.insert(mixed.randint(0, 1), {"type": "gpu", "count": a_size(mixed, max(1, gpus))})
    slot = {"type": "slot", "count": mixed.choice([1, 1, 1, 1, 2, len(graph.nodes)]), "label": "t0", "with": parts}
    top = slot
    if mixed.random() < 0.55:
        top = {"type": "node", "count": a_size(mixed, len(graph.nodes)), "with": [slot]}
        slot["count"] = mixed.choices([1, 2, 2**45, 2**46], [80, 20, 1, 2])[0]
        if mixed.random() < 0.5:
            top["exclusive"] = mixed.choice([True, True, False])
    for part in parts:
        if mixed.random() < 0.15:
            part["exclusive"] = mixed.choice([True, False])
        if mixed.random() < 0.1:
            part.update(mixed.choice([{"unit": "x"}, {"with": []}, {"label": 7}, {"with": [{"type": "gpu", "count": 1}]}]))
    if mixed.random() < 0.1:
        slot["exclusive"] = True
    return top


def vertex(kind, count, *inside):
    more = {"label": "t0"} if kind == "slot" else {}
    return {"type": kind, "count": count, **more, **({"with": [*inside]} if inside else {})}


def a_rare_request(mixed):
    """Slots whose place in the request is told by an unknown type alone, great counts, and types that contain each other."""
    slot, count = vertex("slot", mixed.choice([1, 2**46]), vertex("core", 2)), mixed.choice([1, 2**46])
    return mixed.choice([
        vertex("node", 1, vertex("fpga", 1, slot)),
        vertex("node", 1, vertex("fpga", 1, slot, vertex("gpu", 1))),
        vertex("slot", count, vertex("fpga", 2, vertex("node", 1))),
        vertex("fpga", 1, vertex("slot", count, vertex("fpga", 2, vertex("rack", 1))), vertex("node", 1)),
        vertex("slot", 2**46, vertex("core", 2**46)),
        vertex("slot", 1, *mixed.sample([vertex("node", 1), vertex("bay", 1)], 2)),
    ])


def a_system(mixed, graph, horizon):
    lasting = [0, 1, 2, 5, mixed.randint(1, 12), mixed.randint(1, max(1, min(horizon, 2**46) // 4)), horizon, horizon + 1]
    seconds = mixed.choices(lasting, [2, 3, 3, 4, 9, 12, 1, 1])[0]
    system = {"duration": float(seconds) if seconds < 10**9 and mixed.random() < 0.1 else seconds}
    if mixed.random() < 0.1:
        system.update({"cwd": "/home/u", "environment": {"HOME": "/\u00fc"}, "shell": {"options": {"rlimit": 1.25}}})
    if mixed.random() < 0.25:
        system["constraints"] = a_constraint(mixed, graph) if mixed.random() < 0.97 else None
    if mixed.random() < 0.03:
        del system["duration"]
    return system


def a_spec(mixed, graph, horizon):
    labels = []
    how = mixed.random()
    if how < 0.25:
        resources = [a_form(mixed, graph) if how < 0.235 else a_rare_request(mixed)]
    else:
        resources = a_list(mixed, graph, graph.all(), labels)
        resources = resources if labels else [vertex("slot", mixed.choice([1, 1, 2]), *resources)]
    slots = mixed.choices(labels or ["t0"], k=mixed.choices([1, 2], [9, 1])[0])
    counts = [{"per_slot": 1}, {"total": 2**46}, {"per_slot": 2, "total": 3, "x": 0}]
    tasks = [{"command": ["app", "-n"], "slot": slot, "count": mixed.choices(counts, [8, 4, 1])[0]} for slot in slots]
    attributes = mixed.choices([{"system": a_system(mixed, graph, horizon)}, {}, None], [60, 1, 1])[0]
    version = mixed.choices([1, 2, 2**46], [30, 2, 1])[0]
    return {"version": version, "resources": resources, "tasks": tasks, "attributes": attributes}


ODD = [None, True, False, 0, 1, 2, -1, -(2**63), 2**46, 2**46 + 1, 2**64, 1.5, 60.0, -0.0, 1e300, "", "x", "slot", "node",
       "core", "gpu", "a b", "\u00e9", "x" * 64, "x" * 65, [], ["a"], [1], [[]], {}, {"min": 1}, {"per_slot": 1, "total": 0},
       {"type": "core", "count": 1}, {"type": "slot", "count": 1, "label": "t0", "with": [{"type": "core", "count": 1}]},
       {"type": "gpu", "count": 2**46}, {"type": "socket", "count": 1, "with": [{"type": "core", "count": 1}]},
       {"type": "memory", "count": 1, "exclusive": True}, *NO_CONSTRAINTS]
KEYS = ["type", "count", "unit", "exclusive", "label", "with", "id", "per_slot", "total", "constraints", "duration", "x",
        "properties", "hostlist", "ranks", "and", "or", "not"]


def spoil(mixed, spec):
    """Changes one place of the spec."""
    places = []

    def walk(value):
        if isinstance(value, (dict, list)):
            places.extend((value, key) for key in (value if isinstance(value, dict) else range(len(value))))
            for member in list(value.values() if isinstance(value, dict) else value):
                walk(member)

    walk(mixed.choice([spec, spec.get("resources"), spec.get("attributes")]))
    if not places:
        walk(spec)
    holder, key = mixed.choice(places)
    odd = copied(mixed.choice(ODD))
    how = mixed.random()
    if how < 0.5:
        holder[key] = odd
    elif how < 0.65:
        del holder[key]
    elif isinstance(holder, list):
        holder.insert(mixed.randint(0, len(holder)), mixed.choice([odd, holder[key]]))
    elif isinstance(holder[key], list):
        holder[key].append(odd)
    else:
        holder[mixed.choice(KEYS)] = odd


def spec_text(mixed, spec):
    if isinstance(spec, dict):
        spec = dict(mixed.sample(list(spec.items()), len(spec)))
    separators = mixed.choice([(",", ":"), (", ", ": "), (",  ", " :\t")])
    text = json.dumps(spec, separators=separators, ensure_ascii=mixed.random() < 0.5)
    how = mixed.random()
    if how < 0.04:
        at = mixed.randrange(len(text))
        piece = mixed.choice(['"', "0", "{", "]", "e", "-", ".", "\\", "\ud800", "\t", ",", "1.0"])
        text = text[:at] + piece + text[at + mixed.randint(0, 1) :]
    elif how < 0.05:
        nested = ["[" * 126 + "]" * 126, "[" * 127 + "1" + "]" * 127, "[" * 126 + "1.5" + "]" * 126]
        text = '{"version":0,"x":' + mixed.choice(['"\\ud83d"', "1.5e", *nested, '"\\ud83d\\ude00"']) + "," + text[1:]
    return text.encode("utf-8", "surrogatepass")


def a_line(mixed, graph, ids, clock, horizon, clients):
    if clients is None:
        client = mixed.choices(["a", "b", "c9", "load", "0123456789abcdef"], [8, 4, 2, 1, 1])[0]
    else:
        client = f"c{mixed.randrange(clients)}"
    command = mixed.choices(["allocate", "reserve", "satisfy", "cancel", "info", "advance"], [30, 30, 8, 12, 6, 6])[0]
    job = mixed.choice([0, *ids])
    if command in ("allocate", "reserve") and mixed.random() < 0.9:
        job = mixed.choices([mixed.randrange(1000), 2**64 - 1 - mixed.randrange(3)], [30, 1])[0]
        ids.append(job)
    job = str(job)
    words = [client, command]
    if command == "advance":
        step = mixed.choice([0, 1, mixed.randint(0, 9), horizon // 20, -1])
        clock[0] = max(0, min(horizon, clock[0] + step))
        words.append(str(mixed.choices([clock[0], horizon, horizon + 1, 2**64 - 1], [60, 1, 2, 1])[0]))
    elif command != "satisfy":
        words.append(job)
    odd = mixed.random()
    if odd < 0.02:
        words[0] = mixed.choice(["A", "", "a-b", "0123456789abcdefg", "a\t", "\u00e9", "-"])
    elif odd < 0.03:
        words[1] = mixed.choice(["frob", "Allocate", "allocate\t", "set-status", "infos"])
    elif odd < 0.04:
        words = words[: mixed.randint(0, len(words) - 1)]
    elif odd < 0.06:
        words.append(mixed.choice(["x", "0"]))
    elif odd < 0.08:
        words[-1] = mixed.choice(["01", "-1", "+1", "1.0", str(2**64), "x", "0x1", "1\r", "00"])
    parts = [word.encode() for word in words]
    if command in ("allocate", "reserve", "satisfy") and mixed.random() < 0.99:
        spec = a_spec(mixed, graph, horizon)
        for _ in range(mixed.choices([0, 1, 2], [70, 25, 5])[0]):
            spoil(mixed, spec) if isinstance(spec, dict) and spec else None
        if mixed.random() < 0.01:
            spec = mixed.choice(ODD)
        parts.append(spec_text(mixed, spec))
    space = b" " * mixed.choices([1, 2], [20, 1])[0]
    edge = b" " * mixed.choices([0, 1], [20, 1])[0]
    return (edge + space.join(parts) + edge + mixed.choices([b"", b"\r", b"\r\r"], [60, 4, 1])[0]).replace(b"\n", b" ")


def make(seed, lines, clients=None):
    mixed = random.Random(seed)
    text = a_graph(mixed)
    graph = Graph(text)
    horizon = mixed.choice([None, None, None, 1, 2, 7, 30, 60, 60, 100, 100, 300, 300, 5000, 2**40])
    ids, clock, most = [], [0], HORIZON if horizon is None else horizon
    data = b"\n".join(a_line(mixed, graph, ids, clock, most, clients) for _ in range(lines)) + mixed.choice([b"", b"\n", b"\n\n"])
    return text.encode(), data, horizon


def compare(program, first, last, clients=None):
    told, differ = {}, 0
    for seed in range(first, last + 1):
        graph, data, horizon = make(seed, 50 + seed % 151, clients and 2 + seed % (clients - 1))
        with tempfile.TemporaryDirectory() as folder:
            path = os.path.join(folder, "graph.json")
            with open(path, "wb") as file:
                file.write(graph)
            words = [] if horizon is None else ["--horizon", str(horizon)]
            run = subprocess.run([program, "serve", path, *words], input=data, capture_output=True)
        got = run.stdout.decode().splitlines(keepends=True)
        wanted, wrong = judged(Graph(graph), data, HORIZON if horizon is None else horizon, "rfc14", got)
        for line in wanted:
            words = line.split()
            kind = " ".join(words[3:5] if words[3] in ("invalid", "info") else words[3:4])
            kind += f" {words[-1]}" if kind == "invalid field" else f" {words[5]}" if kind == "invalid shape" else ""
            told[kind] = told.get(kind, 0) + 1
        if got != wanted:
            differ += 1
            print(f"seed {seed}: {wrong}") if wrong else None
            at = next((i for i, (a, b) in enumerate(zip(got, wanted)) if a != b), min(len(got), len(wanted)))
            line = data.split(b"\n")[at] if at < len(wanted) else b""
            print(f"seed {seed} horizon {horizon} line {at + 1}: status {run.returncode} {run.stderr.decode()!r}")
            print(f"  input  {line!r}\n  told   {got[at : at + 1]}\n  wanted {wanted[at : at + 1]}")
    for kind in sorted(told):
        print(f"{told[kind]:7} {kind}")
    print(f"{last + 1 - first} inputs, {sum(told.values())} lines, {differ} inputs differ")
    sys.exit(1 if differ else 0)


def read_bytes(path):
    with open(path, "rb") as file:
        return file.read()


def main():
    if sys.argv[1] == "make":
        graph, data, horizon = make(int(sys.argv[2]), int(sys.argv[3]))
        for path, content in ((sys.argv[4], graph), (sys.argv[5], data)):
            with open(path, "wb") as file:
                file.write(content)
        print("" if horizon is None else f"--horizon {horizon}")
    elif sys.argv[1] == "compare":
        compare(sys.argv[2], int(sys.argv[3]), int(sys.argv[4]), *map(int, sys.argv[5:6]))
    else:
        files = 5 if sys.argv[1] == "judge" else 4
        contents = [read_bytes(path) for path in sys.argv[2:files]]
        options = {"--horizon": HORIZON, "--form": "rfc14", **dict(zip(sys.argv[files::2], sys.argv[files + 1 :: 2]))}
        graph, data, *told = Graph(contents[0]), *contents[1:]
        if not told:
            sys.stdout.writelines(answers(graph, data, int(options["--horizon"]), options["--form"]))
            return
        got = told[0].decode().splitlines(keepends=True)
        wanted, wrong = judged(graph, data, int(options["--horizon"]), options["--form"], got)
        at = next((i for i, (a, b) in enumerate(zip(got, wanted)) if a != b), min(len(got), len(wanted)))
        if wrong or got != wanted:
            print(wrong or f"output line {at + 1}: told {got[at : at + 1]}, wanted {wanted[at : at + 1]}")
            sys.exit(1)


if __name__ == "__main__":
    main()
