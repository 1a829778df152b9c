"""Graph files as the other tools need them: the nodes in rising order of rank, and the ids of their cores and gpus."""
import json
from collections import namedtuple

from fluxtools.command import Fault, called, read_bytes

Node = namedtuple("Node", "rank name cores gpus")


def read_site(path):
    """The nodes of a graph file, as docs/FORMATS.md has it. `fluxion graph` tells more of what is wrong with a file."""
    try:
        graph = json.loads(read_bytes(path))["graph"]
        about = {str(node["id"]): node["metadata"] for node in graph["nodes"]}
        parent = {str(edge["target"]): str(edge["source"]) for edge in graph["edges"] if counts(edge)}
        nodes = nodes_of(about, parent)
        if not all(map(is_node, nodes)):
            raise ValueError
    except (ValueError, KeyError, TypeError, AttributeError):
        raise Fault(called(path), "is no graph file; `fluxion graph` says what is wrong") from None
    if len({node.rank for node in nodes}) < len(nodes):
        raise Fault(called(path), "two nodes have one rank")
    if not nodes:
        raise Fault(called(path), "has no node")
    return sorted(nodes)


def is_node(node):
    """Whether a node has what the tools use: a rank and a name, and ids of cores and gpus."""
    return isinstance(node.name, str) and all(isinstance(own, int) for own in (node.rank, *node.cores, *node.gpus))


def counts(edge):
    """Whether an edge is one from a parent to its child."""
    metadata = edge.get("metadata") or {}
    return not (isinstance(metadata.get("name"), dict) and metadata["name"].get("containment") == "in")


def nodes_of(about, parent):
    """The nodes, of which the file may give ranks; else they have them in preorder."""
    below = {key: [] for key in about}
    for key in about:
        if key in parent:
            below[parent[key]].append(key)
    order = list(reversed([key for key in about if key not in parent]))
    listed, within = [], {}
    while order:
        key = order.pop()
        own = about[key]
        if own["type"] == "node":
            within[key] = {"core": [], "gpu": []}
            listed.append((own.get("rank"), name_of(own), within[key]))
        else:
            within[key] = within.get(parent.get(key))
            if own["type"] in ("core", "gpu"):
                within[key][own["type"]].append(own["id"])
        order += reversed(below[key])
    ranked = any(rank not in (None, -1) for rank, _, _ in listed)
    return [
        Node(rank if ranked else at, name, sorted(inner["core"]), sorted(inner["gpu"]))
        for at, (rank, name, inner) in enumerate(listed)
    ]


def name_of(own):
    """A vertex's own name, or the one that it has by default."""
    number = "" if own.get("id") in (None, -1) else str(own["id"])
    return own.get("name") or (own.get("basename") or own["type"]) + number
