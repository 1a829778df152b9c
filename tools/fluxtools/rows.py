"""Which nodes and cores jobs have, as places in a list of nodes; and moments and durations as texts."""
from bisect import bisect_left, bisect_right
from collections import namedtuple

from fluxtools.command import Fault

# What a job has of one node: the node's place, and a run of places in its list of cores; None where it has no core.
Piece = namedtuple("Piece", "node first last")

YEAR = 365 * 86400
UNITS = ((86400, "d"), (3600, "h"), (60, "m"), (1, "s"))


class Rows:
    """The nodes of a site, and where jobs lie among them."""

    def __init__(self, nodes):
        self.nodes = nodes
        self.place_of = {node.rank: place for place, node in enumerate(nodes)}

    def pieces(self, job):
        """All pieces of a job, by node and then by core."""
        pieces = []
        for share in job.shares:
            for first, last in share.ranks:
                for rank in range(first, last + 1):
                    pieces += self.pieces_of_rank(job, rank, share.cores)
        return sorted(pieces, key=lambda piece: (piece.node, piece.first or 0))

    def pieces_of_rank(self, job, rank, cores):
        """The pieces of a job on one node, one for each run of cores that stand side by side."""
        node = self.place_of.get(rank)
        if node is None:
            raise Fault(job.place, f"rank {rank} is no node of the graph")
        ids, runs = self.nodes[node].cores, []
        for low, high in cores:
            first, last = bisect_left(ids, low), bisect_right(ids, high) - 1
            if last - first != high - low:
                raise Fault(job.place, f"rank {rank} has not all cores from {low} to {high} in the graph")
            if runs and runs[-1].last + 1 == first:
                runs[-1] = runs[-1]._replace(last=last)
            else:
                runs.append(Piece(node, first, last))
        return runs or [Piece(node, None, None)]


def last_moment(journal):
    """The moment up to which a picture goes: the last start, end or move.

    Jobs without a limit end at the horizon, ten years ahead. An end more than a year ahead and more than ten times
    later than all that is before it would leave no room for the rest, so it is left out, and what goes on is cut.
    """
    jobs = journal.jobs.values()
    moments = sorted({0, *journal.moves, *(job.start for job in jobs), *(job.end for job in jobs)})
    while len(moments) > 2 and moments[-1] > YEAR and moments[-1] > 10 * moments[-2]:
        moments.pop()
    cut = any(job.end > moments[-1] for job in jobs)
    return max(1, moments[-1] + (moments[-1] + 9) // 10 * cut)


def duration(seconds):
    """Seconds as a short text: 0, 90s, 1h30m, 2d."""
    if seconds < 100:
        return f"{seconds}s" if seconds else "0"
    parts, rest = [], seconds
    for size, sign in UNITS:
        if rest >= size:
            parts.append(f"{rest // size}{sign}")
            rest %= size
    return "".join(parts)


def ticks(first, last, most):
    """At most so many round moments between two."""
    steps = [1, 2, 5, 10, 15, 30, 60, 120, 300, 600, 900, 1800, 3600, 7200, 10800, 21600, 43200]
    steps += [86400 * many * 10**power for power in range(20) for many in (1, 2, 5)]
    step = next(step for step in steps if (last - first) // step < most)
    return list(range(-(-first // step) * step, last + 1, step))


def said(count, noun):
    """A count and its noun: 1 job, 2 jobs."""
    return f"{count:,} {noun}" + ("" if count == 1 else "es" if noun.endswith("s") else "s")
