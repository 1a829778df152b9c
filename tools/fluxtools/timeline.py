"""A schedule as text of a terminal's width."""
import string
from collections import Counter

from fluxtools.journal import cause_of
from fluxtools.rows import Rows, duration, said, ticks
from fluxtools.texts import folded, write_idset

SYMBOLS = string.ascii_uppercase + string.ascii_lowercase + string.digits
SEVERAL, FREE = "*", "."
LEAST_COLUMNS = 20


class Timeline:
    """Time from left to right in columns. A row is nodes, or cores of nodes, that have the same jobs throughout."""

    def __init__(self, journal, nodes, first, last, by, width):
        self.journal, self.nodes, self.first, self.last = journal, nodes, first, last
        self.jobs = [job for job in journal.jobs.values() if job.start < last and job.until > first]
        self.symbols = {job.number: SYMBOLS[at % len(SYMBOLS)] for at, job in enumerate(self.jobs)}
        self.rows = self.core_rows() if by == "core" else self.node_rows()
        wanted = max(len(label) for label, _ in self.rows)
        self.names = min(wanted, max(8, width - LEAST_COLUMNS - 1), max(8, width // 3))
        self.columns = max(LEAST_COLUMNS, width - self.names - 1)
        self.width = width

    def node_rows(self):
        """Nodes with the same jobs, in order, each with those jobs."""
        on = [[] for _ in self.nodes]
        rows = Rows(self.nodes)
        for job in self.jobs:
            for place in dict.fromkeys(piece.node for piece in rows.pieces(job)):
                on[place].append(job)
        return self.alike((node.name, "", own) for node, own in zip(self.nodes, on))

    def core_rows(self):
        """Runs of cores with the same jobs, of nodes that have the same such runs."""
        on, bare = [[[] for _ in node.cores] for node in self.nodes], [[] for _ in self.nodes]
        rows = Rows(self.nodes)
        for job in self.jobs:
            for piece in rows.pieces(job):
                cores = on[piece.node][piece.first : piece.last + 1] if piece.first is not None else [bare[piece.node]]
                for own in cores:
                    own.append(job)
        return self.alike(
            (node.name, *run) for node, own, rest in zip(self.nodes, on, bare) for run in core_runs(node, own, rest)
        )

    def alike(self, rows):
        """Labels with jobs, from names, cores and jobs; rows that tell the same of several nodes become one."""
        grouped = {}
        for name, cores, jobs in rows:
            grouped.setdefault((cores, tuple(job.number for job in jobs)), ([], cores, jobs))[0].append(name)
        return [(folded(names) + (f" {cores}" if cores else ""), jobs) for names, cores, jobs in grouped.values()]

    def column(self, moment):
        """In which column a moment stands."""
        inside = min(max(moment, self.first), self.last - 1)
        return (inside - self.first) * self.columns // (self.last - self.first)

    def columns_of(self, job):
        """The columns that a job touches; none where it was cancelled before its start."""
        start, end = max(job.start, self.first) - self.first, min(job.until, self.last) - self.first
        span = self.last - self.first
        return range(start * self.columns // span, -(-end * self.columns // span)) if start < end else range(0)

    def cells(self, jobs):
        """A row's columns: free, a job's symbol, or that several jobs are there at once."""
        cells = [FREE] * self.columns
        until = [self.first] * self.columns
        for job in sorted(jobs, key=lambda job: job.start):
            for at in self.columns_of(job):
                over = cells[at] != FREE and until[at] > job.start
                cells[at] = SEVERAL if over or cells[at] == SEVERAL else self.symbols[job.number]
                until[at] = max(until[at], job.until)
        return "".join(cells)

    def axis(self):
        """Round moments, and below them where the present moment was and is."""
        line, marks, free = [" "] * self.columns, [" "] * self.columns, 0
        for moment in ticks(self.first, self.last, max(2, self.columns // 10)):
            label, at = duration(moment), self.column(moment)
            if at >= free and at + len(label) <= self.columns:
                line[at : at + len(label)] = label
                free = at + len(label) + 1
        for moment in self.journal.moves:
            if self.first <= moment <= self.last:
                marks[self.column(moment)] = "|" if moment == self.journal.moves[-1] else "'"
        return "".join(line).rstrip(), "".join(marks).rstrip()

    def text(self):
        """The whole timeline."""
        line, marks = self.axis()
        indent = " " * (self.names + 1)
        lines = [indent + line, indent + marks]
        lines += [f"{cut(label, self.names):<{self.names}} {self.cells(jobs)}" for label, jobs in self.rows]
        lines += ["", *(cut(row, self.width) for row in self.table())]
        lines += ["", *(cut(row, self.width) for row in self.notes())]
        return "\n".join(line.rstrip() for line in lines) + "\n"

    def table(self):
        """A line for each job."""
        rows = [("", "job", "client", "start", "end", "cores", "nodes", "hosts")]
        for job in self.jobs:
            gone = f"  cancelled at {job.cancelled}" if job.cancelled is not None else ""
            sizes = (str(job.count("cores")), str(len(job.hosts)))
            rows.append((
                self.symbols[job.number], str(job.number), job.client, str(job.start), str(job.end), *sizes,
                folded(job.hosts) + gone,
            ))
        widths = [max(map(len, column)) for column in zip(*rows)]
        left = (True, False, True, False, False, False, False, True)
        for row in rows:
            yield "  ".join(f"{own:<{w}}" if l else f"{own:>{w}}" for own, w, l in zip(row, widths, left)).rstrip()

    def notes(self):
        """What the signs mean, the refused jobs, and what isn't shown."""
        yield f"{FREE} free, {SEVERAL} several jobs, ' and | where the present moment was and is"
        if self.journal.refused:
            counts = Counter(cause_of(answer) for answer, _ in self.journal.refused)
            yield "refused: " + ", ".join(f"{cause} {count}" for cause, count in sorted(counts.items()))
        unknown = sum(job is None for _, job in self.journal.cancels)
        if unknown:
            yield f"{said(unknown, 'cancelling')}: which jobs they gave back, only the input tells (--input)"


def core_runs(node, on, bare):
    """A node's runs of cores with the same jobs, and the jobs that have none of its cores, each as (cores, jobs)."""
    runs = []
    for core, jobs in zip(node.cores, on):
        if runs and runs[-1][1] == jobs:
            runs[-1][0].append(core)
        else:
            runs.append(([core], jobs))
    yield from (("core " + write_idset(cores), jobs) for cores, jobs in runs)
    if bare or not node.cores:
        yield "no core", bare


def cut(text, width):
    """A text within a width."""
    return text if len(text) <= width else text[: max(0, width - 2)] + ".."
