"""A schedule as a picture: SVG that needs nothing else."""
import colorsys
from collections import Counter
from xml.sax.saxutils import escape, quoteattr

from fluxtools.journal import cause_of
from fluxtools.rows import Rows, duration, said, ticks
from fluxtools.texts import folded

COLOURS = ["4269d0", "efb118", "ff725c", "6cc5b0", "3ca951", "ff8ab7", "a463f2", "97bbf5", "9c6b4e", "9498a0"]
STYLE = """
text { font: 12px sans-serif; fill: #222 }
.title { font-size: 16px; font-weight: bold }
.small, .job { font-size: 11px }
.job { pointer-events: none; text-anchor: middle }
.right { text-anchor: end }
.middle { text-anchor: middle }
.row { fill: #f4f4f2 }
.line { stroke: #ddd }
.move { stroke: #222; stroke-dasharray: 2 3; opacity: .55 }
.now { stroke: #222; stroke-width: 1.5 }
.bar { stroke: #fff; stroke-width: .8 }
.thin { stroke: none }
.bare { fill-opacity: .25; stroke: #222; stroke-width: .5 }
.gone { fill-opacity: .12; stroke: #888; stroke-width: .6; stroke-dasharray: 3 3 }
.refused { stroke: #b00020; stroke-width: 1.8; fill: none }
.cancelled { fill: #fff; stroke: #222; stroke-width: 1.4 }
"""
MARGIN, LANE, CHAR = 16, 20, 6.7  # pixels: round the picture, of a row of marks, of a letter
MOST_LABELS = 40  # bars of one job that bear its id
MOST_TOLD = 12  # marks at one moment that are told one by one


def colour(place, tint):
    """The colour of a client, in one of three tints, so that its jobs can be told apart where they touch."""
    if place < len(COLOURS):
        parts = [int(COLOURS[place][at : at + 2], 16) / 255 for at in (0, 2, 4)]
    else:
        parts = colorsys.hls_to_rgb(place * 0.381966 % 1, 0.42 + 0.16 * (place % 2), 0.5)
    return [part + (1 - part) * 0.2 * tint for part in parts]


def hexed(parts):
    """A colour as SVG writes it."""
    return "#" + "".join(f"{round(part * 255):02x}" for part in parts)


def ink(parts):
    """Black or white, whichever reads better on the colour."""
    return "#000" if 0.3 * parts[0] + 0.59 * parts[1] + 0.11 * parts[2] > 0.52 else "#fff"


def num(value):
    """A number of pixels."""
    return f"{value:.2f}".rstrip("0").rstrip(".")


class Picture:
    """Time from left to right, nodes from top to bottom; `by` says whether rows are nodes or cores."""

    def __init__(self, journal, nodes, first, last, by, width):
        self.journal, self.nodes, self.rows = journal, nodes, Rows(nodes)
        self.jobs = list(journal.jobs.values())
        self.first, self.last, self.by, self.width = first, last, by, width
        names = [job.client for job in self.jobs] + [answer.client for answer in journal.answers]
        self.clients = {name: place for place, name in enumerate(dict.fromkeys(names))}
        self.parts = []
        self.lay_out()

    def lay_out(self):
        """Where everything stands."""
        counts = [max(1, len(node.cores)) if self.by == "core" else 1 for node in self.nodes]
        rows = sum(counts)
        self.height = min(36, max(1000 / rows, min(1.5, 2000 / rows)))
        self.gap = 2 if self.height >= 9 and self.by == "node" else 0
        longest = max(len(node.name) for node in self.nodes) + (4 if self.by == "core" and self.height >= 11 else 0)
        self.left = MARGIN + 14 + CHAR * min(32, max(longest, len("cancelled")))
        self.right = self.width - MARGIN - 12
        self.legend = self.legend_places()
        self.lanes = [(kind, own) for kind, own in (("cancelled", self.cancels()), ("refused", self.refusals())) if own]
        self.top = MARGIN + 34 + self.legend[-1][2] + 56 + LANE * len(self.lanes)
        self.tops, y = [], self.top
        for count in counts:
            self.tops.append(y)
            y += count * self.height
        self.tops.append(y)
        self.bottom = y

    def legend_places(self):
        """Each client with its label, and where they stand: across, and down from the first line of the legend."""
        counts = Counter(job.client for job in self.jobs)
        places, x, y = [], 0, 0
        for name in self.clients:
            label = f"{name}: {said(counts[name], 'job')}"
            if x and x + 24 + len(label) * CHAR > self.right - MARGIN:
                x, y = 0, y + 18
            places.append((name, x, y, label))
            x += 30 + len(label) * CHAR
        return places or [("", 0, 0, "no answers")]

    def x(self, moment):
        """Where a moment stands, kept within the picture."""
        inside = min(max(moment, self.first), self.last)
        return self.left + (self.right - self.left) * (inside - self.first) / (self.last - self.first)

    def add(self, text):
        """One element more."""
        self.parts.append(text)

    def text(self, x, y, words, kind=""):
        """Words at a place."""
        kind = f' class="{kind}"' if kind else ""
        self.add(f'<text x="{num(x)}" y="{num(y)}"{kind}>{escape(words)}</text>')

    def svg(self):
        """The whole picture."""
        self.head()
        self.grid()
        before = Counter()
        for job in self.jobs:
            if job.start < self.last and job.end > self.first:
                self.bar(job, colour(self.clients[job.client], before[job.client] % 3))
            before[job.client] += 1
        self.move_lines()
        self.marks()
        height = self.foot()
        size = f'width="{self.width}" height="{num(height)}" viewBox="0 0 {self.width} {num(height)}"'
        return "\n".join([
            f'<svg xmlns="http://www.w3.org/2000/svg" {size} role="img" aria-label={quoteattr(self.title())}>',
            f"<style>{STYLE}</style>",
            '<rect width="100%" height="100%" fill="#fff"/>',
            *self.parts,
            "</svg>\n",
        ])

    def title(self):
        """What the picture shows, in a line."""
        clients = len({job.client for job in self.jobs})
        return f"{said(len(self.jobs), 'job')} of {said(clients, 'client')} on {said(len(self.nodes), 'node')}"

    def head(self):
        """The title and the legend."""
        y = MARGIN + 14
        self.text(MARGIN, y, self.title(), "title")
        self.text(self.right, y, f"{duration(self.first)} to {duration(self.last)}", "right")
        for name, x, down, label in self.legend:
            if name:
                fill = hexed(colour(self.clients[name], 0))
                self.add(f'<rect x="{num(MARGIN + x)}" y="{num(y + 14 + down)}" width="12" height="12" fill="{fill}"/>')
            self.text(MARGIN + x + 17, y + 24 + down, label)

    def grid(self):
        """Rows with their names, and the axes of time."""
        for place, node in enumerate(self.nodes):
            if place % 2 == 0 or self.gap:
                y, height = self.tops[place], self.tops[place + 1] - self.tops[place] - self.gap
                box = f'x="{num(self.left)}" y="{num(y)}" width="{num(self.right - self.left)}" height="{num(height)}"'
                self.add(f'<rect class="row" {box}/>')
        self.row_names()
        for moment in ticks(self.first, self.last, max(2, int((self.right - self.left) / 80))):
            x = num(self.x(moment))
            self.add(f'<path class="line" d="M{x} {num(self.top - 4)}V{num(self.bottom + 4)}"/>')
            for y in (self.top - 8, self.bottom + 16):
                self.text(self.x(moment), y, duration(moment), "small middle")

    def row_names(self):
        """Names of nodes, as many as there is room for, and ids of cores where rows are cores."""
        room, least = 0, 13
        rising = (many * 10**power for power in range(6) for many in (1, 2, 5))
        step = next(many for many in rising if (self.bottom - self.top) / len(self.nodes) * many >= least)
        cores = self.by == "core" and self.height >= 11
        for place, node in enumerate(self.nodes):
            top, bottom = self.tops[place], self.tops[place + 1]
            if place % step == 0 and top >= room:
                y = top + (self.height if cores else min(bottom - top, 36)) / 2 + 3.5
                shift = 22 if cores else 0
                self.text(self.left - 8 - shift, y, node.name, "small right")
                room = top + least
            for at, core in enumerate(node.cores if cores else ()):
                self.text(self.left - 8, top + (at + 0.5) * self.height + 3.5, str(core), "small right")

    def heights(self, job):
        """From where to where the job's bars go, top to bottom; those that touch are one."""
        boxes, bare = [], False
        for piece in self.rows.pieces(job):
            top = self.tops[piece.node]
            inner = self.tops[piece.node + 1] - top - self.gap
            cores = len(self.nodes[piece.node].cores)
            if piece.first is None:
                bare, box = True, (top, top + inner)
            else:
                box = (top + inner * piece.first / cores, top + inner * (piece.last + 1) / cores)
            if boxes and box[0] - boxes[-1][1] < 0.001:
                boxes[-1] = (boxes[-1][0], box[1])
            else:
                boxes.append(box)
        return boxes, bare

    def bar(self, job, fill):
        """A job's bars, as one shape, with its id where it fits."""
        boxes, bare = self.heights(job)
        thin = " thin" if min(bottom - top for top, bottom in boxes) < 3 else ""
        left, right = self.x(job.start), self.x(job.until)
        if job.until < job.end:
            self.shape(job, "bar gone", fill, right, self.x(job.end), boxes)
            self.labels(job, "#777", right, self.x(job.end), boxes)
        if job.until > job.start:
            self.shape(job, "bar bare" if bare else "bar" + thin, fill, left, right, boxes)
            self.labels(job, "#000" if bare else ink(fill), left, right, boxes)

    def shape(self, job, kind, fill, left, right, boxes):
        """One path over all boxes of a job."""
        width = num(max(right - left, 0.8))
        path = "".join(f"M{num(left)} {num(top)}h{width}v{num(bottom - top)}h-{width}z" for top, bottom in boxes)
        self.add(f'<path class="{kind}" fill="{hexed(fill)}" d="{path}"><title>{escape(told(job))}</title></path>')

    def labels(self, job, fill, left, right, boxes):
        """The job's id on those of its bars that have room for it."""
        if len(str(job.number)) * CHAR + 4 > right - left:
            return
        for top, bottom in [box for box in boxes if box[1] - box[0] >= 11][:MOST_LABELS]:
            place = f'x="{num((left + right) / 2)}" y="{num((top + bottom) / 2 + 4)}"'
            self.add(f'<text class="job" {place} style="fill:{fill}">{job.number}</text>')

    def move_lines(self):
        """A line for each moment that the present one moved to; the last one is the present moment."""
        last, ceiling = self.journal.moves[-1], self.top - 38 - LANE * len(self.lanes)
        for moment in sorted({moment for moment in self.journal.moves if self.first <= moment <= self.last}):
            x, kind = num(self.x(moment)), "now" if moment == last else "move"
            above = f"M{x} {num(ceiling)}V{num(self.top - 20)}" if moment == last else ""
            line = f"{above}M{x} {num(self.top - 4)}V{num(self.bottom + 4)}"
            self.add(f'<path class="{kind}" d="{line}"><title>the present moment: {moment}</title></path>')
        if self.first <= last <= self.last:
            side, shift = ("small right", -4) if self.x(last) > (self.left + self.right) / 2 else ("small", 4)
            self.text(self.x(last) + shift, ceiling + 8, f"now {duration(last)}", side)

    def cancels(self):
        """Cancelled jobs by the moment of their cancelling, as (what is told, job or None)."""
        marks = {}
        for answer, job in self.journal.cancels:
            which = f"job {job.number}" if job else "a job"
            marks.setdefault(answer.moment, []).append(f"line {answer.line}: {answer.client} cancelled {which}")
        return marks

    def refusals(self):
        """Refused jobs by the moment of their refusal."""
        marks = {}
        for answer, number in self.journal.refused:
            which = "" if number is None else f" job {number}"
            marks.setdefault(answer.moment, []).append(f"line {answer.line}: {answer.client}{which} {cause_of(answer)}")
        return marks

    def marks(self):
        """A lane of marks for cancelled jobs and one for refused ones, and a mark where a cancelled bar ends."""
        for at, (kind, marks) in enumerate(self.lanes):
            y = self.top - 26 - LANE * at - LANE / 2 + 4
            self.text(self.left - 14, y + 4, kind, "small right")
            shown = [moment for moment in sorted(marks) if self.first <= moment <= self.last]
            for moment, following in zip(shown, [*shown[1:], None]):
                lines = marks[moment]
                more = [f"and {len(lines) - MOST_TOLD} more"] if len(lines) > MOST_TOLD else []
                self.mark(kind, self.x(moment), y, "\n".join([f"at {moment}", *lines[:MOST_TOLD], *more]))
                room = self.right - self.x(moment) if following is None else self.x(following) - self.x(moment)
                if len(lines) > 1 and room > 14 + CHAR * len(str(len(lines))):
                    self.text(self.x(moment) + 7, y + 4, str(len(lines)), "small")
        for _, job in self.journal.cancels:
            if job and job.start < job.until < job.end and self.first <= job.until <= self.last:
                top, bottom = self.heights(job)[0][0]
                if bottom - top >= 3:
                    self.mark("cancelled", self.x(job.until), (top + bottom) / 2, told(job))

    def mark(self, kind, x, y, title):
        """A cross for a refusal, a diamond for a cancelling."""
        shape = "m-4 -4l8 8m0 -8l-8 8" if kind == "refused" else "m0 -4.5l4.5 4.5l-4.5 4.5l-4.5 -4.5z"
        self.add(f'<path class="{kind}" d="M{num(x)} {num(y)}{shape}"><title>{escape(title)}</title></path>')

    def foot(self):
        """What the picture leaves out. Returns the picture's height."""
        notes, y = [], self.bottom + 24
        beyond = sum(job.until > self.last for job in self.jobs)
        if beyond:
            notes.append(f"{said(beyond, 'job')} {'goes' if beyond == 1 else 'go'} on past {duration(self.last)}")
        unknown = sum(job is None for _, job in self.journal.cancels)
        if unknown:
            notes.append(f"{said(unknown, 'cancelling')}: which jobs they gave back, only the input tells (--input)")
        for note in notes:
            y += 16
            self.text(self.left, y, note, "small")
        return y + MARGIN


def told(job):
    """A job in words."""
    hosts = folded(job.hosts)
    hosts = hosts if len(hosts) <= 200 else hosts[:198] + ".."
    gpus = f", {said(job.count('gpus'), 'gpu')}" if job.count("gpus") else ""
    lines = [
        f"job {job.number} of {job.client}, line {job.line}",
        f"{job.start} to {job.end} ({duration(job.end - job.start)})",
        f"{said(job.count('cores'), 'core')}{gpus} on {said(len(job.hosts), 'node')}: {hosts}",
    ]
    if job.cancelled is not None:
        lines.append(f"cancelled at {job.cancelled}")
    return "\n".join(lines)
