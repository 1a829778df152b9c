"""Journals: the lines that `fluxion serve` writes, and the input lines that they answer."""
import json
import re
from collections import namedtuple

from fluxtools.command import Fault, called, read_bytes, shown
from fluxtools.texts import BadText, read_hosts, read_idset

# An answer: its place in the file, the input line, the client, the words of the reply, the present moment before it.
Answer = namedtuple("Answer", "place line client words moment")

# What a job has on some nodes: their ranks, and the ids of cores and gpus that it has on each, all as ranges.
Share = namedtuple("Share", "ranks cores gpus")

LINE = re.compile(rb"(0|[1-9][0-9]*) (0|[1-9][0-9]*) ([a-z0-9]{1,16}|-) (.+)")
NUMBER = re.compile("0|[1-9][0-9]{0,19}")
LIMIT = 10**20  # no number of a journal is so great
REFUSALS = ("busy", "exists", "full", "nostart", "toolong", "unsatisfiable")
REPLIES = {
    **{word: 1 for word in ("absent", "backwards", "beyond", "cancelled", "satisfiable", *REFUSALS)},
    "allocated": 4,
    "info": 4,
    "now": 2,
    "reserved": 4,
}


PLACES = ("allocate", "reserve")
ANSWERED_SO = {
    **{word: PLACES for word in REFUSALS},
    "allocated": PLACES,
    "cancelled": ("cancel",),
    "now": ("advance",),
    "reserved": ("reserve",),
    "unsatisfiable": (*PLACES, "satisfy"),
}


class Job:
    """An accepted job: who asked for it and when, its start and end, and what it has.

    `cancelled` is the moment at which it was given back; None where it wasn't, or where the journal can't tell.
    """

    def __init__(self, answer, number, start, end, shares, hosts):
        self.place, self.client, self.number = answer.place, answer.client, number
        self.line, self.asked = answer.line, answer.moment
        self.start, self.end, self.shares, self.hosts = start, end, shares, hosts
        self.cancelled = None

    @property
    def until(self):
        """When it no longer has anything: its end, or its cancelling before that, but never before its start."""
        return self.end if self.cancelled is None else max(self.start, min(self.end, self.cancelled))

    def count(self, kind):
        """How many cores or gpus it has, on all nodes."""
        return sum(size_of(share.ranks) * size_of(getattr(share, kind)) for share in self.shares)


class Journal:
    """A journal as it was read.

    `answers` are in the order of the file. `jobs` are the accepted ones by their ids, in the order of the file. `moves`
    are what the present moment was, from 0 on. `cancels` are the answers `cancelled`, each with its job, or None where
    no input says which one it was. `refused` are the answers that refuse a job, each with the job's id or None; without
    an input an `unsatisfiable` of a satisfy and any line that can't be read are among them.
    """

    def __init__(self, answers, commands):
        self.answers, self.jobs, self.moves, self.cancels, self.refused = answers, {}, [0], [], []
        for answer in answers:
            self.take(answer, None if commands is None else command_of(answer, commands))

    def take(self, answer, command):
        """What an answer changes."""
        word = answer.words[0]
        if word in ("allocated", "reserved"):
            job = job_of(answer)
            if job.number in self.jobs:
                raise Fault(answer.place, f"job {job.number} was accepted before")
            self.jobs[job.number] = job
        elif word == "now":
            self.moves.append(int(answer.words[1]))
        elif word == "cancelled":
            job = None if command is None else self.jobs.get(command[1])
            if command is not None and (job is None or job.cancelled is not None):
                raise Fault(answer.place, f"job {command[1]} is no accepted job that could be cancelled")
            if job is not None:
                job.cancelled = answer.moment
            self.cancels.append((answer, job))
        elif word in (*REFUSALS, "invalid") and (command is None or command[0] in PLACES):
            self.refused.append((answer, command[1] if command else None))


def cause_of(answer):
    """The cause of a refusal: its word, and of a line that can't be read what is wrong, without its place."""
    words = answer.words
    if words[0] != "invalid":
        return words[0]
    return " ".join(words[:3] if words[1] == "shape" else [*words[:2], words[3]] if words[1] == "field" else words[:2])


def read_journal(path, input_path=None):
    """The journal of a file; with the input that it answers, cancelled jobs are told apart."""
    rows = read_bytes(path).split(b"\n")
    if rows and rows[-1] == b"":
        rows.pop()
    answers, moment = [], 0
    for at, row in enumerate(rows):
        place = f"{called(path)}:{at + 1}"
        line, client, words = parts_of(row, place)
        answers.append(Answer(place, line, client, words, moment))
        if words[0] == "now":
            moment = number_of(words[1], place)
            if moment < answers[-1].moment:
                raise Fault(place, f"the present moment goes back from {answers[-1].moment}")
    return Journal(answers, None if input_path is None else read_commands(input_path))


def parts_of(row, place):
    """The number of the input line, the client, and the words of the reply, which is looked at."""
    parts = LINE.fullmatch(row)
    if not parts:
        raise Fault(place, f"is no line POSITION LINE CLIENT REPLY: {shown(row.decode('ascii', 'replace'), 40)}")
    words = parts[4].decode("utf-8", "replace").split(" ")
    words = words[:3] + [" ".join(words[3:])] if words[0] in ("allocated", "reserved") and len(words) > 3 else words
    if not is_reply(words):
        raise Fault(place, f"{shown(' '.join(words), 40)} is no reply")
    return number_of(parts[2].decode(), place), parts[3].decode(), words


def is_reply(words):
    """Whether words are as many as their reply has."""
    if words[0] == "invalid":
        return len(words) >= (4 if words[1:2] == ["field"] else 3 if words[1:2] == ["shape"] else 2)
    return len(words) == REPLIES.get(words[0])


def number_of(text, place):
    """A number of a journal."""
    if not NUMBER.fullmatch(text):
        raise Fault(place, f"{shown(text, 40)} is no number")
    return int(text)


def job_of(answer):
    """The job that an answer says to be accepted."""
    number, start = (number_of(word, answer.place) for word in answer.words[1:3])
    try:
        execution = json.loads(answer.words[3])["execution"]
        end, hosts = execution["expiration"], [host for text in execution["nodelist"] for host in read_hosts(text)]
        shares = [share_of(row) for row in execution["R_lite"]]
    except (BadText, ValueError, KeyError, TypeError, AttributeError):
        raise Fault(answer.place, "has no R of version 1 behind its start") from None
    if not isinstance(end, int) or execution.get("starttime") != start or not start <= end < LIMIT:
        raise Fault(answer.place, f"its R has another start than {start}, or no end behind it")
    if len(hosts) != sum(size_of(share.ranks) for share in shares):
        raise Fault(answer.place, "its R has not as many hosts as ranks")
    return Job(answer, number, start, end, shares, hosts)


def share_of(row):
    """What an element of R_lite gives."""
    return Share(read_idset(row["rank"]), *(read_idset(row["children"].get(kind, "")) for kind in ("core", "gpu")))


def size_of(ranges):
    """How many ids ranges have."""
    return sum(last - first + 1 for first, last in ranges)


def read_commands(path):
    """The commands of an input by the numbers of their lines, each (command, job or None)."""
    commands = {}
    for at, row in enumerate(read_bytes(path).split(b"\n")):
        words = [word.decode("ascii", "replace") for word in re.findall(b"[^ ]+", row.rstrip(b"\r"))[:3]]
        if len(words) > 1:
            known = len(words) > 2 and words[1] != "satisfy" and NUMBER.fullmatch(words[2])
            commands[at + 1] = (words[1], int(words[2]) if known else None)
    return commands


def command_of(answer, commands):
    """The command of the input that an answer belongs to, which has to be one that is answered so."""
    command = commands.get(answer.line, ("", None))
    wanted = ANSWERED_SO.get(answer.words[0])
    if wanted and command[0] not in wanted:
        raise Fault(answer.place, f"line {answer.line} of the input is no {' or '.join(wanted)}")
    return command
