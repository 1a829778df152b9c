"""Texts of ids and hosts: idsets (RFC 22) and hostlists (RFC 29), and the wider hostlists that ClusterShell knows."""
import itertools
import re

GREATEST_ID = 4294967294
MOST_HOSTS = 1_000_000
NAME = re.compile(r"[A-Za-z0-9_.-]{1,255}")
PIECE = re.compile(r"([0-9]{1,9})(?:-([0-9]{1,9}))?(?:/([0-9]{1,9}))?")


class BadText(ValueError):
    """A text outside its grammar, with the reason."""


def read_idset(text):
    """The ids of an idset as docs/FORMATS.md has it, as ranges (first, last)."""
    inner = text[1:-1] if len(text) > 1 and text[0] == "[" and text[-1] == "]" else text
    ranges = []
    for item in inner.split(",") if text else []:
        ends = re.fullmatch("(0|[1-9][0-9]{0,9})(?:-(0|[1-9][0-9]{0,9}))?", item)
        if not ends:
            raise BadText(f"{item!r} is no id and no range LO-HI of ids")
        first, last = int(ends[1]), int(ends[2] or ends[1])
        if last > GREATEST_ID or first > last:
            raise BadText(f"{item!r} is no range of ids up to {GREATEST_ID}")
        if ranges and first <= ranges[-1][1]:
            raise BadText(f"{item!r} doesn't lie above the id before it")
        ranges.append((first, last))
    return ranges


def write_idset(ids):
    """The shortest idset of ids in rising order."""
    runs = []
    for number in ids:
        if runs and runs[-1][1] + 1 == number:
            runs[-1][1] = number
        else:
            runs.append([number, number])
    return ",".join(str(first) if first == last else f"{first}-{last}" for first, last in runs)


def items_of(text):
    """The items of a hostlist; a comma in brackets parts none."""
    items, start, inside = [], 0, False
    for at, char in enumerate(text):
        if char == "[":
            inside = True
        elif char == "]":
            inside = False
        elif char == "," and not inside:
            items.append(text[start:at])
            start = at + 1
    return items + [text[start:]]


def numbers_of(piece):
    """The texts of the numbers of one piece between brackets: `7`, `1-3`, `01-10`, `0-10/2`."""
    parts = PIECE.fullmatch(piece)
    if not parts:
        raise BadText(f"{piece!r} is no number and no range LO-HI between brackets")
    low, high = parts[1], parts[2] or parts[1]
    padded = low[0] == "0" and len(low) > 1
    step = int(parts[3] or 1)
    if int(low) > int(high) or step == 0 or (padded and len(high) != len(low)):
        raise BadText(f"{piece!r} is no range")
    if int(high) - int(low) >= MOST_HOSTS * step:
        raise BadText(f"{piece!r} has more than {MOST_HOSTS} hosts")
    width = len(low) if padded else 0
    return [str(number).zfill(width) for number in range(int(low), int(high) + 1, step)]


def hosts_of(item):
    """The hosts of one item: a name, or texts and bracketed numbers in turn; the last brackets go fastest."""
    for sign, meaning in (("@", "groups"), ("!", "differences"), ("&", "intersections"), ("^", "differences")):
        if sign in item:
            raise BadText(f"{item!r}: {meaning} of hosts, written with {sign}, aren't read")
    parts = re.split(r"\[([^\[\]]*)\]", item)
    choices = []
    for at, part in enumerate(parts):
        if at % 2:
            choices.append([number for piece in part.split(",") for number in numbers_of(piece)])
        else:
            choices.append([part])
    size = 1
    for choice in choices:
        size *= len(choice)
    if size > MOST_HOSTS:
        raise BadText(f"{item!r} has more than {MOST_HOSTS} hosts")
    hosts = ["".join(chosen) for chosen in itertools.product(*choices)]
    for host in hosts:
        if not NAME.fullmatch(host):
            raise BadText(f"{item!r} gives no name of 1 to 255 letters, digits, '_', '-' and '.'")
    return hosts


def read_hosts(text):
    """The names of a hostlist in their order, repeats included: `node[0-127]`, `r[0-1]n[01-16]`, `login,n[0-8/2]`."""
    if text == "":
        return []
    hosts = []
    for item in items_of(text):
        hosts += hosts_of(item)
        if len(hosts) > MOST_HOSTS:
            raise BadText(f"it has more than {MOST_HOSTS} hosts")
    return hosts


def parts_of(name):
    """A name's prefix and its longest suffix of digits."""
    digits = re.search("[0-9]*$", name)[0]
    return name[: len(name) - len(digits)], digits


def continues(run, name):
    """Whether the name goes on the run of names, as docs/FORMATS.md has it of hostlists."""
    (prefix, first), (_, last), (own, digits) = parts_of(run[0]), parts_of(run[-1]), parts_of(name)
    if own != prefix or not 1 <= len(last) <= 9 or not 1 <= len(digits) <= 9:
        return False
    plain = all(number == "0" or number[0] != "0" for number in (first, digits))
    return int(digits) == int(last) + 1 and (len(digits) == len(first) or plain)


def write_hosts(names):
    """The hostlists of names in their order, one text for each run."""
    runs = []
    for name in names:
        if runs and continues(runs[-1], name):
            runs[-1].append(name)
        else:
            runs.append([name])
    texts = []
    for run in runs:
        (prefix, first), (_, last) = parts_of(run[0]), parts_of(run[-1])
        texts.append(run[0] if len(run) == 1 else f"{prefix}[{first}-{last}]")
    return texts


def folded(names):
    """Hosts as one short text for a reader: runs of one prefix share their brackets, as `node[0-3,8,10-11]`."""
    items = []
    for text in write_hosts(names):
        prefix, inner = (text[: text.index("[")], text[text.index("[") + 1 : -1]) if "[" in text else parts_of(text)
        if items and inner and items[-1][0] == prefix and items[-1][1]:
            items[-1][1].append(inner)
        else:
            items.append((prefix, [inner] if inner else []))
    return ",".join(prefix + (bracketed(inner) if inner else "") for prefix, inner in items)


def bracketed(pieces):
    """Numbers behind a prefix: alone as they are, else between brackets."""
    return pieces[0] if len(pieces) == 1 and "-" not in pieces[0] else "[" + ",".join(pieces) + "]"
