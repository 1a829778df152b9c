#!/usr/bin/python3
"""Answers cases of idsets and hostlists by the grammar of docs/FORMATS.md, and compares a program's answers with that.

text_oracle.py CASES ANSWERS

The cases are those of clustershell_cases.py: `i TEXT`, `h TEXT`, `x IDS`, `w NAMES`. It shares no code with the crate.
lines_oracle.py takes its readers and writers from here.
"""
import re
import sys

GREATEST_ID = 4294967294


def id_of(digits):
    value = int(digits) if re.fullmatch(r"0|[1-9][0-9]*", digits) else None
    return value if value is not None and value <= GREATEST_ID else None


def read_idset(text):
    if text == "":
        return "ok"
    start = 1 if text[0] == "[" and text[-1] == "]" and len(text) > 1 else 0
    inner = text[1:-1] if start else text
    ranges, least, at = [], 0, start
    for item in inner.split(","):
        ends = re.fullmatch(r"([0-9]+)(?:-([0-9]+))?", item)
        lo = id_of(ends[1]) if ends else None
        hi = lo if ends and ends[2] is None else (id_of(ends[2]) if ends else None)
        if lo is None or hi is None or hi < lo or lo < least:
            return f"form {at}"
        ranges.append(f" {lo}-{hi}")
        least = hi + 1
        at += len(item) + 1
    return "ok" + "".join(ranges)


def items_of(text):
    """The items with their places: a comma parts them unless a bracket was opened and not closed since."""
    start, inside = 0, False
    for at, char in enumerate(text):
        if char == "[":
            inside = True
        elif char == "]":
            inside = False
        elif char == "," and not inside:
            yield start, text[start:at]
            start = at + 1
    yield start, text[start:]


def hosts_of(item):
    name = r"[A-Za-z0-9_.-]"
    if re.fullmatch(name + "{1,255}", item):
        return [item]
    parts = re.fullmatch("(" + name + r"{0,255})\[([^\[\]]*)\]", item)
    if not parts:
        return None
    hosts = []
    for piece in parts[2].split(","):
        ends = re.fullmatch(r"([0-9]{1,9})(?:-([0-9]{1,9}))?", piece)
        if not ends:
            return None
        first, last = ends[1], ends[2] or ends[1]
        width = len(first) if first[0] == "0" and len(first) > 1 else 0
        longest = len(parts[1]) + max(width, len(str(int(last))))
        if int(first) > int(last) or (width and len(last) != width) or longest > 255:
            return None
        hosts.append(f"{parts[1]}:{int(first)}:{int(last)}:{width}")
    return hosts


def read_hostlist(text):
    hosts = []
    for at, item in items_of(text) if text else []:
        own = hosts_of(item)
        if own is None:
            return f"form {at}"
        hosts += own
    return "".join(["ok", *(f" {h}" for h in hosts)])


def has_id(text, id):
    """Whether the idset has the id, None where the text is no idset."""
    said, *ranges = read_idset(text).split()
    if said != "ok":
        return None
    return any(int(lo) <= id <= int(hi) for lo, hi in (ends.split("-") for ends in ranges))


def names_host(host, name):
    """Whether a host of `hosts_of`, a name or `PREFIX:LO:HI:WIDTH`, is the name or has it."""
    prefix, *numbers = host.split(":")
    if not numbers:
        return host == name
    lo, hi, width = map(int, numbers)
    digits = name[len(prefix) :] if name.startswith(prefix) else ""
    return re.fullmatch("[0-9]{1,9}", digits) and lo <= int(digits) <= hi and digits == str(int(digits)).zfill(width)


def has_host(text, name):
    """Whether the hostlist has the name, None where the text is no hostlist."""
    said, *hosts = read_hostlist(text).split()
    return any(names_host(host, name) for host in hosts) if said == "ok" else None


def write_idset(ids):
    runs = []
    for id in ids:
        if runs and runs[-1][1] + 1 == id:
            runs[-1][1] = id
        else:
            runs.append([id, id])
    return ",".join(str(lo) if lo == hi else f"{lo}-{hi}" for lo, hi in runs)


def parts_of(name):
    parts = re.fullmatch(r"(.*?)([0-9]*)", name)
    return parts[1], parts[2]


def continues(run, name):
    (prefix, first), (_, last) = parts_of(run[0]), parts_of(run[-1])
    own_prefix, digits = parts_of(name)
    if own_prefix != prefix or not 1 <= len(last) <= 9 or not 1 <= len(digits) <= 9:
        return False
    no_zero = all(d == "0" or d[0] != "0" for d in (first, digits))
    return int(digits) == int(last) + 1 and (len(digits) == len(first) or no_zero)


def hostlist_items(names):
    runs = []
    for name in names:
        if runs and continues(runs[-1], name):
            runs[-1].append(name)
        else:
            runs.append([name])
    texts = []
    for run in runs:
        (prefix, first), (_, last) = parts_of(run[0]), parts_of(run[-1])
        texts.append(run[0] if len(run) == 1 else f"{prefix}[{first}-{last}]")
    return texts


def answer(case):
    word, text = case[0], case[2:]
    if word == "i":
        return read_idset(text)
    if word == "h":
        return read_hostlist(text)
    if word == "x":
        return write_idset([int(id) for id in text.split()])
    return " ".join(hostlist_items(text.split()))


def main():
    with open(sys.argv[1]) as cases, open(sys.argv[2]) as answers:
        pairs = list(zip(cases.read().split("\n")[:-1], answers.read().split("\n")[:-1], strict=True))
    wrong = [(case, told, answer(case)) for case, told in pairs if told != answer(case)]
    for case, told, wanted in wrong[:20]:
        print(f"{case!r}: told {told!r}, wanted {wanted!r}")
    print(f"{len(pairs)} cases, {len(wrong)} differ")
    sys.exit(1 if wrong else 0)


if __name__ == "__main__":
    main()
