#!/usr/bin/python3
"""Compares the texts of ids and hosts with ClusterShell's RangeSet and NodeSet.

clustershell_cases.py make SEED > CASES       writes cases, one a line
clustershell_cases.py compare CASES ANSWERS   compares the answers of tools/programs/text_cases with ClusterShell's

A case is `i TEXT` (an idset is read), `h TEXT` (a hostlist is read), `x IDS` (an idset is written) or `w NAMES` (a
hostlist is written). Needs Debian's clustershell.
"""
import random
import re
import sys
from collections import Counter

from ClusterShell.NodeSet import NodeSet, NodeSetException
from ClusterShell.RangeSet import RangeSet, RangeSetException

MOST = 20_000  # no case asks for more ids or names than this


def is_small(text):
    """No range of the text is too long to be expanded."""
    sizes = [int(b) - int(a) for a, b in re.findall(r"(\d+)-(\d+)", text)]
    return all(size < MOST for size in sizes)


def mutated(text, alphabet):
    chars = list(text)
    for _ in range(random.randint(0, 2)):
        at = random.randrange(len(chars) + 1)
        how = random.random()
        if how < 0.4 and at < len(chars):
            chars[at] = random.choice(alphabet)
        elif how < 0.7:
            chars.insert(at, random.choice(alphabet))
        elif at < len(chars):
            del chars[at]
    return "".join(chars)


def some_idset():
    low, items = 0, []
    for _ in range(random.randint(1, 6)):
        lo = low + random.choice([0, 1, 1, 2, 7, 90])
        hi = lo + random.choice([0, 0, 1, 2, 9, 800])
        items.append(str(lo) if lo == hi else f"{lo}-{hi}")
        low = hi + 1
    text = ",".join(items)
    return f"[{text}]" if random.random() < 0.15 else text


def some_name():
    head = random.choice(["n", "node", "login", "a-b", "x_", "c.d", "r1n"])
    return head + random.choice(["", "0", "7", "9", "10", "08", "099", "123456789"])


def some_piece():
    lo = random.choice([0, 1, 5, 8, 9, 98, 99, 1000])
    hi = lo + random.choice([0, 1, 2, 50])
    width = random.choice([0, 0, 0, 2, 3, 4])
    first, last = str(lo).zfill(width), str(hi).zfill(width)
    return first if random.random() < 0.3 else f"{first}-{last}"


def some_hostlist():
    items = []
    for _ in range(random.randint(1, 4)):
        if random.random() < 0.4:
            items.append(some_name())
            continue
        head = random.choice(["n", "node", "a-b", "x_", "", "c.d", "r1n"])
        pieces = ",".join(some_piece() for _ in range(random.randint(1, 3)))
        items.append(f"{head}[{pieces}]")
    return ",".join(items)


def some_names():
    names = []
    for _ in range(random.randint(1, 10)):
        digits = re.search(r"\d+$", names[-1]) if names else None
        if digits and random.random() < 0.75:
            head = names[-1][: digits.start()]
            following = int(digits[0]) + random.choice([1, 1, 1, 2])
            width = len(digits[0]) if random.random() < 0.85 else 0
            names.append(head + str(following).zfill(width))
        else:
            names.append(some_name())
    return names


def make(seed):
    random.seed(seed)
    cases = []
    for _ in range(2000):
        cases.append("i " + mutated(some_idset(), "0123,-[] x/"))
    for _ in range(2000):
        cases.append("h " + mutated(some_hostlist(), "019,-[]n.x/"))
    for _ in range(1000):
        ids = sorted(random.sample(range(60), random.randint(1, 20)))
        cases.append("x " + " ".join(map(str, ids)))
        cases.append("i " + str(RangeSet.fromlist([str(id) for id in ids])))
    for _ in range(1500):
        names = some_names()
        cases.append("w " + " ".join(names))
        cases.append("h " + str(NodeSet.fromlist(names, resolver=None)))
    print("\n".join(case for case in cases if is_small(case)))


def ids_of(answer):
    ids = []
    for item in answer.split()[1:]:
        lo, hi = item.split("-")
        ids.extend(range(int(lo), int(hi) + 1))
    return ids


def names_of(answer):
    names = []
    for item in answer.split()[1:]:
        parts = item.rsplit(":", 3)
        if len(parts) == 1:
            names.append(item)
            continue
        head, lo, hi, width = parts
        names.extend(head + str(n).zfill(int(width)) for n in range(int(lo), int(hi) + 1))
    return names


def theirs(read, text):
    """What ClusterShell reads, or None where it refuses."""
    try:
        return read(text)
    except (RangeSetException, NodeSetException):
        return None


def why_idset(text):
    """Why only one of the two takes a text as an idset."""
    inner = text[1:-1] if text[:1] == "[" and text[-1:] == "]" else text
    if text == "":
        return "the empty text is an idset, no RangeSet"
    if inner != text:
        return "brackets round a list are an idset, no RangeSet"
    if " " in text:
        return "a RangeSet may have spaces"
    if "/" in text:
        return "a RangeSet may have a step"
    if re.search(r"(^|,)-\d", text):
        return "a RangeSet may have a negative number"
    if re.search(r"(^|[,-])0\d", text):
        return "a RangeSet may have leading zeros"
    if any(int(n) > 4294967294 for n in re.findall(r"\d+", text)):
        return "a RangeSet may have a greater number"
    return "a RangeSet need not rise"


def has_digit_before_bracket(text):
    """A prefix that ends with a digit: ClusterShell moves the digit into the numbers."""
    return re.search(r"\d\[", text) is not None


def why_ours(text):
    """Why ClusterShell refuses a hostlist."""
    if has_digit_before_bracket(text):
        return "a NodeSet moves a digit before a bracket into the numbers"
    if re.search(r"[\[,]\d+-0\d", text):
        return "the zeros of a last end alone count for nothing, and make no NodeSet"
    return "OTHER"


def why_theirs(text):
    """Why a NodeSet is no hostlist."""
    if re.search(r"\][^,]", text):
        return "a NodeSet may have text behind a bracket"
    if "/" in text:
        return "a NodeSet may have a slash, as a step or in a name"
    if re.search(r"[\[,][^,\]]*-[^,\]]*-|[\[,]-\d|[\[,][^],]*[^],\d-]", text):
        return "a NodeSet may have a second dash, a sign or a letter in brackets"
    if re.search(r"\d{10}", text):
        return "a NodeSet may have numbers of more than 9 digits"
    return "OTHER"


def compare(cases, answers):
    told = Counter()
    examples = {}

    def tell(kind, case, answer):
        told[kind] += 1
        examples.setdefault(kind, f"{case!r} -> {answer!r}")

    for case, answer in zip(cases, answers, strict=True):
        word, text = case[0], case[2:]
        if word == "i":
            other = theirs(RangeSet, text)
            if answer.startswith("ok") and other is not None:
                same = ids_of(answer) == sorted(int(id) for id in other)
                tell("idset read: both, the same ids" if same else "idset read: OTHER IDS", case, answer)
            elif not answer.startswith("ok") and other is None:
                tell("idset read: refused by both", case, answer)
            else:
                one = "ours alone" if answer.startswith("ok") else "theirs alone"
                tell(f"idset read: {one}: {why_idset(text)}", case, answer)
        elif word == "h":
            other = theirs(lambda t: NodeSet(t, resolver=None), text)
            if answer.startswith("ok") and other is not None:
                if set(names_of(answer)) == set(other):
                    tell("hostlist read: both, the same names", case, answer)
                elif has_digit_before_bracket(text):
                    tell("hostlist read: other names: a NodeSet moves a digit before a bracket into the numbers", case, answer)
                else:
                    tell("hostlist read: OTHER NAMES", case, answer)
            elif not answer.startswith("ok") and other is None:
                tell("hostlist read: refused by both", case, answer)
            else:
                ours = answer.startswith("ok")
                why = f"ours alone: {why_ours(text)}" if ours else f"theirs alone: {why_theirs(text)}"
                tell(f"hostlist read: {why}", case, answer)
        elif word == "x":
            same = answer == str(RangeSet.fromlist(text.split()))
            tell("idset written: the same text" if same else "idset written: ANOTHER TEXT", case, answer)
        elif word == "w":
            names = text.split()
            other = theirs(lambda t: NodeSet(t, resolver=None), answer.replace(" ", ","))
            if other is None or set(other) != set(names):
                tell("hostlist written: READ AS OTHER NAMES", case, answer)
            elif answer.replace(" ", ",") == str(NodeSet.fromlist(names, resolver=None)):
                tell("hostlist written: the same text", case, answer)
            else:
                tell("hostlist written: another text of the same names", case, answer)
    for kind in sorted(told):
        print(f"{told[kind]:6} {kind}   {examples[kind][:150]}")
    print(f"{sum(told.values()):6} cases")


def main():
    if sys.argv[1] == "make":
        make(int(sys.argv[2]))
    else:
        with open(sys.argv[2]) as cases, open(sys.argv[3]) as answers:
            compare(cases.read().split("\n")[:-1], answers.read().split("\n")[:-1])


if __name__ == "__main__":
    main()
