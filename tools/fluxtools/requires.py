"""Constraint queries (RFC 35), as `flux submit --requires` takes them, as constraints on nodes (RFC 31)."""
import re

from fluxtools.command import shown
from fluxtools.texts import BadText, read_hosts, read_idset, write_hosts

OPERATORS = {
    "": "properties",
    "properties": "properties",
    "host": "hostlist",
    "hosts": "hostlist",
    "hostlist": "hostlist",
    "rank": "ranks",
    "ranks": "ranks",
}
MOST_NESTED = 40
SIGNS = {"&": "and", "&&": "and", "|": "or", "||": "or", "(": "(", ")": ")", "and": "and", "or": "or", "not": "not"}
PIECES = re.compile(r"""\s*(?:(?P<sign>&&?|\|\|?|[()])|(?P<term>(?:[^\s()|&'"]|'[^']*'|"[^"]*")+))""")


class BadQuery(ValueError):
    """A query that can't be read, with the reason."""


def read_requires(text):
    """The constraint of a query: terms `OPERATOR:OPERAND`, parted by spaces, `and`, `or`, `not` and brackets."""
    reader = Reader(tokens_of(text))
    constraint = reader.either()
    if reader.token is not None:
        raise BadQuery(f"{reader.shown_token()} stands where the query should end")
    return constraint


def tokens_of(text):
    """The signs and terms of a query, each as (what it is, the term's text)."""
    tokens, at = [], 0
    text = text.rstrip()
    while at < len(text):
        piece = PIECES.match(text, at)
        if not piece:
            raise BadQuery(f"{shown(text[at:].strip())} has a quote without its end")
        word = piece["sign"] or piece["term"]
        tokens.append((SIGNS[word], word) if word in SIGNS else ("term", word))
        at = piece.end()
    return tokens


class Reader:
    """Reads tokens by the grammar: `or` binds least, then `and` (or nothing between terms), then `not`."""

    def __init__(self, tokens):
        self.tokens, self.at, self.deep = tokens, 0, 0

    @property
    def token(self):
        """What the next token is, None at the end."""
        return self.tokens[self.at][0] if self.at < len(self.tokens) else None

    def shown_token(self):
        """The next token as it was written."""
        return shown(self.tokens[self.at][1]) if self.token else "the end"

    def either(self):
        """Parts with `or` between."""
        parts = [self.every()]
        while self.token == "or":
            self.at += 1
            parts.append(self.every())
        return parts[0] if len(parts) == 1 else {"or": parts}

    def every(self):
        """Parts with `and`, or nothing, between."""
        parts = [self.one()]
        while self.token in ("and", "term", "not", "("):
            self.at += self.token == "and"
            parts.append(self.one())
        return together(parts)

    def one(self):
        """A term, a part in brackets, or the negation of one."""
        kind, self.deep = self.token, self.deep + 1
        if self.deep > MOST_NESTED:
            raise BadQuery(f"it is nested more than {MOST_NESTED} deep")
        if kind not in ("term", "not", "("):
            raise BadQuery(f"{self.shown_token()} stands where a term should")
        word = self.tokens[self.at][1]
        self.at += 1
        if kind == "not":
            constraint = {"not": [self.one()]}
        elif kind == "(":
            constraint = self.either()
            if self.token != ")":
                raise BadQuery(f"{self.shown_token()} stands where ')' should")
            self.at += 1
        else:
            constraint = {"not": [term(word[1:])]} if word[0] == "-" else term(word)
        self.deep -= 1
        return constraint


def together(parts):
    """Parts that are all asked for; properties that stand side by side are one list, as Flux writes them."""
    joined = []
    for part in parts:
        if joined and list(part) == ["properties"] and list(joined[-1]) == ["properties"]:
            joined[-1] = {"properties": joined[-1]["properties"] + part["properties"]}
        else:
            joined.append(part)
    return joined[0] if len(joined) == 1 else {"and": joined}


def term(word):
    """The constraint of one term."""
    plain = re.sub("['\"]", "", word)
    operator, colon, operand = plain.partition(":")
    if not colon:
        operator, operand = "", plain
    key = OPERATORS.get(operator)
    if key is None or (colon and not operator):
        raise BadQuery(f"{shown(word)} has no operator of properties, hosts and ranks before ':'")
    if operand == "":
        raise BadQuery(f"{shown(word)} has nothing to look for")
    try:
        return {key: {"properties": properties, "hostlist": hosts, "ranks": ranks}[key](operand)}
    except BadText as bad:
        raise BadQuery(str(bad)) from None


def properties(operand):
    """The members of a list of properties; `^` before one asks that it is not there."""
    names = operand.split(",")
    for name in names:
        if name.strip("^") == "" or name.startswith("^^"):
            raise BadText(f"{name!r} is no property")
    return names


def hosts(operand):
    """A hostlist as the constraint takes it: each text a name, or a prefix with one pair of brackets behind it."""
    return write_hosts(sorted(set(read_hosts(operand)), key=in_order))


def in_order(name):
    """A key that sorts the numbers in names by their size."""
    return [(int(piece), len(piece), "") if piece.isdigit() else (-1, 0, piece) for piece in re.split("([0-9]+)", name)]


def ranks(operand):
    """An idset of ranks."""
    read_idset(operand)
    return [operand]
