"""The public words of specifications (`specs/*.antt`), with what the comments above them say."""
import os
import re

from fluxtools.command import Fault, read_bytes

NAME = r"(?P<name>[^\s:(){}]+)"
WORD = re.compile(rf" *(?:abbrev |unfoldable )?pub (?P<kind>record |data )?{NAME}(?= |$)")
FIELD = re.compile(rf" +pub {NAME} :")
MUTUAL = re.compile(r" *(?:abbrev )?mutual$")
CASE = re.compile(rf" +{NAME} :")


class Word:
    """A word: its name, the comment above it, and its fields or cases, each with its comment; no comment is ''."""

    def __init__(self, name, kind, says):
        self.name, self.kind, self.says, self.parts = name, (kind or "").strip(), says, []


def read_words(path):
    """The words of a file, in its order."""
    words, comment, owner, outer = [], [], None, ""
    for line in text_of(path).splitlines():
        if line.strip().startswith("--"):
            comment.append(line.strip()[2:].strip())
            continue
        if MUTUAL.match(line):
            outer, comment = joined(comment), []
            continue
        found = WORD.match(line) if owner is None else None
        part = owner and {"record": FIELD, "data": CASE}[owner.kind].match(line)
        if found and found["name"] != "mod":
            says = ": ".join(filter(None, (outer.rstrip(".") if comment else outer, joined(comment))))
            words.append(Word(found["name"], found["kind"], says))
            owner, outer = words[-1] if words[-1].kind else None, ""
        elif part:
            owner.parts.append((part["name"], joined(comment)))
        elif line.strip() == "":
            owner = None
        comment = []
    return words


def joined(comment):
    """The lines of a comment in one, but for rules that head a section."""
    return " ".join(line for line in comment if not line.startswith("----"))


def text_of(path):
    """The text of a file."""
    try:
        return read_bytes(path).decode("utf-8")
    except UnicodeDecodeError:
        raise Fault(path, "is no UTF-8") from None


def modules_of(folder):
    """The modules that the first file of a crate's specifications lists, in its order; folders aside."""
    listed = re.findall(r"(?m)^pub mod (\S+)$", text_of(os.path.join(folder, "Lib.antt")))
    return [name for name in listed if name[0].isupper()]


def words_of(folder):
    """All words of a crate's specifications by their names; of words with one name, the first."""
    words = {}
    for module in modules_of(folder):
        for word in read_words(os.path.join(folder, f"{module}.antt")):
            words.setdefault(word.name, word)
    return words
