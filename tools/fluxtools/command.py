"""The edge of a tool: its words, its files, and the one line that says what is wrong."""
import argparse
import os
import re
import sys
import tempfile

MOST_COUNT = 2**46
STATUS_OF_FAULT = 2


class Fault(Exception):
    """Something that can't be done: where it was found, and why it can't be."""

    def __init__(self, place, cause):
        super().__init__(f"{place}: {cause}")


class Parser(argparse.ArgumentParser):
    """A parser of words that raises a fault where argparse would print its usage and leave."""

    def __init__(self, tool, documentation, usage):
        super().__init__(
            prog=f"tools/{tool}",
            usage=usage,
            description=documentation,
            formatter_class=argparse.RawDescriptionHelpFormatter,
            allow_abbrev=False,
        )

    def error(self, message):
        """Raises the fault that argparse's message tells."""
        one = re.fullmatch(r"argument (.+?): (.+)", message, re.DOTALL)
        if one:
            raise Fault(one[1], one[2].replace("\n", " "))
        for start, cause in (
            ("unrecognized arguments: ", "is no option or word of this tool; --help lists them"),
            ("the following arguments are required: ", "is missing"),
        ):
            if message.startswith(start):
                raise Fault(message[len(start) :].replace("\n", " "), cause)
        raise Fault("arguments", message.replace("\n", " "))


def whole_number(text, least=0, most=MOST_COUNT):
    """The number that decimal digits say, for argparse."""
    if not re.fullmatch("[0-9]+", text) or len(text) > 30:
        raise argparse.ArgumentTypeError(f"{shown(text)} is no whole number")
    if not least <= int(text) <= most:
        raise argparse.ArgumentTypeError(f"{text} is not from {least} to {most}")
    return int(text)


def counted(text):
    """A number from 1, for argparse."""
    return whole_number(text, 1)


def shown(text, most=60):
    """A text within a line, cut where it is long."""
    short = text if len(text) <= most else text[: most - 2] + ".."
    return ascii(short)


def read_bytes(path):
    """The bytes of a file, or of standard input where the path is `-`."""
    try:
        if path == "-":
            return sys.stdin.buffer.read()
        with open(path, "rb") as file:
            return file.read()
    except (OSError, ValueError) as error:
        raise Fault(called(path), reason(error)) from None


def read_once(*paths):
    """Refuses paths of which two are standard input."""
    if paths.count("-") > 1:
        raise Fault("standard input", "can be read once only")


def called(path):
    """How a place of input or output is called in a fault."""
    return "standard input" if path == "-" else path


def reason(error):
    """Why the system refused."""
    return getattr(error, "strerror", None) or str(error)


def write_text(text, path):
    """Writes a text to standard output, or as the whole of a file.

    A file is written beside its place and then renamed, so that it is the whole text, or what it was before.
    """
    data = text.encode()
    if path is None:
        try:
            sys.stdout.flush()
            sys.stdout.buffer.write(data)
            sys.stdout.buffer.flush()
        except OSError as error:
            # What is left in the buffer would be tried again, and told again, when Python leaves.
            os.dup2(os.open(os.devnull, os.O_WRONLY), 1)
            raise Fault("standard output", reason(error)) from None
        return
    try:
        write_whole(data, os.path.realpath(path))
    except (OSError, ValueError) as error:
        raise Fault(path, reason(error)) from None


def write_whole(data, path):
    """Writes a file by way of another one in the same folder."""
    if os.path.exists(path) and not os.path.isfile(path):
        with open(path, "wb") as device:
            device.write(data)
        return
    folder, name = os.path.split(path)
    number, beside = tempfile.mkstemp(prefix=name[:100] + ".", suffix=".part", dir=folder)
    try:
        with os.fdopen(number, "wb") as file:
            file.write(data)
            file.flush()
            os.fsync(file.fileno())
        os.chmod(beside, mode_for(path))
        os.replace(beside, path)
    except BaseException:
        os.unlink(beside)
        raise


def mode_for(path):
    """The rights of the file that stands there, or those that a new one gets."""
    try:
        return os.stat(path).st_mode & 0o7777
    except OSError:
        mask = os.umask(0)
        os.umask(mask)
        return 0o666 & ~mask


def finish(tool, main, words):
    """Runs a tool on its words; a fault becomes one line on standard error. Returns the exit status."""
    try:
        main(words)
        return 0
    except Fault as fault:
        line = f"tools/{tool}: {fault}"
    except RecursionError:
        line = f"tools/{tool}: input: is nested too deep"
    line = line.encode("utf-8", "backslashreplace").decode()
    print(line.replace("\n", "\\n"), file=sys.stderr)
    return STATUS_OF_FAULT
