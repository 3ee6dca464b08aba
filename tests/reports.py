"""What a report says, in the words of tests/linda.py."""

import re
from collections import namedtuple

from linda import DONE, NONE, Formal, Op, Truth, tuple_text

# A service that survives: whose it is, the number of its request, what that asked, what was answered.
Service = namedtuple("Service", "worker number op answer")

PLACE = r'-?\d+|"(?:[^"\\]|\\.)*"|true|false|\?int|\?str|\?bool'
TUPLE = rf"\((?:{PLACE})(?:, (?:{PLACE}))*\)"
SERVICE = re.compile(rf"w(\d+)\.(\d+) (out|in|rd|inp|rdp) ({TUPLE}) ({DONE}|{NONE}|got ({TUPLE}))")


class Wrong(Exception):
    """Something is not as it must be."""


def place(text):
    """The value or the formal that this text spells."""
    if text.startswith("?"):
        return Formal(text[1:])
    if text.startswith('"'):
        return re.sub(r"\\(.)", r"\1", text[1:-1])
    return Truth(text) if text in ("true", "false") else int(text)


def places(text):
    """The tuple or template that this text spells."""
    found = tuple(place(part) for part in re.findall(PLACE, text))
    if tuple_text(found) != text:
        raise Wrong(f"no tuple: {text}")
    return found


def service(line):
    """The service that this line tells."""
    found = SERVICE.fullmatch(line)
    if not found:
        raise Wrong(f"no service: {line}")
    worker, number, word, asked, answer, got = found.groups()
    return Service(int(worker), int(number), Op(word, places(asked)), places(got) if got else answer)


def counted(lines, word):
    """The lines behind `word N`, which stands first."""
    head, number = lines.pop(0).split(" ")
    if head != word:
        raise Wrong(f"{head} in place of {word}")
    taken = lines[: int(number)]
    del lines[: int(number)]
    return taken


def parts(report):
    """The lines of the services that survive, how many were lost, and the lines of the tuples in the space."""
    lines = report.splitlines()
    services = counted(lines, "survivors")
    lost = lines.pop(0).split(" ")
    return services, int(lost[1]), counted(lines, "space")
