"""Linda's values, templates and scripts, as plain as can be, and their texts: what tests/protocol.py stands on.

A tuple of the space is a tuple of ints, strings and truths. A place of a template is such a value or a `Formal`; in a
script it may be a `Name`, of a variable.
"""

from collections import namedtuple
from enum import Enum

LEAST, MOST = -(2**63), 2**63 - 1


class Truth(Enum):
    """The bools of Linda. Those of Python are ints, and equal to 0 and 1."""

    TRUE = "true"
    FALSE = "false"


KINDS = {int: "int", str: "str", Truth: "bool"}
# of a kind: its code in a signature, and what a variable of it begins as
CODES = {"int": 1, "str": 2, "bool": 3}
ZEROS = {"int": 0, "str": "", "bool": Truth.FALSE}

Formal = namedtuple("Formal", "kind name", defaults=[None])
Name = namedtuple("Name", "name")
Op = namedtuple("Op", "word places")
# beside the tuple that was got
DONE, NONE = "done", "none"


# ---- texts


def string_text(value):
    return '"' + value.replace("\\", "\\\\").replace('"', '\\"') + '"'


def value_text(value):
    return {"int": str, "str": string_text, "bool": lambda truth: truth.value}[kind_of(value)](value)


def place_text(place):
    if isinstance(place, Formal):
        return f"?{place.kind}" + (f" {place.name}" if place.name else "")
    return place.name if isinstance(place, Name) else value_text(place)


def tuple_text(places):
    return "(" + ", ".join(map(place_text, places)) + ")"


def answer_text(answer):
    return answer if isinstance(answer, str) else "got " + tuple_text(answer)


def command_text(command):
    if isinstance(command, Op):
        return f"{command.word} {tuple_text(command.places)}"
    return " ".join(map(str, command))


# ---- the space


def kind_of(place):
    if isinstance(place, Formal):
        return place.kind
    return KINDS[type(place)]


def matches(template, values):
    return len(template) == len(values) and all(
        place.kind == kind_of(value) if isinstance(place, Formal) else place == value
        for place, value in zip(template, values)
    )


def shard_of(places, shards):
    number = 0
    for place in places:
        number = 5 * number + CODES[kind_of(place)]
    return f"s{number % shards + 1}"


# ---- scripts


def bound(values, places, answer):
    """The variables after this answer to a request with these places."""
    if isinstance(answer, str):
        return values
    named = {place.name: value for place, value in zip(places, answer) if isinstance(place, Formal) and place.name}
    return {**values, **named}


def asked_next(script, kinds, answers):
    """The operation that is asked for after these answers, from the script's beginning on; None at its end."""
    values = {name: ZEROS[kind] for name, kind in kinds.items()}
    place, was_none, left = 0, False, list(answers)
    while place < len(script):
        command = script[place]
        place += 1
        if not isinstance(command, Op):
            if command[0] == "unless":
                place += command[1] if was_none else 0
            else:
                _, name, _, other, _, more = command
                values[name] = min(max(values[other] + more, LEAST), MOST)
            continue
        if not left:
            sent = [values[p.name] if isinstance(p, Name) else p for p in command.places]
            return Op(command.word, tuple(Formal(p.kind) if isinstance(p, Formal) else p for p in sent))
        answer = left.pop(0)
        was_none = answer == NONE
        values = bound(values, command.places, answer)
    return None


def scenario(shards, scripts, steps):
    lines = ["linda-kt 1", f"shards {shards}"]
    for script in scripts:
        lines += ["worker", *map(command_text, script)]
    lines += ["steps", *(" ".join(map(str, step)) for step in steps), "end"]
    return "".join(f"{line}\n" for line in lines)
