"""The scenario that a text spells, in the words of tests/linda.py: one that the program has read, so no fault is looked
for."""

import re
from collections import namedtuple

from linda import Formal, Name, Op
from reports import PLACE, place

# `kinds` are those of each script's variables, in the order in which the text binds them first; `last` are the lines
# behind `steps` or `faults`, each as its words.
Scenario = namedtuple("Scenario", "shards scripts kinds last")

IN_SCRIPT = re.compile(rf"(\?(?:int|str|bool)) ([a-z]\w*)|({PLACE})(?![\w])|([a-z]\w*)")


def script_places(text):
    """The places of a command: values, formals, with their names where they have one, and names."""
    found = []
    for formal, bound, plain, name in IN_SCRIPT.findall(text):
        found.append(Formal(formal[1:], bound) if bound else Name(name) if name else place(plain))
    return tuple(found)


def command(line, kinds):
    """The command, which may bind more of these variables."""
    word, _, rest = line.partition(" ")
    if word == "unless":
        return ("unless", int(rest))
    if word == "set":
        name, _, other, _, more = rest.split()
        kinds.setdefault(name, "int")
        return ("set", name, "=", other, "+", int(more))
    asked = script_places(rest)
    for part in asked:
        if isinstance(part, Formal) and part.name:
            kinds.setdefault(part.name, part.kind)
    return Op(word, asked)


def spelled(text):
    lines = [line for line in text.splitlines() if not line.startswith("#")]
    ends = next(at for at, line in enumerate(lines) if line in ("steps", "faults"))
    scripts, kinds = [], []
    for line in lines[2:ends]:
        if line == "worker":
            scripts.append([])
            kinds.append({})
        else:
            scripts[-1].append(command(line, kinds[-1]))
    return Scenario(int(lines[1].split()[1]), scripts, kinds, [line.split() for line in lines[ends + 1 : -1]])
