"""The picture of docs/ARCHITECTURE.md: the layers with their crates, and the way of a scenario through them.

It is drawn from the comments of crates.txt. A line `# -- NAME: ..` begins a layer. A line `# > NUMBER TEXT` before a
crate's line says what that crate does on the way, in the order of the numbers; NUMBER may be several, each with its
text behind it after `;`.
"""

import re

from sources import ROOT, text_of

PAGE = "docs/ARCHITECTURE.md"
BEGIN, END = "<!-- picture -->", "<!-- /picture -->"
WIDTH = 21


def read():
    """The layers, the lowest first, each as its name and its crates; and the way as pairs of a number and a text."""
    layers, way, waiting = [], {}, []
    for line in text_of("crates.txt").splitlines():
        layer = re.match(r"# -- ([^:,]*)[:,]", line)
        on_way = re.match(r"# > (.*)", line)
        crate = re.match(r"(\w+)[^:]*:", line)
        if layer:
            layers.append((layer[1], []))
        elif on_way:
            waiting += [part.strip() for part in on_way[1].split(";")]
        elif crate and not line.startswith("#"):
            layers[-1][1].append(crate[1])
            for part in waiting:
                number, text = part.split(" ", 1)
                way[int(number)] = (crate[1], text)
            waiting = []
    return layers, way


def layer_lines(name, crates, way):
    """A layer: its crates, each with its numbers on the way."""
    lines = [""]
    for crate in crates:
        numbers = ", ".join(str(number) for number in sorted(way) if way[number][0] == crate)
        word = f"{crate} ({numbers})" if numbers else crate
        if len(lines[-1]) + len(word) + 2 > 74:
            lines.append("")
        lines[-1] += word + "  "
    heads = [name] + [""] * (len(lines) - 1)
    return [f"    {head:{WIDTH}}{line.rstrip()}" for head, line in zip(heads, lines)]


def picture():
    """The picture as it stands between its marks."""
    layers, way = read()
    lines = []
    for name, crates in reversed(layers):
        lines += layer_lines(name, crates, way)
    lines += ["", "    words of a command, bytes of a scenario"]
    for number in sorted(way):
        crate, text = way[number]
        lines.append(f"      {number:2} {crate:{WIDTH - 5}}{text}")
    lines.append("    bytes of a report, exit status")
    return "\n".join(lines) + "\n"


def parts():
    """The page before the picture, what stands between the marks, and the page behind it; None without marks."""
    found = re.fullmatch(f"(.*{BEGIN}\n\n)(.*?)(\n{END}\n.*)", text_of(PAGE), re.DOTALL)
    return found and found.groups()


def wrong():
    """What is wrong with the picture, if anything is."""
    there = parts()
    if not there or there[1] != picture():
        return [f"{PAGE} has not what `tests/picture` draws: put it there with `tests/picture --write`"]
    return []


def write():
    """Puts the picture between its marks. False where they are not there."""
    there = parts()
    if there:
        with open(f"{ROOT}/{PAGE}", "w", encoding="utf-8") as file:
            file.write(there[0] + picture() + there[2])
    return bool(there)
