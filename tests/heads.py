"""The head of each crate's root file, which says to whom the crate is a neighbour, and what crates.txt says of that.

A head is the `//!` lines with which `lib.rt` or `main.rt` begins: a sentence or two, and then the items of `ITEMS`,
each as `//! - Name: text`, whose further lines are `//!   text`. So that nobody trusts a head that has become stale,
the neighbours in it are compared with crates.txt. Who stands on a crate is not in its head: else each crate that comes
would change all below it, and they would have to be proved anew. `tests/cited CRATE` prints it.
"""

import re

from sources import is_there, text_of

ITEMS = ("Contract", "Stands on", "Begin in")
# Crates whose root file has another head, each with the reason.
APART = {"kt_example": "docs/USING.md quotes the whole file"}
KIT = "; of the kit: "
FILE = re.compile(r"[\w./]+\.(?:rt|antt)\b")


def listed():
    """What each crate stands on, in the order of crates.txt: crates of the repository and libraries of the kit."""
    lines = [line for line in text_of("crates.txt").splitlines() if line.strip() and not line.startswith("#")]
    return {name.split()[0]: others.split() for name, _, others in (line.partition(":") for line in lines)}


def neighbours(crate, lines):
    """The items on the crate's neighbours, as its head must have them."""
    below = [name for name in lines if name in lines[crate]]
    kit = [name for name in lines[crate] if name not in lines]
    stands_on = (", ".join(below) or "none") + (KIT + ", ".join(kit) if kit else "")
    return {"Stands on": stands_on}


def root_of(crate):
    """The crate's root file."""
    paths = [f"crates/{crate}/src/{name}.rt" for name in ("lib", "main")]
    return next((path for path in paths if is_there(path)), paths[0])


def head_of(text):
    """The sentences of a head, and its items as pairs of a name and a text; a line that is no part of it as an item
    without a name."""
    about, items = [], []
    for line in text.splitlines():
        if not line.startswith("//!"):
            break
        item = re.fullmatch(r"//! - ([A-Z][a-z ]*): (.*)", line)
        if item:
            items.append([item[1], item[2]])
        elif items and line.startswith("//!   ") and items[-1][0]:
            items[-1][1] += f" {line[6:]}"
        elif not items:
            about += [line[4:]] if line[4:].strip() else []
        else:
            items.append(["", line])
    return " ".join(about), items


def without_marks(text):
    """A list of names without what a writer may put around it."""
    return text.replace("`", "").rstrip(".").strip()


def wrongs_of(crate, lines):
    """What is wrong with the head of the crate's root file."""
    path = root_of(crate)
    about, items = head_of(text_of(path)) if is_there(path) else ("", [])
    if not about:
        yield f"{path} begins with no sentence"
    if [name for name, _ in items] != list(ITEMS):
        yield f"{path} has not the items {', '.join(ITEMS)}, in this order and no other line"
        return
    said = dict(items)
    for name, wanted in neighbours(crate, lines).items():
        given = without_marks(said[name])
        # the libraries of the kit may be left out, and are compared where they are there
        if given not in (wanted, wanted.split(KIT)[0]):
            yield f"{path}: {name}: {given}, and by crates.txt it is {wanted}"
    begin = FILE.findall(said["Begin in"])
    lost = [file for file in begin if not any(is_there(f"crates/{crate}/{folder}{file}") for folder in ("src/", ""))]
    yield from (f"{path}: Begin in: there is no {file}" for file in lost)
    if not begin:
        yield f"{path}: Begin in names no file"
    if not said["Contract"].strip():
        yield f"{path}: Contract says nothing"


def wrong_heads():
    """What is wrong with the heads of all crates."""
    lines = listed()
    return [wrong for crate in lines if crate not in APART for wrong in wrongs_of(crate, lines)]
