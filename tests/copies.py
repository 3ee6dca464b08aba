"""Copies of crates in a folder of their own, where a file may be altered while the sources stay as they are."""

import os
import shutil

ROOT = os.path.dirname(os.path.dirname(os.path.realpath(__file__)))


def below(crate):
    """The crate and all that it stands on, as crates.txt names them, each with its line there."""
    with open(f"{ROOT}/crates.txt", encoding="ascii") as file:
        lines = {line.split(":")[0]: line for line in file if not line.startswith("#")}
    found, left = set(), [crate]
    while left:
        name = left.pop()
        if name in lines and name not in found:
            found.add(name)
            left += lines[name].split()[1:]
    return {name: line for name, line in lines.items() if name in found}


def copied(crate, place):
    """The crate and what it stands on anew in this place, with what was checked of them."""
    os.makedirs(place, exist_ok=True)
    shutil.copy(f"{ROOT}/HANDLES", f"{place}/HANDLES")
    needed = below(crate)
    with open(f"{place}/crates.txt", "w", encoding="ascii") as file:
        file.writelines(needed.values())
    for name in needed:
        for part in ("src", "specs", "proofs", "out"):
            old, new = f"{ROOT}/crates/{name}/{part}", f"{place}/crates/{name}/{part}"
            if part != "out":
                shutil.rmtree(new, ignore_errors=True)
            if os.path.isdir(old) and not os.path.isdir(new):
                shutil.copytree(old, new, symlinks=True)
