"""Small programs of the benches' own: each lies in bench/NAME.txt, and its first start proves and builds it in
out/bench, over copies of the crates that it stands on."""

import os
import re
import shutil
import subprocess
import sys

ROOT = os.path.dirname(os.path.dirname(os.path.realpath(__file__)))


def crates(stands_on, root):
    """What each of these crates and those below them stands on, as crates.txt has it."""
    lines = {}
    for path in ("crates.txt", "tests/crates/crates.list"):
        with open(f"{root}/{path}", encoding="ascii") as file:
            lines.update(line.strip().split(":", 1) for line in file if not line.startswith("#"))
    found, left = {}, list(stands_on)
    while left:
        crate = left.pop()
        if crate in lines and crate not in found:
            found[crate] = lines[crate].strip()
            left += found[crate].split()
    return found


def copied_as_rt(old, new):
    """The sources of tests end in `.rs`."""
    return shutil.copy(old, re.sub(r"\.rs$", ".rt", new))


def build(name, stands_on, root=ROOT):
    """Proves and builds the program of a checkout over what its crates are now, and gives its path."""
    place, below = f"{root}/out/bench", crates(stands_on, root)
    for crate in [*below, name]:
        kept = f"{place}/crates/{crate}"
        for part in ("src", "specs", "proofs"):
            shutil.rmtree(f"{kept}/{part}", ignore_errors=True)
            if crate != name and os.path.isdir(f"{root}/crates/{crate}/{part}"):
                shutil.copytree(f"{root}/crates/{crate}/{part}", f"{kept}/{part}")
        if os.path.isdir(f"{root}/tests/crates/{crate}"):
            shutil.copytree(f"{root}/tests/crates/{crate}/src", f"{kept}/src", copy_function=copied_as_rt)
        # What was checked already need not be checked again; `rt` takes of it what fits these sources.
        if not os.path.isdir(f"{kept}/out") and os.path.isdir(f"{root}/crates/{crate}/out"):
            shutil.copytree(f"{root}/crates/{crate}/out", f"{kept}/out", symlinks=True)
    os.makedirs(f"{place}/crates/{name}/src")
    shutil.copy(f"{root}/bench/{name}.txt", f"{place}/crates/{name}/src/main.rt")
    shutil.copy(f"{root}/HANDLES", f"{place}/HANDLES")
    with open(f"{place}/crates.txt", "w", encoding="ascii") as file:
        file.writelines(f"{crate}: {others}\n" for crate, others in below.items())
        file.write(f"{name}: {' '.join(stands_on)}\n")
    ran = subprocess.run(
        ["rt", "run", "--", "0"], cwd=f"{place}/crates/{name}",
        stdin=subprocess.DEVNULL, stdout=subprocess.PIPE, stderr=subprocess.STDOUT, text=True,
    )
    if ran.returncode:
        sys.exit(ran.stdout[-2000:] + "\nthe program was not built")
    return f"{place}/crates/{name}/out/{name}"


def measured(program, *words):
    """The instructions of a start, in millions, and what it prints."""
    ran = subprocess.run(
        ["valgrind", "--tool=callgrind", "--callgrind-out-file=/dev/null", program, *map(str, words)],
        stdout=subprocess.PIPE, stderr=subprocess.PIPE, check=True,
    )
    return int(re.search(rb"Collected : (\d+)", ran.stderr).group(1)) / 1e6, ran.stdout.decode().strip()
