"""The counts of the project, from the sources alone, and the tables of them in README.md and docs/PROOFS.md.

The pages say how much is proved and tested; since they take these figures from here, none is stale.
"""

import re

from heads import listed
from on_program.cases import CASES
from pages import rows_of
from sources import ROOT, Source, edits, files, is_there, text_of, tokens_of

CLAUSE = {"ensures", "requires"}
# the pages that have a table, each by the table's name
PAGES = {"readme": "README.md", "proofs": "docs/PROOFS.md"}
NODE_TESTS = "tests/crates/kt_node_tests/src"


# ---- functions and lines


def sources_of(crate):
    """The crate's sources, without those that are compiled for tests alone."""
    paths = files(f"crates/{crate}/src", ".rt").values()
    tests = {name for path in paths for name in re.findall(r"#\[cfg\(test\)\]\s+mod (\w+);", text_of(path))}
    return [path for path in paths if not tests & set(path[:-3].split("/"))]


def has_body(walk):
    """Whether a function has a body, from its name on; those that a trait only asks for have none."""
    is_clause = False
    while walk.at < len(walk.tokens):
        word = walk.tokens[walk.at]
        if word == ";" or (word == "{" and not is_clause):
            return word == "{"
        is_clause = word in CLAUSE or (is_clause and word != "{")
        if word in ("{", "(", "["):
            walk.group()
        else:
            walk.at += 1
    return False


def functions_in(path):
    """How many functions with a body the source has. Each is proved, the laws with an empty body among them."""
    walk, found = Source(path, set()), 0
    while walk.at < len(walk.tokens):
        walk.at += 1
        if walk.tokens[walk.at - 1] == "fn":
            found += has_body(walk)
    return found


def functions_of_crate(crate):
    return sum(functions_in(path) for path in sources_of(crate))


def lines_in(paths):
    return sum(len(text_of(path).splitlines()) for path in paths)


def lines_below(part):
    """The lines of this part of all crates, as `wc -l` counts them."""
    return sum(lines_in(files(f"crates/{crate}/{part}", ".antt").values()) for crate in listed())


# ---- laws, wrong bodies, tests


def laws():
    """The public functions of the files `laws`, each of which is a law with a name."""
    paths = [path for crate in listed() for path in sources_of(crate) if re.search(r"/laws(/\w+)*\.rt$", path)]
    words = [tokens_of(text_of(path)) for path in paths]
    return sum(pair == ("pub", "fn") for found in words for pair in zip(found, found[1:]))


def wrong_bodies(crate):
    """How many wrong bodies the gate tries of the crate, and how many stand beside it."""
    paths = [path for (owner, _), path in edits().items() if owner == crate]
    in_gate = sum(path.startswith("crates/") or text_of(path).startswith("only: ") for path in paths)
    return in_gate, len(paths) - in_gate


def worked_cases():
    """The cases of the tests of node rules: passages with an empty line between them of the texts that have a line
    `> STEP`, which says what comes of a step."""
    found = 0
    for path in files(NODE_TESTS, ".rs").values():
        bare = re.sub(r"^\s*//.*", "", text_of(path), flags=re.MULTILINE)
        texts = re.findall(r'"((?:[^"\\]|\\.)*)"', bare)
        found += sum(len(text.split("\n\n")) for text in texts if re.search(r"^\s*> \w", text, re.MULTILINE))
    return found


def random_scenes():
    """How many random scenes `tests/random` plays where it is told nothing, as in the gate."""
    told = re.search(r"sys\.argv\[1:\] or \(\d+, (\d+)\)", text_of("tests/random"))
    return int(told[1]) if told else 0


def program_cases():
    """How many rows the table of `tests/program` has."""
    return len(CASES)


def promises():
    """How many rows the table of each crate in docs/PROOFS.md has."""
    found = {crate: 0 for crate in listed()}
    for heading, cells in rows_of("docs/PROOFS.md"):
        in_heading = re.search(r": (\w+)$", heading)
        if in_heading and in_heading[1] in found and len(cells) > 2 and cells[0] != "Promise":
            found[in_heading[1]] += 1
    return found


def counts():
    """All counts, each with its name."""
    crates = list(listed())
    refused = [wrong_bodies(crate) for crate in crates]
    return {
        "crates": len(crates),
        "functions": sum(map(functions_of_crate, crates)),
        "lines_of_code": sum(lines_in(sources_of(crate)) for crate in crates),
        "lines_of_definitions": lines_below("specs"),
        "lines_of_proofs": lines_below("proofs"),
        "laws": laws(),
        "wrong_bodies_in_the_gate": sum(in_gate for in_gate, _ in refused),
        "wrong_bodies_beside_it": sum(beside for _, beside in refused),
        "worked_cases_of_node_rules": worked_cases(),
        "random_scenes_a_gate": random_scenes(),
        "cases_on_the_program": program_cases(),
    }


# ---- the tables of the pages


def shown(rows):
    """A table of these rows, of which the first is its head."""
    head, *others = [f"| {' | '.join(cells)} |" for cells in rows]
    return "".join(f"{line}\n" for line in [head, "|---" * len(rows[0]) + "|", *others])


def readme_table():
    """What README.md says of the size of it all."""
    counted = counts()
    found = {name: f"{count:,}" for name, count in counted.items()}
    # in thousands, so that not every change of a source is one of the page
    lines = [str(round(counted[f"lines_of_{part}"] / 1000)) for part in ("code", "definitions", "proofs")]
    return shown([
        ("What", "How many"),
        ("crates, each proved by the gate", found["crates"]),
        ("functions, each proved to meet its contract", found["functions"]),
        ("thousands of lines: of code with its contracts, of definitions, of proofs", ", ".join(lines)),
        ("laws with a name of their own", found["laws"]),
        ("wrong bodies that the prover refuses in each gate", found["wrong_bodies_in_the_gate"]),
        ("further wrong bodies, which `tests/more_edits` tries", found["wrong_bodies_beside_it"]),
        ("cases of the rules of a node, worked out by hand", found["worked_cases_of_node_rules"]),
        ("random scenes in each gate, compared with a model in Python", found["random_scenes_a_gate"]),
        ("cases of words, inputs and failing streams, on the built program", found["cases_on_the_program"]),
    ])


def proofs_table():
    """What docs/PROOFS.md says of each crate, and of all together."""
    promised = promises()
    rows = [(promised[crate], *wrong_bodies(crate), functions_of_crate(crate)) for crate in listed()]
    named = [(crate, *map(str, row)) for crate, row in zip(listed(), rows)]
    whole = ("all", *(f"{sum(column):,}" for column in zip(*rows)))
    return shown([("Crate", "Promises", "Wrong bodies in the gate", "Beside it", "Functions"), *named, whole])


def tables():
    """Each table by its name."""
    return {"readme": readme_table(), "proofs": proofs_table()}


def with_table(text, name, table):
    """The page's text with the table between its marks, or None where it has no such marks."""
    start, end = f"<!-- counts: {name} -->\n", "<!-- /counts -->"
    front, mark, behind = text.partition(start)
    old, close, rest = behind.partition(end)
    return f"{front}{start}{table}{end}{rest}" if mark and close else None


def stale():
    """What is wrong with the tables of the pages."""
    for name, table in tables().items():
        page = PAGES[name]
        written = with_table(text_of(page), name, table) if is_there(page) else None
        if written is None:
            yield f"{page} has no lines <!-- counts: {name} --> and <!-- /counts -->"
        elif written != text_of(page):
            yield f"{page} has not the table of `tests/counts --table {name}`: put it there with `tests/counts --write`"


def write():
    """Puts the tables into the pages, and says which have no place for theirs."""
    lost = []
    for name, table in tables().items():
        written = with_table(text_of(PAGES[name]), name, table)
        if written is None:
            lost.append(PAGES[name])
        elif written != text_of(PAGES[name]):
            with open(f"{ROOT}/{PAGES[name]}", "w", encoding="utf-8") as file:
                file.write(written)
    return lost
