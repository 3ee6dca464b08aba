"""What `--explain` says behind the line of a fault: each mistake in a text that the tests of kt_explain have, refused
steps, stores that are not opened, and streams that fail."""

import glob
import os
import re
import tempfile

from on_program.starting import FOLDER, ROOT, start, tell, told

TESTS = f"{ROOT}/tests/crates/kt_explain_tests/src"
ESCAPES = {"n": "\n", "r": "\r", "t": "\t", '"': '"', "\\": "\\", "0": "\0"}
LITERAL = re.compile(r'r#"(?P<raw>.*?)"#|"(?P<plain>(?:[^"\\]|\\.)*)"', re.DOTALL)
TABLE = re.compile(r"(?:const|static) (\w+): &\[Row\] = &\[(.*?)\]?\)?\];\n", re.DOTALL)
CALL = re.compile(r'assert_said\(\s*&rt,\s*alloc,\s*(\w+|"(?:[^"\\]|\\.)*"),\s*WorkKind::(\w+),\s*(\w+),?\s*\)')
CONSTANT = re.compile(r'const (\w+): &str = ("(?:[^"\\]|\\.)*");', re.DOTALL)
WORDS = {"Steps": "replay", "Faults": "run"}
ONE_LINE = re.compile(rb"line \d+: [1-7] [A-Z][a-z]+\n")


def text_of(literal):
    """The text of a literal of the tests' language."""
    if literal["raw"] is not None:
        return literal["raw"]
    text = re.sub(r"\\\n\s*", "", literal["plain"])
    text = re.sub(r"\\u\{(\w+)\}|\\x(\w\w)", lambda found: chr(int(found[1] or found[2], 16)), text)
    return re.sub(r"\\(.)", lambda found: ESCAPES[found[1]], text)


def rows():
    """The rows of the tests of kt_explain: a name, the command, a text, and what is said of it."""
    tables = {}
    for path in glob.glob(f"{TESTS}/*.rs"):
        with open(path, encoding="utf-8") as file:
            for name, body in TABLE.findall(file.read()):
                texts = [text_of(literal) for literal in LITERAL.finditer(body)]
                tables[name] = list(zip(texts[::3], texts[1::3], texts[2::3]))
    with open(f"{TESTS}/lib.rs", encoding="utf-8") as file:
        page = file.read()
    above = {name: text_of(LITERAL.fullmatch(text)) for name, text in CONSTANT.findall(page)}
    for place, kind, table in CALL.findall(page):
        before = above[place] if place in above else text_of(LITERAL.fullmatch(place))
        for name, line, said in tables[table]:
            yield name, WORDS[kind], (before + line).encode(), said.encode()


def mistakes():
    """Each mistake in a text: one line without the flag, and with it the same line and what is said."""
    count = 0
    for name, word, text, said in rows():
        output, line, status = start([word], text, b"")
        is_line = bool(ONE_LINE.fullmatch(line))
        yield tell(f"explained: {name}", (b"", line + said, 3), start([word, "--explain"], text, b""))
        count += is_line and (output, status) == (b"", 3)
    yield told("explained: so many mistakes have one line without the flag", count, len(list(rows())))


SCENE = b'linda-kt 1\nshards 1\nworker\nout ("a", 1)\nin ("a", ?int x)\nsteps\n'
# Steps behind the scene's lines, and what is said of the last one.
STEPS = [
    ("issue w2", "there is no w2: this scenario has w1 and s1, so write one of them in its place"),
    ("issue s1", "s1 is a shard, and only workers issue requests: write a worker here, as in `issue w1`"),
    ("issue w1\nserve s1 w1 0", "the request of w1 has not come to s1 yet: write `deliver w1 s1` above this line"),
    ("issue w1\ndeliver s1 w1",
     "s1 has sent nothing to w1 that is still on its way: write `deliver w1 s1` and `serve s1 w1 0` above this line"),
    ("deliver w1 w1",
     "messages go between a worker and a shard, the sender stands first: write `deliver w1 s1`, below an "
     "`issue w1` that sends one"),
    ("issue w1\ndeliver w1 s1\nserve w1 s1 0",
     "a shard serves a worker, so the shard stands first: write `serve s1 w1 0`"),
    ("issue w1\nissue w1",
     "w1 still waits for the answer to request 1: write `deliver w1 s1`, `serve s1 w1 0` and `deliver s1 w1` "
     "above this line\n  (`repeat w1` in place of this line sends request 1 once more)"),
    ("learn w1",
     "w1 is up and has nothing to learn: take this line away\n  (`learn w1` comes after a `decide`, while w1 saves "
     "its state or rolls back with others)"),
    ("restart w1",
     "w1 is up, and only a node that failed restarts: take this line away, or write `fail w1` above it"),
    ("fail w1\nissue w1",
     "w1 is down since it failed: write above this line `restart w1`, which asks all others to roll back,\n"
     "  then `deliver w1 s1` and `deliver s1 w1` and at last `decide w1`"),
]


def refused_steps():
    """Each refused step with its line and the reason."""
    for lines, said in STEPS:
        text = SCENE + lines.encode() + b"\nend\n"
        _, line, status = start(["replay"], text, b"")
        at = SCENE.count(b"\n") + lines.count("\n") + 1
        last = lines.rsplit("\n", 1)[-1]
        wanted = line + f"  line {at}: {last}\n  {said}\n".encode()
        is_one = line.startswith(b"step ") and line.count(b"\n") == 1 and status == 4
        yield told(f"one line without the flag: {last}", True, is_one)
        yield tell(f"explained: {last}", (b"", wanted, 4), start(["replay", "--explain"], text, b""))


# Why a store is not opened, and what is said.
NO_STORE = "it is there and is no store of this program: name a file that is not there yet"
NO_FILE = "it could not be opened or made: name a file that can be written, not in use, in a folder that is there"


def refused_stores():
    """Stores that are not opened; beside a file that is none nothing is left."""
    with tempfile.TemporaryDirectory() as folder:
        notes = f"{folder}/notes.txt"
        with open(notes, "w", encoding="ascii") as file:
            file.write("these are notes, and no database\n" * 40)
        for path, name, said in (
            (notes, "Damaged", f"{notes}: {NO_STORE}"),
            (folder, "Device", f"{folder}: {NO_FILE}"),
            (f"{folder}/no/such.db", "Device", f"{folder}/no/such.db: {NO_FILE}"),
            (":memory:", "Device", "`:memory:` names no file: leave `--store` out for a store in memory"),
            ("", "Device", "the name of the file is empty: write `--store FILE`"),
        ):
            wanted = f"store: {name}\n  {said}\n".encode()
            got = start(["replay", "--explain", f"--store={path}"], SCENE + b"end\n", b"")
            yield tell(f"explained: a store at {path or 'no name'}", (b"", wanted, 5), got)
        yield told("nothing is left beside a file that is no store", ["notes.txt"], sorted(os.listdir(folder)))
        used = f"{folder}/used.db"
        checked = SCENE + b"check w1\ndecide w1\nend\n"
        start(["replay", "--store", used], checked, b"")
        said = (
            "the store holds what an earlier command left: name another file, or go on from this one by "
            "`linda_kt resume --store FILE` or `linda_kt run --resume --store FILE`"
        )
        wanted = f"store: NotFresh\n  {said}\n".encode()
        got = start(["replay", "--explain", "--store", used], checked, b"")
        yield tell("explained: a store that was used", (b"", wanted, 5), got)


def explained():
    """All of it."""
    yield from mistakes()
    yield from refused_steps()
    yield from refused_stores()
    wanted = b"read\n  the scenario could not be read: is it a folder, or was standard input closed?\n"
    yield tell("explained: a folder as standard input", (b"", wanted, 7), start(["replay", "--explain"], FOLDER, b""))
    plain = start(["replay"], SCENE + b"end\n", b"")
    said = b"  w1 did not ask for its next operation\n  no service was lost\n"
    got = start(["replay", "--explain"], SCENE + b"end\n", b"")
    yield tell("a scenario without a fault: the same report", (plain[0], said, 0), got)
