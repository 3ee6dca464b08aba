"""The words that people look for: a scenario's file as an argument, `check`, `help` and `explain`."""

import os
import tempfile

from on_program.starting import CLOSED, FOLDER, FULL, NOBODY, ROOT, Starts, scenario, start, tell
from on_program.texts import PUT_AND_TAKE

SCENES = f"{ROOT}/scenarios"
PUT = f"{SCENES}/put_and_take.scn"
FAILS = f"{SCENES}/a_shard_fails.scn"
ABSENT = b"No such file or directory (os error 2)"


def files():
    """A scenario's file is read in the place of standard input, of which nothing is read then."""
    done = (PUT_AND_TAKE, b"", 0)
    waits = b'  w1 waits for the answer to its request 2, in ("a", ?int), which no shard holds as waiting\n'
    text = scenario("put_and_take")
    for name, words, given, want in (
        ("a file", ["replay", PUT], CLOSED, done),
        ("a file before its options", ["replay", PUT, "--explain"], b"",
         (PUT_AND_TAKE, waits + b"  no service was lost\n", 0)),
        ("standard input by its name", ["replay", "-"], text, done),
        ("a file that is not there", ["replay", "no.scn"], text, (b"", b"scenario: no.scn: " + ABSENT + b"\n", 7)),
        ("a file without a name", ["replay", ""], text, (b"", b"scenario: : " + ABSENT + b"\n", 7)),
        ("a folder", ["replay", FOLDER], text, (b"", b"read\n", 7)),
        ("a file that is no scenario", ["replay", f"{ROOT}/HANDLES"], text, (b"", b"line 1: 1 Header\n", 3)),
        ("two files", ["replay", PUT, PUT], text, (b"", Starts("error: unexpected argument '" + PUT + "' found"), 2)),
    ):
        yield tell(f"words: {name}", want, start(words, given, b""))
    with tempfile.TemporaryDirectory() as folder:
        got = start(["run", "--journal", FAILS], CLOSED, b"")
        journal = f"{folder}/journal.scn"
        with open(journal, "wb") as file:
            file.write(got[0])
        report = start(["run", FAILS], CLOSED, b"")
        yield tell("words: a journal from a file is replayed from one", report, start(["replay", journal], CLOSED, b""))
        store = f"{folder}/a.db"
        stored = start(["run", FAILS, "--store", store], CLOSED, b"")
        yield tell("words: a file and a store", report, stored)
        again = start(["run", "--store", store, "--resume", f"{SCENES}/a_shard_fails.scn"], CLOSED, b"")
        yield tell("words: going on with a file", (again[0], b"", 0), again)
        absent = start(["run", "--store", f"{folder}/b.db", "no.scn"], CLOSED, b"")
        want = (b"", b"scenario: no.scn: " + ABSENT + b"\n", 7)
        yield tell("words: a file that is not there, before the store", want, absent)
        yield tell("words: no store is made then", (False, b"", 0), (os.path.exists(f"{folder}/b.db"), b"", 0))


def checks():
    """`check` says what a text is, or why it is no scenario."""
    steps = scenario("put_and_take")
    faults = scenario("a_shard_fails")
    served = 1 + steps.split(b"\n").index(b"serve s1 w1 0")
    for name, text, want in (
        ("steps", steps, (b"steps 7\n", b"", 0)),
        ("fault lines", faults, (b"faults 1\n", b"", 0)),
        ("no text", b"", (b"", b"line 1: 7 End\n", 3)),
        ("a fault among steps", steps.replace(b"serve s1 w1 0", b"serve s1 w1", 1),
         (b"", f"line {served}: 2 Word\n".encode(), 3)),
        ("a fault among fault lines", faults.replace(b"fail s1 after 3", b"fail s9 after 3"), None),
        ("another first line", b"linda-kt 2\n", (b"", b"line 1: 1 Header\n", 3)),
    ):
        got = start(["check"], text, b"")
        if want is None:
            line = 1 + next(at for at, line in enumerate(text.split(b"\n")) if line.startswith(b"fail s9"))
            want = (b"", f"line {line}: 6 Node\n".encode(), 3)
        yield tell(f"check: {name}", want, got)
    with tempfile.TemporaryDirectory() as folder:
        start(["check", PUT], CLOSED, b"", folder=folder)
        yield tell("check: it makes no file", ([], b"", 0), (os.listdir(folder), b"", 0))
    for name, place in (("a full output", FULL), ("an output that nobody reads", NOBODY), ("a closed output", CLOSED)):
        yield tell(f"check: {name}", (None, b"write\n", 7), (None, *start(["check", PUT], b"", place)[1:]))
    yield tell("check: a closed input", (b"", b"read\n", 7), start(["check"], CLOSED, b""))


def meanings():
    """`explain` says what a number or a name means, and `help` is a word."""
    for word in ("1", "8", "Word", "NotFresh", "Unfit"):
        said, errors, status = start(["explain", word], CLOSED, b"")
        lines = said.split(b"\n")
        all_named = said.endswith(b"\n") and all(word.encode() in line.split(b": ")[0] for line in lines[:-1])
        yield tell(f"explain {word}", (True, b"", 0), (all_named and len(lines) > 1, errors, status))
    unknown = b"error: nothing that is printed has the number or the name 'Wrong'\n"
    yield tell("explain: a word that is printed nowhere", (b"", unknown, 2), start(["explain", "Wrong"], b"", b""))
    yield tell("explain: to a full output", (None, b"write\n", 7), (None, *start(["explain", "3"], b"", FULL)[1:]))
    yield tell("explain: without its word", (b"", Starts("error: the following required arguments were not provided:"), 2),
               start(["explain"], b"", b""))
    yield tell("help is a word", start(["--help"], b"", b""), start(["help"], b"", b""))
    yield tell("help of a command", start(["run", "--help"], b"", b""), start(["help", "run"], b"", b""))


def asking():
    """All of it."""
    yield from files()
    yield from checks()
    yield from meanings()
