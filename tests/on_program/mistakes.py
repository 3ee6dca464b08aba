"""Mistakes of newcomers with files, stores and words, each with the line that the program prints and with what
`--explain` says behind it. Those within a text are in explained.py.

What once was a mistake and is none any more is shown to be none.
"""

import contextlib
import os
import sqlite3
import tempfile

from on_program.starting import CLOSED, FOLDER, Starts, scenario, start, tell, told
from on_program.texts import NO_STEPS, PUT_AND_TAKE

TEXT = b"""linda-kt 1
shards 1
worker
out ("a", 1)
in ("a", ?int x)
steps
issue w1
deliver w1 s1
serve s1 w1 0
deliver s1 w1
issue w1
deliver w1 s1
serve s1 w1 0
end
"""
# The same scene, for `run`.
FAULTS = TEXT[: TEXT.index(b"steps\n")] + b"faults\nend\n"


def put(number, line):
    """The text with another line in the place of this one, counted from 1."""
    found = TEXT.decode().split("\n")
    found[number - 1] = line
    return "\n".join(found).encode()


# What is said of them.
NOTHING = "the input is empty: give a file that holds a scenario, whose first line is `linda-kt 1`"
TOO_LONG = "the text has more than 1048576 bytes: make it shorter"
DATABASE = (
    "a database: give the scenario instead, or to go on from it type `linda_kt resume --store DATABASE SCENARIO`"
)
UNREAD = "the scenario could not be read: is it a folder, or was standard input closed?"
NO_STORE = "it is there and is no store of this program: name a file that is not there yet"


def explained(name, words, given, line, said, status):
    """The line alone without the flag; with it the same line and what is said behind it."""
    plain = f"{line}\n".encode()
    wanted = plain + b"".join(f"  {one}\n".encode() for one in said)
    yield tell(f"mistake: {name}, its line", (b"", plain, status), start(words, given, b""))
    yield tell(f"mistake: {name}", (b"", wanted, status), start([*words, "--explain"], given, b""))


def of_files():
    """A file or an input that holds no scenario."""
    yield from explained("nothing", ["replay"], b"", "line 1: 7 End", [NOTHING], 3)
    yield from explained("1 MiB and a byte", ["replay"], b"#" * 1048577, "line 1: 5 Limit", [TOO_LONG], 3)
    yield from explained("a folder as the file", ["replay", FOLDER], CLOSED, "read", [UNREAD], 7)
    yield from explained("a closed input", ["replay"], CLOSED, "read", [UNREAD], 7)
    journal = start(["run", "--journal"], FAULTS, b"")[0]
    line = journal.split(b"\n").index(b"steps") + 1
    said = ["steps", "^", "this is a journal, the steps that a run made: type `linda_kt replay FILE`"]
    yield from explained("a journal for `run`", ["run"], journal, f"line {line}: 2 Word", said, 3)


def of_stores():
    """What is named for a store and is none, a store that is named for the scenario, and a fault beside a store."""
    with tempfile.TemporaryDirectory() as folder:
        short, other, used = (f"{folder}/{name}" for name in ("short", "other.db", "used.db"))
        with open(short, "wb") as file:
            file.write(b"no")
        with contextlib.closing(sqlite3.connect(other)) as tables:
            tables.execute("CREATE TABLE t (id INTEGER PRIMARY KEY)")
        there = sorted(os.listdir(folder))
        for name, path in (("a text of two bytes", short), ("another database", other)):
            said = [f"{path}: {NO_STORE}"]
            yield from explained(f"a store, {name}", ["replay", "--store", path], TEXT, "store: Damaged", said, 5)
        yield told("mistake: nothing is left beside what is no store", there, sorted(os.listdir(folder)))
        start(["replay", "--store", used], scenario("checkpoint_of_two"), b"")
        yield from of_database(used)
        text = put(4, 'out ("a",1)')
        said = ['out ("a",1)', "         ^", "one space stands after a comma: put it here"]
        words = ["replay", "--store", f"{folder}/new.db"]
        yield from explained("a store and a wrong scenario", words, text, "line 4: 3 Tuple", said, 3)


def of_database(path):
    """The database for the scenario: its first line is no text."""
    for words, given in ((["replay"], path), (["replay", path], CLOSED)):
        said, errors, status = start([*words, "--explain"], given, b"")
        is_said = errors.endswith(f"  {DATABASE}\n".encode()) and errors.startswith(b"line 1: ")
        yield told("mistake: the database for the scenario", (b"", True, 3), (said, is_said, status))


# Words that are none. A tip stands below where a word is near.
WRONG_WORDS = [
    ([], "error: 'linda_kt' requires a subcommand but one was not provided", ""),
    (["Replay"], "error: unrecognized subcommand 'Replay'", "some similar subcommands exist: 'explain', 'replay'"),
    (["replay", "--store"], "error: a value is required for '--store <FILE>' but none was supplied", ""),
    (["--store", "x.db", "replay"], "error: unexpected argument '--store' found", "'replay --store' exists"),
    (["replay", "--store", "a.db", "--store", "b.db"],
     "error: the argument '--store <FILE>' cannot be used multiple times", ""),
    (["replay", "--journal"], "error: unexpected argument '--journal' found", ""),
    (["run", "--jornal"], "error: unexpected argument '--jornal' found", "a similar argument exists: '--journal'"),
    (["run", "--journal=j.scn"],
     "error: unexpected value 'j.scn' for '--journal' found; no more were expected", ""),
    (["run", "-s", "x.db"], "error: unexpected argument '-s' found", ""),
    (["run", "--quiet"], "error: unexpected argument '--quiet' found", ""),
    (["run", "-v"], "error: unexpected argument '-v' found", ""),
]


def of_words():
    """Wrong words: the error's first line, its tip, and how the words are used."""
    for words, first, tip in WRONG_WORDS:
        said, errors, status = start(words, TEXT, b"")
        shown = errors.decode().split("\n")
        yield tell(f"mistake: {words}", (b"", Starts(first), 2), (said, errors, status))
        yield told(f"mistake: the tip on {words}", True, not tip or f"  tip: {tip}" in shown)
        yield told(f"mistake: {words} leads to the help", True, "For more information, try '--help'." in shown)


def no_mistakes():
    """What once was refused."""
    done = (PUT_AND_TAKE, b"", 0)
    with tempfile.TemporaryDirectory() as folder:
        path, store = f"{folder}/scenario.scn", f"{folder}/x.db"
        with open(path, "wb") as file:
            file.write(TEXT)
        yield tell("no mistake: a file as an argument", done, start(["replay", path], CLOSED, b""))
        yield tell("no mistake: `-` as an argument", done, start(["replay", "-"], TEXT, b""))
        said, errors, status = start(["help"], b"", b"")
        yield told("no mistake: `help`", (True, b"", 0), (b"Commands:" in said, errors, status))
        _, errors, status = start(["run", "--json"], FAULTS, b"")
        yield told("no mistake: `--json`", (True, 0), (errors.startswith(b'{"status":0,'), status))
        start(["replay", "--store", store], scenario("no_steps"), b"")
        got = start(["replay", "--store", store], TEXT, b"")
        yield tell("no mistake: the store of a replay that stored nothing", done, got)
        absent = (b"", b"scenario: j.scn: No such file or directory (os error 2)\n", 7)
        got = start(["run", "--journal", "j.scn"], CLOSED, b"", folder=folder)
        yield tell("no mistake: `--journal FILE` names the scenario", absent, got)
    truths = put(4, "out (true)").replace(b'in ("a", ?int x)', b"in (?bool x)")
    yield told("no mistake: a bool", 0, start(["replay"], truths, b"")[2])
    sixteen = b"linda-kt 1\nshards 1\n" + b"worker\n" * 16 + b"steps\nend\n"
    yield tell("no mistake: nine workers and more", (NO_STEPS, b"", 0), start(["replay"], sixteen, b""))
    # The tuple is not the one that the script then asks for.
    nine = start(["replay"], put(4, f"out ({'1, ' * 8}1)"), b"")
    yield tell("no mistake: nine places", (b"", b"step 7: 4 NoSuchMatch\n", 4), nine)


def mistakes():
    """All of it."""
    yield from of_files()
    yield from of_stores()
    yield from of_words()
    yield from no_mistakes()
