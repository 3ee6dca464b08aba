"""Stores of version 1 that are carried over by the journal that made them, and what is not.

`tests/version_1.db` is such a store, as the scenario `checkpoint_of_two` leaves it. `tests/version_1.md` says how it was
made."""

import shutil
import subprocess
import tempfile

from on_program.starting import PIPE, PROGRAM, ROOT, SECONDS, scenario, tell, told
from on_program.stores import BOARD, CHECKED, DAMAGED, NODES, NOT_FRESH, ONE_BYTE, SHARD_BYTES
from on_program.stores import asked, held, refused
from on_program.texts import CHECKPOINT_OF_TWO

OLD = f"{ROOT}/tests/version_1.db"
VERSION = (b"", b"store: Version\n", 5)
MISMATCH = (b"", b"store: Mismatch\n", 5)


def migrated(file, given=CHECKED, output=PIPE):
    """The file is carried over by the scenario."""
    ran = subprocess.Popen([PROGRAM, "migrate", "--store", file], stdin=PIPE, stdout=output, stderr=PIPE)
    said, errors = ran.communicate(given, timeout=SECONDS)
    return said, errors, ran.returncode


def not_migrated(name, file, wanted, given=CHECKED):
    """What is refused prints its fault and nothing else, and leaves the file as it was."""
    kept = held(file)
    yield tell(name, wanted, migrated(file, given))
    yield told(f"{name}: the file is as it was", kept, held(file))


def migrations():
    """The store of version 1: opened, carried over by its journal and by others, and with one thing wrong."""
    with tempfile.TemporaryDirectory() as folder:
        file = f"{folder}/old.db"
        shutil.copy(OLD, file)
        yield from refused("a store of version 1 with rows", file, VERSION)
        yield from not_migrated("by another scenario", file, MISMATCH, scenario("no_steps"))
        yield from not_migrated("by a text with a fault", file, (b"", b"line 1: 7 End\n", 3), b"")
        yield from not_migrated("by its steps up to the verdict", file, MISMATCH, before(b"learn w1\n"))
        yield tell("by its journal", (CHECKPOINT_OF_TWO, b"", 0), migrated(file))
        yield from not_migrated("a second time", file, MISMATCH)
        yield from refused("what was carried over, with a scenario", file, NOT_FRESH)
        yield from now(file)
        less = f"{folder}/less.db"
        shutil.copy(OLD, less)
        # The last step is a failure, which stores nothing.
        yield told("by its steps without the last", 0, migrated(less, before(b"fail s1\n"))[2])
        full = f"{folder}/full.db"
        shutil.copy(OLD, full)
        with open("/dev/full", "wb") as nowhere:
            yield tell("an output that is full", (None, b"write\n", 7), migrated(full, output=nowhere))
        yield from refused("then it is carried over all the same", full, NOT_FRESH)
        yield tell("a file that is not there", MISMATCH, migrated(f"{folder}/none.db"))
        yield tell("a folder", (b"", b"store: Device\n", 5), migrated(folder))
        yield from spoiled(folder)


def before(line):
    """The scenario up to the line, which ends it."""
    text, found, _ = CHECKED.partition(line)
    assert found
    return text + b"end\n"


def now(file):
    """What `sqlite3` shows of the store that was carried over."""
    if not shutil.which("sqlite3"):
        return
    yield told("the checkpoints hold acts", "1|1|122||\n101|1|162||\n", asked(file, NODES))
    yield told("the board is as it was", "1|1|1|1\n", asked(file, BOARD))
    bytes_of = "SELECT lower(hex(permanent)) FROM kt_node WHERE id = 101"
    yield told("the shard's checkpoint is as if made now", f"{SHARD_BYTES}\n", asked(file, bytes_of))
    yield told("the version", "1|2\n", asked(file, "SELECT id, version FROM kt_meta"))


def spoiled(folder):
    """The store of version 1 with one thing changed by `sqlite3`: it opens by this name or not, and is a mismatch."""
    if not shutil.which("sqlite3"):
        print("skipped stores of version 1 that are changed: sqlite3 is not there")
        return
    for place, (name, change, wanted) in enumerate((
        ("version 0", "UPDATE kt_meta SET version = 0", DAMAGED),
        ("version 3", "UPDATE kt_meta SET version = 3", DAMAGED),
        ("no version", "DELETE FROM kt_meta", DAMAGED),
        ("two versions", "INSERT INTO kt_meta VALUES (2, 1)", DAMAGED),
        ("a checkpoint with one byte changed", ONE_BYTE, VERSION),
        ("an incarnation more", "UPDATE kt_node SET incarnation = 2 WHERE id = 1", VERSION),
        ("a node more", "INSERT INTO kt_node VALUES (2, 1, NULL, NULL, NULL)", VERSION),
        ("an instance less", "DELETE FROM kt_board", VERSION),
    )):
        file = f"{folder}/spoiled{place}.db"
        shutil.copy(OLD, file)
        subprocess.run(["sqlite3", file, change], check=True)
        yield from refused(f"version 1 with {name}", file, wanted)
        yield from not_migrated(f"version 1 with {name}, by its journal", file, MISMATCH)
