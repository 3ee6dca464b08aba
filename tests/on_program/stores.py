"""Stores in real files, with all that can be wrong with one."""

import os
import resource
import shutil
import signal
import subprocess
import tempfile
import time

from on_program.starting import PIPE, PROGRAM, ROOT, SECONDS, scenario, tell, told
from on_program.texts import CHECKPOINT_OF_TWO, NO_STEPS

CHECKED = scenario("checkpoint_of_two")
NOT_FRESH = (b"", b"store: NotFresh\n", 5)
DEVICE = (b"", b"store: Device\n", 5)
DAMAGED = (b"", b"store: Damaged\n", 5)
NOBODY_ID = 65534
# the least size of a log that holds a page
ONE_PAGE = 32 + 24 + 512
# what the page says of the shard's checkpoint
SHARD_BYTES = (
    "4b54435002020100000000000000020100000000000000010000000000000001000000000000000100000000000000010000000102020161"
    "0100000000000000010001010000000000000001010202016101000000000000000100"
    "0301010101000000000000000100000000000000010102020161010000000000000001"
    "040101010100000000000000010000000000000001010202016101000000000000000100"
)
NODES = "SELECT id, incarnation, length(permanent), length(tentative), instance FROM kt_node ORDER BY id"
BOARD = "SELECT instance, initiator, purpose, verdict FROM kt_board ORDER BY instance"
OPEN = "SELECT instance, initiator FROM kt_board WHERE verdict = 0 ORDER BY instance"
ONE_BYTE = "UPDATE kt_node SET permanent = CAST(x'00' || substr(permanent, 2) AS BLOB) WHERE id = 101"


def replayed(file, given=CHECKED, before=None, program=PROGRAM):
    """A replay whose store is in the file."""
    words = [program, "replay", "--store", file]
    ran = subprocess.Popen(words, stdin=PIPE, stdout=PIPE, stderr=PIPE, preexec_fn=before)
    said, errors = ran.communicate(given, timeout=SECONDS)
    return said, errors, ran.returncode


def held(file):
    """The bytes of the file and of its log, none of one that is not there or of a log without a page."""
    found = []
    for name, least in ((file, 0), (f"{file}-wal", ONE_PAGE)):
        found.append(b"")
        if os.path.isfile(name) and os.path.getsize(name) >= least:
            with open(name, "rb") as opened_file:
                found[-1] = opened_file.read()
    return found


def refused(name, file, wanted, given=CHECKED):
    """A replay that is refused prints its fault and nothing else, and leaves the file as it was."""
    kept = held(file)
    yield tell(name, wanted, replayed(file, given))
    yield told(f"{name}: the file is as it was", kept, held(file))


def small_files(size):
    """No file may be longer, as on a disk that is full."""
    signal.signal(signal.SIGXFSZ, signal.SIG_IGN)
    resource.setrlimit(resource.RLIMIT_FSIZE, (size, size))


def stores():
    """Stores in files: fresh ones, used ones, and what is no store."""
    with tempfile.TemporaryDirectory() as folder:
        file = f"{folder}/a.db"
        yield tell("checkpoint_of_two in a file that is not there", (CHECKPOINT_OF_TWO, b"", 0), replayed(file))
        yield from refused("the same once more", file, NOT_FRESH)
        yield from refused("another scenario", file, NOT_FRESH, scenario("no_steps"))
        yield from refused("a text with a fault, before the store is asked", file, (b"", b"line 1: 7 End\n", 3), b"")
        empty = f"{folder}/empty.db"
        open(empty, "wb").close()
        yield tell("an empty file", (CHECKPOINT_OF_TWO, b"", 0), replayed(empty))
        text = f"{folder}/text"
        with open(text, "wb") as written:
            written.write(b"no database\n" * 1000)
        yield from refused("a text file", text, DAMAGED)
        yield from refused("a text file, with a text that has a fault", text, DAMAGED, b"")
        yield from refused("a folder", folder, DEVICE)
        yield from refused("a folder that is not there", f"{folder}/none/a.db", DEVICE)
        yield from refused("no name", "", DEVICE)
        yield from refused("the name of no file", ":memory:", DEVICE)
        yield from full_disks(folder)
        yield from without_rights(folder)
        yield from in_use(folder)
        yield from shown(folder, file)


def full_disks(folder):
    """A store that has no room from the start, and one that was opened and has none for what is written."""
    full = f"{folder}/full.db"
    yield tell("a disk that is full", DEVICE, replayed(full, before=lambda: small_files(100)))
    fresh = f"{folder}/fresh.db"
    yield tell("no steps, in a file", (NO_STEPS, b"", 0), replayed(fresh, scenario("no_steps")))
    most = max(map(len, held(fresh)))
    yield tell("a disk with room for the tables", DEVICE, replayed(fresh, before=lambda: small_files(most + 100)))
    for file in (full, fresh):
        yield tell("the same file with room", (CHECKPOINT_OF_TWO, b"", 0), replayed(file))


def without_rights(folder):
    """A file that may not be read or written, by a user who has no right to it."""
    with tempfile.TemporaryDirectory(dir=folder) as place:
        os.chmod(folder, 0o755)
        os.chmod(place, 0o755)
        closed, program = f"{place}/closed.db", f"{place}/linda_kt"
        shutil.copy(f"{folder}/a.db", closed)
        shutil.copy(PROGRAM, program)
        os.chmod(program, 0o755)
        os.chmod(closed, 0)

        def as_nobody():
            if os.geteuid() == 0:
                os.setgid(NOBODY_ID)
                os.setuid(NOBODY_ID)

        yield tell("a file without rights", DEVICE, replayed(closed, CHECKED, as_nobody, program))


def in_use(folder):
    """A file that another program has open: the store is opened before the scenario is read."""
    file = f"{folder}/busy.db"
    first = subprocess.Popen([PROGRAM, "replay", "--store", file], stdin=PIPE, stdout=PIPE, stderr=PIPE)
    until = time.monotonic() + SECONDS
    while not any(held(file)) and time.monotonic() < until:
        time.sleep(0.01)
    yield tell("a file that another program has open", DEVICE, replayed(file))
    said, errors = first.communicate(CHECKED, timeout=SECONDS)
    yield tell("the other program", (CHECKPOINT_OF_TWO, b"", 0), (said, errors, first.returncode))


def asked(file, *queries):
    """What `sqlite3` answers, on a copy of the file and its log, since an opening may write."""
    with tempfile.TemporaryDirectory() as folder:
        copied_to(file, f"{folder}/copy")
        ran = subprocess.run(["sqlite3", f"{folder}/copy", *queries], stdout=PIPE, stderr=PIPE, timeout=SECONDS)
        return ran.stdout.decode() + ran.stderr.decode()


def copied_to(file, new):
    for end in ("", "-wal"):
        if os.path.exists(file + end):
            shutil.copy(file + end, new + end)


def shown(folder, file):
    """What `sqlite3` shows of a store, and files that it made."""
    if not shutil.which("sqlite3"):
        print("skipped what sqlite3 shows and makes: it is not there")
        return
    yield told("who holds what checkpoint", "1|1|122||\n101|1|162||\n", asked(file, NODES))
    yield told("the board", "1|1|1|1\n", asked(file, BOARD))
    yield told("the open instances", "", asked(file, OPEN))
    bytes_of = "SELECT lower(hex(permanent)) FROM kt_node WHERE id = 101"
    yield told("the shard's checkpoint", f"{SHARD_BYTES}\n", asked(file, bytes_of))
    with open(f"{ROOT}/docs/FORMATS.md", encoding="utf-8") as opened_file:
        page = opened_file.read()
    yield told("the page has these queries", [], [query for query in (NODES, BOARD, OPEN) if query not in page])
    other = f"{folder}/other.db"
    subprocess.run(["sqlite3", other, "CREATE TABLE note (id INTEGER PRIMARY KEY, text TEXT)"], check=True)
    yield from refused("a database with other tables", other, DAMAGED)
    made = f"{folder}/made.db"
    tables = [line for line in page.splitlines() if line.startswith("CREATE TABLE kt_")]
    subprocess.run(["sqlite3", made, *tables, "INSERT INTO kt_meta VALUES (1, 2)"], check=True)
    yield tell("the page's tables, made by sqlite3", (CHECKPOINT_OF_TWO, b"", 0), replayed(made))
    earlier = f"{folder}/earlier.db"
    subprocess.run(["sqlite3", earlier, *tables, "INSERT INTO kt_meta VALUES (1, 1)"], check=True)
    yield tell("a store of version 1 without rows, which is raised", (CHECKPOINT_OF_TWO, b"", 0), replayed(earlier))
    yield told("its version then", "1|2\n", asked(earlier, "SELECT id, version FROM kt_meta"))
    changed = f"{folder}/changed.db"
    copied_to(file, changed)
    subprocess.run(["sqlite3", changed, ONE_BYTE], check=True)
    yield from refused("a checkpoint with one byte changed", changed, NOT_FRESH)
