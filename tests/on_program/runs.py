"""Runs by threads: their ends, their journals, and their stores."""

import fcntl
import os
import select
import shutil
import subprocess
import tempfile
import time

from on_program.starting import (
    CLOSED, FOLDER, FULL, F_SETPIPE_SZ, PIPE, PROGRAM, SECONDS, Starts, report, scenario, start, tell, told,
)
from on_program.stores import DEVICE, NOT_FRESH, asked, held, replayed
from on_program.texts import A_SHARD_FAILS, CUT_FAULTS, NOBODY_FAILS, ONE_PUT
from scenes import LARGE_SCENES, SCENES

# How often each scene is run, and how often it is run for its journal, which is then replayed.
TIMES = 50
TIMES_LARGE = 10


def ended(scene, said):
    """Whether a report says what it must at the end of every run of the scene."""
    lines = said.decode().splitlines()
    space = lines.index(f"space {len(scene.space)}") if f"space {len(scene.space)}" in lines else len(lines)
    tuples = lines[space + 1 : space + 1 + len(scene.space)]
    if lines[:1] != [f"survivors {scene.survivors}"] or tuples != scene.space:
        return False
    return scene.lost is None or f"lost {scene.lost}" in lines


def spent(scene, journal):
    """Whether each fault line stands among the steps that were made, and no other failure or check."""
    steps = journal.decode().splitlines()
    wanted = sorted(line.split(" after ")[0] for line in scene.faults)
    return sorted(step for step in steps if step.startswith(("fail ", "check "))) == wanted


def one_run(scene):
    """What is wrong with a run, with one more for its journal, and with the replay of that."""
    said, errors, status = start(["run"], scene.text, b"")
    if (errors, status) != (b"", 0) or not ended(scene, said):
        return [("run", said, errors, status)]
    journal, errors, status = start(["run", "--journal"], scene.text, b"")
    if (errors, status) != (b"", 0) or not spent(scene, journal):
        return [("run --journal", journal, errors, status)]
    report = b"".join(line[2:] for line in journal.splitlines(keepends=True) if line.startswith(b"# "))
    again = start(["replay"], journal, b"")
    if again != (report, b"", 0) or not ended(scene, report):
        return [("replay", journal, *again)]
    return []


def journals():
    """Runs end by themselves, and the replay of a run's journal writes the report that the journal begins with."""
    for scenes, times in ((SCENES, TIMES), (LARGE_SCENES, TIMES_LARGE)):
        for name, scene in scenes.items():
            wrongs = [wrong for _ in range(times) for wrong in one_run(scene)]
            yield told(f"{name}, run {2 * times} times", [], wrongs)


def threads():
    """Before a run writes, its threads have ended: what is written here is more than a pipe of one page takes."""
    ran = subprocess.Popen([PROGRAM, "run", "--journal"], stdin=PIPE, stdout=PIPE, stderr=PIPE)
    fcntl.fcntl(ran.stdout, F_SETPIPE_SZ, 4096)
    ran.stdin.write(SCENES["a ring"].text)
    ran.stdin.close()
    select.select([ran.stdout], [], [], SECONDS)
    until = time.monotonic() + 5
    # One that has just ended may be shown a little longer.
    while len(os.listdir(f"/proc/{ran.pid}/task")) > 1 and time.monotonic() < until:
        time.sleep(0.01)
    yield told("a run that writes has one thread", 1, len(os.listdir(f"/proc/{ran.pid}/task")))
    ran.stdin = None
    said, errors = ran.communicate(timeout=SECONDS)
    yield told("and it ends", (True, b"", 0), (len(said) > 4096, errors, ran.returncode))


RUN = ["run", "--store"]


def runs():
    """A run keeps its store in a file, which is not fresh for the next. What is wrong is told in order."""
    text = scenario("a_shard_fails")
    with tempfile.TemporaryDirectory() as folder:
        file, empty, fresh = f"{folder}/a.db", f"{folder}/empty.db", f"{folder}/fresh.db"
        yield tell("a run with a store", (A_SHARD_FAILS, b"", 0), start([*RUN, file], text, b""))
        open(empty, "wb").close()
        yield tell("a run with an empty file", (A_SHARD_FAILS, b"", 0), start([*RUN, empty], text, b""))
        yield tell("a run that stores nothing", (ONE_PUT, b"", 0), start([*RUN, fresh], NOBODY_FAILS, b""))
        yield tell("a run with a fresh store", (A_SHARD_FAILS, b"", 0), start([*RUN, fresh], text, b""))
        kept = held(file)
        yield tell("a run with the same store", NOT_FRESH, start([*RUN, file], text, b""))
        yield tell("a journal with the same store", NOT_FRESH, start([*RUN, file, "--journal"], text, b""))
        yield tell("the same to a full output", (None, *NOT_FRESH[1:]), start([*RUN, file], text, FULL))
        fault = (b"", b"line 5: 2 Word\n", 3)
        yield tell("a fault before a store that is not fresh", fault, start([*RUN, file], b"#\n" + CUT_FAULTS, b""))
        yield tell("reading before that", (b"", b"read\n", 7), start([*RUN, file], FOLDER, b""))
        nowhere = f"{folder}/none/a.db"
        yield tell("a store in no folder, before reading", DEVICE, start([*RUN, nowhere], CLOSED, b""))
        words = (b"", Starts("error: unexpected argument '--steps' found"), 2)
        yield tell("wrong words before that", words, start([*RUN, nowhere, "--steps"], CLOSED, b""))
        yield told("the store is as it was", kept, held(file))
        yield tell("a replay with the store of a run", NOT_FRESH, replayed(file))
        yield from stored(f"{folder}/stored.db")


def stored(file):
    """What `sqlite3` shows of a run's store is what its journal tells: its instances, and how often nodes came back."""
    if not shutil.which("sqlite3"):
        print("skipped what sqlite3 shows of a run: it is not there")
        return
    scene = SCENES["checks_and_failures"]
    journal, errors, status = start([*RUN, file, "--journal"], scene.text, b"")
    yield told("a journal with a store", (True, b"", 0), (spent(scene, journal), errors, status))
    steps = journal.decode().splitlines()
    restarts = sum(step.startswith("restart ") for step in steps)
    checks = sum(step.startswith("check ") for step in steps)
    # A node that rolls back for another's failure is in its next incarnation too.
    lives = f"SELECT sum(incarnation - 1) >= {restarts} FROM kt_node"
    seen = asked(file, f"SELECT count(*), min(verdict) > 0 FROM kt_board; {lives}")
    yield told("the store of the journal", f"{checks + restarts}|1\n1\n", seen)
