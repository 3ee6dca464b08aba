"""Stores that a program left which was stopped, and how `resume` and `run --resume` go on from them."""

import os
import shutil
import signal
import subprocess
import tempfile
import time

from on_program.starting import CLOSED, FULL, PIPE, PROGRAM, SECONDS, report, scenario, start, tell, told
from on_program.stores import DAMAGED, DEVICE, NOT_FRESH, copied_to, held, replayed
from on_program.texts import CHECKPOINT_OF_TWO, NOBODY_FAILS, NO_STEPS, ONE_PUT
from scenes import SCENES

UNFIT = (b"", b"store: Unfit\n", 5)
SCENE = b'linda-kt 1\nshards 1\nworker\nout ("a", 1)\nin ("a", ?int x)\n'
PUT = b"issue w1\ndeliver w1 s1\nserve s1 w1 0\ndeliver s1 w1\n"
ASKED = b"check w1\ndeliver w1 s1\n"
AGREED = ASKED + b"deliver s1 w1\ndeliver w1 s1\ndeliver s1 w1\ndecide w1\n"
GOES_ON = (
    b"learn w1\nlearn s1\nrestart w1\nrestart s1\ndeliver w1 s1\ndeliver s1 w1\ndeliver s1 w1\ndecide w1\n"
    b"deliver w1 s1\ndecide s1\nissue w1\ndeliver w1 s1\ndeliver w1 s1\nserve s1 w1 0\n"
)
TAKEN = report(
    "survivors 2",
    'w1.1 out ("a", 1) done',
    'w1.2 in ("a", ?int) got ("a", 1)',
    "lost 0",
    "space 0",
    "permanent 1",
    '("a", 1)',
)


def steps(*parts, head=SCENE):
    return head + b"steps\n" + b"".join(parts) + b"end\n"


def resumed(file, given, words=("resume",)):
    """What the command says that goes on from the file."""
    return start([*words, "--store", file], given, b"")


def left(folder, name, *parts, head=SCENE):
    """A file as a program leaves it that makes these steps."""
    file = f"{folder}/{name}.db"
    said, errors, status = replayed(file, steps(*parts, head=head))
    assert (errors, status) == (b"", 0), errors
    return file


def untouched(name, file, wanted, given):
    """What is refused prints its fault and nothing else, and leaves the file as it was."""
    kept = held(file)
    yield tell(name, wanted, resumed(file, given))
    yield told(f"{name}: the file is as it was", kept, held(file))


def resumes():
    """From what a replay left: as it was stopped, with further steps, and with what does not fit."""
    with tempfile.TemporaryDirectory() as folder:
        yes = left(folder, "yes", PUT, AGREED)
        kept = held(yes)
        yield tell("resumed, with no steps", (CHECKPOINT_OF_TWO, b"", 0), resumed(yes, steps()))
        yield told("resumed, with no steps: nothing is written", kept, held(yes))
        other = steps(head=SCENE.replace(b'out ("a", 1)', b'out ("b")'))
        yield from untouched("resumed by another script", yes, UNFIT, other)
        yield from untouched("resumed with a shard more", yes, UNFIT, steps(head=SCENE.replace(b"s 1\n", b"s 2\n")))
        more = steps(head=SCENE + b"worker\nout (1)\n")
        yield from untouched("resumed with a worker more", yes, UNFIT, more)
        fault = (b"", b"line 1: 7 End\n", 3)
        yield from untouched("resumed by a text with a fault", yes, fault, b"")
        yield from untouched("resumed by fault lines", yes, (b"", b"line 6: 2 Word\n", 3), SCENE + b"faults\nend\n")
        yield from untouched("resumed, with a step of a node that is down", yes, refusal(2), steps(b"issue w1\n"))
        full = start(["resume", "--store", yes], steps(), FULL)
        yield tell("resumed to a full output", (None, b"write\n", 7), full)
        yield tell("a replay of what was stopped", NOT_FRESH, replayed(yes, steps()))
        yield tell("resumed, and goes on", (TAKEN, b"", 0), resumed(yes, steps(GOES_ON)))
        yield tell("resumed once more", (CHECKPOINT_OF_TWO, b"", 0), resumed(yes, steps()))
        asked = left(folder, "asked", PUT, ASKED)
        yield tell("stopped between votes", (NO_STEPS, b"", 0), resumed(asked, steps()))
        yield tell("stopped between votes, learn", refusal(5), resumed(asked, steps(b"learn s1\n")))
        yield tell("stopped between votes, restart", refusal(6), resumed(asked, steps(b"restart w1\n")))
        given_up = steps(b"abandon w1\nlearn w1\nlearn s1\n")
        yield tell("stopped between votes, given up", (NO_STEPS, b"", 0), resumed(asked, given_up))
        yield from nothing_there(folder)


def refusal(number):
    """The fault line of a first step that is refused so."""
    names = {2: "WrongMode", 5: "NotDecided", 6: "Unresolved"}
    return b"", f"step 1: {number} {names[number]}\n".encode(), 4


def nothing_there(folder):
    """What was stopped before its first write, and what is no store."""
    absent, empty, text = f"{folder}/absent.db", f"{folder}/empty.db", f"{folder}/text"
    yield tell("resumed from a file that is not there", (NO_STEPS, b"", 0), resumed(absent, steps()))
    yield tell("the same with steps", refusal(2), resumed(absent, steps(PUT)))
    open(empty, "wb").close()
    yield tell("resumed from an empty file", (NO_STEPS, b"", 0), resumed(empty, steps()))
    with open(text, "wb") as written:
        written.write(b"no database\n" * 1000)
    yield from untouched("resumed from a text file", text, DAMAGED, steps())
    yield tell("resumed from a folder", DEVICE, resumed(folder, steps()))
    yield tell("the store is opened before reading", DEVICE, start(["resume", "--store", folder], CLOSED, b""))


# ---- runs


RUN = ("run", "--resume")
JOURNAL = ("run", "--resume", "--journal")


def resumed_runs():
    """A run that goes on comes to its end, from whatever a run or a replay left."""
    with tempfile.TemporaryDirectory() as folder:
        absent = f"{folder}/absent.db"
        yield tell("a run from a file that is not there", (ONE_PUT, b"", 0), resumed(absent, NOBODY_FAILS, RUN))
        faults = SCENE + b"faults\nend\n"
        yes = left(folder, "run", PUT, AGREED)
        copy = f"{folder}/copy.db"
        copied_to(yes, copy)
        said, errors, status = resumed(yes, faults, JOURNAL)
        lines = said.splitlines(keepends=True)
        yield told("a run that goes on", (b"# resumed after instance 1\n", b"", 0), (lines[0], errors, status))
        remarks = b"".join(line[2:] for line in lines[1:] if line.startswith(b"# "))
        yield told("it ends as its scripts do", TAKEN.splitlines()[:3], remarks.splitlines()[:3])
        yield tell("its journal over a copy of the file", (remarks, b"", 0), resumed(copy, said))
        yield tell("a run by another script", UNFIT, resumed(yes, faults.replace(b'("a", 1)', b'("b")'), RUN))
        yield tell("a run by steps", (b"", b"line 6: 2 Word\n", 3), resumed(yes, steps(), RUN))
        yield from killed(folder)


def killed(folder):
    """Runs that are killed at some moment, started again until one ends by itself, and end as every run of the scene."""
    for name, scene in SCENES.items():
        file = f"{folder}/{name.replace(' ', '_')}.db"
        times = 0
        words = ["run", "--store", file]
        while times < 4:
            ran = subprocess.Popen([PROGRAM, *words], stdin=PIPE, stdout=PIPE, stderr=PIPE)
            ran.stdin.write(scene.text)
            ran.stdin.close()
            time.sleep(0.001 * (1 + 3 * times))
            ran.send_signal(signal.SIGKILL)
            ran.wait()
            ran.stdout.close()
            ran.stderr.close()
            words = ["run", "--resume", "--store", file]
            times += 1
        said, errors, status = start(words, scene.text, b"")
        lines = said.decode().splitlines()
        space = f"space {len(scene.space)}"
        ends = (lines[:1], space in lines, errors, status)
        yield told(f"{name}, killed {times} times", ([f"survivors {scene.survivors}"], True, b"", 0), ends)
