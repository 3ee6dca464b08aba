"""What a person sees at a terminal: why a fault came, without a flag; that a scenario is awaited; how long it takes."""

import os
import pty
import subprocess
import threading
import time

from on_program.starting import PIPE, PROGRAM, SECONDS, scenario, tell, told
from on_program.texts import PUT_AND_TAKE

AWAITED = b"The scenario is read from the terminal, up to Ctrl-D; a file can be named in its place.\r\n"


def read_all(number, found):
    """What comes on a terminal, until nobody has its other side any more."""
    while True:
        try:
            part = os.read(number, 65536)
        except OSError:
            return
        if not part:
            return
        found.append(part)


def watched(words, given, is_typed=False, pause=0):
    """A start whose standard error is a terminal, and its standard input too where it is typed: the output, what the
    terminal shows, and the status. The input comes after so many seconds."""
    ours, theirs = pty.openpty()
    source = theirs if is_typed else PIPE
    ran = subprocess.Popen([PROGRAM, *words], stdin=source, stdout=PIPE, stderr=theirs, start_new_session=True)
    os.close(theirs)
    found = []
    reader = threading.Thread(target=read_all, args=(ours, found))
    reader.start()
    time.sleep(pause)
    if is_typed:
        os.write(ours, given + b"\x04")
        said, _ = ran.communicate(timeout=SECONDS)
    else:
        said, _ = ran.communicate(given, timeout=SECONDS)
    reader.join(SECONDS)
    os.close(ours)
    return said, b"".join(found), ran.returncode


def terminals():
    """All of it."""
    text = scenario("put_and_take")
    yield tell("watched: a report has nothing beside it", (PUT_AND_TAKE, b"", 0), watched(["replay"], text))
    said, shown, status = watched(["replay"], b"linda-kt 2\n")
    said_of_it = b"  this program reads version 1: write `linda-kt 1`"
    lines = [b"line 1: 1 Header", b"  linda-kt 2", b"           ^", said_of_it, b""]
    yield tell("watched: a fault is explained", (b"", b"\r\n".join(lines), 3), (said, shown, status))
    said, shown, status = watched(["replay", "--json"], b"linda-kt 2\n")
    is_json = shown.startswith(b'line 1: 1 Header\r\n{"status":3,"explanation":["linda-kt 2"')
    yield told("watched: as JSON where that is asked for", (b"", True, 3), (said, is_json, status))
    said, shown, status = watched(["replay", "--explain"], text)
    lines = [
        b'  w1 waits for the answer to its request 2, in ("a", ?int), which no shard holds as waiting',
        b"  no service was lost",
        b"",
    ]
    wanted = (PUT_AND_TAKE, b"\r\n".join(lines), 0)
    yield tell("watched: a report is explained where that is asked for", wanted, (said, shown, status))
    # It waits for its input, so the seconds go by.
    said, shown, status = watched(["replay"], text, pause=2.5)
    is_shown = shown.startswith(b"\r1 s\r") and b"\r2 s\r" in shown and shown.endswith(b"\r\x1b[K")
    yield told("watched: the seconds are shown, and wiped off", (PUT_AND_TAKE, True, 0), (said, is_shown, status))
    said, shown, status = watched(["replay"], b"", pause=1.5)
    is_behind = b"\r\x1b[K" in shown and shown.index(b"\r\x1b[K") < shown.index(b"line 1: 7 End")
    yield told("watched: a fault comes behind them", (b"", True, 3), (said, is_behind, status))
    said, shown, status = watched(["replay"], text, is_typed=True, pause=0.3)
    yield told("typed: a scenario is awaited", (PUT_AND_TAKE, True, 0), (said, shown.startswith(AWAITED), status))
    said, shown, status = watched(["explain", "3"], b"", is_typed=True)
    yield told("typed: nothing is awaited where none is read", (True, False, 0), (bool(said), AWAITED in shown, status))
