"""Starts the built program on some input, and compares what it writes, its line on standard error and its status."""

import os
import subprocess
import sys
import time

ROOT = os.path.dirname(os.path.dirname(os.path.dirname(os.path.realpath(__file__))))
LAUNCHER = f"{ROOT}/linda_kt"
PROGRAM = f"{ROOT}/out/linda_kt"
SECONDS = 60


def build():
    """Has the launcher prove and build the program, which does nothing where the kept one is current. No other start of
    it does so, and a program that was not proved is not what is to be tested."""
    built = subprocess.run([LAUNCHER, "build"], stdin=subprocess.DEVNULL, stdout=subprocess.DEVNULL)
    if built.returncode:
        sys.exit("the program was not built")


def scenario(name):
    with open(f"{ROOT}/scenarios/{name}.scn", "rb") as file:
        return file.read()


def in_memory():
    """A folder in memory, where there is one: what is stopped in a test is a program and no machine, so nothing has to
    wait for a disk. Else None."""
    return "/dev/shm" if os.access("/dev/shm", os.W_OK) else None


def report(*lines):
    return "".join(f"{line}\n" for line in lines).encode()


PIPE = subprocess.PIPE
FULL = "/dev/full"
CLOSED = "closed"
NOBODY = "a pipe that nobody reads"
FOLDER = "/"
# of Linux, as fcntl names it since Python 3.10
F_SETPIPE_SZ = 1031


class Starts:
    """A text of which the first line is compared: the rest is the help of `clap`."""

    def __init__(self, first):
        self.first = first

    def fits(self, got):
        return got.split(b"\n")[0] == self.first.encode()


def fits(want, got):
    return want.fits(got) if isinstance(want, Starts) else want == got


def opened(place, flag):
    """The number of a stream at a place of the table."""
    if place == CLOSED:
        # The program closes it before it begins.
        place = "/dev/null"
    if place == NOBODY:
        reader, writer = os.pipe()
        os.close(reader)
        return writer
    return os.open(place, flag)


def start(words, given, wanted, program=PROGRAM, folder=None):
    """Runs the program, and gives its output (None where it went to a place), its errors and its status."""
    ours = []
    closed = [number for number, place in ((0, given), (1, wanted)) if place == CLOSED]
    source, out = given, PIPE
    if isinstance(given, bytes):
        source = PIPE
    elif isinstance(given, str):
        source = opened(given, os.O_RDONLY)
        ours.append(source)
    if isinstance(wanted, str):
        out = opened(wanted, os.O_WRONLY)
        ours.append(out)
    ran = subprocess.Popen(
        [program, *words], stdin=source, stdout=out, stderr=PIPE, cwd=folder,
        preexec_fn=lambda: [os.close(number) for number in closed],
    )
    for number in ours:
        os.close(number)
    try:
        said, errors = ran.communicate(given if isinstance(given, bytes) else None, timeout=SECONDS)
    except subprocess.TimeoutExpired:
        ran.kill()
        ran.communicate()
        return None, b"it did not end", None
    return said, errors, ran.returncode


def killed(words, text, seconds):
    """Kills the command after so long, and says whether it still ran."""
    ran = subprocess.Popen([PROGRAM, *words], stdin=PIPE, stdout=subprocess.DEVNULL, stderr=subprocess.DEVNULL)
    try:
        ran.stdin.write(text.encode())
        ran.stdin.close()
    except BrokenPipeError:
        pass
    time.sleep(seconds)
    is_running = ran.poll() is None
    ran.kill()
    ran.wait()
    return is_running


def tell(name, want, got):
    if fits(want[0], got[0]) and fits(want[1], got[1]) and want[2] == got[2]:
        print(f"ok      {name}")
        return True
    print(f"FAILED  {name}")
    for what, wanted, given in zip(("output", "errors", "status"), want, got):
        wanted = wanted.first if isinstance(wanted, Starts) else wanted
        print(f"        {what}: wanted {wanted!r}, got {given!r}")
    return False


def told(name, wanted, got):
    """Compares what is not the end of a program."""
    return tell(name, (None, repr(wanted), None), (None, repr(got), None))
