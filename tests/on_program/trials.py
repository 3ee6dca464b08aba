"""Several runs with a tally of their reports, and runs with random fault lines, which are printed so that they can be
kept."""

import os
import re
import tempfile

from on_program.starting import CLOSED, FULL, NOBODY, Starts, report, scenario, start, tell, told
from on_program.texts import A_SHARD_FAILS, NOBODY_FAILS, ONE_PUT

FAULTS = scenario("a_shard_fails")
# One of two workers takes the tuple.
RACE = b"linda-kt 1\nshards 1\nworker\nout (1)\nworker\nin (1)\nworker\nin (1)\nfaults\nend\n"


def race(taker):
    """The report of a run in which this worker took the tuple."""
    return report("survivors 2", "w1.1 out (1) done", f"w{taker}.1 in (1) got (1)", "lost 0", "space 0", "permanent 0")


RACES = {race(2), race(3)}
COUNT = re.compile(rb"^# (\d+) of (\d+) runs\n", re.MULTILINE)
# What stands in a line that is kept.
REMARK = re.compile(rb"^# (?:fail|check) [ws]\d+ after \d+$")


def tallied(said):
    """The reports of a tally, each with how often it came, and of how many runs."""
    parts = COUNT.split(said)
    return [(int(times), int(all_runs), text) for times, all_runs, text in zip(parts[1::3], parts[2::3], parts[3::3])]


def several():
    """`run --times N` writes each different report once, behind how often it came."""
    yield tell("--times 1", (b"# 1 of 1 runs\n" + A_SHARD_FAILS, b"", 0), start(["run", "--times", "1"], FAULTS, b""))
    yield tell("--times=20", (b"# 20 of 20 runs\n" + A_SHARD_FAILS, b"", 0), start(["run", "--times=20"], FAULTS, b""))
    done = (b"# 2 of 2 runs\n" + ONE_PUT, b"", 0)
    yield tell("--times +02", done, start(["run", "--times", "+02"], NOBODY_FAILS, b""))
    said, errors, status = start(["run", "--times", "200"], RACE, b"")
    tally = tallied(said)
    yield told("--times of a race", ([], 200, {200}, len(tally), b"", 0), (
        [text for _, _, text in tally if text not in RACES], sum(times for times, _, _ in tally),
        {all_runs for _, all_runs, _ in tally}, len({text for _, _, text in tally}), errors, status,
    ))
    yield tell("--times of no scenario", (b"", b"line 1: 7 End\n", 3), start(["run", "--times", "3"], b"", b""))
    yield tell("--times of steps", (b"", b"line 4: 2 Word\n", 3),
               start(["run", "--times", "3"], b"linda-kt 1\nshards 1\nworker\nsteps\nend\n", b""))
    for name, place in (("a full output", FULL), ("an output that nobody reads", NOBODY), ("a closed output", CLOSED)):
        got = start(["run", "--times", "2"], NOBODY_FAILS, place)
        yield tell(f"--times to {name}", (None, b"write\n", 7), (None, *got[1:]))
    done = (b"# 3 of 3 runs\n" + ONE_PUT, b"", 0)
    got = start(["run", "--times", "3", "--explain"], NOBODY_FAILS, b"")
    yield tell("--times 3 --explain: nothing behind a tally", done, got)
    done = (b"# 3 of 3 runs\n" + ONE_PUT, b'{"status":0,"explanation":[]}\n', 0)
    yield tell("--times 3 --json", done, start(["run", "--times", "3", "--json"], NOBODY_FAILS, b""))
    said, errors, status = start(["run", "--times", "3", "--explain"], b"linda-kt 2\n", b"")
    is_explained = errors.startswith(b"line 1: 1 Header\n  ")
    yield told("--times: a fault is explained", (b"", True, 3), (said, is_explained, status))


def chaotic():
    """`run --chaos N --seed K` writes the random fault lines as remarks, and then the report or the journal."""
    words = ["run", "--chaos", "3", "--seed", "7"]
    # The one worker makes fewer steps than any of these wants.
    drawn = b"# fail w1 after 5\n# check w1 after 14\n# check w1 after 12\n"
    few = b"linda-kt 1\nshards 1\nworker\nout (1)\nfaults\nend\n"
    put = report("survivors 1", "w1.1 out (1) done", "lost 0", "space 1", "(1)", "permanent 0")
    yield tell("--chaos 3 --seed 7", (drawn + put, b"", 0), start(words, few, b""))
    yield tell("--seed 7 --chaos 2: the first of them", (drawn[: drawn.rindex(b"# ")] + put, b"", 0),
               start(["run", "--seed=7", "--chaos=2"], few, b""))
    said, errors, status = start(["run", "--chaos", "20", "--seed", "12", "--journal"], FAULTS, b"")
    lines = said.split(b"\n")
    kept = [line for line in lines[:20] if REMARK.match(line)]
    yield told("--chaos 20 --journal", (20, b"", 0), (len(kept), errors, status))
    text = b"".join(line[2:] + b"\n" for line in lines if line.startswith(b"# ") and line not in kept)
    yield tell("its journal is replayed", (text, b"", 0), start(["replay"], said, b""))
    with_them = FAULTS.replace(b"\nend\n", b"\n" + b"".join(line[2:] + b"\n" for line in kept) + b"end\n")
    done = start(["run"], with_them, b"")
    yield told("the lines that were kept are fault lines", (b"", 0), done[1:])
    again = start(["run", "--chaos", "20", "--seed", "12"], FAULTS, b"")
    yield told("the same lines once more", lines[:20], again[0].split(b"\n")[:20])
    other = start(["run", "--chaos", "20", "--seed", "13"], FAULTS, b"")
    yield told("others by another seed", True, other[0].split(b"\n")[:20] != lines[:20])
    yield from chaotic_stores(words, few, drawn, put)
    yield tell("--chaos: no scenario", (b"", b"line 1: 7 End\n", 3), start(words, b"", b""))
    long = b"linda-kt 1\n" + b"#" * 1048000 + b"\nshards 1\nworker\nfaults\nend\n"
    yield told("--chaos: what is ignored is no part of the text with them", (b"", 0), start(words, long, b"")[1:])
    for name, place in (("a full output", FULL), ("a closed output", CLOSED)):
        yield tell(f"--chaos to {name}", (None, b"write\n", 7), (None, *start(words, few, place)[1:]))


def chaotic_stores(words, few, drawn, put):
    """Over a store in a file, and going on from it."""
    with tempfile.TemporaryDirectory() as folder:
        store = f"{folder}/a.db"
        yield tell("--chaos --store", (drawn + put, b"", 0), start([*words, "--store", store], few, b""))
        yield told("--chaos: the file is there", True, os.path.exists(store))
        got = start([*words, "--store", store, "--resume"], few, b"")
        yield told("--chaos --resume", (True, b"", 0), (got[0].startswith(drawn), *got[1:]))


def refused():
    """Words of these options that ask nothing: nothing is read then."""
    times = b"error: the argument '--times <N>' wants a number from 1 to 10000"
    chaos = b"error: the argument '--chaos <N>' wants a number from 1 to 10000"
    seed = b"error: the argument '--seed <K>' wants a number from 0 to 18446744073709551615"
    one = b"error: the argument '--times <N>' cannot be used with '--store', '--journal', '--resume' or '--chaos'"
    for words, line in (
        (["--times", "0"], times), (["--times", "10001"], times), (["--times", "x"], times), (["--times", ""], times),
        (["--times", "1.5"], times), (["--times=-1"], times), (["--times", "4294967297"], times),
        (["--chaos", "0", "--seed", "1"], chaos), (["--chaos", "10001", "--seed", "1"], chaos),
        (["--chaos", "1", "--seed", "x"], seed), (["--chaos", "1", "--seed", "18446744073709551616"], seed),
        (["--chaos", "1"], b"error: the argument '--chaos <N>' wants '--seed <K>'"),
        (["--seed", "1"], b"error: the argument '--seed <K>' wants '--chaos <N>'"),
        (["--times", "2", "--journal"], one), (["--times", "2", "--store", "a.db"], one),
        (["--times", "2", "--store", "a.db", "--resume"], one), (["--times", "2", "--chaos", "1", "--seed", "1"], one),
        (["--times", "2", "--seed", "1"], one),
        (["--times"], b"error: a value is required for '--times <N>' but none was supplied"),
        (["--times", "2", "--times", "3"], b"error: the argument '--times <N>' cannot be used multiple times"),
    ):
        yield tell(f"run {' '.join(words)}", (b"", Starts(line.decode()), 2), start(["run", *words], CLOSED, b""))
    for name in ("replay", "resume", "check", "complete"):
        got = start([name, "--times", "2"], CLOSED, b"")
        yield tell(f"{name} --times", (b"", Starts("error: unexpected argument '--times' found"), 2), got)


def trials():
    """All of it."""
    yield from several()
    yield from chaotic()
    yield from refused()
