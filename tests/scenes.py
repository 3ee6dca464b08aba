"""Scenes for runs by threads, with failures and checks among them. What the threads do differs from run to run; but all
scripts come to their end, so each run of a scene ends with as many survivors and with the same tuples in the space, and
each fault line is spent by then."""

import os
from collections import namedtuple

ROOT = os.path.dirname(os.path.dirname(os.path.realpath(__file__)))

# The bytes of its scenario, how many services survive, the lines of the tuples then, its fault lines, and how many
# services are lost, where that is the same in every run.
Scene = namedtuple("Scene", "text survivors space faults lost", defaults=[None])


def written(shards, scripts, faults, survivors, space, lost=None):
    """A scene of these scripts, one for each worker."""
    workers = [line for script in scripts for line in ("worker", *script)]
    lines = ("linda-kt 1", f"shards {shards}", *workers, "faults", *faults, "end")
    return Scene("".join(f"{line}\n" for line in lines).encode(), survivors, space, faults, lost)


def kept(name, survivors, space, lost=None):
    """A scene of scenarios/."""
    with open(f"{ROOT}/scenarios/{name}.scn", "rb") as file:
        text = file.read()
    lines = text.decode().splitlines()
    faults = [line for line in lines[lines.index("faults") + 1 : -1] if not line.startswith("#")]
    return Scene(text, survivors, space, faults, lost)


def counter():
    """One worker counts up in a tuple, and fails three times, the last two at once."""
    up = ['in ("k", ?int n)', "set n = n + 1", 'out ("k", n)']
    faults = ["check w1 after 6", "fail w1 after 12", "fail w1 after 18", "fail w1 after 18"]
    return written(1, [['out ("k", 1)', *up, *up, 'rd ("k", ?int n)']], faults, 6, ['("k", 3)'])


def everyone():
    """Two workers and two shards, each of which fails; nobody has begun a check."""
    first = ['out ("a", 1)', 'out ("b")', 'in ("c", ?int n)', "out (n)"]
    second = ['in ("a", ?int n)', 'in ("b")', 'out ("c", n)', "in (?int n)", 'out ("end", n)']
    faults = ["fail w1 after 7", "fail w2 after 6", "fail s1 after 5", "fail s2 after 6"]
    return written(2, [first, second], faults, 9, ['("end", 1)'])


def three_checks():
    """Two workers and a shard begin checks of their own at about the same time; both shards and a worker fail."""
    puts, takes = ['out ("a", 1)'] * 5 + ['out ("z")'], ['in ("a", 1)'] * 5
    faults = [f"check {node} after 3" for node in ("w1", "w2", "s1")]
    faults += ["fail s1 after 9", "fail s2 after 12", "fail w3 after 6"]
    return written(2, [puts, takes, ['in ("z")', 'out ("done")']], faults, 13, ['("done")'])


def ring():
    """Four workers hand a token on, five rounds of it, beside three checks and four failures."""
    scripts = []
    for worker in range(4):
        hand_on = [f'in ("token", {worker}, ?int n)', "set n = n + 1", f'out ("token", {(worker + 1) % 4}, n)']
        scripts.append([] if worker else ['out ("token", 0, 0)'])
        scripts[-1] += 5 * hand_on
    faults = ["check w1 after 8", "check w3 after 12", "check w4 after 16"]
    faults += ["fail s1 after 20", "fail w2 after 20", "fail s1 after 60", "fail w4 after 18"]
    return written(2, scripts, faults, 41, ['("token", 0, 20)'])


# Of eight shards each keeps one of these, in either list.
KINDS = ['("a")', '("a", "b")', '("a", 1)', "(1)", '(1, "a")', '(1, "a", "b")', "(1, 2)", '(1, 2, "a")']
OTHER_KINDS = [
    '("a", "b")', '("a", true)', "(1, 2)", '(1, 2, 3, 4, 5, 6, 7, 8, 9, 10, 11, 12, 13, 14, "a", true)',
    "(true)", '(true, "a")', "(true, 1)", "(true, false)",
]


def over_eight(kinds, workers, faults, lost=None):
    """Workers over eight shards put tuples of these kinds and take them, 125 operations each."""
    scripts = [
        [f"{'in' if n % 2 else 'out'} {kinds[(worker + n // 2) % 8]}" for n in range(125)] for worker in range(workers)
    ]
    return written(8, scripts, faults, 125 * workers, sorted(kinds * (workers // 8)), lost)


SCENES = {
    "a_shard_fails": kept("a_shard_fails", 5, ['("done", 7)', '("k")'], 4),
    "checks_and_failures": kept("checks_and_failures", 13, ['("all", 11, 12, 13)']),
    "a worker that fails three times": counter(),
    "everyone fails": everyone(),
    "three checks at once": three_checks(),
    "a ring": ring(),
}

LARGE_SCENES = {
    "8 workers, 8 shards, 1,000 operations": over_eight(KINDS, 8, [], 0),
    "the same with checks and failures": over_eight(
        KINDS, 8, ["check w1 after 120", "check s5 after 160", "fail s3 after 150", "fail w7 after 200"]
    ),
    "16 workers, 8 shards, 2,000 operations": over_eight(OTHER_KINDS, 16, [], 0),
    "the same with failures": over_eight(
        OTHER_KINDS, 16, ["check w16 after 120", "check s5 after 160", "fail s3 after 150", "fail w9 after 200"]
    ),
}
