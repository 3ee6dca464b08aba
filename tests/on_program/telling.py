"""The commands that go on from what was written or stored: `complete`, `show`, and explanations behind a report."""

import contextlib
import hashlib
import json
import os
import re
import shutil
import sqlite3
import subprocess
import tempfile
import threading
import time

from on_program.starting import CLOSED, FOLDER, FULL, PIPE, PROGRAM, ROOT, SECONDS, scenario, start, tell, told
from on_program.stores import held
from on_program.texts import A_SHARD_FAILS, PUT_AND_TAKE

SCENES = f"{ROOT}/scenarios"


def steps_of(text):
    """The lines between `steps` and `end`, without the remarks."""
    lines = text.decode().splitlines()
    return [line for line in lines[lines.index("steps") + 1 : lines.index("end")] if not line.startswith("#")]


def cut_short(text, count):
    """The scenario with its first steps alone."""
    head, _, _ = text.decode().partition("steps\n")
    return "\n".join([f"{head}steps", *steps_of(text)[:count], "end", ""]).encode()


def completed():
    """Each front of a scenario is completed by steps that begin with it, and the replay of these has the report."""
    for name in ("put_and_take", "two_takers", "unless_skips", "checkpoint_of_two"):
        text = scenario(name)
        for count in range(0, len(steps_of(text)) + 1, 3):
            short = cut_short(text, count)
            said, errors, status = start(["complete"], short, b"")
            begins = steps_of(said)[:count] == steps_of(text)[:count] if status == 0 else None
            yield tell(f"complete: {name} after {count} steps", (True, b"", 0), (begins, errors, status))
            remarks = b"".join(line[2:] + b"\n" for line in said.split(b"\n") if line.startswith(b"# "))
            yield tell(f"complete: its replay, {name} after {count}", (remarks, b"", 0), start(["replay"], said, b""))
            again = start(["complete"], said, b"")
            yield tell(f"complete: nothing is left, {name} after {count}", (said, b"", 0), again)
    text = scenario("put_and_take")
    report = start(["complete"], cut_short(text, 0), b"")[0]
    yield told("complete: all is done", PUT_AND_TAKE.split(b"\n")[0], report.split(b"\n")[0][2:])
    faults = scenario("a_shard_fails")
    line = faults.split(b"\n").index(b"faults") + 1
    yield tell("complete: fault lines", (b"", f"line {line}: 2 Word\n".encode(), 3), start(["complete"], faults, b""))
    refused = text.replace(b"issue w1\n", b"issue w9\n", 1)
    yield tell("complete: a refused step", (b"", b"step 1: 1 NoNode\n", 4), start(["complete"], refused, b""))
    yield tell("complete: a full output", (None, b"write\n", 7), (None, *start(["complete"], text, FULL)[1:]))


def digest(folder):
    """Each file of the folder and what it holds."""
    found = {}
    for name in sorted(os.listdir(folder)):
        if os.path.isfile(f"{folder}/{name}"):
            with open(f"{folder}/{name}", "rb") as file:
                found[name] = hashlib.sha256(file.read()).hexdigest()
    return found


def shown():
    """What a store holds, in words and as JSON; nothing of it is touched."""
    with tempfile.TemporaryDirectory() as folder:
        store = f"{folder}/a.db"
        start(["run", "--store", store, f"{SCENES}/checks_and_failures.scn"], CLOSED, b"")
        before = digest(folder)
        words, errors, status = start(["show", store], CLOSED, b"")
        yield tell("show: a store in words", (True, b"", 0), (words.endswith(b"\n") and words.isascii(), errors, status))
        text, errors, status = start(["show", "--json", store], CLOSED, b"")
        yield tell("show: the option behind the file", (text, b"", 0), start(["show", store, "--json"], CLOSED, b""))
        yield from compared(store, json.loads(text), words, (errors, status))
        yield told("show: the store is as it was, and nothing lies beside it", before, digest(folder))
        yield tell("show: a full output", (None, b"write\n", 7), (None, *start(["show", store], b"", FULL)[1:]))
        report = start(["run", "--resume", "--store", store, f"{SCENES}/checks_and_failures.scn"], CLOSED, b"")
        yield told("show: the store goes on", 0, report[2])
        yield from a_shard(f"{folder}/checked.db")
        yield from not_shown(folder)
        yield from temporary(folder, store)


def compared(store, content, words, ended):
    """The JSON has a node for each row, with each tuple of the shards, and each instance; the words have as many."""
    with sqlite3.connect(f"file:{store}?immutable=1", uri=True) as connection:
        nodes = connection.execute("select count(*) from kt_node").fetchone()[0]
        instances = connection.execute("select count(*) from kt_board").fetchone()[0]
    counted = (len(content["nodes"]), len(content["instances"]))
    yield tell("show: a store as JSON", ((nodes, instances), b"", 0), (counted, *ended))
    shards = [(node["permanent"] or {}).get("shard") for node in content["nodes"]]
    tuples = [values for shard in shards if shard for values in shard["tuples"]]
    # The threads choose what a shard held when it was saved: it may be nothing.
    yield told("show: tuples are lists of values", True, all(isinstance(values, list) for values in tuples))
    lines, heads = words.decode().splitlines(), ("node ", "    tuple ", "  instance ", "open: ")
    in_words = [sum(line.startswith(head) for line in lines) for head in heads]
    tentative = [(node["tentative"] or {}).get("checkpoint", {}).get("shard") for node in content["nodes"]]
    also = sum(len(shard["tuples"]) for shard in tentative if shard)
    wanted = [nodes, len(tuples) + also, instances, len(content["open"])]
    yield told("show: the words have as many nodes, tuples, instances and open ones", wanted, in_words)


def a_shard(store):
    """What a shard held when it was saved, of a scenario whose steps are fixed."""
    start(["replay", "--store", store], scenario("checkpoint_of_two"), b"")
    shown_as = {words: start(["show", *words, store], CLOSED, b"")[0].decode() for words in ((), ("--json",))}
    held_by = [node["permanent"] for node in json.loads(shown_as["--json",])["nodes"]]
    in_json = [checkpoint["shard"]["tuples"] for checkpoint in held_by if "shard" in checkpoint]
    in_words = [line for line in shown_as[()].splitlines() if line.startswith("    tuple ")]
    yield told("show: the tuple of a shard", ([[["a", 1]]], ['    tuple ("a", 1)']), (in_json, in_words))


@contextlib.contextmanager
def stamped(file):
    """Meanwhile the file is stamped every few milliseconds, as by a program that writes it."""
    ended = threading.Event()

    def stamp():
        while not ended.wait(0.002):
            os.utime(file)

    stamping = threading.Thread(target=stamp)
    stamping.start()
    try:
        yield
    finally:
        ended.set()
        stamping.join()


def not_shown(folder):
    """What is no store that can be shown, of which nothing is touched either."""
    notes = f"{folder}/notes.txt"
    with open(notes, "w", encoding="ascii") as file:
        file.write("these are notes, and no database\n" * 40)
    open(f"{folder}/empty.db", "wb").close()
    shutil.copy(f"{ROOT}/tests/version_1.db", f"{folder}/old.db")
    before = digest(folder)
    for name, path, said in (
        ("a file that is not there", f"{folder}/no.db", b"store: there is no such file\n"),
        ("a file in a folder that is not there", f"{folder}/no/a.db", b"store: there is no such file\n"),
        ("no name", "", b"store: there is no such file\n"),
        ("a folder", FOLDER, b"store: it is a folder\n"),
        ("a device", "/dev/null", b"store: it is no regular file\n"),
        ("a text", notes, b"store: Damaged\n"),
        ("a store of version 1", f"{folder}/old.db", b"store: Version\n"),
    ):
        yield tell(f"show: {name}", (b"", said, 5), start(["show", path], b"", b""))
        yield tell(f"show: {name}, as JSON", (b"", said, 5), start(["show", "--json", path], b"", b""))
    nothing = b'{"nodes":[],"instances":[],"open":[]}'
    for words, said in ((["show"], b"nothing is stored\n"), (["show", "--json"], nothing)):
        yield tell("show: an empty file", (said, b"", 0), start([*words, f"{folder}/empty.db"], b"", b""))
    yield told("show: none of these is touched", before, digest(folder))
    busy = f"{folder}/busy.db"
    other = subprocess.Popen([PROGRAM, "replay", "--store", busy], stdin=PIPE, stdout=PIPE, stderr=PIPE)
    until = time.monotonic() + SECONDS
    while not any(held(busy)) and time.monotonic() < until:
        time.sleep(0.01)
    for words, said in ((["show"], b"nothing is stored\n"), (["show", "--json"], nothing)):
        name = f"{' '.join(words)}: a store that another program has open"
        yield tell(name, (said, b"", 0), start([*words, busy], b"", b""))
    written = (b"", b"store: it is being written\n", 5)
    with stamped(busy):
        yield tell("show: a store that is written again and again", written, start(["show", busy], b"", b""))
    said, errors = other.communicate(scenario("put_and_take"), timeout=SECONDS)
    yield tell("show: the other program", (PUT_AND_TAKE, b"", 0), (said, errors, other.returncode))


def temporary(folder, store):
    """The copy lies among the temporary files, and is gone when the program has ended."""
    place = f"{folder}/temporary"
    os.mkdir(place)
    no_copy = b"store: it can't be copied to the folder for temporary files\n"
    for name, path, want in (
        ("in a folder of one's own", place, (None, b"", 0)),
        ("where there is no folder", f"{place}/none", (None, no_copy, 5)),
    ):
        _, errors, status = start([f"TMPDIR={path}", PROGRAM, "show", store], b"", b"", program="/usr/bin/env")
        yield tell(f"show: the copy {name}", want, (None, errors, status))
    yield told("show: no copy is left", [], os.listdir(place))


# What scenarios of steps come to, each worked out by hand.
ENDINGS = [
    ("two_takers", [
        'w1 waits for the answer to its request 1, in ("t"), at s1',
        'w2 waits for the answer to its request 1, in ("t"), which no shard holds as waiting',
        'w3 waits for the answer to its request 1, out ("t"), which no shard holds as waiting',
        "no service was lost",
    ]),
    ("checkpoint_of_two", [
        "finished: w1",
        "no service was lost",
        "the check that w1 began (step 5) got Yes",
    ]),
    ("shard_fails", [
        'w1 waits for the answer to its request 1, out ("a", 1), which no shard holds as waiting',
        "1 service was lost:",
        'w1\'s request 1, out ("a", 1) at s1: lost when s1 failed (step 5)',
        "the rollback that s1 began (step 6) got Yes",
    ]),
]
# Of the run of `a_shard_fails`, whose threads choose the order of steps.
RUN = re.compile(
    rb"  finished: w1\n  line 12: fail s1 after 3: struck by step \d+\n  4 services were lost:\n"
    rb"(?:  w1's request \d, [^\n]+ at s[12]: lost when \w\d (?:failed|rolled back) \(step \d+\)\n){4}"
    rb"(?:  the rollback that s1 began \(step \d+\) got (?:Yes|No)\n)+"
)


def endings():
    """What a scenario came to, on standard error, behind its report, which stays as it is."""
    for name, said in ENDINGS:
        text = scenario(name)
        report = start(["replay"], text, b"")
        lines = "".join(f"  {line}\n" for line in said).encode()
        yield tell(f"explained: the end of {name}", (report[0], lines, 0), start(["replay", "--explain"], text, b""))
        whole = json.dumps({"status": 0, "explanation": said}, separators=(",", ":")) + "\n"
        for words in (["replay", "--json"], ["replay", "--explain", "--json"]):
            yield tell(f"explained as JSON: the end of {name}", (report[0], whole.encode(), 0), start(words, text, b""))
    text = scenario("a_shard_fails")
    said, errors, status = start(["run", "--explain"], text, b"")
    yield told("explained: the end of a run", (A_SHARD_FAILS, True, 0), (said, bool(RUN.fullmatch(errors)), status))
    said, errors, status = start(["run", "--journal", "--explain"], text, b"")
    # A journal tells of one run among many, so its first line alone is compared.
    is_journal = said.startswith(b"# " + A_SHARD_FAILS.split(b"\n")[0])
    got = (is_journal, bool(RUN.fullmatch(errors)), status)
    yield told("explained: the end of a run with its journal", (True, True, 0), got)
    one, nothing = b"faults 1\n", b'{"status":0,"explanation":[]}\n'
    yield tell("as JSON: a check has nothing to say", (one, nothing, 0), start(["check", "--json"], text, b""))
    yield tell("explained: nor has it in words", (one, b"", 0), start(["check", "--explain"], text, b""))
    said, errors, status = start(["replay", "--json"], b"linda-kt 2\n", b"")
    explanation = ["linda-kt 2", "^", "this program reads version 1: write `linda-kt 1`"]
    whole = json.dumps({"status": 3, "explanation": explanation}, separators=(",", ":"))
    yield tell("as JSON: a fault", (b"", f"line 1: 1 Header\n{whole}\n".encode(), 3), (said, errors, status))
    with tempfile.TemporaryDirectory() as folder:
        store = f"{folder}/a.db"
        start(["replay", "--store", store], scenario("checkpoint_of_two"), b"")
        # The nodes are down since the stop, and no step was made.
        resumed = cut_short(scenario("checkpoint_of_two"), 0)
        wanted = b"  w1 is down\n  no service was lost\n"
        got = start(["resume", "--store", store, "--explain"], resumed, b"")
        yield tell("explained: the end of a resumed world", (None, wanted, 0), (None, *got[1:]))


def scripts():
    """What completes the words in a shell, and the manual's page."""
    for shell in ("bash", "zsh", "fish"):
        said, errors, status = start(["completion", shell], CLOSED, b"")
        yield tell(f"completion: {shell}", (True, b"", 0), (b"linda_kt" in said and b"journal" in said, errors, status))
    said, errors, status = start(["completion", "sh"], CLOSED, b"")
    yield tell("completion: another shell", (b"", True, 2), (said, b"bash, zsh and fish" in errors, status))
    said, errors, status = start(["manual"], CLOSED, b"")
    yield tell("the manual's page", (True, b"", 0), (b".TH" in said, errors, status))


def telling():
    """All of it."""
    yield from completed()
    yield from shown()
    yield from endings()
    yield from scripts()
