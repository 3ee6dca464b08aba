"""What docs/FORMATS.md shows is read and written so."""

import re
import tempfile

from on_program.starting import ROOT, report, start, tell, told

# ---- the examples of docs/FORMATS.md: the lines before one, the example as it stands there, and its fault

TITLE = "linda-kt 1\nshards 1\n"
WORKER = TITLE + "worker\n"
BOUND = WORKER + "in (?int x, ?str s)\n"
STEPS = WORKER + "steps\n"
FULL_SCRIPT = WORKER + "out (1)\n" * 200
EXAMPLES = [
    (WORKER, 'out ("a", 1)', None),
    (WORKER, 'in ("a", ?int)', None),
    (WORKER, 'in ("a", ?int x)', None),
    (BOUND, 'out ("sum", x)', None),
    (STEPS, "issue w1", None),
    (STEPS, "repeat w1", None),
    (STEPS, "deliver w1 s1", None),
    (STEPS, "serve s1 w1 0", None),
    ("", "linda-kt 2", "1 Header"),
    ("linda-kt 1\n", "shards 01", "1 Header"),
    ("linda-kt 1\n", "shards x", "1 Header"),
    (WORKER, "output (1)", "2 Word"),
    (WORKER, "out", "2 Word"),
    (BOUND, "set x = y", "2 Word"),
    (WORKER, "unless 01", "2 Word"),
    (STEPS, "issue w0", "2 Word"),
    (STEPS, "serve s1 w1 100000", "2 Word"),
    (TITLE, "steps", "2 Word"),
    (WORKER, "out (01)", "3 Tuple"),
    (WORKER, "out  (1)", "3 Tuple"),
    (WORKER, "out (?int)", "3 Tuple"),
    (WORKER, "in (?int X)", "3 Tuple"),
    (WORKER, "in (?int int)", "3 Tuple"),
    (WORKER, "in (?boo)", "3 Tuple"),
    (WORKER, "out (x)", "4 Variable"),
    (WORKER, "in (?int x, x)", "4 Variable"),
    (WORKER, "in (?int x, ?str x)", "4 Variable"),
    ("linda-kt 1\n", "shards 0", "5 Limit"),
    ("linda-kt 1\n", "shards 9", "5 Limit"),
    (TITLE + "worker\n" * 16, "worker", "5 Limit"),
    (FULL_SCRIPT, 'out ("a", 1)', "5 Limit"),
    (WORKER, "unless 0", "5 Limit"),
    (WORKER, "unless 201", "5 Limit"),
    (STEPS + "end\n", "issue w1", "7 End"),
]
# As the tuple or template of a command: these stand there with the place of their fault. In a command `tru` is a name.
NAMED = ["(tru)"]
TUPLES = ["(-0)", "(01)", "()", "(1,2)", "(1", *NAMED, "(1, 9223372036854775808)", f"({'1, ' * 16}1)"]
COUNTER_STEPS = "steps\n" + "issue w1\ndeliver w1 s1\nserve s1 w1 0\ndeliver s1 w1\n" * 2 + "end\n"
COUNTER = report(
    "survivors 2",
    'w1.1 inp ("counter", ?int) none',
    'w1.2 out ("counter", 0) done',
    "lost 0",
    "space 1",
    '("counter", 0)',
    "permanent 0",
)


def instead(old, *news):
    """Texts in which each of these stands in the place of a part of the page's scenario, once."""
    return lambda text: [text.replace(old, new, 1) for new in news]


def before_steps(text):
    return text[: text.index("steps\n")]


# The table of docs/FORMATS.md of what is usually wrong: how a row's first cell begins, and the texts that it means, made
# from the page's scenario. They go to `run` where the cell says so, else to `replay`; the row has what is printed.
PUT = 'out ("a", 1)\n'
MISTAKES = [
    ("`faults` in place of `steps`", instead("steps\n", "faults\n")),
    ("`steps`, for `run`", lambda text: [text]),
    ("`fail s1` behind `faults`", lambda text: [before_steps(text) + "faults\nfail s1\nend\n"]),
    ("line ends of carriage return", lambda text: [text.replace("\n", "\r\n")]),
    ("a byte order mark", lambda text: ["\ufeff" + text]),
    ("`shards 1` as the first line", instead("linda-kt 1\n", "")),
    ("a tab for the space", instead(PUT, 'out\t("a", 1)\n', f"  {PUT}")),
    ("a space at the end of the line `worker`", instead("worker\n", "worker \n")),
    ("an empty line before `steps`", instead("steps\n", "\nsteps\n")),
    ("an empty line behind `end`", lambda text: [text + "\n"]),
    ("`end` without its line feed", lambda text: [text[:-1]]),
    ("no `end`", instead("end\n", "")),
    ("`issue w1 # it asks`", instead("issue w1\n", "issue w1 # it asks\n")),
    ("`OUT", instead("out ", "OUT ", "put ")),
    ('`out ("a",1)`', instead(PUT, 'out ("a",1)\n')),
    ("`out ('a', 1)`", instead(PUT, "out ('a', 1)\n")),
    ('`out ("a", 1.5)`', instead(PUT, 'out ("a", 1.5)\n', 'out ("a", True)\n')),
    ('`out ("a", ?int)`', instead(PUT, 'out ("a", ?int)\n')),
    ('`out ("a", y)`', instead(PUT, 'out ("a", y)\n')),
    ("`set x = x - 1`", instead("steps\n", "set x = x - 1\nsteps\n")),
    ("`serve s1 w1`", instead("serve s1 w1 0\n", "serve s1 w1\n")),
    ("`issue w2`", instead("issue w1\n", "issue w2\n")),
    ("`serve s1 w1 0` right behind", instead("deliver w1 s1\n", "")),
    ("`deliver s1 w1` right behind", instead("deliver w1 s1\n", "deliver s1 w1\n")),
    ("`issue w1` right behind", instead("issue w1\n", "issue w1\nissue w1\n")),
]


def mistakes(page, scenario):
    """Each mistake of the page's table is told by the line that stands beside it."""
    table = page[page.index("| What was written | What is printed |") :].split("\n\n")[0]
    rows = [line for line in table.split("\n")[2:] if line]
    for row, (head, texts) in zip(rows, MISTAKES):
        if not row.startswith(f"| {head}"):
            yield tell(f"the page's mistake {head}", (b"", b"", 0), (None, row.encode(), None))
            continue
        line = re.search(r" \| `((?:line|step) \d+: \d \w+)` \| ", row)[1]
        word = "run" if "for `run` |" in row else "replay"
        wanted = (b"", f"{line}\n".encode(), 3 if line.startswith("line") else 4)
        for text in texts(scenario):
            yield tell(f"the page's mistake {head}", wanted, start([word], text.encode(), b""))
    yield told("the page's mistakes are as many", len(MISTAKES), len(rows))


def shown_texts(blocks):
    """What the page shows of explanations and of a store: the texts as they stand, JSON without the breaks of its
    lines. A store's JSON has no line feed behind it."""
    summary, shown = (inside.encode() for language, inside in blocks if language == "text")
    explained, content = (inside.replace("\n", "").encode() for language, inside in blocks if language == "json")
    failed = start(["replay", "--explain", f"{ROOT}/scenarios/shard_fails.scn"], b"", b"")
    yield told("the page's explanation of a report", (summary, 0), failed[1:])
    refused = b'linda-kt 1\nshards 1\nworker\nout ("a", 1)\nsteps\nissue w1\nserve s1 w1 0\nend\n'
    line = b"step 2: 3 NothingThere\n"
    yield tell("the page's JSON", (b"", line + explained + b"\n", 4), start(["replay", "--json"], refused, b""))
    with tempfile.TemporaryDirectory() as folder:
        store = f"{folder}/space.db"
        start(["replay", "--store", store, f"{ROOT}/scenarios/checkpoint_of_two.scn"], b"", b"")
        yield tell("the page's store", (shown, b"", 0), start(["show", store], b"", b""))
        yield tell("the page's store as JSON", (content, b"", 0), start(["show", "--json", store], b"", b""))


def formats_page():
    """What docs/FORMATS.md shows is read and written so."""
    with open(f"{ROOT}/docs/FORMATS.md", encoding="utf-8") as file:
        page = file.read()
    # Blocks of a language, as the statements in SQL, are no input.
    blocks = re.findall(r"^```(\w*)\n(.*?)^```$", page, re.MULTILINE | re.DOTALL)
    script, text, written, journal, *_ = (inside for language, inside in blocks if not language)
    yield tell("the page's scenario", (written.encode(), b"", 0), start(["replay"], text.encode(), b""))
    yield from shown_texts(blocks)
    remarks = "".join(line[2:] for line in journal.splitlines(True) if line.startswith("# "))
    yield tell("the page's journal", (remarks.encode(), b"", 0), start(["replay"], journal.encode(), b""))
    counting = f"{WORKER}{script}{COUNTER_STEPS}".encode()
    yield tell("the page's script", (COUNTER, b"", 0), start(["replay"], counting, b""))
    yield from mistakes(page, text)
    lines = EXAMPLES + [(WORKER, f"out {bad}", "4 Variable" if bad in NAMED else "3 Tuple") for bad in TUPLES]
    for name, given, line in [("end without its line feed", STEPS + "end", 5), ("empty text", "", 1)]:
        wanted = (b"", f"line {line}: 7 End\n".encode(), 3)
        yield tell(f"the page's {name}", wanted, start(["replay"], given.encode(), b""))
    for before, line, fault in lines:
        example = line.removeprefix("out ") if line.startswith("out ") and line[4:] in TUPLES else line
        if f"`{example}`" not in page:
            yield tell(f"the page has {example}", (b"", b"", 0), (None, b"it has not", None))
            continue
        number = before.count("\n") + 1
        after = "" if before == STEPS else "steps\n"
        given = f"{before}{line}\n{after}end\n".encode()
        said, errors, status = start(["replay"], given, b"")
        if fault is None:
            # A step may be refused where nothing is ready for it; the line itself has no fault.
            got = (b"", errors if errors.startswith(b"line") else b"", 3 if status == 3 else 0)
            yield tell(f"the page's {line}", (b"", b"", 0), got)
        else:
            wanted = (b"", f"line {number}: {fault}\n".encode(), 3)
            yield tell(f"the page's {line}", wanted, (said, errors, status))
