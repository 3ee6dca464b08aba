"""Scenarios, and what the program writes of them: each text is written out here, none is taken from the program."""

from on_program.starting import report, scenario

PUT_AND_TAKE = report(
    "survivors 2",
    'w1.1 out ("a", 1) done',
    'w1.2 in ("a", ?int) got ("a", 1)',
    "lost 0",
    "space 0",
    "permanent 0",
)
NO_STEPS = report("survivors 0", "lost 0", "space 0", "permanent 0")
TWO_TAKERS = report(
    "survivors 2",
    'w3.1 out ("t") done',
    'w2.1 in ("t") got ("t")',
    "lost 0",
    "space 0",
    "permanent 0",
)
BAG_OF_TASKS = report(
    "survivors 9",
    'w1.1 out ("task", 10) done',
    'w1.2 out ("task", 20) done',
    'w3.1 in ("task", ?int) got ("task", 10)',
    'w2.1 in ("task", ?int) got ("task", 20)',
    'w2.2 out ("result", 20, 21) done',
    'w3.2 out ("result", 10, 11) done',
    'w1.3 in ("result", 10, ?int) got ("result", 10, 11)',
    'w1.4 in ("result", 20, ?int) got ("result", 20, 21)',
    'w1.5 out ("all", 11, 21) done',
    "lost 0",
    "space 1",
    '("all", 11, 21)',
    "permanent 0",
)
UNLESS_SKIPS = report(
    "survivors 6",
    'w1.1 inp ("a") none',
    'w1.2 out ("d") done',
    'w2.1 out ("a") done',
    'w2.2 out ("a") done',
    'w2.3 out ("a") done',
    'w2.4 rdp ("a") got ("a")',
    "lost 0",
    "space 4",
    '("a")',
    '("a")',
    '("a")',
    '("d")',
    "permanent 0",
)
ANSWERED_AGAIN = report(
    "survivors 1",
    'w1.1 out ("a", 1) done',
    "lost 0",
    "space 1",
    '("a", 1)',
    "permanent 0",
)
THREE_SHARDS = report(
    "survivors 7",
    'w1.1 out ("apple", 5) done',
    'w1.2 out ("pear", 9) done',
    'w2.1 out (1, "pear") done',
    'w1.3 in (?int, ?str) got (1, "pear")',
    'w1.4 rd ("pear", ?int) got ("pear", 9)',
    'w1.5 out (1, 9) done',
    'w2.2 in (1, ?int) got (1, 9)',
    "lost 0",
    "space 2",
    '("apple", 5)',
    '("pear", 9)',
    "permanent 0",
)
SHARD_OF_SIGNATURE = (
    b'linda-kt 1\nshards 2\nworker\nout ("a", 1)\nworker\nout ("a")\nworker\nout (1, 2)\nsteps\n'
    b"issue w1\nissue w2\nissue w3\ndeliver w1 s2\ndeliver w2 s1\ndeliver w3 s1\n"
    b"serve s2 w1 0\nserve s1 w2 0\nserve s1 w3 0\nend\n"
)
THREE_PUT = report(
    "survivors 3",
    'w1.1 out ("a", 1) done',
    'w2.1 out ("a") done',
    "w3.1 out (1, 2) done",
    "lost 0",
    "space 3",
    '("a")',
    '("a", 1)',
    "(1, 2)",
    "permanent 0",
)
ANSWERED = b"issue w1\ndeliver w1 s1\nserve s1 w1 0\ndeliver s1 w1\n"
TRUTHS = (
    b"linda-kt 1\nshards 2\nworker\nout (true, 1)\nin (?bool b, 1)\nout (b)\nsteps\n" + 2 * ANSWERED
    + b"issue w1\ndeliver w1 s2\nserve s2 w1 0\nend\n"
)
THREE_TRUTHS = report(
    "survivors 3",
    "w1.1 out (true, 1) done",
    "w1.2 in (?bool, 1) got (true, 1)",
    "w1.3 out (true) done",
    "lost 0",
    "space 1",
    "(true)",
    "permanent 0",
)
SIXTEEN = "(" + ", ".join(map(str, range(1, 17))) + ")"
ONE_OF_SIXTEEN = report("survivors 1", f"w1.1 out {SIXTEEN} done", "lost 0", "space 1", SIXTEEN, "permanent 0")
NINE = "(1, 1, 1, 1, 1, 1, 1, 1, 1)"
ONE_OF_NINE = report("survivors 1", f"w1.1 out {NINE} done", "lost 0", "space 1", NINE, "permanent 0")
SHARD_FAILS = report(
    "survivors 1",
    'w1.1 out ("a", 1) done',
    "lost 1",
    "space 1",
    '("a", 1)',
    "permanent 0",
)

CHECKPOINT_OF_TWO = report(
    "survivors 1",
    'w1.1 out ("a", 1) done',
    "lost 0",
    "space 1",
    '("a", 1)',
    "permanent 1",
    '("a", 1)',
)

LOST = report("survivors 0", "lost 1", "space 0", "permanent 0")

# Every run of it ends with this report.
A_SHARD_FAILS = report(
    "survivors 5",
    'w1.1 out ("k") done',
    'w1.2 out ("k", 7) done',
    'w1.3 in ("k", ?int) got ("k", 7)',
    'w1.4 out ("done", 7) done',
    'w1.5 rd ("k") got ("k")',
    "lost 4",
    "space 2",
    '("done", 7)',
    '("k")',
    "permanent 0",
)
NOBODY_FAILS = b'linda-kt 1\nshards 1\nworker\nout ("a", 1)\nfaults\nend\n'
CUT_FAULTS = b"linda-kt 1\nshards 1\nworker\nsteps\n"

# up to the failure, and no restart
TO_FAILURE = scenario("shard_fails").partition(b"restart s1\n")[0] + b"end\n"

# the shard has not learned the verdict when it fails
UNRESOLVED = scenario("checkpoint_of_two").partition(b"# Both learn it")[0] + b"fail s1\nrestart s1\nend\n"

REFUSED_NINTH = scenario("two_takers").replace(b"\nend\n", b"\nserve s1 w1 0\nend\n")
HEAD = b'linda-kt 1\nshards 1\nworker\nout ("a", 1)\nsteps\nissue w1\n'
TO_SHARD = b"deliver w1 s1\nserve s1 w1 0\n"
HELP = report(
    "A Linda tuple space that survives failures",
    "",
    "Usage: linda_kt <COMMAND>",
    "",
    "Commands:",
    "  replay      Makes the steps of the scenario and writes the report to standard output",
    "  run         Runs the scenario, by a thread for each node, and writes the report to standard output;"
    " `fail s1 after 3` counts the steps of s1 alone",
    "  resume      Goes on from a store after the program was stopped: makes the steps of the scenario and writes the"
    " report to standard output",
    "  migrate     Carries a store of version 1 over, by the journal that made it, and writes the report to standard"
    " output",
    "  check       Reads the scenario and does nothing: says of how many steps or fault lines it is, or which fault it"
    " has",
    "  complete    Writes the scenario with the steps behind its own that bring it to its end",
    "  trace       Writes what happens in the scenario of steps, or in the journal: a line for each step",
    "  draw        Draws the scenario of steps, or the journal, as an SVG picture",
    "  show        Writes what a store holds: the checkpoints of each node, and the board",
    "  explain     Says what a number or a name means that is printed where something fails",
    "  completion  Writes a script by which a shell completes the words of this program",
    "  manual      Writes the manual page, for man",
    "  help        Print this message or the help of the given subcommand(s)",
    "",
    "Options:",
    "  -h, --help     Print help",
    "  -V, --version  Print version",
)
ARGUMENTS = (
    "Arguments:",
    "  [SCENARIO]  The file with the scenario; standard input where it is - or left out",
    "",
)
HELP_OF_REPLAY = report(
    "Makes the steps of the scenario and writes the report to standard output",
    "",
    "Usage: linda_kt replay [OPTIONS] [SCENARIO]",
    "",
    *ARGUMENTS,
    "Options:",
    "      --store <FILE>  Keeps the checkpoints in FILE, which is absent, empty or a fresh store",
    "      --explain       Says behind the line of a fault why it came, as on a terminal without the flag, and behind a"
    " report what it came to",
    "      --json          Says what --explain says as one JSON object on a line",
    "  -h, --help          Print help",
)
HELP_OF_RUN = report(
    "Runs the scenario, by a thread for each node, and writes the report to standard output; `fail s1 after 3` counts"
    " the steps of s1 alone",
    "",
    "Usage: linda_kt run [OPTIONS] [SCENARIO]",
    "",
    *ARGUMENTS,
    "Options:",
    "      --store <FILE>  Keeps the checkpoints in FILE, which is absent, empty or a fresh store",
    "      --journal       Writes the report as remarks, and then the steps that were made, as a scenario for replay or"
    " resume",
    "      --resume        Goes on from what FILE holds, after the program was stopped; it need not be fresh then",
    "      --times <N>     Runs the scenario N times, from 1 to 10000, each time over a store of its own in memory, and writes"
    " each different report once, behind how often it came",
    "      --chaos <N>     Adds N random fault lines, from 1 to 10000, and writes each of them as a remark before the report, so"
    " that it can be kept; wants --seed",
    "      --seed <K>      Which fault lines --chaos adds: for one number and one scene always the same ones",
    "      --explain       Says behind the line of a fault why it came, as on a terminal without the flag, and behind a"
    " report what it came to",
    "      --json          Says what --explain says as one JSON object on a line",
    "  -h, --help          Print help",
)
HELP_OF_RESUME = report(
    "Goes on from a store after the program was stopped: makes the steps of the scenario and writes the report to"
    " standard output",
    "",
    "Usage: linda_kt resume [OPTIONS] --store <FILE> [SCENARIO]",
    "",
    *ARGUMENTS,
    "Options:",
    "      --store <FILE>  The store to go on from; one that is absent, empty or fresh was stopped before its first"
    " write",
    "      --explain       Says behind the line of a fault why it came, as on a terminal without the flag, and behind a"
    " report what it came to",
    "      --json          Says what --explain says as one JSON object on a line",
    "  -h, --help          Print help",
)
HELP_OF_MIGRATE = report(
    "Carries a store of version 1 over, by the journal that made it, and writes the report to standard output",
    "",
    "Usage: linda_kt migrate --store <FILE> [SCENARIO]",
    "",
    "Arguments:",
    "  [SCENARIO]  The file with the journal; standard input where it is - or left out",
    "",
    "Options:",
    "      --store <FILE>  The store of version 1, which holds what the journal makes and nothing else",
    "  -h, --help          Print help",
)
HELP_OF_CHECK = report(
    "Reads the scenario and does nothing: says of how many steps or fault lines it is, or which fault it has",
    "",
    "Usage: linda_kt check [OPTIONS] [SCENARIO]",
    "",
    *ARGUMENTS,
    "Options:",
    "      --explain  Says behind the line of a fault why it came, as on a terminal without the flag, and behind a"
    " report what it came to",
    "      --json     Says what --explain says as one JSON object on a line",
    "  -h, --help     Print help",
)
HELP_OF_COMPLETE = report(
    "Writes the scenario with the steps behind its own that bring it to its end",
    "",
    "Usage: linda_kt complete [SCENARIO]",
    "",
    *ARGUMENTS,
    "Options:",
    "  -h, --help  Print help",
)
HELP_OF_TRACE = report(
    "Writes what happens in the scenario of steps, or in the journal: a line for each step",
    "",
    "Usage: linda_kt trace [OPTIONS] [SCENARIO]",
    "",
    *ARGUMENTS,
    "Options:",
    "      --from <N>     The number of the first step that is told, counted from 1",
    "      --to <N>       The number of the last step that is told",
    "      --node <NODE>  Tells the steps of one node alone, as w1 or s2, and those that bring what it sent",
    "      --json         Writes one JSON object on a line for each step",
    "  -h, --help         Print help",
)
HELP_OF_DRAW = report(
    "Draws the scenario of steps, or the journal, as an SVG picture",
    "",
    "Usage: linda_kt draw [OPTIONS] [SCENARIO]",
    "",
    *ARGUMENTS,
    "Options:",
    "      --html      Draws a page of HTML, in which a person goes through the scenario step by step",
    "      --from <N>  The number of the first step that is drawn, counted from 1; those before it are made",
    "      --to <N>    The number of the last step that is made; what survives is what does so behind it",
    "  -h, --help      Print help",
)
HELP_OF_SHOW = report(
    "Writes what a store holds: the checkpoints of each node, and the board",
    "",
    "Usage: linda_kt show [OPTIONS] <FILE>",
    "",
    "Arguments:",
    "  <FILE>  The store",
    "",
    "Options:",
    "      --json  Writes what the store holds as JSON",
    "  -h, --help  Print help",
)
HELP_OF_EXPLAIN = report(
    "Says what a number or a name means that is printed where something fails",
    "",
    "Usage: linda_kt explain <NUMBER>",
    "",
    "Arguments:",
    "  <NUMBER>  The number or the name, as in `line 4: 3 Tuple`, or the exit status",
    "",
    "Options:",
    "  -h, --help  Print help",
)
HELP_OF_COMPLETION = report(
    "Writes a script by which a shell completes the words of this program",
    "",
    "Usage: linda_kt completion <SHELL>",
    "",
    "Arguments:",
    "  <SHELL>  The shell",
    "",
    "Options:",
    "  -h, --help  Print help",
)
HELP_OF_MANUAL = report(
    "Writes the manual page, for man",
    "",
    "Usage: linda_kt manual",
    "",
    "Options:",
    "  -h, --help  Print help",
)
HELPS = {
    "replay": HELP_OF_REPLAY, "run": HELP_OF_RUN, "resume": HELP_OF_RESUME, "migrate": HELP_OF_MIGRATE,
    "check": HELP_OF_CHECK, "complete": HELP_OF_COMPLETE, "trace": HELP_OF_TRACE, "draw": HELP_OF_DRAW,
    "show": HELP_OF_SHOW, "explain": HELP_OF_EXPLAIN, "completion": HELP_OF_COMPLETION, "manual": HELP_OF_MANUAL,
}
VERSION = report("linda_kt 0.1.0")
AGAIN = b"repeat w1\n"


def putting(values):
    """The scenario up to the first request, which puts the tuple of this text."""
    return HEAD.replace(b'("a", 1)', values.encode())


def crowd(workers):
    """A scenario of so many workers, of which the last puts a tuple that nobody hears of."""
    others = b"worker\n" * (workers - 1)
    return b"linda-kt 1\nshards 8\n" + others + b"worker\nout (1)\nsteps\nissue w%d\nend\n" % workers


ONE_PUT = report("survivors 1", 'w1.1 out ("a", 1) done', "lost 0", "space 1", '("a", 1)', "permanent 0")
