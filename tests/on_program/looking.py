"""The commands that show what happens in a scenario: `trace` and `draw`."""

import json
import subprocess
import sys
import xml.etree.ElementTree as xml
from html.parser import HTMLParser

from on_program.starting import CLOSED, FULL, NOBODY, PIPE, ROOT, SECONDS, scenario, start, tell, told
from on_program.telling import cut_short, steps_of

SVG = "{http://www.w3.org/2000/svg}"
SCENES = (
    "put_and_take", "two_takers", "three_shards", "answered_again", "checkpoint_of_two", "shard_fails", "done_again",
)
TRACE = b"""1 w1 asks s1: out ("a", 1)
2 s1 hears w1: out ("a", 1)
3 s1 serves w1: out ("a", 1) done
4 w1 hears s1: out ("a", 1) done
5 w1 asks s1: in ("a", ?int)
6 s1 hears w1: in ("a", ?int)
7 s1 serves w1: in ("a", ?int) got ("a", 1)
"""


def read_back(trace):
    """The lines of the steps that tests/traced.py reads in a trace as JSON."""
    words = [sys.executable, f"{ROOT}/tests/traced.py"]
    ran = subprocess.run(words, input=trace, stdout=PIPE, stderr=PIPE, timeout=SECONDS)
    return ran.stdout.decode().splitlines() if ran.returncode == 0 else ran.stderr.decode()


def traced():
    """Each step has its line, in words and as JSON, and the steps can be read back. A choice is of these lines."""
    yield tell("trace: in words", (TRACE, b"", 0), start(["trace"], scenario("put_and_take"), b""))
    for name in SCENES:
        text = scenario(name)
        words, errors, status = start(["trace"], text, b"")
        lines = words.decode().splitlines()
        yield tell(f"trace: a line for each step, {name}", (len(steps_of(text)), b"", 0), (len(lines), errors, status))
        numbers = [line.split(" ", 1)[0] for line in lines]
        yield told(f"trace: its numbers, {name}", [str(n + 1) for n in range(len(lines))], numbers)
        objects, errors, status = start(["trace", "--json"], text, b"")
        yield tell(f"trace: read back, {name}", (steps_of(text), b"", 0), (read_back(objects), errors, status))
        yield told(f"trace: twice, {name}", True, (objects, words) == tuple(
            start(["trace", *flag], text, b"")[0] for flag in (["--json"], [])))
        some = start(["trace", "--from", "3", "--to=5"], text, b"")
        yield tell(f"trace: chosen by number, {name}", ("\n".join([*lines[2:5], ""]).encode(), b"", 0), some)
        of_one = start(["trace", "--node=s1", "--json"], text, b"")[0].decode().splitlines()
        entries = [json.loads(line) for line in objects.splitlines()]
        part = [e for e in entries if e["node"] == "s1" or (e["heard"] or {}).get("from") == "s1"]
        yield told(f"trace: chosen by node, {name}", part, [json.loads(line) for line in of_one])
    journal = start(["run", "--journal"], scenario("checks_and_failures"), b"")[0]
    objects = start(["trace", "--json"], journal, b"")[0]
    yield told("trace: a journal read back", steps_of(journal), read_back(objects))


def refused(word):
    """What was before a refused step is written, and then the fault is told as by `replay`."""
    text = cut_short(scenario("put_and_take"), 3).replace(b"end\n", b"take w1\nend\n")
    said, errors, status = start([word], text, b"")
    yield tell(f"{word}: a refused step", (True, b"step 4: 3 NothingThere\n", 4), (len(said) > 0, errors, status))
    yield told(f"{word}: what was refused is said", True, b"take w1 is refused: 3 NothingThere" in said)
    faults = scenario("a_shard_fails")
    line = faults.split(b"\n").index(b"faults") + 1
    yield tell(f"{word}: fault lines", (b"", f"line {line}: 2 Word\n".encode(), 3), start([word], faults, b""))
    text = scenario("put_and_take")
    yield tell(f"{word}: a full output", (None, b"write\n", 7), (None, *start([word], text, FULL)[1:]))
    yield tell(f"{word}: nobody reads", (None, b"write\n", 7), (None, *start([word], text, NOBODY)[1:]))
    yield tell(f"{word}: a closed input", (b"", b"read\n", 7), start([word], CLOSED, b""))
    file = start([word, f"{ROOT}/scenarios/put_and_take.scn"], b"", b"")
    yield tell(f"{word}: a file", start([word], text, b""), file)


class Page(HTMLParser):
    """What a page fetches, the names of its parts, and the data of its script."""

    VOID = {"meta", "input", "link", "br"}

    def __init__(self, text):
        super().__init__()
        self.fetched, self.names, self.data, self.open, self.is_right = [], [], "", [], True
        self.feed(text)
        self.is_right = self.is_right and not self.open

    def handle_starttag(self, tag, attrs):
        attrs = dict(attrs)
        self.fetched += [attrs[name] for name in ("src", "href") if name in attrs and not attrs[name].startswith("#")]
        self.names.append(attrs.get("id"))
        if tag not in self.VOID:
            self.open.append((tag, attrs.get("id")))

    def handle_startendtag(self, tag, attrs):
        self.handle_starttag(tag, attrs)
        if tag not in self.VOID:
            self.open.pop()

    def handle_endtag(self, tag):
        self.is_right = self.is_right and bool(self.open) and self.open.pop()[0] == tag

    def handle_data(self, text):
        if self.open and self.open[-1] == ("script", "changes"):
            self.data += text


def drawn():
    """A picture is an SVG that fetches nothing; a page is HTML that fetches nothing, with the changes as JSON."""
    for name in SCENES:
        text = scenario(name)
        picture, errors, status = start(["draw"], text, b"")
        root = xml.fromstring(picture)
        numbers = [mark.text for mark in root.iter(f"{SVG}text") if mark.get("class") == "e" and mark.text.isdigit()]
        yield tell(f"draw: an SVG, {name}", (f"{SVG}svg", b"", 0), (root.tag, errors, status))
        yield told(f"draw: a row for each step, {name}", [str(n + 1) for n in range(len(steps_of(text)))], numbers)
        links = [value for part in root.iter() for key, value in part.items() if "href" in key or key == "src"]
        yield told(f"draw: fetches nothing, {name}", [], [link for link in links if not link.startswith("#")])
        yield told(f"draw: twice, {name}", picture, start(["draw"], text, b"")[0])
        said, errors, status = start(["draw", "--html"], text, b"")
        page = Page(said.decode())
        yield tell(f"draw: a page, {name}", (True, b"", 0), (page.is_right, errors, status))
        yield told(f"draw: a page fetches nothing, {name}", [], page.fetched)
        yield told(f"draw: a page's changes, {name}", len(steps_of(text)) + 1, len(json.loads(page.data)))
    with open(f"{ROOT}/docs/failure.svg", "rb") as file:
        kept = file.read()
    yield told("draw: the picture of README.md", True, start(["draw"], scenario("done_again"), b"") == (kept, b"", 0))
    text = scenario("put_and_take")
    some = xml.fromstring(start(["draw", "--from=3", "--to=5"], text, b"")[0])
    numbers = [mark.text for mark in some.iter(f"{SVG}text") if mark.get("class") == "e" and mark.text.isdigit()]
    yield told("draw: chosen by number", ["3", "4", "5"], numbers)
    many = text.decode().partition("steps\n")[0] + "steps\n" + "issue w1\n" + "repeat w1\n" * 1000 + "end\n"
    line = b"draw: 1001 steps, and a picture has 1000 at most: choose them by --from and --to\n"
    yield tell("draw: too many steps", (b"", line, 2), start(["draw"], many.encode(), b""))
    said, errors, status = start(["draw", "--from=2"], many.encode(), b"")
    yield tell("draw: as many as there may be", (True, b"", 0), (said.startswith(b"<svg"), errors, status))


def looking():
    """All of it."""
    yield from traced()
    yield from drawn()
    for word in ("trace", "draw"):
        yield from refused(word)
