"""The picture of a run: a line for each node, and from left to right what was served, saved, failed and rolled back.

It is drawn from the run's journal, whose steps the model of tests/protocol.py makes. A run has a mark for each service,
where it was served and at the worker that asked. It is green where it survives; where it was lost it is red, with a
broken line and hollow dots.
"""

import os
import re
from html import escape

from lasting import report, surviving
from linda import NONE, tuple_text
from protocol import Cut, World
from sources import ROOT, text_of
from spelled import spelled

PAGE = "docs/EXAMPLES.md"
# Where the page has what a run printed: a file of docs/runs, of a journal the report.
PLACE = re.compile(r"(<!-- run: (\w+)\.(\w+) -->\n\n```\n)(.*?)(```\n\n<!-- /run -->)", re.DOTALL)
# Of a pattern the first value of tuples that stand while a worker does something, as eating.
HEADS = {"philosophers": "eats", "semaphore": "inside"}

GREEN, RED, BLUE, ORANGE, GREY, BLACK = "#2e7d32", "#c62828", "#1565c0", "#ef6c00", "#bbbbbb", "#333333"
COLOURS = {"survives": GREEN, "lost": RED, "save": BLUE, "back": ORANGE, "fail": BLACK}
# What a picture explains below its lines, by the kinds of its marks.
LEGEND = (("survives", "survives"), ("lost", "lost"), ("save", "saved"), ("back", "rolled back"), ("fail", "fails"))
LEFT, STRIDE, LANE = 60, 15, 34
# of a letter of the texts above the columns, and of how many letters they are at most
LETTER, LETTERS = 6, 34
# so many points of a line that was lost are drawn, and so many left out
DASHES = "4 3"


class Run:
    """What a journal tells: the columns of its picture, each a list of marks, and the world at its end."""

    def __init__(self, journal):
        scenario = spelled(journal)
        self.world = World(scenario.shards, scenario.scripts, scenario.kinds)
        self.columns, self.refusal = [], None
        for words in scenario.last:
            step = tuple(int(word) if word.isdigit() else word for word in words)
            before = len(self.world.notes)
            self.refusal = self.refusal or self.world.step(step)
            self.mark(step, before)
        self.survivors = surviving(self.world)
        self.report = report(self.world)

    def mark(self, step, before):
        """Marks what the step made, of which the new notes tell."""
        word, node = step[:2]
        if word == "serve":
            self.columns.append([("serve", before + 1)])
        if word == "fail":
            self.columns.append([("fail", node)])
            return
        for note in self.world.notes[before:]:
            if isinstance(note, Cut):
                self.together("back", note.node)
        ballot = self.world.nodes[node].ballot
        if word == "decide" and ballot and ballot.purpose == "check" and self.world.verdict(ballot.instance):
            saved = [n for n, it in self.world.nodes.items() if it.tentative and it.tentative[1] == ballot.instance]
            self.columns.append([("save", name) for name in saved])

    def together(self, kind, node):
        """Marks of one kind, one behind the other, share a column."""
        if not self.columns or any(mark[0] != kind for mark in self.columns[-1]):
            self.columns.append([])
        self.columns[-1].append((kind, node))


def shortened(word, values):
    """The operation as far as it has room: whole values, and two dots where some are left out."""
    text = f"{word} {tuple_text(values)}"
    shown = len(values)
    while len(text) > LETTERS and shown > 1:
        shown -= 1
        text = f"{word} {tuple_text(values[:shown])[:-1]}, ..)"
    return text if len(text) <= LETTERS else f"{text[: LETTERS - 2]}.."


def column_text(run, marks):
    """What stands above a column, and its colour."""
    kind, what = marks[0]
    if kind == "serve":
        act = run.world.notes[what - 1]
        text = shortened(act.op.word, act.answer if isinstance(act.answer, tuple) else act.op.places)
        return text + (" none" if act.answer == NONE else ""), GREEN if what in run.survivors else RED
    if kind == "fail":
        return f"{what} fails", COLOURS[kind]
    return dict(LEGEND)[kind], COLOURS[kind]


def line(x1, y1, x2, y2, colour, width, more=""):
    return f'<line x1="{x1}" y1="{y1}" x2="{x2}" y2="{y2}" stroke="{colour}" stroke-width="{width}"{more}/>'


def text_at(x, y, text, colour, more=""):
    return f'<text x="{x}" y="{y}" fill="{colour}"{more}>{escape(text)}</text>'


def dot(x, y, radius, colour):
    """A dot, which is hollow where it is of a service that was lost."""
    fill = "#ffffff" if colour == RED else colour
    return f'<circle cx="{x}" cy="{y}" r="{radius}" fill="{fill}" stroke="{colour}"/>'


def cross(x, y):
    yield line(x - 6, y - 6, x + 6, y + 6, BLACK, 3)
    yield line(x - 6, y + 6, x + 6, y - 6, BLACK, 3)


def bar(x, y, colour):
    return f'<rect x="{x - 3}" y="{y - 8}" width="6" height="16" fill="{colour}"/>'


def mark_lines(run, marks, x, lanes, colour):
    """The marks of a column."""
    for kind, what in marks:
        if kind == "serve":
            act = run.world.notes[what - 1]
            more = f' stroke-dasharray="{DASHES}"' if colour == RED else ""
            yield line(x, lanes[act.worker], x, lanes[act.node], colour, 1, more)
            yield dot(x, lanes[act.worker], 2.5, colour)
            yield dot(x, lanes[act.node], 4, colour)
        elif kind == "fail":
            yield from cross(x, lanes[what])
        else:
            yield bar(x, lanes[what], colour)


def legend(y):
    """What the marks mean."""
    x = LEFT - 20
    for kind, text in LEGEND:
        if kind == "fail":
            yield from cross(x + 5, y - 4)
        else:
            yield bar(x + 5, y - 4, COLOURS[kind]) if kind in ("save", "back") else dot(x + 5, y - 4, 4, COLOURS[kind])
        yield text_at(x + 16, y, text, COLOURS[kind])
        x += 40 + LETTER * len(text)


def bands_of(run, head):
    """Where a worker has put a tuple with this first value and not taken it back: who, from which column to which, and
    whether that survives. What was lost ends where it is taken back, or where the worker fails or rolls back."""
    begun = {}
    for at, marks in enumerate(run.columns):
        for kind, what in marks:
            if kind != "serve":
                if kind != "save" and (what, False) in begun:
                    yield what, begun.pop((what, False)), at, False
                continue
            act, lasts = run.world.notes[what - 1], what in run.survivors
            if act.op.places[0] != head:
                continue
            if act.op.word == "out":
                begun[act.worker, lasts] = at
            elif (act.worker, lasts) in begun:
                yield act.worker, begun.pop((act.worker, lasts)), at, lasts


def bands(run, head, lanes):
    for worker, begin, end, lasts in bands_of(run, head):
        x, y = LEFT + STRIDE * begin, lanes[worker]
        colour = "#a5d6a7" if lasts else "#ef9a9a"
        yield f'<rect x="{x}" y="{y - 6}" width="{STRIDE * (end - begin)}" height="12" fill="{colour}"/>'


def kept():
    """The patterns of which a run is kept."""
    names = sorted(os.listdir(f"{ROOT}/docs/runs"))
    return [name.removesuffix(".journal") for name in names if name.endswith(".journal")]


def journal_of(pattern):
    return text_of(f"docs/runs/{pattern}.journal")


def report_of(journal):
    """The report with which a journal begins."""
    return "".join(f"{line[2:]}\n" for line in journal.splitlines() if line.startswith("# "))


def printed(pattern, kind):
    """What is shown of a file of docs/runs."""
    return report_of(journal_of(pattern)) if kind == "journal" else text_of(f"docs/runs/{pattern}.{kind}")


def with_reports(page):
    """The page with what was printed in its places."""
    return PLACE.sub(lambda found: found[1] + printed(found[2], found[3]) + found[5], page)


def picture_of(pattern):
    """The picture of the run that is kept of the pattern."""
    return drawn(journal_of(pattern), f"A run of {pattern}.scn", HEADS.get(pattern))


def drawn(journal, title, head=None):
    """The picture of a journal. `head` is the first value of tuples for which the bands stand."""
    run = Run(journal)
    texts = [column_text(run, marks) for marks in run.columns]
    top = 20 + LETTER * max(len(text) for text, _ in texts)
    lanes = {name: top + LANE * (at + (name[0] == "s")) for at, name in enumerate(run.world.nodes)}
    width, height = max(LEFT + STRIDE * (len(texts) + 1), 420), max(lanes.values()) + 46
    lines = [
        f'<svg xmlns="http://www.w3.org/2000/svg" width="{width}" height="{height}" viewBox="0 0 {width} {height}" '
        'font-family="Helvetica, Arial, sans-serif" font-size="11" role="img">',
        f"<title>{escape(title)}</title>",
        f'<rect width="{width}" height="{height}" fill="#ffffff"/>',
    ]
    for name, y in lanes.items():
        lines += [text_at(14, y + 4, name, BLACK), line(LEFT - 20, y, width - 8, y, GREY, 1)]
    lines += bands(run, head, lanes)
    for at, (marks, (text, colour)) in enumerate(zip(run.columns, texts)):
        x = LEFT + STRIDE * at
        lines += mark_lines(run, marks, x, lanes, colour)
        lines.append(text_at(x + 4, top - 16, text, colour, f' transform="rotate(-90 {x + 4} {top - 16})"'))
    lines += legend(height - 12)
    return "\n".join([*lines, "</svg>"]) + "\n"
