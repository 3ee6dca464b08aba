"""Stores that were changed by hand so that one thing alone does not fit the scene: each is refused as unfit, and left
as it is. Some changes leave a store that fits."""

import sqlite3
import tempfile
from contextlib import closing

from on_program.resumes import AGREED, ASKED, PUT, SCENE, UNFIT, left, resumed, steps, untouched
from on_program.starting import report, tell
from on_program.stores import copied_to
from on_program.texts import NO_STEPS

# places in the bytes of the worker's checkpoint, whose line is Issue and Accepted, and of the shard's, Heard and Served
WORKER, SHARD = 1, 101
NEIGHBOURS, SENT_INCARNATION, HEARD_COUNT = 15, 23, 47
LAST_OF_PC, LAST_OF_NUMBER, ACCEPTED_CAUSE = 49, 57, 107
LAST_OF_TUPLE, LAST_OF_KEPT, HEARD_CAUSE, LAST_OF_SERVED = 64, 89, 103, 160
# the two tuples of another scene's shard
FIRST, SECOND = slice(52, 62), slice(62, 72)
TWO = SCENE.replace(b'out ("a", 1)\nin ("a", ?int x)\n', b"out (1)\nout (2)\n")
BOTH = report(
    "survivors 2", "w1.1 out (1) done", "w1.2 out (2) done", "lost 0", "space 2", "(1)", "(2)", "permanent 2", "(1)",
    "(2)",
)


def stored(file, node):
    """The node's tentative checkpoint, which counts as its permanent one: its verdict is yes."""
    with closing(sqlite3.connect(file)) as opened:
        return bytearray(opened.execute("SELECT tentative FROM kt_node WHERE id = ?", (node,)).fetchone()[0])


def changed(file, *statements):
    with closing(sqlite3.connect(file)) as opened, opened:
        for text, given in statements:
            opened.execute(text, given)


def put(file, node, ckpt):
    changed(file, ("UPDATE kt_node SET tentative = ? WHERE id = ?", (bytes(ckpt), node)))


def with_byte(node, place, value):
    """A change of one byte of a checkpoint."""

    def change(file):
        ckpt = stored(file, node)
        ckpt[place] = value
        put(file, node, ckpt)

    return change


def with_neighbour(file):
    """The shard's checkpoint has labels for a worker more."""
    ckpt = stored(file, SHARD)
    ckpt[NEIGHBOURS] = 2
    ckpt[HEARD_COUNT + 1 : HEARD_COUNT + 1] = bytes(32)
    put(file, SHARD, ckpt)


def with_statement(text):
    return lambda file: changed(file, (text, ()))


CHANGES = {
    "a row of a node that the scene has not": with_statement("INSERT INTO kt_node VALUES (102, 1, NULL, NULL, NULL)"),
    "labels for a worker more": with_neighbour,
    "a cause that is not there": with_byte(SHARD, HEARD_CAUSE, 9),
    "a cause that sent something else": with_byte(WORKER, ACCEPTED_CAUSE, 1),
    "an act with another operation": with_byte(SHARD, LAST_OF_SERVED, 2),
    "a worker before another command": with_byte(WORKER, LAST_OF_PC, 0),
    "a worker with another number": with_byte(WORKER, LAST_OF_NUMBER, 2),
    "another tuple": with_byte(SHARD, LAST_OF_TUPLE, 2),
    "another answer kept": with_byte(SHARD, LAST_OF_KEPT, 2),
    "a label heard that was not sent": with_byte(WORKER, HEARD_COUNT, 2),
    "a label sent in a later life": with_byte(WORKER, SENT_INCARNATION, 2),
    "an instance that is not on the board": with_statement("DELETE FROM kt_board"),
}


def unfit():
    """Each change alone is found."""
    with tempfile.TemporaryDirectory() as folder:
        yes = left(folder, "yes", PUT, AGREED)
        for number, (name, change) in enumerate(CHANGES.items()):
            file = f"{folder}/{number}.db"
            copied_to(yes, file)
            change(file)
            yield from untouched(f"unfit: {name}", file, UNFIT, steps())
        yield from fitting(folder)


def fitting(folder):
    """What is not looked at: the order of a shard's tuples, and a checkpoint whose verdict is still open."""
    two = left(folder, "two", PUT, PUT, AGREED, head=TWO)
    ckpt = stored(two, SHARD)
    ckpt[FIRST], ckpt[SECOND] = ckpt[SECOND], ckpt[FIRST]
    put(two, SHARD, ckpt)
    yield tell("tuples in another order", (BOTH, b"", 0), resumed(two, steps(head=TWO)))
    asked = left(folder, "asked", PUT, ASKED)
    ckpt = stored(asked, SHARD)
    ckpt[LAST_OF_TUPLE] = 2
    put(asked, SHARD, ckpt)
    yield tell("what does not count may be anything", (NO_STEPS, b"", 0), resumed(asked, steps()))
