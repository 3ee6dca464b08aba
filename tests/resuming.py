"""A world of tests/protocol.py that goes on from what a store holds, as plainly as can be: what is stored, when it fits
a scene, and the world that is made of it.

What is stored names an act by its node and the place in that node's line that it had when it was made.
"""

from collections import Counter, namedtuple

from linda import DONE, LEAST, MOST, NONE, ZEROS, Formal, Name, Op, asked_next, bound, matches, shard_of
from protocol import NO_LABEL, Act, Ckpt, Shard, Worker, World

# an act as a checkpoint holds it: `by` is a node and a place, or None
Kept = namedtuple("Kept", "by what worker number op answer")
# a checkpoint: how many neighbours its node has, labels, acts, and the node's state
Saved = namedtuple("Saved", "peers sent received acts state")
# of a worker: its next command, its last request's number, whether its last answer was none, what it asks, variables
Place = namedtuple("Place", "pc number was_none asked values")
# of a shard: its tuples, what each worker waits with, what each was answered last
Table = namedtuple("Table", "bag waiting kept")
# what is stored of a node, and on the board
Row = namedtuple("Row", "incarnation permanent tentative")
Content = namedtuple("Content", "rows board")
# what acts make of a worker, and of a shard: beside its state the cause of the last hearing of each worker
MadeWorker = namedtuple("MadeWorker", "answers made")
MadeShard = namedtuple("MadeShard", "bag waiting kept causes")

MOST_ACTS = 2**32


def in_order(names):
    """Nodes in node order: the workers, then the shards."""
    return sorted(names, key=lambda name: (name[0] == "s", int(name[1:])))


def sent_op(command, values):
    sent = [values[place.name] if isinstance(place, Name) else place for place in command.places]
    return Op(command.word, tuple(Formal(place.kind) if isinstance(place, Formal) else place for place in sent))


def standing(script, kinds, answers, made):
    """Where a worker of this script stands after these answers, with so many requests made."""
    values = {name: ZEROS[kind] for name, kind in kinds.items()}
    pc, was_none, asked = 0, False, None
    for number in range(made):
        while not isinstance(script[pc], Op):
            if script[pc][0] == "unless":
                pc += script[pc][1] if was_none else 0
            else:
                _, name, _, other, _, more = script[pc]
                values[name] = min(max(values[other] + more, LEAST), MOST)
            pc += 1
        command = script[pc]
        asked = sent_op(command, values)
        pc += 1
        if number < len(answers):
            was_none, asked = answers[number] == NONE, None
            values = bound(values, command.places, answers[number])
    return Place(pc, made, was_none, asked, tuple(values.values()))


# ---- what a world leaves in its store


def places(world):
    """For the number of each act its node and its place in the line."""
    lines, found = {name: 0 for name in world.nodes}, {}
    for number, note in enumerate(world.notes, 1):
        if isinstance(note, Act):
            lines[note.node] += 1
            found[number] = (note.node, lines[note.node])
        else:
            lines[note.node] = note.keep
    return found


def saved(world, name, ckpt, where):
    acts = [world.notes[number - 1] for number in ckpt.line]
    acts = tuple(Kept(where.get(act.by), act.what, act.worker, act.number, act.op, act.answer) for act in acts)
    if name[0] == "w":
        state = standing(world.scripts[name], world.kinds[name], ckpt.state.answers, ckpt.state.made)
    else:
        waiting = {w: asked[:2] for w, asked in ckpt.state.waiting.items()}
        state = Table(ckpt.state.bag, waiting, ckpt.state.kept)
    return Saved(len(world.nodes[name].peers), ckpt.sent, ckpt.received, acts, state)


def stored(world):
    """What the world leaves in its store. Of a node that never wrote nothing is held."""
    where, rows = places(world), {}
    for name in in_order(world.written):
        node = world.nodes[name]
        permanent = saved(world, name, node.permanent, where) if node.permanent.line is not None else None
        tentative = (saved(world, name, node.tentative[0], where), node.tentative[1]) if node.tentative else None
        rows[name] = Row(node.incarnation, permanent, tentative)
    return Content(rows, dict(world.board))


# ---- when it fits a scene


def counts(content, name):
    """What counts as the node's permanent checkpoint; None where that is the initial one."""
    row = content.rows.get(name)
    if row is None:
        return None
    is_yes = row.tentative and content.board[row.tentative[1]][1] is True
    return row.tentative[0] if is_yes else row.permanent


def acts_of(content, name):
    found = counts(content, name)
    return found.acts if found else ()


def label(content, name, peer, which):
    found = counts(content, name)
    return getattr(found, which).get(peer, NO_LABEL) if found else NO_LABEL


def placed(world, content):
    """Places the acts one after the other: again and again that of the first node whose next one's cause is there."""
    left = {name: list(acts_of(content, name)) for name in in_order(world.nodes)}
    while True:
        for name, acts in left.items():
            by = acts[0].by if acts else None
            if acts and (by is None or by[0] in world.nodes and by[1] <= len(world.nodes[by[0]].line)):
                act = acts.pop(0)
                number = world.nodes[by[0]].line[by[1] - 1] if by else 0
                world.note(Act(name, number, act.what, act.worker, act.number, act.op, act.answer))
                break
        else:
            return


def makes_worker(world, name, made, act):
    """What the worker is after the act; None where it may not make it."""
    answers, count = made
    asked = asked_next(world.scripts[name], world.kinds[name], answers)
    is_open = count > len(answers)
    is_asked = is_open and (act.number, act.op) == (count, asked)
    if act.worker != name:
        return None
    if act.what == "Issue" and not is_open and asked is not None and (act.number, act.op) == (count + 1, asked):
        return MadeWorker(answers, count + 1)
    if act.what == "Accepted" and is_asked:
        return MadeWorker((*answers, act.answer), count)
    if (act.what == "Repeat" and is_asked) or (act.what == "Ignored" and act.answer is not None and not is_asked):
        return made
    return None


def after_service(bag, op, answer):
    """The tuples after this service; None where it is no step of a tuple space."""
    if op.word == "out":
        return (*bag, op.places) if answer == DONE else None
    if answer == NONE:
        is_none = op.word in ("inp", "rdp") and not any(matches(op.places, values) for values in bag)
        return bag if is_none else None
    if answer == DONE or answer not in bag or not matches(op.places, answer):
        return None
    if op.word in ("rd", "rdp"):
        return bag
    at = bag.index(answer)
    return bag[:at] + bag[at + 1 :]


def makes_shard(world, name, made, act):
    """What the shard is after the act; None where it may not make it."""
    bag, waiting, kept, causes = made
    w, request = act.worker, (act.number, act.op)
    newest = max(waiting.get(w, (0,))[0], kept.get(w, (0,))[0])
    is_kept = w not in waiting and w in kept and kept[w][:2] == request
    if shard_of(act.op.places, world.shards) != name:
        return None
    if act.what == "Heard" and act.number > newest:
        return MadeShard(bag, {**waiting, w: request}, kept, {**causes, w: act.by})
    if act.what == "Served" and waiting.get(w) == request and causes[w] == act.by:
        left = after_service(bag, act.op, act.answer)
        others = {x: asked for x, asked in waiting.items() if x != w}
        return None if left is None else MadeShard(left, others, {**kept, w: (*request, act.answer)}, causes)
    if act.what == "Again" and is_kept and kept[w][2] == act.answer:
        return made
    if act.what == "Ignored" and act.answer is None and act.number <= newest and not is_kept:
        return made
    return None


def remade(world, name):
    """What the acts of the node's line make of it; None where it may not make one of them."""
    made = MadeWorker((), 0) if name[0] == "w" else MadeShard((), {}, {}, {})
    makes = makes_worker if name[0] == "w" else makes_shard
    for number in world.nodes[name].line:
        made = makes(world, name, made, world.notes[number - 1])
        if made is None:
            return None
    return made


def suits(world, name, made, state):
    """Whether that is what is stored, the tuples in some order."""
    if name[0] == "w":
        return state == standing(world.scripts[name], world.kinds[name], *made)
    desks = {*state.waiting, *state.kept}
    is_same = (state.waiting, state.kept) == (made.waiting, made.kept)
    return is_same and desks <= {*world.nodes} and Counter(state.bag) == Counter(made.bag)


def makes_sense(world, act):
    """Whether the act names as its cause one that sent what it heard."""
    cause = world.notes[act.by - 1] if act.by else None
    if act.what in ("Issue", "Repeat"):
        return cause is None
    if cause is None or (cause.worker, cause.number, cause.op) != (act.worker, act.number, act.op):
        return False
    if act.answer is not None and act.node[0] == "w":
        return cause.node[0] == "s" and cause.what in ("Served", "Again") and cause.answer == act.answer
    return cause.what in ("Issue", "Repeat")


def is_fit(world, content, name):
    """Whether what the store holds of the node is what a world of this scene leaves, its acts being placed."""
    if name not in world.nodes:
        return False
    node, found = world.nodes[name], counts(content, name)
    made = remade(world, name)
    before = in_order(world.nodes)[: in_order(world.nodes).index(name) + 1]
    labels = [
        label(content, name, x, "received") <= label(content, x, name, "sent")
        and label(content, name, x, "sent")[0] <= content.rows[name].incarnation
        for x in node.peers
    ]
    tentative = content.rows[name].tentative
    return (
        sum(len(acts_of(content, x)) for x in before) < MOST_ACTS
        and (found is None or found.peers == len(node.peers))
        and len(node.line) == len(acts_of(content, name))
        and made is not None
        and (found is None or suits(world, name, made, found.state))
        and all(makes_sense(world, world.notes[number - 1]) for number in node.line)
        and all(labels)
        and (tentative is None or tentative[1] in content.board)
    )


# ---- the world that goes on


def loaded(world, name, found):
    """The checkpoint as the model has it, made again by the acts of the node's line."""
    node, made = world.nodes[name], remade(world, name)
    if name[0] == "w":
        state = Worker(made.answers, made.made)
    else:
        waiting = {w: (*asked, made.causes[w]) for w, asked in made.waiting.items()}
        state = Shard(found.state.bag if found else made.bag, waiting, made.kept)
    sent, received = (dict(found.sent), dict(found.received)) if found else ({}, {})
    return Ckpt(len(node.line), sent, received, state, tuple(node.line) if found else None)


def resumed(shards, scripts, kinds, content):
    """The world that goes on from what is stored, or the first node that does not fit."""
    world = World(shards, scripts, kinds)
    placed(world, content)
    for name in content.rows:
        if not is_fit(world, content, name):
            return name
    world.board, world.written = dict(content.board), {*content.rows}
    for name, node in world.nodes.items():
        ckpt = loaded(world, name, counts(content, name))
        node.mode, node.ballot, node.kept, node.permanent = "Down", None, [], ckpt
        row = content.rows.get(name)
        if row is None:
            continue
        node.incarnation = row.incarnation
        if row.tentative:
            # One that did not get Yes is given up, and what it holds is asked for by nobody.
            node.tentative = (ckpt._replace(line=tuple(node.line)), row.tentative[1])
    return world
