"""What lasts of a world of tests/protocol.py, its report, and whether what is claimed of it holds."""

from linda import NONE, answer_text, command_text, tuple_text
from protocol import Act, Cut


def surviving(world):
    """The numbers of the acts in whose past nothing is lost."""
    there = {number for node in world.nodes.values() for number in node.line}
    survives, line = {}, {name: [] for name in world.nodes}
    for number, note in enumerate(world.notes, 1):
        if isinstance(note, Cut):
            del line[note.node][note.keep :]
            continue
        before = line[note.node][-1:] + ([note.by] if note.by else [])
        survives[number] = number in there and all(survives[other] for other in before)
        line[note.node].append(number)
    return {number for number, it in survives.items() if it}


def services(world):
    acts = [world.notes[number - 1] for number in sorted(surviving(world))]
    return [act for act in acts if act.what == "Served"]


def space_after(acts):
    """The tuples that these services lead to, one after the other."""
    space = []
    for act in acts:
        if act.op.word == "out":
            space.append(act.op.places)
        elif act.op.word in ("in", "inp") and act.answer != NONE:
            space.remove(act.answer)
    return sorted(map(tuple_text, space))


def permanent(world, name):
    """The permanent checkpoint: a tentative one counts from its Yes on."""
    node = world.nodes[name]
    is_yes = node.tentative and world.verdict(node.tentative[1]) is True
    return node.tentative[0] if is_yes else node.permanent


def permanent_tuples(world):
    stored = [permanent(world, name).state.bag for name in world.nodes if name[0] == "s"]
    return sorted(tuple_text(values) for bag in stored for values in bag)


def report(world):
    acts = services(world)
    served = sum(isinstance(note, Act) and note.what == "Served" for note in world.notes)
    lines = [f"survivors {len(acts)}"]
    lines += [f"{a.worker}.{a.number} {command_text(a.op)} {answer_text(a.answer)}" for a in acts]
    lines.append(f"lost {served - len(acts)}")
    for word, tuples in (("space", space_after(acts)), ("permanent", permanent_tuples(world))):
        lines += [f"{word} {len(tuples)}", *tuples]
    return "".join(f"{line}\n" for line in lines)


def broken(world):
    """Which claim does not hold of the world, if one does not."""
    lines = {name: node.line for name, node in world.nodes.items()}
    if all(node.mode in ("Up", "Held") for node in world.nodes.values()):
        if not {number for line in lines.values() for number in line} <= surviving(world):
            return "something is remembered and does not survive, in a steady state"
        bags = [values for name, node in world.nodes.items() if name[0] == "s" for values in node.state.bag]
        if sorted(map(tuple_text, bags)) != space_after(services(world)):
            return "the shards hold other tuples than those of the survivors' run, in a steady state"
    saved = {number for name, line in lines.items() for number in line[: permanent(world, name).keep]}
    acts = [world.notes[number - 1] for number in sorted(saved)]
    if any(act.by and act.by not in saved for act in acts):
        return "the permanent checkpoints are not causally closed"
    if permanent_tuples(world) != space_after(act for act in acts if act.what == "Served"):
        return "the permanent checkpoints hold other tuples than those of their run"
    return None
