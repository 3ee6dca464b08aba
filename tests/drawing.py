"""Random scenes and steps: of a world of tests/protocol.py each next step is drawn, enabled or not."""

from linda import Formal, Name, Op, Truth, kind_of

WORDS = {"out": 9, "in": 4, "rd": 2, "inp": 2, "rdp": 1}
# how often a step of each kind is tried
STEPS = {
    "deliver": 100, "issue": 40, "serve": 40, "repeat": 1, "take": 20, "check": 1,
    "decide": 20, "learn": 10, "abandon": 0.2, "fail": 0.3, "restart": 10,
}
# the nodes that make such steps; any, where nothing is said
KINDS = {"issue": "w", "repeat": "w", "serve": "s"}
MOST_PLACES, MOST_WORKERS, MOST_SHARDS = 16, 16, 8
# where there are more workers, a scene is twice as long
FEW_WORKERS = 8
# what the names of these variables are bound with; `truex` begins as a value does
BOUND = {"x": "int", "y": "str", "truex": "bool"}
# nodes that no scene has
NOBODY = [f"w{MOST_WORKERS + 1}", f"s{MOST_SHARDS + 1}"]


# ---- scenes


def value(draw):
    return draw.choice([1, 1, 2, "a", "a", 'b"', Truth.TRUE, Truth.FALSE])


def wide(draw, word):
    """Many places, of which two tuples of one length are alike: so they match."""
    values = [(1, Truth.TRUE, "a")[place % 3] for place in range(draw.choice([3, 8, 9, 15, MOST_PLACES]))]
    if word == "out":
        return values
    return [Formal(kind_of(value)) if draw.random() < 0.3 else value for value in values]


def command(draw, kinds):
    """A command, in which the variables of these kinds may be used; it may bind more."""
    word = draw.choices([*WORDS, "unless", "set"], [*WORDS.values(), 1, 1])[0]
    if word == "unless":
        return ("unless", draw.randint(1, 2))
    ints = [name for name, kind in kinds.items() if kind == "int"]
    if word == "set":
        if not ints:
            return ("unless", 1)
        name = draw.choice([*ints, "z"])
        other = draw.choice(ints)
        kinds.setdefault(name, "int")
        return ("set", name, "=", other, "+", draw.choice([1, 7, 2**63 - 1]))
    if draw.random() < 0.08:
        return Op(word, tuple(wide(draw, word)))
    places, more = [], {}
    for _ in range(draw.choice([1, 1, 2])):
        if word != "out" and draw.random() < 0.5:
            name = draw.choice([None, *BOUND])
            kind = BOUND.get(name) or draw.choice([*BOUND.values()])
            places.append(Formal(kind, name))
            if name:
                more[name] = kind
        elif kinds and draw.random() < 0.3:
            places.append(Name(draw.choice(sorted(kinds))))
        else:
            places.append(value(draw))
    kinds.update(more)
    return Op(word, tuple(places))


def script(draw):
    kinds = {}
    return [command(draw, kinds) for _ in range(draw.randint(1, 14))], kinds


def size(draw, scene):
    """How many shards and workers a scene has: every third has many workers."""
    if scene % 3 == 0:
        return draw.randint(1, MOST_SHARDS), draw.randint(FEW_WORKERS + 1, MOST_WORKERS)
    return draw.randint(1, 3), draw.choice([1, 2, 2, 3, 3, draw.randint(4, FEW_WORKERS)])


def drawn_step(draw, world, often=STEPS):
    """A step of some kind, by how often each is tried; now and then of a node that is not there or of another kind."""
    word = draw.choices([*often], [*often.values()])[0]
    is_any = draw.random() < 0.02
    names = [*world.nodes, *NOBODY] if is_any else [p for p in world.nodes if p[0] in KINDS.get(word, "ws")]
    if word == "deliver":
        full = [pair for pair, queue in world.links.items() if queue]
        pair = draw.choice(full) if full and draw.random() < 0.95 else (draw.choice(names), draw.choice(names))
        return ("deliver", *pair)
    if word == "serve":
        workers = [p for p in world.nodes if p[0] == "w" or is_any]
        return ("serve", draw.choice(names), draw.choice(workers), draw.choice([0, 0, 0, 1, 2]))
    return (word, draw.choice(names))
