"""The rules of the patterns of docs/EXAMPLES.md. Each is judged by what survives alone: the services of a report, in
the order made. Neither the scripts are looked at nor the steps that were made.

A judge takes the list of the services and gives what is wrong, a text each; nothing where the rule is kept.
"""

from collections import Counter, defaultdict

from linda import DONE, NONE

TASKS, COLLECTOR = 6, 5
PARTS, WORKERS = ("first part", "second part", "third part"), {1, 2, 3}
MOST_INSIDE, VISITORS, VISITS = 2, (2, 3, 4, 5), 2
PHILOSOPHERS = 5
ITEMS = ("axe", "bowl", "cup", "dish")
STAGES = [("puts", "raw"), ("takes", "raw"), ("puts", "cut"), ("takes", "cut"), ("puts", "polished"),
          ("takes", "polished"), ("puts", "packed")]
CANDIDATES = 4


def put(service):
    """The tuple that the service put, if it did."""
    return service.op.places if service.op.word == "out" else None


def taken(service):
    """The tuple that the service withdrew, if it did."""
    return service.answer if service.op.word in ("in", "inp") and service.answer not in (DONE, NONE) else None


def moved(services, head):
    """Each tuple with this first value that was put or taken: who did it, `puts` or `takes`, and the other values."""
    for service in services:
        for word, values in (("puts", put(service)), ("takes", taken(service))):
            if values and values[0] == head:
                yield service.worker, word, values[1:]


def unlike(what, found, wanted):
    """What is wrong where these should be the same."""
    return [] if found == wanted else [f"{what}: {found} in place of {wanted}"]


# ---- one judge for each pattern


def collected_tasks(services):
    """Each task is taken once, and its result is put once, by who took it, and collected."""
    wanted = list(range(1, TASKS + 1))
    takers = [(values[0], worker) for worker, word, values in moved(services, "task") if word == "takes"]
    results = [(word, worker, *values) for worker, word, values in moved(services, "result")]
    doers = [(task, worker) for word, worker, task, _ in results if word == "puts"]
    collected = [(task, result) for word, worker, task, result in results if (word, worker) == ("takes", COLLECTOR)]
    told = [values for _, word, values in moved(services, "all") if word == "puts"]
    yield from unlike("tasks that were taken", sorted(task for task, _ in takers), wanted)
    yield from unlike("who did which task", sorted(doers), sorted(takers))
    yield from unlike("results that were collected", sorted(collected), [(task, task + 100) for task in wanted])
    yield from unlike("what the collector told", told, [tuple(task + 100 for task in wanted)])


def barrier(services):
    """Nobody does a part before all have done the one before it, and each does each part once."""
    done = {part: [] for part in PARTS}
    for service in services:
        part = put(service)[0] if put(service) else None
        if part in PARTS:
            at = PARTS.index(part)
            missing = sorted(WORKERS.difference(done[PARTS[at - 1]])) if at else []
            if missing:
                others = ", ".join(f"w{other}" for other in missing)
                yield f"w{service.worker} does its {part}, and the {PARTS[at - 1]} was not done by {others}"
            done[part].append(service.worker)
    found = {part: sorted(workers) for part, workers in done.items()}
    yield from unlike("who did which part", found, {part: sorted(WORKERS) for part in PARTS})


def stays(services, head, own):
    """Each who comes, and who was there before, by tuples with this first value: each puts and takes one of its own.
    What is wrong with these stands behind None."""
    there = []
    for worker, word, values in moved(services, head):
        if values != (own(worker),) or (word == "takes") != (worker in there):
            yield None, f"w{worker} {word} {head} of {values[0]} while those of {there} are there"
        if word == "takes":
            there = [other for other in there if other != worker]
        else:
            yield worker, list(there)
            there.append(worker)
    if there:
        yield None, f"those of {there} are there at the end"


def semaphore(services):
    """At most two are inside at a time, and each goes inside twice."""
    visits = Counter()
    for worker, before in stays(services, "inside", int):
        if worker is None:
            yield before
            continue
        visits[worker] += 1
        if len(before) >= MOST_INSIDE:
            inside = sorted([*before, worker])
            yield f"{len(inside)} are inside at a time: " + ", ".join(f"w{other}" for other in inside)
    yield from unlike("visits", dict(sorted(visits.items())), {worker: VISITS for worker in VISITORS})


def philosophers(services):
    """No two neighbours eat at the same time, and each eats once."""
    meals = Counter()
    for worker, before in stays(services, "eats", "w{}".format):
        if worker is None:
            yield before
            continue
        neighbours = {worker % PHILOSOPHERS + 1, (worker - 2) % PHILOSOPHERS + 1}
        for other in sorted(neighbours.intersection(before)):
            yield f"w{worker} begins to eat while its neighbour w{other} eats"
        meals[worker] += 1
    everyone = range(1, PHILOSOPHERS + 1)
    yield from unlike("meals", dict(sorted(meals.items())), {worker: 1 for worker in everyone})


def pipeline(services):
    """Each item goes through each stage once and in order: who takes it there hands it on."""
    ways = defaultdict(list)
    for service in services:
        for word, values in (("puts", put(service)), ("takes", taken(service))):
            if values:
                ways[values[1]].append((service.worker, word, values[0]))
    yield from unlike("items", sorted(ways), sorted(ITEMS))
    for item, way in sorted(ways.items()):
        yield from unlike(f"the way of {item}", [step[1:] for step in way], STAGES)
        hands = [worker for worker, *_ in way]
        yield from unlike(f"who hands on {item}", hands[2::2], hands[1::2])


def election(services):
    """One leader, who got the chair, and all know it."""
    chairs = [worker for worker, word, _ in moved(services, "chair") if word == "takes"]
    leaders = [(worker, *values) for worker, word, values in moved(services, "leader") if word == "puts"]
    yield from unlike("how many have the chair", len(chairs), 1)
    yield from unlike("who says that it leads", leaders, [(worker, worker) for worker in chairs])
    known = sorted((worker, *values) for worker, word, values in moved(services, "knows") if word == "puts")
    wanted = [(worker, worker, leader) for leader in chairs[:1] for worker in range(1, CANDIDATES + 1)]
    yield from unlike("who knows whom", known, wanted)


JUDGES = {
    judge.__name__: judge for judge in (collected_tasks, barrier, semaphore, philosophers, pipeline, election)
}
