"""Works for `replay` that each put the weight elsewhere. Each function gives a scenario of so many tenths, as text."""


def scenario(scripts, steps, shards=1):
    lines = ["linda-kt 1", f"shards {shards}"]
    for script in scripts:
        lines += ["worker", *script]
    return "".join(f"{line}\n" for line in [*lines, "steps", *steps, "end"])


def put_and_taken(tenths, put, take):
    """Eight workers of 20 commands each for every tenth: they put tuples, and take them back, the last first. 160
    services for every tenth."""
    count = 20 * tenths
    half = count // 2
    script = [put(n) for n in range(half)] + [take(n) for n in reversed(range(count - half))]
    steps = [
        step
        for _ in range(count)
        for w in range(1, 9)
        for step in (f"issue w{w}", f"deliver w{w} s1", f"serve s1 w{w} 0", f"deliver s1 w{w}")
    ]
    return scenario([script] * 8, steps)


def alike(tenths):
    """All tuples begin with one value, so that it tells none apart."""
    return put_and_taken(tenths, lambda n: f'out ("k", {n})', lambda n: f'in ("k", {n})')


def newest(tenths):
    """The newest tuple is asked for by a formal first place, so that no value finds it."""
    return put_and_taken(tenths, lambda n: f"out ({n}, {n})", lambda n: f"in (?int, {n})")


def answered_again(tenths):
    """One request that is served once and answered again: 8,500 steps for every tenth, half of them repeats."""
    steps = ["issue w1", "deliver w1 s1", "serve s1 w1 0"] + ["repeat w1", "deliver w1 s1"] * (4250 * tenths)
    return scenario([['out ("a", 1)']], steps[: 8500 * tenths])


def sends(tenths):
    """One request that is asked again and again and never arrives: 8,500 steps for every tenth."""
    return scenario([['out ("a", 1)']], ["issue w1"] + ["repeat w1"] * (8500 * tenths - 1))


def checks(tenths):
    """3,300 checks for every tenth, of a worker to whom nobody spoke."""
    return scenario([['out ("a", 1)']], ["check w1", "decide w1", "learn w1"] * (3300 * tenths))


def acts_and_checks(tenths):
    """2,490 rounds for every tenth: a worker asks once more and checks, so that each checkpoint has an act more."""
    round_of_steps = ["repeat w1", "check w1", "decide w1", "learn w1"]
    return scenario([['out ("a", 1)']], ["issue w1", *round_of_steps * (2490 * tenths)])


def checks_and_failures(turns):
    """Eight workers in turn put or take a tuple and check with the shard. When all have, the shard fails, and all roll
    back with it: 131 steps a turn."""
    steps = []
    for _ in range(turns):
        for w in range(1, 9):
            go, back = f"deliver w{w} s1", f"deliver s1 w{w}"
            steps += [f"issue w{w}", go, f"serve s1 w{w} 0", back, f"check w{w}", go, back, go, back]
            steps += [f"decide w{w}", f"learn w{w}", go, back]
        steps += ["fail s1", "restart s1", *(f"deliver s1 w{w}" for w in range(1, 9))]
        steps += [*(f"deliver w{w} s1" for w in range(1, 9)), "decide s1", *(f"deliver s1 w{w}" for w in range(1, 9))]
    return scenario([[f'out ("k", {w})', f'in ("k", {w})'] * 100 for w in range(1, 9)], steps)


def protocol(tenths):
    """20 turns of checks and a failure for every tenth."""
    return checks_and_failures(20 * tenths)
