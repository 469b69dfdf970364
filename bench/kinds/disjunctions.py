"""N fields at each of which one of 100 texts may stand, narrowed by four files, `report`."""
SIZE = 400


def work(n, rng, make):
    words = make.names(rng, 120)
    names = make.names(rng, n)
    return ["report", *(make(f"one_of{i}.cue", "".join(
        f"{name}: {' | '.join(chr(34) + word + chr(34) for word in rng.sample(words, 100))}\n" for name in names)) for i in range(4))]
