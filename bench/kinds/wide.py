"""N fields with an integer each, `export`."""
SIZE = 28000


def work(n, rng, make):
    return ["export", make("wide.cue", "".join(f"{name}: {rng.randrange(10**6)}\n" for name in make.names(rng, n)))]
