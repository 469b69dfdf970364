"""One field, declared N times, `export`."""
SIZE = 30000


def work(n, rng, make):
    return ["export", make("label.cue", "a: >=0\n" * n)]
