"""Texts of one field each, N of them, one after the other over a connection, `loop`."""
SIZE = 10000


def work(n, rng, make):
    return ["loop", *(make(f"{i}.cue", f"{name}: {rng.randrange(10**6)}\n") for i, name in enumerate(make.names(rng, n)))]
