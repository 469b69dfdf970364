"""Integers in 60 parentheses each, N of them, `export`."""
SIZE = 6000


def work(n, rng, make):
    return ["export", make("nested.cue", "".join(f"{name}: {'(' * 60}1{')' * 60}\n" for name in make.names(rng, n)))]
