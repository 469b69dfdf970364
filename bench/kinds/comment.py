"""A comment of N bytes, `export`."""
SIZE = 800000


def work(n, rng, make):
    return ["export", make("comment.cue", "// " + "x" * n + "\na: 1\n")]
