"""A chain of N definitions that nothing uses, `export`."""
SIZE = 40000


def work(n, rng, make):
    return ["export", make("unused.cue", "#D0: 1\n" + "".join(f"#D{i + 1}: #D{i}\n" for i in range(n)))]
