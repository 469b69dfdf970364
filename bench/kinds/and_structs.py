"""N structs with one field each, joined by `&`, `export`."""
SIZE = 15000


def work(n, rng, make):
    return ["export", make("and.cue", "x: " + " & ".join(f"{{{name}: 1}}" for name in make.names(rng, n)) + "\n")]
