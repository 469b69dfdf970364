"""Texts of one field each on standard input, N of them, `export`."""
SIZE = 40000


def work(n, rng, make):
    make.stdin("---\n".join(f"{name}: {rng.randrange(10**6)}\n" for name in make.names(rng, n)))
    return ["export"]
