"""N fragments of 20 fields each, as files, `export`."""
SIZE = 4000


def work(n, rng, make):
    names = make.names(rng, 20 * n)
    return ["export", *(make.fields(f"t{i}", names[20 * i:20 * i + 20]) for i in range(n))]
