"""Texts of 10,000 fields each, N fields in all, `state`."""
SIZE = 80000


def work(n, rng, make):
    names = make.names(rng, n)
    return ["state", *(make(f"wide{i}.cue", "".join(f"{name}: {rng.randrange(10**6)}\n" for name in names[i:i + 10000]))
                       for i in range(0, n, 10000))]
