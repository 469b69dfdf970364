"""Eight states of N rows with names at random, `merge`."""
SIZE = 10000


def work(n, rng, make):
    return ["merge", make.out, *(make.state(f"s{i}.state", make.names(rng, n)) for i in range(8))]
