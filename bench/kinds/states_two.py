"""Two states of N rows, of which each second is the other's, `merge`."""
SIZE = 40000


def work(n, rng, make):
    names = sorted(make.names(rng, 2 * n))
    return ["merge", make.out, *(make.state(f"s{i}.state", names[i::2]) for i in range(2))]
