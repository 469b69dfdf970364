"""N states of 100 rows each, as files, `merge`."""
SIZE = 1000


def work(n, rng, make):
    names = make.names(rng, 100 * n)
    return ["merge", make.out, *(make.state(f"s{i}.state", names[100 * i:100 * i + 100]) for i in range(n))]
