"""Two equal states of N rows, `merge`."""
SIZE = 40000


def work(n, rng, make):
    state = make.state("one.state", make.names(rng, n))
    return ["merge", make.out, state, state]
