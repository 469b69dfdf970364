"""N services in a hundred fragments, `print`."""
SIZE = 2000


def work(n, rng, make):
    return ['print', *make.services(n, rng, 100)]
