"""N services in one fragment each, beside a schema and a policy, `export`."""
SIZE = 2000


def work(n, rng, make):
    return ["export", *make.services(n, rng, n)]
