"""N services in ten fragments: a schema, a policy, teams, a region and an override, `export`."""
SIZE = 2000


def work(n, rng, make):
    return ['export', *make.services(n, rng, 10)]
