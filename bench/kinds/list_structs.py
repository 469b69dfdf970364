"""A list of N structs of which each fourth uses a definition, `export`."""
SIZE = 8000


def work(n, rng, make):
    items = ", ".join(f"{{port: {rng.randrange(1, 65536)}}}{' & #P' if i % 4 == 0 else ''}" for i in range(n))
    return ["export", make("structs.cue", f"#P: {{port: >=1 & <=65535, name: *\"x\" | string}}\nl: [{items}]\n")]
