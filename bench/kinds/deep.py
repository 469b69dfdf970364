"""N fields in 60 levels, in each of four texts, `report`."""
SIZE = 20000


def body(rng, names, level):
    """Names as fields of structs in so many levels, a third of them at each."""
    if level == 0 or len(names) < 3:
        return "".join(f"{name}: {rng.randrange(9)}\n" for name in names)
    here = len(names) // 20 + 1
    return "".join(f"{name}: int\n" for name in names[:here]) + f"below: {{\n{body(rng, names[here:], level - 1)}}}\n"


def work(n, rng, make):
    names = make.names(rng, n)
    return ["report", *(make(f"deep{i}.cue", body(rng, names, 60)) for i in range(4))]
