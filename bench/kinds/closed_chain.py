"""A chain of N definitions, of which each closes 500 fields again, `export`."""
SIZE = 480


def work(n, rng, make):
    names = make.names(rng, 500)
    fields = "".join(f"{name}?: int\n" for name in names)
    text = f"#D0: {{{fields}}}\n" + "".join(f"#D{i + 1}: #D{i} & {{{names[i]}: {i}}}\n" for i in range(n))
    return ["export", make("chain.cue", f"{text}x: #D{n}\n")]
