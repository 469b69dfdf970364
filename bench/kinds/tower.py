"""Definitions that each use the one before twice, N fields in all, `export`."""
SIZE = 16384


def work(n, rng, make):
    depth = n.bit_length() - 1
    text = "#D0: {a: 1}\n" + "".join(f"#D{i + 1}: {{l: #D{i}, r: #D{i}}}\n" for i in range(depth - 1))
    return ["export", make("tower.cue", f"{text}x: #D{depth - 1}\n")]
