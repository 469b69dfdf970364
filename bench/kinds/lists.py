"""A list of N integers and one half as long whose rest is typed, `export`."""
SIZE = 40000


def work(n, rng, make):
    numbers = [rng.randrange(10**6) for _ in range(n)]
    return ["export", make("whole.cue", f"l: {numbers}\n"), make("half.cue", f"l: [{', '.join(map(str, numbers[:n // 2]))}, ...int]\n")]
