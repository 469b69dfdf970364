"""N integers that may not stand, `print`."""
SIZE = 30000


def work(n, rng, make):
    return ["print", make("but.cue", "a: " + " & ".join(f"!={rng.randrange(10**9)}" for _ in range(n)) + "\n")]
