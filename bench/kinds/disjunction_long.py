"""A disjunction of N integers out of order, four times, `print`."""
SIZE = 16000


def work(n, rng, make):
    return ["print", *(make(f"or{i}.cue", "a: " + " | ".join(str(rng.randrange(10 * n)) for _ in range(n)) + "\n") for i in range(4))]
