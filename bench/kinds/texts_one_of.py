"""A disjunction of N texts, three times, `print`."""
SIZE = 16000


def work(n, rng, make):
    names = make.names(rng, n)
    return ["print", *(make(f"texts{i}.cue", "a: " + " | ".join(f'"{name}"' for name in rng.sample(names, n)) + "\n") for i in range(3))]
