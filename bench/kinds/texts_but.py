"""N texts that may not stand, three times, `print`."""
SIZE = 16000


def work(n, rng, make):
    return ["print", *(make(f"but{i}.cue", "a: " + " & ".join(f'!="{name}"' for name in make.names(rng, n)) + "\n") for i in range(3))]
