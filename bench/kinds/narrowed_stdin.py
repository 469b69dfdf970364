"""N texts of standard input, each of which takes one text out of the same field, `print`."""
SIZE = 4000


def work(n, rng, make):
    make.stdin("---\n".join(f'a: !="{name}"\n' for name in make.names(rng, n)))
    return ["print"]
