#!/usr/bin/env python3
"""Counts the instructions of cuelayers at three sizes: an export of a map, and a put into it, of layers that have no label in
common and of layers below one label; labels under policies; and `why`.

usage: bench/layers.py [--program FILE] [KIND ..]     the program is CUELAYERS, or crates/cuelayers/out/cuelayers

A line has the kind, the instructions at a quarter, half and the whole of its size, in millions, the power with which they grew
from the first to the last (1.00 is linear), and what the kind says of them. It needs valgrind.
"""
import argparse
import math
import os
import re
import subprocess
import sys
import tempfile

TOP = os.path.dirname(os.path.dirname(os.path.realpath(__file__)))
COUNTED = re.compile(rb"refs:\s+([\d,]+)")


def instructions(program, *words):
    done = subprocess.run(["valgrind", "--tool=none", "true"], capture_output=True, check=False)
    if done.returncode:
        sys.exit("bench/layers.py: valgrind is not here")
    done = subprocess.run(["valgrind", "--tool=callgrind", "--callgrind-out-file=/dev/null", program, *words], stdout=subprocess.DEVNULL,
                          stderr=subprocess.PIPE, check=False)
    return int(COUNTED.search(done.stderr)[1].replace(b",", b""))


def write(name, text):
    with open(name, "w", encoding="utf-8") as file:
        file.write(text)
    return name


def run(program, *words):
    if subprocess.run([program, *words], stdout=subprocess.DEVNULL, check=False).returncode not in (0, 2, 3):
        sys.exit(f"bench/layers.py: {' '.join(words)} failed")


def layer(number, fields, below):
    rows = ", ".join(f"f{k}: {k}" for k in range(fields))
    return f"{below}l{number}: {{{rows}}}\n"


def map_of(program, count, fields, below=""):
    """A map of so many layers, each with so many fields, made from layers bytes of its own."""
    parts = []
    for number in range(count):
        write("one.cue", layer(number, fields, below))
        name = f"m{number}.layers"
        run(program, "put", name, f"owner-{number:05}", "one.cue")
        parts.append(name)
    run(program, "merge", "all.layers", *parts)
    for name in parts:
        os.unlink(name)
    return "all.layers"


def exports(program, size):
    return instructions(program, "export", map_of(program, size, 100))


def exports_below(program, size):
    return instructions(program, "export", map_of(program, size, 100, "services: "))


def puts(program, size):
    write("one.cue", layer(7, 100, ""))
    return instructions(program, "put", map_of(program, size, 100), "owner-00007", "one.cue")


def labels_under_policies(program, size):
    """So many labels, bound by one policy, which fits all of them."""
    write("labels.cue", "".join(f"s: n{k}: {{r: {k % 9}}}\n" for k in range(size)))
    write("policy.cue", 's: "*": {r: <=10, owner?: string}\n')
    for name in ("p.layers",):
        if os.path.exists(name):
            os.unlink(name)
    run(program, "put", "p.layers", "labels", "labels.cue")
    run(program, "put", "--policy", "p.layers", "policy", "policy.cue")
    return instructions(program, "export", "p.layers")


def policies_over_labels(program, size):
    """500 labels, bound by so many policies, each of which fits all of them."""
    if os.path.exists("q.layers"):
        os.unlink("q.layers")
    write("labels.cue", "".join(f"s: n{k}: {{r: {k % 9}}}\n" for k in range(500)))
    run(program, "put", "q.layers", "labels", "labels.cue")
    for number in range(size):
        write("policy.cue", f's: "*": {{r: <={10 + number}, f{number}?: int}}\n')
        run(program, "put", "--policy", "q.layers", f"p{number:04}", "policy.cue")
    return instructions(program, "export", "q.layers")


def why(program, size):
    """Who says so, of a conflict of two layers among so many."""
    name = map_of(program, size, 100)
    write("one.cue", "l7: f3: \"x\"\n")
    run(program, "put", name, "other", "one.cue")
    return instructions(program, "why", "l7.f3", name)


KINDS = {"export": (exports, 1000), "export-below": (exports_below, 1000), "put": (puts, 1000), "labels": (labels_under_policies, 10000),
         "policies": (policies_over_labels, 100), "why": (why, 1000)}


def main(arguments):
    parser = argparse.ArgumentParser(usage=__doc__.split("\n\n")[1][7:])
    parser.add_argument("--program", default=os.environ.get("CUELAYERS", f"{TOP}/crates/cuelayers/out/cuelayers"))
    parser.add_argument("kinds", nargs="*", choices=[*KINDS, []])
    words = parser.parse_args(arguments)
    program, worst = os.path.abspath(words.program), 0
    print(f"{'kind':<14} {'n':>6} {'n/4':>10} {'n/2':>10} {'n':>10} {'growth':>7}")
    with tempfile.TemporaryDirectory() as folder:
        os.chdir(folder)
        for kind in words.kinds or KINDS:
            count, size = KINDS[kind]
            counts = [count(program, size // part) for part in (4, 2, 1)]
            growth = math.log(counts[2] / counts[0], 4)
            worst = max(worst, growth)
            print(f"{kind:<14} {size:>6} " + " ".join(f"{it / 1e6:10.1f}" for it in counts) + f" {growth:7.2f}", flush=True)
        os.chdir(TOP)
    return 1 if worst > 1.15 else 0


if __name__ == "__main__":
    sys.exit(main(sys.argv[1:]))
