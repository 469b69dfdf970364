"""Layers bytes that are mutated at random, and what cuelayers does with each: for bin/attack."""
import json
import os
import random
import re
import resource
import subprocess
import tempfile
from collections import Counter

from mutations import mutated_bytes, mutated_state
from serving import TOP

MARK, STATE = b"\xfeLAY", b"\xfeCUE"
ROOM, SECONDS = 1 << 30, 20  # the memory and the time of a run
REFUSED = re.compile(rb"refused (17 Version|18 NotState|24 Memory|26 NotLayers) at 0 in 1\n\Z")


def seeds_of_layers():
    """The maps of the lists that sites with layers are compared on."""
    with open(os.path.join(TOP, "crates/layer_lists/data/layers.jsonl"), encoding="utf-8") as file:
        return sorted({bytes.fromhex(site["layers"]) for line in map(json.loads, file) for site in line["at"]})


def mutated_layers(data, other, chance):
    """Layers bytes with a part changed: anywhere, within one state, or a length."""
    form = chance.random()
    if form < 0.5:
        return mutated_bytes(data, other, chance)
    at = [found.start() for found in re.finditer(STATE, data)]
    if form < 0.8 and at:
        first = chance.choice(at)
        size = int.from_bytes(data[first - 8:first], "big")
        state = mutated_state(data[first:first + size], STATE + b"\x02" + bytes(8), chance)
        return data[:first - 8] + len(state).to_bytes(8, "big") + state + data[first + size:]
    place = chance.randrange(5, max(6, len(data)))
    return data[:place] + chance.choice((0, 1, 255, 2 ** 16 - 1, 2 ** 32, 2 ** 64 - 1)).to_bytes(8, "big") + data[place + 8:]


def limit():
    resource.setrlimit(resource.RLIMIT_AS, (ROOM, ROOM))
    resource.setrlimit(resource.RLIMIT_CORE, (0, 0))


def run(program, *words):
    return subprocess.run([program, *words], stdin=subprocess.DEVNULL, capture_output=True, timeout=SECONDS, preexec_fn=limit, check=False)


def wrong_with(program, data, folder):
    """What is wrong with the program's answers about these bytes; none, where all is right. The second is what they came to."""
    name, out = f"{folder}/in.layers", f"{folder}/out.layers"
    with open(name, "wb") as file:
        file.write(data)
    if os.path.exists(out):
        os.unlink(out)
    try:
        done = run(program, "merge", out, name)
        if done.returncode == 1 and REFUSED.search(done.stdout):
            is_left = os.path.exists(out)
            return ("a refused merge has written a file" if is_left else None), done.stdout.split()[2].decode()
        if done.returncode != 0:
            return f"merge ended with {done.returncode}: {done.stdout[:80]}{done.stderr[:80]}", "wrong"
        with open(out, "rb") as file:
            if data[:4] == MARK and file.read() != data:
                return "what was read is written in another way", "accepted"
        done = run(program, "list", name)
        if done.returncode != 0:
            return f"list ended with {done.returncode}", "accepted"
        done = run(program, "export", "--limit", "100000", name)
        if done.returncode not in (0, 1, 2, 3):
            return f"export ended with {done.returncode}", "accepted"
    except subprocess.TimeoutExpired:
        return f"no answer in {SECONDS} seconds", "hang"
    return None, "accepted"


def attack_batch(program, seed, number, count):
    """The inputs that the program answers wrongly, each with why, and what all came to."""
    chance, seeds, counts, found = random.Random(f"layers {seed} {number}"), seeds_of_layers(), Counter(), []
    with tempfile.TemporaryDirectory() as folder:
        for _ in range(count):
            data = mutated_layers(chance.choice(seeds), chance.choice(seeds), chance)
            why, came = wrong_with(program, data, folder)
            counts[came] += 1
            if why:
                found.append((why, data))
    return found, counts
