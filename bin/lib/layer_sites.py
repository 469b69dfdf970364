"""Sites that are maps of layers in files, for bin/schedules: the program cuelayers changes them, and each must have the layers bytes
that a plain model says, written here from the format alone."""
import os
import random
import shutil
import subprocess
from collections import Counter

import serving
from layers_model import Map, statement
from rows import Failing

PROGRAM = os.path.abspath(os.environ.get("CUELAYERS", f"{serving.TOP}/crates/cuelayers/out/cuelayers"))
SITES, OWNERS = 5, 20
MOST_CALLS = 24  # of the system that a put or a merge makes, about
MARK = b"\xfeLAY\x01"
STATES = {frozenset(): b"\xfeCUE\x02" + bytes(8)}  # of a set of texts, the state bytes of a site that has taken just these
REFUSED = [b"\xfeLAY", b"\xfeLAY\x02", MARK + bytes(8), MARK + (2).to_bytes(8, "big") + bytes(11), b"\xfeCUE\x09", b"a: *1", b"a: \xff"]
NO_POLICY = ['l: [...{"*": int}]\n', '"#P": 1\n#P: {"*": int}\nx: #P\n', 'x: close({"a*": int})\n']


class Wrong(Exception):
    """Something that no schedule may come to."""


def text_of(said):
    return str(said)[1:-1]


def state_of(statements):
    """The state bytes of a site that has taken these statements."""
    texts = frozenset(text_of(said) for said in statements)
    if texts not in STATES:
        status, out, _ = serving.run("state", given="\n---\n".join(sorted(texts)).encode())
        if status != 0:
            raise Wrong(f"no state of {sorted(texts)}")
        STATES[texts] = out
    return STATES[texts]


def bytes_of(layers):
    """The layers bytes of a map: a dictionary from key to revision and statements."""
    found = MARK + len(layers).to_bytes(8, "big")
    for (kind, name), (revision, statements) in sorted(layers.items()):
        state = state_of(statements)
        found += bytes([kind == "policy"]) + len(name).to_bytes(2, "big") + name.encode() + revision.to_bytes(8, "big")
        found += len(state).to_bytes(8, "big") + state
    return found


class LayerSchedule:
    """Five maps as files, a model of each, and the messages that were sent. Messages come late, repeatedly, in another order or
    never, and links are cut for a while."""

    def __init__(self, seed, number, folder, program):
        self.chance = random.Random(f"{seed}/layers/{number}")
        self.folder, self.program, self.counts = folder, program, Counter()
        self.models, self.messages = [Map() for _ in range(SITES)], []
        os.makedirs(folder)
        for site in range(SITES):
            self.run("merge", self.file(site), self.written(STATES[frozenset()]))

    def file(self, site):
        return f"{self.folder}/{site}.layers"

    def written(self, content):
        with open(f"{self.folder}/in", "wb") as file:
            file.write(content if isinstance(content, bytes) else content.encode())
        return f"{self.folder}/in"

    def read(self, site):
        with open(self.file(site), "rb") as file:
            return file.read()

    def run(self, *words, failing=None):
        done = subprocess.run([self.program, *words], capture_output=True, env=failing and failing.env, close_fds=False,
                              timeout=serving.SECONDS, check=False)
        return done.returncode, done.stdout.decode(errors="replace")

    def go(self, events):
        for _ in range(events):
            site = self.chance.randrange(SITES)
            what = self.chance.choices(("put", "remove", "text", "send", "message", "refused"), (6, 2, 2, 4, 8, 1))[0]
            getattr(self, what)(site)
            self.counts[what] += 1
        self.settle()
        return self.counts

    def change(self, site, wanted, change, *words):
        """What a command does to a map: as the model has it, or, where it is killed at one of its calls, that or nothing."""
        model = Map()
        model.layers = dict(self.models[site].layers)
        change(model)
        if self.chance.random() < 0.3:
            failing = Failing("calls", self.chance.randint(1, MOST_CALLS), "kill")
            status = self.run(*words, failing=failing)[0]
            self.counts[f"{words[0]} killed in {failing.name() or 'no call'}"] += 1
            if status not in (0, -9):
                raise Wrong(f"{words} was killed and ended with {status}")
            if status != 0 and self.read(site) == bytes_of(self.models[site].layers):
                return
            self.counts[f"{words[0]} done when killed"] += status != 0
        elif self.run(*words) != (0, wanted):
            raise Wrong(f"{words} failed, or answered another revision than {wanted!r}")
        self.models[site] = model
        self.check(site)

    def check(self, site):
        if self.read(site) != bytes_of(self.models[site].layers):
            raise Wrong(f"{self.file(site)} has other bytes than its puts have")

    def key(self):
        return self.chance.choice(["layer", "layer", "layer", "policy"]), f"owner-{self.chance.randrange(OWNERS)}"

    def put(self, site):
        key = self.key()
        said = [statement(self.chance, key[0] == "policy") for _ in range(self.chance.randint(1, 2))]
        pieces = [f"{self.folder}/piece{at}" for at in range(len(said))]
        for piece, one in zip(pieces, said):
            with open(piece, "w", encoding="utf-8") as file:
                file.write(text_of(one))
        revision = self.models[site].layers.get(key, (0, None))[0] + 1
        policy = ["--policy"] if key[0] == "policy" else []
        self.change(site, f"{revision}\n", lambda model: model.put(key, said), "put", *policy, self.file(site), key[1], *pieces)

    def remove(self, site):
        keys = sorted(key for key in self.models[site].layers if key[1])
        if keys:
            key = self.chance.choice(keys)
            revision = self.models[site].layers[key][0] + 1
            policy = ["--policy"] if key[0] == "policy" else []
            self.change(site, f"{revision}\n", lambda model: model.put(key, []), "remove", *policy, self.file(site), key[1])

    def text(self, site):
        said = statement(self.chance, False, 2)
        self.join(site, self.written(text_of(said)), lambda model: model.submit(said))

    def send(self, site):
        name = f"{self.folder}/message{len(self.messages)}"
        shutil.copy(self.file(site), name)
        self.messages.append((site, name, dict(self.models[site].layers)))

    def message(self, site):
        """A message from a site on the same side of a cut."""
        if self.messages:
            cut = self.chance.randrange(SITES)
            source, name, layers = self.chance.choice(self.messages)
            if (source < cut) == (site < cut):
                self.join(site, name, lambda model: model.join(layers))

    def join(self, site, name, change):
        self.change(site, "", change, "merge", self.file(site), self.file(site), name)

    def refused(self, site):
        before = self.read(site)
        if self.chance.random() < 0.5:
            words = ["merge", self.file(site), self.file(site), self.written(self.chance.choice(REFUSED))]
        else:
            words = ["put", "--policy", self.file(site), "owner-0", self.written(self.chance.choice(NO_POLICY))]
        status, out = self.run(*words)
        if status != 1 or not out.startswith("refused ") or self.read(site) != before:
            raise Wrong(f"{words} came to {status} {out!r}, or changed the map")

    def settle(self):
        """Hands each map to each, and compares them."""
        for site in range(SITES):
            shutil.copy(self.file(site), f"{self.folder}/last{site}")
        last = [dict(model.layers) for model in self.models]
        for site in range(SITES):
            for other in self.chance.sample(range(SITES), SITES):
                if self.run("merge", self.file(site), self.file(site), f"{self.folder}/last{other}") != (0, ""):
                    raise Wrong(f"{self.folder}/last{other} is not joined")
                self.models[site].join(last[other])
            self.check(site)
        if len({self.read(site) for site in range(SITES)}) != 1:
            raise Wrong("sites with the same puts have other bytes")
