"""Texts, states and streams of frames, and what is made of them at random: bits turned, parts cut, spliced, swapped and
repeated, counts made huge."""
import json
import os
import re

from serving import TOP, frames_of, framed

MARK = b"\xfeCUE"
MOST_PARTS = 20000
BODIES = [b"", b"\x00", b"\x03", b"\x04", b"\x05", b"\x06", b"\x07", b"\x03\x00", b"\x01\xff", b"\x02"]
HUGE = (0, 1, 2, 63, 64, 65, 255, 65535, 65536, 65537, 2**31 - 1, 2**31, 2**32 - 1, 2**63 - 1, 2**63, 2**64 - 1)
TOKENS = re.compile(r'"(?:\\.|[^"\\\n])*"|[#_]*[^\W\d][\w$]*|\d\w*|_\|_|\.\.\.|<=|>=|!=|//[^\n]*|\s+|.', re.DOTALL)
WORDS = ["int", "string", "bool", "null", "true", "_", "_|_", "*", "|", "&", "(", ")", "{", "}", "[", "]", "close(", "...",
         "a", "#A", "#B:", '"a b"', "?:", "!:", ":", ",", "\n", ">=", "!=", "-9223372036854775808", "9223372036854775808",
         "9223372036854775807", "0x7f", "uint8", '"\\ud83d\\ude00"', '"\\u0000"', "\u00e9", "//", "---", "package p", "if"]


def seeds():
    """Texts, states and streams of the lists and streams that the store is compared on, and some at the limits."""
    texts, states = set(LIMITS), set()
    with open(os.path.join(TOP, "crates/cue_cases/data/lists.jsonl"), encoding="utf-8") as file:
        for line in map(json.loads, file):
            for given in line["inputs"]:
                if isinstance(given, str):
                    texts.add(given.encode())
                else:
                    states.add(bytes.fromhex(given["hex"]))
            if line["state"][0] == 0:
                states.add(bytes.fromhex(line["state"][1]))
    with open(os.path.join(TOP, "crates/cue_streams/data/streams.jsonl"), encoding="utf-8") as file:
        streams = {bytes.fromhex(json.loads(line)["stream"]) for line in file}
    return {"texts": sorted(texts), "states": sorted(states), "frames": sorted(streams)}


LIMITS = [text.encode() for text in (
    "a: " * 64 + "1", "a: " + "(" * 64 + "1" + ")" * 64, "a: " + "{a: " * 32 + "1" + "}" * 32,
    "a: " + "[" * 63 + "1" + "]" * 63,
    "#A0: {a: 1}\n" + "".join(f"#A{k + 1}: {{l: #A{k}, r: #A{k}}}\n" for k in range(7)) + "x: #A7\n",
    "".join(f"#A{k + 1}: #A{k} & {{b{k}?: int}}\n" for k in range(60)) + "#A0: {a: 1}\nx: #A60\n",
    "a: " + " & ".join(f"!={k}" for k in range(60)), "a: " + " | ".join(f'"{k}"' for k in range(60)),
    "".join(f"k{k}: {k}\n" for k in range(60)), "x: close({a: 1}) & {b: 2}\n", "l: [1, 2, ...] & [_, _, 3]\n",
    "a: " + "[..." * 63 + "1" + "]" * 63, "l: [...int] & [_, \"x\", ...] & [...>=0]\n")]


def turned(data, chance):
    """A bit, or some, turned."""
    data = bytearray(data)
    for _ in range(chance.choice((1, 1, 1, 2, 8))):
        if data:
            data[chance.randrange(len(data))] ^= 1 << chance.randrange(8)
    return bytes(data)


def cut(data, chance):
    at = chance.randrange(len(data) + 1)
    if chance.random() < 0.5:
        return data[:at]
    return data[:at] + data[at + chance.randrange(min(len(data) - at, 40) + 1):]


def spliced(data, other, chance):
    return data[: chance.randrange(len(data) + 1)] + other[chance.randrange(len(other) + 1):]


def rewritten(data, chance):
    """Some bytes put in, or others in the place of some."""
    at, size = chance.randrange(len(data) + 1), chance.choice((1, 2, 4, 8))
    drawn = chance.choice((bytes(size), b"\xff" * size, bytes(chance.randrange(256) for _ in range(size)),
                           chance.choice(HUGE).to_bytes(8, "big")[-size:]))
    return data[:at] + drawn + data[at + chance.choice((0, size)):]


def parts_mixed(parts, chance, most=300):
    """The parts with one of them dropped, repeated, or moved."""
    parts = list(parts)
    if parts:
        at, to = chance.randrange(len(parts)), chance.randrange(len(parts))
        form = chance.randrange(4)
        if form == 0:
            del parts[at]
        elif form == 1:
            parts[to:to] = [parts[at]] * chance.choice((1, 1, 2, 10, most))
        elif form == 2:
            parts[at], parts[to] = parts[to], parts[at]
        else:
            first, last = sorted((at, to))
            parts[last:last] = parts[first:last]
    return parts[:MOST_PARTS]


def mutated_bytes(data, other, chance):
    return chance.choice((turned, cut, rewritten, lambda d, c: spliced(d, other, c)))(data, chance)


def mutated_text(data, other, chance):
    form = chance.random()
    if form < 0.3:
        return mutated_bytes(data, other, chance)
    if form < 0.5:
        lines = data.split(b"\n") + other.split(b"\n") * chance.randrange(2)
        return b"\n".join(parts_mixed(lines, chance))
    tokens = TOKENS.findall(data.decode(errors="replace"))
    for _ in range(chance.choice((1, 1, 2, 5))):
        if chance.random() < 0.5:
            tokens = parts_mixed(tokens, chance)
        else:
            at = chance.randrange(len(tokens) + 1)
            tokens[at : at + chance.randrange(2)] = [chance.choice(WORDS)] * chance.choice((1, 1, 1, 2, 70))
    return "".join(tokens).encode()


class Fields:
    """State bytes taken apart: where rows begin, and where a count or a length stands, with its width."""

    def __init__(self, data):
        self.data, self.at, self.rows, self.counts = data, 13, [], [(5, 8)]
        try:
            while self.at < len(data):
                self.rows.append(self.at)
                self.read_row()
        except IndexError:
            self.rows.pop()
        self.rows.append(min(self.at, len(data)))

    def number(self, width, is_count=True):
        if self.at + width > len(self.data):
            raise IndexError
        if is_count:
            self.counts.append((self.at, width))
        self.at += width
        return int.from_bytes(self.data[self.at - width : self.at], "big")

    def skip(self, size):
        if self.at + size > len(self.data):
            raise IndexError
        self.at += size

    def read_row(self):
        for _ in range(self.number(1)):
            step = self.number(1, False)
            if step == 0:
                self.skip(self.number(2))
            elif step == 1:
                self.number(4)
        self.number(1)
        kind = self.number(1)
        if kind == 1:
            self.read_set()
            self.read_set()
        if kind in (2, 4):
            self.read_labels()
        if kind in (3, 4):
            self.number(4)
            if self.number(1) == 1:
                self.number(4)
            if self.data[4] == 2:
                self.number(4)

    def read_set(self):
        self.number(1)
        self.skip(16 * self.number(8))
        self.number(1)
        self.read_texts()

    def read_labels(self):
        if self.number(1) == 1:
            self.read_texts()

    def read_texts(self):
        for _ in range(self.number(8)):
            self.skip(self.number(2))


def with_rows(head, rows, is_counted):
    count = len(rows).to_bytes(8, "big") if is_counted else head[5:13]
    return head[:5] + count + b"".join(rows)


def mutated_state(data, other, chance):
    form = chance.random()
    if form < 0.35 or len(data) < 13:
        return mutated_bytes(data, other, chance)
    fields = Fields(data)
    if form < 0.7:
        at, width = chance.choice(fields.counts)
        old = int.from_bytes(data[at : at + width], "big")
        new = chance.choice((*HUGE, old + 1, old - 1, old * 2)) % 256**width
        return data[:at] + new.to_bytes(width, "big") + data[at + width:]
    rows = [data[first:last] for first, last in zip(fields.rows, fields.rows[1:])]
    if form < 0.85:
        others = Fields(other)
        rows += [other[first:last] for first, last in zip(others.rows, others.rows[1:])]
        rows = sorted(set(rows)) if chance.random() < 0.5 else chance.sample(rows, len(rows))
    return with_rows(data[:13], parts_mixed(rows, chance), chance.random() < 0.9)


def mutated_stream(data, other, seeds_of, chance):
    form = chance.random()
    if form < 0.3:
        return mutated_bytes(data, other, chance)
    bodies, rest, _ = frames_of(data)
    if form < 0.6 and bodies:
        at = chance.randrange(len(bodies))
        mutate, kind = (mutated_state, "states") if bodies[at][:1] == b"\x02" else (mutated_text, "texts")
        bodies[at] = bodies[at][:1] + mutate(bodies[at][1:], chance.choice(seeds_of[kind]), chance)
    elif form < 0.7:
        bodies.insert(chance.randrange(len(bodies) + 1),
                      chance.choice((*BODIES, b"\x01" + chance.choice(seeds_of["texts"]))))
    elif form < 0.8:
        at = chance.randrange(len(bodies) + 1)
        size = chance.choice((*HUGE, 16777215, 16777216, 16777217)) % 2**32
        return b"".join(map(framed, bodies[:at])) + size.to_bytes(4, "big") + b"".join(map(framed, bodies[at:]))
    # A reply may have megabytes where a request has a byte: this many are some hundreds of them.
    return b"".join(map(framed, parts_mixed(bodies, chance, 100))) + rest
