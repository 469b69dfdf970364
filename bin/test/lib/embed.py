"""embed.py TOP: tries the module of embed/ in the repository TOP."""
import copy
import ctypes
import doctest
import json
import pickle
import re
import sys
import time
from concurrent.futures import ThreadPoolExecutor
from itertools import islice

top = sys.argv[1]
sys.path.insert(0, f"{top}/embed")
import cuestore  # noqa: E402
from cuestore import Conflicts, Incomplete, Refused, Replica  # noqa: E402

LISTS = 200


def text_of(path):
    with open(f"{top}/{path}", encoding="utf-8") as file:
        return file.read()


def test_names():
    """The names are those of docs/FORMATS.md, and the numbers of the header."""
    table = text_of("docs/FORMATS.md").split("| Number | Name | Place |")[1].split("\n\n")[0]
    named = {}
    for numbers, names in re.findall(r"^\| ([0-9, to]+) \| ([A-Za-z, ]+?)(?:, with a form)? \|", table, re.M):
        ends = [int(number) for number in re.findall(r"\d+", numbers)]
        named.update(zip(range(ends[0], ends[-1] + 1), names.split(", ")))
    assert cuestore.NAMES == {number: named[number] for number in cuestore.NAMES}, named
    refusals = re.findall(r"CUESTORE_(\w+) = (\d+)", text_of("embed/cuestore.h").split("/* Refusals.")[1])
    assert {int(number): name.replace("_", "").lower().replace("versionunknown", "version") for name, number in refusals} == {
        number: name.lower() for number, name in cuestore.NAMES.items()}
    name_of = cuestore._library.cuestore_refusal_name
    name_of.restype = ctypes.c_char_p
    assert [name_of(number).decode() for number in range(256)] == [cuestore.NAMES.get(number, "") for number in range(256)]
    assert Refused(99, 0, 1).name == "Refusal99"
    version = text_of("VERSION").strip()
    assert cuestore.__version__ == version and f'#define CUESTORE_VERSION "{version}"' in text_of("embed/cuestore.h")


def answers(inputs):
    """The four answers of a new site that has taken the inputs, as the program gives them."""
    site = Replica()
    for k, data in enumerate(inputs, 1):
        try:
            site = site.merge(bytes.fromhex(data["hex"])) if isinstance(data, dict) else site.submit(data)
        except Refused as why:
            line = f"refused {why.number} {why.name} at {why.place} in {k}\n"
            return {name: [1, line] for name in ("export", "report", "print", "state")}
    try:
        export = [0, site.export_bytes().decode() + "\n"]
    except Conflicts as told:
        export = [2, f"{told}\n"]
    except Incomplete as told:
        export = [3, f"{told}\n"]
    status, lines = site.report()
    assert Replica(bytes(site)) == site and site | site == site and site | Replica() == site
    return {"export": export, "report": [status, "".join(line + "\n" for line in lines)],
            "print": [0, site.print()], "state": [0, bytes(site).hex()]}


def test_lists():
    """The answers are those of the lists, asked by several threads at once."""
    with open(f"{top}/crates/cue_cases/data/lists.jsonl", encoding="utf-8") as file:
        cases = [json.loads(line) for line in islice(file, LISTS)]
    with ThreadPoolExecutor(4) as pool:
        found = list(pool.map(answers, [case["inputs"] for case in cases]))
    for case, told in zip(cases, found):
        for name, answer in told.items():
            assert case[name] == answer, (case["inputs"], name, answer)
    assert len(cases) == LISTS and {told["export"][0] for told in found} == {0, 1, 2, 3}


def refused(call, *inputs):
    """The name, the place and the input of the refusal that the call answers."""
    try:
        call(*inputs)
    except Refused as why:
        assert str(pickle.loads(pickle.dumps(why))) == str(why)
        return why.name, why.place, why.input
    raise AssertionError(inputs)


def test_refusals():
    """What is no state, what is no text, and which of them is told."""
    site = Replica()
    for data in (b"", b"\xfeCUE\x01", b"a: 1"):
        assert refused(Replica, data) == ("NotState", 0, 1)
        assert refused(site.merge, data) == ("NotState", 0, 2)
    assert refused(Replica, b"\xfeCUE\x09") == ("Version", 0, 1)
    assert refused(site.submit, b'a: "\xff"') == ("BadCharacter", 4, 2)
    assert refused(site.submit, "a: \ud800") == ("BadCharacter", 3, 2)
    assert refused(site.submit, " " * 1048577) == ("TooLong", 1048576, 2)
    assert refused(site.submit, b"\xff" * 1048577) == ("TooLong", 1048576, 2)
    # An empty text says that there is a struct, and a new site has not even heard that.
    assert site.submit(" " * 1048576) == site.submit("") != site


def test_values():
    """A replica is its bytes; other breaks than U+000A end no line of a report."""
    site = Replica().submit('"a\u2028\x85": string\nb: string')
    assert pickle.loads(pickle.dumps(site)) == copy.deepcopy(site) == site and len({site, Replica(bytes(site))}) == 1
    assert site != Replica() and site != bytes(site)
    status, lines = site.report()
    assert status == 3 and len(lines) == 2 and lines[1] == "incomplete b not a single value", lines
    large = Replica().submit("\n".join(f"a{k}: {k}" for k in range(20000)))
    assert large.export() == {f"a{k}": k for k in range(20000)}
    try:
        site.state = b""
        raise AssertionError
    except AttributeError:
        pass


def raises(kind, call, *inputs):
    try:
        call(*inputs)
    except kind:
        return True
    return False


def test_types():
    """What is no text and no state is a TypeError: a number is not so many zeros."""
    site = Replica()
    for call in (site.submit, site.merge, Replica, lambda other: site | other, lambda text: site.submit_all([text])):
        for data in (5, None, 1.5, ["a: 1"], {"a": 1}):
            assert data is None and call is Replica or raises(TypeError, call, data), (call, data)
    assert raises(TypeError, site.submit_all, "a: 1")
    assert site | bytes(site) == site and site.submit(bytearray(b"a: 1")) == site.submit("a: 1")


def test_batch():
    """Many texts at once are as many one after the other, and faster."""
    texts = [f"#S: {{port!: uint16, host?: string}}\ns{k}: #S\ns{k}: port: {k}\n" for k in range(2000)]
    began = time.monotonic()
    site = Replica().submit_all(texts)
    batch = time.monotonic() - began
    assert len(site.export()) == 2000
    one, began = Replica(), time.monotonic()
    for text in texts[:200]:
        one = one.submit(text)
    assert one == Replica().submit_all(texts[:200]) == Replica().submit_all(texts[100:200]).submit_all(texts[:101])
    assert Replica().submit_all([]) == Replica()
    assert refused(one.submit_all, ["a: 1", "b: 0443"]) == ("BadNumber", 3, 3)
    print(f"ok 2,000 texts at once, in {batch:.2f} seconds")


assert doctest.testmod(cuestore) == (0, 6)
for test in (test_names, test_lists, test_refusals, test_values, test_types, test_batch):
    test()
print(f"ok {LISTS} lists of inputs by four threads, the names of the refusals, refused inputs, and values")
