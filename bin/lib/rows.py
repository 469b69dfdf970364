"""Runs of the program cuestore on worked examples, each with its files, its words and its answer, and how one is run with a
call that fails."""
import os
import shutil
import socket
import subprocess

import serving
from serving import SECONDS, TOP, Hang, Server, exchanged, framed

SHARED = ["#P: {host: string, port?: int}\nx: #P\n", 'x: {host: "h", prt: 1}\n']
USED = ["#B: {x: int, y?: int}\n#A: #B & {x: 3}\nv: #A\n", "v: y: 4\n"]
LISTS = ["l: [1, 2]\n", "l: [1, ...]\n"]
CLASH = LISTS + ["l: [1]\n"]
RESTS = ["l: [...{x: int}]\n", "l: [_, {x: 1}, ...]\n"]
ONE = bytes.fromhex("fe4355450200000000000000020000020001000001610201" + "000000000000000001" + "0000000000000001" * 2
                    + "000000000000000000" + "000000000000000001" + "0000000000000001" * 2 + "000000000000000000")


class Run:
    """A run: the files that lie there before, the words, the input, and the status, output and faults that it must have."""

    def __init__(self, name, words, status, out, files=None, given=b"", makes=None, faults=b""):
        self.name, self.words, self.given, self.files = name, words.split(), given, files or {}
        self.status, self.out, self.faults, self.makes = status, out, faults, makes or {}

    def lay_out(self, folder):
        """Puts the files into a folder of their own: bytes, or the name of what a link leads to."""
        shutil.rmtree(folder, ignore_errors=True)
        os.makedirs(folder)
        for name, content in self.files.items():
            if isinstance(content, str):
                os.symlink(content, f"{folder}/{name}")
            else:
                with open(f"{folder}/{name}", "wb") as file:
                    file.write(content)

    def is_answered(self, came, folder):
        """Whether this came of the run, and the files lie there as they must after it."""
        return came == (self.status, self.out, self.faults) and lying(folder) == {**self.files, **self.makes}


def lying(folder):
    """What lies in a folder: the bytes of a file, and what a link leads to."""
    found = {}
    for name in os.listdir(folder):
        path = f"{folder}/{name}"
        if os.path.islink(path):
            found[name] = os.readlink(path)
        else:
            with open(path, "rb") as file:
                found[name] = file.read()
    return found


def numbered(texts):
    return {f"t{number}": text.encode() for number, text in enumerate(texts, 1)}


def asked(name, texts, answers):
    """A run for each word with its status and output, on files and, as `loop`, on standard input too."""
    files = numbered(texts)
    runs = [Run(f"{name}, {word}", f"{word} {' '.join(files)}", status, out.encode(), files)
            for word, (status, out) in answers.items()]
    status, out = answers["export"]
    joined = "---\n".join(texts).encode()
    return runs + [Run(f"{name}, {word} of standard input", word, status, out.encode(), given=joined)
                   for word in ("export", "loop")]


def merged(texts, states=()):
    """The state bytes of a new site that has taken these."""
    with_texts = "---\n".join(texts).encode()
    if not states:
        return serving.run("state", given=with_texts)[1]
    scratch = f"{TOP}/out/merged.{os.getpid()}"
    os.makedirs(scratch, exist_ok=True)
    try:
        names = []
        for number, data in enumerate([text.encode() for text in texts] + list(states)):
            names.append(f"{scratch}/{number}")
            with open(names[-1], "wb") as file:
                file.write(data)
        return serving.run("state", *names)[1]
    finally:
        shutil.rmtree(scratch)


def three_sites():
    """Three sites as files: each event is a run, and what it must make is the state of all that the site then has."""
    said = {0: ["a: >=0\n", "a: <=9\n"], 1: ["b: *1 | 2\n", "b: int\n"], 2: ["c: {d?: string}\n", "a: 4\n"]}
    runs, held, bytes_at = [], {0: [], 1: [], 2: []}, {}

    def event(site, what, given, texts):
        files = {"in": given, **({"site": bytes_at[site]} if site in bytes_at else {})}
        held[site] = held[site] + texts
        bytes_at[site] = merged(held[site])
        words = "merge site site in" if "site" in files else "merge site in"
        runs.append(Run(f"three sites, site {site} {what}", words, 0, b"", files, makes={"site": bytes_at[site]}))

    for site in said:
        for text in said[site]:
            event(site, "is handed a text", text.encode(), [text])
    messages, sent = dict(bytes_at), {site: list(held[site]) for site in said}
    for site, numbers in ((0, (2, 1, 1, 2)), (1, (2, 0, 0, 2)), (2, (0,))):
        for number in numbers:
            event(site, f"takes message {number}", messages[number], sent[number])
    assert bytes_at[0] == bytes_at[1] != bytes_at[2]
    both, third = b'{"a":4,"b":1,"c":{}}\n', b'{"a":4,"c":{}}\n'
    return runs + [Run(f"three sites, export of site {site}", "export site", 0, out, {"site": bytes_at[site]})
                   for site, out in ((0, both), (1, both), (2, third))]


def all_runs():
    """The worked examples as runs of the program."""
    clash = (2, "conflict x.prt label not allowed\n")
    printed = {name: (0, serving.run("print", given="---\n".join(texts).encode())[1].decode())
               for name, texts in (("shared", SHARED), ("used", USED))}
    runs = asked("a label that is not allowed", SHARED, {"export": clash, "report": clash, "print": printed["shared"]})
    runs += asked("definitions", USED, {"export": (0, '{"v":{"x":3,"y":4}}\n'), "print": printed["used"]})
    runs += asked("lists", LISTS, {"export": (0, '{"l":[1,2]}\n')})
    runs += asked("lists that clash", CLASH, {"export": (2, "conflict l no value\n"),
                                              "print": (0, '"l": [1, 2, ...] & [_]\n')})
    runs += asked("rests of lists", RESTS, {"export": (3, "incomplete l.0.x not a single value\n"),
                                            "print": (0, '"l": [{"x": int}, {"x": 1}, ...{"x": int}]\n')})
    runs += three_sites()
    files = {"t": b"a: 1\n", "state": ONE}
    runs += [Run("the state of a number", "state t", 0, ONE, files),
             Run("a state that is taken", "export state t", 0, b'{"a":1}\n', files),
             Run("no such word", "exprot t", 1, b"", files, faults=b"usage fault\n"),
             Run("a refused text", "export t bad", 1, b"refused 7 Syntax at 5 in 2\n", {**files, "bad": b"a: *1"})]
    old = merged(["b: 2\n"])
    both = merged(["a: 1\n", "b: 2\n"])
    runs += [Run("a merge over a file", "merge out out t", 0, b"", {**files, "out": old}, makes={"out": both}),
             Run("a merge to a new file", "merge out t", 0, b"", files, makes={"out": ONE}),
             Run("a merge over a link", "merge link link t", 0, b"", {**files, "out": old, "link": "out"},
                 makes={"out": both})]
    return runs


# A text, the question for the export, and an empty frame; and the questions that a site with a number is asked.
REQUESTS = {
    "three requests": (["0161" + "3a20310a", "04", ""], ["00", "00007b2261223a317d", "140000000000000000"]),
    "questions": (["0161" + "3a20310a", "06", "05", "03", "01613a202a31", "0300"],
                  ["00", "002261223a20310a", "00", "00" + ONE.hex(), "070000000000000005", "140000000000000000"])}
EXPORT = b'{"a":1}\n'


def sessions():
    """Streams of requests with their replies."""
    return {name: tuple(b"".join(framed(bytes.fromhex(body)) for body in side) for side in both)
            for name, both in REQUESTS.items()}


def library():
    """Builds the library that lets calls fail, and answers where it lies."""
    made = f"{TOP}/out/failing.so"
    source = f"{TOP}/bin/lib/failing.c"
    if not os.path.exists(made) or os.path.getmtime(made) < os.path.getmtime(source):
        os.makedirs(f"{TOP}/out", exist_ok=True)
        subprocess.run(["cc", "-O1", "-fPIC", "-shared", "-o", f"{made}.{os.getpid()}", source, "-ldl"], check=True)
        os.rename(f"{made}.{os.getpid()}", made)
    return made


class Failing:
    """What lets the Nth call fail, and tells which it was."""

    def __init__(self, what, at, how="error"):
        self.ours, self.theirs = os.pipe()
        os.set_inheritable(self.theirs, True)
        self.env = {**os.environ, "LD_PRELOAD": library(), "FAIL_OF": what, "FAIL_AT": str(at), "FAIL_HOW": how,
                    "FAIL_TOLD": str(self.theirs)}

    def name(self):
        """The name of the call that failed; none, where there were not so many."""
        os.close(self.theirs)
        with os.fdopen(self.ours, "rb") as told:
            return told.read().decode()


def run_in(run, folder, failing=None):
    """What comes of a run in its folder: the status, the output and the faults."""
    try:
        done = subprocess.run([serving.PROGRAM, *run.words], input=run.given, capture_output=True, timeout=SECONDS,
                              cwd=folder, env=failing and failing.env, close_fds=False, check=False)
    except subprocess.TimeoutExpired:
        raise Hang(run.name) from None
    return done.returncode, done.stdout, done.stderr


def serve_in(stream, connections, what="", at=0):
    """What comes of a `serve` whose every connection sends the stream, and whose Nth call fails: the name of that call, the
    replies of each connection, and the status, output and faults."""
    while True:
        failing = Failing(what, at)
        server = Server(connections, failing.env, (failing.theirs,), 1)
        replies = []
        for _ in range(connections if server.listens else 0):
            try:
                with server.connect() as peer:
                    replies.append(exchanged(peer, stream)[0])
            except (ConnectionError, socket.timeout):
                replies.append(b"")
        ended, name = server.ended(), failing.name()
        if server.listens or name:
            return name, replies, ended
