"""Finds and runs the program cuestore, and answers --help and --version, for the scripts in bin/. An installation may have
all files of bin/ and bin/lib/ in one folder. A library that few runs need is imported where it is used, so that a command
begins at once."""
import os
import re
import signal
import subprocess
import sys
import time

LIB = os.path.dirname(os.path.realpath(__file__))
BIN = os.path.dirname(LIB) if os.path.basename(LIB) == "lib" and os.path.exists(f"{os.path.dirname(LIB)}/cuestore") else LIB


def found_program(name):
    """What the variable of this name in capitals says; what lies beside the name by which the script was called; what is on the
    path; what lies beside the script, which is last since a checkout's launcher stops while a source is newer than its program."""
    if os.environ.get(name.upper()):
        return os.environ[name.upper()]
    beside = os.path.join(os.path.dirname(os.path.abspath(sys.argv[0])), name)
    if os.access(beside, os.X_OK):
        return beside
    import shutil
    return shutil.which(name) or f"{BIN}/{name}"


CUESTORE, CUELAYERS = found_program("cuestore"), found_program("cuelayers")
# How the bytes of a map of layers begin.
MAP = b"\xfeLAY"
# The line of a refusal: its number and name, and the place and input, where it is of one. It ends the output, and stands
# behind the front of an answer where memory ran out while that was written.
REFUSED = re.compile(rb"refused (\d+) (\w+)(?: at (\d+) in (\d+))?\n\Z")
# What a terminal does not show, or takes for an order: controls but the tab and the line break, and marks that turn the
# direction of what stands behind them.
HIDDEN = re.compile("[\x00-\x08\x0b-\x1f\x7f-\x9f\u202a-\u202e\u2066-\u2069]")
# The most bytes of an answer that a script holds: it is written while it is made, and may have no end.
MOST = 1 << 28


def version():
    """The version of all that is here, from the one file that has it."""
    for folder in (BIN, os.path.dirname(BIN)):
        try:
            with open(f"{folder}/VERSION", encoding="ascii") as file:
                return file.read().strip()
        except OSError:
            pass
    return "unknown"


def end_with_reader():
    """Ends the script where nobody reads any more what it prints, as `head` does. Not for one that has sockets."""
    signal.signal(signal.SIGPIPE, signal.SIG_DFL)


def answer_help(doc, words):
    """Answers --help by the script's text, and --version, and ends."""
    if words[:1] in (["-h"], ["--help"]):
        end_with_reader()
        print(doc.strip())
        sys.exit(0)
    if words[:1] == ["--version"]:
        print(f"{os.path.basename(sys.argv[0])} {version()}")
        sys.exit(0)


def is_map_file(name):
    """Whether a file is a map of layers."""
    try:
        with open(name, "rb") as file:
            return file.read(len(MAP)) == MAP
    except OSError:
        return False


def program_for(files):
    """The program that reads these files: cuelayers, where one of them is a map of layers."""
    return CUELAYERS if any(map(is_map_file, files)) else CUESTORE


def started(words, program=CUESTORE, **streams):
    """A process of the program on these arguments, whose standard output is read here."""
    try:
        return subprocess.Popen([program, *words], stdout=subprocess.PIPE, **streams)
    except OSError as error:
        return stop(os.path.basename(sys.argv[0]), f"the program {program} can't be run: {error.strerror}", 5)


def scratch():
    """A file without a name, in memory."""
    return os.fdopen(os.memfd_create("cuestore"), "w+b")


def run(words, data=None, to=None, program=CUESTORE):
    """The program on these arguments: its exit status, standard output and standard error, as bytes. With `to` the output goes
    there as it comes, and of more than is held here the middle is left out; without it, that ends the script."""
    with scratch() as given, scratch() as told:
        given.write(data or b"")
        given.seek(0)
        with started(words, program, stdin=given if data is not None else subprocess.DEVNULL, stderr=told) as process:
            front, end = bytearray(), b""
            for piece in iter(lambda: process.stdout.read1(1 << 16), b""):
                if to:
                    to.write(piece)
                    to.flush()
                room = MOST - len(front)
                front += piece[:room]
                end = (end + piece[room:])[-200:]
                if end and not to:
                    process.stdout.close()  # which ends it
                    stop(os.path.basename(sys.argv[0]), f"the answer to {words[0]} has more than {MOST} bytes")
        told.seek(0)
        return process.returncode, bytes(front) + end, told.read()


def front_of(words):
    """What the program's output on these words begins with."""
    with started(words, stdin=subprocess.DEVNULL, stderr=subprocess.DEVNULL) as process:
        return process.stdout.read(200)


def said(out, faults, files=()):
    """What the program said in the place of an answer: the line of a refusal, without what stands in front of it, or of a
    fault. Of a refused input it names the file, where the files are given."""
    refused = REFUSED.search(out)
    text = (refused[0] if refused else faults or out[:200]).decode(errors="replace").strip()
    if refused and refused[4] and 0 < int(refused[4]) <= len(files):
        name = files[int(refused[4]) - 1]
        return f"{name}: {text.rsplit(' in ', 1)[0]}; cuestore-explain print {name}"
    return text


def visible(text):
    """The text for a line of a script's own, with what a terminal does not show as escapes."""
    return HIDDEN.sub(lambda found: f"\\u{ord(found[0]):04X}", text)


STYLES = {"conflict": "1;31", "incomplete": "33", "refused": "1;31", "slip": "36", "quiet": "2"}


def styled(text, style, stream=sys.stdout):
    """The text in a colour for a terminal, unless NO_COLOR is set."""
    if os.environ.get("NO_COLOR") or os.environ.get("TERM") == "dumb" or not stream.isatty():
        return text
    return f"\033[{STYLES[style]}m{text}\033[0m"


class Progress:
    """A line on a terminal's standard error that says how far a tool is, once it has worked for a second."""

    def __init__(self, what, count=None):
        self.what, self.count, self.began, self.is_shown = what, count, time.monotonic(), False

    def step(self, number):
        if sys.stderr.isatty() and time.monotonic() - self.began > 1:
            self.is_shown = True
            of = f" of {self.count}" if self.count else ""
            sys.stderr.write(f"\r{self.what}: {number}{of}\033[K")
            sys.stderr.flush()

    def end(self):
        if self.is_shown:
            sys.stderr.write("\r\033[K")
            sys.stderr.flush()


def stop(name, message, status=1):
    print(visible(f"{name}: {message}"), file=sys.stderr)
    sys.exit(status)
