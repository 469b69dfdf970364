"""Reads the printed text of a table (`cuestore print`) into what is said at each place."""
import re

from fragments import tokens_of
from program import program_for, run, said, stop

MARKS = {":": "", "?:": "?", "!:": "!"}
STEP = re.compile(r'"(?:\\.|[^"\\])*"|\[\d+\.\.\]|[^.]+')


class Place:
    """What is said at a place: its mark, and the text of its value, where inner fields are `..`; the places below it by
    their steps; of a list, how many elements are written out, the place that each further one is like, where something is
    said of those, and whether there may be such elements."""

    def __init__(self):
        self.said, self.inner = None, {}
        self.count, self.rest, self.goes_on = 0, None, True

    def at(self, step):
        """The place at a step below this one; nothing, where nothing is said of it."""
        if step in self.inner:
            return self.inner[step]
        if f'"{step}"' in self.inner:  # a shell has taken the quotes away
            return self.inner[f'"{step}"']
        return self.rest if self.goes_on and (step.isdecimal() or step == rest_step(self.count)) else None

    def steps(self, *others):
        """The steps below this place and these, in order."""
        return sorted({*self.inner}.union(*(other.inner for other in others)), key=order_of)


class Printed:
    """Reads a printed text, token by token, into the place of its root."""

    def __init__(self, text):
        self.tokens = [token for token in tokens_of(text) if token.text]
        self.at, self.root = 0, Place()
        if [token.text for token in self.tokens] == ["_"]:
            return
        while self.at < len(self.tokens):
            self.field(self.root)

    def peek(self):
        return self.tokens[self.at].text if self.at < len(self.tokens) else ""

    def take(self):
        self.at += 1
        return self.tokens[self.at - 1].text

    def field(self, place):
        inner = place.inner.setdefault(step_of(self.take()), Place())
        mark = self.take()
        if mark in "?!":
            mark += self.take()
        known, value = inner.said, self.value(inner)
        if known and value == "_":
            value = known[1]
        elif known and known[1] != "_":
            value = f"{known[1]} & {value}"
        inner.said = (MARKS[mark], value)

    def value(self, place):
        """The value's text, up to what ends it here; what stands inside it is kept at places below this one."""
        words = []
        while self.peek() not in ("", ",", "}", "]", ")") and not self.begins_a_field(words):
            word = self.take()
            if word == "{":
                words.append(self.struct(place))
            elif word == "[":
                words.append(self.list(place))
            elif word == "(":
                words.append("(" + self.value(place) + ")")
                self.take()
            else:
                words.append(word)
        if words[-3:] == [f"[{place.count}..]", "&", f"[{place.count}]"]:
            del words[-3:-1]
        return spaced(words)

    def begins_a_field(self, words):
        """Whether a new line of the top begins here: a label and a colon after a whole value."""
        ahead = [token.text for token in self.tokens[self.at:self.at + 3]]
        return bool(words) and self.peek()[:1] == '"' and (ahead[1:2] == [":"] or ahead[1:] in (["?", ":"], ["!", ":"]))

    def struct(self, place):
        labels = []
        while self.peek() != "}":
            labels.append(self.peek())
            self.field(place)
            if self.peek() == ",":
                self.take()
        self.take()
        # A closed struct tells its labels.
        closed = self.at >= 2 and labels_closed(self.tokens, self.at, labels)
        return "{" + (", ".join(labels) if closed else ".." if labels else "") + "}"

    def list(self, place):
        count, is_open = 0, False
        while self.peek() != "]":
            if self.peek() == "...":
                is_open = bool(self.take())
                if self.peek() != "]":
                    place.rest = Place()
                    place.rest.said = ("", self.value(place.rest))
            else:
                inner = place.inner.setdefault(str(count), Place())
                value = self.value(inner)
                if value != "_" or not inner.said:
                    inner.said = ("", value)
                count += 1
            if self.peek() == ",":
                self.take()
        self.take()
        place.count, place.goes_on = max(count, place.count), place.goes_on and is_open
        return f"[{count}{'..' if is_open else ''}]"


def labels_closed(tokens, at, labels):
    """Whether the braces that end before this token are the argument of close."""
    depth = 0
    for i in range(at - 1, -1, -1):
        depth += tokens[i].text == "}"
        depth -= tokens[i].text == "{"
        if depth == 0:
            return i >= 2 and tokens[i - 2].text == "close"
    return False


def spaced(words):
    text = ""
    for i, word in enumerate(words):
        tight = i == 0 or words[i - 1] in ("*", "<", "<=", ">", ">=", "!=", "-", "close") or word in (",",) \
            or word.startswith("(") and words[i - 1] == "close"
        text += word if tight else f" {word}"
    return text


def step_of(label):
    """The label as a step of a path: bare, where it can be."""
    bare = label[1:-1]
    plain = bare and not bare[0].isdigit() and all(c.isascii() and (c.isalnum() or c in "_$") for c in bare)
    return bare if plain else label


def rest_step(count):
    """The step of each element from so many on."""
    return f"[{count}..]"


def steps_of(path):
    """The steps of a path; none of the root's."""
    return STEP.findall(path)


def order_of(step):
    """Labels come before elements, and elements by their numbers."""
    return (step.isdecimal(), int(step) if step.isdecimal() else 0, step)


def joined(path, step):
    return f"{path}.{step}" if path else step


def printed_of(name, files):
    """The root's place, of what is said by all inputs together."""
    status, out, faults = run(["print", "--", *files], program=program_for(files))
    if status:
        stop(name, said(out, faults, files), status)
    return Printed(out.decode()).root
