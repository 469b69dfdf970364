"""Finds the declarations of fragments that say something at a path, with their lines: also those in the bodies of the
definitions that are used there, and those of the rest of a list."""
import functools
import re

from fragments import CLOSE, OPEN, is_comma, tokens_of
from printed import Printed, step_of, steps_of
from program import CUELAYERS, MAP, run, visible

MOST_VISITS = 20000  # of declarations, since definitions that use definitions may be long
MOST_SHOWN = 90  # characters of what is said


class Saying:
    """What a declaration says: its input, line and column from 1, and its text. What a state says has no line. What a map of layers
    says has an owner."""

    def __init__(self, name, row, column, text, owner=None):
        self.name, self.row, self.column, self.text, self.owner = name, row, column, text, owner

    def place(self):
        """What tells this saying from others."""
        return (self.name, self.row, self.column) if self.row else (self.name, self.owner, self.text)

    def __str__(self):
        place = f"{self.name}:{self.row}:{self.column}" if self.row else ": ".join(filter(None, [self.name, self.owner]))
        return visible(f"{place}: {self.text}")

    def as_json(self):
        return {"file": self.name, "line": self.row, "column": self.column, "text": self.text, **({"owner": self.owner} if self.owner else {})}


class Closer:
    """A use of a definition, or of `close`: the field that has it, and the struct literals at one path in its body."""

    def __init__(self, field):
        self.field, self.literals = field, []

    def allowed(self):
        """The labels that may stand at the path; none, where no literal is there, or one of them leaves it open."""
        if not self.literals or any(is_open for _, _, _, is_open in self.literals):
            return None
        return sorted(set().union(*(labels for _, _, labels, _ in self.literals)))


class Fragment:
    """The tokens of a fragment, and where its definitions stand."""

    def __init__(self, name, text):
        self.name, self.text, self.tokens = name, text, tokens_of(text)
        self.visits, self.bodies = 0, {}
        self.definitions = {}
        for first, value, end in self.declarations(0, len(self.tokens)):
            if self.tokens[first].text.startswith("#"):
                self.definitions.setdefault(self.tokens[first].text, (first, value, end))

    def fields(self, at, end, step):
        """The declarations between two tokens of the field of this step."""
        if (at, end) not in self.bodies:
            body = self.bodies[at, end] = {}
            for first, value, stop in self.declarations(at, end):
                label = self.tokens[first].text
                if not label.startswith("#"):
                    body.setdefault(step_of(label if label.startswith('"') else f'"{label}"'), []).append((first, value, stop))
        return self.bodies[at, end].get(step, [])

    def declarations(self, at, end):
        """The first token, the first of the value and the end of each field between two tokens."""
        while at < end:
            stop = self.end_of(at, end)
            if at < stop:
                value = self.value_of(at, stop)
                if value:
                    yield at, value, stop
            at = stop + 1

    def end_of(self, at, end):
        """The comma that ends what begins here, or the end."""
        while at < end and not is_comma(self.tokens[at]):
            at = self.behind(at)
        return min(at, end)

    def behind(self, at):
        """The token behind this one, and behind all that its bracket holds."""
        depth = 0
        while at < len(self.tokens):
            token = self.tokens[at]
            if token.kind == "mark":
                depth += (token.text in OPEN) - (token.text in CLOSE)
            at += 1
            if depth <= 0:
                break
        return at

    def value_of(self, at, end):
        """The first token behind the label that stands here; none, where no label does."""
        value = at + 1
        while value < end and self.tokens[value].text in ("?", "!"):
            value += 1
        is_label = self.tokens[at].kind in ("name", "string") and value < end and self.tokens[value].text == ":"
        return value + 1 if is_label else None

    def saying(self, first, end):
        start = self.tokens[first].start
        text = self.text[start:self.tokens[end - 1].end]
        line = text.split("\n")[0].rstrip()
        shown = line if line == text and len(line) <= MOST_SHOWN else f"{line[:MOST_SHOWN]} .."
        return Saying(self.name, self.text.count("\n", 0, start) + 1, start - self.text.rfind("\n", 0, start), shown)

    def find(self, steps):
        """What the declarations say at the path of these steps, which is not the root."""
        self.visits = 0
        return list(self.in_struct(0, len(self.tokens), steps))

    def in_struct(self, at, end, steps):
        for first, value, stop in self.fields(at, end, steps[0]):
            self.visits += 1
            if self.visits > MOST_VISITS:
                return
            yield from self.at_field(first, value, stop, steps[1:])

    def at_field(self, first, value, stop, steps):
        if not steps:
            yield self.saying(first, stop)
        yield from self.in_value(value, stop, steps)

    def in_value(self, at, stop, steps):
        """What a value says below it; of no steps, the definitions that it uses."""
        if self.value_of(at, stop) and steps:
            yield from self.in_struct(at, stop, steps)
            return
        while at < stop:
            token, behind = self.tokens[at], self.behind(at)
            if token.kind == "name" and token.text in self.definitions:
                self.visits += 1
                if self.visits > MOST_VISITS:
                    return
                yield from self.at_field(*self.definitions[token.text], steps)
            elif token.text == "(":
                yield from self.in_value(at + 1, behind - 1, steps)
            elif token.text == "{" and steps:
                yield from self.in_struct(at + 1, behind - 1, steps)
            elif token.text == "[" and steps:
                yield from self.in_list(at + 1, behind - 1, steps)
            at = behind

    def in_list(self, at, end, steps):
        count = 0
        while at < end:
            stop = self.end_of(at, end)
            if self.tokens[at].text == "...":
                if at + 1 < stop and steps[0].isdecimal() and int(steps[0]) >= count:
                    yield from self.at_field(at, at + 1, stop, steps[1:])
            elif at < stop:
                if steps[0] == str(count):
                    yield from self.at_field(at, at, stop, steps[1:])
                count += 1
            at = stop + 1


    def closers(self, steps, label):
        """What closes the struct at the path of these steps, which is not the root, and does not allow the label."""
        self.visits, closers, found, seen = 0, [], [], set()
        for first, value, stop in self.fields(0, len(self.tokens), steps[0]):
            self.close_value(value, stop, steps[1:], (first, stop), (), closers)
        refusing = [closer for closer in closers if closer.allowed() is not None and label not in closer.allowed()]
        for closer in refusing:
            if any({*other.literals} < {*closer.literals} for other in refusing):
                continue  # one within it refuses the label already
            allowed = closer.allowed()
            only = f"only {', '.join(allowed)}" if allowed else "no label"
            inside = [literal for literal in closer.literals if closer.field[0] <= literal[0] and literal[1] <= closer.field[1]]
            for place, more in [(closer.field, f": {only}" if inside else "")] + [
                    (literal[:2], f": {only}") for literal in closer.literals if literal not in inside]:
                said = self.saying(*place)
                if (said.row, said.column) not in seen:
                    seen.add((said.row, said.column))
                    said.text += more
                    found.append(said)
        return found

    def close_value(self, at, stop, steps, field, around, closers):
        """Gives each closer around a value the struct literals that stand at the path of these steps below it."""
        self.visits += 1
        if self.visits > MOST_VISITS:
            return
        if self.value_of(at, stop):
            self.close_struct(at, stop, at, stop, steps, around, closers)
            return
        while at < stop:
            token, behind = self.tokens[at], self.behind(at)
            if token.kind == "name" and token.text in self.definitions:
                closers.append(Closer(field))
                _, value, end = self.definitions[token.text]
                self.close_value(value, end, steps, field, (*around, closers[-1]), closers)
            elif token.text == "close" and at + 1 < stop and self.tokens[at + 1].text == "(":
                behind = self.behind(at + 1)
                own = [Closer(field)] if not steps else []  # it closes its own place alone
                closers += own
                self.close_value(at + 2, behind - 1, steps, field, (*around, *own), closers)
            elif token.text == "(":
                self.close_value(at + 1, behind - 1, steps, field, around, closers)
            elif token.text == "{":
                self.close_struct(at, behind, at + 1, behind - 1, steps, around, closers)
            elif token.text == "[" and steps:
                self.close_list(at + 1, behind - 1, steps, around, closers)
            at = behind

    def close_struct(self, start, stop, at, end, steps, around, closers):
        """The same for a struct literal, whose declarations stand between two tokens."""
        if steps:
            for first, value, behind in self.fields(at, end, steps[0]):
                self.close_value(value, behind, steps[1:], (first, behind), around, closers)
            return
        self.fields(at, end, "")
        literal = (start, stop, frozenset(self.bodies[at, end]), self.is_open(at, end))
        for closer in around:
            closer.literals.append(literal)

    def is_open(self, at, end):
        """Whether `...` stands among the declarations between two tokens."""
        while at < end:
            if self.tokens[at].text == "...":
                return True
            at = self.end_of(at, end) + 1
        return False

    def close_list(self, at, end, steps, around, closers):
        count = 0
        while at < end:
            stop = self.end_of(at, end)
            if self.tokens[at].text == "...":
                if steps[0].isdecimal() and int(steps[0]) >= count or steps[0].startswith("["):
                    self.close_value(at + 1, stop, steps[1:], (at, stop), around, closers)
            elif at < stop:
                if steps[0] == str(count):
                    self.close_value(at, stop, steps[1:], (at, stop), around, closers)
                count += 1
            at = stop + 1


@functools.lru_cache(maxsize=1024)
def fragment_of(name, data):
    """The fragment of these bytes."""
    return Fragment(name, data.decode("utf-8", "replace"))


def owners_of(path, names, maps):
    """What the layers and policies of maps say at the path of a line of the report of these files, each with its owner. The file is
    named where there is one map. The commons are left out where fragments or states are beside the maps, since those are shown."""
    status, out, _ = run(["why", path, "--", *names], program=CUELAYERS)
    found, owner = [], ""
    for line in out.decode("utf-8", "replace").split("\n")[:-1] if status == 0 else []:
        if not line.startswith("\t"):
            owner = line
        elif owner != "commons" or len(maps) == len(names):
            found.append(Saying(maps[0] if len(maps) == 1 else "", None, None, line[1:], owner))
    return found


def is_map(data):
    return data[:len(MAP)] == MAP


def is_state(data):
    return data[:1] == b"\xfe"


@functools.lru_cache(maxsize=64)
def printed_state(name):
    """The place of the root of a state; none, where it can't be read."""
    status, out, _ = run(["print", "--", name])
    return Printed(out.decode()).root if status == 0 else None


def state_says(name, path):
    """What a state says at a path."""
    place = printed_state(name)
    for step in steps_of(path):
        place = place and place.at(step)
    return [Saying(name, None, None, f"{place.said[1]} (a state)")] if place and place.said else []


def sayings_at(path, inputs):
    """What these inputs, by names and bytes, say at a path."""
    found = []
    for name, data in inputs:
        if is_state(data):
            found += state_says(name, path)
        elif steps_of(path):
            found += fragment_of(name, data).find(steps_of(path))
    return found


def closers_of(path, inputs):
    """What closes the struct of a label that is not allowed: the field that uses the definition or `close`, and the literals
    of its body, with the labels that they allow."""
    above, label = steps_of(path)[:-1], steps_of(path)[-1:]
    found = []
    for name, data in inputs:
        if is_state(data):
            found += [said for said in state_says(name, ".".join(above)) if closes(said.text, label)]
        elif above and label:
            found += fragment_of(name, data).closers(above, label[0])
    return found


def closes(said, label):
    """Whether what a state says of a place is a closed struct without this label."""
    closed = re.match(r"close\(\{(.*)\}\)", said)
    return bool(closed) and not {step_of(token.text) for token in tokens_of(closed[1])}.intersection(label)


def causes_of(line, inputs):
    """What the inputs say at the path of a line of a report, and of what doesn't allow its label."""
    path = path_of(line)
    return sayings_at(path, inputs) + (closers_of(path, inputs) if "label not allowed" in line else [])


def path_of(line):
    """The path of a line of a report: what stands between its first word and why."""
    for why in ("no value, label not allowed", "label not allowed", "no value", "missing", "not a single value"):
        if line.endswith(f" {why}"):
            return line.split(" ", 1)[1][:-len(why) - 1]
    return ""


def why_of(line):
    return line[len(line.split(" ", 1)[0]) + 1 + len(path_of(line)) + 1:]
