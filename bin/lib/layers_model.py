"""A plain model of layers and policies, against which cuelayers is tried: maps as dictionaries, and views as fragments in which
each pattern stands once for each label that it binds."""
import random

LABELS = ["a", "b", "pay-x", "pay-y", "*"]
PATTERNS = ["*", "pay-*", "pay-x*"]
VALUES = ["1", "2", "7", "int", "<=5", ">=2", '"x"', '"y"', "string", "*1 | int", "*2 | int", "*\"x\" | string", "null", "_",
          "[1, 2]", "[...int]", "[1, ...int]", "[{a: 1}]", "true", "!=2"]


class Map:
    """What a site has: of each key its revision and the set of statements of the puts at that revision."""

    def __init__(self):
        self.layers = {("layer", ""): (0, frozenset())}

    def put(self, key, statements):
        self.layers[key] = (self.layers.get(key, (0, None))[0] + 1, frozenset(statements))

    def submit(self, statement):
        self.join({("layer", ""): (0, frozenset([statement]))})

    def join(self, layers):
        for key, (revision, statements) in layers.items():
            mine, own = self.layers.get(key, (-1, frozenset()))
            if revision > mine:
                self.layers[key] = (revision, statements)
            elif revision == mine:
                self.layers[key] = (revision, own | statements)


class Struct:
    """A struct: its fields, each with a label, a mark and a value, and whether it is closed. All other values are texts."""

    def __init__(self, fields, closed=False):
        self.fields, self.closed = tuple(fields), closed

    def __str__(self):
        return written(self.fields, self.closed)


def written(fields, closed):
    body = "{" + ", ".join(f'"{label}"{mark}: {value}' for label, mark, value in fields) + "}"
    return f"close({body})" if closed else body


def fits(pattern, label):
    return label.startswith(pattern[:-1])


def is_pattern(is_policy, label):
    return is_policy and label.endswith("*")


def is_free(mark, value):
    """Whether a field says nothing, so that no table has it."""
    return mark == "?" and value == "_"


def expanded(parts):
    """The parts at one place, each with whether it is of a policy, as values in which each pattern stands for the labels that
    are declared there and that it fits. The level of a pattern's own field plays no part: it is optional."""
    fields = [[] for _ in parts]
    structs = [(at, is_policy, value) for at, (is_policy, value) in enumerate(parts) if isinstance(value, Struct)]
    declared = {label for _, is_policy, value in structs for label, mark, child in value.fields
                if not is_pattern(is_policy, label) and not is_free(mark, child)}
    for label in sorted(declared):
        below = []
        for at, is_policy, value in structs:
            for name, mark, child in value.fields:
                if is_pattern(is_policy, name) and fits(name, label):
                    below.append((at, "?", is_policy, child))
                elif name == label and not is_pattern(is_policy, name):
                    below.append((at, mark, is_policy, child))
        for (at, mark, _, _), value in zip(below, expanded([(is_policy, child) for _, _, is_policy, child in below])):
            fields[at].append((label, mark, value))
    for at, _, value in structs:
        # What is free declares no label, and a closed struct allows its label all the same.
        fields[at] += [field for field in value.fields if value.closed and is_free(*field[1:])]
    return [written(fields[at], value.closed) if isinstance(value, Struct) else value for at, (_, value) in enumerate(parts)]


def view_of(layers):
    """Fragments whose unification is the view of the layers."""
    parts = [(kind == "policy", value) for (kind, _), (_, statements) in sorted(layers.items()) for value in sorted(statements, key=str)]
    return [value.strip()[1:-1] for value in expanded(parts)]


def statement(draw, is_policy, depth=3):
    """A statement of a layer or of a policy: a struct that is not closed."""
    return Struct(drawn_fields(draw, is_policy, depth))


def drawn_fields(draw, is_policy, depth):
    fields = []
    for _ in range(draw.randint(1, 3)):
        pattern = is_policy and draw.random() < 0.5
        label = draw.choice(PATTERNS) if pattern else draw.choice([it for it in LABELS if not is_pattern(is_policy, it)])
        fields.append((label, draw.choice(["", "", "?", "!"]), drawn_value(draw, is_policy, depth - 1)))
    return fields


def drawn_value(draw, is_policy, depth):
    if depth == 0 or draw.random() < 0.4:
        return draw.choice(VALUES)
    if draw.random() < 0.12:
        return Struct([(label, draw.choice(["", "?", "!"]), draw.choice(VALUES)) for label in draw.sample(["a", "b", "pay-x"], 2)], closed=True)
    return Struct(drawn_fields(draw, is_policy, depth))


def drawing(seed):
    return random.Random(seed)
