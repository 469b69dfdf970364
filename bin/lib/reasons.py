"""Says in words why a report has a line: by what each input says at its path, and by what all say together."""
import functools
import re

from printed import Printed, steps_of
from program import program_for, run
from sayings import path_of, why_of

MOST_SIDES = 4  # that one reason names
DEFAULT = re.compile(r"\*(\([^()]*\)|[^|]*?) \| ")
ALLOWED = re.compile(r": only (.*)\Z")
CLOSED = re.compile(r"close\(\{(.*?)\}\)")  # as printed text has it


@functools.lru_cache(maxsize=1024)
def root_of(names):
    """The place of the root of what these files say together; none, where they can't be read or one is refused."""
    status, out, _ = run(["print", "--", *names], program=program_for(names))
    return Printed(out.decode("utf-8", "replace")).root if status == 0 else None


def value_at(names, path, root=root_of):
    """The text of what these files say together at a path; none, where they say nothing."""
    place = root(names)
    for step in steps_of(path):
        place = place and place.at(step)
    return place.said[1] if place and place.said else None


def kind_of(value):
    if value.startswith("["):
        return "a list"
    return "a struct" if value.startswith(("{", "close(")) else "a value"


def listed(words):
    """Words with commas, and `and` before the last one."""
    more = len(words) - MOST_SIDES
    words = words[:MOST_SIDES] + ([f"{more} more"] if more > 0 else [])
    return " and ".join(filter(None, [", ".join(words[:-1]), words[-1]])) if words else ""


def why_no_value(values):
    """Why no value is left, where these are what the sides say."""
    kinds = sorted({kind_of(value) for value in values})
    if len(kinds) > 1:
        return f"one side wants {', another '.join(kinds)}"
    lengths = [(int(found[1]), bool(found[2])) for value in values if (found := re.match(r"\[(\d+)(\.\.)?\]", value))]
    if kinds == ["a list"] and lengths:
        ends = sorted({count for count, goes_on in lengths if not goes_on})
        least = max(count for count, _ in lengths)
        if len(ends) > 1:
            return f"lists of {listed([str(count) for count in ends])} elements"
        return f"a list of {ends[0]} elements, and one of at least {least}" if ends and least > ends[0] else None
    return f"{listed(values)} have no value in common" if kinds == ["a value"] and len(values) > 1 else None


def why_open(value, values):
    """Why a value is not chosen yet: the defaults that differ, or what is allowed."""
    defaults = list(dict.fromkeys(found[1].strip("()") for side in values if (found := DEFAULT.match(side)) and found[1] != "_|_"))
    if value and "*_|_" in value and len(defaults) > 1:
        return f"defaults {listed(defaults)} differ"
    if value in (None, "_"):
        return "nothing says what it is"
    return f"allowed: {value.replace('*_|_ | ', '')}"


def nearest(label, causes):
    """The allowed label that is most like this one, by what closes its struct."""
    import difflib
    label = label.strip('"')
    allowed = {name.strip('"') for cause in causes if (found := ALLOWED.search(cause.text)) for name in found[1].split(", ")}
    allowed |= {name for cause in causes if cause.owner and (found := CLOSED.search(cause.text)) for name in re.findall(r'"([^"]*)"\?:', found[1])}
    near = difflib.get_close_matches(label, sorted(allowed), 1, 0.6)
    return f"did you mean {near[0]}?" if near else None


def reason_of(line, causes, files, root=root_of):
    """Why a report of these files has this line, by the lines that say it; none, where nothing more can be said. `root` gives the
    place of the root of what files say together."""
    path, why = path_of(line), why_of(line)
    found = []
    if "label not allowed" in why:
        found.append(nearest(steps_of(path)[-1], causes))
    values = [value_at((name,), path, root) for name in dict.fromkeys(cause.name for cause in causes if not cause.owner)]
    values += [cause.text.split(": ", 1)[1] for cause in causes if cause.owner]
    values = [value for value in dict.fromkeys(values) if value not in (None, "_")]
    if "no value" in why:
        found.append(why_no_value(values))
    elif why == "not a single value":
        found.append(why_open(value_at(tuple(files), path, root), values))
    elif why == "missing":
        value = value_at(tuple(files), path, root)
        found.append(None if value in (None, "_") else f"allowed: {value}")
    return "; ".join(filter(None, found)) or None
