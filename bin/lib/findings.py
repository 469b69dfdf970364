"""What a report finds in files, for `cuestore check`: refused files, conflicts and incomplete paths grouped by cause, and slips."""
import collections
import contextlib
import os

from program import REFUSED, Progress, front_of, program_for, run, said, stop
from reasons import reason_of
from refusals import Fault
from sayings import causes_of, fragment_of, is_map, is_state, owners_of, path_of, why_of

# The faults of one file that are looked for, and the files that may be refused before the report is given up.
MOST_FAULTS = 40
# The lines of a report of maps of which the owners are asked for: a run of cuelayers each.
MOST_OWNED = 1000
# The groups that get a reason in words, for which the program runs on each file that says something.
MOST_REASONS = 40


def first_fault(data):
    """The first fault of one input, and the input as it is."""
    import tempfile
    with tempfile.NamedTemporaryFile() as file:
        file.write(data)
        file.flush()
        refused = REFUSED.match(front_of(["print", file.name]))
    return Fault(int(refused[1]), refused[2].decode(), int(refused[3]), data) if refused and refused[3] else None


def faults_of(data, first):
    """The fault of an input, and those that come once what was faulty is left out. Each shows the input as it is."""
    fault, place, whole = first, -1, data
    for _ in range(MOST_FAULTS):
        if fault is None:
            return
        fault.show(whole)
        yield fault
        data = fault.without()
        if data is None:
            return
        place, last = fault.place, fault
        fault = first_fault(data)
        if fault and (fault.place, fault.number) == (place, last.number):
            return


def files_of(names):
    """The files that these names stand for: a folder's are its fragments, states and maps of layers, at any depth."""
    found = []
    for name in names:
        if not os.path.isdir(name):
            found.append(name)
            continue
        for at, folders, files in os.walk(name):
            folders[:] = sorted(folder for folder in folders if not folder.startswith("."))
            found += [os.path.join(at, file) for file in sorted(files) if file.endswith((".cue", ".state", ".layers"))]
    return found


def read(name):
    with open(name, "rb") as file:
        return file.read()


class Group:
    """Lines of a report that have one cause: their paths, the lines of the inputs that say the first one, and its reason in words."""

    def __init__(self, kind, why):
        self.kind, self.why, self.paths, self.causes, self.reason = kind, why, [], [], None

    def line(self):
        """The first line."""
        return f"{self.kind} {self.paths[0]} {self.why}"

    def as_json(self):
        return {"kind": self.kind, "why": self.why, "reason": self.reason, "paths": self.paths,
                "from": [cause.as_json() for cause in self.causes]}


class Slip:
    """A label at the root of one file that is nearly one that more files have."""

    def __init__(self, name, row, column, label, other, count):
        self.name, self.row, self.column, self.label, self.other, self.count = name, row, column, label, other, count

    def text(self):
        return f"`{self.label}` is in this file alone, and {self.count} files have `{self.other}`: a slip?"

    def __str__(self):
        return f"{self.name}:{self.row}:{self.column}: {self.text()}"

    def as_json(self):
        return {"file": self.name, "line": self.row, "column": self.column, "label": self.label, "like": self.other}


def group_lines(told):
    """The groups of report lines, each with its causes: a line belongs to the cause that most lines of its kind share."""
    shared = collections.Counter(key for line, causes in told for key in {(why_of(line), *cause.place()) for cause in causes})
    groups = {}
    for line, causes in told:
        why = why_of(line)
        key = max(((shared[(why, *cause.place())], (why, *cause.place())) for cause in causes),
                  key=lambda it: it[0], default=(0, line))
        key = key[1] if key[0] > 1 else line
        group = groups.setdefault((line.split(" ", 1)[0], key), Group(line.split(" ", 1)[0], why))
        group.paths.append(path_of(line))
        if len(group.paths) == 1:
            group.causes = causes
    return list(groups.values())


def is_near(label, other):
    """Whether two labels differ by one letter that was left out, added or changed, or by two that changed places."""
    if abs(len(label) - len(other)) > 1 or label == other or min(len(label), len(other)) < 3:
        return False
    if len(label) == len(other):
        differ = [i for i in range(len(label)) if label[i] != other[i]]
        return len(differ) == 1 or len(differ) == 2 and differ[1] == differ[0] + 1 and \
            label[differ[0]] == other[differ[1]] and label[differ[1]] == other[differ[0]]
    shorter, longer = sorted((label, other), key=len)
    return any(longer[:i] + longer[i + 1:] == shorter for i in range(len(longer)))


def root_labels(name, data):
    """The labels at the root of a fragment, each where it first stands."""
    fragment, found = fragment_of(name, data), {}
    for first, _, end in fragment.declarations(0, len(fragment.tokens)):
        label = fragment.tokens[first].text.strip('"')
        if not label.startswith("#"):
            found.setdefault(label, fragment.saying(first, end))
    return found


def slips_of(inputs):
    """The labels of one file that are nearly those of more files."""
    labels = {name: root_labels(name, data) for name, data in inputs if not is_state(data)}
    counts = collections.Counter(label for found in labels.values() for label in found)
    slips = []
    for name, found in labels.items():
        for label, said_there in found.items():
            others = [other for other, count in counts.items() if count > 1 and is_near(label, other)]
            if counts[label] == 1 and others:
                other = max(others, key=lambda it: counts[it])
                slips.append(Slip(name, said_there.row, said_there.column, label, other, counts[other]))
    return slips


def admitted(inputs, report):
    """The inputs that are not refused, the status and the lines of their report, and the first fault of each refused one, with its
    name. `report` runs the program on inputs: its status, its output and its faults."""
    faults = []
    while True:
        status, out, complaints = report(inputs) if inputs else (0, b"", b"")
        refused = REFUSED.search(out) if status == 1 else None
        if status in (0, 2, 3):
            return inputs, status, out.decode("utf-8", "replace").split("\n")[:-1], faults
        if refused is None or refused[4] is None:
            stop("cuestore check", said(out, complaints, [name for name, _ in inputs]), status)
        at = int(refused[4]) - 1
        name, data = inputs[at]
        faults.append((Fault(int(refused[1]), refused[2].decode(), int(refused[3]), data), name))
        inputs = inputs[:at] + inputs[at + 1:]


class Findings:
    """What the report of files finds."""

    def __init__(self, files):
        self.files = files
        program = program_for(files)
        inputs, status, lines, first = admitted([(name, read(name)) for name in files],
                                                lambda given: run(["report", "--", *(name for name, _ in given)], program=program))
        maps = [name for name, data in inputs if is_map(data)]
        names, texts = [name for name, _ in inputs], [(name, data) for name, data in inputs if not is_map(data)]
        self.refused = [(fault, name) for one, name in first for fault in faults_of(one.data, one)]
        progress, told = Progress("lines of the report", len(lines)), []
        with contextlib.ExitStack() as stack:
            owners = iter(())
            if maps:
                import concurrent.futures
                pool = stack.enter_context(concurrent.futures.ThreadPoolExecutor(os.cpu_count()))
                owners = pool.map(lambda line: owners_of(path_of(line), names, maps), lines[:MOST_OWNED])
            for number, line in enumerate(lines):
                progress.step(number)
                told.append((line, causes_of(line, texts) + next(owners, [])))
        self.groups = group_lines(told)
        for group in self.groups[:MOST_REASONS]:
            progress.step(len(lines))
            group.reason = reason_of(group.line(), group.causes, names)
        progress.end()
        self.slips = slips_of(inputs)
        self.status = 1 if self.refused else status

    def total(self, kind):
        return sum(len(group.paths) for group in self.groups if group.kind == kind)

    def as_json(self):
        return {"status": self.status, "files": self.files,
                "refused": [fault.as_json(name, 0) for fault, name in self.refused],
                "groups": [group.as_json() for group in self.groups], "slips": [slip.as_json() for slip in self.slips]}
