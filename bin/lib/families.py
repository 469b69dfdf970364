"""Texts and states that are small and may cost much: families that grow with a number, each as long as a limit lets it be,
and what a run of the program on one costs."""
import os
import resource
import subprocess
import tempfile
import threading

from program import REFUSED

LIMITS = (1 << 10, 64 << 10)  # the most bytes of a text


def under(rests, value):
    """A value below so many lists of which each element is alike."""
    return "[..." * rests + value + "]" * rests


def far_out(depth, count=9, last=lambda level, below: under(below, f"{{b{level}?: 1}}")):
    """Lists at each depth of nested rests, whose last element differs from the others."""
    lists = [under(level, "[" + "_, " * count + last(level, depth - level - 1) + "]") for level in range(depth)]
    return " & ".join([*lists, under(depth, "{a: 1}")])


def elements_far_out(k):
    """Nested rests with an element far out, in a definition that an optional field uses."""
    return f"#A: {far_out(k) if k <= 16 else far_out(7, k)}\nx?: #A\n"


def elements_alike_far_out(k):
    """The same with one label at all levels: two different tables of elements at each level, and 2^k ways there."""
    return f"#A: {far_out(min(k, 62), 9, lambda level, below: under(below, '{b?: 1}'))}\nx?: #A\n"


def elements_that_clash(k):
    """The same with elements that are no lists, and clash with the rests."""
    return f"#A: {far_out(min(k, 62), 9, lambda level, below: '{b: 1}')}\nx?: #A\n"


def definitions_over_them(k):
    """Definitions over nested rests with an element far out, each of which uses the one before it."""
    return f"#A0: {far_out(5)}\n" + "".join(f"#A{i + 1}: #A{i} & [...[...{{b{i}?: int}}]]\n" for i in range(k)) + f"x?: #A{k}\n"


def rests_that_tell_nothing(k):
    """Nested rests of which a report tells nothing, unified with a definition of some elements."""
    inner = "1"
    for _ in range(min(k, 50)):
        inner = f"[...{inner}] & #A"
    return f"#A: [{', '.join('_' * 9)}]\nl: {inner}\n"


def lists_of_lists(k, leaf="_"):
    """Lists of many lists of many lists of many elements, each of which a report tells."""
    return f"#A: [{', '.join('_' * k)}]\nl: [...[...[...{leaf}] & #A] & #A] & #A\n"


def lists_that_clash(k):
    """The same, in which each element is a conflict, of one list less."""
    return lists_of_lists(k, "1") + "l: [...[...2]]\n"


def lists_of_numbers(k):
    """The same, of which a report tells nothing, and an export each element."""
    return lists_of_lists(k, "1")


def lists_that_differ(k):
    """A list of lists in which each meets another one that is longer by an element, and is like those before it."""
    return "l: [...[...int]]\n" + "".join(f"l: [{'_, ' * i}[1, ...], ...]\n" for i in range(min(k, 340)))


def lists_in_state(k, leaf=bytes(0)):
    """A state of nested lists of 65,536 elements that are alike: two of them are 50 bytes."""
    count = min(k, 61) + 1
    rows = [path(count) + leaf] if leaf else []
    for steps in range(count - 1, -1, -1):
        rows.insert(0, path(steps) + bytes([0 if steps else 2, 3]) + bytes.fromhex("00010000 00 00000000"))
    return b"\xfeCUE\x02" + (len(rows) + 1).to_bytes(8, "big") + bytes.fromhex("00000200") + b"".join(rows)


def path(rests):
    """The path of the rest of so many lists, one in another, at the field `l`."""
    return bytes([rests + 1]) + b"\x00\x00\x01l" + b"\x02" * rests


def numbers_in_state(k):
    """The same with a number in the innermost, so that a report tells nothing."""
    one = bytes(1) + (1).to_bytes(8, "big") * 3 + bytes(9)
    return lists_in_state(k, b"\x00\x01" + one + one)


def disjunctions(k):
    """One place with a disjunction of many texts and integers, unified with others."""
    return "a: " + " & ".join("(" + " | ".join(f'{3 * i + j} | "t{3 * i + j}"' for i in range(k)) + ")" for j in range(3)) + "\n"


def holes(k):
    """One place of which many scalars are taken out, one by one and in disjunctions of ranges."""
    return "a: " + " & ".join(f"!={7 * i}" for i in range(k)) + " & (" + " | ".join(f">={5 * i} & <={5 * i + 2}" for i in range(k)) + ")\n"


def closed_chains(k):
    """Closed structs in a chain: each definition is the one before it and a label more."""
    return "#A0: {a: 1}\n" + "".join(f"#A{i + 1}: #A{i} & {{b{i}?: int, ...}}\n" for i in range(min(k, 330))) + f"x: #A{min(k, 330)}\n"


def closed_side_by_side(k):
    """Many closed structs that meet at one place, with one label that each allows."""
    return "x: " + " & ".join(f"close({{a: int, b{i}?: int}})" for i in range(k)) + "\nx: a: 1\n"


def long_paths(k):
    """Paths of 63 steps that part at the last one, and at each one before it."""
    return "".join("a: " * (62 - i % 62) + f"b{i}: {i}\n" for i in range(k))


def doubled(k):
    """Definitions of which each uses the one before it twice, up to the limit of what a text may mean."""
    depth = min(k, 13)
    return "#A0: {a: 1}\n" + "".join(f"#A{i + 1}: {{l: #A{i}, r: #A{i}}}\n" for i in range(depth)) + f"x: #A{depth}\n"


def defaults(k):
    """Defaults of many: a place that many declarations give other and alike defaults."""
    return "".join(f"a: *{i % 7} | *\"x{i}\" | int | string\n" for i in range(k))


def default_terms(k):
    """A disjunction of many terms, each with a default of its own."""
    return "a: " + " | ".join(f"(*{i} | {i + 1} | {i + 2})" for i in range(k)) + "\n"


def long_texts(k):
    """A long text in many places."""
    return f'#T: "{"x" * (20 * k)}"\n' + "".join(f"a{i}: #T\n" for i in range(k))


def long_labels(k):
    """Long labels, one below the other, with many fields below them."""
    return ": ".join(f'"{"y" * (5 * k)}{i}"' for i in range(8)) + ": {" + ", ".join(f"a{i}: {i}" for i in range(k)) + "}\n"


def long_lists(k):
    """Lists of many elements that meet lists whose rests differ."""
    return f"l: [{', '.join('int' for _ in range(k))}, ...]\nl: [...>=0]\nl: [_, _, ...<=9]\nm: [...{{a: l: [...int]}}]\n"


def closed_lists(k):
    """Closed structs in nested lists of some elements, at each level with a label more."""
    inner = "{a: int}"
    for level in range(min(k, 25)):
        inner = f"close({{a{level}?: int, l: [...{inner}] & [{', '.join('_' * 9)}]}})"
    return f"x: {inner}\n"


def grown(k):
    """Lists at each depth of nested rests, all of whose elements differ: the table itself has the power of both."""
    depth, count = 3, min(k, 300)
    lists = (under(level, "[" + ", ".join(under(depth - level - 1, f"!={1000 * level + i}") for i in range(count)) + "]")
             for level in range(depth))
    return "l: " + " & ".join(lists) + "\n"


FAMILIES = [elements_far_out, elements_alike_far_out, elements_that_clash, definitions_over_them, rests_that_tell_nothing,
            lists_of_lists, lists_that_clash, lists_of_numbers, lists_that_differ, lists_in_state, numbers_in_state, disjunctions,
            holes, closed_chains, closed_side_by_side, closed_lists, long_paths, doubled, defaults, default_terms, long_texts,
            long_labels, long_lists, grown]
# Of these what is known is large, place by place, and each place is kept by itself: want of memory, told soon, is an answer
# too. The elements of `grown` all differ; and of the others each choice of levels at which the far element is taken is a
# way to places of its own, which a state tells one by one (of 8 levels it has 38 GB).
LARGE = {elements_far_out, elements_alike_far_out, elements_that_clash, grown}


def longest(family, limit):
    """The text or the state of a family with the greatest number that leaves it below a limit."""
    low, high = 1, 2
    while high < 1 << 16 and len(family(high)) < limit and family(high) != family(high - 1):
        low, high = high, 2 * high
    while high - low > 1:
        middle = (low + high) // 2
        low, high = (middle, high) if len(family(middle)) < limit else (low, middle)
    found = family(low)
    return found if isinstance(found, bytes) else found.encode()


class Cost:
    """What one run came to: its status, the bytes that it wrote (of which no more than `most` are awaited), the end of them,
    seconds of the processor and the most bytes of memory."""

    def __init__(self, words, data, room, seconds, most):
        with tempfile.NamedTemporaryFile() as file:
            file.write(data)
            file.flush()
            process = subprocess.Popen([*words, file.name], stdin=subprocess.DEVNULL, stdout=subprocess.PIPE,
                                       stderr=subprocess.DEVNULL, preexec_fn=lambda: limit(room, seconds))
            timer = threading.Timer(20 * seconds, process.kill)
            timer.start()
            self.end, self.written = b"", 0
            while self.written < most and (piece := process.stdout.read(1 << 16)):
                self.end, self.written = (self.end + piece)[-200:], self.written + len(piece)
            self.is_whole = self.written < most
            if not self.is_whole:
                process.kill()
            _, status, used = os.wait4(process.pid, 0)
            timer.cancel()
            process.returncode = -os.WTERMSIG(status) if os.WIFSIGNALED(status) else os.WEXITSTATUS(status)
            process.stdout.close()
        self.status, self.seconds, self.memory = process.returncode, used.ru_utime + used.ru_stime, used.ru_maxrss << 10

    def is_want_of_memory(self):
        refused = REFUSED.search(self.end)
        return self.status == 1 and bool(refused) and refused[1] == b"24"


def limit(room, seconds):
    """Limits what a run may take: memory, and four times the seconds of the processor, since one that writes on is cut."""
    resource.setrlimit(resource.RLIMIT_AS, (room, room))
    resource.setrlimit(resource.RLIMIT_CPU, (4 * seconds, 4 * seconds + 1))
    resource.setrlimit(resource.RLIMIT_CORE, (0, 0))
