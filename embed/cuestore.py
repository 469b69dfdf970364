"""The configuration store in Python, over its library (`bin/build-embed` makes it, and `bin/dist` a wheel with it).

    >>> site = Replica().submit("port: >=1 & <=65535").submit("port: 443")
    >>> site.export()
    {'port': 443}
    >>> other = Replica().submit('host: "db"')
    >>> (site | other) == (other | site)
    True
    >>> site.submit_all(['host: "db"', "tags: [...]"]) == (site | other).submit("tags: [...]")
    True
    >>> site.submit("port: 0443")
    Traceback (most recent call last):
    cuestore.Refused: refused 4 BadNumber at 6 in 2
"""
from __future__ import annotations

import ctypes
import json
import os
from typing import Any, Dict, Iterable, List, NoReturn, Optional, Tuple, Union

__all__ = ["Replica", "Refused", "NoExport", "Conflicts", "Incomplete", "NAMES", "__version__"]

Data = Union[bytes, bytearray, memoryview]
FOLDER = os.path.dirname(os.path.realpath(__file__))


def _loaded() -> ctypes.CDLL:
    """The library: what CUESTORE_LIBRARY names, what lies beside the module or in `out/` there, what the system has."""
    named = os.environ.get("CUESTORE_LIBRARY")
    beside = [os.path.join(FOLDER, "libcuestore.so"), os.path.join(FOLDER, "out", "libcuestore.so")]
    for path in [named] if named else beside:
        if os.path.exists(path):
            return ctypes.CDLL(path)
    try:
        return ctypes.CDLL(named or "libcuestore.so.0")
    except OSError:
        raise ImportError(f"{named or beside[1]} is not there: bin/build-embed makes it, and CUESTORE_LIBRARY names "
                          "another one") from None


_library = _loaded()

NAMES = {
    1: "TooLong", 2: "BadCharacter", 3: "BadString", 4: "BadNumber", 5: "IntRange", 6: "TextTooLong", 7: "Syntax",
    8: "Nesting", 9: "LeftOut", 10: "UnknownName", 11: "FieldReference", 12: "Repeated", 13: "Cycle", 14: "TooLarge",
    15: "TooDeep", 16: "NotScalar", 17: "Version", 18: "NotState", 24: "Memory",
}
DONE, REFUSED, CONFLICTS, INCOMPLETE, NO_ROOM = 0, 1, 2, 3, 5
MEMORY = 24


class _Outcome(ctypes.Structure):
    """What a call of the library came to, as `cuestore.h` has it."""

    _fields_ = [("length", ctypes.c_size_t), ("place", ctypes.c_uint64), ("status", ctypes.c_uint8),
                ("refusal", ctypes.c_uint8), ("input", ctypes.c_uint8), ("later", ctypes.c_uint8 * 5)]


# How many inputs each call of the library has.
_INPUTS = {"new": 0, "submit": 2, "merge": 2, "export": 1, "report": 1, "print": 1}
for _name, _count in _INPUTS.items():
    _function = getattr(_library, f"cuestore_{_name}")
    _function.argtypes = [ctypes.c_char_p, ctypes.c_size_t] * (_count + 1)
    _function.restype = _Outcome
_library.cuestore_version.restype = ctypes.c_char_p
__version__: str = _library.cuestore_version().decode()


class Refused(Exception):
    """An input is refused: the number and the name of the refusal, the byte of its place, and which input, from 1.

    The inputs of a call are a replica's state and then what it is given; so a text or another state is the second one.
    """

    def __init__(self, number: int, place: int, position: int) -> None:
        super().__init__(number, place, position)
        self.number, self.place, self.input = number, place, position
        self.name: str = NAMES.get(number, f"Refusal{number}")

    def __str__(self) -> str:
        return f"refused {self.number} {self.name} at {self.place} in {self.input}"


class NoExport(Exception):
    """There is no JSON: the lines say why."""

    def __init__(self, lines: List[str]) -> None:
        super().__init__(lines)
        self.lines = lines

    def __str__(self) -> str:
        return "\n".join(self.lines)


class Conflicts(NoExport):
    """There are conflicts."""


class Incomplete(NoExport):
    """There is no conflict, and something is incomplete."""


def _call(name: str, *inputs: bytes) -> Tuple[int, bytes]:
    """The status and the bytes of the call of this name on these inputs."""
    function = getattr(_library, f"cuestore_{name}")
    words = [word for data in inputs for word in (data, len(data))]
    room = 4096 + 2 * sum(map(len, inputs))
    while True:
        out = ctypes.create_string_buffer(room)
        outcome = function(*words, out, room)
        if outcome.status == REFUSED:
            if outcome.refusal == MEMORY:
                raise MemoryError
            raise Refused(outcome.refusal, outcome.place, outcome.input)
        if outcome.status != NO_ROOM:
            return outcome.status, ctypes.string_at(out, outcome.length)
        room = outcome.length


def _lines(out: bytes) -> List[str]:
    """The lines of an answer. Only U+000A ends one: a label may have other breaks of lines."""
    return out.decode().split("\n")[:-1]


def _bytes(data: Any, wanted: str) -> bytes:
    """The bytes of what is given; a TypeError for what has none, as a number, of which `bytes` would make zeros."""
    if isinstance(data, (bytes, bytearray, memoryview)):
        return bytes(data)
    raise TypeError(f"{wanted} is wanted, not {type(data).__name__}")


def _text(text: Any) -> bytes:
    return text.encode("utf-8", "surrogatepass") if isinstance(text, str) else _bytes(text, "a str, or bytes")


class Replica:
    """A site. It never changes: what accepts more is another one. Its value is its state's bytes."""

    __slots__ = ("state",)
    state: bytes

    def __init__(self, state: Optional[Data] = None) -> None:
        """The site of these state bytes, or one that has accepted nothing. Raises `Refused` for what is no state."""
        new = _call("new")[1]
        object.__setattr__(self, "state", new if state is None else _call("merge", _bytes(state, "bytes"), new)[1])

    @classmethod
    def _of(cls, state: bytes) -> Replica:
        made = object.__new__(cls)
        object.__setattr__(made, "state", state)
        return made

    def __setattr__(self, name: str, value: Any) -> NoReturn:
        raise AttributeError("a Replica doesn't change")

    def submit(self, text: Union[str, Data]) -> Replica:
        """The site that has accepted the text too, a `str`, or bytes that may turn out to be none. Raises `Refused`."""
        return self._of(_call("submit", self.state, _text(text))[1])

    def submit_all(self, texts: Iterable[Union[str, Data]]) -> Replica:
        """The site that has accepted all these texts too, in far less time than one `submit` after the other takes: each
        becomes a small state, and these are merged in pairs. Raises `Refused`, where `input` is 2 for the first text."""
        new, states = _call("new")[1], []
        if isinstance(texts, (str, bytes, bytearray, memoryview)):
            raise TypeError("a list of texts is wanted, not one text")
        for position, text in enumerate(texts, 2):
            try:
                states.append(_call("submit", new, _text(text))[1])
            except Refused as why:
                raise Refused(why.number, why.place, position) from None
        while len(states) > 1:
            odd = states[-1:] if len(states) % 2 else []
            states = [_call("merge", one, two)[1] for one, two in zip(states[::2], states[1::2])] + odd
        return self._of(_call("merge", self.state, states[0])[1]) if states else self

    def merge(self, other: Union[Replica, Data]) -> Replica:
        """The site that has accepted too what another one, or state bytes, have. Raises `Refused`."""
        state = other.state if isinstance(other, Replica) else _bytes(other, "a Replica, or bytes")
        return self._of(_call("merge", self.state, state)[1])

    def __or__(self, other: Union[Replica, Data]) -> Replica:
        if not isinstance(other, (Replica, bytes, bytearray, memoryview)):
            return NotImplemented
        return self.merge(other)

    def export_bytes(self) -> bytes:
        """The JSON of the configuration, as the program prints it, without a line break. Raises `NoExport`."""
        status, out = _call("export", self.state)
        if status == CONFLICTS:
            raise Conflicts(_lines(out))
        if status == INCOMPLETE:
            raise Incomplete(_lines(out))
        return out

    def export(self) -> Dict[str, Any]:
        """The configuration, as `dict`, `list`, `str`, `int`, `bool` and `None`. Raises `NoExport`."""
        return json.loads(self.export_bytes())

    def report(self) -> Tuple[int, List[str]]:
        """The status (0 nothing, 2 conflicts, 3 incomplete) and the lines of conflicts and of what is incomplete."""
        status, out = _call("report", self.state)
        return status, _lines(out)

    def print(self) -> str:
        """All that is known, as one text."""
        return _call("print", self.state)[1].decode()

    def __bytes__(self) -> bytes:
        return self.state

    def __eq__(self, other: object) -> bool:
        return self.state == other.state if isinstance(other, Replica) else NotImplemented

    def __hash__(self) -> int:
        return hash(self.state)

    def __reduce__(self) -> Tuple[Any, ...]:
        return Replica._of, (self.state,)

    def __repr__(self) -> str:
        return f"Replica({self.state!r})"
