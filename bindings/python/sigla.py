"""The type checker of Sigla queries for Python 3.10 or later: one file, the standard library alone.

    import sigla
    answer = sigla.answer(open("samples/form.hex", "rb").read())
    for query in answer:
        for diagnostic in query.diagnostics:
            print(diagnostic)

It loads libsigla.so: where the environment's SIGLA_SO says, else beside an installed copy of this file, else by the loader's own rules.
`make_library` makes one from the static library. `Form` builds files. docs/FORMAT.md has files, answers and refusals. As a program,

    python3 sigla.py FILE..

prints each file's nodes with their types, and its diagnostics.

The calls are proved; this file is tested.
"""

from __future__ import annotations

import builtins  # for bytes: two classes have a call of that name
import ctypes
import operator
import os
import pathlib
import subprocess
import sys
from collections.abc import Iterable, Iterator, Sequence
from dataclasses import dataclass, field
from typing import Any, ClassVar, Union

__version__ = "0.3.0"

WORDS = 16384
BYTES = 65536
QUERIES = 64
STACK = 1048576
LOAD = 8255
LENT = 65536

# Where libsigla.so stands from this file's folder on: in the folder itself, or in that of ./install, which writes its own here.
BESIDE = ("libsigla.so", "../../../lib/libsigla.so")

# A file's or an answer's bytes.
Bytes = Union[bytes, bytearray, memoryview]
# A type as an answer has it (`Typed`).
Ty = tuple[Any, ...]

# What a refusal's number says (written from bindings/refusals.toml).
REASONS: dict[int, str] = {
    1: "the work slice has fewer than 16,384 words",
    2: "the file has more than 65,536 bytes",
    3: "a line is empty, has an odd number of digits, another character, more than 512 bytes, or no LF",
    4: "a kind is unknown or stands where it may not, or the file does not end with a query",
    5: "there are over 256 names, 256 types, 128 predicates, or 512 nodes of a query",
    6: "a frame has an unknown shape, flag or statement byte, or is too short or too long for it",
    7: "a text is not UTF-8",
    8: "a name was given before",
    9: "a reference is to a name, type or node that no earlier line gives, or to a node that was named before",
    10: "a record type repeats a name, or a union type a discriminant",
    11: "a query needs more than 1,048,576 visits",
    12: "the answer is longer than the answer slice",
    13: "there are more than 64 queries",
    14: "a predicate's number above 65,535 does not fit in the narrow edition",
    15: "a total of the tally would pass 32 bits, or its remainder is over 999",
    16: "a query needs more visits than the desk's ceiling, which is under 1,048,576",
    17: "the desk number or the group of desks is outside the rules",
    18: "the plain solver needs more words than were lent to it",
}


class Refused(Exception):
    """A file or a call that is turned down, by number."""

    def __init__(self, number: int) -> None:
        super().__init__(number)
        self.number = number

    def __str__(self) -> str:
        return f"refused ({self.number}): {REASONS.get(self.number, 'for a reason that this version does not know')}"


@dataclass(frozen=True)
class Diagnostic:
    """What is wrong with a piece of a query: its span, from start to before end, a code, and a message."""

    span: tuple[int, int]
    code: str
    message: str | None = None

    def __str__(self) -> str:
        return f"{self.span[0]}..{self.span[1]}: {self.code}" + ("" if self.message is None else f": {self.message}")


@dataclass
class Typed:
    """What was found of a query. A type is a tuple: ("integer",), ("string",), ("bytes",), ("fact", predicate), ("record", ((name, type),
    ..)), ("union", ((name, discriminant, type), ..)), ("open", number), ("error",); None where a node was not looked at. `once` has the
    spans of names that are written only there."""

    types: list[Ty | None] = field(default_factory=list)
    diagnostics: list[Diagnostic] = field(default_factory=list)
    once: list[tuple[int, int]] = field(default_factory=list)
    visits: int | None = None


# ---- The calls


def make_library(static: str | os.PathLike[str], shared: str | os.PathLike[str]) -> None:
    """Makes libsigla.so at `shared` from libsigla_lib.a at `static`, with the C compiler."""
    subprocess.run(["cc", "-shared", "-o", os.fspath(shared), "-Wl,--whole-archive", os.fspath(static), "-Wl,--no-whole-archive"], check=True)


_library: ctypes.CDLL | None = None


def _load() -> ctypes.CDLL:
    global _library
    if _library is None:
        here = pathlib.Path(__file__).resolve().parent
        beside = [str(here / place) for place in BESIDE if (here / place).exists()]
        library = ctypes.CDLL(os.environ.get("SIGLA_SO") or (beside or ["libsigla.so"])[0])
        library.sigla_version.restype = ctypes.c_uint32
        for name in ("check", "lamp", "widen", "narrow", "growth", "load", "inspect", "tally", "set_up", "ceiling", "new_day", "check_at"):
            getattr(library, f"sigla_{name}").restype = ctypes.c_uint8
        _library = library
    return _library


def version() -> str:
    """The version of the library that was loaded; `__version__` is that of this file."""
    number = _load().sigla_version()
    return f"{number >> 16}.{number >> 8 & 255}.{number & 255}"


def _told(number: int) -> None:
    if number:
        raise Refused(number)


def _word(number: int, bits: int = 32) -> int:
    """A number of so many bits; ctypes alone would cut it."""
    number = operator.index(number)
    if not 0 <= number < 1 << bits:
        raise ValueError(f"{number} is no number of {bits} bits")
    return number


def _bytes(data: Bytes) -> bytes:
    """Bytes, and a TypeError for what has none: bytes(5) would be five zeros."""
    return bytes(memoryview(data))


def _file(data: Bytes) -> tuple[bytes, ctypes.c_size_t]:
    data = _bytes(data)
    return data, ctypes.c_size_t(len(data))


def _work(words: int) -> tuple[ctypes.Array[ctypes.c_uint32], ctypes.c_size_t]:
    return (ctypes.c_uint32 * words)(), ctypes.c_size_t(words)


def _sliced(call: Any, first: list[Any], file: Bytes, words: int, length: int) -> bytes:
    out = (ctypes.c_uint8 * length)()
    _told(call(*first, *_file(file), *_work(words), out, ctypes.c_size_t(length)))
    return bytes(out).split(b"\0", 1)[0]


def check(file: Bytes, words: int = WORDS, length: int = BYTES) -> bytes:
    """The answer's bytes; raises Refused. The slices are this call's own."""
    return _sliced(_load().sigla_check, [], file, words, length)


def answer(file: Bytes) -> list[Typed]:
    """What was found of each query of a file; raises Refused."""
    return parse(check(file))


def lamp(file: Bytes, words: int = WORDS) -> bool:
    """Whether a query of a file has a diagnostic, each asked until its first; raises Refused."""
    lit = ctypes.c_uint32()
    _told(_load().sigla_lamp(*_file(file), *_work(words), ctypes.byref(lit)))
    return lit.value == 1


def widen(file: Bytes, words: int = WORDS, length: int = BYTES) -> bytes:
    """A file of the narrow edition in the wide one; raises Refused."""
    return _sliced(_load().sigla_widen, [], file, words, length)


def narrow(file: Bytes, words: int = WORDS, length: int = BYTES) -> bytes:
    """A file of the wide edition in the narrow one; raises Refused."""
    return _sliced(_load().sigla_narrow, [], file, words, length)


PREMISES: dict[int, str] = {
    1: "the old file is turned down",
    2: "the new file is turned down",
    3: "the new file differs by more than names, types and predicates after the old ones of their kind",
    4: "the old file names a predicate by a number that it has none for",
}


def growth(old: Bytes, new: Bytes, words: int = WORDS) -> int:
    """0 where the queries of the old file keep their answers in the new one; else the first premise that fails (PREMISES)."""
    return int(_load().sigla_growth(*_file(old), *_file(new), *_work(words)))


def load(seed: int, length: int = LOAD) -> bytes:
    """The test file of a seed of 32 bits (docs/FORMAT.md, "Test load"); raises Refused (12) where `length` bytes are too few."""
    out, n = (ctypes.c_uint8 * length)(), ctypes.c_size_t()
    _told(_load().sigla_load(ctypes.c_uint32(_word(seed)), out, ctypes.c_size_t(length), ctypes.byref(n)))
    return bytes(out[:n.value])


TOLD: tuple[str, ...] = ("failure", "success", "shut out", "fewer")


@dataclass(frozen=True)
class Binding:
    """What an unknown is bound to, its type as of `Typed`; as a text it is what the program sigla_inspect prints."""

    unknown: int
    type: Ty

    def __str__(self) -> str:
        words: list[str] = [f"?{self.unknown} ="]
        left: list[Any] = [self.type]  # what is left to be written, the next one last
        while left:
            part = left.pop()
            if isinstance(part, str):
                words.append(part)
            elif part[0] in ("record", "union"):
                words.append(f"{part[0]} {len(part[1])}")
                for *head, type in reversed(part[1]):
                    left += [type, f".{head[0]}" if part[0] == "record" else f"|{head[0]} .{head[1]}"]
            else:
                words.append({"integer": "Int", "string": "String", "bytes": "Bytes", "error": "Error"}.get(part[0]) or
                             (f"?{part[1]}" if part[0] == "open" else f"fact {part[1]}"))
        return " ".join(words)


@dataclass(frozen=True)
class Inspected:
    """What the plain solver tells of a unification: one of TOLD, and after a success the bindings, the newest first. It fails where the
    check's does; it is shut out where a side reaches an Error or a record that names a field twice; there may be fewer unifications."""

    told: str
    bindings: tuple[Binding, ...] = ()


def inspect(file: Bytes, n: int, words: int = WORDS, lent: int = LENT) -> Inspected:
    """The n-th unification of a file's run, from 0, solved by the plain solver (docs/FORMAT.md); raises Refused, 18 where so many lent words
    are too few."""
    solver, told = (ctypes.c_uint32 * lent)(), ctypes.c_uint32()
    _told(_load().sigla_inspect(*_file(file), ctypes.c_uint32(_word(n)), *_work(words), solver, ctypes.c_size_t(lent), ctypes.byref(told)))
    return Inspected(TOLD[told.value], bindings(list(solver)))


def bindings(words: Sequence[int]) -> tuple[Binding, ...]:
    """The bindings in the words that the plain solver leaves, up to a zero where the next would begin; raises ValueError where there is none."""
    found: list[Binding] = []
    at = 0
    while at < len(words) and words[at]:
        unknown, at = _number_after(words, at, 11)
        type, at = _type_of(words, at)
        found.append(Binding(unknown, type))
    return tuple(found)


def _number_after(words: Sequence[int], at: int, kind: int) -> tuple[int, int]:
    if at + 1 >= len(words) or words[at] != kind:
        raise ValueError("not a binding")
    return words[at + 1], at + 2


def _type_of(words: Sequence[int], at: int) -> tuple[Ty, int]:
    """The type at a place, and where it ends; as `_Reader.type`, without a call of itself."""
    around: list[list[Any]] = []
    while True:
        kind = words[at] if at < len(words) else 0
        done: Ty | None = None
        if kind in (1, 2, 3, 8):
            done, at = ({1: "integer", 2: "string", 3: "bytes", 8: "error"}[kind],), at + 1
        elif kind in (4, 7):
            number, at = _number_after(words, at, kind)
            done = ("fact" if kind == 4 else "open", number)
        elif kind in (5, 6):
            missing, at = _number_after(words, at, kind)
            around.append([("record", "union")[kind - 5], [], missing, None])
        else:
            raise ValueError("no type")
        while around:
            word, parts, missing, part = around[-1]
            if done is not None:
                parts.append((*part, done))
            if missing:
                head: tuple[int, ...] = ()
                for kind in (9,) if word == "record" else (10, 9):
                    number, at = _number_after(words, at, kind)
                    head += (number,)
                around[-1][2:] = [missing - 1, head]
                break
            around.pop()
            done = (word, tuple(parts))
        else:
            assert done is not None  # with nothing around it, a part is whole
            return done, at


class Tally(ctypes.Structure):
    """Units of 1,000 visits, cents, and the visits that fill no unit yet."""

    units: int
    cents: int
    remainder: int
    _fields_ = [("units", ctypes.c_uint32), ("cents", ctypes.c_uint32), ("remainder", ctypes.c_uint32)]

    def add(self, visits: int, price: int) -> None:
        """A query's visits at its price; raises Refused (15), and the tally stays."""
        _told(_load().sigla_tally(ctypes.byref(self), ctypes.c_uint32(_word(visits)), ctypes.c_uint16(_word(price, 16))))


class Desk(ctypes.Structure):
    """What a desk is sure of, what it may use at most, and what it has used today."""

    share: int
    cap: int
    used: int
    _fields_ = [("share", ctypes.c_uint32), ("cap", ctypes.c_uint32), ("used", ctypes.c_uint32)]


class Group(ctypes.Structure):
    """The desks of a cabinet: `count` of them, from 0, with a daily pool of visits."""

    count: int
    pool: int
    desks: ctypes.Array[Desk]
    _fields_ = [("count", ctypes.c_uint32), ("pool", ctypes.c_uint32), ("desks", Desk * 16)]

    @classmethod
    def set_up(cls, pool: int, shares: Sequence[int], caps: Sequence[int]) -> Group:
        """A desk for each share and cap; raises Refused (17)."""
        group = cls()
        slices: list[Any] = []
        for numbers in (shares, caps):
            slices += [(ctypes.c_uint32 * len(numbers))(*map(_word, numbers)), ctypes.c_size_t(len(numbers))]
        _told(_load().sigla_set_up(ctypes.byref(group), ctypes.c_uint32(_word(pool)), *slices))
        return group

    def ceiling(self, desk: int) -> int:
        """The visits that a desk may make now; raises Refused (17)."""
        visits = ctypes.c_uint32()
        _told(_load().sigla_ceiling(ctypes.byref(self), ctypes.c_size_t(_word(desk, 64)), ctypes.byref(visits)))
        return visits.value

    def new_day(self) -> None:
        """Each use is 0 again; raises Refused (17)."""
        _told(_load().sigla_new_day(ctypes.byref(self)))

    def check(self, desk: int, file: Bytes, words: int = WORDS, length: int = BYTES) -> bytes:
        """As `check`, charged to a desk; raises Refused."""
        return _sliced(_load().sigla_check_at, [ctypes.byref(self), ctypes.c_size_t(_word(desk, 64))], file, words, length)

    def answer(self, desk: int, file: Bytes) -> list[Typed]:
        """As `answer`, charged to a desk; raises Refused."""
        return parse(self.check(desk, file))


# ---- Lines


class _Reader:
    """The bytes of a line still to be read."""

    def __init__(self, digits: bytes) -> None:
        if set(digits) - set(b"0123456789abcdef") or len(digits) % 2:
            raise ValueError("a line that is not hexadecimal")
        self.data = bytes.fromhex(digits.decode())
        self.at = 0

    def left(self) -> int:
        return len(self.data) - self.at

    def number(self, n: int) -> int:
        if self.left() < n:
            raise ValueError("a line that is too short")
        self.at += n
        return int.from_bytes(self.data[self.at - n:self.at], "big")

    def text(self) -> str:
        first, self.at = self.at, len(self.data)
        return self.data[first:].decode()

    def span(self) -> tuple[int, int]:
        return (self.number(4), self.number(4))

    def type(self) -> Ty:
        """A type, without a call of itself: those of an answer may be nested deeper than Python's calls."""
        around: list[list[Any]] = []  # what is not whole yet: its word, its parts, how many are missing, and the part that is being read
        while True:
            tag = self.number(1)
            done: Ty | None = None
            if tag in (0, 1, 2):
                done = (("integer", "string", "bytes")[tag],)
            elif tag == 3:
                done = ("fact", self.number(4))
            elif tag in (4, 5):
                around.append([("record", "union")[tag - 4], [], self.number(2), None])
            elif tag == 6:
                done = ("open", self.number(2))
            elif tag == 7:
                done = ("error",)
            else:
                raise ValueError("no type")
            while around:
                word, parts, missing, part = around[-1]
                if done is not None:
                    parts.append((*part, done))
                if missing:
                    head: tuple[int, ...] = (self.number(2),) if word == "record" else (self.number(2), self.number(4))
                    around[-1][2:] = [missing - 1, head]
                    break
                around.pop()
                done = (word, tuple(parts))
            else:
                assert done is not None  # with nothing around it, a part is whole
                return done


def _lines(data: Bytes) -> list[bytes]:
    data = _bytes(data)
    if data and not data.endswith(b"\n"):
        raise ValueError("a last line without LF")
    return data.split(b"\n")[:-1]


def parse(lines: Bytes) -> list[Typed]:
    """The queries of an answer; raises ValueError where it is none."""
    queries: list[Typed] = []
    for line in _lines(lines):
        rest = _Reader(line)
        kind = rest.number(1)
        if kind == 0x0B:
            if rest.number(2) != len(queries):
                raise ValueError("another query's number")
            queries.append(Typed())
        else:
            if not queries:
                queries.append(Typed())
            _add(queries[-1], kind, rest)
        if rest.left():
            raise ValueError("a line that is too long")
    return queries


def _add(query: Typed, kind: int, rest: _Reader) -> None:
    if kind == 0x07:
        if rest.number(2) != len(query.types):
            raise ValueError("another node's number")
        if rest.data[rest.at:] == b"\xff":
            rest.number(1)
            query.types.append(None)
        else:
            query.types.append(rest.type())
    elif kind == 0x08:
        query.diagnostics.append(Diagnostic(rest.span(), rest.text()))
    elif kind == 0x0A:
        if not query.diagnostics or query.diagnostics[-1].message is not None:
            raise ValueError("a message of nothing")
        last = query.diagnostics.pop()
        query.diagnostics.append(Diagnostic(last.span, last.code, rest.text()))
    elif kind == 0x0C:
        query.once.append(rest.span())
    elif kind == 0x09 and query.visits is None:
        query.visits = rest.number(4)
    else:
        raise ValueError("not a line of an answer")


# ---- The builder of files

NAMES, TYPES, PREDICATES, NODES, FRAME, FILE = 256, 256, 128, 512, 512, 65536

# For each kind of limit the refusal that such a file would get, and what it says.
LIMITS: dict[str, tuple[int, str]] = {
    "names": (5, "more than 256 names"),
    "types": (5, "more than 256 types"),
    "predicates": (5, "more than 128 predicates"),
    "nodes": (5, "more than 512 nodes in a query"),
    "queries": (13, "more than 64 queries"),
    "frame": (3, "a frame of more than 512 bytes"),
    "file": (2, "a file of more than 65536 bytes"),
    "repeated_field": (10, "a record type names a field twice"),
    "repeated_discriminant": (10, "a union type has a discriminant twice"),
    "other_type": (9, "a type of another form"),
    "other_predicate": (9, "a predicate of another form, or one that is defined already"),
    "other_node": (9, "a node of another query, or one that was named before"),
    "undefined": (9, "a predicate is declared and never defined"),
    "no_query": (4, "no query"),
    "broken_text": (7, "a text that is not UTF-8"),
}


class Limit(Exception):
    """What a file's limits would refuse, and handles that are another's: its `kind`, one of LIMITS, the `refusal` that such a file would
    get, and where it is about a name or a number, that as `what`."""

    def __init__(self, kind: str, what: str | int | None = None) -> None:
        super().__init__(kind, what)
        self.kind = kind
        self.what = what
        self.refusal = LIMITS[kind][0]

    def __str__(self) -> str:
        return LIMITS[self.kind][1] + ("" if self.what is None else f": {self.what}")


class Type:
    """A type of the schema of the form that made it."""

    def __init__(self, form: Form, number: int) -> None:
        self._form = form
        self.number = number


class Predicate:
    """A predicate of the form that made it, or a number that no form need have: `Predicate.absent`. `number` is its number in the file."""

    def __init__(self, form: Form | None, number: int) -> None:
        self._form = form
        self.number = number

    @classmethod
    def absent(cls, number: int) -> Predicate:
        """A number of 32 bits that need not exist in the file: a fact of it is allowed, and its key is not looked at."""
        return cls(None, _word(number))


class Node:
    """A node of the query that made it; it is named once. `number` is the place of its type in `Typed.types`."""

    def __init__(self, query: Query, number: int) -> None:
        self._query = query
        self._named = False
        self.number = number


@dataclass(frozen=True)
class Holds:
    """A pattern that must hold."""

    BYTE: ClassVar[int] = 1
    node: Node

    def _nodes(self) -> tuple[Node, ...]:
        return (self.node,)


class Denies(Holds):
    """A pattern that must not hold."""

    BYTE = 2


@dataclass(frozen=True)
class Binds:
    """left = right: a variable or pattern is bound."""

    BYTE: ClassVar[int] = 0
    left: Node
    right: Node

    def _nodes(self) -> tuple[Node, ...]:
        return (self.left, self.right)


class Differs(Binds):
    """Left is different from right."""

    BYTE = 3


class Compares(Binds):
    """Left and right are compared by their order."""

    BYTE = 4


Statement = Union[Holds, Binds]


def _encoded(name: str) -> bytes:
    try:
        return name.encode()
    except UnicodeEncodeError:
        raise Limit("broken_text", ascii(name)) from None


def _kept(frames: list[bytes], most: int, kind: str, frame: bytes) -> int:
    if len(frames) == most:
        raise Limit(kind)
    if len(frame) > FRAME:
        raise Limit("frame")
    frames.append(frame)
    return len(frames) - 1


class Form:
    """A file under construction: names, a schema and queries; `file` writes it.

        form = sigla.Form(2, 32)
        text = form.string()
        sample = form.predicate("sample", text)
        query = form.query()                                            # x where sample x
        fact = query.fact((8, 16), sample, query.variable((15, 16), "x"))
        query.ask(query.variable((0, 1), "x"), [sigla.Holds(fact)])
        answer = sigla.answer(form.file())

    Names are texts and are numbered here, each once, in the order in which they first come. Types, predicates and nodes are handed out as
    handles, each of the form or the query that made it; a node is named once. What a file's limits would refuse is told when it is added,
    as a `Limit`, but the file's length, a predicate without types and a form without queries by `file`. A call that failed has added no
    type, predicate, node or query, though perhaps names. A number that does not fit in its place is a ValueError."""

    def __init__(self, distance: int, characters: int) -> None:
        """The limits are the largest distance of a fuzzy term and its largest length in characters."""
        self._limits = b"\x01" + _word(distance, 8).to_bytes(1, "big") + _word(characters, 16).to_bytes(2, "big")
        self._names: dict[builtins.bytes, int] = {}
        self._types: list[builtins.bytes] = []
        self._predicates: list[tuple[int, str]] = []  # the name's number, and its text
        self._defined: dict[int, tuple[Type, Type | None]] = {}
        self._queries: list[list[builtins.bytes]] = []
        self._open: Query | None = None

    def name(self, name: str) -> int:
        """The number of a name; a new one is added. The other calls do this with the texts that they are given."""
        text = _encoded(name)
        if text not in self._names:
            if len(self._names) == NAMES:
                raise Limit("names")
            if len(text) + 1 > FRAME:
                raise Limit("frame")
            self._names[text] = len(self._names)
        return self._names[text]

    def texts(self) -> Names:
        """The texts that the types of its answer are shown with."""
        return Names(tuple(name.decode() for name in self._names), tuple(number for number, _ in self._predicates))

    def _name(self, name: str) -> builtins.bytes:
        return self.name(name).to_bytes(2, "big")

    def _type(self, type: Type) -> builtins.bytes:
        if type._form is not self:
            raise Limit("other_type")
        return type.number.to_bytes(2, "big")

    def _predicate(self, predicate: Predicate) -> builtins.bytes:
        if predicate._form not in (None, self):
            raise Limit("other_predicate")
        return predicate.number.to_bytes(4, "big")

    def _add_type(self, frame: builtins.bytes) -> Type:
        return Type(self, _kept(self._types, TYPES, "types", b"\x03" + frame))

    def integer(self) -> Type:
        """The type of integers."""
        return self._add_type(b"\x00")

    def string(self) -> Type:
        """The type of strings."""
        return self._add_type(b"\x01")

    def bytes(self) -> Type:
        """The type of bytes."""
        return self._add_type(b"\x02")

    def fact(self, predicate: Predicate) -> Type:
        """A reference to a stored fact of a predicate, which may be one that is declared and not yet defined."""
        return self._add_type(b"\x03" + self._predicate(predicate))

    def record(self, fields: Iterable[tuple[str, Type]]) -> Type:
        """A record type; no name twice."""
        frame, seen = b"\x04", set()
        for name, type in fields:
            if name in seen:
                raise Limit("repeated_field", name)
            seen.add(name)
            frame += self._name(name) + self._type(type)
        return self._add_type(frame)

    def union(self, alternatives: Iterable[tuple[str, int, Type]]) -> Type:
        """A union type: alternatives with their discriminants, none twice."""
        frame, seen = b"\x05", set()
        for name, discriminant, type in alternatives:
            if discriminant in seen:
                raise Limit("repeated_discriminant", discriminant)
            seen.add(discriminant)
            frame += self._name(name) + _word(discriminant).to_bytes(4, "big") + self._type(type)
        return self._add_type(frame)

    def declare(self, name: str) -> Predicate:
        """A predicate whose types come later, by `define`, since they refer to it."""
        number = self.name(name)
        if len(self._predicates) == PREDICATES:
            raise Limit("predicates")
        self._predicates.append((number, name))
        return Predicate(self, len(self._predicates) - 1)

    def define(self, predicate: Predicate, key: Type, value: Type | None = None) -> None:
        """The types of a predicate that was declared: of its key and, if it stores one, of its value."""
        for type in (key, value):
            if type is not None:
                self._type(type)
        if predicate._form is not self or predicate.number in self._defined:
            raise Limit("other_predicate")
        self._defined[predicate.number] = (key, value)

    def predicate(self, name: str, key: Type, value: Type | None = None) -> Predicate:
        """A predicate with its types: both of the above."""
        for type in (key, value):
            if type is not None:
                self._type(type)
        predicate = self.declare(name)
        self.define(predicate, key, value)
        return predicate

    def query(self) -> Query:
        """A new query. It counts once it asks for something; one that is begun before the last one asked takes its place."""
        self._open = None
        if len(self._queries) == QUERIES:
            raise Limit("queries")
        self._open = Query(self)
        return self._open

    def _frames(self) -> Iterator[builtins.bytes]:
        yield self._limits
        for name in self._names:
            yield b"\x02" + name
        yield from self._types
        for place, (number, text) in enumerate(self._predicates):
            if place not in self._defined:
                raise Limit("undefined", text)
            key, value = self._defined[place]
            frame = b"\x04" + number.to_bytes(2, "big") + self._type(key)
            yield frame + (b"\x00" if value is None else b"\x01" + self._type(value))
        for frames in self._queries:
            yield from frames

    def file(self) -> builtins.bytes:
        """The file. A query that has not asked is left out."""
        if not self._queries:
            raise Limit("no_query")
        file = b"".join(frame.hex().encode() + b"\n" for frame in self._frames())
        if len(file) > FILE:
            raise Limit("file")
        return file


class Query:
    """A query under construction, of `Form.query`: its nodes, from the leaves up. A span is the piece of the query's text that a node stands
    for, from its start to before its end."""

    def __init__(self, form: Form) -> None:
        self._form = form
        self._nodes: list[builtins.bytes] = []

    def _named(self, nodes: Iterable[Node], taken: list[Node]) -> builtins.bytes:
        """The numbers of nodes that can be named: those of this query that were not, neither before nor in `taken`, to which they are added."""
        frame = b""
        for node in nodes:
            if node._query is not self or node._named or self._form._open is not self or any(node is other for other in taken):
                raise Limit("other_node")
            taken.append(node)
            frame += node.number.to_bytes(2, "big")
        return frame

    def _add(self, span: tuple[int, int], frame: builtins.bytes, taken: Iterable[Node] = ()) -> Node:
        if self._form._open is not self:
            raise Limit("other_node")
        start, end = span
        head = b"\x05" + _word(start).to_bytes(4, "big") + _word(end).to_bytes(4, "big")
        node = Node(self, _kept(self._nodes, NODES, "nodes", head + frame))
        for other in taken:
            other._named = True
        return node

    def integer(self, span: tuple[int, int]) -> Node:
        """An integer literal; its value is not in the file."""
        return self._add(span, b"\x00")

    def string(self, span: tuple[int, int]) -> Node:
        """A string literal."""
        return self._add(span, b"\x01")

    def bytes(self, span: tuple[int, int]) -> Node:
        """A bytes literal."""
        return self._add(span, b"\x02")

    def variable(self, span: tuple[int, int], name: str) -> Node:
        """A variable; the same name is the same variable, but for queries in brackets."""
        return self._add(span, b"\x03" + self._form._name(name))

    def wildcard(self, span: tuple[int, int]) -> Node:
        """The wildcard `_`."""
        return self._add(span, b"\x04")

    def never(self, span: tuple[int, int]) -> Node:
        """`never`, which matches nothing."""
        return self._add(span, b"\x05")

    def prefix(self, span: tuple[int, int], text: str) -> Node:
        """Strings with this prefix."""
        return self._add(span, b"\x06" + self._form._name(text))

    def fuzzy(self, span: tuple[int, int], text: str, distance: int) -> Node:
        """Strings near this term."""
        return self._add(span, b"\x07" + self._form._name(text) + _word(distance, 8).to_bytes(1, "big"))

    def record(self, span: tuple[int, int], entries: Iterable[tuple[str, Node]]) -> Node:
        """A record `{name = node, ..}`."""
        frame, taken = b"\x08", list[Node]()
        for name, node in entries:
            frame += self._form._name(name) + self._named([node], taken)
        return self._add(span, frame, taken)

    def field(self, span: tuple[int, int], name: str, node: Node) -> Node:
        """`node.name`"""
        return self._over(span, b"\x09" + self._form._name(name), [node])

    def value(self, span: tuple[int, int], node: Node) -> Node:
        """`node.value`"""
        return self._over(span, b"\x0a", [node])

    def either(self, span: tuple[int, int], nodes: Iterable[Node]) -> Node:
        """A choice between patterns."""
        return self._over(span, b"\x0b", nodes)

    def subquery(self, span: tuple[int, int], head: Node, statements: Iterable[Statement]) -> Node:
        """A query in brackets."""
        taken = list[Node]()
        return self._add(span, b"\x0c" + self._asked(head, statements, taken), taken)

    def fact(self, span: tuple[int, int], predicate: Predicate, key: Node) -> Node:
        """A fact of a predicate, with the pattern of its key."""
        return self._over(span, b"\x0d" + self._form._predicate(predicate), [key])

    def arithmetic(self, span: tuple[int, int], nodes: Iterable[Node]) -> Node:
        """Arithmetic on integers."""
        return self._over(span, b"\x0e", nodes)

    def unread(self, span: tuple[int, int]) -> Node:
        """A piece of text that could not be read."""
        return self._add(span, b"\x0f")

    def alternative(self, span: tuple[int, int], name: str, node: Node) -> Node:
        """An alternative of a union."""
        return self._over(span, b"\x10" + self._form._name(name), [node])

    def _over(self, span: tuple[int, int], frame: builtins.bytes, nodes: Iterable[Node]) -> Node:
        taken = list[Node]()
        return self._add(span, frame + self._named(nodes, taken), taken)

    def _asked(self, head: Node, statements: Iterable[Statement], taken: list[Node]) -> builtins.bytes:
        frame = self._named([head], taken)
        for statement in statements:
            frame += statement.BYTE.to_bytes(1, "big") + self._named(statement._nodes(), taken)
        return frame

    def ask(self, head: Node, statements: Iterable[Statement] = ()) -> int:
        """What the query asks for, and its statements; it is whole then. Gives its number."""
        frame = b"\x06" + self._asked(head, statements, [])
        if len(frame) > FRAME:
            raise Limit("frame")
        self._form._queries.append([*self._nodes, frame])
        self._form._open = None
        return len(self._form._queries) - 1


# ---- For people


@dataclass(frozen=True)
class Names:
    """The texts that types are shown with: names by number, and the name number of each predicate."""

    names: tuple[str, ...] = ()
    predicates: tuple[int, ...] = ()

    @classmethod
    def of(cls, file: Bytes) -> Names:
        """Those of a file that the check accepts."""
        names: list[str] = []
        predicates: list[int] = []
        for line in _lines(file):
            rest = _Reader(line)
            kind = rest.number(1)
            if kind == 2:
                names.append(rest.text())
            elif kind == 4:
                predicates.append(rest.number(2))
        return cls(tuple(names), tuple(predicates))

    def name(self, number: int) -> str:
        """The text of a name, `?` where there is none."""
        return self.names[number] if number < len(self.names) else "?"

    def predicate(self, number: int) -> str | None:
        """The name of a predicate, if the file has it."""
        return self.name(self.predicates[number]) if number < len(self.predicates) else None


_PLAIN = {"integer": "an integer", "string": "a string", "bytes": "bytes", "open": "an unknown type", "error": "(already reported)"}


def shown(type: Ty | None, names: Names = Names()) -> str:
    """A type as messages show it; None, a node that was not looked at, too."""
    if type is None:
        return "(not looked at)"
    out: list[str] = []
    left: list[Any] = [type]
    while left:
        now = left.pop()
        if isinstance(now, str):
            out.append(now)
        elif now[0] == "fact":
            name = names.predicate(now[1])
            out.append("a fact" if name is None else f"`{name}`")
        elif now[0] in ("record", "union"):
            left.append("}")
            for i, part in reversed(list(enumerate(now[1]))):
                if now[0] == "record":
                    left += [part[1], ("" if i == 0 else ", ") + f"{names.name(part[0])} = "]
                else:
                    left += [f" = {part[1]}", part[2], ("" if i == 0 else " | ") + f"{names.name(part[0])} : "]
            left.append("{")
        else:
            out.append(_PLAIN[now[0]])
    return "".join(out)


def tree(type: Ty | None, names: Names = Names()) -> str:
    """A type as a tree, a line for each part, indented."""
    if type is None:
        return "(not looked at)\n"
    out: list[str] = []
    left: list[tuple[str, int, Ty]] = [("", 0, type)]
    while left:
        first, depth, now = left.pop()
        word = now[0]
        if word == "fact":
            name = names.predicate(now[1])
            word = f"fact {now[1]} (absent)" if name is None else f"fact {name}"
        elif word == "open":
            word = f"open {now[1]}"
        out.append("  " * depth + first + word)
        if now[0] in ("record", "union"):
            for part in reversed(now[1]):
                label = names.name(part[0]) + (f" = {part[1]}" if len(part) == 3 else "")
                left.append((f"{label}: ", depth + 1, part[-1]))
    return "\n".join(out) + "\n"


def _print(path: str) -> int:
    data = pathlib.Path(path).read_bytes()
    queries = answer(data)
    names = Names.of(data)
    for k, query in enumerate(queries):
        if len(queries) > 1:
            print(f"query {k}")
        for i, type in enumerate(query.types):
            print(f"  n{i:<4} {shown(type, names)}")
        for diagnostic in query.diagnostics:
            print(f"  {diagnostic}")
        for start, end in query.once:
            print(f"  {start}..{end}: written once")
        print(f"  {query.visits} visits")
    return 1 if any(query.diagnostics for query in queries) else 0


def main(paths: Sequence[str]) -> int:
    """Prints each file's answer; 0 without a diagnostic, 1 with one, 3 where a file is turned down, 2 where one can't be read."""
    if not paths:
        print("usage: python3 sigla.py FILE..", file=sys.stderr)
        return 2
    statuses = [0]
    for path in paths:
        try:
            statuses.append(_print(path))
        except Refused as refused:
            print(f"{path}: {refused}")
            statuses.append(3)
        except OSError as fault:
            print(fault, file=sys.stderr)
            statuses.append(2)
    return 2 if 2 in statuses else max(statuses)


if __name__ == "__main__":
    sys.exit(main(sys.argv[1:]))
