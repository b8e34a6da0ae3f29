"""Oonjaluvai, the harbour's planner: its C library, libharbour, from Python.

A harbour is sizes (how many slots each boat has), pairs of boats, lower boat first and rising, and
for each pair one row for each slot of the lower boat: bit b of a row is set where the higher boat
may take its slot b beside it. Boats, slots, pairs and rows count from 0.

    >>> tables = Tables((2, 2), [(0, 1)], [[0b10, 0b01]])
    >>> tables.run()
    Decided(plan=(0, 1), checks=2, trials=2)

A file holds the same as bytes, and one harbour has one file.

    >>> file = tables.to_bytes()
    >>> Tables.from_bytes(file).run().plan, lawful_file(file, (0, 0))
    ((0, 1), False)
"""

import ctypes
import operator
import os
from itertools import chain
from typing import Any, Iterable, NamedTuple, Optional, Sequence, SupportsIndex, Tuple, Type, TypeVar, Union

__version__ = "2.1.0"  # that of the library; one with the same first number and no lower second one will do

__all__ = ["BT", "CBJ", "BM", "FC", "FC_CBJ", "AMPLE", "Tables", "lawful_file", "Decided", "Refused", "Undecided"]

BT, CBJ, BM, FC, FC_CBJ = 1, 2, 3, 4, 5
AMPLE = 2**64 - 1

_BytesLike = Union[bytes, bytearray, memoryview]
_Own = TypeVar("_Own", bound="Tables")

_BYTE = 255
_WORK = 8192
_SIZE_ROOM, _PAIR_ROOM = 255, 2 * 65535  # what a file can ask for: its counts have one byte and two
_FINE = _LAWFUL = _UNBROKEN = _SOLVED = 0
_UNLAWFUL = _BROKEN = _NO_PLAN = 1
_ALLOWANCES = {2: "checks", 3: "trials"}  # by the answer that says which one ran out
_REFUSED = 100  # what the library adds to a refusal's number
_OF_PAIRS = (51, 52, 53, 54)
_ROW_WORDS, _ROW_BIT = 6, 7
_CAUSES = {
    1: "no method has this number",
    2: "there are more than 64 boats",
    3: "boat {} has no slot, or more than 64",
    4: "there are more than 2,016 pairs",
    51: "byte {0} of the pairs, in pair {1}, names a boat that is not there",
    52: "byte {0} of the pairs, in pair {1}, names the same boat as the byte before it",
    53: "the pair at byte {0} of the pairs, pair {1}, names the higher boat first",
    54: "the pair at byte {0} of the pairs, pair {1}, is equal to or below the pair before it",
    _ROW_WORDS: "the rows are not, for each pair, one for each slot of its lower boat",
    _ROW_BIT: "row {}, counted over all pairs, has a bit for a slot that the higher boat does not have",
    8: "the plan's memory has fewer bytes than there are boats",
    9: "there are fewer than 8,192 working words",
    10: "the given plan has not one slot for each boat",
    11: "the given plan has a slot that boat {} does not have",
    21: "the mark at byte {} of the file is unknown or misplaced",
    22: "the file ends at byte {}, inside a mark or record or before ED",
    23: "byte {} of the file names a lower boat that is not in SZ",
    24: "the count at byte {} of the file, in ED, is not that of the PR records",
    25: "bytes stand after ED, from byte {} of the file on",
    26: "the memory lent is too small for what would be written there",
}


class Refused(ValueError):
    """What the library refuses: its number (1 to 4, 51 to 54, 6 to 11, and of a file 21 to 26), and the place of it, 0
    where none is named.

    The place of 51 to 54 is a byte of the pairs, two bytes to a pair; pair says which. The place of 21 to 25 is a byte
    of the file, that of 22 the file's length. All other numbers speak of tables, also of those that a file holds.
    """

    def __init__(self, number: int, place: int) -> None:
        super().__init__(number, place)  # not the message: an exception is copied and pickled by its arguments
        self.number, self.place = number, place

    @property
    def pair(self) -> Optional[int]:
        """The index of the pair at fault, for 51 to 54; None for all other numbers."""
        return self.place // 2 if self.number in _OF_PAIRS else None

    def __str__(self) -> str:
        cause = _CAUSES.get(self.number, "at place {}").format(self.place, self.pair)
        return f"refused, number {self.number}: {cause}"


class Undecided(Exception):
    """An allowance, of "checks" or of "trials", ran out: this says nothing about plans."""

    def __init__(self, allowance: str, checks: int, trials: int) -> None:
        super().__init__(allowance, checks, trials)
        self.allowance, self.checks, self.trials = allowance, checks, trials

    def __str__(self) -> str:
        return (f"undecided: the allowance of {self.allowance} ran out (checks: {self.checks}, trials: {self.trials});"
                " a plan may exist or not, and a larger allowance may decide")


class Decided(NamedTuple):
    """A run's answer. plan is None exactly where no plan exists; that of a harbour without boats is ()."""

    plan: Optional[Tuple[int, ...]]
    checks: int
    trials: int


class _Reply(ctypes.Structure):
    _fields_ = [(name, ctypes.c_uint64) for name in ("answer", "place", "checks", "trials")]


class _Part(ctypes.Structure):
    _fields_ = [(name, ctypes.c_uint64) for name in ("start", "length")]


class _ReadReply(ctypes.Structure):
    _fields_ = [(name, ctypes.c_uint64) for name in ("answer", "place", "boats", "pair_bytes", "row_words")]


class _Written(ctypes.Structure):
    _fields_ = [(name, ctypes.c_uint64) for name in ("answer", "place", "length")]


_Work = ctypes.c_uint64 * _WORK
_LENT_BYTES = (ctypes.POINTER(ctypes.c_uint8), ctypes.c_size_t)
_LENT_WORDS = (ctypes.POINTER(ctypes.c_uint64), ctypes.c_size_t)
_TABLES = _LENT_BYTES + _LENT_BYTES + _LENT_WORDS
_TWO_NUMBERS = (ctypes.c_uint64, ctypes.c_uint64)
_FUNCTIONS = {
    "harbour_run": (_Reply, (ctypes.c_uint64,) + _TABLES + _LENT_BYTES + _LENT_WORDS + _TWO_NUMBERS),
    "harbour_examine": (_Reply, _TABLES),
    "harbour_lawful": (_Reply, _TABLES + _LENT_BYTES),
    "harbour_broken": (_Reply, _TABLES + _LENT_BYTES),
    "harbour_rows": (_Part, _TABLES + _TWO_NUMBERS),
    "harbour_read": (_ReadReply, _LENT_BYTES + _TABLES),
    "harbour_write": (_Written, _TABLES + _LENT_BYTES),
    "harbour_lawful_file": (ctypes.c_uint64, _LENT_BYTES + _LENT_BYTES + _TABLES),
}


def _load() -> ctypes.CDLL:
    """The library that HARBOUR_LIBRARY names, or else the loader's."""
    path = os.environ.get("HARBOUR_LIBRARY")
    own = "libharbour.so." + __version__.split(".")[0]
    wanted = os.path.abspath(path) if path else own  # the loader would not take a bare name for a path
    try:
        library = ctypes.CDLL(wanted)
        for name, (reply, given) in _FUNCTIONS.items():
            function = getattr(library, name)
            # without restype ctypes lends no room for the reply, and the library would write over other memory
            function.restype, function.argtypes = reply, given
    except (OSError, AttributeError) as error:
        raise ImportError(f"the harbour's library was looked for as {wanted} and could not be loaded ({error}):"
                          " `make install` installs it, or HARBOUR_LIBRARY names its path") from error
    return library


_library = _load()


def _number(value: SupportsIndex, most: int, what: str, *where: int) -> int:
    """The value as a number from 0 to most: ctypes would cut a larger one without a word."""
    if isinstance(value, bool):
        raise TypeError(f"{what.format(*where)} is {value}, which is no number")
    number = operator.index(value)
    if not 0 <= number <= most:
        raise ValueError(f"{what.format(*where)} is not a number from 0 to {most}")
    return number


def _bytes_of(values: Iterable[SupportsIndex], what: str) -> Tuple[int, ...]:
    return tuple(_number(value, _BYTE, what, boat) for boat, value in enumerate(values))


def _pair(at: int, pair: Iterable[SupportsIndex]) -> Tuple[int, int]:
    boats = tuple(pair)
    if len(boats) != 2:
        raise ValueError(f"pair {at} is not two boats")
    lower, higher = boats
    return (_number(lower, _BYTE, "the lower boat of pair {}", at),
            _number(higher, _BYTE, "the higher boat of pair {}", at))


def _pair_rows(at: int, rows: Iterable[SupportsIndex]) -> Tuple[int, ...]:
    return tuple(_number(row, AMPLE, "row {} of pair {}", slot, at) for slot, row in enumerate(rows))


def _rows_fit(sizes: Sequence[int], pairs: Sequence[Tuple[int, int]], rows: Sequence[Sequence[int]]) -> bool:
    """Pair by pair: a row too many here and one too few there give a total that the library takes."""
    return [len(each) for each in rows] == [sizes[lower] for lower, _ in pairs]


def _lent_bytes(values: Iterable[int]) -> Tuple[Any, int]:
    """The values in memory of their own, and their length; a bytes object of one byte is shared by all who have it."""
    held = bytes(values)
    return (ctypes.c_uint8 * len(held)).from_buffer_copy(held), len(held)


def _lent_words(values: Iterable[int]) -> Tuple[Any, int]:
    held = tuple(values)
    return (ctypes.c_uint64 * len(held))(*held), len(held)


def _file_of(data: _BytesLike) -> bytes:
    """A copy of the bytes; bytes() alone would take a number for a length."""
    return bytes(memoryview(data))


def _rooms(file_bytes: int) -> Tuple[Any, int, Any, int, Any, int]:
    """Memory for all that a file of so many bytes can hold: each of its words takes 8 of them."""
    words = file_bytes // 8
    return ((ctypes.c_uint8 * _SIZE_ROOM)(), _SIZE_ROOM, (ctypes.c_uint8 * _PAIR_ROOM)(), _PAIR_ROOM,
            (ctypes.c_uint64 * words)(), words)


def _cut(unit: Any, room: Any, length: int) -> Tuple[Any, int]:
    """The beginning of a room, in memory of its own."""
    if length > len(room):
        raise RuntimeError("the harbour's library read tables that are not there")
    return (unit * length).from_buffer_copy(room), length


def _answer(reply: Union[_Reply, _ReadReply, _Written], *known: int) -> int:
    """The reply's answer, one of the known; a refusal is raised, and so is what nobody knows."""
    if reply.answer in known:
        return reply.answer
    if reply.answer - _REFUSED in _CAUSES:
        raise Refused(reply.answer - _REFUSED, reply.place)
    raise _not_known(reply.answer)


def _not_known(answer: int) -> RuntimeError:
    return RuntimeError(f"the harbour's library gave an answer that is not known: {answer}")


class Tables:
    """A harbour's tables, copied and examined: whatever is refused is raised here, so each object is fine tables."""

    __slots__ = ("_parts",)

    def __init__(self, sizes: Iterable[SupportsIndex], pairs: Iterable[Iterable[SupportsIndex]] = (),
                 rows: Iterable[Iterable[SupportsIndex]] = ()) -> None:
        own_sizes = _bytes_of(sizes, "the size of boat {}")
        own_pairs = [_pair(at, pair) for at, pair in enumerate(pairs)]
        own_rows = [_pair_rows(at, each) for at, each in enumerate(rows)]
        parts = _lent_bytes(own_sizes) + _lent_bytes(chain(*own_pairs)) + _lent_words(chain(*own_rows))
        reply = _library.harbour_examine(*parts)
        if reply.answer in (_FINE, _REFUSED + _ROW_BIT) and not _rows_fit(own_sizes, own_pairs, own_rows):
            raise Refused(_ROW_WORDS, 0)
        _answer(reply, _FINE)
        self._parts = parts

    @classmethod
    def from_bytes(cls: Type[_Own], data: _BytesLike) -> _Own:
        """The tables of a file. Refused is raised for a fault in the bytes, and then for tables that are not fine."""
        file = _lent_bytes(_file_of(data))
        rooms = sizes, _, pairs, _, rows, _ = _rooms(file[1])
        reply = _library.harbour_read(*file, *rooms)
        _answer(reply, _FINE)
        tables = cls.__new__(cls)
        tables._parts = (_cut(ctypes.c_uint8, sizes, reply.boats) + _cut(ctypes.c_uint8, pairs, reply.pair_bytes)
                         + _cut(ctypes.c_uint64, rows, reply.row_words))
        return tables

    def to_bytes(self) -> bytes:
        """The file that from_bytes makes the same tables of again; other tables have another file."""
        _, boats, _, pair_bytes, _, row_words = self._parts
        length = 7 + boats + 2 * pair_bytes + 8 * row_words  # SZ and ED have 7 bytes beside the sizes; each PR has 4
        file = (ctypes.c_uint8 * length)()
        reply = _library.harbour_write(*self._parts, file, length)
        _answer(reply, _FINE)
        if reply.length != length:
            raise RuntimeError("the harbour's library wrote a file of another length")
        return bytes(file)

    def run(self, method: SupportsIndex = FC_CBJ, checks: SupportsIndex = AMPLE,
            trials: SupportsIndex = AMPLE) -> Decided:
        """The first lawful plan, or that none exists; Undecided is raised where an allowance ran out."""
        by = _number(method, AMPLE, "the method")
        allowed = _number(checks, AMPLE, "the allowance of checks"), _number(trials, AMPLE, "the allowance of trials")
        boats = self._parts[1]
        plan = (ctypes.c_uint8 * boats)()
        work = _Work()  # not kept from call to call: two threads may run at once, and each needs its own
        reply = _library.harbour_run(by, *self._parts, plan, boats, work, _WORK, *allowed)
        answer = _answer(reply, _SOLVED, _NO_PLAN, *_ALLOWANCES)
        if answer in _ALLOWANCES:
            raise Undecided(_ALLOWANCES[answer], reply.checks, reply.trials)
        return Decided(tuple(plan) if answer == _SOLVED else None, reply.checks, reply.trials)

    def is_lawful(self, plan: Iterable[SupportsIndex]) -> bool:
        """Does every listed pair allow the plan?"""
        given = _lent_bytes(_bytes_of(plan, "the slot of boat {}"))
        return _answer(_library.harbour_lawful(*self._parts, *given), _LAWFUL, _UNLAWFUL) == _LAWFUL

    def first_broken(self, plan: Iterable[SupportsIndex]) -> Optional[int]:
        """The index of the lowest pair that the plan breaks, or None where it breaks none."""
        given = _lent_bytes(_bytes_of(plan, "the slot of boat {}"))
        reply = _library.harbour_broken(*self._parts, *given)
        return reply.place if _answer(reply, _UNBROKEN, _BROKEN) == _BROKEN else None

    def rows_of(self, lower: SupportsIndex, higher: SupportsIndex) -> Tuple[int, ...]:
        """The rows of two boats' pair, none where it is not listed."""
        boats = _number(lower, AMPLE, "the lower boat"), _number(higher, AMPLE, "the higher boat")
        part = _library.harbour_rows(*self._parts, *boats)
        shown = tuple(self._parts[4][part.start:part.start + part.length])
        if len(shown) != part.length:
            raise RuntimeError("the harbour's library showed rows that are not there")
        return shown


def lawful_file(data: _BytesLike, plan: Iterable[SupportsIndex]) -> bool:
    """Is the plan lawful for the tables of a file? As Tables.from_bytes(data).is_lawful(plan), in one call.

    A slot that is no byte is a ValueError here, whatever the file holds.
    """
    file, slots = _file_of(data), _bytes_of(plan, "the slot of boat {}")
    answer = _library.harbour_lawful_file(*_lent_bytes(file), *_lent_bytes(slots), *_rooms(len(file)))
    if answer in (_LAWFUL, _UNLAWFUL):
        return answer == _LAWFUL
    try:
        Tables.from_bytes(file).is_lawful(slots)  # one number has no place: those that name it refuse as well
    except Refused as refused:
        if refused.number == answer - _REFUSED:
            raise
    raise _not_known(answer)
