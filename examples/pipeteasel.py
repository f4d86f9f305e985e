"""Pipeteasel from Python 3.8 or later: every call of include/pipeteasel.h over the shared library, with Python's values.

A call is named as in the header, without `pt_`, and what the header says of it holds; calls on a tree are methods of Tree. A call that
refuses raises Refused. Lists, SIDs and the like are bytes (bytearray and memoryview do too) and are never changed; None is a list that
is absent, and b"" one that is there and has no byte. A value of a wrong type is a TypeError and a number that its place can't hold a
ValueError, both before the call is made. Where a call writes, it is given as many bytes as any result needs; `room` says otherwise.

The library is loaded at the first call: the file that the environment's PIPETEASEL_LIBRARY names, else libpipeteasel.so.0 beside the
folder examples/ that this file lies in, else the one that the loader finds, as after `make install` and `ldconfig`.

Nothing is shared between calls, so any number of threads may call at once, each Tree from one of them at a time. A thread needs some
512 KB of stack.
"""
import ctypes
import functools
import operator
import os
import pathlib
import struct
from typing import NamedTuple, Optional

FILE = "libpipeteasel.so.0"
NO_PARENT = 0xFFFFFFFF

_Eight = ctypes.c_uint32 * 8
_Masks = ctypes.c_uint32 * 4
_Guid = ctypes.c_char * 16

# what a parameter of a call is in C; the first four come with their lengths
_KINDS = {
    "lent": [ctypes.c_char_p, ctypes.c_size_t],                       # const uint8_t *, only read
    "changed": [ctypes.POINTER(ctypes.c_char), ctypes.c_size_t],      # uint8_t *
    "row": [ctypes.POINTER(ctypes.c_uint16), ctypes.c_size_t],        # uint16_t *
    "row32": [ctypes.POINTER(ctypes.c_uint32), ctypes.c_size_t],      # uint32_t *
    "number": [ctypes.c_uint32],
    "mapping": [_Masks],                                              # const uint32_t [4]
    "type": [_Guid],                                                  # const uint8_t [16]
    "eight": [_Eight],                                                # uint32_t [8], written always
}

# what each call gives back and takes, in the header's order; tools/from_python holds this to the header
_CALLS = {
    "pt_identity": (ctypes.c_uint32, "lent"),
    "pt_read": (None, "lent row eight"),
    "pt_step": (None, "lent number eight eight"),
    "pt_compare": (None, "lent lent row32 eight"),
    "pt_may_open": (None, "number lent type lent number eight"),
    "pt_evaluate": (None, "lent lent eight"),
    "pt_may_open_with": (None, "number lent type lent number lent eight"),
    "pt_condition": (None, "lent changed eight"),
    "pt_compute": (None, "number number mapping lent lent lent lent lent lent changed eight"),
    "pt_room": (ctypes.c_size_t, "number number"),
    "pt_start": (None, "changed number number number mapping number lent eight"),
    "pt_add": (None, "changed number number type lent lent lent eight"),
    "pt_set_list": (None, "changed number number lent eight"),
    "pt_set_mark": (None, "changed number number eight"),
    "pt_set_owner": (None, "changed number lent lent eight"),
    "pt_undo": (None, "changed eight"),
    "pt_list": (None, "lent number changed eight"),
    "pt_own": (None, "lent number changed eight"),
    "pt_data": (None, "lent number changed eight"),
    "pt_counts": (None, "lent eight"),
    "pt_play": (None, "lent changed eight"),
}

_WORDS = {
    1: "the list's header is wrong, or its size isn't its length",
    2: "an entry doesn't fit or its size is wrong",
    3: "an entry's type is unknown, or not of the list's revision",
    4: "an entry's flags or object word have an unknown bit",
    5: "an entry's SID is none",
    6: "owner or group isn't exactly one SID, or is a placeholder",
    7: "the object types aren't a multiple of 16 bytes, or over 64 bytes",
    8: "no room",
    9: "no such object, or a parent that can't be one",
    10: "the object limit is reached",
    11: "no kept step is left to undo",
    12: "a limit or the rule is out of range",
    13: "the room is no well-formed tree",
    14: "a generic bit is wanted",
    15: "an expression isn't acceptable",
    16: "the text isn't a condition",
    17: "the condition is more than a stored one may hold",
    22: "a list that is laid beside another has over 128 entries",
    23: "the table isn't well made",
}
_WORDS_OF_OPENING = {6: "the held bytes aren't SIDs to their end", 7: "more than 32 SIDs are held"}
_LISTS = {1: "the parent's list", 2: "the creator's, own or set list", 3: "the default list"}
_LISTS_OF_COMPARING = {1: "the first list", 2: "the second list"}


class Refused(Exception):
    """A call refused. number: why, by the header's table. list: which list it concerns, 1 parent, 2 creator, own or set list, 3 default,
    of pt_compare 1 first, 2 second, else 0. offset: that of the entry, or in a condition's text. call: the call's name in the header."""

    def __init__(self, call, number, list, offset):
        super().__init__(call, number, list, offset)
        self.call, self.number, self.list, self.offset = call, number, list, offset

    def __str__(self):
        of_opening = _WORDS_OF_OPENING if self.call.startswith("pt_may_open") else {}
        why = of_opening.get(self.number) or _WORDS.get(self.number, "a number that this module doesn't know")
        lists = _LISTS_OF_COMPARING if self.call == "pt_compare" else _LISTS
        which = f"list {self.list}, {lists[self.list]}" if self.list in lists else f"list {self.list}"
        return f"{self.call} refused by {self.number}: {why} ({which}; offset {self.offset})"


class Mapping(NamedTuple):
    """What the four generic bits of a mask stand for."""

    read: int
    write: int
    execute: int
    all: int


# that of files: scripts have it too
MAPPING = Mapping(0x00120089, 0x00120116, 0x001200A0, 0x001F01FF)


class Reading(NamedTuple):
    length: int
    count: int
    end: int        # where the entries end and spare bytes begin
    offsets: tuple  # of each entry


class Entry(NamedTuple):
    at: int
    type: int
    flags: int
    size: int
    mask: int
    word: int                               # the object word, 0 where the type has none
    object_type: Optional[bytes]
    inherited_object_type: Optional[bytes]
    sid: bytes
    expression: bytes                       # with its zeros; b"" where the type has none
    next: int                               # the place of what follows


class Compared(NamedTuple):
    removed: list         # numbers of entries of the first list, from 0, rising
    added: list           # and of the second
    headers_differ: bool
    spare_differs: bool


class Stored(NamedTuple):
    form: bytes
    tokens: int


class Computed(NamedTuple):
    list: Optional[bytes]
    count: int
    control: int


class Changed(NamedTuple):
    """The object of a change, and its computed list now."""

    object: int
    present: bool
    length: int
    count: int


class Data(NamedTuple):
    parent: Optional[int]
    container: bool
    mark: bool
    type: bytes
    owner: bytes
    group: bytes


class Counts(NamedTuple):
    objects: int
    steps: int


class Played(NamedTuple):
    text: str
    listing: bool  # whether the text is the listing; else it says where the script is bad
    objects: int


# two threads may both come to load it: they load the same
@functools.lru_cache(maxsize=None)
def _library():
    here = pathlib.Path(__file__).resolve().parent
    beside = here.parent / FILE
    name = os.environ.get("PIPETEASEL_LIBRARY") or (str(beside) if here.name == "examples" and beside.exists() else FILE)
    try:
        library = ctypes.CDLL(name)
    except OSError as error:
        raise OSError(f"{error}. To have {FILE}: `make shared` at the root of Pipeteasel, or `make install` and `ldconfig`;"
                      " or set PIPETEASEL_LIBRARY to its path") from None
    for call, (given, taken) in _CALLS.items():
        function = getattr(library, call)
        function.restype = given
        function.argtypes = [part for kind in taken.split() for part in _KINDS[kind]]
    return library


def _call(name, *arguments):
    """Makes a call with a fresh answer behind its arguments, and gives the answer; a refusal is raised."""
    answer = _Eight()
    getattr(_library(), name)(*arguments, answer)
    if answer[0]:
        raise Refused(name, answer[0], answer[1], answer[2])
    return answer


def _number(value, what, least=0, most=0xFFFFFFFF):
    try:
        value = operator.index(value)
    except TypeError:
        raise TypeError(f"{what}: a whole number, not {value.__class__.__name__}") from None
    if not least <= value <= most:
        raise ValueError(f"{what}: {value} is not in {least} to {most}")
    return value


def _flag(value, what):
    if not isinstance(value, bool):
        raise TypeError(f"{what}: True or False, not {value!r}")
    return value


def _bytes(value, what):
    if not isinstance(value, (bytes, bytearray, memoryview)):
        raise TypeError(f"{what}: bytes, not {value.__class__.__name__}")
    return bytes(value)


def _laid(values, what):
    """Bytes as they are, or several of them laid end to end."""
    if isinstance(values, (bytes, bytearray, memoryview, str)):
        return _bytes(values, what)
    return b"".join(_bytes(value, what) for value in values)


def _lent(value, what):
    """A range that a call only reads, as its two parameters."""
    value = _bytes(value, what)
    return value, len(value)


def _maybe(value, what):
    return (None, 0) if value is None else _lent(value, what)


def _out(room):
    """Fresh bytes for a call to write on, as its two parameters."""
    room = _number(room, "room", most=0x7FFFFFFF)
    return ctypes.create_string_buffer(room), room


def _guid(value, what="type"):
    value = _bytes(value, what)
    if len(value) != 16:
        raise ValueError(f"{what}: 16 bytes, not {len(value)}")
    return _Guid.from_buffer_copy(value)


def _masks(mapping):
    masks = [_number(mask, "mapping") for mask in mapping]
    if len(masks) != 4:
        raise ValueError(f"mapping: read, write, execute and all, not {len(masks)} masks")
    return _Masks(*masks)


def table_bytes(known):
    """The bytes of a table of names: from a dict of names, str or bytes, with their numbers; bytes as they are."""
    if not hasattr(known, "items"):
        return _bytes(known, "table")
    records = []
    for name, number in known.items():
        name = name.encode("utf-16-le") if isinstance(name, str) else _bytes(name, "a name of the table")
        length = _number(len(name), "the length of a name of the table", most=0xFFFF)
        records.append(struct.pack("<H", length) + name + struct.pack("<q", _number(number, "a number of the table", -1 << 63, (1 << 63) - 1)))
    return b"".join(records)


def identity(sid):
    """0 exactly one SID and no placeholder, 1 creator owner, 2 creator group, 6 not exactly one SID."""
    return _library().pt_identity(*_lent(sid, "sid"))


def read(list, row=4095):
    """Reads a list. row: how many offsets there is room for."""
    row = _number(row, "row", most=0x7FFFFFFF)
    offsets = (ctypes.c_uint16 * row)()
    answer = _call("pt_read", *_lent(list, "list"), offsets, row)
    return Reading(answer[3], answer[5], answer[7], tuple(offsets[:answer[5]]))


def step(list, place=0):
    """The first Entry that begins at or after place, or None. Its `next` is the place to go on from."""
    list, entry = _bytes(list, "list"), _Eight()
    answer = _call("pt_step", list, len(list), _number(place, "place"), entry)
    if not answer[4]:
        return None
    at = answer[3]
    type, flags, size, mask, word, sid_at, sid_len, after = entry
    guids = list[at + 12:at + sid_at]
    own, inherited = (guids[:16] if word & 1 else None), (guids[-16:] if word & 2 else None)
    sid_end = at + sid_at + sid_len
    return Entry(at, type, flags, size, mask, word, own, inherited, list[at + sid_at:sid_end], list[sid_end:after], after)


def entries(list):
    """Each Entry of a list, in order. A refusal is raised when the first one is asked for."""
    list = _bytes(list, "list")
    entry = step(list)
    while entry:
        yield entry
        entry = step(list, entry.next)


def compare(first, second, row=256):
    """Lays two lists side by side. row: how many numbers of entries there is room for."""
    row = _number(row, "row", most=0x7FFFFFFF)
    numbers = (ctypes.c_uint32 * row)()
    answer = _call("pt_compare", *_lent(first, "first"), *_lent(second, "second"), numbers, row)
    removed, added, differing = answer[3:6]
    return Compared(numbers[:removed], numbers[removed:removed + added], differing & 1 != 0, differing & 2 != 0)


def may_open(list, held, wanted, type=bytes(16), table=None):
    """Whether someone who holds the SIDs in held (several, or bytes that are SIDs laid end to end) may do what every bit of wanted says.
    table: what is known of them, a dict or bytes; pt_may_open_with is called where it is given, else pt_may_open."""
    held = _laid(held, "held")
    asked = (list is not None, *_maybe(list, "list"), _guid(type), held, len(held), _number(wanted, "wanted"))
    if table is None:
        return _call("pt_may_open", *asked)[3] == 1
    known = table_bytes(table)
    return _call("pt_may_open_with", *asked, known, len(known))[3] == 1


def evaluate(expression, table=b""):
    """True, False, or None for unknown."""
    known = table_bytes(table)
    return (False, True, None)[_call("pt_evaluate", *_lent(expression, "expression"), known, len(known))[3]]


def condition(text, room=1255):
    """The stored form of a condition, and the number of its tokens. An offset of 16 counts the bytes of the text, in UTF-8 of a str: up
    to there, characters and bytes are the same."""
    text = text.encode("utf-8", "surrogatepass") if isinstance(text, str) else _bytes(text, "text")
    out, room = _out(room)
    answer = _call("pt_condition", text, len(text), out, room)
    return Stored(out.raw[:answer[3]], answer[5])


def compute(owner, group, *, parent=None, creator=None, default=None, types=(), container=False, auto_inherit=False,
            default_descriptor=False, protected=False, rule=2, mapping=MAPPING, room=65532):
    """The list of a new object. types: its object types, several GUIDs or bytes that are GUIDs laid end to end."""
    named = {"container": container, "auto_inherit": auto_inherit, "default_descriptor": default_descriptor, "protected": protected}
    yes = [parent is not None, creator is not None, default is not None] + [_flag(value, what) for what, value in named.items()]
    settings = sum(1 << bit for bit, value in enumerate(yes) if value)
    out, room = _out(room)
    answer = _call("pt_compute", _number(rule, "rule"), settings, _masks(mapping), *_maybe(parent, "parent"), *_maybe(creator, "creator"),
                   *_maybe(default, "default"), *_lent(_laid(types, "types"), "types"), *_lent(owner, "owner"), *_lent(group, "group"),
                   out, room)
    return Computed(out.raw[:answer[3]] if answer[4] else None, answer[5], answer[6])


def room(objects, steps):
    """Bytes of room that a tree needs, or 0 where a limit is out of range."""
    return _library().pt_room(_number(objects, "objects"), _number(steps, "steps"))


def play(script, room=1024):
    """Plays a script held in memory."""
    out, room = _out(room)
    answer = _call("pt_play", *_lent(script, "script"), out, room)
    return Played(out.raw[:answer[3]].decode("ascii"), answer[4] == 1, answer[5])


class Tree:
    """A tree of objects with undo, in a room of its own. Objects are numbered from 0 in order of adding."""

    def __init__(self, objects=16, steps=16, rule=2, mapping=MAPPING, default=None):
        self._room = ctypes.create_string_buffer(room(objects, steps))
        _call("pt_start", *self._whole(), objects, steps, _number(rule, "rule"), _masks(mapping), default is not None, *_maybe(default, "default"))

    @classmethod
    def from_room(cls, room):
        """The tree that such bytes are, as `room` gives them; where they are none, every call on it refuses by 13."""
        room, tree = _bytes(room, "room"), cls.__new__(cls)
        tree._room = (ctypes.c_char * len(room)).from_buffer_copy(room)
        return tree

    @property
    def room(self):
        """A copy of the whole tree's bytes, with its kept steps."""
        return self._room.raw

    def _whole(self):
        return self._room, len(self._room)

    def _change(self, name, object, *arguments):
        answer = _call(name, *self._whole(), _number(object, "object"), *arguments)
        return Changed(object, answer[4] == 1, answer[3], answer[5])

    def _read_back(self, name, object, room):
        out, room = _out(room)
        answer = _call(name, *self._whole(), _number(object, "object"), out, room)
        return out.raw[:answer[3]] if answer[4] else None

    def add(self, parent, owner, group, list=None, container=False, mark=False, type=bytes(16)):
        """Adds an object below a container, or with parent None the first one. Its number is in what is given back."""
        traits = _flag(container, "container") | _flag(mark, "mark") << 1 | (list is not None) << 2
        below = NO_PARENT if parent is None else _number(parent, "parent", most=NO_PARENT - 1)
        answer = _call("pt_add", *self._whole(), below, traits, _guid(type), *_lent(owner, "owner"), *_lent(group, "group"), *_maybe(list, "list"))
        return Changed(self.counts().objects - 1, answer[4] == 1, answer[3], answer[5])

    def set_list(self, object, list):
        """Sets the own list; None removes it."""
        return self._change("pt_set_list", object, list is not None, *_maybe(list, "list"))

    def set_mark(self, object, mark):
        return self._change("pt_set_mark", object, _flag(mark, "mark"))

    def set_owner(self, object, owner, group):
        return self._change("pt_set_owner", object, *_lent(owner, "owner"), *_lent(group, "group"))

    def undo(self):
        """Takes off the latest change not yet undone."""
        _call("pt_undo", *self._whole())

    def list(self, object, room=1024):
        """The computed list, None where it is absent."""
        return self._read_back("pt_list", object, room)

    def own(self, object, room=1024):
        """The own list, None where it is absent."""
        return self._read_back("pt_own", object, room)

    def data(self, object, room=157):
        """What an object has of its own besides a list."""
        told = self._read_back("pt_data", object, room)
        group_at = 20 + told[19]
        return Data(None if told[0] == 0xFF else told[0], told[1] == 1, told[2] == 1, told[3:19], told[20:group_at], told[group_at + 1:])

    def counts(self):
        """How many objects stand, and how many steps are kept."""
        answer = _call("pt_counts", *self._whole())
        return Counts(answer[3], answer[5])
