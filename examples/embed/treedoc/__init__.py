"""Treedoc in Python: one replica of a text that many sites write together.

A `Session` is that of `treedoc.h`, by ctypes over the shared library, which the variable TREEDOC_LIBRARY names, or
libtreedoc.so beside this file. A call that is refused answers so, and changes nothing: see `Status`. A session stays on
the thread that opened it."""
import ctypes
import enum
import os
from ctypes import c_bool, c_char_p, c_size_t, c_uint8, c_uint32, c_uint64, c_void_p
from typing import NamedTuple

VERSION = 3
PACKET_ROOM = 402


class Status(enum.IntEnum):
    """What became of a call, as in `treedoc.h`."""
    DONE = 0
    MADE = 1
    CANCELLED = 2
    HELD = 3
    POSITION = 4
    GONE = 5
    LIMIT = 6
    NOT_OPEN = 7
    NEW = 8
    LATER = 9
    REPEAT = 10
    UNFIT = 11
    TAKEN = 12
    DROPPED = 13
    IDLE = 14
    MEMORY = 32
    CLOSED = 33
    OPEN = 34
    BAD_SITE = 35
    BAD_ATOM = 36
    BAD_TEXT = 37
    BAD_DOT = 38
    BAD_PACKET = 39
    BAD_STRETCH = 40
    NO_MESSAGE = 41
    SMALL_ROOM = 42
    BAD_JOURNAL = 43
    LONG_JOURNAL = 44
    BAD_UNIT = 45
    BAD_PLACE = 46


class Unit(enum.IntEnum):
    """What the width of a text and the places in it are counted in. Python's own indexes are those of CODE_POINT."""
    BYTE = 0
    UTF16 = 1
    CODE_POINT = 2


class Why(enum.IntEnum):
    """Why a message is none that goes here: the place of UNFIT and DROPPED."""
    SIZE = 0
    OWN = 1
    ATOM = 2
    PROPOSAL = 3
    VOTE = 4
    ADDRESS = 5


class Answer(NamedTuple):
    """A status, and what goes with it."""
    status: Status
    site: int = 0
    number: int = 0
    place: int = 0


class Packet(NamedTuple):
    """A message as bytes, and the site that it is for, or None: all others."""
    to: "int | None"
    data: bytes


class Put(NamedTuple):
    """Atoms were put at the index."""
    index: int
    atoms: "tuple[str, ...]"


class Cut(NamedTuple):
    """The atom at the index was taken out."""
    index: int


class Refused(Exception):
    """What a call asks for is not there. It has the status, and the place that goes with it."""

    def __init__(self, status, place=0):
        super().__init__(Status(status).name.lower().replace("_", " "))
        self.status, self.place = Status(status), place


class _Held(ctypes.Structure):
    _fields_ = [("at", c_void_p), ("open", c_bool)]


class _Answer(ctypes.Structure):
    _fields_ = [("status", c_uint32), ("site", c_uint32), ("number", c_uint32), ("place", c_uint32)]


class _Written(ctypes.Structure):
    _fields_ = [("status", c_uint32), ("to", c_uint32), ("len", c_size_t)]


class _Number(ctypes.Structure):
    _fields_ = [("status", c_uint32), ("number", c_uint64)]


class _Change(ctypes.Structure):
    _fields_ = [("kind", c_uint32), ("index", c_uint32), ("atoms", c_uint32), ("len", c_uint32),
                ("text", c_uint8 * 64), ("lengths", c_uint8 * 64)]


_HELD = ctypes.POINTER(_Held)
_CALLS = {
    "td_version": (c_uint32,),
    "td_open": (c_uint32, c_uint8, c_uint8, _HELD),
    "td_load": (_Answer, c_uint8, c_uint8, c_char_p, c_size_t, _HELD),
    "td_save": (_Written, _HELD, c_char_p, c_size_t),
    "td_close": (None, _HELD),
    "td_insert": (_Answer, _HELD, c_uint32, c_char_p, c_size_t),
    "td_paste": (_Answer, _HELD, c_uint32, c_char_p, c_size_t),
    "td_delete": (_Answer, _HELD, c_uint32),
    "td_flatten_root": (_Answer, _HELD),
    "td_flatten_side": (_Answer, _HELD, c_uint32, c_bool),
    "td_cancel": (_Answer, _HELD, c_uint8, c_uint32),
    "td_changed": (c_uint32, _HELD, ctypes.POINTER(_Change)),
    "td_sent": (c_uint64, _HELD),
    "td_packet": (_Written, _HELD, c_uint64, c_char_p, c_size_t),
    "td_receive": (_Answer, _HELD, c_char_p, c_size_t),
    "td_ready": (c_bool, _HELD),
    "td_next": (_Answer, _HELD),
    "td_len": (c_uint32, _HELD),
    "td_text": (_Written, _HELD, c_char_p, c_size_t),
    "td_stretch": (_Written, _HELD, c_uint32, c_uint32, c_char_p, c_size_t),
    "td_len_in": (_Number, _HELD, c_uint32),
    "td_offset": (_Number, _HELD, c_uint32, c_uint32),
    "td_index": (_Number, _HELD, c_uint32, c_uint64),
    "td_site": (c_uint32, _HELD),
    "td_sites": (c_uint32, _HELD),
    "td_made": (c_uint32, _HELD),
    "td_waiting": (c_uint32, _HELD),
    "td_holds": (c_uint32, _HELD),
    "td_had": (_Answer, _HELD, c_uint8),
}


def _load():
    beside = os.path.join(os.path.dirname(os.path.abspath(__file__)), "libtreedoc.so")
    library = ctypes.CDLL(os.environ.get("TREEDOC_LIBRARY", beside))
    for name, (result, *arguments) in _CALLS.items():
        call = getattr(library, name)
        call.restype, call.argtypes = result, arguments
    if library.td_version() != VERSION:
        raise ImportError(f"the library has version {library.td_version()}, and not {VERSION}")
    return library


_library = _load()


def _answer(it):
    return Answer(Status(it.status), it.site, it.number, it.place)


def _number(it):
    if it.status != Status.DONE:
        raise Refused(it.status)
    return it.number


def _within(number, least, most):
    """The number, if C can be given it. Past its type it would be another one."""
    if not least <= number <= most:
        raise ValueError(f"{number} is not from {least} to {most}")
    return number


def _u8(number):
    return _within(number, 0, 2**8 - 1)


def _u32(number):
    return _within(number, 0, 2**32 - 1)


class Session:
    """The session of a site, from 1 to the number of sites, of which there are up to 64. Indexes count atoms from 0.
    With a journal, as `save` gives it, it is the session that was saved. One that is none is refused with BAD_JOURNAL
    and the place of the first byte at fault."""

    def __init__(self, site, sites, journal=None):
        self._held = _Held()
        self._at = ctypes.byref(self._held)
        if journal is None:
            answer = Answer(Status(_library.td_open(_u8(site), _u8(sites), self._at)))
        else:
            answer = _answer(_library.td_load(_u8(site), _u8(sites), journal, len(journal), self._at))
        if answer.status != Status.DONE:
            raise Refused(answer.status, answer.place)

    def save(self):
        """The journal of all that the session was asked and given: who has these bytes has the session."""
        return self._bytes(_library.td_save)

    def close(self):
        """Closes the session. One that is closed answers CLOSED to all that would change it."""
        _library.td_close(self._at)

    def __enter__(self):
        return self

    def __exit__(self, *_):
        self.close()

    def __del__(self):
        if hasattr(self, "_at"):
            self.close()

    def insert(self, index, atom):
        """Puts an atom, a str of 1 to 64 bytes, at an index. MADE, POSITION, HELD, LIMIT, BAD_ATOM or MEMORY."""
        data = atom.encode()
        return _answer(_library.td_insert(self._at, _u32(index), data, len(data)))

    def paste(self, index, text):
        """Puts the first run of a text at an index: `changed` tells which atoms that are. Answers as `insert`."""
        data = text.encode()
        return _answer(_library.td_paste(self._at, _u32(index), data, len(data)))

    def paste_all(self, index, text):
        """Puts a text at an index, run by run. Answers the last step, and the changes of the steps that were made."""
        changes = []
        while True:
            # a run ends long before the first 256 letters do, so no more of them are looked at
            answer = self.paste(index, text[:256])
            if answer.status != Status.MADE:
                return answer, changes
            put = self.changed()
            changes.append(put)
            index += len(put.atoms)
            text = text[sum(map(len, put.atoms)):]
            if not text:
                return answer, changes

    def delete(self, index):
        """Deletes the atom at an index. MADE, POSITION, HELD, LIMIT or MEMORY."""
        return _answer(_library.td_delete(self._at, _u32(index)))

    def flatten(self):
        """Proposes to flatten the whole document. MADE, HELD, LIMIT or MEMORY."""
        return _answer(_library.td_flatten_root(self._at))

    def flatten_side(self, index, right):
        """Proposes to flatten what hangs on one side of the atom at an index. As `flatten`, or POSITION."""
        return _answer(_library.td_flatten_side(self._at, _u32(index), right))

    def cancel(self, site, number):
        """Gives up the own proposal with this name. CANCELLED, NOT_OPEN, BAD_DOT or MEMORY."""
        return _answer(_library.td_cancel(self._at, _u8(site), _u32(number)))

    def changed(self):
        """What the last step did to the text: a Put, a Cut or None."""
        change = _Change()
        status = _library.td_changed(self._at, ctypes.byref(change))
        if status != Status.DONE:
            raise Refused(status)
        if change.kind == 0:
            return None
        if change.kind == 2:
            return Cut(change.index)
        atoms, at, data = [], 0, bytes(change.text)
        for length in change.lengths[:change.atoms]:
            atoms.append(data[at:at + length].decode())
            at += length
        return Put(change.index, tuple(atoms))

    def sent(self):
        """How many messages were sent."""
        return _library.td_sent(self._at)

    def packet(self, k):
        """The packet of the k-th message that was sent, from 1, as often as it is asked for."""
        room = ctypes.create_string_buffer(PACKET_ROOM)
        written = _library.td_packet(self._at, _within(k, 0, 2**64 - 1), room, PACKET_ROOM)
        if written.status != Status.DONE:
            raise Refused(written.status)
        return Packet(written.to or None, room.raw[:written.len])

    def receive(self, data):
        """Takes a packet. NEW, LATER, REPEAT, UNFIT, BAD_PACKET or MEMORY."""
        return _answer(_library.td_receive(self._at, data, len(data)))

    def ready(self):
        """Whether `next` would take an operation that waits."""
        return _library.td_ready(self._at)

    def next(self):
        """Takes the least ready operation of those that wait. TAKEN, DROPPED, IDLE or MEMORY."""
        return _answer(_library.td_next(self._at))

    def take(self, data):
        """Takes a packet and all that is ready then. Answers what became of the packet, and the changes in order."""
        changes, answer = [], self.receive(data)
        more = answer
        while more.status != Status.MEMORY:
            if more.status in (Status.NEW, Status.TAKEN):
                change = self.changed()
                if change is not None:
                    changes.append(change)
            if not self.ready():
                return answer, changes
            more = self.next()
        return more, changes

    def __len__(self):
        """How many atoms the text has."""
        return _library.td_len(self._at)

    def _bytes(self, call, *arguments):
        wanted = call(self._at, *arguments, ctypes.create_string_buffer(1), 1)
        if wanted.status == Status.SMALL_ROOM or wanted.status == Status.DONE:
            room = ctypes.create_string_buffer(wanted.len + 1)
            written = call(self._at, *arguments, room, wanted.len + 1)
            if written.status == Status.DONE:
                return room.raw[:written.len]
            raise Refused(written.status)
        raise Refused(wanted.status)

    def text(self):
        """The text."""
        return self._bytes(_library.td_text).decode()

    def stretch(self, start, stop):
        """The text of the atoms from an index on and before another."""
        return self._bytes(_library.td_stretch, _u32(start), _u32(stop)).decode()

    def len_in(self, unit=Unit.CODE_POINT):
        """How wide the text is, in a unit."""
        return _number(_library.td_len_in(self._at, _u32(unit)))

    def offset(self, index, unit=Unit.CODE_POINT):
        """How wide what stands before the atom at an index is, in a unit."""
        return _number(_library.td_offset(self._at, _u32(unit), _u32(index)))

    def index(self, offset, unit=Unit.CODE_POINT):
        """The index of the atom in which an offset in a unit lies: at the end, the number of atoms."""
        return _number(_library.td_index(self._at, _u32(unit), _within(offset, 0, 2**64 - 1)))

    def site(self):
        """The own site."""
        return _library.td_site(self._at)

    def sites(self):
        """How many sites share the text."""
        return _library.td_sites(self._at)

    def made(self):
        """How many operations were made here."""
        return _library.td_made(self._at)

    def waiting(self):
        """How many operations wait for others."""
        return _library.td_waiting(self._at)

    def holds(self):
        """How many proposals are held."""
        return _library.td_holds(self._at)

    def had(self, site):
        """How many operations of a site were made or taken here."""
        answer = _answer(_library.td_had(self._at, _u8(site)))
        if answer.status != Status.DONE:
            raise Refused(answer.status)
        return answer.number
