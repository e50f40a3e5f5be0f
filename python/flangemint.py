"""Checks of CMAF tracks and switching sets by the proved library, over bytes that are lent to it.

>>> check_track(b"")
Verdict(number=6, track=0, place=0, count=0, timescale=0, boundaries=())
>>> boxes(b"\\0\\0\\0\\x08free")
[Box(offset=0, size=8, type='free', depth=0)]
>>> Pieces().finish().verdict.number
6

`data` is bytes, a bytearray, a memoryview, an mmap or another contiguous buffer. None of them is copied, but for the
tracks of a set, which are put one behind the other. Nobody may change the bytes during a call, nor shorten a mapped
file. Functions may be called from several threads, which then run at once: a call does not hold the interpreter's lock.

The library is target/native/libflangemint.so of the repository that this file is in, which `make archive` builds, or
the file that FLANGEMINT_LIBRARY names.
"""

import array
import contextlib
import ctypes
import functools
import mmap
import os
import pathlib
from dataclasses import dataclass

__all__ = ["Answer", "Box", "NotBuilt", "Pieces", "Refused", "Verdict", "boxes", "check_set", "check_track"]
__version__ = "0.2.0"

# As in include/flangemint.h, which says how the rooms follow.
MAX_BYTES = 1073741824
MAX_BOXES = 65536
MAX_GATHERED = 32768
INDEX_ROOM = 4 * MAX_BOXES
TRACK_ROOM = (MAX_BOXES - 20) // 7 + 1


@dataclass(frozen=True)
class Verdict:
    """What a check answers; docs/REFUSALS.md explains each number.

    >>> str(check_track(b""))
    'refused 6 track 0 at 0'
    """

    number: int  # 0 where every rule holds, else the first broken rule
    track: int  # of a set, the track that breaks it, counted from 0
    place: int  # the byte that the refusal points to, counted from the start of that track
    count: int  # fragments of an accepted track or set; 0 on a refusal
    timescale: int  # ticks a second of an accepted track or set; 0 on a refusal
    boundaries: tuple = ()  # in ticks: the start of each fragment and the end of the last; empty on a refusal

    @property
    def accepted(self):
        return self.number == 0

    @property
    def sentence(self):
        """What the number means, in one sentence.

        >>> Verdict(19, 0, 2419, 0, 0).sentence
        "The chunk doesn't start where the one before ended."
        """
        return _library().flangemint_sentence(self.number).decode("ascii")

    def __str__(self):
        if self.accepted:
            return f"accepted fragments {self.count} timescale {self.timescale}"
        return f"refused {self.number} track {self.track} at {self.place}"


@dataclass(frozen=True)
class Answer:
    """What a track in pieces is answered with; its verdict has no boundaries but these two."""

    verdict: Verdict  # numbers 0 to 22 and 29
    first: int  # the first boundary in ticks; 0 on a refusal
    last: int  # the last boundary in ticks; 0 on a refusal


@dataclass(frozen=True)
class Box:
    """A box of the index; a box that holds it comes before it and has a smaller depth."""

    offset: int
    size: int  # of the whole box, header included
    type: str  # four letters; a byte that is none is the character of that number
    depth: int  # 0 at the top level


class Refused(Exception):
    """The bytes are not framed as boxes; `verdict` says where and why (numbers 1 to 5)."""

    def __init__(self, verdict):
        super().__init__(verdict)
        self.verdict = verdict

    def __str__(self):
        return f"{self.verdict}: {self.verdict.sentence}"


class NotBuilt(Exception):
    """The library is not there, or is no library for this machine."""


def check_track(data):
    """The verdict on one track, header and chunks (numbers 0 to 22).

    A chunk, a moof and its mdat, begins a fragment where its first sample is sync, else it continues one.
    """
    return _checked("flangemint_track", data)


def check_set(tracks):
    """The verdict on a switching set of 1 to 16 tracks (numbers 0 to 28).

    >>> str(check_set([]))
    'refused 24 track 0 at 0'
    """
    tracks = [memoryview(track).cast("B") for track in tracks]
    length = sum(6 + len(track) for track in tracks)
    if length > MAX_BYTES:
        # Rule 1 comes first and looks at the length alone, so that nothing has to be copied.
        with mmap.mmap(-1, MAX_BYTES + 1) as long:
            return _checked("flangemint_set", long)
    bundle = bytearray()
    for track in tracks:
        bundle += b"SW" + len(track).to_bytes(4, "big")
        bundle += track
    return _checked("flangemint_set", bundle)


def boxes(data):
    """The boxes of a slice, parents before children, in byte order; raises Refused where it is not framed as boxes."""
    verdict, table = _call("flangemint_index", data, _index_room)
    if not verdict.accepted:
        raise Refused(verdict)
    rows = (table[at : at + 4] for at in range(0, 4 * verdict.count, 4))
    return [Box(offset, size, kind.to_bytes(4, "big").decode("latin-1"), depth) for offset, size, kind, depth in rows]


class _State(ctypes.Structure):
    """struct flangemint_pieces."""

    _fields_ = [
        ("numbers", ctypes.c_uint64 * 24),
        ("head", ctypes.c_uint8 * 16),
        ("kept", ctypes.c_uint8 * MAX_GATHERED),
    ]


class Pieces:
    """A track that arrives in pieces of any length; nothing of a data box is kept. One thread at a time feeds it.

    >>> pieces = Pieces()
    >>> pieces.feed(b"\\0\\0\\0\\x08fr")
    >>> pieces.feed(b"ee")
    >>> print(pieces.finish().verdict)
    refused 6 track 0 at 0
    """

    def __init__(self):
        self._state = _State()
        _library().flangemint_pieces_begin(self._state.numbers)

    def feed(self, data):
        """Takes the next bytes; they may be none."""
        state = self._state
        with _memory(data) as (start, length):
            _library().flangemint_pieces_take(state.numbers, state.head, state.kept, start, length)

    def finish(self):
        """The answer about all the bytes until now. It changes nothing: feeding can go on."""
        state, answer = self._state, (ctypes.c_uint64 * 7)()
        _library().flangemint_pieces_answer(state.numbers, state.head, state.kept, answer)
        return Answer(Verdict(*answer[:5]), *answer[5:])


def _checked(name, data):
    """The verdict of the track or the set job, with its boundaries."""
    verdict, table = _call(name, data, _track_room)
    if not verdict.accepted:
        return verdict
    boundaries = tuple(table[: verdict.count + 1])
    return Verdict(0, verdict.track, verdict.place, verdict.count, verdict.timescale, boundaries)


class _Buffer(ctypes.Structure):
    """Python's Py_buffer."""

    _fields_ = [
        ("buf", ctypes.c_void_p),
        ("obj", ctypes.c_void_p),
        ("len", ctypes.c_ssize_t),
        ("itemsize", ctypes.c_ssize_t),
        ("readonly", ctypes.c_int),
        ("ndim", ctypes.c_int),
        ("format", ctypes.c_char_p),
        ("shape", ctypes.c_void_p),
        ("strides", ctypes.c_void_p),
        ("suboffsets", ctypes.c_void_p),
        ("internal", ctypes.c_void_p),
    ]


@contextlib.contextmanager
def _memory(data):
    """Start and length of the memory of `data` itself, also where that is read-only."""
    view = _Buffer()
    python = ctypes.pythonapi
    python.PyObject_GetBuffer(ctypes.py_object(data), ctypes.byref(view), 0)
    try:
        # no pointer may be null, even of a slice that has no bytes
        yield view.buf or ctypes.addressof(view), view.len
    finally:
        python.PyBuffer_Release(ctypes.byref(view))


def _index_room(length):
    """Numbers that the index of so many bytes needs at most, and some where there is no box: a box has at least 8."""
    return min(4 * (length // 8 + 1), INDEX_ROOM)


def _track_room(length):
    """Numbers that a track or a set of so many bytes needs at most.

    A chunk of an accepted track has at least 92: moof 8, mfhd 16, traf 8, tfhd 16, tfdt 16, trun with its offset 20,
    mdat 8.
    """
    return min(length // 92 + 1, TRACK_ROOM)


def _call(name, data, room):
    """Calls a job; its verdict and the table that it wrote."""
    function = getattr(_library(), name)
    numbers = (ctypes.c_uint64 * 5)()
    with _memory(data) as (start, length):
        table = array.array("Q", [0]) * room(length)
        function(start, length, table.buffer_info()[0], len(table), numbers)
    return Verdict(*numbers), table


@functools.lru_cache(maxsize=None)
def _library():
    """The library, loaded at the first call."""
    own = pathlib.Path(__file__).resolve().parent.parent / "target" / "native" / "libflangemint.so"
    path = os.environ.get("FLANGEMINT_LIBRARY") or str(own)
    if not os.path.exists(path):
        raise NotBuilt(f"{path} is not there; `make archive` in the repository builds it")
    try:
        library = ctypes.CDLL(path)
        memory, length = ctypes.c_void_p, ctypes.c_size_t
        for name, arguments in (
            ("index", [memory, length, memory, length, memory]),
            ("track", [memory, length, memory, length, memory]),
            ("set", [memory, length, memory, length, memory]),
            ("pieces_begin", [memory]),
            ("pieces_take", [memory, memory, memory, memory, length]),
            ("pieces_answer", [memory, memory, memory, memory]),
        ):
            function = getattr(library, f"flangemint_{name}")
            function.restype, function.argtypes = None, arguments
        library.flangemint_sentence.restype = ctypes.c_char_p
        library.flangemint_sentence.argtypes = [ctypes.c_uint64]
    except (OSError, AttributeError) as error:
        raise NotBuilt(f"{path} can't be used: {error}; `make archive` in the repository builds it anew") from error
    return library
