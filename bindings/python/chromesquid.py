"""Searches bytes and strings for many patterns at once, with the proved C library of Chromesquid.

    >>> from chromesquid import AhoCorasick
    >>> searcher = AhoCorasick(["samwise", "sam", "frodo"], kind="leftmost-first")
    >>> searcher.find("frodo and samwise")
    Match(pattern=2, start=0, end=5)
    >>> [match.end for match in searcher.find_iter("frodo and samwise")]
    [5, 17]
    >>> searcher.replace_all("frodo and samwise", ["S", "s", "F"])
    'F and S'

Patterns are numbered in the order in which they are given, from 0. Offsets count bytes in a
haystack of bytes, and characters in a str.

A call on a short haystack takes a few microseconds with ctypes, and less than one with the
extension module _chromesquid.

This file needs a processor of x86-64-v2 and libchromesquid.so.0, which bin/clib builds. It looks
for the library in the folder that the environment variable CHROMESQUID_LIBRARY names. Without the
variable, it looks next to this file, and then where bin/install or the system has libraries. On a
processor with AVX2 it uses the library in glibc-hwcaps of that folder. `python3 -m chromesquid`
prints which library it found, after a test search."""

from __future__ import annotations

import codecs
import contextlib
import ctypes
import io
import itertools
import logging
import operator
import os
import select
import struct
import threading
import types
import weakref
from bisect import bisect_right
from typing import Any, Iterable, Iterator, List, Mapping, NamedTuple, Optional, Sequence, Tuple, Union, overload

try:
    import _chromesquid as _small  # type: ignore[import]
except ImportError:  # it was not built: ctypes does small calls too
    _small = None

__all__ = [
    "AhoCorasick",
    "BuildError",
    "Coverer",
    "FormError",
    "LogFilter",
    "Match",
    "Redactor",
    "ReplacementError",
    "Replacer",
    "SearchError",
    "Stream",
    "forms",
    "version",
]

# bytes, bytearray, memoryview, mmap, array: any object with a buffer.
Haystack = Union[str, bytes, bytearray, memoryview, Any]
Bytes = Union[bytes, bytearray, memoryview, Any]
_Raw = bytes
# One for each pattern: a sequence in the order of the patterns, or a mapping from the patterns as
# given. The type is List[Any], because a type checker does not accept a list of str as a list of
# Haystack.
Replacements = Union[List[Any], Tuple[Haystack, ...], Mapping[Any, Haystack]]


class Match(NamedTuple):
    """A match: the number of its pattern, and the offsets of its start and its end."""

    pattern: int
    start: int
    end: int


class BuildError(ValueError):
    """There are too many patterns, or one is too long. `pattern` is the number of the refused
    pattern, or None if the patterns need too many states. `requested` is the value above its limit:
    a pattern's number, its length, or an index. `limit` is the limit.

        >>> try: AhoCorasick(["sam", "samwise"], max_len=5)
        ... except BuildError as error: print(error), (error.pattern, error.requested, error.limit)
        pattern 1 with length 7 exceeds the maximum pattern length of 5
        (None, (1, 7, 5))
    """

    def __init__(self, text: str, pattern: Optional[int], requested: int, limit: int) -> None:
        super().__init__(text, pattern, requested, limit)
        self.pattern, self.requested, self.limit = pattern, requested, limit

    def __str__(self) -> str:
        return str(self.args[0])


class SearchError(ValueError):
    """The searcher does not support the search."""


class FormError(ValueError):
    """There are no secrets, or one is empty, or it has no forms because it has fewer than four
    bytes. The message has the number of the secret, and never shows it."""


class ReplacementError(TypeError, ValueError):
    """The replacements are not one for each pattern: a list or a tuple of another length, a mapping
    whose keys are not exactly the patterns, or an object of another type."""


class _Prepared(NamedTuple):
    """Replacements as the library takes them, with what they were made from."""

    given: Any  # the tuple that a caller gave; None for a list or a mapping, which can change
    pieces: Tuple[Haystack, ...]
    of_text: Optional[bool]  # whether they all have type str; None if only some have
    slices: Any


class _Slice(ctypes.Structure):
    _fields_ = [("at", ctypes.c_char_p), ("len", ctypes.c_size_t)]


class _Options(ctypes.Structure):
    _fields_ = [
        ("size", ctypes.c_uint32),
        ("match_kind", ctypes.c_uint32),
        ("start_kind", ctypes.c_uint32),
        ("ignore_case", ctypes.c_bool),
        ("prefilter", ctypes.c_bool),
        ("automaton", ctypes.c_uint32),
        ("max_index", ctypes.c_size_t),
        ("max_pattern", ctypes.c_size_t),
        ("max_len", ctypes.c_size_t),
        ("later", ctypes.c_uint64 * 4),
    ]


class _Error(ctypes.Structure):
    _fields_ = [
        ("status", ctypes.c_uint32),
        ("option", ctypes.c_uint32),
        ("pattern", ctypes.c_size_t),
        ("requested", ctypes.c_uint64),
        ("max", ctypes.c_uint64),
    ]


class _Match(ctypes.Structure):
    _fields_ = [("pattern", ctypes.c_size_t), ("start", ctypes.c_size_t), ("end", ctypes.c_size_t)]


class _Facts(ctypes.Structure):
    _fields_ = [(name, ctypes.c_size_t) for name in ("patterns", "min_len", "max_len", "memory")]


class _Handle(ctypes.Structure):
    """The library's handle of a searcher, or none. It is freed with this object."""

    _fields_ = [("full", ctypes.c_bool), ("at", ctypes.c_void_p)]

    def __del__(self) -> None:
        if _free is not None:  # it is None when the interpreter ends
            _free(ctypes.byref(self))


class _StreamHandle(ctypes.Structure):
    """The library's handle of a stream, or none. It is freed with this object."""

    _fields_ = [("full", ctypes.c_bool), ("at", ctypes.c_void_p)]

    def __del__(self) -> None:
        if _stream_free is not None:  # it is None when the interpreter ends
            _stream_free(ctypes.byref(self))


class _View(ctypes.Structure):
    """CPython's Py_buffer, which describes the bytes of a buffer."""

    _fields_ = [
        ("buf", ctypes.c_void_p),
        ("obj", ctypes.py_object),
        ("len", ctypes.c_ssize_t),
        ("itemsize", ctypes.c_ssize_t),
        ("readonly", ctypes.c_int),
        ("ndim", ctypes.c_int),
        ("format", ctypes.c_char_p),
        ("shape", ctypes.c_void_p),
        ("strides", ctypes.c_void_p),
        ("suboffsets", ctypes.c_void_p),
        ("internal", ctypes.c_void_p),
    ]


class _Lent:
    """The bytes of a read-only buffer, borrowed as long as this object exists."""

    def __init__(self, buffer: Any) -> None:
        self._view = _View()
        ctypes.pythonapi.PyObject_GetBuffer(ctypes.py_object(buffer), ctypes.byref(self._view), 0)
        self._as_parameter_ = ctypes.c_void_p(self._view.buf)

    def __len__(self) -> int:
        return int(self._view.len)

    def __del__(self) -> None:
        ctypes.pythonapi.PyBuffer_Release(ctypes.byref(self._view))


_DONE, _FOUND, _NO_MEMORY, _NO_ROOM, _ENDED, _TOO_SHORT = 0, 1, 5, 11, 12, 15
_TOO_MANY_STATES, _TOO_MANY_PATTERNS, _TOO_LONG = 7, 8, 9
_WHY_REFUSED = {
    3: "the searcher does not support such a search",
    _ENDED: "the stream has ended",
    13: "the stream has its maximum length of 2^63 - 1 bytes",
    14: "a pattern is empty, and neither streams nor covers support empty patterns",
}
_KINDS = {"standard": 0, "leftmost-first": 1, "leftmost-longest": 2}
_AUTOMATA = {None: 0, "noncontiguous": 1, "rows": 2}
_FORMS = {"base64": 1, "hex": 2, "url": 4, "json": 8, "xml": 16, "shell": 32, "lines": 64}
_ENCODING = ("utf-8", "surrogatepass")
_MATCH = struct.Struct("NNN")
_EACH_A_MATCH = itertools.repeat(Match)
_FEW = 256
# The number of matches of one call of the library, unless more end at one offset.
_ROOM_FIRST, _ROOM_LAST = 1 << 12, 1 << 16
_STEP_FIRST, _STEP_LAST = 1 << 14, 1 << 20  # the number of bytes that one call searches
_NUMBERS = tuple(order + it for order in ("", "@", "=", "<") for it in "QqLlNn")  # formats of a buffer of 64-bit numbers
_PIECE = 1 << 16
_INSIDE = bytes(range(0x80, 0xC0))  # the bytes of a UTF-8 character except the first
_VERSION = 100


def _has_avx2() -> bool:
    """Returns whether the processor is x86-64-v3, so that its library is tried. From glibc 2.33 on,
    the loader checks that too."""
    flags: List[bytes] = []
    with contextlib.suppress(OSError), open("/proc/cpuinfo", "rb") as file:
        flags = next((line.split() for line in file if line.startswith(b"flags")), flags)
    return {b"avx2", b"bmi1", b"bmi2", b"f16c", b"fma", b"abm", b"movbe"} <= {*flags}


def _library() -> ctypes.CDLL:
    names, here = ("libchromesquid.so.0", "libchromesquid.so"), os.path.dirname(os.path.abspath(__file__))
    # bin/install puts this file two folders below the libraries.
    named = os.environ.get("CHROMESQUID_LIBRARY")
    folders = [named] if named else [here, os.path.dirname(os.path.dirname(here))]
    wide = ["glibc-hwcaps/x86-64-v3/libchromesquid.so.0"] if _has_avx2() else []
    places = [it for it in (os.path.join(folder, name) for folder in folders for name in (*wide, *names)) if os.path.exists(it)]
    if named and not places:
        raise ImportError(f"CHROMESQUID_LIBRARY is {named!r}, which is not a folder with {names[0]}")
    for place in places or [names[0]]:  # the loader searches for a bare name
        try:
            return ctypes.CDLL(place)
        except OSError as error:
            if "ISA level" not in str(error):
                raise ImportError(f"{error}: bin/install installs it, and CHROMESQUID_LIBRARY names its folder") from error
            refused = error
    raise ImportError("libchromesquid needs an x86-64-v2 processor (SSE4.2), as most since 2009 are") from refused


_loaded = _library()


def _function(name: str, result: Any, *parameters: Any) -> Any:
    function = getattr(_loaded, name)
    function.restype, function.argtypes = result, parameters
    return function


_HANDLE, _COUNT = ctypes.POINTER(_Handle), ctypes.POINTER(ctypes.c_size_t)
_HAYSTACK, _ROOM = (ctypes.c_void_p, ctypes.c_size_t), (ctypes.c_void_p, ctypes.c_size_t)
_SLICES = (ctypes.POINTER(_Slice), ctypes.c_size_t)
_version = _function("cs_version", ctypes.c_uint32)
_build = _function("cs_try_build", ctypes.c_uint32, *_SLICES, ctypes.POINTER(_Options), _HANDLE, ctypes.POINTER(_Error))
_error_text = _function("cs_error_text", ctypes.c_uint32, ctypes.POINTER(_Error), *_ROOM, _COUNT)
_free = _function("cs_free", None, _HANDLE)
_share = _function("cs_share", ctypes.c_uint32, _HANDLE, _HANDLE)
_is_match = _function("cs_is_match", ctypes.c_uint32, _HANDLE, *_HAYSTACK)
_find = _function("cs_find", ctypes.c_uint32, _HANDLE, *_HAYSTACK, ctypes.POINTER(_Match))
# A short search ends sooner than another thread could start, so it keeps the interpreter's lock. It
# has no parameter types, whose checks take half of such a call: its arguments are addresses, bytes
# and a length below 2^31.
_find_short, _is_match_short = (ctypes.PyDLL(_loaded._name)[it] for it in ("cs_find", "cs_is_match"))
_find_short.restype = _is_match_short.restype = ctypes.c_uint32
_SHORT = 512
_find_all = _function("cs_find_all", ctypes.c_uint32, _HANDLE, *_HAYSTACK, *_ROOM, _COUNT)
_overlapping = _function("cs_overlapping", ctypes.c_uint32, _HANDLE, *_HAYSTACK, *_ROOM, _COUNT)
_replace_all = _function("cs_replace_all", ctypes.c_uint32, _HANDLE, *_HAYSTACK, *_SLICES, *_ROOM, _COUNT)
_cover_all = _function("cs_cover_all", ctypes.c_uint32, _HANDLE, *_HAYSTACK, *_SLICES, *_ROOM, _COUNT)
_forms = _function("cs_forms", ctypes.c_uint32, *_HAYSTACK, ctypes.c_uint32, *_ROOM, *_ROOM, _COUNT, _COUNT)
_info = _function("cs_info", ctypes.c_uint32, _HANDLE, ctypes.POINTER(_Facts))
_STREAM = ctypes.POINTER(_StreamHandle)
_stream_new = _function("cs_stream_new", ctypes.c_uint32, _HANDLE, _STREAM)
_stream_push = _function("cs_stream_push", ctypes.c_uint32, _STREAM, *_HAYSTACK, _COUNT)
_stream_next = _function("cs_stream_next", ctypes.c_uint32, _STREAM, ctypes.POINTER(_Match))
_stream_replace = _function("cs_stream_replace", ctypes.c_uint32, _STREAM, *_SLICES, *_ROOM, _COUNT)
_stream_end = _function("cs_stream_end", ctypes.c_uint32, _STREAM)
_stream_free = _function("cs_stream_free", None, _STREAM)
# The addresses of the functions that the extension module calls.
_SMALL_CALLS = "cs_share", "cs_free", "cs_is_match", "cs_find", "cs_find_all", "cs_overlapping", "cs_replace_all"
_addresses = tuple(ctypes.cast(getattr(_loaded, it), ctypes.c_void_p).value for it in _SMALL_CALLS)
if _version() != _VERSION:
    raise ImportError(f"this file needs version {_VERSION} of libchromesquid.so, and found version {_version()}")


def version() -> Tuple[int, int, int]:
    """Returns the version of the library: major, minor, patch."""
    number = _version()
    return number // 10000, number // 100 % 100, number % 100


__version__ = ".".join(map(str, version()))


def _text(given: Any) -> str:
    """Returns the actual characters of a string. A subclass of str may report another length or
    other bytes, and an object that only claims to be a str has its characters from str()."""
    return given if type(given) is str else "".join([given if issubclass(type(given), str) else str(given)])


def _pattern_bytes(pattern: Haystack, what: str = "a pattern") -> bytes:
    if type(pattern) is bytes:
        return pattern
    return _text(pattern).encode(*_ENCODING) if isinstance(pattern, str) else bytes(_viewed(pattern, what))


def _viewed(given: Any, what: str) -> memoryview:
    """Returns the buffer of an object. The error of one that has none says what it should be."""
    try:
        return memoryview(given)
    except TypeError:
        if isinstance(given, (bytes, bytearray, memoryview)):  # a class that refuses by itself
            raise
        kind = type(given).__name__
    raise TypeError(f"{what} must be a str, bytes or another buffer, not {kind}")


def _slices(items: Sequence[bytes]) -> Any:
    """Returns the byte strings in the form that the library accepts. The library keeps none of
    them."""
    return (_Slice * len(items))(*(_Slice(item, len(item)) for item in items))


def _borrowed(haystack: Bytes) -> Any:
    """Returns the bytes of a buffer in the form that the library accepts, copied only if
    necessary."""
    if type(haystack) is bytes:  # a subclass may report a wrong length
        return haystack
    view = _viewed(haystack, "a haystack")
    if not view.c_contiguous or view.nbytes == 0:
        return view.tobytes()
    return _Lent(view) if view.readonly else (ctypes.c_char * view.nbytes).from_buffer(view.cast("B"))


class AhoCorasick:
    """A searcher for a list of patterns, all of type str or all of bytes. The patterns may come
    from any ordered iterable; a mapping gives its keys.

    `kind` selects one of several possible matches. "standard" finds the match that ends first. Of
    the matches that start first, "leftmost-first" finds the one whose pattern was given first, and
    "leftmost-longest" the longest. With `ignore_case`, ASCII letters match in either case.

    `prefilter` and `automaton` change the speed, and no answer. "rows" is the fastest automaton and
    the default; "noncontiguous" is built faster. `max_index`, `max_pattern` and `max_len` limit the
    greatest index of a table, the greatest number of a pattern and its length. The limits are at
    most 2^31 - 2, which is the default.

    `items` is a list with one value for each pattern, or a mapping from each pattern to its value.
    Then `items[match.pattern]` is the value for a match:

        >>> searcher = AhoCorasick(["he", "hers"], items=[3.5, None])
        >>> [(match.end - 1, searcher.items[match.pattern]) for match in searcher.find_overlapping_iter("hers")]
        [(1, 3.5), (3, None)]

    A haystack is a str, if the patterns are, or bytes or another buffer. In a buffer, a pattern of
    type str means its UTF-8. A buffer must not change while a call runs. Any number of threads may
    use one searcher at the same time. A pickled searcher consists of its patterns, and is rebuilt
    from them. A searcher keeps the replacements of its last call, so that the same ones are not
    prepared again.

    Raises BuildError if there are too many patterns or one is too long. Every call raises
    MemoryError if memory runs out, and TypeError if an argument has the wrong type."""

    def __init__(
        self,
        patterns: Iterable[Haystack],
        *,
        kind: str = "standard",
        ignore_case: bool = False,
        prefilter: bool = True,
        automaton: Optional[str] = None,
        max_index: Optional[int] = None,
        max_pattern: Optional[int] = None,
        max_len: Optional[int] = None,
        items: Union[Sequence[Any], Mapping[Any, Any], None] = None,
    ) -> None:
        given = _patterns_of(patterns)
        for name, flag in ("ignore_case", ignore_case), ("prefilter", prefilter):
            if hasattr(type(flag), "__len__"):  # a str or a list, whose truth is whether it is empty
                raise TypeError(f"{name} must be True or False, not {type(flag).__name__}")
        if kind not in _KINDS:
            raise ValueError(f"unknown kind {kind!r}: the kinds are {', '.join(_KINDS)}")
        if automaton not in _AUTOMATA:
            raise ValueError(f"unknown automaton {automaton!r}: the automata are noncontiguous and rows")
        texts = sum(isinstance(it, str) for it in given)
        if texts not in (0, len(given)):
            raise TypeError("the patterns must all be of type str, or all of bytes")
        words = [_pattern_bytes(it) for it in given]
        self._patterns: Tuple[Union[str, bytes], ...] = tuple(given) if texts else tuple(words)
        self._of_texts = texts > 0 or not given
        self.__items = None if items is None else _items_of(items, self._patterns)
        self.__kind, self._ignore_case, self._prefilter = kind, bool(ignore_case), bool(prefilter)
        self._longest = max(map(len, words), default=0)
        self._handle = _Handle()
        # The replacements of the last call, in one object: threads read and set it as a whole.
        self.__prepared: Optional[_Prepared] = None
        self._begin_process()
        _searchers[id(self)] = self
        self.__rest = automaton, max_index, max_pattern, max_len
        limits = [_limit(it) for it in self.__rest[1:]]
        size, number = ctypes.sizeof(_Options), _AUTOMATA[automaton]
        options, error = _Options(size, _KINDS[kind], 0, self._ignore_case, self._prefilter, number, *limits), _Error()
        status = _build(_slices(words), len(words), ctypes.byref(options), ctypes.byref(self._handle), ctypes.byref(error))
        if status in (_TOO_MANY_STATES, _TOO_MANY_PATTERNS, _TOO_LONG):
            raise _build_error(error)
        _check(status)
        # The extension module, if it was built, does small calls, and returns NotImplemented for
        # others.
        self._small = _small.Searcher(_addresses, ctypes.addressof(self._handle), self._of_texts, Match) if _small else None

    @property
    def patterns(self) -> Tuple[Union[str, bytes], ...]:
        """Returns the patterns, in the order of their numbers."""
        return self._patterns

    @property
    def items(self) -> Tuple[Any, ...]:
        """Returns the values for the patterns, in the order of their numbers. Without values, they
        are the patterns."""
        return self._patterns if self.__items is None else self.__items

    @property
    def kind(self) -> str:
        """Returns which of several possible matches is found."""
        return self.__kind

    def memory_usage(self) -> int:
        """Returns the memory of the searcher in bytes, from the documented sizes of its parts. The
        patterns that this object also keeps are not counted."""
        facts = _Facts()
        _check(_info(self._reference(), ctypes.byref(facts)))
        return int(facts.memory)

    def is_match(self, haystack: Haystack) -> bool:
        """Returns whether a pattern occurs in `haystack`."""
        if self._small is not None:
            answer = self._small.is_match(haystack)
            if answer is not NotImplemented:
                return answer
        given = self._bytes_of(haystack)
        if len(given) < _SHORT and type(given) is bytes:
            status = _is_match_short(self._reference(), given, len(given))
        else:
            status = _is_match(self._reference(), given, len(given))
        if status == _FOUND:
            return True
        _check(status)
        return False

    def find(self, haystack: Haystack) -> Optional[Match]:
        """Returns the first match in `haystack`, or None."""
        if self._small is not None:
            answer = self._small.find(haystack)
            if answer is not NotImplemented:
                return answer
        given = self._bytes_of(haystack)
        own = self.__own
        # The buffer for a match is removed from the list while it is in use: a signal handler or a
        # finalizer may search in the same thread at that time.
        try:
            into = own.into.pop()
        except (AttributeError, IndexError):
            own.into, into = [], ctypes.byref(_Match())
        if len(given) < _SHORT and type(given) is bytes:
            status = _find_short(self._reference(), given, len(given), into)
        else:
            status = _find(self._reference(), given, len(given), into)
        found = into._obj
        match = Match(found.pattern, found.start, found.end) if status == _FOUND else None
        own.into.append(into)
        if match is None:
            _check(status)
            return None
        return next(self._characters([match], given)) if _is_wide(haystack) else match

    def find_iter(self, haystack: Haystack) -> Iterator[Match]:
        """Returns an iterator over the matches. Each search begins where the previous match ended.
        The iterator searches as it goes, some matches at a time, so it needs no memory for all
        matches, and the haystack must not change before its last match."""
        if self._small is not None:
            answer = self._small.find_all(haystack)
            if answer is not NotImplemented:
                return iter(answer)
        return self._listed(_find_all, self._finds, haystack)

    def find_overlapping_iter(self, haystack: Haystack) -> Iterator[Match]:
        """Returns an iterator over all matches, including overlapping ones, sorted by end, then
        start, then number. It searches as it goes, as `find_iter` does. In memory are the matches
        that end within a few times the length of the longest pattern, with 24 bytes each.

        Raises SearchError if the kind is not "standard"."""
        if self.__kind != "standard":
            raise SearchError(f"only the kind standard lists overlapping matches, and the kind of this searcher is {self.__kind}")
        if self._small is not None:
            answer = self._small.overlapping(haystack)
            if answer is not NotImplemented:
                return iter(answer)
        return self._listed(_overlapping, self._occurrences, haystack)

    def find_into(self, haystack: Bytes, room: Any, *, overlapping: bool = False) -> int:
        """Writes the matches in a haystack of bytes to an array.array("Q") or another buffer of
        unsigned 64-bit numbers. Returns the number of matches. Each match takes three numbers, and
        only as many matches are written as fit. No object is created for a match, and the array can
        be used again.

            >>> import array
            >>> room = array.array("Q", bytes(24 * 100))
            >>> AhoCorasick([b"sam"]).find_into(b"sam and sam", room), room[:6].tolist()
            (2, [0, 0, 3, 0, 8, 11])
        """
        if isinstance(haystack, str):
            raise TypeError("offsets in an array count bytes, so the haystack must not be a str")
        if overlapping and self.__kind != "standard":
            raise SearchError(f"only the kind standard lists overlapping matches, and the kind of this searcher is {self.__kind}")
        given, count, view = _borrowed(haystack), ctypes.c_size_t(), memoryview(room)
        if view.readonly or view.itemsize != 8 or view.format not in _NUMBERS:
            raise TypeError("the room must be a writable buffer of 64-bit integers")
        fits = view.nbytes // _MATCH.size
        found = (ctypes.c_char * view.nbytes).from_buffer(view) if fits else None
        if found is not None and _overlap(given, found):
            raise ValueError("the room must not be a part of the haystack")
        _check((_overlapping if overlapping else _find_all)(self._reference(), given, len(given), found, fits, ctypes.byref(count)))
        return count.value

    def stream(self, reader: Any) -> Iterator[Match]:
        """Returns an iterator over the matches in a stream, each as soon as it is certain. The
        reader has a method `read`, as a file or a socket's makefile() has, or it is an iterable of
        pieces. The pieces are str, if the patterns are, or bytes, and offsets count from the first
        piece. The stream is read in pieces of 65536. Only one piece and what the longest pattern
        needs are in memory. A text reader, such as `open(name)` returns, waits for that many
        characters; a reader of bytes returns what is available.

        A match of kind "standard" is certain at its last byte. A match of another kind is certain
        at the first byte after it that rules out every better match, or at the end of the stream.
        It waits for one more byte even if no better match is possible.

            >>> import io
            >>> [match.start for match in AhoCorasick([b"sam"]).stream(io.BytesIO(b"frodo, sam"))]
            [7]

        If the reader fails, or has no data yet (BlockingIOError), the iterator raises its error,
        and SearchError from then on: what was read is lost, so a second call would not continue
        there. To continue after an error, push pieces to a `Stream`.

        Raises SearchError if a pattern is empty."""
        return _Told(Stream(self), _pieces_of(reader))

    def stream_replace_all(self, reader: Any, writer: Any, replace_with: Replacements) -> None:
        """Writes the contents of a reader to a writer, with each match replaced as in
        `replace_all`. It reads as `stream` does, and writes each part as soon as it is certain. The
        writer has a method `write`, which writes everything that it receives.

            >>> import io
            >>> there = io.StringIO()
            >>> AhoCorasick(["sam"]).stream_replace_all(io.StringIO("frodo, sam"), there, ["S"])
            >>> there.getvalue()
            'frodo, S'

        If the reader or the writer fails, or is not ready (BlockingIOError), the data that was read
        and not written is lost: a second call would not continue there. To continue after an error,
        push pieces to a `Replacer`.

        Raises ReplacementError if the replacements are not one for each pattern, and SearchError if
        a pattern is empty."""
        replacer, pieces = Replacer(self, replace_with), _pieces_of(reader)
        for piece in pieces:
            _write(writer, replacer.push(piece))
        _write(writer, replacer.end())

    @overload
    def replace_all(self, haystack: str, replace_with: Replacements) -> str: ...  # type: ignore[misc]

    @overload
    def replace_all(self, haystack: Bytes, replace_with: Replacements) -> bytes: ...

    def replace_all(self, haystack: Haystack, replace_with: Replacements) -> Union[str, bytes]:
        """Returns the haystack with each match replaced by the replacement of its pattern: a str
        for a str, otherwise bytes. The replacements are a list or a tuple with one for each
        pattern, or a mapping from each pattern, as it was given, to its replacement. If a call has
        the same replacements as the one before, they are not prepared again; a tuple is recognised
        fastest.

            >>> table = {"frodo": "F", "sam": "S"}
            >>> AhoCorasick(table).replace_all("frodo and sam", table)
            'F and S'

        Raises ReplacementError, which is a TypeError and a ValueError, if the replacements are not
        one for each pattern."""
        if self._small is not None:
            answer = self._small.replace_all(haystack, replace_with)
            if answer is not NotImplemented:
                return answer
        prepared = self._prepare(replace_with, isinstance(haystack, str))
        if _is_wide(haystack) and "" in self._patterns:
            return self._replaced(haystack, prepared.pieces)
        return self._written(_replace_all, haystack, prepared.slices)

    @overload
    def cover_all(self, haystack: str, replace_with: Replacements) -> str: ...  # type: ignore[misc]

    @overload
    def cover_all(self, haystack: Bytes, replace_with: Replacements) -> bytes: ...

    def cover_all(self, haystack: Haystack, replace_with: Replacements) -> Union[str, bytes]:
        """Returns the haystack with each run of matched bytes replaced, so that nothing of a match
        remains. Matches that overlap or touch are one run. Its replacement is that for the longest
        pattern that matches at the start of the run, or the first of several equal ones.

            >>> AhoCorasick(["ann", "anna", "nan"]).cover_all("annan, ann", ["[1]", "[2]", "[3]"])
            '[2], [1]'

        The replacements are given as for `replace_all`. Raises ReplacementError if they are not one
        for each pattern, and SearchError if the kind is not "standard" or a pattern is empty."""
        prepared = self._prepare(replace_with, isinstance(haystack, str))
        if self.__kind != "standard":
            raise SearchError(f"only the kind standard covers, and the kind of this searcher is {self.__kind}")
        return self._written(_cover_all, haystack, prepared.slices)

    def __reduce__(self) -> Tuple[Any, ...]:
        given = self._patterns, self.__kind, self._ignore_case, self._prefilter, *self.__rest
        made = (_rebuilt, given) if type(self) is AhoCorasick else (_rebuilt_as, (type(self), *given))
        state = _state_of(self, _BUILT if self.__items is None else _BUILT - {"_AhoCorasick__items"})
        return (*made, state) if state else made

    def __repr__(self) -> str:
        return f"<AhoCorasick of {len(self._patterns)} patterns, {self.__kind}>"

    def _prepare(self, replace_with: Replacements, of_text: Optional[bool]) -> _Prepared:
        """Returns the replacements by their patterns' numbers, as the library takes them: all of
        type str, or none, as `of_text` says; if that is None, all of one type. No message shows a
        replacement. What the last call prepared is used again if each of them is the same
        object."""
        kept = self.__prepared
        if kept is not None and kept.given is replace_with:
            return _of_type(kept, of_text)
        pieces = self._pieces(replace_with)
        given = replace_with if type(replace_with) is tuple else None
        if kept is not None and len(pieces) == len(kept.pieces) and all(map(operator.is_, pieces, kept.pieces)):
            self.__prepared = kept if given is None else kept._replace(given=given)
            return _of_type(kept, of_text)
        texts = sum(isinstance(it, str) for it in pieces)
        all_texts = texts > 0 if texts in (0, len(pieces)) else None
        prepared = _of_type(_Prepared(given, pieces, all_texts, None), of_text)
        words = [_pattern_bytes(it, "a replacement") for it in pieces]
        prepared = prepared._replace(slices=_slices(words))
        if {*map(type, pieces)} in ({str}, {bytes}):  # others can change
            self.__prepared = prepared
        return prepared

    def _pieces(self, replace_with: Replacements) -> Tuple[Haystack, ...]:
        if isinstance(replace_with, Mapping):
            return self._pieces_by_pattern(replace_with)
        return self._pieces_in_order(replace_with)

    def _pieces_by_pattern(self, replace_with: Mapping[Any, Haystack]) -> Tuple[Haystack, ...]:
        if type(replace_with) is dict and len(replace_with) == len(self._patterns):
            with contextlib.suppress(KeyError):  # then the loop below finds the pattern
                return tuple(map(replace_with.__getitem__, self._patterns))
        for number, pattern in enumerate(self._patterns):
            if pattern not in replace_with:
                raise ReplacementError(f"the mapping has no replacement for pattern {number}")
        if len(replace_with) != len(set(self._patterns)):
            raise ReplacementError("the mapping has a key that is no pattern")
        return tuple([replace_with[it] for it in self._patterns])

    def _pieces_in_order(self, replace_with: Sequence[Haystack]) -> Tuple[Haystack, ...]:
        if not isinstance(replace_with, (list, tuple)):
            kind = type(replace_with).__name__
            must = "the replacements must be a list, a tuple, or a mapping from patterns"
            raise ReplacementError(f"{must}, not {kind}")
        pieces = tuple(replace_with)
        if len(pieces) != len(self._patterns):
            raise ReplacementError(f"there are {len(pieces)} replacements for {len(self._patterns)} patterns")
        return pieces

    def _begin_process(self) -> None:
        # A signal handler or a finalizer may search while its own thread holds the lock.
        self.__lock, self.__own = threading.RLock(), threading.local()

    def _reference(self) -> Any:
        """Returns the handle of this thread: no two calls use a handle at the same time. A forked
        process makes new handles."""
        try:
            return self.__own.reference
        except AttributeError:
            reference = ctypes.byref(_Handle())
            with self.__lock:
                _check(_share(ctypes.byref(self._handle), reference))
            return self.__own.__dict__.setdefault("reference", reference)

    def _bytes_of(self, haystack: Haystack) -> Any:
        if not isinstance(haystack, str):
            return _borrowed(haystack)
        if not self._of_texts:
            raise TypeError("the haystack is a str, and the patterns are bytes")
        text = _text(haystack)
        try:
            return text.encode()
        except UnicodeEncodeError:  # it has surrogates
            return text.encode(*_ENCODING)

    def _listed(self, function: Any, batches: Any, haystack: Haystack) -> Iterator[Match]:
        given = self._bytes_of(haystack)
        matches = self._few(function, given) if len(given) < _SHORT else None
        if matches is None:
            matches = _in_turn(batches(given))
        return self._characters(matches, given) if _is_wide(haystack) else matches

    def _few(self, function: Any, given: Any) -> Optional[Iterator[Match]]:
        """Returns all matches of a short haystack, or None if there are many."""
        found, count = self._room(_FEW), ctypes.c_size_t()
        _check(function(self._reference(), given, len(given), found, _FEW, ctypes.byref(count)))
        written = memoryview(found)[: min(count.value, _FEW) * _MATCH.size].tobytes()
        self.__own.room = found
        if count.value > _FEW:
            return None
        return map(tuple.__new__, _EACH_A_MATCH, _MATCH.iter_unpack(written))

    def _finds(self, given: Any) -> Iterator[Iterator[Match]]:
        """Yields the matches of an iteration, some at a time. It searches a piece of the haystack
        as if it were the whole, and yields the matches that no later byte can change. With
        "standard" those are all matches. With the other kinds they start so far before the end of
        the piece that no longer pattern can start at or before the same offset."""
        size, longest, leftmost = len(given), max(self._longest, 1), self.__kind != "standard"
        place, last, step = 0, -1, _STEP_FIRST  # where the search continues, and the end of the last match
        while True:
            end = min(size, place + step + longest)
            numbers, count = self._searched(_find_all, given, place, end, _ROOM_FIRST)
            written = kept = len(numbers) // 3
            while leftmost and end < size and kept and numbers[3 * kept - 2] + longest > end - place:
                kept -= 1
            # An empty match where the last one ended does not count. The iteration continues from
            # there.
            first = 1 if kept and numbers[2] == 0 and last == place else 0
            yield _matches(numbers, first, kept, place)
            if kept:
                last = place + numbers[3 * kept - 1]
            if kept == written < count:
                step, place = max(last - place, 1), last
            elif end == size:
                return
            else:
                place, step = max(last, end - longest + 1), min(8 * step, _STEP_LAST)

    def _occurrences(self, given: Any) -> Iterator[Iterator[Match]]:
        """Yields all matches, some at a time: those that end after one offset and at or before
        another. The search begins before the first offset, by the length that the longest pattern
        may have there."""
        size, longest = len(given), max(self._longest, 1)
        place, step, room = -1, _STEP_FIRST, _ROOM_FIRST  # matches that end at or before `place` were yielded
        while place < size:
            begin, end = max(place + 1 - longest, 0), min(max(place, 0) + step, size)
            numbers, count = self._searched(_overlapping, given, begin, end, room)
            written = len(numbers) // 3
            told = end if written == count else begin + numbers[3 * written - 1] - 1  # all matches that end there were written
            first, kept = (bisect_right(numbers[2::3], at - begin) for at in (place, told))
            if written < count and 2 * (kept - first) < written and (room < _ROOM_LAST or told <= place):
                room *= 2
            if told > place:
                yield _matches(numbers, first, kept, begin)
                step, place = min(8 * step, _STEP_LAST) if written == count else told - place, told
            else:
                step = max(step // 2, 1)

    def _searched(self, function: Any, given: Any, begin: int, end: int, matches: int) -> Tuple[Any, int]:
        """Returns the first matches of a part of the haystack, as three numbers each, and the
        number of all its matches."""
        found, count = self._room(matches), ctypes.c_size_t()
        _check(function(self._reference(), _address(given) + begin, end - begin, found, matches, ctypes.byref(count)))
        written = memoryview(found)[: min(count.value, matches) * _MATCH.size].tobytes()
        if matches <= _ROOM_LAST:
            self.__own.room = found
        return memoryview(written).cast("N"), count.value

    def _room(self, matches: int) -> Any:
        """Returns a buffer for at least this many matches: the one of this thread, if it is large
        enough. The thread has none while it is in use, as in `find`."""
        own = self.__own.__dict__.pop("room", None)
        return own if own is not None and len(own) >= matches * _MATCH.size else (ctypes.c_char * (matches * _MATCH.size))()

    def _characters(self, matches: Iterable[Match], text: bytes) -> Iterator[Match]:
        """Yields matches in the UTF-8 of a string, which are sorted by their ends, with offsets of
        characters. It leaves out a match inside a character, which an empty one can be."""
        at = passed = 0
        for it in matches:
            if it.end < len(text) and text[it.end] & 0xC0 == 0x80:
                continue
            passed += len(text[at : it.end].decode(*_ENCODING))
            at = it.end
            yield Match(it.pattern, passed - str.__len__(self._patterns[it.pattern]), passed)

    def _replaced(self, text: str, replace_with: Sequence[Any]) -> str:
        parts: List[str] = []
        text, copied = _text(text), 0
        for it in AhoCorasick.find_iter(self, text):
            parts += text[copied : it.start], replace_with[it.pattern]
            copied = it.end
        return "".join([*parts, text[copied:]])

    def _written(self, function: Any, haystack: Haystack, pieces: Any) -> Union[str, bytes]:
        written = self._written_by(function, self._bytes_of(haystack), pieces)
        return written.decode(*_ENCODING) if isinstance(haystack, str) else written

    def _written_by(self, function: Any, given: Any, pieces: Any) -> bytes:
        reference, wanted = self._reference(), ctypes.c_size_t(len(given))
        while True:
            room = ctypes.create_string_buffer(max(wanted.value, 1))
            status = function(reference, given, len(given), pieces, len(pieces), room, len(room), ctypes.byref(wanted))
            if status != _NO_ROOM:
                _check(status)
                return room.raw[: wanted.value]


def _of_type(prepared: _Prepared, of_text: Optional[bool]) -> _Prepared:
    """Returns the replacements if they have the wanted type, or one type if any is accepted."""
    if prepared.pieces and of_text is not None and prepared.of_text is not of_text:
        raise TypeError("the replacements must have the type of the haystack")
    if prepared.pieces and prepared.of_text is None:
        raise TypeError("the replacements must all be of type str, or all of bytes")
    return prepared


def _patterns_of(patterns: Iterable[Haystack]) -> List[Haystack]:
    if isinstance(patterns, (str, bytes, bytearray, memoryview)):
        raise TypeError("the patterns must be a list of str or of bytes, not a single one")
    if isinstance(patterns, (set, frozenset)):
        raise TypeError("the patterns must be a list, whose order numbers them, not a set")
    if hasattr(patterns, "read"):
        raise TypeError("the patterns must be a list, not a reader, whose lines would keep their line ends")
    try:
        given = iter(patterns)
    except TypeError:
        kind = type(patterns).__name__
        raise TypeError(f"the patterns must be a list of str or of bytes, not {kind}") from None
    return list(given)


def _items_of(items: Union[Sequence[Any], Mapping[Any, Any]], patterns: Sequence[Union[str, bytes]]) -> Tuple[Any, ...]:
    if isinstance(items, Mapping):
        for number, pattern in enumerate(patterns):
            if pattern not in items:
                raise ValueError(f"the mapping has no item for pattern {number}")
        return tuple(items[it] for it in patterns)
    if isinstance(items, (str, bytes, bytearray, memoryview, set, frozenset)):
        raise TypeError(f"the items must be a list, or a mapping from patterns, not {type(items).__name__}")
    given = tuple(items)
    if len(given) != len(patterns):
        raise ValueError(f"there are {len(given)} items for {len(patterns)} patterns")
    return given


def _pieces_of(reader: Any) -> Iterator[Haystack]:
    if isinstance(reader, (str, bytes, bytearray, memoryview)):
        raise TypeError("a stream must be a reader or an iterable of pieces, not the name of a file or a single piece")
    if isinstance(reader, (Mapping, set, frozenset)):
        raise TypeError("a stream must be a reader or an iterable of pieces, not a set or a mapping")
    return _read(reader)


class _Told:
    """An iterator over the matches of a stream. After an error of the reader, each further call
    raises an error, and the iterator does not end."""

    def __init__(self, stream: "Stream", pieces: Iterator[Haystack]) -> None:
        self._ends: List[bool] = []
        self._matches = _told(stream, pieces, self._ends)

    def __iter__(self) -> Iterator[Match]:
        return self

    def __next__(self) -> Match:
        for match in self._matches:
            return match
        if not self._ends:
            raise SearchError("the stream was cut off by an error and cannot continue")
        raise StopIteration


def _told(stream: "Stream", pieces: Iterator[Haystack], ends: List[bool]) -> Iterator[Match]:
    for piece in pieces:
        yield from stream.push(piece)
    yield from stream.end()
    ends.append(True)


def _is_empty(piece: Any) -> bool:
    return not (_text(piece) if isinstance(piece, str) else memoryview(piece).nbytes)


def _read(reader: Any) -> Iterator[Haystack]:
    # `read1` of a buffered pipe or socket returns what is available, so that a match is returned as
    # soon as its bytes arrive. A reader of codecs has the `read1` of the bytes below it, and others
    # refuse theirs.
    prompt = isinstance(reader, io.BufferedIOBase) and type(reader).read1 is not io.BufferedIOBase.read1
    read = reader.read1 if prompt else getattr(reader, "read", None)
    for piece in iter(lambda: read(_PIECE), reader) if read else iter(reader):
        if read and piece is not None and _is_empty(piece):
            if not _may_wait(reader):
                return
            piece = read(_PIECE) if _is_ready(reader) else None
            if piece is not None and _is_empty(piece):
                return
        if piece is None:
            raise BlockingIOError("the reader has no data yet")
        yield piece


def _may_wait(reader: Any) -> bool:
    """Returns whether the descriptor of a reader does not block. Such a reader, if it decodes,
    returns an empty piece both at the end and if it has no data yet. Up to Python 3.13, a buffered
    one does too. A file in memory is not asked for its descriptor, because that would write it to
    disk."""
    below = reader.buffer if isinstance(reader, io.TextIOWrapper) else reader
    with contextlib.suppress(OSError, ValueError):  # it has no descriptor
        return isinstance(below, (io.BufferedReader, io.BufferedRandom)) and not os.get_blocking(below.fileno())
    return False


def _is_ready(reader: Any) -> bool:
    """Returns whether a reader has data, or its end, now."""
    poll = select.poll()
    poll.register(reader.fileno(), select.POLLIN)
    return bool(poll.poll(0))


def _write(writer: Any, part: Union[str, bytes]) -> None:
    while part:
        taken = writer.write(part)
        if not isinstance(writer, io.RawIOBase):
            return
        if taken is None:
            raise BlockingIOError("the writer is not ready")
        if not 0 <= taken <= len(part):
            raise OSError(f"the writer reports {taken} of {len(part)} bytes")
        part = part[taken:]


def _address(given: Any) -> int:
    """Returns the address of the bytes that the library is given."""
    if isinstance(given, bytes):
        return ctypes.cast(given, ctypes.c_void_p).value or 0
    return given._as_parameter_.value if isinstance(given, _Lent) else ctypes.addressof(given)


def _overlap(given: Any, room: Any) -> bool:
    """Returns whether a writable buffer overlaps the bytes that a call is given."""
    first, also_first = _address(given), ctypes.addressof(room)
    return first < also_first + len(room) and also_first < first + len(given)


def _matches(numbers: Any, first: int, last: int, moved: int) -> Iterator[Match]:
    """Returns some of the matches that were written, with their offsets moved to the right."""
    part = numbers[3 * first : 3 * last]
    if not moved:
        return map(tuple.__new__, _EACH_A_MATCH, _MATCH.iter_unpack(part))
    starts, ends = (map(moved.__add__, part[at::3]) for at in (1, 2))
    return map(tuple.__new__, _EACH_A_MATCH, zip(part[0::3], starts, ends))


def _in_turn(batches: Iterator[Iterator[Match]]) -> Iterator[Match]:
    """Yields one batch after another. If two threads use it at once, it raises a ValueError;
    itertools.chain would crash."""
    for batch in batches:
        yield from batch


def _is_wide(haystack: Haystack) -> bool:
    """Returns whether offsets of characters differ from offsets of bytes."""
    return isinstance(haystack, str) and not _text(haystack).isascii()


def _check(status: int, *good: int) -> None:
    """Raises the error of a status that is neither success nor in `good`."""
    if status == _DONE:
        return
    if status == _NO_MEMORY:
        raise MemoryError
    if status in _WHY_REFUSED:
        raise SearchError(_WHY_REFUSED[status])
    if status not in good:
        raise RuntimeError(f"the library returned {status}")


def _limit(limit: Optional[int]) -> int:
    """Returns a limit in the form that the library accepts."""
    most = ctypes.c_size_t(-1).value
    given = most if limit is None else operator.index(limit)
    if given < 0:
        raise ValueError(f"a limit must not be negative: {limit}")
    return min(given, most)


def _build_error(error: _Error) -> BuildError:
    room, size = ctypes.create_string_buffer(256), ctypes.c_size_t()
    _check(_error_text(ctypes.byref(error), room, len(room), ctypes.byref(size)))
    pattern = None if error.status == _TOO_MANY_STATES else error.pattern
    return BuildError(room.raw[: size.value].decode(), pattern, error.requested, error.max)


def _state_of(it: Any, without: Iterable[str]) -> Any:
    """Returns the attributes of an object, except some, and the slots of its class, in the form in
    which pickle and copy restore them. If its class has a `__getstate__`, that decides."""
    said = getattr(type(it), "__getstate__", None)
    if said is not getattr(object, "__getstate__", None):
        state = it.__getstate__()
        return {name: state[name] for name in state if name not in without} if isinstance(state, dict) else state
    named, held = {name: value for name, value in vars(it).items() if name not in without}, _slots_of(it)
    return (named, held) if held else named


def _slots_of(it: Any) -> Any:
    """Returns the contents of the slots of an object's class."""
    kinds = [vars(kind) for kind in type(it).__mro__ if "__slots__" in vars(kind)]
    names = [name for kind in kinds for name, slot in kind.items() if isinstance(slot, types.MemberDescriptorType)]
    return {name: getattr(it, name) for name in names if hasattr(it, name)}


# The attributes that a rebuilt AhoCorasick makes itself. All others are copied.
_BUILT = frozenset(f"_{it}" for it in "patterns of_texts ignore_case prefilter longest handle small".split()).union(
    f"_AhoCorasick__{it}" for it in "items kind lock own prepared rest".split()
)


def _rebuilt_as(
    kind_of_searcher: Any,
    patterns: Tuple[Union[str, bytes], ...],
    kind: str,
    ignore_case: bool,
    prefilter: bool,
    automaton: Optional[str] = None,
    *limits: Optional[int],
) -> AhoCorasick:
    """Returns the searcher of a pickle, of any class. The class's own __init__ may have other
    parameters, and is not called."""
    named: Any = dict(zip(("max_index", "max_pattern", "max_len"), limits))
    searcher: AhoCorasick = kind_of_searcher.__new__(kind_of_searcher)
    AhoCorasick.__init__(searcher, patterns, kind=kind, ignore_case=ignore_case, prefilter=prefilter, automaton=automaton, **named)
    return searcher


def _rebuilt(*given: Any) -> AhoCorasick:
    """Returns the searcher of a pickle."""
    return _rebuilt_as(AhoCorasick, *given)


@contextlib.contextmanager
def _alone(lock: Any) -> Iterator[None]:
    """Locks a stream for one call. A call that an error cuts off leaves it locked for good, because
    the data that the call had taken is lost."""
    if not lock.acquire(blocking=False):
        raise SearchError("another call uses the stream, or an error cut one off: it cannot continue")
    try:
        yield
    except SearchError:  # nothing was taken
        lock.release()
        raise
    lock.release()


class Stream:
    """A search of a stream whose pieces are pushed as they arrive. One call at a time may use it. A
    second call raises SearchError, and every call does after one was cut off, for example by
    KeyboardInterrupt.

        >>> stream = Stream(AhoCorasick(["samwise", "sam"], kind="leftmost-longest"))
        >>> stream.push("frodo, sam"), stream.push("wise"), stream.end()
        ([], [], [Match(pattern=0, start=7, end=14)])

    Raises SearchError if a pattern is empty."""

    def __init__(self, searcher: AhoCorasick) -> None:
        self._searcher, self._handle, self._lock = searcher, _StreamHandle(), threading.Lock()
        self._found, self._taken = _Match(), ctypes.c_size_t()
        # For a stream of str, the bytes from offset `_at` are kept, with the number of characters
        # before them.
        self._of_text: Optional[bool] = None
        self._tail, self._at, self._passed = bytearray(), 0, 0
        self._most = searcher._longest + 1
        _check(_stream_new(searcher._reference(), ctypes.byref(self._handle)))

    def push(self, piece: Haystack) -> List[Match]:
        """Returns the matches that become certain with this piece, as `AhoCorasick.stream`
        explains. A piece is a str or bytes, as the first one was."""
        text = isinstance(piece, str)
        if self._of_text not in (None, text):
            raise TypeError("the pieces of a stream must all be of type str, or all of bytes")
        rest = self._rest(piece)
        matches: List[Match] = []
        with _alone(self._lock):
            self._of_text = text
            while len(rest):
                taken = self._push(rest)
                if text:
                    self._tail += rest[:taken]
                rest = rest[taken:]
                matches += self._certain()
        return matches

    def end(self) -> List[Match]:
        """Ends the stream, and returns the remaining matches."""
        with _alone(self._lock):
            self._end()
            return list(self._certain())

    def __reduce__(self) -> Any:
        raise TypeError("a stream cannot be copied or pickled, because its bytes are gone")

    def _reference(self) -> Any:
        return ctypes.byref(self._handle)

    def _rest(self, piece: Haystack) -> memoryview:
        """Returns the bytes of a piece."""
        rest = memoryview(self._searcher._bytes_of(piece)) if isinstance(piece, str) else _viewed(piece, "a piece")
        return (rest if rest.c_contiguous else memoryview(rest.tobytes())).cast("B")

    def _push(self, rest: memoryview) -> int:
        _check(_stream_push(self._reference(), _borrowed(rest), len(rest), ctypes.byref(self._taken)))
        return self._taken.value

    def _end(self) -> None:
        _check(_stream_end(self._reference()))

    def _certain(self) -> Iterator[Match]:
        handle, found = self._reference(), self._found
        while True:
            status = _stream_next(handle, ctypes.byref(found))
            _check(status, _FOUND)
            if status != _FOUND:
                break
            match = Match(found.pattern, found.start, found.end)
            yield self._in_characters(match) if self._of_text else match
        self._pass(len(self._tail) + self._at - self._most)

    def _in_characters(self, match: Match) -> Match:
        self._pass(match.end)
        return Match(match.pattern, self._passed - str.__len__(self._searcher._patterns[match.pattern]), self._passed)

    def _pass(self, place: int) -> None:
        """Counts the characters before an offset, and keeps the bytes after it."""
        count = place - self._at
        if count > 0:
            self._passed += len(self._tail[:count].translate(None, _INSIDE))
            del self._tail[:count]
            self._at = place


class Replacer:
    """Replaces the matches of a stream whose pieces are pushed as they arrive. One call at a time
    may use it, as for a `Stream`.

        >>> replacer = Replacer(AhoCorasick(["samwise", "sam"], kind="leftmost-longest"), ["S", "s"])
        >>> replacer.push("frodo, sam") + replacer.push("wise and") + replacer.end()
        'frodo, S and'

    The replacements are given as for `AhoCorasick.replace_all`. Raises ReplacementError if they are
    not one for each pattern, and SearchError if a pattern is empty."""

    def __init__(self, searcher: AhoCorasick, replace_with: Replacements) -> None:
        prepared = searcher._prepare(replace_with, None)
        self._stream = Stream(searcher)
        self._pieces = prepared.slices
        self._of_text = prepared.of_text if prepared.pieces else None
        self._decoder = codecs.getincrementaldecoder(_ENCODING[0])(_ENCODING[1])
        self._len = ctypes.c_size_t()
        self._room = ctypes.create_string_buffer(65536)

    def __reduce__(self) -> Any:
        return self._stream.__reduce__()

    @overload
    def push(self, piece: str) -> str: ...  # type: ignore[misc]

    @overload
    def push(self, piece: Bytes) -> bytes: ...

    def push(self, piece: Haystack) -> Union[str, bytes]:
        """Returns the part of the result that becomes certain with this piece: a str if the
        replacements are, otherwise bytes."""
        if self._of_text is None:
            self._of_text = isinstance(piece, str)
        if isinstance(piece, str) != self._of_text:
            raise TypeError("the pieces of a stream must have the type of the replacements")
        rest = self._stream._rest(piece)
        parts: List[bytes] = []
        with _alone(self._stream._lock):
            while len(rest):
                rest = rest[self._stream._push(rest) :]
                parts += self._certain()
            return self._joined(parts, False)

    def end(self) -> Union[str, bytes]:
        """Ends the stream, and returns the rest of the result."""
        with _alone(self._stream._lock):
            self._stream._end()
            return self._joined(list(self._certain()), True)

    def _certain(self) -> Iterator[bytes]:
        while True:
            room, pieces = self._room, self._pieces
            status = _stream_replace(self._stream._reference(), pieces, len(pieces), room, len(room), ctypes.byref(self._len))
            if status == _NO_ROOM:
                self._room = ctypes.create_string_buffer(self._len.value)
                continue
            _check(status, _FOUND)
            if status != _FOUND:
                return
            yield ctypes.string_at(room, self._len.value)

    def _joined(self, parts: List[bytes], last: bool) -> Union[str, bytes]:
        whole = b"".join(parts)
        return self._decoder.decode(whole, last) if self._of_text else whole


def _spellings(secret: Haystack, word: bytes) -> List[bytes]:
    """Returns the bytes of a secret, and their other spelling if they are not UTF-8. For a str from
    os.environ those are the original bytes. For bytes they are what a reader that escapes them
    returns."""
    try:
        other = word.decode(*_ENCODING).encode("utf-8", "surrogateescape") if isinstance(secret, str) else word.decode("utf-8", "surrogateescape").encode(*_ENCODING)
    except UnicodeError:
        other = word
    return [*dict.fromkeys((word, other))]


def _form_bits(names: Union[str, Iterable[str]]) -> int:
    given = [it for it in names.split(",") if it] if isinstance(names, str) else list(names)
    bits = 0
    for name in _FORMS if given == ["all"] else given:
        if name not in _FORMS:
            raise ValueError(f"unknown form {name!r}: the forms are all, {', '.join(_FORMS)}")
        bits |= _FORMS[name]
    return bits


def _form_patterns(secret: bytes, bits: int) -> List[bytes]:
    size, count = ctypes.c_size_t(144 * len(secret) + 64), ctypes.c_size_t(128)  # enough for most
    while True:
        room, ends = ctypes.create_string_buffer(size.value), (ctypes.c_size_t * count.value)()
        status = _forms(secret, len(secret), bits, room, len(room), ends, len(ends), ctypes.byref(size), ctypes.byref(count))
        if status == _TOO_SHORT:
            raise FormError("a secret of fewer than four bytes has no forms")
        if status != _NO_ROOM:
            _check(status)
            places = [0, *ends[: count.value]]
            return [room.raw[begin:end] for begin, end in zip(places, places[1:])]


@overload
def forms(secret: str, names: Union[str, Iterable[str]] = "all") -> List[str]: ...  # type: ignore[misc]


@overload
def forms(secret: Bytes, names: Union[str, Iterable[str]] = "all") -> List[bytes]: ...


def forms(secret: Haystack, names: Union[str, Iterable[str]] = "all") -> Union[List[str], List[bytes]]:
    """Returns the patterns that find a secret in some encoded forms, each pattern once. The forms
    are base64, hex, url, json, xml, shell and lines, as a list or separated by commas, or all. If
    the secret appears in a text in one of the forms, by itself or inside other encoded bytes, each
    character that contains a bit of it is part of an occurrence of a pattern. The patterns are str
    if the secret is, otherwise bytes.

        >>> forms("key/1", ["hex", "url"])
        ['6b65792f31', '6B65792F31', 'key%2F1', 'key%2f1', 'key/1', '%6B%65%79%2F%31', '%6b%65%79%2f%31']

    Raises FormError if the secret has fewer than four bytes."""
    patterns = _form_patterns(_pattern_bytes(secret, "a secret"), _form_bits(names))
    return [it.decode(*_ENCODING) for it in patterns] if isinstance(secret, str) else patterns


class Redactor:
    """Replaces secrets and their encoded `forms` in strings, bytes and streams. Occurrences that
    overlap or touch are one run. Each run becomes one `replacement`, so that no byte of an
    occurrence remains. Any number of threads may use a redactor at the same time. A pickled
    redactor contains its secrets, so other processes can use it too.

        >>> redactor = Redactor(["key/+", b"pass word"])
        >>> redactor.text("Basic dTprZXkvKw== key%2F%2B key/+pass+word")
        'Basic dT[redacted]== [redacted] [redacted]'

    Together with the bytes next to it, a replacement can spell out a secret. It should not be
    empty, or similar to a part of a secret:

        >>> Redactor(["abcd"], replacement="").text("ababcdcd")
        'abcd'

    The secrets are a list with at least one secret. The forms are those of the function `forms`,
    and an empty list means none. Other encodings of a secret are not found, for example
    compression, or base64 with line breaks. Raises FormError if there are no secrets, if one is
    empty, or if there are forms and it has fewer than four bytes."""

    def __init__(
        self,
        secrets: Iterable[Haystack],
        *,
        forms: Union[str, Iterable[str]] = "all",
        replacement: Haystack = "[redacted]",
    ) -> None:
        if isinstance(secrets, Mapping):
            raise TypeError("the secrets must be a list, not a mapping, whose keys they would be")
        given, bits, patterns = _patterns_of(secrets), _form_bits(forms), {}
        if not given:
            raise FormError("there are no secrets, so nothing would be redacted")
        for number, secret in enumerate(given):
            word = _pattern_bytes(secret, "a secret")
            if len(word) < (4 if bits else 1):
                raise FormError(f"secret {number} has fewer than four bytes, and so no forms" if word else f"secret {number} is empty")
            for one in _spellings(secret, word):
                patterns.update(dict.fromkeys([one, *(_form_patterns(one, bits) if bits and len(one) >= 4 else ())]))
        self._searcher, self._replacement, self._count = AhoCorasick(list(patterns)), _pattern_bytes(replacement, "the replacement"), len(given)
        self._pieces = _slices([self._replacement] * len(patterns))
        self._longest = max(map(len, patterns), default=0)
        # The prefixes of the patterns.
        self._begins = {pattern[:count] for pattern in patterns for count in range(1, 5)}

    def __repr__(self) -> str:
        return f"<Redactor of {self._count} secrets>"

    def __getstate__(self) -> Any:
        named, held = {name: value for name, value in vars(self).items() if name != "_pieces"}, _slots_of(self)
        return (named, held) if held else named

    def __setstate__(self, state: Any) -> None:
        named, slots = state if isinstance(state, tuple) else (state, {})
        vars(self).update(named, _pieces=_slices([named["_replacement"]] * len(named["_searcher"].patterns)))
        for name, value in slots.items():
            setattr(self, name, value)

    def text(self, text: str) -> str:
        """Returns the string with each run replaced. A character that a secret of bytes cuts in two
        becomes U+FFFD."""
        if not isinstance(text, str):
            raise TypeError(f"the text must be a str, not {type(text).__name__}: see Redactor.bytes")
        text = _text(text)
        given = text.encode(*_ENCODING)
        return _text_of(self._covered(given)) if self._searcher.is_match(given) else text

    def stream(self, reader: Any, writer: Any) -> None:
        """Writes the contents of a reader to a writer, with each run replaced. The reader and the
        writer are as for `AhoCorasick.stream_replace_all`. Data is written as soon as it cannot
        belong to a secret that is still incomplete.

            >>> import io
            >>> there = io.StringIO()
            >>> Redactor(["swordfish"]).stream(["the sword", "fish, c3dvcmRmaXNo"], there)
            >>> there.getvalue()
            'the [redacted], [redacted]'

        If the reader or the writer fails, or is not ready (BlockingIOError), the data that was read
        and not written is lost. **Do not continue with a second call**: if the first call held the
        start of a secret, the second would write the rest of it. To continue after an error, push
        pieces to a `Coverer`.
        """
        coverer = Coverer(self)
        for piece in _pieces_of(reader):
            _write(writer, coverer.push(piece))
        _write(writer, coverer.end())

    def _covered(self, given: Any) -> _Raw:
        return self._searcher._written_by(_cover_all, given, self._pieces)

    def bytes(self, data: Bytes) -> _Raw:
        """Returns the bytes of a buffer with each run replaced."""
        if isinstance(data, str):
            raise TypeError("the data must be bytes or another buffer, not str: see Redactor.text")
        return self._covered(_borrowed(data))


class Coverer:
    """Redacts a stream whose pieces are pushed as they arrive. It replaces each run as its
    `Redactor` does, even a run that continues from piece to piece. If a reader has no data yet, the
    stream can continue later with the same Coverer.

        >>> coverer = Coverer(Redactor(["swordfish"]))
        >>> coverer.push("the sword") + coverer.push("fish, c3dvcmRm") + coverer.push("aXNo") + coverer.end()
        'the [redacted], [redacted]'

    One call at a time may use it. A second call raises SearchError, and every call does after one
    was cut off, for example by KeyboardInterrupt."""

    def __init__(self, redactor: Redactor) -> None:
        # The held bytes; whether a run whose replacement was returned continues in them; its known
        # end.
        self._redactor, self._held, self._is_open, self._upto = redactor, b"", False, 0
        self._of_text: Optional[bool] = None
        self._decoder = codecs.getincrementaldecoder("utf-8")("chromesquid.text")
        self._lock, self._has_ended = threading.Lock(), False

    def __reduce__(self) -> Any:
        raise TypeError("a stream cannot be copied or pickled, because its bytes are gone")

    @overload
    def push(self, piece: str) -> str: ...  # type: ignore[misc]

    @overload
    def push(self, piece: Bytes) -> bytes: ...

    def push(self, piece: Haystack) -> Union[str, bytes]:
        """Returns the data that cannot belong to a secret that is still incomplete, with each run
        replaced: a str if the pieces are, otherwise bytes."""
        of_text = isinstance(piece, str)
        if self._of_text not in (None, of_text):
            raise TypeError("the pieces of a stream must all be of type str, or all of bytes")
        given = _pattern_bytes(piece, "a piece")
        with _alone(self._lock):
            if self._has_ended:
                raise SearchError(_WHY_REFUSED[_ENDED])
            self._of_text = of_text
            held, begins = self._held + given, self._redactor._begins
            first = max(len(held) - self._redactor._longest + 1, 0)
            return self._told(held, next((at for at in range(first, len(held)) if held[at : at + 4] in begins), len(held)))

    def end(self) -> Union[str, bytes]:
        """Ends the stream, and returns the rest of the result. Without any piece, that is empty
        bytes."""
        with _alone(self._lock):
            self._has_ended = True
            return self._told(self._held, len(self._held))

    def _told(self, held: bytes, settled: int) -> Union[str, bytes]:
        """Returns the redacted data before an offset, before which no incomplete occurrence begins.
        The rest is held."""
        parts: List[bytes] = []
        is_open, upto = self._is_open, self._upto
        for start, end in sorted((it.start, it.end) for it in self._redactor._searcher.find_overlapping_iter(held)):
            if start >= settled:
                break
            if not is_open or start > upto:
                parts += held[upto:start], self._redactor._replacement
            is_open, upto = True, max(upto, end)
        if upto < settled:
            parts.append(held[upto:settled])
            is_open, upto = False, settled
        self._held, self._is_open, self._upto = held[settled:], is_open, upto - settled
        told = b"".join(parts)
        return self._decoder.decode(told, self._has_ended) if self._of_text else told


def _passing(error: UnicodeError) -> Tuple[Union[str, bytes], int]:
    """Keeps surrogates, and decodes the rest of a character that was cut in two as U+FFFD."""
    try:
        return codecs.lookup_error("surrogatepass")(error)
    except UnicodeDecodeError as cut:
        return "\ufffd", cut.end


codecs.register_error("chromesquid.text", _passing)


def _text_of(covered: bytes) -> str:
    return covered.decode("utf-8", "chromesquid.text")


_OF_RECORDS = frozenset([*vars(logging.makeLogRecord({})), "message", "asctime", "taskName"])  # the names that formatters use


class LogFilter(logging.Filter):
    """Redacts log records: the message with its arguments, the traceback, and all other attributes
    and their names, except numbers. If the str or repr of an object of another class contains a
    secret, the redacted string takes its place. The attributes of such an object are not redacted,
    and a formatter may use them. Add the filter to a handler: a filter of a logger does not see the
    records of the loggers below it.

        >>> handler = logging.StreamHandler()
        >>> handler.addFilter(LogFilter(Redactor(["swordfish"])))

    The arguments become part of the message, and the traceback becomes text, so handlers no longer
    have them as values. Arguments that do not fit their message are left out."""

    def __init__(self, redactor: Redactor) -> None:
        super().__init__()
        self._redactor = redactor

    def filter(self, record: logging.LogRecord) -> bool:
        record.msg, record.args = self._message(record), ()
        if record.exc_info:
            if not record.exc_text and isinstance(record.exc_info, tuple):
                record.exc_text = self._traceback(record.exc_info)
            record.exc_info = None
        held = vars(record)
        for name, value in list(held.items()):
            told = name if name in _OF_RECORDS else self._looked_at(name)
            if told is not name:
                del held[name]
            held[told] = self._looked_at(value)
        return True

    def _looked_at(self, value: Any) -> Any:
        """Returns a value without secrets. A value that cannot be examined is left out. No error is
        raised, because the program only writes a log line."""
        try:
            return self._covered(value)
        except Exception:
            return f"({type(value).__name__} that cannot be examined is left out)"

    def _covered(self, value: Any, within: Tuple[int, ...] = ()) -> Any:
        """Returns a value without secrets, even in its parts. A value without any is returned
        itself, and its comparison methods are not called."""
        if value is None or type(value) in (bool, int, float):
            return value
        if isinstance(value, str):
            text = self._redactor.text(value)
            if type(value) is str or text != _text(value):
                return text
        elif isinstance(value, (bytes, bytearray)):
            data = self._redactor.bytes(value)
            if data != bytes(memoryview(value)):
                return data
            if type(value) in (bytes, bytearray):
                return value
        around = (*within, id(value))
        if isinstance(value, Mapping) and id(value) not in within:
            pairs = [*value.items()]
            named = [(self._covered(name, around), self._covered(it, around)) for name, it in pairs]
            if any(one is not other for new, old in zip(named, pairs) for one, other in zip(new, old)):
                return dict(named)
        if isinstance(value, (list, tuple, set, frozenset)) and id(value) not in within:
            given = [*value]
            parts = [self._covered(it, around) for it in given]
            if any(new is not old for new, old in zip(parts, given)):
                named_tuple: Any = getattr(value, "_make", None)  # a named tuple stays one
                return parts if isinstance(value, list) else named_tuple(parts) if named_tuple else tuple(parts)
        shows: Tuple[Any, ...] = (repr,) if type(value).__str__ is object.__str__ else (str, repr)
        for show in shows:
            try:
                shown = show(value)
            except Exception:  # logging cannot show it either
                continue
            told = self._redactor.text(shown)
            if told != _text(shown):
                return told
        return value

    def _traceback(self, error: Any) -> str:
        try:
            return logging.Formatter().formatException(error)
        except Exception:
            return "(a traceback that cannot be shown is left out)"

    def _message(self, record: logging.LogRecord) -> str:
        try:
            return _text(record.getMessage())
        except Exception:  # logging would print them unchanged
            text = _text(record.msg) if issubclass(type(record.msg), str) else type(record.msg).__name__
            return f"{text} (arguments that do not fit it are left out)"


# The keys are ids, because a subclass may compare its searchers and have no hash.
_searchers: "weakref.WeakValueDictionary[int, AhoCorasick]" = weakref.WeakValueDictionary()


def _begin_process() -> None:
    for searcher in list(_searchers.values()):
        searcher._begin_process()


if hasattr(os, "register_at_fork"):
    os.register_at_fork(after_in_child=_begin_process)


def _main() -> None:
    searcher = AhoCorasick(["samwise", "sam", "frodo"], kind="leftmost-first")
    if [*searcher.find_iter("frodo and samwise")] != [Match(2, 0, 5), Match(0, 10, 17)]:
        raise SystemExit(f"chromesquid: {_loaded._name} returns wrong answers")
    print(f"chromesquid {__version__}: {_loaded._name} is there and answers")


if __name__ == "__main__":
    _main()
