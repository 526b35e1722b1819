"""Tests of the binding, compared with a slow model that looks at every offset. Run them with
python3 -m unittest."""

import array
import base64
import codecs
import collections
import contextlib
import copy
import ctypes
import dataclasses
import enum
import io
import json
import logging
import mmap
import os
import pathlib
import pickle
import random
import re
import shutil
import subprocess
import sys
import tempfile
import threading
import time
import typing
import unittest
import urllib.parse
from unittest import mock

import chromesquid
from chromesquid import AhoCorasick, BuildError, Coverer, FormError, LogFilter, Match, Redactor, ReplacementError, Replacer, SearchError, Stream, forms, version

KINDS = ("standard", "leftmost-first", "leftmost-longest")


def folded(text):
    """ASCII letters in small, other characters as they are."""
    small = {upper: upper + 32 for upper in range(65, 91)}
    if isinstance(text, str):
        return text.translate(small)
    return bytes(small.get(it, it) for it in text)


def occurrences(patterns, haystack, ignore_case, start=0):
    """All that occurs from a place on: by end, then start, then number."""
    if ignore_case:
        patterns, haystack = [folded(it) for it in patterns], folded(haystack)
    return sorted(
        (Match(number, at, at + len(pattern)) for number, pattern in enumerate(patterns) for at in range(start, len(haystack) - len(pattern) + 1)
         if haystack[at : at + len(pattern)] == pattern),
        key=lambda it: (it.end, it.start, it.pattern),
    )


BEST = {
    "standard": lambda it: (it.end, it.start, it.pattern),
    "leftmost-first": lambda it: (it.start, it.pattern),
    "leftmost-longest": lambda it: (it.start, -it.end, it.pattern),
}


def finds(patterns, haystack, kind, ignore_case):
    """The matches of iteration."""
    found, at, last = [], 0, None
    while at <= len(haystack):
        best = min(occurrences(patterns, haystack, ignore_case, at), key=BEST[kind], default=None)
        if best is None:
            break
        if best.start == best.end == last:
            at += 1
            last = None
            continue
        found.append(best)
        at = last = best.end
    return found


def replaced(haystack, found, pieces):
    parts, at = [], 0
    for it in found:
        parts += haystack[at : it.start], pieces[it.pattern]
        at = it.end
    return haystack[:0].join([*parts, haystack[at:]])


def covered(patterns, haystack, pieces, ignore_case):
    """The haystack with a piece for each run of what lies in some occurrence."""
    found = occurrences(patterns, haystack, ignore_case)
    held = [any(it.start <= at < it.end for it in found) for at in range(len(haystack))]
    parts = []
    for at in range(len(haystack)):
        if not held[at]:
            parts.append(haystack[at : at + 1])
        elif at == 0 or not held[at - 1]:
            parts.append(pieces[min((it for it in found if it.start == at), key=lambda it: (-it.end, it.pattern)).pattern])
    return haystack[:0].join(parts)


def mapped_pages():
    """How many kilobytes this process has had of memory at most."""
    with open("/proc/self/status", encoding="utf-8") as file:
        return next((int(line.split()[1]) for line in file if line.startswith("VmHWM")), 0)


class Rows(unittest.TestCase):
    def test_one_match(self):
        searcher = AhoCorasick(["samwise", "sam", "frodo"], kind="leftmost-first")
        self.assertEqual(searcher.find("frodo and samwise"), Match(2, 0, 5))
        self.assertEqual(searcher.find(b"and samwise"), Match(0, 4, 11))
        self.assertIsNone(searcher.find("pippin"))
        self.assertTrue(searcher.is_match("a sam") and not searcher.is_match("sa"))

    def test_characters_are_counted_in_a_text(self):
        searcher = AhoCorasick(["né", "e", "🦑"])
        self.assertEqual(list(searcher.find_iter("é🦑 née")), [Match(2, 1, 2), Match(0, 3, 5), Match(1, 5, 6)])
        self.assertEqual(searcher.find("ééé né"), Match(0, 4, 6))
        self.assertEqual(searcher.find("ééé né".encode()), Match(0, 7, 10))
        self.assertEqual(searcher.replace_all("é🦑 née", ["NÉ", "", "squid"]), "ésquid NÉ")

    def test_an_empty_pattern_matches_between_characters(self):
        searcher = AhoCorasick([""])
        self.assertEqual(list(searcher.find_iter("é🦑")), [Match(0, 0, 0), Match(0, 1, 1), Match(0, 2, 2)])
        self.assertEqual(searcher.replace_all("é🦑", ["-"]), "-é-🦑-")
        self.assertEqual(len(list(searcher.find_iter("é🦑".encode()))), 7)

    def test_surrogates_and_zeros(self):
        searcher = AhoCorasick(["\ud800", "b\0"])
        self.assertEqual(list(searcher.find_iter("é\0\ud800b\0")), [Match(0, 2, 3), Match(1, 3, 5)])
        self.assertEqual(searcher.replace_all("é\0\ud800b\0", ["x", "y"]), "é\0xy")

    def test_buffers(self):
        searcher = AhoCorasick([b"ab", b"\0"])
        given = b"x\0ab"
        with mmap.mmap(-1, 4) as mapped:
            mapped[:] = given
            for haystack in (given, bytearray(given), memoryview(given), memoryview(bytearray(given)), array.array("B", given), mapped,
                             memoryview(b"xx\0\0aabb")[::2]):
                self.assertEqual(list(searcher.find_iter(haystack)), [Match(1, 1, 2), Match(0, 2, 4)])
                self.assertEqual(searcher.replace_all(haystack, [b"A", b"0"]), b"x0A")
        self.assertFalse(searcher.is_match(b"") or searcher.is_match(bytearray()))
        grown = bytearray(given)
        searcher.is_match(grown)
        grown += b"more"  # no call keeps it

    def test_a_buffer_that_may_only_be_read_is_not_copied(self):
        searcher = AhoCorasick([b"ab"])
        with mmap.mmap(-1, 1 << 26, mmap.MAP_PRIVATE | mmap.MAP_ANONYMOUS, mmap.PROT_READ) as mapped:
            before = mapped_pages()
            self.assertFalse(searcher.is_match(memoryview(mapped)[5:]) or searcher.is_match(mapped))
            self.assertLess(mapped_pages() - before, 1 << 12)

    def test_matches_into_an_array(self):
        searcher, room = AhoCorasick([b"a", b"aa"]), array.array("Q", [9] * 10)
        self.assertEqual(searcher.find_into(b"aab", room), 2)
        self.assertEqual(room.tolist(), [0, 0, 1, 0, 1, 2, 9, 9, 9, 9])
        self.assertEqual(searcher.find_into(b"baa", room, overlapping=True), 3)
        self.assertEqual(room.tolist(), [0, 1, 2, 1, 1, 3, 0, 2, 3, 9])
        self.assertEqual(searcher.find_into(b"aaaaa", room), 5)
        self.assertEqual(searcher.find_into(b"aaaaa", array.array("Q")), 5)

    def test_covers(self):
        searcher = AhoCorasick(["né", "ée", "🦑"])
        self.assertEqual(searcher.cover_all("x née🦑 é 🦑", ["[1]", "[2]", "[3]"]), "x [1] é [3]")
        self.assertEqual(searcher.cover_all("x née".encode(), [b"", b"2", b"3"]), b"x ")
        self.assertEqual(AhoCorasick([b"\xc3", b"ab"]).cover_all("éab".encode(), [b"?", b"!"]), b"?\xa9!")
        self.assertEqual(AhoCorasick([]).cover_all("a", []), "a")
        self.assertEqual(AhoCorasick([b"aa"]).cover_all(b"aaa-a" * 1000, [b"long"]), b"long-" + b"long-" * 999 + b"a")

    def test_no_patterns(self):
        searcher = AhoCorasick([])
        self.assertFalse(searcher.is_match("a") or searcher.is_match(b"a"))
        self.assertEqual(searcher.replace_all("a", []), "a")

    def test_what_is_refused(self):
        searcher = AhoCorasick([b"a"], kind="leftmost-longest")
        for error, call in (
            (TypeError, lambda: AhoCorasick("ab")),
            (TypeError, lambda: AhoCorasick(["a", b"b"])),
            (TypeError, lambda: AhoCorasick([1.5])),
            (ValueError, lambda: AhoCorasick(["a"], kind="leftmost")),
            (ValueError, lambda: AhoCorasick(["a"], automaton="dfa")),
            (ValueError, lambda: AhoCorasick(["a"], max_len=-1)),
            (TypeError, lambda: searcher.find("a")),
            (TypeError, lambda: searcher.find(3)),
            (SearchError, lambda: searcher.find_overlapping_iter(b"a")),
            (SearchError, lambda: Stream(AhoCorasick([b"a", b""]))),
            (TypeError, lambda: searcher.find_into("a", bytearray(24))),
            (TypeError, lambda: searcher.find_into(b"a", array.array("I", [0] * 6))),
            (TypeError, lambda: searcher.find_into(b"a", bytes(24))),
            (ValueError, lambda: searcher.replace_all(b"a", [])),
            (ValueError, lambda: Replacer(searcher, [])),
            (TypeError, lambda: Replacer(searcher, [b"b"]).push("a")),
            (TypeError, lambda: Replacer(searcher, ["b"]).push("a")),
            (SearchError, lambda: Replacer(AhoCorasick([b""]), [b"b"])),
            (TypeError, lambda: searcher.replace_all(b"a", ["b"])),
            (TypeError, lambda: searcher.replace_all(b"a", b"b")),
            (SearchError, lambda: searcher.cover_all(b"a", [b"b"])),
            (SearchError, lambda: AhoCorasick([b"a", b""]).cover_all(b"a", [b"b", b"c"])),
            (ValueError, lambda: AhoCorasick([b"a"]).cover_all(b"a", [])),
            (TypeError, lambda: AhoCorasick([b"a"]).cover_all(b"a", ["b"])),
            (TypeError, lambda: AhoCorasick([b"a"]).cover_all("a", ["b"])),
        ):
            self.assertRaises(error, call)

    def test_a_mapping_is_from_each_pattern_to_its_replacement(self):
        table = {"hunter2": "***", "login": "user", "né": "é🦑"}
        for kind in KINDS:
            searcher = AhoCorasick(table, kind=kind)
            for given in (table, dict(reversed(table.items())), collections.ChainMap({}, table), collections.UserDict(table)):
                self.assertEqual(searcher.replace_all("né login hunter2", given), "é🦑 user ***")
                there = io.StringIO()
                searcher.stream_replace_all(["né log", "in hunter2"], there, given)
                self.assertEqual(there.getvalue(), "é🦑 user ***")
                replacer = Replacer(searcher, given)
                self.assertEqual(replacer.push("né login hunter2") + replacer.end(), "é🦑 user ***")
            self.assertEqual(searcher.replace_all("né login".encode(), {it: table[it].encode() for it in table}), "é🦑 user".encode())
        self.assertEqual(AhoCorasick(table).cover_all("né login hunter2", table), "é🦑 user ***")
        self.assertEqual(AhoCorasick([b"a", b"A", b"a"], ignore_case=True).replace_all(b"aA", {b"A": b"2", b"a": b"1"}), b"11")
        self.assertEqual(AhoCorasick(["", "é"]).replace_all("é", {"é": "x", "": "-"}), "-é-")
        self.assertEqual(AhoCorasick([]).replace_all("a", {}), "a")

    def test_replacements_that_are_none(self):
        table = {"login": "user", "hunter2": "***"}
        searcher, given = AhoCorasick(table), "login hunter2"
        calls = (searcher.replace_all, searcher.cover_all, lambda _, it: Replacer(searcher, it), lambda _, it: searcher.stream_replace_all([given], io.StringIO(), it))
        for call in calls:
            for wrong in (set(table), frozenset(table), {"login": "user"}, {**table, "hunter3": "x"}, {it.encode(): "x" for it in table}, {}, table.keys(),
                          table.values(), iter(["user", "***"]), (it for it in ("user", "***")), collections.deque(["user", "***"]), "ab", b"ab",
                          bytearray(b"ab"), array.array("B", [1, 2]), range(2), None, 2, ["user"], ("user", "***", "x"), []):
                with self.assertRaises(ReplacementError) as raised:
                    call(given, wrong)
                self.assertIsInstance(raised.exception, TypeError)
                self.assertIsInstance(raised.exception, ValueError)
                self.assertFalse(any(it in str(raised.exception) for it in (*table, "***", "user")), raised.exception)
            for wrong in (["user", None], ["user", 3], ["user", ["***"]], ["user", b"***"], {"login": "user", "hunter2": b"***"}):
                self.assertRaises(TypeError, call, given, wrong)
        with self.assertRaisesRegex(ReplacementError, "no replacement for pattern 1"):
            searcher.replace_all(given, {"login": "user"})
        with self.assertRaisesRegex(ReplacementError, "a list, a tuple, or a mapping from patterns, not set"):
            searcher.replace_all(given, set(table))

    def test_what_is_no_list_of_patterns_and_no_stream(self):
        searcher = AhoCorasick(["a"])
        with mmap.mmap(-1, 4) as mapped:
            for wrong in ({"a"}, frozenset("a"), {b"a"}, "a", b"a", bytearray(b"a"), memoryview(b"a"), mapped, io.StringIO("a\n"), io.BytesIO(b"a\n"), None, 3):
                self.assertRaises(TypeError, AhoCorasick, wrong)
        self.assertRaises(TypeError, lambda: AhoCorasick(["a"], ignore_case="no"))
        self.assertRaises(TypeError, lambda: AhoCorasick(["a"], prefilter="off"))
        self.assertEqual(AhoCorasick({"b": 1, "a": 2}.keys()).patterns, ("b", "a"))
        for wrong in ("/var/log/a", b"a", bytearray(b"a"), memoryview(b"a"), {"a": 1}, {"a"}, frozenset("a")):
            self.assertRaises(TypeError, searcher.stream, wrong)
            self.assertRaises(TypeError, searcher.stream_replace_all, wrong, io.StringIO(), ["b"])

    def test_a_room_is_of_whole_numbers_and_apart(self):
        searcher = AhoCorasick([b"\0"])
        given = array.array("Q", [0] * 8)
        for room in (given, memoryview(given)[2:], memoryview(given)[:1].cast("B").cast("Q")):
            before = given.tolist()
            if len(room) >= 3:
                self.assertRaises(ValueError, searcher.find_into, given, room)
                self.assertRaises(ValueError, searcher.find_into, memoryview(given)[4:], room)
                self.assertRaises(ValueError, searcher.find_into, memoryview(given).toreadonly(), room)
            self.assertEqual(given.tolist(), before)
        self.assertEqual(searcher.find_into(memoryview(given)[:4], memoryview(given)[4:]), 32)
        self.assertEqual(given.tolist(), [0, 0, 0, 0, 0, 0, 1, 0])
        for room in (array.array("d", [0] * 6), (ctypes.c_double * 6)(), array.array("Q", [0] * 6)[:0].tobytes(), memoryview(array.array("Q", [0] * 12))[::2]):
            self.assertRaises(TypeError, searcher.find_into, b"a", room)
        for room in (array.array("L", [9] * 3), array.array("q", [9] * 3), (ctypes.c_uint64 * 3)(9, 9, 9)):
            self.assertEqual((searcher.find_into(b"a\0", room), list(room)), (1, [0, 1, 2]))

    def test_a_replacement_that_grows(self):
        self.assertEqual(AhoCorasick([b"a"]).replace_all(b"aba" * 1000, [b"long"]), b"longblong" * 1000)

    def test_more_matches_than_the_first_room_holds(self):
        searcher = AhoCorasick([b"a", b"aa"])
        self.assertEqual(list(searcher.find_iter(b"a" * 5000)), [Match(0, at, at + 1) for at in range(5000)])
        self.assertEqual(len(list(searcher.find_overlapping_iter(b"a" * 5000))), 9999)

    def test_matches_are_searched_for_as_they_are_asked_for(self):
        nested, before = AhoCorasick([b"a" * length for length in range(1, 101)]), mapped_pages()
        self.assertEqual(sum(1 for _ in nested.find_overlapping_iter(b"a" * 100000)), 100 * 100000 - 4950)
        self.assertLess(mapped_pages() - before, 12 << 10)  # and 469 MiB where all are held
        for kind in KINDS:
            before = mapped_pages()
            with mmap.mmap(-1, 1 << 26, mmap.MAP_PRIVATE | mmap.MAP_ANONYMOUS, mmap.PROT_READ) as mapped:  # none of whose pages is there
                matches = AhoCorasick([b"\0", b"\0\0"], kind=kind).find_iter(mapped)
                self.assertEqual([next(matches).start for _ in range(3)], [0, 1, 2] if kind != KINDS[2] else [0, 2, 4])
                del matches
            self.assertLess(mapped_pages() - before, 4 << 10)
        taken = bytearray(b"a" * 100000)
        matches = AhoCorasick([b"a"]).find_iter(taken)
        self.assertEqual(next(matches), Match(0, 0, 1))
        self.assertRaises(BufferError, taken.clear)

    def test_limits_and_errors(self):
        for limits, told, text in (
            ({"max_len": 2}, (1, 3, 2), "pattern 1 with length 3 exceeds the maximum pattern length of 2"),
            ({"max_pattern": 0}, (1, 1, 0), "pattern identifier overflow: failed to create pattern ID from 1, which exceeds the max of 0"),
            ({"max_index": 100}, (None, 101, 100), "state identifier overflow: failed to create state ID from 101, which exceeds the max of 100"),
        ):
            with self.assertRaises(BuildError) as raised:
                AhoCorasick(["é", "ab\0"], **limits)
            for error in raised.exception, pickle.loads(pickle.dumps(raised.exception)):
                self.assertEqual(((error.pattern, error.requested, error.limit), str(error)), (told, text))
        searcher = AhoCorasick(["a", "bc"], max_len=2, max_pattern=1, max_index=10**30, automaton="noncontiguous")
        self.assertEqual(pickle.loads(pickle.dumps(searcher)).memory_usage(), searcher.memory_usage())
        self.assertNotEqual(AhoCorasick(["a", "bc"], automaton="rows").memory_usage(), searcher.memory_usage())

    def test_items(self):
        items = [("h", 1), None]
        for given in (items, tuple(items), dict(zip(["he", "hers"], items)), {"hers": None, "he": ("h", 1), "x": 0}):
            searcher = AhoCorasick(["he", "hers"], items=given)
            for other in (searcher, pickle.loads(pickle.dumps(searcher)), copy.copy(searcher), copy.deepcopy(searcher)):
                self.assertEqual([other.items[it.pattern] for it in other.find_overlapping_iter("hers")], items)
        self.assertEqual(AhoCorasick([b"a", b"b"], items=iter(range(2))).items, (0, 1))
        for searcher in (AhoCorasick(["a", "b"]), AhoCorasick(["a", "b"], items=["a", "b"])):
            self.assertEqual(pickle.loads(pickle.dumps(searcher)).items, ("a", "b"))
        self.assertEqual((AhoCorasick([], items=[]).items, AhoCorasick([]).items), ((), ()))
        for error, refused in ((ValueError, ([1], [1, 2, 3], {"a": 1})), (TypeError, ({1, 2}, "xy", 5))):
            for wrong in refused:
                with self.assertRaises(error):
                    AhoCorasick(["a", "b"], items=wrong)

    def test_what_is_told(self):
        searcher = AhoCorasick(["b", "a"], kind="leftmost-longest")
        self.assertEqual((searcher.patterns, searcher.kind), (("b", "a"), "leftmost-longest"))
        self.assertEqual(repr(searcher), "<AhoCorasick of 2 patterns, leftmost-longest>")
        self.assertGreater(searcher.memory_usage(), 0)
        self.assertEqual(len(version()), 3)


class Slow:
    """A reader that gives these pieces, one after another."""

    def __init__(self, pieces):
        self.pieces = list(pieces)

    def read(self, size):
        return self.pieces.pop(0) if self.pieces else b""


class Sparing(io.RawIOBase):
    """A raw writer that takes some of what it is given, or nothing for now."""

    def __init__(self, most=7):
        super().__init__()
        self.taken, self.most = bytearray(), most

    def writable(self):
        return True

    def write(self, part):
        self.taken += part[: self.most]
        return min(self.most, len(part)) or None


class Streams(unittest.TestCase):
    def test_readers(self):
        searcher = AhoCorasick(["samwise", "sam", "né"], kind="leftmost-longest")
        text = "né, sam" + "x" * 100000 + "samwise né"
        wanted = [Match(2, 0, 2), Match(1, 4, 7), Match(0, 100007, 100014), Match(2, 100015, 100017)]
        for reader in (io.StringIO(text), iter(text), [text], [text[:5], "", text[5:]]):
            self.assertEqual(list(searcher.stream(reader)), wanted)
        given = text.encode()
        wanted = list(searcher.find_iter(given))
        for reader in (io.BytesIO(given), [given], (given[at : at + 1] for at in range(len(given))), Slow([given[:6], given[6:]]),
                       [memoryview(given)[:50000], bytearray(given[50000:])]):
            self.assertEqual(list(searcher.stream(reader)), wanted)
        self.assertEqual(list(searcher.stream([])), [])
        text = "é" * 100000 + "sam" + "é" * 100000 + "sam"  # a piece longer than the buffer of the stream
        self.assertEqual([it.start for it in searcher.stream([text])], [100000, 200003])

    def test_a_reader_that_does_not_block(self):
        searcher = AhoCorasick(["sam"])
        for opened in ({"mode": "rb"}, {"mode": "rb", "buffering": 0}, {"mode": "r"}):
            below, above = os.pipe()
            os.set_blocking(below, False)
            with open(below, **opened) as reader:
                for _ in range(2):
                    os.write(above, b"a sam")
                    told = []
                    with self.assertRaises(BlockingIOError):  # what has nothing for now has not ended
                        for match in searcher.stream(reader):
                            told.append(match)
                    self.assertEqual(told, [Match(0, 2, 5)])
                with self.assertRaises(BlockingIOError):
                    Redactor(["swordfish"]).stream(reader, io.BytesIO())
                os.write(above, b"a sam")
                os.close(above)
                self.assertEqual(list(searcher.stream(reader)), [Match(0, 2, 5)])

    def test_a_match_is_told_as_soon_as_it_is_certain(self):
        stream = Stream(AhoCorasick([b"sam", b"samwise"]))
        self.assertEqual((stream.push(b"xsa"), stream.push(b"m"), stream.push(b"wise"), stream.end()), ([], [Match(0, 1, 4)], [], []))
        stream = Stream(AhoCorasick([b"sam", b"samwise"], kind="leftmost-longest"))
        self.assertEqual((stream.push(b"xsam"), stream.push(b"w"), stream.push(b"x"), stream.push(b"sam")), ([], [], [Match(0, 1, 4)], []))
        self.assertEqual((stream.end(), stream.end()), ([Match(0, 6, 9)], []))
        self.assertRaises(SearchError, stream.push, b"x")

    def test_one_type_in_a_stream(self):
        stream = Stream(AhoCorasick(["a"]))
        stream.push("a")
        self.assertRaises(TypeError, stream.push, b"a")
        self.assertRaises(TypeError, Stream(AhoCorasick([b"a"])).push, "a")
        self.assertRaises(BlockingIOError, list, AhoCorasick([b"a"]).stream(Slow([b"a", None])))

    def test_beside_the_search_of_all_at_once(self):
        dice = random.Random(3)
        for turn in range(1500):
            letters = dice.choice((["a", "é", "A", "🦑"], [b"a", b"b", b"A", b"\xff"]))[: dice.randrange(1, 5)]
            empty, kind = letters[0][:0], dice.choice(KINDS)
            patterns = [empty.join(dice.choices(letters, k=dice.randrange(1, 5))) for _ in range(dice.randrange(1, 6))]
            pieces = [empty.join(dice.choices(letters, k=dice.randrange(20))) for _ in range(dice.randrange(8))]
            if turn % 250 == 0:
                pieces = [it * 5000 for it in pieces[:3]]
            searcher = AhoCorasick(patterns, kind=kind, ignore_case=dice.random() < 0.3, prefilter=dice.random() < 0.7)
            self.assertEqual(list(searcher.stream(pieces)), list(searcher.find_iter(empty.join(pieces))))
            if turn % 3 == 0:
                continue
            replacements = [empty.join(dice.choices(letters, k=dice.randrange(4))) for _ in patterns]
            if turn % 250 == 1:
                replacements[0] *= 30000
            replacer = Replacer(searcher, replacements)
            written = empty.join([*[replacer.push(it) for it in pieces], replacer.end()]) if pieces else empty
            self.assertEqual(written, searcher.replace_all(empty.join(pieces), replacements))

    def test_what_is_replaced_is_told_as_soon_as_it_is_certain(self):
        replacer = Replacer(AhoCorasick([b"sam", b"samwise"]), [b"S", b"W"])
        self.assertEqual([replacer.push(it) for it in (b"xsa", b"m", b"wise", b" sa")], [b"", b"xS", b"wise", b""])
        self.assertEqual((replacer.end(), replacer.end()), (b" sa", b""))
        self.assertRaises(SearchError, replacer.push, b"x")
        replacer = Replacer(AhoCorasick(["né", "🦑"]), ["", "é"])
        self.assertEqual(replacer.push("🦑né") + replacer.push("\ud800é") + replacer.end(), "é\ud800é")
        self.assertEqual(Replacer(AhoCorasick([]), []).push("a"), "a")
        self.assertEqual(Replacer(AhoCorasick([]), []).end(), b"")

    def test_readers_and_writers(self):
        searcher = AhoCorasick([b"sam", b"x" * 20000], kind="leftmost-longest")
        given = b"frodo, sam" * 30000 + b"x" * 30000
        for reader in (io.BytesIO(given), [given], [given[:7], b"", given[7:]]):
            there = io.BytesIO()
            searcher.stream_replace_all(reader, there, [b"S", b"-" * 70000])
            self.assertEqual(there.getvalue(), b"frodo, S" * 30000 + b"-" * 70000 + b"x" * 10000)
        sparing = Sparing()
        searcher.stream_replace_all([given[:1000]], sparing, [b"S", b""])
        self.assertEqual(bytes(sparing.taken), b"frodo, S" * 100)
        self.assertRaises(BlockingIOError, searcher.stream_replace_all, [b"a"], Sparing(0), [b"S", b""])

    def test_a_leftmost_match_waits_for_one_byte(self):
        for kind in KINDS[1:]:
            stream = Stream(AhoCorasick([b"a"], kind=kind))
            self.assertEqual((stream.push(b"a"), stream.push(b"-"), stream.push(b"a"), stream.end()), ([], [Match(0, 0, 1)], [], [Match(0, 2, 3)]))


    def test_a_stream_that_was_cut_off_does_not_end(self):
        searcher = AhoCorasick([b"sam"])
        for failure in (BlockingIOError, OSError, KeyboardInterrupt):
            def pieces(failure=failure):
                yield b"a sam, sa"
                raise failure

            matches = searcher.stream(pieces())
            self.assertEqual(next(matches), Match(0, 2, 5))
            self.assertRaises(failure, next, matches)
            for _ in range(2):
                with self.assertRaisesRegex(SearchError, "cut off"):
                    list(matches)
        matches = searcher.stream([b"sam"])
        self.assertEqual((list(matches), list(matches), next(matches, None)), ([Match(0, 0, 3)], [], None))

    def test_one_call_at_a_time(self):
        for made in (lambda: Stream(AhoCorasick([b"sam"])), lambda: Replacer(AhoCorasick([b"sam"]), [b"S"]), lambda: Coverer(Redactor([b"sam"], forms=[]))):
            (stream, alone), told = (made(), made()), []

            def push_too(stream=stream, told=told):
                if is_locked(stream):
                    told.append(self.assertRaisesRegex(SearchError, "another call", stream.push, b"sam"))

            for piece in (b"a sam, sa", b"m.", b"sam"):
                self.assertEqual(at_each_step(lambda stream=stream, piece=piece: stream.push(piece), push_too), alone.push(piece))
            self.assertGreater(len(told), 20)

            def interrupt(stream=stream):
                if is_locked(stream):
                    raise KeyboardInterrupt

            self.assertRaises(KeyboardInterrupt, at_each_step, lambda stream=stream: stream.push(b"m"), interrupt)
            for call in (lambda stream=stream: stream.push(b"m"), stream.end):
                self.assertRaisesRegex(SearchError, "cut one off", call)

    def test_pieces_and_writers_of_classes_of_others(self):
        class Odd(bytes):
            def __len__(self):
                return 0

        class Text(str):
            __len__ = Odd.__len__
            __bool__ = Odd.__len__

        self.assertEqual(list(AhoCorasick([b"sam"]).stream(Slow([Odd(b"sam "), Odd(b"sam")]))), [Match(0, 0, 3), Match(0, 4, 7)])
        self.assertEqual(list(AhoCorasick(["sam"]).stream(Slow([Text("sam "), Text("sam")]))), [Match(0, 0, 3), Match(0, 4, 7)])
        for taken in (-1, 100):
            with mock.patch.object(Sparing, "write", lambda self, part, taken=taken: taken):
                self.assertRaises(OSError, AhoCorasick([b"sam"]).stream_replace_all, [b"a sam."], Sparing(), [b"S"])


def is_locked(stream):
    return getattr(stream, "_stream", stream)._lock.locked()


def at_each_step(call, other):
    """What a call answers, before each step of whose way through the module the same thread makes another one, as it does in a handler of a
    signal or in a finalizer."""
    module, before = AhoCorasick.find.__code__.co_filename, sys.gettrace()

    def step(frame, event, _):
        if frame.f_code.co_filename != module:
            return None
        frame.f_trace_opcodes = True
        if event != "call":
            other()
        return step

    sys.settrace(step)
    try:
        return call()
    finally:
        sys.settrace(before)


class Interrupted(unittest.TestCase):
    """Calls between whose steps the same thread makes others by the same searcher."""

    long = "x\xe9 samwise " + "nobody" * 90

    def calls(self, searcher, replacer):
        """Calls on a searcher of three patterns."""
        for given in ("a samwise frodo", "\xe9 samwise", b"frodo", self.long):
            text, pieces = isinstance(given, str), ["1", "2", "3"] if isinstance(given, str) else [b"1", b"2", b"3"]
            yield lambda given=given: (searcher.find(given), searcher.is_match(given))
            yield lambda given=given: list(searcher.find_iter(given))
            yield lambda given=given: list(searcher.find_overlapping_iter(given))
            yield lambda given=given, pieces=pieces: (searcher.replace_all(given, pieces), searcher.cover_all(given, pieces))
            yield lambda given=given, text=text: replacer.text(given) if text else replacer.bytes(given)
            yield lambda given=given: list(searcher.stream([given[:7], given[7:]]))
            yield lambda given=given, text=text: self.streamed(replacer, given, text)
            yield lambda given=given, text=text: self.logged(replacer, given)

    def streamed(self, redactor, given, text):
        there = io.StringIO() if text else io.BytesIO()
        redactor.stream([given[:7], given[7:]], there)
        return there.getvalue()

    def logged(self, redactor, given):
        record = logging.makeLogRecord({"msg": "by %s", "args": (given,), "more": [given, {"name": given}]})
        LogFilter(redactor).filter(record)
        return record.getMessage(), record.more

    def made(self):
        searcher, redactor = AhoCorasick(["samwise", "sam", "frodo"]), Redactor(["samwise", "frodo"], forms=[])
        for it in (searcher, redactor._searcher):
            it._small = None  # whose calls are one step
        return searcher, redactor

    def looked_at(self, others):
        """Each call answers as it does alone."""
        searcher, redactor = self.made()
        for call in self.calls(searcher, redactor):
            self.assertEqual(at_each_step(call, others(searcher, redactor)), call())

    def looked_at_first(self, others):
        """The very first call gives the same result if another call comes before any of its steps."""
        for call in (lambda searcher, _: searcher.find("\xe9 samwise"), lambda searcher, _: [*searcher.find_iter(self.long)], lambda _, redactor: redactor.text("frodo")):
            wanted, number, steps = call(*self.made()), 0, [1]
            while number < len(steps):
                made, steps = self.made(), []
                other = others(*made)

                def at_one_step(other=other, number=number, steps=steps):
                    steps.append(number)
                    if len(steps) == number + 1:
                        other()

                self.assertEqual(at_each_step(lambda call=call, made=made: call(*made), at_one_step), wanted)
                number += 1
            self.assertGreater(number, 30)

    def searches(self, searcher, redactor):
        def other():
            searcher.find("frodo \xe9")
            list(searcher.find_iter("\xe9" + "sam" * 9))
            list(searcher.find_overlapping_iter("frodo" * 150))
            redactor.text("\xe9 frodo")

        return other

    def forks(self, searcher, redactor):
        def other():
            for it in (searcher, redactor._searcher):
                it._begin_process()  # as in the process that is forked

        return other

    def test_searches(self):
        self.looked_at(self.searches)

    def test_forks(self):
        self.looked_at(self.forks)

    def test_first_searches(self):
        failures = []

        def look():
            try:
                for others in (self.searches, self.forks):
                    self.looked_at_first(others)
            except BaseException as error:
                failures.append(error)

        thread = threading.Thread(target=look, daemon=True)
        thread.start()
        thread.join(120)
        self.assertFalse(thread.is_alive(), "a search waits for itself")
        self.assertEqual(failures, [])


class Odd(unittest.TestCase):
    """Instances of str and bytes subclasses whose own methods report something else than their content."""

    def test_bytes(self):
        class Longer(bytes):
            def __len__(self):
                return super().__len__() + 200

        class Shorter(bytes):
            def __len__(self):
                return super().__len__() // 2

            def __eq__(self, other):
                return True

            __hash__ = bytes.__hash__

        for kind in (Longer, Shorter):
            given, redactor = kind(b"the rest of a swordfish"), Redactor([kind(b"swordfish")], replacement=kind(b"*"))
            for searcher in (AhoCorasick([kind(b"swordfish")]), AhoCorasick([b"swordfish"])):
                self.assertEqual((searcher.find(given), searcher.is_match(given)), (Match(0, 14, 23), True))
                for calls in (searcher.find_iter, searcher.find_overlapping_iter, lambda it, searcher=searcher: searcher.stream([it])):
                    self.assertEqual(list(calls(given)), [Match(0, 14, 23)])
                self.assertEqual(searcher.replace_all(given, [kind(b"-")]), b"the rest of a -")
                self.assertEqual(searcher.cover_all(given, (kind(b"-"),)), b"the rest of a -")
                self.assertEqual(searcher.find_into(given, array.array("Q", [0] * 600)), 1)
            self.assertFalse(searcher.is_match(kind(b"a")) or searcher.is_match(kind(b"x" * 1000)))
            self.assertEqual(redactor.bytes(given), b"the rest of a *")
            there = io.BytesIO()
            redactor.stream([given[:20], kind(given[20:])], there)
            self.assertEqual(there.getvalue(), b"the rest of a *")
            self.assertEqual(forms(kind(b"key/+"), "hex"), forms(b"key/+", "hex"))
            record = logging.makeLogRecord({"msg": "by", "data": given})
            LogFilter(redactor).filter(record)
            self.assertEqual(bytes(memoryview(record.data)), b"the rest of a *")

    def test_texts(self):
        class Text(str):
            def __len__(self):
                return super().__len__() + 7

            def encode(self, *_):
                return b"nothing"

            def isascii(self):
                return True

            def __getitem__(self, at):
                return "swordfish"

            def __str__(self):
                return "a sword"

        given, redactor = Text("\xe9 swordfish, a sword"), Redactor([Text("swordfish")], replacement=Text("*"))
        for searcher in (AhoCorasick([Text("swordfish"), Text("\xe9")]), AhoCorasick(["swordfish", "\xe9"])):
            wanted = [Match(1, 0, 1), Match(0, 2, 11)]
            self.assertEqual((searcher.find(given), searcher.is_match(given)), (wanted[0], True))
            for calls in (searcher.find_iter, searcher.find_overlapping_iter, lambda it, searcher=searcher: searcher.stream([it])):
                self.assertEqual(list(calls(given)), wanted)
            self.assertEqual(searcher.replace_all(given, [Text("-"), "e"]), "e -, a sword")
            self.assertEqual(searcher.cover_all(given, [Text("-"), "e"]), "e -, a sword")
        self.assertEqual(AhoCorasick(["", "\xe9"]).replace_all(Text("\xe9a"), ["-", Text("+")]), "-\xe9-a-")
        self.assertEqual(redactor.text(given), "\xe9 *, a sword")
        self.assertIs(type(redactor.text(Text("nothing"))), str)
        there = io.StringIO()
        redactor.stream([Text("a sword"), Text("fish")], there)
        self.assertEqual(there.getvalue(), "a *")
        self.assertEqual(forms(Text("key/+"), "hex"), forms("key/+", "hex"))

    def test_what_only_passes_for_a_text(self):
        class Lazy:
            """As the lazy texts of frameworks."""

            __class__ = str

            def __str__(self):
                return "a swordfish"

        self.assertEqual(Redactor(["swordfish"]).text(Lazy()), "a [redacted]")
        self.assertEqual(AhoCorasick(["swordfish"]).find(Lazy()), Match(0, 2, 11))

    def test_texts_in_logs(self):
        class Hidden(str):
            def __str__(self):
                return "a swordfish"

        class Shown(str):
            def __repr__(self):
                return "Shown(swordfish)"

        class Broken(str):
            def __str__(self, *_):
                raise ValueError("swordfish")

            __format__ = __str__

        class Data(bytes):
            __repr__ = Shown.__repr__

        class Level(str, enum.Enum):
            LOW = "low"

        redactor = Redactor(["swordfish"], replacement="*")
        given = {"hidden": Hidden("x"), "shown": Shown("x"), "data": Data(b"x"), "level": Level.LOW, "text": Shown("swordfish"), "list": [Hidden("x")]}
        record = logging.makeLogRecord({"msg": Broken("by swordfish"), "args": ("a", "b"), **given})
        self.assertTrue(LogFilter(redactor).filter(record))
        self.assertEqual((record.hidden, record.shown, record.data, record.text, record.list), ("a *", "Shown(*)", "Shown(*)", "*", ["a *"]))
        self.assertIs(record.level, Level.LOW)
        self.assertEqual(record.getMessage(), "by * (arguments that do not fit it are left out)")

    def test_limits(self):
        class Number:
            def __init__(self, value):
                self.value = value

            def __index__(self):
                return self.value

        self.assertRaises(BuildError, AhoCorasick, ["abc"], max_len=Number(2))
        self.assertEqual(AhoCorasick(["abc"], max_len=Number(3)).patterns, ("abc",))
        self.assertRaises(ValueError, AhoCorasick, ["abc"], max_len=Number(-1))
        self.assertRaises(TypeError, AhoCorasick, ["abc"], max_len=2.5)


class Named(AhoCorasick):
    """A class of a program's own, that is made otherwise."""

    def __init__(self, letters, name):
        super().__init__(letters, kind="leftmost-longest", items=[1, 2])
        self.name = name


class Slotted(AhoCorasick):
    """One that holds something in slots, of which one may be empty."""

    __slots__ = ("first", "__own", "empty")

    def __init__(self, letters, first, own):
        super().__init__(letters)
        self.first, self.__own = first, own

    def held(self):
        return self.first, self.__own, hasattr(self, "empty")


class SlottedRedactor(Redactor):
    __slots__ = ("name",)


class Stated(AhoCorasick):
    """One with names of its own, and with a lock, which cannot be pickled."""

    def __init__(self, letters, size):
        super().__init__(letters)
        self._lock, self._kind, self._items, self._own, self._rest, self.size = threading.Lock(), "of words", [1], None, "rest", size

    def find_iter(self, haystack):
        return super().find_iter(haystack[:0])

    @property
    def patterns(self):
        return []

    def __getstate__(self):
        return {name: value for name, value in vars(self).items() if name != "_lock"}

    def __setstate__(self, state):
        vars(self).update(state, _lock=threading.Lock())


class Listed(Stated):
    def __getstate__(self):
        return [self.size]

    def __setstate__(self, state):
        self.size, self._lock = state[0], threading.Lock()


@dataclasses.dataclass
class Data(AhoCorasick):
    """One that compares, and so has no hash."""

    words: list

    def __post_init__(self):
        super().__init__(self.words)


class Prepared(unittest.TestCase):
    """Replacements are prepared once, and again if they have changed."""

    WORDS = [f"word{number}" for number in range(50)]

    def setUp(self):
        self.searcher = AhoCorasick(self.WORDS)

    def calls(self):
        def streamed(text, pieces):
            there = io.StringIO()
            self.searcher.stream_replace_all([text], there, pieces)
            return there.getvalue()

        return self.searcher.replace_all, self.searcher.cover_all, streamed

    def test_the_same_replacements_are_prepared_once(self):
        for call in self.calls():
            pieces = [str(number) for number in range(50)]
            for given in (pieces, tuple(pieces), dict(zip(self.WORDS, pieces)), collections.UserDict(zip(self.WORDS, pieces))):
                self.assertEqual(call("a word7", given), "a 7")
                with mock.patch.object(chromesquid, "_slices", side_effect=AssertionError):
                    self.assertEqual(call("a word7", given), "a 7")
                    self.assertEqual(call("word11!", list(pieces)), "11!")
                    self.assertEqual(call("word9", tuple(pieces)), "9")

    def test_what_has_changed(self):
        for call in self.calls():
            pieces = ["-"] * 50
            self.assertEqual(call("word7", pieces), "-")
            pieces[7] = "changed"
            self.assertEqual(call("word7", pieces), "changed")
            table = dict(zip(self.WORDS, pieces))
            self.assertEqual(call("word7", table), "changed")
            table["word7"] = "again"
            self.assertEqual(call("word7", table), "again")
            del table["word8"]
            self.assertRaises(ReplacementError, call, "word7", table)
            pieces.pop()
            self.assertRaises(ReplacementError, call, "word7", pieces)
            pieces.append(b"bytes")
            self.assertRaises(TypeError, call, "word7", pieces)
            pieces[-1] = "text"
            self.assertEqual(call("word7", pieces), "changed")

    def test_pieces_that_change_themselves(self):
        searcher = AhoCorasick([b"a", *(b"word%d" % number for number in range(40))])
        pieces = (bytearray(b"x"), *[b"-"] * 40)
        self.assertEqual(searcher.replace_all(b"a", pieces), b"x")
        pieces[0][:] = b"changed"
        self.assertEqual(searcher.replace_all(b"a", pieces), b"changed")

        class Same(bytes):
            def __eq__(self, other):
                return True

            __hash__ = bytes.__hash__

        pieces = [b"-"] * 41
        self.assertEqual(searcher.replace_all(b"a", pieces), b"-")
        pieces[0] = Same(b"other")
        self.assertEqual(searcher.replace_all(b"a", pieces), b"other")

    def test_the_type_of_the_haystack_is_looked_at_each_time(self):
        pieces = tuple("-" * number for number in range(50))
        for _ in range(2):
            self.assertEqual(self.searcher.replace_all("word3", pieces), "---")
            self.assertRaises(TypeError, self.searcher.replace_all, b"word3", pieces)
            self.assertRaises(TypeError, Replacer(self.searcher, pieces).push, b"word3")
        self.assertEqual(self.searcher.replace_all(b"word3", [b"-"] * 50), b"-")
        self.assertRaises(TypeError, self.searcher.replace_all, "word3", [b"-"] * 50)
        self.assertEqual(AhoCorasick([]).replace_all("text", ()), "text")
        self.assertEqual(AhoCorasick([]).replace_all(b"bytes", ()), b"bytes")

    def test_a_copy_prepares_its_own(self):
        pieces = ("-",) * 50
        self.searcher.replace_all("word3", pieces)
        for other in (copy.copy(self.searcher), pickle.loads(pickle.dumps(self.searcher))):
            self.assertEqual(other.replace_all("word3", ("+",) * 50), "+")
        self.assertEqual(self.searcher.replace_all("word3", pieces), "-")

    def test_threads(self):
        failures = []

        def work(sign):
            pieces = [sign] * 50
            for given in [pieces, tuple(pieces), dict(zip(self.WORDS, pieces))] * 60:
                if self.searcher.replace_all("word3, word7" * 50, given) != f"{sign}, {sign}" * 50:
                    failures.append(sign)

        def mutates(pieces):
            for number in range(200):
                pieces[3] = "odd" if number % 2 else "even"
                if self.searcher.replace_all("word3" * 120, pieces) != pieces[3] * 120:
                    failures.append(number)

        threads = [threading.Thread(target=work, args=(sign,)) for sign in "abcd"]
        threads += [threading.Thread(target=mutates, args=(["-"] * 50,)) for _ in range(2)]
        for thread in threads:
            thread.start()
        for thread in threads:
            thread.join()
        self.assertEqual(failures, [])

    def test_time(self):
        words = [f"{number:x}." for number in range(20_000)]
        searcher = AhoCorasick(words)

        def seconds(pieces):
            began = time.thread_time()
            self.assertEqual(searcher.replace_all("x" * 100, pieces), "x" * 100)
            return time.thread_time() - began

        anew = min(seconds([f"{number}" for number in range(20_000)]) for _ in range(5))
        pieces = [f"{number}" for number in range(20_000)]
        seconds(pieces)
        self.assertLess(min(seconds(pieces) for _ in range(9)), anew / 4)


class Messages(unittest.TestCase):
    """A TypeError says what the call takes."""

    def test_haystacks_and_patterns(self):
        searcher, redactor = AhoCorasick(["a"]), Redactor(["abcd"])
        for what, call in {
            "a haystack must be a str, bytes or another buffer, not NoneType": lambda: searcher.find(None),
            "a haystack must be a str, bytes or another buffer, not int": lambda: searcher.is_match(3),
            "a haystack must be a str, bytes or another buffer, not list": lambda: searcher.find_iter([]),
            "a haystack must be a str, bytes or another buffer, not set": lambda: redactor.bytes(set()),
            "a pattern must be a str, bytes or another buffer, not int": lambda: AhoCorasick([1]),
            "a secret must be a str, bytes or another buffer, not NoneType": lambda: Redactor([None]),
            "a secret must be a str, bytes or another buffer, not float": lambda: forms(1.5),
            "a piece must be a str, bytes or another buffer, not dict": lambda: Stream(searcher).push({}),
            "a piece must be a str, bytes or another buffer, not tuple": lambda: Coverer(redactor).push(()),
            "a replacement must be a str, bytes or another buffer, not int": lambda: searcher.replace_all(b"a", [1]),
            "the replacement must be a str, bytes or another buffer, not int": lambda: Redactor(["abcd"], replacement=1),
            "the patterns must be a list of str or of bytes, not NoneType": lambda: AhoCorasick(None),
            "ignore_case must be True or False, not list": lambda: AhoCorasick(["a"], ignore_case=[True]),
            "ignore_case must be True or False, not str": lambda: AhoCorasick(["a"], ignore_case="no"),
            "prefilter must be True or False, not dict": lambda: AhoCorasick(["a"], prefilter={}),
        }.items():
            with self.assertRaises(TypeError) as raised:
                call()
            self.assertEqual(str(raised.exception), what)

    def test_a_redactor_without_secrets(self):
        for secrets in ([], (), iter([])):
            with self.assertRaises(FormError) as raised:
                Redactor(secrets)
            self.assertEqual(str(raised.exception), "there are no secrets, so nothing would be redacted")


class Copies(unittest.TestCase):
    def test_pickled_and_copied(self):
        for patterns in (["né", "E"], [b"n\xff", b"E"]):
            searcher = AhoCorasick(patterns, kind="leftmost-first", ignore_case=True, prefilter=False)
            haystack = patterns[0][:0].join([*patterns, patterns[1].lower()])
            for other in (pickle.loads(pickle.dumps(searcher)), copy.copy(searcher), copy.deepcopy(searcher)):
                self.assertEqual(list(other.find_iter(haystack)), list(searcher.find_iter(haystack)))
                self.assertEqual(len(list(other.find_iter(haystack))), 3)
                self.assertEqual((other.patterns, other.kind), (searcher.patterns, searcher.kind))

    def test_classes_of_others(self):
        searcher = Named(["a", "n\xe9"], "letters")
        for it in (pickle.loads(pickle.dumps(searcher)), copy.copy(searcher), copy.deepcopy(searcher)):
            self.assertEqual((type(it), it.name, it.kind, it.items, it.find("an\xe9").end), (Named, "letters", "leftmost-longest", (1, 2), 1))

    def test_slots(self):
        searcher, redactor = Slotted(["a"], [1], {"b": 2}), SlottedRedactor(["swordfish"])
        redactor.name = "words"
        for copied in (lambda it: pickle.loads(pickle.dumps(it)), copy.copy, copy.deepcopy):
            self.assertEqual((copied(searcher).held(), copied(searcher).find("ba")), (([1], {"b": 2}, False), Match(0, 1, 2)))
            self.assertEqual((copied(redactor).name, copied(redactor).text("a swordfish")), ("words", "a [redacted]"))

    def test_classes_that_say_their_state(self):
        for copied in (lambda it: pickle.loads(pickle.dumps(it)), copy.copy, copy.deepcopy):
            for searcher in (Stated(["a"], 3), Listed(["a"], 3)):
                other = copied(searcher)
                self.assertEqual((other.size, other.find("ba"), other._lock.locked()), (3, Match(0, 1, 2), False))

    def test_names_that_a_class_takes_for_itself(self):
        searcher = Stated(["\xe9", ""], 1)
        with searcher._lock:
            self.assertEqual(searcher.find("a\xe9"), Match(1, 0, 0))
            self.assertEqual(searcher.replace_all("a\xe9", ["e", "-"]), "-a-\xe9-")
        self.assertEqual((searcher.kind, searcher.items), ("standard", ("\xe9", "")))
        self.assertEqual(list(Stated(["\xe9"], 1).stream(["a\xe9"])), [Match(0, 1, 2)])

    def test_classes_that_compare(self):
        class Same(AhoCorasick):
            def __eq__(self, other):
                return self.name == other.name

            def __hash__(self):
                return hash(self.name)

            def __init__(self, words, name):
                super().__init__(words)
                self.name = name

        for searcher in (Data(["a"]), Same(["a"], "letters")):
            self.assertEqual(searcher.find("ba"), Match(0, 1, 2))
        several = [Same(["a"], "letters") for _ in range(3)]
        locks = [it._AhoCorasick__lock for it in several]
        chromesquid._begin_process()  # of each of them
        self.assertFalse(any(it._AhoCorasick__lock is lock for it, lock in zip(several, locks)))
        self.assertEqual((pickle.loads(pickle.dumps(Data(["a"]))), copy.copy(Data(["a"])).words), (Data(["a"]), ["a"]))
        known = len(chromesquid._searchers)
        del several
        self.assertLess(len(chromesquid._searchers), known)

    def test_redactors_and_filters(self):
        redactor = Redactor(["swordfish", b"\xffkey"], forms=["hex"], replacement="*")
        for it in (redactor, LogFilter(redactor)):
            for other in (pickle.loads(pickle.dumps(it)), copy.copy(it), copy.deepcopy(it)):
                other = other._redactor if isinstance(it, LogFilter) else other
                self.assertEqual((other.bytes(b"a swordfish, \xffkey ff6b6579"), repr(other)), (b"a *, * *", repr(redactor)))
                there = io.StringIO()
                other.stream(["a sword", "fish"], there)
                self.assertEqual(there.getvalue(), "a *")

    def test_streams_are_not_copied(self):
        searcher = AhoCorasick(["a"])
        for it in (Stream(searcher), Replacer(searcher, ["b"]), Coverer(Redactor(["abcd"]))):
            for call in (copy.copy, copy.deepcopy, pickle.dumps):
                with self.assertRaisesRegex(TypeError, "a stream cannot be copied or pickled"):
                    call(it)

    def test_threads_that_share_an_iterator(self):
        matches = AhoCorasick([b"sam"]).find_iter(b"sam " * 100000)

        def take():
            with contextlib.suppress(ValueError):  # as of any generator that is asked by two
                for _ in matches:
                    pass

        threads = [threading.Thread(target=take) for _ in range(4)]
        for it in threads:
            it.start()
        for it in threads:
            it.join()

    def test_threads(self):
        searcher = AhoCorasick(["frodo", "sam"])
        text = "frodo and sam " * 5000
        counts = []
        threads = [threading.Thread(target=lambda: counts.append(sum(1 for _ in searcher.find_iter(text)))) for _ in range(8)]
        for it in threads:
            it.start()
        for it in threads:
            it.join()
        self.assertEqual(counts, [10000] * 8)

    @unittest.skipUnless(hasattr(os, "fork"), "no fork")
    def test_a_forked_process_searches_too(self):
        searcher, over = AhoCorasick(["frodo", "sam"]), []
        searches = threading.Thread(target=lambda: [searcher.is_match("x" * 1000) for _ in iter(lambda: bool(over), True)])
        searches.start()
        try:
            for _ in range(20):
                child = os.fork()
                if child == 0:
                    counts = []
                    thread = threading.Thread(target=lambda: counts.append(len(list(searcher.find_iter("a sam")))))
                    thread.start()
                    thread.join()
                    os._exit(0 if counts == [1] and searcher.find("frodo") == Match(0, 0, 5) else 1)
                self.assertEqual(os.waitpid(child, 0)[1], 0)
        finally:
            over.append(True)
            searches.join()

    def test_an_iterator_outlives_what_it_was_made_of(self):
        self.assertEqual(list(AhoCorasick(["a"]).find_iter("aéa")), [Match(0, 0, 1), Match(0, 2, 3)])


class Forms(unittest.TestCase):
    def test_the_patterns_of_a_secret(self):
        self.assertEqual(forms("key/+", ["hex"]), ["6b65792f2b", "6B65792F2B"])
        self.assertEqual(forms(b"key\xff", "hex"), [b"6b6579ff", b"6B6579FF"])
        self.assertEqual(forms("first line\nsecond line", ["lines"]), ["first line", "second line"])
        self.assertEqual(forms("k\xe9y.", ["json"]), ["k\xe9y.", "k\\u00e9y.", "k\\u00E9y."])
        self.assertEqual(forms("key+", []), [])
        self.assertEqual(forms("key+", "hex,url"), forms("key+", ["url", "hex"]))
        self.assertEqual(set(forms("key+", "all")), {it for name in chromesquid._FORMS for it in forms("key+", [name])})
        lines = [f"line number {it}" for it in range(300)]
        self.assertEqual(forms("\n".join(lines), "lines"), lines)
        long = forms("0123456789+/=" * 400)
        self.assertEqual(len(long), len(set(long)))
        self.assertGreater(len(long), 40)

    def test_what_has_no_forms(self):
        for names in ("hexx", ["all", "hex"], ["hex", ""], ["HEX"]):
            with self.assertRaisesRegex(ValueError, "unknown form"):
                forms("secret", names)
        for secret in ("", "key", b"abc"):
            with self.assertRaisesRegex(FormError, "fewer than four bytes has no forms"):
                forms(secret, "hex")
        self.assertEqual(len(forms("k\xe9y", "hex")), 2)

    def test_refused_secrets_are_told_by_their_numbers(self):
        for secrets, named, text in (
            (["swordfish", "key"], "hex", "secret 1 has fewer than four bytes, and so no forms"),
            ([b"swordfish", b""], "hex", "secret 1 is empty"),
            (["", "swordfish"], [], "secret 0 is empty"),
        ):
            with self.assertRaises(FormError) as caught:
                Redactor(secrets, forms=named)
            self.assertEqual(str(caught.exception), text)
        self.assertEqual(Redactor(["key"], forms=[]).text("a key"), "a [redacted]")
        for secrets in ({"name": "swordfish"}, "swordfish", {"swordfish"}):
            with self.assertRaises(TypeError):
                Redactor(secrets)
        self.assertNotIn("swordfish", repr(Redactor(["swordfish"])))

    def test_texts_and_bytes(self):
        redactor = Redactor(["sword/fish", b"\xc3\x28\xff\x00", b"\xa9tude"], replacement="*")
        self.assertEqual(redactor.text("a sword/fishword/fish sword%2Ffish"), "a *word/fish *")
        self.assertEqual(redactor.text("\xe9tude \ud800"), "\ufffd* \ud800")
        self.assertEqual(redactor.bytes(b"a \xc3\x28\xff\x00\xc3\x28\xff\x00, c328ff00 \xff"), b"a *, * \xff")
        self.assertEqual(redactor.bytes(memoryview(b"sword/fish")[::1]), b"*")
        self.assertEqual(redactor.bytes(b""), b"")
        for call, given in ((redactor.text, b"sword/fish"), (redactor.bytes, "sword/fish")):
            with self.assertRaises(TypeError):
                call(given)

    def hidden(self, redactor, secret, before, after):
        """No character of an encoding that holds a bit of the secret is left."""
        whole = before + secret + after
        encoded = base64.b64encode(whole).decode()
        first, last = 8 * len(before) // 6, (8 * (len(before) + len(secret)) + 5) // 6
        self.assertEqual(redactor.text(encoded), encoded[:first] + "*" + encoded[last:])
        encoded = whole.hex()
        self.assertEqual(redactor.text(encoded), encoded[: 2 * len(before)] + "*" + encoded[2 * (len(before) + len(secret)) :])
        self.assertEqual(redactor.text(urllib.parse.quote(secret)), "*")
        self.assertEqual(redactor.text(urllib.parse.quote_plus(secret)), "*")
        if secret.isascii():
            self.assertEqual(redactor.text(json.dumps(secret.decode())), '"*"')

    def test_what_encoders_write_of_a_secret(self):
        dice = random.Random(5)
        for turn in range(1500):
            secret = bytes(dice.choices(range(128 if turn % 2 else 256), k=dice.randrange(4, 20)))
            before, after = (bytes(dice.choices(b"xyz", k=dice.randrange(7))) for _ in range(2))
            with self.subTest(secret=secret, before=before, after=after):
                # Bytes that are like the secret's own may make a longer run of it.
                if not set(secret) & set(b"xyz*"):
                    self.hidden(Redactor([secret], replacement="*"), secret, before, after)

    def test_streams_are_covered_as_a_whole_is(self):
        dice = random.Random(6)
        for turn in range(3000):
            secrets = [bytes(dice.choices(b"ab", k=dice.randrange(1, 6))) for _ in range(dice.randrange(1, 4))]
            redactor = Redactor(secrets, forms=[], replacement="-" if turn % 3 else "")
            whole = bytes(dice.choices(b"abcd"[: dice.randrange(2, 5)], k=dice.randrange(30)))
            cuts = sorted(dice.choices(range(len(whole) + 1), k=dice.randrange(5)))
            pieces = [whole[begin:end] for begin, end in zip([0, *cuts], [*cuts, len(whole)])]
            with self.subTest(secrets=secrets, pieces=pieces):
                there = io.BytesIO()
                redactor.stream(pieces, there)
                self.assertEqual(there.getvalue(), redactor.bytes(whole))

    def test_readers_that_decode(self):
        redactor = Redactor(["swordfish"], replacement="*")
        with tempfile.SpooledTemporaryFile(mode="w+") as file:
            file.write("a swordfish\n")
            file.seek(0)
            for reader in (file, codecs.getreader("utf-16")(io.BytesIO("a swordfish\n".encode("utf-16")))):
                written = io.StringIO()
                redactor.stream(reader, written)
                self.assertEqual(written.getvalue(), "a *\n")
            self.assertFalse(file._rolled)  # nothing of it is on a disk

    def test_secrets_that_are_no_utf_8(self):
        escaped = b"p\xe4ss".decode("utf-8", "surrogateescape")  # as os.environ has it
        for secret in (escaped, b"p\xe4ss"):
            redactor = Redactor([secret], replacement="*")
            self.assertEqual((redactor.bytes(b"a p\xe4ss"), redactor.text(f"a {escaped}")), (b"a *", "a *"))

    def test_a_stream_is_written_as_it_comes(self):
        covering = Coverer(Redactor(["swordfish"], forms=[]))
        parts = [covering.push(it) for it in (b"a line\n", b"a sw", b"orange sword", b"fish", b"swo", b"rdfish", b".")]
        self.assertEqual(parts, [b"a line\n", b"a ", b"sworange ", b"[redacted]", b"", b"", b"."])
        self.assertEqual((covering.end(), covering.end()), (b"", b""))
        self.assertRaisesRegex(SearchError, "has ended", covering.push, b"a")
        covering = Coverer(Redactor(["aaaa"], forms=[]))
        self.assertEqual([covering.push(b"a" * 70000) for _ in range(3)], [b"[redacted]", b"", b""])
        self.assertLess(len(covering._held), 4)
        covering = Coverer(Redactor([b"\xf6rd\x9f", "sw\xf6rd\U0001f991"], forms=[]))
        self.assertEqual([covering.push(it) for it in ("a sw\xf6", "rd\U0001f991 ", "\ud800 sw")] + [covering.end()], ["a ", "[redacted] ", "\ud800 ", "sw"])
        self.assertRaises(TypeError, covering.push, b"a")
        there = io.StringIO()
        Redactor(["sw\xf6rd\U0001f991"]).stream(iter(["a sw\xf6", "rd", "\U0001f991 \ud800"]), there)
        self.assertEqual(there.getvalue(), "a [redacted] \ud800")
        with self.assertRaises(TypeError):
            Redactor(["swordfish"]).stream([b"a", "b"], io.BytesIO())


    def test_a_reader_that_has_nothing_for_now(self):
        coverer, reader, parts = Coverer(Redactor(["swordfish"], forms=[])), Slow([b"the swordf", None, b"ish!", None]), []
        for piece in iter(lambda: reader.read(100), b""):
            if piece is not None:
                parts.append(coverer.push(piece))
        self.assertEqual(parts + [coverer.end()], [b"the ", b"[redacted]!", b""])
        there = io.BytesIO()
        self.assertRaises(BlockingIOError, Redactor(["swordfish"]).stream, Slow([b"the swordf", None]), there)
        self.assertEqual(there.getvalue(), b"the ")


class Logs(unittest.TestCase):
    def setUp(self):
        self.there = io.StringIO()
        self.handler = logging.StreamHandler(self.there)
        self.handler.setFormatter(logging.Formatter("%(name)s %(levelname)s %(message)s"))
        self.handler.addFilter(LogFilter(Redactor(["swordfish", "pass/word", "bell\x07word"], replacement="*")))
        self.log = logging.Logger("tests")
        self.log.addHandler(self.handler)

    def written(self):
        text = self.there.getvalue()
        self.there.seek(0)
        self.there.truncate()
        for secret in ("swordfish", "word", "c3dvcmRmaXNo"):
            self.assertNotIn(secret, text)
        return text

    def test_messages_and_arguments(self):
        self.log.warning("a swordfish")
        self.log.warning("%s%s %d", "sword", "fish", 7)
        self.log.warning("%(token)s", {"token": base64.b64encode(b"swordfish").decode()})
        self.log.warning(["pass/word", "pass%2Fword"])
        self.log.warning("100 % of swordfish")
        wanted = ["a *", "* 7", "*", "['*', '*']", "100 % of *"]
        self.assertEqual(self.written().splitlines(), [f"tests WARNING {it}" for it in wanted])
        record = logging.makeLogRecord({"msg": "by", "user": "swordfish", "number": 7})
        self.assertTrue(self.handler.filter(record))
        self.assertEqual((record.getMessage(), record.user, record.number), ("by", "*", 7))

    def test_arguments_that_do_not_fit(self):
        errors = io.StringIO()
        with mock.patch("sys.stderr", errors):
            self.log.warning("a swordfish %d", "bell\x07word")  # as a tuple is printed, it is written otherwise than in any form
            self.log.warning("%s %s", "swordfish")
        self.assertEqual(errors.getvalue(), "")
        self.assertEqual(self.written().count("(arguments that do not fit it are left out)"), 2)

    def test_tracebacks(self):
        try:
            raise ValueError("pass/word")
        except ValueError:
            self.log.exception("a sword", stack_info=True)
        text = self.there.getvalue()
        self.assertIn("Traceback", text)
        self.assertIn("ValueError: *\n", text)
        self.assertNotIn("pass/word", text)
        record = logging.LogRecord("tests", 30, "", 1, "a %s", ("swordfish",), (ValueError, ValueError("swordfish"), None))
        self.assertTrue(self.handler.filter(record))
        self.assertEqual((record.msg, record.args, record.exc_info, record.exc_text), ("a *", (), None, "ValueError: *"))

    def test_other_values_and_their_parts(self):
        ring = ["swordfish"]
        ring.append(ring)
        extra = {"headers": {"pass/word": b"swordfish"}, "parts": [("a", "swordfish"), 7], "path": pathlib.Path("swordfish"), "ring": ring, "kept": {"a": [1, None]}}
        record = logging.makeLogRecord({"msg": "by", **extra})
        self.assertTrue(self.handler.filter(record))
        self.assertEqual((record.headers, record.parts, record.path), ({"*": b"*"}, [("a", "*"), 7], "*"))
        self.assertEqual(record.ring, ["*", "['*', [...]]"])
        self.assertIs(record.kept, extra["kept"])


    def test_values_that_cannot_be_looked_at(self):
        class Odd:
            def __init__(self, text):
                self.text = text

            def __str__(self):
                return self.text

            __repr__ = __str__

            def __eq__(self, other):
                raise ValueError("as of an array, this has no truth")

            def __bool__(self):
                raise ValueError("as of an array, this has no truth")

            __hash__ = None

        class Broken(collections.UserDict):
            def items(self):
                raise KeyError("swordfish")

        deep = ["swordfish"]
        for _ in range(100000):
            deep = [deep]
        clean = [Odd("clean")]
        given = {"parts": [Odd("a swordfish")], "named": {"a": Odd("swordfish"), "b": clean}, "clean": clean, "broken": Broken(), "deep": deep}
        self.log.warning("by %s", 7, extra={**given, 5: "swordfish"})  # and nothing is raised
        self.assertEqual(self.written(), "tests WARNING by 7\n")
        record = logging.makeLogRecord({"msg": "by", **given, 5: "swordfish", "swordfish": 1, "exc_info": (ValueError, 3, 3)})
        self.assertTrue(self.handler.filter(record))
        self.assertEqual((record.parts, record.named, vars(record)[5]), (["a *"], {"a": "*", "b": clean}, "*"))
        self.assertIs(record.clean, clean)
        self.assertEqual(record.broken, "(Broken that cannot be examined is left out)")
        self.assertIsInstance(record.deep, str)
        self.assertEqual((vars(record)["*"], hasattr(record, "swordfish"), record.exc_info), (1, False, None))
        self.assertNotIn("swordfish", record.deep + record.exc_text)
        while deep:  # which recursion could not let go
            deep = deep.pop() if isinstance(deep, list) else None

    def test_values_that_str_does_not_show(self):
        class Hidden:
            def __repr__(self):
                return "Hidden(swordfish)"

            def __str__(self):
                return "hidden"

        class Number(int):
            __str__ = __repr__ = Hidden.__repr__

        user = collections.namedtuple("User", "name word")("sam", "swordfish")
        record = logging.makeLogRecord({"msg": "by", "hidden": Hidden(), "number": Number(7), "user": user, "users": [user]})
        self.assertTrue(self.handler.filter(record))
        self.assertEqual((record.hidden, record.number, record.user.word, record.users[0].name), ("Hidden(*)", "Hidden(*)", "*", "sam"))


# What a type checker has to take from a program, and to know of the answers.
TYPED = """
import io
import logging
from typing import Dict, Iterator, List, Optional, Tuple
from chromesquid import AhoCorasick, Coverer, LogFilter, Match, Redactor, Replacer, Stream, forms

words: List[str] = ["sam", "frodo"]
others: List[bytes] = [b"S", b"F"]
table: Dict[str, str] = {"sam": "S", "frodo": "F"}
searcher = AhoCorasick(words, kind="leftmost-first", items=[1, 2])
text: str = searcher.replace_all("sam", words) + searcher.replace_all("sam", table) + searcher.cover_all("sam", ("S", "F"))
data: bytes = searcher.replace_all(b"sam", others) + searcher.replace_all(bytearray(b"sam"), others) + searcher.cover_all(memoryview(b""), others)
searcher.stream_replace_all(io.StringIO(text), io.StringIO(), words)
searcher.stream_replace_all(io.BytesIO(data), io.BytesIO(), others)
part: str = Replacer(searcher, words).push("sam")
piece: bytes = Replacer(searcher, others).push(b"sam") + Coverer(Redactor(words)).push(b"sam")
patterns: Tuple[List[str], List[bytes]] = (forms("secret"), forms(b"secret", ["hex"]))
first: Optional[Match] = searcher.find("sam")
place: int = first.start if first else 0
matches: Iterator[Match] = searcher.stream(io.StringIO("sam"))
found: List[Match] = Stream(searcher).push("sam")
logging.StreamHandler().addFilter(LogFilter(Redactor([text, data])))
"""


class Types(unittest.TestCase):
    @unittest.skipUnless(hasattr(typing, "get_overloads"), "Python below 3.11 does not list overloads")
    def test_answers_are_of_the_type_of_what_is_given(self):
        for function, two in ((AhoCorasick.replace_all, ["str", "bytes"]), (AhoCorasick.cover_all, ["str", "bytes"]), (Replacer.push, ["str", "bytes"]), (Coverer.push, ["str", "bytes"]),
                              (forms, ["List[str]", "List[bytes]"])):
            self.assertEqual([it.__annotations__["return"] for it in typing.get_overloads(function)], two)

    @unittest.skipUnless(shutil.which("mypy"), "no mypy")
    def test_a_typed_program(self):
        folder = os.path.dirname(os.path.abspath(chromesquid.__file__))
        with tempfile.TemporaryDirectory() as room:
            with open(os.path.join(room, "program.py"), "w", encoding="utf-8") as file:
                file.write(TYPED)
            words = ["mypy", "--strict", "--follow-imports=silent", "--cache-dir", room, "program.py"]
            ended = subprocess.run(words, cwd=room, env={**os.environ, "MYPYPATH": folder}, stdout=subprocess.PIPE, universal_newlines=True, check=False)
            self.assertEqual(ended.returncode, 0, ended.stdout)


class Library(unittest.TestCase):
    def test_a_named_folder_without_it(self):
        with tempfile.TemporaryDirectory() as room:
            for named in (room, os.path.join(room, "nowhere")):
                environment = {**os.environ, "CHROMESQUID_LIBRARY": named, "PYTHONPATH": os.pathsep.join(sys.path)}
                ended = subprocess.run([sys.executable, "-c", "import chromesquid"], env=environment, stderr=subprocess.PIPE, universal_newlines=True, check=False)
                self.assertEqual(ended.returncode, 1)
                self.assertIn(f"ImportError: CHROMESQUID_LIBRARY is '{named}', which is not a folder with libchromesquid.so.0", ended.stderr)


PAGE = os.path.join(os.path.dirname(os.path.abspath(__file__)), "README.md")


@unittest.skipUnless(os.path.exists(PAGE), "no page")
class Page(unittest.TestCase):
    def test_blocks_run_as_they_are_printed(self):
        with open(PAGE, encoding="utf-8") as file:
            blocks = re.findall(r"(?ms)^```python\n(.*?)^```", file.read())
        self.assertGreater(len(blocks), 2)
        names, values, here = {}, 0, os.getcwd()
        written = io.TextIOWrapper(io.BytesIO())
        with tempfile.TemporaryDirectory() as room, mock.patch.dict(os.environ, TOKEN="user:swordfish"), mock.patch("sys.stdout", written):
            os.chdir(room)
            try:
                with open("log", "w", encoding="utf-8") as log:
                    log.write("sam, user:swordfish\n")
                for block in blocks:
                    exec(block, names)  # pylint: disable=exec-used
                    for line in block.splitlines():
                        said = re.fullmatch(r"(\S.*?) +# ([A-Z]\w+\(.*?\)|'.*?'|\[.*?\])(:.*)?", line)
                        if said:
                            values += 1
                            state = {**names, "replacer": Replacer(names["searcher"], ["S", "s", "F"])}
                            self.assertEqual(eval(said[1], state), eval(said[2], {"Match": Match}), line)  # pylint: disable=eval-used
            finally:
                os.chdir(here)
            written.flush()
            told = written.buffer.getvalue().decode()
        self.assertEqual((values, "swordfish" in told, "[redacted]" in told, "Match(pattern=1, start=0, end=3)" in told), (4, False, True, True))


class BesideTheModel(unittest.TestCase):
    def compare(self, dice, letters, empty):
        patterns = [empty.join(dice.choices(letters, k=dice.randrange(4))) for _ in range(dice.randrange(6))]
        haystack = empty.join(dice.choices(letters, k=dice.randrange(20)))
        kind, ignore_case = dice.choice(KINDS), dice.random() < 0.3
        if not patterns and not isinstance(haystack, str):
            patterns = [empty]
        with self.subTest(patterns=patterns, haystack=haystack, kind=kind, ignore_case=ignore_case):
            automaton = dice.choice((None, "noncontiguous", "rows"))
            searcher = AhoCorasick(patterns, kind=kind, ignore_case=ignore_case, prefilter=dice.random() < 0.5, automaton=automaton)
            wanted = finds(patterns, haystack, kind, ignore_case)
            self.assertEqual(list(searcher.find_iter(haystack)), wanted)
            self.assertEqual(searcher.find(haystack), wanted[0] if wanted else None)
            self.assertEqual(searcher.is_match(haystack), bool(wanted))
            if kind == "standard":
                self.assertEqual(list(searcher.find_overlapping_iter(haystack)), occurrences(patterns, haystack, ignore_case))
            pieces = [empty.join(dice.choices(letters, k=dice.randrange(5))) for _ in patterns]
            self.assertEqual(searcher.replace_all(haystack, pieces), replaced(haystack, wanted, pieces))
            if kind == "standard" and empty not in patterns:
                self.assertEqual(searcher.cover_all(haystack, pieces), covered(patterns, haystack, pieces, ignore_case))

    def test_bytes(self):
        dice = random.Random(1)
        for _ in range(3000):
            self.compare(dice, [b"a", b"b", b"A", b"\0", b"\xff"][: dice.randrange(2, 6)], b"")

    def test_some_matches_at_a_time(self):
        dice = random.Random(4)
        for turn in range(4000):
            step, room = dice.randrange(1, 6), dice.randrange(2, 6)
            sizes = {"_FEW": 0, "_STEP_FIRST": step, "_STEP_LAST": 4 * step, "_ROOM_FIRST": room, "_ROOM_LAST": 2 * room}
            with mock.patch.multiple(chromesquid, **sizes):
                if turn % 2:
                    self.compare(dice, [b"a", b"b", b"A", b"\xff"][: dice.randrange(1, 5)], b"")
                else:
                    self.compare(dice, ["a", "é", "A", "🦑"][: dice.randrange(1, 5)], "")

    def test_texts(self):
        dice = random.Random(2)
        for _ in range(3000):
            self.compare(dice, ["a", "é", "A", "🦑", "\0"][: dice.randrange(1, 6)], "")


if __name__ == "__main__":
    unittest.main()
