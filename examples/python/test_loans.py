"""Tests of the register and its log in Python, over the library of ISCC_LIBRARY or
target/installed.

    ./install target/installed
    python3 examples/python/test_loans.py [TEST..]      as Calls.test_layout

The last line is 'N passed, M failed', and the exit status is 0 only where nothing failed.
"""

from __future__ import annotations

import ctypes
import mmap
import pathlib
import pickle
import re
import subprocess
import sys
import tempfile
import threading
import time
import unittest
from collections.abc import Callable

sys.dont_write_bytecode = True

import iscc  # noqa: E402
import loans  # noqa: E402
import test_iscc  # noqa: E402
from test_iscc import CONTENT, DATA, INSTANCE, META, SEMANTIC  # noqa: E402
from test_iscc import HERE, TOP, TYPED, WRITTEN, Call, answer  # noqa: E402

HEADER = (TOP / "include" / "loans.h").read_text("ascii")
PLACES = 256
COUNTS = 16  # bytes before the places
LAST = 4  # bytes of the last number, behind the places
WIDE = "ISCC:K4AAAAICAMCAKBQHBAEQUCYMBUHA6EARCIJRIFIWC4MBSGQ3DQOR4HY"
ID = "MAAGZTFQTTVIZPJR"


def label(index: int) -> str:
    """One of many codes, which differ in their last two bytes alone."""
    return iscc.text(bytes.fromhex("3001") + index.to_bytes(8, "big"))


def place_of(code: bytes, borrower: int) -> bytes:
    """The bytes of a used place."""
    return bytes([len(code)]) + code.ljust(43, b"\0") + borrower.to_bytes(4, "big")


def area_of(places: list[bytes], last: int) -> bytes:
    """The register of these places, which are in order: counts, places, free ones, last number."""
    counts = [len(places)] + [sum(place[1] >> 4 == kind for place in places) for kind in range(7)]
    numbers = b"".join(count.to_bytes(2, "big") for count in counts)
    return (numbers + b"".join(places)).ljust(loans.AREA - LAST, b"\0") + last.to_bytes(LAST, "big")


def numbered(register: loans.Register, last: int) -> loans.Register:
    """The register with another last number."""
    register.area[-LAST:] = last.to_bytes(LAST, "big")
    return register


def looks_for(index: int, out: list[int]) -> int:
    """The looks of a question about label(index) where the labels of `out`, in order, are out."""
    looks = 0
    while out:
        middle = len(out) // 2
        looks += 1
        if out[middle] == index:
            break
        out = out[:middle] if index < out[middle] else out[middle + 1 :]
    return looks


def full() -> loans.Register:
    """A register in which label(i) is out to borrower i, in every place."""
    register = loans.Register()
    for index in range(PLACES):
        register.issue(label(index), index)
    return register


class Header(unittest.TestCase):
    """The module says what the header says."""

    def test_area(self) -> None:
        found = re.search(r"^#define LOANS_REGISTER_AREA (\d+)$", HEADER, re.MULTILINE)
        assert found
        self.assertEqual(loans.AREA, int(found[1]))
        found = re.search(r"^#define LOANS_COUNTS_BYTES (\d+)$", HEADER, re.MULTILINE)
        assert found
        self.assertEqual(COUNTS, int(found[1]))
        found = re.search(r"^#define LOANS_LAST_NUMBER_OFFSET (\d+)$", HEADER, re.MULTILINE)
        assert found
        self.assertEqual(loans._LAST_NUMBER_OFFSET, int(found[1]))
        self.assertEqual(loans._LAST_NUMBER_OFFSET + LAST, loans.AREA)

    def fields(self, name: str) -> list[str]:
        """The fields of a struct whose fields are all 32-bit numbers."""
        found = re.search(rf"^typedef struct {{([^}}]+)}} {name};$", HEADER, re.MULTILINE)
        assert found
        return re.findall(r"^    uint32_t (\w+);$", found[1], re.MULTILINE)

    def test_structs(self) -> None:
        changed = [field[0] for field in loans._Changed._fields_]
        holder = [field[0] for field in loans._Holder._fields_]
        counted = [field[0] for field in loans._Counted._fields_]
        self.assertEqual(self.fields("loans_changed"), changed)
        self.assertEqual(self.fields("loans_holder"), holder)
        self.assertEqual(self.fields("loans_counted"), counted)
        self.assertEqual(counted, ["number", *loans.Counts._fields])

    def test_verdict(self) -> None:
        found = re.search(r"^typedef struct {([^}]+)} loans_verdict;$", HEADER, re.MULTILINE)
        assert found
        kinds: dict[str, object] = {"uint32_t": ctypes.c_uint32, "size_t": ctypes.c_size_t}
        kinds["uint8_t"] = ctypes.c_uint8 * iscc._CODE_AREA
        lines = re.findall(r"^    (\w+) (\w+)(\[ISCC_CODE_AREA\])?;$", found[1], re.MULTILINE)
        self.assertEqual([bool(count) for *_, count in lines], [False, False, False, True])
        due = [(name, kinds[kind]) for kind, name, _ in lines]
        self.assertEqual(loans._Verdict._fields_, due)

    def test_star(self) -> None:
        given: dict[str, object] = {}
        exec("from loans import *", given)
        self.assertEqual(given.keys() - {"__builtins__"}, set(loans.__all__))

    def test_log(self) -> None:
        found = re.search(r"^#define LOANS_LOG_RECORD_MOST (\d+)$", HEADER, re.MULTILINE)
        assert found
        self.assertEqual(loans.RECORD_MOST, int(found[1]))
        ends = dict(re.findall(r"^ +LOANS_(TORN|STOPPED) = (\d)", HEADER, re.MULTILINE))
        self.assertEqual(ends, {"TORN": str(loans._TORN), "STOPPED": str(loans._STOPPED)})


class Calls(unittest.TestCase):
    """The answers, and the bytes of the area."""

    def refused(self, register: loans.Register, number: int, call: Call, *given: object) -> None:
        before = bytes(register.area)
        self.assertEqual(answer(call, *given), number, given)
        self.assertEqual(bytes(register.area), before, given)

    def test_one_code(self) -> None:
        register = loans.Register()
        for turn, borrower in enumerate((0, 1204, 2**32 - 1)):
            self.assertEqual(register.issue(TYPED, borrower), 2 * turn + 1)
            for text in (TYPED, TYPED.upper().encode(), WRITTEN):
                self.assertEqual(register.ask(text), borrower)
                self.assertEqual(register.find(text), (borrower, 1))
                self.refused(register, 20, register.issue, text, 7)
            self.assertEqual(register.take_back(WRITTEN), 2 * turn + 2)
            self.assertEqual(register.find(TYPED), loans.Found(borrower=None, looks=0))
            self.refused(register, 22, register.ask, TYPED)
            self.refused(register, 22, register.take_back, TYPED)
            self.assertEqual(bytes(register.area), area_of([], 2 * turn + 2))

    def test_layout(self) -> None:
        register = loans.Register()
        register.issue(TYPED, 0x01020304)
        code = iscc.code(TYPED)
        place = bytes([len(code)]) + code.ljust(43, b"\0") + bytes([1, 2, 3, 4])
        counts = bytes([0, 1, *bytes(10), 0, 1, 0, 0])
        free = bytes(255 * 48)
        self.assertEqual(bytes(register.area), counts + place + free + bytes([0, 0, 0, 1]))

    def test_order(self) -> None:
        register = loans.Register()
        places = {}
        for index in (3, 1, 4, 2):
            register.issue(label(index), index)
            places[index] = place_of(iscc.code(label(index)), index)
            due = area_of([places[out] for out in sorted(places)], len(places))
            self.assertEqual(bytes(register.area), due)
        register.take_back(label(2))
        self.assertEqual(bytes(register.area), area_of([places[1], places[3], places[4]], 5))

    def test_last_number(self) -> None:
        register = loans.Register()
        self.assertEqual(register.last_number(), 0)
        for last in (0, 1, 255, 0x01020304, 2**32 - 4):
            numbered(register, last)
            self.assertEqual(register.last_number(), last)
            self.assertEqual(register.issue(TYPED, 5), last + 1)
            self.refused(register, 20, register.issue, TYPED, 5)
            self.assertEqual(register.take_back(TYPED), last + 2)
            self.refused(register, 22, register.take_back, TYPED)
            self.assertEqual(register.last_number(), last + 2)

    def test_numbers_spent(self) -> None:
        register = numbered(loans.Register(), 2**32 - 2)
        self.assertEqual(register.issue(TYPED, 5), 2**32 - 1)
        self.refused(register, 26, register.issue, ID, 5)
        self.refused(register, 26, register.issue, TYPED, 5)  # before 20
        self.refused(register, 26, register.take_back, TYPED)
        self.refused(register, 26, register.take_back, ID)  # before 22
        self.refused(register, 4, register.take_back, "GAA0")
        self.assertEqual((register.ask(TYPED), register.last_number()), (5, 2**32 - 1))
        self.refused(register, 22, register.ask, ID)  # a question takes no number
        everything = numbered(full(), 2**32 - 1)
        self.refused(everything, 26, everything.issue, WRITTEN, 1)  # before 21
        everything.area[1] ^= 1
        self.refused(everything, 23, everything.issue, WRITTEN, 1)

    def test_counts(self) -> None:
        register = loans.Register()
        self.assertEqual(register.counts(), loans.Counts(0, 0, 0, 0, 0, 0, 0, 0))
        meta, *others = map(iscc.text, (META, SEMANTIC, CONTENT, DATA, INSTANCE))
        for text in (meta, *others, TYPED, WIDE, ID):
            register.issue(text, 1)
        due = loans.Counts(8, meta=1, semantic=1, content=1, data=1, instance=1, iscc=2, id=1)
        self.assertEqual(register.counts(), due)
        self.assertEqual(answer(register.issue, WRITTEN, 2), 20)
        self.assertEqual(register.counts(), due)
        register.take_back(WRITTEN)
        register.take_back(meta)
        due = loans.Counts(6, meta=0, semantic=1, content=1, data=1, instance=1, iscc=1, id=1)
        self.assertEqual(register.counts(), due)
        register.take_back(ID)
        self.assertEqual(register.counts(), due._replace(out=5, id=0))

    def test_counts_of_all(self) -> None:
        register = full()  # 256 takes both bytes
        self.assertEqual(register.counts(), loans.Counts(256, 0, 0, 0, 256, 0, 0, 0))
        self.assertEqual(bytes(register.area[:COUNTS]), bytes([1, 0, *bytes(6), 1, *bytes(7)]))
        register.take_back(label(9))
        self.assertEqual(register.counts(), loans.Counts(255, 0, 0, 0, 255, 0, 0, 0))

    def test_looks(self) -> None:
        for count in (0, 1, 2, 3, 16, 255, 256):
            register, out = loans.Register(), list(range(1, 2 * count, 2))
            for index in out:
                register.issue(label(index), index)
            for index in range(2 * count + 1):
                due = loans.Found(index if index % 2 else None, looks_for(index, out))
                self.assertEqual(register.find(label(index)), due)
                self.assertLessEqual(due.looks, 9)

    def test_full(self) -> None:
        register = full()
        self.assertEqual([register.ask(label(i)) for i in range(PLACES)], list(range(PLACES)))
        self.refused(register, 21, register.issue, WRITTEN, 1)
        self.refused(register, 20, register.issue, label(9), 1)
        register.take_back(label(9))
        register.issue(WRITTEN, 1)
        self.assertEqual(register.ask(TYPED), 1)

    def test_bad_texts(self) -> None:
        register = loans.Register(bytearray(1))  # no register: the number of the text comes first
        for text, number in (("", 1), (" " * 1025, 2), ("GAA0", 4), ("A\0", 4), ("\ud800", 4)):
            self.refused(register, number, register.issue, text, 1)
            self.refused(register, number, register.take_back, text)
            self.refused(register, number, register.ask, text)
            self.refused(register, number, register.find, text)

    def test_not_a_register(self) -> None:
        whole, one = bytes(full().area), area_of([place_of(iscc.code(TYPED), 1)], 1)
        first, second = whole[16:64], whole[64:112]
        areas = [b"", whole[:-1], whole + b"\0"]
        areas += [whole[:-LAST], bytes(loans.AREA - LAST)]  # as they were before 0.7
        areas += [whole[COUNTS:-LAST], bytes(loans.AREA - COUNTS - LAST)]  # and before 0.6
        areas.append(whole[:16] + bytes([43]) + whole[17:])
        areas.append(whole[:16] + second + first + whole[112:])
        areas.append(one[:16] + bytes(48) + one[16 : -48 - LAST] + one[-LAST:])
        for offset in range(COUNTS):
            areas.append(whole[:offset] + bytes([whole[offset] ^ 1]) + whole[offset + 1 :])
        for area in areas:
            register = loans.Register(bytearray(area))
            self.refused(register, 23, register.counts)
            self.refused(register, 23, register.last_number)
            self.refused(register, 23, register.issue, TYPED, 1)
            self.refused(register, 23, register.take_back, TYPED)
            self.refused(register, 23, register.ask, TYPED)
            self.refused(register, 23, register.find, TYPED)


class Areas(unittest.TestCase):
    """What may be a register, and what may be given to it."""

    def test_in_place(self) -> None:
        area = bytearray(loans.AREA + 96)
        register = loans.Register(memoryview(area)[48:-48])
        register.issue(TYPED, 5)
        self.assertEqual(area[:50], bytes(49) + bytes([1]))
        self.assertEqual(area[-52:], bytes([0, 0, 0, 1]) + bytes(48))
        self.assertEqual(loans.Register(area[48:-48]).ask(TYPED), 5)

    def test_in_a_file(self) -> None:
        with tempfile.TemporaryFile() as file:
            file.truncate(loans.AREA)
            with mmap.mmap(file.fileno(), 0) as area:
                loans.Register(area).issue(TYPED, 5)
            file.seek(0)
            self.assertEqual(loans.Register(bytearray(file.read())).ask(TYPED), 5)

    def test_area_changed_by_its_owner(self) -> None:
        area = bytearray(loans.AREA)
        register = loans.Register(area)
        try:
            register.ask(TYPED)
        except iscc.Refused:
            area.append(0)  # the area is the caller's again, also while the refusal is told
        self.assertEqual(answer(register.ask, TYPED), 23)
        del area[-1]
        self.assertEqual(answer(register.ask, TYPED), 22)

    def test_other_areas(self) -> None:
        make: Call = loans.Register
        for name, area in {"bytes": bytes(loans.AREA), "str": "", "int": loans.AREA}.items():
            said = f"^a register is a bytearray, a memoryview or an mmap, not {name}$"
            self.assertRaisesRegex(TypeError, said, make, area)
        register = loans.Register(memoryview(bytes(loans.AREA)))
        self.assertRaisesRegex(TypeError, "not writable", register.issue, TYPED, 1)

    def test_other_arguments(self) -> None:
        register = loans.Register()
        issue: Call = register.issue
        for number in (-1, 2**32, 2**64):
            said = f"^a borrower is from 0 to 4294967295, not {number}$"
            self.assertRaisesRegex(ValueError, said, issue, TYPED, number)
        self.assertRaisesRegex(TypeError, "^a borrower is an int, not str$", issue, TYPED, "5")
        self.assertRaisesRegex(TypeError, "^a text is a str or bytes, not int$", issue, 5, 5)
        self.assertEqual(register.area, bytearray(loans.AREA))


class Log(unittest.TestCase):
    """The records, and what a replay makes of them."""

    def setUp(self) -> None:
        self.code = iscc.code(TYPED)
        self.log = loans.Log(bytearray(b"\xee" * 54))

    def written(self) -> bytes:
        """The specification's log: the code goes to borrower 258 and comes back."""
        self.log.issue(1, self.code, 258)
        self.log.take_back(2, self.code)
        return self.log.records()

    def test_records(self) -> None:
        issue = bytes.fromhex("03 001a 00000001 00000102") + self.code
        self.assertEqual(self.written(), issue + bytes.fromhex("04 0016 00000002") + self.code)
        self.assertEqual(self.log.position, 54)
        self.assertEqual(bytes(self.log.area), self.log.records())

    def test_any_number(self) -> None:
        self.log.take_back(2**32 - 1, self.code)
        self.assertEqual(self.log.records(), bytes.fromhex("04 0016 ffffffff") + self.code)

    def test_refused(self) -> None:
        before = b"\xee" * 54
        for code, number in ((b"", 24), (self.code + b"\0", 24), (self.code[:-1], 24)):
            self.assertEqual(answer(self.log.take_back, 1, code), number)
            self.assertEqual(answer(self.log.issue, 1, code, 1), number)
        for position in (0, 26, 54, 55):
            log = loans.Log(bytearray(before), position)
            self.assertEqual(answer(log.issue, 0, self.code, 1), 24)  # before 15
            self.assertEqual(answer(log.take_back, 0, self.code), 24)
            self.assertEqual((log.position, bytes(log.area)), (position, before))
        for position in (26, 54, 55, 2**64 - 1):
            log = loans.Log(bytearray(before), position)
            self.assertEqual(answer(log.issue, 1, self.code, 1), 15)
            self.assertEqual((log.position, bytes(log.area)), (position, before))
        self.assertEqual((self.log.position, bytes(self.log.area)), (0, before))

    def test_every_cut(self) -> None:
        records = self.written()
        issued, back = loans.Register(), loans.Register()
        for register in (issued, back):
            register.issue(TYPED, 258)
        back.take_back(TYPED)
        for cut in range(55):
            register = loans.Register()
            torn = None if cut in (0, 29, 54) else 0 if cut < 29 else 29
            self.assertEqual(register.replay(records[:cut]), torn, cut)
            due = loans.Register() if cut < 29 else issued if cut < 54 else back
            self.assertEqual(bytes(register.area), bytes(due.area), cut)
            self.assertIsNone(register.replay(records))  # the whole log again: it goes on
            self.assertEqual(bytes(register.area), bytes(back.area), cut)
            self.assertEqual(register.replay(records[:cut]), torn, cut)  # and nothing changes
            self.assertEqual(bytes(register.area), bytes(back.area), cut)

    def test_live_run(self) -> None:
        live, log = loans.Register(), loans.Log(bytearray(PLACES * loans.RECORD_MOST))

        def issue(index: int, borrower: int) -> None:
            log.issue(live.issue(label(index), borrower), iscc.code(label(index)), borrower)

        for index in range(100):
            issue(index, index)
            if index % 3 == 0:
                other = index // 2 * 2
                log.take_back(live.take_back(label(other)), iscc.code(label(other)))
                issue(other, index)
        standby = loans.Register()
        for _ in range(2):
            self.assertIsNone(standby.replay(log.records()))
            self.assertEqual(standby.area, live.area)
        self.assertEqual(standby.counts(), loans.Counts(100, 0, 0, 0, 100, 0, 0, 0))
        self.assertEqual(standby.last_number(), 168)

    def test_counts(self) -> None:
        log = loans.Log(bytearray(6 * loans.RECORD_MOST))
        for number, text in enumerate((TYPED, WIDE, ID, label(1)), 1):
            log.issue(number, iscc.code(text), 5)
        log.take_back(5, iscc.code(WIDE))
        log.take_back(6, iscc.code(WIDE))  # not out any more: it stops the replay
        register = loans.Register()
        self.assertEqual(answer(register.replay, log.records()), 22)
        due = loans.Counts(3, meta=0, semantic=0, content=0, data=1, instance=0, iscc=1, id=1)
        self.assertEqual(register.counts(), due)
        self.assertEqual(register.last_number(), 5)

    def stops(self, register: loans.Register, log: bytes, number: int, offset: int) -> None:
        with self.assertRaises(loans.Stopped) as caught:
            register.replay(log)
        self.assertEqual((caught.exception.number, caught.exception.offset), (number, offset))
        said = f"the record at byte {offset} stops the replay: {iscc.Refused(number)}"
        self.assertEqual(str(caught.exception), said)

    def made(self, *records: tuple[int, int | None]) -> bytes:
        """A log of this code: the number of each record and its borrower, None for a return."""
        log = loans.Log(bytearray(len(records) * loans.RECORD_MOST))
        for number, borrower in records:
            if borrower is None:
                log.take_back(number, self.code)
            else:
                log.issue(number, self.code, borrower)
        return log.records()

    def test_stopped(self) -> None:
        register = loans.Register()
        self.stops(register, self.made((1, 258), (2, 7), (3, None)), 20, 29)
        self.assertEqual((register.ask(TYPED), register.last_number()), (258, 1))
        self.stops(register, self.made((2, None), (3, None), (4, 7)), 22, 25)
        self.stops(register, bytes(3) + self.made((1, 258)), 24, 0)
        self.assertEqual(bytes(register.area), area_of([], 2))
        everything = full()
        self.stops(everything, self.made((257, 258)), 21, 0)
        self.assertEqual(everything.area, full().area)

    def test_gap(self) -> None:
        register = loans.Register()
        for number in (2, 3, 2**32 - 1):
            self.stops(register, self.made((number, 5)), 25, 0)
            self.assertEqual(bytes(register.area), bytes(loans.AREA))
        self.stops(register, self.made((1, 258), (3, 258)), 25, 29)  # before 20
        self.assertEqual((register.ask(TYPED), register.last_number()), (258, 1))
        self.assertIsNone(register.replay(self.made((1, 258), (2, None), (3, 259))))
        self.assertEqual((register.ask(TYPED), register.last_number()), (259, 3))

    def test_skipped(self) -> None:
        register = loans.Register()
        self.assertEqual(register.issue(TYPED, 5), 1)
        before = bytes(register.area)
        # Numbers alone are compared: the live call took number 1, whatever record 1 says.
        self.assertIsNone(register.replay(self.made((1, None), (1, 77), (1, 5))))
        self.assertEqual(bytes(register.area), before)
        self.assertIsNone(register.replay(self.made((1, None), (2, None))))
        self.assertEqual(bytes(register.area), area_of([], 2))
        # A damaged record stops the replay, also where its number is applied already.
        issue = self.made((1, 258))
        for damaged in (issue[:3] + bytes(4) + issue[7:], b"\x05" + issue[1:], b"\x04" + issue[1:]):
            self.stops(register, issue + damaged, 24, 29)
        self.assertEqual(bytes(register.area), area_of([], 2))

    def test_all_numbers_applied(self) -> None:
        register = numbered(loans.Register(), 2**32 - 1)
        before = bytes(register.area)
        self.assertIsNone(register.replay(self.made((1, 5), (7, None), (2**32 - 1, 5))))
        self.assertEqual(bytes(register.area), before)
        numbered(register, 2**32 - 2)
        self.assertIsNone(register.replay(self.made((2**32 - 1, 5))))
        self.assertEqual((register.ask(TYPED), register.last_number()), (5, 2**32 - 1))

    def test_older_log(self) -> None:
        older = bytes.fromhex("01 0016 00000102") + self.code + bytes.fromhex("02 0012") + self.code
        register = loans.Register()
        self.stops(register, older, 24, 0)
        self.stops(register, older[25:], 24, 0)
        self.assertEqual(bytes(register.area), bytes(loans.AREA))

    def test_pickled(self) -> None:
        stopped = pickle.loads(pickle.dumps(loans.Stopped(22, 21)))
        self.assertEqual((stopped.number, stopped.offset), (22, 21))

    def test_not_a_register(self) -> None:
        for log in (b"", bytes(3), self.written()):
            for length in (loans.AREA + 1, loans.AREA - LAST):
                register = loans.Register(bytearray(length))
                self.assertEqual(answer(register.replay, log), 23)
                self.assertEqual(register.area, bytearray(length))

    def test_in_a_file(self) -> None:
        with tempfile.TemporaryFile() as file:
            file.truncate(100)
            with mmap.mmap(file.fileno(), 0) as area:
                log = loans.Log(area)
                log.issue(1, self.code, 5)
                file.seek(0)
                self.assertEqual(file.read(29), log.records())
            file.seek(0)
            register = loans.Register()
            self.assertIsNone(register.replay(file.read(29)))
            self.assertEqual(register.ask(TYPED), 5)

    def test_other_arguments(self) -> None:
        make: Call = loans.Log
        said = "^a log is a bytearray, a memoryview or an mmap, not bytes$"
        self.assertRaisesRegex(TypeError, said, make, bytes(100))
        issue: Call = self.log.issue
        self.assertRaisesRegex(TypeError, "^a code is bytes, not str; code", issue, 1, TYPED, 5)
        self.assertRaisesRegex(ValueError, "^a borrower is from 0 to ", issue, 1, self.code, 2**32)
        for number in (-1, 2**32):
            said = f"^a record number is from 0 to 4294967295, not {number}$"
            self.assertRaisesRegex(ValueError, said, issue, number, self.code, 5)
            self.assertRaisesRegex(ValueError, said, self.log.take_back, number, self.code)
        said = "^a record number is an int, not bytes$"
        self.assertRaisesRegex(TypeError, said, issue, self.code, 1, 5)
        for position in (-1, 2**64):
            back: Call = loans.Log(bytearray(100), position).take_back
            self.assertRaisesRegex(ValueError, "^a position is from 0 to ", back, 1, self.code)
        replay: Call = loans.Register().replay
        self.assertRaisesRegex(TypeError, "^a log to be replayed is bytes, not str$", replay, "")


# As the counter typed them in the drill that failed: units in small letters and any order.
NINE = (
    "gaaqwketqbo2qecu-iaa6xiv7lxaq2gts",
    "iaavizdreaumro5n-gaatho3sqsnsbaab-aaazxbo7m2amyknu",
    "eea3zowykhmqejqs-iaazcfhb6v4cytrs-gaa5udlgacvdgnrp",
    "iaa4ifitgux6cwdd-gaatubc5wb3rty7r",
    "gaauxtqfwv22fsx2-eaa6llujvxrkyrcv-caaw7z3kdyjlzugy-iaa5nnvqzthcygdj",
    "iaa5kt66odpbssko-aaatckeyrsjaoub3-gaaz7p5dlshpdwkv",
    "iaazt2ymrkjkqn67-ciatjjk6yjyaxmrk-eias7wx6new55rna-gaa7ky5p54ysw4y6-aaa32uwr5ftxglyc",
    "gaa66crnnkzvputd-iaaxh2jmlbd7gakn",
    "gaatberypscybcwu-iaa5gyqjztfcafca-eeaqcvq6nep4xh4h",
)
Verdict = tuple[int, int, bytes]  # the number, the offset in the log, the code
YES: Verdict = (0, 0, b"")


class Promotion(unittest.TestCase):
    """May a replica be promoted?"""

    def setUp(self) -> None:
        self.log = loans.Log(bytearray(3 * loans.RECORD_MOST))
        self.starts, self.areas = [0], [bytes(loans.AREA)]
        live = loans.Register()
        for text, borrower in ((TYPED, 258), (ID, 7), (TYPED, None)):
            if borrower is None:
                self.log.take_back(live.take_back(text), iscc.code(text))
            else:
                self.log.issue(live.issue(text, borrower), iscc.code(text), borrower)
            self.starts.append(self.log.position)
            self.areas.append(bytes(live.area))
        self.records = self.log.records()

    def verdict(self, log: iscc.Bytes, replica: loans.Register, work: loans.Area | None) -> Verdict:
        """The answer, or the refusal that was raised, which must be of the class of its number."""
        try:
            loans.promote(log, replica, work)
        except iscc.Refused as refused:
            number = refused.number
            classes: dict[int, object] = dict.fromkeys((20, 21, 22, 24, 25), loans.Stopped)
            classes |= {36: loans.LogTorn, 37: loans.LoansDiffer}
            self.assertIs(type(refused), classes.get(number, iscc.Refused))
            return number, getattr(refused, "offset", 0), getattr(refused, "code", b"")
        return YES

    def gives(
        self, log: bytes, area: bytes, due: Verdict, left: bytes | None, length: int = loans.AREA
    ) -> None:
        """The answer, and every byte: `left` is what the work area begins with, None as before."""
        for filling in (b"\x00", b"\x5a", b"\xff", area or b"\x01"):
            before = (filling * (length // len(filling) + 1))[:length]
            replica, work = loans.Register(bytearray(area)), bytearray(before)
            given = bytearray(log)
            self.assertEqual(self.verdict(given, replica, work), due)
            self.assertEqual((bytes(replica.area), bytes(given)), (area, log))
            self.assertEqual(bytes(work), before if left is None else left + before[loans.AREA :])

    def test_yes(self) -> None:
        for start, area in zip(self.starts, self.areas):
            for length in (loans.AREA, loans.AREA + 1, 3 * loans.AREA):
                self.gives(self.records[:start], area, YES, area, length)
        self.gives(self.records * 2, self.areas[3], YES, self.areas[3])

    def test_without_a_work_area(self) -> None:
        replica = loans.Register(bytearray(self.areas[3]))
        self.assertIsNone(loans.promote(self.records, replica))
        self.assertEqual(answer(loans.promote, self.records[:-1], replica), 36)
        self.assertEqual(bytes(replica.area), self.areas[3])

    def logs(self) -> list[tuple[bytes, int, int]]:
        """Logs that stop or tear a replay, with their number and offset, here or at byte 29."""
        issue, back = self.records[:29], bytes.fromhex("04 0016 00000002") + iscc.code(WRITTEN)
        other = bytes.fromhex("04 000e 00000002") + iscc.code(ID)
        return [
            (bytes(3), 24, 0),
            (b"\x01" + issue[1:], 24, 0),
            (issue + bytes(3), 24, 29),
            (issue[:3] + bytes(4) + issue[7:], 24, 0),
            (back, 25, 0),
            (issue + back[:6] + b"\x03" + back[7:], 25, 29),
            (issue + issue[:6] + b"\x02" + issue[7:], 20, 29),
            (issue + other, 22, 29),
            (issue[:1], 36, 0),
            (issue + back[:-1], 36, 29),
        ]

    def test_stops(self) -> None:
        for log, number, offset in self.logs():
            left = self.areas[1 if offset else 0]
            for area in self.areas:  # 37 and 27 come later
                self.gives(log, area, (number, offset, b""), left)
                if number != 36:
                    self.gives(log + self.records[:30], area, (number, offset, b""), left)
                    self.gives(log[:-1], area, (36, offset, b""), left)

    def test_all_out(self) -> None:
        log = loans.Log(bytearray((PLACES + 1) * 21))
        for index in range(PLACES + 1):
            log.issue(index + 1, iscc.code(label(index)), index)
        area = bytes(full().area)
        replica, work = loans.Register(bytearray(area)), bytearray(b"\x5a" * (loans.AREA + 1))
        self.assertEqual(self.verdict(log.records()[:-21], replica, None), YES)
        self.assertEqual(self.verdict(log.records(), replica, work), (21, PLACES * 21, b""))
        self.assertEqual(bytes(work), area + b"\x5a")

    def test_not_a_register(self) -> None:
        damaged = self.areas[2][:1] + b"\x05" + self.areas[2][2:]
        areas = (b"", bytes(1), self.areas[2][:-1], self.areas[2] + b"\0", damaged)
        for log in (b"", self.records, *(log for log, *_ in self.logs())):
            for area in areas:
                for length in (0, loans.AREA - 1, loans.AREA, loans.AREA + 1):
                    self.gives(log, area, (23, 0, b""), None, length)

    def test_short_work_area(self) -> None:
        for log in (b"", self.records, *(log for log, *_ in self.logs())):
            for area in self.areas:
                for length in (0, 1, loans.AREA - LAST, loans.AREA - 1):
                    self.gives(log, area, (15, 0, b""), None, length)

    def test_every_cut(self) -> None:
        typed, other = iscc.code(TYPED), iscc.code(ID)
        for cut in range(len(self.records) + 1):
            whole = max(i for i, start in enumerate(self.starts) if start <= cut)
            for had, area in enumerate(self.areas):
                least = typed if (whole in (1, 2)) != (had in (1, 2)) else other
                due = YES if had == whole else (37, 0, least)
                if cut != self.starts[whole]:
                    due = (36, self.starts[whole], b"")
                self.gives(self.records[:cut], area, due, self.areas[whole])

    def test_least(self) -> None:
        codes = sorted(iscc.code(text) for text in (TYPED, WIDE, ID, label(1), label(2)))
        log = loans.Log(bytearray(5 * loans.RECORD_MOST))
        for number, code in enumerate(reversed(codes), 1):
            log.issue(number, code, 5)
        left = area_of([place_of(code, 5) for code in codes], 5)
        for index, code in enumerate(codes):
            same = [place_of(code, 5) for code in codes[:index]]
            rest = [place_of(code, 6) for code in codes[index + 1 :]]
            for places in (same, same + rest, [*same, place_of(code, 6)]):
                for last in (5, 6):  # 37 comes before 27
                    self.gives(log.records(), area_of(places, last), (37, 0, code), left)
            # The other way round: the replica alone holds this one and those behind it.
            part = loans.Log(bytearray(5 * loans.RECORD_MOST))
            for number, out in enumerate(codes[:index], 1):
                part.issue(number, out, 5)
            self.gives(part.records(), left, (37, 0, code), area_of(same, index))

    def test_last_numbers(self) -> None:
        for last in (0, 1, 3, 0x0200, 0x02000000, 2**32 - 1):
            area = self.areas[2][:-LAST] + last.to_bytes(LAST, "big")
            self.gives(self.records[: self.starts[2]], area, (27, 0, b""), self.areas[2])

    def test_said(self) -> None:
        replica = loans.Register(bytearray(self.areas[3]))
        differ = f"log and replica differ about {WRITTEN}: {iscc.Refused(37)}"
        torn = f"the record at byte 29 is not whole: {iscc.Refused(36)}"
        for cut, said in ((29, differ), (30, torn)):
            with self.assertRaises(iscc.Refused) as caught:
                loans.promote(self.records[:cut], replica)
            self.assertEqual(str(caught.exception), said)

    def test_asked_afterwards(self) -> None:
        work = bytearray(loans.AREA)
        with self.assertRaises(loans.LoansDiffer) as caught:
            loans.promote(self.records[:29], loans.Register(), work)
        text = iscc.text(caught.exception.code)
        self.assertEqual(text, WRITTEN)
        self.assertEqual(loans.Register(work).find(text).borrower, 258)

    def test_pickled(self) -> None:
        torn = pickle.loads(pickle.dumps(loans.LogTorn(29)))
        self.assertEqual((torn.number, torn.offset), (36, 29))
        differ = pickle.loads(pickle.dumps(loans.LoansDiffer(iscc.code(ID))))
        self.assertEqual((differ.number, differ.code), (37, iscc.code(ID)))

    def test_in_a_file(self) -> None:
        with tempfile.TemporaryFile() as file:
            file.write(self.areas[3])
            file.truncate(2 * loans.AREA)
            with mmap.mmap(file.fileno(), 0) as mapped, memoryview(mapped) as view:
                replica, work = view[: loans.AREA], view[loans.AREA :]
                self.assertIsNone(loans.promote(self.records, loans.Register(replica), work))
                self.assertEqual(replica, work)
                replica.release()
                work.release()

    def test_overlap(self) -> None:
        area = bytearray(self.areas[3] + bytes(loans.AREA))
        view = memoryview(area)
        for start in (1 - loans.AREA, 0, 1, loans.AREA - 1):
            replica = loans.Register(view[max(0, -start) :][: loans.AREA])
            work = view[max(0, start) :][: loans.AREA]
            said = "^the work area overlaps the replica$"
            self.assertRaisesRegex(ValueError, said, loans.promote, b"", replica, work)
        self.assertEqual(bytes(area), self.areas[3] + bytes(loans.AREA))
        replica = loans.Register(view[: loans.AREA])
        self.assertEqual(self.verdict(b"", replica, view[5:5]), (15, 0, b""))
        self.assertEqual(self.verdict(view[16:17], replica, view[loans.AREA :]), (36, 0, b""))

    def test_areas_are_their_owners_again(self) -> None:
        area, work = bytearray(loans.AREA), bytearray(loans.AREA)
        try:
            loans.promote(self.records, loans.Register(area), work)
        except iscc.Refused:
            area.append(0)
            work.append(0)
        self.assertEqual((len(area), len(work)), (loans.AREA + 1, loans.AREA + 1))

    def test_waits_for_the_replica(self) -> None:
        replica, told = loans.Register(bytearray(self.areas[3])), threading.Event()

        def ask() -> None:
            loans.promote(self.records, replica)
            told.set()

        thread = threading.Thread(target=ask)
        with replica._lock:  # as in a call of another thread
            thread.start()
            self.assertFalse(told.wait(0.05))
        self.assertTrue(told.wait(10))
        thread.join()

    def test_other_arguments(self) -> None:
        promote: Call = loans.promote
        replica, work = loans.Register(), bytearray(loans.AREA)
        said = "^a replica is a Register, not bytearray$"
        self.assertRaisesRegex(TypeError, said, promote, b"", bytearray(loans.AREA), work)
        said = "^a work area is a bytearray, a memoryview or an mmap, not bytes$"
        self.assertRaisesRegex(TypeError, said, promote, b"", replica, bytes(loans.AREA))
        said = "^a log to be replayed is bytes, not str$"
        self.assertRaisesRegex(TypeError, said, promote, "", replica, work)
        read_only = memoryview(bytes(loans.AREA))
        self.assertRaisesRegex(TypeError, "not writable", promote, b"", replica, read_only)

    def test_drill(self) -> None:
        live, log = loans.Register(), loans.Log(bytearray(9 * loans.RECORD_MOST))
        starts, codes, composites = [0], [iscc.code(text) for text in NINE], loans.Register()
        for borrower, (text, code) in enumerate(zip(NINE, codes), 1200):
            log.issue(live.issue(text, borrower), code, borrower)
            starts.append(log.position)
        for borrower, code in reversed(list(enumerate(codes, 1200))):
            composites.issue(f" {iscc.text(code).swapcase()}- ", borrower)
        records, after = log.records(), bytes(live.area)
        self.gives(records, bytes(composites.area), YES, after)
        self.gives(records, bytes(loans.AREA), (37, 0, min(codes)), after)
        standby = loans.Register()
        for index, start in enumerate(starts[:-1]):
            self.assertIsNone(standby.replay(records[:start]))
            self.gives(records, bytes(standby.area), (37, 0, min(codes[index:])), after)
        eight = bytes(standby.area)
        for cut in range(starts[8] + 1, starts[9]):
            for area in (bytes(loans.AREA), eight, after):
                self.gives(records[:cut], area, (36, starts[8], b""), eight)
        self.assertIsNone(standby.replay(records))
        self.gives(records, bytes(standby.area), YES, after)


class Threads(unittest.TestCase):
    """Threads that share a register do not disturb each other."""

    def at_once(self, work: Callable[[int], None]) -> None:
        """Runs work(0) to work(7), each in a thread of its own."""
        running = [threading.Thread(target=work, args=(own,)) for own in range(8)]
        for thread in running:
            thread.start()
        for thread in running:
            thread.join()

    def test_one_register(self) -> None:
        register, labels = loans.Register(), [label(index) for index in range(PLACES)]
        start = threading.Barrier(8)

        told: list[int] = []

        def work(own: int) -> None:
            start.wait()
            for index in range(own, PLACES, 8):
                told.append(register.issue(labels[index], index))

        self.at_once(work)
        self.assertEqual([answer(register.ask, text) for text in labels], list(range(PLACES)))
        self.assertEqual(sorted(told), list(range(1, PLACES + 1)))

    def test_one_at_a_time(self) -> None:
        register = loans.Register()
        inside: list[object] = []
        counts: list[int] = []

        def slow(*given: object) -> None:
            inside.append(given)
            counts.append(len(inside))
            time.sleep(0.01)
            inside.pop()

        self.at_once(lambda _: register._call(slow, TYPED.encode()))
        self.assertEqual(counts, [1] * 8)

    def test_one_log(self) -> None:
        log, start, lock = loans.Log(bytearray(21 * PLACES)), threading.Barrier(8), threading.Lock()
        codes = [iscc.code(label(index)) for index in range(PLACES)]
        live, both = loans.Register(), loans.Log(bytearray(21 * PLACES))

        def work(own: int) -> None:
            start.wait()
            for index in range(own, PLACES, 8):
                log.issue(index + 1, codes[index], index)
                with lock:  # over a change and its record
                    both.issue(live.issue(label(index), index), codes[index], index)

        self.at_once(work)
        written = log.records()
        records = [written[start : start + 21] for start in range(0, len(written), 21)]
        register = loans.Register()
        self.assertIsNone(register.replay(b"".join(sorted(records))))
        self.assertEqual([register.ask(label(i)) for i in range(PLACES)], list(range(PLACES)))
        standby = loans.Register()
        self.assertIsNone(standby.replay(both.records()))
        self.assertEqual(standby.area, live.area)


class Library(unittest.TestCase):
    """A library of an older version, which knows of no promotion, or one without a register."""

    def older(self, minor: int, headers: str) -> tuple[str, str]:
        """The path of a library with the calls of these headers, and what a question says of it."""
        names = set(re.findall(r"[ *]((?:iscc|loans)_[a-z_]+)\(", headers)) - {"iscc_version"}
        lines = [f"int {name};" for name in sorted(names)]
        lines.append(f"unsigned iscc_version(void) {{ return {minor * 256}; }}\n")
        with tempfile.TemporaryDirectory(dir=TOP / "target") as folder:
            source, older = pathlib.Path(folder, "older.c"), str(pathlib.Path(folder, "older.so"))
            source.write_text("\n".join(lines))
            subprocess.run(["gcc", "-shared", "-fPIC", str(source), "-o", older], check=True)
            code = "import loans; loans.Register().ask('GAA')"
            said = test_iscc.in_a_process(code, HERE, older)
        self.assertEqual(said.count("Traceback"), 1, said)
        return older, said

    def test_without_register(self) -> None:
        promotion = re.sub("loans_promote", "loans_other", HEADER)
        for headers in (test_iscc.HEADER, test_iscc.HEADER + promotion):
            older, said = self.older(8, headers)
            self.assertIn(f"WrongLibrary: {older} has no loans register or no log", said)

    def test_older(self) -> None:
        for headers in (test_iscc.HEADER + HEADER, test_iscc.HEADER):
            for minor in (6, 7):
                older, said = self.older(minor, headers)
                due = f"{older} has version 0.{minor}.0; this module needs 0.8.0 or later"
                self.assertIn(f"WrongLibrary: {due}", said)


if __name__ == "__main__":
    sys.exit(test_iscc.main(sys.argv[1:], sys.modules[__name__]))
