"""The loans register and its log from Python: a code is issued, asked for, and taken back.

    import loans

    register = loans.Register()
    register.issue("GAAW2PRCRS5LNVZV-IAAUVACQKXE3V44W", 1204)   # 1: the record number
    register.ask("iscc:iaauvacqkxe3v44w-gaaw2prcrs5lnvzv")      # 1204
    register.find("iscc:iaauvacqkxe3v44w-gaaw2prcrs5lnvzv")     # Found(borrower=1204, looks=1)
    register.counts().out                                       # 1
    register.take_back("ISCC:KUAG2PRCRS5LNVZVJKAFAVOJXLZZM")    # 2
    register.last_number()                                      # 2

A counter writes a record for each change that its register accepts, with the record number that it
told; another hall replays the log, as often as it likes:

    log = loans.Log(bytearray(65536))
    log.issue(1, iscc.code("GAAW2PRCRS5LNVZV-IAAUVACQKXE3V44W"), 1204)
    log.take_back(2, iscc.code("ISCC:KUAG2PRCRS5LNVZVJKAFAVOJXLZZM"))

    standby = loans.Register()
    standby.replay(log.records()[:-1])      # 29: the record that starts there is torn
    standby.replay(log.records())           # None: it ran to the end
    standby.replay(log.records())           # None: all was applied already, and nothing changes

A register is to be fed from one source: it takes live calls, or it is made from the log of another.
loans.h says why. On the night, before the standby takes over:

    loans.promote(log.records(), standby)   # None: yes; else iscc.Refused is raised and says why

The module stands on the module iscc, which finds the library and says what a text or a code may be:
a program needs both files. Where the library refuses, iscc.Refused is raised, and the register and
the log are as they were; only a replay that is stopped keeps what it did before, and a work area
what promote wrote there.
"""

from __future__ import annotations

import ctypes
import functools
import mmap
import threading
from collections.abc import Callable
from typing import Any, NamedTuple, Union

import iscc

__all__ = [
    "AREA",
    "RECORD_MOST",
    "Area",
    "Counts",
    "Found",
    "LoansDiffer",
    "Log",
    "LogTorn",
    "Register",
    "Stopped",
    "promote",
]

AREA = 12308  # the length of a register in bytes
RECORD_MOST = 53  # the longest record of a log in bytes
_LAST_NUMBER_OFFSET = 12304  # where the four bytes of the last number start
_TORN, _STOPPED = 2, 3  # how a replay can end, in loans.h
_OLDEST = 0x0800  # version 0.8.0: before it nobody could ask for a promotion
_STOPS = (20, 21, 22, 24, 25)  # the numbers of a record that stops a replay
Area = Union[bytearray, memoryview, mmap.mmap]


class _Changed(ctypes.Structure):
    _fields_ = [
        ("number", ctypes.c_uint32),
        ("record_number", ctypes.c_uint32),
    ]


class _Holder(ctypes.Structure):
    _fields_ = [
        ("number", ctypes.c_uint32),
        ("borrower", ctypes.c_uint32),
        ("looks", ctypes.c_uint32),
    ]


class _Counted(ctypes.Structure):
    _fields_ = [
        ("number", ctypes.c_uint32),
        ("out", ctypes.c_uint32),
        ("meta", ctypes.c_uint32),
        ("semantic", ctypes.c_uint32),
        ("content", ctypes.c_uint32),
        ("data", ctypes.c_uint32),
        ("instance", ctypes.c_uint32),
        ("iscc", ctypes.c_uint32),
        ("id", ctypes.c_uint32),
    ]


class _Replayed(ctypes.Structure):
    _fields_ = [
        ("number", ctypes.c_uint32),
        ("end", ctypes.c_uint32),
        ("offset", ctypes.c_size_t),
    ]


class _Verdict(ctypes.Structure):
    _fields_ = [
        ("number", ctypes.c_uint32),
        ("offset", ctypes.c_size_t),
        ("code_length", ctypes.c_size_t),
        ("code", ctypes.c_uint8 * iscc._CODE_AREA),
    ]


class Found(NamedTuple):
    """Who has a code, None where it is not out, and at how many places the question looked."""

    borrower: int | None
    looks: int


class Counts(NamedTuple):
    """How many codes are out, and how many of them are of each main type; composites are ISCC."""

    out: int
    meta: int
    semantic: int
    content: int
    data: int
    instance: int
    iscc: int
    id: int


class Stopped(iscc.Refused):
    """A record stops a replay: its `offset` in the log. Those before it stay applied."""

    offset: int

    def __init__(self, number: int, offset: int) -> None:
        super().__init__(number)
        self.args = (number, offset)
        self.offset = offset

    def __str__(self) -> str:
        return f"the record at byte {self.offset} stops the replay: {super().__str__()}"


class LogTorn(iscc.Refused):
    """The log that was to show a replica true is torn: the `offset` of its torn record."""

    offset: int

    def __init__(self, offset: int) -> None:
        super().__init__(iscc.Refusal.LOG_TORN)
        self.args = (offset,)
        self.offset = offset

    def __str__(self) -> str:
        return f"the record at byte {self.offset} is not whole: {super().__str__()}"


class LoansDiffer(iscc.Refused):
    """The least `code` that is out by the log or by the replica alone, or to two borrowers."""

    code: bytes

    def __init__(self, code: bytes) -> None:
        super().__init__(iscc.Refusal.LOANS_DIFFER)
        self.args = (code,)
        self.code = code

    def __str__(self) -> str:
        return f"log and replica differ about {iscc.text(self.code)}: {super().__str__()}"


def _declare(library: ctypes.CDLL) -> None:
    text = [ctypes.c_char_p, ctypes.c_size_t]
    area = [ctypes.c_void_p, ctypes.c_size_t]
    library.loans_issue.argtypes = [*text, ctypes.c_uint32, *area]
    library.loans_return.argtypes = library.loans_ask.argtypes = text + area
    library.loans_issue.restype = library.loans_return.restype = _Changed
    library.loans_ask.restype = _Holder
    library.loans_counts.argtypes = area
    library.loans_counts.restype = _Counted
    record = [*area, ctypes.c_size_t, ctypes.c_uint32, *text]
    library.loans_log_return.argtypes = record
    library.loans_log_issue.argtypes = [*record, ctypes.c_uint32]
    library.loans_log_return.restype = library.loans_log_issue.restype = iscc._Written
    library.loans_replay.argtypes = text + area
    library.loans_replay.restype = _Replayed
    library.loans_promote.argtypes = text + area + area
    library.loans_promote.restype = _Verdict


@functools.cache
def _library() -> ctypes.CDLL:
    library = iscc._library()
    if library.iscc_version() < _OLDEST:
        said = f"{library._name} has version {iscc.version()}; this module needs 0.8.0 or later"
        raise iscc.WrongLibrary(said)
    try:
        _declare(library)
    except AttributeError as error:
        said = f"{library._name} has no loans register or no log: {error}"
        raise iscc.WrongLibrary(said) from None
    return library


def _check_range(what: str, number: int, most: int) -> None:
    # ctypes would cut a greater number to its last bits.
    if not isinstance(number, int):
        raise TypeError(f"a {what} is an int, not {type(number).__name__}")
    if not 0 <= number <= most:
        raise ValueError(f"a {what} is from 0 to {most}, not {number}")


def _check_borrower(borrower: int) -> None:
    _check_range("borrower", borrower, 2**32 - 1)


def _check_area(what: str, area: Area) -> None:
    if not isinstance(area, (bytearray, memoryview, mmap.mmap)):
        kind = type(area).__name__
        raise TypeError(f"a {what} is a bytearray, a memoryview or an mmap, not {kind}")


def _lent(area: Area) -> tuple[Any, int]:
    # For one call alone, and measured anew: its owner may have changed it.
    length = memoryview(area).nbytes
    return (ctypes.c_char * length).from_buffer(area), length


def _tested_last(area: Any, length: int) -> tuple[int, bytes]:
    # What stands there is a last number only where the area is a register, which the counts say.
    return _library().loans_counts(area, length).number, area[_LAST_NUMBER_OFFSET:length]


def _check_number(number: int) -> None:
    if number:
        raise iscc.Refused(number)


class Register:
    """The codes that are out, each with its borrower, in `area`: loans.h has its layout.

    The area is read and written in place, and so must be writable: a bytearray, or an mmap of a
    file, so that the register outlives the program. Without one the register is fresh: nothing is
    out. Threads that share a Register wait for each other; two Registers on one area do not.
    """

    area: Area

    def __init__(self, area: Area | None = None) -> None:
        self.area = bytearray(AREA) if area is None else area
        _check_area("register", self.area)
        self._lock = threading.Lock()

    def issue(self, text: iscc.Text, borrower: int) -> int:
        """Issues a code to a borrower, a 32-bit number, and tells the change's record number.

        Refused: intake's numbers, 23, 26 (no number is left), 20, 21.
        """
        _check_borrower(borrower)
        data = iscc._text_bytes(text)
        return self._change(_library().loans_issue, data, len(data), borrower)

    def take_back(self, text: iscc.Text) -> int:
        """Takes a code back, whoever has it, and tells the change's record number.

        Refused: intake's numbers, 23, 26 (no number is left), 22 (not out).
        """
        data = iscc._text_bytes(text)
        return self._change(_library().loans_return, data, len(data))

    def ask(self, text: iscc.Text) -> int:
        """The borrower who has a code. Refused: intake's numbers, 23, 22 (not out)."""
        holder = self._ask(text)
        _check_number(holder.number)
        return holder.borrower

    def find(self, text: iscc.Text) -> Found:
        """As ask, with the looks, 0 to 9, and no refusal with 22: then the borrower is None."""
        holder = self._ask(text)
        if holder.number == iscc.Refusal.NOT_OUT:
            return Found(None, holder.looks)
        _check_number(holder.number)
        return Found(holder.borrower, holder.looks)

    def counts(self) -> Counts:
        """How many codes are out, in all and by main type. Refused: 23."""
        counted: _Counted = self._call(_library().loans_counts)
        _check_number(counted.number)
        return Counts(*(getattr(counted, name) for name in Counts._fields))

    def last_number(self) -> int:
        """The record number of the last change, 0 where there was none. Refused: 23."""
        number, last = self._call(_tested_last)
        _check_number(number)
        return int.from_bytes(last, "big")

    def replay(self, log: iscc.Bytes) -> int | None:
        """Applies the records of a log, from the left, and skips those that are applied already.

        None where it ran to the log's end. Where the log is torn, the offset of the record that is
        not whole; those before it are applied. Where a record cannot be applied, Stopped is raised,
        with 24, 25 (a record is missing before it), 20, 21 or 22, and those before it stay applied.
        Refused: 23, before all else.
        """
        data = _log_bytes(log)
        answer: _Replayed = self._call(_library().loans_replay, data, len(data))
        if answer.end == _STOPPED:
            raise Stopped(answer.number, answer.offset)
        _check_number(answer.number)
        return answer.offset if answer.end == _TORN else None

    def _change(self, call: Callable[..., Any], *given: bytes | int) -> int:
        changed: _Changed = self._call(call, *given)
        _check_number(changed.number)
        return changed.record_number

    def _ask(self, text: iscc.Text) -> _Holder:
        data = iscc._text_bytes(text)
        holder: _Holder = self._call(_library().loans_ask, data, len(data))
        return holder

    def _call(self, call: Callable[..., Any], *given: bytes | int) -> Any:
        # The lock is needed, since ctypes lets other threads run during a call.
        with self._lock:
            return call(*given, *_lent(self.area))


def _log_bytes(log: iscc.Bytes) -> bytes:
    if isinstance(log, (bytes, bytearray, memoryview)):
        return bytes(log)
    raise TypeError(f"a log to be replayed is bytes, not {type(log).__name__}")


class Log:
    """The pending issues log in `area`, up to `position`: loans.h has the layout of its records.

    Records are written in place, behind one another: into a bytearray, or an mmap of a file. What
    the area holds behind the position is no part of the log. Threads that share a Log wait for each
    other; its order is that of the changes only if a change and its record are under one lock.
    """

    area: Area
    position: int

    def __init__(self, area: Area, position: int = 0) -> None:
        _check_area("log", area)
        self.area = area
        self.position = position
        self._lock = threading.Lock()

    def issue(self, record_number: int, code: iscc.Bytes, borrower: int) -> None:
        """Writes that a code was issued to a borrower; the register told the record number.

        Refused: 24, also for record number 0; 15 (no room).
        """
        _check_borrower(borrower)
        self._append(_library().loans_log_issue, record_number, code, borrower)

    def take_back(self, record_number: int, code: iscc.Bytes) -> None:
        """Writes that a code was taken back. The record number and the refusals are as in issue."""
        self._append(_library().loans_log_return, record_number, code)

    def records(self) -> bytes:
        """The log alone, as a register replays it."""
        return bytes(memoryview(self.area)[: self.position])

    def _append(self, call: Callable[..., Any], number: int, code: iscc.Bytes, *more: int) -> None:
        _check_range("record number", number, 2**32 - 1)
        data = iscc._code_bytes(code)
        with self._lock:
            _check_range("position", self.position, 2 ** (8 * ctypes.sizeof(ctypes.c_size_t)) - 1)
            written = call(*_lent(self.area), self.position, number, data, len(data), *more)
            _check_number(written.number)
            self.position += written.length


def _check_apart(replica: Any, work: Any) -> None:
    # The library takes this on trust.
    starts = ctypes.addressof(replica), ctypes.addressof(work)
    if max(starts) < min(starts[0] + len(replica), starts[1] + len(work)):
        raise ValueError("the work area overlaps the replica")


def _check_verdict(verdict: _Verdict) -> None:
    if verdict.number == iscc.Refusal.LOG_TORN:
        raise LogTorn(verdict.offset)
    if verdict.number == iscc.Refusal.LOANS_DIFFER:
        raise LoansDiffer(bytes(verdict.code[: verdict.code_length]))
    if verdict.number in _STOPS:
        raise Stopped(verdict.number, verdict.offset)
    _check_number(verdict.number)


def promote(log: iscc.Bytes, replica: Register, work: Area | None = None) -> None:
    """May the replica be promoted? Yes where it is what the log gives, replayed from its start.

    Refused where not, in this order: 23 (the replica is no register); 15 (the work area is shorter
    than one); Stopped, as by replay; LogTorn; LoansDiffer; 27 (only the last numbers differ).

    After any answer but 23 and 15 the work area begins with the register that the log gave, so that
    it can be asked who has a code by the log. Yes holds for the log as far as it has come: loans.h
    says what the operator has to see to.
    """
    data = _log_bytes(log)
    if not isinstance(replica, Register):
        raise TypeError(f"a replica is a Register, not {type(replica).__name__}")
    area = bytearray(AREA) if work is None else work
    _check_area("work area", area)

    def call(held: Any, length: int) -> _Verdict:
        lent = _lent(area)
        _check_apart(held, lent[0])
        verdict: _Verdict = _library().loans_promote(data, len(data), held, length, *lent)
        return verdict

    _check_verdict(replica._call(call))
