"""ISCC codes from Python: both doors, codes and texts, join, split and the distance.

The work is done by the shared library of this repository, through ctypes. This one file is all
that a program needs beside it:

    import iscc

    iscc.intake("iscc:maagztfqttvizpjr")      # 'ISCC:MAAGZTFQTTVIZPJR'
    iscc.is_strict("iscc:maagztfqttvizpjr")   # False
    iscc.code("iscc:maagztfqttvizpjr").hex()  # '60006cccb09cea8cbd31'

A text is a str or bytes. A str is taken as UTF-8, so that every str gets the library's own answer:
a letter outside ASCII is refused with number 4 as any other character outside the alphabet. A code
is bytes. Where the library refuses, Refused is raised. The loans register is in loans.py, which
stands on this file.

The library is made by `./install target/installed` at the top of the repository. It is looked for
at the first call: in the file that ISCC_LIBRARY names, if it names one; else in target/installed,
if this file stands in the repository; else as libiscc.so.0, where the system looks for libraries.
"""

from __future__ import annotations

import ctypes
import enum
import functools
import os
import pathlib
from collections.abc import Callable
from typing import NamedTuple, Union

__all__ = [
    "Bytes",
    "Distance",
    "LibraryMissing",
    "Refusal",
    "Refused",
    "Text",
    "WrongLibrary",
    "code",
    "distance",
    "intake",
    "is_strict",
    "join",
    "refusal_text",
    "split",
    "strict",
    "text",
    "version",
]

Bytes = Union[bytes, bytearray, memoryview]
Text = Union[str, Bytes]

_MAJOR = 0  # the major version of the library that this module is written for
_TEXT_AREA = 73  # the longest text that is written
_CODE_AREA = 42  # the longest code
_SPLIT_AREA = 50  # the most that split writes: five units


class Refusal(enum.IntEnum):
    """The numbers of refusal, named as in iscc.h."""

    EMPTY_TEXT = 1
    LONG_TEXT = 2
    LONG_RUN = 3
    BAD_CHARACTER = 4
    BAD_COUNT = 5
    SPARE_BITS = 6
    BAD_HEADER = 7
    NOT_PERMITTED = 8
    SHORT_BODY = 9
    NOT_JOINABLE = 10
    NOT_64_BITS = 11
    MAIN_TYPE_TWICE = 12
    LACKS_DATA_OR_INSTANCE = 13
    SUBTYPES_DIFFER = 14
    AREA_TOO_SHORT = 15
    OTHER_TEXT = 16
    NUMBER_TOO_LARGE = 17
    NO_DISTANCE = 18
    BYTES_LEFT_OVER = 19
    ALREADY_OUT = 20
    ALL_OUT = 21
    NOT_OUT = 22
    NOT_REGISTER = 23
    NOT_RECORD = 24
    NUMBER_GAP = 25
    NUMBERS_SPENT = 26
    LAST_NUMBERS_DIFFER = 27
    LOG_TORN = 36
    LOANS_DIFFER = 37


class Refused(ValueError):
    """The library refuses: `number`, its `name` in Refusal, and a plain `sentence` for a person."""

    number: int
    name: str
    sentence: str

    def __init__(self, number: int) -> None:
        super().__init__(number)
        self.number = number
        self.name = _name(number)
        self.sentence = refusal_text(number)

    def __str__(self) -> str:
        return f"refused {self.number} {self.name}: {self.sentence}"


class LibraryMissing(OSError):
    """The shared library is not there, or cannot be loaded."""


class WrongLibrary(LibraryMissing):
    """A library was found, but it is of another major version or lacks a call."""


class Distance(NamedTuple):
    """d differing bits among the n that are compared, and d / n."""

    d: int
    n: int
    ratio: float


class _Written(ctypes.Structure):
    _fields_ = [("number", ctypes.c_uint32), ("length", ctypes.c_size_t)]


class _DistanceAnswer(ctypes.Structure):
    _fields_ = [
        ("number", ctypes.c_uint32),
        ("d", ctypes.c_uint32),
        ("n", ctypes.c_uint32),
        ("ratio", ctypes.c_float),
    ]


def _name(number: int) -> str:
    try:
        return Refusal(number).name
    except ValueError:
        return "UNKNOWN"  # a later library may have more numbers


def _library_path() -> str:
    named = os.environ.get("ISCC_LIBRARY")
    if named:
        return named
    folders = pathlib.Path(__file__).resolve().parents
    if len(folders) > 2 and (folders[2] / "include" / "iscc.h").is_file():
        built = folders[2] / "target" / "installed" / "lib" / "libiscc.so"
        if built.is_file():
            return str(built)
    return f"libiscc.so.{_MAJOR}"


def _declare(library: ctypes.CDLL) -> None:
    area = [ctypes.c_char_p, ctypes.c_size_t]
    for name in ("iscc_intake", "iscc_code", "iscc_text", "iscc_join", "iscc_split"):
        writer = getattr(library, name)
        writer.argtypes, writer.restype = area + area, _Written
    library.iscc_strict.argtypes, library.iscc_strict.restype = area, ctypes.c_uint32
    library.iscc_distance.argtypes = area + area
    library.iscc_distance.restype = _DistanceAnswer
    library.iscc_version.argtypes, library.iscc_version.restype = [], ctypes.c_uint32
    library.iscc_refusal_text.argtypes = [ctypes.c_uint32]
    library.iscc_refusal_text.restype = ctypes.c_char_p


@functools.cache
def _library() -> ctypes.CDLL:
    path = _library_path()
    try:
        library = ctypes.CDLL(path)
    except OSError as error:
        raise LibraryMissing(
            f"the ISCC library cannot be loaded ({error}). `./install target/installed` at the top"
            " of the repository makes it; elsewhere set ISCC_LIBRARY to the path of libiscc.so"
        ) from None
    try:
        _declare(library)
    except AttributeError as error:
        raise WrongLibrary(f"{path} is no library of this module: {error}") from None
    major = library.iscc_version() >> 16
    if major != _MAJOR:
        raise WrongLibrary(f"{path} has major version {major}; this module is for {_MAJOR}")
    return library


def _text_bytes(text: Text) -> bytes:
    if isinstance(text, str):
        return text.encode("utf-8", "surrogatepass")
    if isinstance(text, (bytes, bytearray, memoryview)):
        return bytes(text)
    raise TypeError(f"a text is a str or bytes, not {type(text).__name__}")


def _code_bytes(code: Bytes) -> bytes:
    if isinstance(code, (bytes, bytearray, memoryview)):
        return bytes(code)
    hint = "; code() gives the code of a text" if isinstance(code, str) else ""
    raise TypeError(f"a code is bytes, not {type(code).__name__}{hint}")


def _written(call: Callable[..., _Written], data: bytes, area: int) -> bytes:
    out = ctypes.create_string_buffer(area)
    answer = call(data, len(data), out, area)
    if answer.number:
        raise Refused(answer.number)
    return out.raw[: answer.length]


def version() -> str:
    """The version of the library, as '0.8.0'."""
    number = int(_library().iscc_version())
    return f"{number >> 16}.{number >> 8 & 255}.{number & 255}"


def refusal_text(number: int) -> str:
    """A plain English sentence for a number of refusal."""
    if not isinstance(number, int):
        raise TypeError(f"a number of refusal is an int, not {type(number).__name__}")
    if not 0 <= number < 2**32:
        raise ValueError(f"a number of refusal is from 0 to {2**32 - 1}, not {number}")
    sentence: bytes = _library().iscc_refusal_text(number)
    return sentence.decode("ascii")


def intake(text: Text) -> str:
    """The one text of the code that `text` spells: 'ISCC:' and capitals."""
    return _written(_library().iscc_intake, _text_bytes(text), _TEXT_AREA).decode("ascii")


def strict(text: Text) -> None:
    """The strict door: raises Refused unless intake would write this very text."""
    data = _text_bytes(text)
    number = int(_library().iscc_strict(data, len(data)))
    if number:
        raise Refused(number)


def is_strict(text: Text) -> bool:
    """Whether the strict door takes `text`."""
    data = _text_bytes(text)
    return int(_library().iscc_strict(data, len(data))) == 0


def code(text: Text) -> bytes:
    """The code that `text` spells: two texts mean the same exactly when their codes are equal."""
    return _written(_library().iscc_code, _text_bytes(text), _CODE_AREA)


def text(code: Bytes) -> str:
    """The one text of a code, of a unit or a composite."""
    return _written(_library().iscc_text, _code_bytes(code), _TEXT_AREA).decode("ascii")


def join(*units: Bytes) -> bytes:
    """The composite that units make, in whatever order they are given."""
    laid = b"".join(_code_bytes(unit) for unit in units)
    return _written(_library().iscc_join, laid, _CODE_AREA)


def split(code: Bytes) -> list[bytes]:
    """The units of a composite, in its order: of 64 bits each, of 128 if it is a wide one."""
    laid = _written(_library().iscc_split, _code_bytes(code), _SPLIT_AREA)
    size = 6 + 4 * laid[1]  # two bytes of header, the second with the length number, and the body
    return [laid[i : i + size] for i in range(0, len(laid), size)]


def distance(a: Bytes, b: Bytes) -> Distance:
    """The distance of two units of the same main type and subtype, given as codes."""
    one, two = _code_bytes(a), _code_bytes(b)
    answer: _DistanceAnswer = _library().iscc_distance(one, len(one), two, len(two))
    if answer.number:
        raise Refused(answer.number)
    return Distance(answer.d, answer.n, answer.ratio)
