"""Tests of the Python module, over the library that ISCC_LIBRARY or target/installed has.

    ./install target/installed
    python3 examples/python/test_iscc.py [TEST..]      as Texts.test_nul

The last line is 'N passed, M failed', and the exit status is 0 only where nothing failed.
"""

from __future__ import annotations

import os
import pathlib
import pickle
import re
import shlex
import shutil
import struct
import subprocess
import sys
import tempfile
import threading
import types
import unittest
from collections.abc import Callable, Iterator

sys.dont_write_bytecode = True

import iscc  # noqa: E402

HERE = pathlib.Path(__file__).resolve().parent
TOP = HERE.parents[1]
HEADER = (TOP / "include" / "iscc.h").read_text("ascii")

TYPED = "iaauvacqkxe3v44w-gaaw2prcrs5lnvzv"
WRITTEN = "ISCC:KUAG2PRCRS5LNVZVJKAFAVOJXLZZM"
DATA = bytes.fromhex("30016d3e228cbab6d735")
INSTANCE = bytes.fromhex("40014a805055c9baf396")
META = bytes.fromhex("0001") + b"\x11" * 8
SEMANTIC = bytes.fromhex("1201") + b"\x22" * 8
CONTENT = bytes.fromhex("2201") + b"\x33" * 8

Call = Callable[..., object]


def answer(call: Call, *arguments: object) -> object:
    """What a call gives, or the number of its refusal."""
    try:
        return call(*arguments)
    except iscc.Refused as refused:
        return refused.number


def in_a_process(code: str, module: pathlib.Path, library: str | None, **more: str) -> str:
    """What a Python of its own prints that finds the module in a folder; errors are printed too."""
    environment = {**os.environ, "PYTHONPATH": str(module), "PYTHONDONTWRITEBYTECODE": "1", **more}
    environment.pop("ISCC_LIBRARY", None)
    if library is not None:
        environment["ISCC_LIBRARY"] = library
    run = subprocess.run(
        [sys.executable, "-c", code], env=environment, capture_output=True, text=True, check=False
    )
    return run.stdout + run.stderr


class Header(unittest.TestCase):
    """The module says what the header says."""

    def numbers(self) -> dict[str, int]:
        found = re.findall(r"^ +ISCC_([A-Z0-9_]+) = (\d+)", HEADER, re.MULTILINE)
        return {name: int(number) for name, number in found}

    def defined(self, name: str) -> str:
        found = re.search(rf"^#define {name} (.+)$", HEADER, re.MULTILINE)
        assert found, name
        return found[1]

    def test_names(self) -> None:
        named = {"OK": 0, **{refusal.name: refusal.value for refusal in iscc.Refusal}}
        self.assertEqual(named, self.numbers())

    def test_sentences(self) -> None:
        found = re.findall(r'^    case ISCC_([A-Z0-9_]+): return "(.+)";$', HEADER, re.MULTILINE)
        numbers = self.numbers()
        self.assertEqual({name for name, _ in found}, set(numbers))
        for name, sentence in found:
            self.assertEqual(iscc.refusal_text(numbers[name]), sentence)

    def test_no_such_number(self) -> None:
        after = max(iscc.Refusal) + 1
        between = set(range(1, after)) - set(iscc.Refusal)
        self.assertEqual(between, set(range(28, 36)))
        for number in (*between, after, 2**32 - 1):
            self.assertEqual(iscc.refusal_text(number), "There is no such number.")

    def test_number_out_of_range(self) -> None:
        for number in (-1, 2**32, 2**32 + 4, 2**64):
            said = f"a number of refusal is from 0 to 4294967295, not {number}"
            self.assertRaisesRegex(ValueError, f"^{said}$", iscc.refusal_text, number)
            self.assertRaisesRegex(ValueError, f"^{said}$", iscc.Refused, number)
        wrong: Call = iscc.refusal_text
        self.assertRaisesRegex(TypeError, "^a number of refusal is an int, not str$", wrong, "4")

    def test_version(self) -> None:
        self.assertEqual(f'"{iscc.version()}"', self.defined("ISCC_VERSION_TEXT"))
        self.assertEqual(str(iscc._MAJOR), self.defined("ISCC_VERSION_MAJOR"))

    def test_areas(self) -> None:
        self.assertEqual(str(iscc._TEXT_AREA), self.defined("ISCC_TEXT_AREA"))
        self.assertEqual(str(iscc._CODE_AREA), self.defined("ISCC_CODE_AREA"))
        self.assertEqual(str(iscc._SPLIT_AREA), self.defined("ISCC_SPLIT_AREA"))

    def test_star(self) -> None:
        public = {
            name
            for name, value in vars(iscc).items()
            if getattr(value, "__module__", None) == "iscc" and not name.startswith("_")
        }
        given: dict[str, object] = {}
        exec("from iscc import *", given)
        self.assertEqual(given.keys() - {"__builtins__"}, set(iscc.__all__))
        self.assertEqual(public | {"Bytes", "Text"}, set(iscc.__all__))


class Vectors(unittest.TestCase):
    """Every vector of a call that the module has; those with an area too short cannot be asked."""

    def rows(self, table: str) -> Iterator[list[str]]:
        lines = (TOP / "tests" / "vectors" / f"{table}.tsv").read_text("ascii").splitlines()
        rows = [line.split("\t") for line in lines if not line.startswith("#")]
        self.assertGreaterEqual(len(rows), 1000)
        yield from rows

    def written(self, table: str, call: Callable[[bytes], bytes], out: int) -> None:
        for row in self.rows(table):
            number = int(row[2])
            due = number or bytes.fromhex(row[out].replace("-", ""))
            given = bytes.fromhex(row[1].replace("-", ""))
            if number != iscc.Refusal.AREA_TOO_SHORT:
                self.assertEqual(answer(call, given), due, row)

    def test_intake(self) -> None:
        self.written("intake", lambda text: iscc.intake(text).encode(), 5)

    def test_text_of_code(self) -> None:
        self.written("intake", lambda text: iscc.text(iscc.code(text)).encode(), 5)

    def test_join(self) -> None:
        self.written("join", iscc.join, 5)

    def test_split(self) -> None:
        self.written("split", lambda code: b"".join(iscc.split(code)), 4)

    def test_strict(self) -> None:
        for text, number, _ in self.rows("strict"):
            given = bytes.fromhex(text.replace("-", ""))
            self.assertEqual(answer(iscc.strict, given), int(number) or None, text)
            self.assertEqual(iscc.is_strict(given), number == "0", text)

    def test_distance(self) -> None:
        for a, b, number, d, n, ratio in self.rows("distance"):
            units = [bytes.fromhex(unit.replace("-", "")) for unit in (a, b)]
            far = (int(d), int(n), *struct.unpack(">f", bytes.fromhex(ratio)))
            self.assertEqual(answer(iscc.distance, *units), int(number) or far, (a, b))


class Texts(unittest.TestCase):
    """What may be given as a text or a code, and what comes back."""

    def test_kinds_of_text(self) -> None:
        data = TYPED.encode()
        texts: list[iscc.Text] = [TYPED, data, bytearray(data), memoryview(data)]
        for given in texts:
            self.assertEqual(iscc.intake(given), WRITTEN)
            self.assertEqual(iscc.code(given), iscc.join(DATA, INSTANCE))
            self.assertIs(iscc.is_strict(given), False)

    def test_kinds_of_code(self) -> None:
        units: list[iscc.Bytes] = [DATA, bytearray(DATA), memoryview(DATA)]
        for unit in units:
            self.assertEqual(iscc.text(unit), "ISCC:GAAW2PRCRS5LNVZV")
            self.assertEqual(iscc.distance(unit, DATA), (0, 64, 0.0))

    def test_there_and_back(self) -> None:
        self.assertEqual(iscc.split(iscc.join(INSTANCE, DATA)), [DATA, INSTANCE])
        self.assertEqual(iscc.code(iscc.text(DATA)), DATA)
        self.assertIsNone(answer(iscc.strict, WRITTEN))
        self.assertIs(iscc.is_strict(WRITTEN), True)

    def test_str_at_the_strict_door(self) -> None:
        typed = "iscc:maagztfqttvizpjr"
        self.assertIs(iscc.is_strict(typed), False)
        self.assertEqual(answer(iscc.strict, typed), 16)
        self.assertIs(iscc.is_strict(iscc.intake(typed)), True)
        self.assertIsNone(answer(iscc.strict, iscc.intake(typed)))

    def joined(self, start: str, *units: bytes) -> None:
        """Units in their order, their composite, and the same from other orders."""
        due = bytes.fromhex(start) + b"".join(unit[2:] for unit in units)
        self.assertEqual(iscc.join(*units), due)
        self.assertEqual(iscc.join(*reversed(units)), due)
        self.assertEqual(iscc.join(b"".join(units[1:]), units[0]), due)
        self.assertEqual(iscc.split(due), list(units))

    def test_join(self) -> None:
        self.joined("5207", META, SEMANTIC, CONTENT, DATA, INSTANCE)
        self.joined("5202", SEMANTIC, DATA, INSTANCE)
        self.assertEqual(answer(iscc.join), 7)
        self.assertEqual(answer(iscc.join, b""), 7)
        self.assertEqual(answer(iscc.join, DATA), 13)

    def test_wide(self) -> None:
        data = bytes.fromhex("3003") + bytes(range(16))
        instance = bytes.fromhex("4003") + bytes(range(16, 32))
        wide = bytes.fromhex("5700") + bytes(range(32))
        written = "ISCC:K4AAAAICAMCAKBQHBAEQUCYMBUHA6EARCIJRIFIWC4MBSGQ3DQOR4HY"
        self.assertEqual(iscc.code(written.lower()), wide)
        self.assertEqual(iscc.text(wide), written)
        self.assertIs(iscc.is_strict(written), True)
        self.assertEqual(iscc.split(wide), [data, instance])
        self.assertEqual(answer(iscc.join, data, instance), 11)
        self.assertEqual(answer(iscc.join, wide), 10)
        self.assertEqual(answer(iscc.distance, wide, wide), 18)

    def test_distance_by_name(self) -> None:
        far = iscc.distance(iscc.code("gaaaaaaaaa"), iscc.code("GAAP6-AAAAE"))
        self.assertEqual((far.d, far.n, far.ratio), (9, 32, 0.28125))

    def test_nul(self) -> None:
        self.assertEqual(answer(iscc.intake, "MAAGZTFQTTVIZPJR\0"), 4)
        self.assertEqual(answer(iscc.intake, "\0"), 4)
        self.assertEqual(iscc.code("gaaaaaaaaa"), bytes.fromhex("300000000000"))
        self.assertEqual(iscc.text(bytes.fromhex("300000000000")), "ISCC:GAAAAAAAAA")

    def test_outside_ascii(self) -> None:
        for given in ("é", "\ud800", "\udcff", "ISCC:GAAW2PRCRS5LNVZ\N{KELVIN SIGN}", b"\xff"):
            self.assertEqual(answer(iscc.intake, given), 4)

    def test_long(self) -> None:
        label = "MAAGZTFQTTVIZPJR"
        self.assertEqual(iscc.intake(label.rjust(1024)), "ISCC:" + label)
        self.assertEqual(answer(iscc.intake, label.rjust(1025)), 2)
        self.assertEqual(answer(iscc.intake, "é" * 513), 2)  # the bytes are counted
        self.assertEqual(answer(iscc.intake, label * 1_000_000), 2)

    def test_other_types(self) -> None:
        of_texts: list[Call] = [iscc.intake, iscc.strict, iscc.is_strict, iscc.code]
        of_codes: list[Call] = [iscc.text, iscc.join, iscc.split]
        others = {"int": 5, "NoneType": None, "float": 1.5, "list": [71], "tuple": ("GAA",)}
        for name, given in others.items():
            for call in of_texts:
                said = f"^a text is a str or bytes, not {name}$"
                self.assertRaisesRegex(TypeError, said, call, given)
            said = f"^a code is bytes, not {name}$"
            for call in of_codes:
                self.assertRaisesRegex(TypeError, said, call, given)
            self.assertRaisesRegex(TypeError, said, iscc.join, DATA, given)
            self.assertRaisesRegex(TypeError, said, iscc.distance, DATA, given)
            self.assertRaisesRegex(TypeError, said, iscc.distance, given, DATA)
        said = r"^a code is bytes, not str; code\(\) gives the code of a text$"
        for call in of_codes:
            self.assertRaisesRegex(TypeError, said, call, WRITTEN)


class Refusals(unittest.TestCase):
    """The exception."""

    def test_fields(self) -> None:
        with self.assertRaises(ValueError) as caught:
            iscc.strict(TYPED)
        refused = caught.exception
        assert isinstance(refused, iscc.Refused)
        self.assertEqual((refused.number, refused.name), (16, "OTHER_TEXT"))
        self.assertEqual(refused.sentence, iscc.refusal_text(16))
        self.assertEqual(str(refused), f"refused 16 OTHER_TEXT: {refused.sentence}")

    def test_every_number(self) -> None:
        for refusal in iscc.Refusal:
            refused = iscc.Refused(refusal)
            self.assertEqual((refused.number, refused.name), (refusal, refusal.name))
            self.assertEqual(refused.sentence, iscc.refusal_text(refusal))

    def test_number_of_a_later_library(self) -> None:
        for number in (28, 35, max(iscc.Refusal) + 1):
            self.assertEqual(iscc.Refused(number).name, "UNKNOWN")

    def test_pickle(self) -> None:
        again = pickle.loads(pickle.dumps(iscc.Refused(4)))
        self.assertEqual((again.number, str(again)), (4, str(iscc.Refused(4))))


class Library(unittest.TestCase):
    """Where the library is found, and what is said where it is not."""

    def setUp(self) -> None:
        (TOP / "target").mkdir(exist_ok=True)
        folder = tempfile.TemporaryDirectory(dir=TOP / "target")
        self.addCleanup(folder.cleanup)
        self.folder = pathlib.Path(folder.name)
        self.library = iscc._library()._name

    def a_repository(self) -> tuple[pathlib.Path, str]:
        """A repository with the module and a library: the module's folder, the library's path."""
        top = self.folder / "repository"
        module = top / "examples" / "python"
        for folder in (module, top / "include", top / "target/installed/lib"):
            folder.mkdir(parents=True)
        shutil.copy(HERE / "iscc.py", module)
        shutil.copy(TOP / "include" / "iscc.h", top / "include")
        return module, str(shutil.copy(self.library, top / "target/installed/lib/libiscc.so"))

    def test_missing(self) -> None:
        path = str(self.folder / "libiscc.so")
        said = in_a_process("import iscc; iscc.version()", HERE, path)
        self.assertEqual(
            said.splitlines()[-1],
            f"iscc.LibraryMissing: the ISCC library cannot be loaded ({path}: cannot open shared"
            " object file: No such file or directory). `./install target/installed` at the top of"
            " the repository makes it; elsewhere set ISCC_LIBRARY to the path of libiscc.so",
        )
        self.assertEqual(said.count("Traceback"), 1, said)

    def test_errors_of_one_kind(self) -> None:
        self.assertTrue(issubclass(iscc.WrongLibrary, iscc.LibraryMissing))
        self.assertTrue(issubclass(iscc.LibraryMissing, OSError))

    def test_where_the_system_looks(self) -> None:
        away = self.folder / "away"
        away.mkdir()
        shutil.copy(HERE / "iscc.py", away)
        shutil.copy(self.library, away / "libiscc.so.0")
        print_maps = (
            "import iscc; iscc.version(); lines = open('/proc/self/maps').read().splitlines();"
            " print({line.split(None, 5)[-1] for line in lines if 'libiscc' in line})"
        )
        folders = f"{away}:{os.environ.get('LD_LIBRARY_PATH', '')}"
        said = in_a_process(print_maps, away, None, LD_LIBRARY_PATH=folders)
        self.assertEqual(said, f"{ {str(away / 'libiscc.so.0')} }\n")

    def test_copied_away(self) -> None:
        shutil.copy(HERE / "iscc.py", self.folder)
        said = in_a_process("import iscc; print(iscc.version())", self.folder, self.library)
        self.assertEqual(said, iscc.version() + "\n")

    def test_in_a_repository(self) -> None:
        module, built = self.a_repository()
        linked = self.folder / "linked"
        linked.mkdir()
        (linked / "iscc.py").symlink_to(module / "iscc.py")
        print_name = "import iscc; print(iscc._library()._name)"
        self.assertEqual(in_a_process(print_name, module, None), f"{built}\n")
        self.assertEqual(in_a_process(print_name, module, ""), f"{built}\n")
        self.assertEqual(in_a_process(print_name, linked, None), f"{built}\n")
        self.assertEqual(in_a_process(print_name, module, self.library), f"{self.library}\n")

    def test_another_library(self) -> None:
        said = in_a_process("import iscc; iscc.version()", HERE, "libc.so.6")
        self.assertIn("WrongLibrary: libc.so.6 is no library of this module", said)
        self.assertEqual(said.count("Traceback"), 1, said)

    def test_another_major_version(self) -> None:
        names = set(re.findall(r"[ *](iscc_[a-z_]+)\(", HEADER)) - {"iscc_version"}
        lines = [f"int {name};" for name in sorted(names)]
        lines.append("unsigned iscc_version(void) { return 65536; }\n")
        source, other = self.folder / "other.c", str(self.folder / "other.so")
        source.write_text("\n".join(lines))
        subprocess.run(["gcc", "-shared", "-fPIC", str(source), "-o", other], check=True)
        said = in_a_process("import iscc; iscc.intake('')", HERE, other)
        self.assertIn(f"WrongLibrary: {other} has major version 1; this module is for 0", said)


class Threads(unittest.TestCase):
    """Calls at the same time do not disturb each other."""

    def test_many(self) -> None:
        labels = [iscc.text(DATA[:-1] + bytes([last])).lower() for last in range(256)]
        due = [(label.upper(), DATA[:-1] + bytes([last])) for last, label in enumerate(labels)]
        threads = 8
        start = threading.Barrier(threads)
        got: list[list[tuple[str, bytes]]] = [[] for _ in range(threads)]

        def work(own: int) -> None:
            start.wait()
            for _ in range(4):
                got[own] = [(iscc.intake(label), iscc.code(label)) for label in labels]

        running = [threading.Thread(target=work, args=(own,)) for own in range(threads)]
        for thread in running:
            thread.start()
        for thread in running:
            thread.join()
        self.assertEqual(got, [due] * threads)


class Example(unittest.TestCase):
    """labels.py writes what the README shows."""

    def run_labels(
        self, *labels: str, library: str | None = None, output: int = subprocess.PIPE
    ) -> tuple[int, str]:
        environment = {**os.environ, "ISCC_LIBRARY": library or iscc._library()._name}
        environment.pop("PYTHONUNBUFFERED", None)  # it would hide what fails at the end
        run = subprocess.run(
            [sys.executable, "-B", str(HERE / "labels.py"), *labels],
            env=environment,
            stdout=output,
            stderr=subprocess.PIPE,
            text=True,
            check=False,
        )
        return run.returncode, (run.stdout or "") + run.stderr

    def test_own_labels(self) -> None:
        lines = (
            WRITTEN,
            "strict",
            "the same code",
            "units ISCC:GAAW2PRCRS5LNVZV ISCC:IAAUVACQKXE3V44W",
            "distance 9 of 32 bits, ratio 0.28125",
            "'GAAW2PRCRS5LNVZ0': refused 4 BAD_CHARACTER: "
            "A character is neither a letter A to Z nor a digit 2 to 7.",
        )
        self.assertEqual(self.run_labels(), (0, "\n".join(lines) + "\n"))

    def test_given_labels(self) -> None:
        self.assertEqual(self.run_labels(TYPED), (0, WRITTEN + "\n"))
        status, said = self.run_labels("", TYPED)
        self.assertEqual(status, 1)
        self.assertEqual(said, f"'': {iscc.Refused(1)}\n{WRITTEN}\n")

    def test_help(self) -> None:
        status, said = self.run_labels("--help")
        self.assertEqual(status, 0)
        self.assertIn("\nusage: python3 examples/python/labels.py", said)

    def test_output_that_cannot_be_written(self) -> None:
        with open("/dev/full", "wb") as full:
            said = self.run_labels(TYPED, output=full.fileno())
        self.assertEqual(said, (1, "cannot write: No space left on device\n"))
        reader, writer = os.pipe()
        os.close(reader)
        said = self.run_labels(TYPED, output=writer)
        os.close(writer)
        self.assertEqual(said, (1, "cannot write: Broken pipe\n"))

    def test_closed_output(self) -> None:
        command = [sys.executable, "-B", str(HERE / "labels.py"), TYPED]
        run = subprocess.run(
            ["sh", "-c", 'exec "$@" >&-', "sh", *command], stderr=subprocess.PIPE, check=False
        )
        self.assertEqual(run.returncode, 1)
        self.assertEqual(run.stderr, b"cannot write: standard output is closed\n")

    def test_no_library(self) -> None:
        status, said = self.run_labels(TYPED, library=str(HERE / "libiscc.so"))
        self.assertEqual((status, said.count("\n")), (1, 1), said)
        self.assertTrue(said.startswith("the ISCC library cannot be loaded"), said)


def say_again(test: unittest.TestCase, here: types.ModuleType) -> None:
    """The one command that runs a failed test again."""
    library = os.environ.get("ISCC_LIBRARY")
    front = f"ISCC_LIBRARY={shlex.quote(library)} " if library else ""
    name = test.id().removeprefix(f"{here.__name__}.")
    file = pathlib.Path(here.__file__ or "").name
    print(f"run again: {front}python3 examples/python/{file} {name}")


def main(names: list[str], here: types.ModuleType) -> int:
    """Runs the tests of a file, all or those that are named."""
    load = unittest.defaultTestLoader
    suite = load.loadTestsFromNames(names, here) if names else load.loadTestsFromModule(here)
    result = unittest.TextTestRunner(stream=sys.stdout).run(suite)
    wrong = [test for test, _ in result.failures + result.errors]
    for test in wrong:
        say_again(test, here)
    failed = len(wrong)
    print(f"{result.testsRun - failed} passed, {failed} failed")
    return 0 if result.wasSuccessful() and result.testsRun > 0 else 1


if __name__ == "__main__":
    sys.exit(main(sys.argv[1:], sys.modules[__name__]))
