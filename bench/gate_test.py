"""Tests bench/gate and .ci/run together, on a small tree with an `rt` that only prints.

usage: python3 bench/gate_test.py
"""

import os
import re
import shutil
import subprocess
import sys
import tempfile
import unittest
from importlib.machinery import SourceFileLoader
from pathlib import Path
from types import ModuleType

TOP = Path(__file__).resolve().parent.parent
sys.dont_write_bytecode = True
import document

# The script's name does not end in .py, so that it is loaded by hand.
script = ModuleType("gate")
script.__file__ = str(TOP / "bench" / "gate")
SourceFileLoader("gate", script.__file__).exec_module(script)

RT = """#!/bin/sh
[ "$1" != version ] || echo kit 1
[ "$1" = ci ] || exit 0
cat ci.out
exit "$(cat ci.status)"
"""

CI = """fn one::a: proved
rt: one proved
rt: two is kept: an earlier run on this machine proved the same files over the same libraries
rt: must-fail one/first.edit: refused, as it must be: ./proofs/A.antt:3:4: error: `a`
rt: must-fail one/second.edit: refused, as it must be: note: src/lib.rt:2:1: it is not proved
rt: two ran, and wrote what its file stdout has
rt: ok; handles allowed: none; must-fail edits: 2 refused; done in this run: 1 of the 2 proofs
4 passed, 0 failed
"""

FILES = {
    "crates.txt": "one staticlib:\ntwo: one\n",
    "crates/one/src/lib.rt": "// A comment.\nfn a() {\n\n}\n",
    "crates/one/specs/A.antt": "-- A comment.\na : b\n",
    "crates/one/proofs/a/Proof.antt": "a\n  -- A comment.\nb\nc\n",
    "crates/one/must-fail/first.edit": "",
    "crates/one/must-fail/second.edit": "",
    "crates/one/out/made.antt": "made by rt\n",
    "crates/two/src/main.rt": "fn main() {}\n",
    "docs/BENCHMARKS.md": "head\n<!-- made by bench/gate: begin -->\nold\n<!-- made by bench/gate: end -->\nfoot\n",
    "bench/gate_test.py": "",
    "bin/rt": RT,
    "tests/run": "#!/bin/sh\necho 3 passed, 0 failed\n",
    "ci.out": CI,
    "ci.status": "0",
}

# How long the parts of the small gate take is no matter of a test.
TABLES = """
| part | time |
| --- | --- |
| proofs | N |
| tests | N |
| whole | N |

| crate | code | definitions | proof | edits |
| --- | --- | --- | --- | --- |
| one | 2 | 1 | 3 | 2 |
| two | 1 | 0 | 0 | 0 |
| all | 3 | 1 | 3 | 2 |
"""


# What bench/gate reads, as .ci/run prints it.
LOG = f"""== proofs
{CI}gate: on a machine, 2 cores
gate: of crates with the digest DIGEST
gate: proofs took 502 s
gate: tests took 88 s
gate: whole took 892 s
8 passed, 0 failed
"""


class Gate(unittest.TestCase):
    def setUp(self) -> None:
        folder = tempfile.TemporaryDirectory()
        self.addCleanup(folder.cleanup)
        self.top = Path(folder.name)
        for name, text in FILES.items():
            self.put(name, text)
        for name in (".ci/run", "bench/gate", "bench/document.py"):
            (self.top / name).parent.mkdir(exist_ok=True)
            shutil.copy(TOP / name, self.top / name)

    def put(self, name: str, text: str) -> None:
        path = self.top / name
        path.parent.mkdir(parents=True, exist_ok=True)
        path.write_text(text)
        path.chmod(0o755)

    def run_in(self, *words: str) -> subprocess.CompletedProcess[str]:
        command = [str(self.top / words[0]), *words[1:]]
        path = f"{self.top / 'bin'}:{os.environ['PATH']}"
        return subprocess.run(command, env={"PATH": path}, cwd="/", capture_output=True, text=True)

    def log(self) -> str:
        return LOG.replace("DIGEST", script.digest_of(self.top))

    def assert_fault(self, fault: str, log: str) -> None:
        with self.assertRaisesRegex(document.Fault, fault):
            script.tables(self.top, log)

    def test_gate_that_passes(self) -> None:
        gate = self.run_in(".ci/run")
        # These tests count one.
        self.assertEqual((gate.returncode, gate.stdout.splitlines()[-1]), (0, "8 passed, 0 failed"))
        self.assertEqual((self.top / "target/gate.log").read_text(), gate.stdout)
        answer = self.run_in("bench/gate")
        self.assertEqual((answer.returncode, answer.stderr), (0, ""))
        title, tables = answer.stdout.split("\n", 1)
        self.assertRegex(title, r"^Taken on .+, \d+ cores, with kit 1; done in this run: 1 of the 2 proofs\.$")
        self.assertEqual(re.sub(r"\d+ min \d+ s", "N", tables), TABLES)

    def test_gate_that_fails(self) -> None:
        self.put("ci.out", CI.replace("4 passed, 0 failed", "3 passed, 1 failed"))
        gate = self.run_in(".ci/run")
        self.assertEqual((gate.returncode, gate.stdout.splitlines()[-1]), (1, "7 passed, 1 failed"))
        self.assert_fault("does not end with", gate.stdout)

    def test_rt_that_breaks(self) -> None:
        self.put("ci.status", "2")
        gate = self.run_in(".ci/run")
        self.assertEqual((gate.returncode, gate.stdout.splitlines()[-1]), (1, "8 passed, 1 failed"))

    def test_bad_edit(self) -> None:
        self.put("ci.out", CI.replace("2 refused;", "1 refused, 1 bad;"))
        gate = self.run_in(".ci/run")
        self.assertEqual((gate.returncode, gate.stdout.splitlines()[-1]), (1, "8 passed, 1 failed"))

    def test_tests_that_say_nothing(self) -> None:
        for said in ("", "echo 0 passed, 0 failed", "echo 3 passed, 0 failed; echo more", "printf '3 passed, 0 failed\\r\\n'"):
            self.put("tests/run", f"#!/bin/sh\n{said}\n")
            gate = self.run_in(".ci/run")
            self.assertEqual((gate.returncode, gate.stdout.splitlines()[-1]), (1, "5 passed, 1 failed"), said)

    def test_write(self) -> None:
        self.put("target/gate.log", self.log())
        made = self.run_in("bench/gate").stdout
        self.assertIn("| proofs | 8 min 22 s |\n", made)
        self.assertEqual(self.run_in("bench/gate", "--write").stdout, "")
        begin, end = ("<!-- made by bench/gate: begin -->", "<!-- made by bench/gate: end -->")
        self.assertEqual((self.top / "docs/BENCHMARKS.md").read_text(), f"head\n{begin}\n\n{made}\n{end}\nfoot\n")

    def test_lines_missing(self) -> None:
        for lost, fault in (
            ("rt: two is kept", "a crate is not in the log: two"),
            ("rt: must-fail one/second", "an edit is not in the log: one/second"),
            ("rt: ok", "what was done anew"),
            ("gate: proofs", "each of the times"),
            ("gate: on", "the machine"),
            ("gate: of", "the digest"),
        ):
            left = [line for line in self.log().splitlines(True) if not line.startswith(lost)]
            self.assert_fault(fault, "".join(left))

    def test_line_twice(self) -> None:
        self.assert_fault("the crate two twice", "rt: two proved\n" + self.log())

    def test_file_changed(self) -> None:
        for name in ("crates/one/src/lib.rt", "crates/one/must-fail/first.edit", "crates.txt"):
            log = self.log()
            self.put(name, (self.top / name).read_text() + " ")
            self.assert_fault("other crates", log)
        log = self.log()
        self.put("crates/two/specs/New.antt", "")
        self.assert_fault("other crates", log)

    def test_names_not_in_tree(self) -> None:
        (self.top / "crates/one/must-fail/second.edit").unlink()
        self.assert_fault("an edit is in the log and not in the tree: one/second", self.log())
        self.put("crates.txt", "one:\n")
        self.assert_fault("a crate is in the log and not in the tree: two", self.log())

    def test_marks(self) -> None:
        begin, _, end = FILES["docs/BENCHMARKS.md"].splitlines(True)[1:4]
        for text in ("nothing\n", begin, end, begin + begin + end, begin + end + end, end + begin):
            with self.assertRaisesRegex(document.Fault, "marks of bench/gate"):
                document.replaced(text, "bench/gate", "new")
        with self.assertRaisesRegex(document.Fault, "made nothing"):
            document.replaced(begin + end, "bench/gate", " \n")

    def test_words(self) -> None:
        for words, status, said in (([], 1, "gate.log"), (["--wrote"], 2, "--wrote"), (["one", "two"], 2, "two")):
            answer = self.run_in("bench/gate", *words)
            self.assertEqual((answer.returncode, answer.stdout), (status, ""))
            self.assertIn(said, answer.stderr)
        self.assertIn("usage: bench/gate", self.run_in("bench/gate", "--help").stdout)


if __name__ == "__main__":
    unittest.main()
