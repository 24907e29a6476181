"""What the repository has: every name that a document may use."""
from __future__ import annotations

import ast
import fnmatch
import os
import re
import subprocess
from dataclasses import dataclass, field
from pathlib import Path

TOP = Path(__file__).resolve().parent.parent.parent

# Programs that the tests build, by the source that knows their options.
BUILT = {
    "compare": "tests/compare/main.rs",
    "target/tests/compare": "tests/compare/main.rs",
    "target/tests/run_vectors": "tests/programs/run_vectors.rs",
    "target/tests/run_labels": "tests/programs/run_labels.rs",
    "target/console": "examples/c/console.c",
}

HEADERS = ("include/iscc.h", "include/loans.h")


@dataclass
class Index:
    """Every name that a document may use, by what it is."""

    paths: set[str] = field(default_factory=set)
    crates: set[str] = field(default_factory=set)
    edits: set[str] = field(default_factory=set)
    rattle: set[str] = field(default_factory=set)
    parameters: dict[str, list[str]] = field(default_factory=dict)
    names: set[str] = field(default_factory=set)
    fields: set[str] = field(default_factory=set)
    in_files: set[tuple[str, str]] = field(default_factory=set)
    options: set[str] = field(default_factory=set)
    calls: set[str] = field(default_factory=set)
    parts: set[str] = field(default_factory=set)


def read(path: str) -> str:
    return (TOP / path).read_text(encoding="utf-8")


def all_paths() -> set[str]:
    """Files and folders of the repository from its top, without what is built."""
    found: set[str] = set()
    for folder, folders, files in os.walk(TOP):
        inside = os.path.relpath(folder, TOP)
        # In a crate's own folder, out/ is what rt makes.
        built = {"out"} if os.path.dirname(inside) == "crates" else set()
        folders[:] = [f for f in folders if f not in {".git", "target", "__pycache__"} | built]
        for name in folders + files:
            found.add(os.path.normpath(os.path.join(inside, name)))
    return found


def program_of(word: str, index: Index) -> str:
    """The source in which a command's options are looked up."""
    path = word.removeprefix("./")
    if word in BUILT:
        return BUILT[word]
    return path if path in index.paths and os.access(TOP / path, os.X_OK) else ""


ANTT_NAME = re.compile(r"^( *)(?:(?:pub|abbrev|unfoldable) )*([^\s:(){}]+)((?: [^\s:(){}]+)*)(?: \{[^}]*\})* :(?: |$)")
ANTT_BLOCK = re.compile(r"^(?:pub )?(record|data|module) (\S+)")
LIBRARY_USE = re.compile(r"^(?:ghost )?use (?:Prim|mathlib|lib|native)\.[\w.]*\{([^}]*)\}", re.M)


def index_antt(path: str, index: Index) -> None:
    """Top-level names, those inside a module block, fields and constructors of one file."""
    kind = block = ""
    for line in read(path).splitlines():
        opened = ANTT_BLOCK.match(line)
        if opened:
            kind, block = opened.group(1), opened.group(2)
            index.names.update({block} - {"_"})
            index.in_files.add((path, block))
        elif line and line[0] not in " -":
            kind = block = ""
        found = ANTT_NAME.match(line)
        if not found or opened or len(found.group(1)) > (2 if kind else 0):
            continue
        names = [found.group(2), *found.group(3).split()]
        if kind != "record":
            index.names.update(names)
        if kind in {"record", "data"}:
            names = [f"{block}.{name}" for name in names]
            index.fields.update(names)
        index.in_files.update((path, name) for name in names)


def index_library(text: str, index: Index) -> None:
    """What a file imports from the prover's library: the prover has looked these up."""
    for names in LIBRARY_USE.findall(text):
        index.names.update(names.replace(",", " ").split())


RT_ITEM = re.compile(
    r'^( *)(?:pub(?:\(crate\))? )?(?:extern "C" )?(fn|struct|enum|const|impl|mod)(?:<[^>]*>)?'
    r' (?:\S+(?:<[^{]*>)? for )?(\w+)'
)
RT_MEMBER = re.compile(r"^    (?:pub(?:\(crate\))? )?(\w+)(?::|,|\(| \{)")
# The type whose methods follow, and nothing where its block ends.
RT_OWNER = re.compile(r"^(?:impl(?:<[^>]*>)? (?:\S+(?:<[^{]*>)? for )?(\w+)|\})", re.M)
RT_SIGNATURE = re.compile(r"\bfn (\w+)(?:<[^>]*>)?\s*\(([^)]*)\)")


def index_rattle(prefix: str, text: str, index: Index) -> None:
    """Items of one module; members of its types under the type's name."""
    inside = kind = ""
    for line in text.splitlines():
        if line and line[0] not in " }":
            inside = kind = ""
        item = RT_ITEM.match(line)
        member = RT_MEMBER.match(line) if kind in {"struct", "enum"} else None
        if item and item.group(2) == "impl":
            inside = item.group(3)
        elif item and (not item.group(1) or inside):
            owner = f"{prefix}::{inside}" if item.group(1) else prefix
            index.rattle.add(f"{owner}::{item.group(3)}")
            if item.group(2) in {"struct", "enum"}:
                inside, kind = item.group(3), item.group(2)
        elif member:
            index.rattle.add(f"{prefix}::{inside}::{member.group(1)}")
    for found in RT_SIGNATURE.finditer(text):
        taken = [p.split(":")[0].replace("mut ", "").strip() for p in found.group(2).split(",")]
        owners = [prefix, *RT_OWNER.findall(text, 0, found.start())[-1:]]
        index.parameters["::".join(filter(None, [*owners, found.group(1)]))] = [p for p in taken if p]


def index_crate(crate: str, index: Index) -> None:
    index.rattle.add(crate)
    for path in sorted(index.paths):
        if not path.startswith(f"crates/{crate}/"):
            continue
        inside = path.removeprefix(f"crates/{crate}/")
        if inside.startswith("must-fail/") and inside.endswith(".edit"):
            index.edits.add(f"{crate}/{Path(inside).stem}")
        if inside.endswith(".rt"):
            module = Path(inside).stem
            prefix = crate if module in {"lib", "main"} else f"{crate}::{module}"
            index.rattle.add(prefix)
            index_rattle(prefix, read(path), index)
            index_library(read(path), index)
        if inside.endswith(".antt"):
            index_library(read(path), index)
        if inside.endswith(".antt") and not inside.endswith("/Proof.antt"):
            index.names.add(Path(inside).stem)
            index_antt(path, index)


def index_python(stem: str, text: str, index: Index) -> None:
    """Functions, classes with their members, and constants of a Python file; no local names."""
    for node in ast.parse(text).body:
        index_python_item(stem, node, index)
        if not isinstance(node, ast.ClassDef):
            continue
        for inner in node.body:
            index_python_item(node.name, inner, index)
        for part in ast.walk(node):
            if isinstance(part, ast.Attribute) and isinstance(part.ctx, ast.Store):
                index.fields.add(f"{node.name}.{part.attr}")


def index_python_item(owner: str, node: ast.stmt, index: Index) -> None:
    if isinstance(node, (ast.FunctionDef, ast.ClassDef)):
        names = [node.name]
    elif isinstance(node, (ast.Assign, ast.AnnAssign)):
        targets = node.targets if isinstance(node, ast.Assign) else [node.target]
        names = [target.id for target in targets if isinstance(target, ast.Name)]
    else:
        names = []
    index.names.update(names)
    index.fields.update(f"{owner}.{name}" for name in names)
    if isinstance(node, ast.FunctionDef):
        index.parameters[f"{owner}.{node.name}"] = [taken.arg for taken in node.args.args]
    if isinstance(node, ast.ClassDef):
        given = [inner.target for inner in node.body if isinstance(inner, ast.AnnAssign)]
        index.parameters[f"{owner}.{node.name}"] = [t.id for t in given if isinstance(t, ast.Name)]


def index_c(text: str, index: Index) -> None:
    code = re.sub(r"/\*.*?\*/", " ", text, flags=re.S)
    code = re.sub(r'"[^"]*"', " ", code)
    index.names.update(re.findall(r"\b(?:iscc|ISCC|loans|LOANS)_\w+", code))
    index.names.update(re.findall(r"\b([a-z_]\w*)(?=[;,)])", code))
    for name, taken in re.findall(r"\b((?:iscc|loans)_\w+)\(([^)]*)\)", code):
        index.parameters[name] = [p.split()[-1].strip("*") for p in taken.split(",") if p.strip() not in {"", "void"}]


def index_tests(index: Index) -> None:
    """Calls, tables and sequences with their columns, parts, and functions of the shell files."""
    index.calls.update(re.findall(r'Call::\w+ => "(\w+)"', read("tests/harness/call.rs")))
    index.names.update(index.calls)
    index.names.update(re.findall(r'"(\w+)"', read("tests/harness/sequence.rs")))
    for path in sorted(index.paths):
        if fnmatch.fnmatch(path, "tests/vectors/*.tsv"):
            index.names.add(Path(path).stem)
            with (TOP / path).open(encoding="utf-8") as table:
                index.names.update(table.readline().lstrip("#").split())
        if fnmatch.fnmatch(path, "tests/*.bash"):
            index.names.update(re.findall(r"^(\w+)\(\) \{", read(path), re.M))
    index.parts = parts_of_run()
    index.names.update(index.parts)


def parts_of_run() -> set[str]:
    """The parts that tests/run lists in its own help, one a line."""
    if "--help" not in read("tests/run"):
        return set()
    shown = subprocess.run([TOP / "tests/run", "--help"], capture_output=True, text=True, timeout=20)
    return set(re.findall(r"^ +([a-z]+)  +\S", shown.stdout, re.M))


def make_index() -> Index:
    index = Index(paths=all_paths())
    index.crates = set(re.findall(r"^(\w+)(?: staticlib)?\s*:", read("crates.txt"), re.M))
    for crate in sorted(index.crates):
        index_crate(crate, index)
    for path in sorted(index.paths):
        if fnmatch.fnmatch(path, "examples/python/*.py"):
            index_python(Path(path).stem, read(path), index)
        if path != "tests/documents" and program_of(path, index) and (TOP / path).is_file():
            index.options.update(re.findall(r"(?<![\w-])--[a-z][a-z-]*", read(path)))
    for path in HEADERS:
        if path in index.paths:
            index_c(read(path), index)
    index_tests(index)
    for path in index.rattle:
        index.names.add(path.split("::")[-1])
        parts = path.split("::")
        index.fields.update("::".join(parts[start:]) for start in range(1, len(parts)))
    for taken in index.parameters.values():
        index.names.update(taken)
    records = {owned.split(".")[0] for owned in index.fields}
    stems = {(Path(path).stem, name) for path, name in index.in_files if "." not in name}
    index.fields.update(f"{stem}.{name}" for stem, name in stems if stem not in records)
    return index
