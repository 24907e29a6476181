"""Does a name resolve?"""
from __future__ import annotations

import fnmatch
import os
import re

from .index import BUILT, TOP, Index, program_of, read

# What may stand in backquotes beside names of the repository. Texts first, then words of languages and commands.
OTHERS = set(
    """
    ISCC: iscc: -ISCC: IS-CC: ISCC:ISCC: - # ; refused axioms= missing passed failed
    GAAW2PRCRS5LNVZ0 GAAW2PRC target/gate.log libiscc.a libiscc.so libiscc.so.0 iscc.pc
    requires ensures pub(crate) specs/ proofs/ src/ must-fail/ stdout stdin
    r D DEFINITION .now .old .new λ otherwise Refused(q) offset index place position detail
    RT_JOBS DESTDIR ISCC_LIBRARY LD_LIBRARY_PATH PKG_CONFIG_PATH PYTHONPATH str
    register.new register.old lending typed.txt --append --append-verify
    pread pwrite fdatasync fsync ftruncate rename
    ? From Result Option copy_within
    """.split()
) | {"ISCC :", "proved / plain", "-C opt-level=3", "PRAGMA synchronous=FULL"}

# Commands from outside; what follows one of them is not looked at, but for paths.
OUTSIDE = set("gcc g++ rustc python3 valgrind pkg-config apt-get nm git cmp echo cat".split())
OUTSIDE |= set("rsync ssh flock mv truncate diff sha256sum sqlite3".split())

# What `rt` lists as its own commands.
RT = set("check lib run test try must-fail ci all fmt tidy plant lemma expand new doc version help selftest".split())
RT_OPTIONS = {"check": {"--allow-holes", "--start", "--only"}, "ci": {"--anew"}}

# The programs that work on a folder of any name.
HALLS = ("counter", "standby")
HALL_OPTIONS = ("--help", "--version")

# They stand for anything in a path or a command.
PLACEHOLDERS = set("NAME CRATE NN PART CALL CASE CASES TABLE LINE FILE PREFIX SEED LABEL REVISION N M ..".split())
PLACEHOLDERS |= set("DIR TEXT BORROWER LOG PROGRAM".split())

COMMANDS = {"rt", *OUTSIDE, *BUILT}
BASES = ("", "crates/", "crates/iscc/specs/", "tests/vectors/", "examples/python/")

HEX = re.compile(r"(?:0x)?[0-9A-Fa-f]{2}(?: [0-9A-Fa-f]{2})*(?: \.\.)?")
NUMBER = re.compile(r"-?[0-9][0-9.,]*")
# In small letters only behind the scheme: without it any name with a digit would do.
BASE32 = re.compile(r"(?:[Ii][Ss][Cc][Cc]:[A-Za-z2-7]{8,}(?:-[A-Za-z2-7]{8,})*|[A-Z2-7]{8,}(?:-[A-Z2-7]{8,})*)")
BUILT_PATH = re.compile(
    r"target(?:/(?:tests|installed|console|counter-hall|standby-hall)(?:/[\w.*-]+)*)?/?"
    r"|crates/(?:\w+|NAME)/out(?:/[\w.*-]+)?/?"
)
REVISION = re.compile(r"[0-9a-f]{7,40}")
SYMBOLS = re.compile(r"[^\w]+")
CALLED = re.compile(r"([\w:.]+)\(([\w, ]*)\)")


def is_setting(word: str) -> bool:
    """VARIABLE=value, of a variable that OTHERS has."""
    name, sign, value = word.partition("=")
    return bool(sign) and name.isupper() and name in OTHERS and " " not in value


def is_literal(text: str) -> bool:
    if text in OTHERS or text in OUTSIDE or text == "rt" or HEX.fullmatch(text) or NUMBER.fullmatch(text):
        return True
    if len(text) > 2 and text[0] == text[-1] == '"':
        return True
    if BUILT_PATH.fullmatch(text) or is_setting(text):
        return True
    return len(text) >= 13 and bool(BASE32.fullmatch(text)) and bool(re.search(r"[2-7:]", text))


def is_path(text: str, folder: str, index: Index) -> bool:
    """A file or folder, from the top, from a document's folder or from one of BASES."""
    plain = re.sub(r"(?<![A-Z])(?:NAME|CRATE|NN)(?![A-Z])", "*", text.removeprefix("./"))
    for base in (*BASES, f"{folder}/" if folder else ""):
        path = os.path.normpath(base + plain)
        if path in index.paths:
            return not text.endswith("/") or (TOP / path).is_dir()
        if "*" in path and "/" in path and any(fnmatch.fnmatch(p, path) for p in index.paths):
            return True
    return False


def is_edit(text: str, index: Index) -> bool:
    crate, _, name = text.partition("/")
    if name == "*":
        return any(edit.startswith(f"{crate}/") for edit in index.edits)
    return text in index.edits


def is_call(text: str, index: Index) -> bool:
    """A function with its parameters in their order; `self` is left out."""
    called = CALLED.fullmatch(text)
    if not called:
        return False
    path = called.group(1)
    taken = [p.strip() for p in called.group(2).split(",") if p.strip()]
    ends = (f"::{path}", f".{path}")
    known = [names for q, names in index.parameters.items() if q == path or q.endswith(ends)]
    return any([p for p in names if p not in {"self", "&self"}] == taken for names in known)


def is_name(text: str, folder: str, index: Index) -> bool:
    """One word: a name of any kind."""
    if text in index.names or text in index.crates or text in index.rattle or text in index.fields:
        return True
    if text.startswith("--"):
        return text in index.options
    if "/" in text or "." in text:
        return is_path(text, folder, index) or is_edit(text, index)
    return is_path(text, folder, index)


def is_word(word: str, folder: str, index: Index) -> bool:
    """A word of a formula: a name, a field with its dot in front, a number, a symbol."""
    if word in OTHERS:
        return True
    if word.startswith(".") and word.strip("."):
        return any(name.endswith((word, f"::{word[1:]}")) for name in index.fields)
    if word in PLACEHOLDERS or SYMBOLS.fullmatch(word) or NUMBER.fullmatch(word):
        return True
    if is_name(word, folder, index):
        return True
    value, dot, field = word.partition(".")
    return bool(dot) and is_word(value, folder, index) and is_word(f".{field}", folder, index)


def argument_known(word: str, program: str, folder: str, index: Index) -> bool:
    word = word.strip("[]")
    if word in PLACEHOLDERS or NUMBER.fullmatch(word) or REVISION.fullmatch(word) or BUILT_PATH.fullmatch(word):
        return True
    if word.startswith("-"):
        return bool(re.search(rf"(?<![\w-]){re.escape(word)}(?![\w-])", read(program)))
    if program.startswith("examples/"):
        return True
    if program == "tests/run":
        return word in index.parts
    if program in BUILT.values():
        return word in index.calls
    if program in ("tests/intake", "tests/counter"):
        return bool(re.search(rf"^    expect {re.escape(word)} ", read(program), re.M))
    if program == "tests/selftest":
        return f"tests/slips/{word}.edit" in index.paths
    return is_path(word, folder, index) or word in index.crates


def is_hall_command(words: list[str], program: str) -> bool:
    """A folder, and a command that the launcher's comment explains; its own words may be anything. The counter takes the folder alone."""
    if words[1].startswith("-"):
        return len(words) == 2 and words[1] in HALL_OPTIONS
    if len(words) == 2:
        return program == "counter"
    return bool(re.search(rf"^#   {re.escape(words[2])} ", read(program), re.M))


def is_command(words: list[str], folder: str, index: Index) -> bool:
    if words[0] == "rt":
        known = index.crates | PLACEHOLDERS | RT_OPTIONS.get(words[1], set())
        return words[1] in RT and all(word in known for word in words[2:])
    if words[0] in OUTSIDE:
        return all("/" not in w or w[0] == "-" or is_literal(w) or is_path(w, folder, index) for w in words)
    program = program_of(words[0], index)
    if program in HALLS and len(words) > 1:
        return is_hall_command(words, program)
    return bool(program) and all(argument_known(w, program, folder, index) for w in words[1:])


def resolves(text: str, folder: str, index: Index) -> bool:
    """Whether what stands in backquotes is known."""
    text = " ".join(text.split())
    if not text or is_literal(text):
        return bool(text)
    if CALLED.fullmatch(text):
        return is_call(text, index)
    words = text.split()
    if len(words) == 1:
        # `r.looks`: a field of an answer
        return is_name(text, folder, index) or (text.startswith("r.") and is_word(text[1:], folder, index))
    while len(words) > 1 and is_setting(words[0]):
        del words[0]
    if words[0] in COMMANDS or "/" in words[0]:
        return is_command(words, folder, index)
    formula = re.sub(r"[()\[\]{},;]", " ", text).split()
    return all(is_word(word, folder, index) for word in formula)
