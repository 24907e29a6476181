"""Does the repository stand alone? No other paper, no path of a machine, no word of a workplace, nothing unfinished.

The script looks for its own patterns nowhere: this file and itself.py, which tries them, are left out.
"""
from __future__ import annotations

import os
import re
from collections.abc import Iterator

from .index import TOP, Index, read

# Between two words: blanks, the end of a line, and what starts a comment on the next.
GAP = r"[\s/#*-]+"
UNFINISHED = re.compile(r"@@|\b(?:TODO|FIXME|XXX)\b")
OTHER_PAPER = re.compile(rf"\b[Dd]ocuments?{GAP}0\d+\b|\b(?:as{GAP}in|see|of|by|from){GAP}0\d\d\b|\b0[12]'s\b")
# A step in tests/vectors/register.txt has such a word for its name, and is quoted.
WORKPLACE = re.compile(rf"\b(?!(?<=\")session\")(?:sessions?|helpers?|agents?|issues?{GAP}\d+)\b", re.I)
MACHINE = re.compile(r"(?<![\w.])/(?:usr/local|var/tmp|work|opt|tmp|home|root)\b")
# A script may name the folders that every system has.
OWN_MACHINE = re.compile(r"(?<![\w.])/(?:work|opt|home|root)\b")

IN_DOCUMENTS = (UNFINISHED, OTHER_PAPER, WORKPLACE, MACHINE)
IN_SOURCES = (OTHER_PAPER, WORKPLACE, OWN_MACHINE)
PATTERNS_THEMSELVES = {"tests/document_check/alone.py", "tests/document_check/itself.py"}
SOURCES = (".antt", ".rt", ".edit", ".rs", ".h", ".c", ".py", ".bash")


def findings(text: str, patterns: tuple[re.Pattern[str], ...]) -> Iterator[tuple[int, str]]:
    """What must not be said, with its line."""
    for pattern in patterns:
        for found in pattern.finditer(text):
            yield text.count("\n", 0, found.start()) + 1, " ".join(found.group(0).split())


def sources(index: Index) -> list[str]:
    """Every source and every script, but for the patterns above."""
    found = [p for p in index.paths if p.endswith(SOURCES) or is_script(p)]
    return sorted(set(found) - PATTERNS_THEMSELVES)


def is_script(path: str) -> bool:
    file = TOP / path
    return "." not in os.path.basename(path) and file.is_file() and os.access(file, os.X_OK)


# ---- what the sources take from the specification


def plain(text: str) -> str:
    """Words alone, without the marks of Markdown and the ends of lines."""
    return " ".join(re.sub(r"[`*]|\]\([^)]*\)|\[", "", text).split())


def passages(text: str) -> Iterator[tuple[int, str]]:
    """What stands in quotation marks in whole-line comments of a source; one may go over several lines."""
    lines = [re.match(r"\s*(?:--|//)(.*)", line) for line in text.split("\n")]
    said = "\n".join(found.group(1) if found else "\0" for found in lines)
    yield from quotations(said)


def quotations(text: str) -> Iterator[tuple[int, str]]:
    for found in re.finditer(r'"([^"\0]*)"', text):
        yield text.count("\n", 0, found.start()) + 1, plain(found.group(1))


def section(text: str, title: str) -> str:
    """A section of a page; what stands before it is left as blank lines."""
    found = re.search(rf"^## {re.escape(title)}\n(.*?)(?=^## |\Z)", text, re.M | re.S)
    return "\n" * text.count("\n", 0, found.start(1)) + found.group(1) if found else ""


def cited_titles(index: Index) -> Iterator[tuple[str, int, str]]:
    """Sections of the specification that sources cite, as in: the specification, "Meaning"."""
    form = re.compile(r"specification(?:\.md)?,? \"([^\"\n]+)\"", re.I)
    for path in sources(index):
        text = read(path)
        for found in form.finditer(text):
            yield path, text.count("\n", 0, found.start()) + 1, found.group(1)
