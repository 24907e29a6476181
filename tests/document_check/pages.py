"""What a document says: its prose, its code blocks, what stands in backquotes, its links."""
from __future__ import annotations

import os
import re
from collections.abc import Iterator
from dataclasses import dataclass

from .index import HEADERS, Index, program_of, read

# What a line of a code block starts with if it is a command of the repository.
OWN_COMMAND = re.compile(r"\./\w|(?:tests|bench|\.ci)/\w")
PLAIN_LINK = re.compile(r"\]\(\s*([^()\s<>]+)\s*\)")
OTHER_LINK = re.compile(r"\]\([^)]*\)?|\]\[[^\]]*\]|^ {0,3}\[[^\]]+\]:.*|<a\b.*|\bhref=.*", re.M)
TOP_FOLDERS = ("docs", "tests", "crates", "include", "examples", "bench", ".ci")


@dataclass
class Document:
    """A document with its code blocks taken out; lines keep their numbers."""

    path: str
    lines: list[str]
    prose: list[str]
    code: list[tuple[int, str]]

    @property
    def folder(self) -> str:
        return os.path.dirname(self.path)


def split_code(lines: list[str]) -> tuple[list[str], list[tuple[int, str]]]:
    """Prose with code blocks blanked, and the code blocks' lines with their numbers."""
    prose: list[str] = []
    code: list[tuple[int, str]] = []
    fence = ""
    indented = False
    before = ""
    for number, line in enumerate(lines, 1):
        mark = re.match(r"^ *(```+|~~~+)", line)
        if not fence:
            indented = line.startswith("    ") and (indented or not before.strip())
        taken = bool(fence) or bool(mark) or indented
        if mark and (not fence or line.strip().startswith(fence)):
            fence = "" if fence else mark.group(1)
        if taken:
            code.append((number, line))
        prose.append("" if taken else line)
        before = line
    return prose, code


def open_document(path: str) -> Document:
    text = read(path)
    if path.endswith(".h"):
        comments = re.sub(r"/\*.*?\*/", lambda m: m.group(0).replace("\n", "\0"), text, flags=re.S)
        kept = re.findall(r"/\*.*?\*/|\n", comments)
        text = "".join(kept).replace("\0", "\n")
        lines = [line.strip(" */") for line in text.split("\n")]
        return Document(path, lines, lines, [])
    lines = text.splitlines()
    prose, code = split_code(lines)
    return Document(path, lines, prose, code)


# Notes of past landings, of the port, of the design pass and of the look back at it stay as they landed: they speak of their time, and
# names may be gone. A landing adds the note before its own.
LANDED = ("ground", "friendly", *"abcdefgh", "halls", "port")
PAST = {"docs/PORT.md", "docs/DESIGN-PASS.md", "docs/LOOK-BACK.md", *(f"docs/landings/{name}.md" for name in LANDED)}


def documents(index: Index) -> list[str]:
    found = [p for p in ("README.md", "CONTRIBUTING.md", *HEADERS) if p in index.paths]
    return found + sorted(p for p in index.paths - PAST if re.match(r"(docs|tests)/.*\.md$", p))


def paragraphs(lines: list[str]) -> Iterator[tuple[int, str]]:
    """Runs of lines between blank ones, with the number of the first; a row of a table is one of its own."""
    start = 0
    held: list[str] = []
    for number, line in enumerate([*lines, ""], 1):
        row = line.lstrip().startswith("|")
        if held and (row or not line.strip()):
            yield start, "\n".join(held)
            held = []
        if row:
            yield number, line
        elif line.strip():
            start = start if held else number
            held.append(line)


def quoted(document: Document) -> Iterator[tuple[int, str]]:
    """What stands in backquotes, with its line."""
    for start, text in paragraphs(document.prose):
        if text.count("`") % 2:
            yield start, f"{text.splitlines()[0]} .. (a backquote has no partner)"
            continue
        for found in re.finditer(r"`([^`]+)`", text):
            yield start + text.count("\n", 0, found.start()), found.group(1)


# A name, or a list of names, with the file behind it in brackets that it is said to stand in.
LISTED = re.compile(r"((?:`[^`/]+`(?:,|,? and)\s+)*`[^`/]+`)\s+\(`([^`]+\.antt)`\)")


def placed(document: Document) -> Iterator[tuple[int, str, str]]:
    """Each name that has a file behind it, or behind the list that it stands in."""
    for start, text in paragraphs(document.prose):
        for found in LISTED.finditer(text):
            for name in re.finditer(r"`([^`]+)`", found.group(1)):
                yield start + text.count("\n", 0, found.start() + name.start()), name.group(1), found.group(2)


def without_file(document: Document, label: str) -> Iterator[tuple[int, str]]:
    """Names in the items `- LABEL: ..` of a page that no file stands behind; paths are left out."""
    for start, text in paragraphs(document.prose):
        for item in re.finditer(rf"^- {label}:(.*?)(?=^- |\Z)", text, re.M | re.S):
            said = LISTED.sub(lambda found: re.sub(r"[^\n]", " ", found.group(0)), item.group(1))
            first = start + text.count("\n", 0, item.start(1))
            for name in re.finditer(r"`([^`]+)`", said):
                if "/" not in name.group(1) and not name.group(1).endswith(".antt"):
                    yield first + said.count("\n", 0, name.start()), name.group(1)


def column(document: Document, title: str) -> Iterator[tuple[int, str]]:
    """Names in the column of this title, of each table that has one."""
    at = -1
    for number, line in enumerate(document.prose, 1):
        cells = [cell.strip() for cell in line.split("|")] if line.startswith("|") else []
        if title in cells:
            at = cells.index(title)
        elif not cells:
            at = -1
        elif at > 0:
            yield from ((number, name) for name in re.findall(r"`([^`]+)`", cells[at]))


def commands(document: Document, index: Index) -> Iterator[tuple[int, str]]:
    """Commands of the repository and of rt in code blocks; two blanks part a command from its explanation."""
    for number, line in document.code:
        said = re.split(r" {2,}", line.strip())[0]
        for piece in re.split(r" (?:\|\|?|&&|;) ", said):
            command = re.sub(r" \d?[<>].*", "", piece)
            first = re.sub(r"^(?:[A-Z_]+=\S* )+", "", command).split(" ")[0]
            if first == "rt" or (OWN_COMMAND.match(first) and not is_listed(first, index)):
                yield number, command


def is_listed(first: str, index: Index) -> bool:
    """A folder or a file that is no command, as a code block may list them."""
    return first.rstrip("/") in index.paths and not program_of(first, index)


def bare_paths(document: Document, index: Index) -> Iterator[tuple[int, str]]:
    """Paths and edits outside backquotes, and paths in code blocks."""
    tops = "|".join(re.escape(f) for f in (*TOP_FOLDERS, *sorted(index.crates)))
    form = re.compile(rf"(?<![\w/.:`#=-])((?:{tops})/[\w./*-]*\w)")
    for number, line in enumerate(document.prose, 1):
        plain = re.sub(r"\]\([^)]*\)|https?://\S+", " ", re.sub(r"`[^`]*`", " ", line))
        yield from ((number, found) for found in form.findall(plain))
    folders = re.compile(rf"(?<!\S)(?:\./)?((?:{'|'.join(re.escape(f) for f in TOP_FOLDERS)})/[\w./-]*\w)")
    for number, line in document.code:
        yield from ((number, found) for found in folders.findall(line))


def anchors(lines: list[str]) -> set[str]:
    """The anchors that a page of Markdown gives its headings."""
    found: set[str] = set()
    for line in split_code(lines)[0]:
        heading = re.match(r"^#{1,6} +(.*?)[ #]*$", line)
        if not heading:
            continue
        words = re.sub(r"\[([^\]]*)\]\([^)]*\)", r"\1", heading.group(1)).lower()
        anchor = plain = re.sub(r"[^\w\- ]", "", words).replace(" ", "-")
        count = 0
        while anchor in found:
            count += 1
            anchor = f"{plain}-{count}"
        found.add(anchor)
    return found


def link_leads(target: str, document: Document, index: Index) -> bool:
    path, _, anchor = target.partition("#")
    if not path:
        return anchor in anchors(document.lines)
    file = os.path.normpath(os.path.join(document.folder, path))
    if file not in index.paths:
        return False
    return not anchor or anchor in anchors(read(file).splitlines())


def without_code(text: str) -> str:
    """The text with what stands in backquotes blanked; lines keep their numbers."""
    return re.sub(r"`[^`]*`", lambda found: re.sub(r"[^\n]", " ", found.group(0)), text)


def links(document: Document) -> Iterator[tuple[int, str]]:
    for start, text in paragraphs(document.prose):
        said = without_code(text)
        for found in PLAIN_LINK.finditer(said):
            if not re.match(r"[a-z]+:", found.group(1)):
                yield start + said.count("\n", 0, found.start()), found.group(1)


def other_links(document: Document) -> Iterator[tuple[int, str]]:
    """Links in any other form than [words](target): nothing looks where these lead, so they are refused."""
    for start, text in paragraphs(document.prose):
        said = PLAIN_LINK.sub(lambda found: "\n" * found.group(0).count("\n"), without_code(text))
        for found in OTHER_LINK.finditer(said):
            yield start + said.count("\n", 0, found.start()), " ".join(found.group(0).split())
