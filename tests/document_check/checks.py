"""The checks of one document, and of all together."""
from __future__ import annotations

import re
import subprocess
from dataclasses import dataclass
from pathlib import Path

from .alone import IN_DOCUMENTS, IN_SOURCES, cited_titles, findings, passages, plain, quotations, section, sources
from .index import Index, read
from .names import BASES, is_edit, is_literal, is_path, resolves
from .pages import (
    Document,
    bare_paths,
    column,
    commands,
    link_leads,
    links,
    other_links,
    placed,
    quoted,
    without_file,
)

WORDS = {"README.md": 90}
TABLE_ROW = 110
SPECIFICATION = "docs/SPECIFICATION.md"


@dataclass
class Tally:
    """Facts are gathered under a title, which counts as one check that passed; each fact that fails counts by itself."""

    passed: int = 0
    failed: int = 0
    facts: int = 0
    wrong: int = 0

    def check(self, holds: bool, message: str) -> None:
        self.facts += 1
        if not holds:
            self.wrong += 1
            print(message)

    def close(self, title: str) -> None:
        if self.facts and not self.wrong:
            self.passed += 1
            print(f"ok {title}: {self.facts} facts")
        elif not self.facts:
            self.wrong = 1
            print(f"{title}: nothing was found to check")
        self.failed += self.wrong
        self.facts = self.wrong = 0


def too_wide(document: Document) -> list[int]:
    """The numbers of the lines that do not fit."""
    limit = WORDS.get(document.path, 100)
    wide = []
    for number, line in enumerate(document.lines, 1):
        most = TABLE_ROW if line.startswith("|") else limit
        if len(line) > most:
            wide.append(number)
    return wide


def check_alone(document: Document, tally: Tally) -> None:
    """Every document can be read with nothing but the repository at hand, and is finished."""
    for number, words in findings("\n".join(document.lines), IN_DOCUMENTS):
        tally.check(False, f"{document.path}:{number}: {words} has no place in the repository")
    tally.facts += 1


def check_width(document: Document, tally: Tally) -> None:
    wide = too_wide(document)
    for number in wide:
        tally.check(False, f"{document.path}:{number}: {len(document.lines[number - 1])} characters in a line")
    tally.facts += 1


def check_names(document: Document, index: Index, tally: Tally) -> None:
    for number, name in quoted(document):
        known = resolves(name, document.folder, index)
        tally.check(known, f"{document.path}:{number}: nothing is called `{' '.join(name.split())}`")
    for number, name, file in placed(document):
        stands = any((base + file, name) in index.in_files for base in BASES)
        tally.check(stands, f"{document.path}:{number}: `{name}` does not stand in {file}")
    for number, path in bare_paths(document, index):
        known = is_literal(path) or is_path(path, document.folder, index) or is_edit(path, index)
        tally.check(known, f"{document.path}:{number}: there is no {path}")
    for number, command in commands(document, index):
        known = resolves(command, document.folder, index)
        tally.check(known, f"{document.path}:{number}: there is no command {command}")


def check_links(document: Document, index: Index, tally: Tally) -> None:
    for number, target in links(document):
        leads = link_leads(target, document, index)
        tally.check(leads, f"{document.path}:{number}: the link {target} leads nowhere")
    for number, words in other_links(document):
        tally.check(False, f"{document.path}:{number}: {words} is no link of the form [words](target)")


def check_document(document: Document, index: Index, tally: Tally) -> None:
    check_names(document, index, tally)
    if document.path.endswith(".h"):
        return
    check_links(document, index, tally)
    check_width(document, tally)
    check_alone(document, tally)
    if document.path.startswith("docs/trace/"):
        check_homes(document, index, tally)


# ---- the trace and the contracts


def names_under(folder: str, index: Index) -> set[str]:
    """Names that stand in a file of this folder, as name, as File.name, and with their fields as Record.field."""
    inside = [(Path(path).stem, name) for path, name in index.in_files if path.startswith(folder)]
    return {name for _, name in inside} | {f"{stem}.{name}" for stem, name in inside}


# The crate that a page speaks of if it is not iscc, as docs/TRACE.md says.
HOMES = {f"docs/trace/{page}.md": "loans" for page in ("register", "log", "promotion")}


def check_homes(document: Document, index: Index, tally: Tally) -> None:
    """docs/TRACE.md says in which folder laws and definitions stand if no file is named."""
    laws = [*without_file(document, "Proof"), *column(document, "law")]
    definitions = list(without_file(document, "Definition"))
    home = f"crates/{HOMES.get(document.path, 'iscc')}"
    for folder, said in ((f"{home}/proofs/", laws), (f"{home}/specs/", definitions)):
        known = index.crates | names_under(folder, index)
        for number, name in said:
            message = f"`{name}` does not stand in {folder}, and no file is named"
            tally.check(name in known, f"{document.path}:{number}: {message}")


# The records that the trace owes each field of: their file, their names, and how many fields they have at least.
PROMISES = {
    "crates/iscc/specs/Demands.antt": (r"Demand[123]\.", 42),
    "crates/iscc/specs/WideComposites.antt": (r"\w+\.", 22),
    "crates/loans/specs/Promises.antt": (r"\w+\.", 29),
    "crates/loans/specs/OrderPromises.antt": (r"\w+\.", 26),
    "crates/loans/specs/CountPromises.antt": (r"\w+\.", 9),
    "crates/loans/specs/Good.antt": (r"Sound\.", 4),
    "crates/loans/specs/LogPromises.antt": (r"\w+\.", 16),
    "crates/loans/specs/NumberPromises.antt": (r"\w+\.", 5),
    "crates/loans/specs/Tears.antt": (r"(Tears|TornOff)\.", 6),
    "crates/loans/specs/LogOrder.antt": (r"StopTold\.", 5),
    "crates/loans/specs/Writer.antt": (r"Appended\.", 5),
    "crates/loans/specs/WideLoans.antt": (r"\w+\.", 4),
    "crates/loans/specs/PromotionPromises.antt": (r"\w+\.", 36),
    "crates/console/specs/Promotion.antt": (r"ConsolePromotion\.", 7),
    "crates/answers/specs/AnswerPromises.antt": (r"AnswerLines\.", 8),
    "crates/hall/specs/ServingPromises.antt": (r"CounterServes\.", 3),
    "crates/recovery/specs/Pieces.antt": (r"InPieces\.", 3),
    "crates/recovery/specs/Recovery.antt": (r"(Recovery|HallPromises)\.", 9),
}


def fields_in(path: str, form: str, index: Index) -> set[str]:
    return {name for file, name in index.in_files if file == path and "." in name and re.match(form, name)}


def check_trace(opened: list[Document], index: Index, tally: Tally) -> None:
    """Nothing that the trace owes is left out of it."""
    pages = [d for d in opened if d.path.startswith("docs/trace/")]
    named = {n for d in pages for _, n in quoted(d)}
    laws = [law for d in pages for law in (*without_file(d, "Proof"), *column(d, "law"))]
    tally.check(len(laws) > 40, "docs/trace: its laws were not found")
    owed = set(index.edits)
    for path, (form, least) in PROMISES.items():
        fields = fields_in(path, form, index)
        tally.check(len(fields) >= least, f"{path}: its {least} fields or more were not found")
        owed |= fields
    for name in sorted(owed):
        tally.check(name in named, f"docs/trace: nothing names `{name}`")


def wrong_programs(document: Document) -> dict[str, int]:
    """For each third heading of docs/CONTRACTS.md, how many edits stand under it."""
    counts: dict[str, int] = {}
    call = ""
    for line in document.prose:
        if line.startswith("#"):
            call = line[4:] if line.startswith("### ") else ""
            counts.update({call: 0} if call else {})
        elif call:
            counts[call] += len(re.findall(r"`\w+/\w+`", line))
    return counts


def check_contracts(document: Document, tally: Tally) -> None:
    counts = wrong_programs(document)
    tally.check(len(counts) > 20, f"{document.path}: its calls were not found")
    for call, count in counts.items():
        tally.check(count >= 2, f"{document.path}: {call} has {count} wrong programs")


# ---- the repository as a whole


def check_titles(index: Index, tally: Tally) -> None:
    titles = set(re.findall(r"^#+ (.*)$", read(SPECIFICATION), re.M))
    for path, number, title in cited_titles(index):
        tally.check(title in titles, f"{path}:{number}: the specification has no section \"{title}\"")


def check_passages(index: Index, tally: Tally) -> None:
    """What sources of the crates, and the readings, have in quotation marks stands in the specification."""
    page = plain(read(SPECIFICATION))
    said = [(p, *found) for p in sources(index) if p.endswith((".antt", ".rt")) for found in passages(read(p))]
    readings = section(read("docs/DECISIONS.md"), "Readings")
    tally.check(bool(readings), "docs/DECISIONS.md: its readings were not found")
    said += [("docs/DECISIONS.md", *found) for found in quotations(readings)]
    for path, number, words in said:
        tally.check(words in page, f"{path}:{number}: the specification does not say \"{words}\"")


def check_sources(index: Index, tally: Tally) -> None:
    for path in sources(index):
        found = [f"{path}:{number}: {words}" for number, words in findings(read(path), IN_SOURCES)]
        tally.check(not found, "\n".join(f"{line} has no place in the repository" for line in found))


def check_crates(index: Index, tally: Tally) -> None:
    folders = {p.split("/")[1] for p in index.paths if p.startswith("crates/")}
    for crate in sorted(folders | index.crates):
        both = crate in folders and crate in index.crates
        tally.check(both, f"crates.txt and crates/ do not agree on {crate}")


# The specification's section with the table of numbers, and those that concern programs alone.
NUMBERS = "Numbers of refusal and their order"
FOR_PROGRAMS = range(15, 20)


def check_readme(document: Document, tally: Tally) -> None:
    """The toolchain is that of this machine, and the clerk's tables have each number once."""
    used = [subprocess.run(["rt", "version"], capture_output=True, text=True, check=True).stdout.strip()]
    told = [line.strip() for _, line in document.code if line.strip().startswith("rattle-")]
    tally.check(told == used, f"{document.path}: it names {told}, and rt version prints {used}")
    owed = [number for number in refusal_rows(section(read(SPECIFICATION), NUMBERS)) if number not in FOR_PROGRAMS]
    tally.check(len(owed) > 23, f"{SPECIFICATION}: its numbers of refusal were not found")
    rows = refusal_rows("\n".join(document.prose))
    for number in owed:
        count = rows.count(number)
        tally.check(count == 1, f"{document.path}: the refusal {number} has {count} rows in the tables")


def refusal_rows(text: str) -> list[int]:
    return [int(row) for row in re.findall(r"^\| (\d+) \|", text, re.M)]
