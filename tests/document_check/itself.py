"""Does the check of documents notice anything?"""
from __future__ import annotations

from .alone import IN_DOCUMENTS, IN_SOURCES, findings, passages
from .checks import Tally, fields_in, names_under, refusal_rows, too_wide
from .index import Index
from .names import resolves
from .pages import Document, anchors, column, commands, link_leads, links, other_links, placed, split_code, without_file

KNOWN = [
    "iscc/refusal_number", "header/*", "Demand1.count_over", "decode-encode", "accept", "HeaderTests", "Table.entry",
    "base32::reader::read", "base32::reader::read(text, out)", "MainType::try_from", "Register::from_bytes", "code::write_list",
    "iscc/specs/Meaning.antt", "Doors.antt", "intake.tsv", "lines_NN.in", "tests/slips", "iscc_intake",
    "ISCC_TEXT_AREA", "--help", "RT_JOBS=1 rt ci", "compare intake", "rt check NAME", "55 00",
    "r ≡ header_read_as (read_header bytes)", "iscc:maagztfqttvizpjr", "GAAW2PRCRS5LNVZV",
    "./counter DIR ask TEXT", "./counter DIR", "./standby /srv/x promote LOG", "./standby --help", "tests/counter ask",
]
UNKNOWN = [
    "iscc/refusal_numbers", "nowhere/*", "iscc/*_nothing", "Demand1.count_under", "Demand2.count_over", "decode-encoded",
    "HeaderTest", "base32::reader::reads", "base32::reader::read(out, text)", "base32::reader::read(text)",
    "MainType::from_nothing", "header::reader::first_bad", "code::write_lists", "iscc/specs/Meanings.antt", "Door.antt",
    "outtake.tsv", "line_NN.in", "tests/slip", "iscc_outtake", "ISCC_TEXT_AREAS", "compare outtake", "rt develop NAME",
    "rt check nothing", "tests/run --sideways", "tests/run sideways", "r ≡ header_read_as (read_headers bytes)",
    "r .sideways", "--sideways", "antt", "eader", "tests/intake full_disks", "tests/counter register_behind",
    "./counter DIR lend TEXT", "./standby DIR", "./counter --words", "tests/run/", "Demand3.meant", "count_over",
    "Table.set-back", "base32-back-again", "RT_JOBS=1 rt nothing", "nosuchlawname2", "nosuchlawname22222",
]
# In any document, and nowhere in it.
NOT_SAID = [
    "@@", "TODO: more", "a FIXME", "as in 003", "Documents 004 and 006", "as\nin 003", "under /usr/local", "/opt/x",
    "/var/tmp", "(/work)", "a session", '"sessions"', '"a session"', "Helpers", "issue 14", "Issue #14", "an agent",
]
SAID = [
    "pending issues", "the issues log", "issue(label, out)", "a document of 100 lines", "of 1,004 bytes", "80 00 01",
    "home/root", "tests/work", '"session"',
]
NO_LINKS = ["[a][b]", "[b]: page.md", '[a](page.md "title")', "[a](<page.md>)", "<a href=page.md>", "[a][]"]
COMMANDS = [
    "RT_JOBS=1 rt ci", "tests/run vectors  one part", "echo x | ./intake >out", "rt check unit --allow-holes", "tests/vectors",
]
NO_COMMANDS = [
    "rt develop unit", "tests/run sideways  one part", "echo x | ./outtake", "rt fmt --allow-holes", "tests/sideways",
    ".ci/runs",
]
ITEM = """- Proof: `a`, `b` and
  `c` (`x/y.antt`); `d`,
  `x/z.antt`.
- Tests: `e`.

| k | law |
|---|---|
| `f` | `g` |
"""


def page(text: str) -> Document:
    lines = text.split("\n")
    return Document("docs/page.md", lines, *split_code(lines))


def check_itself(index: Index, tally: Tally) -> None:
    """Wrong names, links, words and lines must be told from right ones, or nothing above says anything."""
    for name in KNOWN:
        tally.check(resolves(name, "docs", index), f"tests/documents does not know `{name}`")
    for name in UNKNOWN:
        tally.check(not resolves(name, "docs", index), f"tests/documents takes `{name}` for a name")
    for words in NOT_SAID:
        tally.check(any(findings(words, IN_DOCUMENTS)), f"tests/documents lets a document say {words}")
    for words in SAID:
        tally.check(not any(findings(words, IN_DOCUMENTS)), f"tests/documents lets no document say {words}")
    tally.check(any(findings("-- as in\n-- 003", IN_SOURCES)), "tests/documents: words over two lines of a comment")
    check_pages(index, tally)
    check_lists(index, tally)


def check_pages(index: Index, tally: Tally) -> None:
    """Headings, links, commands and widths."""
    whole = page("# One  title: `here`\n# One title\n\n" + "x" * 101 + "\n| " + "x" * 109 + "\n\n    # code")
    tally.check(anchors(whole.lines) == {"one--title-here", "one-title"}, "tests/documents: anchors of headings")
    tally.check(link_leads("#one-title", whole, index), "tests/documents: a right anchor is refused")
    tally.check(not link_leads("#one-titles", whole, index), "tests/documents: a wrong anchor is taken")
    tally.check(not link_leads("nowhere.md", whole, index), "tests/documents: a wrong link is taken")
    tally.check(too_wide(whole) == [4, 5], "tests/documents: wide lines")
    for words in NO_LINKS:
        tally.check(len(list(other_links(page(words)))) == 1, f"tests/documents takes {words} for a link that it looks at")
    plain = page("`[a][b]` and [a](page.md) or\n[a `b`](page.md#c)")
    tally.check(not any(other_links(plain)), "tests/documents: a plain link is refused")
    tally.check(list(links(plain)) == [(1, "page.md"), (2, "page.md#c")], "tests/documents: links are not found")
    for words in COMMANDS + NO_COMMANDS:
        found = [command for _, command in commands(page(f"\n    {words}"), index)]
        known = all(resolves(command, "docs", index) for command in found)
        tally.check(known == (words in COMMANDS), f"tests/documents does not judge the command {words}")


def check_lists(index: Index, tally: Tally) -> None:
    """Names with a file behind them, and names that need none; what is quoted; rows of a table."""
    item = page(ITEM)
    named = [(1, "a", "x/y.antt"), (1, "b", "x/y.antt"), (2, "c", "x/y.antt")]
    tally.check(list(placed(item)) == named, "tests/documents: a list of names with a file")
    tally.check(list(without_file(item, "Proof")) == [(2, "d")], "tests/documents: names without a file")
    tally.check(list(column(item, "law")) == [(8, "g")], "tests/documents: the laws of a table")
    laws = names_under("crates/iscc/proofs/", index)
    tally.check({"decode-encode", "Table.entry"} <= laws and "any-cut" not in laws, "tests/documents: where a law stands")
    # Three records are called Sound, each in its own file.
    promised = names_under("crates/loans/specs/", index)
    apart = {"Sound.again", "LoansRegister.kept"} <= promised and not {"Sound.count", "Demand1.countOver"} & promised
    tally.check(apart, "tests/documents: where a definition stands")
    fields = fields_in("crates/loans/specs/Good.antt", r"Sound\.", index)
    tally.check(fields == {f"Sound.{name}" for name in ("valid", "back", "good", "again")}, "tests/documents: fields of a file")
    comment = '-- "two\n-- words", then\ncode "no"\n-- "and more"'
    tally.check(list(passages(comment)) == [(1, "two words"), (4, "and more")], "tests/documents: what is quoted")
    tally.check(refusal_rows("| 1 | a |\n| 12 | b |\n| no | c |") == [1, 12], "tests/documents: rows of refusals")
