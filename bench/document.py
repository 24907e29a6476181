"""Puts a made part into docs/BENCHMARKS.md, so that no figure there is written by hand.

usage: python3 bench/document.py NAME < PART

The part replaces what stands between the two marks of NAME, which is the script that made it, with the revision if it took one.
"""

import sys
from pathlib import Path

DOCUMENT = Path(__file__).resolve().parent.parent / "docs" / "BENCHMARKS.md"


class Fault(Exception):
    """What is wrong, in words for the reader."""


def replaced(document: str, name: str, part: str) -> str:
    """The document with the part between the marks of the name."""
    begin, end = (f"<!-- made by {name}: {which} -->\n" for which in ("begin", "end"))
    if document.count(begin) != 1 or document.count(end) != 1:
        raise Fault(f"the document has not just one pair of marks of {name}")
    head, rest = document.split(begin)
    if end not in rest:
        raise Fault(f"the marks of {name} are in the wrong order")
    if not part.strip():
        raise Fault(f"{name} made nothing")
    return head + begin + "\n" + part.strip() + "\n\n" + end + rest.split(end)[1]


def write(name: str, part: str, document: Path = DOCUMENT) -> None:
    document.write_text(replaced(document.read_text(), name, part))


def main() -> int:
    if len(sys.argv) != 2:
        print("usage: python3 bench/document.py NAME < PART", file=sys.stderr)
        return 2
    try:
        write(sys.argv[1], sys.stdin.read())
    except Fault as fault:
        print(f"bench/document.py: {fault}", file=sys.stderr)
        return 1
    return 0


if __name__ == "__main__":
    sys.exit(main())
