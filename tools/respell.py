#!/usr/bin/env python3
"""Brings the project's own names in definitions, proofs and contracts to snake case. Run once, at the top, after port.py.

Reads crates/*/specs, crates/*/proofs, the sources, the edits and the pages. A name that a script of the kit writes with a capital
behind an underscore (uint_Tells) stays. With --check it only tells which new names are there already in a file that has the old one.
"""
import collections
import glob
import re
import sys

# Where plain splitting would read badly, or would meet a name that means something else.
BY_NAME = {
    "all64Bits": "all_64_bits",
    "has64Bits": "has_64_bits",
    "is64Bits": "is_64_bits",
    "not64Bits": "not_64_bits",
    "cutAt0": "cut_at_0",
    "cutAt28": "cut_at_28",
    "cutAt29": "cut_at_29",
    "cutAt30": "cut_at_30",
    "cutAt54": "cut_at_54",
    "stoppedAt29": "stopped_at_29",
}

# Lemmas that would bear the name of a definition that stands in the same file: they get "-is" behind it.
LEMMAS = {
    "all_left": ["console"],
    "all_told": ["console", "loans", "log", "promotion"],
    "by_difference": ["loans"],
    "by_end": ["loans"],
    "fed_by": ["lines"],
    "in_order": ["loans"],
    "moved_on": ["console"],
    "not_register": ["log", "register"],
    "one_code": ["register"],
    "one_less": ["loans", "places"],
    "one_more": ["loans", "places"],
    "read_one": ["iscc", "composite", "loans", "unit"],
    "text_in": ["console"],
}

NAME = re.compile(r"(?<![A-Za-z0-9_'\"\\])[a-z][A-Za-z0-9_]*")


def respelled(name):
    if name in BY_NAME:
        return BY_NAME[name]
    if re.search(r"_[A-Z]", name):
        return name
    return re.sub(r"(?<=[a-z0-9])[A-Z]+", lambda m: "_" + m.group(0).lower(), name)


def lemmas(path, text):
    """The text of a proof file with the names of LEMMAS."""
    for name, crates in LEMMAS.items():
        if any(path.startswith(f"crates/{crate}/proofs/") for crate in crates):
            text = re.sub(rf"(?<![\w.:'-]){name}(?![\w'-])", f"{name}-is", text)
    return text


def files():
    for pattern in (
        "crates/*/specs/**/*.antt",
        "crates/*/proofs/**/*.antt",
        "crates/*/src/**/*.rt",
        "crates/*/must-fail/*.edit",
        "docs/*.md",
        "docs/trace/*.md",
        "README.md",
        "CONTRIBUTING.md",
    ):
        yield from sorted(glob.glob(pattern, recursive=True))


def defined():
    """The camel-case names that stand in definitions and proofs: only these are respelled, elsewhere too."""
    names = set()
    for path in files():
        if path.endswith(".antt"):
            for name in NAME.findall(open(path, encoding="utf-8").read()):
                if respelled(name) != name:
                    names.add(name)
    return names


def main():
    names = defined()
    met = collections.defaultdict(set)
    for path in files():
        old = open(path, encoding="utf-8").read()
        text = lemmas(path, old)
        here = set(NAME.findall(text))
        for name in here & names:
            if respelled(name) in here:
                met[name, respelled(name)].add(path)
        if "--check" not in sys.argv:
            new = NAME.sub(lambda m: respelled(m.group(0)) if m.group(0) in names else m.group(0), text)
            if new != old:
                open(path, "w", encoding="utf-8").write(new)
    for (old, new), paths in sorted(met.items()):
        print(f"{old} -> {new}: {len(paths)} files, as {sorted(paths)[0]}")
    both = collections.defaultdict(set)
    for name in names:
        both[respelled(name)].add(name)
    for new, olds in sorted(both.items()):
        if len(olds) > 1:
            print(f"two names: {' '.join(sorted(olds))} -> {new}")


main()
