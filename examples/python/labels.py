"""Labels from the counter, from Python: writes the one text of each label, or why it is refused.

usage: python3 examples/python/labels.py [--help | LABEL..]

    ./install target/installed
    python3 examples/python/labels.py 'gaaw2prcrs5lnvzv-iaauvacqkxe3v44w'

Without labels it takes some of its own, and also shows codes and the distance. The exit status is 1
where one of the labels that were given is refused, the library is missing, or the answers cannot be
written.
"""

from __future__ import annotations

import os
import sys

import iscc


def show(label: str) -> bool:
    """Writes the text of a label, or its refusal; whether it was accepted."""
    try:
        print(iscc.intake(label))
    except iscc.Refused as refused:
        print(f"{label!a}: {refused}")
        return False
    return True


def demonstrate() -> None:
    """Two spellings of one composite, its units, a distance and a refusal."""
    one = iscc.code("GAAW2PRCRS5LNVZV-IAAUVACQKXE3V44W")
    two = iscc.code("iscc:iaauvacqkxe3v44w-gaaw2prcrs5lnvzv")
    print(iscc.text(one))
    print("strict" if iscc.is_strict(iscc.text(one)) else "not strict")
    print("the same code" if one == two else "another code")
    print("units", *(iscc.text(unit) for unit in iscc.split(one)))
    far = iscc.distance(iscc.code("gaaaaaaaaa"), iscc.code("GAAP6-AAAAE"))
    print(f"distance {far.d} of {far.n} bits, ratio {far.ratio}")
    show("GAAW2PRCRS5LNVZ0")


def answer(labels: list[str]) -> int:
    """Writes all that is asked for; the exit status."""
    if labels == ["--help"]:
        print(__doc__, end="")
        return 0
    if not labels:
        demonstrate()
        return 0
    accepted = [show(label) for label in labels]
    return 0 if all(accepted) else 1


def main(labels: list[str]) -> int | str:
    """The exit status, or what is said on standard error with status 1."""
    if sys.stdout is None:
        return "cannot write: standard output is closed"
    try:
        status = answer(labels)
        sys.stdout.flush()
    except iscc.LibraryMissing as missing:
        return str(missing)
    except OSError as error:
        # What is still to be written goes nowhere, so that Python does not try again at its end.
        os.dup2(os.open(os.devnull, os.O_WRONLY), sys.stdout.fileno())
        return f"cannot write: {error.strerror}"
    return status


if __name__ == "__main__":
    sys.exit(main(sys.argv[1:]))
