"""Do these tests catch wrong programs? Each slip is a program that keeps a worse order, played by preload.c; and a lock that is none."""
import os

import crashes
import faults
import hall
import histories
import kills
from report import Report


def by_crashes(report, room, random, slip):
    crashes.run(report, room, random, {"random": 0, "long": False}, slip)


def by_kills(report, room, random, slip):
    hall.SLIP["SLIP"] = slip
    kills.run(report, room, random, {"kills": 200, "kinds": False})


def by_histories(report, room, random, slip):
    hall.SLIP["SLIP"] = slip
    histories.run(report, room, random, {"histories": 60, "kinds": False})


def by_case(*names):
    def tried(report, room, random, slip):
        hall.SLIP["SLIP"] = slip
        faults.run(report, room, random, names)
    return tried


def without_lock(report, room, random, slip):
    commands, path = room.folder(), os.environ["PATH"]
    with open(os.path.join(commands, "flock"), "w", encoding="ascii") as file:
        file.write("#!/bin/sh\nexit 0\n")
    os.chmod(file.name, 0o755)
    os.environ["PATH"] = commands + ":" + path
    faults.run(report, room, random, ["at_the_same_time"])
    os.environ["PATH"] = path


SLIPS = [
    ("log-not-synced", by_crashes, "a record is answered that is not synced"),
    ("start-not-synced", by_crashes, "a start answers from a log that is not synced"),
    ("file-not-synced", by_crashes, "the new register file is renamed and not synced"),
    ("folder-not-synced", by_crashes, "the folder is not synced behind a rename"),
    ("rename-first", by_crashes, "the new register file is renamed before it is synced"),
    ("in-place", by_crashes, "the register file is written over in its place"),
    ("answer-first", by_crashes, "a record is written behind its answer"),
    ("answer-first", by_kills, "the same, by kills"),
    ("lost-record", by_crashes, "a record is answered and never written"),
    ("lost-record", by_histories, "the same, by histories"),
    ("tear-stays", by_crashes, "a torn record is told and stays"),
    ("cut-too-far", by_crashes, "more is cut off than the torn record"),
    ("cut-too-far", by_histories, "the same, by histories"),
    ("failed-sync-passes", by_case("failing_sync"), "a sync that fails is passed over"),
    ("short-is-whole", by_case("no_space", "in_pieces"), "a write that took fewer bytes counts as whole"),
    ("failure-is-the-end", by_case("failing_read"), "a read that fails is taken for the end"),
    ("short-sight", by_histories, "the last bytes of a shipped log are not seen"),
    ("no-lock", without_lock, "a second program is let in"),
]


def try_none(report, room, make_random):
    """Where there is no slip, nothing is caught."""
    inner = Report(quiet=True)
    for tried in by_crashes, by_kills, by_histories, by_case("failing_sync", "no_space", "in_pieces", "failing_read", "at_the_same_time"):
        tried(inner, room, make_random(), "none")
        hall.SLIP.clear()
    report.check("no slip", [f"caught by {inner.first}"] if inner.failed else [])


def run(report, room, make_random):
    try_none(report, room, make_random)
    for slip, tried, words in SLIPS:
        inner = Report(quiet=True)
        tried(inner, room, make_random(), slip)
        hall.SLIP.clear()
        told = f"caught by {inner.first}" if inner.failed else ""
        report.check(f"slip {slip}, {words}", [] if inner.failed else ["it was not caught"], told)
