"""Calls that fail or do less, each by itself: the status, the plain sentence, and that nothing is lost."""
import errno
import os
import random as randomness

import damage
import hall
import model
import streams
from case import Case
from model import Change, Command, Register


# ---- no space, failing syncs and reads


def no_space(case):
    record = Change(case.free, 5).record(7)
    for space in range(len(record)):
        told = ["cannot write to the log: No space left on device"]
        case.counter(case.issue.words, 2, [], told, unchanged=False, alone=space % 9 > 0, SPACE=space)
        if hall.files_in(case.folder) != dict(case.before, log=case.log + record[:space]):
            case.faults.append(f"with space for {space} bytes the files are others")
        case.goes_on()
        case.restore()


def no_space_in_bulk(case):
    record = Change(case.free, 5).record(7)
    due = case.issue.serve(case.register())[0]
    stdin = hall.typed([case.issue, case.take, Command("sheet")])
    case.counter([], 2, due, ["cannot write to the log: No space left on device"], stdin=stdin, unchanged=False, SPACE=len(record) + 3)
    case.history.append(Change(case.free, 5))
    case.goes_on()


def no_space_for_a_snapshot(case):
    due = case.issue.serve(case.register())[0]
    case.counter(case.issue.words, 0, due, ["cannot write the new register file: No space left on device"], unchanged=False, SPACE=3000)
    if hall.files_in(case.folder)["register"] != case.saved:
        case.faults.append("the register file is changed")
    case.history.append(Change(case.free, 5))
    case.goes_on()


def no_space_elsewhere(case):
    told = ["cannot write the new register file: No space left on device"]
    case.counter(["rebuild"], 2, [], told, unchanged=False, SPACE=3000)
    case.goes_on()
    replica = Case(case.room, randomness.Random(1), {"register": case.saved})
    path = os.path.join(case.room.folder({"log": case.log}), "log")
    replica.standby(["replay", path], 2, [], told, unchanged=False, SPACE=3000)
    if hall.files_in(replica.folder)["register"] != case.saved:
        case.faults.append("the replica is changed")
    replica.standby(["replay", path], 0, [case.register().replayed()], [], unchanged=False)
    empty = Case(case.room, randomness.Random(1), {})
    empty.counter(["new"], 2, [], told, unchanged=False, SPACE=3000)
    empty.counter(["rebuild"], 0, [Register().replayed()], [], unchanged=False)
    case.faults += replica.faults + empty.faults


def failing_sync(case):
    change = Change(case.free, 5)
    case.counter(case.issue.words, 2, [], ["cannot sync the log: Input/output error"], SYNC_FAILS=1)
    case.counter(["sheet"], 2, [], ["cannot sync the log: Input/output error"], SYNC_FAILS=1)
    case.counter(case.issue.words, 2, [], ["cannot sync the log: Input/output error"], unchanged=False, SYNC_FAILS=2)
    case.goes_on(change)
    case.restore()
    stdin = hall.typed([Command("ask", case.out), case.issue, case.take])
    told = ["cannot sync the log: Input/output error"]
    case.counter([], 2, [case.register().ask(case.out)], told, stdin=stdin, unchanged=False, SYNC_FAILS=2)
    case.goes_on(change)


def failing_sync_of_a_cut(case):
    hall.fill(case.folder, {"log": case.log + b"\3\0\60\0\0"})
    case.counter(case.issue.words, 2, [], ["cannot cut off the torn record: Input/output error"], unchanged=False, SYNC_FAILS=2)
    case.goes_on()


def failing_sync_of_a_snapshot(case):
    due = case.issue.serve(case.register())[0]
    for n, told in (3, "cannot write the new register file: Input/output error"), (4, "cannot sync the folder: Input/output error"):
        case.counter(case.issue.words, 0, due, [told], unchanged=False, SYNC_FAILS=n)
        before = case.history
        case.history = before + [Change(case.free, 5)]
        case.goes_on()
        case.history = before
        case.restore()


def failing_sync_of_a_new_folder(case):
    error = ": Input/output error"
    told = [["cannot make the log"], ["cannot sync the folder", "cannot make the log"], ["cannot write the new register file"],
            ["cannot sync the folder"]]
    for n, sentences in enumerate(told, 1):
        case.counter(["new"], 2, [], [sentence + error for sentence in sentences], unchanged=False, SYNC_FAILS=n)
        if "register" not in hall.files_in(case.folder):
            case.counter(["rebuild"], 0, [Register().replayed()], [], unchanged=False)
        case.counter(["sheet"], 0, Register().sheet(), [], unchanged=False)
        case.restore()


def failing_read(case):
    first = True
    for n in range(1, 20):
        ran = hall.launched("counter", case.folder, case.issue.words, READ_FAILS=n)
        if ran.status == 0:
            break
        told = "register" if first else "log"
        if ran.err == ["counter: cannot read the log: Input/output error"] and first:
            first, told = False, "log"
        case.expect(f"the {n}-th read fails", ran, 2, [], [f"counter: cannot read the {told}: Input/output error"])
    if n < 4 or first:
        case.faults.append(f"only {n - 1} reads")
    case.restore()
    for words in ["sheet"], ["rebuild"], ["new"]:
        case.counter(words, 2, [], ["cannot read the "], READ_FAILS=1)
    path = os.path.join(case.room.folder({"log": case.log}), "log")
    for words in ["replay", path], ["promote", path], ["ask", case.out.text]:
        case.standby(words, 2, [], ["cannot read the register: Input/output error"], READ_FAILS=1)
    for words in ["replay", path], ["promote", path]:
        case.standby(words, 2, [], ["cannot read the log: Input/output error"], READ_FAILS=3)


# ---- short and interrupted calls


def in_pieces(case):
    """The same answers and the same files, however small the pieces."""
    commands = [case.issue, case.take, Command("sheet"), Command("ask", case.free), Command("return", case.free), case.issue]
    register, answers, changes = case.register(), [], []
    for command in commands:
        lines, change = command.serve(register)
        answers += lines
        changes += [change] if change else []
        if change:
            register.do(change)
    log = model.log_of(case.history + changes)
    for faults in [{}, {"STEP": 1}, {"STEP": 7}, {"STEP": 4096}, {"INTERRUPT": 2}, {"INTERRUPT": 3}, {"STEP": 5, "INTERRUPT": 3}]:
        case.counter([], 0, answers, [], stdin=hall.typed(commands), unchanged=False, **faults)
        if hall.files_in(case.folder) != {"register": register.bytes(), "log": log}:
            case.faults.append(f"{faults}: the files are others")
        replica = case.room.folder()
        path = os.path.join(case.folder, "log")
        for words, due in (["replay", path], register.replayed()), (["promote", path], "yes: this replica may be promoted"):
            ran = hall.launched("standby", replica, words, **faults)
            if ran.status != 0 or ran.out != [due] or ran.err:
                case.faults.append(f"standby {words[0]} {faults}: {ran}")
        case.restore()


# ---- what may not be written or read, or is not there


def read_only(case):
    for error, told in (errno.EROFS, "Read-only file system"), (errno.EACCES, "Permission denied"):
        case.counter(case.issue.words, 2, [], [f"cannot open the log: {told}"], DENY=error)
        case.counter([], 2, [], [f"cannot open the log: {told}"], DENY=error)
        case.counter(["sheet"], 0, case.register().sheet(), [], DENY=error)
        case.counter(["ask", case.out.text], 0, [case.register().ask(case.out)], [], DENY=error)
        case.counter(["rebuild"], 2, [], [f"cannot write the new register file: {told}"], DENY=error)
        path = os.path.join(case.room.folder({"log": case.log}), "log")
        case.standby(["replay", path], 2, [], [f"cannot write the new register file: {told}"], DENY=error)
        empty = Case(case.room, randomness.Random(1), {})
        empty.counter(["new"], 2, [], [f"cannot make the log: {told}"], DENY=error)
        case.faults += empty.faults




CASES = [
    no_space, no_space_in_bulk, no_space_for_a_snapshot, no_space_elsewhere, failing_sync, failing_sync_of_a_cut,
    failing_sync_of_a_snapshot, failing_sync_of_a_new_folder, failing_read, in_pieces, read_only,
]
MANY = {no_space_for_a_snapshot, failing_sync_of_a_snapshot, in_pieces}
EMPTY = {failing_sync_of_a_new_folder}


def run(report, room, random, only=()):
    """All cases, or those of these names."""
    for function in CASES + streams.CASES + damage.CASES:
        if only and function.__name__ not in only:
            continue
        case = Case(room, random, {} if function in EMPTY else None, function in MANY)
        if function.__code__.co_argcount == 2:
            function(case, random)
        else:
            function(case)
        report.check(f"faults, {function.__name__.replace('_', ' ')}", case.faults)
