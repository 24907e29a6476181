"""Files that are missing, damaged, full or long, and lines of any length: each is told, and no file is changed that should not be."""
import os

import hall
import model
from model import Change, Register

DAMAGED = "refused " + model.words_of(23)


def missing(case):
    none = "there is no register: rebuild makes it from the log, new begins a register and a log"
    for words in ["sheet"], case.issue.words, []:
        case.before = {}
        case.restore()
        case.counter(words, 2, [], [none])
        case.before = {"register": case.saved}
        case.restore()
        case.counter(words, 2, [], ["cannot open the log: No such file or directory"])
        case.before = {"log": case.log}
        case.restore()
        case.counter(words, 2, [], [none])
    case.counter(["new"], 1, ["refused: There is a log already: rebuild makes its register."], [])
    case.counter(["rebuild"], 0, [case.register().replayed()], [], unchanged=False)
    case.goes_on()
    case.before = {}
    case.restore()
    case.counter(["rebuild"], 2, [], ["cannot open the log: No such file or directory"])
    case.standby(["ask", case.out.text], 2, [], ["there is no replica yet: replay makes it"])
    case.standby(["promote", "/none"], 2, [], ["there is no replica yet: replay makes it"])
    case.standby(["replay", "/none"], 2, [], ["cannot open the log: No such file or directory"])



def damaged_register(case, random):
    register, good = case.register(), case.register().bytes()
    used = 16 + model.PLACE_BYTES * len(register.loans)
    spots = list(range(16)) + [random.randrange(16, used) for _ in range(4)] + [random.randrange(used, len(good) - 4) for _ in range(4)]
    damaged = [b"", good[:-1], good + b"\0", good[:16], b"\xff" * len(good)]
    for spot in spots:
        # Another borrower, or another code of the same kind, is a register still.
        if spot < 16 or spot >= used or (spot - 16) % model.PLACE_BYTES in (0, 1, 2, 43):
            damaged.append(good[:spot] + bytes([good[spot] ^ 0x81]) + good[spot + 1 :])
    for data in damaged:
        case.before = {"register": data, "log": case.log}
        case.restore()
        for words in ["sheet"], case.issue.words, ["ask", case.out.text], []:
            case.counter(words, 2, [], [DAMAGED], alone=words != ["sheet"])
        path = os.path.join(case.room.folder({"log": case.log}), "log")
        case.standby(["promote", path], 1, ["no " + model.words_of(23)], [])
        case.standby(["replay", path], 1, [DAMAGED], [])
        case.standby(["ask", case.out.text], 1, [DAMAGED], [])
        case.counter(["rebuild"], 0, [register.replayed()], [], unchanged=False)
        kept = [found for name, found in hall.files_in(case.folder).items() if name.startswith("register.old.")]
        if kept != [data]:
            case.faults.append("the damaged register file is not kept")
        case.goes_on()


def stops(case):
    """Records that stop a replay behind the fourth, with their numbers."""
    before = Register(case.history[:4])
    out = next(iter(before.loans.values()))[0]
    gone = next(code for code in case.codes if code.bytes not in before.loans)
    good = case.history[4].record(5)
    return [(24, b"\7" + good[1:]), (24, b"\1" + good[1:]), (24, good[:3] + b"\0\0\0\0" + good[7:]), (24, b"\3\0\4\0\0\0\5"),
            (25, case.history[5].record(6)), (20, Change(out, 4).record(5)), (22, Change(gone).record(5))]


def stopped_log(case):
    before, at = Register(case.history[:4]), model.ends_of(case.history)[4]
    for number, record in stops(case):
        log = case.log[:at] + record + model.log_of(case.history[4:], 5)
        case.before = {"register": case.saved, "log": log}
        case.restore()
        told = "refused " + model.words_of(number, f" at byte {at}")
        for words in ["sheet"], case.issue.words, ["ask", case.out.text], []:
            case.counter(words, 2, [], [told], alone=words != ["sheet"])
        case.counter(["rebuild"], 1, [told], [])
        path = os.path.join(case.room.folder({"log": log}), "log")
        case.standby(["promote", path], 1, ["no " + model.words_of(number, f" at byte {at}")], [])
        case.standby(["replay", path], 1, [told], [], unchanged=False)
        if hall.files_in(case.folder)["register"] != before.bytes():
            case.faults.append("the replica does not hold the records before the stop")


def register_ahead(case):
    for n in 0, 3, 5:
        log = model.log_of(case.history[:n])
        for tail in b"", b"\3", case.history[n].record(n + 1)[:-1]:
            case.before = {"register": case.register().bytes(), "log": log + tail}
            case.restore()
            for words in ["sheet"], case.issue.words, []:
                case.counter(words, 2, [], [f"the log lacks records that the register has: its last one is {n}"], alone=bool(tail))


def full_register(case, random):
    """256 are out: one more is refused, and stops a replay."""
    codes = list({code.bytes: code for code in (model.some_unit(random, model.ID) for _ in range(257))}.values())
    case.history = [Change(code, 3) for code in codes[:256]]
    log = model.log_of(case.history)
    case.before = {"register": Register().bytes(), "log": log}
    case.restore()
    case.counter(["sheet"], 0, case.register().sheet(), [])
    case.counter(["issue", codes[256].text, "3"], 1, ["refused " + model.words_of(21)], [])
    case.before["log"] = log + Change(codes[256], 3).record(257)
    case.restore()
    case.counter(["sheet"], 2, [], ["refused " + model.words_of(21, f" at byte {len(log)}")])


def numbers_spent(case):
    """Up to the last record number, and no further."""
    last = 2**32 - 1
    register, change = Register(case.history), Change(case.free, 5)
    register.last = last - 1
    case.before = {"register": register.bytes(), "log": change.record(last)}
    case.restore()
    register.do(change)
    case.counter(["sheet"], 0, register.sheet(), [])
    for words in ["issue", case.codes[-1].text, "3"], ["return", case.free.text]:
        case.counter(words, 1, ["refused " + model.words_of(26)], [])
    register.last = last - 2
    case.before = {"register": register.bytes(), "log": Change(case.free).record(last - 1)}
    case.restore()
    case.counter(case.issue.words, 0, [f"issued {case.free.text} to 5 as record {last}"], [], unchanged=False)
    if hall.files_in(case.folder)["log"] != case.before["log"] + change.record(last):
        case.faults.append("the last number is not in the log")


def long_log(case, random):
    """Records across the border of the pieces in which a log is read, and logs that end there, whole or torn."""
    piece, history, register = 131072, [], Register()
    code, other = model.Code(model.item(5, 2, 7, random.randbytes(40))), model.Code(model.item(6, 0, 0, random.randbytes(8)))
    size = 0
    while size < 2 * piece + 4000:
        one = code if random.random() < 0.8 else other
        change = Change(one) if one.bytes in register.loans else Change(one, 6)
        register.do(change)
        history.append(change)
        size += len(change.record(len(history)))
    log, ends = model.log_of(history), model.ends_of(history)
    around = [max(end for end in ends if end <= piece), min(end for end in ends if end > piece)]
    for length in [len(log), piece - 1, piece, piece + 1, 2 * piece, *around]:
        n = max(i for i, end in enumerate(ends) if end <= length)
        case.before = {"register": Register().bytes(), "log": log[:length]}
        case.restore()
        case.history = history[:n]
        torn = [f"the log is torn: the next change cuts it off at byte {ends[n]}"] if length > ends[n] else []
        case.counter(["sheet"], 0, case.register().sheet(), torn)
        case.goes_on()




def odd_lines(case):
    """Lines of any length and with any end are answered, one by one."""
    due = case.register().ask(case.out)
    asks = f"ask {case.out.text}"
    too_long = "refused: The line is longer than 2,048 bytes."
    lines = [(asks + "\r", due), ("\t " + asks + "  ", due), ("x" * 70000, too_long), (asks, due), ("x" * 1000000, too_long), (asks, due),
             (asks + " " * (2048 - len(asks)), due), (asks + " " * (2049 - len(asks)), too_long), ("\0", None), (asks, due)]
    for end in "", "\n":
        stdin = "\n".join(line for line, _ in lines) + end
        answers = [answer or "refused: There is no such command: issue, return, ask and sheet are." for _, answer in lines]
        for faults in {}, {"STEP": 4099}:
            case.counter([], 1, answers, [], stdin=stdin.encode(), what=f"odd lines {faults}", **faults)


CASES = [missing, damaged_register, stopped_log, register_ahead, full_register, numbers_spent, long_log, odd_lines]
