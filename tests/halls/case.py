"""A folder on which a program is run, and what is to be found of the run."""
import hall
import model
from model import Command, Register


def behind(program, lines):
    """As the launcher tells them."""
    return [f"{program}: {line}" for line in lines]


class Case:
    """A folder with some changes, the register file behind its log, and what is to be found of a run on it."""

    def __init__(self, room, random, files=None, many=False):
        self.room, self.codes = room, model.some_codes(random, 10)
        self.history = model.some_changes(random, self.codes, 1006 if many else 6)
        register = Register(self.history)
        self.free = next(code for code in self.codes if code.bytes not in register.loans)
        self.out = next(iter(register.loans.values()))[0]
        self.issue, self.take = Command("issue", self.free, 5), Command("return", self.out)
        self.saved = Register(self.history[:2]).bytes()
        self.log = model.log_of(self.history)
        self.folder = room.folder({"register": self.saved, "log": self.log} if files is None else files)
        self.before = hall.files_in(self.folder)
        self.faults = []

    def register(self):
        return Register(self.history)

    def expect(self, what, ran, status, out, err, unchanged=True):
        """`err` is a list of the lines' beginnings."""
        if ran.status != status or ran.out != out or len(ran.err) != len(err) or not all(a.startswith(b) for a, b in zip(ran.err, err)):
            self.faults.append(f"{what}: due are status {status}, output {out}, message {err}; there is {ran}")
        if unchanged and hall.files_in(self.folder) != self.before:
            self.faults.append(f"{what}: the files are changed")

    def counter(self, words, status, out, err, what=None, unchanged=True, stdin=b"", alone=False, **faults):
        run = hall.alone if alone else hall.launched
        ran = run("counter", self.folder, words, stdin, **faults)
        self.expect(what or f"counter {words} {faults}", ran, status, out, err if alone else behind("counter", err), unchanged)
        return ran

    def standby(self, words, status, out, err, unchanged=True, **faults):
        ran = hall.launched("standby", self.folder, words, **faults)
        self.expect(f"standby {words} {faults}", ran, status, out, behind("standby", err), unchanged)

    def restore(self):
        hall.empty(self.folder)
        hall.fill(self.folder, self.before)

    def goes_on(self, more=None):
        """The next start finds the changes, or these and one more, and cuts off what is torn."""
        log = hall.files_in(self.folder)["log"]
        changes = self.history + [more] if more and log.startswith(model.log_of(self.history + [more])) else self.history
        register, end = Register(changes), len(model.log_of(changes))
        if not log.startswith(model.log_of(changes)):
            self.faults.append("the log does not hold the changes")
            return
        torn = f"at byte {end}" if len(log) > end else None
        told = [f"the log is torn: the next change cuts it off {torn}"] if torn else []
        self.expect("the next start", hall.alone("counter", self.folder, ["sheet"]), 0, register.sheet(), told, False)
        command = Command("issue", model.Code(model.item(model.ID, 1, 0, b"\xfe" * 8)), 9)
        ran = hall.alone("counter", self.folder, command.words)
        answers = command.serve(register)[0]
        self.expect("the next issue", ran, 0, answers, [f"the log was torn: it is cut off {torn}"] if torn else [], False)
