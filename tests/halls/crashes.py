"""Every crash state: runs are recorded, and from each first part of their operations all that a crash may leave is made and started."""
import bisect
import collections
import os

import hall
import model
from disk import Disk
from model import Change, Command, Register

# What a start may say where `new` or `rebuild` was interrupted: then one of them completes it.
MISSING = "there is no register: rebuild makes it from the log, new begins a register and a log"
# Each has to be among the states of a run of all scenarios.
KINDS = ["all synced", "unsynced and kept", "a write dropped", "a write cut off", "a truncation lost", "a rename lost",
         "a file's creation lost", "a removal lost"]


class Run:
    """A run of a program: words behind the folder, or commands of standard input; `stop` kills it behind so many operations, the last of
    which is to be `last`."""

    def __init__(self, *words, program="counter", commands=None, stop=None, last="", **faults):
        self.program, self.words, self.commands, self.stop, self.last = program, list(words), commands, stop, last
        self.faults = dict(faults, STOP=stop) if stop else faults

    def makes_register(self):
        return self.program == "standby" or self.words in (["new"], ["rebuild"])


class Scenario:
    """A folder's files with the changes that its log holds, and runs on it. `old` are bytes of a register file that are to be kept; a
    log that was `copied` is not synced yet, so that what it holds is sure with the first answer alone."""

    def __init__(self, name, history, files, runs, old=None, copied=False):
        self.name, self.history, self.files, self.runs, self.old, self.copied = name, list(history), files, runs, old, copied

    def disk(self):
        return Disk(self.files, ["log"] if self.copied else [])


class Records:
    """The records of a history: all their bytes, and where each ends."""

    def __init__(self, history):
        self.bytes, self.ends = model.log_of(history), model.ends_of(history)

    def whole(self, log, most=None):
        """How many of the first records are whole at the front of a log."""
        ends = self.ends if most is None else self.ends[: most + 1]
        return bisect.bisect_left(ends[1:], True, key=lambda end: len(log) < end or log[:end] != self.bytes[:end])

    def tear(self, log, n):
        """Where the torn record behind the n-th starts, if there is one."""
        return self.ends[n] if len(log) > self.ends[n] else None


class Recorded:
    """The runs of a scenario, done once: their operations, the history that came of them, and what was wrong already."""

    def __init__(self, scenario, room, slip=None):
        self.scenario, self.faults, self.history = scenario, [], list(scenario.history)
        self.folder = room.folder(scenario.files)
        self.trace = os.path.join(room.path, f"trace.{room.made}")
        self.lines = []
        for run in scenario.runs:
            self.record(run, {"SLIP": slip} if slip else {})
        found = hall.files_in(self.folder)
        disk = scenario.disk()
        for line, _ in self.lines:
            disk.do(line)
        if disk.now() != found:
            self.faults.append(f"the operations that were seen do not give the files: {sizes(disk.now())}, and there are {sizes(found)}")
        if not self.lines:
            self.faults.append("no operation was seen")

    def record(self, run, faults):
        if os.path.exists(self.trace):
            os.unlink(self.trace)
        stdin = hall.typed(run.commands) if run.commands else b""
        words = [os.path.join(self.folder, "log") if word == "log" else word for word in run.words]
        ran = hall.alone(run.program, self.folder, words, stdin, TRACE=self.trace, **faults, **run.faults)
        with open(self.trace, encoding="ascii") as file:
            self.lines += [(line.rstrip("\n"), run) for line in file]
        if not self.lines[-1][0].startswith(run.last):
            self.faults.append(f"the run ends behind {self.lines[-1][0][:40]!r}, and not behind a {run.last}")
        if run.makes_register():
            due = self.made_line(run)
            if not run.stop and (ran.status != 0 or ran.out != [due] or ran.err):
                self.faults.append(f"{run.words} does not answer {due!r}: {ran}")
            return
        register, answers = Register(self.history), []
        for command in run.commands:
            lines, change = command.serve(register)
            answers += lines
            if change:
                register.do(change)
                self.history.append(change)
        if ran.closed and (ran.out != answers or ran.status != model.status_of(answers)):
            self.faults.append(f"the model answers {answers}, and there is {ran}")
        if not ran.closed and not run.stop:
            self.faults.append(f"died: {ran}")
        if not ran.closed:
            # A killed run may have done less; what follows stands on the records that it wrote.
            self.history = self.history[: Records(self.history).whole(hall.files_in(self.folder)["log"])]

    def made_line(self, run):
        """The answer of a run that makes a register."""
        if run.words == ["new"]:
            return "begun: nothing is out"
        with open(os.path.join(self.folder, run.words[1] if run.program == "standby" else "log"), "rb") as file:
            return Register(self.history).replayed(Records(self.history).tear(file.read(), -1))


def sizes(files):
    return {name: len(data) for name, data in files.items()}


class States:
    """All states behind a recorded scenario, each once, with how many changes have to be in it, and how many may be. `kinds` counts how
    they came about."""

    def __init__(self, recorded, cuts):
        self.recorded, self.cuts = recorded, cuts
        self.records = Records(recorded.history)
        # A log that is read elsewhere (standby) is whole.
        self.most = len(recorded.scenario.history)
        self.least = 0 if recorded.scenario.copied else self.most
        self.made = recorded.scenario.runs[0].makes_register()
        self.seen, self.kinds = set(), collections.Counter()

    def __iter__(self):
        disk = self.recorded.scenario.disk()
        yield from self.behind(disk)
        for line, run in self.recorded.lines:
            disk.do(line)
            if line.startswith("answer"):
                self.made = False
                if self.recorded.scenario.copied:
                    self.least = self.most
                if not run.makes_register():
                    self.least = max(self.least, self.number(line), self.records.whole(disk.now()["log"]))
                    self.most = max(self.most, self.least)
            elif line.startswith("write") and not run.makes_register():
                self.begins(int(line.split()[2]))
            elif line == "start" and run.makes_register():
                self.made = True
            yield from self.behind(disk)

    def number(self, line):
        """The record number that an answer tells."""
        words = bytes.fromhex(line[7:]).decode("ascii", "replace").split()
        return int(words[-1]) if words[-3:-1] == ["as", "record"] else 0

    def begins(self, offset):
        """A record is written there: those before it are to stay from now on, whether they were answered or not."""
        if offset in self.records.ends[:-1]:
            before = self.records.ends.index(offset)
            self.least, self.most = max(self.least, before), max(self.most, before + 1)

    def behind(self, disk):
        for kinds, files in disk.left(self.cuts):
            self.kinds.update(kinds)
            key = (frozenset(files.items()), self.least, self.most, self.made)
            if key not in self.seen:
                self.seen.add(key)
                yield kinds, files, self.least, self.most, self.made


class Start:
    """The next start on a state, and what follows it."""

    def __init__(self, folder, history, fresh, scenario):
        self.folder, self.history, self.fresh, self.old, self.copied = folder, history, fresh, scenario.old, scenario.copied
        self.registers = [Register(history[:n]) for n in range(len(history) + 1)]
        self.sheets = [register.sheet() for register in self.registers]
        self.records = Records(history)

    def fault(self, files, least, most, may_lack):
        """What is wrong with the start on these files; none where nothing is."""
        hall.empty(self.folder)
        hall.fill(self.folder, files)
        if most > least + 1 and not self.copied:
            return f"{most - least} changes are in flight"
        if self.old is not None and self.old not in [data for name, data in files.items() if name.startswith("register")]:
            return "the old register file is lost"
        ran = hall.alone("counter", self.folder, ["sheet"])
        if ran.status == 2 and may_lack:
            fault = self.completed(ran, least, most)
            if fault:
                return fault
            files = hall.files_in(self.folder)
            ran = hall.alone("counter", self.folder, ["sheet"])
        return self.goes_on(files, ran, least, most)

    def completed(self, ran, least, most):
        """`new` or `rebuild` completes a folder that says what it lacks."""
        if ran.err not in ([MISSING], ["refused " + model.words_of(23)], ["cannot open the log: No such file or directory"]):
            return f"the start does not say what is missing: {ran}"
        log = hall.files_in(self.folder).get("log")
        if log is None:
            again = hall.alone("counter", self.folder, ["new"])
            due = "begun: nothing is out"
        else:
            again = hall.alone("counter", self.folder, ["rebuild"])
            n = self.records.whole(log, most)
            due = self.registers[n].replayed(self.records.tear(log, n))
        return None if again.status == 0 and again.out == [due] else f"it is not completed as {due!r}: {again}"

    def goes_on(self, files, ran, least, most):
        fits = [n for n in range(least, most + 1) if self.sheets[n] == ran.out]
        if ran.status != 0 or not fits:
            return f"after {least} acknowledged changes the start finds neither them nor one more: {ran}"
        # The sheet may be the same with and without the change in flight: the log tells.
        n = max((m for m in fits if self.records.whole(files["log"], most) >= m), default=None)
        if n is None:
            return f"the start finds more than the log holds: {ran}"
        tear = self.records.tear(files["log"], n)
        due = [] if tear is None else [f"the log is torn: the next change cuts it off at byte {tear}"]
        if ran.err != due:
            return f"the sheet says {ran.err}, not {due}"
        code = self.history[n - 1].code if n else self.fresh
        ran = hall.alone("counter", self.folder, ["ask", code.text])
        if ran.out != [self.registers[n].ask(code)] or ran.err != due:
            return f"the question is answered wrongly: {ran}"
        if hall.files_in(self.folder) != files:
            return "the sheet or the question changes a file"
        return self.one_more(n, tear)

    def one_more(self, n, tear):
        register = self.registers[n].copy()
        command = Command("issue", self.fresh, 9)
        answers, change = command.serve(register)
        ran = hall.alone("counter", self.folder, command.words)
        due = [] if tear is None else [f"the log was torn: it is cut off at byte {tear}"]
        if ran.status != 0 or ran.out != answers or ran.err != due:
            return f"the next issue: {ran}, not {answers} and {due}"
        register.do(change)
        if hall.files_in(self.folder)["log"] != self.records.bytes[: self.records.ends[n]] + change.record(n + 1):
            return "the log is not its records and the new one"
        ran = hall.alone("counter", self.folder, ["sheet"])
        return None if ran.status == 0 and ran.out == register.sheet() and not ran.err else f"after one more issue: {ran}"


class Replica(Start):
    """The same of a standby folder: the replay is done again, and completes it."""

    def __init__(self, folder, history, fresh, scenario, before, log):
        super().__init__(folder, history, fresh, scenario)
        self.before, self.path = before, log

    def fault(self, files, least, most, may_lack):
        hall.empty(self.folder)
        hall.fill(self.folder, files)
        code = self.history[-1].code
        ran = hall.alone("standby", self.folder, ["ask", code.text])
        fits = [self.registers[-1].ask(code)] + ([self.registers[self.before].ask(code)] if may_lack and self.before is not None else [])
        lacks = may_lack and self.before is None and ran.status == 2 and ran.err == ["there is no replica yet: replay makes it"]
        if not lacks and (ran.err or len(ran.out) != 1 or ran.out[0] not in fits):
            return f"the question: {ran}, not one of {fits}"
        ran = hall.alone("standby", self.folder, ["replay", self.path])
        if ran.status != 0 or ran.out != [self.registers[-1].replayed()] or ran.err:
            return f"the replay: {ran}"
        if hall.files_in(self.folder).get("register") != self.registers[-1].bytes():
            return "the replica is not the register of the log"
        ran = hall.alone("standby", self.folder, ["promote", self.path])
        return None if ran.out == ["yes: this replica may be promoted"] else f"the promotion: {ran}"


# ---- scenarios


def begun(history, saved=0, tail=b""):
    """The files of a folder: its register file is that of the first records, and its log may have a torn record behind the last."""
    return {"register": Register(history[:saved]).bytes(), "log": model.log_of(history) + tail}


def torn_tail(random, codes, history):
    """The first bytes of a record that never became whole."""
    change = model.some_changes(random, codes, 1, history)[0]
    record = change.record(len(history) + 1)
    return record[: random.randrange(1, len(record))]


def scenarios(random):
    codes = model.some_codes(random, 8)
    some = model.some_changes(random, codes, 5)
    free = next(code for code in codes if code.bytes not in Register(some).loans)
    out = next(iter(Register(some).loans.values()))[0]
    issue, take = Command("issue", free, 3), Command("return", out)
    refused = [Command("issue", out, 8), Command("return", free), Command("ask", free), Command("ask", out), Command("sheet")]
    kept = Register(some[:2]).bytes()
    damaged = b"\1" + kept[1:]
    # A return is shorter than what is left of the torn issue.
    longest = Change(model.Code(model.item(5, 2, 7, random.randbytes(40))), 77).record(6)[:52]
    yield Scenario("new", [], {}, [Run("new")])
    yield Scenario("new over what an interrupted one left", [], {"register.new": b"\0" * 5000}, [Run("new")])
    yield Scenario("issues and returns", some, begun(some), [Run(commands=[issue, take, *refused, Command("issue", out, 6)])])
    yield Scenario("one issue", some, begun(some, 5), [Run(*issue.words, commands=[issue])])
    yield Scenario("all refused", some, begun(some, 3), [Run(commands=refused)])
    yield Scenario("a tear is cut off", some, begun(some, 2, longest), [Run(commands=[take, issue])])
    yield Scenario("a tear is cut off and all is refused", some, begun(some, 2, longest[:1]), [Run(commands=refused)])
    yield Scenario("a sheet over a tear", some, begun(some, 2, longest[:7]), [Run("sheet", commands=[Command("sheet")])])
    yield Scenario("writes in pieces of 5 bytes", some, begun(some), [Run(commands=[issue, take], STEP=5)])
    for run in (Run("sheet", commands=[Command("sheet")]), Run(*take.words, commands=[take]), Run("rebuild")):
        killed = Run(commands=[issue], stop=5, last="write")
        yield Scenario(f"killed between write and sync, then {run.words[0]}", some, begun(some), [killed, run])
    many = some + model.some_changes(random, codes, 1000, some)
    free = next(code for code in codes if code.bytes not in Register(many).loans)
    issue = Command("issue", free, 3)
    yield Scenario("a snapshot", many, begun(many, 5), [Run(commands=[issue])])
    left = dict(begun(many, 5), **{"register.new": kept[:700]})
    yield Scenario("a snapshot over an interrupted one", many, left, [Run(*issue.words, commands=[issue])])
    for stop, last, words in (9, "write", "written and not synced"), (12, "rename", "renamed and the folder not synced"):
        runs = [Run(commands=[issue], stop=stop, last=last), Run(commands=[Command("return", free), Command("issue", free, 4)])]
        yield Scenario(f"killed with a snapshot {words}, then two changes", many, begun(many, 5), runs)
    log = model.log_of(some)
    stops = [(3, "open register.new"), (4, "write"), (7, "open register.old"), (9, "rename register "), (10, "rename register.new")]
    for stop, last in stops:
        runs = [Run("rebuild", stop=stop, last=last), Run("rebuild")]
        name = f"rebuild killed behind operation {stop}, then rebuild"
        yield Scenario(name, some, {"register": damaged, "log": log}, runs, old=damaged)
    yield Scenario("new killed with a log alone, then rebuild", [], {}, [Run("new", stop=1, last="open log"), Run("rebuild")])
    yield Scenario("rebuild of a damaged register", some, {"register": damaged, "log": log}, [Run("rebuild")], old=damaged)
    yield Scenario("rebuild of a good register", some, {"register": kept, "log": log + longest}, [Run("rebuild")], old=kept)
    yield Scenario("rebuild without a register", some, {"log": log}, [Run("rebuild")])


def standby_scenarios(random, room):
    """With the path of the log that is replayed, and the record up to which the replica has come."""
    codes = model.some_codes(random, 8)
    some = model.some_changes(random, codes, 6)
    log = os.path.join(room.folder({"log": model.log_of(some)}), "log")
    replay = [Run("replay", log, program="standby")]
    yield Scenario("the first replay", some, {}, replay), None, log
    yield Scenario("a replay of more", some, {"register": Register(some[:2]).bytes()}, replay), 2, log
    yield Scenario("a replay of nothing", some, {"register": Register(some).bytes()}, replay), 6, log
    left = {"register": Register(some[:3]).bytes(), "register.new": b"\3" * 13000}
    yield Scenario("a replay over an interrupted one", some, left, replay), 3, log
    # The copy of the log stands in the folder that is to take over.
    beside = [Run("replay", "log", program="standby")]
    yield Scenario("a replay of a log that is not synced", some, {"log": model.log_of(some)}, beside, copied=True), None, None


def some_scenario(random, number):
    """Up to three runs behind each other, some of them killed."""
    codes = model.some_codes(random, 7)
    history = model.some_changes(random, codes, random.randrange(7))
    tail = torn_tail(random, codes, history) if random.random() < 0.4 else b""
    files = begun(history, random.randrange(len(history) + 1), tail)
    runs = []
    for _ in range(random.randrange(1, 4)):
        stop = random.randrange(3, 14) if random.random() < 0.5 else None
        commands = [model.some_command(random, codes) for _ in range(random.randrange(1, 5))]
        kind = random.random()
        if kind < 0.5:
            runs.append(Run(commands=commands, stop=stop))
        elif kind < 0.8 and commands[0].answer is None:
            runs.append(Run(*commands[0].words, commands=commands[:1], stop=stop))
        elif kind < 0.88:
            runs.append(Run("sheet", commands=[Command("sheet")]))
        elif kind < 0.94:
            runs.append(Run("rebuild"))
        else:
            runs.append(Run(commands=[Command("sheet")], stop=stop))
    return Scenario(f"random runs {number}", history, files, runs)


# ---- all of them


def sampled(count):
    """A record is cut at each of its bytes, a register file at some."""
    return range(1, count) if count <= 64 else [1, 15, 16, 17, 700, count // 2, count - 4, count - 1]


def coarsely(count):
    return [1, count // 2, count - 1]


def finely(count):
    return range(1, count) if count <= 64 else range(1, count, 16)


def try_scenario(scenario, room, cuts, slip=None, before=None, log=None):
    """How many states there are, how they came about, and what is wrong."""
    fresh = model.Code(model.item(model.ID, 1, 0, b"\xfe" * 8))
    recorded = Recorded(scenario, room, slip)
    faults, states = list(recorded.faults), States(recorded, cuts)
    folder = room.folder()
    start = Start(folder, recorded.history, fresh, scenario)
    if log:
        start = Replica(folder, recorded.history, fresh, scenario, before, log)
    for found, files, least, most, may_lack in states:
        fault = start.fault(files, least, most, may_lack)
        if fault:
            faults.append(f"{', '.join(sorted(found))}, {sizes(files)}: {fault}")
    return len(states.seen), states.kinds, faults


def cuts_of(scenario, is_long):
    # Two files that are not synced, each cut anywhere, are many states.
    if "snapshot written and not synced" in scenario.name:
        return sampled if is_long else coarsely
    if not is_long or "write and sync, then rebuild" in scenario.name:
        return sampled
    return finely


def run(report, room, random, amount, slip=None):
    """The scenarios above and `amount["random"]` others. With a slip the first one that catches it is enough."""
    kinds, states, count, faults = collections.Counter(), 0, 0, []
    fixed = [(s, None, None) for s in scenarios(random)] + list(standby_scenarios(random, room))
    for scenario, before, log in fixed:
        n, found, wrong = try_scenario(scenario, room, cuts_of(scenario, amount["long"]), slip, before, log)
        states, count, kinds = states + n, count + 1, kinds + found
        report.check(f"crash states, {scenario.name}", wrong, f"{n} states")
        if slip and report.failed:
            return
    for number in range(amount["random"]):
        n, found, wrong = try_scenario(some_scenario(random, number), room, sampled, slip)
        states, count, kinds = states + n, count + 1, kinds + found
        faults += [f"random runs {number}: {fault}" for fault in wrong]
    report.check("crash states, random runs", faults, f"{amount['random']} scenarios")
    told = ", ".join(f"{kinds[kind]} times with {kind}" for kind in KINDS)
    few = [f"only {kinds[kind]} times {kind}" for kind in KINDS if kinds[kind] < 3]
    report.check("crash states, every kind", few, f"{states} states of {count} scenarios; they came about {told}")
