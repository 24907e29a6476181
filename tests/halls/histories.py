"""Random histories of both halls: a counter that is killed and loses power, a log that is shipped late and torn, a replica that replays it,
and promotions. A plain map says what every command has to answer."""
import collections
import os

import hall
import model
from model import Command, Register

YES = "yes: this replica may be promoted"
# What each run of some histories has to bring out.
KINDS = ["promoted", YES[:3], "no 25", "no 27", "no 36", "no 37", "killed", "power lost", "torn log cut off", "replay of a torn log",
         "replay of more", "replay stopped", "refused 20", "refused 22"]


class Shipped:
    """A log as it has come to the standby hall: its whole records, whether one is torn behind them, or missing among them."""

    def __init__(self, history, length, lacks=None):
        ends = model.ends_of(history)
        self.count = max(n for n, end in enumerate(ends) if end <= length)
        self.history, self.end = history[: self.count], ends[self.count]
        self.data = model.log_of(history)[:length]
        self.torn = length > self.end
        self.gap = None
        if lacks is not None and lacks < self.count - 1:
            self.gap = lacks
            self.gap_at = ends[lacks]
            self.data = self.data[: ends[lacks]] + self.data[ends[lacks + 1] :]
            self.end -= ends[lacks + 1] - ends[lacks]

    def replayed(self, n):
        """A replica of n records after the replay, the line and the status."""
        if self.gap is not None and n <= self.gap:
            return self.gap, "refused " + model.words_of(25, f" at byte {self.gap_at}"), 1
        reached = max(n, self.count)
        return reached, None, 0

    def verdict(self, replica):
        """What a promotion has to answer about a replica."""
        if self.gap is not None:
            return "no " + model.words_of(25, f" at byte {self.gap_at}")
        if self.torn:
            return "no " + model.words_of(36, f" at byte {self.end}")
        mine, logged = replica, Register(self.history)
        for key in sorted(set(mine.loans) | set(logged.loans)):
            one, other = mine.loans.get(key), logged.loans.get(key)
            if one is None or other is None or one[1] != other[1]:
                return "no " + model.words_of(37, f" for {(one or other)[0].text}")
        return YES if mine.last == logged.last else "no " + model.words_of(27)


class Halls:
    def __init__(self, room, random):
        self.room, self.random = room, random
        self.codes = model.some_codes(random, random.choice([3, 8, 20]))
        self.seen, self.faults, self.told = collections.Counter(), [], []
        self.history, self.torn = [], b""
        self.counter = room.folder()
        self.expect("counter", self.counter, ["new"], ["begun: nothing is out"], 0)
        self.second_hall()

    def second_hall(self):
        self.standby, self.replica = self.room.folder(), None
        self.path = os.path.join(self.room.folder(), "shipped")
        self.ship(Shipped([], 0))

    def expect(self, program, folder, words, out, status, err=(), stdin=b"", **faults):
        by = hall.launched if self.random.random() < 0.04 else hall.alone
        ran = by(program, folder, words, stdin, **faults)
        due = [f"{program}: {line}" for line in err] if by is hall.launched else list(err)
        self.told.append(f"{program} {words}")
        if ran.out != out or ran.status != status or ran.err != due:
            self.faults.append(f"{program} {words} {stdin}: due are {out}, {status}, {due}; there is {ran}; before it {self.told[-6:]}")

    # ---- the counter

    def served(self, commands):
        register, answers, changes, after = Register(self.history), [], [], []
        for command in commands:
            lines, change = command.serve(register)
            if change:
                register.do(change)
                changes.append(change)
            answers += lines
            after += [len(changes)] * len(lines)
        for answer in answers:
            self.seen[answer[:10]] += 1
        return answers, changes, after

    def cut_off(self, writes):
        """What a start says about the tear, which is gone then where the run may write."""
        end = len(model.log_of(self.history))
        if not self.torn:
            return []
        if writes:
            self.torn = b""
            self.seen["torn log cut off"] += 1
            return [f"the log was torn: it is cut off at byte {end}"]
        return [f"the log is torn: the next change cuts it off at byte {end}"]

    def commands(self):
        commands = [model.some_command(self.random, self.codes) for _ in range(self.random.randrange(1, 9))]
        answers, changes, _ = self.served(commands)
        self.expect("counter", self.counter, [], answers, model.status_of(answers), self.cut_off(True), hall.typed(commands))
        self.history = self.history + changes

    def one_command(self):
        command = model.some_command(self.random, self.codes)
        if command.answer is None:
            answers, changes, _ = self.served([command])
            told = self.cut_off(command.word in ("issue", "return"))
            self.expect("counter", self.counter, command.words, answers, model.status_of(answers), told)
            self.history = self.history + changes

    def killed(self):
        """Behind some operation; then the power may go too, and take a part of the last record with it."""
        commands = [model.some_command(self.random, self.codes) for _ in range(5)]
        answers, changes, after = self.served(commands)
        self.cut_off(True)
        ran = hall.alone("counter", self.counter, [], hall.typed(commands), STOP=self.random.randrange(5, 22))
        if ran.out != answers[: len(ran.out)]:
            self.faults.append(f"killed: due are {answers}, there is {ran}")
        done = after[len(ran.out) - 1] if ran.out else 0
        log = hall.files_in(self.counter)["log"]
        start = len(model.log_of(self.history + changes[:done]))
        self.seen["killed"] += 1
        if len(log) > start and self.random.random() < 0.7:
            log = log[: self.random.randrange(start, len(log))]
            hall.fill(self.counter, {"log": log})
            self.seen["power lost"] += 1
        more = [changes[: done + n] for n in (0, 1) if done + n <= len(changes)]
        self.history = self.history + max((c for c in more if log.startswith(model.log_of(self.history + c))), key=len, default=[])
        self.torn = log[len(model.log_of(self.history)) :]
        self.expect("counter", self.counter, ["sheet"], Register(self.history).sheet(), 0, self.cut_off(False))

    # ---- the standby hall

    def ship(self, shipped):
        self.shipped = shipped
        with open(self.path, "wb") as file:
            file.write(shipped.data)

    def ship_more(self):
        """Never less than before, often not all; the tear of the counter's log comes over as well."""
        log = len(model.log_of(self.history)) + len(self.torn)
        least = min(len(self.shipped.data), log)
        length = log if self.random.random() < 0.5 else self.random.randrange(least, log + 1)
        lacks = self.random.randrange(len(self.history)) if self.history and self.random.random() < 0.25 else None
        shipped = Shipped(self.history, min(length, len(model.log_of(self.history))), lacks)
        if length > len(model.log_of(self.history)) and shipped.gap is None:
            shipped.data += self.torn[: length - len(shipped.data)]
            shipped.torn = True
        self.ship(shipped)

    def replay(self):
        before = self.replica or 0
        self.replica, line, status = self.shipped.replayed(before)
        self.seen["replay of more"] += self.replica > before
        self.seen["replay stopped"] += status
        self.seen["replay of a torn log"] += self.shipped.torn and not status
        register = Register(self.history[: self.replica])
        line = line or register.replayed(self.shipped.end if self.shipped.torn else None)
        self.expect("standby", self.standby, ["replay", self.path], [line], status)
        if hall.files_in(self.standby) != {"register": register.bytes()}:
            self.faults.append("the replica is not the register of its records")

    def ask(self):
        if self.replica is not None:
            code = self.random.choice(self.codes)
            line = Register(self.history[: self.replica]).ask(code)
            self.expect("standby", self.standby, ["ask", code.typed(self.random)], [line], 1 if line.startswith("refused") else 0)

    def promote(self):
        """With the log that was shipped, or an older one; on yes the standby hall may go on as the counter."""
        if self.replica is None:
            return
        shipped, path = self.shipped, self.path
        if self.random.random() < 0.3 and self.shipped.gap is None and not self.shipped.torn:
            shipped = Shipped(self.history, self.random.randrange(len(self.shipped.data) + 1))
            path = os.path.join(self.room.folder({"old": shipped.data}), "old")
        verdict = shipped.verdict(Register(self.history[: self.replica]))
        self.seen[verdict.split(":")[0][:5]] += 1
        self.expect("standby", self.standby, ["promote", path], [verdict], 0 if verdict == YES else 1)
        if verdict == YES and self.random.random() < 0.4:
            self.take_over(shipped)

    def there_and_back(self):
        """A replica that lacks an issue and its return holds the same codes."""
        free = [code for code in self.codes if code.bytes not in Register(self.history).loans]
        if free and self.replica == len(self.history):
            commands = [Command("issue", free[0], 3), Command("return", free[0])]
            answers, changes, _ = self.served(commands)
            self.expect("counter", self.counter, [], answers, 0, self.cut_off(True), hall.typed(commands))
            self.history = self.history + changes
            self.ship(Shipped(self.history, len(model.log_of(self.history))))
            self.promote()

    def take_over(self, shipped):
        self.seen["promoted"] += 1
        hall.fill(self.standby, {"log": shipped.data})
        self.counter, self.history, self.torn = self.standby, shipped.history, b""
        self.expect("counter", self.counter, ["sheet"], Register(self.history).sheet(), 0)
        self.second_hall()

    def run(self, steps):
        actions = [self.killed, self.ask, self.there_and_back] + [self.promote, self.ship_more, self.replay, self.one_command] * 2
        actions += [self.commands] * 3
        for _ in range(steps):
            self.random.choice(actions)()
            if self.random.random() < 0.1:
                # A good night: all of the log comes over, is replayed, and the question is asked.
                self.ship(Shipped(self.history, len(model.log_of(self.history))))
                self.replay()
                self.promote()
            if self.faults:
                return
        log = hall.files_in(self.counter)["log"]
        if log != model.log_of(self.history) + self.torn:
            self.faults.append("the counter's log is not the records of its changes")


def run(report, room, random, amount):
    seen, faults, steps = collections.Counter(), [], 0
    for n in range(amount["histories"]):
        one = type(random)(random.randrange(2**62))
        halls = Halls(room, one)
        halls.run(30)
        steps += len(halls.told)
        seen += halls.seen
        faults += [f"history {n}: {fault}" for fault in halls.faults]
        if len(faults) >= (5 if amount["kinds"] else 1):
            break
    told = ", ".join(f"{seen[kind]} {kind}" for kind in KINDS)
    if amount["kinds"]:
        faults += [f"only {seen[kind]} times {kind}" for kind in KINDS if seen[kind] < 3]
    report.check("histories of both halls", faults, f"{n + 1} histories, {steps} runs: {told}")
