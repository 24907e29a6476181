"""Runs that are killed at random moments: what was answered is there at the next start, and at most one change more."""
import collections
import contextlib
import os
import select
import signal
import subprocess
import time

import hall
import model
from model import Register

BUSY = "another program is at work on"


class Counter:
    """A folder whose register is known but for the change in flight."""

    def __init__(self, room, random, behind):
        self.random, self.codes = random, model.some_codes(random, 12)
        self.history = model.some_changes(random, self.codes, behind)
        self.folder = room.folder({"register": Register().bytes(), "log": model.log_of(self.history)})
        self.seen, self.most = collections.Counter(), 5 if behind else 25

    def predicted(self, commands):
        """All answer lines, each with how many changes are done when it is out; and the changes."""
        register, lines, changes = Register(self.history), [], []
        for command in commands:
            answers, change = command.serve(register)
            if change:
                register.do(change)
                changes.append(change)
            lines += [(line, len(changes)) for line in answers]
        return lines, changes

    def killed(self, commands, faults, seconds):
        """What a run answered before it was killed, so many seconds behind its start or its first answer, and the status."""
        run = subprocess.Popen([os.path.join(hall.TOP, "counter"), self.folder], stdin=subprocess.PIPE, stdout=subprocess.PIPE,
                               stderr=subprocess.PIPE, start_new_session=True, env=hall.surroundings(self.folder, faults))
        # It may be killed before it has read a command.
        with contextlib.suppress(BrokenPipeError):
            run.stdin.write(hall.typed(commands))
            run.stdin.flush()
        with contextlib.suppress(BrokenPipeError):
            run.stdin.close()
        run.stdin = None
        if seconds is not None:
            if self.random.random() < 0.7:
                select.select([run.stdout], [], [], 5)
            time.sleep(seconds)
            try:
                os.killpg(run.pid, signal.SIGKILL)
            except ProcessLookupError:
                pass
        # Both pipes end when the last process is gone.
        out, err = run.communicate(timeout=60)
        return out, err, run.returncode

    def round(self):
        random = self.random
        commands = [model.some_command(random, self.codes) for _ in range(random.randrange(1, self.most))]
        faults = {"STEP": random.choice([3, 11, 20])} if random.random() < 0.5 else {}
        seconds = None
        if random.random() < 0.5:
            faults["STOP"] = random.randrange(1, 3 * len(commands) + 12)
        else:
            faults["DELAY"], seconds = 400, random.uniform(0, 0.02)
        lines, changes = self.predicted(commands)
        out, err, status = self.killed(commands, faults, seconds)
        answered = out.decode().split("\n")
        part = answered.pop()
        due = [line for line, _ in lines]
        if answered != due[: len(answered)] or (part and ("STEP" not in faults or not due[len(answered)].startswith(part))):
            return f"the model answers {due}, and there is {out} {err}"
        whole = len(answered) == len(lines)
        if seconds is None and status not in ((2,) if not whole else (0, 1, 2)):
            return f"the program was killed, and the launcher's status is {status}: {err}"
        done = lines[len(answered) - 1][1] if answered else 0
        self.seen["before the first answer" if not answered else "behind the last answer" if whole else "between answers"] += 1
        return self.start_again(changes, done)

    def start_again(self, changes, done):
        ran = hall.launched("counter", self.folder, ["sheet"])
        for _ in range(20):
            if not any(BUSY in line for line in ran.err):
                break
            time.sleep(0.05)
            ran = hall.launched("counter", self.folder, ["sheet"])
        possible = [self.history + changes[: done + more] for more in (0, 1) if done + more <= len(changes)]
        fits = [history for history in possible if Register(history).sheet() == ran.out]
        if ran.status != 0 or not fits:
            return f"{len(self.history) + done} changes were answered, and the start finds neither them nor one more: {ran}"
        files = hall.files_in(self.folder)
        # The same codes may be out with one more: the log tells.
        log = files["log"]
        fits = [history for history in fits if log.startswith(model.log_of(history))]
        if not fits:
            return "the log does not hold the records of the changes"
        if len(fits[-1]) > len(self.history) + done:
            self.seen["one change more"] += 1
        self.history = fits[-1]
        end = len(model.log_of(self.history))
        due = [f"counter: the log is torn: the next change cuts it off at byte {end}"] if len(log) > end else []
        self.seen["a torn log"] += len(due)
        self.seen["a new register file"] += "register.new" in files
        return None if ran.err == due else f"the sheet says {ran.err}, not {due}"


def run(report, room, random, amount):
    seen, faults, rounds, behind = collections.Counter(), [], 0, 0
    while rounds < amount["kills"] and len(faults) < (5 if amount["kinds"] else 1):
        # The register file of every other is so far behind that its first run to its end leaves a new one.
        behind = 0 if behind else 1000
        counter = Counter(room, random, behind)
        for _ in range(5 if behind else 20):
            rounds += 1
            fault = counter.round()
            if fault:
                faults.append(fault)
                break
        seen += counter.seen
    kinds = ["before the first answer", "between answers", "behind the last answer", "one change more", "a torn log", "a new register file"]
    told = ", ".join(f"{seen[kind]} {kind}" for kind in kinds)
    if amount["kinds"]:
        faults += [f"never {kind}" for kind in kinds if not seen[kind]]
    report.check("killed at random moments", faults, f"{rounds} kills: {told}")
