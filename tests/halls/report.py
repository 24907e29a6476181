"""Checks by their names: a line each, and the counts."""
import sys


class Report:
    def __init__(self, quiet=False):
        self.passed, self.failed, self.quiet = 0, 0, quiet
        self.again, self.first = "", None

    def check(self, name, faults, told=""):
        """`faults` are what was found wrong; where there is none, the check is passed."""
        faults = list(faults)
        if not faults:
            self.passed += 1
            self.say(f"ok {name}" + (f": {told}" if told else ""))
            return
        self.failed += 1
        self.first = self.first or name
        self.say(f"FAILED {name}" + (f": {told}" if told else ""))
        for fault in faults[:5]:
            self.say("  " + fault)
        if len(faults) > 5:
            self.say(f"  and {len(faults) - 5} more")
        self.say(f"  run again: {self.again}")

    def say(self, line):
        if not self.quiet:
            print(line)
            sys.stdout.flush()

    def finish(self):
        print(f"{self.passed} passed, {self.failed} failed")
        return 0 if self.failed == 0 and self.passed > 0 else 1
