"""The programs around a hall's program: another one on the same folder, and those that read its answers and messages."""
import os
import subprocess

import hall
from model import Change


def at_the_same_time(case):
    with subprocess.Popen([os.path.join(hall.TOP, "counter"), case.folder], stdin=subprocess.PIPE, stdout=subprocess.PIPE) as first:
        first.stdin.write(b"ask %s\n" % case.out.text.encode())
        first.stdin.flush()
        if first.stdout.readline().decode() != case.register().ask(case.out) + "\n":
            case.faults.append("the first counter does not answer at once")
        told = [f"another program is at work on {case.folder}"]
        for words in ["sheet"], case.issue.words, ["rebuild"], ["new"], []:
            case.counter(words, 2, [], told)
        case.standby(["ask", case.out.text], 2, [], told)
        first.stdin.close()
        if first.wait(20) != 0:
            case.faults.append("the first counter ends otherwise")
    case.counter(["sheet"], 0, case.register().sheet(), [])



def answer_not_written(case):
    """The change is in the log, and was not told; nothing more is done."""
    change = Change(case.free, 5)
    stdin = hall.typed([case.issue, case.take])
    ways = [('exec "$@" >/dev/full', "No space left on device"), ('exec "$@" 1</dev/null', "Bad file descriptor"),
            ('"$@" | true; exit "${PIPESTATUS[0]}"', "Broken pipe")]
    for words, data in (case.issue.words, b""), ([], stdin):
        for shell, told in ways:
            ran = hall.launched("counter", case.folder, words, data, before=["bash", "-c", shell, "-"])
            case.expect(f"{shell} {words}", ran, 2, [], [f"counter: cannot write the answer: {told}"], unchanged=False)
            if hall.files_in(case.folder)["log"] != case.log + change.record(7):
                case.faults.append(f"{shell}: the log does not hold the one change")
            case.goes_on(change)
            case.restore()


def answer_interrupted(case):
    """As any answer that cannot be written."""
    change = Change(case.free, 5)
    case.counter(case.issue.words, 2, [], ["cannot write the answer: Interrupted system call"], unchanged=False, ANSWER_INTERRUPTED=1)
    case.goes_on(change)



def closed_output_without_launcher(case):
    """A program whose output is closed must not take the log for it."""
    subprocess.run(["bash", "-c", '"$@" >&-', "-", hall.program_path("counter"), case.folder, *case.issue.words], check=False,
                   stderr=subprocess.DEVNULL)
    if hall.files_in(case.folder)["log"] not in (case.log, case.log + Change(case.free, 5).record(7)):
        case.faults.append("the answer stands in the log")




def messages_not_written(case):
    """The status is told without them."""
    for shell in 'exec "$@" 2>&-', 'exec "$@" 2>/dev/full':
        hall.fill(case.folder, {"log": case.log + b"\3"})
        case.before = hall.files_in(case.folder)
        ran = hall.launched("counter", case.folder, ["sheet"], before=["bash", "-c", shell, "-"])
        case.expect(f"{shell} over a torn log", ran, 0, case.register().sheet(), [])
        hall.fill(case.folder, {"log": case.log + b"\7\0\0"})
        case.before = hall.files_in(case.folder)
        ran = hall.launched("counter", case.folder, ["sheet"], before=["bash", "-c", shell, "-"])
        case.expect(f"{shell} over a damaged log", ran, 2, [], [])


CASES = [at_the_same_time, answer_not_written, answer_interrupted, closed_output_without_launcher, messages_not_written]
