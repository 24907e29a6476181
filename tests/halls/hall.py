"""The two programs on a folder: by their launchers, or alone and faster; and the files that they leave."""
import collections
import os
import re
import shutil
import subprocess
import tempfile

TOP = os.path.abspath(os.path.join(os.path.dirname(os.path.abspath(__file__)), "../.."))
BUILT = os.path.join(TOP, "target/tests/halls")
PRELOAD = os.path.join(BUILT, "preload.so")
# What the programs may import that touches files: preload.c stands before all of it but `fchmod`, `lseek`, `fcntl` and `flock`, which
# change no bytes.
IMPORTED = {"open", "close", "read", "write", "pread", "pwrite", "ftruncate", "fsync", "fdatasync", "rename", "unlink", "fchmod", "lseek",
            "fcntl", "flock"}
# `__write` is called before main, where the processor lacks what the program is built for.
BESIDE = {"memcpy", "memmove", "memset", "memcmp", "bcmp", "strlen", "__errno_location", "__libc_start_main", "__xpg_strerror_r",
          "__stack_chk_fail", "__sysv_signal", "__write", "__x86_get_cpuid_feature_leaf", "getentropy"}


def build():
    os.makedirs(BUILT, exist_ok=True)
    source, made = os.path.join(TOP, "tests/halls/preload.c"), f"{PRELOAD}.{os.getpid()}"
    options = ["-std=gnu11", "-O1", "-Wall", "-Wextra", "-Werror", "-shared", "-fPIC"]
    subprocess.run(["gcc", *options, source, "-o", made], check=True)
    # In one step: another run may be using it.
    os.replace(made, PRELOAD)


def imports(program):
    """The functions that a program takes from elsewhere, under their plain names."""
    listed = subprocess.run(["nm", "-D", "--undefined-only", program_path(program)], check=True, capture_output=True, text=True).stdout
    names = {line.split()[1].split("@")[0] for line in listed.splitlines() if line.split()[0] == "U"}
    return {re.sub("64$", "", name) for name in names}


def program_path(program):
    return os.path.join(TOP, "crates", program, "out", program)


class Room:
    """A place for folders that is removed afterwards; in memory where there is such a place."""

    def __init__(self):
        shared = "/dev/shm"
        self.path = tempfile.mkdtemp(prefix="halls.", dir=shared if os.access(shared, os.W_OK) else BUILT)
        self.made = 0

    def folder(self, files=None):
        self.made += 1
        path = os.path.join(self.path, str(self.made))
        os.mkdir(path)
        fill(path, files or {})
        return path

    def remove(self):
        shutil.rmtree(self.path, ignore_errors=True)


def fill(folder, files):
    for name, data in files.items():
        with open(os.path.join(folder, name), "wb") as file:
            file.write(data)


def empty(folder):
    for name in os.listdir(folder):
        os.unlink(os.path.join(folder, name))


def files_in(folder):
    found = {}
    for name in os.listdir(folder):
        with open(os.path.join(folder, name), "rb") as file:
            found[name] = file.read()
    return found


class Ran:
    """What a run came to; status 2 and no `closed` where it died."""

    def __init__(self, status, out, err, closed=True):
        self.status, self.out, self.err, self.closed = status, out, err, closed

    def __repr__(self):
        return f"status {self.status}, output {self.out}, message {self.err}"


# A slip that every run makes; see slips.py. And how many runs there were.
SLIP = {}
RUNS = collections.Counter()


def surroundings(folder, faults):
    """The environment of a run with the faults, a dictionary of preload.c's names without HALLS_."""
    RUNS["all"] += 1
    env = {k: v for k, v in os.environ.items() if not k.startswith("HALLS_")}
    faults = dict(SLIP, **faults)
    if faults:
        env.update({"HALLS_" + name: str(value) for name, value in faults.items()}, LD_PRELOAD=PRELOAD, HALLS_FOLDER=folder)
    return env


def lines_of(data):
    lines = data.decode("ascii", "replace").split("\n")
    return lines if lines[-1] else lines[:-1]


def alone(program, folder, words, stdin=b"", **faults):
    """The program without its launcher."""
    done = subprocess.run([program_path(program), folder, *words], input=stdin, capture_output=True, close_fds=False,
                          env=surroundings(folder, faults), timeout=60)
    err = lines_of(done.stderr)
    if err and re.fullmatch("closing [012]", err[-1]) and done.returncode == 0:
        return Ran(int(err[-1][8:]), lines_of(done.stdout), err[:-1])
    return Ran(2, lines_of(done.stdout), err, closed=False)


def launched(program, folder, words, stdin=b"", before=(), **faults):
    """The program by its launcher, whose status and messages these are; `before` is what stands before its name."""
    done = subprocess.run([*before, os.path.join(TOP, program), folder, *words], input=stdin, capture_output=True,
                          env=surroundings(folder, faults), timeout=60)
    return Ran(done.returncode, lines_of(done.stdout), lines_of(done.stderr))


def typed(commands):
    return "".join(command.line + "\n" for command in commands).encode()
