"""What a crash may leave of a folder, from the operations on it: synced bytes stay, and of the writes that are not synced any first
part may, the last of them cut off at any byte; likewise of what was made, renamed and removed in the folder."""
import itertools


class File:
    def __init__(self, data=b""):
        self.synced, self.pending = data, []

    def now(self):
        return applied(self.synced, self.pending)

    def left(self, cuts):
        """All that may be left, with the kind of each; `cuts` says at which bytes a write of some length is cut off."""
        data = self.synced
        kinds = {"cut": "a truncation lost", "write": "a write dropped"}
        if not self.pending:
            yield "synced", data
        for i, step in enumerate(self.pending):
            yield kinds[step[0]], data
            if step[0] == "write":
                for count in cuts(len(step[2])):
                    yield "a write cut off", applied(data, [("write", step[1], step[2][:count])])
            data = applied(data, [step])
        if self.pending:
            yield "unsynced and kept", data


def applied(data, steps):
    for step in steps:
        if step[0] == "cut":
            data = data[: step[1]].ljust(step[1], b"\0")
        else:
            data = data[: step[1]].ljust(step[1], b"\0") + step[2] + data[step[1] + len(step[2]) :]
    return data


class Disk:
    def __init__(self, files, unsynced=()):
        """Of some files only the names are synced."""
        self.entries = {name: File(data) for name, data in files.items()}
        for name in unsynced:
            self.entries[name].synced, self.entries[name].pending = b"", [("write", 0, files[name])]
        self.pending = []
        self.open = {}

    def listed(self, count=None):
        """The names and their files, after so many of the operations on the folder that are not synced."""
        entries = dict(self.entries)
        for step in self.pending[:count]:
            if step[0] == "make":
                entries[step[1]] = step[2]
            elif step[0] == "rename":
                entries[step[2]] = entries.pop(step[1])
            else:
                del entries[step[1]]
        return entries

    def now(self):
        return {name: file.now() for name, file in self.listed().items()}

    def do(self, line):
        """An operation of the trace."""
        words = line.split(" ")
        if words[0] == "start":
            self.open = {}
        elif words[0] == "open":
            self.opened(words[1], int(words[2]), int(words[3]))
        elif words[0] == "close":
            self.open.pop(int(words[1]))
        elif words[0] == "write":
            self.open[int(words[1])].pending.append(("write", int(words[2]), bytes.fromhex(words[3])))
        elif words[0] == "cut":
            self.open[int(words[1])].pending.append(("cut", int(words[2])))
        elif words[0] == "sync":
            self.sync(self.open[int(words[1])])
        elif words[0] in ("rename", "unlink"):
            self.pending.append(tuple(words))

    def opened(self, name, descriptor, how):
        file = "." if name == "." else self.listed().get(name)
        if file is None:
            file = File()
            self.pending.append(("make", name, file))
        elif how & 2 and file.now():
            file.pending.append(("cut", 0))
        self.open[descriptor] = file

    def sync(self, file):
        if file == ".":
            self.entries, self.pending = self.listed(), []
        else:
            file.synced, file.pending = file.now(), []

    def left(self, cuts):
        """Every state that a crash may leave: its kinds, and the bytes of each file by its name."""
        lost = {"make": "a file's creation lost", "rename": "a rename lost", "unlink": "a removal lost"}
        for count in range(len(self.pending) + 1):
            entries = self.listed(count)
            kind = {lost[self.pending[count][0]]} if count < len(self.pending) else set()
            for parts in itertools.product(*(list(file.left(cuts)) for file in entries.values())):
                kinds = kind | {part[0] for part in parts if part[0] != "synced"}
                yield kinds or {"all synced"}, {name: part[1] for name, part in zip(entries, parts)}
