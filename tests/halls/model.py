"""A plain model of a hall: codes, a map of what is out, and the lines, records and files that follow from it."""
import base64
import os

META, SEMANTIC, CONTENT, DATA, INSTANCE, ISCC, ID = range(7)
NAMES = ["META", "SEMANTIC", "CONTENT", "DATA", "INSTANCE", "ISCC", "ID"]
PLACES = 256
PLACE_BYTES = 48
REGISTER_BYTES = 16 + PLACES * PLACE_BYTES + 4


def sentences(header):
    """The sentence of each number, from the C header."""
    numbers, found = {}, {}
    for line in open(header, encoding="ascii"):
        words = line.split()
        if len(words) > 2 and words[0].startswith("ISCC_") and words[1] == "=":
            numbers[words[0]] = int(words[2].rstrip(","))
        elif len(words) > 2 and words[0] == "case" and words[1].rstrip(":") in numbers:
            found[numbers[words[1].rstrip(":")]] = line.split('"')[1]
    return found


SENTENCES = sentences(os.path.join(os.path.dirname(os.path.abspath(__file__)), "../../include/iscc.h"))


def words_of(number, where=""):
    return f"{number}{where}: {SENTENCES[number]}"


# ---- codes


def base32(data):
    return base64.b32encode(data).decode().rstrip("=")


def item(main_type, subtype, length, body):
    return bytes([main_type << 4 | subtype, length]) + body


class Code:
    """A unit or a composite, with the units of which it can be typed as a list."""

    def __init__(self, data, units=()):
        self.bytes, self.units = data, list(units)
        self.text = "ISCC:" + base32(data)
        self.main_type = data[0] >> 4

    def typed(self, random):
        """One of its spellings, without a blank."""
        text = self.text[5:]
        if self.units and random.random() < 0.5:
            text = "-".join(base32(unit) for unit in random.sample(self.units, len(self.units)))
        for _ in range(random.choice([0, 0, 1, 4])):
            at = random.randrange(len(text) + 1)
            text = text[:at] + "-" + text[at:]
        text = random.choice(["", "ISCC:", "iscc:", "Iscc:"]) + text
        return random.choice([text, text.lower(), text.swapcase()]) if random.random() < 0.6 else text


def some_unit(random, main_type):
    subtype = random.randrange(5) if main_type in (SEMANTIC, CONTENT) else random.randrange(6) if main_type == ID else 0
    length = random.randrange(5 if main_type == ID else 8)
    return Code(item(main_type, subtype, length, random.randbytes(8 + length if main_type == ID else 4 * length + 4)))


def some_composite(random):
    chosen = [(t, adds) for t, adds in [(META, 4), (SEMANTIC, 2), (CONTENT, 1)] if random.random() < 0.5]
    length = sum(adds for _, adds in chosen)
    subtype = 5 if length == 0 else 6 if length == 4 else random.randrange(5)
    kinds = [t for t, _ in chosen] + [DATA, INSTANCE]
    bodies = [random.randbytes(8) for _ in kinds]
    units = [item(t, subtype if t in (SEMANTIC, CONTENT) else 0, 1, body) for t, body in zip(kinds, bodies)]
    return Code(item(ISCC, subtype, length, b"".join(bodies)), units)


def some_code(random):
    kind = random.randrange(10)
    if kind == 0:
        return Code(item(ISCC, 7, 0, random.randbytes(32)))
    return some_composite(random) if kind < 5 else some_unit(random, random.choice([META, SEMANTIC, CONTENT, DATA, INSTANCE, ID]))


def some_codes(random, count):
    return list({code.bytes: code for code in (some_code(random) for _ in range(count))}.values())


# ---- changes and their records


class Change:
    def __init__(self, code, borrower=None):
        self.code, self.borrower = code, borrower

    def record(self, number):
        body = number.to_bytes(4, "big")
        if self.borrower is not None:
            body += self.borrower.to_bytes(4, "big")
        body += self.code.bytes
        return bytes([4 if self.borrower is None else 3]) + len(body).to_bytes(2, "big") + body


def log_of(changes, first=1):
    return b"".join(change.record(first + i) for i, change in enumerate(changes))


def ends_of(changes):
    """Where each record ends: the n-th is whole in so many bytes."""
    ends = [0]
    for i, change in enumerate(changes):
        ends.append(ends[-1] + len(change.record(i + 1)))
    return ends


# ---- the register


class Register:
    def __init__(self, changes=()):
        self.loans, self.last = {}, 0
        for change in changes:
            self.do(change)

    def copy(self):
        other = Register()
        other.loans, other.last = dict(self.loans), self.last
        return other

    def do(self, change):
        """The change, which has to be one that is accepted."""
        key = change.code.bytes
        assert (key in self.loans) == (change.borrower is None)
        if change.borrower is None:
            del self.loans[key]
        else:
            assert len(self.loans) < PLACES
            self.loans[key] = (change.code, change.borrower)
        self.last += 1

    def in_order(self):
        return [self.loans[key] for key in sorted(self.loans)]

    def counts(self):
        return [sum(code.main_type == t for code, _ in self.loans.values()) for t in range(7)]

    def bytes(self):
        data = b"".join(n.to_bytes(2, "big") for n in [len(self.loans)] + self.counts())
        for code, borrower in self.in_order():
            data += bytes([len(code.bytes)]) + code.bytes.ljust(43, b"\0") + borrower.to_bytes(4, "big")
        return data.ljust(REGISTER_BYTES - 4, b"\0") + self.last.to_bytes(4, "big")

    def sheet(self):
        counts = ", ".join(f"{n} {name}" for n, name in zip(self.counts(), NAMES))
        return [f"{len(self.loans)} out: {counts}"] + [f"out {code.text} to {borrower}" for code, borrower in self.in_order()]

    def ask(self, code):
        found = self.loans.get(code.bytes)
        return f"out {code.text} to {found[1]}" if found else "refused " + words_of(22)

    def replayed(self, tear=None):
        torn = "" if tear is None else f"; the log is torn at byte {tear}"
        return f"replayed to record {self.last}, {len(self.loans)} out{torn}"


# ---- commands


class Command:
    """A line as it is typed, and what the model answers to it."""

    def __init__(self, word, code=None, borrower=None, typed=None, answer=None):
        self.word, self.code, self.borrower, self.answer = word, code, borrower, answer
        spelt = typed or (code.text if code else None)
        self.words = [word] + ([spelt] if spelt else []) + ([str(borrower)] if borrower is not None else [])
        self.line = " ".join(self.words)

    def serve(self, register):
        """The answer's lines and the change, or none; the register is the caller's to change."""
        if self.answer is not None:
            return [self.answer], None
        if self.word == "sheet":
            return register.sheet(), None
        if self.word == "ask":
            return [register.ask(self.code)], None
        is_out = self.code.bytes in register.loans
        if self.word == "issue":
            if is_out or len(register.loans) == PLACES:
                return ["refused " + words_of(20 if is_out else 21)], None
            return [f"issued {self.code.text} to {self.borrower} as record {register.last + 1}"], Change(self.code, self.borrower)
        if not is_out:
            return ["refused " + words_of(22)], None
        return [f"returned {self.code.text} as record {register.last + 1}"], Change(self.code)


NO_COMMANDS = [
    ("", "refused: There is no command."),
    ("  ", "refused: There is no command."),
    ("lend MAAGZTFQTTVIZPJR 7", "refused: There is no such command: issue, return, ask and sheet are."),
    ("new", "refused: There is no such command: issue, return, ask and sheet are."),
    ("issue MAAGZTFQTTVIZPJR", "refused: An issue takes a code and a borrower."),
    ("issue MAAGZTFQTTVIZPJR 7 8", "refused: An issue takes a code and a borrower."),
    ("return", "refused: A return takes a code."),
    ("ask a b", "refused: A question takes a code."),
    ("sheet now", "refused: The sheet takes no more words."),
    ("issue MAAGZTFQTTVIZPJR 4294967296", "refused: The borrower is no number from 0 to 4294967295."),
    ("issue MAAGZTFQTTVIZPJR -1", "refused: The borrower is no number from 0 to 4294967295."),
    ("x" * 2049, "refused: The line is longer than 2,048 bytes."),
    ("issue A 7", "refused " + words_of(5)),
    ("return MAAGZTFQTTVIZPJ1", "refused " + words_of(4)),
    ("ask -", "refused " + words_of(1)),
]


def some_borrower(random):
    return random.choice([0, 7, 1204, random.randrange(2**32), 2**32 - 1])


def some_command(random, codes, changes_only=False):
    code = random.choice(codes)
    kind = random.random()
    if changes_only or kind < 0.7:
        if random.random() < 0.55:
            return Command("issue", code, some_borrower(random), code.typed(random))
        return Command("return", code, typed=code.typed(random))
    if kind < 0.86:
        return Command("ask", code, typed=code.typed(random))
    if kind < 0.93:
        return Command("sheet")
    line, answer = random.choice(NO_COMMANDS)
    return Command(line, answer=answer)


def some_changes(random, codes, count, begin=()):
    """Changes that are all accepted, behind those that there are."""
    register, made = Register(begin), []
    while len(made) < count:
        _, change = some_command(random, codes, changes_only=True).serve(register)
        if change:
            register.do(change)
            made.append(change)
    return made


def status_of(answers):
    return 1 if any(line.startswith("refused") for line in answers) else 0
