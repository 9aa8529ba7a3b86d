#!/usr/bin/env python3
"""Document 02, Slip 2, read a second time: the clerk of eight desks, to hold against `clerk` and the library.

    python3 tools/clerk_model.py LIBRARY [EVENTS]

Clerk is written from the words of the slip, with nothing of the port; what an edit does it is told. `played` is the program
`clerk` on lines.

Run, it holds the library, a shared object as clients/run makes it, against Clerk: EVENTS random events (100,000 if none are
given), always the same, on several files. It prints how many of each answer were met, and stops at the first that differs.
"""
import collections
import ctypes
import pathlib
import random
import re
import struct
import sys

DESKS = 8


# ---- the clerk


class Clerk:
    """What waits and what is held at each desk, and the desk served last."""

    def __init__(self):
        self.waiting = {}  # desk: key, job
        self.held = {}  # desk: key, job, answer
        # The round begins with desk 0.
        self.served = DESKS - 1

    def submit(self, desk, key, job):
        """("waiting",), ("held", answer) or ("refused", number)."""
        if desk >= DESKS:
            return "refused", 3
        waiting, held = self.waiting.get(desk), self.held.get(desk)
        for kept in (waiting, held):
            if kept and kept[0] == key and kept[1] != job:
                return "refused", 33
        if held and held[0] == key:
            return "held", held[2]
        if waiting and waiting[0] != key:
            return "refused", 34
        self.waiting[desk] = key, job
        return ("waiting",)

    def turn(self, edit):
        """("nobody",), or ("served", desk, answer), where `edit` does the job and gives its answer. If it raises, nothing was
        served."""
        for desk in [(self.served + k) % DESKS for k in range(1, DESKS + 1)]:
            if desk in self.waiting:
                key, job = self.waiting[desk]
                answer = edit(job)
                del self.waiting[desk]
                self.held[desk] = key, job, answer
                self.served = desk
                return "served", desk, answer
        return ("nobody",)

    def copy(self):
        other = Clerk()
        other.waiting, other.held, other.served = dict(self.waiting), dict(self.held), self.served
        return other


# A job is ("cut", shell, edge, point, parameter) or ("remove", shell, point). A parameter is the bits of its f64, or NOWHERE.
NOWHERE = "nowhere"


# ---- the program: lines and answers

BEGIN = "no job: begin with submit or turn"
MARKED = "no job: begins with a byte order mark: save the jobs as UTF-8 without one"
OVER = "no job: over 65536 bytes"
FORMS = {
    b"cut": "submit DESK KEY cut SHELL EDGE POINT PARAMETER",
    b"remove": "submit DESK KEY remove SHELL POINT",
}
FORM = "submit DESK KEY cut|remove .."


def number(word):
    return int(word) if re.fullmatch(rb"[0-9]{1,9}", word) else None


def key(word):
    return int(word) if re.fullmatch(rb"[0-9]{1,10}", word) and int(word) < 2**32 else None


def kind(word):
    return word.decode() if word in FORMS else None


def bits(real):
    return struct.unpack("<Q", struct.pack("<d", real))[0]


def parameter(word):
    if word == b"nowhere":
        return NOWHERE
    if re.fullmatch(rb"0x[0-9a-fA-F]{16}", word):
        return int(word, 16)
    if re.fullmatch(rb"-?[0-9]+(\.[0-9]+)?", word) and sum(map(word.count, b"0123456789")) <= 15:
        return bits(float(word))
    return None


READERS = {b"cut": [number, number, number, parameter], b"remove": [number, number]}


def parse(line):
    """("turn",), ("submit", desk, key, job), or ("no job", what is printed)."""
    if len(line) > 65536:
        return "no job", OVER
    if line.startswith(b"\xef\xbb\xbf"):
        return "no job", MARKED
    words = [word for word in re.split(rb"[ \t]", line.removesuffix(b"\r")) if word]
    if words == [b"turn"]:
        return ("turn",)
    if words[:1] == [b"turn"]:
        return "no job", "no job: word 2 of turn"
    if words[:1] != [b"submit"]:
        return "no job", BEGIN
    named = words[3] if len(words) > 3 else b""
    form = FORMS.get(named, FORM)
    readers = [number, key, kind, *READERS.get(named, ())]
    values = []
    for k, reader in enumerate(readers, 1):
        value = reader(words[k]) if k < len(words) else None
        if value is None:
            # Before the job's name every submission has one form.
            return "no job", f"no job: word {k + 1} of {form if k > 2 else FORM}"
        values.append(value)
    if len(words) > len(readers) + 1:
        return "no job", f"no job: word {len(readers) + 2} of {form}"
    desk, under, *job = values
    return "submit", desk, under, tuple(job)


def parameter_text(value):
    return value if value == NOWHERE else f"0x{value:016x}"


def job_text(job):
    """The job as a line of `edit`."""
    return " ".join([*map(str, job[:4]), *map(parameter_text, job[4:])])


def said(answer):
    """What is printed, where an edit's answer is its line."""
    if answer[0] == "served":
        return f"desk {answer[1]} {answer[2]}"
    return " ".join(map(str, answer))


def played(lines, edit):
    """The answers to the lines, on a new clerk."""
    clerk = Clerk()
    for line in lines:
        event = parse(line)
        if event[0] == "no job":
            yield event[1]
        elif event[0] == "turn":
            yield said(clerk.turn(edit))
        else:
            yield said(clerk.submit(*event[1:]))


# ---- random events

NAN = 0x7FF8000000000000
INSIDE = [bits(real) for real in (0.5, 0.5, 0.5, 0.25, 0.75, 0.125, 35.5, 17.25)]
# Parameters that one could take for one another.
ZEROS, INFINITE, HALVES = [bits(0.0), bits(-0.0)], [bits(float("inf")), bits(float("-inf"))], [bits(0.5), bits(0.5) + 1, bits(-0.5)]
NANS = [NAN, NAN + 1, NAN + 2**63, 0x7FF0000000000001, 2**64 - 1]
# What makes another number of one, mostly one that no pattern has.
UPS = [1, 65535, 65536, 65537, 131072, 2**29 - 3, 2**32, 2**32 + 1, 2**64 - 65536, 2**64 - 8]
KEYS = [0, 1, 2, 7, 65536, 2**31, 2**32 - 1]


def in_use(file):
    """The spans of the edges that the wires of a file use, the points that they use, and those that they do not."""
    try:
        table = struct.unpack_from("<14I", file)
        uses = sorted({use & 32767 for (use,) in struct.iter_unpack("<H", file[table[4] : table[6]])})
        ends = {point for edge in uses for point in struct.unpack_from("<HH", file, table[2] + 20 * edge)}
        return {edge: struct.unpack_from("<dd", file, table[2] + 20 * edge + 4) for edge in uses}, sorted(ends), sorted(set(range(table[1])) - ends)
    except struct.error:
        return {}, [], []


class Chance:
    """Jobs, keys and desks by chance, few at a time, so that they meet again."""

    def __init__(self, source, largest, nowhere, file):
        self.r, self.largest, self.nowhere = source, largest, nowhere
        self.anew(file)

    def anew(self, file):
        """Other jobs and keys from now on, of which some can be done on this file."""
        r = self.r
        self.spans, self.used, self.free = in_use(file)
        self.keys = r.sample(KEYS, r.randint(2, 4))
        self.sent, self.jobs = [], []
        for _ in range(r.randint(2, 5)):
            job = self.job()
            self.jobs += [job, *self.near(job)] if r.random() < 0.4 else [job]

    def parameter(self):
        return self.r.choice(INSIDE if self.r.random() < 0.7 else [*ZEROS, *INFINITE, *HALVES, *NANS, self.nowhere])

    def job(self):
        r = self.r
        shell = r.choice([0, 0, 0, 0, 0, 0, 1])
        if r.random() < 0.4:
            return "remove", shell, self.one_of(self.used, 0.8)
        edge, at = self.one_of(list(self.spans), 0.9), self.parameter()
        if edge in self.spans and r.random() < 0.7:
            at = bits(sum(self.spans[edge]) / 2)
        return "cut", shell, edge, self.one_of(self.free, 0.8), at

    def one_of(self, numbers, often):
        """Often one of the numbers, else any small one."""
        return self.r.choice(numbers) if numbers and self.r.random() < often else self.r.choice([0, 1, 2, 3, 4, 5, 6, 7, 35, 36, 50])

    def near(self, job):
        """Two jobs that differ from this one in their kind, or in one part alone."""
        r = self.r
        k = r.randrange(len(job))
        if k == 0:
            return [("remove", job[1], job[3]) if job[0] == "cut" else ("cut", job[1], 0, job[2], at) for at in (0, self.nowhere)]
        if k == 4:
            values = r.sample(r.choice([ZEROS, INFINITE, HALVES, [*NANS, self.nowhere]]), 2)
        else:
            values = [min(job[k] + up, self.largest) for up in r.sample(UPS, 2)]
        return [(*job[:k], value, *job[k + 1 :]) for value in values]

    def submission(self):
        """A desk, a key and a job; often one that was sent before."""
        r = self.r
        if self.sent and r.random() < 0.4:
            return r.choice(self.sent)
        desk = r.choice([0, 0, 0, 1, 1, 2, 3, 4, 5, 6, 7, 7]) if r.random() < 0.94 else r.choice([8, 9, 15, 16, 256, 65536, self.largest])
        self.sent = [*self.sent[-5:], (desk, r.choice(self.keys), r.choice(self.jobs))]
        return self.sent[-1]


DECIMALS = {bits(float(word)): word for word in ("0", "-0", "0.5", "-0.5", "0.25", "0.75", "0.125", "35.5", "17.25")}


def parameter_word(r, value):
    """A parameter as it may be written."""
    if value in DECIMALS and r.random() < 0.7:
        word = DECIMALS[value]
        return word + r.choice(["", "0", "00"] if "." in word else ["", ".0"])
    word = parameter_text(value)
    return word if value == NOWHERE or r.random() < 0.5 else "0x" + word[2:].upper()


def spoilt(r, line):
    """A line with a word more, a word less, or another byte in it."""
    words = line.split(" ")
    k = r.randrange(len(words))
    what = r.randrange(4)
    if what == 0:
        del words[k]
    elif what == 1:
        words.insert(k, r.choice(["0", "x", "cut", "remove", "turn", "4294967296", "1234567890", "nowhere"]))
    elif what == 2:
        words[k] += r.choice(["0", "x", "+", "-", ".", "\r", "\0"])
    else:
        words[k] = r.choice(["-1", "+1", "1e3", "00000000000", "4294967296", "0x0", "Turn", "", "#"])
    return " ".join(words)


def lines(seed, count, file):
    """Random lines of the program: submissions and turns, and some that are none."""
    r = random.Random(seed)
    chance = Chance(r, 999999999, NOWHERE, file)
    for k in range(count):
        if k % 40 == 39:
            chance.anew(file)
        if r.random() < 0.35:
            line = "turn"
        else:
            desk, under, job = chance.submission()
            words = [str(word) if r.random() < 0.9 else str(word).zfill(9) for word in job[1:4]]
            words += [parameter_word(r, value) for value in job[4:]]
            line = " ".join(["submit", str(desk), str(under) if r.random() < 0.9 else str(under).zfill(10), job[0], *words])
        if r.random() < 0.08:
            line = spoilt(r, line)
        if r.random() < 0.1:
            line = r.choice([" ", "\t", ""]) + line.replace(" ", r.choice([" ", "\t", "  "])) + r.choice(["", " ", "\r", " \r"])
        yield line.encode()


# ---- the library

FILE, CLERK = 41048, 145
NOWHERE_BITS = NAN
size, u8s, u64s = ctypes.c_size_t, ctypes.POINTER(ctypes.c_uint8), ctypes.POINTER(ctypes.c_uint64)


class Answer(ctypes.Structure):
    _fields_ = [(name, size) for name in ("outcome", "number", "first", "second", "third", "fourth")]

    def values(self):
        return tuple(getattr(self, name) for name, _ in self._fields_)


class ClerkAnswer(ctypes.Structure):
    _fields_ = [("outcome", size), ("number", size), ("state", size), ("desk", size), ("answer", Answer)]

    def values(self):
        return self.outcome, self.number, self.state, self.desk, self.answer.values()


NONE = (0, 0, 0, 0, 0, 0)


class Library:
    def __init__(self, path):
        library = ctypes.CDLL(str(path))

        def declared(name, result, *types):
            function = getattr(library, "wuzsanget_" + name)
            function.restype, function.argtypes = result, types
            return function

        file, out, job = (u8s, size), (u8s, size), (u64s, size, ctypes.c_uint32, size)
        self.read = declared("read", Answer, *file)
        self.cut_edge = declared("cut_edge", Answer, *file, size, size, size, ctypes.c_uint64, *out)
        self.remove_vertex = declared("remove_vertex", Answer, *file, size, size, *out)
        self.clerk_new = declared("clerk_new", None, u64s)
        self.submit_cut = declared("submit_cut", ClerkAnswer, *job, size, size, ctypes.c_uint64)
        self.submit_remove = declared("submit_remove", ClerkAnswer, *job, size)
        self.clerk_turn = declared("turn", ClerkAnswer, u64s, *file, *out)

    def edit(self, file, job):
        """The edit of a job, its answer, and the edited file, or the same file if refused."""
        out = (ctypes.c_uint8 * FILE)()
        call = self.cut_edge if job[0] == "cut" else self.remove_vertex
        answer = call(*lent(file), *job[1:], out, FILE).values()
        return answer, bytes(out)[: answer[4]] if answer[0] == 0 else file

    def new(self, content=None):
        """A new clerk, put in the place of any content."""
        clerk = (ctypes.c_uint64 * CLERK)(*(content or []))
        self.clerk_new(clerk)
        return clerk

    def submit(self, clerk, desk, under, job):
        call = self.submit_cut if job[0] == "cut" else self.submit_remove
        return call(clerk, desk, under, *job[1:]).values()

    def turn(self, clerk, file, out):
        return self.clerk_turn(clerk, *lent(file), out, len(out) if out else 0).values()


def lent(file):
    """Bytes as the library takes them: null where there are none."""
    return ((ctypes.c_uint8 * len(file)).from_buffer_copy(file) if file else None), len(file)


LENT = b"\7" * FILE


def room(length=FILE):
    return (ctypes.c_uint8 * length).from_buffer_copy(LENT[:length]) if length else None


class Differs(Exception):
    pass


def same(got, told, what):
    if got != told:
        if isinstance(told, bytes):
            got, told = "what it holds", "what it should hold"
        raise Differs(f"{what}: {got} is not {told}")


def wanted(answer):
    """The library's numbers for the model's answer."""
    if answer[0] == "refused":
        return 2, answer[1], 0, 0, NONE
    if answer[0] == "held":
        return 0, 0, 1, 0, answer[1]
    if answer[0] == "served":
        return 0, 0, 1, answer[1], answer[2]
    return 0, 0, 0, 0, NONE


class Pair:
    """The model and the library at the same events, and the file that both have."""

    def __init__(self, library, file, tally, content=None):
        self.library, self.file, self.tally = library, file, tally
        self.model, self.clerk = Clerk(), library.new(content)

    def copy(self):
        other = Pair(self.library, self.file, collections.Counter())
        other.model = self.model.copy()
        ctypes.memmove(other.clerk, self.clerk, ctypes.sizeof(self.clerk))
        return other

    def submit(self, desk, under, job):
        before = bytes(self.clerk)
        waits = self.model.waiting.get(desk)
        answer = self.model.submit(desk, under, job)
        kind = " ".join(map(str, answer)) if answer[0] == "refused" else answer[0]
        if answer[0] == "held":
            kind += ", another waits" * (waits is not None)
        elif answer[0] == "waiting":
            kind += ", sent again" * (waits is not None)
        self.tally[f"submit: {kind}"] += 1
        got = self.library.submit(self.clerk, desk, under, job)
        same(got, wanted(answer), f"submit {desk} {under} {job}")
        if kind != "waiting":
            same(bytes(self.clerk), before, f"submit {desk} {under} {job}, {kind}: the clerk")

    def turn(self):
        before, file, out = bytes(self.clerk), self.file, room()

        def edit(job):
            answer, self.file = self.library.edit(file, job)
            return answer

        answer = self.model.turn(edit)
        kind = answer[0]
        if kind == "served":
            kind += (", done", ", refused by the reading checks", ", refused")[answer[2][0]]
        self.tally[f"turn: {kind}"] += 1
        got = self.library.turn(self.clerk, file, out)
        same(got, wanted(answer), "turn")
        done = kind == "served, done"
        same(bytes(out), self.file + LENT[len(self.file) :] if done else LENT, "turn: the lent list")
        if kind == "nobody":
            same(bytes(self.clerk), before, "a turn with nobody waiting: the clerk")
        return answer

    def short_turn(self, length):
        before, out = bytes(self.clerk), room(length)
        self.tally["turn: refused 17"] += 1
        same(self.library.turn(self.clerk, self.file, out), (2, 17, 0, 0, NONE), f"a turn with {length} bytes")
        same(bytes(self.clerk), before, f"a turn with {length} bytes: the clerk")
        same(bytes(out or b""), LENT[:length], f"a turn with {length} bytes: the lent list")

    def seen(self):
        """All that a clerk holds, by its answers, on a copy: what each desk holds and has waiting, and in which sequence it
        is served."""
        copy = self.copy()
        for desk in range(DESKS):
            for kept in (self.model.held.get(desk), self.model.waiting.get(desk)):
                if kept:
                    copy.submit(desk, *kept[:2])
        while copy.turn()[0] != "nobody":
            pass
        for desk, kept in copy.model.held.items():
            copy.submit(desk, *kept[:2])


def any_content(library, r, files, chance, tally):
    """A list of random numbers as a clerk: each call gives an answer that one can be; what is held is then what the list has."""
    top = r.choice([2, 3, 9, 2**16, 2**32, 2**64])
    clerk = (ctypes.c_uint64 * CLERK)(*(r.choice([r.randrange(top), r.randrange(3), 2**64 - 1 if top > 9 else 1]) for _ in range(CLERK)))
    nobody = False
    for k in range(30):
        tally["any content"] += 1
        file, out = r.choice(files), room()
        if k >= 21 or r.random() < 0.4:
            # The last nine are turns: each serves a desk that then waits no more.
            outcome, number, state, desk, answer = library.turn(clerk, file, out)
            nobody = state == 0
            same((outcome, number), (0, 0), "any content: a turn")
            right = state == 0 and desk == 0 and answer == NONE
            if state == 1 and desk < DESKS:
                done = answer[0] == 0
                right = answer[0] in (0, 1, 2) and done == (answer[1] == 0) and (not done or answer[4] <= FILE)
                length = answer[4] if done else 0
                same(bytes(out)[length:], LENT[length:], "any content: the lent list")
                if done:
                    same(library.read(*lent(bytes(out)[:length])).values(), NONE, "any content: the edited file")
        else:
            outcome, number, state, desk, answer = library.submit(clerk, *chance.submission())
            right = desk == 0 and (state == 1 or state == 0 and answer == NONE)
            right = right and (outcome == 0 and number == 0 or outcome == 2 and number in (3, 33, 34) and state == 0)
        if not right:
            raise Differs(f"any content: {(outcome, number, state, desk, answer)}")
    if not nobody:
        raise Differs("any content: nine turns, and somebody waits")


def compared(library, files, seed, events):
    """The tally of so many events; Differs is raised at the first answer that differs."""
    r, tally = random.Random(seed), collections.Counter()
    chance = Chance(r, 2**64 - 1, NOWHERE_BITS, files[0])
    pair = Pair(library, files[0], tally)
    for k in range(events):
        if k % 40 == 39:
            chance.anew(pair.file)
        what = r.random()
        if what < 0.003:
            # A new clerk, where another was.
            pair = Pair(library, r.choice(files), tally, list(pair.clerk))
        elif what < 0.01:
            # Others have changed the file.
            pair.file = r.choice(files)
        elif what < 0.015:
            pair.seen()
        elif what < 0.016:
            any_content(library, r, files, chance, tally)
        if what < 0.03:
            pair.short_turn(r.choice([0, 1, 144, 1498, 41047, r.randrange(FILE)]))
        elif what < 0.4:
            pair.turn()
        else:
            pair.submit(*chance.submission())
    return tally


def main():
    # Not needed by those who only import the model.
    import clerk_vectors

    samples = pathlib.Path(__file__).resolve().parent.parent / "samples"
    files = [*clerk_vectors.PATTERNS.values(), *[clerk_vectors.PATTERNS["notches"]] * 8, *[clerk_vectors.PATTERNS["coat"]] * 4]
    files += [(samples / f"{name}.pattern").read_bytes() for name in ("triangle", "coat-mesh")]
    events = int(sys.argv[2]) if len(sys.argv) > 2 else 100000
    try:
        tally = compared(Library(sys.argv[1]), files, 1, events)
    except Differs as fault:
        sys.exit(f"clerk_model.py: {fault}")
    for kind, count in sorted(tally.items()):
        print(f"{count:7} {kind}")


if __name__ == "__main__":
    main()
