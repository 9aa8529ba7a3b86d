#!/usr/bin/env python3
"""A client in Python, and the test of the library from Python: the functions of include/wuzsanget.h by ctypes, on
the tetrahedron of docs/FORMAT.md and the mesh of a coat. Prints nothing; exit status 0 if nothing fails.

    clients/client.py LIBRARY      the library as a shared object, which clients/run makes
"""
import ctypes
import pathlib
import random
import struct
import sys

size, u8s, u16s = ctypes.c_size_t, ctypes.POINTER(ctypes.c_uint8), ctypes.POINTER(ctypes.c_uint16)

VERSION = 2
FILE, REPORT, SHOW, SAID, LINE, BODIES, POINTS, WIRES, LISTINGS = 41048, 1126400, 262144, 256, 65536, 7, 2048, 1024, 512
REVERSED = 32768
HALF = struct.unpack("<Q", struct.pack("<d", 0.5))[0]


class Answer(ctypes.Structure):
    _fields_ = [(name, size) for name in ("outcome", "number", "first", "second", "third", "fourth")]


class Job(ctypes.Structure):
    _fields_ = [("text", size), ("file", size)]


class Mesh(ctypes.Structure):
    """A mesh that comes in pieces."""

    _fields_ = [
        ("numbers", ctypes.c_uint64 * 24),
        ("spans", ctypes.c_double * 2048),
        ("tables", ctypes.c_uint16 * 12312),
        ("index", ctypes.c_uint16 * 17408),
    ]

    def start(self):
        call("import_start", self.numbers, self.index)
        return self

    def step(self, piece):
        call("import_step", self.numbers, self.tables, self.spans, self.index, *lent(piece))

    def finish(self, out):
        return call("import_finish", self.numbers, self.tables, self.spans, self.index, out, len(out))


class Refused(Exception):
    """A call that was refused: how, the number, and what follows it."""


def declared(library):
    """The library with each function's types: a list is a pointer and a length, one of fixed room a pointer alone."""
    file = [u8s, size]
    face = [u16s, size, u16s, size]
    for name, result, more in (
        ("read", Answer, []),
        ("counts", Answer, [u16s]),
        ("outline", Answer, [size]),
        ("write", Answer, [u8s, size]),
        ("report", size, [u8s]),
        ("show", size, [u8s]),
        ("draft", Answer, [u8s, u8s]),
        ("shell_condition", Answer, [size]),
        ("extract_boundaries", Answer, [size, u16s, u16s]),
        ("is_connected", Answer, [size]),
        ("connected_components", Answer, [size, u16s, u16s]),
        ("singular_vertices", Answer, [size, u16s]),
        ("solid", Answer, []),
        ("cut_edge", Answer, [size, size, size, ctypes.c_uint64, u8s, size]),
        ("remove_vertex", Answer, [size, size, u8s, size]),
        ("concat", Answer, [size, size, u8s, size]),
        ("add_vertex", Answer, [size, u8s, size]),
        ("add_boundary", Answer, [size, u16s, size, *face]),
        ("cut_by_wire", Answer, [size, u16s, size, *face]),
        ("cut_by_edge", Answer, [size, size, *face]),
        ("glue", Answer, [size, size, *face]),
        ("edit", Job, [u8s, size, u8s, u8s]),
        ("import", Answer, [u8s, size]),
    ):
        function = getattr(library, "wuzsanget_" + name)
        function.restype, function.argtypes = result, [*file, *more]
    mesh = [ctypes.POINTER(ctypes.c_uint64), u16s, ctypes.POINTER(ctypes.c_double), u16s]
    for name, result, types in (
        ("version", size, []),
        ("import_start", None, [mesh[0], mesh[3]]),
        ("import_step", None, [*mesh, u8s, size]),
        ("import_finish", Answer, [*mesh, u8s, size]),
    ):
        function = getattr(library, "wuzsanget_" + name)
        function.restype, function.argtypes = result, types
    return library


LIBRARY = declared(ctypes.CDLL(sys.argv[1]))


def lent(numbers, kind=ctypes.c_uint8):
    """A list as the library takes it: null where it is empty."""
    return ((kind * len(numbers))(*numbers) if numbers else None), len(numbers)


def call(name, *words):
    return getattr(LIBRARY, "wuzsanget_" + name)(*words)


def done(name, *words):
    """The values of a call's answer."""
    a = call(name, *words)
    if a.outcome:
        raise Refused(a.outcome, a.number, a.first, a.second, a.third)
    return a.first, a.second, a.third, a.fourth


def parted(numbers, lengths, wires):
    ends = [sum(lengths[: k + 1]) for k in range(wires)]
    return [list(numbers[end - length : end]) for end, length in zip(ends, lengths)]


def text(name, file, room):
    out = (ctypes.c_uint8 * room)()
    return bytes(out[: call(name, *lent(file), out)]).decode("ascii")


def draft(text):
    """The file of a text, or the sentence that says what is wrong."""
    out, said = (ctypes.c_uint8 * FILE)(), (ctypes.c_uint8 * SAID)()
    a = call("draft", *lent(text), out, said)
    return bytes(said[: a.third]).decode("ascii") if a.outcome else bytes(out[: a.first])


def counts(file):
    out = (ctypes.c_uint16 * BODIES)()
    done("counts", *lent(file), out)
    return list(out)


def groups(name, file, shell, room):
    """Openings or components."""
    out, lengths = (ctypes.c_uint16 * room)(), (ctypes.c_uint16 * room)()
    return parted(out, lengths, done(name, *lent(file), shell, out, lengths)[0])


def singular(file, shell):
    out = (ctypes.c_uint16 * POINTS)()
    return list(out[: done("singular_vertices", *lent(file), shell, out)[0]])


def edited(name, file, *numbers):
    """The file after an edit, and its new edges or its new point."""
    out = (ctypes.c_uint8 * FILE)()
    first, second, length, _ = done(name, *lent(file), *numbers, out, FILE)
    return bytes(out[:length]), first, second


def faced(name, file, *words):
    """The wires of an edit of a face."""
    uses, lengths = (ctypes.c_uint16 * POINTS)(), (ctypes.c_uint16 * WIRES)()
    return parted(uses, lengths, done(name, *lent(file), *words, uses, POINTS, lengths, WIRES)[1])


def edit(line, file):
    """The answer of a job, and the edited file, empty where the file stays as it is."""
    out, told = (ctypes.c_uint8 * FILE)(), (ctypes.c_uint8 * LINE)()
    job = call("edit", *lent(line), *lent(file), out, told)
    return bytes(told[: job.text]).decode("ascii"), bytes(out[: job.file])


# ---- the test

EDGES = ((0, 1), (1, 2), (2, 0), (0, 3), (1, 3), (2, 3))
OUTLINES = ((0, 1, 2), (REVERSED, 3, 4 + REVERSED), (1 + REVERSED, 4, 5 + REVERSED), (2 + REVERSED, 5, 3 + REVERSED))


def tetrahedron():
    """The tetrahedron of docs/FORMAT.md, and a fifth point that is free."""
    bodies = (
        [struct.pack("<I", label) for label in range(5)],
        [struct.pack("<HHdd", *ends, 0, 1) for ends in EDGES],
        [struct.pack("<H", use) for outline in OUTLINES for use in outline],
        [struct.pack("<H", 3)] * 4,
        [struct.pack("<HH", 1, 0)] * 4,
        [struct.pack("<H", 4)],
        [struct.pack("<H", listing) for listing in range(4)],
    )
    table, offset = b"", 56
    for body in bodies:
        table += struct.pack("<II", offset, len(body))
        offset += sum(map(len, body))
    return table + b"".join(b"".join(body) for body in bodies)


def same(got, told):
    if got != told:
        sys.exit(f"client.py: {got!r} is not {told!r}")


def refused(number, function, *words):
    try:
        got = function(*words)
    except Refused as refusal:
        got = refusal.args[1]
    same(got, number)


def reports(file):
    same(done("read", *lent(file)), (0, 0, 0, 0))
    same(counts(file), [5, 6, 12, 4, 4, 1, 4])
    same(done("outline", *lent(file), 2), (6, 3, 0, 0))
    same(done("shell_condition", *lent(file), 0)[0], 3)
    same(groups("extract_boundaries", file, 0, POINTS), [])
    same(done("is_connected", *lent(file), 0)[0], 1)
    same(groups("connected_components", file, 0, LISTINGS), [[0, 1, 2, 3]])
    same(singular(file, 0), [])
    same(done("solid", *lent(file)), (0, 0, 0, 0))
    same(
        text("report", file, REPORT),
        "shell 0\ncondition Closed\nconnected yes\nlookups 0\ncomponent 0+ 1+ 2+ 3+\nsolid accepted\n",
    )
    same(
        text("show", file, SHOW),
        "".join(f"point {k} label {k}\n" for k in range(5))
        + "".join(f"edge {k} from {a} to {b} span 0 1\n" for k, (a, b) in enumerate(EDGES))
        + "face 0 surface 0 wire 0+ 1+ 2+\nface 1 surface 0 wire 0- 3+ 4-\n"
        + "face 2 surface 0 wire 1- 4+ 5-\nface 3 surface 0 wire 2- 5+ 3-\nshell 0 faces 0+ 1+ 2+ 3+\n",
    )


def edits(file):
    # Edge 0 stands on two outlines: a cut makes two edges and two uses more, and the point's removal undoes
    # the uses and makes one edge more.
    cut, first, second = edited("cut_edge", file, 0, 0, 4, HALF)
    same((first, second, counts(cut)), (6, 7, [5, 8, 14, 4, 4, 1, 4]))
    refused(14, edited, "cut_edge", cut, 0, 0, 4, HALF)
    back, first, _ = edited("remove_vertex", cut, 0, 4)
    same((first, counts(back)), (8, [5, 9, 12, 4, 4, 1, 4]))
    same(done("solid", *lent(back)), (0, 0, 0, 0))
    same(edited("concat", file, 0, 1)[1], 6)
    refused(29, edited, "concat", file, 0, 2)
    more, first, _ = edited("add_vertex", file, 7)
    same((first, counts(more)), (5, [6, 6, 12, 4, 4, 1, 4]))
    refused(3, edited, "add_vertex", file, 1 << 32)
    # Text and back.
    same(draft(text("show", more, SHOW).encode()), more)
    same(draft(b"empty\n"), struct.pack("<14I", *(56, 0) * 7))
    same(draft(b"point 1 label 0"), "line 1: point 0 is expected\n")
    # Faces 0 and 1 meet along edge 0, and are one without it.
    same(faced("glue", file, 0, 1), [[3, 4 + REVERSED, 1, 2]])
    same(faced("cut_by_edge", file, 0, 0), [[1, 2, 0], [0, REVERSED]])
    same(faced("cut_by_wire", file, 0, *lent([0], ctypes.c_uint16)), [[1, 2, 0], [0, REVERSED]])
    refused(9, faced, "add_boundary", file, 0, *lent(OUTLINES[1], ctypes.c_uint16))
    # The cut and the glue as jobs.
    same(edit(b"cut 0 0 4 0.5", file), ("done edges 6 7\n", cut))
    same(edit(b"glue 0+ 1+", file), ("done wire 3+ 4- 1+ 2+\n", b""))
    same(edit(b"cut 0 65536 4 0.5", file), ("refused 3\n", b""))


def unnamed(file):
    """Numbers that name nothing, though their lower 16 bits do."""
    refused(3, edited, "cut_edge", file, 0, 65542, 4, HALF)
    for up in (65536, 1 << 32, (1 << 64) - 65536):
        refused(3, done, "outline", *lent(file), up)
        refused(3, done, "shell_condition", *lent(file), up)
        refused(3, groups, "extract_boundaries", file, up, POINTS)
        refused(3, done, "is_connected", *lent(file), up)
        refused(3, groups, "connected_components", file, up, LISTINGS)
        refused(3, singular, file, up)
        refused(3, edited, "cut_edge", file, up, 0, 4, HALF)
        refused(3, edited, "cut_edge", file, 0, up, 4, HALF)
        refused(3, edited, "cut_edge", file, 0, 0, up + 4, HALF)
        refused(3, edited, "remove_vertex", file, up, 3)
        refused(3, edited, "remove_vertex", file, 0, up + 3)
        refused(3, edited, "concat", file, up, 1)
        refused(3, edited, "concat", file, 0, up + 1)
        refused(3, faced, "add_boundary", file, up, None, 0)
        refused(3, faced, "cut_by_wire", file, up, *lent([0], ctypes.c_uint16))
        refused(3, faced, "cut_by_edge", file, up, 0)
        refused(3, faced, "cut_by_edge", file, 0, up)
        refused(3, faced, "glue", file, up, 1)
        refused(3, faced, "glue", file, 0, up + 1)


def nulls(file):
    """Null for a list of no entries."""
    refused(1, done, "read", None, 0)
    refused(1, counts, b"")
    refused(17, done, "write", *lent(file), None, 0)
    refused(6, faced, "add_boundary", file, 0, None, 0)
    refused(19, faced, "cut_by_wire", file, 0, None, 0)
    refused(17, done, "glue", *lent(file), 0, 1, None, 0, None, 0)
    same(text("report", b"", REPORT), "refused 1 body 0 record 0\n")
    same(text("show", b"", SHOW), "refused 1 body 0 record 0\n")
    same(edit(b"", b"")[0], "no job: begin with cut, remove, concat, point, add, cutface or glue\n")


def meshes():
    """The mesh of a coat, whole and in pieces."""
    samples = pathlib.Path(__file__).resolve().parent.parent / "samples"
    mesh, file = (samples.joinpath(f"coat-mesh.{kind}").read_bytes() for kind in ("obj", "pattern"))
    wrong = b"v\nv\nv\nf 1 2 4\n"
    n = len(file)

    def answered(a, out, values, written=b""):
        """An answer with these first values; the list has what was written, and after that what it had."""
        same((a.outcome, a.number, a.first, a.second, a.third, a.fourth), (*values, 0, 0, 0))
        same(bytes(out), written + b"\7" * (len(out) - len(written)))

    def room(length=FILE):
        return (ctypes.c_uint8 * length)(*[7] * length)

    def imported(given, out, *told):
        answered(call("import", *lent(given), out, len(out)), out, *told)

    imported(mesh, room(), (0, 0, n), file)
    imported(mesh, room(n - 1), (2, 17, n))
    imported(wrong, room(), (2, 31, 4))
    for size in (1, 2, 3, 7, 4096):
        for given in (wrong, mesh):
            m = Mesh().start()
            for k in range(0, len(given), size):
                m.step(given[k : k + size])
            if given == wrong:
                out = room()
                answered(m.finish(out), out, (2, 31, 4))
        for out, values, written in ((room(n - 1), (2, 17, n), b""), (room(), (0, 0, n), file)):
            answered(m.finish(out), out, values, written)
    # No bytes: one shell without listings.
    none = struct.pack("<14I", *(56, 0) * 5, 56, 1, 58, 0) + bytes(2)
    imported(b"", room(), (0, 0, 58), none)
    m, out = Mesh().start(), room()
    m.step(b"")
    answered(m.finish(out), out, (0, 0, 58), none)
    # Any content, not started: an answer, and what is written is a pattern.
    chance = random.Random(1)
    contents = [b"\xff" * ctypes.sizeof(Mesh), *(chance.randbytes(ctypes.sizeof(Mesh)) for _ in range(50))]
    for k, content in enumerate(contents):
        m, out = Mesh.from_buffer_copy(content), room()
        if k % 2:  # else a place in a line that no line has: refused at once
            m.numbers[1] = k % 5
        m.step(mesh)
        a = m.finish(out)
        if a.outcome == 0:
            done("read", *lent(out[: a.first]))
        else:
            same(bytes(out), b"\7" * FILE)


def main():
    same(call("version"), VERSION)
    file = tetrahedron()
    for part in (reports, edits, unnamed, nulls):
        part(file)
    meshes()


main()
