#!/usr/bin/env python3
"""Vectors for patterns as text.

Each row of the table below is one text and what its making gives, worked out by hand from the form of a line
(docs/GUIDE.md) and document 01: `length N`, or the line of its first fault with its numbers. The pattern files among the
recorded ones go to text and back.

It writes, into crates/replay_text or the folder given,

    data/NAME   the text of each vector, and the pattern files
    args        the names, one to a line
    stdout      for each the lines `file NAME` and what is answered

    python3 tools/text_vectors.py [FOLDER]
"""
import pathlib
import struct
import sys

ROOT = pathlib.Path(__file__).resolve().parent.parent

POINTS = "point 0 label 0\npoint 1 label 1\npoint 2 label 2\n"
EDGES = "edge 0 from 0 to 1 span 0 1\nedge 1 from 1 to 2 span 0 1\nedge 2 from 2 to 0 span 0 1\n"
FACE = "face 0 surface 0 wire 0+ 1+ 2+\n"
SHELL = "shell 0 faces 0+\n"
TRIANGLE = POINTS + EDGES + FACE + SHELL

POINT_FORM = "point NUMBER label LABEL"
EDGE_FORM = "edge NUMBER from POINT to POINT span T0 T1"
FACE_FORM = "face NUMBER surface SURFACE wire USE .. wire USE .."
SHELL_FORM = "shell NUMBER faces LISTING .."


# A refusal has a second line: the number of the refusal, the line, and the word or the number that is expected, or 0.


def word(line, k, form):
    return f"line {line}: word {k} of {form}\nanswer 0 {line} {k}"


def number(line, kind, k):
    return f"line {line}: {kind} {k} is expected\nanswer 0 {line} {k}"


def whole(sentence):
    return f"{sentence}\nanswer 0 0 0"


def refused(line, n):
    meaning = {
        2: "more records than the limit",
        3: "a number that names nothing",
        4: "bad span",
        5: "an edge from a point to itself",
        6: "a wire without uses",
        7: "a wire that is not closed",
        8: "a wire that meets a point twice, or meets an earlier wire of its face",
    }[n]
    return f"line {line}: refused {n}: {meaning}\nanswer {n} {line} 0"


def file_length(points, edges, uses, wires, faces, shells, listings):
    return 56 + 4 * points + 20 * edges + 2 * uses + 2 * wires + 4 * faces + 2 * shells + 2 * listings


def with_span(t0, t1):
    return TRIANGLE.replace("to 0 span 0 1", f"to 0 span {t0} {t1}")


LENGTH = f"length {file_length(3, 3, 3, 1, 1, 1, 1)}"
EMPTY_LENGTH = f"length {file_length(0, 0, 0, 0, 0, 0, 0)}"


def keywords(line):
    return f"line {line}: begin with point, edge, face, shell, empty or #\nanswer 0 {line} 1"


KEYWORDS = keywords(1)
MARKED = whole("begins with a byte order mark: save the text as UTF-8 without one")
NOTHING = whole('says nothing: no point, edge, face or shell (a line "empty" makes an empty pattern)')
NOT_EMPTY = whole('has a line "empty", and points, edges, faces or shells too')

# name, text, answer
VECTORS = [
    # no records
    ("nothing", "", NOTHING),
    ("blanks", " \t \n\r\n\n\t", NOTHING),
    ("comment", "# nothing\n#\n   # here\n\n \t \n", NOTHING),
    ("comment-empty", "# empty\n#empty\n", NOTHING),
    ("empty", "empty\n", EMPTY_LENGTH),
    ("empty-no-feed", "empty", EMPTY_LENGTH),
    ("empty-with-comments", "# as yet\n\n\t empty \r\n# no records\n", EMPTY_LENGTH),
    ("empty-twice", "empty\nempty\n", EMPTY_LENGTH),
    ("empty-before-records", "empty\n" + TRIANGLE, NOT_EMPTY),
    ("empty-after-records", TRIANGLE + "empty\n", NOT_EMPTY),
    ("empty-with-point", "empty\npoint 0 label 0\n", NOT_EMPTY),
    ("empty-with-edge", "empty\nedge 0 from 0 to 1 span 0 1\n", NOT_EMPTY),
    ("empty-with-face", "face 0 surface 0\nempty\n", NOT_EMPTY),
    ("empty-with-shell", "shell 0 faces\nempty\n", NOT_EMPTY),
    ("empty-and-word", "empty x\n", word(1, 2, "empty")),
    ("empty-and-number", "# none\nempty 0 0\n", word(2, 2, "empty")),
    ("empty-and-comment", "empty # none\n", word(1, 2, "empty")),
    ("empty-longer", "emptyy\n", KEYWORDS),
    ("empty-capital", "Empty\n", KEYWORDS),
    ("words-before-empty", "empty\npoint 0 label 0\npoint 1\n", word(3, 3, POINT_FORM)),
    # byte order marks
    ("mark-8", b"\xef\xbb\xbf" + TRIANGLE.encode(), MARKED),
    ("mark-16-big", b"\xfe\xff" + TRIANGLE.encode("utf-16-be"), MARKED),
    ("mark-16-little", b"\xff\xfe" + TRIANGLE.encode("utf-16-le"), MARKED),
    ("mark-alone", b"\xef\xbb\xbf", MARKED),
    ("mark-before-empty", b"\xef\xbb\xbfempty\n", MARKED),
    ("mark-of-two-bytes", b"\xef\xbb", KEYWORDS),
    ("mark-other-third", b"\xef\xbb\xbe", KEYWORDS),
    ("mark-half-big", b"\xfe", KEYWORDS),
    ("mark-half-little", b"\xff\xff", KEYWORDS),
    ("mark-within", POINTS.encode() + b"\xef\xbb\xbfpoint 3 label 0\n", keywords(4)),
    ("mark-after-feed", b"\n\xff\xfe", keywords(2)),
    ("mark-in-comment", b"#\xef\xbb\xbf\n" + TRIANGLE.encode(), LENGTH),
    # lines and words
    ("triangle", TRIANGLE, LENGTH),
    ("no-last-feed", TRIANGLE[:-1], LENGTH),
    ("carriage-returns", TRIANGLE.replace("\n", "\r\n"), LENGTH),
    ("carriage-return-last", TRIANGLE[:-1] + "\r", LENGTH),
    ("two-carriage-returns", TRIANGLE.replace("label 0\n", "label 0\r\r\n"), word(1, 4, POINT_FORM)),
    ("tabs", TRIANGLE.replace(" ", "\t \t"), LENGTH),
    ("blanks-before", TRIANGLE.replace("edge", "  \tedge"), LENGTH),
    ("blanks-after", TRIANGLE.replace("\n", " \t\n"), LENGTH),
    ("any-order", SHELL + FACE + EDGES + POINTS, LENGTH),
    ("leading-zeros", TRIANGLE.replace("label 2", "label 0000000002"), LENGTH),
    ("highest-label", TRIANGLE.replace("label 2", "label 4294967295"), LENGTH),
    ("label-too-high", TRIANGLE.replace("label 2", "label 4294967296"), word(3, 4, POINT_FORM)),
    ("label-of-eleven-digits", TRIANGLE.replace("label 2", "label 00000000002"), word(3, 4, POINT_FORM)),
    ("highest-surface", TRIANGLE.replace("surface 0", "surface 65535"), LENGTH),
    ("surface-too-high", TRIANGLE.replace("surface 0", "surface 65536"), word(7, 4, FACE_FORM)),
    ("unknown-word", "points 0\n", KEYWORDS),
    ("capital", "Point 0 label 0\n", KEYWORDS),
    ("word-of-eight", "pointttt 0 label 0\n", KEYWORDS),
    ("zero-byte", "point\0 0 label 0\n", KEYWORDS),
    ("comment-after", "point 0 label 0 # first\n", word(1, 5, POINT_FORM)),
    ("number-skipped", "point 0 label 0\npoint 2 label 0\n", number(2, "point", 1)),
    ("number-again", "point 0 label 0\npoint 0 label 0\n", number(2, "point", 1)),
    ("number-from-1", "point 1 label 0\npoint 2 label 0\n", number(1, "point", 0)),
    ("number-of-nine-digits", POINTS + "point 999999999 label 0\n", number(4, "point", 3)),
    ("number-of-ten-digits", POINTS + "point 0000000003 label 0\n", word(4, 2, POINT_FORM)),
    ("number-of-edge-skipped", POINTS + EDGES.replace("edge 2", "edge 3"), number(6, "edge", 2)),
    ("number-of-edge-again", POINTS + EDGES.replace("edge 2", "edge 1"), number(6, "edge", 2)),
    ("number-of-edge-from-1", POINTS + "edge 1 from 0 to 1 span 0 1\n", number(4, "edge", 0)),
    ("number-of-face-skipped", POINTS + EDGES + FACE + "# one more\nface 2 surface 0\n", number(9, "face", 1)),
    ("number-of-face-from-1", "face 1 surface 0\n", number(1, "face", 0)),
    ("number-of-shell-again", TRIANGLE + "shell 0 faces 0-\n", number(9, "shell", 1)),
    ("number-of-shell-from-1", "shell 1 faces\n", number(1, "shell", 0)),
    ("number-of-two-digits", "".join(f"shell {k} faces\n" for k in range(12)) + "shell 11 faces\n", number(13, "shell", 12)),
    ("number-missing", "point\n", word(1, 2, POINT_FORM)),
    ("number-wrong-first", "point 5 label x\n", number(1, "point", 0)),
    ("label-missing", "point 0 label\n", word(1, 4, POINT_FORM)),
    ("label-negative", "point 0 label -1\n", word(1, 4, POINT_FORM)),
    ("edge-number-counts-edges", POINTS + "edge 3 from 0 to 1 span 0 1\n", number(4, "edge", 0)),
    ("edge-short", POINTS + "edge 0 from 0 to 1 span 0\n", word(4, 9, EDGE_FORM)),
    ("edge-long", POINTS + "edge 0 from 0 to 1 span 0 1 2\n", word(4, 10, EDGE_FORM)),
    ("edge-words", POINTS + "edge 0 from 0 for 1 span 0 1\n", word(4, 5, EDGE_FORM)),
    ("use-without-sign", POINTS + EDGES + "face 0 surface 0 wire 0+ 1 2+\n", word(7, 7, FACE_FORM)),
    ("use-before-wire", POINTS + EDGES + "face 0 surface 0 0+ 1+ 2+\n", word(7, 5, FACE_FORM)),
    ("listing-without-sign", POINTS + EDGES + FACE + "shell 0 faces 0\n", word(8, 4, SHELL_FORM)),
    ("shell-short", "shell 0\n", word(1, 3, SHELL_FORM)),
    ("empty-shell", "shell 0 faces\n", f"length {file_length(0, 0, 0, 0, 0, 1, 0)}"),
    ("face-without-wires", "face 0 surface 9\n", f"length {file_length(0, 0, 0, 0, 1, 0, 0)}"),
    # spans
    ("span-places", with_span("0.1", "0.30"), LENGTH),
    ("span-minus", with_span("-0.5", "-0"), LENGTH),
    ("span-hex", with_span("0x0000000000000000", "0x3FF000000000000a"), LENGTH),
    ("span-15-digits", with_span("0.12345678901234", "123456789012.345"), refused(6, 4)),
    ("span-16-digits", with_span("0.123456789012345", "1"), word(6, 8, EDGE_FORM)),
    ("span-no-digit-before", with_span(".5", "1"), word(6, 8, EDGE_FORM)),
    ("span-no-digit-after", with_span("0", "1."), word(6, 9, EDGE_FORM)),
    ("span-plus", with_span("0", "+1"), word(6, 9, EDGE_FORM)),
    ("span-exponent", with_span("0", "1e3"), word(6, 9, EDGE_FORM)),
    ("span-hex-short", with_span("0", "0x3ff000000000000"), word(6, 9, EDGE_FORM)),
    ("span-nowhere", with_span("0", "nowhere"), word(6, 9, EDGE_FORM)),
    ("span-level", with_span("1", "1"), refused(6, 4)),
    ("span-zeros", with_span("-0", "0"), refused(6, 4)),
    ("span-high", with_span("0", "1000000"), LENGTH),
    ("span-too-high", with_span("0", "1000000.00000001"), refused(6, 4)),
    ("span-nan", with_span("0", "0x7ff8000000000000"), refused(6, 4)),
    # the reading checks, at the line of the record
    ("no-such-point", POINTS + "edge 0 from 0 to 3 span 0 1\n", refused(4, 3)),
    ("no-such-point-at-all", POINTS + "edge 0 from 99999 to 1 span 0 1\n", refused(4, 3)),
    ("same-point", POINTS + EDGES.replace("from 1 to 2", "from 1 to 1") + FACE, refused(5, 5)),
    ("no-such-edge", POINTS + EDGES + "# here\n" + FACE.replace("2+", "3+") + SHELL, refused(8, 3)),
    ("no-such-face", TRIANGLE + "shell 1 faces 0- 1+\n", refused(9, 3)),
    ("empty-wire", POINTS + EDGES + "face 0 surface 0 wire 0+ 1+ 2+ wire\n", refused(7, 6)),
    ("not-closed", POINTS + EDGES + FACE.replace("1+", "1-"), refused(7, 7)),
    ("not-closed-second", TRIANGLE + "face 1 surface 0 wire 0+ 1+\n", refused(9, 7)),
    ("point-twice", TRIANGLE + "face 1 surface 0 wire 0+ 0- 0+ 0-\n", refused(9, 8)),
    ("wires-meet", TRIANGLE + "face 1 surface 0 wire 0+ 0- wire 1+ 1-\n", refused(9, 8)),
    ("first-check-first", POINTS + FACE + EDGES.replace("from 1 to 2 span 0 1", "from 1 to 2 span 1 0"), refused(6, 4)),
    ("words-before-checks", POINTS + FACE.replace("1+", "1-") + EDGES + "shell 1 faces 0+\n", number(8, "shell", 0)),
    # limits
    ("points-2048", "".join(f"point {k} label 0\n" for k in range(2048)), f"length {56 + 4 * 2048}"),
    ("points-2049", "".join(f"point {k} label 0\n" for k in range(2049)), refused(2049, 2)),
    ("shells-17", "".join(f"shell {k} faces\n" for k in range(17)), refused(17, 2)),
    ("faces-257", "".join(f"face {k} surface 0\n" for k in range(257)), refused(257, 2)),
    ("uses-4097", POINTS + EDGES + "face 0 surface 0 wire" + 4097 * " 0+" + "\n", refused(7, 2)),
    ("wires-1025", POINTS + EDGES + "face 0 surface 0" + 1025 * " wire 0+ 0-" + "\n", refused(7, 2)),
    ("listings-513", TRIANGLE.replace("faces 0+", "faces" + 513 * " 0+"), refused(8, 2)),
]


def patterns():
    """Pattern files that go to text and back."""
    for name in ("triangle", "tetrahedron", "coat"):
        yield f"sample-{name}.pattern", (ROOT / "samples" / f"{name}.pattern").read_bytes()
    # Those with a recorded report, which the Rust accepts.
    reports = (ROOT / "crates/replay_reports/stdout").read_text()
    for path in sorted((ROOT / "crates/replay_reports/data").iterdir()):
        if f"file {path.name}\nrefused" not in reports:
            yield path.name + ".pattern", path.read_bytes()
    # spans that are no short decimals, labels and surfaces at their ends
    spans = [(0.1, 0.1 + 0.2), (-0.0, 5e-324), (-1e6, 1e6), (1 / 3, 2 / 3), (-999999.9999999999, -1e-7), (0.000001, 1.000000001)]
    points = [0, 4294967295, 4294967294, 1000000000]
    edges = [(k % 4, (k + 1) % 4, t0, t1) for k, (t0, t1) in enumerate(spans)]
    body = b"".join(struct.pack("<I", p) for p in points)
    body += b"".join(struct.pack("<HHdd", *e) for e in edges)
    body += struct.pack("<HH", 0, 65535)
    table, at = b"", 56
    for size, count in zip((4, 20, 2, 2, 4, 2, 2), (len(points), len(edges), 0, 0, 1, 0, 0)):
        table += struct.pack("<II", at, count)
        at += size * count
    yield "spans.pattern", table + body


def main():
    out = pathlib.Path(sys.argv[1] if len(sys.argv) > 1 else ROOT / "crates/replay_text")
    data = out / "data"
    data.mkdir(parents=True, exist_ok=True)
    for old in data.iterdir():
        old.unlink()
    names, told = [], ""
    for name, text, answer in VECTORS:
        (data / name).write_bytes(text if isinstance(text, bytes) else text.encode())
        names.append(name)
        told += f"file {name}\n{answer}\n"
    for name, content in patterns():
        (data / name).write_bytes(content)
        names.append(name)
        told += f"file {name}\nback\n"
    (out / "args").write_text("".join(name + "\n" for name in names))
    (out / "stdout").write_text(told)


main()
