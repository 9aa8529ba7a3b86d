#!/usr/bin/env python3
"""Vectors for the import of meshes.

Each row of the table below is one mesh and what its import gives, worked out by hand from document 02, Slip 1: the line of
the refusal, or the pattern as `show` prints it. No reader of meshes is asked.

It writes, into crates/replay_meshes or the folder given,

    data/NAME   the mesh of each vector, of at most 131,072 bytes
    args        the names, one to a line
    stdout      for each the line `file NAME` and the answer

The answer is the same whether the mesh is read whole or in pieces of any length.

    python3 tools/mesh_vectors.py [FOLDER]
"""
import pathlib
import sys

ROOT = pathlib.Path(__file__).resolve().parent.parent
LONGEST = 131072


def at(number, line):
    return f"refused {number} line {line}\n"


def record(number, body, k):
    return f"refused {number} body {body} record {k}\n"


def pattern(labels, edges, wires):
    """Labels; edges as pairs of points, or as words `0-1`; the wire of each face."""
    if isinstance(edges, str):
        edges = [edge.split("-") for edge in edges.split()]
    lines = [f"point {k} label {label}" for k, label in enumerate(labels)]
    lines += [f"edge {k} from {front} to {back} span 0 1" for k, (front, back) in enumerate(edges)]
    lines += [f"face {k} surface 0 wire {wire}" for k, wire in enumerate(wires)]
    lines += ["shell 0 faces" + "".join(f" {k}+" for k in range(len(wires)))]
    return "".join(line + "\n" for line in lines)


NOTHING = pattern([], "", [])
# Points on lines 1 to 3, and a triangle of them.
V3 = "v\nv\nv\n"
ONE = pattern([1, 2, 3], "0-1 1-2 2-0", ["0+ 1+ 2+"])
POINTS_ONLY = pattern([1, 2, 3], "", [])
# A wire that meets point 1 twice, along edges of two points each.
TWICE = "f 1 2 1 3\n"


def v(n):
    return "v\n" * n


def names(first, last, step=1):
    return " ".join(map(str, range(first, last + step, step)))


def uses(first, last, sign="+"):
    step = 1 if first <= last else -1
    return " ".join(f"{k}{sign}" for k in range(first, last + step, step))


def ring(first, last):
    """The edges of a polygon of neighbouring points, last and first included."""
    return [(k, k + 1) for k in range(first, last)] + [(last, first)]


# ---- line 4 is `f 1 2 WORD`

WORDS = [
    ("three", "3", ONE),
    ("slash", "3/", ONE),
    ("slashes", "3//", ONE),
    ("texture", "3/7", ONE),
    ("texture-and-normal", "3/2/3", ONE),
    ("normal", "3//9", ONE),
    ("not-given-after-slash", "3/99/99", ONE),
    ("zero-after-slash", "3/0/-0", ONE),
    ("letters-after-slash", "3/x.y+z#\\", ONE),
    ("any-byte-after-slash", b"3/\x00\x0b\xff\r4", ONE),
    ("ten-digits-after-slash", "3/1234567890", ONE),
    ("nine-digits", "000000003", ONE),
    ("nine-digits-and-slash", "000000003/1", ONE),
    ("ten-digits", "0000000003", at(30, 4)),
    ("ten-digits-and-slash", "0000000003/1", at(30, 4)),
    ("nine-nines", "999999999", at(31, 4)),
    ("ten-digits-high", "1000000000", at(30, 4)),
    ("three-and-2-to-32", "4294967299", at(30, 4)),
    ("three-and-2-to-64", "18446744073709551619", at(30, 4)),
    ("three-and-65536", "65539", at(31, 4)),
    ("zero", "0", at(31, 4)),
    ("nine-zeros", "000000000", at(31, 4)),
    ("ten-zeros", "0000000000", at(30, 4)),
    ("zero-and-slash", "0/3", at(31, 4)),
    ("minus-zero", "-0", at(31, 4)),
    ("minus-nine-zeros", "-000000000", at(31, 4)),
    ("minus-ten-zeros", "-0000000000", at(30, 4)),
    ("four", "4", at(31, 4)),
    ("four-and-slash", "4/3", at(31, 4)),
    ("latest", "-1", ONE),
    ("latest-slash", "-1/", ONE),
    ("latest-texture", "-1/-1/-1", ONE),
    ("latest-normal", "-1//-1", ONE),
    ("latest-nine-digits", "-000000001", ONE),
    ("latest-ten-digits", "-0000000001", at(30, 4)),
    ("minus-four", "-4", at(31, 4)),
    ("minus-nine-nines", "-999999999", at(31, 4)),
    ("minus-ten-digits", "-1000000000", at(30, 4)),
    # Points 1, 2 and again 1: edges 0-1 and, last and first, 0-0.
    ("first-backwards", "-3", record(5, 1, 1)),
    # Points 1, 2, 2: edges 0-1, 1-1, and 0 reversed.
    ("second-backwards", "-2", record(5, 1, 1)),
    ("minus", "-", at(30, 4)),
    ("minus-slash", "-/3", at(30, 4)),
    ("two-minuses", "--1", at(30, 4)),
    ("minus-plus", "-+1", at(30, 4)),
    ("minus-after", "1-", at(30, 4)),
    ("minus-both", "-1-", at(30, 4)),
    ("minus-between", "1-1", at(30, 4)),
    ("plus", "+3", at(30, 4)),
    ("plus-one", "+1", at(30, 4)),
    ("point", "1.0", at(30, 4)),
    ("point-last", "3.", at(30, 4)),
    ("exponent", "3e0", at(30, 4)),
    ("hexadecimal", "0x3", at(30, 4)),
    ("comma", "3,", at(30, 4)),
    ("slash-before", "/3", at(30, 4)),
    ("slash-alone", "/", at(30, 4)),
    ("slashes-alone", "//", at(30, 4)),
    ("backslash", "\\", at(30, 4)),
    ("three-and-backslash", "3\\", at(30, 4)),
    ("backslash-for-slash", "3\\4", at(30, 4)),
    ("hash", "#", at(30, 4)),
    ("three-and-hash", "3#", at(30, 4)),
    ("letter", "x", at(30, 4)),
    ("letter-after", "3x", at(30, 4)),
    ("letter-before", "x3", at(30, 4)),
    ("keyword", "f", at(30, 4)),
    ("byte-after-digits", "3:", at(30, 4)),
    ("zero-byte", b"3\x00", at(30, 4)),
    ("high-bit", b"\xb3", at(30, 4)),
    ("other-digit", "\u0663", at(30, 4)),
    ("vertical-tab", "3\x0b", at(30, 4)),
    ("form-feed", "\x0c3", at(30, 4)),
    ("hard-space", b"3\xa0", at(30, 4)),
    ("return-first", "\r3", at(30, 4)),
    ("return-inside", "3\r3", at(30, 4)),
    ("return-after-minus", "-\r1", at(30, 4)),
    ("return-before-slash", "3\r/", at(30, 4)),
    ("return-after-slash", "3/\r4", ONE),
]

# ---- whole meshes: name, mesh, answer

VECTORS = [
    # lines
    ("empty", "", NOTHING),
    ("line-feed", "\n", NOTHING),
    ("line-feeds", "\n\n\n", NOTHING),
    ("return", "\r", NOTHING),
    ("return-feed", "\r\n", NOTHING),
    ("returns", "\r\r", NOTHING),
    ("returns-feed", "\r\r\n", NOTHING),
    ("blanks", " \t  \t\n\t", NOTHING),
    ("comment", "# v\n#\n # f 1 2\n", NOTHING),
    ("triangle", V3 + "f 1 2 3\n", ONE),
    ("no-last-feed", V3 + "f 1 2 3", ONE),
    ("no-last-feed-point", "v\nv", pattern([1, 2], "", [])),
    ("no-last-feed-30", V3 + "f 1 2 3x", at(30, 4)),
    ("no-last-feed-31", V3 + "f 1 2 4", at(31, 4)),
    ("no-last-feed-32", V3 + "f 1 2", at(32, 4)),
    ("f-alone-no-feed", "f", at(32, 1)),
    ("no-last-feed-blank", V3 + "f 1 2 3 ", ONE),
    ("carriage-returns", V3.replace("\n", "\r\n") + "f 1 2 3\r\n", ONE),
    ("carriage-returns-mixed", "v\r\nv\nv\r\nf 1 2 3\n", ONE),
    ("return-at-the-end", V3 + "f 1 2 3\r", ONE),
    ("returns-at-the-end", V3 + "f 1 2 3\r\r", at(30, 4)),
    ("returns-at-a-feed", V3 + "f 1 2 3\r\r\n", at(30, 4)),
    ("returns-after-slash", V3 + "f 1 2 3/\r\r\n", ONE),
    ("return-after-blank", V3 + "f 1 2 3 \r\n", ONE),
    ("returns-after-blank", V3 + "f 1 2 3 \r\r\n", at(30, 4)),
    ("return-before-blank", V3 + "f 1 2 3\r \n", at(30, 4)),
    ("return-before-blank-at-the-end", V3 + "f 1 2 3\r ", at(30, 4)),
    ("return-before-tab", V3 + "f 1\r\t2 3\n", at(30, 4)),
    ("return-as-a-word", V3 + "f 1 2 \r 3\n", at(30, 4)),
    ("return-between-words", V3 + "f 1 2\r3\n", at(30, 4)),
    ("return-of-a-point", "v\r", pattern([1], "", [])),
    ("returns-of-a-point", "v\r\r\nv 1\r\r\nv \r\r\n", pattern([2, 3], "", [])),
    ("return-of-an-f", V3 + "f\r\n", at(32, 4)),
    ("returns-of-an-f", V3 + "f\r\r\n", POINTS_ONLY),
    ("return-after-f", V3 + "f\r 1 2 3\n", POINTS_ONLY),
    ("return-before-f", V3 + "\rf 1 2\n", POINTS_ONLY),
    ("returns-for-feeds", "v\rv\rv\rf 1 2 3\r", NOTHING),
    ("feed-then-return", "v\n\rv\n\rv\n\rf 1 2 3\n", pattern([1], "", [])),
    ("return-of-a-comment", V3 + "# f\rf 1 2\r\nf 1 2 3\r\n", ONE),
    ("blank-lines", "\n\nv\n\n# one\nv\n \t\nv\n\r\nf 1 2 3\n\n\n", pattern([3, 6, 8], "0-1 1-2 2-0", ["0+ 1+ 2+"])),
    ("blank-lines-counted", "\n \n\t\n\r\n#\n\nf\n", at(32, 7)),
    ("zero-byte-line", V3 + "\0\nf 1 2 3\n", ONE),
    ("label-300", "# 299\n" * 299 + "v\n", pattern([300], "", [])),
    ("label-65537", "\n" * 65535 + "v\nv\n", pattern([65536, 65537], "", [])),
    ("line-65537", "\n" * 65536 + "f\n", at(32, 65537)),
    # words
    ("tabs", "\tv\t0\t0\t0\nv\t\n\t v \t1\n\tf\t1 \t 2\t\t3\t\n", ONE),
    ("spaces", " v\n  v  \n   v   0\n  f   1   2   3  \n", ONE),
    ("tab-after-f", V3 + "f\t1\t2\t3", ONE),
    ("slashes", V3 + "f 1/2/3 2//3 3/1\n", ONE),
    ("slashes-apart", V3 + "f 1/ 2 /3\n", at(30, 4)),
    ("blanks-before-f", V3 + " \t f 1 2 x\n", at(30, 4)),
    ("vertical-tab-for-blank", V3 + "f\v1 2\n", POINTS_ONLY),
    ("form-feed-for-blank", V3 + "\ff 1 2\n", POINTS_ONLY),
    # keywords
    ("numbers-unread", "v 0 0 0\nv x # -\nv 1e999 NaN f 1 2\nf 1 2 3\n", ONE),
    ("comment-of-a-point", "v 0 0 0 # first\nv#\nv # second\n", pattern([1, 3], "", [])),
    ("comment-of-a-face", V3 + "f 1 2 3 # first\n", at(30, 4)),
    ("continued", V3 + "f 1 2 \\\n3\n", at(30, 4)),
    ("v-longer", "vn 0 0 1\nvt 0 0\nvp 0 0\nvv\nv1 2 3\nv/\nv,\n", NOTHING),
    ("f-longer", V3 + "ff 1 2\nfo x\nf1 2 3\nf/ 1 2\nf/1 2\nf, x\nf# 0\n-f x\n", POINTS_ONLY),
    ("capitals", "V\nV\nV\nF 1 2 3\nF x\n", NOTHING),
    ("hash-f", V3 + "#f 1 2\n#f x\nf# 1\n", POINTS_ONLY),
    ("other-keywords", "mtllib a.mtl\no f\ng v v\ns off\nusemtl f\nl 1 2\np 9\ncall x\n" + V3 + "f 1 2 3\nend\n", pattern([9, 10, 11], "0-1 1-2 2-0", ["0+ 1+ 2+"])),
    ("numbers-alone", V3 + "1 2 3\n-1\n/\n", POINTS_ONLY),
    ("byte-order-mark", b"\xef\xbb\xbfv\nv\nv\nf 1 2 3\n", at(31, 4)),
    ("byte-order-mark-comment", b"\xef\xbb\xbf# v\n" + V3.encode() + b"f 1 2 3\n", pattern([2, 3, 4], "0-1 1-2 2-0", ["0+ 1+ 2+"])),
    ("sixteen-bits", "v\nv\nv\nf 1 2 3\n".encode("utf-16-le"), NOTHING),
    # long words and lines
    ("long-comment", "#" + "x" * 9000 + "\n" + V3 + "# " + "f 1 2 " * 900 + "\nf 1 2 3\n", pattern([2, 3, 4], "0-1 1-2 2-0", ["0+ 1+ 2+"])),
    ("long-keyword", V3 + "f" * 9000 + " 1\n" + "v" * 9000 + "\nf 1 2 3\n", ONE),
    ("long-point", "v " + "0.123456789 " * 700 + "\nv\nv" + " " * 5000 + "1\nf 1 2 3\n", ONE),
    ("long-after-slash", V3 + "f 1 2 3/" + "9" * 9000 + "\n", ONE),
    ("long-slashes", V3 + "f 1" + "/" * 3000 + " 2" + "/" * 3000 + " 3\n", ONE),
    ("long-zeros", V3 + "f 1 2 " + "0" * 9000 + "3\n", at(30, 4)),
    ("long-digits", V3 + "f 1 2 " + "9" * 9000 + "\n", at(30, 4)),
    ("long-minuses", V3 + "f 1 2 " + "-" * 9000 + "1\n", at(30, 4)),
    ("long-blanks", V3 + "f" + " " * 3000 + "1" + "\t" * 3000 + "2" + " \t" * 1500 + "3" + " " * 3000 + "\n", ONE),
    ("long-returns", V3 + "\r" * 5000 + "\nf 1 2 3/" + "\r" * 5000 + "\n", ONE),
    # 31: points that are not yet given
    ("given-later", "f 1 2 3\nv\nv\nv\n", at(31, 1)),
    ("given-later-one", "v\nv\nf 1 2 3\nv\n", at(31, 3)),
    ("given-later-last", V3 + "f 1 2 3\nf 2 3 4\nv\n", at(31, 5)),
    ("given-later-backwards", "f -1 -2 -3\nv\nv\nv\n", at(31, 1)),
    ("given-between", "v\nv\nv\nf 1 2 3\nv\nf 2 3 4\n", pattern([1, 2, 3, 5], "0-1 1-2 2-0 2-3 3-1", ["0+ 1+ 2+", "1+ 3+ 4+"])),
    ("backwards-from-the-latest", "v\nv\nv\nf -3 -2 -1\nv\nf -1 -2 -3\n", pattern([1, 2, 3, 5], "0-1 1-2 2-0 3-2 1-3", ["0+ 1+ 2+", "3+ 1- 4+"])),
    ("backwards-too-far", V3 + "f -1 -2 -3\nv\nf -2 -4 -5\n", at(31, 6)),
    ("backwards-without-points", "f -1 -1 -1\n", at(31, 1)),
    ("no-points", "f 1 1 1\n", at(31, 1)),
    ("first-name-not-given", V3 + "f 4 1 2\n", at(31, 4)),
    ("middle-name-not-given", V3 + "f 1 4 2 3\n", at(31, 4)),
    ("points-without-faces", V3, POINTS_ONLY),
    ("both-ways-of-counting", V3 + "v\nf 1 -3 3 -1\n", pattern([1, 2, 3, 4], "0-1 1-2 2-3 3-0", ["0+ 1+ 2+ 3+"])),
    # 30, 31 and 32 in one line: word by word, then under three points
    ("f-alone", V3 + "f\n", at(32, 4)),
    ("f-one", V3 + "f 1\n", at(32, 4)),
    ("f-two", V3 + "f 1 2\n", at(32, 4)),
    ("f-two-slashes", V3 + "f 1/2/3 2/3/4\n", at(32, 4)),
    ("f-same-two", V3 + "f 1 1\n", at(32, 4)),
    ("f-blanks", V3 + "f \t \n", at(32, 4)),
    ("31-then-30", V3 + "f 99 x\n", at(31, 4)),
    ("30-then-31", V3 + "f x 99\n", at(30, 4)),
    ("31-then-30-late", V3 + "f 1 2 3 99 x\n", at(31, 4)),
    ("30-then-31-late", V3 + "f 1 2 3 x 99\n", at(30, 4)),
    ("31-before-32", V3 + "f 1 99\n", at(31, 4)),
    ("31-before-32-alone", V3 + "f 0\n", at(31, 4)),
    ("30-before-32", V3 + "f 1 x\n", at(30, 4)),
    ("30-before-32-alone", V3 + "f x\n", at(30, 4)),
    ("30-first-word", V3 + "f x 2 3\n", at(30, 4)),
    ("30-middle-word", V3 + "f 1 x 3\n", at(30, 4)),
    ("30-tenth-word", V3 + "f 1 2 3 1 2 3 1 2 3 1. 2\n", at(30, 4)),
    ("31-tenth-word", V3 + "f 1 2 3 1 2 3 1 2 3 4 2\n", at(31, 4)),
    # in two lines: the first line is told
    ("32-line-before-30", V3 + "f 1 2\nf x\n", at(32, 4)),
    ("32-line-before-31", V3 + "f 1 2\nf 4\n", at(32, 4)),
    ("31-line-before-30", V3 + "f 1 2 4\nf x\n", at(31, 4)),
    ("31-line-before-32", V3 + "f 1 2 4\nf\n", at(31, 4)),
    ("30-line-before-31", V3 + "f 1 2 x\nf 4 4 4\n", at(30, 4)),
    ("30-line-before-32", V3 + "f 1 2 x\nf\n", at(30, 4)),
    ("30-first-line", "f x\n" + V3, at(30, 1)),
    ("30-late-line", V3 + "f 1 2 3\n" * 200 + "f 1 2 3.\n" + "f\n", at(30, 204)),
    ("31-late-line", V3 + "f 1 2 3\n" * 200 + "f 1 2 4\n" + "f\n", at(31, 204)),
    ("32-late-line", V3 + "f 1 2 3\n" * 200 + "f 1 2\n" + "f x\n", at(32, 204)),
    # edges: one for both directions, made at its first appearance
    ("square", v(4) + "f 1 2 3 4\n", pattern([1, 2, 3, 4], "0-1 1-2 2-3 3-0", ["0+ 1+ 2+ 3+"])),
    ("downwards", V3 + "f 3 2 1\n", pattern([1, 2, 3], "2-1 1-0 0-2", ["0+ 1+ 2+"])),
    ("reversed", V3 + "f 1 2 3\nf 3 2 1\n", pattern([1, 2, 3], "0-1 1-2 2-0", ["0+ 1+ 2+", "1- 0- 2-"])),
    ("same-again", V3 + "f 1 2 3\nf 1 2 3\n", pattern([1, 2, 3], "0-1 1-2 2-0", ["0+ 1+ 2+", "0+ 1+ 2+"])),
    ("begun-elsewhere", V3 + "f 1 2 3\nf 2 3 1\nf 1 3 2\n", pattern([1, 2, 3], "0-1 1-2 2-0", ["0+ 1+ 2+", "1+ 2+ 0+", "2- 1- 0-"])),
    ("two-triangles", v(4) + "f 1 2 3\nf 1 3 4\n", pattern([1, 2, 3, 4], "0-1 1-2 2-0 2-3 3-0", ["0+ 1+ 2+", "2- 3+ 4+"])),
    ("three-at-an-edge", v(5) + "f 1 2 3\nf 1 2 4\nf 2 1 5\n", pattern([1, 2, 3, 4, 5], "0-1 1-2 2-0 1-3 3-0 0-4 4-1", ["0+ 1+ 2+", "0+ 3+ 4+", "0- 5+ 6+"])),
    ("tetrahedron", v(4) + "f 1 2 3\nf 2 1 4\nf 3 2 4\nf 1 3 4\n", pattern([1, 2, 3, 4], "0-1 1-2 2-0 0-3 3-1 3-2", ["0+ 1+ 2+", "0- 3+ 4+", "1- 4- 5+", "2- 5- 3-"])),
    ("apart", v(6) + "f 1 2 3\nf 4 5 6\n", pattern(range(1, 7), "0-1 1-2 2-0 3-4 4-5 5-3", ["0+ 1+ 2+", "3+ 4+ 5+"])),
    ("across", v(4) + "f 1 2 3 4\nf 1 3 2\nf 4 2 1\n", pattern([1, 2, 3, 4], "0-1 1-2 2-3 3-0 0-2 3-1", ["0+ 1+ 2+ 3+", "4+ 1- 0-", "5+ 0- 3-"])),
    # A fan: triangle k has points 1, k + 2, k + 3 of the mesh. The last one closes it.
    ("fan", v(102) + "".join(f"f 1 {k + 2} {k + 3}\n" for k in range(100)) + "f 1 102 2\n",
     pattern(range(1, 103),
             [(0, 1)] + [pair for k in range(100) for pair in ((k + 1, k + 2), (k + 2, 0))] + [(101, 1)],
             ["0+ 1+ 2+"] + [f"{2 * k}- {2 * k + 1}+ {2 * k + 2}+" for k in range(1, 100)] + ["200- 201+ 0-"])),
    # The hub is the last point, and no two triangles share a spoke; then the first, a middle and the last again, turned and as they were.
    ("fan-of-pairs", v(201) + "".join(f"f 201 {2 * k + 1} {2 * k + 2}\n" for k in range(100)) + "f 201 2 1\nf 102 101 201\nf 201 199 200\n",
     pattern(range(1, 202),
             [pair for k in range(100) for pair in ((200, 2 * k), (2 * k, 2 * k + 1), (2 * k + 1, 200))],
             [f"{3 * k}+ {3 * k + 1}+ {3 * k + 2}+" for k in range(100)] + ["2- 1- 0-", "151- 150- 152-", "297+ 298+ 299+"])),
    # 5, in edge order
    ("5-first", V3 + "f 1 1 2\n", record(5, 1, 0)),
    ("5-second", V3 + "f 1 2 2\n", record(5, 1, 1)),
    ("5-last-and-first", V3 + "f 1 2 3 1\n", record(5, 1, 3)),
    ("5-one-point", V3 + "f 1 1 1\n", record(5, 1, 0)),
    ("5-backwards", V3 + "f 1 2 3 -3\n", record(5, 1, 3)),
    ("5-second-face", V3 + "f 1 2 3\nf 3 2 2\n", record(5, 1, 3)),
    ("5-two", V3 + "f 1 2 2\nf 1 1 2\n", record(5, 1, 1)),
    ("5-late", v(1024) + "f " + names(1, 1023) + " 1\n", record(5, 1, 1023)),
    # 8, in face order; the wire of a face has its number
    ("8-first", V3 + TWICE, record(8, 3, 0)),
    ("8-back-and-forth", V3 + "f 1 2 3 2\n", record(8, 3, 0)),
    ("8-round-twice", V3 + "f 1 2 3 1 2 3\n", record(8, 3, 0)),
    ("8-two-loops", v(5) + "f 1 2 3 1 4 5\n", record(8, 3, 0)),
    ("8-last-point", v(4) + "f 1 2 3 4 2\n", record(8, 3, 0)),
    ("8-second", V3 + "f 1 2 3\n" + TWICE, record(8, 3, 1)),
    ("8-two", V3 + "f 1 2 3\n" + TWICE + "f 3 2 1\n" + TWICE, record(8, 3, 1)),
    ("8-late", V3 + "f 1 2 3\n" * 255 + TWICE, record(8, 3, 255)),
    # 5 before 8, in any faces: of edges 0-1, 0-2, 0-0 the third
    ("5-before-8", V3 + TWICE + "f 1 1 2\n", record(5, 1, 2)),
    ("5-before-8-one-face", v(4) + "f 1 2 1 3 3 4\n", record(5, 1, 2)),
    # lines before 5 and 8
    ("30-after-5", V3 + "f 1 1 2\nf 1 2 x\n", at(30, 5)),
    ("31-after-5", V3 + "f 1 1 2\nf 1 2 4\n", at(31, 5)),
    ("32-after-5", V3 + "f 1 1 2\nf 1 2\n", at(32, 5)),
    ("30-after-8", V3 + TWICE + "f x\n", at(30, 5)),
    ("31-after-8", V3 + TWICE + "f 0\n", at(31, 5)),
    ("32-after-8", V3 + TWICE + "f", at(32, 5)),
    ("30-in-a-face-of-5", V3 + "f 1 1 x\n", at(30, 4)),
    ("31-in-a-face-of-8", V3 + "f 1 2 1 4\n", at(31, 4)),
    # 2: points
    ("points-2048", v(2048) + "f 1 1024 2048\n", pattern(range(1, 2049), "0-1023 1023-2047 2047-0", ["0+ 1+ 2+"])),
    ("points-2049", v(2049), record(2, 0, 0)),
    ("points-2049-named", v(2049) + "f 1 2 2049\n", record(2, 0, 0)),
    ("points-2049-backwards", v(2049) + "f -1 -2 -2049\n", record(2, 0, 0)),
    ("points-2049-31", v(2049) + "f 1 2 2050\n", at(31, 2050)),
    ("points-2049-31-backwards", v(2049) + "f 1 2 -2050\n", at(31, 2050)),
    ("points-2049-30", v(2049) + "f 1 2 3\nf 1 2 x\n", at(30, 2051)),
    ("points-2049-32", v(2049) + "f 1 2", at(32, 2050)),
    ("points-2049-after-faces", v(2048) + "f 1 2 3\nv\nf 1 2 2049\n", record(2, 0, 0)),
    ("points-3000-31", v(3000) + "# that was all\nf 2999 3000 3001\n", at(31, 3002)),
    ("points-before-5", v(2049) + "f 1 1 2\n", record(2, 0, 0)),
    ("points-before-8", v(2049) + TWICE, record(2, 0, 0)),
    # 2: edges
    ("edges-1024", v(1024) + "f " + names(1, 1024) + "\nf " + names(1024, 1, -1) + "\n",
     pattern(range(1, 1025), ring(0, 1023), [uses(0, 1023), uses(1022, 0, "-") + " 1023-"])),
    ("edges-1025", v(1025) + "f " + names(1, 1025) + "\n", record(2, 1, 0)),
    ("edges-1025-used-again", v(1025) + "f " + names(1, 1025) + "\nf " + names(1025, 1, -1) + "\n", record(2, 1, 0)),
    ("edges-1025-late", v(1024) + "f " + names(1, 1023) + "\nf 1 2 1024\n", record(2, 1, 0)),
    ("edges-1025-30", v(1025) + "f " + names(1, 1025) + " x\n", at(30, 1026)),
    ("edges-1025-31", v(1025) + "f " + names(1, 1025) + "\nf 1 1026\n", at(31, 1027)),
    ("edges-1025-32", v(1025) + "f " + names(1, 1025) + "\nf 1 2\n", at(32, 1027)),
    ("edges-before-5", v(1024) + "f 1 " + names(1, 1024) + "\n", record(2, 1, 0)),
    ("edges-before-8", v(1024) + "f " + names(1, 1024) + "\nf 1 2 3 2 4\n", record(2, 1, 0)),
    ("points-before-edges", v(2049) + "f " + names(1, 1025) + "\n", record(2, 0, 0)),
    # 2: uses. 256 wires of 16 are 4,096, 241 of 17 are 4,097.
    ("uses-4096", v(16) + ("f " + names(1, 16) + "\n") * 256, pattern(range(1, 17), ring(0, 15), [uses(0, 15)] * 256)),
    ("uses-4097", v(17) + ("f " + names(1, 17) + "\n") * 241, record(2, 2, 0)),
    ("uses-4097-of-one-face", v(17) + "f " + (names(1, 17) + " ") * 241 + "\n", record(2, 2, 0)),
    ("uses-4096-of-one-face", v(16) + "f " + (names(1, 16) + " ") * 256 + "\n", record(8, 3, 0)),
    ("uses-4097-30", v(17) + "f " + (names(1, 17) + " ") * 241 + "0.\n", at(30, 18)),
    ("uses-4097-32", v(17) + "f " + (names(1, 17) + " ") * 241 + "\nf\n", at(32, 19)),
    ("uses-before-5", v(17) + "f " + (names(1, 17) + " ") * 241 + "\nf 1 1 2\n", record(2, 2, 0)),
    ("edges-before-uses", v(1025) + ("f " + names(1, 1025) + "\n") * 4, record(2, 1, 0)),
    # 2: wires and faces. 1,365 triangles have 4,095 uses, 1,366 have 4,098.
    ("faces-256", V3 + "f 1 2 3\n" * 128 + "f 2 1 3\n" * 128, pattern([1, 2, 3], "0-1 1-2 2-0", ["0+ 1+ 2+"] * 128 + ["0- 2- 1-"] * 128)),
    ("faces-257", V3 + "f 1 2 3\n" * 257, record(2, 4, 0)),
    ("faces-257-32", V3 + "f 1 2 3\n" * 257 + "f 1 2\n", at(32, 261)),
    ("faces-before-5", V3 + "f 1 1 2\n" * 257, record(2, 4, 0)),
    ("faces-before-8", V3 + TWICE * 257, record(2, 4, 0)),
    ("faces-513", V3 + "f 1 2 3\n" * 513, record(2, 4, 0)),
    ("wires-1024", V3 + "f 1 2 3\n" * 1024, record(2, 4, 0)),
    ("wires-1025", V3 + "f 1 2 3\n" * 1025, record(2, 3, 0)),
    ("wires-1025-30", V3 + "f 1 2 3\n" * 1025 + "f 3 2 +1\n", at(30, 1029)),
    ("wires-before-5", V3 + "f 1 1 2\n" * 1025, record(2, 3, 0)),
    ("wires-before-8", v(3) + TWICE + "f 1 2 3\n" * 1024, record(2, 3, 0)),
    ("wires-1365", V3 + "f 1 2 3\n" * 1365, record(2, 3, 0)),
    ("uses-before-wires", V3 + "f 1 2 3\n" * 1366, record(2, 2, 0)),
    ("points-before-uses", v(2049) + "f 1 2 3\n" * 1366, record(2, 0, 0)),
    # Every table that a mesh can fill, exactly full: 64 rings of 16 points, each forwards, backwards, and both again, counted
    # backwards from point 2,048.
    ("all-full", v(2048)
     + "".join(f"f {names(16 * g + 1, 16 * g + 16)}\n" for g in range(64))
     + "".join(f"f {names(16 * g + 16, 16 * g + 1, -1)}\n" for g in range(64))
     + "".join(f"f {names(16 * g - 2048, 16 * g - 2033)}\n" for g in range(64))
     + "".join(f"f {names(16 * g - 2033, 16 * g - 2048, -1)}\n" for g in range(64)),
     pattern(range(1, 2049),
             [pair for g in range(64) for pair in ring(16 * g, 16 * g + 15)],
             ([uses(16 * g, 16 * g + 15) for g in range(64)] + [f"{uses(16 * g + 14, 16 * g, '-')} {16 * g + 15}-" for g in range(64)]) * 2)),
]


def main():
    out = pathlib.Path(sys.argv[1] if len(sys.argv) > 1 else ROOT / "crates/replay_meshes")
    data = out / "data"
    data.mkdir(parents=True, exist_ok=True)
    for old in data.iterdir():
        old.unlink()
    rows = [(f"word-{name}", b"v\nv\nv\nf 1 2 " + (word if isinstance(word, bytes) else word.encode()) + b"\n", answer) for name, word, answer in WORDS]
    told = {}
    for name, mesh, answer in rows + VECTORS:
        content = mesh if isinstance(mesh, bytes) else mesh.encode()
        assert name not in told and len(content) <= LONGEST, name
        (data / name).write_bytes(content)
        told[name] = f"file {name}\n{answer}"
    (out / "args").write_text("".join(name + "\n" for name in told))
    (out / "stdout").write_text("".join(told.values()))


main()
