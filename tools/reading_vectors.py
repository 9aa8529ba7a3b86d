#!/usr/bin/env python3
"""Vectors for the reading of pattern files.

Each row of the tables below is one vector: a name, a pattern file, and the
answer that document 01 gives for it.  The answers are worked out by hand from
document 01 and stand here as they were written down; no checker, and no part
of the port, has a hand in them.  This script only lays out the bytes.

It writes, into crates/replay_reading or the folder given,

    data/NAME   the pattern file of each vector
    args        the names, one to a line, in the sequence of the tables
    stdout      for each vector the line `NAME ANSWER`

Made again, always with the same bytes, by

    python3 tools/reading_vectors.py [FOLDER]

How the files are built.  A Pattern holds the seven bodies as lists of records.
`draw` makes one from outlines written as in document 01 ("0+ 1+ 2-"); `but`
gives a copy with whole bodies replaced, `put` one with single records
replaced; `file` lays out the bytes with the true contents table, except for
the offsets and counts it is told to state instead.

Answers that rest on a reading of document 01 where its text is short:
- a wrong offset of body b is `refused 1 body b`, a file that does not end with
  its last body `refused 1 body 6`;
- a wrong sum names the body that is summed (3, 4 or 5), with the number of
  that body's records as the record;
- where two wires of a face share a point, the later one is named, by its
  number in the whole file.
"""

import pathlib
import re
import struct
import sys
from typing import NamedTuple

REVERSED = 32768


# ---------------------------------------------------------------- building

class Pattern(NamedTuple):
    points: list = []       # labels
    edges: list = []        # (front, back, t0, t1)
    uses: list = []         # edge number, + 32,768 if reversed
    wires: list = []        # how many uses
    faces: list = []        # (how many wires, surface)
    shells: list = []       # how many listings
    listings: list = []     # face number, + 32,768 if reversed

    def but(self, **bodies):
        """A copy with these bodies in place of its own."""
        return self._replace(**bodies)

    def put(self, **changes):
        """A copy with single records replaced: put(uses={0: 5})."""
        new = {}
        for body, records in changes.items():
            new[body] = list(getattr(self, body))
            for place, record in records.items():
                new[body][place] = record
        return self._replace(**new)

    def file(self, offset={}, count={}, gap=None):
        """The bytes.  `offset` and `count` give what the contents table states
        for a body in place of the truth; one zero byte stands before body `gap`."""
        table, rest = b"", b""
        for body, (records, pack) in enumerate(zip(self, PACK)):
            if body == gap:
                rest += b"\0"
            table += struct.pack("<II", offset.get(body, 56 + len(rest)),
                                 count.get(body, len(records)))
            rest += b"".join(map(pack, records))
        return table + rest


def u16(number):
    return struct.pack("<H", number)


def u32(number):
    return struct.pack("<I", number)


def f64(number):
    """A float, or eight bytes made by `bits`, which are kept as they are."""
    return number if isinstance(number, bytes) else struct.pack("<d", number)


def bits(pattern):
    return struct.pack("<Q", pattern)


PACK = (
    u32,
    lambda e: u16(e[0]) + u16(e[1]) + f64(e[2]) + f64(e[3]),
    u16,
    u16,
    lambda f: u16(f[0]) + u16(f[1]),
    u16,
    u16,
)


def edge(front, back, t0=0.0, t1=1.0):
    return (front, back, t0, t1)


def edges(text):
    """Edges by their one-digit points: "01 12 20"."""
    return [edge(int(front), int(back)) for front, back in text.split()]


def signed(text):
    """Uses or listings: "0+ 1-" is [0, 32769]."""
    return [int(word[:-1]) + (REVERSED if word[-1] == "-" else 0) for word in text.split()]


def draw(points, edges, faces, shells=()):
    """A pattern from outlines: for each face a list of wires, for each shell its listings."""
    wires = [signed(wire) for face in faces for wire in face]
    listings = [signed(shell) for shell in shells]
    return Pattern(
        points=[1000 + number for number in range(points)],
        edges=list(edges),
        uses=sum(wires, []),
        wires=[len(wire) for wire in wires],
        faces=[(len(face), 1) for face in faces],
        shells=[len(shell) for shell in listings],
        listings=sum(listings, []),
    )


def turned(wire):
    """A wire in reverse order with every use turned."""
    return [use ^ REVERSED for use in reversed(wire)]


# ---------------------------------------------------------------- patterns

EMPTY = Pattern()

# Offsets 56, 68, 128, 134, 136, 140, 142; 144 bytes.
TRIANGLE = draw(3, edges("01 12 20"), [["0+ 1+ 2+"]], ["0+"])
TRIANGLE_FILE = TRIANGLE.file()

# Offsets 56, 72, 192, 216, 224, 240, 242; 250 bytes.
TETRAHEDRON = draw(4, edges("01 12 20 03 13 23"),
                   [["0+ 1+ 2+"], ["0- 3+ 4-"], ["1- 4+ 5-"], ["2- 5+ 3-"]],
                   ["0+ 1+ 2+ 3+"])
TETRAHEDRON_FILE = TETRAHEDRON.file()

# Three triangles without a common point: wires "0+ 1+ 2+", "3+ 4+ 5+", "6+ 7+ 8+".
APART = edges("01 12 20 34 45 53 67 78 86")


def apart(*faces):
    """Faces over the three triangles, all listed in one shell."""
    return draw(9, APART, faces, [" ".join(f"{face}+" for face in range(len(faces)))])


# The edges 0 to 1 and 1 to 0 of document 01's small input for 8, and 1 to 2.
DIGON = edges("01 10 12")


def digon(*faces):
    return draw(3, DIGON, faces, ["0+"])


# 1,024 edges between two points, none used.
MANY_EDGES = Pattern(points=[1, 2], edges=[edge(0, 1)] * 1024)

# Four squares on 16 points; 256 faces, each with the four squares as its wires:
# 4,096 uses, 1,024 wires; each face listed + and -: 16 shells of 32, 512 listings.
SQUARES = Pattern(
    points=list(range(16)),
    edges=[edge(4 * s + i, 4 * s + (i + 1) % 4) for s in range(4) for i in range(4)],
    uses=list(range(16)) * 256,
    wires=[4] * 1024,
    faces=[(4, face) for face in range(256)],
    shells=[32] * 16,
    listings=[face + sign for face in range(256) for sign in (0, REVERSED)],
)

# One face of 1,024 wires, wire w running edge w there and back: 2,048 points.
ONE_FACE = Pattern(
    points=list(range(2048)),
    edges=[edge(2 * e, 2 * e + 1) for e in range(1024)],
    uses=[e + sign for e in range(1024) for sign in (0, REVERSED)],
    wires=[2] * 1024,
    faces=[(1024, 1)],
    shells=[1],
    listings=[0],
)


def full():
    """Every table full: 256 squares, spread over the 2,048 points; face f has the
    squares 4(f mod 64) to 4(f mod 64) + 3, turned in every second round."""
    def corner(square, i):
        return 2 * (4 * square + i % 4) + square % 2

    wires = []
    for face in range(256):
        for square in range(4 * (face % 64), 4 * (face % 64) + 4):
            wire = [4 * square + i for i in range(4)]
            wires.append(turned(wire) if face // 64 % 2 else wire)
    return Pattern(
        points=[4294967295 - 3 * point for point in range(2048)],
        edges=[edge(corner(s, i), corner(s, i + 1), -0.5 * s, 12.25 + i)
               for s in range(256) for i in range(4)],
        uses=sum(wires, []),
        wires=[4] * 1024,
        faces=[(4, 65535 - face) for face in range(256)],
        shells=[32] * 16,
        listings=[face + sign for face in range(256) for sign in (0, REVERSED)],
    )


FULL = full()
FULL_FILE = FULL.file()     # 41,048 bytes


def coat_front():
    """The sample garment: one half of a coat's front, in millimetres of seam.

    Shell 0 is the body: the front with its pocket opening and a buttonhole, the
    side panel sewn to it at the side seam, the facing with its buttonhole sewn to
    it at the centre edge.  Shell 1 is the collar, upper and under side sewn all
    round.  Shell 2 is the pocket flap with a buttonhole, listed reversed.
    A label is the piece (hundreds) and the mark on it.
    """
    points = [
        101, 102, 103, 104, 105, 106, 107,  # 0-6    front: centre neck, centre hem, side hem,
                                            #        underarm, armhole notch, shoulder, neck
        111, 112, 113, 114,                 # 7-10   pocket opening
        121, 122,                           # 11-12  buttonhole of the front
        201, 202,                           # 13-14  side panel: back hem, back underarm
        301, 302,                           # 15-16  facing: inner neck, inner hem
        321, 322,                           # 17-18  buttonhole of the facing
        401, 402, 403, 404,                 # 19-22  collar
        501, 502, 503, 504,                 # 23-26  pocket flap
        521, 522,                           # 27-28  buttonhole of the flap
    ]
    edges = [
        edge(0, 1, 0.0, 718.5),             # 0   centre edge
        edge(1, 2, 0.0, 264.0),             # 1   hem of the front
        edge(2, 3, 0.0, 431.25),            # 2   side seam
        edge(3, 4, 0.0, 96.5),              # 3   armhole, lower part
        edge(4, 5, 96.5, 241.0),            # 4   armhole, upper part
        edge(5, 6, 0.0, 128.0),             # 5   shoulder
        edge(6, 0, 0.0, 187.75),            # 6   neckline
        edge(7, 8, 0.0, 150.0),             # 7   pocket opening
        edge(8, 9, 150.0, 162.0),           # 8
        edge(9, 10, 162.0, 312.0),          # 9
        edge(10, 7, 312.0, 324.0),          # 10
        edge(11, 12, -11.5, 11.5),          # 11  buttonhole of the front
        edge(2, 13, 264.0, 388.0),          # 12  hem of the side panel
        edge(13, 14, 0.0, 437.5),           # 13  back seam
        edge(14, 3, -88.0, 0.0),            # 14  armhole, under the arm
        edge(0, 15, 0.0, 64.0),             # 15  neckline of the facing
        edge(15, 16, 0.0, 702.0),           # 16  inner edge of the facing
        edge(16, 1, -92.0, 0.0),            # 17  hem of the facing
        edge(17, 18, -11.5, 11.5),          # 18  buttonhole of the facing
        edge(19, 20, 0.0, 251.5),           # 19  collar: neck edge
        edge(20, 21, 0.0, 78.0),            # 20
        edge(21, 22, 0.0, 283.0),           # 21  outer edge
        edge(22, 19, 0.0, 78.0),            # 22
        edge(23, 24, 0.0, 158.0),           # 23  pocket flap
        edge(24, 25, 0.0, 55.0),            # 24
        edge(25, 26, 0.0, 158.0),           # 25
        edge(26, 23, 0.0, 55.0),            # 26
        edge(27, 28, -9.0, 9.0),            # 27  buttonhole of the flap
    ]
    drawn = draw(len(points), edges, [
        ["0+ 1+ 2+ 3+ 4+ 5+ 6+", "10- 9- 8- 7-", "11+ 11-"],    # 0  front
        ["2- 12+ 13+ 14+"],                                     # 1  side panel
        ["0- 15+ 16+ 17+", "18+ 18-"],                          # 2  facing
        ["19+ 20+ 21+ 22+"],                                    # 3  upper collar
        ["22- 21- 20- 19-"],                                    # 4  under collar
        ["23+ 24+ 25+ 26+", "27+ 27-"],                         # 5  pocket flap
    ], ["0+ 1+ 2+", "3+ 4+", "5-"])
    return drawn.but(points=points,
                     faces=[(3, 1), (1, 1), (2, 2), (1, 1), (1, 3), (2, 1)])


# ------------------------------------------------- pieces, and small inputs

PIECES = [
    ("coat-front", coat_front(), "accepted"),
    ("empty", EMPTY, "accepted"),                       # 56 bytes, no records
    ("triangle", TRIANGLE, "accepted"),
    ("triangle-reversed", TRIANGLE.but(listings=signed("0-")), "accepted"),
    ("triangle-twice", TRIANGLE.but(shells=[2], listings=signed("0+ 0+")), "accepted"),
    ("triangle-thrice", TRIANGLE.but(shells=[3], listings=signed("0+ 0+ 0+")), "accepted"),
    ("tetrahedron", TETRAHEDRON, "accepted"),
    ("face-without-wires", draw(0, [], [[]], ["0+"]), "accepted"),
    ("empty-shell", draw(0, [], [], [""]), "accepted"),
    ("there-and-back", draw(2, edges("01"), [["0+ 0-"]], ["0+"]), "accepted"),
    ("two-triangles-one-point",
     draw(5, edges("01 12 20 03 34 40"), [["0+ 1+ 2+"], ["3+ 4+ 5+"]], ["0+ 1+"]), "accepted"),

    # the small inputs of document 01's table, numbers 1 to 8 ...
    ("small-1-55-bytes", EMPTY.file()[:55], "refused 1 body 0 record 0"),
    ("small-2-17-shells", draw(0, [], [], [""] * 17), "refused 2 body 5 record 0"),
    ("small-3-use-of-edge-5-of-5",
     draw(4, edges("01 12 20 03 13"), [["0+ 1+ 5+"]], ["0+"]), "refused 3 body 2 record 2"),
    ("small-4-span-0-to-0", TRIANGLE.put(edges={0: edge(0, 1, 0.0, 0.0)}),
     "refused 4 body 1 record 0"),
    ("small-5-edge-2-to-2", TRIANGLE.put(edges={2: edge(2, 2)}), "refused 5 body 1 record 2"),
    ("small-6-wire-of-0-uses", draw(0, [], [[""]], ["0+"]), "refused 6 body 3 record 0"),
    ("small-7-one-use", draw(2, edges("01"), [["0+"]], ["0+"]), "refused 7 body 3 record 0"),
    ("small-8-wire-0-1-0-1", draw(2, edges("01 10"), [["0+ 1+ 0+ 1+"]], ["0+"]),
     "refused 8 body 3 record 0"),

    # ... and patterns that only a solid or an edit refuses: the reader accepts them
    ("small-11-two-pieces-apart", apart(["0+ 1+ 2+"], ["3+ 4+ 5+"]), "accepted"),
    ("small-13-tetrahedra-one-point",
     draw(7, edges("01 12 20 03 13 23 04 45 50 06 46 56"),
          [["0+ 1+ 2+"], ["0- 3+ 4-"], ["1- 4+ 5-"], ["2- 5+ 3-"],
           ["6+ 7+ 8+"], ["6- 9+ 10-"], ["7- 10+ 11-"], ["8- 11+ 9-"]],
          ["0+ 1+ 2+ 3+ 4+ 5+ 6+ 7+"]), "accepted"),
    ("small-18-face-with-a-hole", apart(["0+ 1+ 2+", "3+ 4+ 5+"]), "accepted"),
    ("small-21-two-edges-two-points", draw(2, edges("01 01"), [["0+ 1-"]], ["0+"]), "accepted"),
    ("small-22-triangle-and-mirror", draw(3, edges("01 12 20"),
                                          [["0+ 1+ 2+"], ["2- 1- 0-"]], ["0+ 1+"]), "accepted"),
    ("small-23-unused-point", TRIANGLE.but(points=[1, 2, 3, 4]), "accepted"),
    ("small-25-wire-of-two-edges", draw(2, edges("01 10"), [["0+ 1+"]], ["0+"]), "accepted"),
    ("small-27-face-in-two-shells", TRIANGLE.but(shells=[1, 1], listings=[0, 0]), "accepted"),

    # values that are free
    ("labels-all-equal", TRIANGLE.but(points=[7, 7, 7]), "accepted"),
    ("labels-at-both-ends", TRIANGLE.but(points=[0, 4294967295, 2147483648]), "accepted"),
    ("surface-65535", TRIANGLE.but(faces=[(1, 65535)]), "accepted"),
    ("edges-not-used", draw(3, edges("01 12 20"), []), "accepted"),
    ("points-alone", draw(3, [], []), "accepted"),
    ("faces-not-listed", draw(3, edges("01 12 20"), [["0+ 1+ 2+"]]), "accepted"),
    ("shells-empty-around-a-full-one", TRIANGLE.but(shells=[0, 1, 0]), "accepted"),
]


# ------------------------------------------------------------------- length

LENGTH = [
    # the triangle's file cut off within its contents table
    ("length-0", TRIANGLE_FILE[:0], "refused 1 body 0 record 0"),
    ("length-1", TRIANGLE_FILE[:1], "refused 1 body 0 record 0"),
    ("length-4", TRIANGLE_FILE[:4], "refused 1 body 0 record 0"),
    ("length-8", TRIANGLE_FILE[:8], "refused 1 body 0 record 0"),
    ("length-12", TRIANGLE_FILE[:12], "refused 1 body 0 record 0"),
    ("length-16", TRIANGLE_FILE[:16], "refused 1 body 0 record 0"),
    ("length-20", TRIANGLE_FILE[:20], "refused 1 body 0 record 0"),
    ("length-24", TRIANGLE_FILE[:24], "refused 1 body 0 record 0"),
    ("length-28", TRIANGLE_FILE[:28], "refused 1 body 0 record 0"),
    ("length-32", TRIANGLE_FILE[:32], "refused 1 body 0 record 0"),
    ("length-36", TRIANGLE_FILE[:36], "refused 1 body 0 record 0"),
    ("length-40", TRIANGLE_FILE[:40], "refused 1 body 0 record 0"),
    ("length-44", TRIANGLE_FILE[:44], "refused 1 body 0 record 0"),
    ("length-48", TRIANGLE_FILE[:48], "refused 1 body 0 record 0"),
    ("length-52", TRIANGLE_FILE[:52], "refused 1 body 0 record 0"),
    ("length-55", TRIANGLE_FILE[:55], "refused 1 body 0 record 0"),
    ("length-56", TRIANGLE_FILE[:56], "refused 1 body 6 record 0"),  # long enough; wrong end

    # the longest file, one byte less, one more, and far too much
    ("full", FULL_FILE, "accepted"),
    ("full-less-one-byte", FULL_FILE[:-1], "refused 1 body 6 record 0"),
    ("full-and-one-byte", FULL_FILE + b"\0", "refused 1 body 0 record 0"),
    ("full-twice", FULL_FILE * 2, "refused 1 body 0 record 0"),
    ("empty-in-65592-bytes", EMPTY.file() + bytes(65536), "refused 1 body 0 record 0"),
    ("triangle-in-41048-bytes", TRIANGLE_FILE.ljust(41048, b"\0"), "refused 1 body 6 record 0"),

    # length before counts
    ("length-41049-before-count-0", FULL.file(count={0: 2049}) + b"\0",
     "refused 1 body 0 record 0"),
    ("length-41049-before-count-6", FULL.file(count={6: 513}) + b"\0",
     "refused 1 body 0 record 0"),
    ("length-55-before-count-0", EMPTY.file(count={0: 2049})[:55], "refused 1 body 0 record 0"),
    ("bytes-255-56-times", b"\xff" * 56, "refused 2 body 0 record 0"),
    ("bytes-0-56-times", b"\0" * 56, "refused 1 body 0 record 0"),     # offset of points is 0
]


# ------------------------------------------------------------------- counts

COUNTS = [
    # each limit met
    ("points-2048", Pattern(points=[5] * 2048), "accepted"),
    ("edges-1024", MANY_EDGES, "accepted"),
    ("uses-4096-wires-1024-faces-256", SQUARES, "accepted"),
    ("uses-4096-in-four-wires",
     Pattern(points=[0] * 1024, edges=[edge(e, (e + 1) % 1024) for e in range(1024)],
             uses=list(range(1024)) * 4, wires=[1024] * 4, faces=[(1, 0)] * 4), "accepted"),
    ("wires-1024-in-one-face", ONE_FACE, "accepted"),
    ("faces-256", draw(0, [], [[]] * 256), "accepted"),
    ("shells-16", draw(0, [], [], [""] * 16), "accepted"),
    ("listings-512", draw(0, [], [[]], ["0+ " * 512]), "accepted"),

    # each limit passed by one record that is there, all else in order
    ("points-2049", Pattern(points=[5] * 2049), "refused 2 body 0 record 0"),
    ("edges-1025", MANY_EDGES.but(edges=[edge(0, 1)] * 1025), "refused 2 body 1 record 0"),
    ("uses-4097",       # the last wire has five uses, on points of its own
     SQUARES.but(points=list(range(21)),
                 edges=SQUARES.edges + [edge(16 + i, 16 + (i + 1) % 5) for i in range(5)],
                 uses=SQUARES.uses[:4092] + [16, 17, 18, 19, 20],
                 wires=[4] * 1023 + [5]), "refused 2 body 2 record 0"),
    ("wires-1025",      # five edges run there and back; the last face has five wires
     draw(10, edges("01 23 45 67 89"),
          [["0+ 0-", "1+ 1-", "2+ 2-", "3+ 3-"]] * 255
          + [["0+ 0-", "1+ 1-", "2+ 2-", "3+ 3-", "4+ 4-"]]), "refused 2 body 3 record 0"),
    ("faces-257", draw(0, [], [[]] * 257), "refused 2 body 4 record 0"),
    ("shells-17-each-with-a-listing", draw(0, [], [[]], ["0+"] * 17),
     "refused 2 body 5 record 0"),
    ("listings-513", draw(0, [], [[]], ["0+ " * 513]), "refused 2 body 6 record 0"),

    # the same in a file of 56 bytes, and in one of 41,048
    ("count-0-over-in-56-bytes", EMPTY.file(count={0: 2049}), "refused 2 body 0 record 0"),
    ("count-1-over-in-56-bytes", EMPTY.file(count={1: 1025}), "refused 2 body 1 record 0"),
    ("count-2-over-in-56-bytes", EMPTY.file(count={2: 4097}), "refused 2 body 2 record 0"),
    ("count-3-over-in-56-bytes", EMPTY.file(count={3: 1025}), "refused 2 body 3 record 0"),
    ("count-4-over-in-56-bytes", EMPTY.file(count={4: 257}), "refused 2 body 4 record 0"),
    ("count-5-over-in-56-bytes", EMPTY.file(count={5: 17}), "refused 2 body 5 record 0"),
    ("count-6-over-in-56-bytes", EMPTY.file(count={6: 513}), "refused 2 body 6 record 0"),
    ("count-0-over-in-full", FULL.file(count={0: 2049}), "refused 2 body 0 record 0"),
    ("count-6-over-in-full", FULL.file(count={6: 513}), "refused 2 body 6 record 0"),

    # each limit stated, no records there: the next offset is wrong, or the end of file
    ("count-0-at-limit-in-56-bytes", EMPTY.file(count={0: 2048}), "refused 1 body 1 record 0"),
    ("count-5-at-limit-in-56-bytes", EMPTY.file(count={5: 16}), "refused 1 body 6 record 0"),
    ("count-6-at-limit-in-56-bytes", EMPTY.file(count={6: 512}), "refused 1 body 6 record 0"),
    ("full-contents-alone", FULL_FILE[:56], "refused 1 body 6 record 0"),

    # counts far over, and counts whose low 16 bits are those of a good file
    ("count-0-4294967295", TRIANGLE.file(count={0: 4294967295}), "refused 2 body 0 record 0"),
    ("count-3-4294967295", TRIANGLE.file(count={3: 4294967295}), "refused 2 body 3 record 0"),
    ("count-6-4294967295", TRIANGLE.file(count={6: 4294967295}), "refused 2 body 6 record 0"),
    ("count-0-and-65536", TRIANGLE.file(count={0: 65539}), "refused 2 body 0 record 0"),
    ("count-3-and-65536", TRIANGLE.file(count={3: 65537}), "refused 2 body 3 record 0"),
    ("count-6-and-65536", TRIANGLE.file(count={6: 65537}), "refused 2 body 6 record 0"),
    ("count-0-2147483651", TRIANGLE.file(count={0: 2147483651}), "refused 2 body 0 record 0"),

    # two counts over: the lower body
    ("count-0-before-count-1", EMPTY.file(count={0: 2049, 1: 1025}), "refused 2 body 0 record 0"),
    ("count-1-before-count-2", EMPTY.file(count={1: 1025, 2: 4097}), "refused 2 body 1 record 0"),
    ("count-2-before-count-3", EMPTY.file(count={2: 4097, 3: 1025}), "refused 2 body 2 record 0"),
    ("count-3-before-count-4", EMPTY.file(count={3: 1025, 4: 257}), "refused 2 body 3 record 0"),
    ("count-4-before-count-5", EMPTY.file(count={4: 257, 5: 17}), "refused 2 body 4 record 0"),
    ("count-5-before-count-6", EMPTY.file(count={5: 17, 6: 513}), "refused 2 body 5 record 0"),

    # every count before any offset, and before the end of file
    ("count-6-before-offset-0", TRIANGLE.file(count={6: 513}, offset={0: 0}),
     "refused 2 body 6 record 0"),
    ("count-0-before-offset-0", TRIANGLE.file(count={0: 2049}, offset={0: 0}),
     "refused 2 body 0 record 0"),
    ("count-3-before-offset-3", TRIANGLE.file(count={3: 1025}, offset={3: 0}),
     "refused 2 body 3 record 0"),
    ("count-6-before-offset-6", TRIANGLE.file(count={6: 513}, offset={6: 0}),
     "refused 2 body 6 record 0"),
    ("count-6-before-end-of-file", TRIANGLE.file(count={6: 513})[:-1],
     "refused 2 body 6 record 0"),

    # count first, offset second in each entry: the shells' count reads 140
    ("entries-count-first",
     TRIANGLE.file(offset={0: 3, 1: 3, 2: 3, 3: 1, 4: 1, 5: 1, 6: 1},
                   count={0: 56, 1: 68, 2: 128, 3: 134, 4: 136, 5: 140, 6: 142}),
     "refused 2 body 5 record 0"),
]


# ----------------------------------------------------- offsets, end of file

OFFSETS = [
    # the triangle's offsets are 56, 68, 128, 134, 136, 140, 142
    ("offset-0-less-one", TRIANGLE.file(offset={0: 55}), "refused 1 body 0 record 0"),
    ("offset-1-less-one", TRIANGLE.file(offset={1: 67}), "refused 1 body 1 record 0"),
    ("offset-2-less-one", TRIANGLE.file(offset={2: 127}), "refused 1 body 2 record 0"),
    ("offset-3-less-one", TRIANGLE.file(offset={3: 133}), "refused 1 body 3 record 0"),
    ("offset-4-less-one", TRIANGLE.file(offset={4: 135}), "refused 1 body 4 record 0"),
    ("offset-5-less-one", TRIANGLE.file(offset={5: 139}), "refused 1 body 5 record 0"),
    ("offset-6-less-one", TRIANGLE.file(offset={6: 141}), "refused 1 body 6 record 0"),
    ("offset-0-and-one", TRIANGLE.file(offset={0: 57}), "refused 1 body 0 record 0"),
    ("offset-1-and-one", TRIANGLE.file(offset={1: 69}), "refused 1 body 1 record 0"),
    ("offset-2-and-one", TRIANGLE.file(offset={2: 129}), "refused 1 body 2 record 0"),
    ("offset-3-and-one", TRIANGLE.file(offset={3: 135}), "refused 1 body 3 record 0"),
    ("offset-4-and-one", TRIANGLE.file(offset={4: 137}), "refused 1 body 4 record 0"),
    ("offset-5-and-one", TRIANGLE.file(offset={5: 141}), "refused 1 body 5 record 0"),
    ("offset-6-and-one", TRIANGLE.file(offset={6: 143}), "refused 1 body 6 record 0"),
    ("offset-0-4294967295", TRIANGLE.file(offset={0: 4294967295}), "refused 1 body 0 record 0"),
    ("offset-3-4294967295", TRIANGLE.file(offset={3: 4294967295}), "refused 1 body 3 record 0"),
    ("offset-6-4294967295", TRIANGLE.file(offset={6: 4294967295}), "refused 1 body 6 record 0"),
    ("offset-0-and-65536", TRIANGLE.file(offset={0: 65592}), "refused 1 body 0 record 0"),
    ("offset-6-and-65536", TRIANGLE.file(offset={6: 65678}), "refused 1 body 6 record 0"),
    ("offset-0-is-64", TRIANGLE.file(offset={0: 64}), "refused 1 body 0 record 0"),
    ("offsets-counted-from-the-table-end",
     TRIANGLE.file(offset={0: 0, 1: 12, 2: 72, 3: 78, 4: 80, 5: 84, 6: 86}),
     "refused 1 body 0 record 0"),

    # an empty body has the running offset too, not 0
    ("empty-body-0-offset-0", EMPTY.file(offset={0: 0}), "refused 1 body 0 record 0"),
    ("empty-body-1-offset-0", EMPTY.file(offset={1: 0}), "refused 1 body 1 record 0"),
    ("empty-body-2-offset-0", EMPTY.file(offset={2: 0}), "refused 1 body 2 record 0"),
    ("empty-body-3-offset-0", EMPTY.file(offset={3: 0}), "refused 1 body 3 record 0"),
    ("empty-body-4-offset-0", EMPTY.file(offset={4: 0}), "refused 1 body 4 record 0"),
    ("empty-body-5-offset-0", EMPTY.file(offset={5: 0}), "refused 1 body 5 record 0"),
    ("empty-body-6-offset-0", EMPTY.file(offset={6: 0}), "refused 1 body 6 record 0"),
    ("empty-body-after-points-offset-56", draw(3, [], []).file(offset={1: 56}),
     "refused 1 body 1 record 0"),

    # one byte too many between two bodies, all offsets telling where the bodies are
    ("gap-before-body-0", TRIANGLE.file(gap=0), "refused 1 body 0 record 0"),
    ("gap-before-body-3", TRIANGLE.file(gap=3), "refused 1 body 3 record 0"),
    ("gap-before-body-6", TRIANGLE.file(gap=6), "refused 1 body 6 record 0"),

    # the wires stored before the uses
    ("bodies-2-and-3-exchanged",
     TRIANGLE.file(offset={2: 130, 3: 128})[:128]
     + TRIANGLE_FILE[134:136] + TRIANGLE_FILE[128:134] + TRIANGLE_FILE[136:],
     "refused 1 body 2 record 0"),

    # a count that is wrong within its limit shows at the next offset, or at the end
    ("count-0-and-one", TRIANGLE.file(count={0: 4}), "refused 1 body 1 record 0"),
    ("count-1-and-one", TRIANGLE.file(count={1: 4}), "refused 1 body 2 record 0"),
    ("count-2-and-one", TRIANGLE.file(count={2: 4}), "refused 1 body 3 record 0"),
    ("count-3-and-one", TRIANGLE.file(count={3: 2}), "refused 1 body 4 record 0"),
    ("count-4-and-one", TRIANGLE.file(count={4: 2}), "refused 1 body 5 record 0"),
    ("count-5-and-one", TRIANGLE.file(count={5: 2}), "refused 1 body 6 record 0"),
    ("count-6-and-one", TRIANGLE.file(count={6: 2}), "refused 1 body 6 record 0"),
    ("count-3-less-one", TRIANGLE.file(count={3: 0}), "refused 1 body 4 record 0"),
    ("count-5-less-one", TRIANGLE.file(count={5: 0}), "refused 1 body 6 record 0"),
    ("count-6-less-one", TRIANGLE.file(count={6: 0}), "refused 1 body 6 record 0"),

    # two offsets wrong: the lower body
    ("offset-0-before-offset-1", TRIANGLE.file(offset={0: 0, 1: 0}), "refused 1 body 0 record 0"),
    ("offset-1-before-offset-2", TRIANGLE.file(offset={1: 0, 2: 0}), "refused 1 body 1 record 0"),
    ("offset-2-before-offset-3", TRIANGLE.file(offset={2: 0, 3: 0}), "refused 1 body 2 record 0"),
    ("offset-3-before-offset-4", TRIANGLE.file(offset={3: 0, 4: 0}), "refused 1 body 3 record 0"),
    ("offset-4-before-offset-5", TRIANGLE.file(offset={4: 0, 5: 0}), "refused 1 body 4 record 0"),
    ("offset-5-before-offset-6", TRIANGLE.file(offset={5: 0, 6: 0}), "refused 1 body 5 record 0"),

    # offsets before the end of file (offset 6 and the end give one answer)
    ("offset-0-before-end-of-file", TRIANGLE.file(offset={0: 0})[:-1],
     "refused 1 body 0 record 0"),
    ("offset-5-before-end-of-file", TRIANGLE.file(offset={5: 0})[:-1],
     "refused 1 body 5 record 0"),
    ("offset-5-before-a-byte-more", TRIANGLE.file(offset={5: 0}) + b"\0",
     "refused 1 body 5 record 0"),
    ("offset-6-and-end-of-file", TRIANGLE.file(offset={6: 0})[:-1], "refused 1 body 6 record 0"),
    ("offset-6-before-edge-0", TRIANGLE.put(edges={0: edge(3, 1)}).file(offset={6: 0}),
     "refused 1 body 6 record 0"),

    # the tetrahedron's bodies begin at 56, 72, 192, 216, 224, 240, 242; the file has 250 bytes
    ("end-at-56-no-points", TETRAHEDRON_FILE[:56], "refused 1 body 6 record 0"),
    ("end-at-57-in-points", TETRAHEDRON_FILE[:57], "refused 1 body 6 record 0"),
    ("end-at-72-no-edges", TETRAHEDRON_FILE[:72], "refused 1 body 6 record 0"),
    ("end-at-191-in-edges", TETRAHEDRON_FILE[:191], "refused 1 body 6 record 0"),
    ("end-at-192-no-uses", TETRAHEDRON_FILE[:192], "refused 1 body 6 record 0"),
    ("end-at-216-no-wires", TETRAHEDRON_FILE[:216], "refused 1 body 6 record 0"),
    ("end-at-224-no-faces", TETRAHEDRON_FILE[:224], "refused 1 body 6 record 0"),
    ("end-at-240-no-shells", TETRAHEDRON_FILE[:240], "refused 1 body 6 record 0"),
    ("end-at-242-no-listings", TETRAHEDRON_FILE[:242], "refused 1 body 6 record 0"),
    ("end-at-248-one-listing-short", TETRAHEDRON_FILE[:248], "refused 1 body 6 record 0"),
    ("end-at-249-one-byte-short", TETRAHEDRON_FILE[:249], "refused 1 body 6 record 0"),
    ("end-one-byte-more", TETRAHEDRON_FILE + b"\0", "refused 1 body 6 record 0"),
    ("end-one-listing-more", TETRAHEDRON_FILE + b"\0\0", "refused 1 body 6 record 0"),
    ("empty-and-one-byte", EMPTY.file() + b"\0", "refused 1 body 6 record 0"),

    # the end of file before the first edge
    ("end-short-before-edge-0", TRIANGLE.put(edges={0: edge(3, 1)}).file()[:-1],
     "refused 1 body 6 record 0"),
    ("end-long-before-edge-0", TRIANGLE.put(edges={0: edge(3, 1)}).file() + b"\0",
     "refused 1 body 6 record 0"),
    ("end-long-before-edge-0-span", TRIANGLE.put(edges={0: edge(0, 1, 1.0, 0.0)}).file() + b"\0",
     "refused 1 body 6 record 0"),
    ("end-long-before-wire-0", draw(2, edges("01"), [["0+"]], ["0+"]).file() + b"\0",
     "refused 1 body 6 record 0"),
]


# -------------------------------------------------------------------- edges

EDGES = [
    # points: the first edge, and the last possible
    ("edge-0-front", TRIANGLE.put(edges={0: edge(3, 1)}), "refused 3 body 1 record 0"),
    ("edge-0-back", TRIANGLE.put(edges={0: edge(0, 3)}), "refused 3 body 1 record 0"),
    ("edge-1023-front", MANY_EDGES.put(edges={1023: edge(2, 1)}), "refused 3 body 1 record 1023"),
    ("edge-1023-back", MANY_EDGES.put(edges={1023: edge(0, 2)}), "refused 3 body 1 record 1023"),
    ("edge-1023-front-in-full", FULL.put(edges={1023: edge(2048, 0)}),
     "refused 3 body 1 record 1023"),
    ("edge-0-front-65535", TRIANGLE.put(edges={0: edge(65535, 1)}), "refused 3 body 1 record 0"),
    ("edge-0-front-32768", TRIANGLE.put(edges={0: edge(32768, 1)}), "refused 3 body 1 record 0"),
    ("edge-0-back-32769", TRIANGLE.put(edges={0: edge(0, 32769)}), "refused 3 body 1 record 0"),
    ("edge-no-points", Pattern(edges=[edge(0, 1)]), "refused 3 body 1 record 0"),
    ("edge-point-2047", Pattern(points=[9] * 2048, edges=[edge(2047, 0), edge(0, 2047)]),
     "accepted"),
    ("edge-front-point-2048", Pattern(points=[9] * 2048, edges=[edge(2048, 0)]),
     "refused 3 body 1 record 0"),
    ("edge-back-point-2048", Pattern(points=[9] * 2048, edges=[edge(0, 2048)]),
     "refused 3 body 1 record 0"),
    ("edges-alike", draw(2, edges("01 01 10"), []), "accepted"),

    # ends
    ("edge-0-ends", TRIANGLE.put(edges={0: edge(0, 0)}), "refused 5 body 1 record 0"),
    ("edge-1023-ends", MANY_EDGES.put(edges={1023: edge(1, 1)}), "refused 5 body 1 record 1023"),
    ("edge-ends-label-alone-alike", Pattern(points=[7, 7], edges=[edge(0, 1)]), "accepted"),

    # span
    ("edge-0-span", TRIANGLE.put(edges={0: edge(0, 1, 1.0, 1.0)}), "refused 4 body 1 record 0"),
    ("edge-1023-span", MANY_EDGES.put(edges={1023: edge(0, 1, 1.0, 1.0)}),
     "refused 4 body 1 record 1023"),
    ("edge-span-unused", Pattern(points=[7, 8], edges=[edge(0, 1, 1.0, 0.0)]),
     "refused 4 body 1 record 0"),

    # within one edge: points (3), ends (5), span (4)
    ("edge-points-before-ends", TRIANGLE.put(edges={0: edge(3, 3)}), "refused 3 body 1 record 0"),
    ("edge-front-before-span", TRIANGLE.put(edges={0: edge(3, 1, 1.0, 1.0)}),
     "refused 3 body 1 record 0"),
    ("edge-back-before-span", TRIANGLE.put(edges={0: edge(0, 3, 1.0, 1.0)}),
     "refused 3 body 1 record 0"),
    ("edge-ends-before-span", TRIANGLE.put(edges={0: edge(2, 2, 1.0, 1.0)}),
     "refused 5 body 1 record 0"),
    ("edge-points-before-ends-before-span", TRIANGLE.put(edges={0: edge(3, 3, 1.0, 1.0)}),
     "refused 3 body 1 record 0"),

    # edge by edge
    ("edge-0-span-before-edge-1-points",
     TRIANGLE.put(edges={0: edge(0, 1, 1.0, 1.0), 1: edge(3, 2)}), "refused 4 body 1 record 0"),
    ("edge-0-span-before-edge-1-ends",
     TRIANGLE.put(edges={0: edge(0, 1, 1.0, 1.0), 1: edge(1, 1)}), "refused 4 body 1 record 0"),
    ("edge-0-ends-before-edge-1-points",
     TRIANGLE.put(edges={0: edge(0, 0), 1: edge(1, 3)}), "refused 5 body 1 record 0"),
    ("edge-1022-span-before-edge-1023-points",
     MANY_EDGES.put(edges={1022: edge(0, 1, 1.0, 1.0), 1023: edge(2, 1)}),
     "refused 4 body 1 record 1022"),
]


# -------------------------------------------------------------------- spans

def span(t0, t1):
    """The triangle, its edge 0 with this span."""
    return TRIANGLE.put(edges={0: edge(0, 1, t0, t1)})


NAN = bits(0x7FF8000000000000)
NEGATIVE_NAN = bits(0xFFF8000000000000)
SIGNALLING_NAN = bits(0x7FF0000000000001)
NEGATIVE_SIGNALLING_NAN = bits(0xFFF0000000000001)
NAN_ALL_BITS = bits(0xFFFFFFFFFFFFFFFF)
INFINITY = bits(0x7FF0000000000000)
NEGATIVE_INFINITY = bits(0xFFF0000000000000)
LARGEST = bits(0x7FEFFFFFFFFFFFFF)
NEGATIVE_LARGEST = bits(0xFFEFFFFFFFFFFFFF)
NEGATIVE_ZERO = bits(0x8000000000000000)
TINY = bits(0x0000000000000001)                 # 5e-324
TINY_TWICE = bits(0x0000000000000002)
NEGATIVE_TINY = bits(0x8000000000000001)
LARGEST_SUBNORMAL = bits(0x000FFFFFFFFFFFFF)
SMALLEST_NORMAL = bits(0x0010000000000000)
ONE_UP = bits(0x3FF0000000000001)               # next above 1
MILLION = bits(0x412E848000000000)              # 1,000,000
MILLION_UP = bits(0x412E848000000001)           # next above
MILLION_DOWN = bits(0x412E847FFFFFFFFF)         # next below
MINUS_MILLION = bits(0xC12E848000000000)        # -1,000,000
MINUS_MILLION_DOWN = bits(0xC12E848000000001)   # next below
MINUS_MILLION_UP = bits(0xC12E847FFFFFFFFF)     # next above

SPANS = [
    # not a number
    ("span-nan-t0", span(NAN, 1.0), "refused 4 body 1 record 0"),
    ("span-nan-t1", span(0.0, NAN), "refused 4 body 1 record 0"),
    ("span-nan-both", span(NAN, NAN), "refused 4 body 1 record 0"),
    ("span-negative-nan-t0", span(NEGATIVE_NAN, 1.0), "refused 4 body 1 record 0"),
    ("span-negative-nan-t1", span(0.0, NEGATIVE_NAN), "refused 4 body 1 record 0"),
    ("span-signalling-nan-t0", span(SIGNALLING_NAN, 1.0), "refused 4 body 1 record 0"),
    ("span-signalling-nan-t1", span(0.0, SIGNALLING_NAN), "refused 4 body 1 record 0"),
    ("span-negative-signalling-nan-t0", span(NEGATIVE_SIGNALLING_NAN, 1.0),
     "refused 4 body 1 record 0"),
    ("span-nan-all-bits-both", span(NAN_ALL_BITS, NAN_ALL_BITS), "refused 4 body 1 record 0"),

    # infinities, and the largest finite numbers
    ("span-infinity-t0", span(INFINITY, 1.0), "refused 4 body 1 record 0"),
    ("span-infinity-t1", span(0.0, INFINITY), "refused 4 body 1 record 0"),
    ("span-negative-infinity-t0", span(NEGATIVE_INFINITY, 1.0), "refused 4 body 1 record 0"),
    ("span-negative-infinity-t1", span(0.0, NEGATIVE_INFINITY), "refused 4 body 1 record 0"),
    ("span-infinity-both", span(NEGATIVE_INFINITY, INFINITY), "refused 4 body 1 record 0"),
    ("span-largest-t1", span(0.0, LARGEST), "refused 4 body 1 record 0"),
    ("span-negative-largest-t0", span(NEGATIVE_LARGEST, 1.0), "refused 4 body 1 record 0"),

    # zeros: neither is below the other
    ("span-negative-zero-to-zero", span(NEGATIVE_ZERO, 0.0), "refused 4 body 1 record 0"),
    ("span-zero-to-negative-zero", span(0.0, NEGATIVE_ZERO), "refused 4 body 1 record 0"),
    ("span-negative-zero-both", span(NEGATIVE_ZERO, NEGATIVE_ZERO), "refused 4 body 1 record 0"),
    ("span-negative-zero-to-one", span(NEGATIVE_ZERO, 1.0), "accepted"),
    ("span-minus-one-to-negative-zero", span(-1.0, NEGATIVE_ZERO), "accepted"),

    # subnormal numbers are numbers like others
    ("span-zero-to-tiny", span(0.0, TINY), "accepted"),
    ("span-negative-zero-to-tiny", span(NEGATIVE_ZERO, TINY), "accepted"),
    ("span-negative-tiny-to-zero", span(NEGATIVE_TINY, 0.0), "accepted"),
    ("span-negative-tiny-to-negative-zero", span(NEGATIVE_TINY, NEGATIVE_ZERO), "accepted"),
    ("span-negative-tiny-to-tiny", span(NEGATIVE_TINY, TINY), "accepted"),
    ("span-tiny-to-twice-tiny", span(TINY, TINY_TWICE), "accepted"),
    ("span-subnormal-to-normal", span(LARGEST_SUBNORMAL, SMALLEST_NORMAL), "accepted"),
    ("span-tiny-to-tiny", span(TINY, TINY), "refused 4 body 1 record 0"),
    ("span-tiny-to-zero", span(TINY, 0.0), "refused 4 body 1 record 0"),

    # t0 below t1
    ("span-one-to-next-above", span(1.0, ONE_UP), "accepted"),
    ("span-next-above-one-to-one", span(ONE_UP, 1.0), "refused 4 body 1 record 0"),
    ("span-equal", span(2.5, 2.5), "refused 4 body 1 record 0"),
    ("span-two-to-one", span(2.0, 1.0), "refused 4 body 1 record 0"),
    ("span-minus-two-to-minus-one", span(-2.0, -1.0), "accepted"),
    ("span-minus-one-to-minus-two", span(-1.0, -2.0), "refused 4 body 1 record 0"),
    ("span-minus-one-to-one", span(-1.0, 1.0), "accepted"),
    ("span-one-to-minus-one", span(1.0, -1.0), "refused 4 body 1 record 0"),

    # magnitude at most 1,000,000
    ("span-to-million", span(0.0, MILLION), "accepted"),
    ("span-to-next-above-million", span(0.0, MILLION_UP), "refused 4 body 1 record 0"),
    ("span-from-minus-million", span(MINUS_MILLION, 0.0), "accepted"),
    ("span-from-next-below-minus-million", span(MINUS_MILLION_DOWN, 0.0),
     "refused 4 body 1 record 0"),
    ("span-minus-million-to-million", span(MINUS_MILLION, MILLION), "accepted"),
    ("span-next-below-million-to-million", span(MILLION_DOWN, MILLION), "accepted"),
    ("span-million-to-next-above", span(MILLION, MILLION_UP), "refused 4 body 1 record 0"),
    ("span-million-to-million", span(MILLION, MILLION), "refused 4 body 1 record 0"),
    ("span-minus-million-to-next-above", span(MINUS_MILLION, MINUS_MILLION_UP), "accepted"),
    ("span-next-below-to-minus-million", span(MINUS_MILLION_DOWN, MINUS_MILLION),
     "refused 4 body 1 record 0"),
    ("span-t0-above-million", span(1000001.0, 1000002.0), "refused 4 body 1 record 0"),
    ("span-t1-below-minus-million", span(-1000002.0, -1000001.0), "refused 4 body 1 record 0"),
]


# --------------------------------------------------------------------- uses

USES = [
    ("use-0", TRIANGLE.put(uses={0: 3}), "refused 3 body 2 record 0"),
    ("use-0-reversed", TRIANGLE.put(uses={0: REVERSED + 3}), "refused 3 body 2 record 0"),
    ("use-2", TRIANGLE.put(uses={2: 3}), "refused 3 body 2 record 2"),
    ("use-4095", SQUARES.put(uses={4095: 16}), "refused 3 body 2 record 4095"),
    ("use-4095-reversed", SQUARES.put(uses={4095: REVERSED + 16}),
     "refused 3 body 2 record 4095"),
    ("use-4095-edge-1024-in-full", FULL.put(uses={4095: 1024}), "refused 3 body 2 record 4095"),
    ("use-16384", TRIANGLE.put(uses={0: 16384}), "refused 3 body 2 record 0"),
    ("use-32767", TRIANGLE.put(uses={0: 32767}), "refused 3 body 2 record 0"),
    ("use-65535", TRIANGLE.put(uses={0: 65535}), "refused 3 body 2 record 0"),
    ("use-no-edges", Pattern(points=[1, 2], uses=[0], wires=[1], faces=[(1, 0)]),
     "refused 3 body 2 record 0"),
    ("use-of-last-edge-reversed", draw(3, edges("01 12 20"), [["2- 1- 0-"]], ["0+"]), "accepted"),
    ("use-of-a-point-number", draw(4, edges("01 12 20"), [["0+ 1+ 3+"]], ["0+"]),
     "refused 3 body 2 record 2"),      # there is a point 3, but no edge 3

    # in sequence
    ("use-0-before-use-1", TRIANGLE.put(uses={0: 3, 1: 3}), "refused 3 body 2 record 0"),
    ("edge-2-span-before-use-0", TRIANGLE.put(edges={2: edge(2, 0, 1.0, 1.0)}, uses={0: 3}),
     "refused 4 body 1 record 2"),
    ("edge-2-ends-before-use-0", TRIANGLE.put(edges={2: edge(2, 2)}, uses={0: 3}),
     "refused 5 body 1 record 2"),
    ("edge-2-points-before-use-0", TRIANGLE.put(edges={2: edge(2, 3)}, uses={0: 3}),
     "refused 3 body 1 record 2"),
    ("edge-1023-span-before-use-0",
     MANY_EDGES.but(uses=[1024, 0], wires=[2], faces=[(1, 0)])
     .put(edges={1023: edge(0, 1, 1.0, 1.0)}), "refused 4 body 1 record 1023"),
]


# --------------------------------------------------------------------- sums

SUMS = [
    # wires against the count of uses
    ("sum-wires-low-no-wires", TRIANGLE.but(uses=[0], wires=[], faces=[(0, 0)]),
     "refused 3 body 3 record 0"),
    ("sum-wires-low", TRIANGLE.but(wires=[2]), "refused 3 body 3 record 1"),
    ("sum-wires-high", TRIANGLE.but(wires=[4]), "refused 3 body 3 record 1"),
    ("sum-wires-high-no-uses", Pattern(wires=[1], faces=[(1, 0)]), "refused 3 body 3 record 1"),
    ("sum-wires-high-four-wires", TETRAHEDRON.put(wires={3: 4}), "refused 3 body 3 record 4"),
    ("sum-wires-low-1024", SQUARES.put(wires={1023: 3}), "refused 3 body 3 record 1024"),
    ("sum-wires-high-1024", SQUARES.put(wires={0: 5}), "refused 3 body 3 record 1024"),
    ("sum-wires-65536-and-3", TRIANGLE.but(wires=[65535, 4], faces=[(2, 0)]),
     "refused 3 body 3 record 2"),
    ("sum-wires-largest", Pattern(wires=[65535] * 1024, faces=[(1024, 0)]),
     "refused 3 body 3 record 1024"),

    # faces against the count of wires
    ("sum-faces-low-no-faces", draw(3, edges("01 12 20"), [["0+ 1+ 2+"]]).but(faces=[]),
     "refused 3 body 4 record 0"),
    ("sum-faces-low", TRIANGLE.but(faces=[(0, 1)]), "refused 3 body 4 record 1"),
    ("sum-faces-high", TRIANGLE.but(faces=[(2, 1)]), "refused 3 body 4 record 1"),
    ("sum-faces-high-no-wires", Pattern(faces=[(1, 0)]), "refused 3 body 4 record 1"),
    ("sum-faces-high-four-faces", TETRAHEDRON.put(faces={3: (2, 1)}),
     "refused 3 body 4 record 4"),
    ("sum-faces-low-256", SQUARES.put(faces={255: (3, 0)}), "refused 3 body 4 record 256"),
    ("sum-faces-high-256", SQUARES.put(faces={0: (5, 0)}), "refused 3 body 4 record 256"),
    ("sum-faces-65536-and-1", TRIANGLE.but(faces=[(65535, 1), (2, 1)]),
     "refused 3 body 4 record 2"),
    ("sum-faces-largest", Pattern(faces=[(65535, 0)] * 256), "refused 3 body 4 record 256"),
    ("sum-faces-surface-is-not-counted", TRIANGLE.but(faces=[(0, 1), (0, 1)]),
     "refused 3 body 4 record 2"),

    # shells against the count of listings
    ("sum-shells-low-no-shells", TRIANGLE.but(shells=[]), "refused 3 body 5 record 0"),
    ("sum-shells-low", TRIANGLE.but(shells=[0]), "refused 3 body 5 record 1"),
    ("sum-shells-high", TRIANGLE.but(shells=[2]), "refused 3 body 5 record 1"),
    ("sum-shells-high-no-listings", Pattern(shells=[1]), "refused 3 body 5 record 1"),
    ("sum-shells-high-two-shells", TETRAHEDRON.but(shells=[2, 3]), "refused 3 body 5 record 2"),
    ("sum-shells-low-16", SQUARES.put(shells={15: 31}), "refused 3 body 5 record 16"),
    ("sum-shells-high-16", SQUARES.put(shells={0: 33}), "refused 3 body 5 record 16"),
    ("sum-shells-65536-and-1", TRIANGLE.but(shells=[65535, 2]), "refused 3 body 5 record 2"),
    ("sum-shells-largest", Pattern(shells=[65535] * 16), "refused 3 body 5 record 16"),

    # in sequence: uses, wires, faces, shells, listings
    ("use-2-before-sum-wires", TRIANGLE.put(uses={2: 3}).but(wires=[4]),
     "refused 3 body 2 record 2"),
    ("sum-wires-before-sum-faces", TRIANGLE.but(wires=[2], faces=[(2, 1)]),
     "refused 3 body 3 record 1"),
    ("sum-faces-before-sum-shells", TRIANGLE.but(faces=[(2, 1)], shells=[2]),
     "refused 3 body 4 record 1"),
    ("sum-shells-before-listing-0", TRIANGLE.but(shells=[2], listings=[1]),
     "refused 3 body 5 record 1"),
    ("sum-shells-before-face-rule", draw(2, edges("01"), [["0+"]], ["0+"]).but(shells=[2]),
     "refused 3 body 5 record 1"),
]


# ----------------------------------------------------------------- listings

LISTINGS = [
    ("listing-0", TRIANGLE.but(listings=[1]), "refused 3 body 6 record 0"),
    ("listing-0-reversed", TRIANGLE.but(listings=[REVERSED + 1]), "refused 3 body 6 record 0"),
    ("listing-3", TETRAHEDRON.put(listings={3: 4}), "refused 3 body 6 record 3"),
    ("listing-3-in-shell-1", TETRAHEDRON.but(shells=[2, 2]).put(listings={3: 4}),
     "refused 3 body 6 record 3"),      # its number in the file, not in the shell
    ("listing-511", SQUARES.put(listings={511: 256}), "refused 3 body 6 record 511"),
    ("listing-511-reversed", SQUARES.put(listings={511: REVERSED + 256}),
     "refused 3 body 6 record 511"),
    ("listing-511-in-full", FULL.put(listings={511: 256}), "refused 3 body 6 record 511"),
    ("listing-32767", TRIANGLE.but(listings=[32767]), "refused 3 body 6 record 0"),
    ("listing-65535", TRIANGLE.but(listings=[65535]), "refused 3 body 6 record 0"),
    ("listing-no-faces", Pattern(shells=[1], listings=[0]), "refused 3 body 6 record 0"),
    ("listing-of-last-face-reversed", TETRAHEDRON.put(listings={0: REVERSED + 3}), "accepted"),

    # in sequence
    ("listing-0-before-listing-1", TETRAHEDRON.put(listings={0: 4, 1: 4}),
     "refused 3 body 6 record 0"),
    ("listing-0-before-wire-0-empty", draw(0, [], [[""]], ["1+"]), "refused 3 body 6 record 0"),
    ("listing-1-before-wire-0-open", draw(2, edges("01"), [["0+"]], ["0+ 1+"]),
     "refused 3 body 6 record 1"),
    ("listing-1-before-wire-0-twice", digon(["0+ 1+ 0+ 1+"]).but(shells=[2], listings=[0, 1]),
     "refused 3 body 6 record 1"),
    ("listing-511-before-wire-0-open", SQUARES.put(uses={0: 1}, listings={511: 256}),
     "refused 3 body 6 record 511"),
]


# ---------------------------------------------------------------- face rule

T0, T1, T2 = "0+ 1+ 2+", "3+ 4+ 5+", "6+ 7+ 8+"     # on APART: no common point

FACES = [
    # accepted
    ("faces-three-wires-apart", apart([T0, T1, T2]), "accepted"),
    ("faces-wires-empty-face-between", apart([], [T0], [], [T1, T2], []), "accepted"),
    ("faces-same-wire-in-two-faces", apart([T0], [T0]), "accepted"),
    ("faces-points-shared-across-faces", apart([T0, T1], [T2, T0], [T1, T2]), "accepted"),
    ("wire-with-a-reversed-use", draw(3, edges("01 12 02"), [["0+ 1+ 2-"]], ["0+"]), "accepted"),
    ("wire-there-and-back-begun-at-back", draw(2, edges("01"), [["0- 0+"]], ["0+"]), "accepted"),
    ("wires-there-and-back-apart", draw(4, edges("01 23"), [["0+ 0-", "1- 1+"]], ["0+"]),
     "accepted"),

    # 6: a wire without uses
    ("empty-wire-1", apart([T0, "", T1]), "refused 6 body 3 record 1"),
    ("empty-wire-last", apart([T0, T1, ""]), "refused 6 body 3 record 2"),
    ("empty-wire-in-face-1", apart([T0, T1], [T2, ""]), "refused 6 body 3 record 3"),
    ("empty-wire-in-face-not-listed", draw(9, APART, [[T0], [""]], ["0+"]),
     "refused 6 body 3 record 1"),
    ("empty-wire-no-shells", draw(0, [], [[""]]), "refused 6 body 3 record 0"),
    ("empty-wires-1024", Pattern(wires=[0] * 1024, faces=[(4, 0)] * 256),
     "refused 6 body 3 record 0"),
    ("empty-wire-1023", SQUARES.but(uses=SQUARES.uses[:4092], wires=[4] * 1023 + [0]),
     "refused 6 body 3 record 1023"),

    # 7: a wire that is not closed
    ("open-one-use-reversed", draw(2, edges("01"), [["0-"]], ["0+"]), "refused 7 body 3 record 0"),
    ("open-ends-apart", draw(3, edges("01 12"), [["0+ 1+"]], ["0+"]),
     "refused 7 body 3 record 0"),
    ("open-break-in-the-middle",        # 0 to 1, 1 to 2; 3 to 4, 4 to 0
     draw(5, edges("01 12 34 40"), [["0+ 1+ 2+ 3+"]], ["0+"]), "refused 7 body 3 record 0"),
    ("open-break-after-first", draw(4, edges("01 23 30"), [["0+ 1+ 2+"]], ["0+"]),
     "refused 7 body 3 record 0"),
    ("open-break-before-last", draw(4, edges("01 12 30"), [["0+ 1+ 2+"]], ["0+"]),
     "refused 7 body 3 record 0"),
    ("open-two-uses-ends-meet",         # 0 to 1; 2 to 0
     draw(3, edges("01 20"), [["0+ 1+"]], ["0+"]), "refused 7 body 3 record 0"),
    ("open-last-use-turned", draw(3, edges("01 12 20"), [["0+ 1+ 2-"]], ["0+"]),
     "refused 7 body 3 record 0"),
    ("open-turned-but-not-put-in-reverse", draw(3, edges("01 12 20"), [["0- 1- 2-"]], ["0+"]),
     "refused 7 body 3 record 0"),
    ("open-meets-by-label-alone",       # 2 and 3 have one label
     draw(4, edges("01 12 30"), [["0+ 1+ 2+"]], ["0+"]).but(points=[5, 6, 7, 7]),
     "refused 7 body 3 record 0"),
    ("open-wire-1", apart([T0, "3+ 4+"]), "refused 7 body 3 record 1"),
    ("open-wire-in-face-1", apart([T0, T1], ["6+ 7+"]), "refused 7 body 3 record 2"),
    ("open-wire-after-faces-without-wires", apart([], [T0], [], [T1, "6+"]),
     "refused 7 body 3 record 2"),
    ("open-wire-in-face-not-listed", draw(9, APART, [["0+"]]), "refused 7 body 3 record 0"),
    ("open-wire-1023", SQUARES.but(uses=SQUARES.uses[:4093], wires=[4] * 1023 + [1]),
     "refused 7 body 3 record 1023"),
    ("open-wire-1023-in-full", FULL.put(uses={4095: FULL.uses[4095] ^ REVERSED}),
     "refused 7 body 3 record 1023"),
    # the sum is right, but wire 0 ends one use early
    ("open-wires-cut-at-another-place", apart([T0, T1]).but(wires=[2, 4]),
     "refused 7 body 3 record 0"),

    # 8: a wire that meets a point twice
    ("twice-there-and-back-and-again", draw(2, edges("01"), [["0+ 0- 0+ 0-"]], ["0+"]),
     "refused 8 body 3 record 0"),
    ("twice-figure-eight", draw(5, edges("01 12 20 03 34 40"), [["0+ 1+ 2+ 3+ 4+ 5+"]], ["0+"]),
     "refused 8 body 3 record 0"),
    ("twice-out-and-back", draw(3, edges("01 12"), [["0+ 1+ 1- 0-"]], ["0+"]),
     "refused 8 body 3 record 0"),      # fronts 0 1 2 1
    ("twice-at-the-last-use",           # fronts 0 1 2 3 4 1
     draw(5, edges("01 12 23 34 41 10"), [["0+ 1+ 2+ 3+ 4+ 5+"]], ["0+"]),
     "refused 8 body 3 record 0"),
    ("twice-at-the-first-use",          # fronts 0 1 0 2 3
     draw(4, edges("01 10 02 23 30"), [["0+ 1+ 2+ 3+ 4+"]], ["0+"]),
     "refused 8 body 3 record 0"),
    ("twice-at-point-2047",
     Pattern(points=[3] * 2048, edges=[edge(2047, 1), edge(1, 2047), edge(2047, 2), edge(2, 2047)],
             uses=[0, 1, 2, 3], wires=[4], faces=[(1, 0)]), "refused 8 body 3 record 0"),
    ("twice-wire-1", apart([T0, "3+ 4+ 5+ 3+ 4+ 5+"]), "refused 8 body 3 record 1"),
    ("twice-wire-in-face-2", apart([T0], [T1], ["6+ 6- 6+ 6-"]), "refused 8 body 3 record 2"),
    ("twice-wire-1023", SQUARES.but(uses=SQUARES.uses[:4092] + signed("12+ 12- 12+ 12-")),
     "refused 8 body 3 record 1023"),

    # 8 again: two wires of one face share a point; the later wire is named
    ("shared-one-point",                # point 2
     draw(5, edges("01 12 20 23 34 42"), [["0+ 1+ 2+", "3+ 4+ 5+"]], ["0+"]),
     "refused 8 body 3 record 1"),
    ("shared-same-wire", apart([T0, T0]), "refused 8 body 3 record 1"),
    ("shared-an-edge", draw(4, edges("01 12 20 13 32"), [["0+ 1+ 2+", "1- 3+ 4+"]], ["0+"]),
     "refused 8 body 3 record 1"),
    ("shared-last-use-of-each",         # point 2 is the last front of both
     draw(5, edges("01 12 20 34 42 23"), [["0+ 1+ 2+", "3+ 4+ 5+"]], ["0+"]),
     "refused 8 body 3 record 1"),
    ("shared-point-2047",
     Pattern(points=[3] * 2048, edges=[edge(0, 2047), edge(2047, 1)],
             uses=signed("0+ 0- 1+ 1-"), wires=[2, 2], faces=[(2, 0)]),
     "refused 8 body 3 record 1"),
    ("shared-wire-2-and-wire-0", apart([T0, T1, "1+ 2+ 0+"]), "refused 8 body 3 record 2"),
    ("shared-wire-2-and-both", apart([T0, T1]).but(
        points=[0] * 9, edges=APART + [edge(0, 3), edge(3, 0)],
        uses=signed("0+ 1+ 2+ 3+ 4+ 5+ 9+ 10+"), wires=[3, 3, 2], faces=[(3, 0)],
        shells=[1], listings=[0]), "refused 8 body 3 record 2"),
    ("shared-wire-1-before-wire-2", apart([T0, T0, T0]), "refused 8 body 3 record 1"),
    ("shared-2-with-1-before-3-with-0", apart([T0, T1, T1, T0]), "refused 8 body 3 record 2"),
    ("shared-2-with-0-before-3-with-1", apart([T0, T1, T0, T1]), "refused 8 body 3 record 2"),
    ("shared-in-face-1", apart([T0, T1], [T2, T2]), "refused 8 body 3 record 3"),
    ("shared-in-face-1-not-across", apart([T0, T1], [T0, T1, T2, T1]),
     "refused 8 body 3 record 5"),
    ("shared-in-face-not-listed", draw(9, APART, [[T0, T0]]), "refused 8 body 3 record 1"),
    ("shared-wire-1023", SQUARES.put(uses={4092: 0, 4093: 1, 4094: 2, 4095: 3}),
     "refused 8 body 3 record 1023"),
    ("shared-wire-1023-and-0-in-one-face", ONE_FACE.put(uses={2046: 0, 2047: 32768}),
     "refused 8 body 3 record 1023"),
    ("shared-wire-1023-in-full", FULL.but(uses=FULL.uses[:4092] + FULL.uses[4080:4084]),
     "refused 8 body 3 record 1023"),

    # within a wire: closed (7) before twice (8)
    ("wire-open-before-twice", digon(["0+ 1+ 0+"]), "refused 7 body 3 record 0"),
    ("wire-open-before-twice-same-use", digon(["0+ 0+"]), "refused 7 body 3 record 0"),
    ("wire-twice-early-broken-late", digon(["0+ 1+ 0+ 1+ 2+"]), "refused 7 body 3 record 0"),
    ("wire-twice-early-ends-apart", digon(["0+ 1+ 0+ 2+"]), "refused 7 body 3 record 0"),

    # wire by wire
    ("wire-0-empty-before-wire-1-open", apart(["", "3+"]), "refused 6 body 3 record 0"),
    ("wire-0-open-before-wire-1-empty", apart(["0+", ""]), "refused 7 body 3 record 0"),
    ("wire-0-twice-before-wire-1-empty", apart(["0+ 0- 0+ 0-", ""]), "refused 8 body 3 record 0"),
    ("wire-0-twice-before-wire-1-open", apart(["0+ 0- 0+ 0-", "3+"]),
     "refused 8 body 3 record 0"),
    ("wire-0-open-before-wire-1-open", apart(["0+", "3+"]), "refused 7 body 3 record 0"),

    # every wire of a face alone, then two together
    ("wire-2-empty-before-0-1-shared", apart([T0, T0, ""]), "refused 6 body 3 record 2"),
    ("wire-2-open-before-0-1-shared", apart([T0, T0, "6+"]), "refused 7 body 3 record 2"),
    ("wire-2-twice-before-0-1-shared", apart([T0, T0, "6+ 6- 6+ 6-"]),
     "refused 8 body 3 record 2"),
    ("wire-1-open-before-shared-with-0", apart([T0, "0+"]), "refused 7 body 3 record 1"),
    ("wire-1-twice-and-shared-with-0", apart([T0, "0+ 0- 0+ 0-"]), "refused 8 body 3 record 1"),

    # face by face
    ("face-0-shared-before-face-1-empty", apart([T0, T0], [""]), "refused 8 body 3 record 1"),
    ("face-0-shared-before-face-1-open", apart([T0, T0], ["3+"]), "refused 8 body 3 record 1"),
    ("face-0-twice-before-face-1-empty", apart(["0+ 0- 0+ 0-"], [""]),
     "refused 8 body 3 record 0"),
    ("face-0-open-before-face-1-empty", apart(["0+"], [""]), "refused 7 body 3 record 0"),
    ("face-0-before-face-1-listed-first",   # the faces' sequence, not the listings'
     draw(9, APART, [["0+"], [""]], ["1+ 0+"]), "refused 7 body 3 record 0"),
    ("face-254-shared-before-wire-1023-empty",
     SQUARES.but(uses=SQUARES.uses[:4076] + [0, 1, 2, 3] + SQUARES.uses[4080:4092],
                 wires=[4] * 1023 + [0]), "refused 8 body 3 record 1019"),
]


# ------------------------------------------------------------------ writing

CASES = (PIECES + LENGTH + COUNTS + OFFSETS + EDGES + SPANS + USES + SUMS + LISTINGS + FACES)


def main():
    root = pathlib.Path(__file__).resolve().parent.parent
    folder = pathlib.Path(sys.argv[1]) if len(sys.argv) > 1 else root / "crates/replay_reading"
    data = folder / "data"
    data.mkdir(parents=True, exist_ok=True)

    names = [name for name, _, _ in CASES]
    assert len(set(names)) == len(names), "a name stands twice"
    for name, _, answer in CASES:
        assert re.fullmatch(r"[a-z0-9-]{1,40}", name), name
        assert re.fullmatch(r"accepted|refused \d body \d record \d+", answer), name
    strangers = sorted({path.name for path in data.iterdir()} - set(names))
    if strangers:
        sys.exit("in data, but no vector: " + " ".join(strangers))

    for name, content, _ in CASES:
        content = content.file() if isinstance(content, Pattern) else content
        (data / name).write_bytes(content)
    (folder / "args").write_bytes("".join(f"{name}\n" for name in names).encode())
    (folder / "stdout").write_bytes(
        "".join(f"{name} {answer}\n" for name, _, answer in CASES).encode())


if __name__ == "__main__":
    main()
