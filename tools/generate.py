#!/usr/bin/env python3
"""Patterns and edits for the comparison with the Rust, and the recorded answers.

    tools/generate.py record            makes the recorded answers again, always the same
                                        bytes: those that crates/replay_reports,
                                        crates/replay_packs, crates/replay_edits and
                                        crates/replay_face_edits replay
    tools/generate.py random SEED COUNT FOLDER
                                        COUNT random patterns and as many files of
                                        edits, with their answers, in the same form

Both ask the oracle (tools/oracle/build makes it; ORACLE names another place).
tools/second_reading.py holds what they made against document 01.

Where a line below has a number or a text beside it, that answer is worked out by
hand from document 01: the numbers behind a bare None, 3, 17, 27 and 28, and the
pieces of document 01.  It stands here as it was written down, and the oracle's
answer must be the same, or nothing is recorded.
"""

import math
import os
import pathlib
import random
import re
import struct
import subprocess
import sys

from reading_vectors import (EMPTY, FULL, ONE_FACE, REVERSED, SQUARES, TETRAHEDRON, TRIANGLE,
                             Pattern, coat_front, draw, edge, edges, signed, turned)

ROOT = pathlib.Path(__file__).resolve().parent.parent
ORACLE = os.environ.get("ORACLE", str(ROOT / "target/oracle/release/oracle"))


# ------------------------------------------------------------------ parts

def outlines(p):
    """The faces of a pattern, each as the list of its wires."""
    uses, wires = iter(p.uses), iter(p.wires)
    return [[[next(uses) for _ in range(next(wires))] for _ in range(face[0])]
            for face in p.faces]


def shells_of(p):
    listings = iter(p.listings)
    return [[next(listings) for _ in range(count)] for count in p.shells]


def assemble(points, edges, faces, shells, surfaces=None):
    """A pattern from lists of use and listing numbers; faces as `outlines` gives them."""
    wires = [wire for face in faces for wire in face]
    surfaces = surfaces or [1] * len(faces)
    return Pattern(
        points=list(points) if not isinstance(points, int) else [7000 + k for k in range(points)],
        edges=list(edges),
        uses=sum(wires, []),
        wires=[len(wire) for wire in wires],
        faces=[(len(face), surface) for face, surface in zip(faces, surfaces)],
        shells=[len(shell) for shell in shells],
        listings=sum(shells, []),
    )


def joined(*patterns):
    """Patterns side by side, nothing shared; their shells become one."""
    points, all_edges, faces, shell = [], [], [], []
    for p in patterns:
        start, first, offset = len(points), len(all_edges), len(faces)
        points += p.points
        all_edges += [(a + start, b + start, t0, t1) for a, b, t0, t1 in p.edges]
        faces += [[[use + first for use in wire] for wire in face] for face in outlines(p)]
        shell += [listing + offset for listing in p.listings]
    return assemble(points, all_edges, faces, [shell])


def words(numbers):
    """Uses or listings as text."""
    return " ".join(f"{n & 32767}{'-' if n & REVERSED else '+'}" for n in numbers)


def at(parameter):
    """A parameter as an edit writes it."""
    return "0x" + struct.pack(">d", parameter).hex()


def above(number, steps=1):
    for _ in range(steps):
        number = math.nextafter(number, math.inf)
    return number


def below(number):
    return math.nextafter(number, -math.inf)


# ----------------------------------------------------------------- shapes

def grid(width, height, holes=(), round_x=False, round_y=False):
    """Squares in rows, some left out; closed in either direction if asked (a torus)."""
    across = width if round_x else width + 1
    up = height if round_y else height + 1
    corner = lambda x, y: x % across + across * (y % up)
    flat = [(x, y) for y in range(up) for x in range(width)]
    steep = [(x, y) for y in range(height) for x in range(across)]
    number = {("flat", *place): k for k, place in enumerate(flat)}
    number.update({("steep", *place): k + len(flat) for k, place in enumerate(steep)})
    faces = [[[number["flat", x, y], number["steep", (x + 1) % across, y],
               number["flat", x, (y + 1) % up] + REVERSED, number["steep", x, y] + REVERSED]]
             for y in range(height) for x in range(width) if (x, y) not in holes]
    return assemble(across * up,
                    [edge(corner(x, y), corner(x + 1, y)) for x, y in flat]
                    + [edge(corner(x, y), corner(x, y + 1)) for x, y in steep],
                    faces, [list(range(len(faces)))])


def torus(width, height):
    return grid(width, height, round_x=True, round_y=True)


def prism(n):
    """Two polygons of n corners and n squares between them."""
    foot = [edge(k, (k + 1) % n) for k in range(n)]
    head = [edge(n + k, n + (k + 1) % n) for k in range(n)]
    rise = [edge(k, n + k) for k in range(n)]
    sides = [[[k, 2 * n + (k + 1) % n, n + k + REVERSED, 2 * n + k + REVERSED]] for k in range(n)]
    faces = [[turned(list(range(n)))], [list(range(n, 2 * n))]] + sides
    return assemble(2 * n, foot + head + rise, faces, [list(range(n + 2))])


def polygon(n):
    return assemble(n, [edge(k, (k + 1) % n) for k in range(n)], [[list(range(n))]], [[0]])


def book(pages):
    """Triangles that share edge 0: it has as many uses."""
    all_edges, faces = [edge(0, 1)], []
    for page in range(pages):
        all_edges += [edge(1, 2 + page), edge(2 + page, 0)]
        faces.append([[0, 2 * page + 1, 2 * page + 2]])
    return assemble(2 + pages, all_edges, faces, [list(range(pages))])


def star(triangles):
    """Triangles that share point 0 only: openings that touch."""
    all_edges, faces = [], []
    for k in range(triangles):
        all_edges += [edge(0, 2 * k + 1), edge(2 * k + 1, 2 * k + 2), edge(2 * k + 2, 0)]
        faces.append([[3 * k, 3 * k + 1, 3 * k + 2]])
    return assemble(2 * triangles + 1, all_edges, faces, [list(range(triangles))])


# The Rust's own example of a band with one side.
BAND = draw(4, edges("01 12 20 13 32 03"), [["0+ 3+ 4+ 2+"], ["1+ 2+ 5+ 3-"]], ["0+ 1+"])
THERE_AND_BACK = draw(2, edges("01"), [["0+ 0-"]], ["0+"])
NO_WIRES = draw(0, [], [[]], ["0+"])
TWO_TRIANGLES = draw(5, edges("01 12 20 03 34 40"), [["0+ 1+ 2+"], ["3+ 4+ 5+"]], ["0+ 1+"])
TWO_TETRAHEDRA = draw(7, edges("01 12 20 03 13 23 04 45 50 06 46 56"),
                      [["0+ 1+ 2+"], ["0- 3+ 4-"], ["1- 4+ 5-"], ["2- 5+ 3-"],
                       ["6+ 7+ 8+"], ["6- 9+ 10-"], ["7- 10+ 11-"], ["8- 11+ 9-"]],
                      ["0+ 1+ 2+ 3+ 4+ 5+ 6+ 7+"])
# A square with a square hole, and the square that fits in.
RING = draw(8, edges("01 12 23 30 45 56 67 74"),
            [["0+ 1+ 2+ 3+", "7- 6- 5- 4-"], ["4+ 5+ 6+ 7+"]], ["0+"])


def listed(p, text):
    """The same with one shell of these listings."""
    numbers = signed(text)
    return p.but(shells=[len(numbers)], listings=numbers)


def in_shells(p, *texts):
    shells = [signed(text) for text in texts]
    return p.but(shells=[len(shell) for shell in shells], listings=sum(shells, []))


# ----------------------------------------------------------------- random

SPANS = [(0.0, 1.0), (0.0, 1.0), (0.0, 0.5), (-3.0, 7.25), (0.1, 0.3), (-0.0, 1.0),
         (999999.0, 1000000.0), (-1000000.0, 1000000.0), (0.0, 0.000001), (0.0, 0.000002),
         (500000.0, 500001.5), (-1000000.0, -999999.5)]


def spanned(rng, p):
    return p.but(edges=[(a, b, *rng.choice(SPANS)) for a, b, _, _ in p.edges])


def disguised(rng, p):
    """The same pattern under other numbers: points, edges and faces renumbered,
    edges and faces turned over, wires begun elsewhere, listings in another sequence."""
    points = rng.sample(range(len(p.points)), len(p.points))
    numbers = rng.sample(range(len(p.edges)), len(p.edges))
    over = [rng.random() < 0.5 for _ in p.edges]
    new_edges = [None] * len(p.edges)
    for k, (a, b, t0, t1) in enumerate(p.edges):
        a, b = (points[b], points[a]) if over[k] else (points[a], points[b])
        new_edges[numbers[k]] = (a, b, t0, t1)

    def use(u):
        k = u & 32767
        return numbers[k] | (u ^ (REVERSED if over[k] else 0)) & REVERSED

    faces = [[[use(u) for u in wire] for wire in face] for face in outlines(p)]
    places = rng.sample(range(len(faces)), len(faces))
    flip = [rng.random() < 0.5 for _ in faces]
    new_faces = [None] * len(faces)
    for k, face in enumerate(faces):
        face = [wire[s:] + wire[:s] for wire in face for s in [rng.randrange(len(wire))]]
        new_faces[places[k]] = [turned(wire) for wire in face] if flip[k] else face
    shells = []
    for shell in shells_of(p):
        shell = [places[l & 32767] | (l ^ (REVERSED if flip[l & 32767] else 0)) & REVERSED
                 for l in shell]
        shells.append(rng.sample(shell, len(shell)))
    return assemble(p.points, new_edges, new_faces, shells,
                    [surface for _, surface in p.faces])


def relisted(rng, p):
    """Other listings: some dropped, turned, repeated, or moved to another shell."""
    shells = [[]] * rng.choice([0, 0, 0, 1])
    for shell in shells_of(p):
        if rng.random() < 0.3:
            shell = [l for l in shell if rng.random() < 0.8]
        if shell and rng.random() < 0.3:
            k = rng.randrange(len(shell))
            shell = shell[:k] + [shell[k] ^ REVERSED] + shell[k + 1:]
        if shell and rng.random() < 0.3:
            shell = shell + rng.choices(shell, k=rng.choice([1, 1, 2]))
        if shell and rng.random() < 0.2:
            k = rng.randrange(len(shell))
            shells.append(shell[:k])
            shell = shell[k:] if rng.random() < 0.6 else shell
        shells.append(shell)
    shells = shells[:16]
    return p.but(shells=[len(shell) for shell in shells], listings=sum(shells, []))


def cycle(rng, all_edges, barred=()):
    """A closed wire that meets no point twice and none of the barred ones, or None."""
    steps = {}
    for k, (a, b, _, _) in enumerate(all_edges):
        if a not in barred and b not in barred:
            steps.setdefault(a, []).append((k, b))
            steps.setdefault(b, []).append((k + REVERSED, a))
    if not steps:
        return None
    here = rng.choice(sorted(steps))
    path, seen = [], [here]
    while True:
        ways = steps[here]
        if path and len(ways) > 1 and rng.random() < 0.9:
            ways = [way for way in ways if way[0] != path[-1] ^ REVERSED]
        use, here = rng.choice(ways)
        path.append(use)
        if here in seen:
            return path[seen.index(here):]
        seen.append(here)


def soup(rng):
    """A few points, edges between any of them, faces of any simple outlines."""
    points = rng.randrange(2, 8)
    all_edges = [edge(*rng.sample(range(points), 2)) for _ in range(rng.randrange(1, 11))]
    faces = []
    for _ in range(rng.randrange(1, 7)):
        face, barred = [], set()
        for _ in range(rng.choice([0, 1, 1, 1, 1, 1, 2, 3])):
            wire = cycle(rng, all_edges, barred)
            if wire:
                face.append(wire)
                barred |= {all_edges[u & 32767][u >> 15] for u in wire}
        faces.append(face)
    shells = [[rng.randrange(len(faces)) + rng.choice([0, 0, REVERSED])
               for _ in range(rng.randrange(0, 6))] for _ in range(rng.choice([1, 1, 1, 2, 3]))]
    return assemble(points + rng.choice([0, 0, 2]), all_edges, faces, shells,
                    [rng.choice([1, 1, 1, 2]) for _ in faces])


def random_pattern(rng):
    kind = rng.randrange(10)
    if kind < 5:
        p = soup(rng)
    else:
        shape = rng.choice([
            lambda: grid(3, 2, [(1, 0)]), lambda: grid(3, 3, [(1, 1)]), lambda: grid(2, 2),
            lambda: torus(2, 2), lambda: torus(3, 2), lambda: prism(rng.randrange(2, 6)),
            lambda: TETRAHEDRON, lambda: TWO_TETRAHEDRA, lambda: book(rng.randrange(2, 5)),
            lambda: star(rng.randrange(2, 5)), lambda: BAND, lambda: RING,
            lambda: joined(TETRAHEDRON, TRIANGLE), lambda: joined(TRIANGLE, THERE_AND_BACK),
            lambda: joined(TRIANGLE, NO_WIRES, BAND)])()
        p = disguised(rng, shape)
    return spanned(rng, relisted(rng, p))


def damaged(rng, content):
    """A file with a few bytes changed, put in, left out, or its end lost."""
    content = bytearray(content)
    for _ in range(rng.choice([1, 1, 1, 2, 3])):
        k = rng.randrange(len(content))
        how = rng.randrange(8)
        if how == 0:
            del content[k:]
            break
        if how == 1:
            del content[k]
        elif how == 2:
            content.insert(k, rng.randrange(256))
        elif how == 3:
            content[k] = rng.randrange(256)
        else:       # in the bodies, by little
            k = rng.randrange(min(56, len(content) - 1), len(content))
            content[k] = (content[k] + rng.choice([1, 255, 128])) % 256
        if not content:
            break
    return bytes(content)


def random_edits(rng, p, count):
    """Lines of edits aimed near what the pattern has."""
    faces, points = outlines(p), len(p.points)

    def some(number, spare=0):      # a number below this one, seldom one past it
        return rng.randrange(max(1, number + (rng.random() < 0.04) + spare))

    def use():
        return f"{some(len(p.edges))}{rng.choice('++-')}"

    def face():
        return f"{some(len(faces))}{rng.choice('+++-')}"

    def path(length):
        """Uses that mostly meet."""
        found = []
        for _ in range(length):
            here = p.edges[found[-1] & 32767][1 - (found[-1] >> 15)] if found else None
            ways = [k + sign for k, e in enumerate(p.edges) for sign in (0, REVERSED)
                    if here is None or e[sign >> 15] == here]
            found.append(rng.choice(ways if ways and rng.random() < 0.9
                                    else [k for k in range(len(p.edges))]))
        return words(found)

    def parameter(e):
        t0, t1 = p.edges[e][2:] if e < len(p.edges) else (0.0, 1.0)
        low, high = t0 + 0.000001, t1 - 0.000001
        return rng.choice([at((t0 + t1) / 2)] * 6 + ["nowhere", at(math.nan), at(math.inf)] + [
            at(f(b)) for b in (low, high) for f in (below, above, float)] + [at(t0), at(t1)])

    lines = []
    for _ in range(count):
        kind = rng.choice(["cut"] * 4 + ["remove"] * 3 + ["concat", "add", "cutface", "cutface",
                                                          "cutedge", "glue", "glue"])
        lent = rng.choice(["4096 1024"] * 9 + [f"{rng.randrange(12)} {rng.randrange(4)}"])
        if kind == "cut":
            e = some(len(p.edges), rng.choice([0, 0, 4]))
            lines.append(f"cut {some(len(p.shells))} {e} {some(points)} {parameter(e)}")
        elif kind == "remove":
            lines.append(f"remove {some(len(p.shells))} {some(points)}")
        elif kind == "concat":
            lines.append(f"concat {path(2)}")
        elif kind == "add":
            wire = cycle(rng, p.edges) if rng.random() < 0.7 else None
            wire = words(wire) if wire else path(rng.randrange(4))
            lines.append(f"add {face()} {lent} {wire}".rstrip())
        elif kind == "cutface":
            lines.append(f"cutface {face()} {lent} {path(rng.randrange(4))}".rstrip())
        elif kind == "cutedge":
            lines.append(f"cutedge {face()} {lent} {use()}")
        else:
            sign = rng.choice("++-")
            other = sign if rng.random() < 0.9 else "-"
            lines.append(f"glue {some(len(faces))}{sign} {some(len(faces))}{other} {lent}")
        if rng.random() < 0.1:
            lines.append("report")
        if rng.random() < 0.15:
            lines.append("fresh")
    return lines + ["report"]


# ---------------------------------------------------- reports of named files

def shell_text(condition, connected, openings, lookups, components, singular=()):
    """The lines of one shell as document 01 prints them; for answers by hand."""
    return "".join([f"condition {condition}\n", f"connected {connected}\n"]
                   + [f"opening {uses}\n" for uses in openings] + [f"lookups {lookups}\n"]
                   + [f"component {listings}\n" for listings in components]
                   + [f"singular {point}\n" for point in singular])


def by_hand(*shells, solid):
    return "".join(f"shell {s}\n{shell}" for s, shell in enumerate(shells)) + f"solid {solid}\n"


REPORTS = [
    # document 01's pieces and small inputs, by hand
    ("triangle", TRIANGLE,
     by_hand(shell_text("Oriented", "yes", ["0+ 1+ 2+"], 4, ["0+"]), solid="refused 12 shell 0")),
    ("triangle-reversed", listed(TRIANGLE, "0-"),
     by_hand(shell_text("Oriented", "yes", ["2- 1- 0-"], 4, ["0-"]), solid="refused 12 shell 0")),
    ("triangle-twice", listed(TRIANGLE, "0+ 0+"),
     by_hand(shell_text("Regular", "yes", [], 0, ["0+"]), solid="refused 12 shell 0")),
    ("triangle-thrice", listed(TRIANGLE, "0+ 0+ 0+"),
     by_hand(shell_text("Irregular", "yes", ["0+ 1+ 2+"], 4, ["0+"]), solid="refused 12 shell 0")),
    ("tetrahedron", TETRAHEDRON,
     by_hand(shell_text("Closed", "yes", [], 0, ["0+ 1+ 2+ 3+"]), solid="accepted")),
    ("face-without-wires", NO_WIRES,
     by_hand(shell_text("Closed", "yes", [], 0, []), solid="accepted")),
    ("empty-shell", draw(0, [], [], [""]),
     by_hand(shell_text("Closed", "yes", [], 0, []), solid="refused 10 shell 0")),
    ("there-and-back", THERE_AND_BACK,
     by_hand(shell_text("Closed", "yes", [], 0, ["0+"]), solid="accepted")),
    ("two-triangles-one-point", TWO_TRIANGLES,
     by_hand(shell_text("Oriented", "yes", ["3+ 4+ 5+", "1+ 2+"], 7, ["0+", "1+"], [0]),
             solid="refused 12 shell 0")),
    ("empty-file", EMPTY, "solid accepted\n"),
    ("two-pieces-apart", joined(TRIANGLE, TRIANGLE),
     by_hand(shell_text("Oriented", "no", ["0+ 1+ 2+", "3+ 4+ 5+"], 8, ["0+", "1+"]),
             solid="refused 11 shell 0")),
    ("two-tetrahedra-one-point", TWO_TETRAHEDRA,
     by_hand(shell_text("Closed", "yes", [], 0, ["0+ 1+ 2+ 3+", "4+ 5+ 6+ 7+"], [0]),
             solid="refused 13 shell 0")),
    ("small-1", EMPTY.file()[:55], "refused 1 body 0 record 0\n"),
    ("small-2", draw(0, [], [], [""] * 17), "refused 2 body 5 record 0\n"),
    ("small-3", draw(4, edges("01 12 20 03 13"), [["0+ 1+ 5+"]], ["0+"]),
     "refused 3 body 2 record 2\n"),
    ("small-4", TRIANGLE.put(edges={0: edge(0, 1, 0.0, 0.0)}), "refused 4 body 1 record 0\n"),
    ("small-5", TRIANGLE.put(edges={2: edge(2, 2)}), "refused 5 body 1 record 2\n"),
    ("small-6", draw(0, [], [[""]], ["0+"]), "refused 6 body 3 record 0\n"),
    ("small-7", draw(2, edges("01"), [["0+"]], ["0+"]), "refused 7 body 3 record 0\n"),
    ("small-8", draw(2, edges("01 10"), [["0+ 1+ 0+ 1+"]], ["0+"]), "refused 8 body 3 record 0\n"),

    # what the Rust says
    ("coat-front", coat_front()),
    ("triangle-both-signs", listed(TRIANGLE, "0+ 0-")),
    ("triangle-four-times", listed(TRIANGLE, "0+ 0- 0+ 0-")),
    ("triangle-five-times", listed(TRIANGLE, "0+ 0+ 0- 0+ 0-")),
    ("triangle-not-listed", in_shells(TRIANGLE)),
    ("triangle-in-three-shells", in_shells(TRIANGLE, "0+", "", "0- 0+", "0+ 0+ 0-")),
    ("triangles-reversed-at-one-point", listed(TWO_TRIANGLES, "0- 1+")),
    ("triangles-other-sequence", listed(TWO_TRIANGLES, "1+ 0+")),
    ("triangles-star-of-5", star(5)),
    ("triangles-star-of-5-mixed", listed(star(5), "4- 2+ 0- 3+ 1-")),
    ("tetrahedron-one-reversed", listed(TETRAHEDRON, "0+ 1+ 2- 3+")),
    ("tetrahedron-all-reversed", listed(TETRAHEDRON, "3- 2- 1- 0-")),
    ("tetrahedron-open", listed(TETRAHEDRON, "0+ 1+ 3+")),
    ("tetrahedron-twice", listed(TETRAHEDRON, "0+ 1+ 2+ 3+ 0+ 1+ 2+ 3+")),
    ("tetrahedra-apart", joined(TETRAHEDRON, TETRAHEDRON)),
    ("tetrahedra-in-two-shells", in_shells(TWO_TETRAHEDRA, "0+ 1+ 2+ 3+", "4+ 5+ 6+ 7+")),
    ("tetrahedra-second-open", in_shells(TWO_TETRAHEDRA, "0+ 1+ 2+ 3+", "4+ 5+ 6+")),
    ("book-2", book(2)), ("book-3", book(3)), ("book-4", book(4)), ("book-7", book(7)),
    ("book-3-mixed", listed(book(3), "1- 0+ 2+")),
    ("band-with-one-side", BAND),
    ("grid-4-3-two-holes", grid(4, 3, [(1, 1), (3, 2)])),
    ("grid-5-5-holes-that-touch", grid(5, 5, [(1, 1), (2, 2), (3, 3)])),
    ("grid-5-3-holes-in-a-row", grid(5, 3, [(1, 1), (2, 1), (3, 1)])),
    ("grid-checkered", grid(4, 4, [(x, y) for x in range(4) for y in range(4) if (x + y) % 2])),
    ("tube", grid(4, 2, round_x=True)),
    ("torus-2-2", torus(2, 2)), ("torus-3-4", torus(3, 4)), ("torus-15-16", torus(15, 16)),
    ("torus-with-a-hole", grid(3, 3, [(0, 0)], True, True)),
    ("prism-2", prism(2)), ("prism-3", prism(3)), ("prism-6", prism(6)), ("prism-100", prism(100)),
    ("prism-6-no-lid", in_shells(prism(6), "0+ " + words(range(2, 8)))),
    ("ring", RING), ("ring-filled", listed(RING, "0+ 1+")),
    ("ring-reversed", listed(RING, "0-")),
    ("ring-filled-wrong-way", listed(RING, "0+ 1-")),
    ("wires-hold-pieces-together",      # face 2 has both outlines
     draw(6, edges("01 12 20 34 45 53"), [["0+ 1+ 2+"], ["3+ 4+ 5+"], ["2- 1- 0-", "5- 4- 3-"]],
          ["0+ 1+ 2+"])),
    ("three-wires-in-a-chain",          # neighbouring wires are linked
     draw(9, edges("01 12 20 34 45 53 67 78 86"), [["0+ 1+ 2+", "3+ 4+ 5+", "6+ 7+ 8+"]], ["0+"])),
    ("no-wires-among-others", listed(joined(TRIANGLE, NO_WIRES, TRIANGLE), "1+ 0+ 1- 2+ 1+")),
    ("no-wires-first-shell", in_shells(joined(TRIANGLE, NO_WIRES), "1+ 1-", "0+", "1+")),
    ("there-and-back-twice", listed(THERE_AND_BACK, "0+ 0+")),
    ("there-and-back-beside-triangle",
     draw(3, edges("01 12 20"), [["0+ 1+ 2+"], ["0+ 0-"]], ["1+ 0+"])),
    ("digon-and-mirror", draw(2, edges("01 10"), [["0+ 1+"], ["1- 0-"]], ["0+ 1+"])),
    ("digons-of-three-edges",
     draw(2, edges("01 01 01"), [["0+ 1-"], ["1+ 2-"], ["2+ 0-"]], ["0+ 1+ 2+"])),
    ("digons-of-three-edges-open",
     draw(2, edges("01 01 01"), [["0+ 1-"], ["1+ 2-"]], ["0+ 1+"])),
    ("kept-use-replaced-twice", listed(star(3), "2+ 0+ 1+")),
    ("openings-start-elsewhere",        # the first use shown is not free
     draw(4, edges("01 12 20 13 32"), [["1+ 2+ 0+"], ["1- 3+ 4+"]], ["0+ 1+"])),
    ("openings-reversed-first",
     draw(4, edges("01 12 20 13 32"), [["0+ 1+ 2+"], ["1- 3+ 4+"]], ["1- 0-"])),
    ("sixteen-shells", in_shells(TETRAHEDRON, *["0+ 1+ 2+ 3+"] * 15, "0+ 1+ 2+")),
    ("sixteen-empty-shells", in_shells(EMPTY, *[""] * 16)),
    ("solid-10-in-shell-1", in_shells(TETRAHEDRON, "0+ 1+ 2+ 3+", "", "0+")),
    ("solid-11-before-12", in_shells(joined(TRIANGLE, TRIANGLE), "0+ 1+")),
    ("solid-12-before-13", in_shells(TWO_TETRAHEDRA, "0+ 1+ 2+ 3+ 4+ 5+ 6+")),
    ("solid-13-in-shell-2",
     in_shells(TWO_TETRAHEDRA, "0+ 1+ 2+ 3+", "4+ 5+ 6+ 7+", "0+ 1+ 2+ 3+ 4+ 5+ 6+ 7+", "")),

    # tables at their limits
    ("limit-outline-1024", polygon(1024)),
    ("limit-512-listings", in_shells(TRIANGLE, words([0, REVERSED] * 256))),
    ("limit-511-listings", in_shells(TRIANGLE, words([0] * 511))),
    ("limit-16-squares-256-faces",
     SQUARES.but(shells=[256], listings=list(range(256)))),
    ("limit-1024-wires-one-face", ONE_FACE),
    ("limit-every-table", FULL),
]


# ------------------------------------------------- short patterns, in packs

def short_wires():
    """Every wire of up to four uses of the edges 0 to 1 and 1 to 0."""
    uses = signed("0+ 0- 1+ 1-")
    wires = [[]]
    for wire in wires:
        if len(wire) < 4:
            wires.extend(wire + [use] for use in uses)
    return [assemble(2, edges("01 10"), [[wire]], [[0]]) for wire in wires]


def short_shells(p):
    """Every shell of up to three listings of three faces."""
    listings = [face + sign for face in range(3) for sign in (0, REVERSED)]
    shells = [[]]
    for shell in shells:
        if len(shell) < 3:
            shells.extend(shell + [listing] for listing in listings)
    return [p.but(shells=[len(shell)], listings=shell) for shell in shells]


def short_digons():
    """Every two outlines of two uses of the edges 0 to 1, 0 to 1 and 1 to 0."""
    out, back = signed("0+ 1+ 2-"), signed("0- 1- 2+")
    pairs = [[a, b] for a in out for b in back] + [[b, a] for a in out for b in back]
    return [assemble(2, edges("01 01 10"), [[one], [other]], [[0, 1]])
            for one in pairs for other in pairs]


def random_files(seed, count):
    """Random patterns; every fourth one damaged."""
    rng = random.Random(seed)
    files = []
    for k in range(count):
        content = random_pattern(rng).file()
        files.append(damaged(rng, content) if k % 4 == 3 else content)
    return files


PACKS = [
    ("short-wires", short_wires()),
    ("short-shells-of-triangles",       # two triangles at an edge, a digon at another
     short_shells(draw(4, edges("01 12 20 13 32 01"),
                       [["0+ 1+ 2+"], ["3+ 4+ 1-"], ["5+ 0-"]], [""]))),
    ("short-shells-of-two-points",
     short_shells(draw(2, edges("01 10"), [["0+ 0-"], ["0+ 1+"], ["1- 0-"]], [""]))),
    ("short-digons", short_digons()),
    ("random", random_files(1, 400)),
]


# ------------------------------------------------------------------ edits

def cut(shell, number, point, parameter):
    parameter = "nowhere" if parameter is None else at(parameter)
    return f"cut {shell} {number} {point} {parameter}"


def span(p, number, t0, t1):
    return p.put(edges={number: (*p.edges[number][:2], t0, t1)})


def spare(p, points=3):
    """The same with points that nothing uses, for cuts."""
    return p.but(points=p.points + [9000 + k for k in range(points)])


def bounds(t0, t1):
    """Cuts of edge 0 of a triangle at both bounds and one step either side."""
    low, high = t0 + 0.000001, t1 - 0.000001
    lines = []
    for parameter, refused in [(below(low), 16), (low, None), (above(low), None),
                               (below(high), None), (high, None), (above(high), 16),
                               (t0, 16), (t1, 16)]:
        lines += [(cut(0, 0, 3, parameter), refused), "fresh"]
    return span(spare(TRIANGLE), 0, t0, t1), lines


# 1,022 edges that nothing uses beside a triangle's three, and fewer.
def crowded(count, p=TRIANGLE):
    p = spare(p)
    return p.but(edges=p.edges + [edge(0, 1)] * (count - len(p.edges)))


def many_uses():
    """4,095 uses of 513 edges: seven outlines of the 512-gon, and one that goes
    along edge 512 instead of 510 and 511."""
    p = polygon(512)
    faces = [[list(range(512))]] * 7 + [[list(range(510)) + [512]]]
    return spare(assemble(512, p.edges + [edge(510, 0)], faces, [[0], [1, 2], [3, 3 + REVERSED]]))


# Triangles 0 1 2 and 1 3 2 that share edge 1, running against each other.
NEIGHBOURS = spare(draw(4, edges("01 12 20 13 32"), [["0+ 1+ 2+"], ["1- 3+ 4+"]], ["0+ 1+"]))
# The same with an edge and a notch in the shared side: points 1, 6, 2.
NOTCHED = draw(7, edges("01 16 62 20 13 32"), [["0+ 1+ 2+ 3+"], ["2- 1- 4+ 5+"]], ["0+ 1+"])
SQUARE = draw(8, edges("01 12 23 30 13 04 42 02 14 43 45 31 10 05 53"), [["0+ 1+ 2+ 3+"]], ["0+"])

NAN = [struct.unpack(">d", bytes.fromhex(bits))[0]
       for bits in ("7ff8000000000000", "fff8000000000001")]

EDITS = [
    # cut: 3, 27, 14, 15, 16, 17
    ("cut-refused", spare(TRIANGLE), [
        (cut(1, 0, 3, 0.5), 3), (cut(0, 3, 3, 0.5), 3), (cut(0, 0, 6, 0.5), 3),
        (cut(0, 0, 0, 0.5), 14), (cut(0, 1, 0, 0.5), 14), (cut(0, 0, 2, None), 14),
        (cut(0, 0, 3, None), 16), (cut(0, 0, 3, NAN[0]), 16), (cut(0, 0, 3, NAN[1]), 16),
        (cut(0, 0, 0, NAN[0]), 14),
        (cut(0, 0, 3, math.inf), 16), (cut(0, 0, 3, -math.inf), 16), (cut(0, 0, 3, 7.0), 16),
        "report"]),
    ("cut-same-notch-again", spare(TRIANGLE), [
        (cut(0, 0, 3, 0.25), "done edges 3 4\n"
                             "- face 0 surface 1 wire 0+ 1+ 2+\n"
                             "+ edge 3 from 0 to 3 span 0 0.25\n"
                             "+ edge 4 from 3 to 1 span 0.25 1\n"
                             "+ face 0 surface 1 wire 3+ 4+ 1+ 2+\n"),
        (cut(0, 0, 3, 0.25), 14), (cut(0, 3, 3, 0.1), 14),
        (cut(0, 0, 4, 0.25), 15), (cut(0, 0, 4, None), 15),
        cut(0, 4, 4, 0.5), cut(0, 1, 5, 0.5), "report"]),
    ("cut-edge-not-in-the-shell", in_shells(NEIGHBOURS, "0+", "1+"), [
        (cut(0, 3, 4, 0.5), 15), (cut(1, 0, 4, 0.5), 15), (cut(0, 3, 4, None), 15),
        cut(0, 0, 3, 0.5), "report",    # point 3 is in the other shell only
        (cut(0, 1, 3, 0.5), 14), (cut(1, 1, 3, 0.5), 14)]),
    ("cut-shared-edge-one-shell", NEIGHBOURS, [
        cut(0, 1, 4, 0.5), "report", cut(0, 6, 5, 0.75), "report", cut(0, 3, 6, 0.5), "report"]),
    ("cut-reversed-listing", listed(NEIGHBOURS, "1- 0+"), [cut(0, 1, 4, 0.5), "report"]),
    ("cut-27", in_shells(NEIGHBOURS, "0+ 1+", "0-"), [
        (cut(0, 0, 4, 0.5), 27), (cut(0, 3, 4, 0.5), 27), (cut(1, 0, 4, 0.5), 27),
        (cut(0, 0, 0, 0.5), 27), (cut(0, 0, 4, None), 27), (cut(0, 9, 4, 0.5), 3),
        (cut(2, 0, 4, 0.5), 3), ("remove 0 1", 27), ("remove 0 6", 27), ("remove 0 7", 3)]),
    ("cut-not-27-twice-in-one-shell", listed(NEIGHBOURS, "0+ 1+ 0- 0+"), [
        cut(0, 1, 4, 0.5), cut(0, 0, 5, 0.5), "report"]),
    ("cut-there-and-back", spare(THERE_AND_BACK), [
        (cut(0, 0, 2, 0.5), "done edges 1 2\n"
                            "- face 0 surface 1 wire 0+ 0-\n"
                            "+ edge 1 from 0 to 2 span 0 0.5\n"
                            "+ edge 2 from 2 to 1 span 0.5 1\n"
                            "+ face 0 surface 1 wire 1+ 2+ 0-\n"),
        "report", cut(0, 0, 3, 0.25), "report", (cut(0, 0, 4, 0.5), 15)]),
    ("cut-there-and-back-listed-twice", listed(spare(THERE_AND_BACK), "0+ 0+"), [
        (cut(0, 0, 2, 0.5), "done edges 1 2\n"
                            "- face 0 surface 1 wire 0+ 0-\n"
                            "+ edge 1 from 0 to 2 span 0 0.5\n"
                            "+ edge 2 from 2 to 1 span 0.5 1\n"
                            "+ face 0 surface 1 wire 1+ 2+ 0-\n"), "report"]),
    ("cut-back-and-there", spare(draw(2, edges("01"), [["0- 0+"]], ["0+"])), [
        cut(0, 0, 2, 0.5), "report"]),
    ("cut-bounds-0-to-1", *bounds(0.0, 1.0)),
    ("cut-bounds-999999-to-1000000", *bounds(999999.0, 1000000.0)),
    ("cut-bounds-minus-1000000-up", *bounds(-1000000.0, -999999.0)),
    ("cut-bounds-third-to-half", *bounds(1 / 3, 0.5)),
    ("cut-bounds-minus-zero", *bounds(-0.0, 12345.678)),
    ("cut-by-the-document", spare(TRIANGLE), [
        (cut(0, 0, 3, 0.0000009), 16), cut(0, 0, 3, 0.000001)]),
    ("cut-narrow-spans",                # 1.5, 2 and 2.5 millionths
     span(span(span(spare(TRIANGLE), 0, 0.0, 0.0000015), 1, 0.0, 0.000002), 2, 0.0, 0.0000025), [
         (cut(0, 0, 3, 0.00000075), 16), (cut(0, 0, 3, 0.000001), 16),
         (cut(0, 0, 3, 0.0000005), 16),
         cut(0, 1, 3, 0.000001), "fresh", cut(0, 1, 3, below(0.000001)), "fresh",
         cut(0, 2, 3, 0.00000125)]),
    ("cut-17-at-1023-edges", crowded(1023), [
        (cut(0, 0, 3, 0.5), 17), (cut(0, 0, 3, None), 16), (cut(0, 0, 0, 0.5), 14),
        (cut(0, 1022, 3, 0.5), 15)]),
    ("cut-17-at-1024-edges", crowded(1024), [(cut(0, 0, 3, 0.5), 17)]),
    ("cut-to-1024-edges", crowded(1022), [
        cut(0, 0, 3, 0.5), (cut(0, 1, 4, 0.5), 17), "report"]),
    ("cut-17-uses", many_uses(), [
        cut(0, 0, 513, 0.5), (cut(0, 1, 514, 0.5), 17), "fresh",
        (cut(1, 0, 513, 0.5), 17), (cut(1, 0, 513, None), 16), "fresh",
        cut(2, 0, 513, 0.5)]),

    # remove a point: 3, 27, 23, 24, 25, 26, 17
    ("remove-refused", spare(TETRAHEDRON), [
        ("remove 1 0", 3), ("remove 0 7", 3), ("remove 0 4", 23), ("remove 0 0", 23)]),
    ("remove-one-wire", spare(TRIANGLE), [
        "remove 0 1", "report", "fresh", "remove 0 2", "report", "fresh",
        ("remove 0 0", "done edge 3\n- face 0 surface 1 wire 0+ 1+ 2+\n"
                       "+ edge 3 from 2 to 1 span 0 2\n+ face 0 surface 1 wire 1+ 3+\n"), "report",
        ("remove 0 1", 25), ("remove 0 2", 25), ("remove 0 0", 23)]),
    ("remove-two-corners", TWO_TRIANGLES, [("remove 0 0", 24), "remove 0 1", "remove 0 3"]),
    ("remove-24-before-25",             # the last such wire has two edges
     draw(3, edges("01 12 20 01"), [["0+ 1+ 2+"], ["3+ 0-"]], ["0+ 1+"]), [
         ("remove 0 0", 24), ("remove 0 1", 24)]),
    ("remove-24-before-26", span(span(TWO_TRIANGLES, 5, 0.0, 600000.0), 3, 0.0, 600000.0), [
        ("remove 0 0", 24)]),
    ("remove-one-shared-edge", NEIGHBOURS, [("remove 0 1", 24), ("remove 0 2", 24), "remove 0 3"]),
    ("remove-notch", NOTCHED, ["remove 0 6", "report", ("remove 0 6", 23)]),
    ("remove-notch-other-sequence", listed(NOTCHED, "1+ 0+"), ["remove 0 6", "report"]),
    ("remove-notch-reversed-listing", listed(NOTCHED, "1- 0+"), ["remove 0 6", "report"]),
    ("remove-notch-alike",              # both run 1 6 2 as stored, shown against each other
     listed(NOTCHED.but(uses=signed("0+ 1+ 2+ 3+ 5- 4- 1+ 2+")), "0+ 1-"), [("remove 0 6", 24)]),
    ("remove-notch-last-uses",          # both uses that end at 6 are the last of their wires
     NOTCHED.but(uses=signed("2+ 3+ 0+ 1+ 1- 4+ 5+ 2-")), ["remove 0 6", "report"]),
    ("remove-notch-listed-again", listed(NOTCHED, "0+ 1+ 0+"), [("remove 0 6", 23)]),
    ("remove-listed-twice", listed(TRIANGLE, "0+ 0+"), [("remove 0 0", 24)]),
    ("remove-listed-thrice", listed(TRIANGLE, "0+ 0+ 0-"), [("remove 0 0", 23)]),
    ("remove-there-and-back", in_shells(THERE_AND_BACK, "0+"), [("remove 0 0", 25),
                                                                ("remove 0 1", 25)]),
    ("remove-there-and-back-twice", listed(THERE_AND_BACK, "0+ 0+"), [("remove 0 0", 25)]),
    ("remove-two-edges", draw(2, edges("01 10"), [["0+ 1+"]], ["0+"]), [
        ("remove 0 0", 25), ("remove 0 1", 25)]),
    ("remove-cut-undone", NEIGHBOURS, [
        cut(0, 1, 4, 0.25), "remove 0 4", "report"]),
    ("remove-cut-undone-backwards",     # the span is not the old one: 0.25 to 1.25
     listed(NEIGHBOURS, "1+"), [
        cut(0, 1, 4, 0.25),
        ("remove 0 4", "done edge 7\n- face 1 surface 1 wire 6- 5- 3+ 4+\n"
                       "+ edge 7 from 2 to 1 span 0.25 1.25\n"
                       "+ face 1 surface 1 wire 7+ 3+ 4+\n"), "report"]),
    ("remove-26", span(span(spare(TRIANGLE), 0, 0.0, 1.0), 1, 0.0, 1000000.0), [
        ("remove 0 1", 26), ("remove 0 2", 26), "remove 0 0"]),
    ("remove-end-at-1000000", span(span(TRIANGLE, 0, 0.0, 500000.0), 1, 0.0, 500000.0), [
        "remove 0 1"]),
    ("remove-end-rounds-to-1000000",    # half a step above it, to even
     span(span(TRIANGLE, 0, 0.0, 500000.0), 1, 0.0, above(500000.0)), ["remove 0 1"]),
    ("remove-end-a-step-above",
     span(span(TRIANGLE, 0, 0.0, 500000.0), 1, 0.0, above(500000.0, 2)), [("remove 0 1", 26)]),
    ("remove-26-not-above-its-start",
     span(span(TRIANGLE, 0, 524288 - 2.0 ** -34, 524288.0),
          1, -2.0 ** -34, -0.75 * 2.0 ** -34), [("remove 0 1", 26), ("concat 0+ 1+", 26)]),
    ("remove-two-roundings",
     span(span(TRIANGLE, 0, 0.1, 0.3), 1, 0.7, 0.9), ["remove 0 1", "report"]),
    ("remove-17", crowded(1024), [("remove 0 1", 17), ("remove 0 3", 23), ("concat 0+ 1+", 17),
                                  ("concat 0+ 2+", 29)]),
    ("remove-26-before-17", span(span(crowded(1024), 0, 0.0, 1.0), 1, 0.0, 1000000.0), [
        ("remove 0 1", 26), ("concat 0+ 1+", 26)]),
    ("remove-to-1024-edges", crowded(1023), ["remove 0 1", ("remove 0 2", 25),
                                             ("concat 1+ 2+", 17)]),

    # concat: 3, 29, 25, 26, 17
    ("concat", span(spare(draw(4, edges("01 12 20 03"), [["0+ 1+ 2+"]], ["0+"])), 1, -2.0, 4.5), [
        ("concat 4+ 0+", 3), ("concat 0+ 4-", 3), ("concat 0+ 2+", 29), ("concat 0+ 1-", 29),
        ("concat 0+ 0-", 25), ("concat 3- 3+", 25), "concat 0+ 1+", "concat 1- 0-",
        "concat 1+ 2+", "concat 2+ 3+", "concat 4+ 2+", "report"]),
    ("concat-26", span(span(TRIANGLE, 0, -5.0, 999999.5), 1, 0.0, 1.0), [
        ("concat 0+ 1+", 26), ("concat 2+ 0+", 26), ("concat 1- 0-", 26),
        ("concat 0+ 0-", 25),           # though the joined span is out of range too
        "concat 1+ 2+"]),
    ("concat-29-before-25", draw(4, edges("01 23 20"), [], []), [
        ("concat 0+ 1+", 29), ("concat 0+ 0+", 29), ("concat 0+ 2-", 29)]),

    # add an outline: 3, 6, 7, 8, 9, 17
    ("add", joined(TRIANGLE, polygon(3), THERE_AND_BACK, NO_WIRES), [
        ("add 4+ 99 9 3+ 4+ 5+", 3), ("add 0+ 99 9 7+ 7-", 3), ("add 0+ 99 9 3+ 9-", 3),
        ("add 0+ 99 9", 6), ("add 0+ 0 0", 6),
        ("add 0+ 99 9 3+", 7), ("add 0+ 99 9 3+ 5+ 4+", 7), ("add 0+ 99 9 3+ 3- 3+", 7),
        ("add 0+ 99 9 0+", 7),
        ("add 0+ 99 9 3+ 3- 3+ 3-", 8), ("add 0+ 99 9 0+ 0- 0+ 0-", 8),
        ("add 0+ 99 9 3+ 4+ 5+ 3+ 4+ 5+", 8), ("add 3- 99 9 4+ 5+ 5- 4-", 8),
        ("add 0+ 99 9 0+ 0-", 9), ("add 0+ 99 9 1+ 2+ 0+", 9), ("add 0- 99 9 0+ 0-", 9),
        ("add 0+ 0 0 0+ 0-", 9),
        ("add 0+ 99 9 3+ 4+ 5+", "done wire 0+ 1+ 2+ wire 3+ 4+ 5+\n"),
        ("add 0- 99 9 3+ 4+ 5+", "done wire 0+ 1+ 2+ wire 5- 4- 3-\n"),
        "add 0+ 6 2 3+ 4+ 5+", ("add 0+ 5 2 3+ 4+ 5+", 17), ("add 0+ 6 1 3+ 4+ 5+", 17),
        "add 0+ 99 9 6+ 6-", "add 0- 99 9 6+ 6-", "add 3+ 3 1 0+ 1+ 2+", "add 3- 3 1 0+ 1+ 2+",
        ("add 3+ 2 1 0+ 1+ 2+", 17), "add 2+ 99 9 4+ 5+ 3+"]),
    ("add-to-a-face-with-a-hole", joined(RING, TRIANGLE), [
        "add 0+ 99 9 8+ 9+ 10+", "add 0- 99 9 10- 9- 8-", ("add 0+ 99 9 4+ 5+ 6+ 7+", 9),
        ("add 0+ 10 9 8+ 9+ 10+", 17), ("add 0+ 99 2 8+ 9+ 10+", 17)]),
    ("add-a-long-outline", joined(polygon(500), polygon(500)), [
        f"add 0- 1000 2 {words(range(500, 1000))}",
        (f"add 0+ 999 2 {words(range(500, 1000))}", 17),
        (f"add 0+ 1000 1 {words(turned(list(range(500, 1000))))}", 17)]),
    ("add-a-1025th-wire", spare(ONE_FACE.but(edges=ONE_FACE.edges[:1023], uses=ONE_FACE.uses[:2046],
                                             wires=[2] * 1023, faces=[(1023, 1)]), 0), [
        ("add 0+ 2046 1023 0+ 0-", 9), ("add 0+ 99 9 0+ 0-", 9)]),

    # cut a face: 3, 18, 19, 28, 17.  SQUARE: corners 0 to 3, points 4 and 5 inside;
    # edges 4: 13, 5: 04, 6: 42, 7: 02, 8: 14, 9: 43, 10: 45, 11: 31, 12: 10, 13: 05, 14: 53
    ("cut-face", SQUARE, [
        ("cutface 1+ 99 9 4+", 3), ("cutface 0+ 99 9 15+", 3), ("cutedge 0+ 99 9 15-", 3),
        ("cutface 0+ 99 9", 19), ("cutface 0- 0 0", 19),
        ("cutface 0+ 99 9 5+", 19), ("cutface 0+ 99 9 6+", 19), ("cutface 0+ 99 9 10+", 19),
        ("cutface 0+ 99 9 10- 6+", 19), ("cutedge 0+ 99 9 5+", 19),
        ("cutface 0+ 99 9 4+",
         "done wire 3+ 0+ 4+ wire 1+ 2+ 4-\n"),
        "cutedge 0+ 99 9 4+", "cutface 0+ 99 9 4-", "cutface 0- 99 9 4+", "cutedge 0- 99 9 4-",
        "cutface 0+ 99 9 11+", "cutface 0+ 99 9 7+", "cutface 0+ 99 9 7-",
        "cutface 0+ 99 9 5+ 6+", "cutface 0+ 99 9 6- 5-", "cutface 0- 99 9 5+ 6+",
        "cutface 0+ 99 9 8+ 9+", "cutface 0+ 99 9 8+ 10+ 14+",
        "cutface 0+ 99 9 0+", "cutface 0+ 99 9 0-", "cutface 0+ 99 9 12+", "cutface 0+ 99 9 12-",
        ("cutface 0+ 99 9 7+ 1-", 28),          # through the outline's point 2
        ("cutface 0+ 99 9 0+ 4+", 28),          # along it, then across
        ("cutface 0+ 99 9 5+ 5-", 28),          # back to its own start
        ("cutface 0+ 99 9 5+ 9+ 9- 6+", 28),
        ("cutface 0+ 99 9 5+ 14+", 28),         # broken between 4 and 5
        ("cutface 0+ 99 9 0+ 2+", 28),          # broken, along the outline
        ("cutface 0+ 99 9 4+ 11+", 28),
        ("cutface 0+ 5 9 7+ 1-", 28),
        "cutface 0+ 6 2 4+", ("cutface 0+ 5 2 4+", 17), ("cutface 0+ 6 1 4+", 17),
        ("cutedge 0+ 6 1 4+", 17), ("cutface 0+ 7 2 5+ 6+", 17), "cutface 0+ 8 2 5+ 6+"]),
    ("cut-face-18", joined(RING, NO_WIRES), [
        ("cutface 0+ 99 9 0+", 18), ("cutface 0+ 99 9", 18), ("cutface 2+ 99 9 0+", 18),
        ("cutface 2+ 99 9", 18), ("cutedge 0- 99 9 0+", 18), ("cutface 0+ 0 0 0+", 18)]),
    ("cut-face-there-and-back", spare(draw(3, edges("01 12 20 01"), [["0+ 0-"]], ["0+"])), [
        "cutface 0+ 99 9 3+", "cutface 0+ 99 9 3-", "cutface 0+ 99 9 0+", "cutface 0+ 99 9 1+ 2+",
        "cutface 0+ 99 9 2- 1-"]),

    # glue: 3, 20, 21, 22, 28, 17
    ("glue", draw(4, edges("01 12 20 13 32 01"),
                  [["0+ 1+ 2+"], ["2- 1- 0-"], ["1- 3+ 4+"], ["5+ 0-"], ["0+ 0-"], []], [""]), [
        ("glue 0+ 6+ 99 9", 3), ("glue 6+ 0+ 99 9", 3), ("glue 0+ 0- 99 9", 20),
        ("glue 0+ 2- 99 9", 20), ("glue 0- 2+ 0 0", 20),
        ("glue 0+ 1+ 99 9", 22), ("glue 1- 0- 99 9", 22), ("glue 5+ 5+ 99 9", 22),
        ("glue 0+ 1+ 0 0", 22), ("glue 4+ 4+ 99 9", 22), ("glue 5+ 4+ 99 9", 22),
        ("glue 0+ 2+ 99 9", "done wire 0+ 3+ 4+ 2+\n"),
        "glue 2+ 0+ 99 9", "glue 0- 2- 99 9", "glue 0+ 2+ 4 1",
        ("glue 0+ 2+ 3 1", 17), ("glue 0+ 2+ 4 0", 17),
        ("glue 5+ 3+ 99 9", 21), "glue 3+ 5+ 99 9", "glue 0+ 3+ 99 9", "glue 3+ 0+ 99 9",
        "glue 0+ 5+ 99 9", "glue 5+ 0+ 99 9", "glue 0+ 4+ 99 9", "glue 4+ 0+ 99 9",
        "glue 0+ 0+ 99 9", "glue 4+ 5+ 99 9"]),
    ("glue-surfaces", draw(4, edges("01 12 20 13 32"), [["0+ 1+ 2+"], ["1- 3+ 4+"]], [""]).but(
        faces=[(1, 1), (1, 2)]), [("glue 0+ 1+ 99 9", 20), ("glue 0+ 0- 99 9", 20)]),
    ("glue-two-edges-two-points", draw(2, edges("01 01 10"),
                                       [["0+ 2+"], ["1- 0+"], ["1+ 0-"], ["0+ 1-"]], [""]), [
        f"glue {a}+ {b}+ 99 9" for a in range(4) for b in range(4)]),
    # p = 0, a = 1, b = 2, x = 3; the second outline begins at p, or at a
    ("glue-by-the-document", draw(4, edges("01 12 20 03 31"),
                                  [["0+ 1+ 2+"], ["3+ 4+ 0-"], ["0- 3+ 4+"]], [""]), [
        ("glue 0+ 1+ 99 9", 28), ("glue 0+ 2+ 99 9", "done wire 3+ 4+ 1+ 2+\n"),
        ("glue 0+ 1+ 0 0", 28), ("glue 0+ 2+ 0 9", 17), "glue 1+ 0+ 99 9", "glue 2+ 0+ 99 9"]),
    # both glues accept, and the first face's uses are replaced
    ("glue-replaces", draw(5, edges("14 24 00 42 00 00 12".replace("00", "03")),
                           [["1+ 3+"], ["0- 6+ 3-"]], [""]), [
        ("glue 0+ 1+ 99 9", "done wire 6+ 3- 0-\n"), "glue 1+ 0+ 99 9"]),
    ("glue-two-outlines", draw(8, edges("01 12 20 34 45 53 62 16 75 47"),
                               [["0+ 1+ 2+", "3+ 4+ 5+"], ["6+ 1- 7+", "8+ 4- 9+"]], [""]), [
        "glue 0+ 1+ 99 9", "glue 1+ 0+ 99 9", "glue 0- 1- 99 9", ("glue 0+ 1+ 7 2", 17),
        ("glue 0+ 1+ 8 1", 17)]),
    ("glue-into-the-hole", RING, ["glue 0+ 1+ 99 9", "glue 1+ 0+ 99 9", "glue 0+ 0+ 99 9"]),
]


# Points that are added: the Rust's parts have them as they stand, so no oracle is asked, and the
# answers are by hand.
POINTS = [
    ("point", TRIANGLE, [
        ("point 7", "done point 3\n+ point 3 label 7\n"),
        ("report", by_hand(shell_text("Oriented", "yes", ["0+ 1+ 2+"], 4, ["0+"]), solid="refused 12 shell 0")),
        (cut(0, 0, 3, 0.5), "done edges 3 4\n- face 0 surface 1 wire 0+ 1+ 2+\n+ edge 3 from 0 to 3 span 0 0.5\n"
                            "+ edge 4 from 3 to 1 span 0.5 1\n+ face 0 surface 1 wire 3+ 4+ 1+ 2+\n"),
        ("point 4294967295", "done point 4\n+ point 4 label 4294967295\n"),
        (cut(0, 1, 5, 0.5), 3)]),
    ("point-17-at-2048-points", spare(TRIANGLE, 2044), [
        ("point 1", "done point 2047\n+ point 2047 label 1\n"), ("point 2", 17)]),
]


def every_edit():
    """All edits of one kind on small patterns."""
    uses = [f"{k}{sign}" for k in range(6) for sign in "+-"]
    lines = []
    for e in range(6):
        for v in range(6):
            lines += [cut(0, e, v, 0.5), "fresh"]
    lines += [line for v in range(8) for line in (f"remove 0 {v}", "fresh")]
    lines += [f"concat {a} {b}" for a in uses for b in uses]
    yield "every-shell-edit", NEIGHBOURS, lines

    p = spare(draw(4, edges("01 12 20 13 32"), [["0+ 1+ 2+"]], ["0+"]), 0)
    wires = [[]] + [[a] for a in uses[:10]] + [[a, b] for a in uses[:10] for b in uses[:10]]
    yield "every-face-cut", p, ([" ".join(["cutface 0+ 9 2"] + wire) for wire in wires]
                                + [f"cutedge 0{sign} 9 2 {a}" for a in uses[:10] for sign in "+-"])
    yield "every-outline-added", joined(p, THERE_AND_BACK), [
        " ".join(["add 1- 9 2"] + wire) for wire in wires]

    outlines = ["0+ 1+ 2+", "2- 1- 0-", "1- 3+ 4+", "3+ 4+ 1-", "4+ 1- 3+", "4- 3- 1+", "0+ 0-",
                "0- 0+", "5+ 0-", "0- 5+", "0+ 5-", "3+ 4+ 2+ 0+"]
    p = draw(5, edges("01 12 20 13 32 01"), [[outline] for outline in outlines], [""])
    count = len(outlines)
    yield "every-glue", p, [f"glue {a}+ {b}+ 12 3" for a in range(count) for b in range(count)]


def random_edit_files(seed, count):
    rng = random.Random(seed)
    for k in range(count):
        p = spare(random_pattern(rng), rng.randrange(4))
        while not p.edges or len(p.points) < 2:
            p = spare(random_pattern(rng))
        yield f"random-{k}", p, random_edits(rng, p, rng.randrange(10, 26))


# ---------------------------------------------------------------- writing

NAME = re.compile(r"[a-z0-9-]{1,40}")
LONGEST_EDITS, LONGEST_LINE = 16384, 4096   # bytes; a program that replays may count on it


def ask(word, paths):
    done = subprocess.run([ORACLE, word, *map(str, paths)], capture_output=True, text=True)
    if done.returncode:
        sys.exit(f"oracle {word}: {done.stderr}")
    return done.stdout


def bytes_of(content):
    return content.file() if isinstance(content, Pattern) else content


class Folder:
    """A folder with args, data/ and stdout, as the replaying programs take them."""

    def __init__(self, path):
        self.path, self.names = path, []
        (path / "data").mkdir(parents=True, exist_ok=True)
        for old in (path / "data").iterdir():
            old.unlink()

    def add(self, name, content, edits=None):
        assert NAME.fullmatch(name) and name not in self.names, name
        self.names.append(name)
        (self.path / "data" / name).write_bytes(content)
        if edits is not None:
            text = "".join(f"{line}\n" for line in edits).encode()
            assert len(text) <= LONGEST_EDITS and max(map(len, edits)) < LONGEST_LINE, name
            (self.path / "data" / (name + ".edits")).write_bytes(text)

    def ask(self, word):
        """The oracle's answer, and the part of each name."""
        paths = [self.path / "data" / name for name in self.names]
        if word == "edit":
            paths = [path for name in paths for path in (name, f"{name}.edits")]
        answer = ask(word, paths)
        (self.path / "args").write_text("".join(f"{path.name}\n" for path in map(pathlib.Path, paths)))
        (self.path / "stdout").write_text(answer)
        parts = dict(part.split("\n", 1) for part in re.split(r"^file ", answer, flags=re.M)[1:])
        assert list(parts) == self.names
        assert not re.search(r"^panic$", answer, flags=re.M), "the Rust panicked"
        return parts


def answers(lines, part):
    """The answer to each line of edits."""
    found, rest = [], part
    for line, after in zip(lines, lines[1:] + [None]):
        assert rest.startswith(line + "\n"), (line, rest[:80])
        rest = rest[len(line) + 1:]
        end = 0
        while end < len(rest) and not (after and rest.startswith(after + "\n", end)):
            end = rest.index("\n", end) + 1
        found.append(rest[:end])
        rest = rest[end:]
    assert not rest, rest[:80]
    return found


def check(name, line, hand, answer):
    hand = f"refused {hand}\n" if isinstance(hand, int) else hand
    if hand is not None and hand != answer:
        sys.exit(f"{name}: {line}\nby hand:\n{hand}the oracle:\n{answer}")


def record():
    folder = Folder(ROOT / "crates/replay_reports")
    for name, content, *_ in REPORTS:
        folder.add(name, bytes_of(content))
    parts = folder.ask("report")
    for name, _, *hand in REPORTS:
        check(name, "report", hand[0] if hand else None, parts[name])

    folder = Folder(ROOT / "crates/replay_packs")
    for name, contents in PACKS:
        files = [bytes_of(content) for content in contents]
        folder.add(name, b"".join(struct.pack("<I", len(file)) + file for file in files))
    folder.ask("pack")

    cases = [(name, p, [line if isinstance(line, tuple) else (line, None) for line in lines])
             for name, p, lines in EDITS + list(every_edit()) + list(random_edit_files(2, 30))]
    record_edits(ROOT / "crates/replay_edits", cases, SHELL_EDITS, {"report", "fresh"})
    record_points(ROOT / "crates/replay_edits")
    record_edits(ROOT / "crates/replay_face_edits", cases, FACE_EDITS, set())


SHELL_EDITS = {"cut", "remove", "concat"}
FACE_EDITS = {"add", "cutface", "cutedge", "glue"}


def first_word(pair):
    return pair[0].split(" ")[0]


def record_edits(path, cases, kinds, besides):
    """The edits of some kinds. A face edit changes nothing stored, so without it the answers to
    shell edits are the same; without the shell edits, face edits are asked of the pattern as read."""
    cases = [(name, p, [pair for pair in lines if first_word(pair) in kinds | besides])
             for name, p, lines in cases if any(first_word(pair) in kinds for pair in lines)]
    folder = Folder(path)
    for name, p, lines in cases:
        folder.add(name, bytes_of(p), [line for line, _ in lines])
    parts = folder.ask("edit")
    for name, _, lines in cases:
        texts = [line for line, _ in lines]
        for (line, hand), answer in zip(lines, answers(texts, parts[name])):
            check(name, line, hand, answer)


def record_points(path):
    """The points that are added, after the edits that the oracle was asked."""
    for name, p, lines in POINTS:
        (path / "data" / name).write_bytes(bytes_of(p))
        (path / "data" / f"{name}.edits").write_text("".join(f"{line}\n" for line, _ in lines))
        with open(path / "args", "a") as args:
            args.write(f"{name}\n{name}.edits\n")
        with open(path / "stdout", "a") as stdout:
            stdout.write(f"file {name}\n" + "".join(
                f"{line}\n" + (f"refused {hand}\n" if isinstance(hand, int) else hand) for line, hand in lines))


def at_random(seed, count, path):
    folder = Folder(path / "packs")
    files = random_files(seed, count)
    folder.add("random", b"".join(struct.pack("<I", len(file)) + file for file in files))
    folder.ask("pack")
    folder = Folder(path / "edits")
    for name, p, lines in random_edit_files(seed, count):
        folder.add(name, bytes_of(p), lines)
    folder.ask("edit")


def main():
    if sys.argv[1:] == ["record"]:
        record()
    elif len(sys.argv) == 5 and sys.argv[1] == "random":
        at_random(int(sys.argv[2]), int(sys.argv[3]), pathlib.Path(sys.argv[4]))
    else:
        sys.exit(__doc__)


if __name__ == "__main__":
    main()
