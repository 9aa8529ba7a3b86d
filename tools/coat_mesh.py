#!/usr/bin/env python3
"""The mesh of a coat, as a digitiser writes it: samples/coat-mesh.obj, always the same bytes.

    python3 tools/coat_mesh.py > samples/coat-mesh.obj

Its pattern and its report stand beside it; the report is the Rust's (tools/oracle/build makes the oracle):

    python3 tools/mesh_reading.py < samples/coat-mesh.obj > samples/coat-mesh.pattern
    target/oracle/release/oracle report samples/coat-mesh.pattern | tail -n +2 > samples/coat-mesh.report

Six pieces: two fronts, a back, two sleeves, a collar. Pieces that are sewn together name the same points along the seam, in
opposite ways. The fronts are closed from the waist up; open stay the hem with both fronts below the waist, two cuffs, and the
neck. Lengths are centimetres; x goes to the wearer's left, y up, z to the front.
"""
import math

AROUND = 16  # columns of the body: 0 at the middle of the front, 4 the left side, 8 the back, 12 the right side
# height, half width and half depth of each row of the body, from the hem to the armpits
ROWS = [(52, 35, 26), (64, 33, 24), (77, 30, 22), (90, 28, 20), (102, 26, 18), (115, 26, 18), (127, 27, 17)]
WAIST, ARMPIT, SHOULDER = 4, 6, 9
# where the columns of fronts and back end, at the shoulders and the neck: the left ones
TOPS = {0: (0, 136, 10), 1: (4.5, 138.5, 8), 2: (8.5, 146, 0), 3: (19.5, 143, 0), 7: (4.5, 145.5, -4.5), 8: (0, 145, -6)}
TOPS |= {5: TOPS[3], 6: TOPS[2]}
# shoulder seams: back and front have these points in common
SAME = {(SHOULDER, 5): (SHOULDER, 3), (SHOULDER, 6): (SHOULDER, 2), (SHOULDER, 11): (SHOULDER, 13), (SHOULDER, 10): (SHOULDER, 14)}


def body(row, column):
    """The point in a row and a column, 0 to 16: its name and its place."""
    if row >= WAIST:
        column %= AROUND
    name = SAME.get((row, column), (row, column))
    if row <= ARMPIT:
        height, width, depth = ROWS[row]
        angle = 2 * math.pi * column / AROUND
        place = (width * math.sin(angle), height, depth * math.cos(angle))
        if row < WAIST and column in (0, AROUND):
            place = (1.5 if column == 0 else -1.5, height, depth)
    else:
        left = column if column <= 8 else AROUND - column
        x, y, z = TOPS[left]
        _, (bx, by, bz) = body(ARMPIT, column)
        part = (row - ARMPIT) / (SHOULDER - ARMPIT)
        x = x if column <= 8 else -x
        place = (bx + part * (x - bx), by + part * (y - by), bz + part * (z - bz))
    return name, place


def panel(columns, upper):
    """A piece of the body: its columns up to the armpits, and those up to the shoulders."""
    for row in range(SHOULDER):
        for column in columns if row < ARMPIT else upper:
            corners = [(row, column), (row, column + 1), (row + 1, column + 1), (row + 1, column)]
            yield [(*body(r, c), (c / AROUND, r / SHOULDER)) for r, c in corners]


def armhole(side):
    """Round the armhole, so that the sleeve runs along it against the body."""
    if side > 0:
        loop = [(6, 3), (6, 4), (6, 5), (7, 5), (8, 5), (9, 5), (8, 3), (7, 3)]
    else:
        loop = [(6, 11), (6, 12), (6, 13), (7, 13), (8, 13), (9, 13), (8, 11), (7, 11)]
    return [body(*corner) for corner in loop]


def sleeve(side):
    """Rings of eight points from the armhole to the wrist, and a cuff of four."""
    start, end = (side * 23, 135, 0), (side * 57, 90, 5)
    along = [b - a for a, b in zip(start, end)]
    length = math.hypot(*along)
    axis = [a / length for a in along]
    over = [(1 if k == 1 else 0) - axis[1] * a for k, a in enumerate(axis)]
    over = [o / math.hypot(*over) for o in over]

    def ring(k, many, size):
        points = []
        for i in range(many):
            # from the front below, or the back below, by the bottom
            turn = math.radians(-45 - 360 / many * i if side > 0 else -135 + 360 / many * i)
            where = [s + a * k / 4 + size * (math.sin(turn) * o + (math.cos(turn) if j == 2 else 0)) for j, (s, a, o) in enumerate(zip(start, along, over))]
            points.append((("sleeve", side, k, i), tuple(where)))
        return points

    rings = [armhole(side), ring(1, 8, 9), ring(2, 8, 8), ring(3, 8, 7)]
    cuff = ring(4, 4, 6)

    def at(points, i, k):
        return (*points[i % len(points)], (i / len(points), 1 - k / 4))

    for k, (inner, outer) in enumerate(zip(rings, rings[1:])):
        for i in range(8):
            yield [at(inner, i, k), at(inner, i + 1, k), at(outer, i + 1, k + 1), at(outer, i, k + 1)]
    for i in range(4):
        yield [at(rings[3], 2 * i, 3), at(rings[3], 2 * i + 1, 3), at(rings[3], 2 * i + 2, 3), at(cuff, i + 1, 4), at(cuff, i, 4)]


def collar():
    neck = [body(SHOULDER, column) for column in (14, 15, 0, 1, 2, 7, 8, 9)]
    top = [(("collar", k), (1.1 * x, y + 5.5, 1.1 * z - 0.5)) for k, (_, (x, y, z)) in enumerate(neck)]
    for k in range(8):
        a, b, c, d = ((*points[i % 8], (i / 8, v)) for points, i, v in ((neck, k, 0), (neck, k + 1, 0), (top, k + 1, 1), (top, k, 1)))
        yield [a, b, c]
        yield [a, c, d]


PIECES = {
    "front_left": panel(range(0, 4), range(0, 3)),
    "front_right": panel(range(12, 16), range(13, 16)),
    "back": panel(range(4, 12), range(5, 11)),
    "sleeve_left": sleeve(1),
    "sleeve_right": sleeve(-1),
    "collar": collar(),
}


def normal(places):
    total = [0, 0, 0]
    for p, q in zip(places, places[1:] + places[:1]):
        for k in range(3):
            total[k] += p[(k + 1) % 3] * q[(k + 2) % 3] - p[(k + 2) % 3] * q[(k + 1) % 3]
    return [t / math.hypot(*total) for t in total]


def numbers(values, places):
    # 0.0 is added: no minus before a zero
    return " ".join(f"{round(value, places) + 0.0:.{places}f}" for value in values)


def main():
    print("# Coat in six pieces, as digitised; lengths in cm, x to the wearer's left, y up, z to the front")
    print("# python3 tools/coat_mesh.py")
    print("mtllib coat.mtl")
    # Numbers from 1, through all pieces: points by name, texture places by piece, normals by their words.
    points, textures, normals = {}, {}, {}
    for piece, faces in PIECES.items():
        faces = list(faces)
        lines = {"v": [], "vt": [], "vn": []}
        told = []

        def number(known, key, kind, words):
            if key not in known:
                known[key] = len(known) + 1
                lines[kind].append(f"{kind} {words}")
            return known[key]

        for corners in faces:
            words = numbers(normal([place for _, place, _ in corners]), 4)
            n = number(normals, words, "vn", words)
            told.append("f " + " ".join(
                f"{number(points, name, 'v', numbers(place, 3))}/{number(textures, (piece, *texture), 'vt', numbers(texture, 4))}/{n}"
                for name, place, texture in corners))
        print(f"\no {piece}\n# {len(lines['v'])} new points, {len(faces)} faces")
        print(*lines["v"], *lines["vt"], *lines["vn"], "usemtl wool", "s off", *told, sep="\n")


main()
