#!/usr/bin/env python3
"""Document 02, Slip 1, read a second time: a Wavefront OBJ mesh as a pattern file, to hold against `import`.

    python3 tools/mesh_reading.py < MESH > FILE

Written from the words of the slip, with nothing of the port. The file goes to standard output; a refusal is one line on
standard error, `refused N line L` or `refused N body B record R`, and then nothing is written.
"""
import re
import struct
import sys

LIMITS = (2048, 1024, 4096, 1024, 256, 16, 512)
REVERSED = 32768


def read(mesh):
    """("accepted", the file), ("refused", number, line) or ("refused", number, body, record)."""
    labels, edges, faces = [], {}, []
    for line, text in enumerate(mesh.split(b"\n"), 1):
        words = [word for word in re.split(rb"[ \t]", text.removesuffix(b"\r")) if word]
        if words[:1] == [b"v"]:
            labels.append(line % 2**32)
        if words[:1] != [b"f"]:
            continue
        points = []
        for word in words[1:]:
            digits = word.split(b"/")[0]
            if not re.fullmatch(rb"-?[0-9]{1,9}", digits):
                return "refused", 30, line
            # The first point has number 0 here; counted backwards, the latest is -1.
            point = len(labels) + int(digits) if digits.startswith(b"-") else int(digits) - 1
            if not 0 <= point < len(labels):
                return "refused", 31, line
            points.append(point)
        if len(points) < 3:
            return "refused", 32, line
        uses = []
        for front, back in zip(points, points[1:] + points[:1]):
            if (front, back) not in edges and (back, front) in edges:
                uses.append(edges[back, front] + REVERSED)
            else:
                uses.append(edges.setdefault((front, back), len(edges)))
        faces.append((points, uses))

    uses = [use for _, wire in faces for use in wire]
    counts = (len(labels), len(edges), len(uses), len(faces), len(faces), 1, len(faces))
    for body, (count, limit) in enumerate(zip(counts, LIMITS)):
        if count > limit:
            return "refused", 2, body, 0
    # In the sequence in which they were made.
    for edge, (front, back) in enumerate(edges):
        if front == back:
            return "refused", 5, 1, edge
    # The wire of a face has the face's number. Each use begins where the one before ends, so of the face rule this is left.
    for wire, (points, _) in enumerate(faces):
        if len(set(points)) < len(points):
            return "refused", 8, 3, wire
    return "accepted", pattern_file(labels, edges, uses, faces)


def pattern_file(labels, edges, uses, faces):
    bodies = (
        (4, [struct.pack("<I", label) for label in labels]),
        (20, [struct.pack("<HHdd", front, back, 0, 1) for front, back in edges]),
        (2, [struct.pack("<H", use) for use in uses]),
        (2, [struct.pack("<H", len(wire)) for _, wire in faces]),
        (4, [struct.pack("<HH", 1, 0) for _ in faces]),
        (2, [struct.pack("<H", len(faces))]),
        (2, [struct.pack("<H", face) for face in range(len(faces))]),
    )
    table, offset = b"", 56
    for size, records in bodies:
        table += struct.pack("<II", offset, len(records))
        offset += size * len(records)
    return table + b"".join(record for _, records in bodies for record in records)


def said(answer):
    """What `import` writes to standard output and to standard error."""
    if answer[0] == "accepted":
        return answer[1], b""
    number, *place = answer[1:]
    words = "line {}" if len(place) == 1 else "body {} record {}"
    return b"", f"refused {number} {words.format(*place)}\n".encode()


def main():
    out, err = said(read(sys.stdin.buffer.read()))
    sys.stdout.buffer.write(out)
    sys.stderr.buffer.write(err)


if __name__ == "__main__":
    main()
