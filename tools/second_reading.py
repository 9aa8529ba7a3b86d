#!/usr/bin/env python3
"""Document 01 read a second time, to hold against the oracle.

    python3 tools/second_reading.py [FOLDER]

FOLDER is one that `tools/generate.py random` made; without it the recorded answers
of this repository are read.  Every answer is worked out again, by the text of
document 01 and in its words, with nothing of the Rust or of the port; each file
that is answered otherwise is named.  recorded/README.md has the words of the edits
and of their answers, docs/GUIDE.md the lines of a pattern as text.
"""

import math
import pathlib
import struct
import sys

REVERSED = 32768
LIMITS = (2048, 1024, 4096, 1024, 256, 16, 512)
RECORDS = ("<I", "<HHdd", "<H", "<H", "<HH", "<H", "<H")


class Refused(Exception):
    """A number, for a file with body and record."""


def name(use):
    """The edge of a use, the face of a listing."""
    return use & 32767


def turned(wire):
    return [use ^ REVERSED for use in reversed(wire)]


def text(uses):
    return "".join(f" {name(use)}{'-' if use & REVERSED else '+'}" for use in uses)


def wires_text(wires):
    return "".join(" wire" + text(wire) for wire in wires)


def bits(real):
    return "0x" + struct.pack(">d", real).hex()


def real_text(real):
    """The decimal of the fewest places, up to nine, that reads back and has at most 15 digits."""
    for places in range(10):
        word = f"{real:.{places}f}"
        if sum(map(str.isdigit, word)) <= 15 and bits(float(word)) == bits(real):
            return word
    return bits(real)


def groups(things, links):
    """Things that links hold together, in the sequence of their first ones."""
    left, found = list(things), []
    while left:
        group = [left.pop(0)]
        for thing in group:
            near = {b if a == thing else a for a, b in links if thing in (a, b)}
            group += [other for other in left if other in near]
            left = [other for other in left if other not in near]
        found.append(sorted(group, key=things.index))
    return found


class Pattern:
    def __init__(self, file):
        """The reading checks, in their sequence."""
        if not 56 <= len(file) <= 41048:
            raise Refused(1, 0, 0)
        table = [struct.unpack_from("<II", file, 8 * body) for body in range(7)]
        for body, (_, count) in enumerate(table):
            if count > LIMITS[body]:
                raise Refused(2, body, 0)
        end = 56
        for body, (offset, count) in enumerate(table):
            if offset != end:
                raise Refused(1, body, 0)
            end += struct.calcsize(RECORDS[body]) * count
        if end != len(file):
            raise Refused(1, 6, 0)
        points, edges, uses, wires, faces, shells, listings = (
            list(struct.iter_unpack(record, file[offset:offset + struct.calcsize(record) * count]))
            for record, (offset, count) in zip(RECORDS, table))

        self.points, self.edges = len(points), edges
        self.labels = [label for label, in points]
        for k, (front, back, t0, t1) in enumerate(edges):
            if max(front, back) >= self.points:
                raise Refused(3, 1, k)
            if front == back:
                raise Refused(5, 1, k)
            if not (abs(t0) <= 1000000 and abs(t1) <= 1000000 and t0 < t1):
                raise Refused(4, 1, k)
        for k, (use,) in enumerate(uses):
            if name(use) >= len(edges):
                raise Refused(3, 2, k)
        for body, records, summed in (3, wires, uses), (4, faces, wires), (5, shells, listings):
            if sum(record[0] for record in records) != len(summed):
                raise Refused(3, body, len(records))
        for k, (listing,) in enumerate(listings):
            if name(listing) >= len(faces):
                raise Refused(3, 6, k)

        def parts(counts, whole):
            whole = iter(whole)
            return [[next(whole) for _ in range(count)] for count, *_ in counts]

        self.faces = parts(faces, parts(wires, [use for use, in uses]))
        self.surfaces = [surface for _, surface in faces]
        self.shells = parts(shells, [listing for listing, in listings])
        start = 0
        for face in self.faces:
            fault = self.face_fault(face)
            if fault:
                raise Refused(fault[0], 3, start + fault[1])
            start += len(face)

    def front(self, use):
        return self.edges[name(use)][1 if use & REVERSED else 0]

    def back(self, use):
        return self.edges[name(use)][0 if use & REVERSED else 1]

    def wire_fault(self, wire):
        if not wire:
            return 6
        if any(self.back(a) != self.front(b) for a, b in zip(wire, wire[1:] + wire[:1])):
            return 7
        fronts = [self.front(use) for use in wire]
        return 8 if len(set(fronts)) < len(fronts) else 0

    def face_fault(self, wires):
        """The face rule: number and wire, or nothing."""
        for k, wire in enumerate(wires):
            if self.wire_fault(wire):
                return self.wire_fault(wire), k
        met = set()
        for k, wire in enumerate(wires):
            fronts = {self.front(use) for use in wire}
            if met & fronts:
                return 8, k
            met |= fronts
        return None

    def uses(self, shell):
        """The uses of a shell as its listings show them."""
        return [use for listing in shell for wire in self.faces[name(listing)]
                for use in (turned(wire) if listing & REVERSED else wire)]

    # ------------------------------------------------------------- report

    def report(self):
        lines, refused = [], None
        for s, shell in enumerate(self.shells):
            uses = self.uses(shell)
            by_edge = {}
            for use in uses:
                by_edge.setdefault(name(use), []).append(use)
            tallies = by_edge.values()
            condition = ("Irregular" if any(len(t) >= 3 for t in tallies) else
                         "Regular" if any(len(t) == 2 and t[0] == t[1] for t in tallies) else
                         "Closed" if all(len(t) == 2 for t in tallies) else "Oriented")
            connected = self.connected(shell, uses)
            lines += [f"shell {s}", f"condition {condition}",
                      f"connected {'yes' if connected else 'no'}"]
            lines += self.openings(uses, by_edge)
            lines += ["component" + text(group) for group in self.components(shell)]
            singular = self.singular(shell)
            lines += [f"singular {point}" for point in singular]
            reason = (10 if not shell else 11 if not connected else
                      12 if condition != "Closed" else 13 if singular else 0)
            if reason and not refused:
                refused = f"solid refused {reason} shell {s}"
        return lines + [refused or "solid accepted"]

    def openings(self, uses, by_edge):
        kept, lines, lookups = {}, [], 0
        for use in uses:
            if len(by_edge[name(use)]) % 2:
                kept[self.front(use)] = use
        while kept:
            point = next(self.front(use) for use in uses if self.front(use) in kept)
            opening = []
            while True:
                lookups += 1
                if point not in kept:
                    break
                opening.append(kept.pop(point))
                point = self.back(opening[-1])
            lines.append("opening" + text(opening))
        return lines + [f"lookups {lookups}"]

    def connected(self, shell, uses):
        links = [(self.front(use), self.back(use)) for use in uses]
        for listing in shell:
            wires = self.faces[name(listing)]
            links += [(self.front(a[0]), self.front(b[0])) for a, b in zip(wires, wires[1:])]
        points = list(dict.fromkeys(point for link in links for point in link))
        return len(groups(points, set(links))) <= 1

    def components(self, shell):
        pairs = [pair for pair in dict.fromkeys(shell) if self.faces[name(pair)]]
        edges = {pair: {name(use) for wire in self.faces[name(pair)] for use in wire}
                 for pair in pairs}
        return groups(pairs, [(a, b) for a in pairs for b in pairs if edges[a] & edges[b]])

    def singular(self, shell):
        links = {}
        for face in dict.fromkeys(map(name, shell)):
            for wire in self.faces[face]:
                for a, b in zip(wire, wire[1:] + wire[:1]):
                    links.setdefault(self.back(a), []).append((name(a), name(b)))
        return sorted(point for point, pairs in links.items()
                      if len(groups(list(dict.fromkeys(sum(pairs, ()))), pairs)) > 1)

    def text(self):
        """The pattern as text."""
        return ([f"point {k} label {label}" for k, label in enumerate(self.labels)]
                + [f"edge {k} from {front} to {back} span {real_text(t0)} {real_text(t1)}"
                 for k, (front, back, t0, t1) in enumerate(self.edges)]
                + [f"face {k} surface {surface}" + wires_text(wires)
                   for k, (surface, wires) in enumerate(zip(self.surfaces, self.faces))]
                + [f"shell {k} faces" + text(shell) for k, shell in enumerate(self.shells)])

    # -------------------------------------------------------------- edits

    def edit(self, line):
        word, *rest = line.split()
        return getattr(self, word)(*rest)

    def named(self, shell=0, edge=0, point=0):
        if shell >= len(self.shells) or edge >= len(self.edges) or point >= self.points:
            raise Refused(3)

    def not_elsewhere(self, s):
        faces = set(map(name, self.shells[s]))
        if any(faces & set(map(name, shell)) for k, shell in enumerate(self.shells) if k != s):
            raise Refused(27)

    def appended(self, *edges):
        first = len(self.edges)
        self.edges = self.edges + list(edges)
        return list(range(first, first + len(edges)))

    def cut(self, s, e, v, found):
        s, e, v = int(s), int(e), int(v)
        self.named(s, e, v)
        self.not_elsewhere(s)
        uses = self.uses(self.shells[s])
        if any(self.front(use) == v for use in uses):
            raise Refused(14)
        if all(name(use) != e for use in uses):
            raise Refused(15)
        front, back, t0, t1 = self.edges[e]
        t = math.nan if found == "nowhere" else struct.unpack(">d", bytes.fromhex(found[2:]))[0]
        if not math.isfinite(t) or t < t0 + 0.000001 or t > t1 - 0.000001:
            raise Refused(16)
        wires = [wire for face in dict.fromkeys(map(name, self.shells[s]))
                 for wire in self.faces[face] if e in map(name, wire)]
        every = sum(len(wire) for face in self.faces for wire in face)
        if len(self.edges) + 2 > 1024 or every + len(wires) > 4096:
            raise Refused(17)
        a, b = self.appended((front, v, t0, t), (v, back, t, t1))
        for wire in wires:
            k = list(map(name, wire)).index(e)
            wire[k:k + 1] = turned([a, b]) if wire[k] & REVERSED else [a, b]
        return f"done edges {a} {b}"

    def join(self, a, b):
        """25, 26, 17; the new edge."""
        if self.front(a) == self.back(b):
            raise Refused(25)
        start, a1 = self.edges[name(a)][2:]
        b0, b1 = self.edges[name(b)][2:]
        end = b1 + (a1 - b0)
        if abs(end) > 1000000 or not end > start:
            raise Refused(26)
        if len(self.edges) + 1 > 1024:
            raise Refused(17)
        return self.appended((self.front(a), self.back(b), start, end))[0]

    def remove(self, s, v):
        s, v = int(s), int(v)
        self.named(s, point=v)
        self.not_elsewhere(s)
        ends = []           # the wires that end there, the place, the pair
        for wire in (wire for listing in self.shells[s] for wire in self.faces[name(listing)]):
            backs = [self.back(use) for use in wire]
            if v in backs:
                k = backs.index(v)
                ends.append((wire, k, wire[k], wire[(k + 1) % len(wire)]))
        if len(ends) not in (1, 2):
            raise Refused(23)
        _, _, a, b = ends[-1]
        if len(ends) == 2:
            _, _, first, after = ends[0]
            if name(first) != name(b) or name(a) != name(after):
                raise Refused(24)
        new = self.join(a, b)
        for use, (wire, k, _, _) in zip([new, new + REVERSED], reversed(ends)):
            if k == len(wire) - 1:
                wire.append(wire.pop(0))
                k -= 1
            wire[k:k + 2] = [use]
        return f"done edge {new}"

    def concat(self, a, b):
        a, b = signed(a), signed(b)
        if max(name(a), name(b)) >= len(self.edges):
            raise Refused(3)
        if self.back(a) != self.front(b):
            raise Refused(29)
        return f"done edge {self.join(a, b)}"

    def point(self, label):
        """The port's own edit: document 01 has none."""
        if self.points + 1 > 2048:
            raise Refused(17)
        self.labels = self.labels + [int(label)]
        self.points += 1
        return f"done point {self.points - 1}"

    def face_and_wire(self, face, uses):
        face, wire = signed(face), list(map(signed, uses))
        if name(face) >= len(self.faces) or any(name(use) >= len(self.edges) for use in wire):
            raise Refused(3)
        return face, self.faces[name(face)], wire

    def add(self, face, u, w, *uses):
        face, wires, wire = self.face_and_wire(face, uses)
        if self.wire_fault(wire):
            raise Refused(self.wire_fault(wire))
        if self.face_fault(wires + [wire]):
            raise Refused(9)
        return written(wires + [turned(wire) if face & REVERSED else wire], u, w)

    def cutface(self, face, u, w, *uses):
        _, wires, wire = self.face_and_wire(face, uses)
        if len(wires) != 1:
            raise Refused(18)
        outline = wires[0]
        fronts = [self.front(use) for use in outline]
        if not wire or self.back(wire[-1]) not in fronts or self.front(wire[0]) not in fronts:
            raise Refused(19)
        start = fronts.index(self.back(wire[-1]))
        outline, fronts = outline[start:] + outline[:start], fronts[start:] + fronts[:start]
        # a wire that ends where it starts takes the whole outline
        stop = fronts.index(self.front(wire[0])) or len(fronts)
        first, second = outline[:stop] + wire, outline[stop:] + turned(wire)
        if self.face_fault([first]) or self.face_fault([second]):
            raise Refused(28)
        return written([first, second], u, w)

    cutedge = cutface

    def glue(self, a, b, u, w):
        a, b = signed(a), signed(b)
        if max(name(a), name(b)) >= len(self.faces):
            raise Refused(3)
        if self.surfaces[name(a)] != self.surfaces[name(b)] or a & REVERSED != b & REVERSED:
            raise Refused(20)
        kept = {self.front(use): use for wire in self.faces[name(a)] for use in wire}
        for use in sum(self.faces[name(b)], []):
            other = kept.get(self.back(use))
            if other is None or self.back(other) != self.front(use):
                kept[self.front(use)] = use
            elif name(other) == name(use):
                del kept[self.back(use)]
            else:
                raise Refused(21)
        if not kept:
            raise Refused(22)
        wires = []
        while kept:
            point, wire = min(kept), []
            while point in kept:
                wire.append(kept.pop(point))
                point = self.back(wire[-1])
            wires.append(wire)
        if self.face_fault(wires):
            raise Refused(28)
        return written(wires, u, w)


def signed(word):
    return int(word[:-1]) + (REVERSED if word[-1] == "-" else 0)


def written(wires, u, w):
    uses = sum(map(len, wires))
    if uses > int(u) or len(wires) > int(w):
        raise Refused(17)
    return "done" + wires_text(wires)


# --------------------------------------------------------------- comparing

def answer(question):
    try:
        return question()
    except Refused as refused:
        number, *place = refused.args
        return [f"refused {number}" + "".join(f" {word} {where}" for word, where
                                              in zip(("body", "record"), place))]


def reports(data):
    return answer(lambda: Pattern(data.read_bytes()).report())


def packs(data):
    rest, lines, k = data.read_bytes(), [], 0
    while rest:
        length, = struct.unpack_from("<I", rest)
        file, rest = rest[4:4 + length], rest[4 + length:]
        lines += [f"pattern {k}"] + answer(lambda: Pattern(file).report())
        k += 1
    return lines


def edits(data):
    lines = []
    pattern = Pattern(data.read_bytes())
    for line in data.with_name(data.name + ".edits").read_text().splitlines():
        lines.append(line)
        if line == "fresh":
            pattern = Pattern(data.read_bytes())
        elif line == "report":
            lines += pattern.report()
        else:
            before = pattern.text()
            lines += answer(lambda: [pattern.edit(line)])
            after = pattern.text()
            lines += ["- " + gone for gone in before if gone not in after]
            lines += ["+ " + new for new in after if new not in before]
    return lines


ROOT = pathlib.Path(__file__).resolve().parent.parent
RECORDED = [("reports", ROOT / "crates/replay_reports"), ("packs", ROOT / "crates/replay_packs"),
            ("edits", ROOT / "crates/replay_edits"), ("edits", ROOT / "crates/replay_face_edits")]
AGAIN = {"reports": reports, "packs": packs, "edits": edits}


def main():
    if len(sys.argv) > 2:
        sys.exit(__doc__)
    wrong = 0
    folders = RECORDED
    if len(sys.argv) == 2:
        folders = [(kind, pathlib.Path(sys.argv[1]) / kind) for kind in AGAIN]
        folders = [(kind, folder) for kind, folder in folders if folder.exists()]
    for kind, folder in folders:
        names = [name for name in (folder / "args").read_text().split()
                 if not name.endswith(".edits")]
        parts = (folder / "stdout").read_text().split("file ")[1:]
        assert len(parts) == len(names)
        for name, part in zip(names, parts):
            if part.splitlines() != [name] + AGAIN[kind](folder / "data" / name):
                print(f"otherwise: {kind} {name}")
                wrong += 1
        print(f"{kind}: {len(names)} files")
    sys.exit(1 if wrong else 0)


if __name__ == "__main__":
    main()
