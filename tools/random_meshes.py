"""Random meshes, for tests/run: whole ones and damaged ones, always the same for a seed.

    for mesh in meshes(seed, count): ..
"""
import random

BLANKS = [" ", " ", " ", " ", "\t", "  ", " \t"]
ENDS = ["\n", "\n", "\r\n"]
PASSED = ["# f 1 2", "#", "", " ", "\t", "vn 0 0 1", "vt 0.5 0.5", "g v", "o f", "s off", "usemtl f", "ff 1", "f/ 1", "v1", "\r", "l 1 2"]
# words that are no number, or name what is seldom there
ODD = ["x", "+1", "1.0", "-", "--1", "1-", "/1", "0", "-0", "000000001", "0000000001", "999999999", "1000000000", "-99", "99", "#", "\\", "1\r", "1/\r2"]
# bytes that mean something in a mesh, and some that do not
BYTES = b"0123456789--//  \t\t\r\r\n\nffvv##+.x\0\xff"


class Maker:
    def __init__(self, source):
        self.r = source

    def word(self, point, given):
        """The point, counted from 0, as a word of an `f`."""
        r = self.r
        word = str(point - given if r.random() < 0.2 else point + 1)
        if r.random() < 0.1 and len(word) < 5:
            digits = word.lstrip("-")
            word = word[: len(word) - len(digits)] + digits.zfill(r.randint(1, 9))
        if r.random() < 0.3:
            word += r.choice(["/", "//", f"/{r.randint(1, 99)}", f"//{r.randint(1, 99)}", f"/{r.randint(1, 99)}/{r.randint(1, 99)}", "/x"])
        return word

    def face(self, points, given, odd=0.0):
        r = self.r
        words = [r.choice(ODD) if r.random() < odd else self.word(point, given) for point in points]
        line = "f"
        for word in words:
            line += r.choice(BLANKS) + word
        return r.choice(["", "", "", " ", "\t"]) + line + r.choice(["", "", "", " ", "\t"])

    def point(self):
        r = self.r
        return "v" + r.choice(["", " 0 0 0", " 1.5 -2e3 x", "\t1", " ", " 0 0 0 # point"])

    def text(self, lines):
        """The lines, with others between them and ends of one kind or of both."""
        r = self.r
        ends = r.choice([["\n"], ["\n"], ["\r\n"], ENDS])
        if r.random() < 0.5:
            lines = [line for one in lines for line in ([r.choice(PASSED)] * (r.random() < 0.2) + [one])]
        text = "".join(line + r.choice(ends) for line in lines)
        if text and r.random() < 0.2:
            text = text[:-1]
        return text.encode("latin-1")

    def small(self):
        """Few points, so that faces meet, and points and faces in turn."""
        r = self.r
        odd = r.choice([0, 0, 0, 0.01, 0.1])
        again = r.choice([0, 0, 0, 0.02, 0.3])  # how often a point is named without regard to the others
        lines, given = [], 0
        for _ in range(r.randint(0, 40)):
            if given < 3 and r.random() < 0.98 or r.random() < 0.25:
                lines.append(self.point())
                given += 1
                continue
            many = r.choice([3, 3, 3, 3, 4, 4, 5, 6, 8])
            if r.random() < again:
                points = [r.randrange(given + (r.random() < 0.1)) for _ in range(r.choice([many, many, many, 2]))] if given else [0, 0, 0]
            else:
                points = r.sample(range(given), min(many, given))
                if r.random() < again and len(points) > 3:
                    # A point met again, two sides on or more.
                    points[-2] = points[0]
            lines.append(self.face(points, given, odd))
        return self.text(lines)

    def grid(self):
        """Squares that are sewn together, some parted into triangles, some turned over."""
        r = self.r
        wide, high = r.randint(1, 17), r.randint(1, 16)
        round_ = r.random() < 0.5 and wide > 2
        columns = wide if round_ else wide + 1
        lines = [self.point() for _ in range(columns * (high + 1))]
        turned = r.choice([0, 0, 0.1])
        for y in range(high):
            for x in range(wide):
                a, b = y * columns + x, y * columns + (x + 1) % columns
                corners = [a, b, b + columns, a + columns]
                parts = [corners] if r.random() < 0.8 else [corners[:3], corners[2:] + corners[:1]]
                for part in parts:
                    k = r.randrange(len(part))
                    part = part[k:] + part[:k]
                    lines.append(self.face(part[::-1] if r.random() < turned else part, columns * (high + 1)))
        return self.text(lines)

    def dense(self):
        """Up to all edges between few points: some 1,024, and many uses of each."""
        r = self.r
        given = r.randint(40, 48)
        lines = [self.point() for _ in range(given)]
        for _ in range(r.randint(100, 260)):
            lines.append(self.face(r.sample(range(given), r.choice([3, 4, 8, 16, 17, 30])), given))
        return self.text(lines)

    def hub(self):
        r = self.r
        given = r.randint(100, 700)
        hub = r.choice([0, given - 1, given // 2])
        others = [p for p in range(given) if p != hub]
        lines = [self.point() for _ in range(given)]
        for k in range(r.randint(50, 256)):
            a, b = (k % len(others), (k + 1) % len(others)) if r.random() < 0.7 else r.sample(range(len(others)), 2)
            lines.append(self.face([hub, others[a], others[b]], given))
        return self.text(lines)

    def limits(self):
        """One or more tables about as full as they can be, and some line after that."""
        r = self.r
        given = r.choice([3, 17, 1024, 1025, 2047, 2048, 2049, 2050, 3000])
        lines = ["v"] * given
        for _ in range(r.randint(1, 2)):
            faces = r.choice([0, 1, 1, 1, 16, 240, 241, 242, 255, 256, 257, 513, 1024, 1025, 1365, 1366])
            most = max(3, min(given, 1026, 24000 // max(faces, 1)))
            many = min(most, r.choice([3, 3, 3, 4, 16, 17, 1022, 1023, 1024, 1025] if faces < 513 else [3]))
            first = r.randint(0, given - many)
            names = " ".join(str(first + k + 1) for k in range(many))
            lines += [f"f {names}"] * faces
            lines += r.choice([[], [], [], ["f 1 1 2"], ["f 1 2 1 3"], ["f 1 2"], ["f 1 2 x"], [f"f 1 2 {given + 1}"], [f"f 1 2 -{given + 1}"], ["v"]])
        return self.text(lines)

    def soup(self):
        r = self.r
        return bytes(r.choice(b"fv  \t\r\n\n/-0123#") for _ in range(r.randint(0, 60)))

    def damaged(self, mesh):
        """A few bytes changed, put in or taken out, a part doubled, or the end cut off."""
        r = self.r
        mesh = bytearray(mesh)
        for _ in range(r.choice([1, 1, 2, 4])):
            k = r.randint(0, len(mesh))
            what = r.randrange(5)
            if what == 0:
                mesh[k : k + 1] = bytes([r.choice(BYTES)])
            elif what == 1:
                mesh[k:k] = bytes([r.choice(BYTES)])
            elif what == 2:
                del mesh[k : k + r.choice([1, 1, 1, 5, 50])]
            elif what == 3:
                mesh[k:k] = mesh[max(0, k - r.randint(1, 40)) : k]
            elif r.random() < 0.3:
                del mesh[k:]
        return bytes(mesh)

    def stretched(self, mesh):
        """A byte of it many times."""
        r = self.r
        if not mesh:
            return mesh
        k = r.randrange(len(mesh))
        byte = mesh[k : k + 1] if r.random() < 0.5 else bytes([r.choice(BYTES)])
        return mesh[:k] + byte * r.choice([10, 300, 5000, 4096, 8192, 65536, 100000]) + mesh[k:]


def meshes(seed, count):
    make = Maker(random.Random(seed))
    for k in range(count):
        kind = k % 40
        if kind % 20 == 0:
            mesh = make.limits()
        elif kind == 1:
            mesh = make.dense()
        elif kind == 2:
            mesh = make.hub()
        elif kind < 8:
            mesh = make.grid()
        elif kind < 13:
            mesh = make.soup()
        else:
            mesh = make.small()
        if k % 3 == 0:
            mesh = make.damaged(mesh)
        if k % 20 == 19:
            mesh = make.stretched(mesh)
        yield mesh
