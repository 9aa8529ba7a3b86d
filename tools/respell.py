#!/usr/bin/env python3
"""Respells the repository's own definitions and lemmas in snake case, as the kit's style has them.

    tools/respell.py [--dry]     at the top of the repository, once, after the kit's port.py

A name is taken that crates/*/specs or crates/*/proofs declare and that has a dash, or a capital after its first letter
where that is a small one. `noDup` becomes `no_dup`, `closed-start` becomes `closed_start`. Types, modules, constructors,
names that the kit makes for goals, names of the library, and everything that Rust code, a string or a file of input or
output holds keep their spelling. The same names turn in clauses of .rt files, in must-fail edits, and in code spans of
README.md and docs/. It says where two names would fall together, and then writes nothing.
"""
import collections
import os
import re
import sys

WORD = r"[^\s(){}.;,@\"«»]+"
DECLARED = re.compile(r"^[ \t]*(?:(?:pattern|unfoldable|abbrev|pub|axiom)[ \t]+)*(" + WORD + r")(?:[ \t]+\{[^{}\n]*\})?(?:[ \t]+\([^()\n]*\))*[ \t]+:(?=\s)(.*)$", re.M)
USE = re.compile(r"^[ \t]*(?:ghost )?(?:pub )?use[ \t]+([^\s{};]+?)(?:\.\{([^{}]*)\})?(?:[ \t]+as[ \t]+(\S+?))?;?$", re.M)
MADE = re.compile(r"^(?:returns|loop-|Need|invariant|decreases|overflow|bounds)")
# Names that would otherwise fall together with others.
ELSE = {"nan-bits": "nan_bits_lem"}
BEFORE = {
    "crates/decimals/proofs/Back.antt": ("is_digit", "is_digit_lem"),
    "crates/face_edits/proofs/CutTheorem.antt": ("ends_on", "ends_on_lem"),
    "crates/reports/proofs/Columned.antt": ("pairs_of", "pairs_of_lem"),
}


def files(*ends):
    for folder, dirs, names in os.walk("crates"):
        dirs[:] = sorted(d for d in dirs if d not in ("out", "data"))
        for n in sorted(names):
            if n.endswith(ends):
                yield os.path.join(folder, n)


def is_old(name):
    if not re.search(r"[A-Za-z]", name) or not re.match(r"[a-zα-ω]", name):
        return False
    return "-" in name or re.search(r"[a-z0-9][A-Z]", name) is not None


def snake(name):
    if name in ELSE:
        return ELSE[name]
    s = name.replace("-", "_")
    return re.sub(r"(?<=[a-z0-9'])([A-Z])", lambda m: "_" + m[1].lower(), s)


def declared():
    """Each own name to the files that declare it; the names that stand for goals."""
    own, goals = collections.defaultdict(set), set()
    for p in files(".antt"):
        for m in DECLARED.finditer(open(p, encoding="utf-8").read()):
            name, kind = m[1], m[2].strip()
            if not is_old(name):
                continue
            if p.endswith("/Proof.antt") and (re.match(r"(\{[^}]*\} → )?(tie\.|statement|\w+\.(Need|invariant|decreases)|Need|\S*Tie)", kind) or MADE.match(name)):
                goals.add(name)
            else:
                own[name].add(p)
    return own, goals


def crates():
    return {c for c in os.listdir("crates") if os.path.isdir(os.path.join("crates", c, "src"))}


def imported(text, mine):
    """The names that a file brings in from elsewhere than this repository."""
    out = set()
    for m in USE.finditer(text):
        head = m[1].split(".")
        if head[0] == "Rattle" and len(head) > 1 and head[1] in mine:
            continue
        for it in (m[2] or "").split(","):
            out.add(it.strip().split(" as ")[0])
            out.add(it.strip().split(" as ")[-1])
    return out


def turned(text, table, keep):
    def one(m):
        w = m[0]
        return table[w] if w in table and w not in keep else w

    return re.sub(WORD, one, text)


CLAUSE = re.compile(r"(?:requires|ensures)\s*\*?\s*(?:\w+\s*)?\{|ghost\s+use\b|ghost\b[^{};]*\{|\binvariant\s*\{")


def clauses(text):
    """The stretches of a .rt file that are clauses, ghost items or ghost imports."""
    at = 0
    for m in CLAUSE.finditer(text):
        if m.start() < at:
            continue
        if m[0].startswith("ghost") and m[0].split()[-1] == "use":
            end = text.index(";", m.end()) + 1
        else:
            depth, i = 1, m.end()
            while depth:
                depth += {"{": 1, "}": -1}.get(text[i], 0)
                i += 1
            end = i
        yield m.end(), end
        at = end


def plain():
    """The own names that are in snake case already."""
    out = set()
    for p in files(".antt"):
        out |= {m[1] for m in DECLARED.finditer(open(p, encoding="utf-8").read()) if "_" in m[1] and not is_old(m[1])}
    return out


def main():
    dry = "--dry" in sys.argv
    own, goals = declared()
    mine = crates()
    table = {n: snake(n) for n in own}
    # A lemma that would have its definition's name ends in _lem.
    words_of = {table[n] for n in table if "-" not in n} | plain()
    for n in table:
        if "-" in n and table[n] in words_of:
            table[n] += "_lem"
    bad = []
    both = {n for n in table if n in goals}
    if both:
        print("also names of goals:", sorted(both))
    back = collections.defaultdict(set)
    for n, to in table.items():
        back[to].add(n)
    together = {to: ns for to, ns in back.items() if len(ns) > 1}
    writes = {}
    for p in files(".antt"):
        old = text = open(p, encoding="utf-8").read()
        if p in BEFORE:
            text = turned(text, dict([BEFORE[p]]), set())
        keep = imported(text, mine)
        words = set(re.findall(WORD, re.sub(r"--.*|\bRattle\.\w+|^pub mod .*", "", text, flags=re.M)))
        if p.endswith("/Proof.antt"):
            keep |= {m[1] for m in DECLARED.finditer(text) if m[1] in goals}
        for w in sorted(words):
            if w in table and w not in keep:
                to = table[w]
                if p.endswith("/Proof.antt"):
                    continue
                if to in words or to in keep or (to in together and len(together[to] & words) > 1):
                    bad.append(f"{p}: {w} would be {to}, which is there")
        writes[p] = (old, turned(text, table, keep))
    for p in files(".rt"):
        text = open(p, encoding="utf-8").read()
        code, out, at = [], [], 0
        keep = imported(text, mine)
        for a, b in clauses(text):
            code.append(text[at:a])
            out.append(text[at:a])
            out.append(turned(text[a:b], table, keep))
            at = b
        code.append(text[at:])
        out.append(text[at:])
        code = re.sub(r"//.*", "", "".join(code))
        spoken = set()
        for a, b in clauses(text):
            spoken |= {w for w in re.findall(WORD, text[a:b]) if w in table}
        locals_ = set(re.findall(r"\b([a-z_]\w*)\s*:(?!:)", code)) | set(re.findall(r"\blet (?:mut )?(\w+)", code)) | set(re.findall(r"\bfor (\w+)", code))
        for w in sorted(spoken):
            if table[w] in locals_:
                bad.append(f"{p}: {w} would be {table[w]}, which is a local name or a field there")
        writes[p] = (text, "".join(out))
    for p in files(".edit"):
        text = open(p, encoding="utf-8").read()
        out = []
        for line in text.split("\n"):
            m = re.match(r"(old: |new: )(.*)", line)
            out.append(m[1] + turned(m[2], table, set()) if m else line)
        writes[p] = (text, "\n".join(out))
    pages = ["README.md"] + [os.path.join("docs", f) for f in sorted(os.listdir("docs")) if f.endswith(".md") and f != "PORT.md"]
    for p in pages:
        text = open(p, encoding="utf-8").read()
        writes[p] = (text, re.sub(r"`[^`\n]+`", lambda m: turned(m[0][:-1], {"`" + k: "`" + v for k, v in table.items()} | table, set()) + "`", text))
    for b in bad:
        print(b)
    print(f"{len(table)} names; {len(bad)} fall together")
    if bad and "--anyway" not in sys.argv:
        return 1
    if dry:
        return 0
    n = 0
    for p, (old, new) in writes.items():
        if old != new:
            n += 1
            with open(p, "w", encoding="utf-8") as f:
                f.write(new)
    print(f"{n} files written")
    return 0


if __name__ == "__main__":
    sys.exit(main())
