#!/usr/bin/env python3
"""Vectors for the program edit: jobs on the sample coat, with the Rust's answers.

A row is a job, and, where that is not the oracle's own line, what the oracle is asked or the answer by hand. The
oracle (tools/oracle/build) does the edits one after the other on the sample. It writes crates/edit/stdin,
crates/edit/stdout and crates/edit/data/coat.pattern.

    python3 tools/job_vectors.py
"""
import pathlib
import shutil
import struct
import subprocess
import tempfile

ROOT = pathlib.Path(__file__).resolve().parent.parent
ROOM = "4096 4096"


def bits(x):
    return "0x" + struct.pack(">d", x).hex()


def same(job):
    """A job that the oracle takes as it stands, but for the parameter and the room of the lists."""
    words = job.split()
    if words[0] == "cut" and words[4] != "nowhere" and not words[4].startswith("0x"):
        words[4] = bits(float(words[4]))
    if words[0] in ("add", "cutface"):
        words.insert(2, ROOM)
    if words[0] == "glue":
        words.append(ROOM)
    return " ".join(words)


NO_JOB = "no job: begin with cut, remove, concat, point, add, cutface or glue"
MARKED = "no job: begins with a byte order mark: save the jobs as UTF-8 without one"


def wrong(k, form):
    return f"no job: word {k} of {form}"


CUT = "cut SHELL EDGE POINT PARAMETER"
REMOVE = "remove SHELL POINT"
CONCAT = "concat USE USE"
POINT = "point LABEL"
ADD = "add FACE USE .."
CUTFACE = "cutface FACE USE .."
GLUE = "glue FACE FACE"

# job, answer by hand or None for the oracle's
ROWS = [
    ("cut 0 6 35 35.5", None),
    ("cut 0 6 35 35.5", None),
    ("cut 0 6 36 0x4041c00000000000", None),
    ("cut 0 50 36 nowhere", None),
    ("cut 0 50 36 -1", None),
    ("cut 0 50 36 35.5", None),
    ("cut 0 50 36 35.499999", None),
    ("cut 0 0 36 0.0000009", None),
    ("cut 1 50 36 1", None),
    ("cut 0 99 36 1", None),
    ("cut 0 50 99 1", None),
    ("remove 0 35", None),
    ("remove 0 35", None),
    ("remove 0 36", None),
    ("remove 0 20", None),
    ("remove 7 20", None),
    ("concat 0+ 1+", None),
    ("concat 0+ 2+", None),
    ("concat 0+ 0-", None),
    ("concat 99+ 0-", None),
    ("add 14+ 32+ 33+", None),
    ("add 14- 32+ 33+", None),
    ("add 14+ 32+", None),
    ("add 14+ 0+ 0-", None),
    ("add 14+", None),
    ("add 16+ 32+ 33+", None),
    ("cutface 6+ 27+", None),
    ("cutface 0+ 9+", None),
    ("cutface 11+ 30+", None),
    ("cutface 0+ 30+", None),
    ("cutface 0-", None),
    ("glue 0+ 6+", None),
    ("glue 7+ 8+", None),
    ("glue 0+ 1+", None),
    ("glue 0+ 14+", None),
    ("glue 0+ 1-", None),
    ("glue 0+ 99+", None),
    # lines that are no job
    ("", NO_JOB),
    (" \t", NO_JOB),
    ("cuts 0 6 35 35.5", NO_JOB),
    ("CUT 0 6 35 35.5", NO_JOB),
    ("# cut 0 6 35 35.5", NO_JOB),
    ("\ufeffremove 0 20", MARKED),
    ("\ufeff", MARKED),
    (" \ufeffremove 0 20", NO_JOB),
    ("cut", wrong(2, CUT)),
    ("cut 0 6 35", wrong(5, CUT)),
    ("cut 0 6 35 35.5 again", wrong(6, CUT)),
    ("cut 0 6+ 35 35.5", wrong(3, CUT)),
    ("cut 0 6 35 1e3", wrong(5, CUT)),
    ("cut 0 6 35 0.1234567890123456", wrong(5, CUT)),
    ("cut 0 6 35 Nowhere", wrong(5, CUT)),
    ("cut 0 6 -35 35.5", wrong(4, CUT)),
    ("cut 0 6 1234567890 35.5", wrong(4, CUT)),
    ("remove 0", wrong(3, REMOVE)),
    ("remove 0 1 2", wrong(4, REMOVE)),
    ("concat 0 1+", wrong(2, CONCAT)),
    ("concat 0+", wrong(3, CONCAT)),
    ("add", wrong(2, ADD)),
    ("add 14+ 32+ 33", wrong(4, ADD)),
    ("cutface 6 27+", wrong(2, CUTFACE)),
    ("glue 0+", wrong(3, GLUE)),
    ("glue 0+ 6+ 7+", wrong(4, GLUE)),
    # numbers that name nothing, as document 01 has them
    ("cut 0 999999999 36 1", "refused 3"),
    ("glue 0+ 999999999-", "refused 3"),
    # a fresh point, which the Rust's parts have as they stand; it can be cut at
    ("point 7", "done point 37"),
    ("cut 0 0 37 11.25", "done edges 57 58"),
    ("point 4294967295", "done point 38"),
    ("point", wrong(2, POINT)),
    ("point x", wrong(2, POINT)),
    ("point 4294967296", wrong(2, POINT)),
    ("point 1 2", wrong(3, POINT)),
    # words and lines as they may come
    ("\tremove  0\t 20 ", "refused 23"),
    ("remove 0 20\r", "refused 23"),
    ("remove 000 000000020", "refused 23"),
    ("remove 0 20\r\r", wrong(3, REMOVE)),
]


def main():
    asked = [same(job) for job, answer in ROWS if answer is None]
    with tempfile.NamedTemporaryFile("w") as jobs:
        jobs.write("".join(line + "\n" for line in asked))
        jobs.flush()
        sample = ROOT / "samples/coat.pattern"
        out = subprocess.run([ROOT / "target/oracle/release/oracle", "edit", sample, jobs.name], check=True, capture_output=True, text=True).stdout
    answers, lines = [], out.split("\n")[1:-1]
    for line in asked:
        assert lines.pop(0) == line
        answers.append(lines.pop(0))
        # what changed in the pattern
        while lines and lines[0][0] in "+-":
            lines.pop(0)
    program = ROOT / "crates/edit"
    program.joinpath("stdin").write_bytes("\n".join(job for job, _ in ROWS).encode())
    program.joinpath("stdout").write_text("".join((answers.pop(0) if answer is None else answer) + "\n" for _, answer in ROWS))
    program.joinpath("args").write_text("coat.pattern\n")
    program.joinpath("data").mkdir(exist_ok=True)
    shutil.copy(sample, program / "data/coat.pattern")


main()
