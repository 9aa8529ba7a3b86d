#!/usr/bin/env python3
"""Vectors for the clerk: lines of the program `clerk`, each with its answer.

A row is a line, an arrow and the answer, worked out by hand from document 02, Slip 2. What an edit answers is from document 01,
on the coat from the Rust's answers in crates/edit. No clerk is asked.

It writes, into crates or the folder given,

    replay_clerk/data/NAME.clerk     the lines of each group, for a new clerk
    replay_clerk/data/NAME.pattern   the pattern files that they are done on
    replay_clerk/args                for each group the names of its pattern file and of its lines
    replay_clerk/stdout              for each group the line `file NAME`, then each line and its answer
    clerk/data/coat.pattern, clerk/args, clerk/stdin, clerk/stdout
                                     one run of the program on the coat

    python3 tools/clerk_vectors.py [FOLDER]
"""
import pathlib
import re
import sys

from reading_vectors import TETRAHEDRON, Pattern, draw, edge

ROOT = pathlib.Path(__file__).resolve().parent.parent

# A triangle of points 0, 1 and 2, and points 3 to 11 for notches. Edge 1 runs from -1 to 1, the others from 0 to 1. A first cut
# makes edges 3 and 4, and each edge that is made takes the next number.
NOTCHES = draw(12, [edge(0, 1), edge(1, 2, -1.0), edge(2, 0)], [["0+ 1+ 2+"]], ["0+"])

PATTERNS = {
    "notches": NOTCHES.file(),
    "coat": (ROOT / "samples/coat.pattern").read_bytes(),
    "tetrahedron": TETRAHEDRON.file(),
    # Its one face is listed in both shells.
    "shared": draw(4, [edge(0, 1), edge(1, 2), edge(2, 0)], [["0+ 1+ 2+"]], ["0+", "0+"]).file(),
    # 1,023 edges: one more can be made, and not two.
    "full": NOTCHES.but(edges=NOTCHES.edges + [edge(0, 1)] * 1020).file(),
    # No records.
    "bare": Pattern().file(),
    # Files that the reading checks refuse.
    "nothing": b"",
    "short": bytes(55),
    "same-ends": NOTCHES.put(edges={1: edge(2, 2)}).file(),
    "open-wire": NOTCHES.but(uses=[0, 1], wires=[2]).file(),
}

BEGIN = "no job: begin with submit or turn"
MARKED = "no job: begins with a byte order mark: save the jobs as UTF-8 without one"


def wrong(k, form):
    """Word k is wrong; before the job's name every submission has one form."""
    return f"no job: word {k} of {SUBMIT if form != TURN and k < 4 else form}"


SUBMIT = "submit DESK KEY cut|remove .."
CUT = "submit DESK KEY cut SHELL EDGE POINT PARAMETER"
REMOVE = "submit DESK KEY remove SHELL POINT"
TURN = "turn"


def rows(text):
    """The rows of a text: a line, an arrow, an answer."""
    for row in text.strip().split("\n"):
        line, answer = row.split(" -> ")
        yield line.rstrip(), answer


# name, pattern, rows
GROUPS = [
    # ---- the round
    ("round-begins-with-desk-0", "notches", """
turn                            -> nobody
submit 7 1 cut 0 0 3 0.5        -> waiting
submit 1 1 cut 0 1 4 0.5        -> waiting
submit 0 1 cut 0 2 5 0.5        -> waiting
turn                            -> desk 0 done edges 3 4
turn                            -> desk 1 done edges 5 6
turn                            -> desk 7 done edges 7 8
turn                            -> nobody
"""),
    # Desk 3 cuts an edge that is gone, desk 5 joins 6 to 3 and 3 to 1, desk 6 finds the point gone.
    ("round-all-eight", "notches", """
submit 7 17 cut 0 11 7 nowhere  -> waiting
submit 6 16 remove 0 3          -> waiting
submit 5 15 remove 0 3          -> waiting
submit 4 14 cut 0 3 6 0.25      -> waiting
submit 3 13 cut 0 0 6 0.5       -> waiting
submit 2 12 cut 0 2 5 0.5       -> waiting
submit 1 11 cut 0 1 4 0.5       -> waiting
submit 0 10 cut 0 0 3 0.5       -> waiting
turn                            -> desk 0 done edges 3 4
turn                            -> desk 1 done edges 5 6
turn                            -> desk 2 done edges 7 8
turn                            -> desk 3 refused 15
turn                            -> desk 4 done edges 9 10
turn                            -> desk 5 done edge 11
turn                            -> desk 6 refused 23
turn                            -> desk 7 refused 16
turn                            -> nobody
submit 7 17 cut 0 11 7 nowhere  -> held refused 16
submit 6 16 remove 0 3          -> held refused 23
submit 5 15 remove 0 3          -> held done edge 11
submit 4 14 cut 0 3 6 0.25      -> held done edges 9 10
submit 3 13 cut 0 0 6 0.5       -> held refused 15
submit 2 12 cut 0 2 5 0.5       -> held done edges 7 8
submit 1 11 cut 0 1 4 0.5       -> held done edges 5 6
submit 0 10 cut 0 0 3 0.5       -> held done edges 3 4
turn                            -> nobody
"""),
    ("round-empty-turns-first", "notches", """
turn                            -> nobody
turn                            -> nobody
turn                            -> nobody
submit 4 1 cut 0 0 3 0.5        -> waiting
submit 3 1 cut 0 1 4 0.5        -> waiting
submit 0 1 cut 0 2 5 0.5        -> waiting
turn                            -> desk 0 done edges 3 4
turn                            -> desk 3 done edges 5 6
turn                            -> desk 4 done edges 7 8
turn                            -> nobody
"""),
    # After desk 3 the round is 4, 5, 6, 7, 0, 1, 2, 3.
    ("round-empty-turns-between", "notches", """
submit 3 1 cut 0 0 3 0.5        -> waiting
turn                            -> desk 3 done edges 3 4
turn                            -> nobody
submit 3 2 cut 0 1 4 0.5        -> waiting
submit 2 1 cut 0 2 5 0.5        -> waiting
submit 4 1 cut 0 3 6 0.25       -> waiting
turn                            -> desk 4 done edges 5 6
turn                            -> desk 2 done edges 7 8
turn                            -> desk 3 done edges 9 10
turn                            -> nobody
turn                            -> nobody
submit 4 2 remove 0 6           -> waiting
submit 3 3 remove 0 5           -> waiting
turn                            -> desk 4 done edge 11
turn                            -> desk 3 done edge 12
"""),
    ("round-served-last-comes-last", "notches", """
submit 0 1 cut 0 0 3 0.5        -> waiting
turn                            -> desk 0 done edges 3 4
submit 0 2 cut 0 1 4 0.5        -> waiting
submit 5 1 cut 0 2 5 0.5        -> waiting
turn                            -> desk 5 done edges 5 6
submit 5 2 remove 0 3           -> waiting
turn                            -> desk 0 done edges 7 8
submit 0 3 remove 0 4           -> waiting
turn                            -> desk 5 done edge 9
turn                            -> desk 0 done edge 10
turn                            -> nobody
"""),
    ("round-alone", "notches", """
submit 6 1 cut 0 0 3 0.5        -> waiting
turn                            -> desk 6 done edges 3 4
submit 6 2 remove 0 3           -> waiting
turn                            -> desk 6 done edge 5
submit 6 3 cut 0 5 3 0.5        -> waiting
turn                            -> desk 6 done edges 6 7
turn                            -> nobody
"""),
    ("round-from-7-to-0", "notches", """
submit 7 1 cut 0 0 3 0.5        -> waiting
turn                            -> desk 7 done edges 3 4
submit 7 2 cut 0 1 4 0.5        -> waiting
submit 0 1 cut 0 2 5 0.5        -> waiting
turn                            -> desk 0 done edges 5 6
turn                            -> desk 7 done edges 7 8
submit 6 1 remove 0 3           -> waiting
submit 7 3 remove 0 4           -> waiting
turn                            -> desk 6 done edge 9
turn                            -> desk 7 done edge 10
"""),
    # Each desk submits again when it was served; desk 0 is served in the eighth turn.
    ("round-within-eight-turns", "notches", """
submit 0 1 cut 0 0 3 0.5        -> waiting
turn                            -> desk 0 done edges 3 4
submit 0 2 remove 0 3           -> waiting
submit 1 1 cut 9 0 3 0.5        -> waiting
submit 2 1 cut 0 9 3 0.5        -> waiting
turn                            -> desk 1 refused 3
submit 1 2 cut 9 0 3 0.5        -> waiting
turn                            -> desk 2 refused 3
submit 2 2 cut 0 9 3 0.5        -> waiting
submit 3 1 cut 0 0 12 0.5       -> waiting
submit 4 1 cut 0 0 3 0.5        -> waiting
turn                            -> desk 3 refused 3
submit 3 2 cut 0 0 12 0.5       -> waiting
turn                            -> desk 4 refused 14
submit 4 2 cut 0 0 3 0.5        -> waiting
submit 5 1 cut 0 0 4 0.5        -> waiting
submit 6 1 cut 0 3 4 0.5        -> waiting
submit 7 1 remove 0 11          -> waiting
turn                            -> desk 5 refused 15
submit 5 2 cut 0 0 4 0.5        -> waiting
turn                            -> desk 6 refused 16
submit 6 2 cut 0 3 4 0.5        -> waiting
turn                            -> desk 7 refused 23
submit 7 2 remove 0 11          -> waiting
turn                            -> desk 0 done edge 5
submit 0 3 cut 0 5 3 0.5        -> waiting
turn                            -> desk 1 refused 3
turn                            -> desk 2 refused 3
turn                            -> desk 3 refused 3
turn                            -> desk 4 refused 15
turn                            -> desk 5 refused 15
turn                            -> desk 6 refused 15
turn                            -> desk 7 refused 23
turn                            -> desk 0 done edges 6 7
turn                            -> nobody
"""),
    # What is answered without a turn does not move the round.
    ("round-submissions-do-not-move-it", "notches", """
submit 1 1 cut 0 0 3 0.5        -> waiting
turn                            -> desk 1 done edges 3 4
submit 2 1 cut 0 1 4 0.5        -> waiting
submit 3 1 cut 0 2 5 0.5        -> waiting
submit 1 2 remove 0 3           -> waiting
submit 1 1 cut 0 0 3 0.5        -> held done edges 3 4
submit 3 1 cut 0 2 5 0.5        -> waiting
submit 2 2 cut 0 1 4 0.5        -> refused 34
submit 3 1 cut 0 2 5 0.25       -> refused 33
submit 8 1 cut 0 2 5 0.25       -> refused 3
turn                            -> desk 2 done edges 5 6
submit 2 1 cut 0 1 4 0.5        -> held done edges 5 6
turn                            -> desk 3 done edges 7 8
turn                            -> desk 1 done edge 9
turn                            -> nobody
"""),
    ("round-held-answers-do-not-move-it", "notches", """
submit 7 1 cut 0 0 3 0.5        -> waiting
turn                            -> desk 7 done edges 3 4
submit 3 1 cut 0 1 4 0.5        -> waiting
turn                            -> desk 3 done edges 5 6
submit 1 1 cut 0 2 5 0.5        -> waiting
submit 5 1 remove 0 3           -> waiting
submit 7 1 cut 0 0 3 0.5        -> held done edges 3 4
turn                            -> desk 5 done edge 7
turn                            -> desk 1 done edges 8 9
"""),
    # ---- a job that is sent again
    ("resent-while-it-waits", "notches", """
submit 2 7 cut 0 0 3 0.5        -> waiting
submit 2 7 cut 0 0 3 0.5        -> waiting
submit 2 7 cut 0 0 3 0.5        -> waiting
turn                            -> desk 2 done edges 3 4
turn                            -> nobody
submit 2 8 cut 0 3 4 0.25       -> waiting
turn                            -> desk 2 done edges 5 6
turn                            -> nobody
"""),
    ("resent-after-it-was-served", "notches", """
submit 2 7 cut 0 0 3 0.5        -> waiting
turn                            -> desk 2 done edges 3 4
submit 2 7 cut 0 0 3 0.5        -> held done edges 3 4
submit 2 7 cut 0 0 3 0.5        -> held done edges 3 4
turn                            -> nobody
submit 2 7 cut 0 0 3 0.5        -> held done edges 3 4
turn                            -> nobody
submit 4 1 cut 0 1 4 0.5        -> waiting
turn                            -> desk 4 done edges 5 6
submit 2 7 cut 0 0 3 0.5        -> held done edges 3 4
"""),
    ("resent-removal", "notches", """
submit 3 7 cut 0 0 3 0.5        -> waiting
turn                            -> desk 3 done edges 3 4
submit 3 8 remove 0 3           -> waiting
submit 3 8 remove 0 3           -> waiting
turn                            -> desk 3 done edge 5
submit 3 8 remove 0 3           -> held done edge 5
turn                            -> nobody
submit 3 8 remove 0 3           -> held done edge 5
"""),
    ("resent-while-another-waits", "notches", """
submit 2 7 cut 0 0 3 0.5        -> waiting
turn                            -> desk 2 done edges 3 4
submit 2 8 cut 0 1 4 0.5        -> waiting
submit 2 7 cut 0 0 3 0.5        -> held done edges 3 4
submit 2 8 cut 0 1 4 0.5        -> waiting
submit 2 7 cut 0 0 3 0.5        -> held done edges 3 4
submit 2 9 cut 0 2 5 0.5        -> refused 34
turn                            -> desk 2 done edges 5 6
submit 2 8 cut 0 1 4 0.5        -> held done edges 5 6
turn                            -> nobody
"""),
    # A refusal is not put in the place of what waits or is held.
    ("resent-after-refusals", "notches", """
submit 2 7 cut 0 0 3 0.5        -> waiting
submit 2 7 cut 0 0 4 0.5        -> refused 33
submit 2 8 cut 0 0 5 0.5        -> refused 34
submit 2 7 cut 0 0 3 0.5        -> waiting
turn                            -> desk 2 done edges 3 4
submit 2 7 cut 0 0 4 0.5        -> refused 33
submit 2 7 cut 0 0 3 0.5        -> held done edges 3 4
submit 2 8 cut 0 3 4 0.25       -> waiting
submit 2 7 cut 0 0 4 0.5        -> refused 33
submit 2 8 cut 0 0 4 0.5        -> refused 33
submit 2 9 cut 0 0 4 0.5        -> refused 34
submit 2 7 cut 0 0 3 0.5        -> held done edges 3 4
submit 2 8 cut 0 3 4 0.25       -> waiting
turn                            -> desk 2 done edges 5 6
turn                            -> nobody
"""),
    # Only the last served job is held.
    ("older-key-is-a-new-job", "notches", """
submit 2 7 cut 0 0 3 0.5        -> waiting
turn                            -> desk 2 done edges 3 4
submit 2 8 cut 0 1 4 0.5        -> waiting
turn                            -> desk 2 done edges 5 6
submit 2 7 cut 0 0 3 0.5        -> waiting
submit 2 8 cut 0 1 4 0.5        -> held done edges 5 6
turn                            -> desk 2 refused 14
submit 2 7 cut 0 0 3 0.5        -> held refused 14
submit 2 8 cut 0 1 4 0.5        -> waiting
turn                            -> desk 2 refused 14
submit 2 8 cut 0 1 4 0.5        -> held refused 14
"""),
    # Under an older key another job is no different job: the key is not held any more.
    ("older-key-with-another-job", "notches", """
submit 2 7 cut 0 0 3 0.5        -> waiting
turn                            -> desk 2 done edges 3 4
submit 2 8 cut 0 1 4 0.5        -> waiting
submit 2 7 cut 0 2 5 0.5        -> refused 33
turn                            -> desk 2 done edges 5 6
submit 2 7 cut 0 2 5 0.5        -> waiting
turn                            -> desk 2 done edges 7 8
submit 2 7 cut 0 2 5 0.5        -> held done edges 7 8
submit 2 7 cut 0 0 3 0.5        -> refused 33
"""),
    # The held job is still held while an older key waits, and until another was served.
    ("older-key-removal-done-twice", "notches", """
submit 2 1 cut 0 0 3 0.5        -> waiting
turn                            -> desk 2 done edges 3 4
submit 2 2 remove 0 3           -> waiting
turn                            -> desk 2 done edge 5
submit 2 3 cut 0 5 3 0.5        -> waiting
turn                            -> desk 2 done edges 6 7
submit 2 2 remove 0 3           -> waiting
submit 2 3 cut 0 5 3 0.5        -> held done edges 6 7
turn                            -> desk 2 done edge 8
submit 2 2 remove 0 3           -> held done edge 8
"""),
    ("another-key-before-and-after", "notches", """
submit 2 7 cut 0 0 3 0.5        -> waiting
submit 2 8 cut 0 0 3 0.5        -> refused 34
turn                            -> desk 2 done edges 3 4
turn                            -> nobody
submit 2 8 cut 0 0 3 0.5        -> waiting
submit 2 7 cut 0 0 3 0.5        -> held done edges 3 4
turn                            -> desk 2 refused 14
submit 2 8 cut 0 0 3 0.5        -> held refused 14
submit 2 7 cut 0 0 3 0.5        -> waiting
"""),
    ("another-key-removal", "notches", """
submit 2 7 cut 0 0 3 0.5        -> waiting
turn                            -> desk 2 done edges 3 4
submit 2 8 remove 0 3           -> waiting
submit 2 9 remove 0 3           -> refused 34
turn                            -> desk 2 done edge 5
submit 2 9 remove 0 3           -> waiting
turn                            -> desk 2 refused 23
submit 2 9 remove 0 3           -> held refused 23
"""),
    ("same-key-at-other-desks", "notches", """
submit 1 7 cut 0 0 3 0.5        -> waiting
submit 2 7 cut 0 0 3 0.5        -> waiting
submit 3 7 cut 0 1 4 0.5        -> waiting
turn                            -> desk 1 done edges 3 4
submit 4 7 cut 0 0 3 0.5        -> waiting
submit 0 7 cut 0 2 5 0.5        -> waiting
submit 2 7 cut 0 0 3 0.5        -> waiting
turn                            -> desk 2 refused 14
turn                            -> desk 3 done edges 5 6
turn                            -> desk 4 refused 14
turn                            -> desk 0 done edges 7 8
submit 1 7 cut 0 0 3 0.5        -> held done edges 3 4
submit 2 7 cut 0 0 3 0.5        -> held refused 14
submit 3 7 cut 0 1 4 0.5        -> held done edges 5 6
submit 4 7 cut 0 0 3 0.5        -> held refused 14
submit 0 7 cut 0 2 5 0.5        -> held done edges 7 8
submit 3 7 cut 0 0 3 0.5        -> refused 33
submit 5 7 cut 0 0 3 0.5        -> waiting
submit 6 7 cut 0 2 5 0.5        -> waiting
turn                            -> desk 5 refused 14
turn                            -> desk 6 refused 14
"""),
    # ---- the checks, and which comes first
    ("3-desks-above-7", "notches", """
submit 7 1 remove 0 3           -> waiting
submit 8 1 remove 0 3           -> refused 3
submit 9 1 remove 0 3           -> refused 3
submit 10 1 cut 0 0 3 0.5       -> refused 3
submit 15 1 cut 0 0 3 0.5       -> refused 3
submit 16 1 cut 0 0 3 0.5       -> refused 3
submit 64 1 cut 0 0 3 0.5       -> refused 3
submit 255 1 cut 0 0 3 0.5      -> refused 3
submit 256 1 cut 0 0 3 0.5      -> refused 3
submit 65535 1 cut 0 0 3 0.5    -> refused 3
submit 65536 1 cut 0 0 3 0.5    -> refused 3
submit 16777216 1 cut 0 0 3 0.5 -> refused 3
submit 999999999 1 remove 0 3   -> refused 3
turn                            -> desk 7 refused 23
turn                            -> nobody
"""),
    # Desk 8 is not desk 0, nor is 15 desk 7.
    ("3-before-33-and-34", "notches", """
submit 0 7 cut 0 0 3 0.5        -> waiting
submit 7 7 cut 0 1 4 0.5        -> waiting
submit 8 7 cut 0 0 3 0.5        -> refused 3
submit 8 7 cut 0 0 4 0.5        -> refused 3
submit 8 8 cut 0 0 3 0.5        -> refused 3
submit 15 7 cut 0 0 4 0.5       -> refused 3
turn                            -> desk 0 done edges 3 4
submit 8 7 cut 0 0 3 0.5        -> refused 3
submit 8 7 cut 0 0 4 0.5        -> refused 3
submit 0 8 cut 0 3 5 0.25       -> waiting
submit 8 7 cut 0 0 3 0.5        -> refused 3
submit 8 9 cut 0 0 3 0.5        -> refused 3
turn                            -> desk 7 done edges 5 6
turn                            -> desk 0 done edges 7 8
turn                            -> nobody
"""),
    ("33-against-what-waits", "notches", """
submit 5 7 cut 0 0 3 0.5        -> waiting
submit 5 7 cut 1 0 3 0.5        -> refused 33
submit 5 7 cut 0 1 3 0.5        -> refused 33
submit 5 7 cut 0 0 4 0.5        -> refused 33
submit 5 7 cut 0 0 3 0.25       -> refused 33
submit 5 7 cut 0 0 3 -0.5       -> refused 33
submit 5 7 cut 0 0 3 nowhere    -> refused 33
submit 5 7 remove 0 3           -> refused 33
submit 5 7 remove 0 0           -> refused 33
submit 5 7 cut 0 0 3 0.5        -> waiting
turn                            -> desk 5 done edges 3 4
submit 5 8 remove 0 3           -> waiting
submit 5 8 remove 1 3           -> refused 33
submit 5 8 remove 0 4           -> refused 33
submit 5 8 cut 0 3 0 0          -> refused 33
submit 5 8 cut 0 0 3 0.5        -> refused 33
submit 5 8 remove 0 3           -> waiting
turn                            -> desk 5 done edge 5
"""),
    ("33-against-what-is-held", "notches", """
submit 5 7 cut 0 0 3 0.5        -> waiting
turn                            -> desk 5 done edges 3 4
submit 5 7 cut 1 0 3 0.5        -> refused 33
submit 5 7 cut 0 1 3 0.5        -> refused 33
submit 5 7 cut 0 0 4 0.5        -> refused 33
submit 5 7 cut 0 0 3 0.25       -> refused 33
submit 5 7 cut 0 0 3 -0.5       -> refused 33
submit 5 7 cut 0 0 3 nowhere    -> refused 33
submit 5 7 remove 0 3           -> refused 33
submit 5 7 remove 0 0           -> refused 33
turn                            -> nobody
submit 5 7 cut 0 0 3 0.5        -> held done edges 3 4
submit 5 8 remove 0 3           -> waiting
turn                            -> desk 5 done edge 5
submit 5 8 remove 1 3           -> refused 33
submit 5 8 remove 0 4           -> refused 33
submit 5 8 cut 0 3 0 0          -> refused 33
submit 5 8 cut 0 0 3 0.5        -> refused 33
turn                            -> nobody
submit 5 8 remove 0 3           -> held done edge 5
"""),
    ("33-before-34", "notches", """
submit 5 7 cut 0 0 3 0.5        -> waiting
submit 5 7 cut 0 1 4 0.5        -> refused 33
submit 5 8 cut 0 1 4 0.5        -> refused 34
turn                            -> desk 5 done edges 3 4
submit 5 8 cut 0 1 4 0.5        -> waiting
submit 5 7 cut 0 1 4 0.5        -> refused 33
submit 5 8 cut 0 0 3 0.5        -> refused 33
submit 5 7 remove 0 3           -> refused 33
submit 5 9 cut 0 0 3 0.5        -> refused 34
submit 5 9 cut 0 1 4 0.5        -> refused 34
submit 5 9 remove 0 3           -> refused 34
submit 5 7 cut 0 0 3 0.5        -> held done edges 3 4
turn                            -> desk 5 done edges 5 6
turn                            -> nobody
"""),
    # A key that was refused is neither held nor waiting.
    ("33-and-34-keep-nothing", "notches", """
submit 5 7 cut 0 0 3 0.5        -> waiting
submit 5 8 cut 0 1 4 0.5        -> refused 34
turn                            -> desk 5 done edges 3 4
turn                            -> nobody
submit 5 8 cut 0 2 5 0.5        -> waiting
turn                            -> desk 5 done edges 5 6
turn                            -> nobody
submit 5 8 cut 0 1 4 0.5        -> refused 33
turn                            -> nobody
submit 5 9 cut 0 1 4 0.5        -> waiting
turn                            -> desk 5 done edges 7 8
"""),
    # ---- refusals are held
    ("refusals-held", "notches", """
submit 0 1 cut 1 0 3 0.5        -> waiting
submit 1 1 cut 0 0 2 0.5        -> waiting
submit 2 1 cut 0 0 3 0.0000009  -> waiting
submit 3 1 remove 0 11          -> waiting
submit 4 1 cut 0 3 3 0.5        -> waiting
turn                            -> desk 0 refused 3
turn                            -> desk 1 refused 14
turn                            -> desk 2 refused 16
turn                            -> desk 3 refused 23
turn                            -> desk 4 refused 3
submit 0 1 cut 1 0 3 0.5        -> held refused 3
submit 1 1 cut 0 0 2 0.5        -> held refused 14
submit 2 1 cut 0 0 3 0.0000009  -> held refused 16
submit 3 1 remove 0 11          -> held refused 23
submit 4 1 cut 0 3 3 0.5        -> held refused 3
turn                            -> nobody
submit 0 1 cut 1 0 4 0.5        -> refused 33
"""),
    # Each would be done now, or be refused otherwise.
    ("refusals-held-though-they-would-be-done", "notches", """
submit 1 7 remove 0 3           -> waiting
submit 3 7 cut 0 3 4 0.25       -> waiting
turn                            -> desk 1 refused 23
turn                            -> desk 3 refused 3
submit 2 7 cut 0 0 3 0.5        -> waiting
turn                            -> desk 2 done edges 3 4
submit 3 7 cut 0 3 4 0.25       -> held refused 3
submit 1 7 remove 0 3           -> held refused 23
turn                            -> nobody
submit 3 8 cut 0 3 4 0.25       -> waiting
submit 1 8 remove 0 3           -> waiting
submit 1 7 remove 0 3           -> held refused 23
turn                            -> desk 3 done edges 5 6
turn                            -> desk 1 done edge 7
submit 3 8 cut 0 3 4 0.25       -> held done edges 5 6
submit 1 8 remove 0 3           -> held done edge 7
"""),
    # From 2 over 0 to 1, then from 2 over 1 to 2.
    ("refusals-held-25", "notches", """
submit 0 1 remove 0 0           -> waiting
submit 1 1 remove 0 1           -> waiting
turn                            -> desk 0 done edge 3
turn                            -> desk 1 refused 25
submit 1 1 remove 0 1           -> held refused 25
submit 0 1 remove 0 0           -> held done edge 3
submit 0 2 remove 0 0           -> waiting
turn                            -> desk 0 refused 23
"""),
    ("refusals-held-27", "shared", """
submit 0 1 cut 0 0 3 0.5        -> waiting
submit 1 1 cut 1 0 3 0.5        -> waiting
submit 2 1 remove 1 0           -> waiting
submit 3 1 cut 2 0 3 0.5        -> waiting
turn                            -> desk 0 refused 27
turn                            -> desk 1 refused 27
turn                            -> desk 2 refused 27
turn                            -> desk 3 refused 3
submit 0 1 cut 0 0 3 0.5        -> held refused 27
submit 1 1 cut 0 0 3 0.5        -> refused 33
submit 2 1 remove 1 0           -> held refused 27
"""),
    # The 17 of the edge table is an answer like any other.
    ("refusals-held-17", "full", """
submit 4 1 cut 0 0 3 0.5        -> waiting
submit 5 1 remove 0 0           -> waiting
submit 6 1 remove 0 1           -> waiting
turn                            -> desk 4 refused 17
submit 4 1 cut 0 0 3 0.5        -> held refused 17
turn                            -> desk 5 done edge 1023
turn                            -> desk 6 refused 25
submit 4 1 cut 0 0 3 0.5        -> held refused 17
submit 5 1 remove 0 0           -> held done edge 1023
"""),
    # Three wires end at each point.
    ("refusals-held-23", "tetrahedron", """
submit 0 1 remove 0 3           -> waiting
turn                            -> desk 0 refused 23
submit 0 1 remove 0 3           -> held refused 23
submit 0 2 cut 0 0 3 0.5        -> waiting
turn                            -> desk 0 refused 14
"""),
    ("refusals-held-without-shells", "bare", """
submit 0 0 remove 0 0           -> waiting
turn                            -> desk 0 refused 3
submit 0 0 remove 0 0           -> held refused 3
"""),
    # ---- a file that the reading checks refuse
    ("file-of-55-bytes", "short", """
submit 2 7 cut 0 0 3 0.5        -> waiting
submit 2 7 cut 0 0 3 0.5        -> waiting
submit 2 7 cut 0 0 4 0.5        -> refused 33
submit 2 8 cut 0 0 3 0.5        -> refused 34
submit 8 7 cut 0 0 3 0.5        -> refused 3
submit 0 7 remove 99999 99999   -> waiting
turn                            -> desk 0 refused 1 body 0 record 0
turn                            -> desk 2 refused 1 body 0 record 0
turn                            -> nobody
submit 2 8 remove 0 3           -> waiting
submit 2 7 cut 0 0 3 0.5        -> held refused 1 body 0 record 0
submit 0 7 remove 99999 99999   -> held refused 1 body 0 record 0
turn                            -> desk 2 refused 1 body 0 record 0
submit 2 7 cut 0 0 3 0.5        -> waiting
submit 2 8 remove 0 3           -> held refused 1 body 0 record 0
"""),
    ("file-of-no-bytes", "nothing", """
turn                            -> nobody
submit 7 1 remove 0 3           -> waiting
turn                            -> desk 7 refused 1 body 0 record 0
submit 7 1 remove 0 3           -> held refused 1 body 0 record 0
submit 7 1 remove 0 4           -> refused 33
turn                            -> nobody
"""),
    ("file-with-same-ends", "same-ends", """
submit 7 1 remove 0 3           -> waiting
turn                            -> desk 7 refused 5 body 1 record 1
submit 7 2 cut 0 0 3 0.5        -> waiting
submit 7 1 remove 0 3           -> held refused 5 body 1 record 1
turn                            -> desk 7 refused 5 body 1 record 1
submit 7 2 cut 0 0 3 0.5        -> held refused 5 body 1 record 1
"""),
    # Its wire is 0+ 1+.
    ("file-with-an-open-wire", "open-wire", """
submit 6 1 remove 0 3           -> waiting
turn                            -> desk 6 refused 7 body 3 record 0
submit 6 1 remove 0 3           -> held refused 7 body 3 record 0
"""),
    # ---- keys
    # A new clerk holds nothing, not even key 0 with a job of noughts.
    ("key-0-in-a-new-clerk", "notches", """
submit 0 0 cut 0 0 0 0          -> waiting
submit 1 0 remove 0 0           -> waiting
submit 2 0 cut 0 0 0 nowhere    -> waiting
submit 3 0 cut 0 0 3 0.5        -> waiting
submit 0 0 cut 0 0 0 0          -> waiting
submit 1 0 remove 0 0           -> waiting
submit 0 0 remove 0 0           -> refused 33
submit 1 0 cut 0 0 0 0          -> refused 33
turn                            -> desk 0 refused 14
turn                            -> desk 1 done edge 3
turn                            -> desk 2 refused 15
turn                            -> desk 3 refused 15
submit 0 0 cut 0 0 0 0          -> held refused 14
submit 1 0 remove 0 0           -> held done edge 3
submit 2 0 cut 0 0 0 nowhere    -> held refused 15
submit 4 0 remove 0 0           -> waiting
submit 7 0 cut 0 0 0 0          -> waiting
turn                            -> desk 4 refused 23
turn                            -> desk 7 refused 15
"""),
    ("keys-of-32-bits", "notches", """
submit 0 4294967295 cut 0 0 3 0.5 -> waiting
submit 0 4294967295 cut 0 0 3 0.5 -> waiting
submit 0 4294967294 cut 0 0 3 0.5 -> refused 34
submit 0 2147483647 cut 0 0 3 0.5 -> refused 34
submit 0 65535 cut 0 0 3 0.5    -> refused 34
submit 0 4294967295 cut 0 0 4 0.5 -> refused 33
turn                            -> desk 0 done edges 3 4
submit 0 4294967295 cut 0 0 3 0.5 -> held done edges 3 4
submit 0 2147483647 cut 0 0 3 0.5 -> waiting
submit 0 4294967295 cut 0 0 3 0.5 -> held done edges 3 4
turn                            -> desk 0 refused 14
submit 0 2147483647 cut 0 0 3 0.5 -> held refused 14
submit 1 0 cut 0 1 4 0.5        -> waiting
turn                            -> desk 1 done edges 5 6
submit 1 65536 cut 0 1 4 0.5    -> waiting
submit 1 0 cut 0 1 4 0.5        -> held done edges 5 6
submit 1 2147483648 cut 0 1 4 0.5 -> refused 34
turn                            -> desk 1 refused 14
"""),
    ("keys-in-other-writing", "notches", """
submit 0 7 cut 0 0 3 0.5        -> waiting
submit 0 07 cut 00 000 0003 0.5 -> waiting
submit 000000000 0000000007 cut 0 0 3 0.5 -> waiting
submit 0 0000000007 cut 0 0 4 0.5 -> refused 33
submit 0 0000000008 cut 0 0 3 0.5 -> refused 34
turn                            -> desk 0 done edges 3 4
submit 00 0000000007 cut 000000000 000000000 000000003 0.5 -> held done edges 3 4
submit 000000008 7 cut 0 0 3 0.5 -> refused 3
"""),
    # ---- jobs are compared as they were given
    ("parameters-of-the-same-bits", "notches", """
submit 0 7 cut 0 0 3 0.5        -> waiting
submit 0 7 cut 0 0 3 0.50       -> waiting
submit 0 7 cut 0 0 3 00.5       -> waiting
submit 0 7 cut 0 0 3 0x3fe0000000000000 -> waiting
submit 0 7 cut 0 0 3 0x3FE0000000000000 -> waiting
submit 0 7 cut 0 0 3 0x3fe0000000000001 -> refused 33
submit 0 7 cut 0 0 3 0x3fdfffffffffffff -> refused 33
submit 0 7 cut 0 0 3 0x00000000 -> no job: word 8 of submit DESK KEY cut SHELL EDGE POINT PARAMETER
turn                            -> desk 0 done edges 3 4
submit 0 7 cut 0 0 3 0x3fe0000000000000 -> held done edges 3 4
submit 0 7 cut 0 0 3 0.500000000000000 -> no job: word 8 of submit DESK KEY cut SHELL EDGE POINT PARAMETER
submit 0 7 cut 0 0 3 0.50000000000000 -> held done edges 3 4
submit 0 7 cut 0 0 3 0xbfe0000000000000 -> refused 33
submit 0 7 cut 0 0 3 0x3fe0000100000000 -> refused 33
submit 0 7 cut 0 0 3 0x000000003fe00000 -> refused 33
"""),
    # On the span from -1 to 1 both are done.
    ("parameters-signs-of-zero", "notches", """
submit 0 7 cut 0 1 3 0          -> waiting
submit 0 7 cut 0 1 3 -0         -> refused 33
submit 0 7 cut 0 1 3 -0.0       -> refused 33
submit 0 7 cut 0 1 3 0x8000000000000000 -> refused 33
submit 0 7 cut 0 1 3 0.0        -> waiting
submit 0 7 cut 0 1 3 0x0000000000000000 -> waiting
submit 0 7 cut 0 1 3 0x0000000000000001 -> refused 33
submit 0 8 cut 0 1 3 -0         -> refused 34
turn                            -> desk 0 done edges 3 4
submit 0 7 cut 0 1 3 -0         -> refused 33
submit 0 7 cut 0 1 3 0.000      -> held done edges 3 4
submit 1 7 cut 0 0 4 -0.0       -> waiting
submit 1 7 cut 0 0 4 0          -> refused 33
submit 1 7 cut 0 0 4 0x8000000000000000 -> waiting
turn                            -> desk 1 refused 16
submit 1 7 cut 0 0 4 0.0        -> refused 33
submit 1 7 cut 0 0 4 -0         -> held refused 16
submit 2 7 cut 0 4 5 0x8000000000000000 -> waiting
turn                            -> desk 2 refused 16
submit 3 7 cut 0 2 5 0.25       -> waiting
turn                            -> desk 3 done edges 5 6
"""),
    ("parameters-minus-zero-cuts", "notches", """
submit 0 7 cut 0 1 3 -0.0       -> waiting
turn                            -> desk 0 done edges 3 4
submit 0 7 cut 0 1 3 0.0        -> refused 33
submit 0 7 cut 0 1 3 -0.0       -> held done edges 3 4
submit 0 7 cut 0 1 3 0x8000000000000000 -> held done edges 3 4
"""),
    # A NaN is unequal to itself, but not its bits.
    ("parameters-not-a-number", "notches", """
submit 0 7 cut 0 0 3 0x7ff8000000000001 -> waiting
submit 0 7 cut 0 0 3 0x7ff8000000000001 -> waiting
submit 0 7 cut 0 0 3 0x7ff8000000000002 -> refused 33
submit 0 7 cut 0 0 3 0x7ff8000000000000 -> refused 33
submit 0 7 cut 0 0 3 0xfff8000000000001 -> refused 33
submit 0 7 cut 0 0 3 0x7ff0000000000001 -> refused 33
submit 0 7 cut 0 0 3 0x7ff0000000000000 -> refused 33
submit 0 7 cut 0 0 3 nowhere    -> refused 33
turn                            -> desk 0 refused 16
submit 0 7 cut 0 0 3 0x7ff8000000000001 -> held refused 16
submit 0 7 cut 0 0 3 0x7FF8000000000001 -> held refused 16
submit 0 7 cut 0 0 3 0x7ff8000000000002 -> refused 33
submit 0 7 cut 0 0 3 0x7ff0000000000001 -> refused 33
submit 0 7 cut 0 0 3 0xfff8000000000001 -> refused 33
submit 0 7 cut 0 0 3 nowhere    -> refused 33
turn                            -> nobody
submit 0 8 cut 0 0 3 0xffffffffffffffff -> waiting
submit 0 8 cut 0 0 3 0xfffffffffffffffe -> refused 33
turn                            -> desk 0 refused 16
submit 0 8 cut 0 0 3 0xffffffffffffffff -> held refused 16
"""),
    ("parameters-nowhere", "notches", """
submit 0 7 cut 0 0 3 nowhere    -> waiting
submit 0 7 cut 0 0 3 nowhere    -> waiting
submit 0 7 cut 0 0 3 0x7ff8000000000000 -> refused 33
submit 0 7 cut 0 0 3 0x7ff8000000000001 -> refused 33
submit 0 7 cut 0 0 3 0          -> refused 33
submit 0 7 cut 0 0 3 0xffffffffffffffff -> refused 33
turn                            -> desk 0 refused 16
submit 0 7 cut 0 0 3 nowhere    -> held refused 16
submit 0 7 cut 0 0 3 0x7ff8000000000000 -> refused 33
submit 0 7 cut 0 0 3 0          -> refused 33
submit 1 7 cut 0 0 3 0x7ff8000000000000 -> waiting
submit 1 7 cut 0 0 3 nowhere    -> refused 33
turn                            -> desk 1 refused 16
submit 1 7 cut 0 0 3 nowhere    -> refused 33
submit 1 7 cut 0 0 3 0x7ff8000000000000 -> held refused 16
submit 2 7 cut 0 0 3 0          -> waiting
submit 2 7 cut 0 0 3 nowhere    -> refused 33
turn                            -> desk 2 refused 16
submit 2 7 cut 0 0 3 nowhere    -> refused 33
"""),
    ("parameters-infinite", "notches", """
submit 0 7 cut 0 0 3 0x7ff0000000000000 -> waiting
submit 0 7 cut 0 0 3 0xfff0000000000000 -> refused 33
turn                            -> desk 0 refused 16
submit 0 7 cut 0 0 3 0xfff0000000000000 -> refused 33
submit 0 7 cut 0 0 3 0x7ff0000000000000 -> held refused 16
"""),
    # No pattern has them, and they are not taken for one another, nor for smaller ones.
    ("numbers-above-65535", "notches", """
submit 0 7 cut 70000 0 3 0.5    -> waiting
submit 0 7 cut 70000 0 3 0.5    -> waiting
submit 0 7 cut 70001 0 3 0.5    -> refused 33
submit 0 7 cut 65535 0 3 0.5    -> refused 33
submit 0 7 cut 4464 0 3 0.5     -> refused 33
turn                            -> desk 0 refused 3
submit 0 7 cut 70001 0 3 0.5    -> refused 33
submit 0 7 cut 70000 0 3 0.5    -> held refused 3
submit 1 7 cut 0 0 3 0.5        -> waiting
submit 1 7 cut 65536 0 3 0.5    -> refused 33
submit 1 7 cut 0 65536 3 0.5    -> refused 33
submit 1 7 cut 0 32768 3 0.5    -> refused 33
submit 1 7 cut 0 0 65539 0.5    -> refused 33
turn                            -> desk 1 done edges 3 4
submit 1 7 cut 65536 0 3 0.5    -> refused 33
submit 1 7 cut 0 65536 3 0.5    -> refused 33
submit 1 7 cut 0 32768 3 0.5    -> refused 33
submit 1 7 cut 0 0 65539 0.5    -> refused 33
submit 2 7 cut 0 999999999 4 0.5 -> waiting
submit 2 7 cut 0 999999998 4 0.5 -> refused 33
submit 2 7 cut 0 65535 4 0.5    -> refused 33
turn                            -> desk 2 refused 3
submit 2 7 cut 0 999999999 4 0.5 -> held refused 3
submit 2 7 cut 0 999999998 4 0.5 -> refused 33
"""),
    ("numbers-above-65535-removal", "notches", """
submit 0 7 remove 0 999999999   -> waiting
submit 0 7 remove 0 999999998   -> refused 33
submit 0 7 remove 999999999 0   -> refused 33
submit 0 7 remove 0 65535       -> refused 33
turn                            -> desk 0 refused 3
submit 0 7 remove 0 999999998   -> refused 33
submit 0 7 remove 0 999999999   -> held refused 3
submit 1 7 remove 0 11          -> waiting
submit 1 7 remove 0 65547       -> refused 33
submit 1 7 remove 65536 11      -> refused 33
turn                            -> desk 1 refused 23
submit 1 7 remove 0 65547       -> refused 33
submit 1 7 remove 0 11          -> held refused 23
submit 2 7 remove 65536 65536   -> waiting
submit 2 7 remove 65536 65537   -> refused 33
submit 2 7 remove 65537 65536   -> refused 33
turn                            -> desk 2 refused 3
"""),
    # Shell, edge and point are not looked at before the turn, and the parts of a job are not exchanged.
    ("numbers-in-their-places", "notches", """
submit 0 7 cut 0 1 3 0.5        -> waiting
submit 0 7 cut 1 0 3 0.5        -> refused 33
submit 0 7 cut 0 3 1 0.5        -> refused 33
submit 0 7 cut 3 1 0 0.5        -> refused 33
submit 1 7 remove 0 1           -> waiting
submit 1 7 remove 1 0           -> refused 33
submit 2 7 cut 99 0 3 0.5       -> waiting
submit 3 7 cut 0 99 3 0.5       -> waiting
submit 4 7 cut 0 0 99 0.5       -> waiting
submit 5 7 remove 99 0          -> waiting
submit 6 7 remove 0 99          -> waiting
turn                            -> desk 0 done edges 3 4
turn                            -> desk 1 done edge 5
turn                            -> desk 2 refused 3
turn                            -> desk 3 refused 3
turn                            -> desk 4 refused 3
turn                            -> desk 5 refused 3
turn                            -> desk 6 refused 3
"""),
    ("cut-and-removal-differ", "notches", """
submit 0 7 remove 0 0           -> waiting
submit 0 7 cut 0 0 0 0          -> refused 33
submit 0 7 cut 0 0 0 nowhere    -> refused 33
submit 0 8 cut 0 0 0 0          -> refused 34
turn                            -> desk 0 done edge 3
submit 0 7 cut 0 0 0 0          -> refused 33
submit 0 7 cut 0 0 0 nowhere    -> refused 33
submit 0 8 cut 0 0 0 0          -> waiting
submit 0 8 remove 0 0           -> refused 33
submit 0 7 remove 0 0           -> held done edge 3
turn                            -> desk 0 refused 15
submit 0 8 remove 0 0           -> refused 33
submit 0 8 cut 0 0 0 0          -> held refused 15
submit 0 7 remove 0 0           -> waiting
turn                            -> desk 0 refused 23
"""),
    # ---- lines that are none: nothing changes
    ("lines-that-are-none", "notches", [
        ("submit 2 7 cut 0 0 3 0.5", "waiting"),
        ("", BEGIN),
        (" \t ", BEGIN),
        ("turns", BEGIN),
        ("Turn", BEGIN),
        ("tur", BEGIN),
        ("submits 0 1 remove 0 3", BEGIN),
        ("SUBMIT 0 1 remove 0 3", BEGIN),
        ("cut 0 0 3 0.5", BEGIN),
        ("remove 0 3", BEGIN),
        ("# turn", BEGIN),
        ("-> waiting", BEGIN),
        ("0", BEGIN),
        ("turn 0", wrong(2, TURN)),
        ("turn turn", wrong(2, TURN)),
        ("turn 2 3 4", wrong(2, TURN)),
        ("submit 2 7 cut 0 0 3 0.5", "waiting"),
        ("\t turn  ", "desk 2 done edges 3 4"),
        ("turn x", wrong(2, TURN)),
        ("turn", "nobody"),
        ("  submit\t2 7\tcut  0 0 3 0.5\t", "held done edges 3 4"),
    ]),
    ("lines-that-are-no-submission", "notches", [
        ("submit", wrong(2, SUBMIT)),
        ("submit x", wrong(2, SUBMIT)),
        ("submit 0", wrong(3, SUBMIT)),
        ("submit 0 x", wrong(3, SUBMIT)),
        ("submit 0 1", wrong(4, SUBMIT)),
        ("submit 0 1 x", wrong(4, SUBMIT)),
        ("submit 0 1 cuts 0 0 3 0.5", wrong(4, SUBMIT)),
        ("submit 0 1 Cut 0 0 3 0.5", wrong(4, SUBMIT)),
        ("submit 0 1 removes 0 3", wrong(4, SUBMIT)),
        ("submit 0 1 cut|remove ..", wrong(4, SUBMIT)),
        ("submit 0 1 concat 0+ 1+", wrong(4, SUBMIT)),
        ("submit 0 1 point 7", wrong(4, SUBMIT)),
        ("submit 0 1 glue 0+ 1+", wrong(4, SUBMIT)),
        ("submit 0 1 turn", wrong(4, SUBMIT)),
        ("submit 0 1 0 cut 0 0 3 0.5", wrong(4, SUBMIT)),
        ("submit x y point 7", wrong(2, SUBMIT)),
        ("submit 0 y point 7", wrong(3, SUBMIT)),
        ("submit 8 4294967296 point 7", wrong(3, SUBMIT)),
        ("submit cut 0 0 3 0.5", wrong(2, SUBMIT)),
        ("submit 0 cut 0 0 3 0.5", wrong(3, SUBMIT)),
        ("turn", "nobody"),
        ("submit 0 4294967295 cut 0 0 3 0.5", "waiting"),
        ("turn", "desk 0 done edges 3 4"),
    ]),
    ("lines-that-are-no-cut", "notches", [
        ("submit 0 1 cut", wrong(5, CUT)),
        ("submit 0 1 cut 0", wrong(6, CUT)),
        ("submit 0 1 cut 0 0", wrong(7, CUT)),
        ("submit 0 1 cut 0 0 3", wrong(8, CUT)),
        ("submit 0 1 cut 0 0 3 0.5 0", wrong(9, CUT)),
        ("submit 0 1 cut 0 0 3 0.5 again and again", wrong(9, CUT)),
        ("submit x 1 cut 0 0 3 0.5", wrong(2, CUT)),
        ("submit 0 x cut 0 0 3 0.5", wrong(3, CUT)),
        ("submit 0 1 cut x 0 3 0.5", wrong(5, CUT)),
        ("submit 0 1 cut 0 x 3 0.5", wrong(6, CUT)),
        ("submit 0 1 cut 0 0 x 0.5", wrong(7, CUT)),
        ("submit 0 1 cut 0 0 3 x", wrong(8, CUT)),
        ("submit x x cut x x x x x", wrong(2, CUT)),
        ("submit 0 x cut", wrong(3, CUT)),
        ("submit -1 1 cut 0 0 3 0.5", wrong(2, CUT)),
        ("submit +1 1 cut 0 0 3 0.5", wrong(2, CUT)),
        ("submit 0x1 1 cut 0 0 3 0.5", wrong(2, CUT)),
        ("submit 1234567890 1 cut 0 0 3 0.5", wrong(2, CUT)),
        ("submit 0000000000 1 cut 0 0 3 0.5", wrong(2, CUT)),
        ("submit 0 -1 cut 0 0 3 0.5", wrong(3, CUT)),
        ("submit 0 +1 cut 0 0 3 0.5", wrong(3, CUT)),
        ("submit 0 1.0 cut 0 0 3 0.5", wrong(3, CUT)),
        ("submit 0 0x1 cut 0 0 3 0.5", wrong(3, CUT)),
        ("submit 0 4294967296 cut 0 0 3 0.5", wrong(3, CUT)),
        ("submit 0 9999999999 cut 0 0 3 0.5", wrong(3, CUT)),
        ("submit 0 10000000000 cut 0 0 3 0.5", wrong(3, CUT)),
        ("submit 0 00000000001 cut 0 0 3 0.5", wrong(3, CUT)),
        ("submit 0 1 cut 0+ 0 3 0.5", wrong(5, CUT)),
        ("submit 0 1 cut 0 0+ 3 0.5", wrong(6, CUT)),
        ("submit 0 1 cut 0 0 3- 0.5", wrong(7, CUT)),
        ("submit 0 1 cut 1234567890 0 3 0.5", wrong(5, CUT)),
        ("submit 0 1 cut 0 1234567890 3 0.5", wrong(6, CUT)),
        ("submit 0 1 cut 0 0 1234567890 0.5", wrong(7, CUT)),
        ("submit 0 1 cut 0 0 3 1e3", wrong(8, CUT)),
        ("submit 0 1 cut 0 0 3 .5", wrong(8, CUT)),
        ("submit 0 1 cut 0 0 3 5.", wrong(8, CUT)),
        ("submit 0 1 cut 0 0 3 +0.5", wrong(8, CUT)),
        ("submit 0 1 cut 0 0 3 0.1234567890123456", wrong(8, CUT)),
        ("submit 0 1 cut 0 0 3 0x3fe000000000000", wrong(8, CUT)),
        ("submit 0 1 cut 0 0 3 0x3fe00000000000000", wrong(8, CUT)),
        ("submit 0 1 cut 0 0 3 3fe0000000000000", wrong(8, CUT)),
        ("submit 0 1 cut 0 0 3 Nowhere", wrong(8, CUT)),
        ("submit 0 1 cut 0 0 3 nan", wrong(8, CUT)),
        # The words are looked at before the desk's number.
        ("submit 8 1 cut 0 0 3", wrong(8, CUT)),
        ("turn", "nobody"),
        ("submit 0 1 cut 0 0 3 0.5", "waiting"),
        ("turn", "desk 0 done edges 3 4"),
    ]),
    ("lines-that-are-no-removal", "notches", [
        ("submit 0 1 remove", wrong(5, REMOVE)),
        ("submit 0 1 remove 0", wrong(6, REMOVE)),
        ("submit 0 1 remove 0 3 4", wrong(7, REMOVE)),
        ("submit 0 1 remove 0 3 0.5", wrong(7, REMOVE)),
        ("submit 0 1 remove 0 0 3 0.5", wrong(7, REMOVE)),
        ("submit x 1 remove 0 3", wrong(2, REMOVE)),
        ("submit 0 x remove 0 3", wrong(3, REMOVE)),
        ("submit 0 1 remove x 3", wrong(5, REMOVE)),
        ("submit 0 1 remove 0 x", wrong(6, REMOVE)),
        ("submit 0 1 remove 0 nowhere", wrong(6, REMOVE)),
        ("submit 0 1 remove 0 -3", wrong(6, REMOVE)),
        ("submit 0 1 remove 0 1234567890", wrong(6, REMOVE)),
        ("submit 0 1 remove 1234567890 3", wrong(5, REMOVE)),
        ("submit 0 4294967296 remove 0 3", wrong(3, REMOVE)),
        ("submit 1234567890 4294967296 remove 0 3", wrong(2, REMOVE)),
        ("submit 8 1 remove 0", wrong(6, REMOVE)),
        ("turn", "nobody"),
        ("submit 0 1 remove 0 11", "waiting"),
        ("turn", "desk 0 refused 23"),
    ]),
    # ---- the coat
    ("coat", "coat", """
submit 2 7 cut 0 6 35 35.5      -> waiting
submit 2 7 cut 0 6 35 35.5      -> waiting
submit 0 7 cut 0 6 35 35.5      -> waiting
turn                            -> desk 0 done edges 50 51
turn                            -> desk 2 refused 14
submit 2 7 cut 0 6 35 35.5      -> held refused 14
submit 0 7 cut 0 6 35 35.5      -> held done edges 50 51
submit 0 8 remove 0 35          -> waiting
submit 1 8 remove 0 35          -> waiting
turn                            -> desk 0 done edge 52
submit 0 7 cut 0 6 35 35.5      -> waiting
submit 0 8 remove 0 35          -> held done edge 52
turn                            -> desk 1 refused 23
submit 1 8 remove 0 35          -> held refused 23
turn                            -> desk 0 refused 15
"""),
]

# One run on the coat: the jobs that are done are those of the Rust's run in crates/edit, in its sequence.
COAT = list(rows("""
turn                            -> nobody
submit 2 7 cut 0 6 35 35.5      -> waiting
submit 2 7 cut 0 6 35 35.5      -> waiting
submit 2 7 cut 0 6 35 0x4041c00000000000 -> waiting
submit 2 7 cut 0 6 35 35.25     -> refused 33
submit 2 8 cut 0 6 35 35.5      -> refused 34
submit 8 7 cut 0 6 35 35.5      -> refused 3
submit 5 7 cut 0 6 35 35.5      -> waiting
submit 1 7 remove 0 35          -> waiting
turn                            -> desk 1 refused 23
submit 1 7 remove 0 35          -> held refused 23
turn                            -> desk 2 done edges 50 51
submit 2 7 cut 0 6 35 35.5      -> held done edges 50 51
submit 1 7 remove 0 35          -> held refused 23
submit 2 8 cut 0 6 36 0x4041c00000000000 -> waiting
submit 2 7 cut 0 6 35 35.5      -> held done edges 50 51
submit 2 7 cut 0 6 36 35.5      -> refused 33
submit 2 8 cut 0 6 35 35.5      -> refused 33
submit 2 9 cut 0 6 35 35.5      -> refused 34
turn                            -> desk 5 refused 14
turn                            -> desk 2 refused 15
turn                            -> nobody
submit 2 7 cut 0 6 35 35.5      -> waiting
submit 3 0 cut 0 50 36 nowhere  -> waiting
submit 3 0 cut 0 50 36 0x7ff8000000000000 -> refused 33
submit 4 0 cut 0 50 36 -1       -> waiting
submit 6 4294967295 cut 0 50 36 35.5 -> waiting
turn                            -> desk 3 refused 16
turn                            -> desk 4 refused 16
turn                            -> desk 6 refused 16
turn                            -> desk 2 refused 14
submit 2 7 cut 0 6 35 35.5      -> held refused 14
submit 3 0 cut 0 50 36 nowhere  -> held refused 16
submit 3 0 cut 0 50 36 0x7ff8000000000000 -> refused 33
submit 6 4294967295 cut 0 50 36 35.5 -> held refused 16
submit 0 1 cut 0 50 36 35.499999 -> waiting
submit 7 1 cut 0 0 36 0.0000009 -> waiting
turn                            -> desk 7 refused 16
turn                            -> desk 0 done edges 52 53
submit 0 1 cut 0 50 36 35.499999 -> held done edges 52 53
submit 1 2 cut 0 0 36 0.0000009 -> waiting
submit 2 2 cut 1 50 36 1        -> waiting
submit 3 2 cut 0 99 36 1        -> waiting
submit 4 2 cut 0 50 99 1        -> waiting
submit 5 2 remove 0 35          -> waiting
submit 6 2 remove 0 35          -> waiting
submit 7 2 remove 0 36          -> waiting
submit 0 2 remove 0 20          -> waiting
turn                            -> desk 1 refused 14
turn                            -> desk 2 refused 3
turn                            -> desk 3 refused 3
turn                            -> desk 4 refused 3
turn                            -> desk 5 done edge 54
turn                            -> desk 6 refused 23
turn                            -> desk 7 done edge 55
turn                            -> desk 0 refused 23
submit 0 1 cut 0 50 36 35.499999 -> waiting
submit 1 7 remove 0 35          -> waiting
submit 5 2 remove 0 35          -> held done edge 54
submit 7 2 remove 0 36          -> held done edge 55
turn                            -> desk 1 refused 23
turn                            -> desk 0 refused 15
turn                            -> nobody
submit 0 3 remove 7 20          -> waiting
submit 0 3 remove 70000 20      -> refused 33
submit 0 3 remove 7 65556       -> refused 33
""")) + [
    # Lines that are none, and words and lines as they may come.
    ("", BEGIN),
    (" \t", BEGIN),
    ("turns", BEGIN),
    ("cut 0 6 35 35.5", BEGIN),
    ("\ufeffturn", MARKED),
    ("\ufeff", MARKED),
    (" \ufeffturn", BEGIN),
    ("turn 0", wrong(2, TURN)),
    ("turn\r\r", BEGIN),
    ("\r", BEGIN),
    ("submit", wrong(2, SUBMIT)),
    ("submit\r", wrong(2, SUBMIT)),
    ("submit 0 3\r", wrong(4, SUBMIT)),
    ("submit 0 3 glue 0+ 6+", wrong(4, SUBMIT)),
    ("submit 0 3 cut\r", wrong(5, CUT)),
    ("submit 0 3 cut 0 6 35", wrong(8, CUT)),
    ("submit 0 3 cut 0 6 35 35.5 again", wrong(9, CUT)),
    ("submit 0 4294967296 cut 0 6 35 35.5", wrong(3, CUT)),
    ("submit 0 3 remove 7", wrong(6, REMOVE)),
    ("submit 0 3 remove 7 20 21", wrong(7, REMOVE)),
    ("submit 0 3 remove 7 20\r\r", wrong(6, REMOVE)),
    ("submit 0 3 remove 7 20\r", "waiting"),
    ("\tsubmit  0\t 3 remove 007 000000020 ", "waiting"),
    ("turn\r", "desk 0 refused 3"),
    (" submit 0 3 remove 7 20 ", "held refused 3"),
    ("turn ", "nobody"),
    ("submit 4294967295 3 remove 7 20", wrong(2, REMOVE)),
    ("submit 999999999 3 remove 7 20", "refused 3"),
    ("submit 0 3 remove 7 20", "held refused 3"),
]


def main():
    out = pathlib.Path(sys.argv[1]) if len(sys.argv) > 1 else ROOT / "crates"
    replay, program = out / "replay_clerk", out / "clerk"
    data = replay / "data"
    data.mkdir(parents=True, exist_ok=True)
    for old in data.iterdir():
        old.unlink()
    args, told = [], []
    for name, pattern, given in GROUPS:
        given = list(rows(given)) if isinstance(given, str) else given
        lines = "".join(line + "\n" for line, _ in given)
        names = f"{pattern}.pattern", f"{name}.clerk"
        assert re.fullmatch(r"[a-z0-9.-]{1,64}", names[1]) and names[1] not in args and len(lines) < 16384, name
        (data / names[0]).write_bytes(PATTERNS[pattern])
        (data / names[1]).write_text(lines)
        args += names
        told += [f"file {names[0]}", *(text for row in given for text in row)]
    (replay / "args").write_text("".join(word + "\n" for word in args))
    (replay / "stdout").write_text("".join(line + "\n" for line in told))

    program.joinpath("data").mkdir(parents=True, exist_ok=True)
    (program / "data/coat.pattern").write_bytes(PATTERNS["coat"])
    (program / "args").write_text("coat.pattern\n")
    # The last line has no line feed.
    (program / "stdin").write_bytes("\n".join(line for line, _ in COAT).encode())
    (program / "stdout").write_text("".join(answer + "\n" for _, answer in COAT))


if __name__ == "__main__":
    main()
