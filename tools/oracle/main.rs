//! The oracle: truck-topology's own answers for pattern files and edits (lib.rs).
//!
//!     oracle report PATTERN..         the report of each file, after `file NAME`
//!     oracle pack PACK..              the report of each pattern in a pack, after `pattern K`;
//!                                     a pack holds for each its length (u32) and its bytes
//!     oracle edit PATTERN EDITS ..    the answers to each file of edits, likewise
//!     oracle said PATTERN EDITS ..    the same; after each refusal what the Rust said
//!
//! A file of edits has one to a line; an answer stands after its line:
//!     cut SHELL EDGE POINT PARAMETER  a parameter is 0x and 16 hex digits, or `nowhere`
//!     remove SHELL POINT
//!     concat USE USE
//!     add FACE U W USE..              U and W: how many uses and wires the lent
//!     cutface FACE U W USE..          lists hold; FACE is a listing, as 0+ or 0-
//!     cutedge FACE U W USE
//!     glue FACE FACE U W
//!     report                          the pattern as it now is
//!     fresh                           the pattern as it was read
//! Answers, in the words of the program `edit`: `refused N`; `done edge E` or `done edges E E`,
//! and what changed in the pattern as text, each line of before that is gone after `- `, then
//! each new line after `+ `; `done wire USE.. wire ..`; or `panic`.

use oracle::{point, read, refused_line, report, uses, words};
use oracle::{Asked, Curve, Done, Edge, Face, Pattern, Signed, Wire};
use std::fmt::Write as _;
use std::io::Write as _;
use std::panic::{catch_unwind, AssertUnwindSafe};

fn guarded(answer: impl FnOnce() -> String) -> String {
    catch_unwind(AssertUnwindSafe(answer)).unwrap_or("panic\n".to_string())
}

fn report_text(pattern: &Pattern) -> String {
    let mut out = String::new();
    report(pattern, Asked::Again).write(&mut out);
    out
}

fn report_of(bytes: &[u8]) -> String {
    guarded(|| match read(bytes, Asked::Again) {
        Ok(pattern) => report_text(&pattern),
        Err(refused) => refused_line(refused),
    })
}

/// An f64 as a word: the decimal of the fewest places, at most nine, that reads back to the same
/// bits and has at most 15 digits; else its bits.
fn real(t: f64) -> String {
    let reads_back = |word: &String| {
        let digits = word.chars().filter(char::is_ascii_digit).count();
        digits <= 15 && word.parse::<f64>().unwrap().to_bits() == t.to_bits()
    };
    let mut decimals = (0..=9).map(|places| format!("{t:.places$}"));
    decimals.find(reads_back).unwrap_or(format!("{:#018x}", t.to_bits()))
}

/// The pattern as text, but for its points, which no edit changes.
fn shown(p: &Pattern) -> Vec<String> {
    let edge = |(k, edge): (usize, &Edge)| {
        let Curve { t0, t1, .. } = edge.curve();
        let (front, back) = (point(edge.absolute_front()), point(edge.absolute_back()));
        format!("edge {k} from {front} to {back} span {} {}", real(t0), real(t1))
    };
    let face = |(k, face): (usize, &Face)| {
        let wires = wires(face.absolute_boundaries());
        format!("face {k} surface {}{wires}", face.surface().value)
    };
    let shell = |(k, shell): (usize, &Vec<Signed>)| format!("shell {k} faces{}", words(shell));
    let edges = p.edges.iter().enumerate().map(edge);
    let faces = p.faces.iter().enumerate().map(face);
    edges.chain(faces).chain(p.shells.iter().enumerate().map(shell)).collect()
}

fn wires(wires: &[Wire]) -> String {
    wires.iter().map(|wire| format!(" wire{}", uses(wire))).collect()
}

/// What an edit came to.
fn told(p: &Pattern, done: &Done) -> String {
    match done {
        Done::New(1) => format!("done edge {}\n", p.edges.len() - 1),
        Done::New(_) => format!("done edges {} {}\n", p.edges.len() - 2, p.edges.len() - 1),
        Done::Wires(all) => format!("done{}\n", wires(all)),
    }
}

/// The lines of one text that the other has not, after a mark.
fn missing(mark: char, one: &[String], other: &[String]) -> String {
    let lines = one.iter().filter(|line| !other.contains(line));
    lines.map(|line| format!("{mark} {line}\n")).collect()
}

fn edited(p: &mut Pattern, line: &str, said: bool) -> String {
    let before = shown(p);
    match p.edit(&line.into()) {
        Ok(done) => {
            let after = shown(p);
            told(p, &done) + &missing('-', &before, &after) + &missing('+', &after, &before)
        }
        Err((number, word)) if said => format!("refused {number} {word}\n"),
        Err((number, _)) => format!("refused {number}\n"),
    }
}

fn edits(bytes: &[u8], lines: &str, said: bool) -> String {
    let mut pattern = match read(bytes, Asked::Again) {
        Ok(pattern) => pattern,
        Err(refused) => return refused_line(refused),
    };
    let mut out = String::new();
    for line in lines.lines() {
        writeln!(out, "{line}").unwrap();
        match line {
            "fresh" => pattern = read(bytes, Asked::Again).unwrap(),
            "report" => out.push_str(&guarded(|| report_text(&pattern))),
            _ => out.push_str(&guarded(|| edited(&mut pattern, line, said))),
        }
    }
    out
}

fn main() {
    std::panic::set_hook(Box::new(|panic| eprintln!("{panic}")));
    let args: Vec<String> = std::env::args().skip(1).collect();
    let file = |path: &str| std::fs::read(path).unwrap_or_else(|e| panic!("{path}: {e}"));
    let name = |path: &str| path.rsplit('/').next().unwrap().to_string();
    let (word, paths) = args.split_first().expect("report, pack, edit or said");
    let mut out = String::new();
    match word.as_str() {
        "report" => {
            for path in paths {
                writeln!(out, "file {}", name(path)).unwrap();
                out.push_str(&report_of(&file(path)));
            }
        }
        "pack" => {
            for path in paths {
                writeln!(out, "file {}", name(path)).unwrap();
                let bytes = file(path);
                let (mut rest, mut k) = (&bytes[..], 0);
                while let Some((length, after)) = rest.split_first_chunk::<4>() {
                    let (pattern, after) = after.split_at(u32::from_le_bytes(*length) as usize);
                    writeln!(out, "pattern {k}").unwrap();
                    out.push_str(&report_of(pattern));
                    (rest, k) = (after, k + 1);
                }
            }
        }
        "edit" | "said" => {
            for pair in paths.chunks(2) {
                let lines = String::from_utf8(file(&pair[1])).expect("text");
                writeln!(out, "file {}", name(&pair[0])).unwrap();
                out.push_str(&edits(&file(&pair[0]), &lines, word == "said"));
            }
        }
        other => panic!("{other}: report, pack, edit or said"),
    }
    std::io::stdout().write_all(out.as_bytes()).unwrap();
}
