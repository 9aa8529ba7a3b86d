//! The time of reports and edits on both sides, on the same bytes.
//!
//! A report goes from the bytes to the whole text, an edit from the bytes to its answer. The Rust
//! asks each question once (`Asked::Once`), and neither encodes its edited pattern nor builds a
//! text of it; the port writes the edited file. Lists that are written to are lent and used
//! again. The time is the processor's, of this process, in the best of several rounds, in which
//! the two sides take turns.

use crate::compare::{ask, Given};
use crate::draft::{number, Draft, Edge, Face};
use crate::patterns::{every_table_full, grid, polygon, there_and_back};
use crate::port::{self, DONE, FILE, REPORT, REVERSED};
use oracle::{Asked, Edit, FaceEdit, Pattern, Signed};
use std::hint::black_box;

// ------------------------------------------------------------------- files

/// The coat of the samples; tools/compare/run starts this program at the repository's root.
fn coat() -> Draft {
    let file = std::fs::read("samples/coat.pattern").expect("samples/coat.pattern");
    Draft::parse(&file).expect("a pattern file")
}

/// One shell of 256 faces, each with two outlines of two edges.
fn openings_512() -> Draft {
    let edge = |k: u16| Edge { front: k, back: k ^ 1, t0: 0.0, t1: 1.0 };
    let digons = |f: u16| vec![vec![4 * f, 4 * f + 1], vec![4 * f + 2, 4 * f + 3]];
    Draft {
        points: (0..1024).collect(),
        edges: (0..1024).map(edge).collect(),
        faces: (0..256).map(|f| Face { surface: 1, wires: digons(f) }).collect(),
        shells: vec![(0..256).collect()],
    }
}

fn listed_512_times(draft: Draft) -> Draft { Draft { shells: vec![vec![0; 512]], ..draft } }

/// Every table full but for one square: room for a cut, with the last point to spare.
fn a_square_short() -> Draft {
    let mut draft = every_table_full();
    draft.edges.truncate(1020);
    for face in &mut draft.faces {
        face.wires.retain(|wire| wire.iter().all(|u| number(*u) < 1020));
    }
    draft
}

fn files() -> [(&'static str, Draft); 12] {
    [
        ("coat", coat()),
        ("closed-64", grid(8, 8, true, true)),
        ("closed-128", grid(16, 8, true, true)),
        ("closed-256", grid(16, 16, true, true)),
        ("open-64", grid(8, 8, false, false)),
        ("open-128", grid(16, 8, false, false)),
        ("open-256", grid(16, 16, false, false)),
        ("every-table-full", every_table_full()),
        ("a-square-short-of-full", a_square_short()),
        ("openings-512", openings_512()),
        ("outline-listed-512-times", listed_512_times(polygon(1024))),
        ("wires-listed-512-times", listed_512_times(there_and_back(1024))),
    ]
}

// ------------------------------------------------------------------- edits

/// Room for the wires of every face edit.
const LENT: usize = 8_192;

fn face_edit(f: usize, edit: FaceEdit) -> Edit {
    Edit::Face { face: (f, true), lent: [LENT; 2], edit }
}

/// An accepted edit of each kind, if the file has one, with the file that it edits. A cut is at
/// the last point; a removal undoes it, in the file as cut. A face is cut along an edge.
fn edits(draft: &Draft, file: &[u8]) -> Vec<(&'static str, Vec<u8>, Edit)> {
    let pattern = oracle::read(file, Asked::Again).expect("an accepted file");
    let signed = |u: &u16| (number(*u), *u < REVERSED);
    let wires: Vec<Vec<Signed>> = draft.wires().map(|w| w.iter().map(signed).collect()).collect();
    let accepted = |edit: &Edit| pattern.clone().edit(edit).is_ok();
    let mut found = Vec::new();

    let (shell, point) = (0, draft.points.len() - 1);
    let edge = number(draft.faces[number(draft.shells[shell][0])].wires[0][0]);
    let cut = Edit::Cut { shell, edge, point, parameter: Some(0.5) };
    let mut after = pattern.clone();
    let remove = Edit::Remove { shell, point };
    if after.edit(&cut).is_ok() {
        found.push(("cut", file.to_vec(), cut));
        if after.ask(&remove).is_ok() {
            found.push(("remove", Draft::of(&after, file).file(), remove));
        }
    }
    let concats = wires.iter().map(|wire| Edit::Concat { a: wire[0], b: wire[1] });
    let adds = wires.iter().map(|wire| face_edit(0, FaceEdit::Add(wire.clone())));
    let cuts = draft.faces.iter().enumerate().map(|(f, face)| {
        face_edit(f, FaceEdit::CutByWire(vec![signed(&face.wires[0][0])]))
    });
    let others = (1..draft.faces.len()).chain([0]);
    let glues = others.map(|other| face_edit(0, FaceEdit::Glue((other, true))));
    let all: [(_, Vec<Edit>); 4] = [
        ("concat", concats.collect()),
        ("add an outline", adds.collect()),
        ("cut a face", cuts.collect()),
        ("glue", glues.collect()),
    ];
    for (job, edits) in all {
        found.extend(edits.into_iter().find(accepted).map(|edit| (job, file.to_vec(), edit)));
    }
    found
}

// --------------------------------------------------------------- measuring

#[repr(C)]
struct Timespec {
    seconds: std::ffi::c_long,
    nanoseconds: std::ffi::c_long,
}

extern "C" {
    fn clock_gettime(clock: std::ffi::c_int, time: *mut Timespec) -> std::ffi::c_int;
}

/// The processor time of this process, in microseconds.
fn now() -> f64 {
    const PROCESS: std::ffi::c_int = 2;
    let mut time = Timespec { seconds: 0, nanoseconds: 0 };
    // Sound: `time` is as C's timespec on Linux.
    assert_eq!(unsafe { clock_gettime(PROCESS, &mut time) }, 0);
    time.seconds as f64 * 1e6 + time.nanoseconds as f64 / 1e3
}

/// The time of one call, by so many in a row.
fn timed(repeats: usize, call: &mut dyn FnMut()) -> f64 {
    let start = now();
    (0..repeats).for_each(|_| call());
    (now() - start) / repeats as f64
}

/// The time of one call of each, in the best of several rounds of some 10 milliseconds.
fn least(mut calls: [&mut dyn FnMut(); 2]) -> [f64; 2] {
    let first = calls.each_mut().map(|call| timed(1, call));
    let rounds = if first.iter().sum::<f64>() > 100_000.0 { 3 } else { 15 };
    let repeats = first.map(|time| (10_000.0 / time.max(0.1)).ceil() as usize);
    let mut best = first;
    for _ in 0..rounds {
        for k in 0..2 {
            best[k] = best[k].min(timed(repeats[k], calls[k]));
        }
    }
    best
}

fn read(file: &[u8]) -> Pattern { oracle::read(black_box(file), Asked::Once).expect("accepted") }

pub fn table() {
    let (mut text, mut bytes, mut out) = (String::new(), vec![0; REPORT], vec![0; FILE]);
    let (mut uses, mut lengths) = (vec![0; LENT], vec![0; LENT]);
    println!("{:26}{:16}{:>13}{:>13}{:>9}", "", "", "Rust, µs", "port, µs", "ratio");
    let row = |name: &str, job: &str, [rust, port]: [f64; 2]| {
        println!("{name:26}{job:16}{rust:>13.1}{port:>13.1}{:>9.1}", rust / port);
    };
    for (name, mut draft) in files() {
        // A spare point for the cut.
        if draft.points.len() < 2048 {
            draft.points.push(0);
        }
        let file = draft.file();
        let mut length = 0;
        let times = least([
            &mut || {
                text.clear();
                oracle::report(&read(&file), Asked::Once).write(black_box(&mut text));
            },
            &mut || length = port::report(black_box(&file), black_box(&mut bytes)),
        ]);
        assert_eq!(text.as_bytes(), &bytes[..length], "{name}");
        row(name, "report", times);
        for (job, file, edit) in edits(&draft, &file) {
            let mut outcome = DONE;
            let times = least([
                &mut || drop(black_box(read(&file).ask(&edit))),
                &mut || {
                    let (file, out) = (black_box(&file), &mut out);
                    let given = Given { file, out, numbers: &mut uses, lengths: &mut lengths };
                    outcome = black_box(ask(&edit, given)).outcome;
                },
            ]);
            assert_eq!(outcome, DONE, "{name}, {job}");
            row(name, job, times);
        }
    }
}
