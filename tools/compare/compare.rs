//! Both sides asked the same: what each call answers, what it writes, what it leaves alone.

use crate::draft::{signed_u16, uses, Draft};
use crate::edits::Asked;
use crate::port::{self, Answer, DONE, FILE, LISTINGS, NOWHERE, POINTS, REFUSED, REPORT, UNREAD};
use oracle::{Change, Done, Edit, FaceEdit, Pattern, ShellCondition, Signed};
use std::collections::BTreeMap;
use std::fmt;
use std::panic::{catch_unwind, AssertUnwindSafe};

#[derive(Clone, Copy, Debug, PartialEq, Eq, PartialOrd, Ord)]
pub enum Kind {
    Read,
    Write,
    Outline,
    Report,
    Condition,
    Openings,
    Connected,
    Components,
    Singular,
    Solid,
    Cut,
    Remove,
    Concat,
    Add,
    CutByWire,
    CutByEdge,
    Glue,
    /// Accepted shell edits one after the other, and all reports on what they come to.
    Chain,
}

/// What the Rust's side says of a call.
#[derive(Clone, Copy, Debug, PartialEq, Eq, PartialOrd, Ord)]
pub enum Outcome {
    Accepted,
    Refused(usize),
    OfRefusedFile,
    Panic,
}

impl fmt::Display for Outcome {
    fn fmt(&self, f: &mut fmt::Formatter<'_>) -> fmt::Result {
        match self {
            Outcome::Accepted => f.pad("accepted"),
            Outcome::Refused(number) => f.pad(&format!("refused {number}")),
            Outcome::OfRefusedFile => f.pad("of a refused file"),
            Outcome::Panic => f.pad("panic"),
        }
    }
}

pub type Row = (Kind, Outcome);

pub struct Difference {
    pub row: Row,
    /// The line of the edit, if it is one, as it was asked.
    pub edit: String,
    pub port: String,
    pub rust: String,
}

#[derive(Default)]
pub struct Comparison {
    /// Of each row how many calls were compared, and how many differed.
    pub rows: BTreeMap<Row, [u64; 2]>,
    /// The bytes that these calls had to write, all compared.
    pub bytes: usize,
    /// What differed since this was last emptied.
    pub differences: Vec<Difference>,
    lists: Lists,
}

// ------------------------------------------------------------------- lists

/// The lists of a call, and the file that it is given.
struct Lists {
    /// As it was, and the copy that the port gets: just as long, so that reading past it shows.
    file: Vec<u8>,
    given: Box<[u8]>,
    text: Lent<u8>,
    bytes: Lent<u8>,
    /// Uses, listings or points; lengths.
    numbers: Lent<u16>,
    lengths: Lent<u16>,
}

/// What a call is given.
pub struct Given<'a> {
    pub file: &'a [u8],
    pub out: &'a mut [u8],
    pub numbers: &'a mut [u16],
    pub lengths: &'a mut [u16],
}

/// What a call must come to: its answer, and what it writes.
#[derive(Default)]
struct Expected {
    answer: Answer,
    bytes: Vec<u8>,
    numbers: Vec<u16>,
    lengths: Vec<u16>,
}

impl From<Answer> for Expected {
    fn from(answer: Answer) -> Self { Expected { answer, ..Expected::default() } }
}

/// Room for the result of every face edit.
const USES: usize = 8_192;
const WIRES: usize = 2_048;

impl Default for Lists {
    fn default() -> Self {
        Lists {
            file: Vec::new(),
            given: Box::default(),
            text: Lent::new(REPORT, 0xa5),
            bytes: Lent::new(FILE, 0xa5),
            numbers: Lent::new(USES, 0xa5a5),
            lengths: Lent::new(WIRES.max(POINTS), 0xa5a5),
        }
    }
}

/// A list that a call writes to, with cells before and after it. All hold the same before a call.
struct Lent<T> {
    cells: Vec<T>,
    blank: Vec<T>,
}

const AROUND: usize = 64;

impl<T: Copy + PartialEq + fmt::Debug + fmt::LowerHex> Lent<T> {
    fn new(most: usize, fill: T) -> Self {
        let blank = vec![fill; most + 2 * AROUND];
        Lent { cells: blank.clone(), blank }
    }
    fn lend(&mut self, length: usize) -> &mut [T] {
        self.cells.copy_from_slice(&self.blank);
        &mut self.cells[AROUND..][..length]
    }
    /// Whether the list begins with this, and every other cell holds what it held.
    fn holds(&self, written: &[T]) -> bool {
        let (before, from) = self.cells.split_at(AROUND);
        let same = |cells: &[T]| *cells == self.blank[..cells.len()];
        same(before) && from.strip_prefix(written).is_some_and(same)
    }
    /// What the list holds instead, from the first cell that is not as it must be.
    fn otherwise(&self, written: &[T]) -> String {
        let mut right = self.blank.clone();
        right[AROUND..][..written.len()].copy_from_slice(written);
        match (0..right.len()).find(|k| self.cells[*k] != right[*k]) {
            None => String::new(),
            Some(k) => {
                let (is, must) = (&self.cells[k..], &right[k..]);
                let some = is.len().min(8);
                let place = k as isize - AROUND as isize;
                format!("; at {place} {:02x?} for {:02x?}", &is[..some], &must[..some])
            }
        }
    }
}

// ------------------------------------------------------------------- calls

fn done(values: [usize; 3]) -> Answer {
    let [first, second, third] = values;
    Answer { outcome: DONE, first, second, third, ..Answer::default() }
}

fn refused(number: u32) -> Answer {
    Answer { outcome: REFUSED, number: number as usize, ..Answer::default() }
}

/// A list that is too short for a file of so many bytes.
fn short(length: usize) -> Answer {
    Answer { first: length, ..refused(17) }
}

/// Parts written one after the other, and their lengths.
fn parts(numbers: Vec<u16>, lengths: Vec<u16>, answer: impl Fn([usize; 2]) -> Answer) -> Expected {
    let answer = answer([lengths.len(), numbers.len()]);
    Expected { answer, numbers, lengths, ..Expected::default() }
}

fn wires(wires: &[oracle::Wire], answer: impl Fn([usize; 2]) -> Answer) -> Expected {
    let lengths = wires.iter().map(|wire| wire.len() as u16).collect();
    parts(wires.iter().flat_map(uses).collect(), lengths, answer)
}

fn listings(all: &[Vec<Signed>], answer: impl Fn([usize; 2]) -> Answer) -> Expected {
    let lengths = all.iter().map(|part| part.len() as u16).collect();
    parts(all.iter().flatten().copied().map(signed_u16).collect(), lengths, answer)
}

/// The Rust's answer, or nothing if it panics.
fn guarded<T>(answer: impl FnOnce() -> T) -> Option<T> {
    catch_unwind(AssertUnwindSafe(answer)).ok()
}

fn as_u16(number: usize) -> u16 { number.try_into().unwrap() }

/// Asks the port for an edit.
pub fn ask(edit: &Edit, Given { file, out, numbers: uses, lengths }: Given<'_>) -> Answer {
    let wire = |wire: &[Signed]| wire.iter().copied().map(signed_u16).collect::<Box<[u16]>>();
    match *edit {
        Edit::Cut { shell, edge, point, parameter } => {
            let parameter = parameter.map_or(NOWHERE, f64::to_bits);
            port::cut_edge(file, shell, as_u16(edge), as_u16(point), parameter, out)
        }
        Edit::Remove { shell, point } => port::remove_vertex(file, shell, as_u16(point), out),
        Edit::Concat { a, b } => port::concat(file, signed_u16(a), signed_u16(b), out),
        Edit::Face { face, ref edit, .. } => {
            let face = signed_u16(face);
            match edit {
                FaceEdit::Add(uses_of) => {
                    port::add_boundary(file, face, &wire(uses_of), uses, lengths)
                }
                FaceEdit::CutByWire(uses_of) => {
                    port::cut_by_wire(file, face, &wire(uses_of), uses, lengths)
                }
                FaceEdit::CutByEdge(edge) => {
                    port::cut_by_edge(file, face, signed_u16(*edge), uses, lengths)
                }
                FaceEdit::Glue(other) => port::glue(file, face, signed_u16(*other), uses, lengths),
            }
        }
    }
}

pub fn kind(edit: &Edit) -> Kind {
    match edit {
        Edit::Cut { .. } => Kind::Cut,
        Edit::Remove { .. } => Kind::Remove,
        Edit::Concat { .. } => Kind::Concat,
        Edit::Face { edit, .. } => match edit {
            FaceEdit::Add(_) => Kind::Add,
            FaceEdit::CutByWire(_) => Kind::CutByWire,
            FaceEdit::CutByEdge(_) => Kind::CutByEdge,
            FaceEdit::Glue(_) => Kind::Glue,
        },
    }
}

// -------------------------------------------------------------- comparison

impl Comparison {
    /// Counts a call, with what port and Rust said if that differs.
    fn count(&mut self, row: Row, said: Option<[String; 2]>) {
        let counts = self.rows.entry(row).or_default();
        counts[0] += 1;
        if let Some([port, rust]) = said {
            counts[1] += 1;
            self.differences.push(Difference { row, edit: String::new(), port, rust });
        }
    }

    fn panicked(&mut self, kind: Kind) {
        self.count((kind, Outcome::Panic), Some(["not asked", "panic"].map(String::from)));
    }

    /// Asks the port, with lists of these lengths, and compares with the Rust's side.
    fn call(
        &mut self,
        kind: Kind,
        lengths: [usize; 3],
        rust: impl Into<Expected>,
        ask: impl FnOnce(Given<'_>) -> Answer,
    ) {
        let (lists, rust) = (&mut self.lists, rust.into());
        let port = ask(Given {
            file: &lists.given,
            out: lists.bytes.lend(lengths[0]),
            numbers: lists.numbers.lend(lengths[1]),
            lengths: lists.lengths.lend(lengths[2]),
        });
        let same = port == rust.answer
            && *lists.given == *lists.file
            && lists.bytes.holds(&rust.bytes)
            && lists.numbers.holds(&rust.numbers)
            && lists.lengths.holds(&rust.lengths);
        self.bytes += rust.bytes.len() + 2 * (rust.numbers.len() + rust.lengths.len());
        let said = (!same).then(|| {
            let wrong = lists.bytes.otherwise(&rust.bytes)
                + &lists.numbers.otherwise(&rust.numbers)
                + &lists.lengths.otherwise(&rust.lengths);
            let file = if *lists.given == *lists.file { "" } else { "; the file is changed" };
            let port = format!("{port}, lists of {lengths:?}{wrong}{file}");
            [port, rust.answer.to_string()]
        });
        let outcome = match rust.answer.outcome {
            DONE => Outcome::Accepted,
            UNREAD if kind != Kind::Read => Outcome::OfRefusedFile,
            _ => Outcome::Refused(rust.answer.number),
        };
        self.count((kind, outcome), said);
    }

    fn report(&mut self, outcome: Outcome, rust: &str) {
        let Lists { file, given, text, .. } = &mut self.lists;
        let length = port::report(given, text.lend(REPORT));
        let same = length == rust.len() && text.holds(rust.as_bytes()) && **given == **file;
        self.bytes += rust.len();
        let said = (!same).then(|| {
            let port = format!("{length} bytes{}", text.otherwise(rust.as_bytes()));
            [port, format!("{} bytes: {rust:?}", rust.len())]
        });
        self.count((Kind::Report, outcome), said);
    }

    /// Everything that is asked of a file alone. The Rust's pattern, if it is accepted.
    pub fn file(&mut self, file: &[u8]) -> Option<Pattern> {
        match guarded(|| oracle::read(file, oracle::Asked::Again)) {
            None => self.panicked(Kind::Read),
            Some(Err(refused)) => self.unread(file, refused),
            Some(Ok(pattern)) => {
                self.accepted(file, &pattern);
                return Some(pattern);
            }
        }
        None
    }

    fn give(&mut self, file: &[u8]) {
        if self.lists.file != file || *self.lists.given != *file {
            self.lists.file = file.to_vec();
            self.lists.given = file.into();
        }
    }

    /// Every function must answer with the refusal of the reading checks, and write nothing.
    fn unread(&mut self, file: &[u8], refused: oracle::Refused) {
        self.give(file);
        let (number, first, second) = (refused.0 as usize, refused.1, refused.2);
        let rust = Answer { outcome: UNREAD, number, first, second, ..Answer::default() };
        self.call(Kind::Read, [0; 3], rust, |to| port::read(to.file));
        self.call(Kind::Solid, [0; 3], rust, |to| port::solid(to.file));
        self.report(Outcome::OfRefusedFile, &oracle::refused_line(refused));
        // With ample lists, with empty ones, with numbers past every limit.
        for k in [0, 5, 65_535] {
            let shell = if k == 65_535 { usize::MAX } else { k };
            let room = if k == 5 { [0; 3] } else { [FILE, USES, WIRES] };
            self.call(Kind::Outline, [0; 3], rust, |to| port::outline(to.file, shell));
            self.call(Kind::Write, room, rust, |to| port::write(to.file, to.out));
            self.shell_calls(shell, [rust; 5].map(Expected::from));
            let number = (k % 32_768, k == 0);
            let wire = vec![number; k % 7];
            let mut edits = vec![
                Edit::Cut { shell, edge: k, point: k, parameter: Some(0.5) },
                Edit::Remove { shell, point: k },
                Edit::Concat { a: number, b: number },
            ];
            edits.extend(
                [
                    FaceEdit::Add(wire.clone()),
                    FaceEdit::CutByWire(wire),
                    FaceEdit::CutByEdge(number),
                    FaceEdit::Glue(number),
                ]
                .map(|edit| Edit::Face { face: number, lent: [room[1], room[2]], edit }),
            );
            for edit in edits {
                self.call(kind(&edit), room, rust, |to| ask(&edit, to));
            }
        }
    }

    /// The reports on one shell, in the sequence of `Kind`.
    fn shell_calls(&mut self, s: usize, rust: [Expected; 5]) {
        let [condition, openings, connected, components, singular] = rust;
        self.call(Kind::Condition, [0; 3], condition, |to| port::shell_condition(to.file, s));
        self.call(Kind::Openings, [0, POINTS, POINTS], openings, |to| {
            port::extract_boundaries(to.file, s, to.numbers, to.lengths)
        });
        self.call(Kind::Connected, [0; 3], connected, |to| port::is_connected(to.file, s));
        self.call(Kind::Components, [0, LISTINGS, LISTINGS], components, |to| {
            port::connected_components(to.file, s, to.numbers, to.lengths)
        });
        self.call(Kind::Singular, [0, POINTS, 0], singular, |to| {
            port::singular_vertices(to.file, s, to.numbers)
        });
    }

    /// Everything that is asked of an accepted file alone.
    pub fn accepted(&mut self, file: &[u8], pattern: &Pattern) {
        self.give(file);
        self.call(Kind::Read, [0; 3], done([0; 3]), |to| port::read(to.file));
        self.written(file);
        let mut start = 0;
        for (w, wire) in pattern.wires().enumerate() {
            let place = done([start, wire.len(), 0]);
            self.call(Kind::Outline, [0; 3], place, |to| port::outline(to.file, w));
            start += wire.len();
        }
        for w in [pattern.wires().count(), usize::MAX] {
            self.call(Kind::Outline, [0; 3], refused(3), |to| port::outline(to.file, w));
        }
        let Some(report) = guarded(|| oracle::report(pattern, oracle::Asked::Again)) else {
            return self.panicked(Kind::Report);
        };
        let mut text = String::new();
        report.write(&mut text);
        self.report(Outcome::Accepted, &text);
        for (s, shell) in report.shells.iter().enumerate() {
            let condition = match shell.condition {
                ShellCondition::Irregular => 0,
                ShellCondition::Regular => 1,
                ShellCondition::Oriented => 2,
                ShellCondition::Closed => 3,
            };
            let singular = shell.singular.iter().map(|point| *point as u16).collect();
            let rust = [
                done([condition, 0, 0]).into(),
                wires(&shell.openings, |[count, uses]| done([count, uses, shell.lookups])),
                done([shell.connected.into(), 0, 0]).into(),
                listings(&shell.components, |[count, members]| done([count, members, 0])),
                parts(singular, Vec::new(), |[_, count]| done([count, 0, 0])),
            ];
            self.shell_calls(s, rust);
        }
        for s in [report.shells.len(), usize::MAX] {
            self.shell_calls(s, [refused(3); 5].map(Expected::from));
        }
        let solid = match report.solid {
            None => done([0; 3]),
            Some((number, s)) => Answer { first: s, ..refused(number) },
        };
        self.call(Kind::Solid, [0; 3], solid, |to| port::solid(to.file));
    }

    /// The file written again, to a list that is ample, just long enough, a byte short, empty.
    fn written(&mut self, file: &[u8]) {
        for room in [FILE, file.len(), file.len() - 1, 0] {
            let rust = match room < file.len() {
                true => short(file.len()).into(),
                false => Expected {
                    answer: done([file.len(), 0, 0]),
                    bytes: file.to_vec(),
                    ..Expected::default()
                },
            };
            self.call(Kind::Write, [room, 0, 0], rust, |to| port::write(to.file, to.out));
        }
    }

    /// One edit. The edited file and pattern, if it edits these and both sides accept it.
    pub fn edit(&mut self, file: &[u8], p: &Pattern, asked: &Asked) -> Option<(Vec<u8>, Pattern)> {
        self.give(file);
        let before = self.differences.len();
        let Asked { mut edit, room } = asked.clone();
        let kind = kind(&edit);
        let mut after = p.clone();
        let answer = guarded(|| {
            let change = p.ask(&edit);
            if let Edit::Face { lent, .. } = &mut edit {
                let wires = match &change {
                    Ok(Change::Wires(wires)) => &wires[..],
                    _ => &[],
                };
                let uses = wires.iter().map(|wire| wire.len()).sum();
                *lent = [room[0].of(uses, USES), room[1].of(wires.len(), WIRES)];
            }
            after.take(&edit, change?)
        });
        let mut lengths = match edit {
            Edit::Face { lent: [uses, wires], .. } => [0, uses, wires],
            _ => [room[0].of(0, FILE), 0, 0],
        };
        let mut edited = None;
        let rust = answer.map(|answer| match answer {
            Err((number, _)) => refused(number).into(),
            Ok(Done::Wires(result)) => wires(&result, |[wires, uses]| done([uses, wires, 0])),
            Ok(Done::New(count)) => {
                let bytes = Draft::of(&after, file).file();
                lengths[0] = room[0].of(bytes.len(), FILE);
                if lengths[0] < bytes.len() {
                    short(bytes.len()).into()
                } else {
                    edited = Some(bytes.clone());
                    let last = after.edges.len() - 1;
                    let new = if count == 2 { [last - 1, last] } else { [last, 0] };
                    let answer = done([new[0], new[1], bytes.len()]);
                    Expected { answer, bytes, ..Expected::default() }
                }
            }
        });
        match rust {
            None => self.panicked(kind),
            Some(rust) => self.call(kind, lengths, rust, |to| ask(&edit, to)),
        }
        match self.differences.get_mut(before) {
            None => edited.map(|bytes| (bytes, after)),
            Some(difference) => {
                difference.edit = edit.to_string();
                None
            }
        }
    }

    /// A chain of accepted shell edits has ended here.
    pub fn chain_end(&mut self, file: &[u8], pattern: &Pattern) {
        let before = self.differences.len();
        self.accepted(file, pattern);
        let counts = self.rows.entry((Kind::Chain, Outcome::Accepted)).or_default();
        counts[0] += 1;
        counts[1] += u64::from(self.differences.len() > before);
    }
}
