//! truck-topology's own answers for pattern files and edits.
//!
//! Shells, faces, wires and edges are the Rust's, and so is what is done with
//! them.  The oracle's own part:
//! - the curve, a record of two ends, with the search answer of the cut at hand;
//! - reading the file (numbers 1 to 4; 5 to 8 are Edge::try_new's and Face::try_new's);
//! - numbers in place of pointers, the sequence of what comes in hash order, the
//!   count of lookups (an opening of n uses is n found and one not);
//! - the differences that document 01 names: 3 and 27 before the Rust is asked;
//!   16 for a parameter that is not a number; 28 where Face::try_new refuses the
//!   result; 17 for a result that is too long;
//! - the number behind a bare None, by asking the Rust's parts in the sequence of
//!   document 01 (`why`).

use std::fmt::{self, Write as _};
use truck_geotrait as geo;
use truck_topology::errors::Error;

truck_topology::prelude!(Point, Curve, Surface, pub);
type ConcatError = truck_geotrait::ConcatError<Point>;

// ------------------------------------------------------------- the geometry

/// A point is its number.
#[derive(Clone, Copy, Debug)]
pub struct Point(usize);

/// A curve is its two ends; it knows its edge's number and what its next search finds.
#[derive(Clone, Copy, Debug)]
pub struct Curve {
    edge: usize,
    pub t0: f64,
    pub t1: f64,
    found: Option<f64>,
}

/// A surface is its number in the file; it knows its face's number.
#[derive(Clone, Copy, Debug)]
pub struct Surface {
    pub value: usize,
    face: usize,
}

impl PartialEq for Surface {
    fn eq(&self, other: &Self) -> bool { self.value == other.value }
}

const UNNUMBERED: usize = usize::MAX;

fn is_span(t0: f64, t1: f64) -> bool {
    t0.abs() <= 1_000_000.0 && t1.abs() <= 1_000_000.0 && t0 < t1
}

impl geo::ParametricCurve for Curve {
    type Point = Point;
    fn subs(&self, _: f64) -> Point { unreachable!() }
}

impl geo::BoundedCurve for Curve {
    fn range_tuple(&self) -> (f64, f64) { (self.t0, self.t1) }
}

impl geo::SearchParameter<geo::D1> for Curve {
    type Point = Point;
    fn search_parameter(&self, _: Point, _: Option<f64>, _: usize) -> Option<f64> { self.found }
}

impl geo::Cut for Curve {
    fn cut(&mut self, t: f64) -> Self {
        let after = Curve { edge: UNNUMBERED, t0: t, t1: self.t1, found: None };
        *self = Curve { edge: UNNUMBERED, t0: self.t0, t1: t, found: None };
        after
    }
}

impl geo::Invertible for Curve {
    fn inverse(&self) -> Self { *self }
}

impl geo::ParameterTransform for Curve {
    fn parameter_transform(&mut self, scalar: f64, r#move: f64) -> &mut Self {
        self.t0 = self.t0 * scalar + r#move;
        self.t1 = self.t1 * scalar + r#move;
        self
    }
}

impl geo::Concat<Curve> for Curve {
    type Output = Curve;
    fn try_concat(&self, rhs: &Curve) -> Result<Curve, ConcatError> {
        match is_span(self.t0, rhs.t1) {
            true => Ok(Curve { edge: UNNUMBERED, t0: self.t0, t1: rhs.t1, found: None }),
            false => Err(geo::ConcatError(Point(UNNUMBERED))),
        }
    }
}

// -------------------------------------------------------------- the pattern

/// A number and whether it is taken as it stands (+) or reversed (-).
pub type Signed = (usize, bool);

#[derive(Clone)]
pub struct Pattern {
    pub points: Vec<Vertex>,
    pub edges: Vec<Edge>,
    pub faces: Vec<Face>,
    pub shells: Vec<Vec<Signed>>,
}

/// Of each body how many records at most, and the bytes of one.
pub const BODIES: [(usize, usize); 7] =
    [(2048, 4), (1024, 20), (4096, 2), (1024, 2), (256, 4), (16, 2), (512, 2)];

/// A refusal: number, body, record.
pub type Refused = (u32, usize, usize);

/// Whether the Rust is asked again: which wire a face is refused for, and whether all
/// shells together make the solid that they make one by one.
#[derive(Clone, Copy, PartialEq)]
pub enum Asked {
    Once,
    Again,
}

pub fn read(bytes: &[u8], asked: Asked) -> Result<Pattern, Refused> {
    let u16 = |at: usize| u16::from_le_bytes([bytes[at], bytes[at + 1]]) as usize;
    let u32 = |at: usize| u16(at) + (u16(at + 2) << 16);
    let f64 = |at: usize| f64::from_le_bytes(bytes[at..at + 8].try_into().unwrap());
    let signed = |at: usize| (u16(at) & 32767, u16(at) < 32768);
    if bytes.len() < 56 || bytes.len() > 41_048 {
        return Err((1, 0, 0));
    }
    let count = |body: usize| u32(8 * body + 4);
    for (body, (limit, _)) in BODIES.into_iter().enumerate() {
        if count(body) > limit {
            return Err((2, body, 0));
        }
    }
    let mut end = 56;
    for (body, (_, size)) in BODIES.into_iter().enumerate() {
        if u32(8 * body) != end {
            return Err((1, body, 0));
        }
        end += size * count(body);
    }
    if end != bytes.len() {
        return Err((1, 6, 0));
    }
    let places = |body: usize| (0..count(body)).map(move |k| u32(8 * body) + BODIES[body].1 * k);

    let points: Vec<_> = (0..count(0)).map(|k| Vertex::new(Point(k))).collect();
    let mut edges = Vec::new();
    for (k, at) in places(1).enumerate() {
        let (front, back) = match (points.get(u16(at)), points.get(u16(at + 2))) {
            (Some(front), Some(back)) => (front, back),
            _ => return Err((3, 1, k)),
        };
        let curve = Curve { edge: k, t0: f64(at + 4), t1: f64(at + 12), found: None };
        edges.push(Edge::try_new(front, back, curve).map_err(|e| (number(e), 1, k))?);
        if !is_span(curve.t0, curve.t1) {
            return Err((4, 1, k));
        }
    }
    if let Some(k) = places(2).position(|at| signed(at).0 >= edges.len()) {
        return Err((3, 2, k));
    }
    for (body, summed) in [(3, 2), (4, 3), (5, 6)] {
        if places(body).map(u16).sum::<usize>() != count(summed) {
            return Err((3, body, count(body)));
        }
    }
    if let Some(k) = places(6).position(|at| signed(at).0 >= count(4)) {
        return Err((3, 6, k));
    }

    let mut uses = places(2).map(|at| taken(&edges, signed(at)));
    let mut wires = places(3).map(|at| uses.by_ref().take(u16(at)).collect::<Wire>());
    let mut faces = Vec::new();
    let mut start = 0;
    for (k, at) in places(4).enumerate() {
        let surface = Surface { value: u16(at + 2), face: k };
        let outlines: Vec<_> = wires.by_ref().take(u16(at)).collect();
        let first = start;
        start += outlines.len();
        if asked == Asked::Again {
            for (w, wire) in outlines.iter().enumerate() {
                let face = Face::try_new(vec![wire.clone()], surface);
                face.map_err(|e| (number(e), 3, first + w))?;
            }
            for w in 1..outlines.len() {
                let face = Face::try_new(outlines[..=w].to_vec(), surface);
                face.map_err(|e| (number(e), 3, first + w))?;
            }
        }
        faces.push(Face::try_new(outlines, surface).map_err(|e| (number(e), 3, first))?);
    }
    let mut listings = places(6).map(signed);
    let shells = places(5).map(|at| listings.by_ref().take(u16(at)).collect()).collect();
    drop(wires);
    Ok(Pattern { points, edges, faces, shells })
}

/// An edge as it is used.
fn taken(edges: &[Edge], (edge, plus): Signed) -> Edge {
    if plus { edges[edge].clone() } else { edges[edge].inverse() }
}

/// Document 01's number of an error.
fn number(error: Error) -> u32 {
    match error {
        Error::SameVertex => 5,
        Error::EmptyWire => 6,
        Error::NotClosedWire => 7,
        Error::NotSimpleWire => 8,
        Error::NotDisjointWires => 9,
        Error::EmptyShell => 10,
        Error::NotConnected => 11,
        Error::NotClosedShell => 12,
        Error::NotManifold => 13,
    }
}

impl Pattern {
    /// A face as it is listed: the same face, by its surface's pointer.
    fn listed(&self, (face, plus): Signed) -> Face {
        if plus { self.faces[face].clone() } else { self.faces[face].inverse() }
    }
    fn shell(&self, s: usize) -> Shell { self.shells[s].iter().map(|l| self.listed(*l)).collect() }
    pub fn wires(&self) -> impl Iterator<Item = &Wire> {
        self.faces.iter().flat_map(|face| face.absolute_boundaries())
    }
}

// ------------------------------------------------------------------- text

fn sign(plus: bool) -> char { if plus { '+' } else { '-' } }
pub fn point(v: &Vertex) -> usize { v.point().0 }
pub fn as_used(e: &Edge) -> Signed { (e.curve().edge, e.orientation()) }
fn as_listed(f: &Face) -> Signed { (f.surface().face, f.orientation()) }

fn word((number, plus): &Signed) -> String { format!("{number}{}", sign(*plus)) }

/// Each word after a space.
pub fn words(all: &[Signed]) -> String { all.iter().map(|one| format!(" {}", word(one))).collect() }

pub fn uses(wire: &Wire) -> String { words(&wire.iter().map(as_used).collect::<Vec<_>>()) }

// ----------------------------------------------------------------- report

pub struct Report {
    pub shells: Vec<ShellReport>,
    /// The number and the shell of a refusal.
    pub solid: Option<(u32, usize)>,
}

pub struct ShellReport {
    pub condition: ShellCondition,
    pub connected: bool,
    pub openings: Vec<Wire>,
    pub lookups: usize,
    pub components: Vec<Vec<Signed>>,
    pub singular: Vec<usize>,
}

pub fn report(p: &Pattern, asked: Asked) -> Report {
    let shells: Vec<_> = (0..p.shells.len()).map(|s| p.shell(s)).collect();
    let reports = shells.iter().zip(&p.shells).map(|(shell, listed)| shell_report(shell, listed));
    let reports = reports.collect();
    // The Rust's error does not say which shell: that is the first one refused alone.
    let whole = (asked == Asked::Again).then(|| Solid::try_new(shells.clone()).err());
    let first = (shells.into_iter().enumerate())
        .find_map(|(s, shell)| Solid::try_new(vec![shell]).err().map(|e| (s, e)));
    assert!(whole.map_or(true, |whole| whole == first.map(|(_, e)| e)));
    Report { shells: reports, solid: first.map(|(s, e)| (number(e), s)) }
}

fn shell_report(shell: &Shell, listed: &[Signed]) -> ShellReport {
    let openings = shell.extract_boundaries();
    // In hash order: members by their first listing, components by their first member.
    let place = |l: &Signed| listed.iter().position(|other| other == l).unwrap();
    let mut components: Vec<Vec<Signed>> = Vec::new();
    for component in shell.connected_components() {
        let mut members: Vec<_> = component.iter().map(as_listed).collect();
        members.sort_by_cached_key(place);
        components.push(members);
    }
    components.sort_by_cached_key(|members| place(&members[0]));
    let mut singular: Vec<_> = shell.singular_vertices().iter().map(point).collect();
    singular.sort();
    ShellReport {
        condition: shell.shell_condition(),
        connected: shell.is_connected(),
        lookups: openings.iter().map(|opening| opening.len() + 1).sum(),
        openings,
        components,
        singular,
    }
}

impl Report {
    /// The text of document 01.
    pub fn write(&self, out: &mut String) {
        for (s, shell) in self.shells.iter().enumerate() {
            writeln!(out, "shell {s}\ncondition {:?}", shell.condition).unwrap();
            writeln!(out, "connected {}", if shell.connected { "yes" } else { "no" }).unwrap();
            for opening in &shell.openings {
                writeln!(out, "opening{}", uses(opening)).unwrap();
            }
            writeln!(out, "lookups {}", shell.lookups).unwrap();
            for members in &shell.components {
                writeln!(out, "component{}", words(members)).unwrap();
            }
            for point in &shell.singular {
                writeln!(out, "singular {point}").unwrap();
            }
        }
        match self.solid {
            None => out.push_str("solid accepted\n"),
            Some((number, s)) => writeln!(out, "solid refused {number} shell {s}").unwrap(),
        }
    }
}

pub fn refused_line((number, body, record): Refused) -> String {
    format!("refused {number} body {body} record {record}\n")
}

// ------------------------------------------------------------------ edits

#[derive(Clone)]
pub enum Edit {
    Cut { shell: usize, edge: usize, point: usize, parameter: Option<f64> },
    Remove { shell: usize, point: usize },
    Concat { a: Signed, b: Signed },
    /// `lent`: how many uses and wires the lent lists hold.
    Face { face: Signed, lent: [usize; 2], edit: FaceEdit },
}

#[derive(Clone)]
pub enum FaceEdit {
    Add(Vec<Signed>),
    CutByWire(Vec<Signed>),
    CutByEdge(Signed),
    Glue(Signed),
}

/// What the Rust hands back for an edit.
pub enum Change {
    /// The shell of this number as it is now, and its new edges.
    Shell(usize, Shell, Vec<Edge>),
    Edge(Edge),
    Wires(Vec<Wire>),
}

/// What an edit comes to.
pub enum Done {
    /// So many new edges, the pattern's last.
    New(usize),
    Wires(Vec<Wire>),
}

/// A refusal with what the Rust said.
pub type EditRefused = (u32, String);

fn refuse<T>(number: u32, said: impl ToString) -> Result<T, EditRefused> {
    Err((number, said.to_string()))
}

/// The edit of a line, its words parted by spaces.
impl From<&str> for Edit {
    fn from(line: &str) -> Edit {
        let mut words = Words(line.split_whitespace());
        match words.word() {
            "cut" => Edit::Cut {
                shell: words.number(),
                edge: words.number(),
                point: words.number(),
                parameter: match words.word() {
                    "nowhere" => None,
                    word => {
                        let digits = word.strip_prefix("0x").expect("0x");
                        Some(f64::from_bits(u64::from_str_radix(digits, 16).expect("digits")))
                    }
                },
            },
            "remove" => Edit::Remove { shell: words.number(), point: words.number() },
            "concat" => Edit::Concat { a: words.signed(), b: words.signed() },
            "glue" => {
                let (face, other) = (words.signed(), words.signed());
                Edit::Face { face, lent: words.lent(), edit: FaceEdit::Glue(other) }
            }
            word => {
                let (face, lent) = (words.signed(), words.lent());
                let edit = match word {
                    "add" => FaceEdit::Add(words.0.map(to_signed).collect()),
                    "cutface" => FaceEdit::CutByWire(words.0.map(to_signed).collect()),
                    "cutedge" => FaceEdit::CutByEdge(words.signed()),
                    other => panic!("no edit: {other}"),
                };
                Edit::Face { face, lent, edit }
            }
        }
    }
}

struct Words<'a>(std::str::SplitWhitespace<'a>);

impl<'a> Words<'a> {
    fn word(&mut self) -> &'a str { self.0.next().expect("a word is missing") }
    fn number(&mut self) -> usize { self.word().parse().expect("a number") }
    fn signed(&mut self) -> Signed { to_signed(self.word()) }
    fn lent(&mut self) -> [usize; 2] { [self.number(), self.number()] }
}

fn to_signed(word: &str) -> Signed {
    let (number, plus) = match word.strip_suffix('+') {
        Some(number) => (number, true),
        None => (word.strip_suffix('-').expect("+ or -"), false),
    };
    (number.parse().expect("a number"), plus)
}

/// The line of an edit.
impl fmt::Display for Edit {
    fn fmt(&self, f: &mut fmt::Formatter<'_>) -> fmt::Result {
        match self {
            Edit::Cut { shell, edge, point, parameter } => {
                write!(f, "cut {shell} {edge} {point} ")?;
                match parameter {
                    None => write!(f, "nowhere"),
                    Some(parameter) => write!(f, "{:#018x}", parameter.to_bits()),
                }
            }
            Edit::Remove { shell, point } => write!(f, "remove {shell} {point}"),
            Edit::Concat { a, b } => write!(f, "concat {} {}", word(a), word(b)),
            Edit::Face { face, lent: [u, w], edit } => {
                let face = word(face);
                match edit {
                    FaceEdit::Add(wire) => write!(f, "add {face} {u} {w}{}", words(wire)),
                    FaceEdit::CutByWire(wire) => write!(f, "cutface {face} {u} {w}{}", words(wire)),
                    FaceEdit::CutByEdge(edge) => write!(f, "cutedge {face} {u} {w} {}", word(edge)),
                    FaceEdit::Glue(other) => write!(f, "glue {face} {} {u} {w}", word(other)),
                }
            }
        }
    }
}

/// The number and the name of concat's error, whose type cannot be named from outside.
fn concat_number(error: impl fmt::Debug) -> EditRefused {
    let text = format!("{error:?}");
    let name = text.split('(').next().unwrap().to_string();
    match name.as_str() {
        "DisconnectedVertex" => (29, name),
        "SameVertex" => (25, name),
        "FromGeometry" => (26, name),
        _ => panic!("unknown error {name}"),
    }
}

impl Pattern {
    pub fn edit(&mut self, edit: &Edit) -> Result<Done, EditRefused> {
        let change = self.ask(edit)?;
        self.take(edit, change)
    }

    /// The edit, but for the limits; the pattern stays as it is.
    pub fn ask(&self, edit: &Edit) -> Result<Change, EditRefused> {
        match *edit {
            Edit::Cut { shell, edge, point, parameter } => self.cut(shell, edge, point, parameter),
            Edit::Remove { shell, point } => self.remove(shell, point),
            Edit::Concat { a, b } => self.concat(a, b),
            Edit::Face { face, ref edit, .. } => {
                let wires = match edit {
                    FaceEdit::Add(wire) => self.add(face, wire),
                    FaceEdit::CutByWire(wire) => {
                        self.cut_face(face, wire, |face, wire| face.cut_by_wire(wire))
                    }
                    FaceEdit::CutByEdge(edge) => {
                        let cut = |face: &Face, wire: Wire| face.cut_by_edge(wire[0].clone());
                        self.cut_face(face, &[*edge], cut)
                    }
                    FaceEdit::Glue(other) => self.glue(face, *other),
                };
                wires.map(Change::Wires)
            }
        }
    }

    /// Takes over what the edit changed; 17.
    pub fn take(&mut self, edit: &Edit, change: Change) -> Result<Done, EditRefused> {
        match change {
            Change::Shell(s, shell, new) => self.keep(s, shell, &new),
            Change::Edge(edge) => self.keep_edges(&[edge]),
            Change::Wires(wires) => {
                let Edit::Face { lent, .. } = edit else { unreachable!() };
                let uses: usize = wires.iter().map(|wire| wire.len()).sum();
                match uses > lent[0] || wires.len() > lent[1] {
                    true => refuse(17, "Some"),
                    false => Ok(Done::Wires(wires)),
                }
            }
        }
    }

    /// 3 and 27, for the shell edits.
    fn shell_to_edit(&self, s: usize) -> Result<Shell, EditRefused> {
        let listings = match self.shells.get(s) {
            Some(listings) => listings,
            None => return refuse(3, "unasked"),
        };
        let elsewhere = |(face, _): &Signed| {
            let mut others = self.shells.iter().enumerate().filter(|(other, _)| *other != s);
            others.any(|(_, others)| others.iter().any(|(other, _)| other == face))
        };
        match listings.iter().any(elsewhere) {
            true => refuse(27, "unasked"),
            false => Ok(self.shell(s)),
        }
    }

    /// Takes over an edited shell and its new edges; 17.
    fn keep(&mut self, s: usize, shell: Shell, new: &[Edge]) -> Result<Done, EditRefused> {
        let mut after = self.clone();
        for face in shell.iter() {
            let stored = face.absolute_clone();
            let number = stored.surface().face;
            // Every listing of a face is a copy in the Rust: they must agree.
            let copies = shell.iter().filter(|copy| copy.surface().face == number);
            for copy in copies {
                assert_eq!(copy.absolute_boundaries(), stored.absolute_boundaries());
            }
            after.faces[number] = stored;
        }
        assert_eq!(after.shell(s), shell);
        let done = after.keep_edges(new)?;
        if after.wires().map(|wire| wire.len()).sum::<usize>() > BODIES[2].0 {
            return refuse(17, "Some");
        }
        *self = after;
        Ok(done)
    }

    /// Numbers the new edges and takes them over; 17.
    fn keep_edges(&mut self, new: &[Edge]) -> Result<Done, EditRefused> {
        if self.edges.len() + new.len() > BODIES[1].0 {
            return refuse(17, "Some");
        }
        for edge in new {
            let edge = edge.absolute_clone();
            edge.set_curve(Curve { edge: self.edges.len(), ..edge.curve() });
            self.edges.push(edge);
        }
        Ok(Done::New(new.len()))
    }

    fn cut(&self, s: usize, e: usize, v: usize, found: Option<f64>) -> Result<Change, EditRefused> {
        if s >= self.shells.len() || e >= self.edges.len() || v >= self.points.len() {
            return refuse(3, "unasked");
        }
        let (edge, vertex) = (self.edges[e].clone(), self.points[v].clone());
        let mut shell = self.shell_to_edit(s)?;
        let before = edge.curve();
        edge.set_curve(Curve { found, ..before });
        let answer = shell.cut_edge(edge.id(), &vertex);
        edge.set_curve(before);
        match answer {
            // why
            None if shell.vertex_iter().any(|other| other == vertex) => refuse(14, "None"),
            None if !shell.edge_iter().any(|other| other.is_same(&edge)) => refuse(15, "None"),
            None => refuse(16, "None"),
            Some(_) if found.unwrap().is_nan() => refuse(16, "Some"),
            Some((first, second)) => Ok(Change::Shell(s, shell, vec![first, second])),
        }
    }

    fn remove(&self, s: usize, v: usize) -> Result<Change, EditRefused> {
        if s >= self.shells.len() || v >= self.points.len() {
            return refuse(3, "unasked");
        }
        let vertex = self.points[v].clone();
        let mut shell = self.shell_to_edit(s)?;
        if let Some(edge) = shell.remove_vertex_by_concat_edges(vertex.id()) {
            return Ok(Change::Shell(s, shell, vec![edge]));
        }
        // why: the pairs of uses that meet there, one for each wire
        let mut pairs = Vec::new();
        for wire in shell.iter().flat_map(|face| face.absolute_boundaries()) {
            if let Some(k) = wire.iter().position(|edge| edge.back() == &vertex) {
                pairs.push((&wire[k], &wire[(k + 1) % wire.len()]));
            }
        }
        if pairs.is_empty() || pairs.len() > 2 {
            return refuse(23, "None");
        }
        let (a, b) = pairs[pairs.len() - 1];
        if pairs.len() == 2 && !(a.is_same(pairs[0].1) && b.is_same(pairs[0].0)) {
            return refuse(24, "None");
        }
        refuse(concat_number(a.concat(b).unwrap_err()).0, "None")
    }

    fn concat(&self, a: Signed, b: Signed) -> Result<Change, EditRefused> {
        if a.0 >= self.edges.len() || b.0 >= self.edges.len() {
            return refuse(3, "unasked");
        }
        let edge = taken(&self.edges, a).concat(&taken(&self.edges, b)).map_err(concat_number)?;
        Ok(Change::Edge(edge))
    }

    /// The face and the wire of a face edit; 3.
    fn face_and_wire(&self, face: Signed, uses: &[Signed]) -> Result<(Face, Wire), EditRefused> {
        if face.0 >= self.faces.len() || uses.iter().any(|(edge, _)| *edge >= self.edges.len()) {
            return refuse(3, "unasked");
        }
        Ok((self.listed(face), uses.iter().map(|u| taken(&self.edges, *u)).collect()))
    }

    fn add(&self, face: Signed, uses: &[Signed]) -> Result<Vec<Wire>, EditRefused> {
        let (mut face, wire) = self.face_and_wire(face, uses)?;
        let id = face.id();
        match face.try_add_boundary(wire) {
            Err(e) if face.id() == id => refuse(number(e), format!("{e:?}")),
            Err(e) => refuse(number(e), format!("{e:?}, another face")),
            Ok(()) => Ok(face.absolute_boundaries().clone()),
        }
    }

    fn cut_face(
        &self,
        face: Signed,
        uses: &[Signed],
        cut: impl Fn(&Face, Wire) -> Option<(Face, Face)>,
    ) -> Result<Vec<Wire>, EditRefused> {
        let (face, wire) = self.face_and_wire(face, uses)?;
        let (first, second) = match cut(&face, wire) {
            // why
            None if face.absolute_boundaries().len() != 1 => return refuse(18, "None"),
            None => return refuse(19, "None"),
            Some(pair) => pair,
        };
        keeps_face_rule(first.absolute_boundaries())?;
        keeps_face_rule(second.absolute_boundaries())?;
        Ok([first.absolute_boundaries().clone(), second.absolute_boundaries().clone()].concat())
    }

    fn glue(&self, a: Signed, b: Signed) -> Result<Vec<Wire>, EditRefused> {
        if a.0 >= self.faces.len() || b.0 >= self.faces.len() {
            return refuse(3, "unasked");
        }
        let (a, b) = (self.listed(a), self.listed(b));
        let glued = match a.glue_at_boundaries(&b) {
            // why: with an outline far from both in the first face something always
            // remains, so the Rust still says None for 21 and no more for 22
            None if a.surface() != b.surface() || a.orientation() != b.orientation() => {
                return refuse(20, "None")
            }
            None => {
                let far = Vertex::news([Point(UNNUMBERED); 2]);
                let curve = Curve { edge: UNNUMBERED, t0: 0.0, t1: 1.0, found: None };
                let there = Edge::new(&far[0], &far[1], curve);
                let mut larger = a.clone();
                larger.add_boundary([there.clone(), there.inverse()].into());
                return match larger.glue_at_boundaries(&b) {
                    None => refuse(21, "None"),
                    Some(_) => refuse(22, "None"),
                };
            }
            Some(face) => face,
        };
        keeps_face_rule(glued.absolute_boundaries())?;
        // In hash order: each outline from its lowest point, sorted by it.
        let mut wires = glued.absolute_boundaries().clone();
        for wire in &mut wires {
            let lowest = (0..wire.len()).min_by_key(|k| point(wire[*k].front())).unwrap();
            wire.rotate_left(lowest);
        }
        wires.sort_by_key(|wire| point(wire[0].front()));
        Ok(wires)
    }
}

/// 28, by the Rust's own rule.
fn keeps_face_rule(wires: &[Wire]) -> Result<(), EditRefused> {
    match Face::try_new(wires.to_vec(), Surface { value: 0, face: UNNUMBERED }) {
        Ok(_) => Ok(()),
        Err(e) => refuse(28, format!("{e:?}")),
    }
}
