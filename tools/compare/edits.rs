//! Edits at random, aimed near what a pattern has, so that acceptance and every refusal are common.

use crate::draft::{is_reversed, number, Draft};
use crate::patterns::Random;
use crate::port::REVERSED;
use oracle::{Edit, FaceEdit, Signed};

/// How long a lent list is, by what the edit needs.
#[derive(Clone, Copy)]
pub enum Room {
    Ample,
    Exact,
    OneShort,
    Empty,
}

impl Room {
    pub fn of(self, needed: usize, ample: usize) -> usize {
        match self {
            Room::Ample => ample,
            Room::Exact => needed,
            Room::OneShort => needed.saturating_sub(1),
            Room::Empty => 0,
        }
    }
}

/// An edit and the room of the lists that it is lent: of the file, or of the uses and the lengths.
#[derive(Clone)]
pub struct Asked {
    pub edit: Edit,
    pub room: [Room; 2],
}

/// What the choice of edits asks of a pattern again and again.
pub struct Aim<'a> {
    draft: &'a Draft,
    ways: Vec<Vec<u16>>,
    /// For each shell and point, how many of the shell's wires meet it, counted per listing.
    met: Vec<Vec<usize>>,
    /// For each edge the faces that use it.
    faces: Vec<Vec<usize>>,
}

fn signed(number: usize, sign: u16) -> Signed { (number, sign == 0) }

fn as_signed(u: u16) -> Signed { (number(u), !is_reversed(u)) }

fn all_signed(wire: &[u16]) -> Vec<Signed> { wire.iter().copied().map(as_signed).collect() }

/// Mostly a number below `count`; else one that names nothing, up to `most`.
fn some(rng: &mut Random, count: usize, most: usize) -> usize {
    if count == 0 || rng.one_in(40) {
        return rng.pick(&[count, count, count + 1, most]);
    }
    rng.below(count)
}

/// A parameter on, near and off the span of an edge.
fn parameter(rng: &mut Random, (t0, t1): (f64, f64)) -> Option<f64> {
    let (low, high) = (t0 + 0.000001, t1 - 0.000001);
    let odd = [f64::INFINITY, f64::NEG_INFINITY, f64::NAN, -f64::NAN, f64::MAX, -0.0, 5e-324];
    match rng.below(24) {
        0 => None,
        1 => Some(rng.pick(&odd)),
        2 => Some(f64::from_bits(rng.next())),
        3 => Some(rng.pick(&[t0, t1, t0 - 1.0, t1 + 1.0])),
        4..6 => Some(rng.pick(&[low.next_down(), low, low.next_up()])),
        6..8 => Some(rng.pick(&[high.next_down(), high, high.next_up()])),
        8..10 => Some(t0 + (t1 - t0) * (rng.below(1000) as f64 / 1000.0)),
        _ => Some(t0 / 2.0 + t1 / 2.0),
    }
}

impl Aim<'_> {
    pub fn at(draft: &Draft) -> Aim<'_> {
        let mut met = vec![vec![0; draft.points.len()]; draft.shells.len()];
        for (met, shell) in met.iter_mut().zip(&draft.shells) {
            for wire in shell.iter().flat_map(|l| &draft.faces[number(*l)].wires) {
                wire.iter().for_each(|u| met[draft.front(*u)] += 1);
            }
        }
        let mut faces = vec![Vec::new(); draft.edges.len()];
        for (f, face) in draft.faces.iter().enumerate() {
            face.wires.iter().flatten().for_each(|u| faces[number(*u)].push(f));
        }
        Aim { draft, ways: draft.ways(), met, faces }
    }

    pub fn edit(&self, rng: &mut Random) -> Asked {
        use Room::*;
        let edit = if rng.below(12) < 5 { self.shell_edit(rng) } else { self.face_edit(rng) };
        let room = match rng.below(20) {
            0..11 => [Ample, Ample],
            11..14 => [Exact, Exact],
            14..16 => [OneShort, Exact],
            16..18 => [Exact, OneShort],
            18 => [Empty, Ample],
            _ => [Ample, Empty],
        };
        Asked { edit, room }
    }

    /// A cut, a removal or a concat.
    pub fn shell_edit(&self, rng: &mut Random) -> Edit {
        let draft = self.draft;
        let shell = some(rng, draft.shells.len(), usize::MAX);
        let of_shell = |rng: &mut Random| {
            let listings = draft.shells.get(shell).filter(|listings| !listings.is_empty())?;
            let wires = &draft.faces[number(rng.pick(listings))].wires;
            let wire = &wires[rng.below(wires.len().max(1))..].first()?;
            Some(rng.pick(wire))
        };
        let meets = |point: usize| self.met.get(shell).map_or(0, |met| met[point]);
        // The point of a few that is met least, but as often as asked.
        let point = |rng: &mut Random, least: usize| {
            let points = draft.points.len();
            if points == 0 || rng.one_in(6) {
                return some(rng, points, 65_535);
            }
            let tried: Vec<_> = (0..8).map(|_| rng.below(points)).chain([points - 1]).collect();
            let tried = tried.into_iter().filter(|point| meets(*point) >= least);
            tried.min_by_key(|point| meets(*point)).unwrap_or(rng.below(points))
        };
        match rng.below(5) {
            0..2 => {
                let edge = match of_shell(rng) {
                    Some(u) if !rng.one_in(6) => number(u),
                    _ => some(rng, draft.edges.len(), 65_535),
                };
                let span = draft.edges.get(edge).map_or((0.0, 1.0), |e| (e.t0, e.t1));
                Edit::Cut { shell, edge, point: point(rng, 0), parameter: parameter(rng, span) }
            }
            2..4 => Edit::Remove { shell, point: point(rng, 1) },
            _ => {
                let a = self.any_use(rng);
                let b = match self.draft.edges.get(number(a)) {
                    Some(_) if !rng.one_in(6) => rng.pick(&self.ways[draft.back(a)]),
                    _ => self.any_use(rng),
                };
                Edit::Concat { a: as_signed(a), b: as_signed(b) }
            }
        }
    }

    fn any_use(&self, rng: &mut Random) -> u16 {
        some(rng, self.draft.edges.len(), 32_767) as u16 | rng.sign()
    }

    fn face_edit(&self, rng: &mut Random) -> Edit {
        let f = some(rng, self.draft.faces.len(), 32_767);
        let sign = rng.pick(&[0, 0, REVERSED]);
        let edit = match rng.below(8) {
            0..2 => FaceEdit::Add(self.outline_to_add(rng, f)),
            2..4 => FaceEdit::CutByWire(self.wire_across(rng, f)),
            4 => FaceEdit::CutByEdge(as_signed(self.edge_across(rng, f))),
            _ => {
                let beside = self.beside(rng, f);
                let other = match beside {
                    Some(other) if !rng.one_in(3) => other,
                    _ => some(rng, self.draft.faces.len(), 32_767),
                };
                let turn = if rng.one_in(12) { REVERSED } else { 0 };
                FaceEdit::Glue(signed(other, sign ^ turn))
            }
        };
        Edit::Face { face: signed(f, sign), lent: [0, 0], edit }
    }

    /// The points of a face's wires.
    fn corners(&self, f: usize) -> Vec<usize> {
        let wires = self.draft.faces.get(f).map_or(&[][..], |face| &face.wires);
        wires.iter().flatten().map(|u| self.draft.front(*u)).collect()
    }

    /// A face that shares an edge with this one.
    fn beside(&self, rng: &mut Random, f: usize) -> Option<usize> {
        let wire = self.draft.faces.get(f)?.wires.first()?;
        let edge = number(rng.pick(wire));
        Some(rng.pick(&self.faces[edge]))
    }

    fn outline_to_add(&self, rng: &mut Random, f: usize) -> Vec<Signed> {
        let barred = if rng.one_in(3) { Vec::new() } else { self.corners(f) };
        let found = (0..4).find_map(|_| self.cycle(rng, &barred));
        let mut wire = found.unwrap_or_else(|| self.path(rng, &[]));
        match rng.below(12) {
            0 => wire.clear(),
            1 => drop(wire.pop()),
            2 => wire.extend_from_within(..),
            3 => wire.push(self.any_use(rng)),
            _ => (),
        }
        all_signed(&wire)
    }

    fn cycle(&self, rng: &mut Random, barred: &[usize]) -> Option<Vec<u16>> {
        match self.draft.points.len() {
            0 => None,
            _ => self.draft.cycle(rng, &self.ways, barred),
        }
    }

    /// A walk from one of these points, or from any, to the next of them.
    fn path(&self, rng: &mut Random, ends: &[usize]) -> Vec<u16> {
        let mut path = Vec::new();
        if self.draft.edges.is_empty() {
            return path;
        }
        let mut here = match ends {
            [] => rng.below(self.draft.points.len()),
            _ => rng.pick(ends),
        };
        while path.len() < 8 && !self.ways[here].is_empty() {
            let way = rng.pick(&self.ways[here]);
            if path.last().is_some_and(|last| *last == way ^ REVERSED) && !rng.one_in(4) {
                continue;
            }
            path.push(way);
            here = self.draft.back(way);
            if ends.contains(&here) && !rng.one_in(12) || ends.is_empty() && rng.one_in(3) {
                break;
            }
        }
        path
    }

    fn wire_across(&self, rng: &mut Random, f: usize) -> Vec<Signed> {
        let ends = if rng.one_in(8) { Vec::new() } else { self.corners(f) };
        let mut wire = self.path(rng, &ends);
        match rng.below(16) {
            0 => wire.clear(),
            1 => wire.push(self.any_use(rng)),
            2 if wire.len() > 2 => drop(wire.remove(1)),
            _ => (),
        }
        all_signed(&wire)
    }

    fn edge_across(&self, rng: &mut Random, f: usize) -> u16 {
        let corners = self.corners(f);
        match corners.is_empty() || rng.one_in(6) {
            true => self.any_use(rng),
            false => {
                let corner = rng.pick(&corners);
                rng.pick(&self.ways[corner])
            }
        }
    }
}
