//! Patterns laid out by hand: from and to the bytes of a file, and from the Rust's structures.

use crate::port::REVERSED;
use oracle::{as_used, point, Pattern, Signed, BODIES};

/// A pattern, its bodies nested: faces hold their wires, shells their listings.
#[derive(Clone, Default)]
pub struct Draft {
    pub points: Vec<u32>,
    pub edges: Vec<Edge>,
    pub faces: Vec<Face>,
    pub shells: Vec<Vec<u16>>,
}

#[derive(Clone, Copy)]
pub struct Edge {
    pub front: u16,
    pub back: u16,
    pub t0: f64,
    pub t1: f64,
}

#[derive(Clone)]
pub struct Face {
    pub surface: u16,
    pub wires: Vec<Vec<u16>>,
}

/// A use or a listing as the file has it.
pub fn signed_u16((number, plus): Signed) -> u16 {
    u16::try_from(number).unwrap() + if plus { 0 } else { REVERSED }
}

/// The number of a use or a listing.
pub fn number(signed: u16) -> usize { usize::from(signed % REVERSED) }

pub fn is_reversed(signed: u16) -> bool { signed >= REVERSED }

/// A wire in reverse order with every use turned.
pub fn turned(wire: &[u16]) -> Vec<u16> { wire.iter().rev().map(|u| u ^ REVERSED).collect() }

impl Draft {
    /// The pattern of a file whose contents table and sums are right.
    pub fn parse(file: &[u8]) -> Option<Draft> {
        let mut bodies = Vec::new();
        let mut rest = file.get(56..)?;
        for (entry, (_, size)) in file.chunks(8).zip(BODIES) {
            let count = u32::from_le_bytes(entry[4..].try_into().unwrap()) as usize;
            let (records, after) = rest.split_at_checked(size * count)?;
            bodies.push(records.chunks_exact(size));
            rest = after;
        }
        let u16_of = |bytes: &[u8]| u16::from_le_bytes(bytes[..2].try_into().unwrap());
        let f64_of = |bytes: &[u8]| f64::from_le_bytes(bytes[..8].try_into().unwrap());
        let edge = |e: &[u8]| Edge {
            front: u16_of(e),
            back: u16_of(&e[2..]),
            t0: f64_of(&e[4..]),
            t1: f64_of(&e[12..]),
        };
        let mut bodies = bodies.into_iter();
        let mut body = || bodies.next().unwrap();
        let points = body().map(|label| u32::from_le_bytes(label.try_into().unwrap())).collect();
        let edges = body().map(edge).collect();
        let mut uses = body().map(u16_of);
        let mut wires = body().map(|n| uses.by_ref().take(u16_of(n).into()).collect());
        let faces = body().map(|face| Face {
            surface: u16_of(&face[2..]),
            wires: wires.by_ref().take(u16_of(face).into()).collect(),
        });
        let faces = faces.collect();
        let lengths = body();
        let mut listings = body().map(u16_of);
        let shells = lengths.map(|n| listings.by_ref().take(u16_of(n).into()).collect()).collect();
        let draft = Draft { points, edges, faces, shells };
        (draft.file() == file).then_some(draft)
    }

    /// A pattern of the Rust's with the labels of this file.
    pub fn of(p: &Pattern, labels_of: &[u8]) -> Draft {
        let labels = labels_of[56..].chunks_exact(4).take(p.points.len());
        let edge = |e: &oracle::Edge| {
            let (front, back) = (point(e.absolute_front()) as u16, point(e.absolute_back()) as u16);
            let curve = e.curve();
            Edge { front, back, t0: curve.t0, t1: curve.t1 }
        };
        let face = |f: &oracle::Face| Face {
            surface: f.surface().value as u16,
            wires: f.absolute_boundaries().iter().map(uses).collect(),
        };
        Draft {
            points: labels.map(|label| u32::from_le_bytes(label.try_into().unwrap())).collect(),
            edges: p.edges.iter().map(edge).collect(),
            faces: p.faces.iter().map(face).collect(),
            shells: p.shells.iter().map(|s| s.iter().copied().map(signed_u16).collect()).collect(),
        }
    }

    pub fn wires(&self) -> impl Iterator<Item = &Vec<u16>> {
        self.faces.iter().flat_map(|face| &face.wires)
    }
    pub fn front(&self, u: u16) -> usize {
        let edge = self.edges[number(u)];
        usize::from(if is_reversed(u) { edge.back } else { edge.front })
    }
    pub fn back(&self, u: u16) -> usize { self.front(u ^ REVERSED) }

    /// The file: the contents table, then the bodies.
    pub fn file(&self) -> Vec<u8> {
        let u16s = |numbers: &mut dyn Iterator<Item = u16>| {
            numbers.flat_map(u16::to_le_bytes).collect::<Vec<u8>>()
        };
        let edge = |e: &Edge| {
            let (front, back) = (e.front.to_le_bytes(), e.back.to_le_bytes());
            [&front[..], &back, &e.t0.to_le_bytes(), &e.t1.to_le_bytes()].concat()
        };
        let bodies = [
            self.points.iter().flat_map(|label| label.to_le_bytes()).collect(),
            self.edges.iter().flat_map(edge).collect(),
            u16s(&mut self.wires().flatten().copied()),
            u16s(&mut self.wires().map(|wire| wire.len() as u16)),
            u16s(&mut self.faces.iter().flat_map(|f| [f.wires.len() as u16, f.surface])),
            u16s(&mut self.shells.iter().map(|shell| shell.len() as u16)),
            u16s(&mut self.shells.iter().flatten().copied()),
        ];
        let mut file = Vec::new();
        let mut offset = 56;
        for (body, (_, size)) in bodies.iter().zip(BODIES) {
            file.extend((offset as u32).to_le_bytes());
            file.extend(((body.len() / size) as u32).to_le_bytes());
            offset += body.len();
        }
        file.extend(bodies.concat());
        file
    }
}

/// The uses of a wire of the Rust's.
pub fn uses(wire: &oracle::Wire) -> Vec<u16> {
    wire.iter().map(|edge| signed_u16(as_used(edge))).collect()
}
