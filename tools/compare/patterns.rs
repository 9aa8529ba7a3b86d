//! Pattern files at random: shapes, other numbers for the same shape, other listings, tables
//! filled to their limits, damage.

use crate::draft::{number, turned, Draft, Edge, Face};
use crate::port::{FILE, REVERSED};
use oracle::BODIES;

/// Random numbers (splitmix64), always the same from the same start.
pub struct Random(pub u64);

impl Random {
    pub fn next(&mut self) -> u64 {
        self.0 = self.0.wrapping_add(0x9e37_79b9_7f4a_7c15);
        let z = (self.0 ^ (self.0 >> 30)).wrapping_mul(0xbf58_476d_1ce4_e5b9);
        let z = (z ^ (z >> 27)).wrapping_mul(0x94d0_49bb_1331_11eb);
        z ^ (z >> 31)
    }
    /// A number below `count`, which is not 0.
    pub fn below(&mut self, count: usize) -> usize { (self.next() % count as u64) as usize }
    pub fn one_in(&mut self, count: usize) -> bool { self.below(count) == 0 }
    pub fn pick<T: Copy>(&mut self, list: &[T]) -> T { list[self.below(list.len())] }
    pub fn sign(&mut self) -> u16 { self.pick(&[0, REVERSED]) }
    fn shuffle<T>(&mut self, list: &mut [T]) {
        for k in (1..list.len()).rev() {
            list.swap(k, self.below(k + 1));
        }
    }
    fn bytes(&mut self, count: usize) -> Vec<u8> { (0..count).map(|_| self.next() as u8).collect() }
}

// ------------------------------------------------------------------ shapes

fn edge(front: usize, back: usize) -> Edge {
    Edge { front: front as u16, back: back as u16, t0: 0.0, t1: 1.0 }
}

/// A pattern of faces with one wire each, all listed in one shell.
fn assembled(points: usize, edges: Vec<Edge>, outlines: Vec<Vec<u16>>) -> Draft {
    Draft {
        points: (0..points as u32).collect(),
        edges,
        shells: vec![(0..outlines.len() as u16).collect()],
        faces: outlines.into_iter().map(|wire| Face { surface: 1, wires: vec![wire] }).collect(),
    }
}

/// The same from text: edges as `01 12 20`, faces parted by `;`, their wires by `,`, uses as `0+`.
fn drawn(points: usize, edges: &str, faces: &str) -> Draft {
    let digit = |text: &str, k: usize| usize::from(text.as_bytes()[k] - b'0');
    let use_of = |word: &str| {
        let (number, sign) = word.split_at(word.len() - 1);
        number.parse::<u16>().unwrap() + if sign == "-" { REVERSED } else { 0 }
    };
    let wire = |text: &str| text.split_whitespace().map(use_of).collect();
    let face = |text: &str| Face { surface: 1, wires: text.split(',').map(wire).collect() };
    let edges = edges.split_whitespace().map(|e| edge(digit(e, 0), digit(e, 1))).collect();
    let mut draft = assembled(points, edges, Vec::new());
    draft.faces = faces.split(';').map(face).collect();
    draft.shells = vec![(0..draft.faces.len() as u16).collect()];
    draft
}

/// Squares in rows; closed in either direction if asked.
pub fn grid(width: usize, height: usize, round_x: bool, round_y: bool) -> Draft {
    let across = if round_x { width } else { width + 1 };
    let up = if round_y { height } else { height + 1 };
    let corner = |x: usize, y: usize| x % across + across * (y % up);
    let flat = |x: usize, y: usize| (x + width * (y % up)) as u16;
    let steep = |x: usize, y: usize| (width * up + x % across + across * y) as u16;
    let mut edges = Vec::new();
    for y in 0..up {
        edges.extend((0..width).map(|x| edge(corner(x, y), corner(x + 1, y))));
    }
    for y in 0..height {
        edges.extend((0..across).map(|x| edge(corner(x, y), corner(x, y + 1))));
    }
    let square = |x, y| {
        vec![flat(x, y), steep(x + 1, y), flat(x, y + 1) + REVERSED, steep(x, y) + REVERSED]
    };
    let squares = (0..height).flat_map(|y| (0..width).map(move |x| square(x, y))).collect();
    assembled(across * up, edges, squares)
}

pub fn polygon(n: usize) -> Draft {
    let edges = (0..n).map(|k| edge(k, (k + 1) % n)).collect();
    assembled(n, edges, vec![(0..n as u16).collect()])
}

/// Two polygons of n corners and n squares between them.
fn prism(n: usize) -> Draft {
    let mut edges: Vec<_> = (0..n).map(|k| edge(k, (k + 1) % n)).collect();
    edges.extend((0..n).map(|k| edge(n + k, n + (k + 1) % n)));
    edges.extend((0..n).map(|k| edge(k, n + k)));
    let foot: Vec<u16> = (0..n as u16).collect();
    let mut outlines = vec![turned(&foot), foot.iter().map(|k| k + n as u16).collect()];
    for k in 0..n {
        let next = (k + 1) % n;
        let side = [k, 2 * n + next, n + k, 2 * n + k].map(|k| k as u16);
        outlines.push(vec![side[0], side[1], side[2] + REVERSED, side[3] + REVERSED]);
    }
    assembled(2 * n, edges, outlines)
}

/// Triangles that share edge 0.
fn book(pages: usize) -> Draft {
    let mut edges = vec![edge(0, 1)];
    let mut outlines = Vec::new();
    for page in 0..pages {
        edges.extend([edge(1, 2 + page), edge(2 + page, 0)]);
        outlines.push(vec![0, 2 * page as u16 + 1, 2 * page as u16 + 2]);
    }
    assembled(2 + pages, edges, outlines)
}

/// Triangles that share point 0 only.
fn star(triangles: usize) -> Draft {
    let mut edges = Vec::new();
    for k in 0..triangles {
        edges.extend([edge(0, 2 * k + 1), edge(2 * k + 1, 2 * k + 2), edge(2 * k + 2, 0)]);
    }
    let outlines = (0..3 * triangles as u16).collect::<Vec<_>>().chunks(3).map(Vec::from).collect();
    assembled(2 * triangles + 1, edges, outlines)
}

/// One face, its wires running an edge of their own there and back.
pub fn there_and_back(wires: usize) -> Draft {
    let edges = (0..wires).map(|k| edge(2 * k, 2 * k + 1)).collect();
    let mut draft = assembled(2 * wires, edges, vec![Vec::new()]);
    draft.faces[0].wires = (0..wires as u16).map(|k| vec![k, k + REVERSED]).collect();
    draft
}

/// Every table full: 256 squares spread over the 2,048 points; face f has four of them, turned in
/// every second round; 16 shells of 32 listings.
pub fn every_table_full() -> Draft {
    let corner = |square: usize, k: usize| 2 * (4 * square + k % 4) + square % 2;
    let edges = (0..1024).map(|e| {
        let (square, k) = (e / 4, e % 4);
        let (t0, t1) = (-0.5 * square as f64, 12.25 + k as f64);
        Edge { t0, t1, ..edge(corner(square, k), corner(square, k + 1)) }
    });
    let face = |f: u16| {
        let squares = (0..4).map(|k| 4 * (f % 64) + k);
        let wires = squares.map(|square| (4 * square..4 * square + 4).collect::<Vec<_>>());
        let wires = wires.map(|wire| if f / 64 % 2 == 1 { turned(&wire) } else { wire });
        Face { surface: u16::MAX - f, wires: wires.collect() }
    };
    let listings: Vec<u16> = (0..256).flat_map(|f| [f, f + REVERSED]).collect();
    Draft {
        points: (0..2048).map(|k| u32::MAX - 3 * k).collect(),
        edges: edges.collect(),
        faces: (0..256).map(face).collect(),
        shells: listings.chunks(32).map(Vec::from).collect(),
    }
}

const TETRAHEDRON: (&str, &str) =
    ("01 12 20 03 13 23", "0+ 1+ 2+; 0- 3+ 4-; 1- 4+ 5-; 2- 5+ 3-");
/// Joined at point 0.
const TWO_TETRAHEDRA: (&str, &str) = (
    "01 12 20 03 13 23 04 45 50 06 46 56",
    "0+ 1+ 2+; 0- 3+ 4-; 1- 4+ 5-; 2- 5+ 3-; 6+ 7+ 8+; 6- 9+ 10-; 7- 10+ 11-; 8- 11+ 9-",
);

fn shape(rng: &mut Random) -> Draft {
    let few = 2 + rng.below(5);
    match rng.below(14) {
        0 => grid(1 + rng.below(4), 1 + rng.below(4), false, false),
        1 => grid(few, 1 + rng.below(3), true, false),
        2 => grid(few, 2 + rng.below(3), true, true),
        3 => prism(few),
        4 => book(few),
        5 => star(few),
        6 => polygon(few),
        7 => there_and_back(1 + rng.below(4)),
        8 => drawn(4, TETRAHEDRON.0, TETRAHEDRON.1),
        9 => drawn(7, TWO_TETRAHEDRA.0, TWO_TETRAHEDRA.1),
        10 => drawn(4, "01 12 20 13 32 03", "0+ 3+ 4+ 2+; 1+ 2+ 5+ 3-"), // a band with one side
        11 => drawn(8, "01 12 23 30 45 56 67 74", "0+ 1+ 2+ 3+, 7- 6- 5- 4-; 4+ 5+ 6+ 7+"),
        12 => drawn(2, "01 01 10", "0+ 2+; 1- 0+; 1+ 0-; 0+ 1-"),
        // a square with its diagonals and ways across it
        _ => drawn(6, "01 12 23 30 13 04 42 02 14 43 45 10", "0+ 1+ 2+ 3+; 3- 2- 1- 0-; 0+ 1+ 7-"),
    }
}

/// A few points, edges between any of them, faces of any simple outlines.
fn soup(rng: &mut Random) -> Draft {
    let points = 2 + rng.below(7);
    let edges = (0..1 + rng.below(12)).map(|_| {
        let front = rng.below(points);
        edge(front, (front + 1 + rng.below(points - 1)) % points)
    });
    let mut draft = assembled(points, edges.collect(), Vec::new());
    let ways = draft.ways();
    let surface = rng.pick(&[1, 1, 1, 2]);
    for _ in 0..1 + rng.below(6) {
        let mut face = Face { surface: rng.pick(&[1, 1, surface]), wires: Vec::new() };
        let mut barred = Vec::new();
        for _ in 0..rng.pick(&[0, 1, 1, 1, 1, 1, 2, 3]) {
            if let Some(wire) = draft.cycle(rng, &ways, &barred) {
                barred.extend(wire.iter().map(|u| draft.front(*u)));
                face.wires.push(wire);
            }
        }
        draft.faces.push(face);
    }
    draft.shells = vec![(0..draft.faces.len() as u16).map(|f| f + rng.sign()).collect()];
    draft
}

impl Draft {
    /// For each point the uses that begin there.
    pub fn ways(&self) -> Vec<Vec<u16>> {
        let mut ways = vec![Vec::new(); self.points.len()];
        for k in 0..self.edges.len() as u16 {
            for u in [k, k + REVERSED] {
                ways[self.front(u)].push(u);
            }
        }
        ways
    }

    /// A closed wire that meets no point twice and none of the barred ones, if a walk finds one.
    pub fn cycle(&self, rng: &mut Random, ways: &[Vec<u16>], barred: &[usize]) -> Option<Vec<u16>> {
        let mut here = rng.below(self.points.len());
        let (mut path, mut met) = (Vec::new(), Vec::new());
        while !barred.contains(&here) && !ways[here].is_empty() {
            if let Some(k) = met.iter().position(|point| *point == here) {
                return Some(path.split_off(k));
            }
            met.push(here);
            let mut way = rng.pick(&ways[here]);
            if path.last().is_some_and(|last| *last == way ^ REVERSED) && !rng.one_in(8) {
                way = rng.pick(&ways[here]);
            }
            here = self.back(way);
            path.push(way);
        }
        None
    }

    /// Puts another beside it, nothing shared, and hands back its listings.
    fn join(&mut self, other: Draft) -> Vec<u16> {
        let (points, edges) = (self.points.len() as u16, self.edges.len() as u16);
        let faces = self.faces.len() as u16;
        self.points.extend(other.points);
        self.edges.extend(other.edges.into_iter().map(|e| Edge {
            front: e.front + points,
            back: e.back + points,
            ..e
        }));
        self.faces.extend(other.faces.into_iter().map(|face| Face {
            wires: face.wires.iter().map(|w| w.iter().map(|u| u + edges).collect()).collect(),
            ..face
        }));
        other.shells.into_iter().flatten().map(|l| l + faces).collect()
    }

    /// The same, and its listings go to the last shell.
    fn add(&mut self, other: Draft) {
        let listings = self.join(other);
        match self.shells.last_mut() {
            Some(shell) => shell.extend(listings),
            None => self.shells.push(listings),
        }
    }

    /// The same under other numbers: points, edges and faces renumbered, edges and faces turned
    /// over, wires begun elsewhere, listings in another sequence.
    fn disguised(&self, rng: &mut Random) -> Draft {
        let mut renumbered = |count: usize| {
            let mut numbers: Vec<u16> = (0..count as u16).collect();
            rng.shuffle(&mut numbers);
            numbers
        };
        let points = renumbered(self.points.len());
        let edges = renumbered(self.edges.len());
        let faces = renumbered(self.faces.len());
        let edge_turn: Vec<u16> = self.edges.iter().map(|_| rng.sign()).collect();
        let face_turn: Vec<u16> = self.faces.iter().map(|_| rng.sign()).collect();
        let mut other = self.clone();
        for (k, e) in self.edges.iter().enumerate() {
            let (front, back) = (points[usize::from(e.front)], points[usize::from(e.back)]);
            let (front, back) = if edge_turn[k] == 0 { (front, back) } else { (back, front) };
            other.edges[usize::from(edges[k])] = Edge { front, back, ..*e };
        }
        for (k, face) in self.faces.iter().enumerate() {
            let mut wires = Vec::new();
            for wire in &face.wires {
                let renamed = |u: &u16| (edges[number(*u)] | *u & REVERSED) ^ edge_turn[number(*u)];
                let mut wire: Vec<u16> = wire.iter().map(renamed).collect();
                let start = rng.below(wire.len());
                wire.rotate_left(start);
                wires.push(if face_turn[k] == 0 { wire } else { turned(&wire) });
            }
            other.faces[usize::from(faces[k])] = Face { surface: face.surface, wires };
        }
        for shell in &mut other.shells {
            for l in shell.iter_mut() {
                *l = (faces[number(*l)] | *l & REVERSED) ^ face_turn[number(*l)];
            }
            rng.shuffle(shell);
        }
        other
    }

    /// Other listings: some dropped, turned, repeated, or moved to another shell.
    fn relist(&mut self, rng: &mut Random) {
        let mut shells = Vec::new();
        for mut shell in std::mem::take(&mut self.shells) {
            if rng.one_in(8) {
                shells.push(Vec::new());
            }
            if rng.one_in(4) {
                shell.retain(|_| !rng.one_in(5));
            }
            if !shell.is_empty() {
                if rng.one_in(4) {
                    let k = rng.below(shell.len());
                    shell[k] ^= REVERSED;
                }
                if rng.one_in(4) {
                    for _ in 0..1 + rng.below(2) {
                        shell.push(rng.pick(&shell) ^ rng.pick(&[0, 0, REVERSED]));
                    }
                }
                if rng.one_in(4) {
                    let rest = shell.split_off(rng.below(shell.len()));
                    shells.push(rest);
                }
                if rng.one_in(12) {
                    shells.push(shell.clone());
                }
            }
            shells.push(shell);
        }
        shells.truncate(16);
        self.shells = shells;
    }

    /// Other spans: in most patterns such as can be cut and joined, in some any.
    fn respan(&mut self, rng: &mut Random) {
        let wild = rng.one_in(3);
        for e in &mut self.edges {
            let tame = rng.pick(&[(0.0, 1.0), (-3.0, 7.25), (0.1, 0.3)]);
            (e.t0, e.t1) = if wild { span(rng) } else { tame };
        }
    }

    /// More uses, in faces that no shell lists, and more edges, up to or nearly up to the limits.
    fn fill(&mut self, rng: &mut Random) {
        let count = |draft: &Draft| draft.wires().map(Vec::len).sum::<usize>();
        let uses = BODIES[2].0 - rng.below(4);
        if rng.one_in(2) {
            let ring = self.edges.len() as u16;
            let wire: Vec<u16> = (ring..ring + 128).collect();
            self.join(polygon(128));
            while count(self) + 256 < uses {
                self.faces.push(Face { surface: 1, wires: vec![wire.clone()] });
            }
            self.join(polygon(uses - count(self)));
        }
        let edges = BODIES[1].0 - rng.below(4);
        if !rng.one_in(4) && self.points.len() >= 2 && self.edges.len() < edges {
            let (points, front) = (self.points.len(), rng.below(self.points.len()));
            let spoke = |k| edge(front, (front + 1 + k % (points - 1)) % points);
            self.edges.extend((self.edges.len()..edges).map(spoke));
        }
    }
}

fn above(x: f64, steps: i64) -> f64 { f64::from_bits((x.to_bits() as i64 + steps) as u64) }

/// A span that is accepted.
fn span(rng: &mut Random) -> (f64, f64) {
    const LIMIT: f64 = 1_000_000.0;
    let any = |rng: &mut Random| (rng.next() >> 11) as f64 / (1u64 << 53) as f64;
    let near = [0.000001, 0.000002, 0.0000021, 0.5, 1.0, 524_288.0, 500_000.0, 999_999.0, LIMIT];
    match rng.below(12) {
        0 => (0.0, 1.0),
        1 => (-0.0, 1.0),
        2 => (0.0, rng.pick(&near)),
        3 => (-rng.pick(&near), rng.pick(&near)),
        4 => (LIMIT - rng.pick(&near), LIMIT),
        5 => (-LIMIT, rng.pick(&near) - LIMIT),
        6 => (0.0, f64::from_bits(1 + rng.next() % 8)),
        7 => {
            let t0 = rng.pick(&near[..8]);
            (t0, above(t0, 1 + rng.below(3) as i64))
        }
        // the spans of 26, "not above its start"
        8 => (524_288.0 - 2f64.powi(-34), 524_288.0),
        9 => (-(2f64.powi(-34)), -0.75 * 2f64.powi(-34)),
        10 => (any(rng), 1.0 + any(rng)),
        _ => {
            let t0 = (any(rng) - 0.5) * 2.0 * LIMIT;
            (t0, t0 + (LIMIT - t0) * (0.001 + 0.9 * any(rng)))
        }
    }
}

// ---------------------------------------------------------------- patterns

/// A pattern that keeps every rule; a few pass a limit.
pub fn accepted(rng: &mut Random) -> Draft {
    let large = rng.one_in(60);
    let mut draft = match rng.below(6) {
        _ if large => large_shape(rng),
        0 => several_shells(rng),
        _ => small_shape(rng),
    };
    if !large {
        if rng.one_in(3) {
            draft.add(small_shape(rng));
        }
        if rng.one_in(8) {
            let face = Face { surface: 1, wires: Vec::new() };
            draft.add(Draft { faces: vec![face], shells: vec![vec![0]], ..Draft::default() });
        }
        if rng.one_in(25) {
            draft.fill(rng);
        }
    }
    if !rng.one_in(3) {
        draft.relist(rng);
    }
    draft.respan(rng);
    let spare = rng.pick(&[0, 1, 1, 2, 3]).min(BODIES[0].0 - draft.points.len());
    draft.points.extend((0..spare).map(|_| rng.next() as u32));
    draft
}

fn small_shape(rng: &mut Random) -> Draft {
    match rng.below(10) {
        0..5 => soup(rng),
        _ => shape(rng).disguised(rng),
    }
}

/// Shapes with a shell each, most of them closed, so that it is not the first shell that keeps
/// them from being a solid.
fn several_shells(rng: &mut Random) -> Draft {
    let mut draft = Draft::default();
    for _ in 0..1 + rng.below(5) {
        let part = match rng.below(8) {
            0..2 => prism(2 + rng.below(3)),
            2..4 => drawn(4, TETRAHEDRON.0, TETRAHEDRON.1),
            4 => drawn(7, TWO_TETRAHEDRA.0, TWO_TETRAHEDRA.1),
            5 => there_and_back(1),
            6 => Draft::default(),
            _ => shape(rng),
        };
        let listings = draft.join(part.disguised(rng));
        draft.shells.push(listings);
    }
    draft
}

fn large_shape(rng: &mut Random) -> Draft {
    let many = 4 + rng.below(13);
    let draft = match rng.below(8) {
        0 => grid(many, 16, true, true),
        1 => grid(many, 15, false, false),
        2 => prism(20 + rng.below(200)),
        3 => book(20 + rng.below(200)),
        4 => star(20 + rng.below(200)),
        5 => polygon(200 + rng.below(700)),
        6 => there_and_back(20 + rng.below(100)),
        _ => return every_table_full(),
    };
    if rng.one_in(3) { draft } else { draft.disguised(rng) }
}

/// A file: three in four accepted, the others mostly near to that.
pub fn file(rng: &mut Random) -> Vec<u8> {
    match rng.below(40) {
        0 => {
            let lengths = [rng.below(61), rng.below(4000), FILE + rng.below(3000)];
            let length = rng.pick(&lengths);
            rng.bytes(length)
        }
        1 => random_bodies(rng),
        2..6 => broken(rng).file(),
        6..10 => damaged(rng),
        _ => accepted(rng).file(),
    }
}

/// A true contents table, random records.
fn random_bodies(rng: &mut Random) -> Vec<u8> {
    let (mut table, mut end) = (Vec::new(), 56);
    for (limit, size) in BODIES {
        let any = rng.below(limit + 1);
        let count = rng.pick(&[0, 1, 2, any]);
        table.extend((end as u32).to_le_bytes());
        table.extend((count as u32).to_le_bytes());
        end += size * count;
    }
    let rest = rng.bytes(end - 56);
    [table, rest].concat()
}

/// A pattern with a fault or two in its records: numbers 3 to 8.
fn broken(rng: &mut Random) -> Draft {
    let mut draft = accepted(rng);
    for _ in 0..1 + rng.below(2) {
        let (points, edges) = (draft.points.len() as u16, draft.edges.len() as u16);
        let faces = draft.faces.len() as u16;
        if rng.one_in(2) && edges > 0 {
            let e = &mut draft.edges[rng.below(usize::from(edges))];
            let past = above(1_000_000.0, 1);
            match rng.below(4) {
                0 => e.back = e.front,
                1 => e.front = points + rng.pick(&[0, 0, 1, 1000]),
                2 => e.t1 = rng.pick(&[e.t0, f64::NAN, f64::INFINITY, past, e.t0 - 1.0]),
                _ => e.t0 = rng.pick(&[e.t1, f64::NAN, f64::NEG_INFINITY, -past, e.t1 + 1.0]),
            }
        } else if rng.one_in(8) && !draft.shells.is_empty() {
            draft.shells[0].push(faces + rng.pick(&[0, 0, 1, REVERSED]));
        } else if faces > 0 {
            let wires = &mut draft.faces[rng.below(usize::from(faces))].wires;
            if wires.is_empty() || rng.one_in(4) {
                wires.push(Vec::new());
            }
            let k = rng.below(wires.len());
            let length = wires[k].len();
            match rng.below(7) {
                0 => wires.push(wires[k].clone()),
                1 => wires[k].extend_from_within(..),
                2 => wires[k].push(edges + rng.pick(&[0, 0, 1, REVERSED, REVERSED - 1])),
                3 => wires[k].truncate(length.saturating_sub(1)),
                4 if length > 0 => wires[k][rng.below(length)] ^= REVERSED,
                5 if length > 0 => wires[k].swap(0, rng.below(length)),
                _ => wires[k].clear(),
            }
        }
    }
    draft
}

/// A file with a few bytes changed, put in, left out, or its end lost.
fn damaged(rng: &mut Random) -> Vec<u8> {
    let mut file = accepted(rng).file();
    if file.len() == 56 {
        return file;
    }
    for _ in 0..rng.pick(&[1, 1, 1, 2, 3]) {
        let k = rng.below(file.len());
        match rng.below(10) {
            0 => file.truncate(k.max(1)),
            1 => drop(file.remove(k)),
            2 => file.insert(k, rng.next() as u8),
            3 => file[k] = rng.next() as u8,
            4 => file.extend([0, 1]),
            5 => file.resize(FILE + rng.below(3), 0),
            // a number of the contents table, by little or by much
            6 => file[k % 14 * 4] = file[k % 14 * 4].wrapping_add(rng.pick(&[1, 255, 2])),
            7 => file[k % 14 * 4 + 1] = rng.pick(&[1, 4, 8, 16]),
            // a length in the bodies of wires, faces or shells
            8 => {
                let (body, size) = rng.pick(&[(3, 2), (4, 4), (5, 2)]);
                let start = u32::from_le_bytes(file[8 * body..8 * body + 4].try_into().unwrap());
                let count = file[8 * body + 4].max(1);
                let place = start as usize + size * rng.below(count.into());
                if let Some(length) = file.get_mut(place) {
                    *length = length.wrapping_add(rng.pick(&[1, 255]));
                }
            }
            // a byte of a record, by little
            _ => {
                let k = 56 + k % (file.len() - 56);
                file[k] = file[k].wrapping_add(rng.pick(&[1, 255, 128]));
            }
        }
        if file.len() <= 56 {
            break;
        }
    }
    file
}
