//! A smaller input with the same difference.

use crate::compare::{Comparison, Difference, Row};
use crate::draft::{number, Draft};
use crate::edits::Asked;
use oracle::{Edit, FaceEdit};
use std::time::{Duration, Instant};

/// A file and edits of it, one after the other; without edits the file alone.
#[derive(Clone)]
pub struct Case {
    pub file: Vec<u8>,
    pub edits: Vec<Asked>,
}

const PATIENCE: Duration = Duration::from_secs(5);

impl Case {
    /// The difference of this row, if the case has one.
    pub fn difference(&self, both: &mut Comparison, row: Row) -> Option<Difference> {
        both.differences.clear();
        let mut file = self.file.clone();
        if self.edits.is_empty() {
            both.file(&file);
        } else if let Ok(mut pattern) = oracle::read(&file, oracle::Asked::Once) {
            for asked in &self.edits {
                if let Some(edited) = both.edit(&file, &pattern, asked) {
                    (file, pattern) = edited;
                }
            }
            if self.edits.len() > 1 {
                both.accepted(&file, &pattern);
            }
        }
        both.differences.drain(..).find(|difference| difference.row == row)
    }

    /// The smallest case found that still has a difference of this row.
    pub fn shrunk(mut self, both: &mut Comparison, row: Row) -> Case {
        let start = Instant::now();
        while let Some(smaller) = self.smaller().into_iter().find(|smaller| {
            start.elapsed() < PATIENCE && smaller.difference(both, row).is_some()
        }) {
            self = smaller;
        }
        self
    }

    /// What is left when one thing is left out or made plain, for one edit at most.
    fn smaller(&self) -> Vec<Case> {
        let mut cases = Vec::new();
        let draft = match Draft::parse(&self.file) {
            Some(draft) if self.edits.len() <= 1 => draft,
            _ => return cases,
        };
        let mut offer = |draft: Draft, edits: Option<Vec<Asked>>| {
            cases.extend(edits.map(|edits| Case { file: draft.file(), edits }));
        };
        for s in 0..draft.shells.len() {
            let mut less = draft.clone();
            less.shells.remove(s);
            offer(less, without(&self.edits, Thing::Shell, s));
        }
        for f in 0..draft.faces.len() {
            offer(draft.without_face(f), without(&self.edits, Thing::Face, f));
        }
        for s in 0..draft.shells.len() {
            for k in 0..draft.shells[s].len() {
                let mut less = draft.clone();
                less.shells[s].remove(k);
                offer(less, Some(self.edits.clone()));
            }
        }
        for f in 0..draft.faces.len() {
            for w in 0..draft.faces[f].wires.len() {
                let mut less = draft.clone();
                less.faces[f].wires.remove(w);
                offer(less, Some(self.edits.clone()));
            }
        }
        let unused = |e: &usize| draft.wires().flatten().all(|u| number(*u) != *e);
        for e in (0..draft.edges.len()).filter(unused) {
            offer(draft.without_edge(e), without(&self.edits, Thing::Edge, e));
        }
        let ends = |p: u16| draft.edges.iter().any(|e| e.front == p || e.back == p);
        for p in (0..draft.points.len()).filter(|p| !ends(*p as u16)) {
            offer(draft.without_point(p), without(&self.edits, Thing::Point, p));
        }
        for e in 0..draft.edges.len() {
            let mut plain = draft.clone();
            (plain.edges[e].t0, plain.edges[e].t1) = (0.0, 1.0);
            if plain.file() != self.file {
                offer(plain, Some(self.edits.clone()));
            }
        }
        cases
    }
}

impl Draft {
    fn without_face(&self, f: usize) -> Draft {
        let mut less = self.clone();
        less.faces.remove(f);
        for shell in &mut less.shells {
            shell.retain(|l| number(*l) != f);
            shell.iter_mut().filter(|l| number(**l) > f).for_each(|l| *l -= 1);
        }
        less
    }

    fn without_edge(&self, e: usize) -> Draft {
        let mut less = self.clone();
        less.edges.remove(e);
        let uses = less.faces.iter_mut().flat_map(|face| &mut face.wires).flatten();
        uses.filter(|u| number(**u) > e).for_each(|u| *u -= 1);
        less
    }

    fn without_point(&self, p: usize) -> Draft {
        let mut less = self.clone();
        less.points.remove(p);
        let ends = less.edges.iter_mut().flat_map(|e| [&mut e.front, &mut e.back]);
        ends.filter(|end| usize::from(**end) > p).for_each(|end| *end -= 1);
        less
    }
}

#[derive(PartialEq)]
enum Thing {
    Shell,
    Edge,
    Point,
    Face,
}

/// The numbers in an edit, with what they name.
fn numbers(edit: &mut Edit) -> Vec<(Thing, &mut usize)> {
    match edit {
        Edit::Cut { shell, edge, point, .. } => {
            vec![(Thing::Shell, shell), (Thing::Edge, edge), (Thing::Point, point)]
        }
        Edit::Remove { shell, point } => vec![(Thing::Shell, shell), (Thing::Point, point)],
        Edit::Concat { a, b } => vec![(Thing::Edge, &mut a.0), (Thing::Edge, &mut b.0)],
        Edit::Face { face, edit, .. } => {
            let mut all = vec![(Thing::Face, &mut face.0)];
            match edit {
                FaceEdit::Add(wire) | FaceEdit::CutByWire(wire) => {
                    all.extend(wire.iter_mut().map(|u| (Thing::Edge, &mut u.0)))
                }
                FaceEdit::CutByEdge(edge) => all.push((Thing::Edge, &mut edge.0)),
                FaceEdit::Glue(other) => all.push((Thing::Face, &mut other.0)),
            }
            all
        }
    }
}

/// The edits where this thing is gone and those after it have moved up, unless one names it.
fn without(edits: &[Asked], gone: Thing, place: usize) -> Option<Vec<Asked>> {
    let mut edits = edits.to_vec();
    for (thing, number) in edits.iter_mut().flat_map(|asked| numbers(&mut asked.edit)) {
        if thing == gone && *number == place {
            return None;
        }
        if thing == gone && *number > place {
            *number -= 1;
        }
    }
    Some(edits)
}
