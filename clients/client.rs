//! A client in Rust, and the test of the library from Rust: the functions of include/wuzsanget.h with
//! slices, called on the triangle of docs/FORMAT.md and on the mesh of a coat. Prints nothing; exit status 0 if
//! nothing fails.

/// An answer, as in include/wuzsanget.h.
#[repr(C)]
#[derive(Clone, Copy, Debug, PartialEq, Eq)]
struct Answer {
    outcome: usize,
    number: usize,
    first: usize,
    second: usize,
    third: usize,
    fourth: usize,
}

/// The answer of a job: the lengths of its line and of the edited file.
#[repr(C)]
#[derive(Clone, Copy)]
struct Job {
    text: usize,
    file: usize,
}

/// A mesh that comes in pieces.
#[repr(C)]
#[derive(Clone)]
struct Mesh {
    numbers: [u64; 24],
    spans: [f64; 2_048],
    tables: [u16; 12_312],
    index: [u16; 17_408],
}

const VERSION: usize = 2;
const FILE: usize = 41_048;
const REPORT: usize = 1_126_400;
const SHOW: usize = 262_144;
const SAID: usize = 256;
const LINE: usize = 65_536;
const BODIES: usize = 7;
const POINTS: usize = 2_048;
const WIRES: usize = 1_024;
const NOWHERE: u64 = 0x7ff8_0000_0000_0000;
const REVERSED: u16 = 32_768;

mod c {
    use super::{Answer, Job};
    #[link(name = "wuzsanget", kind = "static")]
    extern "C" {
        pub fn wuzsanget_version() -> usize;
        pub fn wuzsanget_read(file: *const u8, n: usize) -> Answer;
        pub fn wuzsanget_counts(file: *const u8, n: usize, counts: *mut u16) -> Answer;
        pub fn wuzsanget_outline(file: *const u8, n: usize, wire: usize) -> Answer;
        pub fn wuzsanget_report(file: *const u8, n: usize, text: *mut u8) -> usize;
        pub fn wuzsanget_show(file: *const u8, n: usize, text: *mut u8) -> usize;
        pub fn wuzsanget_extract_boundaries(
            file: *const u8, n: usize, shell: usize, uses: *mut u16, lengths: *mut u16,
        ) -> Answer;
        pub fn wuzsanget_solid(file: *const u8, n: usize) -> Answer;
        pub fn wuzsanget_cut_edge(
            file: *const u8, n: usize, shell: usize, edge: usize, point: usize, parameter: u64,
            out: *mut u8, m: usize,
        ) -> Answer;
        pub fn wuzsanget_remove_vertex(
            file: *const u8, n: usize, shell: usize, point: usize, out: *mut u8, m: usize,
        ) -> Answer;
        pub fn wuzsanget_concat(
            file: *const u8, n: usize, a: usize, b: usize, out: *mut u8, m: usize,
        ) -> Answer;
        pub fn wuzsanget_add_vertex(
            file: *const u8, n: usize, label: usize, out: *mut u8, m: usize,
        ) -> Answer;
        pub fn wuzsanget_draft(text: *const u8, n: usize, out: *mut u8, said: *mut u8) -> Answer;
        pub fn wuzsanget_import(mesh: *const u8, n: usize, out: *mut u8, m: usize) -> Answer;
        pub fn wuzsanget_import_start(numbers: *mut u64, index: *mut u16);
        pub fn wuzsanget_import_step(
            numbers: *mut u64, tables: *mut u16, spans: *mut f64, index: *mut u16, piece: *const u8,
            n: usize,
        );
        pub fn wuzsanget_import_finish(
            numbers: *mut u64, tables: *mut u16, spans: *mut f64, index: *mut u16, out: *mut u8,
            m: usize,
        ) -> Answer;
        pub fn wuzsanget_add_boundary(
            file: *const u8, n: usize, face: usize, wire: *const u16, k: usize,
            uses: *mut u16, m: usize, lengths: *mut u16, l: usize,
        ) -> Answer;
        pub fn wuzsanget_cut_by_wire(
            file: *const u8, n: usize, face: usize, wire: *const u16, k: usize,
            uses: *mut u16, m: usize, lengths: *mut u16, l: usize,
        ) -> Answer;
        pub fn wuzsanget_cut_by_edge(
            file: *const u8, n: usize, face: usize, edge_use: usize,
            uses: *mut u16, m: usize, lengths: *mut u16, l: usize,
        ) -> Answer;
        pub fn wuzsanget_glue(
            file: *const u8, n: usize, face: usize, other: usize,
            uses: *mut u16, m: usize, lengths: *mut u16, l: usize,
        ) -> Answer;
        pub fn wuzsanget_edit(
            line: *const u8, k: usize, file: *const u8, n: usize, out: *mut u8, text: *mut u8,
        ) -> Job;
    }
}

// The library takes any numbers and any bytes; what is unsafe is only the lengths, and those are the
// slices' own.

fn read(file: &[u8]) -> Answer {
    unsafe { c::wuzsanget_read(file.as_ptr(), file.len()) }
}

/// The numbers of points, edges, uses, wires, faces, shells and listings, or the refusal.
fn counts(file: &[u8]) -> Result<[u16; BODIES], Answer> {
    let mut counts = [0; BODIES];
    let a = unsafe { c::wuzsanget_counts(file.as_ptr(), file.len(), counts.as_mut_ptr()) };
    if a.outcome == 0 { Ok(counts) } else { Err(a) }
}

fn outline(file: &[u8], wire: usize) -> Answer {
    unsafe { c::wuzsanget_outline(file.as_ptr(), file.len(), wire) }
}

/// The first n bytes of a text.
fn text_of(mut text: Vec<u8>, n: usize) -> String {
    text.truncate(n);
    String::from_utf8(text).expect("the library writes ASCII")
}

fn report(file: &[u8]) -> String {
    let mut text = vec![0; REPORT];
    let n = unsafe { c::wuzsanget_report(file.as_ptr(), file.len(), text.as_mut_ptr()) };
    text_of(text, n)
}

fn show(file: &[u8]) -> String {
    let mut text = vec![0; SHOW];
    let n = unsafe { c::wuzsanget_show(file.as_ptr(), file.len(), text.as_mut_ptr()) };
    text_of(text, n)
}

/// The file of a text, or the sentence that says what is wrong.
fn draft(text: &[u8]) -> Result<Vec<u8>, String> {
    let (mut out, mut said) = (vec![0; FILE], vec![0; SAID]);
    let a = unsafe {
        c::wuzsanget_draft(text.as_ptr(), text.len(), out.as_mut_ptr(), said.as_mut_ptr())
    };
    out.truncate(a.first);
    if a.outcome == 0 { Ok(out) } else { Err(text_of(said, a.third)) }
}

/// Writes the file of a mesh.
fn import(mesh: &[u8], out: &mut [u8]) -> Answer {
    unsafe { c::wuzsanget_import(mesh.as_ptr(), mesh.len(), out.as_mut_ptr(), out.len()) }
}

impl Mesh {
    /// With one number and one entry everywhere.
    fn filled(number: u64, entry: u16) -> Box<Mesh> {
        let spans = [f64::from_bits(number); 2_048];
        Box::new(Mesh { numbers: [number; 24], spans, tables: [entry; 12_312], index: [entry; 17_408] })
    }

    fn start() -> Box<Mesh> {
        let mut m = Mesh::filled(0, 0);
        unsafe { c::wuzsanget_import_start(m.numbers.as_mut_ptr(), m.index.as_mut_ptr()) };
        m
    }

    fn step(&mut self, piece: &[u8]) {
        unsafe {
            c::wuzsanget_import_step(
                self.numbers.as_mut_ptr(), self.tables.as_mut_ptr(), self.spans.as_mut_ptr(),
                self.index.as_mut_ptr(), piece.as_ptr(), piece.len(),
            )
        }
    }

    /// Writes the file of the mesh that was read.
    fn finish(&mut self, out: &mut [u8]) -> Answer {
        unsafe {
            c::wuzsanget_import_finish(
                self.numbers.as_mut_ptr(), self.tables.as_mut_ptr(), self.spans.as_mut_ptr(),
                self.index.as_mut_ptr(), out.as_mut_ptr(), out.len(),
            )
        }
    }
}

/// The answer of a job, and the edited file if there is one.
fn edit(line: &[u8], file: &[u8]) -> (String, Option<Vec<u8>>) {
    let (mut out, mut text) = (vec![0; FILE], vec![0; LINE]);
    let job = unsafe {
        c::wuzsanget_edit(
            line.as_ptr(), line.len(), file.as_ptr(), file.len(), out.as_mut_ptr(),
            text.as_mut_ptr(),
        )
    };
    out.truncate(job.file);
    (text_of(text, job.text), (job.file > 0).then_some(out))
}

/// The openings of a shell and the lookups, or the refusal.
fn openings(file: &[u8], shell: usize) -> Result<(Vec<Vec<u16>>, usize), Answer> {
    let (mut uses, mut lengths) = ([0; POINTS], [0; POINTS]);
    let a = unsafe {
        c::wuzsanget_extract_boundaries(
            file.as_ptr(), file.len(), shell, uses.as_mut_ptr(), lengths.as_mut_ptr(),
        )
    };
    if a.outcome != 0 {
        return Err(a);
    }
    Ok((parted(&uses[..a.second], &lengths[..a.first]), a.third))
}

/// Uses parted into wires of these lengths.
fn parted(mut uses: &[u16], lengths: &[u16]) -> Vec<Vec<u16>> {
    let wire = |n: &u16| {
        let (wire, after) = uses.split_at(*n as usize);
        uses = after;
        wire.to_vec()
    };
    lengths.iter().map(wire).collect()
}

fn solid(file: &[u8]) -> Answer {
    unsafe { c::wuzsanget_solid(file.as_ptr(), file.len()) }
}

/// The edited file that a call wrote, with its answer, or the refusal.
fn edited(call: impl FnOnce(*mut u8, usize) -> Answer) -> Result<(Vec<u8>, Answer), Answer> {
    let mut out = vec![0; FILE];
    let a = call(out.as_mut_ptr(), out.len());
    out.truncate(a.third);
    if a.outcome == 0 { Ok((out, a)) } else { Err(a) }
}

/// The edited file and the two new edges, or the refusal.
fn cut_edge(
    file: &[u8], shell: usize, edge: usize, point: usize, parameter: Option<f64>,
) -> Result<(Vec<u8>, [usize; 2]), Answer> {
    let bits = parameter.map_or(NOWHERE, f64::to_bits);
    let (out, a) = edited(|out, m| unsafe {
        c::wuzsanget_cut_edge(file.as_ptr(), file.len(), shell, edge, point, bits, out, m)
    })?;
    Ok((out, [a.first, a.second]))
}

/// The edited file and the new edge, or the refusal.
fn remove_vertex(file: &[u8], shell: usize, point: usize) -> Result<(Vec<u8>, usize), Answer> {
    let (out, a) = edited(|out, m| unsafe {
        c::wuzsanget_remove_vertex(file.as_ptr(), file.len(), shell, point, out, m)
    })?;
    Ok((out, a.first))
}

/// The edited file and the new edge, or the refusal.
fn concat(file: &[u8], a: usize, b: usize) -> Result<(Vec<u8>, usize), Answer> {
    let (out, a) = edited(|out, m| unsafe {
        c::wuzsanget_concat(file.as_ptr(), file.len(), a, b, out, m)
    })?;
    Ok((out, a.first))
}

/// The edited file and the new point, or the refusal.
fn add_vertex(file: &[u8], label: usize) -> Result<(Vec<u8>, usize), Answer> {
    let (out, a) = edited(|out, m| unsafe {
        c::wuzsanget_add_vertex(file.as_ptr(), file.len(), label, out, m)
    })?;
    Ok((out, a.first))
}

fn add_boundary(
    file: &[u8], face: usize, wire: &[u16], uses: &mut [u16], lengths: &mut [u16],
) -> Answer {
    unsafe {
        c::wuzsanget_add_boundary(
            file.as_ptr(), file.len(), face, wire.as_ptr(), wire.len(),
            uses.as_mut_ptr(), uses.len(), lengths.as_mut_ptr(), lengths.len(),
        )
    }
}

/// The wires that a call wrote to lists with room for every result, or the refusal.
fn wires(
    call: impl FnOnce(*mut u16, usize, *mut u16, usize) -> Answer,
) -> Result<Vec<Vec<u16>>, Answer> {
    let (mut uses, mut lengths) = ([0; POINTS], [0; WIRES]);
    let a = call(uses.as_mut_ptr(), uses.len(), lengths.as_mut_ptr(), lengths.len());
    if a.outcome == 0 { Ok(parted(&uses[..a.first], &lengths[..a.second])) } else { Err(a) }
}

fn cut_by_wire(file: &[u8], face: usize, wire: &[u16]) -> Result<Vec<Vec<u16>>, Answer> {
    wires(|uses, m, lengths, l| unsafe {
        c::wuzsanget_cut_by_wire(
            file.as_ptr(), file.len(), face, wire.as_ptr(), wire.len(), uses, m, lengths, l,
        )
    })
}

fn cut_by_edge(file: &[u8], face: usize, edge_use: usize) -> Result<Vec<Vec<u16>>, Answer> {
    wires(|uses, m, lengths, l| unsafe {
        c::wuzsanget_cut_by_edge(file.as_ptr(), file.len(), face, edge_use, uses, m, lengths, l)
    })
}

fn glue(file: &[u8], face: usize, other: usize) -> Result<Vec<Vec<u16>>, Answer> {
    wires(|uses, m, lengths, l| unsafe {
        c::wuzsanget_glue(file.as_ptr(), file.len(), face, other, uses, m, lengths, l)
    })
}

/// The triangle 0+ 1+ 2+ of points 0, 1 and 2, and two points more that edge 3 joins.
fn triangle() -> Vec<u8> {
    let edges: [(u16, u16); 4] = [(0, 1), (1, 2), (2, 0), (3, 4)];
    let bodies: [Vec<u8>; 7] = [
        (7000..7005u32).flat_map(u32::to_le_bytes).collect(),
        edges
            .iter()
            .flat_map(|(front, back)| {
                let ends = [front.to_le_bytes(), back.to_le_bytes()].concat();
                [ends, 0f64.to_le_bytes().to_vec(), 1f64.to_le_bytes().to_vec()].concat()
            })
            .collect(),
        [0u16, 1, 2].into_iter().flat_map(u16::to_le_bytes).collect(),
        3u16.to_le_bytes().to_vec(),
        [1u16, 5].into_iter().flat_map(u16::to_le_bytes).collect(),
        1u16.to_le_bytes().to_vec(),
        0u16.to_le_bytes().to_vec(),
    ];
    let counts = [5u32, 4, 3, 1, 1, 1, 1];
    let mut offset = 56u32;
    let mut file = Vec::new();
    for (body, count) in bodies.iter().zip(counts) {
        file.extend(offset.to_le_bytes());
        file.extend(count.to_le_bytes());
        offset += body.len() as u32;
    }
    file.extend(bodies.concat());
    file
}

fn answer(outcome: usize, number: usize, first: usize, second: usize, third: usize) -> Answer {
    Answer { outcome, number, first, second, third, fourth: 0 }
}

/// The mesh of a coat, whole and in pieces.
fn meshes() {
    let mesh = include_bytes!("../samples/coat-mesh.obj");
    let file = include_bytes!("../samples/coat-mesh.pattern");
    let wrong = b"v\nv\nv\nf 1 2 4\n";
    let done = answer(0, 0, file.len(), 0, 0);
    let short = answer(2, 17, file.len(), 0, 0);
    let mut out = vec![7; FILE];
    let lent = out.clone();
    assert_eq!(import(mesh, &mut out[..file.len() - 1]), short);
    assert_eq!(import(mesh, &mut []), short);
    assert_eq!(import(wrong, &mut out), answer(2, 31, 4, 0, 0));
    assert_eq!(out, lent);
    assert_eq!(import(mesh, &mut out), done);
    assert_eq!((&out[..file.len()], &out[file.len()..]), (&file[..], &lent[file.len()..]));

    for size in [1, 2, 3, 7, 4_096] {
        let (mut m, mut refused, mut out) = (Mesh::start(), Mesh::start(), lent.clone());
        wrong.chunks(size).for_each(|piece| refused.step(piece));
        assert_eq!(refused.finish(&mut out), answer(2, 31, 4, 0, 0));
        mesh.chunks(size).for_each(|piece| m.step(piece));
        assert_eq!(m.finish(&mut out[..file.len() - 1]), short);
        assert_eq!(out, lent);
        assert_eq!(m.finish(&mut out), done);
        assert_eq!((&out[..file.len()], &out[file.len()..]), (&file[..], &lent[file.len()..]));
    }

    // No bytes: one shell without listings.
    let mut out = vec![0; FILE];
    assert_eq!(unsafe { c::wuzsanget_import(std::ptr::null(), 0, out.as_mut_ptr(), FILE) }, answer(0, 0, 58, 0, 0));
    assert_eq!(counts(&out[..58]), Ok([0, 0, 0, 0, 0, 1, 0]));
    assert_eq!(Mesh::start().finish(&mut out), answer(0, 0, 58, 0, 0));

    // Any content, not started: an answer, and what is written is a pattern.
    let mut state = 1u64;
    let mut random = || {
        state = state.wrapping_mul(6_364_136_223_846_793_005).wrapping_add(1_442_695_040_888_963_407);
        state >> 16
    };
    for k in 0..100 {
        let mut m = Mesh::filled(u64::MAX, u16::MAX);
        if k > 0 {
            m.numbers.fill_with(|| random() >> (random() % 48));
            m.spans.fill_with(|| f64::from_bits(random() << 16));
            m.tables.fill_with(|| random() as u16);
            m.index.fill_with(|| random() as u16);
        }
        m.step(mesh);
        let a = m.finish(&mut out);
        assert!(a.outcome != 0 || read(&out[..a.first]) == answer(0, 0, 0, 0, 0));
    }
}

fn main() {
    assert_eq!(unsafe { c::wuzsanget_version() }, VERSION);
    let file = triangle();
    let nothing = answer(1, 1, 0, 0, 0);
    assert_eq!(read(&file), answer(0, 0, 0, 0, 0));
    assert_eq!(read(&file[..55]), nothing);
    assert_eq!(read(&[]), nothing);
    assert_eq!(unsafe { c::wuzsanget_read(std::ptr::null(), 0) }, nothing);
    assert_eq!(read(&vec![0; 100_000]), nothing);
    assert_eq!(counts(&file), Ok([5, 4, 3, 1, 1, 1, 1]));
    assert_eq!(counts(&[]), Err(nothing));
    assert_eq!(outline(&file, 0), answer(0, 0, 0, 3, 0));
    assert_eq!(
        report(&file),
        "shell 0\ncondition Oriented\nconnected yes\nopening 0+ 1+ 2+\nlookups 4\n\
         component 0+\nsolid refused 12 shell 0\n"
    );
    assert_eq!(report(&[]), "refused 1 body 0 record 0\n");
    assert_eq!(
        show(&file),
        "point 0 label 7000\npoint 1 label 7001\npoint 2 label 7002\npoint 3 label 7003\n\
         point 4 label 7004\nedge 0 from 0 to 1 span 0 1\nedge 1 from 1 to 2 span 0 1\n\
         edge 2 from 2 to 0 span 0 1\nedge 3 from 3 to 4 span 0 1\n\
         face 0 surface 5 wire 0+ 1+ 2+\nshell 0 faces 0+\n"
    );
    assert_eq!(openings(&file, 0), Ok((vec![vec![0, 1, 2]], 4)));
    assert_eq!(solid(&file), answer(2, 12, 0, 0, 0));

    // Cut at a half; the same cut again is 14, and the first edge with a fresh point 15.
    assert_eq!(cut_edge(&file, 0, 0, 3, None), Err(answer(2, 16, 0, 0, 0)));
    assert_eq!(cut_edge(&file, 0, 0, 3, Some(f64::INFINITY)), Err(answer(2, 16, 0, 0, 0)));
    let (cut, new) = cut_edge(&file, 0, 0, 3, Some(0.5)).expect("a cut");
    assert_eq!((cut.len(), new), (file.len() + 42, [4, 5]));
    assert_eq!(openings(&cut, 0), Ok((vec![vec![4, 5, 1, 2]], 5)));
    assert_eq!(cut_edge(&cut, 0, 0, 3, Some(0.5)), Err(answer(2, 14, 0, 0, 0)));
    assert_eq!(cut_edge(&cut, 0, 0, 4, Some(0.5)), Err(answer(2, 15, 0, 0, 0)));
    let (removed, new) = remove_vertex(&cut, 0, 3).expect("a removal");
    assert_eq!((removed.len(), new), (cut.len() + 18, 6));
    let (joined, new) = concat(&file, 0, 1).expect("a concat");
    assert_eq!((joined.len(), new), (file.len() + 20, 4));

    let (more, new) = add_vertex(&file, 7005).expect("a fresh point");
    assert_eq!((counts(&more), new), (Ok([6, 4, 3, 1, 1, 1, 1]), 5));
    assert_eq!(report(&more), report(&file));
    assert_eq!(add_vertex(&file, 1 << 32), Err(answer(2, 3, 0, 0, 0)));

    // Text and back.
    assert_eq!(draft(show(&more).as_bytes()), Ok(more));
    assert_eq!(draft(b"shell 0 faces 0+"), Err("line 1: refused 3: a number that names nothing\n".into()));
    assert_eq!(draft(b"point 0"), Err("line 1: word 3 of point NUMBER label LABEL\n".into()));

    // The same cut as a job.
    assert_eq!(edit(b"cut 0 0 3 0.5", &file), ("done edges 4 5\n".into(), Some(cut.clone())));
    assert_eq!(edit(b"cut 0 65536 3 0.5", &file), ("refused 3\n".into(), None));
    assert_eq!(edit(b"glue 0+ 0+", &file), ("done wire 0+ 1+ 2+\n".into(), None));

    // The face cut along edge 0, which runs along its outline.
    let halves = vec![vec![1, 2, 0], vec![0, REVERSED]];
    assert_eq!(cut_by_edge(&file, 0, 0), Ok(halves.clone()));
    assert_eq!(cut_by_wire(&file, 0, &[0]), Ok(halves));
    assert_eq!(cut_by_wire(&file, 0, &[]), Err(answer(2, 19, 0, 0, 0)));
    assert_eq!(glue(&file, 0, 0), Ok(vec![vec![0, 1, 2]]));

    // An outline far from the triangle, added to the reversed face: it is stored turned.
    let wire = [3, 3 + REVERSED];
    let (mut uses, mut lengths) = ([7; 6], [7; 3]);
    let a = add_boundary(&file, REVERSED.into(), &wire, &mut uses, &mut lengths);
    assert_eq!(a, answer(0, 0, 5, 2, 0));
    assert_eq!((uses, lengths), ([0, 1, 2, 3, 3 + REVERSED, 7], [3, 2, 7]));
    let a = add_boundary(&file, 0, &wire, &mut uses[..4], &mut []);
    assert_eq!(a, answer(2, 17, 0, 0, 0));
    assert_eq!((uses, lengths), ([0, 1, 2, 3, 3 + REVERSED, 7], [3, 2, 7]));

    // Numbers that name nothing, though their lower 16 bits do.
    let unnamed = answer(2, 3, 0, 0, 0);
    assert_eq!(cut_edge(&file, 0, 65_542, 3, Some(0.5)), Err(unnamed));
    for up in [65_536, 1 << 32, usize::MAX - 65_535] {
        assert_eq!(outline(&file, up), unnamed);
        assert_eq!(openings(&file, up), Err(unnamed));
        assert_eq!(cut_edge(&file, up, 0, 3, Some(0.5)), Err(unnamed));
        assert_eq!(cut_edge(&file, 0, up, 3, Some(0.5)), Err(unnamed));
        assert_eq!(cut_edge(&file, 0, 0, up + 3, Some(0.5)), Err(unnamed));
        assert_eq!(remove_vertex(&cut, up, 3), Err(unnamed));
        assert_eq!(remove_vertex(&cut, 0, up + 3), Err(unnamed));
        assert_eq!(concat(&file, up, 1), Err(unnamed));
        assert_eq!(concat(&file, 0, up + 1), Err(unnamed));
        assert_eq!(add_boundary(&file, up, &wire, &mut uses, &mut lengths), unnamed);
        assert_eq!(cut_by_wire(&file, up, &[0]), Err(unnamed));
        assert_eq!(cut_by_edge(&file, up, 0), Err(unnamed));
        assert_eq!(cut_by_edge(&file, 0, up), Err(unnamed));
        assert_eq!(glue(&file, up, 0), Err(unnamed));
        assert_eq!(glue(&file, 0, up), Err(unnamed));
    }

    meshes();
}
