//! The port: the functions of include/wuzsanget.h that are compared, and a safe call of each.

pub const FILE: usize = 41_048;
pub const REPORT: usize = 1_126_400;
pub const POINTS: usize = 2_048;
pub const LISTINGS: usize = 512;

pub const REVERSED: u16 = 32_768;
/// The bits of a parameter that is nowhere on the curve.
pub const NOWHERE: u64 = 0x7ff8_0000_0000_0000;

pub const DONE: usize = 0;
pub const UNREAD: usize = 1;
pub const REFUSED: usize = 2;

#[repr(C)]
#[derive(Clone, Copy, Default, PartialEq)]
pub struct Answer {
    pub outcome: usize,
    pub number: usize,
    pub first: usize,
    pub second: usize,
    pub third: usize,
    pub fourth: usize,
}

impl std::fmt::Display for Answer {
    fn fmt(&self, f: &mut std::fmt::Formatter<'_>) -> std::fmt::Result {
        let Answer { outcome, number, first, second, third, fourth } = self;
        write!(f, "outcome {outcome} number {number} values {first} {second} {third} {fourth}")
    }
}

extern "C" {
    fn wuzsanget_read(file: *const u8, file_length: usize) -> Answer;
    fn wuzsanget_outline(file: *const u8, file_length: usize, wire: usize) -> Answer;
    fn wuzsanget_write(
        file: *const u8, file_length: usize, out: *mut u8, out_length: usize,
    ) -> Answer;
    fn wuzsanget_report(file: *const u8, file_length: usize, text: *mut u8) -> usize;
    fn wuzsanget_shell_condition(file: *const u8, file_length: usize, shell: usize) -> Answer;
    fn wuzsanget_extract_boundaries(
        file: *const u8, file_length: usize, shell: usize, uses: *mut u16, lengths: *mut u16,
    ) -> Answer;
    fn wuzsanget_is_connected(file: *const u8, file_length: usize, shell: usize) -> Answer;
    fn wuzsanget_connected_components(
        file: *const u8, file_length: usize, shell: usize, listings: *mut u16, lengths: *mut u16,
    ) -> Answer;
    fn wuzsanget_singular_vertices(
        file: *const u8, file_length: usize, shell: usize, points: *mut u16,
    ) -> Answer;
    fn wuzsanget_solid(file: *const u8, file_length: usize) -> Answer;
    fn wuzsanget_cut_edge(
        file: *const u8, file_length: usize, shell: usize, edge: usize, point: usize, parameter: u64,
        out: *mut u8, out_length: usize,
    ) -> Answer;
    fn wuzsanget_remove_vertex(
        file: *const u8, file_length: usize, shell: usize, point: usize,
        out: *mut u8, out_length: usize,
    ) -> Answer;
    fn wuzsanget_concat(
        file: *const u8, file_length: usize, a: usize, b: usize, out: *mut u8, out_length: usize,
    ) -> Answer;
    fn wuzsanget_add_boundary(
        file: *const u8, file_length: usize, face: usize, wire: *const u16, wire_length: usize,
        uses: *mut u16, uses_length: usize, lengths: *mut u16, lengths_length: usize,
    ) -> Answer;
    fn wuzsanget_cut_by_wire(
        file: *const u8, file_length: usize, face: usize, wire: *const u16, wire_length: usize,
        uses: *mut u16, uses_length: usize, lengths: *mut u16, lengths_length: usize,
    ) -> Answer;
    fn wuzsanget_cut_by_edge(
        file: *const u8, file_length: usize, face: usize, edge_use: usize,
        uses: *mut u16, uses_length: usize, lengths: *mut u16, lengths_length: usize,
    ) -> Answer;
    fn wuzsanget_glue(
        file: *const u8, file_length: usize, face: usize, other: usize,
        uses: *mut u16, uses_length: usize, lengths: *mut u16, lengths_length: usize,
    ) -> Answer;
}

// Sound, each: a slice's pointer is never null and good for its length, the borrows keep
// apart what is written, and a list whose length the call does not take has the room asserted.

pub fn read(file: &[u8]) -> Answer { unsafe { wuzsanget_read(file.as_ptr(), file.len()) } }

pub fn outline(file: &[u8], wire: usize) -> Answer {
    unsafe { wuzsanget_outline(file.as_ptr(), file.len(), wire) }
}

pub fn write(file: &[u8], out: &mut [u8]) -> Answer {
    unsafe { wuzsanget_write(file.as_ptr(), file.len(), out.as_mut_ptr(), out.len()) }
}

pub fn report(file: &[u8], text: &mut [u8]) -> usize {
    assert!(text.len() >= REPORT);
    unsafe { wuzsanget_report(file.as_ptr(), file.len(), text.as_mut_ptr()) }
}

pub fn shell_condition(file: &[u8], shell: usize) -> Answer {
    unsafe { wuzsanget_shell_condition(file.as_ptr(), file.len(), shell) }
}

pub fn extract_boundaries(
    file: &[u8], shell: usize, uses: &mut [u16], lengths: &mut [u16],
) -> Answer {
    assert!(uses.len() >= POINTS && lengths.len() >= POINTS);
    let (uses, lengths) = (uses.as_mut_ptr(), lengths.as_mut_ptr());
    unsafe { wuzsanget_extract_boundaries(file.as_ptr(), file.len(), shell, uses, lengths) }
}

pub fn is_connected(file: &[u8], shell: usize) -> Answer {
    unsafe { wuzsanget_is_connected(file.as_ptr(), file.len(), shell) }
}

pub fn connected_components(
    file: &[u8], shell: usize, listings: &mut [u16], lengths: &mut [u16],
) -> Answer {
    assert!(listings.len() >= LISTINGS && lengths.len() >= LISTINGS);
    let (listings, lengths) = (listings.as_mut_ptr(), lengths.as_mut_ptr());
    unsafe { wuzsanget_connected_components(file.as_ptr(), file.len(), shell, listings, lengths) }
}

pub fn singular_vertices(file: &[u8], shell: usize, points: &mut [u16]) -> Answer {
    assert!(points.len() >= POINTS);
    unsafe { wuzsanget_singular_vertices(file.as_ptr(), file.len(), shell, points.as_mut_ptr()) }
}

pub fn solid(file: &[u8]) -> Answer { unsafe { wuzsanget_solid(file.as_ptr(), file.len()) } }

pub fn cut_edge(
    file: &[u8], shell: usize, edge: u16, point: u16, parameter: u64, out: &mut [u8],
) -> Answer {
    let (to, room) = (out.as_mut_ptr(), out.len());
    let (edge, point) = (edge.into(), point.into());
    unsafe {
        wuzsanget_cut_edge(file.as_ptr(), file.len(), shell, edge, point, parameter, to, room)
    }
}

pub fn remove_vertex(file: &[u8], shell: usize, point: u16, out: &mut [u8]) -> Answer {
    let (to, room) = (out.as_mut_ptr(), out.len());
    unsafe { wuzsanget_remove_vertex(file.as_ptr(), file.len(), shell, point.into(), to, room) }
}

pub fn concat(file: &[u8], a: u16, b: u16, out: &mut [u8]) -> Answer {
    let (to, room) = (out.as_mut_ptr(), out.len());
    unsafe { wuzsanget_concat(file.as_ptr(), file.len(), a.into(), b.into(), to, room) }
}

pub fn add_boundary(
    file: &[u8], face: u16, wire: &[u16], uses: &mut [u16], lengths: &mut [u16],
) -> Answer {
    unsafe {
        wuzsanget_add_boundary(
            file.as_ptr(), file.len(), face.into(), wire.as_ptr(), wire.len(),
            uses.as_mut_ptr(), uses.len(), lengths.as_mut_ptr(), lengths.len(),
        )
    }
}

pub fn cut_by_wire(
    file: &[u8], face: u16, wire: &[u16], uses: &mut [u16], lengths: &mut [u16],
) -> Answer {
    unsafe {
        wuzsanget_cut_by_wire(
            file.as_ptr(), file.len(), face.into(), wire.as_ptr(), wire.len(),
            uses.as_mut_ptr(), uses.len(), lengths.as_mut_ptr(), lengths.len(),
        )
    }
}

pub fn cut_by_edge(
    file: &[u8], face: u16, edge: u16, uses: &mut [u16], lengths: &mut [u16],
) -> Answer {
    unsafe {
        wuzsanget_cut_by_edge(
            file.as_ptr(), file.len(), face.into(), edge.into(),
            uses.as_mut_ptr(), uses.len(), lengths.as_mut_ptr(), lengths.len(),
        )
    }
}

pub fn glue(
    file: &[u8], face: u16, other: u16, uses: &mut [u16], lengths: &mut [u16],
) -> Answer {
    unsafe {
        wuzsanget_glue(
            file.as_ptr(), file.len(), face.into(), other.into(),
            uses.as_mut_ptr(), uses.len(), lengths.as_mut_ptr(), lengths.len(),
        )
    }
}
