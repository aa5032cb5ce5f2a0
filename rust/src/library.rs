//! The static library's functions; include/mc33.h has the same in C.

/// The values at corners 0 to 7.
#[derive(Clone, Copy, Debug, PartialEq)]
#[repr(C)]
pub struct Cube(pub [f32; 8]);

/// A case (0 to 14) with one of its configurations; case 0 has -1 alone. [`family_of`](crate::family_of) finds it.
#[derive(Clone, Copy, Debug, PartialEq, Eq, Hash)]
#[repr(C)]
pub struct Family {
    /// 0 to 14.
    pub case: i8,
    /// Counted from 0; -1 in case 0.
    pub configuration: i8,
}

#[derive(Clone, Copy, Debug, Default, PartialEq)]
#[repr(C)]
pub struct Mc33Choice {
    pub refusal: u8,
    pub code: u8,
    pub row: u8,
    pub column: u8,
    pub centre: u8,
    pub unsettled: u8,
    pub unmatched: u8,
    pub readings: u8,
}

#[derive(Clone, Copy, Debug, PartialEq)]
#[repr(C)]
pub struct Mc33Face {
    pub refusal: u8,
    pub answer: u8,
}

#[derive(Clone, Copy, Debug, PartialEq)]
#[repr(C)]
pub struct Mc33Trust {
    pub refusal: u8,
    pub answer: u8,
    pub trust: u8,
}

#[derive(Clone, Copy, Debug, PartialEq)]
#[repr(C)]
pub struct Mc33Edge {
    pub refusal: u8,
    pub kind: u8,
    pub t: f32,
    pub product: f32,
}

#[derive(Clone, Copy, Debug, PartialEq)]
#[repr(C)]
pub struct Mc33Outcome {
    pub refusal: u64,
    pub place: u64,
}

extern "C" {
    fn mc33_choose(case: i8, configuration: i8, cube: Cube) -> Mc33Choice;
    fn mc33_family_of(set: u8) -> Family;
    fn mc33_choose_signs(cube: Cube) -> Mc33Choice;
    fn mc33_face(cube: Cube, face: i8) -> Mc33Face;
    fn mc33_trust_face(cube: Cube, face: i8) -> Mc33Trust;
    fn mc33_edge(cube: Cube, edge: i8) -> Mc33Edge;
    fn mc33_root(x: f32) -> f32;
    fn mc33_root_bits(bits: u32) -> u32;
    fn mc33_list(
        corners: *const f32,
        corners_length: usize,
        numbers: *const i8,
        numbers_length: usize,
        answers: *mut u8,
        answers_length: usize,
    ) -> Mc33Outcome;
    fn mc33_list_signs(
        corners: *const f32,
        corners_length: usize,
        answers: *mut u8,
        answers_length: usize,
    ) -> Mc33Outcome;
    fn mc33_version() -> u32;
}

// SAFETY, for all but the lists: the functions take any numbers and touch no memory of the caller's.

#[inline]
pub fn choose(case: i8, configuration: i8, cube: Cube) -> Mc33Choice {
    unsafe { mc33_choose(case, configuration, cube) }
}

pub fn family_of(set: u8) -> Family {
    unsafe { mc33_family_of(set) }
}

#[inline]
pub fn choose_signs(cube: Cube) -> Mc33Choice {
    unsafe { mc33_choose_signs(cube) }
}

pub fn face(cube: Cube, face: i8) -> Mc33Face {
    unsafe { mc33_face(cube, face) }
}

pub fn trust_face(cube: Cube, face: i8) -> Mc33Trust {
    unsafe { mc33_trust_face(cube, face) }
}

pub fn edge(cube: Cube, edge: i8) -> Mc33Edge {
    unsafe { mc33_edge(cube, edge) }
}

pub fn root(x: f32) -> f32 {
    unsafe { mc33_root(x) }
}

pub fn root_bits(bits: u32) -> u32 {
    unsafe { mc33_root_bits(bits) }
}

pub fn version() -> u32 {
    unsafe { mc33_version() }
}

pub fn list(corners: &[f32], numbers: &[i8], answers: &mut [u8]) -> Mc33Outcome {
    // SAFETY: the function reads the first two slices and writes within the third; Rust keeps the three apart.
    unsafe {
        mc33_list(
            corners.as_ptr(),
            corners.len(),
            numbers.as_ptr(),
            numbers.len(),
            answers.as_mut_ptr(),
            answers.len(),
        )
    }
}

pub fn list_signs(corners: &[f32], answers: &mut [u8]) -> Mc33Outcome {
    // SAFETY: as for `list`, of two slices.
    unsafe {
        mc33_list_signs(
            corners.as_ptr(),
            corners.len(),
            answers.as_mut_ptr(),
            answers.len(),
        )
    }
}
