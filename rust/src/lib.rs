//! The proved Marching Cubes 33 chooser, over its static library.
//!
//! From a cube's eight corner values, with the case and the configuration that their signs have ([`choose_signs`]) or
//! that the caller gives ([`choose`]), to the tiling that `handle_cube` of `baby_shark` picks. Every function takes any
//! numbers and gives an answer or one numbered refusal; none panics or allocates, and the crate needs no `std`. What
//! the library is proved to do is in the repository's `docs/PROOFS.md`; this crate only names its numbers.
//!
//! ```
//! use mc33::{choose_signs, Choice, Cube};
//!
//! // Case 3: the face between corners 0 and 2 joins them, or keeps them apart.
//! let joined = Cube([2.0, -1.0, 2.0, -1.0, -1.0, -1.0, -1.0, -1.0]);
//! let apart = Cube([1.0, -2.0, 1.0, -2.0, -1.0, -1.0, -1.0, -1.0]);
//! let name = |cube| match choose_signs(cube) {
//!     Ok(Choice::Tiled(tiling)) => tiling.name(),
//!     other => panic!("{other:?}"),
//! };
//! assert_eq!(name(joined), "3_2");
//! assert_eq!(name(apart), "3_1");
//! ```
//!
//! To link it, `libmc33_c.a` has to be in `target/staticlib` of the repository, where `./install.sh` makes it, or in
//! the folder that `MC33_LIB_DIR` names when cargo runs.
#![no_std]
#![deny(missing_docs)]

#[cfg(test)]
extern crate std;

mod choice;
mod library;
mod refusal;

pub use choice::{rows, Choice, NotARow, Tiling, ROW_BYTES};
pub use library::{Cube, Family};
pub use refusal::{ListRefused, Refusal};

use library::{Mc33Choice, Mc33Edge, Mc33Face, Mc33Outcome, Mc33Trust};

/// The version of the library that this crate was written for: (major, minor).
pub const VERSION: (u32, u32) = (5, 2);

/// The version of the library that is linked: (major, minor).
///
/// The crate reads every answer of a library whose major number is [`VERSION`]'s. One of a later minor number may
/// give refusals that the crate has no name for: [`Refusal::Unknown`].
///
/// ```
/// assert_eq!(mc33::version().0, mc33::VERSION.0);
/// ```
pub fn version() -> (u32, u32) {
    let number = library::version();
    (number / 1000, number % 1000)
}

impl From<[f32; 8]> for Cube {
    fn from(corners: [f32; 8]) -> Cube {
        Cube(corners)
    }
}

impl From<Cube> for [f32; 8] {
    fn from(cube: Cube) -> [f32; 8] {
        cube.0
    }
}

/// Chooses the tiling for a case (0 to 14), one of its configurations (-1 alone for case 0) and a cube.
///
/// # Errors
///
/// [`Refusal::NoCase`], [`Refusal::NoConfiguration`] and [`Refusal::NotFinite`], in this order.
///
/// ```
/// use mc33::{choose, Choice, Cube, Refusal};
/// let cube = Cube([3.0, -1.0, -1.0, -1.0, -1.0, -1.0, 3.0, -1.0]);
/// let Ok(Choice::Tiled(tiling)) = choose(4, 0, cube) else { panic!() };
/// assert_eq!((tiling.name(), tiling.unsettled), ("4_2", 3));
/// // All ones: the three readings divide nothing by nothing, so they are blank, and unsettled too.
/// let Ok(Choice::Tiled(tiling)) = choose(4, 0, Cube([1.0; 8])) else { panic!() };
/// assert_eq!((tiling.name(), tiling.unsettled), ("4_2", 3));
/// // Corners 2 and 5 are on no diagonal together: the three picks have no match, and edge 0 is left over.
/// let unpaired = Cube([-1.0, -1.0, 1.0, -1.0, -1.0, 1.0, -1.0, -1.0]);
/// let Ok(Choice::Tiled(tiling)) = choose(4, 0, unpaired) else { panic!() };
/// assert_eq!((tiling.unsettled, tiling.unmatched, tiling.readings), (0, 3, 3));
/// assert_eq!(choose(4, 8, cube), Err(Refusal::NoConfiguration));
/// assert_eq!(choose(0, -1, cube), Ok(Choice::Empty));
/// ```
#[inline]
pub fn choose(case: i8, configuration: i8, cube: Cube) -> Result<Choice, Refusal> {
    choice_said(library::choose(case, configuration, cube))
}

#[inline]
fn choice_said(said: Mc33Choice) -> Result<Choice, Refusal> {
    refusal::answered(said.refusal.into())?;
    let Mc33Choice {
        code,
        row,
        column,
        centre,
        unsettled,
        unmatched,
        readings,
        ..
    } = said;
    choice::choice_of(code, row, column, centre, unsettled, unmatched, readings)
        .ok_or(refusal::NO_NAME)
}

/// The family of a set of corners, whose bit n is corner n. Any number has one: 0 and 255 have case 0, and each other
/// set is the only one of its case and configuration.
///
/// The set of a cube is that of its corners above 0; a zero of either sign does not belong to it. The table that is
/// looked into is proved to be what its rule says (`docs/PROOFS.md`).
///
/// ```
/// use mc33::{family_of, Family};
/// let corners = [2.0f32, -1.0, 2.0, -1.0, 0.0, -0.0, -1.0, -1.0];
/// let set = (0..8).map(|n| u8::from(corners[n] > 0.0) << n).sum();
/// assert_eq!(family_of(set), Family { case: 3, configuration: 0 });
/// assert_eq!([0, 255].map(family_of), [Family { case: 0, configuration: -1 }; 2]);
/// ```
pub fn family_of(set: u8) -> Family {
    library::family_of(set)
}

/// Chooses the tiling for a cube by its signs: as [`choose`] for the family of the set of its corners above 0. A zero
/// of either sign does not belong to the set. Where no corner is a zero [`Tiling::unmatched`] is 0.
///
/// # Errors
///
/// [`Refusal::NotFinite`] alone.
///
/// ```
/// use mc33::{choose, choose_signs, Choice, Cube, Refusal};
/// let mut cube = Cube([3.0, -1.0, -1.0, -1.0, -1.0, -1.0, 3.0, -1.0]);
/// let Ok(Choice::Tiled(tiling)) = choose_signs(cube) else { panic!() };
/// assert_eq!((tiling.name(), tiling.unsettled), ("4_2", 3));
/// assert_eq!(choose_signs(cube), choose(4, 0, cube));
/// assert_eq!(choose_signs(Cube([0.0, -0.0, 0.0, -0.0, 0.0, -0.0, 0.0, -0.0])), Ok(Choice::Empty));
/// cube.0[7] = f32::NAN;
/// assert_eq!(choose_signs(cube), Err(Refusal::NotFinite));
/// ```
#[inline]
pub fn choose_signs(cube: Cube) -> Result<Choice, Refusal> {
    choice_said(library::choose_signs(cube))
}

/// How many configurations a case has, from 0 on: 0 for case 0, which has -1 alone, and for a number that is no case.
///
/// ```
/// assert_eq!([0, 4, 13, 15].map(mc33::configurations), [0, 8, 2, 0]);
/// ```
pub fn configurations(case: i8) -> i8 {
    const NUMBERS: [i8; 15] = [0, 16, 24, 24, 8, 48, 48, 16, 6, 8, 6, 12, 24, 2, 12];
    let place = usize::try_from(case).unwrap_or(NUMBERS.len());
    NUMBERS.get(place).copied().unwrap_or(0)
}

/// How many readings a choice of a case makes at most, as [`Tiling::readings`] counts them; 0 for a number that is no
/// case. Summed over a list's cases it is a ceiling on the list's work.
///
/// ```
/// assert_eq!([1, 3, 7, 13, 15].map(mc33::most_readings), [0, 1, 6, 7, 0]);
/// ```
pub fn most_readings(case: i8) -> u8 {
    const MOST: [u8; 15] = [0, 0, 0, 1, 3, 0, 2, 6, 0, 0, 3, 0, 4, 7, 0];
    let place = usize::try_from(case).unwrap_or(MOST.len());
    MOST.get(place).copied().unwrap_or(0)
}

/// Tests a face: -6..-1 or 1..6.
///
/// # Errors
///
/// [`Refusal::NoFace`], then [`Refusal::NotFinite`].
///
/// ```
/// use mc33::{test_face, Cube, Refusal};
/// let tied = Cube([1.0, -1.0, 1.0, -1.0, -1.0, -1.0, -1.0, -1.0]);
/// assert_eq!(test_face(tied, 5), Ok(true));
/// assert_eq!(test_face(tied, -5), Ok(false));
/// assert_eq!(test_face(tied, 0), Err(Refusal::NoFace));
/// ```
pub fn test_face(cube: Cube, face: i8) -> Result<bool, Refusal> {
    face_said(library::face(cube, face))
}

fn face_said(said: Mc33Face) -> Result<bool, Refusal> {
    refusal::answered(said.refusal.into())?;
    answer_said(said.answer)
}

fn answer_said(answer: u8) -> Result<bool, Refusal> {
    match answer {
        0 => Ok(false),
        1 => Ok(true),
        _ => Err(refusal::NO_NAME),
    }
}

/// Whether a face answer is the true join, that of the values as exact numbers: one of these three, so a match needs no
/// arm for others. [`trust_face`] has what is proved of it.
#[derive(Clone, Copy, Debug, PartialEq, Eq, Hash)]
pub enum Trust {
    /// It is, or the exact numbers are a tie too.
    Sure,
    /// The exact numbers join the other two corners: the rounded ones were a tie, which goes by the face number's sign.
    Turned,
    /// The four values do not alternate, or the magnitude of one is not from 1e-6 as an f32 to 2^63.
    Unknown,
}

/// A face answer with its trust.
#[derive(Clone, Copy, Debug, PartialEq, Eq, Hash)]
pub struct FaceTrust {
    /// What [`test_face`] answers.
    pub answer: bool,
    /// Whether that is the true join.
    pub trust: Trust,
}

/// Tests a face as [`test_face`] does, and tells whether the answer is the true join.
///
/// Let a, b, c, d be the values round the face and E = a×c - b×d, exact and not rounded: the true answer is `true`
/// where face × a × E is above 0, and `false` where it is below. The face test rounds; below 2^-23 it has a tie, which
/// goes by the face number's sign. So at ties, and nowhere else, an answer may be turned.
///
/// Proved, of values that alternate with magnitudes from 1e-6 as an f32 to 2^63: it is sure where |E| is at least 2^-22
/// and at least 2^-22 × (|a×c| + |b×d|), and where the answer is no tie. A choice goes by the answer, turned or not,
/// and so do both cubes that meet at the face: there is no slot.
///
/// # Errors
///
/// [`Refusal::NoFace`], then [`Refusal::NotFinite`].
///
/// ```
/// use mc33::{trust_face, Cube, FaceTrust, Refusal, Trust::*};
/// // Corners 0 to 3 are those of face 5.
/// let trusted = |corners: [f32; 4]| {
///     let mut cube = Cube([-1.0; 8]);
///     cube.0[..4].copy_from_slice(&corners);
///     trust_face(cube, 5).map(|FaceTrust { answer, trust }| (answer, trust))
/// };
/// assert_eq!(trusted([1.0, -2.0, 1.0, -2.0]), Ok((false, Sure)));
/// assert_eq!(trusted([1.0, -1.0, 1.0, -1.0]), Ok((true, Sure)));
/// // The first again, ten thousand times smaller: the products are 1e-8 and 4e-8, which the face test takes for a tie.
/// assert_eq!(trusted([1e-4, -2e-4, 1e-4, -2e-4]), Ok((true, Turned)));
/// assert_eq!(trusted([1.0; 4]), Ok((true, Unknown)));
/// assert_eq!(trust_face(Cube([1.0; 8]), 7), Err(Refusal::NoFace));
/// ```
pub fn trust_face(cube: Cube, face: i8) -> Result<FaceTrust, Refusal> {
    trust_said(library::trust_face(cube, face))
}

fn trust_said(said: Mc33Trust) -> Result<FaceTrust, Refusal> {
    refusal::answered(said.refusal.into())?;
    let trust = match said.trust {
        1 => Trust::Sure,
        2 => Trust::Turned,
        3 => Trust::Unknown,
        _ => return Err(refusal::NO_NAME),
    };
    answer_said(said.answer).map(|answer| FaceTrust { answer, trust })
}

/// What is read at an edge: one of these four, so a match needs no arm for others.
#[derive(Clone, Copy, Debug, PartialEq)]
pub enum Reading {
    /// The product's parabola opens upwards: it has no top, and t is not computed.
    Rising,
    /// The product's top is not on the edge: t is below 0 or above 1.
    Beyond {
        /// Where the product has its top.
        t: f32,
    },
    /// The product's top is on the edge: t is from 0 to 1.
    Crossed {
        /// Where the product has its top.
        t: f32,
        /// The product there; where it equals zero the reading is unsettled.
        product: f32,
    },
    /// t or the product is a NaN; the reading is unsettled.
    Blank,
}

/// Reads an edge: 0..11. The source has this as `interior_ambiguity_verification`.
///
/// # Errors
///
/// [`Refusal::NoEdge`], then [`Refusal::NotFinite`].
///
/// ```
/// use mc33::{read_edge, Cube, Reading, Refusal};
/// let cube = Cube([3.0, -1.0, -1.0, -1.0, -1.0, -1.0, 3.0, -1.0]);
/// assert_eq!(read_edge(cube, 0), Ok(Reading::Crossed { t: 0.5, product: 0.0 }));
/// assert_eq!(read_edge(Cube([1.0; 8]), 0), Ok(Reading::Blank));
/// assert_eq!(read_edge(cube, 12), Err(Refusal::NoEdge));
/// ```
pub fn read_edge(cube: Cube, edge: i8) -> Result<Reading, Refusal> {
    edge_said(library::edge(cube, edge))
}

fn edge_said(said: Mc33Edge) -> Result<Reading, Refusal> {
    refusal::answered(said.refusal.into())?;
    let Mc33Edge { t, product, .. } = said;
    match said.kind {
        1 => Ok(Reading::Rising),
        2 => Ok(Reading::Beyond { t }),
        3 => Ok(Reading::Crossed { t, product }),
        4 => Ok(Reading::Blank),
        _ => Err(refusal::NO_NAME),
    }
}

/// The f32 square root, the nearest value: a NaN for a NaN and below zero, each zero and +infinity for itself.
///
/// ```
/// assert_eq!(mc33::root(6.25), 2.5);
/// assert!(mc33::root(-1.0).is_nan());
/// assert!(mc33::root(-0.0).is_sign_negative());
/// ```
pub fn root(x: f32) -> f32 {
    library::root(x)
}

/// The same on bit patterns. The root of a NaN and of a value below zero is always 7fc00000.
///
/// ```
/// assert_eq!(mc33::root_bits(2.0f32.to_bits()), 0x3fb5_04f3);
/// assert_eq!(mc33::root_bits(0xff80_0000), 0x7fc0_0000);
/// ```
pub fn root_bits(bits: u32) -> u32 {
    library::root_bits(bits)
}

/// Chooses for a list of cubes: 8 corner values, 2 numbers (case and configuration) and [`ROW_BYTES`] answer bytes a
/// cube.
///
/// [`rows`] reads the answers, and `Choice::try_from` a row. Bytes past the last cube's stay as they are, and a
/// refused list has every answer byte unchanged.
///
/// # Errors
///
/// [`Refusal::UnevenLists`], [`Refusal::NoRoom`], then what [`choose`] refuses, at the first cube that has it.
///
/// ```
/// use mc33::{choose_list, Refusal};
/// let mut corners = [1.0, -1.0, 1.0, -1.0, -1.0, -1.0, -1.0, -1.0, 3.0, -1.0, -1.0, -1.0, -1.0, -1.0, 3.0, -1.0];
/// let mut answers = [7; 13];
/// assert_eq!(choose_list(&corners, &[3, 0, 4, 0], &mut answers), Ok(()));
/// assert_eq!(answers, [4, 0, 0, 0, 0, 1, 6, 0, 0, 6, 0, 3, 7]);
///
/// corners[15] = f32::INFINITY;
/// answers = [7; 13];
/// let error = choose_list(&corners, &[3, 0, 4, 0], &mut answers).unwrap_err();
/// assert_eq!((error.refusal, error.place), (Refusal::NotFinite, 1));
/// assert_eq!(answers, [7; 13]);
/// ```
pub fn choose_list(corners: &[f32], numbers: &[i8], answers: &mut [u8]) -> Result<(), ListRefused> {
    list_said(library::list(corners, numbers, answers))
}

/// Chooses for a list of cubes by their signs, as [`choose_signs`] for each: 8 corner values and [`ROW_BYTES`] answer
/// bytes a cube, and no numbers.
///
/// [`rows`] reads the answers. Bytes past the last cube's stay as they are, and a refused list has every answer byte
/// unchanged.
///
/// # Errors
///
/// [`Refusal::UnevenLists`] where the corners are not 8 values a cube, [`Refusal::NoRoom`], then [`Refusal::NotFinite`]
/// at the first cube that has it.
///
/// ```
/// use mc33::{choose_list_signs, Refusal};
/// let mut corners = [1.0, -1.0, 1.0, -1.0, -1.0, -1.0, -1.0, -1.0, 3.0, -1.0, -1.0, -1.0, -1.0, -1.0, 3.0, -1.0];
/// let mut answers = [7; 13];
/// assert_eq!(choose_list_signs(&corners, &mut answers), Ok(()));
/// assert_eq!(answers, [4, 0, 0, 0, 0, 1, 6, 0, 0, 6, 0, 3, 7]);
///
/// corners[15] = f32::INFINITY;
/// answers = [7; 13];
/// let error = choose_list_signs(&corners, &mut answers).unwrap_err();
/// assert_eq!((error.refusal, error.place), (Refusal::NotFinite, 1));
/// assert_eq!(answers, [7; 13]);
/// ```
pub fn choose_list_signs(corners: &[f32], answers: &mut [u8]) -> Result<(), ListRefused> {
    list_said(library::list_signs(corners, answers))
}

fn list_said(said: Mc33Outcome) -> Result<(), ListRefused> {
    refusal::answered(said.refusal).map_err(|refusal| ListRefused {
        refusal,
        place: said.place as usize,
    })
}

#[cfg(doctest)]
mod growth;
#[cfg(test)]
mod tests;
