// The proved library, as the Rust crate declares it. The root over floats is compared by oracle/root.rs.
#[allow(dead_code)]
#[path = "../../rust/src/library.rs"]
mod declared;

pub use declared::{list, list_signs, root_bits, Mc33Choice, Mc33Face, Mc33Outcome};
use declared::Cube;

impl std::fmt::Display for Mc33Choice {
    fn fmt(&self, f: &mut std::fmt::Formatter) -> std::fmt::Result {
        let Mc33Choice { refusal, code, row, column, centre, unsettled, unmatched, readings } = self;
        write!(f, "refusal {refusal} code {code} row {row} column {column} ")?;
        write!(f, "centre {centre} unsettled {unsettled} unmatched {unmatched} readings {readings}")
    }
}

#[inline]
pub fn choose([case, configuration]: [i8; 2], corners: [f32; 8]) -> Mc33Choice {
    declared::choose(case, configuration, Cube(corners))
}

// Case and configuration of a set.
pub fn family_of(set: u8) -> [i8; 2] {
    let family = declared::family_of(set);
    [family.case, family.configuration]
}

#[inline]
pub fn choose_signs(corners: [f32; 8]) -> Mc33Choice {
    declared::choose_signs(Cube(corners))
}

pub fn face(corners: &[f32; 8], face: i8) -> Mc33Face {
    declared::face(Cube(*corners), face)
}

// Refusal, kind, and the bits of t and product.
pub fn edge(corners: &[f32; 8], edge: i8) -> [u32; 4] {
    let read = declared::edge(Cube(*corners), edge);
    [read.refusal as u32, read.kind as u32, read.t.to_bits(), read.product.to_bits()]
}
