// The front, a choice by the signs alone: against CASES, with a bit for a value above 0, and the Rust's handle_cube.
use crate::compare::{differ, hex, NOT_FINITE};
use crate::cubes::Random;
use crate::library::{choose_signs, family_of, Mc33Choice};
use crate::met::{case_counts, met, wanted, THINGS};
use crate::rust::sets::CASES;
use crate::rust::{set_above, Both};
use crate::voxels::print_lookups;

// Beside what choices meet: each set, each zero at each corner, and each kind of value not finite at each corner.
const SET: usize = THINGS;
const ZERO: usize = SET + 256;
const REFUSED: usize = ZERO + 8 * 2;
const FRONT_THINGS: usize = REFUSED + 8 * KINDS;

// Those of NOT_FINITE and any other.
const KINDS: usize = NOT_FINITE.len() + 1;

pub struct Front {
    rust: Both,
    random: Random,
    counts: Vec<u64>,
    refused: u64,
    differ: u64,
}

impl Front {
    pub fn new(seed: u64) -> Self {
        Front { rust: Both::new(), random: Random(seed), counts: vec![0; FRONT_THINGS], refused: 0, differ: 0 }
    }

    // A cube whose corners are finite; in one of 64 some are then made not finite.
    pub fn compare(&mut self, corners: &[f32; 8]) {
        let theirs = self.rust.choice_by_signs(corners);
        self.hold(corners, &theirs);
        let counts = &mut self.counts;
        met(&self.rust.noted, &theirs, |thing| counts[thing] += 1);
        counts[SET + set_above(corners) as usize] += 1;
        for (corner, value) in corners.iter().enumerate().filter(|(_, value)| **value == 0.0) {
            counts[ZERO + 2 * corner + value.is_sign_negative() as usize] += 1;
        }
        if self.random.below(64) == 0 {
            self.compare_spoilt(*corners);
        }
    }

    fn compare_spoilt(&mut self, mut corners: [f32; 8]) {
        for _ in 0..=self.random.below(3) {
            let (corner, kind) = (self.random.below(8), self.random.below(KINDS));
            let any = self.random.next() as u32 | 0x7f80_0000;
            corners[corner] = f32::from_bits(*NOT_FINITE.get(kind).unwrap_or(&any));
            self.counts[REFUSED + KINDS * corner + kind] += 1;
        }
        self.refused += 1;
        self.hold(&corners, &Mc33Choice { refusal: 3, ..Mc33Choice::default() });
    }

    fn hold(&mut self, corners: &[f32; 8], theirs: &Mc33Choice) {
        let ours = choose_signs(*corners);
        if ours != *theirs {
            self.differ += 1;
            differ(format!("by signs, corners {}", hex(corners)), ours.to_string(), theirs.to_string());
        }
    }

    // Both together.
    pub fn with(mut self, other: Front) -> Front {
        self.counts.iter_mut().zip(other.counts).for_each(|(count, more)| *count += more);
        Front { refused: self.refused + other.refused, differ: self.differ + other.differ, ..self }
    }

    // What was met; whether nothing that has to be met was not.
    pub fn print(&self) -> bool {
        let counts = &self.counts;
        let least = |start: usize, number: usize| counts[start..start + number].iter().min().unwrap();
        let cubes: u64 = counts[SET..ZERO].iter().sum();
        println!("\nthe front: {cubes} cubes and {} not finite, {} differ", self.refused, self.differ);
        println!("  256 sets, least {}; cases 0 to 14: {:?}", least(SET, 256), case_counts(counts));
        println!("  +0 and -0 at each corner, least {}; {KINDS} kinds of values not finite at each corner, least {}",
            least(ZERO, REFUSED - ZERO), least(REFUSED, 8 * KINDS));
        let wanted = wanted_by_signs();
        let (rarest, name) = wanted.iter().min_by_key(|(thing, _)| counts[*thing]).unwrap();
        println!("  {} things wanted, least {} ({name})", wanted.len(), counts[*rarest]);
        let unhit: Vec<&str> =
            wanted.iter().filter(|(thing, _)| counts[*thing] == 0).map(|(_, name)| name.as_str()).collect();
        let hit = if unhit.is_empty() { "nothing unhit".into() } else { format!("unhit: {}", unhit.join("; ")) };
        println!("  {hit}");
        unhit.is_empty()
    }
}

fn wanted_by_signs() -> Vec<(usize, String)> {
    let mut all = wanted();
    all.extend((0..256).map(|set| (SET + set, format!("set {set}"))));
    for corner in 0..8 {
        all.extend((0..2).map(|sign| (ZERO + 2 * corner + sign, format!("{}0 at corner {corner}", ["+", "-"][sign]))));
        all.extend((0..KINDS).map(|kind| (REFUSED + KINDS * corner + kind, format!("kind {kind} at corner {corner}"))));
    }
    all
}

// The family of each set against CASES there.
pub fn compare_families() -> bool {
    let mut differing = 0;
    for (set, theirs) in CASES.iter().enumerate() {
        let ours = family_of(set as u8);
        if ours != *theirs {
            differing += 1;
            differ(format!("set {set}"), format!("{ours:?}"), format!("{theirs:?}"));
        }
    }
    println!("families: {} sets, {differing} differ", CASES.len());
    differing == 0
}

// All families, and what the source's own lookup finds.
pub fn families() -> bool {
    let same = compare_families();
    print_lookups() && same
}

// Each set with its case and configuration, from CASES: what the gate's program set_families prints.
pub fn sets() -> bool {
    CASES.iter().enumerate().for_each(|(set, [case, configuration])| println!("{set} {case} {configuration}"));
    true
}
