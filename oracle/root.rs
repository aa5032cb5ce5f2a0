// The proved root against the machine's own f32 square root.
//
//   (no word)   compares it, over bits and over floats, at every one of the 2^32 patterns, then measures its speed,
//               by processor time
//   speed       measures its speed alone
//   sample      prints PATTERN ROOT, eight hex digits each, a line for each pattern of a fixed
//               choice, made by the machine's root alone: the input of crates/root_sample
#[allow(dead_code)]
#[path = "../rust/src/library.rs"]
mod library;

mod clock;

use clock::{median, processor_time};
use library::{root, root_bits};
use std::collections::BTreeSet;
use std::hint::black_box;

const NAN: u32 = 0x7fc0_0000;

// The machine's root, as a call of its own so that its loop below takes one pattern at a time.
#[inline(never)]
fn machine(bits: u32) -> u32 {
    f32::from_bits(bits).sqrt().to_bits()
}

// One pattern for all NaNs. They are told by their bits: the compiler may take one float NaN for another.
fn one_nan(bits: u32) -> u32 {
    if bits & 0x7fff_ffff > 0x7f80_0000 { NAN } else { bits }
}

// What the definition asks: the machine's bits, and one pattern for all its NaNs.
fn expected(bits: u32) -> u32 {
    one_nan(machine(bits))
}

// The root over floats, whose NaN may have any pattern.
fn root_of_float(bits: u32) -> u32 {
    one_nan(root(f32::from_bits(bits)).to_bits())
}

// Patterns that differ, and NaN results, from `from` up to `to`.
fn compare(from: u64, to: u64) -> (u64, u64) {
    let (mut differ, mut nans) = (0, 0);
    for pattern in from..to {
        let bits = pattern as u32;
        let (ours, of_float, expected) = (root_bits(bits), root_of_float(bits), expected(bits));
        if [ours, of_float] != [expected; 2] {
            differ += 1;
            if differ <= 5 {
                println!("{bits:08x}: {ours:08x} and {of_float:08x}, the machine has {expected:08x}");
            }
        }
        if ours == NAN {
            nans += 1;
        }
    }
    (differ, nans)
}

fn compare_all() -> bool {
    let half = 1u64 << 31;
    let upper = std::thread::spawn(move || compare(half, 2 * half));
    let lower = compare(0, half);
    let upper = upper.join().unwrap();
    let differ = lower.0 + upper.0;
    println!("{} patterns, {differ} differ, {} results are NaN", 2 * half, lower.1 + upper.1);
    differ == 0
}

// Normal positive patterns, the same at each run.
fn normals(n: usize) -> Vec<u32> {
    let mut state = 0x9e37_79b9u32;
    let mut found = Vec::with_capacity(n);
    while found.len() < n {
        state ^= state << 13;
        state ^= state >> 17;
        state ^= state << 5;
        let bits = state & 0x7fff_ffff;
        if (0x0080_0000..0x7f80_0000).contains(&bits) {
            found.push(bits);
        }
    }
    found
}

fn nanoseconds(patterns: &[u32], root: impl Fn(u32) -> u32) -> f64 {
    let start = processor_time();
    let mut mixed = 0;
    for _ in 0..64 {
        for &bits in black_box(patterns) {
            mixed ^= root(bits);
        }
    }
    black_box(mixed);
    (processor_time() - start) as f64 / (64 * patterns.len()) as f64
}

// Both are called once for each pattern, one after the other, and their results mixed by xor.
fn speed() -> bool {
    let patterns = normals(4096);
    let (mut mine, mut theirs) = (Vec::new(), Vec::new());
    for _ in 0..101 {
        mine.push(nanoseconds(&patterns, root_bits));
        theirs.push(nanoseconds(&patterns, machine));
    }
    let (mine, theirs) = (median(mine), median(theirs));
    let ratio = mine / theirs;
    println!("{:<24}{mine:>9.1}{theirs:>9.1}{ratio:>7.2}", "root, normal numbers");
    ratio <= 25.0
}

fn sample() {
    let mut chosen: BTreeSet<u32> = BTreeSet::new();
    // Every exponent of both signs, with digits of several kinds.
    let mut state = 1u32;
    for field in 0..256u32 {
        for digits in [0, 1, 2, 0x2a_aaaa, 0x35_04f3, 0x35_04f4, 0x40_0000, 0x7f_fffe, 0x7f_ffff] {
            chosen.insert(field << 23 | digits);
        }
        state = state.wrapping_mul(1_664_525).wrapping_add(1_013_904_223);
        chosen.insert(field << 23 | state >> 9);
        chosen.insert(1 << 31 | field << 23 | state >> 9);
        if field % 16 == 0 {
            chosen.insert(1 << 31 | field << 23);
        }
    }
    // Subnormals: each power of two and its neighbours.
    for place in 0..23 {
        for bits in [(1 << place) - 1, 1 << place, (1 << place) + 1] {
            chosen.insert(bits);
        }
    }
    // Perfect squares and their neighbours.
    for root in (1..64u32).chain(4000..4097) {
        let bits = ((root * root) as f32).to_bits();
        chosen.extend([bits - 1, bits, bits + 1]);
    }
    // Zeros, infinities, NaNs, and values below zero.
    chosen.extend([0, 0x8000_0000, 0x7f80_0000, 0xff80_0000, NAN, 0xffc0_0000, 0x7f80_0001, 0xff80_0001]);
    chosen.extend([0x7fff_ffff, 0xffff_ffff, 0x8000_0001, 0x807f_ffff, 0x8080_0000, 0xbf80_0000, 0xff7f_ffff]);
    for bits in chosen {
        println!("{bits:08x} {:08x}", expected(bits));
    }
}

fn main() {
    let word = std::env::args().nth(1);
    if word.as_deref() == Some("sample") {
        sample();
        return;
    }
    let same = word.as_deref() == Some("speed") || compare_all();
    let fast = speed();
    if !(same && fast) {
        std::process::exit(1);
    }
}
