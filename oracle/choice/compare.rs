// The comparison.
use crate::cubes::{Random, Regime, REGIMES};
use crate::families::{CONFIGURATIONS, FAMILIES, GIVEN, SUITED};
use crate::library::{choose, edge, face, root_bits, Mc33Choice, Mc33Face};
use crate::list::{compare_lists, compare_lists_by_signs};
use crate::met::{face_answer, faces, met, print_met, read_alone, wanted, wanted_by_itself, FAMILY, THINGS};
use crate::rust::{Both, Cube};
use crate::signs::{compare_families, Front};
use std::sync::atomic::{AtomicU64, Ordering};

static DIFFERENCES: AtomicU64 = AtomicU64::new(0);

pub fn hex(corners: &[f32; 8]) -> String {
    corners.map(|corner| format!("{:08x}", corner.to_bits())).join(" ")
}

// Counts a difference; the first five are printed.
pub fn differ(what: String, ours: String, theirs: String) {
    if DIFFERENCES.fetch_add(1, Ordering::Relaxed) < 5 {
        println!("DIFFERS: {what}: ours {ours}; theirs {theirs}");
    }
}

struct Comparer {
    rust: Both,
    counts: Vec<u64>,
    front: Front,
}

impl Comparer {
    fn new(seed: u64) -> Self {
        Comparer { rust: Both::new(), counts: vec![0; THINGS], front: Front::new(seed) }
    }

    fn choice(&mut self, cube: &Cube) {
        let theirs = self.rust.choice(cube);
        compare_choice(cube, &theirs);
        let counts = &mut self.counts;
        met(&self.rust.noted, &theirs, |thing| counts[thing] += 1);
    }

    // Edges and faces of the cube of the last choice.
    fn edges(&mut self, corners: &[f32; 8]) {
        for number in 0..12 {
            let read = self.rust.reading(number);
            let theirs = [0, read.kind as u32, read.t.to_bits(), read.product.to_bits()];
            compare_edge(corners, number, theirs);
            self.counts[read_alone(&read)] += 1;
        }
    }

    fn faces(&mut self, corners: &[f32; 8]) {
        for number in faces() {
            let answer = self.rust.face(number);
            compare_face(corners, number, Mc33Face { refusal: 0, answer: answer as u8 });
            self.counts[face_answer(number, answer)] += 1;
        }
    }
}

fn compare_choice(cube: &Cube, theirs: &Mc33Choice) {
    let ours = choose(cube.given, cube.corners);
    if ours != *theirs {
        let [case, configuration] = cube.given;
        let what = format!("case {case} configuration {configuration} corners {}", hex(&cube.corners));
        differ(what, ours.to_string(), theirs.to_string());
    }
}

// Refusal, kind, bits of t and of the product.
fn compare_edge(corners: &[f32; 8], number: i8, theirs: [u32; 4]) {
    let ours = edge(corners, number);
    if ours != theirs {
        let what = format!("edge {number} corners {}", hex(corners));
        differ(what, format!("{ours:x?}"), format!("{theirs:x?}"));
    }
}

fn compare_face(corners: &[f32; 8], number: i8, theirs: Mc33Face) {
    let ours = face(corners, number);
    if ours != theirs {
        let what = format!("face {number} corners {}", hex(corners));
        differ(what, format!("{ours:?}"), format!("{theirs:?}"));
    }
}

// Cubes of a regime, by the front too; every fourth has its edges and faces compared.
fn compare_regime(regime: &Regime, cubes: u64, seed: u64, comparer: &mut Comparer) {
    let mut random = Random(seed);
    for place in 0..cubes {
        let family = random.family();
        let corners = regime.1(&mut random, SUITED[family]);
        comparer.choice(&Cube { given: GIVEN[family], corners });
        if place % 4 == 0 {
            comparer.edges(&corners);
            comparer.faces(&corners);
        }
        comparer.front.compare(&corners);
    }
}

pub fn differences() -> u64 {
    DIFFERENCES.load(Ordering::Relaxed)
}

// What was met, and what by signs.
fn compare_cubes(cubes: u64, seed: u64) -> (Vec<u64>, Front) {
    let half = cubes.div_ceil(2 * REGIMES.len() as u64);
    let mut comparers = [1, 2].map(|thread| Comparer::new(seed << 16 | thread << 8));
    println!("{:<54}{:>11}{:>8}", "regime", "cubes", "differ");
    for (place, regime) in REGIMES.iter().enumerate() {
        let before = differences();
        std::thread::scope(|scope| {
            for (thread, comparer) in comparers.iter_mut().enumerate() {
                let start = Random(seed << 16 | (2 * place + thread) as u64).next();
                scope.spawn(move || compare_regime(regime, half, start, comparer));
            }
        });
        println!("{:<54}{:>11}{:>8}", regime.0, 2 * half, differences() - before);
    }
    let [one, two] = comparers;
    (one.counts.iter().zip(two.counts).map(|(a, b)| a + b).collect(), one.front.with(two.front))
}

pub const NOT_FINITE: [u32; 6] = [0x7f80_0000, 0xff80_0000, 0x7fc0_0000, 0xffc0_0000, 0x7f80_0001, 0xffff_ffff];

// Finite corners, then each corner in turn not finite, in each way.
fn corners_to_refuse() -> Vec<[f32; 8]> {
    let whole = [3.0, -1.0, 2.0, -2.0, -1.0, 1.0, -0.0, f32::MAX];
    let mut all = vec![whole];
    for place in 0..8 {
        for bits in NOT_FINITE {
            let mut corners = whole;
            corners[place] = f32::from_bits(bits);
            all.push(corners);
        }
    }
    all
}

pub fn are_finite(corners: &[f32; 8]) -> bool {
    corners.iter().all(|corner| corner.to_bits() & 0x7f80_0000 != 0x7f80_0000)
}

fn refusal(cube: &Cube) -> u8 {
    let [case, configuration] = cube.given;
    let known = |case| match case {
        0 => configuration == -1,
        _ => (0..CONFIGURATIONS[case as usize] as i8).contains(&configuration),
    };
    match case {
        ..0 | 15.. => 1,
        _ if !known(case) => 2,
        _ if !are_finite(&cube.corners) => 3,
        _ => 0,
    }
}

pub fn expected_choice(rust: &mut Both, cube: &Cube) -> Mc33Choice {
    match refusal(cube) {
        0 => rust.choice(cube),
        refusal => Mc33Choice { refusal, ..Mc33Choice::default() },
    }
}

fn compare_choice_refusals(counts: &mut [u64; 6]) {
    let mut rust = Both::new();
    for corners in corners_to_refuse() {
        for pair in 0..=u16::MAX {
            let cube = Cube { given: [(pair >> 8) as i8, pair as i8], corners };
            let theirs = expected_choice(&mut rust, &cube);
            compare_choice(&cube, &theirs);
            counts[theirs.refusal as usize] += 1;
        }
    }
}

// Answers are left to the comparison of cubes: here are refusals alone.
fn compare_face_and_edge_refusals(counts: &mut [u64; 6]) {
    for corners in corners_to_refuse() {
        let finite = are_finite(&corners);
        for number in i8::MIN..=i8::MAX {
            match (faces().any(|face| face == number), finite) {
                (true, true) => (),
                (known, _) => {
                    let refusal = if known { 3 } else { 4 };
                    compare_face(&corners, number, Mc33Face { refusal, answer: 0 });
                    counts[refusal as usize] += 1;
                }
            }
            match ((0..12).contains(&number), finite) {
                (true, true) => (),
                (known, _) => {
                    let refusal = if known { 3 } else { 5 };
                    compare_edge(&corners, number, [refusal, 0, 0, 0]);
                    counts[refusal as usize] += 1;
                }
            }
        }
    }
}

fn compare_refusals() -> bool {
    let (before, mut counts) = (differences(), [0; 6]);
    compare_choice_refusals(&mut counts);
    compare_face_and_edge_refusals(&mut counts);
    println!("refusals: {} calls, {} differ; answered and refused by 1 to 5: {counts:?}",
        counts.iter().sum::<u64>(), differences() - before);
    counts.iter().all(|&count| count > 0)
}

fn machine_root(bits: u32) -> u32 {
    let root = f32::from_bits(bits).sqrt().to_bits();
    if root & 0x7fff_ffff > 0x7f80_0000 { 0x7fc0_0000 } else { root }
}

fn compare_roots(patterns: u64, seed: u64) {
    let (before, mut random) = (differences(), Random(seed));
    for _ in 0..patterns {
        let bits = (random.next() >> 32) as u32;
        let (ours, theirs) = (root_bits(bits), machine_root(bits));
        if ours != theirs {
            differ(format!("root of {bits:08x}"), format!("{ours:08x}"), format!("{theirs:08x}"));
        }
    }
    println!("roots: {patterns} patterns, {} differ", differences() - before);
}

pub fn compare(cubes: u64, seed: u64) -> bool {
    let (counts, front) = compare_cubes(cubes, seed);
    let each_refusal = compare_refusals();
    let each_outcome = compare_lists(seed) & compare_lists_by_signs(seed);
    let each_family = compare_families();
    compare_roots(4_000_000, seed);
    print_met(&counts);
    let all = wanted().into_iter().chain(wanted_by_itself());
    let unhit: Vec<String> = all.filter(|(thing, _)| counts[*thing] == 0).map(|(_, name)| name).collect();
    let cubes: u64 = counts[FAMILY..FAMILY + FAMILIES].iter().sum();
    let hit = if unhit.is_empty() { "nothing unhit".into() } else { format!("unhit: {}", unhit.join("; ")) };
    let each_front = front.print();
    println!("\n{cubes} cubes, {} differ, {hit}", differences());
    differences() == 0 && unhit.is_empty() && each_refusal && each_outcome && each_family && each_front
}
