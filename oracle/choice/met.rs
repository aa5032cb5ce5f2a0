// What cubes meet, each thing with a number of its own, and how often.
use crate::families::{family_of, FAMILIES, GIVEN};
use crate::library::Mc33Choice;
use crate::rust::{Noted, Reading, Tiling, KINDS, SUB_CONFIG_13, TILINGS, WAYS};

pub const FAMILY: usize = 0;
const TILED: usize = FAMILY + 256;
const SUB_CONFIGURATION: usize = TILED + 39 * 48 * 12;
const UNSETTLED: usize = SUB_CONFIGURATION + 2 * 64;
const BLANK: usize = UNSETTLED + 15 * 4;
const UNMATCHED: usize = BLANK + 15;
const EDGE_0_MATCHED: usize = UNMATCHED + 15 * 4;
const READ: usize = EDGE_0_MATCHED + 15;
const WAY: usize = READ + 15 * 8;
const IN_CHOICE: usize = WAY + 2 * 6;
const ALONE: usize = IN_CHOICE + 12 * 5;
const FACE: usize = ALONE + 12 * 5;
pub const THINGS: usize = FACE + 13 * 2;

// The most edge readings a choice of the case makes.
const EDGES: [usize; 15] = [0, 0, 0, 0, 3, 0, 1, 3, 0, 0, 1, 0, 2, 0, 0];

// Document 02, Change 7: how many face tests, edge readings and case-13 tests together, the least and the most.
const FIGURES: [[usize; 2]; 15] = [
    [0, 0], [0, 0], [0, 0], [1, 1], [3, 3], [0, 0], [1, 2], [3, 6], [0, 0], [0, 0], [2, 3], [0, 0], [2, 4], [6, 7], [0, 0],
];

fn tiled(code: usize, row: usize, column: usize) -> usize {
    TILED + (code * 48 + row) * 12 + column
}

// `start` is IN_CHOICE or ALONE.
fn reading(start: usize, edge: usize, kind: usize) -> usize {
    start + edge * 5 + kind
}

pub fn read_alone(read: &Reading) -> usize {
    reading(ALONE, read.edge, read.kind)
}

pub fn face_answer(face: i8, answer: bool) -> usize {
    FACE + (face + 6) as usize * 2 + answer as usize
}

pub fn met(rust: &Noted, choice: &Mc33Choice, mut meet: impl FnMut(usize)) {
    meet(FAMILY + family_of(rust.cube.given));
    meet(READ + rust.case as usize * 8 + choice.readings as usize);
    if let Some(number) = rust.sub_configuration {
        meet(SUB_CONFIGURATION + rust.config * 64 + number);
    }
    if rust.note.code != 0 {
        meet(tiled(choice.code as usize, choice.row as usize, choice.column as usize));
        meet(UNSETTLED + rust.case as usize * 4 + choice.unsettled as usize);
        meet(UNMATCHED + rust.case as usize * 4 + choice.unmatched as usize);
    }
    if let Some(way) = rust.way.get() {
        meet(WAY + rust.config * 6 + way);
    }
    for (matched, read) in rust.picks() {
        meet(reading(IN_CHOICE, read.edge, read.kind));
        if matched && read.edge == 0 {
            meet(EDGE_0_MATCHED + rust.case as usize);
        }
        if read.is_blank() {
            meet(BLANK + rust.case as usize);
        }
    }
}

// How many choices each case had.
pub fn case_counts(counts: &[u64]) -> [u64; 15] {
    std::array::from_fn(|case| counts[READ + case * 8..][..8].iter().sum())
}

// All that choices have to meet, with names.
pub fn wanted() -> Vec<(usize, String)> {
    let mut all = Vec::new();
    for family in 0..FAMILIES {
        let [case, configuration] = GIVEN[family];
        all.push((FAMILY + family, format!("case {case} configuration {configuration}")));
    }
    for (code, tiling) in (1..).zip(&TILINGS) {
        for (row, column) in places(tiling) {
            all.push((tiled(code, row, column), format!("{} row {row} column {column}", tiling.title)));
        }
    }
    for configuration in 0..2 {
        for number in 0..64 {
            let name = format!("13 configuration {configuration} sub-configuration {number}");
            all.push((SUB_CONFIGURATION + configuration * 64 + number, name));
        }
        for (way, title) in WAYS.iter().enumerate() {
            all.push((WAY + configuration * 6 + way, format!("13 configuration {configuration}: {title}")));
        }
    }
    for case in 0..15 {
        let [least, most] = FIGURES[case];
        all.push((READ + case * 8 + least, format!("case {case} readings {least}")));
        if most > least {
            all.push((READ + case * 8 + most, format!("case {case} readings {most}")));
        }
    }
    for case in 1..15 {
        for number in 0..=EDGES[case] {
            all.push((UNSETTLED + case * 4 + number, format!("case {case} unsettled {number}")));
        }
        all.push((UNMATCHED + case * 4, format!("case {case} unmatched 0")));
        if EDGES[case] > 0 {
            // The four pairs are the same for each face, so all picks have a match, or none has.
            let most = EDGES[case];
            all.push((UNMATCHED + case * 4 + most, format!("case {case} unmatched {most}")));
            all.push((EDGE_0_MATCHED + case, format!("case {case} edge 0 by a match")));
            all.push((BLANK + case, format!("case {case} blank")));
        }
    }
    all.extend(wanted_readings(IN_CHOICE, "in a choice"));
    all
}

// Rows and columns.
fn places(tiling: &Tiling) -> impl Iterator<Item = (usize, usize)> + '_ {
    (0..tiling.rows).flat_map(|row| (0..tiling.columns).map(move |column| (row, column)))
}

fn wanted_readings(start: usize, what: &str) -> Vec<(usize, String)> {
    let mut all = Vec::new();
    for edge in 0..12 {
        for (kind, title) in (1..).zip(KINDS) {
            all.push((reading(start, edge, kind), format!("edge {edge} {title} {what}")));
        }
    }
    all
}

pub fn faces() -> impl Iterator<Item = i8> {
    (-6..=6).filter(|&face| face != 0)
}

pub fn wanted_by_itself() -> Vec<(usize, String)> {
    let mut all = wanted_readings(ALONE, "by itself");
    for face in faces() {
        for answer in [false, true] {
            all.push((face_answer(face, answer), format!("face {face} answer {answer}")));
        }
    }
    all
}

fn print_tilings(counts: &[u64]) {
    println!("\n{:<9}{:>5}{:>8}{:>12}  least of a row and column", "code", "rows", "columns", "hits");
    for (code, tiling) in (1..).zip(&TILINGS) {
        let hits: Vec<u64> = places(tiling).map(|(row, column)| counts[tiled(code, row, column)]).collect();
        println!("{:<9}{:>5}{:>8}{:>12}{:>12}", tiling.title, tiling.rows, tiling.columns,
            hits.iter().sum::<u64>(), hits.iter().min().unwrap());
    }
}

fn print_sub_configurations(counts: &[u64]) {
    for configuration in 0..2 {
        let start = SUB_CONFIGURATION + configuration * 64;
        let hits = &counts[start..start + 64];
        let (number, least) = hits.iter().enumerate().min_by_key(|(_, &count)| count).unwrap();
        let untiled: Vec<u64> = (0..64).filter(|&n| SUB_CONFIG_13[n] == -1).map(|n| hits[n]).collect();
        println!("case 13 configuration {configuration}: 64 sub-configurations, least {least} (of {number}); \
            {} without a tiling, least {}", untiled.len(), untiled.iter().min().unwrap());
        let way = |way: usize| format!("{} {}", WAYS[way], counts[WAY + configuration * 6 + way]);
        println!("  its test: {}", [0, 1, 2, 3, 4, 5].map(way).join(", "));
    }
}

fn print_readings(counts: &[u64], start: usize, what: &str) {
    println!("\n{what:<21}{:>12}{:>12}{:>12}{:>12}", KINDS[0], KINDS[1], KINDS[2], KINDS[3]);
    for edge in 0..12 {
        let [rising, beyond, crossed, blank] = [1, 2, 3, 4].map(|kind| counts[reading(start, edge, kind)]);
        println!("edge {edge:<16}{rising:>12}{beyond:>12}{crossed:>12}{blank:>12}");
    }
}

pub fn print_met(counts: &[u64]) {
    print_tilings(counts);
    let least = (0..FAMILIES).map(|family| counts[FAMILY + family]).min().unwrap();
    println!("\n{FAMILIES} cases and configurations, least {least}");
    print_sub_configurations(counts);
    for case in [4, 6, 7, 10, 12] {
        let most = EDGES[case];
        let numbers = |start: usize| &counts[start + case * 4..=start + case * 4 + most];
        let (unsettled, blank) = (numbers(UNSETTLED), counts[BLANK + case]);
        println!("case {case}: unsettled 0 to {most}: {unsettled:?}; blank readings: {blank}");
        let (unmatched, matched) = (numbers(UNMATCHED), counts[EDGE_0_MATCHED + case]);
        println!("  unmatched 0 to {most}: {unmatched:?}; edge 0 by a match: {matched}");
    }
    println!();
    for case in 0..15 {
        println!("case {case}: readings 0 to 7: {:?}", &counts[READ + case * 8..READ + case * 8 + 8]);
    }
    print_readings(counts, IN_CHOICE, "readings in choices");
    print_readings(counts, ALONE, "readings alone");
    let both = |face| [false, true].map(|answer| counts[face_answer(face, answer)]);
    let answers: Vec<u64> = faces().flat_map(both).collect();
    let (tests, least) = (answers.iter().sum::<u64>(), answers.iter().min().unwrap());
    println!("\n12 face numbers with both answers, {tests} tests, least {least}");
}
