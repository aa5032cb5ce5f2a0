// Lists, with numbers and by signs: the library's answers and refusals against the Rust's choices cube by cube.
use crate::compare::{are_finite, differ, differences, expected_choice};
use crate::cubes::{Random, REGIMES};
use crate::families::{GIVEN, SUITED};
use crate::library::{list, list_signs, Mc33Choice, Mc33Outcome};
use crate::rust::{Both, Cube};

// Document 02, Change 10.
pub const ROW_BYTES: usize = 6;

struct Lists {
    corners: Vec<f32>,
    numbers: Vec<i8>,
    answers: Vec<u8>,
}

// In one cube of 256 a corner or a number is any.
fn cube(random: &mut Random) -> Cube {
    let family = random.family();
    let regime = random.below(REGIMES.len());
    let corners = REGIMES[regime].1(random, SUITED[family]);
    let mut cube = Cube { given: GIVEN[family], corners };
    match random.below(768) {
        0 => cube.corners[random.below(8)] = f32::from_bits(random.next() as u32 | 0x7f80_0000),
        1 => cube.given[0] = random.next() as i8,
        2 => cube.given[1] = random.next() as i8,
        _ => (),
    }
    cube
}

// Up to 99 cubes; in one list of four a length is one more or less; the answers are noise.
fn lists(random: &mut Random) -> Lists {
    let cubes: Vec<Cube> = (0..random.below(100)).map(|_| cube(random)).collect();
    let mut corners: Vec<f32> = cubes.iter().flat_map(|cube| cube.corners).collect();
    let mut numbers: Vec<i8> = cubes.iter().flat_map(|cube| cube.given).collect();
    let mut answers: Vec<u8> = (0..ROW_BYTES * cubes.len() + random.below(9)).map(|_| random.next() as u8).collect();
    match random.below(24) {
        0 => corners.push(1.0),
        1 => drop(corners.pop()),
        2 => corners.extend([1.0; 8]),
        3 => numbers.push(0),
        4 => drop(numbers.pop()),
        5 => numbers.extend([0, -1]),
        _ => (),
    }
    if random.below(16) == 0 {
        answers.truncate((ROW_BYTES * cubes.len()).saturating_sub(1));
    }
    Lists { corners, numbers, answers }
}

fn bytes(choice: &Mc33Choice) -> [u8; ROW_BYTES] {
    let Mc33Choice { code, row, column, centre, unsettled, unmatched, readings, .. } = *choice;
    [code, row, column, centre + 2 * unsettled, unmatched, readings]
}

// The outcome of a list and the bytes after it, by document 01, 'What is refused' and 'List', with document 02's rows:
// 6 where the lengths are not `even`, 7, then the cubes from the first, each by its `choice`.
fn expected(even: bool, cubes: usize, answers: &[u8], mut choice: impl FnMut(usize) -> Mc33Choice) -> Done {
    let refused = |refusal: u8, place: usize| {
        (Mc33Outcome { refusal: refusal as u64, place: place as u64 }, answers.to_vec())
    };
    if !even {
        return refused(6, 0);
    }
    if answers.len() < ROW_BYTES * cubes {
        return refused(7, 0);
    }
    let mut written = Vec::new();
    for place in 0..cubes {
        let choice = choice(place);
        match choice.refusal {
            0 => written.extend(bytes(&choice)),
            why => return refused(why, place),
        }
    }
    written.extend_from_slice(&answers[written.len()..]);
    (Mc33Outcome { refusal: 0, place: 0 }, written)
}

type Done = (Mc33Outcome, Vec<u8>);

fn expected_of(Lists { corners, numbers, answers }: &Lists, rust: &mut Both) -> Done {
    let even = corners.len() % 8 == 0 && numbers.len() % 2 == 0 && corners.len() / 8 == numbers.len() / 2;
    expected(even, corners.len() / 8, answers, |place| {
        let given = [numbers[2 * place], numbers[2 * place + 1]];
        expected_choice(rust, &Cube { given, corners: corners_at(corners, place) })
    })
}

// Document 02, 'Change 1': a cube is refused by 3 alone, and the Rust's choice is that for CASES at its signs' set.
fn expected_by_signs(Lists { corners, answers, .. }: &Lists, rust: &mut Both) -> Done {
    expected(corners.len() % 8 == 0, corners.len() / 8, answers, |place| {
        let corners = corners_at(corners, place);
        if are_finite(&corners) {
            rust.choice_by_signs(&corners)
        } else {
            Mc33Choice { refusal: 3, ..Mc33Choice::default() }
        }
    })
}

fn corners_at(corners: &[f32], place: usize) -> [f32; 8] {
    corners[8 * place..][..8].try_into().unwrap()
}

// A kind of list: its name, what it should do, what it does, and the refusals that have to be met.
struct Kind {
    name: &'static str,
    expected: fn(&Lists, &mut Both) -> Done,
    ours: fn(&mut Lists) -> Mc33Outcome,
    wanted: &'static [usize],
}

// How many lists were done, and refused by each number.
fn compare_kind(kind: &Kind, seed: u64) -> bool {
    let (before, mut random, mut rust, mut counts) = (differences(), Random(seed), Both::new(), [0; 8]);
    for number in 0..200_000 {
        let mut lists = lists(&mut random);
        let (outcome, answers) = (kind.expected)(&lists, &mut rust);
        let ours = (kind.ours)(&mut lists);
        counts[outcome.refusal as usize] += 1;
        if (ours, &lists.answers) != (outcome, &answers) {
            let what = format!("{}, number {number}", kind.name);
            differ(what, format!("{ours:?} {:?}", lists.answers), format!("{outcome:?} {answers:?}"));
        }
    }
    println!("{}: {} of up to 99 cubes, {} differ; done and refused by 1 to 7: {counts:?}", kind.name,
        counts.iter().sum::<u64>(), differences() - before);
    kind.wanted.iter().all(|&refusal| counts[refusal] > 0)
}

pub fn compare_lists(seed: u64) -> bool {
    let ours = |lists: &mut Lists| list(&lists.corners, &lists.numbers, &mut lists.answers);
    compare_kind(&Kind { name: "lists", expected: expected_of, ours, wanted: &[0, 1, 2, 3, 6, 7] }, seed)
}

pub fn compare_lists_by_signs(seed: u64) -> bool {
    let ours = |lists: &mut Lists| list_signs(&lists.corners, &mut lists.answers);
    compare_kind(&Kind { name: "lists by signs", expected: expected_by_signs, ours, wanted: &[0, 3, 6, 7] }, seed)
}
