// The speed of both on the same cubes.
use crate::cubes::{free, suited, Random};
use crate::families::{AMBIGUOUS, CONFIGURATIONS, GIVEN, STARTS, SUITED};
use crate::library::{choose, choose_signs, list, list_signs};
use crate::list::ROW_BYTES;
use crate::rust::{handle, handle_list, handle_list_signs, handle_signs, Bare, Cube, Looked};
use std::hint::black_box;
use std::time::Instant;

fn suited_cube(random: &mut Random, family: usize) -> Cube {
    Cube { given: GIVEN[family], corners: suited(SUITED[family], || random.unit()) }
}

fn unsuited_cube(random: &mut Random, family: usize) -> Cube {
    let corners = free(|| {
        let magnitude = random.unit();
        random.signed(magnitude)
    });
    Cube { given: GIVEN[family], corners }
}

// The same cubes for both, and how many times the Rust's time a choice and a list may take.
struct Course {
    name: String,
    limits: [f64; 2],
    cubes: Vec<Cube>,
}

const UNBOUNDED: [f64; 2] = [f64::INFINITY; 2];

fn course(name: String, limits: [f64; 2], cases: &[usize], cube: fn(&mut Random, usize) -> Cube) -> Course {
    let rows = |&case: &usize| (STARTS[case]..).take(CONFIGURATIONS[case]);
    let families: Vec<usize> = cases.iter().flat_map(rows).collect();
    let mut random = Random(33);
    let drawn = |_| {
        let family = families[random.below(families.len())];
        cube(&mut random, family)
    };
    Course { name, limits, cubes: (0..32768).map(drawn).collect() }
}

fn courses() -> Vec<Course> {
    let every: Vec<usize> = (0..15).collect();
    let mut all = vec![
        course("mixed families".into(), [1.0, 0.8], &every, suited_cube),
        course("ambiguous families".into(), [1.0, 1.0], &AMBIGUOUS, suited_cube),
        course("mixed, any signs".into(), UNBOUNDED, &every, unsuited_cube),
        course("ambiguous, any signs".into(), UNBOUNDED, &AMBIGUOUS, unsuited_cube),
    ];
    all.extend((0..15).map(|case| course(format!("case {case}"), UNBOUNDED, &[case], suited_cube)));
    all
}

// Those by signs, where a cube's signs alone say its family: suited cubes again, whose signs have the family that is
// drawn; and any signs, whose family may be any. Cubes of any signs with an ambiguous family are the suited ones.
fn courses_by_signs() -> Vec<Course> {
    let every: Vec<usize> = (0..15).collect();
    let mut all = vec![
        course("mixed families".into(), [0.85; 2], &every, suited_cube),
        course("ambiguous families".into(), [1.0; 2], &AMBIGUOUS, suited_cube),
        course("any signs".into(), [1.0; 2], &every, unsuited_cube),
    ];
    all.extend((0..15).map(|case| course(format!("case {case}"), [1.0; 2], &[case], suited_cube)));
    all
}

// Nanoseconds a cube.
#[inline(never)]
fn time_ours(cubes: &[Cube]) -> f64 {
    let start = Instant::now();
    for cube in cubes {
        black_box(choose(cube.given, cube.corners));
    }
    start.elapsed().as_nanos() as f64 / cubes.len() as f64
}

#[inline(never)]
fn time_theirs(cubes: &[Cube], rust: &mut Bare) -> f64 {
    let start = Instant::now();
    for cube in cubes {
        handle(rust, cube);
        black_box((rust.note, rust.centre));
    }
    start.elapsed().as_nanos() as f64 / cubes.len() as f64
}

#[inline(never)]
fn time_our_front(cubes: &[[f32; 8]]) -> f64 {
    let start = Instant::now();
    for corners in cubes {
        black_box(choose_signs(*corners));
    }
    start.elapsed().as_nanos() as f64 / cubes.len() as f64
}

#[inline(never)]
fn time_their_front(cubes: &[[f32; 8]], rust: &mut Looked) -> f64 {
    let start = Instant::now();
    for corners in cubes {
        handle_signs(rust, corners);
        black_box((rust.note, rust.centre));
    }
    start.elapsed().as_nanos() as f64 / cubes.len() as f64
}

// The same cubes as lists.
struct Lists {
    corners: Vec<[f32; 8]>,
    numbers: Vec<[i8; 2]>,
    answers: Vec<[u8; ROW_BYTES]>,
}

fn lists(cubes: &[Cube]) -> Lists {
    let corners = cubes.iter().map(|cube| cube.corners).collect();
    let numbers = cubes.iter().map(|cube| cube.given).collect();
    Lists { corners, numbers, answers: vec![[0; ROW_BYTES]; cubes.len()] }
}

fn time_our_list(lists: &mut Lists) -> f64 {
    let start = Instant::now();
    let outcome = list(lists.corners.as_flattened(), lists.numbers.as_flattened(), lists.answers.as_flattened_mut());
    assert_eq!(outcome.refusal, 0);
    black_box(&lists.answers);
    start.elapsed().as_nanos() as f64 / lists.corners.len() as f64
}

fn time_their_list(cubes: &[Cube], answers: &mut [[u8; 4]], rust: &mut Bare) -> f64 {
    let start = Instant::now();
    handle_list(rust, cubes, answers);
    black_box(&answers);
    start.elapsed().as_nanos() as f64 / cubes.len() as f64
}

fn time_our_list_by_signs(cubes: &[[f32; 8]], answers: &mut [[u8; ROW_BYTES]]) -> f64 {
    let start = Instant::now();
    let outcome = list_signs(cubes.as_flattened(), answers.as_flattened_mut());
    assert_eq!(outcome.refusal, 0);
    black_box(&answers);
    start.elapsed().as_nanos() as f64 / cubes.len() as f64
}

fn time_their_list_by_signs(cubes: &[[f32; 8]], answers: &mut [[u8; 4]], rust: &mut Looked) -> f64 {
    let start = Instant::now();
    handle_list_signs(rust, cubes, answers);
    black_box(&answers);
    start.elapsed().as_nanos() as f64 / cubes.len() as f64
}

fn median(mut times: Vec<f64>) -> f64 {
    times.sort_by(f64::total_cmp);
    times[times.len() / 2]
}

// Medians of ours and of theirs; the two take turns, and the first of a round is each in turn.
fn race(mut ours: impl FnMut() -> f64, mut theirs: impl FnMut() -> f64) -> [f64; 2] {
    let (mut our_times, mut their_times) = (Vec::new(), Vec::new());
    for round in 0..101 {
        if round % 2 == 0 {
            our_times.push(ours());
        }
        their_times.push(theirs());
        if round % 2 == 1 {
            our_times.push(ours());
        }
    }
    [median(our_times), median(their_times)]
}

fn print_race([ours, theirs]: [f64; 2], limit: f64) -> bool {
    let times = ours / theirs;
    print!("{ours:>9.1}{theirs:>9.1}{times:>7.2}");
    times <= limit
}

// Ours and theirs once, on the first cubes of a course: for a tool that counts what `time_ours` and `time_theirs` execute.
pub fn once(name: &str) -> bool {
    let found = courses().into_iter().find(|course| course.name == name);
    if let Some(course) = &found {
        let cubes = &course.cubes[..4096];
        time_ours(cubes);
        time_theirs(cubes, &mut Bare::new());
    }
    found.is_some()
}

fn print_head(what: &str, columns: [&str; 2]) {
    println!("{what:<24}{:>25}{:>25}", columns[0], columns[1]);
    println!("{:<24}{:>9}{:>9}{:>7}{:>9}{:>9}{:>7}", "", "ours", "Rust's", "times", "ours", "Rust's", "times");
}

fn speed_of_given() -> bool {
    let (mut rust, mut fast) = (Bare::new(), true);
    print_head("ns a cube", ["choice", "list"]);
    for course in courses() {
        print!("{:<24}", course.name);
        let [limit, list_limit] = course.limits;
        let choices = print_race(race(|| time_ours(&course.cubes), || time_theirs(&course.cubes, &mut rust)), limit);
        let (mut lists, mut answers) = (lists(&course.cubes), vec![[0; 4]; course.cubes.len()]);
        let listed = print_race(race(
            || time_our_list(&mut lists),
            || time_their_list(&course.cubes, &mut answers, &mut rust),
        ), list_limit);
        println!();
        fast &= choices & listed;
    }
    fast
}

fn speed_by_signs() -> bool {
    let (mut rust, mut fast) = (Looked::new(), true);
    print_head("ns a cube, by signs", ["front", "list"]);
    for course in courses_by_signs() {
        print!("{:<24}", course.name);
        let cubes: Vec<[f32; 8]> = course.cubes.iter().map(|cube| cube.corners).collect();
        let [limit, list_limit] = course.limits;
        let fronts = print_race(race(|| time_our_front(&cubes), || time_their_front(&cubes, &mut rust)), limit);
        let (mut rows, mut answers) = (vec![[0; ROW_BYTES]; cubes.len()], vec![[0; 4]; cubes.len()]);
        let listed = print_race(race(
            || time_our_list_by_signs(&cubes, &mut rows),
            || time_their_list_by_signs(&cubes, &mut answers, &mut rust),
        ), list_limit);
        println!();
        fast &= fronts & listed;
    }
    fast
}

pub fn speed() -> bool {
    let given = speed_of_given();
    speed_by_signs() & given
}
