// A sample of cubes, as the text program's input.
use crate::altered::Turns;
use crate::cubes::{Random, REGIMES};
use crate::families::{family_of, GIVEN, SUITED};
use crate::library::Mc33Choice;
use crate::met::{met, wanted, THINGS};
use crate::rust::{Both, Cube, Noted};
use crate::text::{input_line, INPUT_NAMES};

struct Line {
    cube: Cube,
    things: Vec<usize>,
}

// So many lines in all.
const LINES: usize = 5200;

// Beside what choices have to meet: each code and column of each family, each case of each regime, and each alteration
// of a table that turns the answer.
const OF_FAMILY: usize = THINGS;
const OF_REGIME: usize = OF_FAMILY + 256 * 256 * 64;
const OF_TURN: usize = OF_REGIME + REGIMES.len() * 15;

fn sampled(rust: &Noted, turns: &mut Turns, regime: usize) -> Vec<usize> {
    let choice = rust.choice();
    let mut things = Vec::new();
    met(rust, &choice, |thing| things.push(thing));
    let family_and_code = family_of(rust.cube.given) * 256 + choice.code as usize;
    things.push(OF_FAMILY + family_and_code * 64 + choice.column as usize);
    things.push(OF_REGIME + regime * 15 + rust.case as usize);
    let Mc33Choice { code, row, column, centre, unsettled, unmatched, readings, .. } = choice;
    let answer = [code, row, column, centre, unsettled, unmatched, readings];
    turns.met(&rust.cube, answer, rust.sub_configuration, |turn| things.push(OF_TURN + turn));
    things
}

fn cube(random: &mut Random, regime: usize) -> Cube {
    let family = random.family();
    Cube { given: GIVEN[family], corners: REGIMES[regime].1(random, SUITED[family]) }
}

// The cubes that meet something first, of the regimes in turn.
fn first_meetings(cubes: usize, random: &mut Random, turns: &mut Turns, counts: &mut [u32]) -> Vec<Line> {
    let (mut rust, mut lines) = (Both::new(), Vec::new());
    for place in 0..cubes {
        let regime = place % REGIMES.len();
        let cube = cube(random, regime);
        rust.choice(&cube);
        let things = sampled(&rust.noted, turns, regime);
        if things.iter().any(|&thing| counts[thing] == 0) {
            things.iter().for_each(|&thing| counts[thing] += 1);
            lines.push(Line { cube, things });
        }
    }
    lines
}

// Prints the first meetings, without those that meet nothing that the others do not, then more cubes, then
// the beginning of a line that does not end.
pub fn sample(seed: u64) -> bool {
    let (mut random, mut turns, mut printed) = (Random(seed), Turns::new(), 0);
    let mut counts = vec![0; OF_TURN + turns.things()];
    print!("{}", String::from_utf8_lossy(INPUT_NAMES));
    for line in first_meetings(6_000_000, &mut random, &mut turns, &mut counts) {
        line.things.iter().for_each(|&thing| counts[thing] -= 1);
        if line.things.iter().any(|&thing| counts[thing] == 0) {
            line.things.iter().for_each(|&thing| counts[thing] += 1);
            print!("{}", input_line(&line.cube));
            printed += 1;
        }
    }
    for place in printed..LINES {
        print!("{}", input_line(&cube(&mut random, place % REGIMES.len())));
    }
    print!("3 0");
    let turned = turns.wanted().into_iter().map(|(turn, name)| (OF_TURN + turn, name));
    let all: Vec<(usize, String)> = wanted().into_iter().chain(turned).collect();
    let unmet = all.iter().filter(|(thing, _)| counts[*thing] == 0);
    let missing = unmet.map(|(_, name)| eprintln!("not in the sample: {name}")).count();
    eprintln!("{printed} cubes for {} things wanted, {missing} of them missing", all.len());
    missing == 0
}
