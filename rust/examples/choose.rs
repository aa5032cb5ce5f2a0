//! The proved chooser from Rust: each routine once, then lists and refused lists. Prints what examples/choose.c
//! prints.
use mc33::{
    choose, choose_list, choose_list_signs, choose_signs, family_of, read_edge, root, root_bits,
    test_face, trust_face, Choice, Cube, FaceTrust, Family, ListRefused, Reading, Refusal, Trust,
    ROW_BYTES,
};

fn print_said(said: Result<Choice, Refusal>) {
    match said {
        Err(refusal) => println!("refused {}", refusal.number()),
        Ok(Choice::Tiled(t)) => {
            let centre = u8::from(t.centre);
            println!(
                "code {} row {} column {} centre {centre} unsettled {} unmatched {} readings {}",
                t.code, t.row, t.column, t.unsettled, t.unmatched, t.readings
            );
        }
        Ok(other) => println!("{other:?}"),
    }
}

fn print_choice(case: i8, configuration: i8, cube: Cube) {
    print!("case {case}/{configuration}: ");
    print_said(choose(case, configuration, cube));
}

fn print_signs(cube: Cube) {
    print!("by the signs: ");
    print_said(choose_signs(cube));
}

fn print_family(set: u8) {
    let Family {
        case,
        configuration,
    } = family_of(set);
    println!("set {set}: case {case} configuration {configuration}");
}

fn print_face(cube: Cube, face: i8) {
    match test_face(cube, face) {
        Ok(answer) => println!("face {face}: {answer}"),
        Err(refusal) => println!("face {face}: refused {}", refusal.number()),
    }
}

fn print_trust(cube: Cube, face: i8) {
    let words = |trust| match trust {
        Trust::Sure => "sure",
        Trust::Turned => "turned",
        Trust::Unknown => "unknown",
    };
    match trust_face(cube, face) {
        Ok(FaceTrust { answer, trust }) => println!("trust {face}: {answer}, {}", words(trust)),
        Err(refusal) => println!("trust {face}: refused {}", refusal.number()),
    }
}

fn print_edge(cube: Cube, edge: i8) {
    match read_edge(cube, edge) {
        Ok(Reading::Rising) => println!("edge {edge}: rising"),
        Ok(Reading::Beyond { t }) => println!("edge {edge}: beyond, t {t}"),
        Ok(Reading::Crossed { t, product }) => {
            println!("edge {edge}: crossed, t {t}, product {product}")
        }
        Ok(Reading::Blank) => println!("edge {edge}: blank"),
        Err(refusal) => println!("edge {edge}: refused {}", refusal.number()),
    }
}

fn print_outcome(outcome: Result<(), ListRefused>) {
    match outcome {
        Ok(()) => println!("done"),
        Err(error) => println!("refused {} at {}", error.refusal.number(), error.place),
    }
}

/// `mc33::rows` would read the rows as choices.
fn print_rows(answers: &[u8]) {
    for row in answers.chunks(ROW_BYTES) {
        println!(
            "{}",
            row.iter().map(u8::to_string).collect::<Vec<_>>().join(" ")
        );
    }
}

/// Three cubes with their numbers, then by their signs; each answer byte is 7 beforehand.
fn print_lists(corners: &[f32], numbers: &[i8]) {
    let mut answers = [7; 3 * ROW_BYTES];
    print_outcome(choose_list(corners, numbers, &mut answers));
    print_rows(&answers);
    answers = [7; 3 * ROW_BYTES];
    print_outcome(choose_list_signs(corners, &mut answers));
    print_rows(&answers);
}

fn main() {
    let tied = Cube([1.0, -1.0, 1.0, -1.0, -1.0, -1.0, -1.0, -1.0]);
    let apart = Cube([1.0, -2.0, 1.0, -2.0, -1.0, -1.0, -1.0, -1.0]);
    let thin = Cube([1e-4, -2e-4, 1e-4, -2e-4, -1.0, -1.0, -1.0, -1.0]);
    let level = Cube([3.0, -1.0, -1.0, -1.0, -1.0, -1.0, 3.0, -1.0]);
    let steep = Cube([9.0, -1.0, -1.0, -1.0, -1.0, -1.0, 9.0, -1.0]);
    let flat = Cube([1.0; 8]);
    let zeros = Cube([1.0, 0.0, 1.0, -0.0, 0.0, -0.0, 0.0, -0.0]);
    let broken = Cube([f32::INFINITY; 8]);
    let unpaired = Cube([-1.0, -1.0, 1.0, -1.0, -1.0, 1.0, -1.0, -1.0]);
    let mut cubes = [tied.0, level.0, [1.0, 2.0, 1.0, 2.0, 1.0, 4.0, 1.0, 4.0]];
    let numbers = [3, 0, 4, 0, 13, 0];

    print_choice(3, 0, tied);
    print_choice(3, 0, apart);
    print_choice(4, 0, level);
    print_choice(4, 0, flat);
    print_choice(4, 0, unpaired);
    print_choice(4, 8, level);
    print_family(5);
    print_family(250);
    print_family(255);
    print_signs(tied);
    print_signs(zeros);
    print_signs(broken);
    print_face(tied, 5);
    print_face(tied, -5);
    print_face(tied, 0);
    print_trust(apart, 5);
    print_trust(thin, 5);
    print_trust(thin, -5);
    print_trust(flat, 5);
    print_trust(tied, 0);
    print_edge(level, 0);
    print_edge(steep, 8);
    print_edge(tied, 0);
    print_edge(flat, 0);
    print_edge(tied, 12);
    println!("root of 6.25: {}", root(6.25));
    println!("root of ff800000: {:08x}", root_bits(0xff80_0000));

    print_lists(cubes.as_flattened(), &numbers);
    cubes[1][7] = f32::INFINITY;
    print_lists(cubes.as_flattened(), &numbers);
    print_outcome(choose_list(&[], &[], &mut []));
    print_outcome(choose_list_signs(&[], &mut []));
}
