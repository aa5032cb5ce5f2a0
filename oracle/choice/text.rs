// The text program of document 01 in plain Rust, to measure ours by, and inputs for both.
use crate::cubes::{suited, Random};
use crate::families::{FAMILIES, GIVEN, SUITED};
use crate::library::Mc33Choice;
use crate::rust::{Both, Counted, Cube};
use std::io::{stdin, stdout, BufRead, BufReader, BufWriter, Read, Result, Write};

pub const INPUT_NAMES: &[u8] = b"case config c0 c1 c2 c3 c4 c5 c6 c7\n";
pub const OUTPUT_NAMES: &[u8] = b"code row column centre unsettled unmatched readings\n";

// In -128..127, without plus, needless zero or -0.
fn decimal(field: &[u8]) -> Option<i8> {
    let (digits, sign) = match field.split_first()? {
        (b'-', digits) => (digits, -1),
        _ => (field, 1),
    };
    if digits.is_empty() || digits.len() > 3 || (digits[0] == b'0' && field.len() > 1) {
        return None;
    }
    let mut number = 0;
    for &byte in digits {
        if !byte.is_ascii_digit() {
            return None;
        }
        number = 10 * number + (byte - b'0') as i32;
    }
    i8::try_from(sign * number).ok()
}

fn corner(field: &[u8]) -> Option<f32> {
    if field.len() != 8 {
        return None;
    }
    let mut bits = 0;
    for &byte in field {
        let digit = match byte {
            b'0'..=b'9' => byte - b'0',
            b'a'..=b'f' => byte - b'a' + 10,
            _ => return None,
        };
        bits = bits << 4 | digit as u32;
    }
    Some(f32::from_bits(bits))
}

fn parse(line: &[u8]) -> Option<Cube> {
    let mut fields = line.split(|&byte| byte == b' ');
    let given = [decimal(fields.next()?)?, decimal(fields.next()?)?];
    let mut corners = [0.0; 8];
    for value in &mut corners {
        *value = corner(fields.next()?)?;
    }
    fields.next().is_none().then_some(Cube { given, corners })
}

const CONFIGURATIONS: [i8; 15] = [0, 16, 24, 24, 8, 48, 48, 16, 6, 8, 6, 12, 24, 2, 12];

fn refusal(cube: &Cube) -> Option<u8> {
    let [case, configuration] = cube.given;
    if !(0..=14).contains(&case) {
        return Some(1);
    }
    let known = match configuration {
        -1 => case == 0,
        _ => (0..CONFIGURATIONS[case as usize]).contains(&configuration),
    };
    if !known {
        return Some(2);
    }
    (!cube.corners.iter().all(|value| value.is_finite())).then_some(3)
}

fn push_number(text: &mut Vec<u8>, number: u8) {
    if number >= 100 {
        text.push(b'0' + number / 100);
    }
    if number >= 10 {
        text.push(b'0' + number / 10 % 10);
    }
    text.push(b'0' + number % 10);
}

// The line's answer, or its refusal.
fn reply(line: &[u8], number: u64, rust: &mut Counted, text: &mut Vec<u8>) -> std::result::Result<(), u8> {
    let line = line.strip_suffix(b"\n").ok_or(8)?;
    if number == 1 {
        text.extend_from_slice(OUTPUT_NAMES);
        return if line == &INPUT_NAMES[..35] { Ok(()) } else { Err(8) };
    }
    let cube = parse(line).ok_or(8)?;
    if let Some(why) = refusal(&cube) {
        return Err(why);
    }
    for field in rust.choice(cube) {
        push_number(text, field);
        text.push(b' ');
    }
    *text.last_mut().unwrap() = b'\n';
    Ok(())
}

fn run() -> Result<()> {
    let mut input = BufReader::with_capacity(65536, stdin().lock());
    let mut output = BufWriter::with_capacity(65536, stdout().lock());
    let (mut rust, mut line, mut text) = (Counted::new(), Vec::new(), Vec::new());
    for number in 1.. {
        line.clear();
        text.clear();
        input.by_ref().take(82).read_until(b'\n', &mut line)?;
        if line.is_empty() && number > 1 {
            break;
        }
        if let Err(why) = reply(&line, number, &mut rust, &mut text) {
            writeln!(output, "refused {why} {number}")?;
            break;
        }
        output.write_all(&text)?;
    }
    output.flush()
}

pub fn text() -> bool {
    run().is_ok()
}

// The numbers of each choice as the library should give them, for the cubes of an input.
pub fn choices() -> bool {
    let mut rust = Both::new();
    sampled_cubes().iter().for_each(|cube| print_choice(&rust.choice(cube)));
    true
}

// The same for their corners alone.
pub fn choices_by_signs() -> bool {
    let mut rust = Both::new();
    sampled_cubes().iter().for_each(|cube| print_choice(&rust.choice_by_signs(&cube.corners)));
    true
}

fn print_choice(choice: &Mc33Choice) {
    let Mc33Choice { code, row, column, centre, unsettled, unmatched, readings, .. } = choice;
    println!("{code} {row} {column} {centre} {unsettled} {unmatched} {readings}");
}

// The cubes of an input, up to a line that is none.
pub fn sampled_cubes() -> Vec<Cube> {
    let lines = stdin().lock().split(b'\n').skip(1);
    lines.map_while(|line| parse(&line.ok()?)).collect()
}

pub fn input_line(cube: &Cube) -> String {
    let [case, configuration] = cube.given;
    let corners: Vec<String> = cube.corners.iter().map(|value| format!("{:08x}", value.to_bits())).collect();
    format!("{case} {configuration} {}\n", corners.join(" "))
}

// About so many bytes of an input of mixed families with suited signs.
pub fn input(bytes: u64, seed: u64) -> bool {
    let mut output = BufWriter::new(stdout().lock());
    let (mut random, mut written) = (Random(seed), INPUT_NAMES.len() as u64);
    let mut put = |text: &[u8]| output.write_all(text).is_ok();
    let mut good = put(INPUT_NAMES);
    while good && written < bytes {
        let family = random.below(FAMILIES);
        let line = input_line(&Cube { given: GIVEN[family], corners: suited(SUITED[family], || random.unit()) });
        written += line.len() as u64;
        good = put(line.as_bytes());
    }
    good
}
