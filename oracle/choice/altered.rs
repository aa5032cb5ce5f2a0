// The tables with an entry altered, under the Rust's own text, and the cubes whose answers turn with that.
use crate::families::{family_of, FAMILIES};
use crate::met::faces;
use crate::rust::{self, Altered, Counted, Cube, Numbers};
use crate::text::sampled_cubes;
use std::cell::Cell;
use std::ops::Index;

// The tables of the list TABLES, each row by row.
type Entries = [&'static [i8]; 8];

static SOURCE: Entries = [
    &rust::TEST_3,
    &rust::TEST_4,
    rust::TEST_6.as_flattened(),
    rust::TEST_7.as_flattened(),
    rust::TEST_10.as_flattened(),
    rust::TEST_12.as_flattened(),
    rust::TEST_13.as_flattened(),
    &rust::SUB_CONFIG_13,
];

// What the tables below hold.
thread_local! {
    static READ: Cell<&'static Entries> = const { Cell::new(&SOURCE) };
}

// A table, of single entries or of rows, by its place in the list.
pub struct Column(usize);
pub struct Rows(usize);

impl Index<usize> for Column {
    type Output = i8;

    fn index(&self, row: usize) -> &i8 {
        &READ.get()[self.0][row]
    }
}

impl Index<usize> for Rows {
    type Output = [i8];

    fn index(&self, row: usize) -> &[i8] {
        let columns = TABLES[self.0].columns;
        &READ.get()[self.0][columns * row..columns * (row + 1)]
    }
}

pub static TEST_3: Column = Column(0);
pub static TEST_4: Column = Column(1);
pub static TEST_6: Rows = Rows(2);
pub static TEST_7: Rows = Rows(3);
pub static TEST_10: Rows = Rows(4);
pub static TEST_12: Rows = Rows(5);
pub static TEST_13: Rows = Rows(6);
pub static SUB_CONFIG_13: Column = Column(7);

// A row begins with so many faces, then s if it has one. What comes after is never read: the last columns of TEST_6,
// TEST_7, TEST_12 and TEST_13. So many of the faces are asked by the interior test too.
struct Table {
    name: &'static str,
    case: i8,
    columns: usize,
    faces: usize,
    s: bool,
    inside: usize,
}

const fn table(name: &'static str, case: i8, columns: usize, faces: usize, s: bool, inside: usize) -> Table {
    Table { name, case, columns, faces, s, inside }
}

const TABLES: [Table; 8] = [
    table("TEST_3", 3, 1, 1, false, 0),
    table("TEST_4", 4, 1, 0, true, 0),
    table("TEST_6", 6, 3, 1, true, 1),
    table("TEST_7", 7, 5, 3, true, 0),
    table("TEST_10", 10, 3, 2, true, 1),
    table("TEST_12", 12, 4, 2, true, 2),
    table("TEST_13", 13, 7, 6, false, 0),
    table("SUB_CONFIG_13", 13, 1, 0, false, 0),
];

const SUB_CONFIGURATIONS: usize = 7;

// How an answer turns: by a face's answer or by an entry of SUB_CONFIG_13; by the interior test alone, the faces
// answering as before; and so in cases 10 and 12 with both faces true.
const OUTSIDE: usize = 0;
const INSIDE: usize = 1;
const INSIDE_BOTH: usize = 2;
const HOW: [&str; 3] = ["", ", in the interior test", ", in the interior test with both faces true"];

struct Alteration {
    table: usize,
    row: usize,
    name: String,
    entries: &'static Entries,
    wanted: Vec<usize>,
}

// `changes` are columns with their new entries.
fn alteration(table: usize, row: usize, changes: &[(usize, i8)], name: String, wanted: Vec<usize>) -> Alteration {
    let mut altered = SOURCE[table].to_vec();
    changes.iter().for_each(|(column, entry)| altered[row * TABLES[table].columns + column] = *entry);
    let mut entries = SOURCE;
    entries[table] = altered.leak();
    let name = format!("{} row {row} {name}", TABLES[table].name);
    Alteration { table, row, name, entries: Box::leak(Box::new(entries)), wanted }
}

// The diagonal pick takes 1 as 3, 2 as 4 and 5 as 6.
fn picked_alike(face: i8, other: i8) -> bool {
    let pick = |face: i8| [1, 2, 1, 2, 5, 5][face.unsigned_abs() as usize - 1];
    pick(face) == pick(other)
}

// Each face in turn made each other one, and each two exchanged; s turned.
fn alterations_of_row(table: usize, row: usize, entries: &[i8]) -> Vec<Alteration> {
    let Table { case, faces: many, s, inside, .. } = TABLES[table];
    let inner = if case == 10 || case == 12 { vec![INSIDE, INSIDE_BOTH] } else { vec![INSIDE] };
    let mut all = Vec::new();
    for (column, &face) in entries[..many].iter().enumerate() {
        for other in faces().filter(|&other| other != face) {
            let mut wanted = vec![OUTSIDE];
            if column < inside && !picked_alike(face, other) {
                wanted.extend(&inner);
            }
            let name = format!("face {column}: {other} for {face}");
            all.push(alteration(table, row, &[(column, other)], name, wanted));
        }
        for (place, &other) in entries[..column].iter().enumerate() {
            let name = format!("faces {place} and {column} exchanged");
            all.push(alteration(table, row, &[(place, face), (column, other)], name, vec![OUTSIDE]));
        }
    }
    if s {
        all.push(alteration(table, row, &[(many, -entries[many])], "s turned".into(), inner));
    }
    all
}

// An entry of SUB_CONFIG_13 made each other one.
fn alterations_of_sub_configuration(row: usize, entry: i8) -> Vec<Alteration> {
    let others = (-1..=45).filter(|&other| other != entry);
    let altered = |other| {
        alteration(SUB_CONFIGURATIONS, row, &[(0, other)], format!("{other} for {entry}"), vec![OUTSIDE])
    };
    others.map(altered).collect()
}

fn alterations() -> Vec<Alteration> {
    let mut all = Vec::new();
    for (place, table) in TABLES.iter().enumerate() {
        for (row, entries) in SOURCE[place].chunks(table.columns).enumerate() {
            all.extend(match place {
                SUB_CONFIGURATIONS => alterations_of_sub_configuration(row, entries[0]),
                _ => alterations_of_row(place, row, entries),
            });
        }
    }
    all
}

// Whether an answer of this configuration comes from the interior test, and there with both faces true.
fn inside(configuration: i8, [code, row, ..]: Numbers) -> Option<usize> {
    match code {
        5 | 6 | 8 | 9 | 14 | 15 | 18 | 24 => Some(INSIDE),
        19 | 25 => Some(INSIDE_BOTH),
        20 | 26 => Some(if row == configuration as u8 { INSIDE } else { INSIDE_BOTH }),
        _ => None,
    }
}

// An alteration turns an answer in code, row, column, centre or unsettled; other picks and readings alone are no turn.
fn turned(cube: &Cube, from: Numbers, to: Numbers) -> Option<usize> {
    let [before, after] = [from, to].map(|answer| inside(cube.given[1], answer));
    (from[..5] != to[..5]).then(|| before.filter(|_| before == after).unwrap_or(OUTSIDE))
}

// All alterations, by number, and those of each family and of each sub-configuration.
pub struct Turns {
    rust: Altered,
    all: Vec<Alteration>,
    of_family: Vec<Vec<usize>>,
    of_sub_configuration: Vec<Vec<usize>>,
}

impl Turns {
    pub fn new() -> Self {
        let all = alterations();
        let (mut of_family, mut of_sub_configuration) = (vec![Vec::new(); FAMILIES], vec![Vec::new(); 64]);
        for (number, Alteration { table, row, .. }) in all.iter().enumerate() {
            match *table {
                SUB_CONFIGURATIONS => of_sub_configuration[*row].push(number),
                _ => of_family[family_of([TABLES[*table].case, *row as i8])].push(number),
            }
        }
        Turns { rust: Altered::new(), all, of_family, of_sub_configuration }
    }

    pub fn things(&self) -> usize {
        self.all.len() * HOW.len()
    }

    // The turn of the answer with an alteration, as a number of its own.
    fn turn(&mut self, number: usize, cube: &Cube, answer: Numbers) -> Option<usize> {
        READ.set(self.all[number].entries);
        let altered = self.rust.choice(*cube);
        turned(cube, answer, altered).map(|how| number * HOW.len() + how)
    }

    // The turns of the cube's answer with what it reads: its family's row and the entry of its sub-configuration.
    pub fn met(&mut self, cube: &Cube, answer: Numbers, sub_configuration: Option<usize>, meet: impl FnMut(usize)) {
        READ.set(&SOURCE);
        assert!(self.rust.choice(*cube) == answer, "the altered copy parts from the others: {:?}", cube.corners);
        let mut read = self.of_family[family_of(cube.given)].clone();
        sub_configuration.iter().for_each(|&row| read.extend(&self.of_sub_configuration[row]));
        read.into_iter().filter_map(|number| self.turn(number, cube, answer)).for_each(meet);
    }

    // All that answers have to turn with, with names.
    pub fn wanted(&self) -> Vec<(usize, String)> {
        let named = |(number, alteration): (usize, &Alteration)| {
            let name = alteration.name.clone();
            let things = alteration.wanted.clone().into_iter();
            things.map(move |how| (number * HOW.len() + how, format!("{name}{}", HOW[how])))
        };
        self.all.iter().enumerate().flat_map(named).collect()
    }
}

// The cubes of an input of the text program against every alteration, whatever row it is of.
pub fn altered() -> bool {
    let (cubes, mut turns, mut rust) = (sampled_cubes(), Turns::new(), Counted::new());
    let answers: Vec<Numbers> = cubes.iter().map(|&cube| rust.choice(cube)).collect();
    let mut counts = vec![0; turns.things()];
    for number in 0..turns.all.len() {
        for (cube, &answer) in cubes.iter().zip(&answers) {
            turns.turn(number, cube, answer).into_iter().for_each(|thing| counts[thing] += 1);
        }
    }
    let wanted = turns.wanted();
    println!("{:<14}{:>12}{:>7}{:>13}", "table", "alterations", "turns", "least cubes");
    for (place, table) in TABLES.iter().enumerate() {
        let of_table = |thing: usize| turns.all[thing / HOW.len()].table == place;
        let hits: Vec<u32> = wanted.iter().filter(|(thing, _)| of_table(*thing)).map(|(thing, _)| counts[*thing]).collect();
        let alterations = turns.all.iter().filter(|alteration| alteration.table == place).count();
        println!("{:<14}{alterations:>12}{:>7}{:>13}", table.name, hits.len(), hits.iter().min().unwrap());
    }
    let unseen: Vec<&String> = wanted.iter().filter(|(thing, _)| counts[*thing] == 0).map(|(_, name)| name).collect();
    unseen.iter().for_each(|name| println!("unseen: {name}"));
    println!("{} cubes, {} alterations, {} turns, {} unseen", cubes.len(), turns.all.len(), wanted.len(), unseen.len());
    unseen.is_empty()
}
