// The Rust's own text, made by extract.py, and what it stands on: the tilings, add_faces and
// compute_c_vertex become notes of code, row, column and centre.
use crate::library::Mc33Choice;
use std::array::from_fn;
use std::cell::Cell;

include!("../../target/oracle/extract.rs");

// Code, row and column of a tiling; code 0 before any.
#[derive(Clone, Copy, PartialEq, Default)]
#[repr(C, align(4))]
pub struct Note {
    pub code: u8,
    pub row: u8,
    pub column: u8,
}

const fn rows<const ROWS: usize>(code: u8) -> [Note; ROWS] {
    let mut notes = [Note { code, row: 0, column: 0 }; ROWS];
    let mut row = 0;
    while row < ROWS {
        notes[row].row = row as u8;
        row += 1;
    }
    notes
}

const fn columns<const ROWS: usize, const COLUMNS: usize>(code: u8) -> [[Note; COLUMNS]; ROWS] {
    let mut notes = [[Note { code, row: 0, column: 0 }; COLUMNS]; ROWS];
    let mut place = 0;
    while place < ROWS * COLUMNS {
        let (row, column) = (place / COLUMNS, place % COLUMNS);
        notes[row][column] = Note { code, row: row as u8, column: column as u8 };
        place += 1;
    }
    notes
}

pub struct Tiling {
    pub title: &'static str,
    pub rows: usize,
    pub columns: usize,
}

macro_rules! notes {
    ($name:ident $code:literal [$rows:literal]) => {
        static $name: [Note; $rows] = rows($code);
    };
    ($name:ident $code:literal [$rows:literal] [$columns:literal]) => {
        static $name: [[Note; $columns]; $rows] = columns($code);
    };
}

macro_rules! tilings {
    ($($code:literal $title:literal $name:ident [$rows:literal] $([$columns:literal])?;)*) => {
        $(notes! { $name $code [$rows] $([$columns])? })*
        pub const TILINGS: [Tiling; 38] =
            [$(Tiling { title: $title, rows: $rows, columns: 1 $(* $columns)? }),*];
    };
}

tilings! {
    1 "1" TILING_EDGES_1 [16];
    2 "2" TILING_EDGES_2 [24];
    3 "3_1" TILING_EDGES_3_1 [24];
    4 "3_2" TILING_EDGES_3_2 [24];
    5 "4_1" TILING_EDGES_4_1 [8];
    6 "4_2" TILING_EDGES_4_2 [8];
    7 "5" TILING_EDGES_5 [48];
    8 "6_1_1" TILING_EDGES_6_1_1 [48];
    9 "6_1_2" TILING_EDGES_6_1_2 [48];
    10 "6_2" TILING_EDGES_6_2 [48];
    11 "7_1" TILING_EDGES_7_1 [16];
    12 "7_2" TILING_EDGES_7_2 [16][3];
    13 "7_3" TILING_EDGES_7_3 [16][3];
    14 "7_4_1" TILING_EDGES_7_4_1 [16];
    15 "7_4_2" TILING_EDGES_7_4_2 [16];
    16 "8" TILING_EDGES_8 [6];
    17 "9" TILING_EDGES_9 [8];
    18 "10_1_1" TILING_EDGES_10_1_1 [6];
    19 "10_1_1_" TILING_EDGES_10_1_1_ [6];
    20 "10_1_2" TILING_EDGES_10_1_2 [6];
    21 "10_2" TILING_EDGES_10_2 [6];
    22 "10_2_" TILING_EDGES_10_2_ [6];
    23 "11" TILING_EDGES_11 [12];
    24 "12_1_1" TILING_EDGES_12_1_1 [24];
    25 "12_1_1_" TILING_EDGES_12_1_1_ [24];
    26 "12_1_2" TILING_EDGES_12_1_2 [24];
    27 "12_2" TILING_EDGES_12_2 [24];
    28 "12_2_" TILING_EDGES_12_2_ [24];
    29 "13_1" TILING_EDGES_13_1 [2];
    30 "13_1_" TILING_EDGES_13_1_ [2];
    31 "13_2" TILING_EDGES_13_2 [2][6];
    32 "13_2_" TILING_EDGES_13_2_ [2][6];
    33 "13_3" TILING_EDGES_13_3 [2][12];
    34 "13_3_" TILING_EDGES_13_3_ [2][12];
    35 "13_4" TILING_EDGES_13_4 [2][4];
    36 "13_5_1" TILING_EDGES_13_5_1 [2][4];
    37 "13_5_2" TILING_EDGES_13_5_2 [2][4];
    38 "14" TILING_EDGES_14 [12];
}

// `given` is the case and the configuration.
#[derive(Clone, Copy)]
pub struct Cube {
    pub given: [i8; 2],
    pub corners: [f32; 8],
}

impl std::ops::Index<usize> for Cube {
    type Output = f32;

    #[inline]
    fn index(&self, corner: usize) -> &f32 {
        &self.corners[corner]
    }
}

const BLANK_CUBE: Cube = Cube { given: [0, -1], corners: [0.0; 8] };

// The Rust as it stands.
pub struct Bare {
    cube: Cube,
    case: i8,
    config: usize,
    pub note: Note,
    pub centre: bool,
}

impl Bare {
    pub fn new() -> Self {
        Bare { cube: BLANK_CUBE, case: 0, config: 0, note: Note::default(), centre: false }
    }

    fn add_faces(&mut self, note: &Note) {
        self.note = *note;
    }

    fn compute_c_vertex(&mut self) {
        self.centre = true;
    }
}

// A loop over cubes that writes code, row, column and centre of each.
#[inline(never)]
pub fn handle_list(rust: &mut Bare, cubes: &[Cube], answers: &mut [[u8; 4]]) {
    for (cube, answer) in cubes.iter().zip(answers) {
        rust.note = Note::default();
        rust.centre = false;
        rust.handle_cube(Some(*cube));
        let Note { code, row, column } = rust.note;
        *answer = [code, row, column, rust.centre as u8];
    }
}

// One call for a cube, as of the library.
#[inline(never)]
pub fn handle(rust: &mut Bare, cube: &Cube) {
    rust.handle_cube(Some(*cube));
}

// A cube with its number, by which the source looks case and configuration up.
#[derive(Clone, Copy)]
pub struct Numbered {
    id: u8,
    corners: [f32; 8],
}

impl Numbered {
    // Document 02, 'Change 1': bit n where corner n is above 0.
    #[inline]
    fn above(corners: &[f32; 8]) -> Self {
        let mut id = 0;
        for (corner, value) in corners.iter().enumerate() {
            id |= ((*value > 0.0) as u8) << corner;
        }
        Numbered { id, corners: *corners }
    }
}

impl std::ops::Index<usize> for Numbered {
    type Output = f32;

    #[inline]
    fn index(&self, corner: usize) -> &f32 {
        &self.corners[corner]
    }
}

// The set of the corners above 0.
pub fn set_above(corners: &[f32; 8]) -> u8 {
    Numbered::above(corners).id
}

// The Rust as it stands, with its lookup in CASES.
pub struct Looked {
    cube: Numbered,
    case: i8,
    config: usize,
    pub note: Note,
    pub centre: bool,
}

impl Looked {
    pub fn new() -> Self {
        let cube = Numbered { id: 0, corners: [0.0; 8] };
        Looked { cube, case: 0, config: 0, note: Note::default(), centre: false }
    }

    fn add_faces(&mut self, note: &Note) {
        self.note = *note;
    }

    fn compute_c_vertex(&mut self) {
        self.centre = true;
    }
}

// By signs: one call for a cube, and a loop over cubes as `handle_list`.
#[inline(never)]
pub fn handle_signs(rust: &mut Looked, corners: &[f32; 8]) {
    rust.handle(Numbered::above(corners));
}

#[inline(never)]
pub fn handle_list_signs(rust: &mut Looked, cubes: &[[f32; 8]], answers: &mut [[u8; 4]]) {
    for (corners, answer) in cubes.iter().zip(answers) {
        rust.note = Note::default();
        rust.centre = false;
        rust.handle(Numbered::above(corners));
        let Note { code, row, column } = rust.note;
        *answer = [code, row, column, rust.centre as u8];
    }
}

// The Rust with what document 02 counts and the sub-configuration noted, and nothing else; Altered reads the tables of
// altered.rs.
pub struct Counting<const ALTERED: bool> {
    cube: Cube,
    case: i8,
    config: usize,
    note: Note,
    centre: bool,
    sub_configuration: usize,
    unsettled: Cell<u8>,
    unmatched: Cell<u8>,
    matched: Cell<bool>,
    readings: Cell<u8>,
}

pub type Counted = Counting<false>;
pub type Altered = Counting<true>;

impl<const ALTERED: bool> Counting<ALTERED> {
    pub fn new() -> Self {
        Counting {
            cube: BLANK_CUBE,
            case: 0,
            config: 0,
            note: Note::default(),
            centre: false,
            sub_configuration: 0,
            unsettled: Cell::new(0),
            unmatched: Cell::new(0),
            matched: Cell::new(false),
            readings: Cell::new(0),
        }
    }

    fn add_faces(&mut self, note: &Note) {
        self.note = *note;
    }

    fn compute_c_vertex(&mut self) {
        self.centre = true;
    }

    fn note_sub_configuration(&mut self, number: usize) {
        self.sub_configuration = number;
    }

    // A NaN t makes a NaN product, so that the product alone tells a blank reading.
    fn note_product(&self, product: f32) {
        self.unsettled.set(self.unsettled.get() + (product == 0.0 || is_nan(product)) as u8);
    }

    fn note_call(&self) {
        self.readings.set(self.readings.get() + 1);
    }

    fn note_face(&self) {
        self.note_call();
    }

    fn note_case13(&self) {
        self.note_call();
    }

    // A pick is unmatched until its first match.
    fn note_pick(&self) {
        self.unmatched.set(self.unmatched.get() + 1);
        self.matched.set(false);
    }

    fn note_match(&self) {
        self.unmatched.set(self.unmatched.get() - !self.matched.replace(true) as u8);
    }

    fn note_edge(&self, _: i8) {
        self.note_call();
    }

    fn note_t(&self, _: f32) {}

    fn note_times(&self, _: f32, _: f32, _: f32) {}

    fn note_places(&self, _: [f32; 4]) {}

    fn forget(&mut self) {
        self.note = Note::default();
        self.centre = false;
        self.unsettled.set(0);
        self.unmatched.set(0);
        self.readings.set(0);
    }

    fn answer(&self) -> Numbers {
        let Note { code, row, column } = self.note;
        let [unsettled, unmatched, readings] = [&self.unsettled, &self.unmatched, &self.readings].map(Cell::get);
        match code {
            0 if self.case == 0 => [0, 0, 0, 0, 0, 0, readings],
            0 => [255, self.config as u8, self.sub_configuration as u8, 0, 0, 0, readings],
            _ => [code, row, column, self.centre as u8, unsettled, unmatched, readings],
        }
    }
}

// Code, row, column, centre, unsettled, unmatched and readings.
pub type Numbers = [u8; 7];

impl Counted {
    pub fn choice(&mut self, cube: Cube) -> Numbers {
        self.forget();
        self.handle_cube(Some(cube));
        self.answer()
    }
}

impl Altered {
    pub fn choice(&mut self, cube: Cube) -> Numbers {
        self.forget();
        self.handle(cube);
        self.answer()
    }
}

// Kinds of a reading and ways through the case-13 test.
const RISING: usize = 1;
const BEYOND: usize = 2;
const CROSSED: usize = 3;
const BLANK: usize = 4;
pub const KINDS: [&str; 4] = ["rising", "beyond", "crossed", "blank"];
pub const WAYS: [&str; 6] =
    ["no root", "t1 alone outside", "t2 alone outside", "both outside", "a place outside", "all within"];

#[derive(Clone, Copy)]
pub struct Reading {
    pub edge: usize,
    pub kind: usize,
    pub t: f32,
    pub product: f32,
}

impl Reading {
    pub fn is_blank(&self) -> bool {
        self.kind == BLANK
    }

    // Document 02, Change 2.
    fn is_unsettled(&self) -> bool {
        self.is_blank() || self.kind == CROSSED && self.product == 0.0
    }
}

fn is_nan(value: f32) -> bool {
    value.to_bits() & 0x7fff_ffff > 0x7f80_0000
}

fn within(value: f32) -> bool {
    value < 1.0 && value > 0.0
}

// The Rust with notes of its calls, picks and readings, of the way through the case-13 test and of the sub-configuration.
pub struct Noted {
    pub cube: Cube,
    pub case: i8,
    pub config: usize,
    pub note: Note,
    centre: bool,
    pub sub_configuration: Option<usize>,
    matched: [Cell<bool>; 3],
    picked: Cell<usize>,
    readings: [Cell<Reading>; 3],
    made: Cell<usize>,
    calls: Cell<u8>,
    pub way: Cell<Option<usize>>,
}

impl Noted {
    fn new() -> Self {
        let reading = Reading { edge: 0, kind: BLANK, t: 0.0, product: 0.0 };
        Noted {
            cube: BLANK_CUBE,
            case: 0,
            config: 0,
            note: Note::default(),
            centre: false,
            sub_configuration: None,
            matched: from_fn(|_| Cell::new(false)),
            picked: Cell::new(0),
            readings: from_fn(|_| Cell::new(reading)),
            made: Cell::new(0),
            calls: Cell::new(0),
            way: Cell::new(None),
        }
    }

    fn forget(&mut self) {
        self.note = Note::default();
        self.centre = false;
        self.sub_configuration = None;
        self.picked.set(0);
        self.made.set(0);
        self.calls.set(0);
        self.way.set(None);
    }

    fn add_faces(&mut self, note: &Note) {
        self.note = *note;
    }

    fn compute_c_vertex(&mut self) {
        self.centre = true;
    }

    fn note_sub_configuration(&mut self, number: usize) {
        self.sub_configuration = Some(number);
    }

    // Document 02, Change 7: a call of test_face, interior_ambiguity_verification or interior_test_case13.
    fn note_call(&self) {
        self.calls.set(self.calls.get() + 1);
    }

    fn note_face(&self) {
        self.note_call();
    }

    fn note_case13(&self) {
        self.note_call();
    }

    fn note_pick(&self) {
        let picked = self.picked.get();
        self.matched[picked].set(false);
        self.picked.set(picked + 1);
    }

    fn note_match(&self) {
        self.matched[self.picked.get() - 1].set(true);
    }

    fn note_edge(&self, edge: i8) {
        self.note_call();
        let made = self.made.get();
        self.readings[made].set(Reading { edge: edge as usize, kind: RISING, t: 0.0, product: 0.0 });
        self.made.set(made + 1);
    }

    fn note_t(&self, t: f32) {
        let last = &self.readings[self.made.get() - 1];
        last.set(Reading { kind: BEYOND, t, ..last.get() });
    }

    fn note_product(&self, product: f32) {
        let last = &self.readings[self.made.get() - 1];
        let Reading { edge, t, .. } = last.get();
        last.set(if is_nan(t) || is_nan(product) {
            Reading { edge, kind: BLANK, t: 0.0, product: 0.0 }
        } else {
            Reading { edge, kind: CROSSED, t, product }
        });
    }

    fn note_times(&self, delta: f32, t1: f32, t2: f32) {
        self.way.set(Some(match (within(t1), within(t2)) {
            _ if is_nan(delta) || delta < 0.0 => 0,
            (false, true) => 1,
            (true, false) => 2,
            (false, false) => 3,
            (true, true) => 4,
        }));
    }

    fn note_places(&self, places: [f32; 4]) {
        if places.into_iter().all(within) {
            self.way.set(Some(5));
        }
    }

    pub fn made(&self) -> impl Iterator<Item = Reading> + '_ {
        self.readings[..self.made.get()].iter().map(Cell::get)
    }

    // Of each pick whether any pair matched.
    fn picked(&self) -> impl Iterator<Item = bool> + '_ {
        self.matched[..self.picked.get()].iter().map(Cell::get)
    }

    // Each pick with the reading of its edge.
    pub fn picks(&self) -> impl Iterator<Item = (bool, Reading)> + '_ {
        assert!(self.picked.get() == self.made.get(), "a pick without a reading: {:?}", self.cube.corners);
        self.picked().zip(self.made())
    }

    // The choice as the library should give it.
    pub fn choice(&self) -> Mc33Choice {
        let unmatched = self.picked().filter(|matched| !matched).count() as u8;
        let unsettled = self.made().filter(Reading::is_unsettled).count() as u8;
        let readings = self.calls.get();
        let Note { code, row, column } = self.note;
        match (code, self.sub_configuration) {
            (0, None) if self.case == 0 => Mc33Choice { readings, ..Mc33Choice::default() },
            (0, Some(number)) => {
                let (row, column) = (self.config as u8, number as u8);
                Mc33Choice { code: 255, row, column, readings, ..Mc33Choice::default() }
            }
            (0, None) => panic!("case {} has no tiling", self.case),
            _ => {
                let centre = self.centre as u8;
                Mc33Choice { refusal: 0, code, row, column, centre, unsettled, unmatched, readings }
            }
        }
    }
}

// The Rust by two copies, and by signs a third, which have to agree.
pub struct Both {
    bare: Bare,
    looked: Looked,
    pub noted: Noted,
}

impl Both {
    pub fn new() -> Self {
        Both { bare: Bare::new(), looked: Looked::new(), noted: Noted::new() }
    }

    pub fn choice(&mut self, cube: &Cube) -> Mc33Choice {
        self.bare.note = Note::default();
        self.bare.centre = false;
        handle(&mut self.bare, cube);
        self.noted.forget();
        self.noted.handle_cube(Some(*cube));
        let same = (self.bare.note, self.bare.centre) == (self.noted.note, self.noted.centre);
        assert!(same, "the noted copy parts from the bare one: {:?}", cube.corners);
        self.noted.choice()
    }

    // The choice for what CASES has at the set of the corners above 0.
    pub fn choice_by_signs(&mut self, corners: &[f32; 8]) -> Mc33Choice {
        self.looked.note = Note::default();
        self.looked.centre = false;
        handle_signs(&mut self.looked, corners);
        let choice = self.choice(&Cube { given: sets::CASES[set_above(corners) as usize], corners: *corners });
        let same = (self.looked.note, self.looked.centre) == (self.noted.note, self.noted.centre);
        assert!(same, "the copy with the lookup parts from the others: {corners:?}");
        choice
    }

    // A reading and a face test of the cube of the last choice.
    pub fn reading(&self, edge: i8) -> Reading {
        self.noted.made.set(0);
        let value = self.noted.interior_ambiguity_verification(edge);
        let same = value == self.bare.interior_ambiguity_verification(edge);
        assert!(same, "the noted copy parts from the bare one at edge {edge}: {:?}", self.bare.cube.corners);
        self.noted.readings[0].get()
    }

    pub fn face(&self, face: i8) -> bool {
        self.bare.test_face(face)
    }
}
