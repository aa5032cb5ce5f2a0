// What the source's from_voxel stands on, a grid of eight values, and what its numbers find in CASES.
use crate::compare::hex;
use crate::rust::numbering::{numbered, CUBE_OFFSETS};
use crate::rust::sets::CASES;
use crate::rust::set_above;
use std::ops::Add;

#[derive(Clone, Copy, Default, PartialEq)]
pub struct Vec3i([i32; 3]);

impl Vec3i {
    pub const fn new(x: i32, y: i32, z: i32) -> Self {
        Vec3i([x, y, z])
    }
}

impl Add for Vec3i {
    type Output = Vec3i;

    fn add(self, other: Vec3i) -> Vec3i {
        let (Vec3i([x, y, z]), Vec3i([u, v, w])) = (self, other);
        Vec3i([x + u, y + v, z + w])
    }
}

// The values at corners 0 to 7 of one cube.
pub struct VolumeGrid([f32; 8]);

impl VolumeGrid {
    pub fn at(&self, index: &Vec3i) -> Option<&f32> {
        let corner = CUBE_OFFSETS.iter().position(|offset| offset == index)?;
        Some(&self.0[corner])
    }
}

#[allow(dead_code)]
#[derive(Clone, Copy, Default)]
pub struct Vertex {
    pub index: Vec3i,
    pub value: f32,
}

#[derive(Default)]
pub struct Cube {
    pub id: u8,
    pub vertices: [Vertex; 8],
}

fn number(corners: [f32; 8]) -> u8 {
    numbered(&VolumeGrid(corners)).expect("eight values").id
}

// The source's lookup and ours of the same cube: its number and our set, and what CASES has at each.
struct Lookup {
    corners: [f32; 8],
    number: u8,
    set: u8,
}

impl Lookup {
    fn new(corners: [f32; 8]) -> Self {
        Lookup { corners, number: number(corners), set: set_above(&corners) }
    }

    fn families(&self) -> [[i8; 2]; 2] {
        [self.number, self.set].map(|place| CASES[place as usize])
    }

    fn has_another(&self, field: usize) -> bool {
        let [theirs, ours] = self.families();
        theirs[field] != ours[field]
    }

    fn print(&self, what: &str) {
        let [theirs, ours] = self.families();
        println!("  {what}: {}: the source's number {}, {theirs:?}; our set {}, {ours:?}",
            hex(&self.corners), self.number, self.set);
    }
}

// The cubes of these values, one each for the corners' digits.
fn cubes<const N: usize>(values: [f32; N]) -> impl Iterator<Item = [f32; 8]> {
    (0..N.pow(8)).map(move |number| std::array::from_fn(|corner| values[number / N.pow(corner as u32) % N]))
}

const CASE: usize = 0;
const CONFIGURATION: usize = 1;

// The source sets a bit for a value below 0, we for one above.
fn print_signs() -> bool {
    let all: Vec<Lookup> = cubes([-1.0, 1.0]).map(Lookup::new).collect();
    let complements = all.iter().filter(|lookup| lookup.number == 255 - lookup.set).count();
    let another = |field: usize| all.iter().filter(|lookup| lookup.has_another(field)).count();
    let same = all.iter().filter(|lookup| !lookup.has_another(CASE) && !lookup.has_another(CONFIGURATION));
    println!("from_voxel, corners -1 and 1: {} sets, numbered 255 - set in {complements}; another case in {}, another \
        configuration in {}; both the same for sets {:?}", all.len(), another(CASE), another(CONFIGURATION),
        same.map(|lookup| lookup.set).collect::<Vec<u8>>());
    complements == 256 && another(CASE) == 0 && another(CONFIGURATION) == 254
}

fn has(corners: &[f32; 8], value: f32) -> bool {
    corners.iter().any(|corner| corner.to_bits() == value.to_bits())
}

// It lifts +0 above 0 and -0 below first; for us neither is above.
fn print_zeros() -> bool {
    let all: Vec<Lookup> = cubes([-1.0, -0.0, 0.0, 1.0]).map(Lookup::new).collect();
    let with_zero = all.iter().filter(|lookup| has(&lookup.corners, 0.0)).count();
    let parted: Vec<&Lookup> = all.iter().filter(|lookup| lookup.number != 255 - lookup.set).collect();
    let by_zero = parted.iter().filter(|lookup| has(&lookup.corners, 0.0)).count();
    let another_case: Vec<&&Lookup> = parted.iter().filter(|lookup| lookup.has_another(CASE)).collect();
    println!("from_voxel, corners -1, -0, 0 and 1: {} cubes, {with_zero} with a corner +0; not numbered 255 - set in \
        {}, {by_zero} of them with a corner +0; another case in {}", all.len(), parted.len(), another_case.len());
    let zeros = |lookup: &&&&Lookup| lookup.corners.iter().filter(|value| **value == 0.0).count();
    another_case.iter().min_by_key(zeros).iter().for_each(|lookup| lookup.print("another case, fewest zeros"));
    another_case.iter().max_by_key(zeros).iter().for_each(|lookup| lookup.print("another case, zeros alone"));
    Lookup::new(with_minus_ones(-0.0)).print("a -0");
    parted.len() == with_zero && by_zero == with_zero
}

fn with_minus_ones(value: f32) -> [f32; 8] {
    [value, -1.0, -1.0, -1.0, -1.0, -1.0, -1.0, -1.0]
}

// The source's own lookup against ours; whether it is as docs/DIFFERENCES.md says.
pub fn print_lookups() -> bool {
    let signs = print_signs();
    let zeros = print_zeros();
    Lookup::new(with_minus_ones(f32::NAN)).print("a NaN, which we refuse");
    signs && zeros
}
