// Cubes at random, in regimes.
use crate::families::{AMBIGUOUS, CONFIGURATIONS, FAMILIES, STARTS};
use std::array::from_fn;

pub struct Random(pub u64);

impl Random {
    pub fn next(&mut self) -> u64 {
        self.0 = self.0.wrapping_add(0x9e37_79b9_7f4a_7c15);
        let mixed = (self.0 ^ self.0 >> 30).wrapping_mul(0xbf58_476d_1ce4_e5b9);
        let mixed = (mixed ^ mixed >> 27).wrapping_mul(0x94d0_49bb_1331_11eb);
        mixed ^ mixed >> 31
    }

    pub fn below(&mut self, n: usize) -> usize {
        ((self.next() >> 32) * n as u64 >> 32) as usize
    }

    fn between(&mut self, least: i64, most: i64) -> i64 {
        least + self.below((most - least + 1) as usize) as i64
    }

    // Ambiguous cases more often, case 13 most.
    pub fn family(&mut self) -> usize {
        let case = match self.below(4) {
            0 => return self.below(FAMILIES),
            1 => 13,
            _ => AMBIGUOUS[self.below(7)],
        };
        STARTS[case] + self.below(CONFIGURATIONS[case])
    }

    fn corners_of_a_face(&mut self) -> u8 {
        [0b1111, 0b1111_0000, 0b11_0011, 0b1100_1100, 0b110_0110, 0b1001_1001][self.below(6)]
    }

    // Above 0, at most 1.
    pub fn unit(&mut self) -> f32 {
        ((self.next() >> 40) + 1) as f32 / (1 << 24) as f32
    }

    pub fn signed(&mut self, magnitude: f32) -> f32 {
        if self.next() >> 63 == 0 { magnitude } else { -magnitude }
    }

    fn pick(&mut self, values: &[f32]) -> f32 {
        values[self.below(values.len())]
    }

    // A whole number, its sign drawn apart, so that zeros have both.
    fn whole(&mut self, most: i64) -> f32 {
        let magnitude = self.between(0, most) as f32;
        self.signed(magnitude)
    }

    // A positive value a few patterns away.
    fn near(&mut self, value: f32, steps: i64) -> f32 {
        f32::from_bits((value.to_bits() as i64 + self.between(-steps, steps)) as u32)
    }

    // A magnitude by its exponent field, 0 (subnormals and zero) to 254.
    fn sized(&mut self, least: i64, most: i64) -> f32 {
        let field = self.between(least, most) as u32;
        f32::from_bits(field << 23 | (self.next() >> 41) as u32)
    }
}

pub fn suited(set: u8, mut magnitude: impl FnMut() -> f32) -> [f32; 8] {
    from_fn(|corner| if set >> corner & 1 == 1 { magnitude() } else { -magnitude() })
}

pub fn free(mut value: impl FnMut() -> f32) -> [f32; 8] {
    from_fn(|_| value())
}

// Suited signs in half of the cubes, any signs in the others.
fn either(random: &mut Random, set: u8, mut magnitude: impl FnMut(&mut Random) -> f32) -> [f32; 8] {
    if random.below(2) == 0 {
        suited(set, || magnitude(random))
    } else {
        free(|| {
            let drawn = magnitude(random);
            random.signed(drawn)
        })
    }
}

const STEP: f32 = f32::EPSILON;
const MILLIONTH: f32 = 1e-6;
const ROOT_OF_STEP: f32 = 3.452_669_7e-4;
const LEAST: f32 = f32::MIN_POSITIVE;
const TWO_TO_64: f32 = 18_446_744_073_709_551_616.0;

// A name, and eight corners for the suited set of the family.
pub type Regime = (&'static str, fn(&mut Random, u8) -> [f32; 8]);

pub static REGIMES: [Regime; 25] = [
    ("suited signs, magnitudes up to 1", |r, set| suited(set, || r.unit())),
    ("suited signs, whole numbers 1 to 3", |r, set| suited(set, || r.between(1, 3) as f32)),
    ("suited signs, whole numbers 1 to 12", |r, set| suited(set, || r.between(1, 12) as f32)),
    ("suited signs, a few steps round 1", |r, set| suited(set, || r.near(1.0, 4))),
    ("suited signs, magnitudes of one size, any", |r, set| {
        let field = r.between(0, 254);
        suited(set, || r.sized(field, field))
    }),
    ("suited signs, any finite magnitudes", |r, set| suited(set, || r.sized(0, 254))),
    ("suited signs but one turned", |r, set| {
        let turned = set ^ 1 << r.below(8);
        suited(turned, || r.unit())
    }),
    ("any signs, magnitudes up to 1", |r, _| free(|| { let m = r.unit(); r.signed(m) })),
    ("any signs, a few steps round 1", |r, _| free(|| { let m = r.near(1.0, 4); r.signed(m) })),
    ("whole numbers -2 to 2", |r, _| free(|| r.whole(2))),
    ("whole numbers -9 to 9", |r, _| free(|| r.whole(9))),
    ("whole numbers times a power of 2", |r, set| {
        let power = r.sized(1, 240).to_bits() >> 23 << 23;
        either(r, set, |r| r.between(0, 5) as f32 * f32::from_bits(power))
    }),
    ("zeros of both signs among ones", |r, _| free(|| { let m = r.pick(&[0.0, 0.0, 1.0]); r.signed(m) })),
    ("two values a cube", |r, _| {
        let values = [r.whole(3), { let m = r.unit(); r.signed(m) }];
        free(|| r.pick(&values))
    }),
    ("equal corners but one or none", |r, _| {
        let mut cube = [r.whole(2); 8];
        cube[r.below(8)] = r.whole(2);
        cube
    }),
    ("products round 2^-23", |r, set| either(r, set, |r| match r.below(4) {
        0 => 0.0,
        1 => r.near(1.0, 2),
        2 => r.near(STEP, 2),
        _ => r.near(ROOT_OF_STEP, 2),
    })),
    ("values round 2^-23 and 1", |r, set| either(r, set, |r| {
        let value = r.pick(&[STEP, STEP / 2.0, 1.0, 1.0]);
        r.near(value, 1)
    })),
    ("values round 1e-6 and 1", |r, set| either(r, set, |r| {
        let value = r.pick(&[MILLIONTH, MILLIONTH, 2.0 * MILLIONTH, 1e-3, 1.0]);
        r.near(value, 2)
    })),
    ("any finite values", |r, _| free(|| { let m = r.sized(0, 254); r.signed(m) })),
    ("subnormals and the least normals", |r, set| either(r, set, |r| r.sized(0, 2))),
    ("subnormals and zeros among ones", |r, set| either(r, set, |r| match r.below(3) {
        0 => r.sized(0, 0),
        1 => r.pick(&[0.0, f32::from_bits(1), LEAST, 1.0]),
        _ => r.unit(),
    })),
    ("products that overflow", |r, set| either(r, set, |r| r.sized(185, 254))),
    ("the largest values among 2^64, 1 and 0", |r, set| either(r, set, |r| {
        r.pick(&[f32::MAX, TWO_TO_64, TWO_TO_64, TWO_TO_64 / 2.0, 1.0, 0.0])
    })),
    ("suited signs, one face up to 1, the other round 2^63", |r, set| {
        let small = r.corners_of_a_face();
        let mut cube = suited(set, || r.unit());
        (0..8).filter(|corner| small >> corner & 1 == 0).for_each(|corner| cube[corner] *= TWO_TO_64 / 2.0);
        cube
    }),
    ("powers of 2", |r, set| either(r, set, |r| f32::from_bits((r.between(107, 147) as u32) << 23))),
];
