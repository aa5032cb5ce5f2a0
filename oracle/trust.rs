// The proved test whether a face answer is the true join, against exact arithmetic (document 02, 'Change 6').
//
//   N SEED   compares the two on about N faces, 200000000 and 1 without the words, and counts what the faces met; the
//            answer is also held to the library's face test and to the rule in f32
//   speed    a row of the speed of both, the other one plain Rust, which compares the products in f64, by processor time
//
// With a, b, c, d the corners of the face, E is a×c - b×d and S is |a×c| + |b×d|. Each product of two f32 is a whole
// number over 2^298, so E and S are made and compared here as whole numbers of 640 bits, without rounding.
#[allow(dead_code)]
#[path = "../rust/src/library.rs"]
mod library;

mod clock;

use clock::{median, processor_time};
use library::{Cube, Mc33Face, Mc33Trust};
use std::array::from_fn;
use std::cmp::Ordering::{self, Equal, Greater};
use std::hint::black_box;
use std::sync::atomic::{AtomicU64, Ordering::Relaxed};
use std::sync::LazyLock;

const SURE: u8 = 1;
const TURNED: u8 = 2;
const UNKNOWN: u8 = 3;

// ---- whole numbers over 2^298

// The lowest word first.
type Wide = [u64; 10];

// digits × 2^place
fn wide(digits: u64, place: usize) -> Wide {
    let (word, moved) = (place / 64, (digits as u128) << (place % 64));
    let mut all = [0; 10];
    all[word] = moved as u64;
    all[word + 1] = (moved >> 64) as u64;
    all
}

fn plus(x: &Wide, y: &Wide) -> Wide {
    let mut carried = 0;
    from_fn(|k| {
        let sum = x[k] as u128 + y[k] as u128 + carried;
        carried = sum >> 64;
        sum as u64
    })
}

// x is at least y.
fn minus(x: &Wide, y: &Wide) -> Wide {
    let mut borrowed = 0;
    from_fn(|k| {
        let rest = x[k] as i128 - y[k] as i128 - borrowed;
        borrowed = (rest < 0) as i128;
        rest as u64
    })
}

fn times_2_to_22(x: &Wide) -> Wide {
    from_fn(|k| x[k] << 22 | if k == 0 { 0 } else { x[k - 1] >> 42 })
}

fn compared(x: &Wide, y: &Wide) -> Ordering {
    x.iter().rev().cmp(y.iter().rev())
}

// For what is printed alone.
fn roughly(x: &Wide) -> f64 {
    x.iter().rev().fold(0.0, |sum, &word| sum * 2f64.powi(64) + word as f64) * 2f64.powi(-298)
}

// |x| is the first × 2^(the second - 149).
fn digits(x: f32) -> (u64, usize) {
    let (field, low) = ((x.to_bits() >> 23 & 255) as usize, (x.to_bits() & 0x7f_ffff) as u64);
    if field == 0 { (low, 0) } else { (low + (1 << 23), field - 1) }
}

// |x×y|
fn product(x: f32, y: f32) -> Wide {
    let ((m, i), (n, j)) = (digits(x), digits(y));
    wide(m * n, i + j)
}

// ---- what is expected

// Document 01: corners a, b, c, d of faces 1 to 6.
const FACES: [[usize; 4]; 6] =
    [[0, 4, 5, 1], [1, 5, 6, 2], [2, 6, 7, 3], [3, 7, 4, 0], [0, 3, 2, 1], [4, 7, 6, 5]];

// 1e-6 and 2^63
const LEAST: u32 = 0x3586_37bd;
const MOST: u32 = 0x5f00_0000;

fn size(x: f32) -> u32 {
    x.to_bits() & 0x7fff_ffff
}

fn is_finite(x: f32) -> bool {
    size(x) < 0x7f80_0000
}

fn in_range(x: f32) -> bool {
    (LEAST..=MOST).contains(&size(x))
}

fn by_turns(values: [f32; 4]) -> bool {
    let [a, b, c, d] = values.map(|x| x.to_bits() >> 31);
    a == c && b == d && a != b
}

// Document 01's rule, in f32.
fn rule(face: i8, [a, b, c, d]: [f32; 4]) -> bool {
    let val = a * c - b * d;
    if val.abs() < f32::EPSILON { face > 0 } else { face as f32 * a * val >= 0.0 }
}

fn is_untied([a, b, c, d]: [f32; 4]) -> bool {
    (a * c - b * d).abs() >= f32::EPSILON
}

// Of values that alternate in range, so that a×c and b×d are above 0.
struct Exact {
    order: Ordering,
    e: Wide,
    s: Wide,
    // |E| by 2^-22, and by 2^-22 × S
    by_one: Ordering,
    by_sum: Ordering,
}

fn exact([a, b, c, d]: [f32; 4]) -> Exact {
    let (first, second) = (product(a, c), product(b, d));
    let order = compared(&first, &second);
    let e = if order == Greater { minus(&first, &second) } else { minus(&second, &first) };
    let s = plus(&first, &second);
    let parts = times_2_to_22(&e);
    Exact { order, by_one: compared(&parts, &wide(1, 298)), by_sum: compared(&parts, &s), e, s }
}

// ---- what is met, each thing with a number of its own

const ANSWERED: usize = 0; // face number, trust, answer
const EQUAL: usize = ANSWERED + 12 * 6; // E exactly 0: face number
const PAST: usize = EQUAL + 12; // one of a, b, c and d at an end of the range or just past it: which, where
const OF_SURE: usize = PAST + 4 * 4;
const REFUSED_3: usize = OF_SURE + SURE_BY.len(); // corner, kind
const REFUSED_4: usize = REFUSED_3 + 8 * NOT_FINITE.len(); // face number, a corner not finite or none
const THINGS: usize = REFUSED_4 + 256 * 2;

const ENDS: [u32; 4] = [LEAST, LEAST - 1, MOST, MOST + 1];
const NOT_FINITE: [u32; 6] = [0x7f80_0000, 0xff80_0000, 0x7fc0_0000, 0xffc0_0000, 0x7f80_0001, 0xffff_ffff];

const SURE_BY: [&str; 6] = [
    "Change 6's premises", "no tie", "a tie, but right", "|E| exactly 2^-22", "|E| exactly 2^-22 × S",
    "val exactly 2^-23",
];
const PREMISES: usize = OF_SURE;
const UNTIED: usize = OF_SURE + 1;
const RIGHT: usize = OF_SURE + 2;
const AT_ONE: usize = OF_SURE + 3;
const AT_SUM: usize = OF_SURE + 4;
const AT_STEP: usize = OF_SURE + 5;

fn is_face(face: i8) -> bool {
    (1..=6).contains(&face.unsigned_abs())
}

fn of_face(face: i8) -> usize {
    (face.unsigned_abs() as usize - 1) * 2 + (face < 0) as usize
}

fn named(thing: usize) -> String {
    let face = |place: usize| if place % 2 == 0 { (place / 2 + 1) as i8 } else { -((place / 2 + 1) as i8) };
    match thing {
        REFUSED_4.. => format!("refusal 4 of {}", ((thing - REFUSED_4) / 2) as u8 as i8),
        REFUSED_3.. => format!("refusal 3: kind {} at corner {}", (thing - REFUSED_3) % 6, (thing - REFUSED_3) / 6),
        OF_SURE.. => format!("sure by {}", SURE_BY[thing - OF_SURE]),
        PAST.. => format!("{} at {:08x}", ["a", "b", "c", "d"][(thing - PAST) / 4], ENDS[(thing - PAST) % 4]),
        EQUAL.. => format!("face {}, E exactly 0", face(thing - EQUAL)),
        _ => format!("face {}, trust {}, answer {}", face(thing / 6), thing % 6 / 2 + 1, thing % 2),
    }
}

// What is turned is a tie, so the face number's sign is the answer. Numbers of faces are not refused by 4.
fn is_wanted(thing: usize) -> bool {
    match thing {
        REFUSED_4.. => !is_face(((thing - REFUSED_4) / 2) as u8 as i8),
        EQUAL.. => true,
        _ => thing % 6 / 2 + 1 != TURNED as usize || thing % 2 != thing / 6 % 2,
    }
}

static DIFFERENCES: AtomicU64 = AtomicU64::new(0);

struct Comparer {
    counts: Vec<u64>,
    // Of turned answers the largest |E| × 2^23 where |E| is at least 2^-22 × S, and the least S / |E| where |E| is at
    // least 2^-22.
    largest: f64,
    least: f64,
}

impl Comparer {
    fn new() -> Self {
        Comparer { counts: vec![0; THINGS], largest: 0.0, least: f64::INFINITY }
    }

    // Refusals 4, then 3, or the answer with its trust.
    fn compare(&mut self, corners: [f32; 8], face: i8) {
        let spoilt = corners.iter().position(|&corner| !is_finite(corner));
        let refused = |refusal| Mc33Trust { refusal, answer: 0, trust: 0 };
        let theirs = match spoilt {
            _ if !is_face(face) => {
                self.counts[REFUSED_4 + face as u8 as usize * 2 + spoilt.is_some() as usize] += 1;
                refused(4)
            }
            Some(corner) => {
                let kind = NOT_FINITE.iter().position(|&bits| bits == corners[corner].to_bits());
                self.counts[REFUSED_3 + corner * NOT_FINITE.len() + kind.unwrap()] += 1;
                refused(3)
            }
            None => self.answer(FACES[face.unsigned_abs() as usize - 1].map(|corner| corners[corner]), face),
        };
        let (face_answer, ours) = (library::face(Cube(corners), face), library::trust_face(Cube(corners), face));
        let alike = face_answer == Mc33Face { refusal: theirs.refusal, answer: theirs.answer };
        if (ours != theirs || !alike) && DIFFERENCES.fetch_add(1, Relaxed) < 5 {
            let corners = corners.map(|corner| format!("{:08x}", corner.to_bits())).join(" ");
            println!("DIFFERS: face {face} corners {corners}: {ours:?} and {face_answer:?}; expected {theirs:?}");
        }
    }

    fn answer(&mut self, values: [f32; 4], face: i8) -> Mc33Trust {
        let answer = rule(face, values);
        let trust = if by_turns(values) && values.iter().all(|&x| in_range(x)) {
            self.trust(values, face, answer)
        } else {
            UNKNOWN
        };
        self.counts[ANSWERED + of_face(face) * 6 + (trust as usize - 1) * 2 + answer as usize] += 1;
        self.past(values);
        Mc33Trust { refusal: 0, answer: answer as u8, trust }
    }

    // Of values that alternate in range.
    fn trust(&mut self, values: [f32; 4], face: i8, answer: bool) -> u8 {
        let Exact { order, e, s, by_one, by_sum } = exact(values);
        if order == Equal {
            self.counts[EQUAL + of_face(face)] += 1;
            return SURE;
        }
        let untied = is_untied(values);
        let right = answer == ((face > 0) == ((values[0] > 0.0) == (order == Greater)));
        let premises = by_one.is_ge() && by_sum.is_ge();
        // Of the numbers themselves: under the premises there is no tie, and without a tie the answer is right.
        if (premises && !untied || untied && !right) && DIFFERENCES.fetch_add(1, Relaxed) < 5 {
            println!("DIFFERS: face {face} values {values:?} are not as Change 6 says");
        }
        if !right {
            if by_sum.is_ge() {
                self.largest = self.largest.max(roughly(&e) * 2f64.powi(23));
            }
            if by_one.is_ge() {
                self.least = self.least.min(roughly(&s) / roughly(&e));
            }
            return TURNED;
        }
        let val = values[0] * values[2] - values[1] * values[3];
        let met = [
            (PREMISES, premises), (UNTIED, untied), (RIGHT, !untied), (AT_ONE, by_one == Equal && premises),
            (AT_SUM, by_sum == Equal && premises), (AT_STEP, val.abs() == f32::EPSILON),
        ];
        met.iter().for_each(|&(thing, is_met)| self.counts[thing] += is_met as u64);
        SURE
    }

    fn past(&mut self, values: [f32; 4]) {
        if !by_turns(values) {
            return;
        }
        for (place, &value) in values.iter().enumerate() {
            let others = (0..4).all(|other| other == place || in_range(values[other]));
            if let Some(end) = ENDS.iter().position(|&bits| others && bits == size(value)) {
                self.counts[PAST + place * 4 + end] += 1;
            }
        }
    }

    fn sum(&self, things: impl Iterator<Item = usize>) -> u64 {
        things.map(|thing| self.counts[thing]).sum()
    }

    fn add(&mut self, other: &Comparer) {
        self.counts.iter_mut().zip(&other.counts).for_each(|(count, more)| *count += more);
        self.largest = self.largest.max(other.largest);
        self.least = self.least.min(other.least);
    }

    // Sure, turned, unknown.
    fn trusts(&self) -> [u64; 3] {
        from_fn(|trust| self.sum((0..24).map(|k| ANSWERED + k / 2 * 6 + trust * 2 + k % 2)))
    }

    // Whether nothing that is wanted was not met.
    fn print(&self) -> bool {
        let [sure, turned, unknown] = self.trusts();
        let by = |thing: usize| self.counts[thing];
        let (third, fourth) = (self.sum(REFUSED_3..REFUSED_4), self.sum(REFUSED_4..THINGS));
        let faces = sure + turned + unknown + third + fourth;
        println!("\nsure {sure}, turned {turned}, unknown {unknown}; refused by 3 {third}, by 4 {fourth}");
        println!("of the sure {} untied, {} of them under Change 6's premises; {} tied, but right; {} with E exactly 0",
            by(UNTIED), by(PREMISES), by(RIGHT), self.sum(EQUAL..PAST));
        println!("of the turned |E| × 2^23 is at most {:.6} where |E| is at least 2^-22 × S,\n\
            and S / |E| - 2^24 at least {:.2} where |E| is at least 2^-22", self.largest, self.least - 2f64.powi(24));
        let wanted: Vec<usize> = (0..THINGS).filter(|&thing| is_wanted(thing)).collect();
        let rarest = *wanted.iter().min_by_key(|&&thing| by(thing)).unwrap();
        println!("{} things wanted, least {} ({})", wanted.len(), by(rarest), named(rarest));
        let unhit: Vec<String> = wanted.iter().filter(|&&thing| by(thing) == 0).map(|&thing| named(thing)).collect();
        let hit = if unhit.is_empty() { "nothing unhit".into() } else { format!("unhit: {}", unhit.join("; ")) };
        println!("{faces} faces, {} differ, {hit}", DIFFERENCES.load(Relaxed));
        unhit.is_empty()
    }
}

// ---- faces at random, in regimes

struct Random(u64);

impl Random {
    fn next(&mut self) -> u64 {
        self.0 = self.0.wrapping_add(0x9e37_79b9_7f4a_7c15);
        let mixed = (self.0 ^ self.0 >> 30).wrapping_mul(0xbf58_476d_1ce4_e5b9);
        let mixed = (mixed ^ mixed >> 27).wrapping_mul(0x94d0_49bb_1331_11eb);
        mixed ^ mixed >> 31
    }

    fn below(&mut self, n: usize) -> usize {
        ((self.next() >> 32) * n as u64 >> 32) as usize
    }

    fn between(&mut self, least: i64, most: i64) -> i64 {
        least + self.below((most - least + 1) as usize) as i64
    }

    fn pick<T: Copy>(&mut self, values: &[T]) -> T {
        values[self.below(values.len())]
    }

    // 2^least up to 2^(most + 1), each power of two as often, and each value between two.
    fn sized(&mut self, least: i64, most: i64) -> f32 {
        let power = self.between(least, most) + 127;
        f32::from_bits((power as u32) << 23 | (self.next() >> 41) as u32)
    }

    fn in_range(&mut self) -> f32 {
        let drawn = self.sized(-20, 62);
        f32::from_bits(drawn.to_bits().max(LEAST))
    }

    fn near(&mut self, value: f32, steps: i64) -> f32 {
        f32::from_bits((value.to_bits() as i64 + self.between(-steps, steps)) as u32)
    }

    fn power(&mut self, least: i64, most: i64) -> f32 {
        f32::from_bits(((self.between(least, most) + 127) as u32) << 23)
    }

    fn finite(&mut self) -> f32 {
        let bits = (self.next() >> 32) as u32;
        f32::from_bits(if bits << 1 >> 24 == 255 { bits ^ 1 << 30 } else { bits })
    }

    fn signed(&mut self, magnitude: f32) -> f32 {
        if self.next() >> 63 == 0 { magnitude } else { -magnitude }
    }

    // a and c of one sign, b and d of the other.
    fn by_turns(&mut self, [a, b, c, d]: [f32; 4]) -> [f32; 4] {
        if self.next() >> 63 == 0 { [a, -b, c, -d] } else { [-a, b, -c, d] }
    }

    // x, and y so near to product / x as it will go, a few steps away or none.
    fn factors(&mut self, product: f64, x: f32) -> [f32; 2] {
        let y = (product / x as f64) as f32;
        let y = f32::from_bits(y.to_bits().clamp(LEAST, MOST));
        [x, self.near(y, 2)]
    }

    // Corners of any values, a, b, c, d of the face as given.
    fn cube(&mut self, face: i8, values: [f32; 4]) -> [f32; 8] {
        let mut corners = from_fn(|_| self.finite());
        let of_face = FACES.get(face.unsigned_abs().wrapping_sub(1) as usize).unwrap_or(&FACES[0]);
        of_face.iter().zip(values).for_each(|(&corner, value)| corners[corner] = value);
        corners
    }
}

// Factors of the whole numbers by 2^25, where the f32 are 2 apart below and 4 above.
static BY_2_TO_25: LazyLock<Vec<[f32; 2]>> = LazyLock::new(|| {
    let middle = 1 << 25;
    let divisors = |n: u32| (3..6000).filter(move |x| n % x == 0);
    let pairs = (middle - 32..middle + 64).flat_map(|n| divisors(n).map(move |x| [x, n / x]));
    pairs.map(|pair| pair.map(|x| x as f32)).collect()
});

// A name, and a, b, c, d.
type Regime = (&'static str, fn(&mut Random) -> [f32; 4]);

static REGIMES: [Regime; 15] = [
    ("any sizes in the range", |r| {
        let values = from_fn(|_| r.in_range());
        r.by_turns(values)
    }),
    ("near ties of any size: d nearest a×c/b, or by it", |r| {
        let [a, c] = from_fn(|_| r.in_range());
        let product = a as f64 * c as f64;
        // b so that d is in the range.
        let most = (product.log2() as i64 / 2 + 20).min(62);
        let b = r.sized((product.log2() as i64 - 62).max(most - 40).max(-19), most.max(-19));
        let [b, d] = r.factors(product, b);
        r.by_turns([a, b, c, d])
    }),
    ("near ties, a, b and c from 2^-13 to 4", |r| {
        let [a, b, c] = from_fn(|_| r.sized(-13, 1));
        let [b, d] = r.factors(a as f64 * c as f64, b);
        r.by_turns([a, b, c, d])
    }),
    ("a×c - b×d from 2^-25 to 2^-19, products up to 4", |r| {
        let [a, b, c] = from_fn(|_| r.sized(-8, 0));
        let apart = r.sized(-25, -20);
        let product = a as f64 * c as f64 + r.signed(apart) as f64;
        let [b, d] = r.factors(product, b);
        r.by_turns([a, b, c, d])
    }),
    ("both products round 2^-23", |r| {
        let values = from_fn(|_| r.sized(-13, -11));
        r.by_turns(values)
    }),
    ("both products within three steps of a power of two", |r| {
        let power = r.power(-4, 40) as f64;
        let [near, other] = from_fn(|_| power * (1.0 + r.between(-96, 96) as f64 * 2f64.powi(-28)));
        let [a, b] = from_fn(|_| r.sized(-3, 3));
        let ([a, c], [b, d]) = (r.factors(near, a), r.factors(other, b));
        r.by_turns([a, b, c, d])
    }),
    ("whole numbers 1 to 12 times a power of two", |r| {
        let power = r.power(-16, 56);
        let values = from_fn(|_| r.between(1, 12) as f32 * power);
        r.by_turns(values)
    }),
    ("products half way between two f32, or by it", |r| {
        let power = r.between(-29, 37);
        let [[a, c], [b, d]] = from_fn(|_| {
            let (factors, one) = (r.pick(&BY_2_TO_25), power / 2 + r.between(-3, 3));
            [factors[0] * r.power(one, one), factors[1] * r.power(power - one, power - one)]
        });
        r.by_turns([a, b, c, d])
    }),
    ("a few steps round 1", |r| {
        let values = from_fn(|_| r.near(1.0, 4));
        r.by_turns(values)
    }),
    ("E exactly 0: b and d are a and c by a power of two", |r| {
        let ([a, c], power) = (from_fn(|_| r.in_range()), r.power(-4, 4));
        let [b, d] = r.pick(&[[a * power, c / power], [c * power, a / power], [a, c]]);
        r.by_turns([a, b, c, d])
    }),
    ("Change 6's premises to the bit, or a step off", |r| {
        let (k, power) = (r.between(1, 9) as f32, r.power(-22, 40));
        let products = r.pick(&[
            [(k + 1.0) * 2.0 * f32::EPSILON, k * 2.0 * f32::EPSILON],
            [(k + 1.0) * f32::EPSILON, k * f32::EPSILON],
            [4_194_305.0 * power, 4_194_303.0 * power],
        ]);
        let [[a, c], [b, d]] = products.map(|product| {
            let half = (product.to_bits() >> 23) as i64 / 2 - 63;
            let factor = r.power(half - 3, half + 3);
            [factor, product / factor]
        });
        let d = r.near(d, 1);
        if r.below(2) == 0 { r.by_turns([a, b, c, d]) } else { r.by_turns([b, a, d, c]) }
    }),
    ("the ends of the range and the values by them, 1 and 2^-10", |r| {
        let ends = ENDS.map(f32::from_bits);
        let values = from_fn(|_| r.pick(&[ends[0], ends[1], ends[2], ends[3], 1.0, 1.0, 1.0 / 1024.0]));
        r.by_turns(values)
    }),
    ("signs at random, sizes in the range", |r| {
        from_fn(|_| {
            let drawn = r.in_range();
            r.signed(drawn)
        })
    }),
    ("zeros, subnormals and the least of the range among ones", |r| {
        let values = from_fn(|_| {
            let subnormal = f32::from_bits((r.next() >> 41) as u32);
            r.pick(&[0.0, subnormal, f32::from_bits(1), f32::from_bits(LEAST), 1.0])
        });
        if r.below(2) == 0 { r.by_turns(values) } else { values.map(|value| r.signed(value)) }
    }),
    ("any finite values", |r| from_fn(|_| r.finite())),
];

fn compare_regime(regime: &Regime, faces: u64, seed: u64, comparer: &mut Comparer) {
    let mut random = Random(seed);
    for _ in 0..faces {
        let face = random.pick(&[-6, -5, -4, -3, -2, -1, 1, 2, 3, 4, 5, 6]);
        let values = regime.1(&mut random);
        comparer.compare(random.cube(face, values), face);
    }
}

// Face numbers of which half are any; of half the cubes corners are not finite.
fn compare_refusals(faces: u64, seed: u64, comparer: &mut Comparer) {
    let mut random = Random(seed);
    for _ in 0..faces {
        let face = if random.below(2) == 0 { random.next() as i8 } else { random.pick(&[-6, -5, -2, 1, 3, 4]) };
        let values = REGIMES[0].1(&mut random);
        let mut corners = random.cube(face, values);
        for _ in 0..random.below(2) * random.below(3) {
            corners[random.below(8)] = f32::from_bits(random.pick(&NOT_FINITE));
        }
        comparer.compare(corners, face);
    }
}

// By two threads, with what each regime met.
fn compare(faces: u64, seed: u64) -> Comparer {
    let rows = REGIMES.len() + 1;
    let half = faces.div_ceil(2 * rows as u64);
    let mut all = Comparer::new();
    println!("{:<58}{:>11}{:>11}{:>11}{:>11}{:>8}", "regime", "faces", "sure", "turned", "unknown", "differ");
    for place in 0..rows {
        let before = DIFFERENCES.load(Relaxed);
        let mut both = [Comparer::new(), Comparer::new()];
        std::thread::scope(|scope| {
            for (thread, comparer) in both.iter_mut().enumerate() {
                let start = Random(seed << 16 | (2 * place + thread) as u64).next();
                scope.spawn(move || match REGIMES.get(place) {
                    Some(regime) => compare_regime(regime, half, start, comparer),
                    None => compare_refusals(half, start, comparer),
                });
            }
        });
        let mut row = Comparer::new();
        both.iter().for_each(|one| row.add(one));
        let [sure, turned, unknown] = row.trusts();
        let name = REGIMES.get(place).map_or("any face numbers, corners that are not finite", |regime| regime.0);
        let differ = DIFFERENCES.load(Relaxed) - before;
        println!("{name:<58}{:>11}{sure:>11}{turned:>11}{unknown:>11}{differ:>8}", 2 * half);
        all.add(&row);
    }
    all
}

// ---- the speed

// The same in plain Rust; called as the library is.
#[inline(never)]
fn plain(Cube(corners): Cube, face: i8) -> Mc33Trust {
    if !is_face(face) {
        return Mc33Trust { refusal: 4, answer: 0, trust: 0 };
    }
    if !corners.iter().all(|corner| corner.is_finite()) {
        return Mc33Trust { refusal: 3, answer: 0, trust: 0 };
    }
    let values = FACES[face.unsigned_abs() as usize - 1].map(|corner| corners[corner]);
    let answer = rule(face, values);
    let trust = if by_turns(values) && values.iter().all(|&x| in_range(x)) {
        let [a, b, c, d] = values.map(f64::from);
        let (first, second) = (a * c, b * d);
        let right = first == second || answer == ((face > 0) == ((a > 0.0) == (first > second)));
        if right { SURE } else { TURNED }
    } else {
        UNKNOWN
    };
    Mc33Trust { refusal: 0, answer: answer as u8, trust }
}

fn nanoseconds(faces: &[(Cube, i8)], told: impl Fn(Cube, i8) -> Mc33Trust) -> f64 {
    let start = processor_time();
    for &(cube, face) in black_box(faces) {
        black_box(told(cube, face));
    }
    (processor_time() - start) as f64 / faces.len() as f64
}

// Corners from -1 to 1, and a face of each; `alternating` has the face's corners of two signs by turns.
fn speed(name: &str, alternating: bool) {
    let mut random = Random(33);
    let faces: Vec<(Cube, i8)> = (0..32768)
        .map(|_| {
            let face: i8 = random.pick(&[-6, -5, -4, -3, -2, -1, 1, 2, 3, 4, 5, 6]);
            let mut unit = || (random.next() >> 40) as f32 / 2f32.powi(24) + 2f32.powi(-19);
            let sizes: [f32; 8] = from_fn(|_| unit());
            let mut corners = sizes.map(|size| random.signed(size));
            if alternating {
                let at = FACES[face.unsigned_abs() as usize - 1];
                let values = random.by_turns(at.map(|corner| sizes[corner]));
                at.iter().zip(values).for_each(|(&corner, value)| corners[corner] = value);
            }
            (Cube(corners), face)
        })
        .collect();
    let (mut mine, mut theirs) = (Vec::new(), Vec::new());
    for _ in 0..101 {
        mine.push(nanoseconds(&faces, library::trust_face));
        theirs.push(nanoseconds(&faces, plain));
    }
    let (mine, theirs) = (median(mine), median(theirs));
    println!("{name:<24}{mine:>9.1}{theirs:>9.1}{:>7.2}", mine / theirs);
}

fn main() {
    if std::env::args().nth(1).as_deref() == Some("speed") {
        speed("trust, alternating", true);
        speed("trust, any signs", false);
        return;
    }
    let words: Vec<Option<u64>> = std::env::args().skip(1).map(|word| word.parse().ok()).collect();
    let word = |place: usize, otherwise| words.get(place).copied().unwrap_or(Some(otherwise));
    let (Some(faces), Some(seed)) = (word(0, 200_000_000), word(1, 1)) else {
        eprintln!("N SEED, or speed");
        std::process::exit(1);
    };
    let all = compare(faces, seed);
    if !(all.print() & (DIFFERENCES.load(Relaxed) == 0)) {
        std::process::exit(1);
    }
}
