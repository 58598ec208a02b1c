//! Floats of every kind that a comparison should meet.

use crate::random::Random;

/// From here on every float is whole.
const TWO_52: f64 = 4_503_599_627_370_496.0;

/// The first whole number past the 64-bit ones.
pub const TWO_63: f64 = 9_223_372_036_854_775_808.0;

/// Where behaviour changes: zero, subnormals, halves, limits of the settings, the millionths of
/// `round_output`, the ends of the whole numbers, the largest values, NaN.
pub const LANDMARKS: [f64; 46] = [
    0.0,
    5e-324,
    1e-310,
    f64::MIN_POSITIVE,
    1e-300,
    5e-7,
    1.5e-6,
    2.5e-6,
    0.1234565,
    0.25,
    0.3,
    0.49999999999999994,
    0.5,
    1.0,
    1.5,
    1.6,
    2.5,
    3.5,
    10.0,
    254.5,
    255.0,
    4095.5,
    4096.0,
    999_999.5,
    1e6,
    2_147_483_647.5,
    2_147_483_648.0,
    4.096e9,
    4_294_967_295.5,
    TWO_52 / 1e6,
    2.0 * TWO_52 / 1e6,
    TWO_52 / 2.0 + 0.5,
    TWO_52 - 0.5,
    TWO_52,
    TWO_52 + 1.0,
    2.0 * TWO_52,
    TWO_63 / 2.0,
    TWO_63 - 1024.0,
    TWO_63,
    2.0 * TWO_63,
    1e300,
    f64::MAX / 1e6,
    1e308,
    f64::MAX,
    f64::INFINITY,
    f64::NAN,
];

/// Every landmark with its neighbours, of both signs, each once.
pub fn boundaries() -> Vec<f64> {
    let mut values: Vec<f64> = LANDMARKS
        .iter()
        .flat_map(|&x| [x.next_down(), x, x.next_up()])
        .flat_map(|x| [x, -x])
        .collect();
    values.sort_by(f64::total_cmp);
    values.dedup_by_key(|x| x.to_bits());
    values
}

/// Any bit pattern.
pub fn any(random: &mut Random) -> f64 {
    f64::from_bits(random.bits())
}

/// A random mantissa and sign with an exponent of two from `low` to `high`.
pub fn sized(random: &mut Random, low: i64, high: i64) -> f64 {
    let exponent = low + random.below((high - low + 1) as u64) as i64;
    let kept = random.bits() & 0x800f_ffff_ffff_ffff;
    f64::from_bits(kept | ((exponent + 1023) as u64) << 52)
}

pub fn subnormal(random: &mut Random) -> f64 {
    f64::from_bits(random.bits() & 0x800f_ffff_ffff_ffff)
}

/// A whole number of up to `width` bits, of either sign.
pub fn whole(random: &mut Random, width: u64) -> f64 {
    let n = (random.bits() >> (64 - width)) as f64;
    signed(random, n)
}

/// A whole number and a half, of any size that holds the half.
pub fn tie(random: &mut Random) -> f64 {
    let n = random.bits() >> (12 + random.below(52));
    signed(random, n as f64 + 0.5)
}

/// The float itself, or one at most two places beside it.
pub fn near(random: &mut Random, x: f64) -> f64 {
    match random.below(5) {
        0 => x.next_down(),
        1 => x.next_up(),
        2 => x.next_down().next_down(),
        3 => x.next_up().next_up(),
        _ => x,
    }
}

fn signed(random: &mut Random, x: f64) -> f64 {
    if random.below(2) == 0 { x } else { -x }
}

/// One value of any kind.
pub fn mixed(random: &mut Random) -> f64 {
    match random.below(6) {
        0 => any(random),
        1 => sized(random, -30, 64),
        2 => subnormal(random),
        3 => tie(random),
        4 => whole(random, 53),
        _ => {
            let x = random.pick(&LANDMARKS);
            let x = near(random, x);
            signed(random, x)
        }
    }
}
