//! The steps of a conversion: decimals at what a raw number means, beside it and between two of them, and coefficients
//! whose steps are worth it.
use crate::rng::Rng;

/// The coefficients b, c, e, f of a conversion, made whole.
pub type Factors = [i128; 4];

/// The coefficients of IDENTICAL and NO_COMPU_METHOD.
pub const IDENTICAL: Factors = [1, 0, 0, 1];

/// The greatest whole number of a decimal.
pub const MOST: u64 = 9_999_999_999;

/// The greatest whole number of a decimal to ask for, and the greatest coefficient.
const MOST_ASKED: i128 = 1_000_000_000;

/// How a conversion steps: its coefficients and, where they are made for it, a decimal very close to a step or to half
/// of one.
#[derive(Clone, Copy)]
pub struct Steps {
    pub factors: Factors,
    pub close: Option<(i64, u32)>,
}

/// Tells whether coefficients keep their rule.
pub fn allowed(factors: Factors) -> bool {
    let [b, c, e, f] = factors;
    factors.iter().all(|it| it.abs() <= MOST_ASKED) && b * f != c * e
}

/// The fraction that a raw number means, which may stand between two whole ones: some parts of so many.
pub fn value([b, c, e, f]: Factors, parts: i128, of: i128) -> (i128, i128) {
    (f * parts - c * of, b * of - e * parts)
}

/// A whole raw number next to the one that a decimal asks for.
fn raw_near([b, c, e, f]: Factors, (whole, power): (i64, u32)) -> Option<i128> {
    let (whole, ten) = (whole as i128, 10i128.pow(power));
    let under = e * whole + f * ten;
    if under == 0 {
        return None;
    }
    Some((b * whole + c * ten).div_euclid(under))
}

/// The raw number that means no value, if it is whole.
fn pole([b, _, e, _]: Factors) -> Option<i128> {
    if e == 0 || b % e != 0 {
        return None;
    }
    Some(b / e)
}

/// A fraction as a decimal, if it is one with at most six places and ten digits.
pub fn exact(top: i128, under: i128) -> Option<(i64, u32)> {
    for power in 0..=6 {
        let scaled = top.checked_mul(10i128.pow(power))?;
        if under != 0 && scaled % under == 0 {
            let whole = scaled / under;
            return if whole.unsigned_abs() <= MOST as u128 { Some((whole as i64, power)) } else { None };
        }
    }
    None
}

/// A decimal at a fraction or beside it: itself where it is one, else cut after some place, perhaps a unit on.
fn near((top, under): (i128, i128), rng: &mut Rng) -> Option<(i64, u32)> {
    if under == 0 {
        return None;
    }
    if let Some(number) = exact(top, under).filter(|_| rng.one_in(2)) {
        return Some(number);
    }
    let cut = |power: u32| (top * 10i128.pow(power)).div_euclid(under);
    let most = (0..=6).rev().find(|&power| cut(power).abs() < MOST_ASKED)?;
    let power = if rng.one_in(3) { rng.below(most as u64 + 1) as u32 } else { most };
    Some(((cut(power) + rng.pick(&[0, 0, 0, 1, 1, -1])) as i64, power))
}

/// A number to ask for around a limit: up to half a step inside or outside of it.
pub fn around_limit(factors: Factors, limit: (i64, u32), rng: &mut Rng) -> Option<(i64, u32)> {
    let raw = raw_near(factors, limit)? + rng.pick(&[0, 0, 1, 1, -1]);
    near(value(factors, 8 * raw + rng.below(9) as i128 - 4, 8), rng)
}

/// A number to ask for that rounds to the raw number that means no value.
pub fn around_pole(factors: Factors, rng: &mut Rng) -> Option<(i64, u32)> {
    let of = rng.pick(&[2, 3, 4, 8, 100, 10_000, 1_000_000]);
    let parts = pole(factors)? * of + rng.pick(&[1, -1]);
    near(value(factors, parts, of), rng)
}

/// A number to ask for that lies exactly between two raw numbers: around zero, at the ends of a range, around a limit,
/// or anywhere in the range.
pub fn at_half(
    factors: Factors,
    (lowest, highest): (i64, i64),
    limit: (i64, u32),
    rng: &mut Rng,
) -> Option<(i64, u32)> {
    let mut one = || {
        let below = match rng.below(6) {
            0 | 1 => rng.below(10) as i128 - 5,
            2 => lowest as i128 - rng.below(2) as i128,
            3 => highest as i128 - rng.below(2) as i128,
            4 => raw_near(factors, limit)? - rng.below(2) as i128,
            _ => lowest as i128 + rng.below((highest - lowest + 1) as u64) as i128,
        };
        let (top, under) = value(factors, 2 * below + 1, 2);
        exact(top, under).filter(|&(whole, _)| whole.unsigned_abs() <= MOST_ASKED as u64)
    };
    (0..8).find_map(|_| one())
}

/// Four times a raw number to put a limit at: of a range, at its ends or just past them, at the pole or near it; often
/// whole, else a quarter or a half step on.
fn quarters(factors: Factors, (lowest, highest): (i64, i64), rng: &mut Rng) -> i128 {
    let pole = pole(factors).unwrap_or(0);
    let raw = match rng.below(8) {
        0 => lowest as i128 - rng.below(2) as i128,
        1 => highest as i128 + rng.below(2) as i128,
        2 => return 4 * pole + rng.pick(&[-2, -1, 1, 2]),
        3 => pole + rng.below(41) as i128 - 20,
        _ => lowest as i128 + rng.below((highest - lowest + 1) as u64) as i128,
    };
    4 * raw + rng.pick(&[0, 0, 0, 0, 1, 2, 2, 3])
}

/// A limit at a step of a conversion, a bit beside it or between two.
fn limit(steps: Steps, raws: (i64, i64), rng: &mut Rng) -> Option<(i64, u32)> {
    if let Some(close) = steps.close.filter(|_| !rng.one_in(4)) {
        return Some(close);
    }
    near(value(steps.factors, quarters(steps.factors, raws, rng), 4), rng)
}

/// Two limits in order, at steps of a conversion for raw numbers of a range; one of them may be far away.
pub fn limits(steps: Steps, raws: (i64, i64), rng: &mut Rng) -> Option<[(i64, u32); 2]> {
    const FAR: [(i64, u32); 5] =
        [(-9_999_999_999, 0), (9_999_999_999, 0), (-1_000_000_000, 0), (1_000_000_000, 0), (9_999_999_999, 6)];
    let one = limit(steps, raws, rng)?;
    let other = match rng.below(8) {
        0 => one,
        1..=4 => rng.pick(&FAR),
        _ => limit(steps, raws, rng)?,
    };
    let at = |(whole, power): (i64, u32)| whole as i128 * 10i128.pow(6 - power);
    Some(if at(one) <= at(other) { [one, other] } else { [other, one] })
}

/// A number or its negative.
fn either(number: i128, rng: &mut Rng) -> i128 {
    if rng.one_in(3) {
        -number
    } else {
        number
    }
}

/// A number just below the greatest coefficient, or its negative.
fn great(rng: &mut Rng) -> i128 {
    either(MOST_ASKED - rng.below(1000) as i128, rng)
}

/// Coefficients of steps that are all alike.
fn even(rng: &mut Rng) -> Factors {
    let b = either(rng.pick(&[1, 2, 3, 4, 7, 8, 10, 16, 60, 100, 1000, 12345]), rng);
    let c = rng.pick(&[0, 0, 1, -1, 7, -40, 273, -1000]);
    [b, c, 0, either(rng.pick(&[1, 1, 1, 2, 3, 5, 10, 30]), rng)]
}

/// Coefficients with a raw number that means no value.
fn with_pole(rng: &mut Rng) -> Factors {
    let raw = match rng.below(4) {
        0 => 0,
        1 => either(rng.pick(&[1, 2, 5, 127, 128, 255, 32768, 65535, 100_000_000]), rng),
        _ => rng.below(256) as i128 - 100,
    };
    let e = either(rng.pick(&[1, 1, 1, 2, 3, 10]), rng);
    let c = either(rng.pick(&[0, 1, 60, 60, 1000, 12_345, 1_000_000]), rng);
    [e * raw, c, e, either(rng.pick(&[0, 0, 1, 2, 7, 1000]), rng)]
}

/// Coefficients near the greatest: with four bytes of raw number the two numbers of a fraction come near 2^62.
fn wide(rng: &mut Rng) -> Factors {
    let most = great(rng);
    let e = either(rng.pick(&[0, 1, 2, 5, 37, 100, 1000, 12_345, 1_000_000, most]), rng);
    let small = rng.below(2000) as i128 - 1000;
    let (one, other) = (great(rng), great(rng));
    [rng.pick(&[one, one, small]), rng.pick(&[other, small, 0]), e, great(rng)]
}

/// The number below a modulus whose product with another leaves 1, by Euclid's way; the two have no common divisor.
fn inverse(number: i128, modulus: i128) -> i128 {
    let (mut one, mut other) = ((modulus, 0), (number.rem_euclid(modulus), 1));
    while other.0 != 0 {
        let times = one.0 / other.0;
        (one, other) = (other, (one.0 - times * other.0, one.1 - times * other.1));
    }
    one.1.rem_euclid(modulus)
}

/// A decimal that needs all its places, of any size or below 1: its whole number and its power.
fn long_decimal(any: bool, rng: &mut Rng) -> (i128, u32) {
    let power = rng.range(3, 6) as u32;
    let most = if any { MOST_ASKED } else { 10i128.pow(power) };
    let size = 10 * rng.below(most as u64 / 10) as i128 + rng.pick(&[1, 3, 7, 9]);
    (either(size, rng), power)
}

/// A raw number of a range, near one of its ends or any.
fn raw_of((lowest, highest): (i64, i64), rng: &mut Rng) -> i128 {
    let raw = match rng.below(3) {
        0 => lowest + rng.below(100) as i64,
        1 => highest - rng.below(100) as i64,
        _ => lowest + rng.below((highest - lowest + 1) as u64) as i64,
    };
    raw as i128
}

/// First and second with first·whole + second·ten = sum, the first at a number or a bit above it.
fn split(sum: i128, from: i128, (whole, ten): (i128, i128)) -> (i128, i128) {
    let first = from + (sum * inverse(whole, ten) - from).rem_euclid(ten);
    (first, (sum - first * whole) / ten)
}

/// Coefficients and a decimal that rounds to a raw number of a range whose value is that decimal, or so close to it that
/// a quotient of 53 bits is the same: b·whole + c·ten is raw times e·whole + f·ten, and at most 2 away from it.
fn close(raws: (i64, i64), rng: &mut Rng) -> Option<Steps> {
    let (whole, power) = long_decimal(rng.one_in(3), rng);
    let (raw, ten) = (raw_of(raws, rng), 10i128.pow(power));
    let divisor = either(5 + rng.below(300) as i128, rng);
    let product = raw * divisor + rng.pick(&[0, 1, 1, -1, -1, 2, -2]);
    // Where the decimal is above 1, e is smaller so that f is not too great.
    let from = either((MOST_ASKED - ten - rng.below(1000) as i128) * ten / ten.max(whole.abs()), rng);
    let (e, f) = split(divisor, from, (whole, ten));
    let (b, c) = split(product, rng.pick(&[0, 0, from / 2]), (whole, ten));
    Some(Steps { factors: [b, c, e, f], close: Some((whole as i64, power)) }).filter(|it| allowed(it.factors))
}

/// Coefficients and a decimal whose quotient lies half a step past a raw number of a range, or so close to it that a
/// quotient of 53 bits is the same: twice b·whole + c·ten is 2·raw + 1 times e·whole + f·ten, and at most 1 away.
fn half(raws: (i64, i64), rng: &mut Rng) -> Option<Steps> {
    let (whole, power) = long_decimal(true, rng);
    let (raw, ten) = (raw_of(raws, rng), 10i128.pow(power));
    let most = MOST_ASKED * whole.abs() / (raw.abs() + 1);
    let divisor = either((rng.below(most as u64) as i128 >> rng.below(12)) + 1, rng);
    // An odd divisor, mostly: then it can't be a half exactly.
    let divisor = if rng.one_in(4) { divisor } else { divisor | 1 };
    let twice = (2 * raw + 1) * divisor;
    let product = (twice + twice % 2 * rng.pick(&[1, -1])) / 2;
    let (e, f) = split(divisor, divisor / whole, (whole, ten));
    let (b, c) = split(product, product / whole, (whole, ten));
    Some(Steps { factors: [b, c, e, f], close: Some((whole as i64, power)) }).filter(|it| allowed(it.factors))
}

/// Coefficients with steps worth testing limits at, for raw numbers of a range; they keep their rule.
pub fn made(raws: (i64, i64), rng: &mut Rng) -> Steps {
    loop {
        let factors = match rng.below(8) {
            0..=2 => even(rng),
            3..=5 => with_pole(rng),
            _ => return great_made(raws, rng),
        };
        if allowed(factors) {
            return Steps { factors, close: None };
        }
    }
}

/// Coefficients near the greatest, for raw numbers of a range; they keep their rule.
pub fn great_made(raws: (i64, i64), rng: &mut Rng) -> Steps {
    loop {
        let made = match rng.below(5) {
            0 => Some(Steps { factors: wide(rng), close: None }),
            1 | 2 => half(raws, rng),
            _ => close(raws, rng),
        };
        if let Some(steps) = made.filter(|it| allowed(it.factors)) {
            return steps;
        }
    }
}

#[cfg(test)]
mod tests {
    use super::*;

    #[test]
    fn close_coefficients_round_to_their_raw_number() {
        let mut rng = Rng::new(7);
        let mut found = 0;
        for _ in 0..2000 {
            let raws = rng.pick(&[(0, 255), (-32768, 32767), (0, u32::MAX as i64)]);
            let Some(Steps { factors: [b, c, e, f], close: Some((whole, power)) }) = close(raws, &mut rng) else {
                continue;
            };
            found += 1;
            let (whole, ten) = (whole as i128, 10i128.pow(power));
            let (top, under) = (b * whole + c * ten, e * whole + f * ten);
            assert!(under != 0 && allowed([b, c, e, f]));
            let left = top.rem_euclid(under.abs());
            assert!(left <= 2 || under.abs() - left <= 2, "{left} of {under}");
        }
        assert!(found > 1000, "{found}");
    }

    #[test]
    fn half_coefficients_lie_between_two_raw_numbers() {
        let mut rng = Rng::new(8);
        let (mut exact, mut close) = (0, 0);
        for _ in 0..2000 {
            let raws = rng.pick(&[(0, 255), (-32768, 32767), (0, u32::MAX as i64)]);
            let Some(Steps { factors: [b, c, e, f], close: Some((whole, power)) }) = half(raws, &mut rng) else {
                continue;
            };
            let (whole, ten) = (whole as i128, 10i128.pow(power));
            let (top, under) = (b * whole + c * ten, e * whole + f * ten);
            assert!(under != 0);
            // How far twice the quotient is from an odd number.
            let left = (2 * top - under.abs()).rem_euclid(2 * under.abs());
            let far = left.min(2 * under.abs() - left);
            assert!(far <= 1, "{far} of {under}");
            exact += (far == 0) as u32;
            close += (far == 1) as u32;
        }
        assert!(exact > 100 && close > 600, "{exact} {close}");
    }

    #[test]
    fn inverses() {
        for (number, modulus) in [(3, 10), (-7, 1000), (699_999, 1_000_000), (123_456_789, 1_000)] {
            assert_eq!((number * inverse(number, modulus)).rem_euclid(modulus), 1);
        }
    }
}
