//! Wish 2 by the points of its readings: a physical write tests the value that would be stored, too.
mod common;
use common::*;
use plain::*;

/// A VALUE V of a type with COEFFS, limits and more, over an image of its bytes.
fn make(coeffs: &str, data_type: &str, limits: &str, more: &str) -> Set {
    let body = method("RAT_FUNC", &format!("COEFFS {coeffs}")) + &value(data_type, "C", limits, more);
    Set::new(&body, &[0x55; 4])
}

/// Asserts what asked values store in V, or their refusals.
fn asks(set: &mut Set, all: &[(&str, Result<i64, u8>)]) {
    for &(asked, wanted) in all {
        let answer = set.physical(0, 2, 0, asked);
        assert_eq!(answer.map(|()| set.lines[0].raw), wanted, "{asked}");
    }
}

/// What V's physical write would store.
fn rounds(set: &Set, asked: &str) -> Result<Rounded, u8> {
    rounded(&set.text, &set.image, BASE, &set.cells, &set.lines, 0, 2, 0, asked.as_bytes())
}

/// The coefficients of quarter steps and of 60/INT.
const QUARTERS: &str = "0 4 0 0 0 1";
const SIXTY: &str = "0 0 60 0 1 0";

#[test]
fn point_2_1_raw_writes_have_no_limits() {
    let mut set = make(QUARTERS, "UBYTE", "0 14.4", "");
    for raw in [57, 58, 255, 0] {
        set.raw(0, 2, 0, raw).unwrap();
    }
    // A raw number that means no value is stored, too.
    let mut set = make(SIXTY, "UBYTE", "1 2", "");
    set.raw(0, 2, 0, 0).unwrap();
    assert_eq!(set.rows(), ["V v 0 0 -"]);
}

#[test]
fn point_2_2_the_rounded_number_before_its_mask() {
    // The number 7 stands as 0x70; 7 is tested.
    let mut set = make("0 1 0 0 0 1", "UBYTE", "0 7.5", "BIT_MASK 0xF0");
    asks(&mut set, &[("7.4", Ok(7)), ("7.5", Err(16)), ("7.6", Err(16)), ("0", Ok(0))]);
    assert_eq!(set.image[0], 0x05);
    // A number that does not fit its mask is 18, whatever the limits say of it.
    let mut set = make("0 1 0 0 0 1", "UBYTE", "0 15.5", "BIT_MASK 0xF0");
    asks(&mut set, &[("15.4", Ok(15)), ("15.5", Err(18))]);
}

#[test]
fn point_2_2_both_limits_with_their_ends() {
    // 14.25 and -2.5 are steps: the ends belong to the inside.
    let mut set = make(QUARTERS, "SBYTE", "-2.5 14.25", "");
    asks(&mut set, &[("14.25", Ok(57)), ("14.2", Ok(57)), ("-2.5", Ok(-10)), ("-2.4", Ok(-10)), ("14.26", Err(16))]);
    // Between two steps: the nearest lies outside.
    let mut set = make(QUARTERS, "SBYTE", "-2.4 14.2", "");
    asks(&mut set, &[("14.2", Err(16)), ("-2.4", Err(16)), ("14.1", Ok(56)), ("-2.3", Ok(-9))]);
    // Falling: a higher number means less.
    let mut set = make("0 -4 0 0 0 1", "SBYTE", "-2.4 14.2", "");
    asks(&mut set, &[("14.2", Err(16)), ("-2.4", Err(16)), ("14.1", Ok(-56)), ("-2.3", Ok(9))]);
}

#[test]
fn point_2_2_an_exact_fraction() {
    // 60/7 = 8.571428 and 4/7 of the sixth place.
    let mut set = make(SIXTY, "UBYTE", "1 8.571428", "");
    asks(&mut set, &[("8.571428", Err(16)), ("7.5", Ok(8))]);
    let mut set = make(SIXTY, "UBYTE", "1 8.571429", "");
    asks(&mut set, &[("8.571428", Ok(7)), ("8.571429", Ok(7))]);
    let mut set = make(SIXTY, "UBYTE", "8.571429 60", "");
    asks(&mut set, &[("8.571429", Err(16)), ("10", Ok(6))]);
    let mut set = make(SIXTY, "UBYTE", "8.571428 60", "");
    asks(&mut set, &[("8.571428", Ok(7))]);
    // Below zero: -60/7.
    let mut set = make(SIXTY, "SBYTE", "-8.571428 -1", "");
    asks(&mut set, &[("-8.571428", Err(16))]);
    let mut set = make(SIXTY, "SBYTE", "-8.571429 -1", "");
    asks(&mut set, &[("-8.571428", Ok(-7))]);
}

#[test]
fn point_2_2_fractions_of_large_numbers() {
    // 0.699999 rounds to 2^32 - 1. That means a fraction near 2^62 over 2^62: 0.699999 - 1/(10^6 · 4291101837320299999).
    let below = "0 898114 -615794 0 -999100003 699369003";
    let raw = i64::from(u32::MAX);
    let mut upper = make(below, "ULONG", "-1 0.699999", "");
    asks(&mut upper, &[("0.699999", Ok(raw))]);
    assert_eq!((upper.lines[0].first, upper.lines[0].second), (3003766995022372679, 4291101837320299999));
    asks(&mut make(below, "ULONG", "0.699999 1", ""), &[("0.699999", Err(16))]);
    // And as far above it.
    let above = "0 298116 -195796 0 -999100003 699369003";
    asks(&mut make(above, "ULONG", "-1 0.699999", ""), &[("0.699999", Err(16))]);
    asks(&mut make(above, "ULONG", "0.699999 1", ""), &[("0.699999", Ok(raw))]);
    // Limits of ten digits.
    asks(&mut make(above, "ULONG", "-9999999999 9999999999", ""), &[("0.699999", Ok(raw))]);
    asks(&mut make(above, "ULONG", "-9999.999999 9999.999999", ""), &[("0.699999", Ok(raw))]);
}

#[test]
fn point_2_3_no_value_is_outside() {
    let mut set = make(SIXTY, "UBYTE", "-9999999999 9999999999", "");
    asks(&mut set, &[("1000", Err(16)), ("0", Err(17)), ("0.2", Err(18)), ("-1000", Err(16)), ("120", Ok(1))]);
    assert_eq!(rounds(&set, "1000").unwrap().value(), None);
    // 17 for e·P + f = 0 alone: INT = 4P/(P - 3) has its pole at INT 4, where P would have no end.
    let mut set = make("0 4 0 0 1 -3", "SBYTE", "-1000000 1000000", "");
    asks(
        &mut set,
        &[("3", Err(17)), ("1000000", Err(16)), ("-1000000", Err(16)), ("15", Ok(5)), ("27", Ok(5)), ("27.1", Err(16))],
    );
}

#[test]
fn point_2_4_order() {
    let mut set = make("0 1 0 0 0 1", "UBYTE", "-0.5 255.5", "");
    // Outside the type and outside the limits: 18.
    asks(&mut set, &[("255.5", Err(18)), ("-0.5", Err(18)), ("255.4", Ok(255)), ("-0.4", Ok(0))]);
    assert!(!rounds(&set, "255.5").unwrap().inside() && !rounds(&set, "-0.5").unwrap().inside());
    // The asked value first: 15, then 16 before 17 and 18.
    asks(&mut set, &[("x", Err(15)), ("256", Err(16)), ("-1", Err(16))]);
    let mut set = make(SIXTY, "UBYTE", "1 1000", "");
    asks(&mut set, &[("0", Err(16)), ("0.2", Err(16)), ("1000", Err(16)), ("40.1", Ok(1))]);
    // Which of the two a 16 is.
    assert_eq!(rounds(&set, "0.2"), Err(16));
    assert_eq!(rounds(&set, "1000").map(|it| (it.raw, it.value())), Ok((0, None)));
    assert_eq!(rounds(&set, "40.1").map(|it| (it.raw, it.value(), it.inside())), Ok((1, Some((60, 1)), true)));
}

#[test]
fn point_2_5_the_next_number_inward_is_not_tried() {
    let mut set = make(QUARTERS, "UBYTE", "0 14.4", "");
    set.raw(0, 2, 0, 9).unwrap();
    let before = (set.image.clone(), set.lines.clone());
    assert_eq!(set.physical(0, 2, 0, "14.4"), Err(16));
    assert_eq!((&set.image, &set.lines), (&before.0, &before.1));
    // No step at all lies inside.
    let mut set = make(QUARTERS, "UBYTE", "14.3 14.4", "");
    asks(&mut set, &[("14.3", Err(16)), ("14.375", Err(16)), ("14.374", Err(16)), ("14.4", Err(16))]);
}

#[test]
fn point_2_6_examples() {
    let mut charge_stop = make(QUARTERS, "UBYTE", "0 14.4", "");
    asks(&mut charge_stop, &[("14.4", Err(16)), ("14.3", Ok(57)), ("14.375", Err(16)), ("14.374999", Ok(57))]);
    let mut sixty = make(SIXTY, "UBYTE", "-1000000 1000000", "");
    asks(&mut sixty, &[("1000", Err(16)), ("0", Err(17)), ("0.2", Err(18))]);
    let mut milli = make("0 1000 0 0 0 1", "SWORD", "-0.0005 1", "");
    asks(&mut milli, &[("-0.0005", Err(16)), ("-0.000499", Ok(0)), ("1", Ok(1000))]);
}

#[test]
fn every_number_against_every_limit() {
    // Small conversions, limits in halves, asked values in tenths: the answer by trying it in whole numbers.
    for [b, c, e, f] in [[4, 0, 0, 1], [-4, 3, 0, 1], [0, 60, 1, 0], [4, 0, 1, -3], [5, 1, 2, 3], [3, -7, -1, 2]] {
        for (lower, upper) in [(-21, 29), (3, 3), (-7, 0), (0, 41), (-40, 40)] {
            let decimal = |tenths: i64| {
                format!("{}{}.{}", if tenths < 0 { "-" } else { "" }, tenths.abs() / 10, tenths.abs() % 10)
            };
            let limits = format!("{} {}", decimal(5 * lower), decimal(5 * upper));
            let mut set = make(&format!("0 {b} {c} 0 {e} {f}"), "SBYTE", &limits, "");
            for tenths in -210i64..=210 {
                let wanted = answer([b, c, e, f], (5 * lower, 5 * upper), tenths);
                let found = set.physical(0, 2, 0, &decimal(tenths)).map(|()| set.lines[0].raw);
                assert_eq!(found, wanted, "{b} {c} {e} {f}, {limits}, {tenths}/10");
            }
        }
    }
}

/// What a write of some tenths to an SBYTE with limits in tenths stores, or its refusal, in small whole numbers.
fn answer([b, c, e, f]: [i64; 4], (lower, upper): (i64, i64), tenths: i64) -> Result<i64, u8> {
    if tenths < lower || tenths > upper {
        return Err(16);
    }
    let (top, under) = (b * tenths + 10 * c, e * tenths + 10 * f);
    if under == 0 {
        return Err(17);
    }
    // The nearest of all numbers that can be, halves away from zero.
    let far = |raw: &i64| ((raw * under - top).abs(), -raw.abs());
    let raw = (-3000..=3000).min_by_key(far).unwrap_or(0);
    if !(-128..=127).contains(&raw) {
        return Err(18);
    }
    let (top, under) = (f * raw - c, b - e * raw);
    let sign = under.signum();
    let inside = under != 0 && sign * 10 * top >= sign * lower * under && sign * 10 * top <= sign * upper * under;
    if inside {
        Ok(raw)
    } else {
        Err(16)
    }
}
