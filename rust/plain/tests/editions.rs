//! Wish 7: the load takes an edition, the tables keep it, and a physical write rounds an exact half by it.
mod common;
use common::*;
use plain::*;

/// A VALUE V of a type with COEFFS and limits, loaded with each edition over an image of its bytes.
fn both(coeffs: &str, data_type: &str, limits: &str) -> [Set; 2] {
    let body = method("RAT_FUNC", &format!("COEFFS {coeffs}")) + &value(data_type, "C", limits, "");
    [1, 2].map(|edition| Set::of_edition(&body, &[0x55; 4], edition))
}

/// What an asked value stores in V, or its refusal.
fn stores(set: &mut Set, asked: &str) -> Result<i64, u8> {
    set.physical(0, 2, 0, asked).map(|()| set.lines[0].raw)
}

/// An asked value, and what it stores in edition 1 and in edition 2 or its refusals.
type Asked<'a> = (&'a str, Result<i64, u8>, Result<i64, u8>);

/// Asserts what asked values store in V.
fn asks(sets: &mut [Set; 2], all: &[Asked]) {
    for &(asked, one, two) in all {
        let found = sets.each_mut().map(|set| stores(set, asked));
        assert_eq!(found, [one, two], "{asked}");
    }
}

/// The coefficients of whole steps, of thousandths and of 60/INT.
const WHOLE: &str = "0 1 0 0 0 1";
const MILLI: &str = "0 1000 0 0 0 1";
const SIXTY: &str = "0 0 60 0 1 0";

/// A quotient as a decimal with three places.
fn decimal(thousandths: i64) -> String {
    let size = thousandths.abs();
    format!("{}{}.{:03}", if thousandths < 0 { "-" } else { "" }, size / 1000, size % 1000)
}

#[test]
fn halves_above_and_below_zero() {
    let mut sets = both(WHOLE, "SBYTE", "-100 100");
    let halves = [
        ("0.5", 1, 0),
        ("1.5", 2, 2),
        ("2.5", 3, 2),
        ("3.5", 4, 4),
        ("-0.5", -1, 0),
        ("-1.5", -2, -2),
        ("-2.5", -3, -2),
        ("-3.5", -4, -4),
        ("99.5", 100, 100),
        ("98.5", 99, 98),
    ];
    for (asked, one, two) in halves {
        asks(&mut sets, &[(asked, Ok(one), Ok(two))]);
        assert_eq!(sets[1].image[0], two as i8 as u8, "{asked}");
    }
}

#[test]
fn thousandths() {
    let mut sets = both(MILLI, "SWORD", "-30 30");
    asks(&mut sets, &[("11.8005", Ok(11801), Ok(11800))]);
    assert_eq!(sets[0].image[..2], 11801u16.to_le_bytes());
    assert_eq!(sets[1].image[..2], 11800u16.to_le_bytes());
    assert_eq!(sets[1].lines[0], Line { raw: 11800, state: 1, first: 11800, second: 1000 });
    asks(
        &mut sets,
        &[("-0.0005", Ok(-1), Ok(0)), ("11.8015", Ok(11802), Ok(11802)), ("-11.8005", Ok(-11801), Ok(-11800))],
    );
    // No halves: the same in both.
    asks(
        &mut sets,
        &[("-0.000499", Ok(0), Ok(0)), ("11.800499", Ok(11800), Ok(11800)), ("11.800501", Ok(11801), Ok(11801))],
    );
}

#[test]
fn answers_differ_at_halves() {
    asks(&mut both(WHOLE, "UBYTE", "-1 255"), &[("-0.5", Err(18), Ok(0)), ("-0.6", Err(18), Err(18))]);
    asks(&mut both(WHOLE, "UBYTE", "0 2.9"), &[("2.5", Err(16), Ok(2)), ("2.6", Err(16), Err(16))]);
    // Where both go to the even neighbour: 255.5 to 256, 1.5 to 2.
    asks(&mut both(WHOLE, "UBYTE", "0 256"), &[("255.5", Err(18), Err(18)), ("254.5", Ok(255), Ok(254))]);
    asks(&mut both(WHOLE, "UBYTE", "0 1.9"), &[("1.5", Err(16), Err(16)), ("0.5", Ok(1), Ok(0))]);
    // The lower limit: in edition 2 2.5 goes to 2, which lies below it.
    asks(&mut both(WHOLE, "UBYTE", "2.1 9"), &[("2.5", Ok(3), Err(16)), ("3.5", Ok(4), Ok(4))]);
    asks(&mut both(WHOLE, "SBYTE", "-2.9 0"), &[("-2.5", Err(16), Ok(-2)), ("-1.5", Ok(-2), Ok(-2))]);
    // The type's ends: -128.5 goes to -128 in edition 2, 127.5 to 128 in both.
    asks(&mut both(WHOLE, "SBYTE", "-200 200"), &[("-128.5", Err(18), Ok(-128)), ("127.5", Err(18), Err(18))]);
}

#[test]
fn halves_of_fractions() {
    // 60/8 = 7.5 and 60/24 = 2.5; with a divisor below zero too.
    let mut sets = both(SIXTY, "SBYTE", "-1000 1000");
    asks(&mut sets, &[("8", Ok(8), Ok(8)), ("24", Ok(3), Ok(2)), ("-24", Ok(-3), Ok(-2)), ("-40", Ok(-2), Ok(-2))]);
    // 60/120 = 0.5: edition 2 goes to 0, which means no value.
    asks(&mut sets, &[("120", Ok(1), Err(16)), ("-120", Ok(-1), Err(16)), ("0", Err(17), Err(17))]);
    let mut falling = both("0 -2 1 0 0 4", "SBYTE", "-100 100");
    asks(&mut falling, &[("-0.5", Ok(1), Ok(0)), ("1.5", Ok(-1), Ok(0)), ("3.5", Ok(-2), Ok(-2))]);
}

#[test]
fn halves_of_large_numbers() {
    // 999999999/2 is a half; 500000001/10^9 and 499999999/10^9 are none.
    let mut sets = both("0 1 0 0 0 2", "SLONG", "-1000000000 1000000000");
    asks(
        &mut sets,
        &[("999999999", Ok(500_000_000), Ok(500_000_000)), ("999999997", Ok(499_999_999), Ok(499_999_998))],
    );
    asks(&mut sets, &[("-999999997", Ok(-499_999_999), Ok(-499_999_998))]);
    let mut sets = both("0 500000001 0 0 0 1000000000", "SLONG", "-1000000000 1000000000");
    asks(&mut sets, &[("1", Ok(1), Ok(1)), ("-1", Ok(-1), Ok(-1)), ("5", Ok(3), Ok(3))]);
    let mut sets = both("0 499999999 0 0 0 1000000000", "SLONG", "-1000000000 1000000000");
    asks(&mut sets, &[("1", Ok(0), Ok(0)), ("-1", Ok(0), Ok(0)), ("3", Ok(1), Ok(1))]);
}

/// What V's physical write would store.
fn rounds(set: &Set, asked: &str) -> Result<Rounded, u8> {
    rounded(&set.text, &set.image, BASE, &set.cells, &set.lines, 0, 2, 0, asked.as_bytes())
}

/// Writes a value with both editions: everything is the same unless its quotient, worked out here too, is a half.
fn differs_at_halves(sets: &mut [Set; 2], [b, c, e, f]: [i64; 4], thousandths: i64) {
    let asked = decimal(thousandths);
    let [one, two] = sets.each_ref().map(|set| rounds(set, &asked));
    let found = sets.each_mut().map(|set| stores(set, &asked));
    let (top, under) = (b * thousandths + 1000 * c, e * thousandths + 1000 * f);
    let half = under != 0 && 2 * top % under == 0 && top % under != 0;
    assert_eq!(one.is_ok_and(|it| it.is_half()), one.is_ok() && half, "{asked}");
    if !half {
        assert_eq!((one, found[0]), (two, found[1]), "{asked}");
        assert_eq!((&sets[0].image, &sets[0].lines), (&sets[1].image, &sets[1].lines), "{asked}");
    } else if let (Ok(one), Ok(two)) = (one, two) {
        let away = ((top.abs() / under.abs() + 1) * top.signum() * under.signum()) as i128;
        let even = if away % 2 == 0 { away } else { away - away.signum() };
        assert_eq!((one.raw, two.raw, one.quotient), (away, even, two.quotient), "{asked}");
    }
    // The next write begins at the same image and list.
    (sets[1].image, sets[1].lines) = (sets[0].image.clone(), sets[0].lines.clone());
}

#[test]
fn nothing_but_exact_halves_differs() {
    for factors in [[1, 0, 0, 1], [4, 0, 0, 1], [-4, 3, 0, 1], [0, 60, 1, 0], [5, 1, 2, 3], [3, -7, -1, 2]] {
        let [b, c, e, f] = factors;
        let mut sets = both(&format!("0 {b} {c} 0 {e} {f}"), "SBYTE", "-20 20");
        for thousandths in (-21_000..=21_000).step_by(125) {
            differs_at_halves(&mut sets, factors, thousandths);
        }
    }
}

#[test]
fn nothing_else_goes_by_the_edition() {
    let [mut one, mut two] = both(MILLI, "SWORD", "-30 30");
    assert_eq!((one.rows(), one.read(0, 2, 0)), (two.rows(), two.read(0, 2, 0)));
    for raw in [0, -1, 32767, -32768, 32768] {
        assert_eq!(one.raw(0, 2, 0, raw), two.raw(0, 2, 0, raw));
        assert_eq!((&one.image, &one.lines, one.listing()), (&two.image, &two.lines, two.listing()));
    }
}

#[test]
fn tables_keep_the_edition() {
    let [one, two] = both(MILLI, "SWORD", "-30 30");
    assert_eq!((&one.cells[..4], &two.cells[..4]), (&[1, 1, 0, 1][..], &[1, 2, 0, 1][..]));
    // No other cell differs.
    assert_eq!(one.cells[2..], two.cells[2..]);
    // A write goes by the cell alone.
    let mut turned = both(MILLI, "SWORD", "-30 30");
    turned[0].cells[1] = 2;
    turned[1].cells[1] = 1;
    asks(&mut turned, &[("11.8005", Ok(11800), Ok(11801))]);
}

#[test]
fn another_edition_in_tables_is_22() {
    let [mut set, _] = both(MILLI, "SWORD", "-30 30");
    for edition in [0, 3, 4, 255, 256, 257, 258, 1 << 32, (1 << 32) + 1, (1 << 32) + 2, 1 << 63, u64::MAX] {
        set.cells[1] = edition;
        assert!(!keeps_rule(&set.cells, set.text.len(), set.image.len()), "{edition}");
        let (text, cells) = (&set.text, &set.cells);
        assert_eq!(find(text, &set.image, BASE, cells, b"V"), Err(22));
        assert_eq!(read(text, &set.image, BASE, cells, 0, 2, 0).err(), Some(22));
        assert_eq!(make_list(text, &set.image, BASE, cells, &mut [Line::default()]), Err(22));
        assert_eq!(listing(text, &set.image, BASE, cells, &set.lines), Err(22));
        // Before 14, and after a 20.
        assert_eq!(read(text, &set.image, BASE, cells, 9, 2, 0).err(), Some(22));
        assert_eq!(make_list(text, &set.image, BASE, cells, &mut []), Err(20));
        let before = (set.image.clone(), set.lines.clone());
        let (image, lines) = (&mut set.image, &mut set.lines);
        assert_eq!(write_raw(text, image, BASE, cells, lines, 0, 2, 0, 1), Err(22));
        assert_eq!(write_physical(text, image, BASE, cells, lines, 0, 2, 0, b"1"), Err(22));
        assert_eq!((&set.image, &set.lines), (&before.0, &before.1));
    }
    // The size mark is 0 still.
    (set.cells[1], set.cells[2]) = (2, 1);
    assert!(!keeps_rule(&set.cells, set.text.len(), set.image.len()));
    set.cells[2] = 0;
    assert!(keeps_rule(&set.cells, set.text.len(), set.image.len()));
}

#[test]
fn number_33() {
    let refusal = Some(Refusal { number: 33, place: 0 });
    let text = module(&measurement("A", "UBYTE", BASE)).into_bytes();
    for edition in [0, 3, 4, 255, 256, 257, 258, 65537, 1 << 31, u32::MAX] {
        assert_eq!(load(&text, &ZEROS, BASE, edition).err(), refusal, "{edition}");
        // Before the text: an empty one, and one whose refusal has a place.
        assert_eq!(load(b"", &ZEROS, BASE, edition).err(), refusal, "{edition}");
        assert_eq!(load(b"   /begin X", &ZEROS, BASE, edition).err(), refusal, "{edition}");
        assert_eq!(load(&text, &[], BASE, edition).err(), refusal, "{edition}");
    }
    for edition in [1, 2] {
        assert!(load(&text, &ZEROS, BASE, edition).is_ok());
        assert_eq!(load(b"   /begin X", &ZEROS, BASE, edition).err(), Some(Refusal { number: 4, place: 10 }));
    }
}

#[test]
fn number_33_after_20() {
    let refusal = Some(Refusal { number: 20, place: 0 });
    for edition in [0, 3, u32::MAX] {
        assert_eq!(load(&vec![b' '; (16 << 20) + 1], &[], 0, edition).err(), refusal);
        assert_eq!(load(b"", &vec![0; (1 << 20) + 1], 0, edition).err(), refusal);
        assert_eq!(load(b"", &[0, 0], u32::MAX, edition).err(), refusal);
        assert_eq!(load(b"", &[0], u32::MAX, edition).err(), Some(Refusal { number: 33, place: 0 }));
    }
}
