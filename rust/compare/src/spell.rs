//! Spellings of decimals: without an exponent and with one, at the edges of what is read and past them.
use crate::rng::Rng;

/// Runs with an exponent that are just read, just not, or have no form.
pub const EDGES: [&str; 58] = [
    "1.2E3",
    "5e-1",
    "1E9",
    "-1E+9",
    "1E10",
    "9999999999E0",
    "-9999999999e0",
    "10000000000E0",
    "99999999990e-1",
    "12345678901e-1",
    "1E-6",
    "-1e-06",
    "1E-7",
    "10e-7",
    "0.0000001e1",
    "0.0000001e0",
    "1234567.891e-3",
    "1234567.891e-4",
    "12345.678912e0",
    "12345.678910e0",
    "123456789.1e1",
    "123456789.1e2",
    "1234567890.0E0",
    "1234567890.0",
    "00000000000012e0",
    "0E99",
    "-0E-99",
    "0e100",
    "-0.0000000000000e+00",
    "1e99",
    "1e-99",
    "1E",
    "1E+",
    "1e-",
    "1E123",
    "1e005",
    "1E2.0",
    "1e3e3",
    "1ee3",
    "1e--1",
    "1e+-1",
    "E1",
    "e1",
    "-e1",
    "1.E3",
    ".5e1",
    "--1e3",
    "+-1e3",
    "2E5x",
    "1e1x",
    "1e1]",
    "5e1/begin",
    "1_0e1",
    "0x1e3",
    "0x1e+3",
    "0X1E3",
    "1.2.3e1",
    "1e/**/3",
];

/// A decimal in its shortest spelling: a whole number over a power of ten.
pub fn decimal(value: i64, power: u32) -> String {
    let sign = if value < 0 { "-" } else { "" };
    let size = value.unsigned_abs();
    if power == 0 {
        return format!("{sign}{size}");
    }
    let ten = 10u64.pow(power);
    format!("{sign}{}.{:0width$}", size / ten, size % ten, width = power as usize)
}

/// A decimal without an exponent in one of its spellings.
pub fn spelled(value: i64, power: u32, rng: &mut Rng) -> String {
    let plain = decimal(value, power);
    let digits = plain.bytes().filter(u8::is_ascii_digit).count();
    match rng.below(16) {
        0 if value >= 0 => format!("+{plain}"),
        1 if value >= 0 && digits <= 8 => format!("00{plain}"),
        2 if power == 0 && digits <= 8 => format!("{plain}.00"),
        3 if power > 0 && power < 6 && digits < 10 => format!("{plain}0"),
        4 if value == 0 && power == 0 => "-0".to_string(),
        5 if value == 0 && power == 0 => "-0.000".to_string(),
        _ => plain,
    }
}

/// So many zeros.
fn zeros(many: u64) -> String {
    "0".repeat(many as usize)
}

/// An exponent in one of its spellings.
fn exponent(value: i64, rng: &mut Rng) -> String {
    let letter = rng.pick(&["E", "e"]);
    let sign = match value {
        0 => rng.pick(&["", "+", "-"]),
        _ if value < 0 => "-",
        _ => rng.pick(&["", "+"]),
    };
    let size = value.unsigned_abs();
    if rng.one_in(2) {
        format!("{letter}{sign}{size}")
    } else {
        format!("{letter}{sign}{size:02}")
    }
}

/// A decimal with an exponent in one of many spellings: the point anywhere, zeros before and behind.
pub fn with_exponent(value: i64, power: u32, rng: &mut Rng) -> String {
    const ZEROS: [u64; 10] = [0, 0, 0, 0, 0, 1, 2, 7, 12, 95];
    let (before, behind) = (rng.pick(&ZEROS), rng.pick(&ZEROS));
    let digits = format!("{}{}{}", zeros(before), value.unsigned_abs(), zeros(behind));
    // How many digits stand after the point when it is moved, and how many as it is written.
    let moved = power as u64 + behind;
    let (least, most) = (moved.saturating_sub(99), (digits.len() as u64 - 1).min(moved + 99));
    let written = match rng.below(4) {
        0 => least,
        1 => moved.clamp(least, most),
        _ => rng.range(least, most),
    };
    let move_by = if value == 0 { rng.below(199) as i64 - 99 } else { written as i64 - moved as i64 };
    let (left, right) = digits.split_at(digits.len() - written as usize);
    let point = if right.is_empty() { "" } else { "." };
    let sign = match value {
        0 => rng.pick(&["", "", "+", "-"]),
        _ if value < 0 => "-",
        _ => rng.pick(&["", "", "", "+"]),
    };
    format!("{sign}{left}{point}{right}{}", exponent(move_by, rng))
}

/// A run with an exponent at an edge of what is read, past it, or nearly of the form.
pub fn edge(rng: &mut Rng) -> String {
    match rng.below(8) {
        0..=2 => rng.pick(&EDGES).to_string(),
        3 => {
            let (value, power) = (rng.pick(&[9_999_999_999, 10_000_000_000, 99_999_999_999]), rng.below(9) as u32);
            with_exponent(value, power, rng)
        }
        4 => power_of_ten(rng),
        5 => long_run(rng),
        _ => nearly(rng),
    }
}

/// A power of ten around the least and the greatest that are read, with zeros behind or before.
fn power_of_ten(rng: &mut Rng) -> String {
    let (power, many) = (rng.pick(&[-8, -7, -6, -5, -1, 0, 1, 8, 9, 10, 11]), rng.below(110));
    if rng.one_in(2) {
        format!("1{}{}", zeros(many), exponent(power - many as i64, rng))
    } else {
        format!("0.{}1{}", zeros(many), exponent(power + many as i64 + 1, rng))
    }
}

/// A long run: one digit many times on each side of a point, perhaps something between them, and an exponent.
fn long_run(rng: &mut Rng) -> String {
    let mut side = || rng.pick(&["0", "0", "1", "9"]).repeat(rng.pick(&[1, 11, 40, 98, 99, 100, 400, 3000]));
    let (left, right) = (side(), side());
    let between = rng.pick(&["", ".", ".", "5.", ".5", "12.5", "x"]);
    let move_by = rng.below(199) as i64 - 99;
    format!("{left}{between}{right}{}", exponent(move_by, rng))
}

/// A run of the form's pieces, some of them left out or put wrong.
fn nearly(rng: &mut Rng) -> String {
    let mut digits = |most: u64| -> String {
        let many = rng.below(most);
        (0..many).map(|_| rng.pick(&['0', '0', '0', '1', '5', '9'])).collect()
    };
    let (left, right, last) = (digits(13), digits(9), digits(4));
    let sign = rng.pick(&["", "", "", "", "+", "-", "--", "."]);
    let point = rng.pick(&["", ".", ".", ".."]);
    let letter = rng.pick(&["E", "e", "E", "e", "E", "e", "", "ee", "x"]);
    let move_sign = rng.pick(&["", "", "+", "-", "-", "+-"]);
    let tail = rng.pick(&["", "", "", "", "", "", "", "", ".", "e1", "x"]);
    format!("{sign}{left}{point}{right}{letter}{move_sign}{last}{tail}")
}
