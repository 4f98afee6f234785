//! The forms of numbers: whole numbers, `0x` numbers and decimals with or without an exponent.

/// A decimal: sign (false for zero, also where it is written `-0`), whole number, smallest power of ten below it.
#[derive(Clone, Copy, PartialEq, Eq, Debug)]
pub struct Decimal {
    pub below: bool,
    pub whole: u64,
    pub power: u32,
}

impl Decimal {
    /// The signed whole number over the decimal's power of ten.
    pub fn signed(self) -> i128 {
        if self.below {
            -(self.whole as i128)
        } else {
            self.whole as i128
        }
    }

    /// The decimal made whole at a power of ten not below its own.
    pub fn at_power(self, power: u32) -> i128 {
        self.signed() * ten_to(power - self.power)
    }

    /// Tells whether this decimal is at most another.
    pub fn at_most(self, other: Decimal) -> bool {
        let power = self.power.max(other.power);
        self.at_power(power) <= other.at_power(power)
    }

    /// Tells whether this decimal is at most a fraction whose divisor is above zero.
    pub fn at_most_fraction(self, (top, under): (i128, i128)) -> bool {
        self.signed() * under <= top * ten_to(self.power)
    }

    /// Tells whether this decimal is at least a fraction whose divisor is above zero.
    pub fn at_least_fraction(self, (top, under): (i128, i128)) -> bool {
        self.signed() * under >= top * ten_to(self.power)
    }

    /// The three cells of a decimal: 1 if below zero, whole number, power.
    pub fn cells(self) -> [u64; 3] {
        [self.below as u64, self.whole, self.power as u64]
    }
}

/// A power of ten.
pub fn ten_to(power: u32) -> i128 {
    10i128.pow(power)
}

/// Reads `0x` with 1 to 8 hex digits.
fn read_hex(run: &[u8]) -> Option<u64> {
    let digits = run.strip_prefix(b"0x")?;
    if digits.is_empty() || digits.len() > 8 {
        return None;
    }
    let mut value = 0u64;
    for &digit in digits {
        value = value * 16 + (digit as char).to_digit(16)? as u64;
    }
    Some(value)
}

/// Reads an unsigned whole number, decimal or hex, of at most a given value.
pub fn read_whole(run: &[u8], most: u64) -> Option<u64> {
    let value = match read_hex(run) {
        Some(value) => value as u128,
        None => {
            let mut value = 0u128;
            if run.is_empty() {
                return None;
            }
            for &digit in run {
                if !digit.is_ascii_digit() {
                    return None;
                }
                value = (value * 10 + (digit - b'0') as u128).min(1 << 64);
            }
            value
        }
    };
    if value <= most as u128 {
        Some(value as u64)
    } else {
        None
    }
}

/// Parts a run into whether a minus begins it and what follows its sign.
fn signed_run(run: &[u8]) -> (bool, &[u8]) {
    match run.first() {
        Some(b'-') => (true, &run[1..]),
        Some(b'+') => (false, &run[1..]),
        _ => (false, run),
    }
}

/// Parts digits at their point: those left and right of it, none right where there is no point.
fn read_sides(digits: &[u8]) -> Option<(&[u8], &[u8])> {
    let (left, right) = match digits.iter().position(|&byte| byte == b'.') {
        Some(point) if point + 1 < digits.len() => (&digits[..point], &digits[point + 1..]),
        Some(_) => return None,
        None => (digits, &digits[..0]),
    };
    let all_digits = left.iter().chain(right).all(u8::is_ascii_digit);
    if left.is_empty() || !all_digits {
        return None;
    }
    Some((left, right))
}

/// Reads what follows an E: an optional sign, one or two digits.
fn read_exponent(run: &[u8]) -> Option<i64> {
    let (below, digits) = signed_run(run);
    if !matches!(digits.len(), 1 | 2) || !digits.iter().all(u8::is_ascii_digit) {
        return None;
    }
    let size = digits.iter().fold(0, |size, &digit| size * 10 + (digit - b'0') as i64);
    Some(if below { -size } else { size })
}

/// Moves the point of digits to the right by an exponent. The number moved is judged without needless zeros: at most
/// 10 digits, at most 6 after the point.
fn moved(below: bool, left: &[u8], right: &[u8], exponent: i64) -> Option<Decimal> {
    let digits = || left.iter().chain(right);
    let is_zero = |digit: &&u8| **digit == b'0';
    let (many, before) = (digits().count(), digits().take_while(is_zero).count());
    if before == many {
        return Some(Decimal { below: false, whole: 0, power: 0 });
    }
    let behind = digits().rev().take_while(is_zero).count();
    // How many of the digits kept stand after the point; below 0, so many zeros stand between them and the point.
    let after = right.len() as i64 - behind as i64 - exponent;
    let (kept, zeros) = (many - before - behind, (-after).max(0));
    if kept as i64 + zeros > 10 || after > 6 {
        return None;
    }
    let kept = digits().skip(before).take(kept);
    let whole = kept.fold(0, |whole, &digit| whole * 10 + (digit - b'0') as u64) * 10u64.pow(zeros as u32);
    Some(Decimal { below, whole, power: after.max(0) as u32 })
}

/// Reads a decimal: sign, digits, perhaps a point and digits, perhaps an exponent. Only without an exponent its digits
/// are counted as they are written: 1 to 10 in all, at most 6 after the point.
pub fn read_decimal(run: &[u8]) -> Option<Decimal> {
    let (below, rest) = signed_run(run);
    let letter = rest.iter().position(|byte| matches!(byte, b'E' | b'e'));
    let (left, right) = read_sides(&rest[..letter.unwrap_or(rest.len())])?;
    match letter {
        Some(letter) => moved(below, left, right, read_exponent(&rest[letter + 1..])?),
        None if left.len() + right.len() > 10 || right.len() > 6 => None,
        None => moved(below, left, right, 0),
    }
}

/// Tells whether a number run has any of the forms, where no number is wanted.
pub fn has_form(run: &[u8]) -> bool {
    run.iter().all(|byte| byte.is_ascii_digit()) || read_hex(run).is_some() || read_decimal(run).is_some()
}
