//! Conversions: the four whole coefficients, raw to fraction, asked value to raw by the edition's rule on halves.
use crate::model::{Conversion, Model};
use crate::number::{ten_to, Decimal};
use crate::{refuse, Refusal};
use std::cmp::Ordering;

/// A description's edition, which says how a physical write rounds an exact half.
#[derive(Clone, Copy, PartialEq, Eq, Debug)]
pub enum Edition {
    /// Halves away from zero.
    One = 1,
    /// Halves to the even neighbour.
    Two = 2,
}

impl Edition {
    /// The edition with a number, if there is one.
    pub fn from_number(number: u64) -> Option<Edition> {
        match number {
            1 => Some(Edition::One),
            2 => Some(Edition::Two),
            _ => None,
        }
    }

    /// The whole number nearest to a fraction whose divisor is above zero, an exact half by the edition's rule.
    pub fn round(self, (top, under): (i128, i128)) -> i128 {
        let floor = top.div_euclid(under);
        let left = top - floor * under;
        let up = match ((2 * left).cmp(&under), self) {
            (Ordering::Less, _) => false,
            (Ordering::Greater, _) => true,
            (Ordering::Equal, Edition::One) => top > 0,
            (Ordering::Equal, Edition::Two) => floor % 2 != 0,
        };
        floor + up as i128
    }
}

/// A fraction with its divisor above zero; none for divisor 0.
fn fraction(top: i128, under: i128) -> Option<(i128, i128)> {
    match under {
        0 => None,
        _ if under < 0 => Some((-top, -under)),
        _ => Some((top, under)),
    }
}

/// The four coefficients b, c, e, f made whole.
#[derive(Clone, Copy, PartialEq, Eq, Debug)]
pub struct Factors {
    pub b: i128,
    pub c: i128,
    pub e: i128,
    pub f: i128,
}

/// The coefficients of IDENTICAL and NO_COMPU_METHOD.
pub const IDENTICAL: Factors = Factors { b: 1, c: 0, e: 0, f: 1 };

impl Factors {
    /// Tells whether the coefficients keep their rule (else 10).
    pub fn allowed(self) -> bool {
        let small = [self.b, self.c, self.e, self.f].iter().all(|it| it.abs() <= 1_000_000_000);
        small && self.b * self.f != self.c * self.e
    }

    /// The fraction that a raw value means, its divisor above zero; none for divisor 0.
    pub fn physical(self, raw: i128) -> Option<(i128, i128)> {
        fraction(self.f * raw - self.c, self.b - self.e * raw)
    }

    /// The quotient that an asked value gives before it is rounded, its divisor above zero; none if no raw exists.
    pub fn quotient(self, asked: Decimal) -> Option<(i128, i128)> {
        let (whole, ten) = (asked.signed(), ten_to(asked.power));
        fraction(self.b * whole + self.c * ten, self.e * whole + self.f * ten)
    }
}

/// The whole coefficients of one conversion; none for TAB_VERB.
fn factors(conversion: &Conversion) -> Option<Factors> {
    match conversion {
        Conversion::Identical => Some(IDENTICAL),
        Conversion::Linear([a, b]) => {
            let power = a.power.max(b.power);
            Some(Factors { b: ten_to(power), c: -b.at_power(power), e: 0, f: a.at_power(power) })
        }
        Conversion::RatFunc([_, b, c, _, e, f]) => {
            let power = b.power.max(c.power).max(e.power).max(f.power);
            Some(Factors { b: b.at_power(power), c: c.at_power(power), e: e.at_power(power), f: f.at_power(power) })
        }
        Conversion::TabVerb(_) => None,
    }
}

/// Judges every method in text order: 10 at its name where the rule is broken.
pub fn judge_methods(model: &Model) -> Result<Vec<Option<Factors>>, Refusal> {
    let mut all = Vec::new();
    for method in &model.methods {
        let factors = factors(&method.conversion);
        if factors.is_some_and(|it| !it.allowed()) {
            return refuse(10, method.name.from);
        }
        all.push(factors);
    }
    Ok(all)
}
