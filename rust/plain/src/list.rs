//! The value list: finding, reading, making the list, writing.
use crate::convert::{Factors, IDENTICAL};
use crate::model::{DataType, Limits};
use crate::number::read_decimal;
use crate::place::read_stored;
use crate::tables::*;

/// One line of the list: raw, state (0 none, 1 number, 2 text) and two numbers.
#[derive(Clone, Copy, PartialEq, Eq, Debug, Default)]
pub struct Line {
    pub raw: i64,
    pub state: u8,
    pub first: i64,
    pub second: i64,
}

/// A shown value: a number, a text's two byte places, or nothing.
#[derive(Clone, Copy, PartialEq, Debug)]
pub enum Shown {
    Real(f64),
    Words(u64, u64),
    Nothing,
}

/// What a physical write would store: the quotient and the raw number it is rounded to, with its part's coefficients
/// and limits.
#[derive(Clone, Copy, PartialEq, Eq, Debug)]
pub struct Rounded {
    pub quotient: (i128, i128),
    pub raw: i128,
    pub factors: Factors,
    pub limits: Limits,
}

impl Rounded {
    /// Tells whether the quotient lies exactly between two whole numbers: the edition decides.
    pub fn is_half(&self) -> bool {
        let (top, under) = self.quotient;
        2 * top % under == 0 && top % under != 0
    }

    /// The value that the rounded number means, if it means one.
    pub fn value(&self) -> Option<(i128, i128)> {
        self.factors.physical(self.raw)
    }

    /// Tells whether the value that would be stored is inside the limits; no value is outside.
    pub fn inside(&self) -> bool {
        let Limits { lower, upper } = self.limits;
        self.value().is_some_and(|value| lower.at_most_fraction(value) && upper.at_least_fraction(value))
    }
}

/// How a raw value is turned into a physical one.
enum Meaning<'a> {
    Fraction(Factors),
    Verbal(&'a [u64]),
}

/// A stored part as the tables hold it, and where its elements stand.
struct Part<'a> {
    cells: &'a [u64],
    data_type: DataType,
}

impl<'a> Part<'a> {
    /// A part by its group's number; none if the object doesn't store it.
    fn new(cells: &'a [u64], group: usize) -> Option<Part<'a>> {
        let cells = record(cells, GROUPS, GROUP_WIDTH, group);
        Some(Part { cells, data_type: DataType::from_code(cells[0])? })
    }

    /// How many elements it has.
    fn elements(&self) -> u64 {
        self.cells[3] * self.cells[4]
    }

    /// The first byte in the image of the element with an index.
    fn place(&self, index: u64) -> u64 {
        let (x, y) = (self.cells[3], self.cells[4]);
        let stored = match self.cells[7] {
            0 => index,
            1 => x - 1 - index,
            _ => index % x * y + index / x,
        };
        self.cells[2] + self.data_type.bytes() * stored
    }

    /// The raw value of an element.
    fn raw(&self, image: &[u8], index: u64) -> i64 {
        let stored = read_stored(image, self.place(index) as usize, self.data_type, self.cells[1] == 1);
        match self.cells[9] {
            0 => stored as i64,
            mask => ((stored as u64 & mask) >> mask.trailing_zeros()) as i64,
        }
    }

    /// What the element's bytes hold after a raw write, or 18.
    fn stored_after(&self, image: &[u8], index: u64, raw: i128) -> Result<u64, u8> {
        let (lowest, highest) = self.data_type.range();
        if raw < lowest || raw > highest {
            return Err(18);
        }
        let mask = self.cells[9];
        if mask == 0 {
            return Ok(raw as u64);
        }
        let shifted = (raw as u128) << mask.trailing_zeros();
        if shifted & !(mask as u128) != 0 {
            return Err(18);
        }
        let old = read_stored(image, self.place(index) as usize, self.data_type, self.cells[1] == 1) as u64;
        Ok(old & !mask | shifted as u64)
    }

    /// Puts a whole number into the element's bytes.
    fn store(&self, image: &mut [u8], index: u64, stored: u64) {
        let bytes = self.data_type.bytes();
        let place = self.place(index);
        for step in 0..bytes {
            let at = if self.cells[1] == 1 { bytes - 1 - step } else { step };
            image[(place + at) as usize] = (stored >> (8 * step)) as u8;
        }
    }

    /// How its raw values are turned into physical ones.
    fn meaning(&self, cells: &'a [u64]) -> Meaning<'a> {
        if self.cells[8] == 0 {
            return Meaning::Fraction(IDENTICAL);
        }
        let method = record(cells, METHODS, METHOD_WIDTH, self.cells[8] as usize - 1);
        if method[0] == KIND_TAB_VERB {
            Meaning::Verbal(record(cells, TABLES, TABLE_WIDTH, method[9] as usize - 1))
        } else {
            Meaning::Fraction(factors_of(method))
        }
    }

    /// The list's line for an element.
    fn line(&self, image: &[u8], cells: &[u64], index: u64) -> Line {
        let raw = self.raw(image, index);
        match self.meaning(cells) {
            Meaning::Fraction(factors) => match factors.physical(raw as i128) {
                Some((top, under)) => Line { raw, state: 1, first: top as i64, second: under as i64 },
                None => Line { raw, ..Line::default() },
            },
            Meaning::Verbal(table) => match words(cells, table, raw) {
                Some((from, past)) => Line { raw, state: 2, first: from as i64, second: past as i64 },
                None => Line { raw, ..Line::default() },
            },
        }
    }
}

/// The text places that a verbal table gives for a raw value, if any.
fn words(cells: &[u64], table: &[u64], raw: i64) -> Option<(u64, u64)> {
    for number in table[0]..table[0] + table[1] {
        let entry = record(cells, ENTRIES, ENTRY_WIDTH, number as usize);
        if signed(entry[0], entry[1]) == raw as i128 {
            return Some((entry[2], entry[3]));
        }
    }
    if table[3] == 0 {
        None
    } else {
        Some((table[2], table[3]))
    }
}

/// The shown value of a line.
fn shown(line: &Line) -> Shown {
    let exact = 1u64 << 53;
    match line.state {
        1 if line.first.unsigned_abs() <= exact && line.second.unsigned_abs() <= exact => {
            Shown::Real(line.first as f64 / line.second as f64)
        }
        2 => Shown::Words(line.first as u64, line.second as u64),
        _ => Shown::Nothing,
    }
}

/// The part that a request names, or 14 if there is no such element.
fn element(cells: &[u64], object: u32, part: u8, index: u32) -> Result<Part<'_>, u8> {
    if object as u64 >= cells[OBJECTS] || part > 2 {
        return Err(14);
    }
    match Part::new(cells, 3 * object as usize + part as usize) {
        Some(part) if (index as u64) < part.elements() => Ok(part),
        _ => Err(14),
    }
}

/// Tells whether two runs of bytes share a byte.
fn share(place: u64, bytes: u64, other: u64, other_bytes: u64) -> bool {
    place < other + other_bytes && other < place + bytes
}

/// Finds the first object that bears a name.
pub fn find(text: &[u8], image: &[u8], base: u32, cells: &[u64], name: &[u8]) -> Result<Option<usize>, u8> {
    if let Some(number) = check(cells, text.len(), image.len(), base, None) {
        return Err(number);
    }
    for number in 0..cells[OBJECTS] as usize {
        let object = record(cells, OBJECTS, OBJECT_WIDTH, number);
        if &text[object[0] as usize..object[1] as usize] == name {
            return Ok(Some(number));
        }
    }
    Ok(None)
}

/// Reads one element: its line and its shown value.
pub fn read(
    text: &[u8],
    image: &[u8],
    base: u32,
    cells: &[u64],
    object: u32,
    part: u8,
    index: u32,
) -> Result<(Line, Shown), u8> {
    if let Some(number) = check(cells, text.len(), image.len(), base, None) {
        return Err(number);
    }
    let line = element(cells, object, part, index)?.line(image, cells, index as u64);
    Ok((line, shown(&line)))
}

/// Makes the list: works out the first lines, as many as there are elements.
pub fn make_list(text: &[u8], image: &[u8], base: u32, cells: &[u64], lines: &mut [Line]) -> Result<(), u8> {
    if let Some(number) = check(cells, text.len(), image.len(), base, Some(lines.len())) {
        return Err(number);
    }
    let mut at = 0;
    for group in 0..cells[GROUPS] as usize {
        let Some(part) = Part::new(cells, group) else {
            continue;
        };
        for index in 0..part.elements() {
            lines[at] = part.line(image, cells, index);
            at += 1;
        }
    }
    Ok(())
}

/// What both writes look at first: 20, 22, 14, 21, 19.
fn writable<'a>(
    text: &[u8],
    image: &[u8],
    base: u32,
    cells: &'a [u64],
    lines: &[Line],
    request: (u32, u8, u32),
) -> Result<Part<'a>, u8> {
    if let Some(number) = check(cells, text.len(), image.len(), base, Some(lines.len())) {
        return Err(number);
    }
    let part = element(cells, request.0, request.1, request.2)?;
    if part.cells[10] != 0 {
        return Err(21);
    }
    let place = part.place(request.2 as u64);
    for number in 0..cells[GROUPS] as usize {
        let group = record(cells, GROUPS, GROUP_WIDTH, number);
        if let Some(count) = DataType::from_code(group[17]) {
            if share(place, part.data_type.bytes(), group[18], count.bytes()) {
                return Err(19);
            }
        }
    }
    Ok(part)
}

/// Puts a whole number into an element's bytes and works out the lines that share a byte.
fn store(image: &mut [u8], cells: &[u64], lines: &mut [Line], part: &Part, index: u64, stored: u64) {
    part.store(image, index, stored);
    let (place, bytes) = (part.place(index), part.data_type.bytes());
    let mut at = 0;
    for group in 0..cells[GROUPS] as usize {
        let Some(other) = Part::new(cells, group) else {
            continue;
        };
        let other_bytes = other.data_type.bytes();
        if share(place, bytes, other.cells[2], other_bytes * other.elements()) {
            for step in 0..other.elements() {
                if share(place, bytes, other.place(step), other_bytes) {
                    lines[at + step as usize] = other.line(image, cells, step);
                }
            }
        }
        at += other.elements() as usize;
    }
}

/// Rounds an asked value by the tables' edition to what would be stored in a part: 15, 16 for the asked value, 17.
fn round(part: &Part, cells: &[u64], asked: &[u8]) -> Result<Rounded, u8> {
    let Meaning::Fraction(factors) = part.meaning(cells) else {
        return Err(15);
    };
    let Some(asked) = read_decimal(asked).filter(|it| it.whole <= 1_000_000_000) else {
        return Err(15);
    };
    let Some(limits) = limits_of(part.cells).filter(|it| it.lower.at_most(asked) && asked.at_most(it.upper)) else {
        return Err(16);
    };
    let Some(quotient) = factors.quotient(asked) else {
        return Err(17);
    };
    let Some(edition) = edition(cells) else {
        return Err(22);
    };
    Ok(Rounded { quotient, raw: edition.round(quotient), factors, limits })
}

/// What a physical write would store, as far as it comes before 18 and before 16 for the stored value; nothing is
/// written. It tells which of the two a 16 is.
#[allow(clippy::too_many_arguments)]
pub fn rounded(
    text: &[u8],
    image: &[u8],
    base: u32,
    cells: &[u64],
    lines: &[Line],
    object: u32,
    part: u8,
    index: u32,
    asked: &[u8],
) -> Result<Rounded, u8> {
    let part = writable(text, image, base, cells, lines, (object, part, index))?;
    round(&part, cells, asked)
}

/// Writes a raw value.
#[allow(clippy::too_many_arguments)]
pub fn write_raw(
    text: &[u8],
    image: &mut [u8],
    base: u32,
    cells: &[u64],
    lines: &mut [Line],
    object: u32,
    part: u8,
    index: u32,
    value: i64,
) -> Result<(), u8> {
    let part = writable(text, image, base, cells, lines, (object, part, index))?;
    let stored = part.stored_after(image, index as u64, value as i128)?;
    store(image, cells, lines, &part, index as u64, stored);
    Ok(())
}

/// Writes an asked physical value, given as text: 15, 16 for the asked value, 17, 18, 16 for the value that would be
/// stored.
#[allow(clippy::too_many_arguments)]
pub fn write_physical(
    text: &[u8],
    image: &mut [u8],
    base: u32,
    cells: &[u64],
    lines: &mut [Line],
    object: u32,
    part: u8,
    index: u32,
    asked: &[u8],
) -> Result<(), u8> {
    let part = writable(text, image, base, cells, lines, (object, part, index))?;
    let rounded = round(&part, cells, asked)?;
    let stored = part.stored_after(image, index as u64, rounded.raw)?;
    if !rounded.inside() {
        return Err(16);
    }
    store(image, cells, lines, &part, index as u64, stored);
    Ok(())
}
