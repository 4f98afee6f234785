//! The archive's C functions over the plain reader. The environment variable
//! OBARSIVEL_MOCK_BREAK (a number of [`BREAKS`]) makes one of them wrong on
//! purpose, so that the comparison can be seen to notice.
use crate::raw::{TABLE_CELLS, WORK_CELLS};
use plain::{Bits, Decimal, Edition, Limits, Line, Refusal, Rounded, Shown};
use std::borrow::Cow;
use std::slice::{from_raw_parts, from_raw_parts_mut};
use std::sync::atomic::{AtomicU64, Ordering::Relaxed};
use std::sync::OnceLock;

/// What OBARSIVEL_MOCK_BREAK breaks, from number 1.
pub const BREAKS: [&str; 57] = [
    "a reference that leads nowhere is placed one byte on",
    "COLUMN_DIR is read as ROW_DIR",
    "after a write, lines of other elements are left stale",
    "a listing that finds no room has written its header",
    "a write refused with 16 has changed the image's first byte",
    "the edition's cell is not looked at by the table rule",
    "the shown number is a product with the reciprocal",
    "a refused load leaves the tables as they were",
    "a load leaves its work cells as they were",
    "making a list clears the line past the last",
    "a name is found by its beginning",
    "a physical write forgets the upper limit's own value",
    "a raw write of a value that does not fit is cut to the type",
    "the listing prints -0 for a zero numerator",
    "a MEASUREMENT's mark is not looked at by the table rule",
    "a refused read has put zeros into out and shown",
    "a read without a number leaves shown as it was",
    "an exponent's minus is read as a plus",
    "a number with an exponent is malformed where none is wanted",
    "an asked value's digits before its exponent are counted",
    "the asked value alone is tested against the limits",
    "a rounded number that means no value counts as inside the limits",
    "16 for the stored value is given before 18",
    "the stored value is not tested against the lower limit",
    "the stored value may not be a limit itself",
    "the stored value is cut to six places before it is tested",
    "the stored value is tested as a floating-point number",
    "the stored value's products with a limit are cut to 64 bits",
    "the number shifted into its mask is tested",
    "a write refused with 16 for the stored value has stored it",
    "a raw write is tested against the limits",
    "edition 1 rounds halves to the even neighbour",
    "edition 2 rounds halves away from zero",
    "edition 2 rounds halves to the odd neighbour",
    "edition 2 rounds halves below zero up",
    "edition 2 rounds halves below zero away from zero",
    "edition 2 takes more than half a step for a half",
    "edition 2 takes for a half what 53 bits don't tell from one",
    "edition 2 tests the limits on the number that edition 1 stores",
    "edition 2 tests the type on the number that edition 1 stores",
    "a physical write goes by the last load's edition, not by the tables'",
    "a load puts edition 1 into the tables always",
    "a load puts its edition into the size mark's cell, too",
    "the table rule takes edition 3",
    "the table rule takes edition 0",
    "the table rule looks at the edition's lowest byte alone",
    "33 is given before 20",
    "a load refused with 33 has cleared the tables",
    "a load refused with 33 has cleared its work cells",
    "33 is given after the text's own refusals",
    "a load takes its edition modulo 256",
    "33 has a place",
    "the lines are worked out from the image as it was before the write",
    "a write under a mask stores zero in its bytes without a bit of the mask",
    "a write of what stands there already leaves the list as it was",
    "a line that shares a byte but no bit with the written element is left as it was",
    "the stored value is tested with the bits beside its mask",
];

/// The last load's edition, for the break that goes by it.
static LAST_EDITION: AtomicU64 = AtomicU64::new(1);

/// Tells whether a number is the one to break.
fn broken(number: u32) -> bool {
    static BREAK: OnceLock<u32> = OnceLock::new();
    let chosen = BREAK
        .get_or_init(|| std::env::var("OBARSIVEL_MOCK_BREAK").ok().and_then(|value| value.parse().ok()).unwrap_or(0));
    *chosen == number
}

/// The four columns of a list, as C lends them.
struct Columns<'a> {
    raw: &'a mut [i64],
    state: &'a mut [u8],
    first: &'a mut [i64],
    second: &'a mut [i64],
}

impl Columns<'_> {
    /// The lines that all four columns have room for.
    fn lines(&self) -> Vec<Line> {
        let len = self.raw.len().min(self.state.len()).min(self.first.len()).min(self.second.len());
        let line = |at: usize| Line {
            raw: self.raw[at],
            state: self.state[at],
            first: self.first[at],
            second: self.second[at],
        };
        (0..len).map(line).collect()
    }

    /// Puts lines back into the columns.
    fn put(&mut self, lines: &[Line]) {
        for (at, line) in lines.iter().enumerate() {
            self.raw[at] = line.raw;
            self.state[at] = line.state;
            self.first[at] = line.first;
            self.second[at] = line.second;
        }
    }
}

/// The edition that the table rule takes from its cell, in one of the ways to break it.
fn lent_edition(cell: u64) -> u64 {
    match cell {
        1 | 2 => cell,
        _ if broken(6) => 1,
        3 if broken(44) => 2,
        0 if broken(45) => 1,
        _ if broken(46) => cell % 256,
        _ => cell,
    }
}

/// The lent tables, with the edition's cell put right or every MEASUREMENT marked if that is to be broken.
fn lent(tables: &[u64]) -> Cow<'_, [u64]> {
    if tables.len() < TABLE_CELLS || lent_edition(tables[1]) == tables[1] && !broken(15) {
        return Cow::Borrowed(tables);
    }
    let mut cells = tables.to_vec();
    cells[1] = lent_edition(tables[1]);
    let measurement = |object: &usize| broken(15) && tables[5 + 3 * object + 2] == 10;
    for object in (0..tables[4].min(512) as usize).filter(measurement) {
        cells[1542 + 19 * (3 * object + 2) + 10] = 1;
    }
    Cow::Owned(cells)
}

/// The description, with every exponent's minus turned if that is to be broken.
fn lent_text(text: &[u8]) -> Cow<'_, [u8]> {
    if !broken(18) {
        return Cow::Borrowed(text);
    }
    let mut bytes = text.to_vec();
    for at in 2..text.len() {
        if text[at] == b'-' && matches!(text[at - 1], b'E' | b'e') && text[at - 2].is_ascii_digit() {
            bytes[at] = b'+';
        }
    }
    Cow::Owned(bytes)
}

/// Tells whether a decimal with an exponent stands at a place.
fn exponent_at(text: &[u8], place: usize) -> bool {
    let run = text[place..].iter().take_while(|byte| byte.is_ascii_alphanumeric() || b"+-.".contains(byte));
    let run: Vec<u8> = run.copied().collect();
    let is_number = run.first().is_some_and(|byte| !byte.is_ascii_alphabetic());
    is_number && !run.starts_with(b"0x") && run.iter().any(|byte| matches!(byte, b'E' | b'e'))
}

/// The archive's version: major * 65536 + minor * 256 + patch.
///
/// # Safety
/// Always; only the archive's function of the same form is not safe to call.
pub unsafe extern "C" fn obarsivel_version() -> u32 {
    [env!("CARGO_PKG_VERSION_MAJOR"), env!("CARGO_PKG_VERSION_MINOR"), env!("CARGO_PKG_VERSION_PATCH")]
        .iter()
        .fold(0, |number, part| number * 256 + part.parse().unwrap_or(0))
}

/// The plain reader's answer to a load, in one of the ways to break it.
fn loaded(text: &[u8], image: &[u8], base: u32, edition: u32) -> Result<Vec<u64>, Refusal> {
    let edition = if broken(51) { edition % 256 } else { edition };
    let asked = if broken(50) && edition != 2 { 1 } else { edition };
    let mut answer = plain::load(&lent_text(text), image, base, asked);
    match &mut answer {
        Ok(_) if asked != edition => return Err(Refusal { number: 33, place: 0 }),
        Ok(cells) => {
            for walk in (0..cells[1541] as usize).map(|group| 1542 + 19 * group + 7) {
                if broken(2) && cells[walk] == 2 {
                    cells[walk] = 0;
                }
            }
            LAST_EDITION.store(cells[1], Relaxed);
            if broken(42) {
                cells[1] = 1;
            }
            if broken(43) {
                cells[2] = cells[1];
            }
        }
        Err(refusal) => match refusal.number {
            5 if broken(19) && exponent_at(text, refusal.place) => refusal.number = 2,
            7 if broken(1) => refusal.place += 1,
            33 if broken(52) => refusal.place = text.len() + 1,
            _ => {}
        },
    }
    answer
}

/// Loads a description of an edition: 0, or place * 64 + the refusal's number.
///
/// # Safety
/// Every pointer is valid for the length after it.
#[allow(clippy::too_many_arguments)]
pub unsafe extern "C" fn obarsivel_load(
    text: *const u8,
    text_len: usize,
    image: *const u8,
    image_len: usize,
    base: u32,
    edition: u32,
    tables: *mut u64,
    tables_len: usize,
    work: *mut u64,
    work_len: usize,
) -> u64 {
    let (text, image) = (from_raw_parts(text, text_len), from_raw_parts(image, image_len));
    let (tables, work) = (from_raw_parts_mut(tables, tables_len), from_raw_parts_mut(work, work_len));
    if broken(47) && !(1..=2).contains(&edition) {
        return 33;
    }
    if tables_len < TABLE_CELLS || work_len < WORK_CELLS {
        return 20;
    }
    let answer = loaded(text, image, base, edition);
    // 20 and 33 leave everything as it was.
    let number = answer.as_ref().map_or_else(|refusal| refusal.number, |_| 0);
    let clears = |breaks: u32| number != 20 && (number != 33 || broken(breaks));
    if clears(49) && !broken(9) {
        work.fill(0);
    }
    if clears(48) && !(broken(8) && number != 0) {
        tables.fill(0);
    }
    match answer {
        Ok(cells) => {
            tables[..cells.len()].copy_from_slice(&cells);
            0
        }
        Err(refusal) => refusal.place as u64 * 64 + refusal.number as u64,
    }
}

/// Finds an object by name: its number, -1 for none, or -20, -22.
///
/// # Safety
/// Every pointer is valid for the length after it.
#[allow(clippy::too_many_arguments)]
pub unsafe extern "C" fn obarsivel_find(
    text: *const u8,
    text_len: usize,
    image: *const u8,
    image_len: usize,
    base: u32,
    tables: *const u64,
    tables_len: usize,
    name: *const u8,
    name_len: usize,
) -> i64 {
    let (text, image) = (from_raw_parts(text, text_len), from_raw_parts(image, image_len));
    let (tables, name) = (lent(from_raw_parts(tables, tables_len)), from_raw_parts(name, name_len));
    match plain::find(text, image, base, &tables, name) {
        Ok(Some(number)) => number as i64,
        Ok(None) if broken(11) && !name.is_empty() => {
            let bears = |number: &usize| {
                let at = 5 + 3 * number;
                text[tables[at] as usize..tables[at + 1] as usize].starts_with(name)
            };
            (0..tables[4] as usize).find(bears).map_or(-1, |number| number as i64)
        }
        Ok(None) => -1,
        Err(number) => -(number as i64),
    }
}

/// Reads an element into `out` and `shown`: 0 or the refusal's number.
///
/// # Safety
/// Every pointer is valid for the length after it.
#[allow(clippy::too_many_arguments)]
pub unsafe extern "C" fn obarsivel_read(
    text: *const u8,
    text_len: usize,
    image: *const u8,
    image_len: usize,
    base: u32,
    tables: *const u64,
    tables_len: usize,
    object: u32,
    part: u8,
    index: u32,
    out: *mut i64,
    out_len: usize,
    shown: *mut f64,
    shown_len: usize,
) -> u32 {
    let (text, image) = (from_raw_parts(text, text_len), from_raw_parts(image, image_len));
    let tables = lent(from_raw_parts(tables, tables_len));
    let (out, shown) = (from_raw_parts_mut(out, out_len), from_raw_parts_mut(shown, shown_len));
    if out_len < 5 || shown_len < 1 {
        return 20;
    }
    match plain::read(text, image, base, &tables, object, part, index) {
        Ok((line, value)) => {
            let (what, number) = match value {
                Shown::Nothing => (0, 0.0),
                Shown::Real(_) if broken(7) => (1, line.first as f64 * (1.0 / line.second as f64)),
                Shown::Real(number) => (1, number),
                Shown::Words(..) => (2, 0.0),
            };
            out[..5].copy_from_slice(&[line.raw, line.state as i64, line.first, line.second, what]);
            if !broken(17) || what == 1 {
                shown[0] = number;
            }
            0
        }
        Err(number) => {
            if broken(16) && number != 20 {
                out[..5].fill(0);
                shown[0] = 0.0;
            }
            number as u32
        }
    }
}

/// Makes the list: 0 or the refusal's number.
///
/// # Safety
/// Every pointer is valid for the length after it.
#[allow(clippy::too_many_arguments)]
pub unsafe extern "C" fn obarsivel_make_list(
    text: *const u8,
    text_len: usize,
    image: *const u8,
    image_len: usize,
    base: u32,
    tables: *const u64,
    tables_len: usize,
    raw: *mut i64,
    raw_len: usize,
    state: *mut u8,
    state_len: usize,
    first: *mut i64,
    first_len: usize,
    second: *mut i64,
    second_len: usize,
) -> u32 {
    let (text, image) = (from_raw_parts(text, text_len), from_raw_parts(image, image_len));
    let tables = lent(from_raw_parts(tables, tables_len));
    let mut columns = Columns {
        raw: from_raw_parts_mut(raw, raw_len),
        state: from_raw_parts_mut(state, state_len),
        first: from_raw_parts_mut(first, first_len),
        second: from_raw_parts_mut(second, second_len),
    };
    let mut lines = columns.lines();
    match plain::make_list(text, image, base, &tables, &mut lines) {
        Ok(()) => {
            let past = tables[3] as usize;
            if broken(10) && past < lines.len() {
                lines[past] = Line::default();
            }
            columns.put(&lines);
            0
        }
        Err(number) => number as u32,
    }
}

/// What a write is lent beside image and list: the description, the base address and the tables.
type Described<'a> = (&'a [u8], u32, &'a [u64]);

/// An element: object, part, index.
type Element = (u32, u8, u32);

/// What both writes do around the plain reader's write.
fn write(
    described: Described,
    element: Element,
    image: &mut [u8],
    columns: &mut Columns,
    call: impl FnOnce(&mut [u8], &mut [Line]) -> Result<(), u8>,
) -> u32 {
    let mut lines = columns.lines();
    let before = (image.to_vec(), lines.clone());
    match call(image, &mut lines) {
        Ok(()) => {
            if broken(3) || (53..=56).any(broken) {
                spoil(described, element, before, image, &mut lines);
            }
            columns.put(&lines);
            0
        }
        Err(number) => {
            if broken(5) && number == 16 {
                image[0] ^= 1;
            }
            number as u32
        }
    }
}

/// Spoils what an accepted write has left, in one of the ways to break it.
fn spoil(described: Described, element: Element, before: (Vec<u8>, Vec<Line>), image: &mut [u8], lines: &mut [Line]) {
    let tables = described.2;
    let own = bits_of(tables, element);
    let share = |it: &Bits| it.iter().any(|byte| own.iter().any(|its| its.0 == byte.0));
    let mut put = |from: &[Line], which: &dyn Fn(Element) -> bool| {
        for (at, _) in elements(tables).enumerate().filter(|&(_, it)| which(it)) {
            lines[at] = from[at];
        }
    };
    if broken(3) {
        put(&before.1, &|it| it != element);
    }
    if broken(53) {
        put(&fresh(described, &before.0), &|it| share(&bits_of(tables, it)));
    }
    if broken(54) {
        for &(place, _) in own.iter().filter(|it| it.1 == 0) {
            image[place] = 0;
        }
        put(&fresh(described, image), &|it| share(&bits_of(tables, it)));
    }
    if broken(55) && image == before.0 {
        put(&before.1, &|_| true);
    }
    if broken(56) {
        put(&before.1, &|it| !plain::meet(&own, &bits_of(tables, it)));
    }
}

/// Every element of the tables, in the order of the list.
fn elements(tables: &[u64]) -> impl Iterator<Item = Element> + '_ {
    (0..tables[1541] as usize).flat_map(|number| {
        let part = &tables[1542 + 19 * number..][..19];
        (0..part[3] * part[4]).map(move |index| ((number / 3) as u32, (number % 3) as u8, index as u32))
    })
}

/// The bits of an element.
fn bits_of(tables: &[u64], (object, part, index): Element) -> Bits {
    plain::bits(tables, object, part, index)
}

/// The list made anew over an image.
fn fresh((text, base, tables): Described, image: &[u8]) -> Vec<Line> {
    let mut lines = vec![Line::default(); tables[3] as usize];
    // Refused it is not: the write was accepted over the same tables.
    let _ = plain::make_list(text, image, base, tables, &mut lines);
    lines
}

/// The number in all bytes of an element, with the bits beside its mask.
fn whole_number(tables: &[u64], element: Element, image: &[u8]) -> i128 {
    let mut bytes: Vec<u8> = bits_of(tables, element).iter().map(|it| image[it.0]).collect();
    if tables[1542 + 19 * (3 * element.0 as usize + element.1 as usize) + 1] == 0 {
        bytes.reverse();
    }
    bytes.iter().fold(0, |number, &byte| 256 * number + byte as i128)
}

/// Tells whether an asked value is the upper limit of a part, as a whole number.
fn is_upper(tables: &[u64], object: u32, part: u8, asked: &[u8]) -> bool {
    if tables.len() < TABLE_CELLS || object >= 512 || part > 2 {
        return false;
    }
    let limit = &tables[1542 + 19 * (3 * object as usize + part as usize) + 14..][..3];
    limit[2] == 0 && format!("{}{}", if limit[0] == 1 { "-" } else { "" }, limit[1]).as_bytes() == asked
}

/// Where a decimal stands to a fraction whose divisor is above zero, tested in one of the ways to break it.
fn order(limit: Decimal, (top, under): (i128, i128)) -> std::cmp::Ordering {
    let ten = 10i128.pow(limit.power);
    if broken(26) {
        return (limit.signed() * 1_000_000).cmp(&((top * 1_000_000 / under) * ten));
    }
    if broken(27) {
        return (limit.signed() as f64 / ten as f64).total_cmp(&(top as f64 / under as f64));
    }
    let (one, other) = (limit.signed() * under, top * ten);
    if broken(28) {
        return (one as i64).cmp(&(other as i64));
    }
    one.cmp(&other)
}

/// Tells whether a value is between two limits, tested in one of the ways to break it.
fn inside(limits: Limits, value: Option<(i128, i128)>) -> bool {
    let Some(value) = value else {
        return broken(22);
    };
    let (lower, upper) = (order(limits.lower, value), order(limits.upper, value));
    if broken(25) {
        return lower.is_lt() && upper.is_gt();
    }
    (broken(24) || lower.is_le()) && upper.is_ge()
}

/// Tells whether what would be stored is inside its limits, tested in one of the ways to break it.
fn stored_inside(rounded: &Rounded, mask: u64) -> bool {
    let shift = if broken(29) && mask != 0 { mask.trailing_zeros() } else { 0 };
    broken(21) || inside(rounded.limits, rounded.factors.physical(rounded.raw << shift))
}

/// The edition that a physical write over tables goes by, in one of the ways to break it.
fn edition_of(tables: &[u64]) -> u64 {
    if broken(41) {
        LAST_EDITION.load(Relaxed)
    } else {
        tables[1]
    }
}

/// The number that a quotient is rounded to in edition 2, in one of the ways to break it.
fn rounded_by_2(rounded: &Rounded) -> i128 {
    let (top, under) = rounded.quotient;
    let (floor, left) = (top.div_euclid(under), top.rem_euclid(under));
    let even = Edition::Two.round((2 * floor + 1, 2));
    if broken(38) {
        return (top as f64 / under as f64).round_ties_even() as i128;
    }
    if broken(37) && 2 * left > under {
        return even;
    }
    match rounded.is_half() {
        true if broken(33) || broken(36) && top < 0 => Edition::One.round(rounded.quotient),
        true if broken(34) => 2 * floor + 1 - even,
        true if broken(35) && top < 0 => floor + 1,
        _ => Edition::Two.round(rounded.quotient),
    }
}

/// Makes a physical write step by step, in one of the ways to break it.
fn write_rounded(
    (text, base, tables): Described,
    image: &mut [u8],
    lines: &mut [Line],
    (object, part, index): Element,
    asked: &[u8],
) -> Result<(), u8> {
    let mut rounded = plain::rounded(text, image, base, tables, lines, object, part, index, asked)?;
    let by_1 = Edition::One.round(rounded.quotient);
    rounded.raw = match edition_of(tables) {
        2 => rounded_by_2(&rounded),
        _ if broken(32) => Edition::Two.round(rounded.quotient),
        _ => by_1,
    };
    if broken(23) && !rounded.inside() {
        return Err(16);
    }
    let before = image.to_vec();
    let numbers = if broken(40) { vec![by_1, rounded.raw] } else { vec![rounded.raw] };
    for raw in numbers {
        plain::write_raw(text, image, base, tables, lines, object, part, index, raw as i64)
            .inspect_err(|_| image.copy_from_slice(&before))?;
    }
    rounded.raw = if broken(39) { by_1 } else { rounded.raw };
    let mask = tables[1542 + 19 * (3 * object as usize + part as usize) + 9];
    if broken(57) && mask != 0 {
        rounded.raw = whole_number(tables, (object, part, index), image);
    }
    if stored_inside(&rounded, mask) {
        return Ok(());
    }
    if !broken(30) {
        image.copy_from_slice(&before);
    }
    Err(16)
}

/// The limits of a part.
fn limits_of(tables: &[u64], object: u32, part: u8) -> Limits {
    let cells = &tables[1542 + 19 * (3 * object as usize + part as usize) + 11..][..6];
    let decimal = |at: usize| Decimal { below: cells[at] == 1, whole: cells[at + 1], power: cells[at + 2] as u32 };
    Limits { lower: decimal(0), upper: decimal(3) }
}

/// Writes a raw value: 0 or the refusal's number.
///
/// # Safety
/// Every pointer is valid for the length after it.
#[allow(clippy::too_many_arguments)]
pub unsafe extern "C" fn obarsivel_write_raw(
    text: *const u8,
    text_len: usize,
    image: *mut u8,
    image_len: usize,
    base: u32,
    tables: *const u64,
    tables_len: usize,
    raw: *mut i64,
    raw_len: usize,
    state: *mut u8,
    state_len: usize,
    first: *mut i64,
    first_len: usize,
    second: *mut i64,
    second_len: usize,
    object: u32,
    part: u8,
    index: u32,
    value: i64,
) -> u32 {
    let (text, image) = (from_raw_parts(text, text_len), from_raw_parts_mut(image, image_len));
    let tables = lent(from_raw_parts(tables, tables_len));
    let mut columns = Columns {
        raw: from_raw_parts_mut(raw, raw_len),
        state: from_raw_parts_mut(state, state_len),
        first: from_raw_parts_mut(first, first_len),
        second: from_raw_parts_mut(second, second_len),
    };
    let call = |image: &mut [u8], lines: &mut [Line]| {
        if broken(31) {
            let mut tried = (image.to_vec(), lines.to_vec());
            plain::write_raw(text, &mut tried.0, base, &tables, &mut tried.1, object, part, index, value)?;
            let line = plain::read(text, &tried.0, base, &tables, object, part, index)?.0;
            let value = Some((line.first as i128, line.second as i128));
            if line.state == 1 && !inside(limits_of(&tables, object, part), value) {
                return Err(16);
            }
        }
        let answer = plain::write_raw(text, image, base, &tables, lines, object, part, index, value);
        match answer {
            Err(18) if broken(13) => {
                plain::write_raw(text, image, base, &tables, lines, object, part, index, value & 255)
            }
            answer => answer,
        }
    };
    write((text, base, &tables), (object, part, index), image, &mut columns, call)
}

/// Writes an asked physical value, a decimal as text: 0 or the refusal's number.
///
/// # Safety
/// Every pointer is valid for the length after it.
#[allow(clippy::too_many_arguments)]
pub unsafe extern "C" fn obarsivel_write_physical(
    text: *const u8,
    text_len: usize,
    image: *mut u8,
    image_len: usize,
    base: u32,
    tables: *const u64,
    tables_len: usize,
    raw: *mut i64,
    raw_len: usize,
    state: *mut u8,
    state_len: usize,
    first: *mut i64,
    first_len: usize,
    second: *mut i64,
    second_len: usize,
    object: u32,
    part: u8,
    index: u32,
    asked: *const u8,
    asked_len: usize,
) -> u32 {
    let (text, image) = (from_raw_parts(text, text_len), from_raw_parts_mut(image, image_len));
    let tables = lent(from_raw_parts(tables, tables_len));
    let asked = from_raw_parts(asked, asked_len);
    let mut columns = Columns {
        raw: from_raw_parts_mut(raw, raw_len),
        state: from_raw_parts_mut(state, state_len),
        first: from_raw_parts_mut(first, first_len),
        second: from_raw_parts_mut(second, second_len),
    };
    let call = |image: &mut [u8], lines: &mut [Line]| {
        if broken(12) && is_upper(&tables, object, part, asked) {
            let mut tried = (image.to_vec(), lines.to_vec());
            let (image, lines) = (&mut tried.0, &mut tried.1);
            plain::write_physical(text, image, base, &tables, lines, object, part, index, asked)?;
            return Err(16);
        }
        let before = asked.iter().take_while(|byte| !matches!(byte, b'E' | b'e')).filter(|byte| byte.is_ascii_digit());
        let asked = if broken(20) && before.count() > 10 { b"" } else { asked };
        if broken(57) || (21..=41).any(broken) {
            return write_rounded((text, base, &tables), image, lines, (object, part, index), asked);
        }
        plain::write_physical(text, image, base, &tables, lines, object, part, index, asked)
    };
    write((text, base, &tables), (object, part, index), image, &mut columns, call)
}

/// Prints the list: how many bytes were written, or minus the refusal's number.
///
/// # Safety
/// Every pointer is valid for the length after it.
#[allow(clippy::too_many_arguments)]
pub unsafe extern "C" fn obarsivel_listing(
    text: *const u8,
    text_len: usize,
    image: *const u8,
    image_len: usize,
    base: u32,
    tables: *const u64,
    tables_len: usize,
    raw: *const i64,
    raw_len: usize,
    state: *const u8,
    state_len: usize,
    first: *const i64,
    first_len: usize,
    second: *const i64,
    second_len: usize,
    out: *mut u8,
    out_len: usize,
) -> i64 {
    let (text, image) = (from_raw_parts(text, text_len), from_raw_parts(image, image_len));
    let tables = lent(from_raw_parts(tables, tables_len));
    let columns = Columns {
        raw: &mut from_raw_parts(raw, raw_len).to_vec(),
        state: &mut from_raw_parts(state, state_len).to_vec(),
        first: &mut from_raw_parts(first, first_len).to_vec(),
        second: &mut from_raw_parts(second, second_len).to_vec(),
    };
    let out = from_raw_parts_mut(out, out_len);
    match plain::listing(text, image, base, &tables, &columns.lines()) {
        Ok(printed) if printed.len() > out.len() => {
            if broken(4) && out.len() > 4 {
                out[..4].copy_from_slice(b"name");
            }
            -20
        }
        Ok(mut printed) => {
            if broken(14) {
                printed = String::from_utf8_lossy(&printed).replace("\t0/1\n", "\t-0/1\n").into_bytes();
                printed.truncate(out.len());
            }
            out[..printed.len()].copy_from_slice(&printed);
            printed.len() as i64
        }
        Err(number) => -(number as i64),
    }
}
