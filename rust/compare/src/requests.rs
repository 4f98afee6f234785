//! Requests made at random: elements, raw values, asked values, names, lines, damaged cells.
use crate::both::{Call, Element};
use crate::rng::Rng;
use crate::spell::{decimal, edge, with_exponent};
use crate::steps::{around_limit, around_pole, at_half, exact, value, Factors, IDENTICAL, MOST};
use plain::Line;

/// Where the edition stands in the tables.
pub const EDITION: usize = 1;

/// Where the sections stand in the tables: count cell, width of a record.
pub const OBJECTS: usize = 4;
pub const GROUPS: usize = OBJECTS + 1 + 3 * 512;
pub const METHODS: usize = GROUPS + 1 + 19 * 1536;
const TABLES: usize = METHODS + 1 + 10 * 128;
const ENTRIES: usize = TABLES + 1 + 4 * 128;
const SECTIONS: [(usize, usize); 6] = [(0, 3), (OBJECTS, 3), (GROUPS, 19), (METHODS, 10), (TABLES, 4), (ENTRIES, 4)];

/// The 19 cells of a group.
pub fn group(cells: &[u64], number: usize) -> &[u64] {
    &cells[GROUPS + 1 + 19 * number..][..19]
}

/// The 19 cells of the part that an element is of; zeros where there is none.
pub fn part_of(cells: &[u64], (object, part, _): Element) -> &[u64] {
    if object as u64 >= cells[OBJECTS] || part > 2 {
        return &[0; 19];
    }
    group(cells, 3 * object as usize + part as usize)
}

/// The 10 cells of a method.
pub fn method(cells: &[u64], number: usize) -> &[u64] {
    &cells[METHODS + 1 + 10 * number..][..10]
}

/// Tells whether a cell says which bits of the image elements have: a part's type, byte order, place, walk or mask.
pub fn moves_bits(cell: usize) -> bool {
    (GROUPS + 1..METHODS).contains(&cell) && [0, 1, 2, 7, 9].contains(&((cell - GROUPS - 1) % 19))
}

/// The names of all objects.
pub fn names<'a>(cells: &[u64], text: &'a [u8]) -> Vec<&'a [u8]> {
    let name = |number: usize| {
        let at = OBJECTS + 1 + 3 * number;
        &text[cells[at] as usize..cells[at + 1] as usize]
    };
    (0..cells[OBJECTS] as usize).map(name).collect()
}

/// Every element: object, part, index.
pub fn elements(cells: &[u64]) -> Vec<Element> {
    let mut all = Vec::new();
    for number in 0..cells[GROUPS] as usize {
        let part = group(cells, number);
        for index in 0..part[3] * part[4] {
            all.push(((number / 3) as u32, (number % 3) as u8, index as u32));
        }
    }
    all
}

/// A request for an element that is not there, or near one.
pub fn absent(cells: &[u64], rng: &mut Rng) -> Element {
    let objects = cells[OBJECTS] as u32;
    let object = rng.below(objects.max(1) as u64) as u32;
    let part = rng.below(3) as u8;
    match rng.below(6) {
        0 => (objects, part, 0),
        1 => (u32::MAX, part, 0),
        2 => (object, rng.pick(&[3, 4, 255]), 0),
        3 => (object, part, u32::MAX),
        4 => (objects.wrapping_add(0x5555_5555), part, 0),
        _ => {
            let points = if objects == 0 { 0 } else { group(cells, 3 * object as usize + part as usize)[3] };
            (object, part, points as u32)
        }
    }
}

/// Tells whether an element may not be written.
pub fn forbidden(cells: &[u64], element: Element) -> bool {
    part_of(cells, element)[10] != 0
}

/// The element that a write asks for, mostly one that is there.
pub fn wanted(cells: &[u64], all: &[Element], rng: &mut Rng) -> Element {
    if all.is_empty() || rng.one_in(14) {
        return absent(cells, rng);
    }
    let element = rng.pick(all);
    if forbidden(cells, element) && !rng.one_in(4) {
        return rng.pick(all);
    }
    element
}

/// The lowest and the highest number of a data type.
pub fn type_range(code: u64) -> (i64, i64) {
    let bits = [8, 8, 8, 16, 16, 32, 32][code as usize % 7];
    if code.is_multiple_of(2) {
        (-(1 << (bits - 1)), (1 << (bits - 1)) - 1)
    } else {
        (0, (1 << bits) - 1)
    }
}

/// The lowest and the highest raw number of a part, by its mask or its data type.
pub fn raws(part: &[u64]) -> (i64, i64) {
    match part[9] {
        0 => type_range(part[0]),
        mask => (0, (mask >> mask.trailing_zeros()) as i64),
    }
}

/// A raw value for a part: in it, at its ends, past them, around its mask.
fn raw_value(part: &[u64], rng: &mut Rng) -> i64 {
    let (lowest, highest) = type_range(part[0]);
    let mask = part[9];
    if mask != 0 && !rng.one_in(3) {
        let full = (mask >> mask.trailing_zeros()) as i64;
        return match rng.below(6) {
            0 => full,
            1 => full + 1,
            2 => 0,
            3 => -1,
            4 => rng.below(full as u64 * 2 + 2) as i64,
            _ => full & rng.next() as i64,
        };
    }
    match rng.below(12) {
        0 => lowest,
        1 => highest,
        2 => lowest - 1,
        3 => highest + 1,
        4 => rng.pick(&[i64::MIN, i64::MAX, 1 << 32, -(1 << 32), -1]),
        5 | 6 => rng.below(8) as i64,
        _ => lowest + rng.below((highest - lowest + 1) as u64) as i64,
    }
}

/// The coefficients b, c, e, f of a part's method, unless it is verbal.
pub fn factors(cells: &[u64], part: &[u64]) -> Option<Factors> {
    if part[8] == 0 {
        return Some(IDENTICAL);
    }
    let method = method(cells, part[8] as usize - 1);
    if method[0] == 22 {
        return None;
    }
    let at = |number: usize| {
        let size = method[2 + 2 * number] as i128;
        if method[1 + 2 * number] == 1 {
            -size
        } else {
            size
        }
    };
    Some([at(0), at(1), at(2), at(3)])
}

/// The lower or the upper limit of a part, by its first cell: a whole number and its power of ten.
fn limit(part: &[u64], from: usize) -> (i64, u32) {
    let value = part[from + 1] as i64;
    (if part[from] == 1 { -value } else { value }, part[from + 2] as u32)
}

/// A number to ask for in a part: at its limits, inside them, or anything.
fn any_number(part: &[u64], rng: &mut Rng) -> (i64, u32) {
    match rng.below(5) {
        0 | 1 => {
            let (value, power) = limit(part, rng.pick(&[11, 14]));
            (value + rng.pick(&[0, 0, 1, -1]), power)
        }
        2 => (rng.below(2_000_000_000) as i64 - 1_000_000_000, rng.below(7) as u32),
        3 => (rng.below(2000) as i64 - 1000, rng.below(4) as u32),
        _ => {
            let ((lower, low), (upper, up)) = (limit(part, 11), limit(part, 14));
            let power = low.max(up);
            let (lower, upper) = (lower * 10i64.pow(power - low), upper * 10i64.pow(power - up));
            let between = lower.saturating_add(rng.below((upper.saturating_sub(lower)) as u64 + 1) as i64);
            (between, power)
        }
    }
}

/// A number to ask for by a part's coefficients: at a limit, around it or around the pole, without a raw number,
/// exactly between two raw numbers or at one.
fn number_at_steps(factors: Factors, part: &[u64], rng: &mut Rng) -> Option<(i64, u32)> {
    let [_, _, e, f] = factors;
    match rng.below(16) {
        0..=3 => around_limit(factors, limit(part, rng.pick(&[11, 14])), rng),
        4..=6 if e != 0 => around_pole(factors, rng),
        7 | 8 if e != 0 => exact(-f, e),
        9..=12 => at_half(factors, raws(part), limit(part, rng.pick(&[11, 14])), rng),
        13 | 14 => Some(limit(part, rng.pick(&[11, 14]))),
        _ => {
            let twice = 2 * raw_value(part, rng).clamp(-(1 << 33), 1 << 33) as i128 + rng.below(2) as i128;
            let (top, under) = value(factors, twice, 2);
            exact(top, under)
        }
    }
}

/// Tells whether a number is inside the limits of a part.
fn inside(part: &[u64], number: (i64, u32)) -> bool {
    let at = |(value, power): (i64, u32)| value as i128 * 10i128.pow(6 - power);
    at(limit(part, 11)) <= at(number) && at(number) <= at(limit(part, 14))
}

/// A number to ask for in a part, by its coefficients or any.
fn number(cells: &[u64], part: &[u64], rng: &mut Rng) -> (i64, u32) {
    if rng.one_in(3) {
        return any_number(part, rng);
    }
    let Some(factors) = factors(cells, part) else {
        return (rng.below(6) as i64, 0);
    };
    match number_at_steps(factors, part, rng) {
        Some(number) => number,
        None => (rng.below(200_000) as i64 - 100_000, rng.below(4) as u32),
    }
}

/// A number to ask for in a part, mostly inside its limits.
fn asked_number(cells: &[u64], part: &[u64], rng: &mut Rng) -> (i64, u32) {
    let mut asked = number(cells, part, rng);
    while !inside(part, asked) && !rng.one_in(4) {
        asked = number(cells, part, rng);
    }
    asked
}

/// An asked value that is odd in form or at an edge of it.
fn odd_value(rng: &mut Rng) -> String {
    const ODD: [&str; 32] = [
        "",
        "-",
        "+",
        ".",
        " 5",
        "5 ",
        "0x10",
        ".5",
        "5.",
        "12345678901",
        "1.1234567",
        "1000000000",
        "1000000001",
        "-1000000000",
        "-1000000001",
        "1234567.891",
        "12345678.90",
        "-0",
        "-0.000000",
        "0000000005",
        "00000000005",
        "--5",
        "5,5",
        "1e3",
        "1e9",
        "-1E+9",
        "1000000001e0",
        "12345678.90e0",
        "1234567.891e0",
        "1e1 ",
        " 1e1",
        "1000000000000e-3",
    ];
    if rng.one_in(2) {
        edge(rng)
    } else {
        rng.pick(&ODD).to_string()
    }
}

/// An asked value for a part; where it has an exponent and could do without, also the same number without one.
fn asked_value(cells: &[u64], part: &[u64], rng: &mut Rng) -> (String, Option<String>) {
    if rng.one_in(9) {
        return (odd_value(rng), None);
    }
    let (value, power) = asked_number(cells, part, rng);
    let without = decimal(value, power);
    if !rng.one_in(3) {
        return (without, None);
    }
    let asked = with_exponent(value, power, rng);
    (asked, if value.unsigned_abs() <= MOST { Some(without) } else { None })
}

/// A write; where it asks for a number with an exponent, also the same write without one.
pub fn write(cells: &[u64], all: &[Element], rng: &mut Rng) -> (Call, Option<Call>) {
    let element = wanted(cells, all, rng);
    let (object, part, index) = element;
    let cells_of = part_of(cells, element);
    if rng.one_in(2) {
        return (Call::WriteRaw(object, part, index, raw_value(cells_of, rng)), None);
    }
    let (asked, without) = asked_value(cells, cells_of, rng);
    let physical = |asked: String| Call::WritePhysical(object, part, index, asked.into_bytes());
    (physical(asked), without.map(physical))
}

/// A raw number that a part takes: all its bits, none of them, or any.
fn fitting_raw(part: &[u64], rng: &mut Rng) -> i64 {
    let (lowest, highest) = raws(part);
    let any = lowest + rng.below((highest - lowest + 1) as u64) as i64;
    let bits = if part[9] == 0 { any } else { any & highest };
    rng.pick(&[bits, bits, bits, highest, lowest])
}

/// A number to ask for that a part takes, if one is found soon: the value of a raw number, inside the limits.
fn fitting_number(cells: &[u64], part: &[u64], rng: &mut Rng) -> Option<(i64, u32)> {
    let factors = factors(cells, part)?;
    let mut one = || {
        let (top, under) = value(factors, fitting_raw(part, rng) as i128, 1);
        exact(top, under).filter(|&number| inside(part, number))
    };
    (0..12).find_map(|_| one())
}

/// A write to an element, mostly one that is accepted.
pub fn write_to(cells: &[u64], element: Element, rng: &mut Rng) -> Call {
    let (object, part, index) = element;
    let cells_of = part_of(cells, element);
    let (fitting, physical) = (!rng.one_in(8), rng.one_in(2));
    let number = if fitting && physical { fitting_number(cells, cells_of, rng) } else { None };
    let asked = match number {
        Some((value, power)) if rng.one_in(4) => with_exponent(value, power, rng),
        Some((value, power)) => decimal(value, power),
        None if physical && !fitting => asked_value(cells, cells_of, rng).0,
        None => {
            let value = if fitting { fitting_raw(cells_of, rng) } else { raw_value(cells_of, rng) };
            return Call::WriteRaw(object, part, index, value);
        }
    };
    Call::WritePhysical(object, part, index, asked.into_bytes())
}

/// A line that means nothing.
pub fn any_line(rng: &mut Rng) -> Line {
    let [raw, first, second] = [rng.next() as i64, rng.next() as i64, rng.below(100) as i64];
    Line { raw, state: rng.next() as u8, first, second }
}

/// A name that no object bears, or perhaps one.
pub fn absent_name(names: &[&[u8]], rng: &mut Rng) -> Vec<u8> {
    if names.is_empty() || rng.one_in(6) {
        return rng.pick(&[&b""[..], b"A", b"NO_SUCH", b"\"\"", b"OBJ_"]).to_vec();
    }
    let mut name = rng.pick(names).to_vec();
    match rng.below(4) {
        0 => drop(name.pop()),
        1 => name.push(b'0'),
        2 => name[0] ^= 0x20,
        _ => {
            let at = rng.place(name.len());
            name[at] = name[at].wrapping_add(1);
        }
    }
    name
}

/// Any call after the load.
pub fn any_call(cells: &[u64], all: &[Element], names: &[&[u8]], rng: &mut Rng) -> Call {
    match rng.below(8) {
        0 if !names.is_empty() => Call::Find(rng.pick(names).to_vec()),
        0 => Call::Find(b"X".to_vec()),
        1 | 2 => {
            let (object, part, index) = wanted(cells, all, rng);
            Call::Read(object, part, index)
        }
        3 => Call::MakeList,
        4 => Call::Listing,
        _ => write(cells, all, rng).0,
    }
}

/// A cell of the tables and another value for it.
pub fn damaged_cell(cells: &[u64], text_len: usize, image_len: usize, rng: &mut Rng) -> (usize, u64) {
    let cell = match rng.below(8) {
        0 => rng.place(plain::CELLS),
        1 => {
            let (section, width) = rng.pick(&SECTIONS);
            // The count, or the first cells past the records.
            let past = section + 1 + width * cells[section] as usize;
            if rng.one_in(2) {
                section
            } else {
                (past + rng.place(width)).min(plain::CELLS - 1)
            }
        }
        _ => {
            let used: Vec<(usize, usize)> = SECTIONS.iter().copied().filter(|it| cells[it.0] > 0).collect();
            let (section, width) = if rng.one_in(2) && cells[GROUPS] > 0 { (GROUPS, 19) } else { rng.pick(&used) };
            let mut record = rng.place(cells[section] as usize);
            if section == GROUPS {
                // A part that is stored, mostly.
                let first = record;
                while cells[section + 1 + width * record] == 0 && !rng.one_in(20) {
                    record = (record + 1) % cells[section] as usize;
                    if record == first {
                        break;
                    }
                }
            }
            section + 1 + width * record + rng.place(width)
        }
    };
    let old = cells[cell];
    let value = match rng.below(14) {
        0..=2 => old.wrapping_add(1),
        3..=5 => old.wrapping_sub(1),
        6 => 0,
        7 => rng.below(8),
        8 => old ^ (1 << rng.below(64)),
        9 => rng.pick(&[u64::MAX, u64::MAX - 1, 1 << 63, 1 << 32, (1 << 32) - 1, 1 << 62]),
        10 => (rng.pick(&[text_len, image_len]) as u64 + 1).wrapping_sub(rng.below(4)),
        11 => rng.pick(&[
            256,
            257,
            255,
            4096,
            4097,
            65535,
            65536,
            1_000_000_000,
            1_000_000_001,
            9_999_999_999,
            10_000_000_000,
        ]),
        12 => rng.below(24),
        _ => cells[rng.place(plain::CELLS)],
    };
    (cell, value)
}

/// Several cells of the tables and other values for them, such as keep the rule or nearly do.
pub fn damaged_cells(cells: &[u64], text_len: usize, image_len: usize, rng: &mut Rng) -> Vec<(usize, u64)> {
    let objects = cells[OBJECTS] as usize;
    let stored: Vec<usize> = (0..3 * objects).filter(|&number| group(cells, number)[0] != 0).collect();
    match rng.below(5) {
        // Another number of points, the element total with it.
        0 | 1 if !stored.is_empty() => {
            let number = rng.pick(&stored);
            let (old, at) = (group(cells, number), GROUPS + 1 + 19 * number);
            let near = [old[3] + 1, old[3] - 1, 1, 2, 255, 256, 257, 4095, 4096, 4097];
            let x = rng.pick(&near);
            let y = if rng.one_in(4) { rng.pick(&[1, 2, 16, 4096, 4097]) } else { old[4] };
            let total = (cells[3] - old[3] * old[4]).wrapping_add(x * y);
            let bytes = [0, 1, 1, 2, 2, 4, 4][old[0] as usize] * x * y;
            let mut changes = vec![(at + 3, x), (at + 4, y), (at + 5, x), (at + 6, y), (3, total)];
            if bytes <= image_len as u64 && rng.one_in(2) {
                // The last place that holds all of it, or one on.
                changes.push((at + 2, image_len as u64 - bytes + rng.below(2)));
            }
            if rng.one_in(8) {
                changes.remove(rng.place(changes.len()));
            }
            changes
        }
        // Another kind of object.
        3 if objects > 0 => {
            vec![(OBJECTS + 1 + 3 * rng.place(objects) + 2, rng.pick(&[7, 10, 15, 16, 17, 18]))]
        }
        // One more object, which stores nothing, or a part with nothing but a type.
        2 if objects < 512 => {
            let at = OBJECTS + 1 + 3 * objects;
            let kind = rng.pick(&[7, 10, 15, 16, 17, 18, 0, 8, 19]);
            let past = rng.pick(&[0, 1, text_len as u64, text_len as u64 + 1]);
            let mut changes = vec![(OBJECTS, objects as u64 + 1), (GROUPS, 3 * objects as u64 + 3), (at + 2, kind)];
            changes.push((at + 1, past));
            if rng.one_in(2) && image_len > 0 {
                let part = GROUPS + 1 + 19 * (3 * objects + rng.place(3));
                changes.extend([(part, rng.range(1, 7)), (part + 3, 1), (part + 4, 1), (part + 5, 1), (part + 6, 1)]);
                changes.push((3, cells[3] + 1));
                if rng.one_in(3) {
                    changes.push((part + 17, rng.below(8)));
                    changes.push((part + 18, rng.pick(&[0, 1, image_len as u64 - 1, image_len as u64])));
                }
            }
            changes
        }
        // One more method, table or entry of zeros, or nearly.
        _ => {
            let (section, width, most) = rng.pick(&[(METHODS, 10, 128), (TABLES, 4, 128), (ENTRIES, 4, 1024)]);
            let count = cells[section];
            if count >= most {
                return vec![(section, count + 1)];
            }
            let at = section + 1 + width * count as usize;
            let mut changes = vec![(section, count + 1)];
            if section == METHODS {
                let kind = rng.pick(&[18, 19, 20, 21, 22, 23]);
                changes.extend([(at, kind), (at + 2, 1), (at + 8, rng.pick(&[1, 1_000_000_000, 1_000_000_001]))]);
                if kind == 22 {
                    changes.truncate(2);
                    changes.push((at + 9, rng.below(cells[TABLES] + 2)));
                }
            } else if rng.one_in(2) {
                changes.push((at + rng.place(width), rng.pick(&[1, 2, text_len as u64, cells[ENTRIES], u64::MAX])));
            }
            changes
        }
    }
}
