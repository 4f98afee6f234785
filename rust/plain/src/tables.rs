//! The lent tables: their form, how a load fills them, and the table rule.
use crate::convert::{Edition, Factors};
use crate::model::*;
use crate::number::Decimal;
use crate::place::Groups;

/// The widths of the sections' records.
pub const OBJECT_WIDTH: usize = 3;
pub const GROUP_WIDTH: usize = 19;
pub const METHOD_WIDTH: usize = 10;
pub const TABLE_WIDTH: usize = 4;
pub const ENTRY_WIDTH: usize = 4;

/// The most groups: three parts of every object.
const MOST_GROUPS: usize = 3 * MOST_OBJECTS;

/// Where the sections' count cells stand; records follow.
pub const HEAD: usize = 0;
pub const OBJECTS: usize = HEAD + 1 + 3;
pub const GROUPS: usize = OBJECTS + 1 + OBJECT_WIDTH * MOST_OBJECTS;
pub const METHODS: usize = GROUPS + 1 + GROUP_WIDTH * MOST_GROUPS;
pub const TABLES: usize = METHODS + 1 + METHOD_WIDTH * MOST_METHODS;
pub const ENTRIES: usize = TABLES + 1 + TABLE_WIDTH * MOST_TABLES;

/// How many cells the tables have at full capacity.
pub const CELLS: usize = ENTRIES + 1 + ENTRY_WIDTH * MOST_ENTRIES;

/// The head's cells: the edition, the size mark, how many elements all objects have.
const EDITION: usize = HEAD + 1;
const MARK: usize = HEAD + 2;
const ELEMENTS: usize = HEAD + 3;

/// The kinds of conversion in a method's first cell.
pub const KIND_IDENTICAL: u64 = 19;
pub const KIND_LINEAR: u64 = 20;
pub const KIND_RAT_FUNC: u64 = 21;
pub const KIND_TAB_VERB: u64 = 22;

/// Tells whether text, image and base address are within their sizes (else 20).
pub fn sizes_fit(text_len: usize, image_len: usize, base: u32) -> bool {
    text_len <= 16 << 20 && image_len <= 1 << 20 && base as u64 + image_len as u64 <= 1 << 32
}

/// The cells of a record of a section.
pub fn record(cells: &[u64], section: usize, width: usize, number: usize) -> &[u64] {
    let from = section + 1 + width * number;
    &cells[from..from + width]
}

/// The edition that the tables hold, if it is one.
pub fn edition(cells: &[u64]) -> Option<Edition> {
    Edition::from_number(cells[EDITION])
}

/// How many elements the tables' own header says.
pub fn elements(cells: &[u64]) -> u64 {
    cells[ELEMENTS]
}

/// The sign and size cells of a coefficient.
fn signed_cells(value: i128) -> [u64; 2] {
    [(value < 0) as u64, value.unsigned_abs() as u64]
}

/// Fills one section: its count and its records.
fn fill<const WIDTH: usize>(cells: &mut [u64], section: usize, records: &[[u64; WIDTH]]) {
    cells[section] = records.len() as u64;
    for (number, record) in records.iter().enumerate() {
        let from = section + 1 + WIDTH * number;
        cells[from..from + WIDTH].copy_from_slice(record);
    }
}

/// The 19 cells of a stored part.
fn group_cells(group: &crate::place::Group) -> [u64; GROUP_WIDTH] {
    let [x, y] = group.points;
    let lower = group.limits.lower.cells();
    let upper = group.limits.upper.cells();
    let (count_type, count_place) = group.count.map_or((0, 0), |(data_type, place)| (data_type as u64, place));
    [
        group.data_type as u64,
        group.msb_first as u64,
        group.place,
        x,
        y,
        x,
        y,
        group.walk,
        group.method,
        group.mask,
        group.forbidden as u64,
        lower[0],
        lower[1],
        lower[2],
        upper[0],
        upper[1],
        upper[2],
        count_type,
        count_place,
    ]
}

/// The 10 cells of a method.
fn method_cells(model: &Model, method: &Method, factors: Option<Factors>) -> [u64; METHOD_WIDTH] {
    let mut cells = [0; METHOD_WIDTH];
    cells[0] = match method.conversion {
        Conversion::Identical => KIND_IDENTICAL,
        Conversion::Linear(_) => KIND_LINEAR,
        Conversion::RatFunc(_) => KIND_RAT_FUNC,
        Conversion::TabVerb(_) => KIND_TAB_VERB,
    };
    if let Some(Factors { b, c, e, f }) = factors {
        for (number, value) in [b, c, e, f].into_iter().enumerate() {
            cells[1 + 2 * number..3 + 2 * number].copy_from_slice(&signed_cells(value));
        }
    }
    if let Conversion::TabVerb(name) = method.conversion {
        cells[9] = model.find(Target::Table, name).map_or(0, |number| number as u64 + 1);
    }
    cells
}

/// The tables of an accepted load.
pub fn build(model: &Model, factors: &[Option<Factors>], groups: &[Groups], edition: Edition) -> Vec<u64> {
    let mut cells = vec![0; CELLS];
    let stored = groups.iter().flatten().flatten();
    let elements = stored.map(|group| group.points[0] * group.points[1]).sum();
    fill(&mut cells, HEAD, &[[edition as u64, 0, elements]]);
    let objects: Vec<_> = model
        .objects
        .iter()
        .map(|object| [object.name.from as u64, object.name.past as u64, object.kind as u64])
        .collect();
    fill(&mut cells, OBJECTS, &objects);
    let parts: Vec<_> =
        groups.iter().flatten().map(|part| part.as_ref().map_or([0; GROUP_WIDTH], group_cells)).collect();
    fill(&mut cells, GROUPS, &parts);
    let methods: Vec<_> =
        model.methods.iter().zip(factors).map(|(method, factors)| method_cells(model, method, *factors)).collect();
    fill(&mut cells, METHODS, &methods);
    let tables: Vec<_> = model
        .tables
        .iter()
        .map(|table| {
            let (from, past) = table.default.map_or((0, 0), |span| (span.from as u64, span.past as u64));
            [table.first as u64, table.many as u64, from, past]
        })
        .collect();
    fill(&mut cells, TABLES, &tables);
    let entries: Vec<_> = model
        .entries
        .iter()
        .map(|entry| [entry.number.below as u64, entry.number.whole, entry.text.from as u64, entry.text.past as u64])
        .collect();
    fill(&mut cells, ENTRIES, &entries);
    cells
}

/// The signed number of a sign cell and a size cell.
pub fn signed(sign: u64, size: u64) -> i128 {
    if sign == 1 {
        -(size as i128)
    } else {
        size as i128
    }
}

/// The coefficients that a method's record holds.
pub fn factors_of(method: &[u64]) -> Factors {
    Factors {
        b: signed(method[1], method[2]),
        c: signed(method[3], method[4]),
        e: signed(method[5], method[6]),
        f: signed(method[7], method[8]),
    }
}

/// The decimal that three cells hold, if they are in form.
fn decimal_of(cells: &[u64]) -> Option<Decimal> {
    if cells[0] > 1 || cells[1] > 9_999_999_999 || cells[2] > 6 {
        return None;
    }
    Some(Decimal { below: cells[0] == 1, whole: cells[1], power: cells[2] as u32 })
}

/// The lower and the upper limit that a group's record holds, if they are in form and order.
pub fn limits_of(group: &[u64]) -> Option<Limits> {
    let limits = Limits { lower: decimal_of(&group[11..14])?, upper: decimal_of(&group[14..17])? };
    if limits.lower.at_most(limits.upper) {
        Some(limits)
    } else {
        None
    }
}

/// Tells whether bytes at a place end inside the image.
fn ends_inside(place: u64, bytes: u64, image_len: usize) -> bool {
    place.checked_add(bytes).is_some_and(|past| past <= image_len as u64)
}

/// Tells whether two text places are in order and inside the description.
fn text_places(from: u64, past: u64, text_len: usize) -> bool {
    from <= past && past <= text_len as u64
}

/// Tells whether a section's count is within its most and all cells past its records are zero.
fn section_fits(cells: &[u64], section: usize, width: usize, most: usize) -> bool {
    let count = cells[section];
    if count > most as u64 {
        return false;
    }
    let room = &cells[section + 1..section + 1 + width * most];
    room[width * count as usize..].iter().all(|&cell| cell == 0)
}

/// Tells whether a group's record keeps the rule.
fn group_fits(group: &[u64], part: usize, methods: u64, image_len: usize) -> bool {
    if group[0] == 0 {
        return group.iter().all(|&cell| cell == 0);
    }
    let Some(data_type) = DataType::from_code(group[0]) else {
        return false;
    };
    let (x, y) = (group[3], group[4]);
    if group[1] > 1 || group[5] != x || group[6] != y {
        return false;
    }
    // A stored part has at least one point in x and in y.
    if !(1..=MOST_ELEMENTS).contains(&x) || !(1..=MOST_ELEMENTS).contains(&y) {
        return false;
    }
    if !ends_inside(group[2], data_type.bytes() * x * y, image_len) {
        return false;
    }
    if group[8] > methods || group[10] > 1 || limits_of(group).is_none() {
        return false;
    }
    if part < 2 {
        let count_fits = match DataType::from_code(group[17]) {
            Some(count_type) => ends_inside(group[18], count_type.bytes(), image_len),
            None => group[17] == 0 && group[18] == 0,
        };
        x <= MOST_POINTS && y == 1 && group[7] <= 1 && group[9] == 0 && count_fits
    } else {
        let mask = group[9] as i128;
        let mask_fits = mask == 0 || (!data_type.signed() && mask <= data_type.range().1);
        (group[7] == 0 || group[7] == 2) && mask_fits && group[17] == 0 && group[18] == 0
    }
}

/// Tells whether an object has the parts that its kind needs and no part that its kind has not:
/// AXIS_PTS x alone; VALUE, VAL_BLK and MEASUREMENT values alone; CURVE values, and x where it is
/// stored; MAP values, and x and y where they are stored.
fn parts_fit(kind: ObjectKind, parts: [&[u64]; 3]) -> bool {
    let [x, y, values] = parts.map(|part| part[0] != 0);
    let (points, rows, mark) = (parts[2][3], parts[2][4], parts[2][10]);
    match kind {
        ObjectKind::AxisPts => x && !y && !values,
        ObjectKind::Value => values && !x && !y && points == 1 && rows == 1,
        // Its values are marked as not to be written.
        ObjectKind::Measurement => values && !x && !y && points == 1 && rows == 1 && mark == 1,
        ObjectKind::ValBlk => values && !x && !y && rows == 1,
        ObjectKind::Curve => values && !y && rows == 1,
        ObjectKind::Map => values,
    }
}

/// Tells whether four numbers are such as a kind of conversion can have.
fn factors_fit(kind: u64, factors: Factors) -> bool {
    let Factors { b, c, e, f } = factors;
    let kind_fits = match kind {
        KIND_IDENTICAL => [b, c, e, f] == [1, 0, 0, 1],
        KIND_LINEAR => (0..=6).any(|power| b == 10i128.pow(power)) && e == 0,
        KIND_RAT_FUNC => true,
        _ => false,
    };
    kind_fits && factors.allowed()
}

/// Tells whether a method's record keeps the rule.
fn method_fits(method: &[u64], tables: u64) -> bool {
    if method[0] == KIND_TAB_VERB {
        return method[1..9].iter().all(|&cell| cell == 0) && method[9] >= 1 && method[9] <= tables;
    }
    let signs = [1, 3, 5, 7].iter().all(|&cell| method[cell] <= 1);
    signs && factors_fit(method[0], factors_of(method)) && method[9] == 0
}

/// Tells whether tables keep the table rule with a description and an image.
pub fn keeps_rule(cells: &[u64], text_len: usize, image_len: usize) -> bool {
    if cells.len() < CELLS {
        return false;
    }
    let fit = section_fits(cells, HEAD, 3, 1)
        && section_fits(cells, OBJECTS, OBJECT_WIDTH, MOST_OBJECTS)
        && section_fits(cells, GROUPS, GROUP_WIDTH, MOST_GROUPS)
        && section_fits(cells, METHODS, METHOD_WIDTH, MOST_METHODS)
        && section_fits(cells, TABLES, TABLE_WIDTH, MOST_TABLES)
        && section_fits(cells, ENTRIES, ENTRY_WIDTH, MOST_ENTRIES);
    if !fit || cells[HEAD] != 1 || edition(cells).is_none() || cells[MARK] != 0 {
        return false;
    }
    if cells[GROUPS] != 3 * cells[OBJECTS] {
        return false;
    }
    for number in 0..cells[OBJECTS] as usize {
        let object = record(cells, OBJECTS, OBJECT_WIDTH, number);
        let parts = [0, 1, 2].map(|part| record(cells, GROUPS, GROUP_WIDTH, 3 * number + part));
        let kind_fits = ObjectKind::from_code(object[2]).is_some_and(|kind| parts_fit(kind, parts));
        if !text_places(object[0], object[1], text_len) || !kind_fits {
            return false;
        }
    }
    let mut total = 0;
    for number in 0..cells[GROUPS] as usize {
        let group = record(cells, GROUPS, GROUP_WIDTH, number);
        if !group_fits(group, number % 3, cells[METHODS], image_len) {
            return false;
        }
        total += group[3] * group[4];
    }
    if cells[ELEMENTS] != total || total > MOST_ELEMENTS {
        return false;
    }
    for number in 0..cells[METHODS] as usize {
        if !method_fits(record(cells, METHODS, METHOD_WIDTH, number), cells[TABLES]) {
            return false;
        }
    }
    for number in 0..cells[TABLES] as usize {
        let table = record(cells, TABLES, TABLE_WIDTH, number);
        let entries_fit = table[0].checked_add(table[1]).is_some_and(|past| past <= cells[ENTRIES]);
        if !entries_fit || !text_places(table[2], table[3], text_len) {
            return false;
        }
    }
    for number in 0..cells[ENTRIES] as usize {
        let entry = record(cells, ENTRIES, ENTRY_WIDTH, number);
        if entry[0] > 1 || !text_places(entry[2], entry[3], text_len) {
            return false;
        }
    }
    true
}

/// What a call after the load is refused with before its own reasons: 20, 22 or nothing.
pub fn check(cells: &[u64], text_len: usize, image_len: usize, base: u32, list_len: Option<usize>) -> Option<u8> {
    if cells.len() < CELLS || !sizes_fit(text_len, image_len, base) {
        return Some(20);
    }
    if list_len.is_some_and(|len| (len as u64) < elements(cells)) {
        return Some(20);
    }
    if !keeps_rule(cells, text_len, image_len) {
        return Some(22);
    }
    None
}
