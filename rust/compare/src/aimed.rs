//! Damage to the tables that is aimed: at one reason of the table rule alone, or past it so that the rule is kept.
use crate::requests::{factors, group, method, raws, type_range, EDITION, GROUPS, METHODS, OBJECTS};
use crate::rng::Rng;
use crate::steps::{self, Steps};

/// Cells of the tables and other values for them.
pub type Changes = Vec<(usize, u64)>;

/// What damage is aimed at.
pub struct Aim {
    /// In words.
    pub what: &'static str,
    /// Whether the tables then break the rule.
    pub breaks: bool,
    /// Makes it, where the tables have something to aim at.
    make: fn(&[u64], usize, &mut Rng) -> Option<Changes>,
}

/// All aims, those that break the rule and those that keep it.
pub const AIMS: [Aim; 26] = [
    Aim { what: "the other edition", breaks: false, make: other_edition },
    Aim { what: "edition 0", breaks: true, make: edition_0 },
    Aim { what: "a number that is no edition", breaks: true, make: no_edition },
    Aim { what: "another number in IDENTICAL", breaks: true, make: other_identical },
    Aim { what: "a minus before a 0 of IDENTICAL", breaks: false, make: minus_zero },
    Aim { what: "b of LINEAR no power of ten", breaks: true, make: no_power },
    Aim { what: "e of LINEAR not 0", breaks: true, make: linear_e },
    Aim { what: "another power of ten in LINEAR", breaks: false, make: other_power },
    Aim { what: "a coefficient of RAT_FUNC above 10^9", breaks: true, make: too_great },
    Aim { what: "other coefficients in RAT_FUNC", breaks: false, make: other_coefficients },
    Aim { what: "a limit over another power of ten", breaks: false, make: other_limit_power },
    Aim { what: "limits at steps of the conversion", breaks: false, make: limits_at_steps },
    Aim { what: "a part that the kind has not", breaks: true, make: part_too_many },
    Aim { what: "a part that the kind needs removed", breaks: true, make: part_missing },
    Aim { what: "an axis of a CURVE or MAP added", breaks: false, make: axis_added },
    Aim { what: "an axis of a CURVE or MAP removed", breaks: false, make: axis_removed },
    Aim { what: "two elements in a VALUE or MEASUREMENT", breaks: true, make: two_elements },
    Aim { what: "two rows in a VAL_BLK or CURVE", breaks: true, make: two_rows },
    Aim { what: "other points in a VAL_BLK, CURVE or MAP", breaks: false, make: other_points },
    Aim { what: "no points in x or in y", breaks: true, make: no_points },
    Aim { what: "a MEASUREMENT's mark cleared", breaks: true, make: mark_cleared },
    Aim { what: "another mark elsewhere", breaks: false, make: mark_turned },
    Aim { what: "one object more, with the part it needs", breaks: false, make: object_more },
    Aim { what: "a part in the other byte order", breaks: false, make: other_order },
    Aim { what: "another mask or none", breaks: false, make: other_mask },
    Aim { what: "a part moved to a byte of another", breaks: false, make: moved },
];

/// Damage by one of the aims and its number, where the tables have something to aim at.
pub fn aimed(cells: &[u64], image_len: usize, rng: &mut Rng) -> Option<(usize, Changes)> {
    let number = rng.place(AIMS.len());
    (AIMS[number].make)(cells, image_len, rng).map(|changes| (number, changes))
}

/// The kinds of objects and of conversions, as the tables have them.
const AXIS_PTS: u64 = 7;
const MEASUREMENT: u64 = 10;
const VALUE: u64 = 15;
const VAL_BLK: u64 = 16;
const CURVE: u64 = 17;
const MAP: u64 = 18;
const IDENTICAL: u64 = 19;
const LINEAR: u64 = 20;
const RAT_FUNC: u64 = 21;

/// The parts, in their order.
const X: usize = 0;
const Y: usize = 1;
const V: usize = 2;

/// Where a part's cell stands.
fn part_cell(object: usize, part: usize, cell: usize) -> usize {
    GROUPS + 1 + 19 * (3 * object + part) + cell
}

/// Picks an object's part that is right for something.
fn pick_part(cells: &[u64], rng: &mut Rng, right: impl Fn(u64, usize, bool) -> bool) -> Option<(usize, usize)> {
    let all = (0..3 * cells[OBJECTS] as usize).map(|number| (number / 3, number % 3));
    let kind = |object: usize| cells[OBJECTS + 1 + 3 * object + 2];
    let stored = |object: usize, part: usize| group(cells, 3 * object + part)[0] != 0;
    let fits: Vec<_> = all.filter(|&(object, part)| right(kind(object), part, stored(object, part))).collect();
    if fits.is_empty() {
        return None;
    }
    Some(rng.pick(&fits))
}

/// Picks a method of a kind: where its record stands.
fn pick_method(cells: &[u64], kind: u64, rng: &mut Rng) -> Option<usize> {
    let fits: Vec<_> = (0..cells[METHODS] as usize).filter(|&number| method(cells, number)[0] == kind).collect();
    if fits.is_empty() {
        return None;
    }
    Some(METHODS + 1 + 10 * rng.pick(&fits))
}

/// Other points for a part at a place that holds them, the element total with it; none where there is no room.
fn points(cells: &[u64], image_len: usize, (object, part): (usize, usize), x: u64, y: u64) -> Option<Changes> {
    let old = group(cells, 3 * object + part);
    let total = cells[3] - old[3] * old[4] + x * y;
    let bytes = [1, 1, 1, 2, 2, 4, 4][old[0] as usize] * x * y;
    if total > 4096 || bytes > image_len as u64 {
        return None;
    }
    let at = |cell: usize| part_cell(object, part, cell);
    let mut changes = vec![(at(3), x), (at(4), y), (at(5), x), (at(6), y), (3, total)];
    if old[0] == 0 {
        changes.push((at(0), 1));
    }
    if old[2] + bytes > image_len as u64 {
        changes.push((at(2), image_len as u64 - bytes));
    }
    Some(changes)
}

/// A part all zeros, its elements gone from the total.
fn removed(cells: &[u64], (object, part): (usize, usize)) -> Changes {
    let old = group(cells, 3 * object + part);
    let zeros = (0..19).map(|cell| (part_cell(object, part, cell), 0));
    zeros.chain([(3, cells[3] - old[3] * old[4])]).collect()
}

/// The other edition: writes round halves by it.
fn other_edition(cells: &[u64], _: usize, _: &mut Rng) -> Option<Changes> {
    Some(vec![(EDITION, 3 - cells[EDITION])])
}

/// The edition of tables that no load of this version made.
fn edition_0(_: &[u64], _: usize, _: &mut Rng) -> Option<Changes> {
    Some(vec![(EDITION, 0)])
}

/// A number that is no edition, perhaps with the lowest bits of one, or any.
fn no_edition(_: &[u64], _: usize, rng: &mut Rng) -> Option<Changes> {
    let (one, any) = (rng.range(1, 2), rng.next().max(3));
    let like = one + rng.pick(&[2, 1 << 8, 1 << 16, 1 << 32, 1 << 63]);
    Some(vec![(EDITION, rng.pick(&[3, 4, 255, u64::MAX, like, like, like, any]))])
}

/// One of the four numbers of an IDENTICAL method is another; b·f is not c·e even so.
fn other_identical(cells: &[u64], _: usize, rng: &mut Rng) -> Option<Changes> {
    let at = pick_method(cells, IDENTICAL, rng)?;
    let (sign, size) = (rng.below(2), rng.pick(&[2, 3, 10, 1000, 1_000_000_000]));
    let cell = at + 1 + 2 * rng.place(4);
    Some(vec![(cell, sign), (cell + 1, size)])
}

/// A minus before c or e of an IDENTICAL method, which is 0.
fn minus_zero(cells: &[u64], _: usize, rng: &mut Rng) -> Option<Changes> {
    let at = pick_method(cells, IDENTICAL, rng)?;
    Some(vec![(at + rng.pick(&[3, 5]), 1)])
}

/// A LINEAR method's b is no power of ten from 1 to 10^6.
fn no_power(cells: &[u64], _: usize, rng: &mut Rng) -> Option<Changes> {
    let at = pick_method(cells, LINEAR, rng)?;
    let power = 10u64.pow(rng.below(7) as u32);
    Some(match rng.below(4) {
        0 => vec![(at + 1, 1)],
        1 => vec![(at + 2, rng.pick(&[2, 9, 11, 5_000_000, 10_000_000, 100_000_000, 1_000_000_000]))],
        _ => vec![(at + 2, power * rng.range(2, 9))],
    })
}

/// A LINEAR method's e is not 0; b·f is not c·e even so.
fn linear_e(cells: &[u64], _: usize, rng: &mut Rng) -> Option<Changes> {
    let at = pick_method(cells, LINEAR, rng)?;
    let (e, c, right) = (rng.pick(&[1, 2, 10, 1_000_000_000]), cells[at + 4], cells[at + 2] * cells[at + 8]);
    if c * e == right {
        return None;
    }
    Some(vec![(at + 5, rng.below(2)), (at + 6, e)])
}

/// A LINEAR method's b is any power of ten from 1 to 10^6; perhaps a minus before e, which is 0.
fn other_power(cells: &[u64], _: usize, rng: &mut Rng) -> Option<Changes> {
    let at = pick_method(cells, LINEAR, rng)?;
    Some(vec![(at + 2, 10u64.pow(rng.below(7) as u32)), (at + 5, rng.below(2))])
}

/// One coefficient of a RAT_FUNC method is above 10^9.
fn too_great(cells: &[u64], _: usize, rng: &mut Rng) -> Option<Changes> {
    let cell = pick_method(cells, RAT_FUNC, rng)? + 1 + 2 * rng.place(4);
    Some(vec![(cell, rng.below(2)), (cell + 1, rng.pick(&[1_000_000_001, 2_000_000_000, 1 << 32, 1 << 62, u64::MAX]))])
}

/// The coefficients of a RAT_FUNC method are others with steps worth testing limits at; perhaps a minus before a 0.
fn other_coefficients(cells: &[u64], _: usize, rng: &mut Rng) -> Option<Changes> {
    let at = pick_method(cells, RAT_FUNC, rng)?;
    let mut changes = Vec::new();
    let raws = type_range(rng.range(1, 6));
    for (number, value) in steps::made(raws, rng).factors.into_iter().enumerate() {
        let below = value < 0 || value == 0 && rng.one_in(3);
        changes.extend([(at + 1 + 2 * number, below as u64), (at + 2 + 2 * number, value.unsigned_abs() as u64)]);
    }
    Some(changes)
}

/// The three cells of a limit, from its first one.
fn limit_cells(at: usize, (value, power): (i64, u32)) -> [(usize, u64); 3] {
    [(at, (value < 0) as u64), (at + 1, value.unsigned_abs()), (at + 2, power as u64)]
}

/// A limit is the same number with more places than it needs; or 0 with a minus, or over any power.
fn other_limit_power(cells: &[u64], _: usize, rng: &mut Rng) -> Option<Changes> {
    let (object, part) = pick_part(cells, rng, |_, _, stored| stored)?;
    let at = part_cell(object, part, rng.pick(&[11, 14]));
    let (whole, power) = (cells[at + 1], cells[at + 2]);
    if whole == 0 {
        return Some(vec![(at, rng.below(2)), (at + 2, rng.below(7))]);
    }
    let more = rng.below(7 - power);
    let whole = whole * 10u64.pow(more as u32);
    if whole > steps::MOST {
        return None;
    }
    Some(vec![(at + 1, whole), (at + 2, power + more)])
}

/// The limits of a part stand at steps of its conversion.
fn limits_at_steps(cells: &[u64], _: usize, rng: &mut Rng) -> Option<Changes> {
    let (object, part) = pick_part(cells, rng, |_, _, stored| stored)?;
    let old = group(cells, 3 * object + part);
    let steps = Steps { factors: factors(cells, old)?, close: None };
    let [lower, upper] = steps::limits(steps, raws(old), rng)?;
    let (lower, upper) =
        (limit_cells(part_cell(object, part, 11), lower), limit_cells(part_cell(object, part, 14), upper));
    Some([lower, upper].concat())
}

/// A part of one element where the object's kind has none.
fn part_too_many(cells: &[u64], image_len: usize, rng: &mut Rng) -> Option<Changes> {
    let part = pick_part(cells, rng, |kind, part, _| match kind {
        AXIS_PTS => part != X,
        CURVE => part == Y,
        MAP => false,
        _ => part != V,
    })?;
    points(cells, image_len, part, 1, 1)
}

/// A part gone that the object's kind needs.
fn part_missing(cells: &[u64], _: usize, rng: &mut Rng) -> Option<Changes> {
    let part = pick_part(cells, rng, |kind, part, _| if kind == AXIS_PTS { part == X } else { part == V })?;
    Some(removed(cells, part))
}

/// Tells whether a kind has an axis that may be stored or not.
fn may_store(kind: u64, part: usize) -> bool {
    kind == MAP && part != V || kind == CURVE && part == X
}

/// An axis stored where it was not: it may be.
fn axis_added(cells: &[u64], image_len: usize, rng: &mut Rng) -> Option<Changes> {
    let part = pick_part(cells, rng, |kind, part, stored| may_store(kind, part) && !stored)?;
    points(cells, image_len, part, rng.range(1, 4), 1)
}

/// A stored axis gone: it need not be there.
fn axis_removed(cells: &[u64], _: usize, rng: &mut Rng) -> Option<Changes> {
    let part = pick_part(cells, rng, |kind, part, stored| may_store(kind, part) && stored)?;
    Some(removed(cells, part))
}

/// Two elements where the kind has one.
fn two_elements(cells: &[u64], image_len: usize, rng: &mut Rng) -> Option<Changes> {
    let part = pick_part(cells, rng, |kind, part, _| part == V && matches!(kind, VALUE | MEASUREMENT))?;
    let (x, y) = rng.pick(&[(2, 1), (1, 2)]);
    points(cells, image_len, part, x, y)
}

/// Two rows where the kind has one.
fn two_rows(cells: &[u64], image_len: usize, rng: &mut Rng) -> Option<Changes> {
    let (object, part) = pick_part(cells, rng, |kind, part, _| part == V && matches!(kind, VAL_BLK | CURVE))?;
    let x = if rng.one_in(2) { 1 } else { group(cells, 3 * object + part)[3] };
    points(cells, image_len, (object, part), x, 2)
}

/// Other points where the kind has any number of them.
fn other_points(cells: &[u64], image_len: usize, rng: &mut Rng) -> Option<Changes> {
    let (object, part) = pick_part(cells, rng, |kind, part, _| part == V && matches!(kind, VAL_BLK | CURVE | MAP))?;
    let map = cells[OBJECTS + 1 + 3 * object + 2] == MAP;
    let y = if map { rng.range(1, 4) } else { 1 };
    points(cells, image_len, (object, part), rng.range(1, 5), y)
}

/// No points in x, in y or in both.
fn no_points(cells: &[u64], image_len: usize, rng: &mut Rng) -> Option<Changes> {
    let part = pick_part(cells, rng, |_, _, stored| stored)?;
    let (x, y) = rng.pick(&[(0, 1), (0, 1), (1, 0), (0, 0)]);
    points(cells, image_len, part, x, y)
}

/// A MEASUREMENT's values that may be written.
fn mark_cleared(cells: &[u64], _: usize, rng: &mut Rng) -> Option<Changes> {
    let (object, part) = pick_part(cells, rng, |kind, part, _| part == V && kind == MEASUREMENT)?;
    Some(vec![(part_cell(object, part, 10), 0)])
}

/// A part of another kind marked, or no longer.
fn mark_turned(cells: &[u64], _: usize, rng: &mut Rng) -> Option<Changes> {
    let (object, part) = pick_part(cells, rng, |kind, _, stored| stored && kind != MEASUREMENT)?;
    let at = part_cell(object, part, 10);
    Some(vec![(at, 1 - cells[at])])
}

/// One object more without a name, of any kind, with a byte in the part that it needs.
fn object_more(cells: &[u64], image_len: usize, rng: &mut Rng) -> Option<Changes> {
    let object = cells[OBJECTS] as usize;
    if object >= 512 || cells[3] >= 4096 || image_len == 0 {
        return None;
    }
    let kind = rng.pick(&[AXIS_PTS, MEASUREMENT, VALUE, VAL_BLK, CURVE, MAP]);
    let part = if kind == AXIS_PTS { X } else { V };
    let at = |cell: usize| part_cell(object, part, cell);
    let mut changes = vec![(OBJECTS, object as u64 + 1), (GROUPS, 3 * object as u64 + 3)];
    changes.push((OBJECTS + 1 + 3 * object + 2, kind));
    changes.extend([(at(0), 1), (at(3), 1), (at(4), 1), (at(5), 1), (at(6), 1), (3, cells[3] + 1)]);
    changes.push((at(10), if kind == MEASUREMENT { 1 } else { rng.below(2) }));
    Some(changes)
}

/// A part's bytes in the other order.
fn other_order(cells: &[u64], _: usize, rng: &mut Rng) -> Option<Changes> {
    let (object, part) = pick_part(cells, rng, |_, _, stored| stored)?;
    let at = part_cell(object, part, 1);
    Some(vec![(at, 1 - cells[at])])
}

/// Another mask for unsigned values, or none: some of their bits, or those that another mask leaves.
fn other_mask(cells: &[u64], _: usize, rng: &mut Rng) -> Option<Changes> {
    let unsigned = |object: usize| cells[part_cell(object, V, 0)] % 2 == 1;
    let fits: Vec<usize> = (0..cells[OBJECTS] as usize).filter(|&object| unsigned(object)).collect();
    if fits.is_empty() {
        return None;
    }
    let (object, other) = (rng.pick(&fits), rng.pick(&fits));
    let full = type_range(cells[part_cell(object, V, 0)]).1 as u64;
    let left = !cells[part_cell(other, V, 9)];
    let any = rng.next();
    let mask = rng.pick(&[left, left, any, 0x0F0F_F0F0, 0]) & full;
    Some(vec![(part_cell(object, V, 9), mask)])
}

/// A part moved so that it begins at a byte of another one.
fn moved(cells: &[u64], image_len: usize, rng: &mut Rng) -> Option<Changes> {
    let (object, part) = pick_part(cells, rng, |_, _, stored| stored)?;
    let other = pick_part(cells, rng, |_, _, stored| stored)?;
    let (old, to) = (group(cells, 3 * object + part), group(cells, 3 * other.0 + other.1));
    let place = to[2] + rng.below(to[3] * to[4]);
    let bytes = [0, 1, 1, 2, 2, 4, 4][old[0] as usize] * old[3] * old[4];
    if place + bytes > image_len as u64 {
        return None;
    }
    Some(vec![(part_cell(object, part, 2), place)])
}
