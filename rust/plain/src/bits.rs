//! Which bits of which bytes of the image are an element's, and whether two elements have one in common.
use crate::model::DataType;
use crate::tables::{GROUPS, GROUP_WIDTH, OBJECTS};

/// Each byte of an element: its place in the image, and the bits of it that are the element's.
pub type Bits = Vec<(usize, u8)>;

/// The cells of the part that a request names; none where the tables have no such part.
fn part_cells(cells: &[u64], object: u32, part: u8) -> Option<&[u64]> {
    if object as u64 >= *cells.get(OBJECTS)? || part > 2 {
        return None;
    }
    let from = GROUPS + 1 + GROUP_WIDTH * (3 * object as usize + part as usize);
    cells.get(from..from + GROUP_WIDTH)
}

/// How many elements stand before the element with an index; none where there is no such element.
fn before(part: &[u64], index: u64) -> Option<u64> {
    let (x, y, walk) = (part[3], part[4], part[7]);
    if index >= x.checked_mul(y)? {
        return None;
    }
    match walk {
        0 => Some(index),
        1 => x.checked_sub(index + 1),
        // Column by column: those of the columns before, then those above.
        _ => (index % x).checked_mul(y)?.checked_add(index / x),
    }
}

/// The bits of an element of a part; none where there is no such element.
fn bits_of(part: &[u64], index: u64) -> Option<Bits> {
    let width = DataType::from_code(part[0])?.bytes();
    let first = part[2].checked_add(width.checked_mul(before(part, index)?)?)?;
    let place = usize::try_from(first).ok().filter(|place| place.checked_add(width as usize).is_some())?;
    let mask = if part[9] == 0 { u64::MAX } else { part[9] };
    // The mask's lowest byte, as the number has it, is the first one.
    let mut bytes = mask.to_le_bytes()[..width as usize].to_vec();
    if part[1] == 1 {
        bytes.reverse();
    }
    Some(bytes.into_iter().enumerate().map(|(step, bits)| (place + step, bits)).collect())
}

/// The bits of an element: its mask's bits where they stand in the image by its byte order, without a mask all bits of
/// its bytes. A byte of it without a bit of the mask has 0; an element that is not there has no bytes.
pub fn bits(cells: &[u64], object: u32, part: u8, index: u32) -> Bits {
    part_cells(cells, object, part).and_then(|part| bits_of(part, index as u64)).unwrap_or_default()
}

/// Tells whether two elements have a bit of the image in common.
pub fn meet(one: &[(usize, u8)], other: &[(usize, u8)]) -> bool {
    one.iter().any(|&(place, bits)| other.iter().any(|&(at, others)| at == place && bits & others != 0))
}
