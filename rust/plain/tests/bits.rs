//! Wish 13: which bits of which bytes an element has, and whether two elements' bits meet.
mod common;
use common::*;
use plain::*;

/// A layout of values of a type, named after it.
fn values(data_type: &str) -> String {
    format!("/begin RECORD_LAYOUT {data_type} FNC_VALUES 1 {data_type} COLUMN_DIR DIRECT /end RECORD_LAYOUT ")
}

/// The layouts of all types.
fn layouts() -> String {
    ["UBYTE", "SBYTE", "UWORD", "SWORD", "ULONG", "SLONG"].map(values).concat()
}

/// A CHARACTERISTIC of a kind and a type at an address, with a name and more.
fn at(name: &str, kind: &str, data_type: &str, address: u32, more: &str) -> String {
    format!(
        "/begin CHARACTERISTIC {name} \"\" {kind} {address} {data_type} 0 NO_COMPU_METHOD 0 100 {more} /end CHARACTERISTIC "
    )
}

/// Two VALUEs, each by its type, its offset from the base and more, loaded over zeros.
fn two(one: (&str, u32, &str), other: (&str, u32, &str)) -> Vec<u64> {
    let value = |name: &str, (data_type, offset, more)| at(name, "VALUE", data_type, BASE + offset, more);
    accepted_in(&(layouts() + &value("A", one) + &value("B", other)))
}

/// Tells whether the bits of two VALUEs meet.
fn met(one: (&str, u32, &str), other: (&str, u32, &str)) -> bool {
    let cells = two(one, other);
    let (one, other) = (bits(&cells, 0, 2, 0), bits(&cells, 1, 2, 0));
    assert_eq!(meet(&one, &other), meet(&other, &one));
    meet(&one, &other)
}

#[test]
fn a_mask_stands_by_the_byte_order() {
    let cells =
        two(("UWORD", 0, "BIT_MASK 0x0FF0 BYTE_ORDER MSB_FIRST"), ("UWORD", 3, "BIT_MASK 0x0FF0 BYTE_ORDER MSB_LAST"));
    assert_eq!(bits(&cells, 0, 2, 0), [(0, 0x0F), (1, 0xF0)]);
    assert_eq!(bits(&cells, 1, 2, 0), [(3, 0xF0), (4, 0x0F)]);
    let cells = two(("ULONG", 1, "BIT_MASK 0x12345678 BYTE_ORDER MSB_FIRST"), ("ULONG", 8, "BIT_MASK 0x12345678"));
    assert_eq!(bits(&cells, 0, 2, 0), [(1, 0x12), (2, 0x34), (3, 0x56), (4, 0x78)]);
    assert_eq!(bits(&cells, 1, 2, 0), [(8, 0x78), (9, 0x56), (10, 0x34), (11, 0x12)]);
}

#[test]
fn a_byte_without_a_bit_of_the_mask_has_none() {
    let cells = two(("ULONG", 0, "BIT_MASK 0x00010000"), ("UWORD", 4, "BIT_MASK 1 BYTE_ORDER MSB_FIRST"));
    assert_eq!(bits(&cells, 0, 2, 0), [(0, 0), (1, 0), (2, 1), (3, 0)]);
    assert_eq!(bits(&cells, 1, 2, 0), [(4, 0), (5, 1)]);
}

#[test]
fn without_a_mask_all_bits_are_the_elements() {
    for (data_type, width) in [("UBYTE", 1), ("SBYTE", 1), ("UWORD", 2), ("SWORD", 2), ("ULONG", 4), ("SLONG", 4)] {
        let cells = two((data_type, 5, "BYTE_ORDER MSB_FIRST"), (data_type, 6, ""));
        assert_eq!(bits(&cells, 0, 2, 0), (5..5 + width).map(|place| (place, 255)).collect::<Vec<_>>());
        assert_eq!(bits(&cells, 1, 2, 0), (6..6 + width).map(|place| (place, 255)).collect::<Vec<_>>());
    }
}

#[test]
fn elements_that_are_not_there_have_none() {
    let cells = two(("UBYTE", 0, ""), ("UBYTE", 1, ""));
    let absent =
        [(0, 0, 0), (0, 1, 0), (0, 3, 0), (0, 255, 0), (0, 2, 1), (1, 2, u32::MAX), (2, 2, 0), (u32::MAX, 2, 0)];
    for (object, part, index) in absent {
        assert_eq!(bits(&cells, object, part, index), [], "{object} {part} {index}");
    }
    assert!(!meet(&[], &bits(&cells, 0, 2, 0)));
}

#[test]
fn every_element_stands_where_it_is_written() {
    let axes = com_axis(3, "X") + &com_axis(2, "Y");
    let body = layouts()
        + "/begin RECORD_LAYOUT LX AXIS_PTS_X 1 UBYTE INDEX_DECR DIRECT /end RECORD_LAYOUT "
        + &axis_pts("X", BASE, "LX", 3)
        + &axis_pts("Y", BASE + 3, "LX", 2)
        + &at("M", "MAP", "UWORD", BASE + 6, &format!("BIT_MASK 0xFF00 BYTE_ORDER MSB_FIRST {axes}"))
        + &at("B", "VAL_BLK", "ULONG", BASE + 20, "NUMBER 5");
    let set = Set::new(&body, &ZEROS);
    assert_eq!(bits(&set.cells, 0, 0, 0), [(2, 255)]);
    assert_eq!(bits(&set.cells, 2, 2, 1), [(10, 255), (11, 0)]);
    assert_eq!(bits(&set.cells, 3, 2, 4), [(36, 255), (37, 255), (38, 255), (39, 255)]);
    for (object, part, many) in [(0, 0, 3), (1, 0, 2), (2, 2, 6), (3, 2, 5)] {
        for index in 0..many {
            let mut written = Set::new(&body, &ZEROS);
            let full: u32 = if object == 3 { u32::MAX } else { 255 };
            written.raw(object, part, index, full as i64).unwrap();
            for (place, &byte) in written.image.iter().enumerate() {
                let own = bits(&set.cells, object, part, index).iter().find(|it| it.0 == place).map_or(0, |it| it.1);
                assert_eq!(byte, own, "object {object} index {index} byte {place}");
            }
        }
    }
}

#[test]
fn two_masks_in_one_byte() {
    assert!(!met(("UBYTE", 0, "BIT_MASK 0x0F"), ("UBYTE", 0, "BIT_MASK 0xF0")));
    assert!(met(("UBYTE", 0, "BIT_MASK 0x1F"), ("UBYTE", 0, "BIT_MASK 0xF0")));
    assert!(met(("UBYTE", 0, "BIT_MASK 0x0F"), ("UBYTE", 0, "")));
    // The second byte of a UWORD is the UBYTE's.
    assert!(!met(("UWORD", 0, "BIT_MASK 0x00FF"), ("SBYTE", 1, "")));
    assert!(met(("UWORD", 0, "BIT_MASK 0x00FF BYTE_ORDER MSB_FIRST"), ("SBYTE", 1, "")));
}

#[test]
fn masks_meet_in_the_image_and_not_as_numbers() {
    let (first, last) = ("BYTE_ORDER MSB_FIRST", "BYTE_ORDER MSB_LAST");
    let word = |mask: &str, order: &str| format!("BIT_MASK {mask} {order}");
    // No bit in common as numbers: the same byte of the image.
    assert!(met(("UWORD", 0, &word("0x00FF", first)), ("UWORD", 0, &word("0xFF00", last))));
    // The same number: two bytes of the image.
    assert!(!met(("UWORD", 0, &word("0x00FF", first)), ("UWORD", 0, &word("0x00FF", last))));
    // One byte on, the same number is another byte too.
    assert!(!met(("UWORD", 0, &word("0x00FF", last)), ("UWORD", 1, &word("0x00FF", last))));
    assert!(met(("UWORD", 0, &word("0xFF00", last)), ("ULONG", 1, &word("0x000000FF", last))));
    assert!(!met(("UWORD", 0, &word("0xFF00", last)), ("ULONG", 1, &word("0x000000FF", first))));
}

#[test]
fn damaged_tables_end_nothing() {
    let good = accepted_in(&(layouts() + &at("B", "VAL_BLK", "ULONG", BASE, "NUMBER 3")));
    let part = 1542 + 19 * 2;
    assert_eq!(bits(&good[..4], 0, 2, 0), []);
    assert_eq!(bits(&good[..part + 18], 0, 2, 0), []);
    for cell in [4, part, part + 1, part + 2, part + 3, part + 4, part + 7, part + 9] {
        for value in [0, 1, 2, 7, 513, 1 << 32, 1 << 62, 1 << 63, u64::MAX - 3, u64::MAX] {
            let mut cells = good.clone();
            cells[cell] = value;
            cells[part + 4] = if cell == part + 3 { 2 } else { cells[part + 4] };
            for (object, index) in [(0, 0), (0, 2), (0, u32::MAX), (512, 0), (u32::MAX, 2)] {
                assert!(bits(&cells, object, 2, index).len() <= 4, "cell {cell} value {value}");
            }
        }
    }
}
