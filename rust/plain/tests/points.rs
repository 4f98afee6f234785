//! P1 to P10 and the other worked points of document 01.
mod common;
use common::*;
use plain::*;

/// The fraction of V's line over a word image.
fn fraction(kind: &str, rest: &str, data_type: &str, stored: &[u8]) -> (u8, i64, i64) {
    let body = method(kind, rest) + &value(data_type, "C", "-1000000 1000000", "");
    let set = Set::new(&body, stored);
    let line = set.lines[0];
    assert_eq!(set.read(0, 2, 0).unwrap().0, line);
    (line.state, line.first, line.second)
}

#[test]
fn p1_to_p5_conversions() {
    assert_eq!(fraction("RAT_FUNC", "COEFFS 0 1000 0 0 0 1", "UWORD", &11800u16.to_le_bytes()), (1, 11800, 1000));
    assert_eq!(fraction("LINEAR", "COEFFS_LINEAR 0.001 0", "UWORD", &11800u16.to_le_bytes()), (1, 11800, 1000));
    assert_eq!(fraction("LINEAR", "COEFFS_LINEAR 0.5 -40", "UBYTE", &[255]), (1, 875, 10));
    assert_eq!(fraction("RAT_FUNC", "COEFFS 0 0 60 0 1 0", "UBYTE", &[4]), (1, 60, 4));
    assert_eq!(fraction("RAT_FUNC", "COEFFS 0 0 60 0 1 0", "UBYTE", &[0]), (0, 0, 0));
    refused_in(10, "/begin COMPU_METHOD ^C \"\" RAT_FUNC \"\" \"\" COEFFS 0 2 0 0 1 0 /end COMPU_METHOD");
}

#[test]
fn p6_physical_writes() {
    let body = method("RAT_FUNC", "COEFFS 0 1000 0 0 0 1") + &value("SWORD", "C", "-30 30", "");
    let mut set = Set::new(&body, &[0, 0]);
    set.physical(0, 2, 0, "11.8005").unwrap();
    assert_eq!(set.lines[0], Line { raw: 11801, state: 1, first: 11801, second: 1000 });
    set.physical(0, 2, 0, "-0.0005").unwrap();
    assert_eq!(set.lines[0].raw, -1);
    assert_eq!(set.image, [0xFF, 0xFF]);
    set.physical(0, 2, 0, "-0.000499").unwrap();
    assert_eq!(set.lines[0].raw, 0);
}

#[test]
fn p7_p8_masks() {
    let mut set = Set::new(&value("UWORD", "NO_COMPU_METHOD", "0 100", "BIT_MASK 0x00F0"), &0x12A7u16.to_le_bytes());
    assert_eq!(set.lines[0].raw, 10);
    set.raw(0, 2, 0, 3).unwrap();
    assert_eq!(set.image, 0x1237u16.to_le_bytes());
    assert_eq!(set.raw(0, 2, 0, 16), Err(18));
    assert_eq!(set.raw(0, 2, 0, -1), Err(18));
    assert_eq!(set.raw(0, 2, 0, i64::MAX), Err(18));
    assert_eq!(set.physical(0, 2, 0, "16"), Err(18));
    let mut set = Set::new(&value("UWORD", "NO_COMPU_METHOD", "0 100", "BIT_MASK 0x0005"), &[0, 0]);
    set.raw(0, 2, 0, 5).unwrap();
    assert_eq!(set.raw(0, 2, 0, 2), Err(18));
    assert_eq!(set.image, [5, 0]);
}

#[test]
fn p9_byte_orders() {
    let first = Set::new(&value("UWORD", "NO_COMPU_METHOD", "0 0", "BYTE_ORDER MSB_FIRST"), &[0x2E, 0x18]);
    let last = Set::new(&value("UWORD", "NO_COMPU_METHOD", "0 0", "BYTE_ORDER MSB_LAST"), &[0x18, 0x2E]);
    let plain = Set::new(&value("UWORD", "NO_COMPU_METHOD", "0 0", ""), &[0x18, 0x2E]);
    assert_eq!([first.lines[0].raw, last.lines[0].raw, plain.lines[0].raw], [11800; 3]);
    let common = "/begin MOD_COMMON \"\" BYTE_ORDER MSB_FIRST /end MOD_COMMON ";
    let set = Set::new(&(value("UWORD", "NO_COMPU_METHOD", "0 0", "") + common), &[0x2E, 0x18]);
    assert_eq!(set.lines[0].raw, 11800);
}

#[test]
fn p10_curve_places() {
    let body = layout("NO_AXIS_PTS_X 1 UBYTE AXIS_PTS_X 2 UWORD INDEX_INCR DIRECT FNC_VALUES 3 UBYTE ROW_DIR DIRECT")
        + &object("CURVE", 0x1001, &std_axis(8));
    let image = [0, 3, 1, 0, 2, 0, 3, 0, 7, 8, 9];
    let set = Set::new(&body, &image);
    let groups = 4 + 1537;
    assert_eq!(set.cells[groups], 3);
    let x = &set.cells[groups + 1..groups + 20];
    assert_eq!(x, [3, 0, 2, 3, 1, 3, 1, 0, 0, 0, 0, 0, 0, 0, 0, 100, 0, 1, 1]);
    let v = &set.cells[groups + 1 + 38..groups + 1 + 57];
    assert_eq!(v, [1, 0, 8, 3, 1, 3, 1, 0, 0, 0, 0, 0, 0, 0, 0, 100, 0, 0, 0]);
    assert_eq!(set.rows(), ["O x 0 1 1/1", "O x 1 2 2/1", "O x 2 3 3/1", "O v 0 7 7/1", "O v 1 8 8/1", "O v 2 9 9/1"]);
    let text = module(&body);
    assert_eq!(load(text.as_bytes(), &image[..10], BASE, 1).err().map(|it| it.number), Some(12));
}

#[test]
fn other_points() {
    refused(3, "^");
    let set = Set::new("", &[]);
    assert_eq!(set.listing(), "name\tpart\tindex\traw\tphysical\n");
    accepted_over(module(&measurement("A", "UWORD", 0x1000)), &[0, 0]);
    refused_over(12, module(&measurement("^A", "UWORD", 0x1001)), &[0, 0]);
    refused_over(12, module(&measurement("^A", "UWORD", 0x0FFF)), &[0, 0]);
}

#[test]
fn listing_example() {
    let body = "/begin COMPU_METHOD MV \"\" RAT_FUNC \"\" \"V\" COEFFS 0 1000 0 0 0 1 /end COMPU_METHOD
        /begin COMPU_METHOD ONOFF \"\" TAB_VERB \"\" \"\" COMPU_TAB_REF T /end COMPU_METHOD
        /begin COMPU_VTAB T \"\" TAB_VERB 2 0 \"OFF\" 1 \"ON\" /end COMPU_VTAB
        /begin MEASUREMENT U_BATT \"\" UWORD MV 0 0 0 65 ECU_ADDRESS 0x1000 /end MEASUREMENT
        /begin MEASUREMENT RELAY \"\" UBYTE ONOFF 0 0 0 1 ECU_ADDRESS 0x1002 /end MEASUREMENT";
    let set = Set::new(body, &[0x18, 0x2E, 1]);
    assert_eq!(
        set.listing(),
        "name\tpart\tindex\traw\tphysical\nU_BATT\tv\t0\t11800\t11800/1000\nRELAY\tv\t0\t1\t\"ON\"\n"
    );
    assert_eq!(set.read(0, 2, 0).unwrap().1, Shown::Real(11.8));
    let Shown::Words(from, past) = set.read(1, 2, 0).unwrap().1 else { panic!() };
    assert_eq!(&set.text[from as usize..past as usize], b"\"ON\"");
    let none = Set::new(body, &[0x18, 0x2E, 2]);
    assert_eq!(none.rows()[1], "RELAY v 0 2 -");
    assert_eq!(none.read(1, 2, 0).unwrap(), (Line { raw: 2, ..Line::default() }, Shown::Nothing));
}

#[test]
fn column_dir_map_is_listed_x_fastest() {
    let parts = |mode: &str| {
        layout(&format!(
            "AXIS_PTS_X 1 UBYTE INDEX_DECR DIRECT AXIS_PTS_Y 2 UBYTE INDEX_INCR DIRECT FNC_VALUES 3 UBYTE {mode} DIRECT"
        )) + &object("MAP", 0x1000, &(std_axis(3) + &std_axis(2)))
    };
    let image = [30, 20, 10, 1, 2, 11, 12, 21, 22, 31, 32];
    let raws = |set: &Set| set.lines.iter().map(|line| line.raw).collect::<Vec<_>>();
    let mut column = Set::new(&parts("COLUMN_DIR"), &image);
    assert_eq!(raws(&column), [10, 20, 30, 1, 2, 11, 21, 31, 12, 22, 32]);
    let row = Set::new(&parts("ROW_DIR"), &image);
    assert_eq!(raws(&row), [10, 20, 30, 1, 2, 11, 12, 21, 22, 31, 32]);
    column.raw(0, 2, 1, 99).unwrap();
    assert_eq!(column.image[7], 99);
    column.raw(0, 0, 0, 77).unwrap();
    assert_eq!(column.image[2], 77);
    assert_eq!(column.read(0, 2, 6).err(), Some(14));
    assert_eq!(column.read(0, 0, 3).err(), Some(14));
}

#[test]
fn overlapping_lines_are_refreshed_and_no_other() {
    let body = value("UWORD", "NO_COMPU_METHOD", "0 65535", "")
        + &measurement("A", "UBYTE", 0x1001)
        + &measurement("B", "UBYTE", 0x1002)
        + &measurement("D", "ULONG", 0x1000);
    let mut set = Set::new(&body, &[1, 2, 3, 4]);
    let stale = Line { raw: -7, state: 9, first: -7, second: -7 };
    set.lines = vec![stale; 6];
    write_raw(&set.text, &mut set.image, BASE, &set.cells, &mut set.lines, 0, 2, 0, 0x0A09).unwrap();
    let raws: Vec<_> = set.lines.iter().map(|line| line.raw).collect();
    assert_eq!(raws, [0x0A09, 0x0A, -7, 0x04030A09, -7, -7]);
    assert_eq!((set.lines[2], set.lines[4], set.lines[5]), (stale, stale, stale));
}

#[test]
fn rational_rounding_and_no_raw_value() {
    // INT = 60 / P: P = 0 has no raw value; 60/8 = 7.5 rounds to 8.
    let body = method("RAT_FUNC", "COEFFS 0 0 60 0 1 0") + &value("SBYTE", "C", "-100 100", "");
    let mut set = Set::new(&body, &[0]);
    assert_eq!(set.physical(0, 2, 0, "0"), Err(17));
    assert_eq!(set.physical(0, 2, 0, "-0.0"), Err(17));
    set.physical(0, 2, 0, "8").unwrap();
    assert_eq!(set.lines[0], Line { raw: 8, state: 1, first: 60, second: 8 });
    set.physical(0, 2, 0, "-8").unwrap();
    assert_eq!(set.lines[0], Line { raw: -8, state: 1, first: -60, second: 8 });
    assert_eq!(set.physical(0, 2, 0, "0.1"), Err(18));
    assert_eq!(set.physical(0, 2, 0, "100.1"), Err(16));
    assert_eq!(set.physical(0, 2, 0, "100"), Ok(()));
    assert_eq!(set.lines[0].raw, 1);
}

#[test]
fn search_answers() {
    let body = measurement("AB", "UBYTE", 0x1000) + &measurement("A", "UBYTE", 0x1000);
    let set = Set::new(&body, &[0]);
    let find = |name: &[u8]| find(&set.text, &set.image, BASE, &set.cells, name).unwrap();
    assert_eq!([find(b"A"), find(b"AB"), find(b"B"), find(b"")], [Some(1), Some(0), None, None]);
}
