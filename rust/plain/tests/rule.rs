//! The table rule clause by clause, the calls' order of refusals, and loose shaking.
mod common;
use common::*;
use plain::*;

/// Where the sections start.
const OBJECTS: usize = 4;
const GROUPS: usize = OBJECTS + 1537;
const METHODS: usize = GROUPS + 29185;
const TABLES: usize = METHODS + 1281;
const ENTRIES: usize = TABLES + 513;

/// A description with something in every section.
fn rich() -> Set {
    let body = "/begin MOD_COMMON \"\" ALIGNMENT_WORD 1 /end MOD_COMMON
        /begin COMPU_METHOD C \"\" RAT_FUNC \"\" \"\" COEFFS 0 2 -1 0 0.5 3 /end COMPU_METHOD
        /begin COMPU_METHOD K \"\" TAB_VERB \"\" \"\" COMPU_TAB_REF T /end COMPU_METHOD
        /begin COMPU_VTAB T \"\" TAB_VERB 2 -1 \"minus\" 1 \"one\" DEFAULT_VALUE \"d\" /end COMPU_VTAB
        /begin COMPU_VTAB U \"\" TAB_VERB 1 5 \"five\" /end COMPU_VTAB
        /begin RECORD_LAYOUT L NO_AXIS_PTS_X 1 UBYTE NO_AXIS_PTS_Y 2 UBYTE AXIS_PTS_X 3 UWORD INDEX_DECR DIRECT
          AXIS_PTS_Y 4 SBYTE INDEX_INCR DIRECT FNC_VALUES 5 UWORD COLUMN_DIR DIRECT /end RECORD_LAYOUT
        /begin RECORD_LAYOUT LX AXIS_PTS_X 1 SLONG INDEX_INCR DIRECT /end RECORD_LAYOUT
        /begin RECORD_LAYOUT LV FNC_VALUES 1 SBYTE ROW_DIR DIRECT /end RECORD_LAYOUT
        /begin CHARACTERISTIC MAPPE \"\" MAP 0x1000 L 0 C -100 100.5 BIT_MASK 0x0FF0
          /begin AXIS_DESCR STD_AXIS NO_INPUT_QUANTITY C 4 0 10 /end AXIS_DESCR
          /begin AXIS_DESCR STD_AXIS Q K 4 0 10 READ_ONLY /end AXIS_DESCR /end CHARACTERISTIC
        /begin AXIS_PTS X \"\" 0x1010 NO_INPUT_QUANTITY LX 0 C 3 0 10 BYTE_ORDER MSB_FIRST /end AXIS_PTS
        /begin CHARACTERISTIC V \"\" VALUE 0x1011 LV 0 K 0 10 /end CHARACTERISTIC
        /begin MEASUREMENT Q \"\" UBYTE C 0 0 0 10 ECU_ADDRESS 0x1003 BIT_MASK 0x3 /end MEASUREMENT";
    let mut image: Vec<u8> = (0..64).map(|number| (number * 37 + 11) as u8).collect();
    image[0] = 3;
    image[1] = 2;
    Set::new(body, &image)
}

#[test]
fn the_cells_of_a_load() {
    let set = rich();
    assert_eq!(set.cells[..4], [1, 1, 0, 3 + 2 + 6 + 3 + 1 + 1]);
    assert_eq!(set.cells[OBJECTS], 4);
    let kinds: Vec<_> = (0..4).map(|number| set.cells[OBJECTS + 3 + 3 * number]).collect();
    assert_eq!(kinds, [18, 7, 15, 10]);
    assert_eq!(&set.text[set.cells[OBJECTS + 1] as usize..set.cells[OBJECTS + 2] as usize], b"MAPPE");
    let group = |number: usize| &set.cells[GROUPS + 1 + 19 * number..GROUPS + 20 + 19 * number];
    assert_eq!(set.cells[GROUPS], 12);
    assert_eq!(group(0), [3, 0, 2, 3, 1, 3, 1, 1, 1, 0, 0, 0, 0, 0, 0, 10, 0, 1, 0]);
    assert_eq!(group(1), [2, 0, 8, 2, 1, 2, 1, 0, 2, 0, 1, 0, 0, 0, 0, 10, 0, 1, 1]);
    assert_eq!(group(2), [3, 0, 10, 3, 2, 3, 2, 2, 1, 0xFF0, 0, 1, 100, 0, 0, 1005, 1, 0, 0]);
    assert_eq!(group(3), [6, 1, 16, 3, 1, 3, 1, 0, 1, 0, 0, 0, 0, 0, 0, 10, 0, 0, 0]);
    assert_eq!(group(4), [0; 19]);
    assert_eq!(group(11), [1, 0, 3, 1, 1, 1, 1, 0, 1, 3, 1, 0, 0, 0, 0, 10, 0, 0, 0]);
    assert_eq!(set.cells[METHODS..METHODS + 11], [2, 21, 0, 20, 1, 10, 0, 5, 0, 30, 0]);
    assert_eq!(set.cells[METHODS + 11..METHODS + 21], [22, 0, 0, 0, 0, 0, 0, 0, 0, 1]);
    assert_eq!(set.cells[TABLES], 2);
    assert_eq!(set.cells[TABLES + 1..TABLES + 3], [0, 2]);
    assert_eq!(set.cells[TABLES + 5..TABLES + 9], [2, 1, 0, 0]);
    assert_eq!(set.cells[ENTRIES..ENTRIES + 3], [3, 1, 1]);
    let text = &set.text[set.cells[ENTRIES + 3] as usize..set.cells[ENTRIES + 4] as usize];
    assert_eq!(text, b"\"minus\"");
}

#[test]
fn every_clause_of_the_rule() {
    let set = rich();
    let keeps = |cell: usize, value: u64| {
        let mut cells = set.cells.clone();
        cells[cell] = value;
        keeps_rule(&cells, set.text.len(), set.image.len())
    };
    let (text_len, image_len) = (set.text.len() as u64, set.image.len() as u64);
    let group = |number: usize, cell: usize| GROUPS + 1 + 19 * number + cell;
    let method = METHODS + 1;
    let breaks = [
        (0, 0),
        (0, 2),
        (1, 0),
        (1, 3),
        (1, u64::MAX),
        (2, 1),
        (3, 15),
        (3, 17),
        (3, u64::MAX),
        (OBJECTS, 3),
        (OBJECTS, 513),
        (OBJECTS, u64::MAX),
        (OBJECTS + 1, text_len),
        (OBJECTS + 2, text_len + 1),
        (OBJECTS + 3, 7),
        (OBJECTS + 3, 8),
        (OBJECTS + 3, 19),
        (OBJECTS + 1 + 12, 1),
        (OBJECTS + 1536, 1),
        (GROUPS, 9),
        (GROUPS, 1537),
        (METHODS - 1, 1),
        (group(12, 0), 1),
        (group(0, 0), 0),
        (group(0, 0), 7),
        (group(0, 1), 2),
        (group(0, 2), image_len - 5),
        (group(0, 2), u64::MAX),
        (group(0, 3), 0),
        (group(0, 3), 4),
        (group(0, 4), 2),
        (group(0, 5), 4),
        (group(0, 6), 2),
        (group(0, 7), 2),
        (group(0, 8), 3),
        (group(0, 9), 1),
        (group(0, 10), 2),
        (group(0, 11), 2),
        (group(0, 12), 11),
        (group(0, 12), 10_000_000_000),
        (group(0, 13), 7),
        (group(0, 14), 1),
        (group(0, 15), 10_000_000_000),
        (group(1, 17), 0),
        (group(0, 17), 7),
        (group(0, 18), image_len),
        (group(0, 18), u64::MAX),
        (group(2, 7), 1),
        (group(2, 7), 3),
        (group(2, 9), 0x10000),
        (group(2, 0), 4),
        (group(2, 17), 1),
        (group(2, 18), 1),
        (group(2, 16), 3 + 4),
        (group(4, 18), 1),
        (group(4, 3), 1),
        (METHODS, 1),
        (METHODS, 129),
        (method, 18),
        (method, 19),
        (method, 20),
        (method, 22),
        (method, 23),
        (method + 1, 2),
        (method + 2, 1_000_000_001),
        (method + 9, 1),
        (method + 10 + 1, 1),
        (method + 10 + 8, 1),
        (method + 10 + 9, 0),
        (method + 10 + 9, 3),
        (method + 20, 1),
        (METHODS + 1280, 1),
        (TABLES, 1 - 1),
        (TABLES, 129),
        (TABLES + 1, 2),
        (TABLES + 1, u64::MAX),
        (TABLES + 2, 4),
        (TABLES + 2, u64::MAX),
        (TABLES + 4, text_len + 1),
        (TABLES + 3, text_len),
        (TABLES + 7, 1),
        (TABLES + 512, 1),
        (ENTRIES, 2),
        (ENTRIES, 1025),
        (ENTRIES + 1, 2),
        (ENTRIES + 3, text_len + 1),
        (ENTRIES + 4, 0),
        (CELLS - 1, 1),
    ];
    for (cell, value) in breaks {
        assert!(!keeps(cell, value), "cell {cell} value {value}");
    }
    let holds = [
        (1, 2),
        (group(0, 1), 1),
        (group(0, 2), image_len - 6),
        (group(0, 7), 0),
        (group(0, 8), 0),
        (group(0, 10), 1),
        (group(0, 12), 10),
        (group(0, 16), 0),
        (group(0, 18), image_len - 1),
        (group(2, 9), 0xFFFF),
        (group(2, 9), 0),
        (group(2, 7), 0),
        (method + 1, 1),
        (method + 2, 1_000_000_000),
        (method + 19, 2),
        (TABLES + 2, 3),
        (TABLES + 3, 0),
        (ENTRIES + 2, u64::MAX),
        (ENTRIES + 1, 0),
    ];
    for (cell, value) in holds {
        assert!(keeps(cell, value), "cell {cell} value {value}");
    }
    // b·f = c·e: 20·30 against -10·5; make it equal by c = 120.
    let mut cells = set.cells.clone();
    cells[method + 3] = 0;
    cells[method + 4] = 120;
    assert!(!keeps_rule(&cells, set.text.len(), set.image.len()));
    cells[method + 4] = 121;
    assert!(keeps_rule(&cells, set.text.len(), set.image.len()));
    // A minus before a zero limit is zero.
    let mut cells = set.cells.clone();
    cells[group(0, 14)] = 1;
    cells[group(0, 15)] = 0;
    assert!(keeps_rule(&cells, set.text.len(), set.image.len()));
    // Cells past full capacity are not looked at, a shorter slice is 20.
    cells.push(77);
    assert_eq!(check(&cells, set.text.len(), set.image.len(), BASE, Some(16)), None);
    cells.truncate(CELLS - 1);
    assert_eq!(check(&cells, set.text.len(), set.image.len(), BASE, Some(16)), Some(20));
    assert!(!keeps_rule(&cells, set.text.len(), set.image.len()));
}

/// Every kind of object and of conversion. Objects: 0 AXIS_PTS, 1 VALUE, 2 VAL_BLK, 3 MEASUREMENT,
/// 4 CURVE with its own axis, 5 CURVE and 6 MAP over the AXIS_PTS, 7 MAP with its own axes.
fn kinds() -> Set {
    let body = "/begin COMPU_METHOD I \"\" IDENTICAL \"\" \"\" /end COMPU_METHOD
        /begin COMPU_METHOD L \"\" LINEAR \"\" \"\" COEFFS_LINEAR 0.25 -40 /end COMPU_METHOD
        /begin RECORD_LAYOUT V FNC_VALUES 1 UBYTE ROW_DIR DIRECT /end RECORD_LAYOUT
        /begin RECORD_LAYOUT X AXIS_PTS_X 1 UBYTE INDEX_INCR DIRECT /end RECORD_LAYOUT
        /begin RECORD_LAYOUT XV AXIS_PTS_X 1 UBYTE INDEX_INCR DIRECT FNC_VALUES 2 UBYTE ROW_DIR DIRECT
        /end RECORD_LAYOUT
        /begin RECORD_LAYOUT XYV AXIS_PTS_X 1 UBYTE INDEX_INCR DIRECT AXIS_PTS_Y 2 UBYTE INDEX_INCR DIRECT
          FNC_VALUES 3 UBYTE ROW_DIR DIRECT /end RECORD_LAYOUT
        /begin AXIS_PTS A \"\" 0x1000 NO_INPUT_QUANTITY X 0 I 2 0 10 /end AXIS_PTS
        /begin CHARACTERISTIC O1 \"\" VALUE 0x1000 V 0 L 0 10 /end CHARACTERISTIC
        /begin CHARACTERISTIC O2 \"\" VAL_BLK 0x1000 V 0 I 0 10 NUMBER 3 /end CHARACTERISTIC
        /begin MEASUREMENT O3 \"\" UBYTE L 0 0 0 10 ECU_ADDRESS 0x1003 /end MEASUREMENT
        /begin CHARACTERISTIC O4 \"\" CURVE 0x1000 XV 0 L 0 10
          /begin AXIS_DESCR STD_AXIS NO_INPUT_QUANTITY I 2 0 10 /end AXIS_DESCR /end CHARACTERISTIC
        /begin CHARACTERISTIC O5 \"\" CURVE 0x1000 V 0 I 0 10
          /begin AXIS_DESCR COM_AXIS NO_INPUT_QUANTITY I 2 0 10 AXIS_PTS_REF A /end AXIS_DESCR /end CHARACTERISTIC
        /begin CHARACTERISTIC O6 \"\" MAP 0x1000 V 0 I 0 10
          /begin AXIS_DESCR COM_AXIS NO_INPUT_QUANTITY I 2 0 10 AXIS_PTS_REF A /end AXIS_DESCR
          /begin AXIS_DESCR COM_AXIS NO_INPUT_QUANTITY I 2 0 10 AXIS_PTS_REF A /end AXIS_DESCR /end CHARACTERISTIC
        /begin CHARACTERISTIC O7 \"\" MAP 0x1000 XYV 0 I 0 10
          /begin AXIS_DESCR STD_AXIS NO_INPUT_QUANTITY I 2 0 10 /end AXIS_DESCR
          /begin AXIS_DESCR STD_AXIS NO_INPUT_QUANTITY I 2 0 10 /end AXIS_DESCR /end CHARACTERISTIC";
    Set::new(body, &ZEROS)
}

/// The parts of an object in tests of the rule: x, y, values.
const X: usize = 0;
const Y: usize = 1;
const V: usize = 2;

impl Set {
    /// Tells whether the tables as they are keep the rule.
    fn keeps(&self) -> bool {
        keeps_rule(&self.cells, self.text.len(), self.image.len())
    }

    /// The 19 cells of an object's part.
    fn part(&mut self, object: usize, part: usize) -> &mut [u64] {
        &mut self.cells[GROUPS + 1 + 19 * (3 * object + part)..][..19]
    }

    /// Takes a part away, its elements too.
    fn without(mut self, object: usize, part: usize) -> Set {
        let cells = self.part(object, part);
        let elements = cells[3] * cells[4];
        assert!(elements > 0, "a part that is there");
        cells.fill(0);
        self.cells[3] -= elements;
        self
    }

    /// Gives a part so many points, the element total with it; a part that is not there becomes one of bytes.
    fn with_points(mut self, object: usize, part: usize, x: u64, y: u64) -> Set {
        let cells = self.part(object, part);
        let elements = cells[3] * cells[4];
        if cells[0] == 0 {
            cells[0] = 1;
        }
        cells[3..7].copy_from_slice(&[x, y, x, y]);
        self.cells[3] = self.cells[3] - elements + x * y;
        self
    }

    /// Puts another value into a cell of a part.
    fn with_cell(mut self, object: usize, part: usize, cell: usize, value: u64) -> Set {
        self.part(object, part)[cell] = value;
        self
    }

    /// Puts other signs and sizes into a method (0 is IDENTICAL, 1 LINEAR).
    fn with_factors(mut self, method: usize, factors: [u64; 8]) -> Set {
        self.cells[METHODS + 1 + 10 * method + 1..][..8].copy_from_slice(&factors);
        self
    }
}

#[test]
fn an_identical_method_is_one_zero_zero_one() {
    assert_eq!(kinds().cells[METHODS + 1..METHODS + 10], [19, 0, 1, 0, 0, 0, 0, 0, 1]);
    // A minus before a size of 0 is still 0.
    assert!(kinds().with_factors(0, [0, 1, 1, 0, 1, 0, 0, 1]).keeps());
    let breaks = [
        [0, 2, 0, 0, 0, 0, 0, 1],
        [0, 2, 0, 0, 0, 0, 0, 2],
        [0, 10, 0, 0, 0, 0, 0, 1],
        [1, 1, 0, 0, 0, 0, 0, 1],
        [1, 1, 0, 0, 0, 0, 1, 1],
        [0, 1, 0, 1, 0, 0, 0, 1],
        [0, 1, 1, 1, 0, 0, 0, 1],
        [0, 1, 0, 0, 0, 1, 0, 1],
        [0, 1, 0, 0, 1, 1, 0, 1],
        [0, 1, 0, 0, 0, 0, 0, 2],
        [0, 1, 0, 0, 0, 0, 1, 1],
        [0, 1, 2, 0, 0, 0, 0, 1],
    ];
    for factors in breaks {
        assert!(!kinds().with_factors(0, factors).keeps(), "{factors:?}");
    }
}

#[test]
fn a_linear_method_has_a_power_of_ten_and_no_e() {
    assert_eq!(kinds().cells[METHODS + 11..METHODS + 20], [20, 0, 100, 0, 4000, 0, 0, 0, 25]);
    for power in 0..=6 {
        assert!(kinds().with_factors(1, [0, 10u64.pow(power), 0, 4000, 0, 0, 0, 25]).keeps(), "10^{power}");
    }
    let holds = [
        // A minus before an e of 0, another c, another f, minus one of each.
        [0, 100, 0, 4000, 1, 0, 0, 25],
        [0, 100, 0, 0, 0, 0, 0, 25],
        [0, 100, 1, 1_000_000_000, 0, 0, 0, 25],
        [0, 100, 0, 4000, 0, 0, 1, 1_000_000_000],
        [0, 1, 0, 0, 0, 0, 0, 1],
    ];
    for factors in holds {
        assert!(kinds().with_factors(1, factors).keeps(), "{factors:?}");
    }
    let breaks = [
        [0, 0, 0, 4000, 0, 0, 0, 25],
        [0, 2, 0, 4000, 0, 0, 0, 25],
        [0, 99, 0, 4000, 0, 0, 0, 25],
        [0, 101, 0, 4000, 0, 0, 0, 25],
        [0, 200, 0, 4000, 0, 0, 0, 25],
        [0, 10_000_000, 0, 4000, 0, 0, 0, 25],
        [0, 1_000_000_000, 0, 4000, 0, 0, 0, 25],
        [1, 100, 0, 4000, 0, 0, 0, 25],
        [0, 100, 0, 4000, 0, 1, 0, 25],
        [0, 100, 0, 4000, 1, 1, 0, 25],
        [0, 100, 0, 4000, 2, 0, 0, 25],
        [0, 100, 0, 4000, 0, 0, 0, 0],
    ];
    for factors in breaks {
        assert!(!kinds().with_factors(1, factors).keeps(), "{factors:?}");
    }
    // RAT_FUNC has any four numbers.
    let mut set = kinds().with_factors(1, [0, 99, 0, 4000, 0, 1, 0, 25]);
    set.cells[METHODS + 11] = 21;
    assert!(set.keeps());
}

#[test]
fn a_kind_has_its_parts_and_no_others() {
    assert!(kinds().keeps());
    // A part added where the kind has none.
    for (object, part) in [(0, Y), (0, V), (1, X), (1, Y), (2, X), (2, Y), (3, X), (3, Y), (4, Y), (5, Y)] {
        let set = kinds().with_points(object, part, 1, 1);
        assert!(!set.keeps(), "object {object} part {part} added");
        assert!(!set.with_cell(object, part, 10, 1).keeps(), "object {object} part {part} added, marked");
    }
    // One that the kind may have: an axis of a CURVE or a MAP that was a shared one.
    for (object, part) in [(5, X), (6, X), (6, Y)] {
        assert!(kinds().with_points(object, part, 1, 1).keeps(), "object {object} part {part} added");
    }
    assert!(kinds().with_points(6, X, 1, 1).with_points(6, Y, 2, 1).keeps());
    // A part taken away that the kind needs, and one that it does not.
    for (object, part) in [(0, X), (1, V), (2, V), (3, V), (4, V), (5, V), (6, V), (7, V)] {
        assert!(!kinds().without(object, part).keeps(), "object {object} part {part} taken away");
    }
    for (object, part) in [(4, X), (7, X), (7, Y)] {
        assert!(kinds().without(object, part).keeps(), "object {object} part {part} taken away");
    }
    assert!(kinds().without(7, X).without(7, Y).keeps());
    // Instead of x the values, instead of the values x.
    assert!(!kinds().without(0, X).with_points(0, V, 2, 1).keeps());
    assert!(!kinds().without(1, V).with_points(1, X, 1, 1).keeps());
}

#[test]
fn a_kind_has_its_number_of_elements() {
    // VALUE and MEASUREMENT one element, VAL_BLK and CURVE one row, a MAP and an axis as many as there are.
    for (object, part, x, y, keeps) in [
        (1, V, 1, 1, true),
        (1, V, 2, 1, false),
        (1, V, 1, 2, false),
        (3, V, 1, 1, true),
        (3, V, 2, 1, false),
        (3, V, 1, 2, false),
        (2, V, 1, 1, true),
        (2, V, 4, 1, true),
        (2, V, 3, 2, false),
        (2, V, 1, 3, false),
        (4, V, 3, 1, true),
        (4, V, 2, 2, false),
        (5, V, 3, 1, true),
        (5, V, 1, 2, false),
        (6, V, 3, 2, true),
        (6, V, 1, 5, true),
        (7, V, 3, 1, true),
        (0, X, 3, 1, true),
        (0, X, 1, 2, false),
        (7, Y, 3, 1, true),
        (7, Y, 1, 3, false),
    ] {
        assert_eq!(kinds().with_points(object, part, x, y).keeps(), keeps, "object {object} part {part} {x} by {y}");
    }
    // At least one point in x and in y.
    for (object, part) in [(0, X), (1, V), (2, V), (3, V), (4, X), (4, V), (5, V), (6, V), (7, X), (7, Y), (7, V)] {
        for (x, y) in [(0, 1), (1, 0), (0, 0)] {
            assert!(!kinds().with_points(object, part, x, y).keeps(), "object {object} part {part} {x} by {y}");
        }
        assert!(kinds().with_points(object, part, 1, 1).keeps(), "object {object} part {part} 1 by 1");
    }
}

#[test]
fn a_measurement_is_marked() {
    for (mark, keeps) in [(0, false), (1, true), (2, false), (u64::MAX, false)] {
        assert_eq!(kinds().with_cell(3, V, 10, mark).keeps(), keeps, "mark {mark}");
    }
    // The others are marked or not.
    for (object, part) in [(0, X), (1, V), (2, V), (4, X), (4, V), (5, V), (6, V), (7, X), (7, Y), (7, V)] {
        for mark in [0, 1] {
            assert!(kinds().with_cell(object, part, 10, mark).keeps(), "object {object} part {part} mark {mark}");
        }
    }
    // A MEASUREMENT's record under another kind, and the other way round.
    for (object, kind, keeps) in
        [(3, 15, true), (3, 16, true), (3, 17, true), (3, 18, true), (3, 7, false), (1, 10, false), (1, 16, true)]
    {
        let mut set = kinds();
        set.cells[OBJECTS + 1 + 3 * object + 2] = kind;
        assert_eq!(set.keeps(), keeps, "object {object} kind {kind}");
    }
}

#[test]
fn lists_touch_only_their_lines() {
    let set = rich();
    let stale = Line { raw: 1, state: 7, first: 2, second: 3 };
    let mut lines = vec![stale; 20];
    make_list(&set.text, &set.image, BASE, &set.cells, &mut lines).unwrap();
    assert_eq!(lines[..16], set.lines[..]);
    assert_eq!(lines[16..], [stale; 4]);
    let mut short = vec![stale; 15];
    assert_eq!(make_list(&set.text, &set.image, BASE, &set.cells, &mut short), Err(20));
    assert_eq!(short, [stale; 15]);
    let mut at = 0;
    for (object, part, count) in [(0, 0, 3), (0, 1, 2), (0, 2, 6), (1, 0, 3), (2, 2, 1), (3, 2, 1)] {
        for index in 0..count {
            assert_eq!(set.read(object, part, index).unwrap().0, set.lines[at]);
            at += 1;
        }
        assert_eq!(set.read(object, part, count).err(), Some(14));
    }
}

#[test]
fn write_order() {
    let mut set = rich();
    assert_eq!(set.raw(0, 1, 0, 99999), Err(21));
    assert_eq!(set.physical(0, 1, 0, "x"), Err(21));
    assert_eq!(set.raw(3, 2, 0, 99999), Err(21));
    assert_eq!(set.physical(2, 2, 0, "1"), Err(15));
    assert_eq!(set.physical(0, 2, 0, "1e+"), Err(15));
    assert_eq!(set.physical(0, 2, 0, "101"), Err(16));
    // e·P + f = 5P + 30: no raw value at -6.
    assert_eq!(set.physical(0, 2, 0, "-6"), Err(17));
    assert_eq!(set.physical(0, 2, 0, "-5.999"), Err(18));
    // INT = (20·P - 10)/(5·P + 30): P = 10 gives 190/80 = 2.375.
    set.physical(0, 2, 4, "10").unwrap();
    assert_eq!(set.lines[5 + 4].raw, 2);
    assert_eq!((set.lines[9].first, set.lines[9].second), (30 * 2 + 10, 20 - 5 * 2));
    // COLUMN_DIR: index 4 is x 1, y 1, stored as number 1·2 + 1.
    assert_eq!(set.image[10 + 6], 0x20 | (((16 * 37 + 11) as u8) & 0x0F));
}

/// A small sequence of random numbers.
struct Random(u64);

impl Random {
    /// The next number below a bound.
    fn below(&mut self, bound: usize) -> usize {
        self.0 = self.0.wrapping_mul(6364136223846793005).wrapping_add(1442695040888963407);
        ((self.0 >> 33) as usize) % bound
    }
}

#[test]
fn shaken_texts_never_break_the_rule() {
    let set = rich();
    let mut random = Random(1);
    let pieces: Vec<&[u8]> = vec![
        b" ",
        b"\"",
        b"/begin ",
        b"/end ",
        b"0",
        b"-1",
        b"1.5",
        b"UNIT",
        b"UBYTE",
        b"/*",
        b"*/",
        b"//",
        b"\n",
        b"\x80",
        b"_",
        b"READ_ONLY ",
    ];
    let (mut accepted, mut refused) = (0, [0; 64]);
    for _ in 0..4000 {
        let mut text = set.text.clone();
        for _ in 0..1 + random.below(2) {
            let at = random.below(text.len());
            match random.below(4) {
                0 => {
                    text.remove(at);
                }
                1 => text[at] = b"0123456789ABCXYZ_ \"/."[random.below(21)],
                2 => text.truncate(if random.below(10) == 0 { at } else { text.len() }),
                _ => {
                    let piece = pieces[random.below(pieces.len())];
                    text.splice(at..at, piece.iter().copied());
                }
            }
        }
        match load(&text, &set.image, BASE, 1) {
            Ok(cells) => {
                accepted += 1;
                assert!(keeps_rule(&cells, text.len(), set.image.len()));
                let mut lines = vec![Line::default(); cells[3] as usize];
                make_list(&text, &set.image, BASE, &cells, &mut lines).unwrap();
                listing(&text, &set.image, BASE, &cells, &lines).unwrap();
            }
            Err(refusal) => {
                assert!(refusal.place <= text.len());
                refused[refusal.number as usize] += 1;
            }
        }
    }
    assert!(accepted > 100);
    for number in [1, 2, 3, 4, 5, 7] {
        assert!(refused[number] > 0, "{number}");
    }
}

#[test]
fn shaken_tables_never_panic() {
    let set = rich();
    let mut random = Random(2);
    let values = [0, 1, 2, 3, 4, 5, 10, 16, 63, 64, 255, 256, 4096, 65535, 1 << 32, 1 << 53, u64::MAX];
    let mut kept = 0;
    for _ in 0..4000 {
        let mut cells = set.cells.clone();
        for _ in 0..1 + random.below(3) {
            let (from, width) =
                [(0, 4), (OBJECTS, 13), (GROUPS, 229), (METHODS, 21), (TABLES, 9), (ENTRIES, 13)][random.below(6)];
            cells[from + random.below(width)] = values[random.below(values.len())];
        }
        let mut image = set.image.clone();
        let mut lines = set.lines.clone();
        if !keeps_rule(&cells, set.text.len(), image.len()) {
            assert!(matches!(make_list(&set.text, &image, BASE, &cells, &mut lines), Err(20 | 22)));
            continue;
        }
        kept += 1;
        lines.resize(cells[3] as usize, Line::default());
        make_list(&set.text, &image, BASE, &cells, &mut lines).unwrap();
        listing(&set.text, &image, BASE, &cells, &lines).unwrap();
        for object in 0..4 {
            for part in 0..3 {
                let _ = read(&set.text, &image, BASE, &cells, object, part, 0);
                let _ = write_physical(&set.text, &mut image, BASE, &cells, &mut lines, object, part, 0, b"2.5");
                let _ = write_raw(&set.text, &mut image, BASE, &cells, &mut lines, object, part, 1, 3);
            }
        }
        let mut fresh = lines.clone();
        make_list(&set.text, &image, BASE, &cells, &mut fresh).unwrap();
        assert_eq!(fresh, lines);
    }
    assert!(kept > 300);
}
