//! Points that the documents leave open and this reader decides for itself,
//! each pinned so that a comparison shows where another reader decides otherwise.
mod common;
use common::*;
use plain::*;

#[test]
fn tags_of_inner_skipped_blocks_are_no_begin_or_end() {
    // The tag is any item but `/end` and `/begin` themselves, inside skipped blocks as outside.
    accepted_in("/begin IF_DATA /begin 5x; x /end 5x; /end IF_DATA");
    refused_in(5, "/begin IF_DATA /begin ^/end x /end /end /end IF_DATA");
    refused_in(5, "/begin IF_DATA /begin ^/begin x /end /begin /end IF_DATA");
    refused_in(5, "/begin ^/end");
}

#[test]
fn byte_order_as_a_block_in_axis_descr() {
    // 5 (a plain word after /begin) and 9 stand at one place: the lower number.
    refused_in(
        5,
        "/begin CHARACTERISTIC A \"\" CURVE 0 L 0 C 0 0 /begin AXIS_DESCR STD_AXIS Q C 1 0 0 /begin ^BYTE_ORDER",
    );
}

#[test]
fn signed_runs_where_no_number_is_wanted() {
    // No parameter in scope is a signed whole number, so only the decimal form has a sign.
    refused_in(2, "^-12345678901");
    refused_in(5, "^-1234567890");
    refused_in(5, &format!("^{}", "9".repeat(300)));
}

#[test]
fn words_for_nothing_are_not_listed() {
    refused_in(4, "^NO_COMPU_METHOD");
    refused_in(4, "^NO_INPUT_QUANTITY");
    refused_in(4, "/begin COMPU_METHOD C \"\" ^NO_COMPU_METHOD");
}

#[test]
fn a_number_after_end() {
    // 3 (doesn't match) and 5 (wrong kind) stand at one place: the lower number.
    refused_in(3, "/begin MOD_COMMON \"\" /end ^5");
    refused_in(3, "/begin MOD_COMMON \"\" /end ^12345678901");
    refused_in(3, "/begin MOD_COMMON \"\" /end ^/end");
}

#[test]
fn minus_zero_has_sign_cell_zero() {
    let groups = 4 + 1537 + 1;
    let body = "/begin MEASUREMENT A \"\" UBYTE NO_COMPU_METHOD 0 0 -0.00 -0 ECU_ADDRESS 0x1000 /end MEASUREMENT";
    let cells = accepted_in(body);
    assert_eq!(cells[groups + 38 + 11..groups + 38 + 17], [0; 6]);
    let cells = accepted_in(&method("RAT_FUNC", "COEFFS 0 1 -0 0 -0.0 1"));
    let methods = groups - 1 + 29185 + 1;
    assert_eq!(cells[methods..methods + 10], [21, 0, 1, 0, 0, 0, 0, 0, 1, 0]);
    // An entry written -0 is found by raw 0.
    let body = method("TAB_VERB", "COMPU_TAB_REF T")
        + "/begin COMPU_VTAB T \"\" TAB_VERB 1 -0 \"zero\" /end COMPU_VTAB "
        + &value("UBYTE", "C", "0 1", "");
    let set = Set::new(&body, &[0]);
    assert_eq!(set.rows(), ["V v 0 0 \"zero\""]);
    assert_eq!(set.cells[methods + 1280 + 513 + 1], 0);
}

#[test]
fn an_empty_verbal_table_starts_where_it_stands() {
    let body = "/begin COMPU_VTAB A \"\" TAB_VERB 1 1 \"\" /end COMPU_VTAB /begin COMPU_VTAB B \"\" TAB_VERB 0 /end COMPU_VTAB";
    let cells = accepted_in(body);
    let tables = 4 + 1537 + 29185 + 1281 + 1;
    assert_eq!(cells[tables + 4..tables + 8], [1, 0, 0, 0]);
}

#[test]
fn foreign_lines_are_printed_without_looking_at_the_image() {
    let mut set = Set::new(&measurement("A", "UBYTE", 0x1000), &[5]);
    set.lines[0] = Line { raw: -3, state: 1, first: -1, second: 0 };
    assert_eq!(set.rows(), ["A v 0 -3 -1/0"]);
    // Any other state is none; a text is what the description has between the sizes of the two numbers.
    for (line, row) in [
        (Line { raw: 9, state: 3, first: 1, second: 2 }, "A v 0 9 -"),
        (Line { raw: 9, state: 2, first: -1, second: 2 }, "A v 0 9 b"),
        (Line { raw: 9, state: 2, first: 2, second: 1 }, "A v 0 9 "),
        (Line { raw: 9, state: 2, first: i64::MAX, second: i64::MAX }, "A v 0 9 "),
    ] {
        set.lines[0] = line;
        assert_eq!(set.rows(), [row]);
    }
}

#[test]
fn lent_tables_with_doubles_answer_by_the_first() {
    let body = measurement("AA", "UBYTE", 0x1000) + &measurement("BB", "UBYTE", 0x1000);
    let mut set = Set::new(&body, &[5]);
    let (from, past) = (set.cells[5], set.cells[6]);
    set.cells[8] = from;
    set.cells[9] = past;
    assert_eq!(find(&set.text, &set.image, BASE, &set.cells, b"AA"), Ok(Some(0)));
    assert_eq!(find(&set.text, &set.image, BASE, &set.cells, b"BB"), Ok(None));
    let body = method("TAB_VERB", "COMPU_TAB_REF T")
        + "/begin COMPU_VTAB T \"\" TAB_VERB 2 1 \"a\" 2 \"b\" /end COMPU_VTAB "
        + &value("UBYTE", "C", "0 1", "");
    let mut set = Set::new(&body, &[1]);
    let entries = 4 + 1537 + 29185 + 1281 + 513 + 1;
    set.cells[entries + 5] = 1;
    set.lines = set.fresh();
    assert_eq!(set.rows(), ["V v 0 1 \"a\""]);
    // A default of empty places that are not 0, 0 is a text; 0, 0 is none.
    let tables = entries - 1 - 513 + 1;
    set.cells[tables + 1] = 0;
    set.lines = set.fresh();
    assert_eq!(set.rows(), ["V v 0 1 -"]);
    set.cells[tables + 2] = 3;
    set.cells[tables + 3] = 3;
    assert_eq!(set.read(0, 2, 0).unwrap().1, Shown::Words(3, 3));
}

#[test]
fn rounding_agrees_with_trying_every_raw_value() {
    // For small coefficients and asked values, the stored raw is a nearest one, halves away from zero.
    for (b, c, e, f) in [(3, 1, 0, 7), (-3, 5, 0, 2), (5, 1, 2, 3), (0, 60, 1, 0), (4, -9, -3, 11)] {
        let body = method("RAT_FUNC", &format!("COEFFS 0 {b} {c} 0 {e} {f}")) + &value("SWORD", "C", "-100 100", "");
        let mut set = Set::new(&body, &[0, 0]);
        for tenths in -300i64..=300 {
            let asked = format!("{}{}.{}", if tenths < 0 { "-" } else { "" }, tenths.abs() / 10, tenths.abs() % 10);
            let (mut top, mut under) = (b * tenths + c * 10, e * tenths + f * 10);
            if under < 0 {
                (top, under) = (-top, -under);
            }
            let answer = set.physical(0, 2, 0, &asked);
            if under == 0 {
                assert_eq!(answer, Err(17));
                continue;
            }
            assert_eq!(answer, Ok(()));
            let raw = set.lines[0].raw;
            let off = 2 * (raw * under - top);
            assert!(off.abs() <= under);
            assert!(off.abs() < under || raw.abs() * under > top.abs());
        }
    }
}
