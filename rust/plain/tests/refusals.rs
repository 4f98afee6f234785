//! Every refusal number of the load, with its place, on a small description each.
mod common;
use common::*;
use plain::*;

#[test]
fn number_1_tokens() {
    for text in [
        "^;",
        "^\u{1}",
        "^/BEGIN PROJECT",
        "^/beginPROJECT P",
        "/begin ^PROJECT- P",
        "^/include \"x\"",
        "^/",
        "^/foo",
        "^/* open",
        "^/*/",
        "ASAP2_VERSION 1 61 ^\"open",
        "/begin PROJECT P ^\"a\\\\\"",
        "/begin PROJECT P ^\"a\"\"",
        "/begin PROJECT P \"\" /begin IF_DATA ^\"open",
        "/begin PROJECT P \"\" /begin IF_DATA ^a\u{7f}b /end IF_DATA",
        "/begin PROJECT P \"\" /begin A2ML ^{\u{1}} /end A2ML",
        "/begin PROJECT P \"\" /begin A2ML x ^/* open",
    ] {
        refused(1, text);
    }
    refused(1, module("") + " ^/* open");
    refused(1, module("") + " ^;");
    refused(1, format!("/begin PROJECT ^{} \"\"", "N".repeat(129)));
    accepted(format!("/begin PROJECT {} \"\" /begin MODULE M \"\" /end MODULE /end PROJECT", "N".repeat(128)));
}

#[test]
fn number_2_numbers() {
    for text in [
        "ASAP2_VERSION ^65536 0",
        "ASAP2_VERSION 1 ^-0",
        "ASAP2_VERSION 1 ^+5",
        "ASAP2_VERSION 1 ^1.0",
        "ASAP2_VERSION 1 ^0X1F",
        "ASAP2_VERSION 1 ^0x",
        "ASAP2_VERSION 1 ^0x10000",
        "ASAP2_VERSION 1 ^0x000000001",
        "ASAP2_VERSION 1 ^5/begin",
        "ASAP2_VERSION 1 ^0x1G",
        "^2D_table",
        "/begin PROJECT ^5x",
        "/begin ^5x",
    ] {
        refused(2, text);
    }
    refused(2, module("") + " ^5x");
    refused(2, "/begin PROJECT P \"\" /begin MODULE M \"\" /end ^5x");
    let head = "/begin MEASUREMENT A \"\" UBYTE NO_COMPU_METHOD 0 ";
    for limits in [
        "^.5 0 0",
        "^5. 0 0",
        "^1e10 0 0",
        "^- 0 0",
        "^+ 0 0",
        "^0x10 0 0",
        "0 ^12345678901 0",
        "0 0 ^0.1234567",
        "0 0 ^00000000000",
        "0 0 ^1.2.3",
        "0 0 ^--1",
        "0 0 ^1,5",
    ] {
        refused_in(2, &format!("{head}{limits}"));
    }
    refused_in(2, &format!("{head} 0 0 0 ECU_ADDRESS ^4294967296"));
    refused_in(2, &format!("{head} 0 0 0 BIT_MASK ^18446744073709551616"));
    refused_in(2, &format!("{head} 0 0 0 BIT_MASK ^0x100000000"));
    refused_in(2, "/begin AXIS_PTS A \"\" 0 NO_INPUT_QUANTITY L 0 NO_COMPU_METHOD ^0");
    refused_in(2, "/begin AXIS_PTS A \"\" 0 NO_INPUT_QUANTITY L 0 NO_COMPU_METHOD ^65536");
    refused_in(2, "/begin CHARACTERISTIC A \"\" VAL_BLK 0 L 0 NO_COMPU_METHOD 0 0 NUMBER ^0");
    refused_in(2, "/begin CHARACTERISTIC A \"\" VAL_BLK 0 L 0 NO_COMPU_METHOD 0 0 NUMBER ^65536");
    refused_in(2, "/begin MOD_COMMON \"\" ALIGNMENT_WORD ^3");
    refused_in(2, "/begin RECORD_LAYOUT L ALIGNMENT_LONG ^0");
    refused_in(2, "/begin COMPU_VTAB T \"\" TAB_VERB 1 ^0.5 \"\"");
}

#[test]
fn number_3_structure() {
    for text in [
        "^",
        "  // nothing\n ^",
        "ASAP2_VERSION^",
        "ASAP2_VERSION 1^",
        "^/end PROJECT",
        "/begin^",
        "/begin PROJECT^",
        "/begin PROJECT P^",
        "/begin PROJECT P \"\" ^",
        "/begin PROJECT P \"\" /begin MODULE M \"\" /end^",
        "/begin PROJECT P \"\" /begin MODULE M \"\" /end ^PROJECT",
        "/begin PROJECT P \"\" /begin MODULE M \"\" /end ^\"MODULE\"",
        "/begin PROJECT P \"\" /begin MODULE M \"\" /end ^/begin",
        "/begin PROJECT P \"\" /begin MODULE M \"\" /end ^5",
        "/begin PROJECT P \"\" /begin IF_DATA /end ^IF_DATA; ",
        "/begin PROJECT P \"\" /begin IF_DATA /end ^\"IF_DATA\" ",
        "/begin PROJECT P \"\" /begin IF_DATA x ^",
        "/begin PROJECT P \"\" /begin A2ML };/end A2ML /end A2ML; ^",
    ] {
        refused(3, text);
    }
    for after in ["^x", "^5", "^\"s\"", "^/begin PROJECT", "^/end"] {
        refused(3, module("") + " " + after);
    }
    let deep = |blocks: usize| {
        let begins: String = (0..blocks).map(|number| format!("/begin B{number} ")).collect();
        let ends: String = (0..blocks).rev().map(|number| format!("/end B{number} ")).collect();
        (begins, ends)
    };
    // IF_DATA in MODULE is the third block, so thirteen more fit.
    let (begins, ends) = deep(13);
    accepted_in(&format!("/begin IF_DATA {begins} {ends} /end IF_DATA"));
    refused_in(3, &format!("/begin IF_DATA {begins} ^/begin X /end X {ends} /end IF_DATA"));
    refused_in(3, &format!("/begin IF_DATA {begins} ^/begin"));
}

#[test]
fn numbers_4_and_9_words() {
    for (number, text) in [
        (4, "^FOO"),
        (4, "/begin ^FOO"),
        (4, "^project"),
        (9, "^UNIT"),
        (9, "/begin ^UNIT"),
        (4, "/begin PROJECT P \"\" ^FOO"),
        (9, "/begin PROJECT P \"\" /begin ^VARIANT_CODING"),
        (9, "/begin PROJECT P \"\" ^PROJECT_NO"),
    ] {
        refused(number, text);
    }
    for (number, body) in [
        (9, "/begin ^COMPU_TAB"),
        (4, "/begin ^COMPU_TABS"),
        (9, "/begin MOD_COMMON \"\" ^DEPOSIT ABSOLUTE"),
        (9, "/begin MOD_COMMON \"\" ^ALIGNMENT_FLOAT32_IEEE 4"),
        (9, "/begin MOD_COMMON \"\" BYTE_ORDER ^BIG_ENDIAN"),
        (9, "/begin MOD_COMMON \"\" BYTE_ORDER ^BYTE"),
        (4, "/begin MOD_COMMON \"\" BYTE_ORDER ^MSB_MIDDLE"),
        (9, "/begin COMPU_METHOD C \"\" ^FORM"),
        (4, "/begin COMPU_METHOD C \"\" ^IDENT"),
        (9, "/begin COMPU_METHOD C \"\" RAT_FUNC \"\" \"\" COEFFS ^1 1 0 0 0 1"),
        (9, "/begin COMPU_METHOD C \"\" RAT_FUNC \"\" \"\" COEFFS -0 1 0 ^0.01 0 1"),
        (9, "/begin COMPU_METHOD C \"\" IDENTICAL \"\" \"\" /begin ^FORMULA"),
        (9, "/begin COMPU_VTAB T \"\" ^TAB_INTP"),
        (9, "/begin RECORD_LAYOUT L ^STATIC_RECORD_LAYOUT"),
        (9, "/begin RECORD_LAYOUT L ^FIX_NO_AXIS_PTS_X 5"),
        (9, "/begin RECORD_LAYOUT L FNC_VALUES 1 ^FLOAT32_IEEE"),
        (4, "/begin RECORD_LAYOUT L FNC_VALUES 1 ^FLOAT16_IEEE"),
        (9, "/begin RECORD_LAYOUT L FNC_VALUES 1 UBYTE ^ALTERNATE_CURVES"),
        (9, "/begin RECORD_LAYOUT L FNC_VALUES 1 UBYTE ROW_DIR ^PBYTE"),
        (9, "/begin CHARACTERISTIC A \"\" ^ASCII"),
        (9, "/begin CHARACTERISTIC A \"\" ^CUBOID"),
        (9, "/begin MEASUREMENT A \"\" ^A_UINT64"),
        (9, "/begin MEASUREMENT A \"\" UBYTE C 0 0 0 0 /begin ^BIT_OPERATION"),
        (9, "/begin CHARACTERISTIC A \"\" CURVE 0 L 0 C 0 0 /begin AXIS_DESCR ^FIX_AXIS"),
        (9, "/begin CHARACTERISTIC A \"\" CURVE 0 L 0 C 0 0 /begin AXIS_DESCR STD_AXIS Q C 1 0 0 ^BYTE_ORDER MSB_LAST"),
        (9, "/begin CHARACTERISTIC A \"\" CURVE 0 L 0 C 0 0 /begin AXIS_DESCR STD_AXIS Q C 1 0 0 ^MONOTONY"),
    ] {
        refused_in(number, body);
    }
}

#[test]
fn number_5_parameters_and_keywords() {
    for text in [
        "^IF_DATA",
        "/begin ^IF_DATA /end IF_DATA",
        "/begin ^MODULE",
        "^PROJECT",
        "^5",
        "^12345678901",
        "^\"s\"",
        "/begin ^\"x\"",
        "/begin ^5",
        "/begin ^/end",
        "/begin ^/begin",
        "ASAP2_VERSION ^A",
        "ASAP2_VERSION ^\"1\" 2",
        "/begin PROJECT ^\"\"",
        "/begin PROJECT P ^Q",
        "/begin PROJECT P \"\" ^/end PROJECT",
        "/begin PROJECT P \"\" ^/end WRONG",
        "/begin PROJECT P \"\" /begin IF_DATA /begin ^\"x\"",
        "/begin PROJECT P \"\" /begin ^PROJECT",
        "/begin PROJECT P \"\" /begin ^MEASUREMENT",
    ] {
        refused(5, text);
    }
    let measurement = "/begin MEASUREMENT A \"\" UBYTE NO_COMPU_METHOD 0 0 ";
    let curve = "/begin CHARACTERISTIC A \"\" CURVE 0 L 0 C 0 0 ";
    for body in [
        format!("{measurement} 1 ^0"),
        format!("{measurement} 0 0.1 ^/end MEASUREMENT"),
        format!("{measurement} 0 0 ^READ_ONLY"),
        format!("{measurement} 0 0 ^NUMBER 5"),
        format!("{measurement} 0 0 ECU_ADDRESS ^X"),
        format!("{measurement} 0 0 FORMAT ^5"),
        format!("{measurement} 0 0 DISPLAY_IDENTIFIER ^\"D\""),
        format!("{measurement} 0 ^\"0\""),
        format!("{measurement} 0 0 /begin ^FORMAT \"\""),
        "^MEASUREMENT A".to_string(),
        "/begin ^READ_ONLY".to_string(),
        "/begin ^MODULE".to_string(),
        "/begin ^PROJECT".to_string(),
        "/begin ^AXIS_DESCR".to_string(),
        "/begin MEASUREMENT A \"\" ^ROW_DIR".to_string(),
        "/begin MEASUREMENT A \"\" ^5".to_string(),
        "/begin MEASUREMENT ^/end".to_string(),
        "/begin RECORD_LAYOUT FNC_VALUES ^1".to_string(),
        "/begin RECORD_LAYOUT L ^BYTE_ORDER MSB_LAST".to_string(),
        "/begin RECORD_LAYOUT L FNC_VALUES 1 ^ROW_DIR".to_string(),
        "/begin RECORD_LAYOUT L FNC_VALUES ^UBYTE".to_string(),
        "/begin MOD_COMMON \"\" BYTE_ORDER ^DIRECT".to_string(),
        "/begin COMPU_VTAB T \"\" ^IDENTICAL".to_string(),
        "/begin COMPU_VTAB T \"\" TAB_VERB 2 1 \"\" ^/end COMPU_VTAB".to_string(),
        "/begin COMPU_VTAB T \"\" TAB_VERB 1 1 \"\" ^2 \"\"".to_string(),
        "/begin COMPU_VTAB T \"\" TAB_VERB 1 1 ^2".to_string(),
        "/begin COMPU_METHOD C \"\" LINEAR \"\" \"\" ^COEFFS 0 1 0 0 0 1".to_string(),
        "/begin COMPU_METHOD C \"\" IDENTICAL \"\" \"\" ^COMPU_TAB_REF T".to_string(),
        "/begin COMPU_METHOD C \"\" LINEAR \"\" \"\" ^/end COMPU_METHOD".to_string(),
        "/begin COMPU_METHOD C \"\" RAT_FUNC \"\" \"\" ^/end X".to_string(),
        "/begin COMPU_METHOD C \"\" TAB_VERB \"\" \"\" ^/end COMPU_METHOD".to_string(),
        "/begin AXIS_PTS A \"\" 0 Q L 0 C 1 0 0 ^BIT_MASK 1".to_string(),
        "/begin CHARACTERISTIC A \"\" VAL_BLK 0 L 0 C 0 0 ^/end CHARACTERISTIC".to_string(),
        "/begin CHARACTERISTIC A \"\" VALUE 0 L 0 C 0 0 ^NUMBER 1".to_string(),
        "/begin CHARACTERISTIC A \"\" VALUE 0 L 0 C 0.1 ^0".to_string(),
        format!("{curve} ^NUMBER 3"),
        format!("{curve} ^/end CHARACTERISTIC"),
        format!("{curve} /begin AXIS_DESCR STD_AXIS Q C 1 0 0 ^AXIS_PTS_REF X"),
        format!("{curve} /begin AXIS_DESCR COM_AXIS Q C 1 0 0 ^/end AXIS_DESCR"),
        format!("{curve} /begin AXIS_DESCR STD_AXIS Q C 1 1 ^-1"),
        format!("{curve} /begin AXIS_DESCR STD_AXIS Q C 1 0 0 /begin ^BYTE_ORDER"),
    ] {
        refused_in(5, &body);
    }
    let map = "/begin CHARACTERISTIC A \"\" MAP 0 L 0 C 0 0 ";
    refused_in(5, &format!("{map} {} ^/end CHARACTERISTIC", std_axis(1)));
}

#[test]
fn number_6_twice() {
    let meas = measurement("A", "UBYTE", 0x1000);
    refused_in(6, &format!("{meas} {}", measurement("^A", "UBYTE", 0x1000)));
    refused_in(6, &format!("{meas} /begin CHARACTERISTIC ^A \"\" VALUE"));
    refused_in(6, &format!("{meas} /begin AXIS_PTS ^A \"\""));
    refused_in(6, &(method("IDENTICAL", "") + "/begin COMPU_METHOD ^C \"\""));
    refused_in(6, &(layout("") + "/begin RECORD_LAYOUT ^L"));
    refused_in(6, "/begin COMPU_VTAB T \"\" TAB_VERB 0 /end COMPU_VTAB /begin COMPU_VTAB ^T");
    refused_in(6, "/begin COMPU_VTAB T \"\" TAB_VERB 2 1 \"\" ^1.0 \"\"");
    refused_in(6, "/begin COMPU_VTAB T \"\" TAB_VERB 2 0 \"\" ^-0 \"\"");
    refused_in(6, "/begin COMPU_VTAB T \"\" TAB_VERB 0 DEFAULT_VALUE \"\" ^DEFAULT_VALUE \"\"");
    refused_in(6, "/begin MOD_COMMON \"\" /end MOD_COMMON /begin ^MOD_COMMON");
    refused_in(6, "/begin MOD_COMMON \"\" ALIGNMENT_BYTE 1 ^ALIGNMENT_BYTE x");
    refused_in(6, "/begin MOD_COMMON \"\" BYTE_ORDER MSB_LAST ^BYTE_ORDER");
    refused_in(6, "/begin RECORD_LAYOUT L FNC_VALUES 1 UBYTE ROW_DIR DIRECT ^FNC_VALUES");
    refused_in(6, "/begin RECORD_LAYOUT L NO_AXIS_PTS_X 1 UBYTE ^NO_AXIS_PTS_X");
    refused_in(6, "/begin COMPU_METHOD C \"\" LINEAR \"\" \"\" COEFFS_LINEAR 1 0 ^COEFFS_LINEAR");
    refused_in(6, "/begin MEASUREMENT A \"\" UBYTE C 0 0 0 0 ECU_ADDRESS 0 ^ECU_ADDRESS");
    refused_in(6, "/begin MEASUREMENT A \"\" UBYTE C 0 0 0 0 BIT_MASK 1 ^BIT_MASK");
    refused_in(6, "/begin CHARACTERISTIC A \"\" VALUE 0 L 0 C 0 0 READ_ONLY ^READ_ONLY");
    refused_in(6, "/begin CHARACTERISTIC A \"\" VAL_BLK 0 L 0 C 0 0 NUMBER 1 ^NUMBER");
    refused_in(6, "/begin CHARACTERISTIC A \"\" VALUE 0 L 0 C 0 0 /begin ^AXIS_DESCR");
    refused_in(6, "/begin CHARACTERISTIC A \"\" VAL_BLK 0 L 0 C 0 0 /begin ^AXIS_DESCR");
    let axis = std_axis(1);
    refused_in(6, &format!("/begin CHARACTERISTIC A \"\" CURVE 0 L 0 C 0 0 {axis} /begin ^AXIS_DESCR"));
    refused_in(6, &format!("/begin CHARACTERISTIC A \"\" MAP 0 L 0 C 0 0 {axis} {axis} /begin ^AXIS_DESCR"));
    refused(6, "/begin PROJECT P \"\" /begin MODULE M \"\" /end MODULE /begin ^MODULE");
}

#[test]
fn number_7_references() {
    let values = layout("FNC_VALUES 1 UBYTE ROW_DIR DIRECT");
    refused_in(7, "/begin MEASUREMENT A \"\" UBYTE ^C 0 0 0 0 ECU_ADDRESS 0x1000 /end MEASUREMENT");
    refused_in(7, "/begin CHARACTERISTIC A \"\" VALUE 0x1000 ^L 0 C 0 0 /end CHARACTERISTIC");
    refused_in(7, &format!("{values} /begin CHARACTERISTIC A \"\" VALUE 0x1000 L 0 ^C 0 0 /end CHARACTERISTIC"));
    refused_in(7, &method("TAB_VERB", "COMPU_TAB_REF ^T"));
    refused_in(7, &format!("{values} /begin AXIS_PTS A \"\" 0 ^Q L 0 C 1 0 0 /end AXIS_PTS"));
    refused_in(7, &format!("{values} {}", object("CURVE", 0, &com_axis(1, "^X"))));
    refused_in(7, &format!("{values} {} {}", object("CURVE", 0, &com_axis(1, "^X")), measurement("X", "UBYTE", 0)));
    refused_in(7, &format!("{values} /begin AXIS_PTS A \"\" 0 ^A L 0 NO_COMPU_METHOD 1 0 0 /end AXIS_PTS"));
    refused_in(7, "/begin MEASUREMENT A \"\" UBYTE ^NO_INPUT_QUANTITY 0 0 0 0 ECU_ADDRESS 0 /end MEASUREMENT");
    refused_in(
        7,
        &format!("{values} /begin AXIS_PTS A \"\" 0 ^NO_COMPU_METHOD L 0 NO_COMPU_METHOD 1 0 0 /end AXIS_PTS"),
    );
    // A later structural offence goes before an earlier reference.
    refused_in(4, "/begin MEASUREMENT A \"\" UBYTE C 0 0 0 0 ECU_ADDRESS 0 /end MEASUREMENT ^FOO");
}

#[test]
fn number_8_capacities() {
    let many = |count: usize, block: &dyn Fn(String) -> String| {
        (0..count).map(|number| block(format!("N{number}"))).collect::<String>()
    };
    let objects = |name: String| measurement(&name, "UBYTE", 0x1000);
    accepted_in(&many(512, &objects));
    refused_in(8, &(many(512, &objects) + &measurement("^X", "UBYTE", 0x1000)));
    refused_in(6, &(many(512, &objects) + &measurement("^N7", "UBYTE", 0x1000)));
    let methods = |name: String| format!("/begin COMPU_METHOD {name} \"\" IDENTICAL \"\" \"\" /end COMPU_METHOD ");
    accepted_in(&many(128, &methods));
    refused_in(8, &(many(128, &methods) + &methods("^X".to_string())));
    let tables = |name: String| format!("/begin COMPU_VTAB {name} \"\" TAB_VERB 0 /end COMPU_VTAB ");
    accepted_in(&many(128, &tables));
    refused_in(8, &(many(128, &tables) + &tables("^X".to_string())));
    let layouts = |name: String| format!("/begin RECORD_LAYOUT {name} /end RECORD_LAYOUT ");
    accepted_in(&many(64, &layouts));
    refused_in(8, &(many(64, &layouts) + &layouts("^X".to_string())));
    let pairs: String = (0..1000).map(|number| format!("{number} \"\" ")).collect();
    let full = format!("/begin COMPU_VTAB A \"\" TAB_VERB 1000 {pairs} /end COMPU_VTAB ");
    let more: String = (0..24).map(|number| format!("{number} \"\" ")).collect();
    accepted_in(&format!("{full} /begin COMPU_VTAB B \"\" TAB_VERB 24 {more} /end COMPU_VTAB"));
    let head = format!("{full} /begin COMPU_VTAB B \"\" TAB_VERB 25 {more}");
    refused_in(8, &format!("{head} ^24 \"\""));
    refused_in(6, &format!("{head} ^23 \"\""));
    refused_in(2, &format!("{head} ^24.5 \"\""));
    refused_in(5, &format!("{head} ^X \"\""));
    refused_in(8, "/begin AXIS_PTS A \"\" 0 Q L 0 C ^257 0 0");
    refused_in(8, "/begin AXIS_PTS A \"\" 0 Q L 0 C ^65535 0 0");
    refused_in(8, "/begin CHARACTERISTIC A \"\" CURVE 0 L 0 C 0 0 /begin AXIS_DESCR STD_AXIS Q C ^0x101");
    let block = |name: &str, number: u32| {
        format!("/begin CHARACTERISTIC {name} \"\" VAL_BLK 0x1000 L 0 NO_COMPU_METHOD 0 0 NUMBER {number} /end CHARACTERISTIC ")
    };
    let values = layout("FNC_VALUES 1 UBYTE ROW_DIR DIRECT");
    refused_in(8, &(values.clone() + &block("^A", 4097)));
    refused_in(12, &(values.clone() + &block("^A", 4096)));
    accepted_over(module(&(values.clone() + &block("A", 4096))), &[0; 4096]);
    refused_over(8, module(&(values + &block("A", 4096) + &measurement("^B", "UBYTE", 0x1000))), &[0; 4096]);
}

#[test]
fn number_10_conversions() {
    for rest in [
        "LINEAR \"\" \"\" COEFFS_LINEAR 0 5",
        "RAT_FUNC \"\" \"\" COEFFS 0 2 0 0 1 0",
        "RAT_FUNC \"\" \"\" COEFFS 0 0 0 0 1 1",
        "RAT_FUNC \"\" \"\" COEFFS 0 1000000001 0 0 0 1",
        "RAT_FUNC \"\" \"\" COEFFS 0 1001 0 0 0 0.000001",
        "LINEAR \"\" \"\" COEFFS_LINEAR 1001 0.000001",
        "RAT_FUNC \"\" \"\" COEFFS 0 1 2 0 2 4",
    ] {
        refused_in(10, &format!("/begin COMPU_METHOD ^C \"\" {rest} /end COMPU_METHOD"));
    }
    accepted_in(&method("RAT_FUNC", "COEFFS 0 1000000000 0 0 0 -1000000000"));
    accepted_in(&method("RAT_FUNC", "COEFFS 0 1000 0 0 0 0.000001"));
    // The first method in text order, before any layout.
    let bad =
        |name: &str| format!("/begin COMPU_METHOD {name} \"\" LINEAR \"\" \"\" COEFFS_LINEAR 0 5 /end COMPU_METHOD ");
    refused_in(10, &(measurement("A", "UBYTE", 0) + &bad("^C") + &bad("D")));
}

#[test]
fn number_11_layouts_and_masks() {
    let values = "FNC_VALUES 9 UBYTE ROW_DIR DIRECT ";
    let x = "AXIS_PTS_X 5 UBYTE INDEX_INCR DIRECT ";
    let y = "AXIS_PTS_Y 6 UBYTE INDEX_INCR DIRECT ";
    let curve = object("CURVE", 0x1000, &std_axis(1)).replace("CHARACTERISTIC O", "CHARACTERISTIC ^O");
    let map = object("MAP", 0x1000, &(std_axis(1) + &std_axis(1))).replace("CHARACTERISTIC O", "CHARACTERISTIC ^O");
    let single = object("VALUE", 0x1000, "").replace("CHARACTERISTIC O", "CHARACTERISTIC ^O");
    let axis = axis_pts("^X", 0x1000, "L", 1);
    for (parts, object) in [
        (String::new(), &single),
        (format!("{values}{x}"), &single),
        (format!("{values} NO_AXIS_PTS_X 1 UBYTE"), &single),
        (values.to_string(), &curve),
        (x.to_string(), &curve),
        (format!("{values}{x}{y}"), &curve),
        (format!("{values}{x} NO_AXIS_PTS_Y 1 UBYTE"), &curve),
        (format!("{values}{x} NO_AXIS_PTS_X 7 UBYTE"), &curve),
        (format!("{values}{x} NO_AXIS_PTS_X 5 UBYTE"), &curve),
        (format!("FNC_VALUES 5 UBYTE ROW_DIR DIRECT {x}"), &curve),
        (format!("FNC_VALUES 1 UBYTE ROW_DIR DIRECT NO_AXIS_PTS_X 2 UBYTE {x}"), &curve),
        (format!("{values}{x}"), &map),
        (format!("{values}{x}{y} NO_AXIS_PTS_Y 7 UBYTE"), &map),
        (values.to_string(), &axis),
        (format!("{values}{x}"), &axis),
        (y.to_string(), &axis),
        (format!("{x} NO_AXIS_PTS_Y 1 UBYTE"), &axis),
        (format!("{x} NO_AXIS_PTS_X 6 UBYTE"), &axis),
    ] {
        refused_in(11, &(layout(&parts) + object));
    }
    accepted_in(&layout(&format!("FNC_VALUES 5 UBYTE ROW_DIR DIRECT {x}")));
    for (data_type, mask) in [
        ("UBYTE", "0"),
        ("UBYTE", "256"),
        ("UWORD", "0x10000"),
        ("ULONG", "4294967296"),
        ("SBYTE", "1"),
        ("SLONG", "0x1"),
    ] {
        let parts = layout(&format!("FNC_VALUES 1 {data_type} ROW_DIR DIRECT"));
        let more = object("VALUE", 0x1000, &format!("BIT_MASK {mask}"));
        refused_in(11, &(parts + &more.replace("CHARACTERISTIC O", "CHARACTERISTIC ^O")));
        refused_in(
            11,
            &format!(
                "/begin MEASUREMENT ^A \"\" {data_type} NO_COMPU_METHOD 0 0 0 0 ECU_ADDRESS 0 BIT_MASK {mask} /end MEASUREMENT"
            ),
        );
    }
    // 11 goes before 12 of the same object, and an earlier object's 12 before a later one's 11.
    refused_in(11, &(layout("") + &single.replace("4096", "0")));
    refused_in(12, &(measurement("^A", "UBYTE", 0) + &layout("") + &object("VALUE", 0x1000, "")));
}

#[test]
fn numbers_12_and_13_counts() {
    let parts = layout("NO_AXIS_PTS_X 1 SBYTE AXIS_PTS_X 2 UBYTE INDEX_INCR DIRECT FNC_VALUES 3 UBYTE ROW_DIR DIRECT");
    let curve = |address| object("CURVE", address, &std_axis(3)).replace("CHARACTERISTIC O", "CHARACTERISTIC ^O");
    refused_over(13, module(&(parts.clone() + &curve(0x1000))), &[0; 9]);
    refused_over(13, module(&(parts.clone() + &curve(0x1000))), &[4, 0, 0, 0, 0, 0, 0, 0, 0]);
    refused_over(13, module(&(parts.clone() + &curve(0x1000))), &[0xFF, 0, 0, 0, 0, 0, 0, 0, 0]);
    refused_over(12, module(&(parts.clone() + &curve(0x1009))), &[0; 9]);
    refused_over(12, module(&(parts.clone() + &curve(0xFFF))), &[0; 9]);
    refused_over(12, module(&(parts.clone() + &curve(0xFFFFFFFF))), &[0; 9]);
    refused_over(12, module(&(parts.clone() + &curve(0x1000))), &[3, 0, 0, 0, 0, 0]);
    accepted_over(module(&(parts + &object("CURVE", 0x1000, &std_axis(3)))), &[3, 0, 0, 0, 0, 0, 0]);
}

#[test]
fn number_20_sizes() {
    let refusal = Some(Refusal { number: 20, place: 0 });
    assert_eq!(load(&vec![b' '; (16 << 20) + 1], &[], 0, 1).err(), refusal);
    assert_eq!(load(b"", &vec![0; (1 << 20) + 1], 0, 1).err(), refusal);
    assert_eq!(load(b"", &[0, 0], u32::MAX, 1).err(), refusal);
    assert_eq!(load(b"", &[0], u32::MAX, 1).err(), Some(Refusal { number: 3, place: 0 }));
    let full = 16 << 20;
    assert_eq!(load(&vec![b' '; full], &vec![0; 1 << 20], 0, 1).err(), Some(Refusal { number: 3, place: full }));
}
