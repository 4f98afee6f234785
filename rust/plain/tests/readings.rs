//! The readings of open points, by their numbers, each on small texts.
mod common;
use common::*;
use plain::*;

/// A MEASUREMENT up to its limits.
const MEAS: &str = "/begin MEASUREMENT A \"\" UBYTE NO_COMPU_METHOD 0 0 0 0 ";

#[test]
fn reading_01_names() {
    for text in ["^A-B", "^AB/begin", "^AB;", "^AB\u{c}", "^A/ x"] {
        refused(1, text);
    }
    refused(1, format!("^{}", "A".repeat(129)));
    refused(4, format!("^{}", "A".repeat(128)));
}

#[test]
fn reading_02_bytes() {
    refused(1, b"ASAP2_VERSION ^5\x80 1");
    refused(1, b"ASAP2_VERSION ^5x\x0c 1");
    refused(1, b"^\x80");
    refused(1, b"ASAP2_VERSION 1 2 ^\x0c");
    refused(1, b"ASAP2_VERSION 1 2 ^\x7f");
    refused(1, b"ASAP2_VERSION 1 2 ^\0");
    refused(1, b"^\xef\xbb\xbf/begin PROJECT");
}

#[test]
fn reading_03_bytes_in_skipped_blocks() {
    refused(1, b"/begin PROJECT P \"\" /begin IF_DATA ok ^a\xff");
    refused(1, b"/begin PROJECT P \"\" /begin A2ML ok ^a\x0b /end A2ML");
    let mut text = b"/begin PROJECT P \"\xff\x01\" /begin IF_DATA \"\x80\" /*\x80*/ //\x01\n /end IF_DATA ".to_vec();
    text.extend(b"/begin MODULE M \"\" /end MODULE /end PROJECT");
    accepted(text);
}

#[test]
fn reading_04_begin_and_end() {
    for text in ["^/beginPROJECT", "^/end5", "^/BEGIN", "^/include", "^/", "^/foo", "^/begin/end", "^/end;"] {
        refused(1, text);
    }
    accepted("/begin/**/PROJECT P\"\"/begin//\nMODULE M\"\"/end/**/MODULE/**//end PROJECT");
}

#[test]
fn reading_05_comments() {
    refused(3, "// a\r still ^");
    refused(4, "// a\n^X");
    refused(1, "^/*/");
    refused(1, "/begin PROJECT P \"\" /begin IF_DATA x^/* ");
    refused(1, module("") + "^/*");
    refused(1, module("") + "^\"");
    accepted(module("/**/ /***/ /* // */ // /* \n") + "// to the end");
    refused(1, module("/* /* */ ^*/"));
}

#[test]
fn reading_06_strings() {
    let long = "x".repeat(1000);
    accepted(format!(
        "/begin PROJECT P \"a\n\r\t{long}\" /begin MODULE M \"a\\\"b\"\"c\\n\\\" \" /end MODULE /end PROJECT"
    ));
    refused(1, "/begin PROJECT P ^\"a\\\\\" /begin MODULE");
    refused(1, "/begin PROJECT P ^\"a\"\"");
    refused(3, "/begin PROJECT P \"a\"\"b\"^");
    refused(3, "/begin PROJECT P \"\"\"\"^");
    refused(1, "/begin PROJECT P ^\"\"\"");
}

#[test]
fn reading_07_names_as_keywords() {
    accepted("/begin PROJECT A..[ \"\" /begin MODULE A] \"\" /end MODULE /end PROJECT");
    accepted("/begin PROJECT PROJECT \"\" /begin MODULE MODULE \"\" /end MODULE /end PROJECT");
    refused_in(5, "/begin RECORD_LAYOUT FNC_VALUES ^1");
    accepted_in(&measurement("UBYTE", "UBYTE", 0x1000));
}

#[test]
fn reading_08_glued_tokens() {
    accepted("/begin PROJECT P\"s\"/begin MODULE M\"s\"PHYS_UNIT\"s\"PHYS_UNIT/*c*/\"\"ASAP2_VERSION 5//\n5/**//end MODULE/end PROJECT".replace("MODULE/end", "MODULE /end"));
    refused(2, "ASAP2_VERSION ^5/begin");
    refused(5, "ASAP2_VERSION 5^\"s\"");
}

#[test]
fn reading_09_types() {
    let zeros = "0".repeat(50);
    accepted(format!("ASAP2_VERSION {zeros}65535 0xFFFF {}", module("")));
    refused_in(11, "/begin MEASUREMENT ^A \"\" UBYTE NO_COMPU_METHOD 0 0 0 0 ECU_ADDRESS 0 BIT_MASK 18446744073709551615 /end MEASUREMENT");
    refused_in(
        11,
        "/begin MEASUREMENT ^A \"\" ULONG NO_COMPU_METHOD 0 0 0 0 ECU_ADDRESS 0 BIT_MASK 4294967296 /end MEASUREMENT",
    );
    refused_in(2, &format!("{MEAS} BIT_MASK ^0x1FFFFFFFF"));
    refused_in(2, "/begin MEASUREMENT A \"\" UBYTE C ^65536");
    refused_in(2, "/begin COMPU_VTAB T \"\" TAB_VERB ^65536");
    refused_in(2, "/begin RECORD_LAYOUT L FNC_VALUES ^65536");
    refused_in(12, "/begin MEASUREMENT ^A \"\" UBYTE NO_COMPU_METHOD 0 0 0 0 ECU_ADDRESS 4294967295 /end MEASUREMENT");
}

#[test]
fn reading_10_points_and_number() {
    let axis = "/begin AXIS_PTS A \"\" 0 Q L 0 C";
    refused_in(8, &format!("{axis} ^257"));
    refused_in(8, &format!("{axis} ^65535"));
    refused_in(2, &format!("{axis} ^65536"));
    let block = "\"\" VAL_BLK 0x1000 L 0 NO_COMPU_METHOD 0 0 NUMBER";
    let values = layout("FNC_VALUES 1 UBYTE ROW_DIR DIRECT");
    for number in [4097, 65535] {
        refused_in(8, &format!("{values} /begin CHARACTERISTIC ^B {block} {number} /end CHARACTERISTIC"));
    }
    refused_in(2, &format!("{values} /begin CHARACTERISTIC B {block} ^65536"));
}

#[test]
fn reading_11_to_13_forms() {
    for run in ["+5", "-5", "-0", "0X1F", "0x123456789", "1.0"] {
        refused_in(2, &format!("{MEAS} ECU_ADDRESS ^{run}"));
    }
    let head = "/begin MEASUREMENT A \"\" UBYTE NO_COMPU_METHOD 0";
    for run in ["0x1", ".5", "5.", "-", "00000000001", "1.0000000000", "1.0000000"] {
        refused_in(2, &format!("{head} ^{run}"));
    }
    accepted_in(&format!("{head} +0000.100000 -9999999999 +9999999999 ECU_ADDRESS 0x1000 /end MEASUREMENT"));
    refused_in(5, "^12345678901");
    refused_in(5, "^0xFFFFFFFF");
    refused_in(5, "^-1.5");
    for run in ["2D_table", "0x123456789", "1.2345678901", "-12345678901"] {
        refused_in(2, &format!("^{run}"));
        refused_in(2, &format!("/begin MEASUREMENT ^{run}"));
        refused_in(2, &format!("/begin MEASUREMENT A ^{run}"));
    }
    refused_in(2, "/begin RECORD_LAYOUT ^2D_table");
}

#[test]
fn reading_14_alignments() {
    for border in ["0", "3", "5", "16", "65535", "0x10"] {
        refused_in(2, &format!("/begin MOD_COMMON \"\" ALIGNMENT_BYTE ^{border}"));
        refused_in(2, &format!("/begin RECORD_LAYOUT L ALIGNMENT_WORD ^{border}"));
    }
    let places = |common: &str, own: &str| {
        let body = format!("/begin MOD_COMMON \"\" {common} /end MOD_COMMON ")
            + &layout(&format!(
                "NO_AXIS_PTS_X 0 UBYTE AXIS_PTS_X 2 ULONG INDEX_INCR DIRECT FNC_VALUES 30 UWORD ROW_DIR DIRECT {own}"
            ))
            + &object("CURVE", 0x1001, &std_axis(8));
        let mut image = [0; 64];
        image[1] = 1;
        let set = Set::new(&body, &image);
        let groups = 4 + 1537 + 1;
        (set.cells[groups + 2], set.cells[groups + 38 + 2])
    };
    assert_eq!(places("", ""), (4, 8));
    assert_eq!(places("ALIGNMENT_LONG 1", ""), (2, 6));
    assert_eq!(places("ALIGNMENT_LONG 1 ALIGNMENT_WORD 8", ""), (2, 8));
    assert_eq!(places("ALIGNMENT_LONG 1 ALIGNMENT_WORD 8", "ALIGNMENT_LONG 8 ALIGNMENT_WORD 1"), (8, 12));
    assert_eq!(places("", "ALIGNMENT_BYTE 8"), (4, 8));
    assert_eq!(places("ALIGNMENT_BYTE 8", ""), (4, 8));
}

#[test]
fn reading_15_pairs() {
    accepted_in("/begin COMPU_VTAB T \"\" TAB_VERB 0 /end COMPU_VTAB");
    accepted_in("/begin COMPU_VTAB T \"\" TAB_VERB 0 DEFAULT_VALUE \"d\" /end COMPU_VTAB");
    refused_in(5, "/begin COMPU_VTAB T \"\" TAB_VERB 2 1 \"\" ^DEFAULT_VALUE");
    refused_in(5, "/begin COMPU_VTAB T \"\" TAB_VERB 0 ^1 \"\"");
    refused_in(6, "/begin COMPU_VTAB T \"\" TAB_VERB 2 10 \"\" ^10.00 \"\"");
    refused_in(2, "/begin COMPU_VTAB T \"\" TAB_VERB 2 0x1 \"\" 1".replace("0x1", "^0x1").as_str());
    accepted_in("/begin COMPU_VTAB T \"\" TAB_VERB 3 -1 \"\" 1 \"\" 9999999999 \"\" /end COMPU_VTAB");
}

#[test]
fn reading_16_17_blocks() {
    refused_in(4, "/begin ^FOO");
    refused_in(9, "/begin ^UNIT");
    refused_in(6, "/begin MOD_COMMON \"\" /end MOD_COMMON /begin ^MOD_COMMON");
    refused_in(5, "/begin ^READ_ONLY");
    refused_in(5, "^IF_DATA x");
    refused_in(5, "/begin ^FORMAT");
    for word in ["\"x\"", "5", "/end"] {
        refused_in(5, &format!("/begin ^{word}"));
    }
    for word in ["WRONG", "\"x\"", "/begin"] {
        refused_in(3, &format!("/begin MOD_COMMON \"\" /end ^{word}"));
    }
    refused_in(2, "/begin MOD_COMMON \"\" /end ^5x");
    refused_in(1, "/begin MOD_COMMON \"\" /end ^;");
    refused(3, "^/end");
}

#[test]
fn reading_18_depth() {
    let nest = |count: usize| -> (String, String) { ("/begin B ".repeat(count), "/end B ".repeat(count)) };
    // AXIS_DESCR is 4, IF_DATA in it 5, so eleven more.
    let (begins, ends) = nest(11);
    let axis = |inner: &str| {
        format!("/begin AXIS_DESCR STD_AXIS NO_INPUT_QUANTITY NO_COMPU_METHOD 1 0 0 /begin IF_DATA {inner} /end IF_DATA /end AXIS_DESCR")
    };
    let parts = layout("AXIS_PTS_X 1 UBYTE INDEX_INCR DIRECT FNC_VALUES 2 UBYTE ROW_DIR DIRECT");
    accepted_in(&(parts.clone() + &object("CURVE", 0x1000, &axis(&format!("{begins}{ends}")))));
    refused_in(3, &(parts + &object("CURVE", 0x1000, &axis(&format!("{begins}^/begin B /end B {ends}")))));
    // In PROJECT a skipped block is 2.
    let (begins, ends) = nest(14);
    accepted(format!(
        "/begin PROJECT P \"\" /begin HEADER {begins} {ends} /end HEADER /begin MODULE M \"\" /end MODULE /end PROJECT"
    ));
    refused(3, format!("/begin PROJECT P \"\" /begin HEADER {begins} ^/begin A2ML /end A2ML"));
    let (begins, ends) = nest(13);
    accepted(format!("/begin PROJECT P \"\" /begin HEADER {begins} /begin A2ML /begin /begin x /end A2ML {ends} /end HEADER /begin MODULE M \"\" /end MODULE /end PROJECT"));
}

#[test]
fn reading_19_to_24_frame() {
    refused(3, "/begin PROJECT P \"\" /begin MODULE M \"\" /begin MEASUREMENT A \"\" UBYTE^");
    refused(3, "/begin PROJECT P \"\" /begin MODULE M \"\" /begin COMPU_METHOD A \"\" LINEAR \"\" \"\"  ^");
    for (number, after) in [(3, "x"), (3, "5"), (2, "5x"), (1, ";"), (1, "A;"), (3, "/end"), (3, "\"\"")] {
        refused(number, format!("{} ^{after}", module("")));
    }
    refused_in(5, "/begin COMPU_METHOD C \"\" LINEAR \"\" \"\" ^/end ;");
    refused(5, "/begin PROJECT P \"\" ^/end PROJECT");
    accepted(format!("A2ML_VERSION 1 31 ASAP2_VERSION 1 61 A2ML_VERSION 1 31 {}", module("")));
    refused(5, "^FORMAT \"\"");
    refused(9, "^UNIT");
    refused(4, "^FOO");
    refused(6, "/begin PROJECT P \"\" /begin MODULE M \"\" /end MODULE /begin ^MODULE N");
    refused_in(5, "/begin ^MODULE N");
    refused_in(5, "/begin ^PROJECT N");
    refused_in(5, "/begin MEASUREMENT A ^PHYS_UNIT \"\"");
    refused_in(5, "/begin MEASUREMENT A ^/begin IF_DATA /end IF_DATA");
    accepted("/begin PROJECT P \"\" PHYS_UNIT \"\" /begin MODULE M \"\" FORMAT \"\" /begin HEADER /end HEADER /end MODULE /begin IF_DATA /end IF_DATA /end PROJECT");
}

#[test]
fn reading_25_skipped_parameters() {
    refused_in(5, &format!("{MEAS} FORMAT ^5"));
    refused_in(5, &format!("{MEAS} PHYS_UNIT ^V"));
    refused_in(5, &format!("{MEAS} DISPLAY_IDENTIFIER ^\"V\""));
    refused(2, "ASAP2_VERSION 1 ^70000");
    accepted_in(&format!("{MEAS} FORMAT \"nonsense\" FORMAT \"%\" DISPLAY_IDENTIFIER FORMAT ASAP2_VERSION 0x1 2 ECU_ADDRESS 0x1000 /end MEASUREMENT"));
}

#[test]
fn reading_26_a2ml() {
    accepted_in(
        "/begin A2ML };/end A2ML /end A2ML; /begin X /end X \"/end A2ML\" /* /end A2ML */ /end /end B /end/**/A2ML",
    );
    accepted_in("/begin A2ML /end /end A2ML");
    accepted_in("/begin A2ML /end \"x\" A2ML /end // c\n A2ML");
    accepted_in("/begin IF_DATA /begin A2ML /begin /end IF_DATA /end A2ML /end IF_DATA");
    refused(3, "/begin PROJECT P \"\" /begin A2ML /end ^");
    refused_in(4, "/begin A2ML /end A2ML ^A2ML_");
}

#[test]
fn reading_27_skipped_blocks() {
    accepted_in(
        "/begin IF_DATA 5x ; {a} /beginX X/end /begin 5;x /end 5;x a//b\n /begin /* */ T \"\" /end T /end IF_DATA",
    );
    refused_in(5, "/begin IF_DATA /begin ^\"x\"");
    refused_in(3, "/begin IF_DATA /end ^IF_DATA;");
    refused_in(3, "/begin IF_DATA /begin A /end ^a /end IF_DATA");
    refused_in(3, "/begin IF_DATA /begin A /end ^IF_DATA");
    for block in ["IF_DATA", "ANNOTATION", "GROUP", "FUNCTION", "FUNCTION_LIST", "MOD_PAR", "HEADER"] {
        accepted_in(&format!("/begin {block} UNIT FOO 1e3 /end {block}"));
    }
}

#[test]
fn reading_28_the_words() {
    assert!(WORDS.windows(2).all(|pair| pair[0].0 < pair[1].0));
    let count = |class: Class| WORDS.iter().filter(|word| word.1 == class).count();
    assert_eq!([count(Class::Taken), count(Class::Skipped), count(Class::Nine)], [51, 13, 194]);
    for (word, class) in WORDS {
        let number = match (class, word) {
            (_, "FORMAT" | "PHYS_UNIT" | "DISPLAY_IDENTIFIER" | "ASAP2_VERSION" | "A2ML_VERSION") => continue,
            (Class::Nine, _) => 9,
            _ => 5,
        };
        refused_in(number, &format!("^{word}"));
        refused_in(if word == "TAB_VERB" { continue } else { number }, &format!("/begin COMPU_VTAB T \"\" ^{word}"));
    }
    refused_in(4, "^NO_COMPU_METHOD");
    refused_in(9, "^AXIS_RESCALE_Y");
    refused_in(9, "^VAR_SEPERATOR");
    refused_in(4, "^NO_RESCALE_Y");
}

#[test]
fn reading_29_to_33_keywords() {
    refused_in(5, "/begin MOD_COMMON \"\" BYTE_ORDER ^DIRECT");
    refused_in(5, &format!("{MEAS} ^READ_ONLY"));
    refused_in(5, &format!("{MEAS} ^NUMBER 1"));
    refused_in(9, "/begin MOD_COMMON \"\" BYTE_ORDER ^BYTE");
    refused_in(4, "/begin MOD_COMMON \"\" BYTE_ORDER ^BITE");
    refused_in(5, &format!("{MEAS} ECU_ADDRESS ^UNIT"));
    refused_in(5, &format!("{MEAS} PHYS_UNIT ^FOO"));
    refused_in(5, &format!("{MEAS} ^\"x\""));
    refused_in(5, &format!("{MEAS} BYTE_ORDER ^5"));
    refused_in(5, &format!("{MEAS} BYTE_ORDER ^\"x\""));
    refused_in(9, "/begin COMPU_VTAB T \"\" ^TAB_NOINTP");
    refused_in(6, &format!("{MEAS} BIT_MASK 1 ^BIT_MASK"));
    refused_in(5, "/begin COMPU_METHOD C \"\" LINEAR \"\" \"\" ^COEFFS");
    let parts = layout("FNC_VALUES 2 UBYTE ROW_DIR DIRECT");
    let axis_layout = "/begin RECORD_LAYOUT LX AXIS_PTS_X 1 UBYTE INDEX_INCR DIRECT /end RECORD_LAYOUT ";
    let axis = com_axis(4, "X").replace("AXIS_PTS_REF", "READ_ONLY AXIS_PTS_REF");
    let body = parts + axis_layout + &axis_pts("X", 0x1000, "LX", 2) + &object("CURVE", 0x1008, &axis);
    let mut set = Set::new(&body, &[1; 16]);
    set.raw(0, 0, 1, 50).unwrap();
    set.raw(1, 2, 1, 50).unwrap();
    assert_eq!(set.raw(1, 0, 0, 50), Err(14));
    assert_eq!(set.rows(), ["X x 0 1 1/1", "X x 1 50 50/1", "O v 0 1 1/1", "O v 1 50 50/1"]);
}

#[test]
fn reading_34_to_36() {
    refused_in(9, "/begin COMPU_METHOD C \"\" RAT_FUNC \"\" \"\" COEFFS 0.00 1 0 ^-1");
    accepted_in(&method("RAT_FUNC", "COEFFS -0 1 0 0.00 0 1"));
    refused_in(5, "/begin MEASUREMENT A \"\" UBYTE C 0 0 1 ^0.999999");
    refused_in(5, "/begin AXIS_PTS A \"\" 0 Q L 0 C 1 0 ^-1");
    accepted_in("/begin MEASUREMENT A \"\" UBYTE NO_COMPU_METHOD 0 0 0 -0.0 ECU_ADDRESS 0x1000 /end MEASUREMENT");
    accepted_in("/begin COMPU_METHOD A \"\" IDENTICAL \"\" \"\" /end COMPU_METHOD /begin MEASUREMENT A \"\" UBYTE A 0 0 0 1 ECU_ADDRESS 0x1000 /end MEASUREMENT");
    // A method named NO_COMPU_METHOD is never found.
    let body = "/begin COMPU_METHOD NO_COMPU_METHOD \"\" LINEAR \"\" \"\" COEFFS_LINEAR 2 0 /end COMPU_METHOD "
        .to_string()
        + &value("UBYTE", "NO_COMPU_METHOD", "0 9", "");
    assert_eq!(Set::new(&body, &[3]).rows(), ["V v 0 3 3/1"]);
    // NO_INPUT_QUANTITY as a conversion is a plain name.
    let body = "/begin COMPU_METHOD NO_INPUT_QUANTITY \"\" LINEAR \"\" \"\" COEFFS_LINEAR 2 0 /end COMPU_METHOD "
        .to_string()
        + &value("UBYTE", "NO_INPUT_QUANTITY", "0 9", "");
    assert_eq!(Set::new(&body, &[3]).rows(), ["V v 0 3 6/1"]);
}

#[test]
fn reading_37_references() {
    let axis_layout = "/begin RECORD_LAYOUT LX AXIS_PTS_X 1 UBYTE INDEX_INCR DIRECT /end RECORD_LAYOUT ";
    let values = layout("FNC_VALUES 2 UBYTE ROW_DIR DIRECT");
    let axis = |input: &str, conversion: &str| {
        format!("/begin AXIS_DESCR COM_AXIS {input} {conversion} 4 0 100 AXIS_PTS_REF X /end AXIS_DESCR ")
    };
    let shared = axis_pts("X", 0x1000, "LX", 2);
    // Forward references, and input quantities that are measurements.
    accepted_in(
        &(object("CURVE", 0x1008, &axis("Q", "NO_COMPU_METHOD"))
            + &shared
            + axis_layout
            + &values
            + &measurement("Q", "UBYTE", 0x1000)),
    );
    refused_in(7, &(object("CURVE", 0x1008, &axis("^X", "NO_COMPU_METHOD")) + &shared + axis_layout + &values));
    refused_in(7, &(object("CURVE", 0x1008, &axis("NO_INPUT_QUANTITY", "^NONE")) + &shared + axis_layout + &values));
    refused_in(7, &(measurement("Q", "UBYTE", 0x1000) + &values + &object("CURVE", 0x1008, &com_axis(4, "^Q"))));
    // By byte place over the whole text.
    refused_in(7, &(method("TAB_VERB", "COMPU_TAB_REF ^C") + &object("VALUE", 0, "")));
    refused_in(7, &(object("VALUE", 0, "").replace(" L ", " ^L ") + &method("TAB_VERB", "COMPU_TAB_REF C")));
    // A reference's 7 goes before any method's 10.
    refused_in(7, &(method("LINEAR", "COEFFS_LINEAR 0 0") + &object("VALUE", 0, "").replace(" L ", " ^L ")));
}

#[test]
fn reading_38_powers_of_ten() {
    let factors = |kind: &str, rest: &str| {
        let cells = accepted_in(&method(kind, rest));
        let at = 4 + 1537 + 29185 + 1;
        cells[at..at + 10].to_vec()
    };
    assert_eq!(factors("RAT_FUNC", "COEFFS 0 0.50 0 0 0 1"), [21, 0, 5, 0, 0, 0, 0, 0, 10, 0]);
    assert_eq!(factors("RAT_FUNC", "COEFFS 0.000 10 -20 0.000000 0 100"), [21, 0, 10, 1, 20, 0, 0, 0, 100, 0]);
    assert_eq!(factors("LINEAR", "COEFFS_LINEAR 0.5 -40.25"), [20, 0, 100, 0, 4025, 0, 0, 0, 50, 0]);
    assert_eq!(factors("LINEAR", "COEFFS_LINEAR -2 3"), [20, 0, 1, 1, 3, 0, 0, 1, 2, 0]);
    assert_eq!(factors("IDENTICAL", ""), [19, 0, 1, 0, 0, 0, 0, 0, 1, 0]);
    refused_in(10, "/begin COMPU_METHOD ^C \"\" LINEAR \"\" \"\" COEFFS_LINEAR 0 1 /end COMPU_METHOD");
}

#[test]
fn reading_39_places() {
    // VALUE, VAL_BLK and MEASUREMENT are never moved; positions may be 0 and have gaps.
    let body = layout("FNC_VALUES 0 ULONG COLUMN_DIR DIRECT ALIGNMENT_LONG 8")
        + &object("VAL_BLK", 0x1001, "NUMBER 2")
        + &measurement("A", "ULONG", 0x1003);
    let set = Set::new(&body, &[0, 1, 0, 0, 0, 2, 0, 0, 0]);
    assert_eq!(set.rows(), ["O v 0 1 1/1", "O v 1 2 2/1", "A v 0 131072 131072/1"]);
    // Elements are contiguous, only a part's start is aligned.
    let body = layout("AXIS_PTS_X 7 UBYTE INDEX_INCR DIRECT FNC_VALUES 9 UBYTE COLUMN_DIR DIRECT ALIGNMENT_BYTE 4")
        + &object("CURVE", 0x1001, &std_axis(2));
    let set = Set::new(&body, &[9, 1, 2, 9, 3, 4]);
    assert_eq!(set.rows(), ["O x 0 1 1/1", "O x 1 2 2/1", "O v 0 3 3/1", "O v 1 4 4/1"]);
}

#[test]
fn reading_40_count_order() {
    let parts = |x: u32, y: u32| {
        layout(&format!("NO_AXIS_PTS_X {x} UBYTE NO_AXIS_PTS_Y {y} UBYTE AXIS_PTS_X 5 UBYTE INDEX_INCR DIRECT AXIS_PTS_Y 6 UBYTE INDEX_INCR DIRECT FNC_VALUES 7 UBYTE ROW_DIR DIRECT"))
    };
    let map = object("MAP", 0x1000, &(std_axis(2) + &std_axis(2))).replace("CHARACTERISTIC O", "CHARACTERISTIC ^O");
    // The first count by position is bad (13), the second outside (12), and the other way.
    refused_over(13, module(&(parts(1, 2) + &map)), &[3]);
    refused_over(12, module(&(parts(2, 1) + &map)), &[2]);
    refused_over(12, module(&(parts(2, 1) + &map)), &[]);
    // A stored y axis may stand before x's count.
    let body = layout("NO_AXIS_PTS_Y 1 UBYTE AXIS_PTS_Y 2 UBYTE INDEX_INCR DIRECT NO_AXIS_PTS_X 3 UBYTE AXIS_PTS_X 4 UBYTE INDEX_INCR DIRECT FNC_VALUES 5 UBYTE ROW_DIR DIRECT")
        + &object("MAP", 0x1000, &(std_axis(2) + &std_axis(4)));
    let set = Set::new(&body, &[3, 71, 72, 73, 1, 81, 91, 92, 93]);
    let raws: Vec<_> = set.lines.iter().map(|line| line.raw).collect();
    assert_eq!(raws, [81, 71, 72, 73, 91, 92, 93]);
    // The shared axis's actual count against the maximum, before the stored count of y.
    let axis_layout =
        "/begin RECORD_LAYOUT LX NO_AXIS_PTS_X 1 UBYTE AXIS_PTS_X 2 UBYTE INDEX_INCR DIRECT /end RECORD_LAYOUT ";
    let y_only = layout("NO_AXIS_PTS_Y 1 UBYTE AXIS_PTS_Y 2 UBYTE INDEX_INCR DIRECT FNC_VALUES 3 UBYTE ROW_DIR DIRECT");
    let map = |address| {
        object("MAP", address, &(com_axis(2, "X") + &std_axis(2))).replace("CHARACTERISTIC O", "CHARACTERISTIC ^O")
    };
    let shared = axis_pts("X", 0x1000, "LX", 9);
    refused_over(13, module(&(shared.clone() + axis_layout + &y_only + &map(0))), &[3, 0, 0, 0]);
    refused_over(12, module(&(shared.clone() + axis_layout + &y_only + &map(0))), &[2, 0, 0, 0]);
    accepted_over(module(&(shared + axis_layout + &y_only + &map(0x1003).replace('^', ""))), &[2, 0, 0, 1, 0, 0, 0]);
}

#[test]
fn reading_41_shared_axes_first() {
    let axis_layout = "/begin RECORD_LAYOUT LX AXIS_PTS_X 2 UBYTE INDEX_INCR DIRECT /end RECORD_LAYOUT ";
    let bad_layout = layout("");
    // The AXIS_PTS comes later in the text, yet its 12 goes before the curve's 11.
    let curve = object("CURVE", 0x1000, &com_axis(2, "X"));
    refused_in(12, &(bad_layout.clone() + &curve + axis_layout + &axis_pts("^X", 0, "LX", 2)));
    let curve = curve.replace("CHARACTERISTIC O", "CHARACTERISTIC ^O");
    refused_in(
        11,
        &(bad_layout.clone() + &curve + axis_layout + &axis_pts("X", 0x1000, "LX", 2) + &axis_pts("Z", 0, "LX", 2)),
    );
    // x's before y's.
    let map = object("MAP", 0x1000, &(com_axis(2, "X") + &com_axis(2, "Y")));
    refused_in(
        12,
        &(bad_layout.clone() + axis_layout + &map + &axis_pts("Y", 0, "LX", 2) + &axis_pts("^X", 0, "LX", 2)),
    );
    // Both axes may name one AXIS_PTS; it counts once.
    let both = object("MAP", 0x1000, &(com_axis(60, "X") + &com_axis(60, "X")));
    let values = layout("FNC_VALUES 1 UBYTE ROW_DIR DIRECT");
    let body = values + axis_layout + &both + &axis_pts("X", 0x1000, "LX", 60);
    let cells = accepted_over(module(&body), &[0; 3600]);
    assert_eq!(cells[3], 3660);
    // The total reaches 4,096 with the AXIS_PTS entered before the map that names it.
    let body = |extra: u32| {
        module(&(layout("FNC_VALUES 1 UBYTE ROW_DIR DIRECT") + axis_layout
            + &object("MAP", 0x1000, &(com_axis(60, "X") + &com_axis(60, "X"))).replace("CHARACTERISTIC O", if extra > 436 { "CHARACTERISTIC ^O" } else { "CHARACTERISTIC O" })
            + &axis_pts("X", 0x1000, "LX", 60)).replace("/begin RECORD_LAYOUT LX", &format!("/begin CHARACTERISTIC B \"\" VAL_BLK 0x1000 L 0 NO_COMPU_METHOD 0 0 NUMBER {extra} /end CHARACTERISTIC /begin RECORD_LAYOUT LX")))
    };
    accepted_over(body(436), &[0; 3600]);
    refused_over(8, body(437), &[0; 3600]);
}

#[test]
fn reading_42_counts_by_type_and_order() {
    let body = |data_type: &str, order: &str| {
        module(
            &(layout(&format!(
                "NO_AXIS_PTS_X 1 {data_type} AXIS_PTS_X 2 UBYTE INDEX_INCR DIRECT FNC_VALUES 3 UBYTE ROW_DIR DIRECT"
            )) + &object("CURVE", 0x1000, &format!("{} BYTE_ORDER {order} BIT_MASK 1", std_axis(200)))
                .replace("CHARACTERISTIC O", "CHARACTERISTIC ^O")),
        )
    };
    refused_over(13, body("SBYTE", "MSB_LAST"), &[0xFF; 300]);
    refused_over(13, body("UBYTE", "MSB_LAST"), &[0xFF; 600]);
    let mut image = [0; 300];
    image[1] = 2;
    refused_over(13, body("UWORD", "MSB_LAST"), &image);
    let accepted = accepted_over(body("UWORD", "MSB_FIRST").replace('^', ""), &image);
    assert_eq!(accepted[3], 4);
}

#[test]
fn reading_43_44_total_before_bytes_and_no_wrap() {
    let block = |name: &str, number: u32| {
        layout("FNC_VALUES 1 ULONG ROW_DIR DIRECT")
            + &format!("/begin CHARACTERISTIC {name} \"\" VAL_BLK 0xFFFFFFFF L 0 NO_COMPU_METHOD 0 0 NUMBER {number} /end CHARACTERISTIC ")
    };
    refused_in(8, &block("^A", 4097));
    refused_in(12, &block("^A", 4096));
    let text = module(&block("A", 2));
    let place = text.find(" A ").unwrap() + 1;
    assert_eq!(load(text.as_bytes(), &[0; 16], 0, 1).err(), Some(Refusal { number: 12, place }));
    assert_eq!(load(text.as_bytes(), &[0; 16], 0xFFFFFFF0, 1).err(), Some(Refusal { number: 12, place }));
}

#[test]
fn reading_45_own_fields() {
    let body = method("LINEAR", "COEFFS_LINEAR 10 0")
        + &layout("AXIS_PTS_X 1 UWORD INDEX_DECR DIRECT FNC_VALUES 2 UWORD ROW_DIR DIRECT")
        + "/begin CHARACTERISTIC O \"\" CURVE 0x1000 L 0 C 0 30 READ_ONLY BYTE_ORDER MSB_FIRST BIT_MASK 0xFF00
           /begin AXIS_DESCR STD_AXIS NO_INPUT_QUANTITY NO_COMPU_METHOD 2 5 6 /end AXIS_DESCR /end CHARACTERISTIC
           /begin RECORD_LAYOUT LX AXIS_PTS_X 1 UWORD INDEX_INCR DIRECT /end RECORD_LAYOUT
           /begin AXIS_PTS X \"\" 0x1008 NO_INPUT_QUANTITY LX 0 C 1 0 30 READ_ONLY /end AXIS_PTS ";
    let mut set = Set::new(&body, &[0, 6, 0, 5, 1, 2, 3, 4, 1, 0]);
    assert_eq!(set.rows(), ["O x 0 5 5/1", "O x 1 6 6/1", "O v 0 1 10/1", "O v 1 3 30/1", "X x 0 1 10/1"]);
    set.physical(0, 0, 1, "5").unwrap();
    assert_eq!(set.physical(0, 0, 1, "7"), Err(16));
    assert_eq!(set.image[..4], [0, 5, 0, 5]);
    assert_eq!(set.raw(0, 2, 0, 1), Err(21));
    assert_eq!(set.raw(1, 0, 0, 1), Err(21));
    let read_only_axis = body.replace("30 READ_ONLY BYTE", "30 BYTE").replace("2 5 6 ", "2 5 6 READ_ONLY ");
    let mut set = Set::new(&read_only_axis, &[0, 6, 0, 5, 1, 2, 3, 4, 1, 0]);
    assert_eq!(set.raw(0, 0, 0, 1), Err(21));
    set.physical(0, 2, 0, "15").unwrap();
    assert_eq!(set.image[4..6], [2, 2]);
}

#[test]
fn reading_46_shown_numbers() {
    // f = 10^9: raw 9007200 is above 2^53, 9007199 below.
    let body = method("RAT_FUNC", "COEFFS 0 1 0 0 0 1000000000") + &value("ULONG", "C", "0 0", "");
    let set = Set::new(&body, &9007199u32.to_le_bytes());
    assert_eq!(set.read(0, 2, 0).unwrap().1, Shown::Real(9007199000000000.0));
    let set = Set::new(&body, &9007200u32.to_le_bytes());
    let (line, shown) = set.read(0, 2, 0).unwrap();
    assert_eq!((line.state, line.first, line.second), (1, 9007200000000000, 1));
    assert_eq!(shown, Shown::Nothing);
    assert_eq!(set.rows(), ["V v 0 9007200 9007200000000000/1"]);
    let set = Set::new(&body, &u32::MAX.to_le_bytes());
    assert_eq!(set.lines[0].first, 4294967295000000000);
}

#[test]
fn reading_47_asked_values() {
    let mut set = Set::new(&value("ULONG", "NO_COMPU_METHOD", "-1 9999999999", ""), &[0; 4]);
    for asked in
        ["1234567.891", "1000000001", " 5", "5 ", "0x10", "", "-", "+", ".5", "5.", "12345678901", "1.2345678", "--5"]
    {
        assert_eq!(set.physical(0, 2, 0, asked), Err(15), "{asked}");
    }
    for (asked, raw) in [
        ("12345678.90", 12345679),
        ("+5", 5),
        ("1000000000", 1000000000),
        ("0.5", 1),
        ("0.499999", 0),
        ("0000000001", 1),
        ("100000000.0", 100000000),
    ] {
        set.physical(0, 2, 0, asked).unwrap();
        assert_eq!(set.lines[0].raw, raw, "{asked}");
    }
    assert_eq!(set.physical(0, 2, 0, "-1"), Err(18));
    assert_eq!(set.physical(0, 2, 0, "-1.000001"), Err(16));
    assert_eq!(set.physical(0, 2, 0, "-0.4"), Ok(()));
}

#[test]
fn reading_48_no_value_and_verbal_writes() {
    // INT = 60/P: raw 0 means no value; a raw write stores it (wish 2: a physical write does not).
    let body = method("RAT_FUNC", "COEFFS 0 0 60 0 1 0") + &value("UBYTE", "C", "-1000 1000", "");
    let mut set = Set::new(&body, &[9]);
    assert_eq!(set.physical(0, 2, 0, "1000"), Err(16));
    set.raw(0, 2, 0, 0).unwrap();
    assert_eq!(set.rows(), ["V v 0 0 -"]);
    let body = method("TAB_VERB", "COMPU_TAB_REF T")
        + "/begin COMPU_VTAB T \"\" TAB_VERB 1 1 \"on\te\" DEFAULT_VALUE \"d\"\"q\" /end COMPU_VTAB "
        + &value("SBYTE", "C", "0 1", "");
    let mut set = Set::new(&body, &[0]);
    assert_eq!(set.physical(0, 2, 0, "1"), Err(15));
    assert_eq!(set.listing().lines().nth(1), Some("V\tv\t0\t0\t\"d\"\"q\""));
    set.raw(0, 2, 0, 1).unwrap();
    assert_eq!(set.listing().lines().nth(1), Some("V\tv\t0\t1\t\"on\te\""));
    set.raw(0, 2, 0, -128).unwrap();
    assert_eq!(set.raw(0, 2, 0, 128), Err(18));
    assert_eq!(set.raw(0, 2, 0, -129), Err(18));
}

#[test]
fn reading_49_stored_counts_are_guarded() {
    let body = layout("NO_AXIS_PTS_X 1 UBYTE AXIS_PTS_X 2 UBYTE INDEX_INCR DIRECT FNC_VALUES 3 UBYTE ROW_DIR DIRECT")
        + &object("CURVE", 0x1001, &std_axis(3))
        + "/begin RECORD_LAYOUT W FNC_VALUES 1 UWORD ROW_DIR DIRECT /end RECORD_LAYOUT
           /begin CHARACTERISTIC A \"\" VALUE 0x1000 W 0 NO_COMPU_METHOD 0 1 BIT_MASK 0x000F /end CHARACTERISTIC
           /begin CHARACTERISTIC B \"\" VALUE 0x1002 W 0 NO_COMPU_METHOD 0 1 /end CHARACTERISTIC
           /begin CHARACTERISTIC D \"\" VALUE 0x1000 W 0 NO_COMPU_METHOD 0 1 READ_ONLY /end CHARACTERISTIC ";
    let mut set = Set::new(&body, &[0, 1, 5, 6]);
    assert_eq!(set.raw(1, 2, 0, 1), Err(19));
    assert_eq!(set.physical(1, 2, 0, "nonsense"), Err(19));
    assert_eq!(set.raw(3, 2, 0, 1), Err(21));
    set.raw(2, 2, 0, 0x0807).unwrap();
    assert_eq!(set.rows()[..2], ["O x 0 7 7/1", "O v 0 8 8/1"]);
    // Writing does not move the count, so the tables still hold.
    assert_eq!(set.image, [0, 1, 7, 8]);
}

#[test]
fn reading_50_masks_that_do_not_meet() {
    let body = layout("FNC_VALUES 1 UBYTE ROW_DIR DIRECT")
        + "/begin CHARACTERISTIC A \"\" VALUE 0x1000 L 0 NO_COMPU_METHOD 0 15 BIT_MASK 0x0F /end CHARACTERISTIC
           /begin CHARACTERISTIC B \"\" VALUE 0x1000 L 0 NO_COMPU_METHOD 0 15 BIT_MASK 0xF0 /end CHARACTERISTIC ";
    let mut set = Set::new(&body, &[0xA5]);
    set.lines[1] = Line { raw: 99, ..Line::default() };
    write_raw(&set.text, &mut set.image, BASE, &set.cells, &mut set.lines, 0, 2, 0, 7).unwrap();
    assert_eq!(set.rows(), ["A v 0 7 7/1", "B v 0 10 10/1"]);
    assert_eq!(set.image, [0xA7]);
}

#[test]
fn reading_51_requests() {
    let body = layout("AXIS_PTS_X 1 UBYTE INDEX_INCR DIRECT FNC_VALUES 2 UBYTE ROW_DIR DIRECT")
        + &object("CURVE", 0x1000, &std_axis(2));
    let mut set = Set::new(&body, &[1, 2, 3, 4]);
    assert!(set.read(0, 0, 1).is_ok());
    for (object, part, index) in
        [(0, 1, 0), (0, 0, 2), (0, 2, 2), (1, 2, 0), (0, 3, 0), (u32::MAX, 255, u32::MAX), (0, 2, u32::MAX)]
    {
        assert_eq!(set.read(object, part, index).err(), Some(14));
        assert_eq!(set.raw(object, part, index, 0), Err(14));
        assert_eq!(set.physical(object, part, index, "x"), Err(14));
    }
}

#[test]
fn reading_52_53_calls_and_printing() {
    let body = method("RAT_FUNC", "COEFFS 0 1000 0 0 0 -1") + &value("SWORD", "C", "-9 9", "");
    let set = Set::new(&body, &[0, 0]);
    assert_eq!(set.rows(), ["V v 0 0 0/1000"]);
    let set = Set::new(&body, &[5, 0]);
    assert_eq!(set.rows(), ["V v 0 5 -5/1000"]);
    assert_eq!(find(&set.text, &set.image, BASE, &set.cells, b"W"), Ok(None));
    assert_eq!(find(&set.text, &set.image, BASE, &set.cells[1..], b"W"), Err(20));
    let mut broken = set.cells.clone();
    broken[2] = 1;
    assert_eq!(find(&set.text, &set.image, BASE, &broken, b"W"), Err(22));
    assert_eq!(listing(&set.text, &set.image, BASE, &broken, &set.lines), Err(22));
    assert_eq!(listing(&set.text, &set.image, BASE, &broken, &[]), Err(20));
    // A turned divisor: INT = 60/P with negative raw.
    let body = method("RAT_FUNC", "COEFFS 0 0 60 0 1 0") + &value("SBYTE", "C", "-9 9", "");
    assert_eq!(Set::new(&body, &[0xFC]).rows(), ["V v 0 -4 -60/4"]);
}

#[test]
fn reading_54_55_sizes() {
    let body = layout("NO_AXIS_PTS_X 1 UBYTE AXIS_PTS_X 2 UBYTE INDEX_INCR DIRECT FNC_VALUES 3 UBYTE ROW_DIR DIRECT")
        + &object("CURVE", 0x1000, &std_axis(3));
    let mut set = Set::new(&body, &[2, 1, 1, 1, 1]);
    set.image[0] = 0;
    assert_eq!(check(&set.cells, set.text.len(), 5, BASE, Some(4)), None);
    assert_eq!(check(&set.cells, set.text.len(), 5, BASE, Some(3)), Some(20));
    assert_eq!(check(&set.cells, set.text.len(), 4, BASE, None), Some(22));
    assert_eq!(check(&set.cells, 3, 5, BASE, None), Some(22));
    assert_eq!(check(&set.cells, (16 << 20) + 1, 5, BASE, None), Some(20));
    assert_eq!(check(&set.cells, 16 << 20, (1 << 20) + 1, BASE, None), Some(20));
    assert_eq!(check(&set.cells, set.text.len(), 5, u32::MAX - 3, None), Some(20));
    assert_eq!(check(&set.cells, set.text.len(), 5, u32::MAX - 4, None), None);
    // The element count that stands in the header decides 20, the rule decides 22.
    set.cells[3] = 9;
    assert_eq!(check(&set.cells, set.text.len(), 5, BASE, Some(8)), Some(20));
    assert_eq!(check(&set.cells, set.text.len(), 5, BASE, Some(9)), Some(22));
    set.cells[3] = u64::MAX;
    assert_eq!(check(&set.cells, set.text.len(), 5, BASE, Some(usize::MAX)), Some(22));
}
