//! Exponents in numbers (wish 1), by the points of its readings.
mod common;
use common::*;
use plain::*;

/// Where the groups' cells start, and the methods'.
const GROUPS: usize = 4 + 1537 + 1;
const METHODS: usize = 4 + 1537 + 29185 + 1;

/// Runs at the edges of what is read: sign, whole number and power, or nothing for 2.
const RUNS: [(&str, Option<[u64; 3]>); 44] = [
    ("1.2E3", Some([0, 1200, 0])),
    ("5e-1", Some([0, 5, 1])),
    ("-5E-1", Some([1, 5, 1])),
    ("+5e+1", Some([0, 50, 0])),
    ("1e9", Some([0, 1_000_000_000, 0])),
    ("1e10", None),
    ("9999999999e0", Some([0, 9_999_999_999, 0])),
    ("10000000000e0", None),
    ("99999999990e-1", Some([0, 9_999_999_999, 0])),
    ("99999999991e-1", None),
    ("12345678901e-1", None),
    ("1e-6", Some([0, 1, 6])),
    ("1e-7", None),
    ("10e-7", Some([0, 1, 6])),
    ("0.0000001e1", Some([0, 1, 6])),
    ("0.0000001e0", None),
    ("1234567.891e-3", Some([0, 1_234_567_891, 6])),
    ("1234567.891e-4", None),
    ("12345678.90e-4", Some([0, 123_456_789, 5])),
    ("00000000000012e0", Some([0, 12, 0])),
    ("12345.678912e0", None),
    ("12345.678910e0", Some([0, 1_234_567_891, 5])),
    ("123456789.1e2", None),
    ("123456789.1e1", Some([0, 1_234_567_891, 0])),
    ("1234567890.0E0", Some([0, 1_234_567_890, 0])),
    ("1234567890.0", None),
    ("100e-2", Some([0, 1, 0])),
    ("100e-02", Some([0, 1, 0])),
    ("1.50e-1", Some([0, 15, 2])),
    ("0e99", Some([0, 0, 0])),
    ("-0E-99", Some([0, 0, 0])),
    ("-0.0000000000000e+0", Some([0, 0, 0])),
    ("0e100", None),
    ("1e99", None),
    ("1e-99", None),
    ("1E00", Some([0, 1, 0])),
    ("1E-0", Some([0, 1, 0])),
    ("1e+09", Some([0, 1_000_000_000, 0])),
    ("9999.999999e0", Some([0, 9_999_999_999, 6])),
    ("-9999999999e-6", Some([1, 9_999_999_999, 6])),
    ("99999.99999e-1", Some([0, 9_999_999_999, 6])),
    ("99999.99999e-2", None),
    ("0.1E0", Some([0, 1, 1])),
    ("000.100E1", Some([0, 1, 0])),
];

/// Runs with an E that have no form.
const FORMLESS: [&str; 26] = [
    "1.E3", ".5e1", "1e", "1E", "1e+", "1e-", "1e005", "1e100", "1e3.0", "1e3e3", "--1e3", "+-1e3", "-e1", "+E1",
    "1e--1", "1e+-1", "1e_1", "1ex", "1e1x", "2E5x", "1.2.3e1", "1,2e1", "0x1.0e1", ".e1", "1e1.", "1e0x1",
];

/// What a run is read as: the cells of a lower limit that holds it; nothing where it is refused with 2.
fn read_as(run: &str) -> Option<[u64; 3]> {
    let text = module(&format!(
        "/begin MEASUREMENT A \"\" UBYTE NO_COMPU_METHOD 0 0 {run} 9999999999 ECU_ADDRESS 0x1000 /end MEASUREMENT"
    ));
    let place = text.find(" 9999999999 ECU").unwrap() - run.len();
    match load(text.as_bytes(), &ZEROS, BASE, 1) {
        Ok(cells) => Some([11, 12, 13].map(|cell| cells[GROUPS + 38 + cell])),
        Err(refusal) => {
            assert_eq!(refusal, Refusal { number: 2, place }, "{run:.80}");
            None
        }
    }
}

#[test]
fn point_1_1_form() {
    for run in FORMLESS {
        let head = "/begin MEASUREMENT A \"\" UBYTE NO_COMPU_METHOD 0";
        refused_in(2, &format!("{head} ^{run} 0 0"));
        refused_in(2, &format!("{head} 0 0 ^{run}"));
        refused_in(2, &format!("^{run}"));
    }
    // The run ends where a comment or a quote starts; a run that starts with E is a name.
    refused_in(2, "/begin MEASUREMENT A \"\" UBYTE NO_COMPU_METHOD 0 ^1e/**/3 0 0");
    refused_in(5, "/begin MEASUREMENT A \"\" UBYTE NO_COMPU_METHOD 0 ^E1 0 0");
    refused_in(5, "/begin MEASUREMENT A \"\" UBYTE NO_COMPU_METHOD 0 0 ^e_1 0");
    refused_in(1, "/begin MEASUREMENT A \"\" UBYTE NO_COMPU_METHOD 0 0 ^e-1 0");
    accepted_in(
        "/begin MEASUREMENT E1 \"\" UBYTE NO_COMPU_METHOD 0 0 1e0//\n1E0/**/ECU_ADDRESS 0x1000 /end MEASUREMENT",
    );
    accepted_in("/begin COMPU_VTAB T \"\" TAB_VERB 1 1e1\"ten\" /end COMPU_VTAB");
}

#[test]
fn points_1_2_to_1_6_values() {
    for (run, wanted) in RUNS {
        assert_eq!(read_as(run), wanted, "{run}");
        // The letter's case says nothing.
        assert_eq!(read_as(&run.replace('E', "e")), wanted, "{run}");
        assert_eq!(read_as(&run.replace('e', "E")), wanted, "{run}");
        // Where no number is wanted, the same runs are well formed.
        if wanted.is_some() {
            refused_in(5, &format!("^{run}"));
        } else {
            refused_in(2, &format!("^{run}"));
        }
    }
}

#[test]
fn every_power_of_ten_in_every_spelling() {
    for power in -120i32..=120 {
        let wanted = match power {
            0..=9 => Some([0, 10u64.pow(power as u32), 0]),
            -6..=-1 => Some([0, 1, -power as u64]),
            _ => None,
        };
        for zeros in 0..=30usize {
            let exponent = power - zeros as i32;
            if exponent.abs() <= 99 {
                assert_eq!(read_as(&format!("1{}e{exponent}", "0".repeat(zeros))), wanted);
            }
            let exponent = power + zeros as i32 + 1;
            if exponent.abs() <= 99 {
                assert_eq!(read_as(&format!("0.{}1e{exponent:+}", "0".repeat(zeros))), wanted);
            }
        }
    }
}

#[test]
fn long_runs() {
    let zeros = |many: usize| "0".repeat(many);
    assert_eq!(read_as(&format!("1{}e-99", zeros(99))), Some([0, 1, 0]));
    assert_eq!(read_as(&format!("1{}e-99", zeros(93))), Some([0, 1, 6]));
    assert_eq!(read_as(&format!("1{}e-99", zeros(92))), None);
    assert_eq!(read_as(&format!("1{}e-99", zeros(108))), Some([0, 1_000_000_000, 0]));
    assert_eq!(read_as(&format!("1{}e-99", zeros(109))), None);
    let many = 1_000_000;
    let (long, nines) = (zeros(many), "9".repeat(many));
    assert_eq!(read_as(&format!("{long}12.5e1")), Some([0, 125, 0]));
    assert_eq!(read_as(&format!("12.5{long}E+1")), Some([0, 125, 0]));
    assert_eq!(read_as(&format!("-{long}.{long}e-99")), Some([0, 0, 0]));
    assert_eq!(read_as(&format!("{long}.{long}1e99")), None);
    assert_eq!(read_as(&format!("1{long}.{long}e-99")), None);
    assert_eq!(read_as(&format!("{nines}e-99")), None);
    assert_eq!(read_as(&format!("0.{nines}e0")), None);
    assert_eq!(read_as(&format!("1e{long}")), None);
    assert_eq!(read_as(&format!("1e{}1", zeros(2))), None);
    assert_eq!(read_as(&format!("{long}x{long}e0")), None);
    assert_eq!(read_as(&format!("{long}0")), None);
    assert_eq!(read_as(&"e".repeat(many).replacen('e', "1e", 1)), None);
}

#[test]
fn point_1_7_every_decimal() {
    let factors = |kind: &str, rest: &str| accepted_in(&method(kind, rest))[METHODS..METHODS + 10].to_vec();
    assert_eq!(factors("LINEAR", "COEFFS_LINEAR 5e-1 -4.025E1"), [20, 0, 100, 0, 4025, 0, 0, 0, 50, 0]);
    assert_eq!(factors("RAT_FUNC", "COEFFS 0e5 1e3 -0E-9 -0E-9 0 1E0"), [21, 0, 1000, 0, 0, 0, 0, 0, 1, 0]);
    assert_eq!(
        factors("RAT_FUNC", "COEFFS 0 1e9 0 0e99 0 -1000000000.0e-3"),
        [21, 0, 1_000_000_000, 0, 0, 0, 0, 1, 1_000_000, 0]
    );
    refused_in(9, "/begin COMPU_METHOD C \"\" RAT_FUNC \"\" \"\" COEFFS ^1e-6 1");
    refused_in(9, "/begin COMPU_METHOD C \"\" RAT_FUNC \"\" \"\" COEFFS 0 1 0 ^-1E-6 0");
    refused_in(2, "/begin COMPU_METHOD C \"\" RAT_FUNC \"\" \"\" COEFFS ^1e-7 1");
    refused_in(10, "/begin COMPU_METHOD ^C \"\" LINEAR \"\" \"\" COEFFS_LINEAR 1e9 1e-1 /end COMPU_METHOD");
    // MaxDiff, Accuracy, and the limits of objects and axes.
    let axis_layout = "/begin RECORD_LAYOUT LX AXIS_PTS_X 1 UBYTE INDEX_INCR DIRECT /end RECORD_LAYOUT ";
    let body = layout("AXIS_PTS_X 1 UBYTE INDEX_INCR DIRECT FNC_VALUES 2 UBYTE ROW_DIR DIRECT")
        + axis_layout
        + "/begin AXIS_PTS X \"\" 0x1000 NO_INPUT_QUANTITY LX 1e-6 NO_COMPU_METHOD 2 -1e0 1.0E+2 /end AXIS_PTS "
        + "/begin CHARACTERISTIC O \"\" CURVE 0x1000 L 5E-1 NO_COMPU_METHOD 0e0 1.44E1 "
        + "/begin AXIS_DESCR STD_AXIS NO_INPUT_QUANTITY NO_COMPU_METHOD 2 -25e-2 1e2 /end AXIS_DESCR /end CHARACTERISTIC "
        + "/begin MEASUREMENT A \"\" UBYTE NO_COMPU_METHOD 0 1e0 -1e9 1e9 ECU_ADDRESS 0x1000 /end MEASUREMENT";
    let cells = accepted_in(&body);
    let limits = |group: usize| cells[GROUPS + 19 * group + 11..][..6].to_vec();
    assert_eq!(limits(0), [1, 1, 0, 0, 100, 0]);
    assert_eq!(limits(3), [1, 25, 2, 0, 100, 0]);
    assert_eq!(limits(5), [0, 0, 0, 0, 144, 1]);
    assert_eq!(limits(8), [1, 1_000_000_000, 0, 0, 1_000_000_000, 0]);
    refused_in(5, "/begin MEASUREMENT A \"\" UBYTE C 0 0 1e-6 ^0e9");
    refused_in(2, "/begin MEASUREMENT A \"\" UBYTE C 0 0 1e-6 ^1e-7");
}

#[test]
fn point_1_7_verbal_entries() {
    let table = |entries: &str| format!("/begin COMPU_VTAB T \"\" TAB_VERB 2 {entries} /end COMPU_VTAB ");
    refused_in(6, &table("1e1 \"\" ^10 \"\""));
    refused_in(6, &table("10 \"\" ^1e1 \"\""));
    refused_in(6, &table("-0E-9 \"\" ^0e9 \"\""));
    refused_in(2, &table("10 \"\" ^5e-1 \"\""));
    refused_in(2, &table("10 \"\" ^1e10 \"\""));
    let body =
        method("TAB_VERB", "COMPU_TAB_REF T") + &table("2550e-1 \"255\" -1E0 \"-1\"") + &value("SWORD", "C", "0 1", "");
    assert_eq!(Set::new(&body, &[255, 0]).rows(), ["V v 0 255 \"255\""]);
    assert_eq!(Set::new(&body, &[255, 255]).rows(), ["V v 0 -1 \"-1\""]);
}

#[test]
fn points_1_8_and_1_9_other_places() {
    for run in ["1e0", "1E1", "2e0", "10e-1", "0e0"] {
        refused(2, format!("ASAP2_VERSION ^{run} 1"));
        refused_in(2, &format!("/begin MEASUREMENT A \"\" UBYTE NO_COMPU_METHOD ^{run}"));
        refused_in(2, &format!("/begin MEASUREMENT A \"\" UBYTE C 0 0 0 0 ECU_ADDRESS ^{run}"));
        refused_in(2, &format!("/begin MEASUREMENT A \"\" UBYTE C 0 0 0 0 BIT_MASK ^{run}"));
        refused_in(2, &format!("/begin CHARACTERISTIC A \"\" VAL_BLK ^{run}"));
        refused_in(2, &format!("/begin CHARACTERISTIC A \"\" VAL_BLK 0 L 0 C 0 0 NUMBER ^{run}"));
        refused_in(2, &format!("/begin AXIS_PTS A \"\" 0 Q L 0 C ^{run}"));
        refused_in(2, &format!("/begin RECORD_LAYOUT L FNC_VALUES ^{run}"));
        refused_in(2, &format!("/begin RECORD_LAYOUT L ALIGNMENT_WORD ^{run}"));
        refused_in(2, &format!("/begin COMPU_VTAB T \"\" TAB_VERB ^{run}"));
    }
    accepted(format!("ASAP2_VERSION 0x1e3 0x1E3 {}", module("")));
    for (number, run) in [(5, "1e3"), (5, "2E5"), (5, "-0e99"), (2, "1e99"), (2, "2E5x"), (2, "1e-7"), (5, "0x1e3")] {
        refused_in(number, &format!("^{run}"));
        refused_in(number, &format!("/begin RECORD_LAYOUT ^{run}"));
        refused_in(number, &format!("/begin MEASUREMENT A ^{run}"));
        refused_in(number, &format!("/begin MEASUREMENT A \"\" UBYTE C 0 0 0 0 FORMAT ^{run}"));
    }
    // After PROJECT's end, and where a name should close a block, a well-formed number is 3.
    for (number, run) in [(3, "1e3"), (2, "1e99")] {
        refused(number, format!("{} ^{run}", module("")));
        refused_in(number, &format!("/begin MOD_COMMON \"\" /end ^{run}"));
    }
    accepted_in("/begin IF_DATA 1e3 1e99 1e 2E5x /begin 1e3 /end 1e3 /end IF_DATA");
}

#[test]
fn point_1_10_asked_values() {
    let mut set = Set::new(&value("ULONG", "NO_COMPU_METHOD", "-1E0 9999999999e0", ""), &[0; 4]);
    let zeros = "0".repeat(99);
    for asked in ["1000000001e0", "1234567.891e0", "1e10", "1e-7", "1e", "1e+", "e1", "1e1 ", " 1e1", "1e005", ".5e1"] {
        assert_eq!(set.physical(0, 2, 0, asked), Err(15), "{asked}");
    }
    for (asked, raw) in [
        ("1e9", 1_000_000_000),
        ("12345678.90e0", 12_345_679),
        ("5e-1", 1),
        ("1.2E3", 1200),
        ("1000000000.0e0", 1_000_000_000),
        ("10000000000e-1", 1_000_000_000),
        ("-4E-1", 0),
        ("-0e-99", 0),
        (&format!("7{zeros}e-99"), 7),
    ] {
        set.physical(0, 2, 0, asked).unwrap();
        assert_eq!(set.lines[0].raw, raw, "{asked}");
    }
    assert_eq!(set.physical(0, 2, 0, "-1E0"), Err(18));
    assert_eq!(set.physical(0, 2, 0, "-1000001e-6"), Err(16));
    // Limits with exponents are compared exactly, ends included.
    let mut set = Set::new(&value("UBYTE", "NO_COMPU_METHOD", "5e-1 1.44E+1", ""), &[0]);
    for (asked, answer) in [("0.5", Ok(())), ("4.99999e-1", Err(16)), ("144E-1", Ok(())), ("14.400001", Err(16))] {
        assert_eq!(set.physical(0, 2, 0, asked), answer, "{asked}");
    }
}
