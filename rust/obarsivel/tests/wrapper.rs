//! The wrapper's own doings: refusals in words, places, lines, parts, the listing's room.
use obarsivel::{line_and_column, raw, version, Description, Edition, Part, Physical, Refusal, Shown};

/// A map with stored axes (COLUMN_DIR, y turned) and a verbal value.
const TEXT: &str = r#"/begin PROJECT P "" /begin MODULE M ""
/begin RECORD_LAYOUT LM NO_AXIS_PTS_X 1 UBYTE AXIS_PTS_X 2 UBYTE INDEX_INCR DIRECT
  AXIS_PTS_Y 3 UBYTE INDEX_DECR DIRECT FNC_VALUES 4 UBYTE COLUMN_DIR DIRECT /end RECORD_LAYOUT
/begin RECORD_LAYOUT LV FNC_VALUES 1 SBYTE ROW_DIR DIRECT /end RECORD_LAYOUT
/begin COMPU_METHOD C "" TAB_VERB "" "" COMPU_TAB_REF T /end COMPU_METHOD
/begin COMPU_VTAB T "" TAB_VERB 1 1 "a ""word""" /end COMPU_VTAB
/begin CHARACTERISTIC FIELD "" MAP 0 LM 0 NO_COMPU_METHOD 0 100
  /begin AXIS_DESCR STD_AXIS NO_INPUT_QUANTITY NO_COMPU_METHOD 3 0 100 READ_ONLY /end AXIS_DESCR
  /begin AXIS_DESCR STD_AXIS NO_INPUT_QUANTITY NO_COMPU_METHOD 2 0 100 /end AXIS_DESCR /end CHARACTERISTIC
/begin CHARACTERISTIC SWITCH "" VALUE 11 LV 0 C 0 1 /end CHARACTERISTIC
/end MODULE /end PROJECT
"#;

/// Its image: a count of 3, x, y from the last point, columns of the map, the switch.
const IMAGE: [u8; 12] = [3, 10, 20, 30, 2, 1, 11, 12, 21, 22, 31, 1];

#[test]
fn lines_and_listing() {
    let reader = Description::load(TEXT, IMAGE, 0).unwrap();
    assert_eq!(reader.objects(), 2);
    assert_eq!(reader.name(0), Some(&b"FIELD"[..]));
    assert_eq!(reader.name(2), None);
    let parts = [Part::X, Part::Y, Part::V].map(|part| reader.elements(0, part));
    assert_eq!(parts, [3, 2, 6]);
    assert_eq!(reader.elements(7, Part::X), 0);
    let raws: Vec<i64> = reader.lines().map(|line| line.raw).collect();
    assert_eq!(raws, [10, 20, 30, 1, 2, 11, 21, 31, 12, 22, 1, 1]);
    let last = reader.lines().last().unwrap();
    assert_eq!((last.object, last.part, last.index), (1, Part::V, 0));
    assert_eq!(last.physical, Physical::Text(br#""a ""word""""#));
    let printed = String::from_utf8(reader.listing().unwrap()).unwrap();
    assert!(printed.starts_with("name\tpart\tindex\traw\tphysical\nFIELD\tx\t0\t10\t10/1\n"), "{printed}");
    assert!(printed.ends_with("SWITCH\tv\t0\t1\t\"a \"\"word\"\"\"\n"), "{printed}");
    assert_eq!(printed.lines().count(), 13);
}

#[test]
fn reads_and_writes_keep_the_list_in_step() {
    let mut reader = Description::load(TEXT.as_bytes(), &IMAGE[..], 0).unwrap();
    assert_eq!(reader.find(b"SWITCH"), Ok(Some(1)));
    assert_eq!(reader.find("switch"), Ok(None));
    assert_eq!(reader.read(1, Part::V, 0).unwrap().shown, Shown::Text(br#""a ""word""""#));
    // The map's last value shares the switch's byte.
    assert_eq!(reader.write_raw(0, Part::V, 5, 7), Ok(()));
    let after = reader.lines().last().unwrap();
    assert_eq!((after.raw, after.physical), (7, Physical::None));
    assert_eq!(reader.read(1, Part::V, 0).unwrap().shown, Shown::Nothing);
    assert_eq!(reader.read(1, Part::V, 0).unwrap().line, after);
    let number = |answer: Result<(), Refusal>| answer.unwrap_err().number;
    assert_eq!(number(reader.write_raw(1, Part::X, 0, 0)), 14);
    assert_eq!(number(reader.write_physical(1, Part::V, 0, "1")), 15);
    assert_eq!(number(reader.write_physical(0, Part::V, 0, "101")), 16);
    assert_eq!(number(reader.write_raw(1, Part::V, 0, 128)), 18);
    assert_eq!(number(reader.write_raw(0, Part::X, 0, 1)), 21);
    assert_eq!(reader.read(2, Part::V, 0).unwrap_err().to_string(), "refused 14: no such element");
    assert_eq!(reader.base(), 0);
    assert_eq!(reader.clone().into_image(), [3, 10, 20, 30, 2, 1, 11, 12, 21, 22, 31, 7]);
}

#[test]
fn limits_are_for_what_gets_stored() {
    // A charge stop in steps of 0.25 with the limit 14.4: the nearest step to 14.4 would be 14.5.
    let text = r#"/begin PROJECT P "" /begin MODULE M ""
        /begin RECORD_LAYOUT L FNC_VALUES 1 UBYTE ROW_DIR DIRECT /end RECORD_LAYOUT
        /begin COMPU_METHOD C "" RAT_FUNC "%5.2" "V" COEFFS 0 4 0 0 0 1 /end COMPU_METHOD
        /begin CHARACTERISTIC U_STOP "" VALUE 0 L 0 C 0 14.4 /end CHARACTERISTIC
        /end MODULE /end PROJECT"#;
    let mut reader = Description::load(text, [40], 0).unwrap();
    let refusal = reader.write_physical(0, Part::V, 0, "14.4").unwrap_err();
    assert_eq!(
        refusal.to_string(),
        "refused 16: the asked value, or the value that would be stored, is outside the limits"
    );
    assert_eq!(reader.image(), [40]);
    assert_eq!(reader.write_physical(0, Part::V, 0, "14.3"), Ok(()));
    assert_eq!((reader.image(), reader.lines().next().unwrap().raw), (&[57][..], 57));
    // A raw write has no limits.
    assert_eq!(reader.write_raw(0, Part::V, 0, 58), Ok(()));
    assert_eq!(reader.lines().next().unwrap().physical, Physical::Fraction(58, 4));
}

#[test]
fn two_editions() {
    let text = r#"/begin PROJECT P "" /begin MODULE M ""
        /begin RECORD_LAYOUT L FNC_VALUES 1 UBYTE ROW_DIR DIRECT /end RECORD_LAYOUT
        /begin CHARACTERISTIC V "" VALUE 0 L 0 NO_COMPU_METHOD -1 255 /end CHARACTERISTIC
        /begin CHARACTERISTIC W "" VALUE 1 L 0 NO_COMPU_METHOD 0 2.9 /end CHARACTERISTIC
        /end MODULE /end PROJECT"#;
    // Object, asked value, and the byte that it stores or its refusal in edition 1 and in edition 2.
    let writes = [
        (0, "0.5", Ok(1), Ok(0)),
        (0, "1.5", Ok(2), Ok(2)),
        (0, "2.5", Ok(3), Ok(2)),
        (0, "-0.5", Err(18), Ok(0)),
        (0, "2.500001", Ok(3), Ok(3)),
        (1, "2.5", Err(16), Ok(2)),
    ];
    for (object, asked, one, two) in writes {
        for (edition, wanted) in [(Edition::One, one), (Edition::Two, two)] {
            let mut reader = Description::load_edition(text, [9, 9], 0, edition).unwrap();
            assert_eq!(reader.edition(), edition);
            let answer = reader.write_physical(object, Part::V, 0, asked).map_err(|refusal| refusal.number);
            let stored = reader.image()[object as usize];
            assert_eq!(answer.map(|()| stored), wanted, "{asked} in {edition:?}");
        }
    }
    assert_eq!(Description::load(text, [9, 9], 0).unwrap().edition(), Edition::One);
}

#[test]
fn editions_by_number() {
    assert_eq!((Edition::One as u32, Edition::Two as u32), (1, 2));
    assert_eq!([Edition::try_from(1), Edition::try_from(2)], [Ok(Edition::One), Ok(Edition::Two)]);
    for number in [0, 3, 255, 257, 1 << 31, u32::MAX] {
        let refusal = Edition::try_from(number).unwrap_err();
        assert_eq!(refusal, Refusal { number: 33, place: 0 });
        assert_eq!(refusal.to_string(), "refused 33: the edition is neither 1 nor 2");
        assert_eq!(refusal.located(b"x").to_string(), refusal.to_string());
    }
}

#[test]
fn the_load_itself_refuses_other_editions() {
    let text = TEXT.as_bytes();
    let load = |edition: u32, base: u32| {
        let mut tables = vec![5; raw::TABLE_CELLS];
        let mut work = vec![6; raw::WORK_CELLS];
        // SAFETY: every pointer is a slice's with its own length.
        let answer = unsafe {
            raw::obarsivel_load(
                text.as_ptr(),
                text.len(),
                IMAGE.as_ptr(),
                IMAGE.len(),
                base,
                edition,
                tables.as_mut_ptr(),
                tables.len(),
                work.as_mut_ptr(),
                work.len(),
            )
        };
        let untouched = tables.iter().all(|&cell| cell == 5) && work.iter().all(|&cell| cell == 6);
        (answer, untouched, [tables[1], tables[2]])
    };
    assert_eq!(load(1, 0), (0, false, [1, 0]));
    assert_eq!(load(2, 0), (0, false, [2, 0]));
    for edition in [0, 3, 255, 257, 258, u32::MAX] {
        assert_eq!(load(edition, 0), (33, true, [5, 5]), "{edition}");
        assert_eq!(load(edition, u32::MAX), (20, true, [5, 5]), "{edition}");
    }
}

#[test]
fn refusals_in_words_and_places() {
    let text = TEXT.replace("COMPU_TAB_REF T", "COMPU_TAB_REF U");
    let refusal = Description::load(text.as_str(), IMAGE, 0).err().unwrap();
    let place = text.find("REF U").unwrap() + 4;
    assert_eq!(refusal, Refusal { number: 7, place });
    assert_eq!(refusal.to_string(), format!("refused 7 at {place}: a reference that leads nowhere"));
    let located = refusal.located(text.as_bytes());
    assert_eq!((located.line, located.column), (5, 55));
    assert_eq!(
        located.to_string(),
        format!("refused 7 at {place} (line 5, column 55): a reference that leads nowhere")
    );
    assert_eq!(line_and_column(b"", 0), (1, 1));
    assert_eq!(line_and_column(b"a\nb", 2), (2, 1));
    assert_eq!(line_and_column(b"a\n", 9), (2, 1));
    let empty = Description::load("", [], 0).err().unwrap();
    assert_eq!(empty, Refusal { number: 3, place: 0 });
    let sizes = Description::load(TEXT, [0; 2], u32::MAX).err().unwrap();
    assert_eq!(sizes.number, 20);
    assert!(sizes.to_string().starts_with("refused 20: a lent buffer is too short"));
    let numbers = (1..=22).chain([33]);
    assert!(numbers.map(|number| Refusal { number, place: 0 }).all(|it| it.reason() != "an unknown refusal"));
}

#[test]
fn one_version_of_crate_header_and_archive() {
    let (major, minor, patch) = version();
    assert_eq!(format!("{major}.{minor}.{patch}"), env!("CARGO_PKG_VERSION"));
    let header = include_str!("../../../include/obarsivel.h");
    for (name, number) in [("MAJOR", major), ("MINOR", minor), ("PATCH", patch)] {
        assert!(header.contains(&format!("#define OBARSIVEL_VERSION_{name} {number}\n")), "{name} {number}");
    }
}

#[test]
fn no_objects_at_all() {
    let text = "/begin PROJECT P \"\" /begin MODULE M \"\" /end MODULE /end PROJECT";
    let reader = Description::load(text, Vec::new(), 0).unwrap();
    assert_eq!(reader.lines().count(), 0);
    assert_eq!(reader.listing().unwrap(), b"name\tpart\tindex\traw\tphysical\n");
}
