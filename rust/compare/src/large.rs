//! Descriptions at each capacity, and one past it; very long numbers.
use crate::rng::Rng;

/// How many kinds there are.
pub const KINDS: u64 = 32;

/// What the names of many objects begin with.
const PREFIX: &str = "VEHICLE.POWERTRAIN.ENGINE.CONTROL.UNIT.CALIBRATION.PARAMETER.GROUP.SET.";

/// What a large case loads.
pub struct Large {
    pub text: Vec<u8>,
    pub image: Vec<u8>,
    pub base: u32,
}

/// A module's content in its frame.
fn module(body: &str) -> Vec<u8> {
    format!("/begin PROJECT P \"\" /begin MODULE M \"\"\n{body}/end MODULE /end PROJECT\n").into_bytes()
}

/// A layout with these parts.
fn layout(name: &str, parts: &str) -> String {
    format!("/begin RECORD_LAYOUT {name} {parts} /end RECORD_LAYOUT\n")
}

/// A layout of values alone.
fn values(name: &str, data: &str, direction: &str) -> String {
    layout(name, &format!("FNC_VALUES 1 {data} {direction} DIRECT"))
}

/// A CHARACTERISTIC without limits to speak of.
fn object(name: &str, kind: &str, address: u64, deposit: &str, conversion: &str, more: &str) -> String {
    format!(
        "/begin CHARACTERISTIC {name} \"\" {kind} {address} {deposit} 0 {conversion} -99999 99999 {more} /end CHARACTERISTIC\n"
    )
}

/// An AXIS_PTS.
fn axis_pts(name: &str, address: u64, deposit: &str, most: u64) -> String {
    format!("/begin AXIS_PTS {name} \"\" {address} NO_INPUT_QUANTITY {deposit} 0 NO_COMPU_METHOD {most} 0 99 /end AXIS_PTS\n")
}

/// An AXIS_DESCR of a shared axis.
fn com_axis(name: &str, most: u64) -> String {
    format!(
        "/begin AXIS_DESCR COM_AXIS NO_INPUT_QUANTITY NO_COMPU_METHOD {most} 0 9 AXIS_PTS_REF {name} /end AXIS_DESCR "
    )
}

/// An AXIS_DESCR of a stored axis.
fn std_axis(most: u64) -> String {
    format!("/begin AXIS_DESCR STD_AXIS NO_INPUT_QUANTITY NO_COMPU_METHOD {most} 0 9 /end AXIS_DESCR ")
}

/// Many values of their own, names with a long common beginning.
fn many_objects(many: u64) -> String {
    let mut body = values("L", "UBYTE", "ROW_DIR");
    for number in 0..many {
        body += &object(&format!("{PREFIX}{number}"), "VALUE", 0x1000 + number / 2, "L", "NO_COMPU_METHOD", "");
    }
    body
}

/// So many methods, tables and entries.
fn many_tables(methods: u64, tables: u64, entries: u64) -> String {
    let mut body = values("L", "UBYTE", "ROW_DIR");
    let mut left = entries;
    for number in 0..tables {
        let here = if number + 1 == tables { left } else { left.min(8) };
        left -= here;
        body += &format!("/begin COMPU_VTAB T{number} \"\" TAB_VERB {here}");
        for entry in 0..here {
            body += &format!(" {entry} \"t{number}.{entry}\"");
        }
        body += " /end COMPU_VTAB\n";
    }
    for number in 0..methods {
        let table = number % tables;
        body += &format!(
            "/begin COMPU_METHOD M{number} \"\" TAB_VERB \"\" \"\" COMPU_TAB_REF T{table} /end COMPU_METHOD\n"
        );
    }
    for number in 0..20 {
        let method = number * 6 % methods;
        body += &object(&format!("V{number}"), "VALUE", 0x1000 + number, "L", &format!("M{method}"), "");
    }
    body
}

/// Two shared axes, a map over them and a block of values: 4,096 elements with a block of 242.
fn map_and_block(block: u64) -> String {
    layout("LX", "NO_AXIS_PTS_X 1 UWORD AXIS_PTS_X 2 UBYTE INDEX_DECR DIRECT")
        + &layout("LY", "AXIS_PTS_X 1 SWORD INDEX_INCR DIRECT")
        + &values("LM", "SWORD", "COLUMN_DIR")
        + &values("LB", "UBYTE", "ROW_DIR")
        + &object("M", "MAP", 0x1200, "LM", "NO_COMPU_METHOD", &(com_axis("X", 256) + &com_axis("Y", 14)))
        + &axis_pts("X", 0x1000, "LX", 256)
        + &axis_pts("Y", 0x1104, "LY", 14)
        + &object("B", "VAL_BLK", 0x1300, "LB", "NO_COMPU_METHOD", &format!("NUMBER {block}"))
}

/// So many layouts, each with an object.
fn many_layouts(many: u64) -> String {
    let types = ["UBYTE", "SBYTE", "UWORD", "SWORD", "ULONG", "SLONG"];
    let mut body = String::new();
    for number in 0..many {
        body += &values(&format!("L{number}"), types[number as usize % 6], "ROW_DIR");
        body +=
            &object(&format!("V{number}"), "VALUE", 0x1000 + 4 * number, &format!("L{number}"), "NO_COMPU_METHOD", "");
    }
    body
}

/// A text of a length, filled with a long skipped block.
pub fn padded(length: usize) -> Vec<u8> {
    let mut text = b"/begin PROJECT P \"\" /begin MODULE M \"\"\n/begin IF_DATA X\n".to_vec();
    let tail = module(&many_objects(20));
    let tail = [b" /end IF_DATA\n", &tail[tail.iter().position(|&byte| byte == b'\n').unwrap_or(0)..]].concat();
    let line = b"  /begin LINK 0x23 \"some text\" item; 5 /end LINK /* a comment */ // another\n";
    while text.len() + line.len() + tail.len() <= length {
        text.extend(line);
    }
    while text.len() + tail.len() < length {
        text.push(b' ');
    }
    text.extend(tail);
    text
}

/// A MEASUREMENT whose upper limit is a run, and something before its address.
fn long_number(run: &str, more: &str) -> String {
    format!("/begin MEASUREMENT Q \"\" UBYTE NO_COMPU_METHOD 0 0 -0e-99 {run}\n{more} ECU_ADDRESS 0x1000 /end MEASUREMENT\n")
}

/// The large case with a number.
pub fn large(number: u64, rng: &mut Rng) -> Large {
    let mut image: Vec<u8> = (0..0x4100).map(|_| rng.next() as u8).collect();
    let mut base = 0x1000;
    let text = match number {
        0 => module(&many_objects(512)),
        1 => module(&many_objects(513)),
        2 => module(&many_tables(128, 128, 1024)),
        3 => module(&many_tables(129, 128, 1024)),
        4 => module(&many_tables(128, 129, 1024)),
        5 => module(&many_tables(128, 128, 1025)),
        6 => module(&many_layouts(64)),
        7 => module(&many_layouts(65)),
        8 | 9 => {
            image[..2].copy_from_slice(&[0, 1]);
            module(&map_and_block(242 + number - 8))
        }
        10 | 11 => {
            image[..2].copy_from_slice(&[0, 1]);
            let parts = "NO_AXIS_PTS_X 1 UWORD AXIS_PTS_X 2 ULONG INDEX_DECR DIRECT FNC_VALUES 3 SBYTE ROW_DIR DIRECT";
            let most = 256 + number - 10;
            module(&(layout("L", parts) + &object("C", "CURVE", 0x1000, "L", "NO_COMPU_METHOD", &std_axis(most))))
        }
        12 | 13 => {
            let many = 4096 + number - 12;
            let block = object("B", "VAL_BLK", 0x1000, "L", "NO_COMPU_METHOD", &format!("NUMBER {many}"));
            module(&(values("L", "ULONG", "ROW_DIR") + &block))
        }
        14 => padded(16 << 20),
        15 => padded((16 << 20) + 1),
        16 | 17 => {
            image.resize((1 << 20) + number as usize - 16, 7);
            module(
                &(values("L", "UWORD", "ROW_DIR")
                    + &object("V", "VALUE", 0x1000 + (1 << 20) - 2, "L", "NO_COMPU_METHOD", "")),
            )
        }
        18 => {
            // 512 objects of 8 elements over the same bytes: a write works 512 lines out afresh or more.
            let mut body = values("L", "UWORD", "ROW_DIR");
            for number in 0..512 {
                body +=
                    &object(&format!("B{number}"), "VAL_BLK", 0x1000 + number % 3, "L", "NO_COMPU_METHOD", "NUMBER 8");
            }
            module(&body)
        }
        19 | 20 => {
            // The image ends at 2^32, or one byte past it.
            let len = image.len() as u64;
            base = (1u64 << 32) - len + number - 19;
            module(
                &(values("L", "ULONG", "ROW_DIR") + &object("V", "VALUE", (1 << 32) - 4, "L", "NO_COMPU_METHOD", "")),
            )
        }
        21 => vec![b' '; 16 << 20],
        // One too many that also stands twice, or has no form: the lower number.
        22 => {
            let again = object(&format!("{PREFIX}7"), "VALUE", 0x1000, "L", "NO_COMPU_METHOD", "");
            module(&(many_objects(512) + &again))
        }
        23 => module(
            &(many_tables(128, 128, 1024) + "/begin COMPU_METHOD M9 \"\" IDENTICAL \"\" \"\" /end COMPU_METHOD\n"),
        ),
        24 => module(&(many_tables(128, 128, 1024) + "/begin COMPU_VTAB T9 \"\" TAB_VERB 0 /end COMPU_VTAB\n")),
        25 => module(&(many_layouts(64) + &values("L9", "UBYTE", "ROW_DIR"))),
        26 => module(&many_tables(128, 128, 1025).replace(" 8 \"t127.8\"", " 7.0 \"t127.8\"")),
        27 => module(&many_tables(128, 128, 1025).replace(" 8 \"t127.8\"", " 7.5 \"t127.8\"")),
        // Numbers of a million digits and more: read, not read on either side of the point, where no number is wanted.
        28 => module(&long_number(&format!("+{0}655.35{0}e+02", "0".repeat(1 << 20)), "")),
        29 => module(&long_number(&format!("1{}E-99", "0".repeat(1 << 20)), "")),
        30 => module(&long_number(&format!("0.{}1E99", "0".repeat(1 << 20)), "")),
        _ => module(&long_number("1.2E3", &format!("{}e0", "0".repeat(1 << 20)))),
    };
    Large { text, image, base: base as u32 }
}
