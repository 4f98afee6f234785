//! How long the calls take: a full description of 16 MiB, 512 objects, 4,096 elements.
use plain::*;
use std::time::Instant;

/// A description of 16 MiB with 512 objects and 4,096 elements.
fn big() -> Vec<u8> {
    let mut text = b"ASAP2_VERSION 1 61 /begin PROJECT P \"\" /begin MODULE M \"\"\n".to_vec();
    text.extend(b"/begin RECORD_LAYOUT L FNC_VALUES 1 UWORD ROW_DIR DIRECT /end RECORD_LAYOUT\n");
    text.extend(b"/begin COMPU_METHOD C \"\" RAT_FUNC \"\" \"\" COEFFS 0 1000 0 0 0 1 /end COMPU_METHOD\n");
    for number in 0..512 {
        let head = format!(
            "/begin CHARACTERISTIC DEVICE.PREFIX.LONG.NAME_{number} \"\" VAL_BLK {} L 0 C 0 65 NUMBER 8\n",
            number * 16
        );
        text.extend(head.as_bytes());
        while text.len() < (number + 1) * 32700 {
            text.extend(b"  /begin IF_DATA CANAPE 1 0x23 \"some text\" /begin LINK item; 5 /end LINK /end IF_DATA /* comment */\n");
            text.extend(b"  /begin ANNOTATION ANNOTATION_LABEL \"label\" /end ANNOTATION PHYS_UNIT \"V\" // comment\n");
        }
        text.extend(b"/end CHARACTERISTIC\n");
    }
    text.extend(b"/end MODULE /end PROJECT\n");
    text
}

/// Runs a call some times and prints the time of one.
fn time<T>(what: &str, times: u32, mut call: impl FnMut() -> T) -> T {
    let start = Instant::now();
    let mut last = call();
    for _ in 1..times {
        last = call();
    }
    println!("{what}: {:?}", start.elapsed() / times);
    last
}

/// Times every call.
fn main() {
    let text = big();
    let mut image = vec![7; 1 << 20];
    println!("{} bytes", text.len());
    let cells = time("load", 5, || load(&text, &image, 0, 1)).unwrap();
    let mut lines = vec![Line::default(); 4096];
    time("keeps_rule", 1000, || keeps_rule(&cells, text.len(), image.len()));
    time("find", 1000, || find(&text, &image, 0, &cells, b"DEVICE.PREFIX.LONG.NAME_511")).unwrap();
    time("read", 1000, || read(&text, &image, 0, &cells, 511, 2, 7)).unwrap();
    time("make_list", 100, || make_list(&text, &image, 0, &cells, &mut lines)).unwrap();
    time("write_raw", 1000, || write_raw(&text, &mut image, 0, &cells, &mut lines, 511, 2, 7, 5)).unwrap();
    time("write_physical", 1000, || write_physical(&text, &mut image, 0, &cells, &mut lines, 511, 2, 7, b"11.8"))
        .unwrap();
    let out = time("listing", 100, || listing(&text, &image, 0, &cells, &lines)).unwrap();
    println!("{} bytes listed, last: {:?}", out.len(), String::from_utf8_lossy(&out[out.len() - 50..]));
}
