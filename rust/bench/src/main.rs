//! Times of the proved and the plain reader in one run, as a table with their ratios.
//!
//! `bench [--seconds T]`: each row takes about T seconds (1). A sample is one call, or as
//! many as half a millisecond holds, so that few samples are interrupted; both readers take
//! turns, and a time is the median of 5 to 401 samples. Lent buffers are kept between
//! calls and not cleared first; the plain reader allocates its own.
use obarsivel::raw;
use plain::Line;
use std::hint::black_box;
use std::time::Instant;

/// Which calls are timed over a description.
#[derive(Clone, Copy, PartialEq, PartialOrd)]
enum Rows {
    Load,
    Find,
    All,
}

/// A description with its image at base 0, what stands in the table's second column, and its rows.
struct Subject {
    what: &'static str,
    rows: Rows,
    text: Vec<u8>,
    image: Vec<u8>,
}

/// Everything that the proved reader is lent.
struct Lent {
    tables: Vec<u64>,
    work: Vec<u64>,
    raw: Vec<i64>,
    state: Vec<u8>,
    first: Vec<i64>,
    second: Vec<i64>,
    out: Vec<u8>,
}

/// A module's content in its frame.
fn module(body: &str) -> Vec<u8> {
    format!("/begin PROJECT P \"\" /begin MODULE M \"\"\n{body}/end MODULE /end PROJECT\n").into_bytes()
}

/// A layout of words and a conversion.
const COMMON: &str = "/begin RECORD_LAYOUT L FNC_VALUES 1 UWORD ROW_DIR DIRECT /end RECORD_LAYOUT
/begin COMPU_METHOD C \"\" RAT_FUNC \"%6.3\" \"V\" COEFFS 0 1000 0 0 0 1 /end COMPU_METHOD
";

/// How names begin.
const PREFIX: &str = "VEHICLE.POWERTRAIN.ENGINE.CONTROL.UNIT.CALIBRATION.PARAMETER.GROUP.SET.OF.VALUES.";

/// 16 MiB, nearly all of it in skipped blocks.
fn long_text() -> Subject {
    let mut body = String::from(COMMON);
    for number in 0..16 {
        body += &format!("/begin CHARACTERISTIC V{number} \"\" VALUE {} L 0 C 0 65\n", 2 * number);
        while body.len() < (number + 1) * ((1 << 20) - 64) {
            body += "  /begin IF_DATA CANAPE 1 0x23 \"some text\" /begin LINK item; 5 /end LINK /end IF_DATA /* comment */\n";
            body += "  /begin ANNOTATION ANNOTATION_LABEL \"a label\" /end ANNOTATION PHYS_UNIT \"V\" // comment\n";
        }
        body += "/end CHARACTERISTIC\n";
    }
    Subject { what: "16 MiB, long skipped blocks", rows: Rows::Load, text: module(&body), image: vec![7; 64] }
}

/// 512 objects whose names begin alike.
fn many_objects() -> Subject {
    let mut body = String::from(COMMON);
    for number in 0..512 {
        let name = format!("{PREFIX}{number:03}");
        body += &format!("/begin CHARACTERISTIC {name} \"\" VALUE {} L 0 C 0 65 /end CHARACTERISTIC\n", 2 * number);
    }
    Subject {
        what: "512 objects, long common name prefixes",
        rows: Rows::All,
        text: module(&body),
        image: vec![7; 1024],
    }
}

/// 4,096 elements in few objects.
fn many_elements() -> Subject {
    let mut body = String::from(COMMON);
    for number in 0..4 {
        let address = 2048 * number;
        body += &format!(
            "/begin CHARACTERISTIC B{number} \"\" VAL_BLK {address} L 0 C 0 65 NUMBER 1024 /end CHARACTERISTIC\n"
        );
    }
    Subject { what: "4,096 elements in 4 objects", rows: Rows::All, text: module(&body), image: vec![7; 8192] }
}

/// 512 objects whose names are as long as each other and end alike; most of them differ in their first byte.
fn other_beginnings() -> Subject {
    let mut body = String::from(COMMON);
    let firsts = b"ABCDEFGHIJKLMNOPQRSTUVWXYZabcdefghijklmnopqrstuvwxyz_";
    for number in 0..512 {
        let (first, round) = (firsts[number % firsts.len()] as char, number / firsts.len());
        let name = format!("{first}{round}_{PREFIX:.80}");
        body += &format!("/begin CHARACTERISTIC {name} \"\" VALUE {} L 0 C 0 65 /end CHARACTERISTIC\n", 2 * number);
    }
    Subject { what: "512 objects, other first bytes", rows: Rows::Find, text: module(&body), image: vec![7; 1024] }
}

/// 510 MAPs on the same two AXIS_PTS, all names 128 bytes that begin alike; the AXIS_PTS stand before the MAPs or after.
fn shared_axes(first: bool) -> Subject {
    let name = |number: usize| format!("{PREFIX}{PREFIX:.44}{number:03}");
    let mut axes = String::new();
    for number in 510..512 {
        let at = 8 * number;
        axes += &format!("/begin AXIS_PTS {} \"\" {at} NO_INPUT_QUANTITY A 0 C 2 0 65 /end AXIS_PTS\n", name(number));
    }
    let mut maps = String::new();
    for number in 0..510 {
        maps += &format!("/begin CHARACTERISTIC {} \"\" MAP {} L 0 C 0 65\n", name(number), 8 * number);
        for axis in 510..512 {
            let descr = "/begin AXIS_DESCR COM_AXIS NO_INPUT_QUANTITY C 2 0 65 AXIS_PTS_REF";
            maps += &format!("  {descr} {} /end AXIS_DESCR\n", name(axis));
        }
        maps += "/end CHARACTERISTIC\n";
    }
    let layout = "/begin RECORD_LAYOUT A AXIS_PTS_X 1 UWORD INDEX_INCR DIRECT /end RECORD_LAYOUT\n";
    let (what, body) = match first {
        true => ("510 MAPs, their AXIS_PTS first", format!("{COMMON}{layout}{axes}{maps}")),
        false => ("510 MAPs, their AXIS_PTS last", format!("{COMMON}{layout}{maps}{axes}")),
    };
    Subject { what, rows: Rows::Find, text: module(&body), image: vec![7; 4096] }
}

/// 512 objects whose MaxDiff and limits have exponents.
fn exponents() -> Subject {
    const NUMBERS: [[&str; 3]; 4] = [
        ["0E0", "5e-1", "1.2E3"],
        ["5E-2", "-1.44E+1", "65e0"],
        ["1e-6", "0e0", "65.535E0"],
        ["2.5e-01", "-4E1", "1440e-02"],
    ];
    let mut body = String::from(COMMON);
    for number in 0..512 {
        let [diff, lower, upper] = NUMBERS[number % NUMBERS.len()];
        let head = format!("/begin CHARACTERISTIC V{number} \"\" VALUE {} L {diff}", 2 * number);
        body += &format!("{head} C {lower} {upper} /end CHARACTERISTIC\n");
    }
    Subject { what: "512 objects, limits with exponents", rows: Rows::Load, text: module(&body), image: vec![7; 1024] }
}

/// One limit of 1 MiB, zeros before and behind its digits.
fn long_number() -> Subject {
    let zeros = "0".repeat(1 << 19);
    let object = format!("/begin CHARACTERISTIC V \"\" VALUE 0 L 0 C 0 {zeros}6.5{zeros}E+1 /end CHARACTERISTIC\n");
    Subject {
        what: "a limit of 1 MiB",
        rows: Rows::Load,
        text: module(&(COMMON.to_string() + &object)),
        image: vec![7; 2],
    }
}

/// The proved reader's load with an edition.
fn load(subject: &Subject, lent: &mut Lent, edition: u32) -> u64 {
    // SAFETY: every pointer is a vector's with its own length.
    unsafe {
        raw::obarsivel_load(
            subject.text.as_ptr(),
            subject.text.len(),
            subject.image.as_ptr(),
            subject.image.len(),
            0,
            edition,
            lent.tables.as_mut_ptr(),
            lent.tables.len(),
            lent.work.as_mut_ptr(),
            lent.work.len(),
        )
    }
}

/// The proved reader's search.
fn find(subject: &Subject, lent: &Lent, name: &[u8]) -> i64 {
    // SAFETY: every pointer is a slice's with its own length.
    unsafe {
        raw::obarsivel_find(
            subject.text.as_ptr(),
            subject.text.len(),
            subject.image.as_ptr(),
            subject.image.len(),
            0,
            lent.tables.as_ptr(),
            lent.tables.len(),
            name.as_ptr(),
            name.len(),
        )
    }
}

/// The proved reader's read.
fn read(subject: &Subject, lent: &Lent, object: u32, index: u32) -> u32 {
    let (mut out, mut shown) = ([0i64; 5], [0f64; 1]);
    // SAFETY: every pointer is a slice's with its own length.
    let answer = unsafe {
        raw::obarsivel_read(
            subject.text.as_ptr(),
            subject.text.len(),
            subject.image.as_ptr(),
            subject.image.len(),
            0,
            lent.tables.as_ptr(),
            lent.tables.len(),
            object,
            2,
            index,
            out.as_mut_ptr(),
            out.len(),
            shown.as_mut_ptr(),
            shown.len(),
        )
    };
    black_box((out, shown));
    answer
}

/// The proved reader's making of the list.
fn make_list(subject: &Subject, lent: &mut Lent) -> u32 {
    // SAFETY: every pointer is a vector's with its own length.
    unsafe {
        raw::obarsivel_make_list(
            subject.text.as_ptr(),
            subject.text.len(),
            subject.image.as_ptr(),
            subject.image.len(),
            0,
            lent.tables.as_ptr(),
            lent.tables.len(),
            lent.raw.as_mut_ptr(),
            lent.raw.len(),
            lent.state.as_mut_ptr(),
            lent.state.len(),
            lent.first.as_mut_ptr(),
            lent.first.len(),
            lent.second.as_mut_ptr(),
            lent.second.len(),
        )
    }
}

/// The proved reader's write of a raw value, or of an asked one.
fn write(subject: &mut Subject, lent: &mut Lent, object: u32, index: u32, value: Result<i64, &[u8]>) -> u32 {
    let (text, text_len) = (subject.text.as_ptr(), subject.text.len());
    let (image, image_len) = (subject.image.as_mut_ptr(), subject.image.len());
    let (tables, tables_len) = (lent.tables.as_ptr(), lent.tables.len());
    let (raw, raw_len) = (lent.raw.as_mut_ptr(), lent.raw.len());
    let (state, state_len) = (lent.state.as_mut_ptr(), lent.state.len());
    let (first, first_len) = (lent.first.as_mut_ptr(), lent.first.len());
    let (second, second_len) = (lent.second.as_mut_ptr(), lent.second.len());
    // SAFETY: every pointer is a vector's with its own length.
    unsafe {
        match value {
            Ok(value) => raw::obarsivel_write_raw(
                text, text_len, image, image_len, 0, tables, tables_len, raw, raw_len, state, state_len, first,
                first_len, second, second_len, object, 2, index, value,
            ),
            Err(asked) => raw::obarsivel_write_physical(
                text,
                text_len,
                image,
                image_len,
                0,
                tables,
                tables_len,
                raw,
                raw_len,
                state,
                state_len,
                first,
                first_len,
                second,
                second_len,
                object,
                2,
                index,
                asked.as_ptr(),
                asked.len(),
            ),
        }
    }
}

/// The proved reader's listing.
fn listing(subject: &Subject, lent: &mut Lent) -> i64 {
    // SAFETY: every pointer is a vector's with its own length.
    unsafe {
        raw::obarsivel_listing(
            subject.text.as_ptr(),
            subject.text.len(),
            subject.image.as_ptr(),
            subject.image.len(),
            0,
            lent.tables.as_ptr(),
            lent.tables.len(),
            lent.raw.as_ptr(),
            lent.raw.len(),
            lent.state.as_ptr(),
            lent.state.len(),
            lent.first.as_ptr(),
            lent.first.len(),
            lent.second.as_ptr(),
            lent.second.len(),
            lent.out.as_mut_ptr(),
            lent.out.len(),
        )
    }
}

/// The median of some times.
fn median(mut times: Vec<f64>) -> f64 {
    times.sort_by(f64::total_cmp);
    times[times.len() / 2]
}

/// A time in a unit that suits it.
fn shown(seconds: f64) -> String {
    match seconds {
        s if s >= 1.0 => format!("{s:.2} s"),
        s if s >= 1e-3 => format!("{:.2} ms", s * 1e3),
        s if s >= 1e-6 => format!("{:.2} µs", s * 1e6),
        s => format!("{:.0} ns", s * 1e9),
    }
}

/// One sample: the time of a call, taken over some calls.
fn sample(calls: usize, call: &mut impl FnMut(usize)) -> f64 {
    let start = Instant::now();
    (0..calls).for_each(call);
    start.elapsed().as_secs_f64() / calls as f64
}

/// Times both readers in turns and prints a row.
fn row(seconds: f64, call: &str, what: &str, mut proved: impl FnMut(usize), mut plain: impl FnMut(usize)) {
    let once = [sample(1, &mut proved), sample(1, &mut plain)];
    let calls = once.map(|once| ((0.0005 / once) as usize).clamp(1, 1000));
    let pair: f64 = once.iter().zip(calls).map(|(once, calls)| once * calls as f64).sum();
    let samples = ((seconds / pair) as usize).clamp(5, 401);
    let (mut ours, mut theirs) = (Vec::new(), Vec::new());
    for _ in 0..samples {
        ours.push(sample(calls[0], &mut proved));
        theirs.push(sample(calls[1], &mut plain));
    }
    let (ours, theirs) = (median(ours), median(theirs));
    println!("| {call} | {what} | {} | {} | {:.2} |", shown(ours), shown(theirs), ours / theirs);
}

/// Times all calls over one description.
fn times(seconds: f64, mut subject: Subject) {
    let mut lent = Lent {
        tables: vec![0; raw::TABLE_CELLS],
        work: vec![0; raw::WORK_CELLS],
        raw: vec![0; 4096],
        state: vec![0; 4096],
        first: vec![0; 4096],
        second: vec![0; 4096],
        out: vec![0; 1 << 20],
    };
    let (what, rows) = (subject.what, subject.rows);
    let accepted = |answer: u64| assert_eq!(answer, 0, "the proved reader accepts");
    let refused = "the plain reader accepts";
    row(
        seconds,
        "load",
        what,
        |_| accepted(load(&subject, &mut lent, 1)),
        |_| drop(black_box(plain::load(&subject.text, &subject.image, 0, 1).expect(refused))),
    );
    if rows == Rows::Load {
        return;
    }
    let cells = plain::load(&subject.text, &subject.image, 0, 1).expect(refused);
    let mut lines = vec![Line::default(); 4096];
    let objects = cells[4] as usize;
    let each = cells[3] as usize / objects;
    let at = move |step: usize| ((step * 37 % objects) as u32, (step * 11 % each) as u32);
    let (from, past) = (cells[5 + 3 * (objects - 1)] as usize, cells[6 + 3 * (objects - 1)] as usize);
    let name = subject.text[from..past].to_vec();
    row(
        seconds,
        "find (last object)",
        what,
        |_| assert_eq!(find(&subject, &lent, &name), objects as i64 - 1),
        |_| {
            black_box(plain::find(&subject.text, &subject.image, 0, &cells, &name).expect(refused));
        },
    );
    if rows < Rows::All {
        return;
    }
    row(
        seconds,
        "make_list",
        what,
        |_| accepted(make_list(&subject, &mut lent) as u64),
        |_| plain::make_list(&subject.text, &subject.image, 0, &cells, &mut lines).expect(refused),
    );
    row(
        seconds,
        "read",
        what,
        |step| accepted(read(&subject, &lent, at(step).0, at(step).1) as u64),
        |step| {
            let (object, index) = at(step);
            black_box(plain::read(&subject.text, &subject.image, 0, &cells, object, 2, index).expect(refused));
        },
    );
    let mut image = subject.image.clone();
    let text = subject.text.clone();
    row(
        seconds,
        "write_raw",
        what,
        |step| accepted(write(&mut subject, &mut lent, at(step).0, at(step).1, Ok(step as i64)) as u64),
        |step| {
            let (object, index) = at(step);
            plain::write_raw(&text, &mut image, 0, &cells, &mut lines, object, 2, index, step as i64).expect(refused)
        },
    );
    // 11.8005 lies exactly between two raw numbers.
    for (edition, call) in [(1, "write_physical"), (2, "write_physical, edition 2")] {
        accepted(load(&subject, &mut lent, edition));
        let cells = plain::load(&text, &image, 0, edition).expect(refused);
        row(
            seconds,
            call,
            what,
            |step| accepted(write(&mut subject, &mut lent, at(step).0, at(step).1, Err(b"11.8005")) as u64),
            |step| {
                let (object, index) = at(step);
                plain::write_physical(&text, &mut image, 0, &cells, &mut lines, object, 2, index, b"11.8005")
                    .expect(refused)
            },
        );
    }
    row(
        seconds,
        "listing",
        what,
        |_| assert!(listing(&subject, &mut lent) > 0),
        |_| drop(black_box(plain::listing(&text, &image, 0, &cells, &lines).expect(refused))),
    );
}

/// Prints the table.
fn main() {
    let words: Vec<String> = std::env::args().skip(1).collect();
    let seconds = match words.iter().map(String::as_str).collect::<Vec<_>>()[..] {
        [] => Some(1.0),
        ["--seconds", number] => number.parse().ok().filter(|&seconds| seconds > 0.0),
        _ => None,
    };
    let Some(seconds) = seconds else {
        eprintln!("usage: bench [--seconds T]");
        std::process::exit(2);
    };
    println!("| call | over | proved | plain | proved / plain |");
    println!("|---|---|---|---|---|");
    times(seconds, long_text());
    times(seconds, many_objects());
    times(seconds, many_elements());
    times(seconds, other_beginnings());
    times(seconds, shared_axes(true));
    times(seconds, shared_axes(false));
    times(seconds, exponents());
    times(seconds, long_number());
}
