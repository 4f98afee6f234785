//! Damage: to tokens, to the text's bytes, to the image and its base address.
use crate::generate::{string, Made};
use crate::rng::Rng;
use crate::spell::{edge, with_exponent};
use crate::token::{token, Kind, Token};

/// Bytes that are no token, or none that fits.
const JUNK: [&[u8]; 30] = [
    b"FOO",
    b"UNIT",
    b"TAB_INTP",
    b"/include",
    b"/BEGIN",
    b"/beginX",
    b"/",
    b";",
    b"{",
    b"5x",
    b"1e3",
    b".5",
    b"5.",
    b"-",
    b"12345678901",
    b"\x80",
    b"\x7F",
    b"\x0C",
    b"\0",
    b"\"",
    b"\"a\\\"",
    b"\"a\"\"",
    b"/*",
    b"/*/",
    b"A-B",
    b"AB;",
    b"5/begin",
    b"2D_table",
    b"5\x80",
    b"~",
];

/// Keywords with parameters and blocks that fit some places and not others.
pub const GROUPS: [&str; 44] = [
    "READ_ONLY",
    "BYTE_ORDER MSB_FIRST",
    "BYTE_ORDER MSB_LAST",
    "BYTE_ORDER MSB_FIRST_MSW_LAST",
    "BYTE_ORDER DIRECT",
    "BIT_MASK 1",
    "BIT_MASK 0x100",
    "BIT_MASK 0",
    "BIT_MASK 4294967296",
    "NUMBER 2",
    "NUMBER 4097",
    "BIT_MASK 1e0",
    "NUMBER 2E0",
    "ECU_ADDRESS 4096e0",
    "ALIGNMENT_WORD 2e0",
    "A2ML_VERSION 1 6.1E1",
    "FORMAT 1e3",
    "AXIS_PTS_REF A",
    "COEFFS 0 1 0 0 0 1",
    "COEFFS 1 1 0 0 0 1",
    "COEFFS_LINEAR 1 0",
    "COEFFS 0e5 1E3 0 -0E-9 0 1",
    "COEFFS 1e-6 1 0 0 0 1",
    "COEFFS_LINEAR 5e-1 -4E+1",
    "COMPU_TAB_REF A",
    "DEFAULT_VALUE \"d\"",
    "ECU_ADDRESS 0x1000",
    "ALIGNMENT_BYTE 1",
    "ALIGNMENT_LONG 3",
    "ALIGNMENT_INT64 8",
    "FNC_VALUES 1 UBYTE ROW_DIR DIRECT",
    "AXIS_PTS_X 1 UBYTE INDEX_INCR DIRECT",
    "NO_AXIS_PTS_X 1 UBYTE",
    "NO_AXIS_PTS_Y 0 SLONG",
    "FORMAT 5",
    "ASAP2_VERSION 1 70000",
    "/begin AXIS_DESCR STD_AXIS NO_INPUT_QUANTITY NO_COMPU_METHOD 2 0 1 /end AXIS_DESCR",
    "/begin AXIS_DESCR STD_AXIS NO_INPUT_QUANTITY NO_COMPU_METHOD 2 -5e-1 1.44E1 /end AXIS_DESCR",
    "/begin MOD_COMMON \"\" /end MOD_COMMON",
    "/begin MODULE M2 \"\" /end MODULE",
    "/begin UNIT",
    "/begin READ_ONLY",
    "/begin BYTE_ORDER",
    "/end",
];

/// Puts one of document 000's words at a keyword's or a choice's place.
pub fn put_word(made: &mut Made, word: usize, rng: &mut Rng) {
    let at = of_kind(&made.tokens, &[Kind::Keyword, Kind::Choice], rng);
    made.tokens[at].bytes = plain::WORDS[word].0.as_bytes().to_vec();
}

/// Damages a description's tokens in one way.
pub fn damage_tokens(made: &mut Made, rng: &mut Rng) {
    if made.tokens.is_empty() {
        return;
    }
    match rng.below(26) {
        0 => drop(made.tokens.remove(rng.place(made.tokens.len()))),
        1 => {
            let at = rng.place(made.tokens.len());
            let again = made.tokens[at].clone();
            made.tokens.insert(at, again);
        }
        2 => {
            let at = rng.place(made.tokens.len());
            let other = if rng.one_in(2) { (at + 1) % made.tokens.len() } else { rng.place(made.tokens.len()) };
            made.tokens.swap(at, other);
        }
        3 => {
            let (at, word) = (rng.place(made.tokens.len()), rng.place(plain::WORDS.len()));
            made.tokens[at].bytes = plain::WORDS[word].0.as_bytes().to_vec();
        }
        4 => {
            let word = rng.place(plain::WORDS.len());
            put_word(made, word, rng);
        }
        5 => {
            let at = rng.place(made.tokens.len());
            made.tokens[at].bytes = junk(rng);
        }
        6 => {
            let at = rng.place(made.tokens.len() + 1);
            let bytes = match rng.below(4) {
                0 => junk(rng),
                1 => string(rng),
                2 => b"5".to_vec(),
                _ => plain::WORDS[rng.place(plain::WORDS.len())].0.as_bytes().to_vec(),
            };
            made.tokens.insert(at, token(Kind::Item, bytes));
        }
        7 | 8 => repeat_group(made, rng),
        9 => remove_group(made, rng),
        10 => {
            let at = of_kind(&made.tokens, &[Kind::Ref, Kind::Deposit], rng);
            made.tokens[at].bytes = another_name(&made.tokens, rng);
        }
        11 => {
            let at = of_kind(&made.tokens, &[Kind::Def], rng);
            made.tokens[at].bytes = another_name(&made.tokens, rng);
        }
        12 => {
            let at = rng.place(made.tokens.len());
            let after = rng.place(made.tokens.len());
            made.tokens[at].bytes = made.tokens[after].bytes.clone();
        }
        13 | 14 => {
            // A group where another starts or ends.
            let at = group_start(&made.tokens, rng).unwrap_or(0);
            let at = if rng.one_in(2) { at } else { group_end(&made.tokens, at) };
            let group = rng.pick(&GROUPS);
            made.tokens.splice(at..at, group.split(' ').map(|word| token(Kind::Item, word)));
        }
        15 | 16 => {
            // Another object's layout, or one part's Position at another.
            let kind = rng.pick(&[Kind::Deposit, Kind::Position]);
            let (at, other) = (of_kind(&made.tokens, &[kind], rng), of_kind(&made.tokens, &[kind], rng));
            let next = (at + 1..made.tokens.len()).find(|&next| made.tokens[next].kind == kind);
            match next {
                Some(next) if rng.one_in(2) => made.tokens.swap(at, next),
                _ => made.tokens[at].bytes = made.tokens[other].bytes.clone(),
            }
        }
        17 => {
            // A capacity reached or exceeded.
            let kind = rng.pick(&[Kind::Points, Kind::Number]);
            if made.tokens.iter().any(|it| it.kind == kind) {
                let at = of_kind(&made.tokens, &[kind], rng);
                made.tokens[at].bytes = rng.pick(&["256", "257", "4096", "4097", "65535"]).as_bytes().to_vec();
            }
        }
        18 | 19 => edit_decimal(made, rng),
        20 => put_exponent(made, rng),
        21 => entry_again(made, rng),
        _ => edit_number(made, rng),
    }
}

/// Bytes that are no token, or none that fits; often a run with an exponent.
fn junk(rng: &mut Rng) -> Vec<u8> {
    if rng.one_in(3) {
        edge(rng).into_bytes()
    } else {
        rng.pick(&JUNK).to_vec()
    }
}

/// The place of a random token of one of these kinds, or of any.
fn of_kind(tokens: &[Token], kinds: &[Kind], rng: &mut Rng) -> usize {
    let places: Vec<usize> = (0..tokens.len()).filter(|&at| kinds.contains(&tokens[at].kind)).collect();
    if places.is_empty() {
        rng.place(tokens.len())
    } else {
        rng.pick(&places)
    }
}

/// A name with one byte changed: its first, its last, or any.
fn changed(mut name: Vec<u8>, rng: &mut Rng) -> Vec<u8> {
    if !name.is_empty() {
        let at = match rng.below(3) {
            0 => 0,
            1 => name.len() - 1,
            _ => rng.place(name.len()),
        };
        name[at] = if name[at] == b'Z' { b'Y' } else { b'Z' };
    }
    name
}

/// Another name of the description, one that differs from it in a byte, or one that it has not.
fn another_name(tokens: &[Token], rng: &mut Rng) -> Vec<u8> {
    match rng.below(7) {
        0 => b"MISSING".to_vec(),
        1 => "N".repeat(129).into_bytes(),
        2 => "N".repeat(128).into_bytes(),
        3 => b"NO_COMPU_METHOD".to_vec(),
        4 => changed(tokens[of_kind(tokens, &[Kind::Def], rng)].bytes.clone(), rng),
        _ => tokens[of_kind(tokens, &[Kind::Def], rng)].bytes.clone(),
    }
}

/// Where the group that a token starts ends: a block with its end, else up to the next keyword.
fn group_end(tokens: &[Token], from: usize) -> usize {
    let mut at = from + 1;
    if tokens[from].kind == Kind::Begin {
        let mut depth = 1;
        while at < tokens.len() && depth > 0 {
            match tokens[at].kind {
                Kind::Begin => depth += 1,
                Kind::End => depth -= 1,
                _ => {}
            }
            at += 1;
        }
        return (at + 1).min(tokens.len());
    }
    while at < tokens.len() && !matches!(tokens[at].kind, Kind::Keyword | Kind::Begin | Kind::End) {
        at += 1;
    }
    at
}

/// The place of a random keyword that starts a group (not the word of a begin or an end), or of a begin.
fn group_start(tokens: &[Token], rng: &mut Rng) -> Option<usize> {
    let starts = |&at: &usize| match tokens[at].kind {
        Kind::Begin => true,
        Kind::Keyword => at > 0 && !matches!(tokens[at - 1].kind, Kind::Begin | Kind::End),
        _ => false,
    };
    let places: Vec<usize> = (0..tokens.len()).filter(starts).collect();
    if places.is_empty() {
        None
    } else {
        Some(rng.pick(&places))
    }
}

/// Lets a keyword with its parameters, or a block, stand twice.
fn repeat_group(made: &mut Made, rng: &mut Rng) {
    let Some(from) = group_start(&made.tokens, rng) else {
        return;
    };
    let past = group_end(&made.tokens, from);
    let again: Vec<Token> = made.tokens[from..past].to_vec();
    let at = if rng.one_in(4) { rng.place(made.tokens.len()) } else { past };
    made.tokens.splice(at..at, again);
}

/// Takes a keyword with its parameters, or a block, away.
fn remove_group(made: &mut Made, rng: &mut Rng) {
    let Some(from) = group_start(&made.tokens, rng) else {
        return;
    };
    let past = group_end(&made.tokens, from);
    made.tokens.drain(from..past);
}

/// Kinds of tokens that are whole numbers.
const WHOLE: [Kind; 8] =
    [Kind::Position, Kind::Points, Kind::Number, Kind::Uint, Kind::Address, Kind::Mask, Kind::Align, Kind::Pairs];

/// Puts a run with an exponent where a decimal stands, at an edge of what is read or of what the place takes.
fn edit_decimal(made: &mut Made, rng: &mut Rng) {
    const KINDS: [Kind; 5] = [Kind::Lower, Kind::Upper, Kind::Decimal, Kind::Coeff, Kind::Entry];
    let wanted = rng.pick(&KINDS);
    let at = of_kind(&made.tokens, if rng.one_in(3) { &KINDS } else { std::slice::from_ref(&wanted) }, rng);
    let some: &[&str] = match made.tokens[at].kind {
        Kind::Lower => &["1e3", "0e9", "-1E9", "9999999999e0", "5e-1", "1E-6", "1e-7", "10e-7"],
        Kind::Upper => &["1e3", "-0e9", "-1E+9", "-9999999999e0", "5e-1", "-1E-6", "1e10", "0.0000001e1"],
        Kind::Coeff => &["0e5", "-0E-9", "1e-6", "-1E-06", "1e9", "1000000001e0", "1e-7", "25E-2", "1e3", "0e100"],
        Kind::Entry => &["1e1", "10", "1E0", "5e-1", "0.5e1", "-0E-9", "9999999999e0", "1e10", "10e-1", "1e-6"],
        _ => &["1e3", "0e99", "1e-6", "1e-7", "-1E+0", "1e10"],
    };
    let text = if rng.one_in(2) { edge(rng) } else { rng.pick(some).to_string() };
    made.tokens[at].bytes = text.into_bytes();
}

/// Puts a number with an exponent where a whole number is wanted, or where no number is.
fn put_exponent(made: &mut Made, rng: &mut Rng) {
    let at = if rng.one_in(2) { of_kind(&made.tokens, &WHOLE, rng) } else { rng.place(made.tokens.len()) };
    let value = rng.pick(&[0, 1, 2, 4, 8, 61, 255, 4096, -1]);
    let bytes = if rng.one_in(4) { edge(rng) } else { with_exponent(value, 0, rng) }.into_bytes();
    if rng.one_in(3) {
        made.tokens.insert(at, token(Kind::Item, bytes));
    } else {
        made.tokens[at].bytes = bytes;
    }
}

/// Lets a verbal entry's number stand again, with an exponent.
fn entry_again(made: &mut Made, rng: &mut Rng) {
    let at = of_kind(&made.tokens, &[Kind::Entry], rng);
    let token = &made.tokens[at];
    let text = String::from_utf8_lossy(token.without.as_ref().unwrap_or(&token.bytes)).into_owned();
    let Some(Ok(number)) = text.split('.').next().map(str::parse) else {
        return;
    };
    let next = (at + 1..made.tokens.len()).find(|&next| made.tokens[next].kind == Kind::Entry);
    let other = next.unwrap_or_else(|| of_kind(&made.tokens, &[Kind::Entry], rng));
    made.tokens[other].bytes = with_exponent(number, 0, rng).into_bytes();
}

/// Puts a number at or past a bound of its kind.
fn edit_number(made: &mut Made, rng: &mut Rng) {
    const NUMBERS: [Kind; 18] = [
        Kind::Position,
        Kind::Points,
        Kind::Number,
        Kind::Uint,
        Kind::Address,
        Kind::Lower,
        Kind::Upper,
        Kind::Decimal,
        Kind::Coeff,
        Kind::Entry,
        Kind::Mask,
        Kind::Align,
        Kind::Pairs,
        Kind::Coeff,
        Kind::Mask,
        Kind::Points,
        Kind::Number,
        Kind::Number,
    ];
    let wanted = rng.pick(&NUMBERS);
    let at = if made.tokens.iter().any(|it| it.kind == wanted) {
        of_kind(&made.tokens, &[wanted], rng)
    } else {
        of_kind(&made.tokens, &NUMBERS, rng)
    };
    let end = made.base as u64 + made.image.len() as u64;
    let near_image = [made.base as u64, end, end.wrapping_sub(1), (made.base as u64).wrapping_sub(1), 0, 4294967295];
    let some: &[&str] = match made.tokens[at].kind {
        Kind::Position => &["0", "1", "2", "3", "4", "65535", "65536", "-1", "1.0"],
        Kind::Points => &["0", "1", "2", "256", "257", "65535", "65536", "+5", "0x100", "0x101"],
        Kind::Number => &["0", "1", "4096", "4097", "65535", "65536", "0x1000", "0X10", "0xFFFF"],
        Kind::Uint => &["0", "65535", "65536", "-0", "0x10000", "0xFFFF", "99999999999999999999999"],
        Kind::Mask => &[
            "0",
            "1",
            "0x80",
            "0x100",
            "0xFFFF",
            "65536",
            "0xFFFFFFFF",
            "4294967296",
            "18446744073709551615",
            "18446744073709551616",
            "0x123456789",
        ],
        Kind::Align => &["0", "1", "2", "3", "4", "8", "16", "0x8", "-1"],
        Kind::Pairs => &["0", "1", "2", "3", "4", "65535", "65536"],
        Kind::Entry => &["0", "1", "1.0", "0.5", "-0", "1e3", "0x1", "9999999999", "12345678901", "2"],
        Kind::Coeff => {
            &["0", "1", "-0", "0.00", "1000000001", "1000000000", "2000.5", "0.000001", "1e3", "0x10", "1.1234567"]
        }
        Kind::Lower => &["0", "1000", "9999999999", "-9999999999", "1e3", "0x10", ".5", "5.", "65535.5", "-"],
        Kind::Upper => &["0", "-1000", "-9999999999", "9999999999", "1e3", "+", "1234567.8901", "12345678901", "0.1"],
        Kind::Address => &["4294967296", "0x100000000", "-1", "1.0", ""],
        _ => &["0", "12345678901", "1.1234567", "1.123456", "-5", "0x5", "1e3"],
    };
    const ODD_WHOLE: [&str; 20] = [
        "0x123456789",
        "0x012345678",
        "0xFFFFFFFF",
        "0x",
        "0xG",
        "0X1F",
        "+5",
        "-0",
        "1.0",
        "5/begin",
        "00000000000000000000000000000001",
        "18446744073709551616",
        "340282366920938463463374607431768211457",
        "1_000",
        "5]",
        "0x1.0",
        "1e3",
        "1E0",
        "20e-1",
        "0x1e3",
    ];
    const ODD_DECIMAL: [&str; 16] = [
        "5.",
        ".5",
        "1e3",
        "0x10",
        "1.2.3",
        "+-5",
        "+5",
        "12345678901",
        "1.1234567",
        "1.123456",
        "12345.678901",
        "-0000000000",
        "+0000000000.0",
        "0.0000000",
        "-.5",
        "5/",
    ];
    let is_whole = WHOLE.contains(&made.tokens[at].kind);
    let text = if rng.one_in(4) {
        rng.pick(if is_whole { &ODD_WHOLE } else { &ODD_DECIMAL }).to_string()
    } else if made.tokens[at].kind == Kind::Address && !rng.one_in(4) {
        rng.pick(&near_image).to_string()
    } else if rng.one_in(8) {
        made.tokens[of_kind(&made.tokens, &[wanted], rng)].bytes.iter().map(|&byte| byte as char).collect()
    } else {
        rng.pick(some).to_string()
    };
    made.tokens[at].bytes = text.into_bytes();
}

/// Damages a text's bytes in one way.
pub fn damage_text(text: &mut Vec<u8>, rng: &mut Rng) {
    if text.is_empty() {
        return;
    }
    let at = rng.place(text.len());
    match rng.below(8) {
        0 | 1 => text[at] ^= 1 << rng.below(8),
        2 => text[at] = rng.next() as u8,
        3 => text.truncate(at),
        4 => drop(text.remove(at)),
        5 => text.insert(at, rng.pick(b" \"/*\\\n;.5Ab\x80\0")),
        6 => {
            let junk = junk(rng);
            text.extend(b" ");
            text.extend(junk);
        }
        _ => {
            text.splice(0..0, rng.pick(&[&b"\xEF\xBB\xBF"[..], b"x ", b"/end ", b"\" ", b"5 "]).to_vec()).for_each(drop)
        }
    }
}

/// Damages an image or its base address in one way.
pub fn damage_image(made: &mut Made, rng: &mut Rng) {
    let len = made.image.len();
    match rng.below(10) {
        0..=3 if len > 0 => {
            for _ in 0..rng.range(1, 4) {
                let any = rng.next() as u8;
                made.image[rng.place(len)] = rng.pick(&[0, 1, 2, 3, 4, 5, 127, 128, 254, 255, any, any, any]);
            }
        }
        4 | 5 if len > 0 => made.image.truncate(len - 1),
        6 if len > 0 => made.image.truncate(rng.place(len)),
        7 => made.base = made.base.wrapping_add(1),
        8 => made.base = made.base.wrapping_sub(1),
        _ => {
            // Around the address where base plus image is 2^32.
            let most = (1u64 << 32) - len as u64;
            made.base = (most + rng.below(3)).saturating_sub(1).min(u32::MAX as u64) as u32;
        }
    }
}
