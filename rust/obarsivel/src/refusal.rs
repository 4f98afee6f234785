//! Refusals: their number, their place, and both in words.
use std::fmt;

/// A refusal: its number in documents 01 and 02 and, for a load, its byte place in the description.
#[derive(Clone, Copy, PartialEq, Eq, Debug)]
pub struct Refusal {
    /// The number: 1 to 22, or 33.
    pub number: u8,
    /// The first byte of the offending token; 0 for 20, for 33 and outside a load.
    pub place: usize,
}

/// A refusal with the line and the column of its place.
#[derive(Clone, Copy, PartialEq, Eq, Debug)]
pub struct Located {
    /// The refusal itself.
    pub refusal: Refusal,
    /// The line, from 1.
    pub line: usize,
    /// The column in bytes, from 1.
    pub column: usize,
}

impl Refusal {
    /// The reason in words, those of docs/refusals.tsv.
    pub fn reason(&self) -> &'static str {
        match self.number {
            1 => "a token that the rules don't allow, or unclosed",
            2 => "a number outside its form",
            3 => "begin and end don't match, too deep, text ends early, or text after PROJECT's end",
            4 => "a keyword that the standard doesn't list",
            5 => {
                "a parameter or needed keyword is missing, of the wrong kind or misplaced, an unused word, \
                 or the lower limit is above the upper"
            }
            6 => "a name or a once-only keyword stands twice, or one AXIS_DESCR too many",
            7 => "a reference that leads nowhere",
            8 => "a capacity is exceeded",
            9 => "a keyword of the standard that is not taken here, or coefficient a or d is not 0",
            10 => "the conversion's b*f equals c*e, or one of its four coefficients is above 10^9",
            11 => "the layout breaks the rules of place or lacks a part, or the mask breaks its rule",
            12 => "a byte outside the image",
            13 => "a stored count is out of range",
            14 => "no such element",
            15 => "the asked value is outside its form, or a physical write under TAB_VERB",
            16 => "the asked value, or the value that would be stored, is outside the limits",
            17 => "no raw value exists",
            18 => "the value doesn't fit the type or the mask",
            19 => "the element shares a byte with a stored count",
            20 => "a lent buffer is too short, text or image too long, or base plus image above 2^32",
            21 => "a MEASUREMENT or READ_ONLY",
            22 => "a lent table breaks the table rule",
            33 => "the edition is neither 1 nor 2",
            _ => "an unknown refusal",
        }
    }

    /// Tells whether the refusal's place means something: 1 to 13 come from a load alone.
    fn has_place(&self) -> bool {
        (1..=13).contains(&self.number)
    }

    /// The refusal with line and column in the description that it is about.
    pub fn located(self, text: &[u8]) -> Located {
        let (line, column) = line_and_column(text, self.place);
        Located { refusal: self, line, column }
    }
}

/// The line and the column, in bytes and from 1, of a place; lines end with LF.
pub fn line_and_column(text: &[u8], place: usize) -> (usize, usize) {
    let before = &text[..place.min(text.len())];
    let line = before.iter().filter(|&&byte| byte == b'\n').count() + 1;
    let column = before.iter().rev().take_while(|&&byte| byte != b'\n').count() + 1;
    (line, column)
}

impl fmt::Display for Refusal {
    /// `refused 7 at 1234: a reference that leads nowhere`; the place for load refusals only.
    fn fmt(&self, out: &mut fmt::Formatter) -> fmt::Result {
        write!(out, "refused {}", self.number)?;
        if self.has_place() {
            write!(out, " at {}", self.place)?;
        }
        write!(out, ": {}", self.reason())
    }
}

impl fmt::Display for Located {
    /// `refused 7 at 1234 (line 40, column 12): a reference that leads nowhere`.
    fn fmt(&self, out: &mut fmt::Formatter) -> fmt::Result {
        let Located { refusal, line, column } = self;
        write!(out, "refused {}", refusal.number)?;
        if refusal.has_place() {
            write!(out, " at {} (line {line}, column {column})", refusal.place)?;
        }
        write!(out, ": {}", refusal.reason())
    }
}

impl std::error::Error for Refusal {}
impl std::error::Error for Located {}
