//! One call made on both readers, and everything it may touch compared.
use crate::lent::Lent;
use crate::requests::EDITION;
use obarsivel::raw;
use plain::{Line, Rounded, Shown};
use std::fmt;

/// An element: object, part, index.
pub type Element = (u32, u8, u32);

/// A call after the load.
#[derive(Clone)]
pub enum Call {
    Find(Vec<u8>),
    Read(u32, u8, u32),
    MakeList,
    WriteRaw(u32, u8, u32, i64),
    WritePhysical(u32, u8, u32, Vec<u8>),
    Listing,
}

/// A buffer that a call is lent.
#[derive(Clone, Copy, PartialEq, Eq, Debug)]
pub enum Buffer {
    Tables,
    Raw,
    State,
    First,
    Second,
    Out,
    Shown,
}

impl fmt::Debug for Call {
    /// The call with its words as text.
    fn fmt(&self, out: &mut fmt::Formatter) -> fmt::Result {
        let element = |object: u32, part: u8, index: u32| format!("object {object} part {part} index {index}");
        match self {
            Call::Find(name) => write!(out, "find '{}'", name.escape_ascii()),
            &Call::Read(object, part, index) => write!(out, "read {}", element(object, part, index)),
            Call::MakeList => write!(out, "make_list"),
            &Call::WriteRaw(object, part, index, value) => {
                write!(out, "write_raw {} value {value}", element(object, part, index))
            }
            Call::WritePhysical(object, part, index, asked) => {
                write!(out, "write_physical {} asked '{}'", element(*object, *part, *index), asked.escape_ascii())
            }
            Call::Listing => write!(out, "listing"),
        }
    }
}

impl Call {
    /// The buffers that can be too short for this call.
    pub fn buffers(&self) -> &'static [Buffer] {
        use Buffer::*;
        match self {
            Call::Find(_) => &[Tables],
            Call::Read(..) => &[Tables, Out, Shown],
            Call::MakeList | Call::WriteRaw(..) | Call::WritePhysical(..) => &[Tables, Raw, State, First, Second],
            Call::Listing => &[Tables, Raw, State, First, Second, Out],
        }
    }
}

/// How many cells a read fills in `out`.
const READING: usize = 5;

/// What `out`, `shown` and the printed bytes hold before a call.
const OUT_BEFORE: i64 = 0x5A5A_5A5A_0F0F;
const SHOWN_BEFORE: f64 = 1234.56789;
const BYTE_BEFORE: u8 = 0xA7;

/// Both readers' state over one description.
#[derive(Clone)]
pub struct Both<'a> {
    pub text: &'a [u8],
    pub base: u32,
    pub image: Vec<u8>,
    pub lines: Vec<Line>,
    lent_image: Lent<u8>,
    raw: Lent<i64>,
    state: Lent<u8>,
    first: Lent<i64>,
    second: Lent<i64>,
    out: Lent<i64>,
    shown: Lent<u64>,
    printed: Lent<u8>,
}

/// Puts lines into columns.
fn columns(lines: &[Line]) -> (Vec<i64>, Vec<u8>, Vec<i64>, Vec<i64>) {
    (
        lines.iter().map(|line| line.raw).collect(),
        lines.iter().map(|line| line.state).collect(),
        lines.iter().map(|line| line.first).collect(),
        lines.iter().map(|line| line.second).collect(),
    )
}

impl<'a> Both<'a> {
    /// Both readers over a description, an image and these lines to begin with.
    pub fn new(text: &'a [u8], image: &[u8], base: u32, lines: Vec<Line>) -> Both<'a> {
        let (raw, state, first, second) = columns(&lines);
        // In two of three cases more cells than a reading takes.
        let more = text.len() % 3;
        Both {
            text,
            base,
            image: image.to_vec(),
            lines,
            lent_image: Lent::new(image, 0xC3),
            raw: Lent::new(&raw, -77),
            state: Lent::new(&state, 0x99),
            first: Lent::new(&first, -78),
            second: Lent::new(&second, -79),
            out: Lent::new(&vec![OUT_BEFORE; READING + more], -80),
            shown: Lent::new(&vec![SHOWN_BEFORE.to_bits(); 1 + more], 81),
            printed: Lent::new(&[], 0xB8),
        }
    }

    /// Puts a line into both lists.
    pub fn put_line(&mut self, at: usize, line: Line) {
        self.lines[at] = line;
        self.raw.get_mut()[at] = line.raw;
        self.state.get_mut()[at] = line.state;
        self.first.get_mut()[at] = line.first;
        self.second.get_mut()[at] = line.second;
    }

    /// Makes a call on the proved reader with what is lent now.
    fn proved(&mut self, call: &Call, tables: &[u64]) -> i64 {
        let (text, text_len) = (self.text.as_ptr(), self.text.len());
        let (image, image_len) = self.lent_image.parts();
        let base = self.base;
        let (cells, cells_len) = (tables.as_ptr(), tables.len());
        let (raw, raw_len) = self.raw.parts();
        let (state, state_len) = self.state.parts();
        let (first, first_len) = self.first.parts();
        let (second, second_len) = self.second.parts();
        // SAFETY: every pointer is a living buffer's and its length is at most that buffer's.
        unsafe {
            match call {
                Call::Find(name) => raw::obarsivel_find(
                    text,
                    text_len,
                    image,
                    image_len,
                    base,
                    cells,
                    cells_len,
                    name.as_ptr(),
                    name.len(),
                ),
                &Call::Read(object, part, index) => {
                    let (out, out_len) = self.out.parts();
                    let (shown, shown_len) = self.shown.parts();
                    raw::obarsivel_read(
                        text,
                        text_len,
                        image,
                        image_len,
                        base,
                        cells,
                        cells_len,
                        object,
                        part,
                        index,
                        out,
                        out_len,
                        shown.cast(),
                        shown_len,
                    ) as i64
                }
                Call::MakeList => raw::obarsivel_make_list(
                    text, text_len, image, image_len, base, cells, cells_len, raw, raw_len, state, state_len, first,
                    first_len, second, second_len,
                ) as i64,
                &Call::WriteRaw(object, part, index, value) => raw::obarsivel_write_raw(
                    text, text_len, image, image_len, base, cells, cells_len, raw, raw_len, state, state_len, first,
                    first_len, second, second_len, object, part, index, value,
                ) as i64,
                Call::WritePhysical(object, part, index, asked) => raw::obarsivel_write_physical(
                    text,
                    text_len,
                    image,
                    image_len,
                    base,
                    cells,
                    cells_len,
                    raw,
                    raw_len,
                    state,
                    state_len,
                    first,
                    first_len,
                    second,
                    second_len,
                    *object,
                    *part,
                    *index,
                    asked.as_ptr(),
                    asked.len(),
                ) as i64,
                Call::Listing => {
                    let (out, out_len) = self.printed.parts();
                    raw::obarsivel_listing(
                        text, text_len, image, image_len, base, cells, cells_len, raw, raw_len, state, state_len,
                        first, first_len, second, second_len, out, out_len,
                    )
                }
            }
        }
    }

    /// What a physical write would store, if it comes as far as its number; none for other calls.
    pub fn rounded(&self, call: &Call, tables: &[u64]) -> Option<Rounded> {
        let Call::WritePhysical(object, part, index, asked) = call else {
            return None;
        };
        let (text, image, lines) = (self.text, &self.image, &self.lines);
        plain::rounded(text, image, self.base, tables, lines, *object, *part, *index, asked).ok()
    }

    /// Makes a call on copies under the other edition: what they are then, and the answer's refusal or 0.
    pub fn in_other_edition(&self, call: &Call, tables: &mut [u64]) -> Result<(Both<'a>, u8), String> {
        let mut copy = self.clone();
        let edition = tables[EDITION];
        tables[EDITION] = 3 - edition;
        let answer = copy.call(call, tables);
        tables[EDITION] = edition;
        Ok((copy, answer?))
    }

    /// Tells whether images, lists and guards are the same on both sides.
    fn same_state(&self) -> Result<(), String> {
        if self.lent_image.get() != self.image {
            let at = self.image.iter().zip(self.lent_image.get()).position(|(one, other)| one != other);
            return Err(format!("the images differ, first at {at:?}"));
        }
        let (raw, state, first, second) = (self.raw.get(), self.state.get(), self.first.get(), self.second.get());
        for (at, line) in self.lines.iter().enumerate() {
            let found = Line { raw: raw[at], state: state[at], first: first[at], second: second[at] };
            if found != *line {
                return Err(format!("line {at} of the list: proved {found:?}, plain {line:?}"));
            }
        }
        self.guards()
    }

    /// Tells whether nothing was written past an end.
    fn guards(&self) -> Result<(), String> {
        let all = [
            self.lent_image.guarded(),
            self.raw.guarded(),
            self.state.guarded(),
            self.first.guarded(),
            self.second.guarded(),
            self.out.guarded(),
            self.shown.guarded(),
            self.printed.guarded(),
        ];
        match all.iter().position(|&guarded| !guarded) {
            None => Ok(()),
            Some(which) => Err(format!("a cell past the end of lent buffer {which} was written")),
        }
    }

    /// Makes a call on both readers and compares answers and everything lent; gives the answer's refusal or 0.
    pub fn call(&mut self, call: &Call, tables: &[u64]) -> Result<u8, String> {
        let refusal = match call {
            Call::Find(name) => {
                let answer = self.proved(call, tables);
                let wanted = plain::find(self.text, &self.image, self.base, tables, name);
                let number = match wanted {
                    Ok(Some(number)) => number as i64,
                    Ok(None) => -1,
                    Err(number) => -(number as i64),
                };
                same_answer(answer, number)?;
                wanted.err().unwrap_or(0)
            }
            &Call::Read(object, part, index) => {
                self.out.get_mut().fill(OUT_BEFORE);
                self.shown.get_mut().fill(SHOWN_BEFORE.to_bits());
                let answer = self.proved(call, tables);
                let wanted = plain::read(self.text, &self.image, self.base, tables, object, part, index);
                same_answer(answer, wanted.err().unwrap_or(0) as i64)?;
                self.same_read(wanted)?;
                wanted.err().unwrap_or(0)
            }
            Call::MakeList => {
                let answer = self.proved(call, tables);
                let wanted = plain::make_list(self.text, &self.image, self.base, tables, &mut self.lines);
                same_answer(answer, wanted.err().unwrap_or(0) as i64)?;
                wanted.err().unwrap_or(0)
            }
            &Call::WriteRaw(object, part, index, value) => {
                let answer = self.proved(call, tables);
                let wanted = plain::write_raw(
                    self.text,
                    &mut self.image,
                    self.base,
                    tables,
                    &mut self.lines,
                    object,
                    part,
                    index,
                    value,
                );
                same_answer(answer, wanted.err().unwrap_or(0) as i64)?;
                wanted.err().unwrap_or(0)
            }
            Call::WritePhysical(object, part, index, asked) => {
                let answer = self.proved(call, tables);
                let wanted = plain::write_physical(
                    self.text,
                    &mut self.image,
                    self.base,
                    tables,
                    &mut self.lines,
                    *object,
                    *part,
                    *index,
                    asked,
                );
                same_answer(answer, wanted.err().unwrap_or(0) as i64)?;
                wanted.err().unwrap_or(0)
            }
            Call::Listing => {
                let wanted = plain::listing(self.text, &self.image, self.base, tables, &self.lines);
                // Room for the listing, and two bytes that stay as they are.
                let room = wanted.as_ref().map_or(1 << 16, |printed| printed.len() + 2);
                self.printed = Lent::new(&vec![BYTE_BEFORE; room], 0xB8);
                let answer = self.proved(call, tables);
                match &wanted {
                    Ok(printed) => {
                        same_answer(answer, printed.len() as i64)?;
                        let found = self.printed.get();
                        if found[..printed.len()] != printed[..] {
                            let at = printed.iter().zip(found).position(|(one, other)| one != other);
                            return Err(format!("the listings differ, first at byte {at:?}"));
                        }
                        if found[printed.len()..].iter().any(|&byte| byte != BYTE_BEFORE) {
                            return Err("the listing touched bytes past its end".to_string());
                        }
                    }
                    Err(number) => {
                        same_answer(answer, -(*number as i64))?;
                        if self.printed.get().iter().any(|&byte| byte != BYTE_BEFORE) {
                            return Err("a refused listing touched its buffer".to_string());
                        }
                    }
                }
                wanted.err().unwrap_or(0)
            }
        };
        self.same_state()?;
        Ok(refusal)
    }

    /// Tells whether `out` and `shown` from these cells on are as before the call.
    fn untouched(&self, out: usize, shown: usize) -> bool {
        self.out.get()[out..].iter().all(|&cell| cell == OUT_BEFORE)
            && self.shown.get()[shown..].iter().all(|&cell| cell == SHOWN_BEFORE.to_bits())
    }

    /// Compares what a read has put into `out` and `shown`: nothing where it is refused; else the five numbers,
    /// and the shown number or 0 where none is shown.
    fn same_read(&self, wanted: Result<(Line, Shown), u8>) -> Result<(), String> {
        let (out, shown) = (self.out.get(), self.shown.get());
        let Ok((line, value)) = wanted else {
            return match self.untouched(0, 0) {
                true => Ok(()),
                false => Err(format!("a refused read left {out:?} {shown:x?}")),
            };
        };
        let (what, number) = match value {
            Shown::Nothing => (0, 0.0),
            Shown::Real(number) => (1, number),
            Shown::Words(..) => (2, 0.0),
        };
        let cells = [line.raw, line.state as i64, line.first, line.second, what];
        if out[..READING] != cells {
            return Err(format!("read: proved {:?}, plain {cells:?}", &out[..READING]));
        }
        if shown[0] != number.to_bits() {
            let found = f64::from_bits(shown[0]);
            return Err(format!("shown, with {what} shown: proved {found:e}, plain {number:e}"));
        }
        match self.untouched(READING, 1) {
            true => Ok(()),
            false => Err("a read touched cells past its five numbers or past the shown one".to_string()),
        }
    }

    /// Makes a call on the proved reader with one buffer too short: 20, and nothing is touched.
    /// Gives false where the buffer cannot be too short.
    pub fn short(&mut self, call: &Call, buffer: Buffer, tables: &[u64]) -> Result<bool, String> {
        let elements = tables[3] as usize;
        let columns = matches!(buffer, Buffer::Raw | Buffer::State | Buffer::First | Buffer::Second);
        if columns && elements == 0 {
            return Ok(false);
        }
        self.out.get_mut().fill(OUT_BEFORE);
        self.shown.get_mut().fill(SHOWN_BEFORE.to_bits());
        let printed = match call {
            Call::Listing => plain::listing(self.text, &self.image, self.base, tables, &self.lines),
            _ => Ok(Vec::new()),
        };
        let room = printed.map_err(|number| format!("the plain listing is refused with {number}"))?.len();
        self.printed = Lent::new(&vec![BYTE_BEFORE; room], 0xB8);
        let mut tables = tables;
        match buffer {
            Buffer::Tables => tables = &tables[..plain::CELLS - 1],
            Buffer::Raw => self.raw.lend(elements - 1),
            Buffer::State => self.state.lend(elements - 1),
            Buffer::First => self.first.lend(elements - 1),
            Buffer::Second => self.second.lend(elements - 1),
            Buffer::Out => {
                self.out.lend(READING - 1);
                self.printed.lend(self.printed.get().len() - matches!(call, Call::Listing) as usize);
            }
            Buffer::Shown => self.shown.lend(0),
        }
        let answer = self.proved(call, tables);
        self.raw.lend_all();
        self.state.lend_all();
        self.first.lend_all();
        self.second.lend_all();
        self.out.lend_all();
        self.shown.lend_all();
        self.printed.lend_all();
        self.refused_with_20(call, answer)?;
        Ok(true)
    }

    /// Asserts an answer of 20 with nothing touched.
    fn refused_with_20(&self, call: &Call, answer: i64) -> Result<(), String> {
        same_answer(answer, if matches!(call, Call::Find(_) | Call::Listing) { -20 } else { 20 })?;
        if !self.untouched(0, 0) || self.printed.get().iter().any(|&byte| byte != BYTE_BEFORE) {
            return Err("a call refused with 20 touched out, shown or the listing".to_string());
        }
        self.same_state()
    }

    /// Makes a call with sizes that no call takes: 20, and nothing is touched.
    pub fn oversized(&mut self, call: &Call, tables: &[u64]) -> Result<(), String> {
        self.out.get_mut().fill(OUT_BEFORE);
        self.shown.get_mut().fill(SHOWN_BEFORE.to_bits());
        self.printed = Lent::new(&[BYTE_BEFORE; 64], 0xB8);
        let answer = self.proved(call, tables);
        self.refused_with_20(call, answer)
    }
}

/// Compares two answers.
fn same_answer(proved: i64, plain: i64) -> Result<(), String> {
    if proved == plain {
        Ok(())
    } else {
        Err(format!("answers differ: proved {proved}, plain {plain}"))
    }
}
