//! Safe calls over the proved reader of descriptions, images and value lists.
//!
//! [`Description::load`] reads a description against an image. The [`Reader`] that
//! it gives owns the tables, the image and the value list, and keeps the list in
//! step with the image: an element is found and read, written raw or physical, and
//! the list is walked or printed.
//!
//! The tables keep the description's [`Edition`], by which a physical write rounds an exact half.
//!
//! What two people send may be merged as it comes: writes to elements whose bits in the image don't meet (the mask's
//! bits by the byte order, without a mask all bits of the bytes) may be made in either order, with the same answers, the
//! same image and the same list.
//!
//! ```
//! use obarsivel::{Description, Part, Shown};
//!
//! let text = r#"/begin PROJECT P "" /begin MODULE M ""
//!   /begin RECORD_LAYOUT L FNC_VALUES 1 UWORD ROW_DIR DIRECT /end RECORD_LAYOUT
//!   /begin COMPU_METHOD C "" RAT_FUNC "%6.3" "V" COEFFS 0 1000 0 0 0 1 /end COMPU_METHOD
//!   /begin CHARACTERISTIC U_BATT "" VALUE 0x1000 L 0 C 0 20 /end CHARACTERISTIC
//! /end MODULE /end PROJECT"#;
//! let mut reader = Description::load(text, [0x18, 0x2E], 0x1000).unwrap();
//! let object = reader.find("U_BATT").unwrap().unwrap();
//! assert_eq!(reader.read(object, Part::V, 0).unwrap().shown, Shown::Number(11.8));
//! reader.write_physical(object, Part::V, 0, "12.5").unwrap();
//! assert_eq!(reader.image(), [0xD4, 0x30]);
//! let refusal = reader.write_physical(object, Part::V, 0, "20.001").unwrap_err();
//! assert_eq!(
//!     refusal.to_string(),
//!     "refused 16: the asked value, or the value that would be stored, is outside the limits"
//! );
//! ```
//!
//! The same description in both editions:
//!
//! ```
//! use obarsivel::{Description, Edition, Part};
//!
//! let text = r#"/begin PROJECT P "" /begin MODULE M ""
//!   /begin RECORD_LAYOUT L FNC_VALUES 1 UWORD ROW_DIR DIRECT /end RECORD_LAYOUT
//!   /begin COMPU_METHOD C "" RAT_FUNC "%6.3" "V" COEFFS 0 1000 0 0 0 1 /end COMPU_METHOD
//!   /begin CHARACTERISTIC U_BATT "" VALUE 0x1000 L 0 C 0 20 /end CHARACTERISTIC
//! /end MODULE /end PROJECT"#;
//! for (edition, raw) in [(Edition::One, 11801), (Edition::Two, 11800)] {
//!     let mut reader = Description::load_edition(text, [0x18, 0x2E], 0x1000, edition).unwrap();
//!     reader.write_physical(0, Part::V, 0, "11.8005").unwrap();
//!     assert_eq!(reader.lines().next().unwrap().raw, raw);
//! }
//! let refusal = Edition::try_from(3).unwrap_err();
//! assert_eq!(refusal.to_string(), "refused 33: the edition is neither 1 nor 2");
//! ```
#![warn(missing_docs)]

mod layout;
#[cfg(feature = "mock")]
#[doc(hidden)]
pub mod mock;
#[doc(hidden)]
pub mod raw;
mod refusal;

use layout::Layout;
pub use refusal::{line_and_column, Located, Refusal};

/// The way in: a description is loaded against an image.
pub struct Description;

/// A description's edition: how a physical write rounds a value exactly between two raw numbers.
///
/// Nothing else goes by it.
#[derive(Clone, Copy, PartialEq, Eq, Debug)]
pub enum Edition {
    /// Halves away from zero.
    One = 1,
    /// Halves to the even neighbour.
    Two = 2,
}

impl TryFrom<u32> for Edition {
    type Error = Refusal;

    /// The edition with a number; 33 if it is neither 1 nor 2.
    fn try_from(number: u32) -> Result<Edition, Refusal> {
        match number {
            1 => Ok(Edition::One),
            2 => Ok(Edition::Two),
            _ => Err(Refusal { number: 33, place: 0 }),
        }
    }
}

/// One of the three parts of an object.
#[derive(Clone, Copy, PartialEq, Eq, Debug)]
pub enum Part {
    /// The x points of an axis that the object stores itself.
    X = 0,
    /// The y points of an axis that the object stores itself.
    Y = 1,
    /// The values.
    V = 2,
}

/// The physical value of a line: none, a fraction that is not cancelled, or a text with its quotes.
#[derive(Clone, Copy, PartialEq, Eq, Debug)]
pub enum Physical<'a> {
    /// No value.
    None,
    /// The numerator (with the sign) and the divisor (above zero).
    Fraction(i64, i64),
    /// A text as it stands in the description, quotes included.
    Text(&'a [u8]),
}

/// One line of the value list.
#[derive(Clone, Copy, PartialEq, Eq, Debug)]
pub struct Line<'a> {
    /// The object's number in text order, from 0.
    pub object: u32,
    /// Which of its parts.
    pub part: Part,
    /// The element's index in its part, from 0.
    pub index: u32,
    /// The raw value.
    pub raw: i64,
    /// The physical value.
    pub physical: Physical<'a>,
}

/// A shown value.
#[derive(Clone, Copy, PartialEq, Debug)]
pub enum Shown<'a> {
    /// One binary64 division of the fraction's two numbers, both at most 2^53 in size.
    Number(f64),
    /// A text as it stands in the description, quotes included.
    Text(&'a [u8]),
    /// Nothing.
    Nothing,
}

/// An element as it was read from the image.
#[derive(Clone, Copy, PartialEq, Debug)]
pub struct Element<'a> {
    /// Its line.
    pub line: Line<'a>,
    /// Its shown value.
    pub shown: Shown<'a>,
}

/// A loaded description with its image and its value list.
#[derive(Clone)]
pub struct Reader {
    text: Vec<u8>,
    image: Vec<u8>,
    base: u32,
    tables: Vec<u64>,
    raw: Vec<i64>,
    state: Vec<u8>,
    first: Vec<i64>,
    second: Vec<i64>,
}

/// A refusal from a call after the load, which has place 0; 0 is accepted.
fn accepted(number: u32) -> Result<(), Refusal> {
    match number {
        0 => Ok(()),
        number => Err(Refusal { number: number as u8, place: 0 }),
    }
}

/// The version of the proved reader that is linked: major, minor, patch.
pub fn version() -> (u32, u32, u32) {
    // SAFETY: it takes nothing and touches nothing.
    let number = unsafe { raw::obarsivel_version() };
    (number / 65536, number / 256 % 256, number % 256)
}

impl Description {
    /// Reads a description of edition 1 against the image that stands at a base address, and makes its list.
    ///
    /// A refusal's place is a byte of the description; [`Refusal::located`] gives its line and column.
    pub fn load(text: impl Into<Vec<u8>>, image: impl Into<Vec<u8>>, base: u32) -> Result<Reader, Refusal> {
        Description::load_edition(text, image, base, Edition::One)
    }

    /// Reads a description of an edition as [`Description::load`] does.
    pub fn load_edition(
        text: impl Into<Vec<u8>>,
        image: impl Into<Vec<u8>>,
        base: u32,
        edition: Edition,
    ) -> Result<Reader, Refusal> {
        let (text, image) = (text.into(), image.into());
        let mut tables = vec![0; raw::TABLE_CELLS];
        let mut work = vec![0; raw::WORK_CELLS];
        // SAFETY: every pointer is a vector's with its own length; only tables and work are written.
        let answer = unsafe {
            raw::obarsivel_load(
                text.as_ptr(),
                text.len(),
                image.as_ptr(),
                image.len(),
                base,
                edition as u32,
                tables.as_mut_ptr(),
                tables.len(),
                work.as_mut_ptr(),
                work.len(),
            )
        };
        if answer != 0 {
            return Err(Refusal { number: (answer % 64) as u8, place: (answer / 64) as usize });
        }
        let elements = Layout(&tables).elements();
        let mut reader = Reader {
            text,
            image,
            base,
            tables,
            raw: vec![0; elements],
            state: vec![0; elements],
            first: vec![0; elements],
            second: vec![0; elements],
        };
        reader.make_list()?;
        Ok(reader)
    }
}

impl Reader {
    /// Works out every line from the image.
    fn make_list(&mut self) -> Result<(), Refusal> {
        // SAFETY: every pointer is a vector's with its own length; only the four columns are written.
        accepted(unsafe {
            raw::obarsivel_make_list(
                self.text.as_ptr(),
                self.text.len(),
                self.image.as_ptr(),
                self.image.len(),
                self.base,
                self.tables.as_ptr(),
                self.tables.len(),
                self.raw.as_mut_ptr(),
                self.raw.len(),
                self.state.as_mut_ptr(),
                self.state.len(),
                self.first.as_mut_ptr(),
                self.first.len(),
                self.second.as_mut_ptr(),
                self.second.len(),
            )
        })
    }

    /// The description.
    pub fn text(&self) -> &[u8] {
        &self.text
    }

    /// The image as it is now.
    pub fn image(&self) -> &[u8] {
        &self.image
    }

    /// Gives the image back.
    pub fn into_image(self) -> Vec<u8> {
        self.image
    }

    /// The address of the image's first byte.
    pub fn base(&self) -> u32 {
        self.base
    }

    /// The edition that the tables keep.
    pub fn edition(&self) -> Edition {
        Layout(&self.tables).edition()
    }

    /// How many objects there are.
    pub fn objects(&self) -> u32 {
        Layout(&self.tables).objects() as u32
    }

    /// An object's name, if there is such an object.
    pub fn name(&self, object: u32) -> Option<&[u8]> {
        let (from, past) = Layout(&self.tables).name(object as usize)?;
        self.text.get(from..past)
    }

    /// How many elements an object's part has (0: the object does not store it).
    pub fn elements(&self, object: u32, part: Part) -> u32 {
        Layout(&self.tables).part_elements(object as usize, part as usize) as u32
    }

    /// Finds the first object that bears a name.
    pub fn find(&self, name: impl AsRef<[u8]>) -> Result<Option<u32>, Refusal> {
        let name = name.as_ref();
        // SAFETY: every pointer is a slice's with its own length; nothing is written.
        let answer = unsafe {
            raw::obarsivel_find(
                self.text.as_ptr(),
                self.text.len(),
                self.image.as_ptr(),
                self.image.len(),
                self.base,
                self.tables.as_ptr(),
                self.tables.len(),
                name.as_ptr(),
                name.len(),
            )
        };
        match answer {
            -1 => Ok(None),
            number if number >= 0 => Ok(Some(number as u32)),
            number => Err(Refusal { number: number.unsigned_abs() as u8, place: 0 }),
        }
    }

    /// Reads an element from the image.
    pub fn read(&self, object: u32, part: Part, index: u32) -> Result<Element<'_>, Refusal> {
        let (mut out, mut shown) = ([0i64; 5], [0f64; 1]);
        // SAFETY: every pointer is a slice's with its own length; only out and shown are written.
        accepted(unsafe {
            raw::obarsivel_read(
                self.text.as_ptr(),
                self.text.len(),
                self.image.as_ptr(),
                self.image.len(),
                self.base,
                self.tables.as_ptr(),
                self.tables.len(),
                object,
                part as u8,
                index,
                out.as_mut_ptr(),
                out.len(),
                shown.as_mut_ptr(),
                shown.len(),
            )
        })?;
        let [raw, state, first, second, what] = out;
        let physical = self.physical(state as u8, first, second);
        let shown = match what {
            1 => Shown::Number(shown[0]),
            2 => Shown::Text(self.words(first, second)),
            _ => Shown::Nothing,
        };
        Ok(Element { line: Line { object, part, index, raw, physical }, shown })
    }

    /// The bytes of a text by its two places.
    fn words(&self, first: i64, second: i64) -> &[u8] {
        self.text.get(first as usize..second as usize).unwrap_or(b"")
    }

    /// The physical value that a line's last three numbers mean.
    fn physical(&self, state: u8, first: i64, second: i64) -> Physical<'_> {
        match state {
            1 => Physical::Fraction(first, second),
            2 => Physical::Text(self.words(first, second)),
            _ => Physical::None,
        }
    }

    /// The value list: objects in text order, within each x points, y points, values, by index.
    pub fn lines(&self) -> impl Iterator<Item = Line<'_>> {
        let places = (0..self.objects()).flat_map(move |object| {
            [Part::X, Part::Y, Part::V]
                .into_iter()
                .flat_map(move |part| (0..self.elements(object, part)).map(move |index| (object, part, index)))
        });
        places.enumerate().map(move |(at, (object, part, index))| {
            let physical = self.physical(self.state[at], self.first[at], self.second[at]);
            Line { object, part, index, raw: self.raw[at], physical }
        })
    }

    /// Writes a raw value: type and mask are tested, limits are not.
    pub fn write_raw(&mut self, object: u32, part: Part, index: u32, value: i64) -> Result<(), Refusal> {
        // SAFETY: every pointer is a vector's with its own length; only the image and the four columns are written.
        accepted(unsafe {
            raw::obarsivel_write_raw(
                self.text.as_ptr(),
                self.text.len(),
                self.image.as_mut_ptr(),
                self.image.len(),
                self.base,
                self.tables.as_ptr(),
                self.tables.len(),
                self.raw.as_mut_ptr(),
                self.raw.len(),
                self.state.as_mut_ptr(),
                self.state.len(),
                self.first.as_mut_ptr(),
                self.first.len(),
                self.second.as_mut_ptr(),
                self.second.len(),
                object,
                part as u8,
                index,
                value,
            )
        })
    }

    /// Writes the raw value nearest to an asked physical one, a decimal such as `-12.5` or `1.2E3`; exactly between
    /// two of them, the one that the [`Edition`] says.
    ///
    /// The limits are for the asked value and for the value that would be stored, as its exact fraction: outside of
    /// them, or where the nearest raw value means no value, the write is refused with 16.
    pub fn write_physical(
        &mut self,
        object: u32,
        part: Part,
        index: u32,
        asked: impl AsRef<[u8]>,
    ) -> Result<(), Refusal> {
        let asked = asked.as_ref();
        // SAFETY: every pointer is a slice's with its own length; only the image and the four columns are written.
        accepted(unsafe {
            raw::obarsivel_write_physical(
                self.text.as_ptr(),
                self.text.len(),
                self.image.as_mut_ptr(),
                self.image.len(),
                self.base,
                self.tables.as_ptr(),
                self.tables.len(),
                self.raw.as_mut_ptr(),
                self.raw.len(),
                self.state.as_mut_ptr(),
                self.state.len(),
                self.first.as_mut_ptr(),
                self.first.len(),
                self.second.as_mut_ptr(),
                self.second.len(),
                object,
                part as u8,
                index,
                asked.as_ptr(),
                asked.len(),
            )
        })
    }

    /// The most bytes that the listing can have.
    fn listing_room(&self) -> usize {
        let of_line = |line: Line| {
            let physical = match line.physical {
                Physical::Text(text) => text.len(),
                _ => 41,
            };
            self.name(line.object).map_or(0, <[u8]>::len) + 64 + physical
        };
        64 + self.lines().map(of_line).sum::<usize>()
    }

    /// Prints the value list: a header line, then a line per element, fields parted by tabs.
    pub fn listing(&self) -> Result<Vec<u8>, Refusal> {
        let mut out = vec![0; self.listing_room()];
        // SAFETY: every pointer is a vector's with its own length; only out is written.
        let answer = unsafe {
            raw::obarsivel_listing(
                self.text.as_ptr(),
                self.text.len(),
                self.image.as_ptr(),
                self.image.len(),
                self.base,
                self.tables.as_ptr(),
                self.tables.len(),
                self.raw.as_ptr(),
                self.raw.len(),
                self.state.as_ptr(),
                self.state.len(),
                self.first.as_ptr(),
                self.first.len(),
                self.second.as_ptr(),
                self.second.len(),
                out.as_mut_ptr(),
                out.len(),
            )
        };
        if answer < 0 {
            return Err(Refusal { number: answer.unsigned_abs() as u8, place: 0 });
        }
        out.truncate(answer as usize);
        Ok(out)
    }
}
