//! Helpers of the tests: `^` in a text marks the place that a refusal gives.
#![allow(dead_code)]
use plain::*;

/// The base address of the tests.
pub const BASE: u32 = 0x1000;

/// An image of 64 bytes, all zero.
pub const ZEROS: [u8; 64] = [0; 64];

/// A MODULE's content in its frame.
pub fn module(body: &str) -> String {
    format!("/begin PROJECT P \"\" /begin MODULE M \"\" {body} /end MODULE /end PROJECT")
}

/// Takes the mark out of a text: the text and the mark's place.
pub fn unmark(text: &[u8]) -> (Vec<u8>, usize) {
    let place = text.iter().position(|&byte| byte == b'^').expect("a mark");
    let mut rest = text.to_vec();
    rest.remove(place);
    assert!(!rest.contains(&b'^'), "one mark only");
    (rest, place)
}

/// Asserts that a marked text is refused with a number at its mark, over an image.
pub fn refused_over(number: u8, text: impl AsRef<[u8]>, image: &[u8]) {
    let (text, place) = unmark(text.as_ref());
    let found = load(&text, image, BASE, 1);
    let shown = String::from_utf8_lossy(&text).into_owned();
    assert_eq!(found.err(), Some(Refusal { number, place }), "{shown}");
}

/// Asserts that a marked text is refused with a number at its mark.
pub fn refused(number: u8, text: impl AsRef<[u8]>) {
    refused_over(number, text, &ZEROS);
}

/// Asserts that a marked MODULE content is refused with a number at its mark.
pub fn refused_in(number: u8, body: &str) {
    refused(number, module(body));
}

/// Asserts that a text is accepted over an image, and that its tables keep the rule.
pub fn accepted_over(text: impl AsRef<[u8]>, image: &[u8]) -> Vec<u64> {
    accepted_edition(text, image, 1)
}

/// Asserts that a text of an edition is accepted over an image, and that its tables keep the rule.
pub fn accepted_edition(text: impl AsRef<[u8]>, image: &[u8], edition: u32) -> Vec<u64> {
    let text = text.as_ref();
    match load(text, image, BASE, edition) {
        Ok(cells) => {
            assert_eq!(cells.len(), CELLS);
            assert!(keeps_rule(&cells, text.len(), image.len()));
            cells
        }
        Err(refusal) => panic!("{refusal:?} at ...{}", String::from_utf8_lossy(&text[refusal.place.min(text.len())..])),
    }
}

/// Asserts that a text is accepted.
pub fn accepted(text: impl AsRef<[u8]>) -> Vec<u64> {
    accepted_over(text, &ZEROS)
}

/// Asserts that a MODULE content is accepted.
pub fn accepted_in(body: &str) -> Vec<u64> {
    accepted(module(body))
}

/// A loaded description with its image and its list.
pub struct Set {
    pub text: Vec<u8>,
    pub image: Vec<u8>,
    pub cells: Vec<u64>,
    pub lines: Vec<Line>,
}

impl Set {
    /// Loads a MODULE content over an image and makes its list.
    pub fn new(body: &str, image: &[u8]) -> Set {
        Set::of_edition(body, image, 1)
    }

    /// Loads a MODULE content of an edition over an image and makes its list.
    pub fn of_edition(body: &str, image: &[u8], edition: u32) -> Set {
        let text = module(body).into_bytes();
        let cells = accepted_edition(&text, image, edition);
        let mut set = Set { text, image: image.to_vec(), lines: vec![Line::default(); cells[3] as usize], cells };
        set.lines = set.fresh();
        set
    }

    /// The list made anew.
    pub fn fresh(&self) -> Vec<Line> {
        let mut lines = vec![Line::default(); self.cells[3] as usize];
        make_list(&self.text, &self.image, BASE, &self.cells, &mut lines).unwrap();
        lines
    }

    /// The listing as text.
    pub fn listing(&self) -> String {
        String::from_utf8(listing(&self.text, &self.image, BASE, &self.cells, &self.lines).unwrap()).unwrap()
    }

    /// The listing's lines without the header.
    pub fn rows(&self) -> Vec<String> {
        self.listing().lines().skip(1).map(|row| row.replace('\t', " ")).collect()
    }

    /// Reads one element.
    pub fn read(&self, object: u32, part: u8, index: u32) -> Result<(Line, Shown), u8> {
        read(&self.text, &self.image, BASE, &self.cells, object, part, index)
    }

    /// Writes a raw value and asserts what every write promises.
    pub fn raw(&mut self, object: u32, part: u8, index: u32, value: i64) -> Result<(), u8> {
        let before = (self.image.clone(), self.lines.clone());
        let answer =
            write_raw(&self.text, &mut self.image, BASE, &self.cells, &mut self.lines, object, part, index, value);
        self.after(answer, before)
    }

    /// Writes a physical value and asserts what every write promises.
    pub fn physical(&mut self, object: u32, part: u8, index: u32, asked: &str) -> Result<(), u8> {
        let before = (self.image.clone(), self.lines.clone());
        let answer = write_physical(
            &self.text,
            &mut self.image,
            BASE,
            &self.cells,
            &mut self.lines,
            object,
            part,
            index,
            asked.as_bytes(),
        );
        self.after(answer, before)
    }

    /// After a write: the list is fresh if accepted, nothing has moved if refused.
    fn after(&self, answer: Result<(), u8>, before: (Vec<u8>, Vec<Line>)) -> Result<(), u8> {
        match answer {
            Ok(()) => assert_eq!(self.lines, self.fresh()),
            Err(_) => assert_eq!((&self.image, &self.lines), (&before.0, &before.1)),
        }
        answer
    }
}

/// A method with COEFFS, or whatever else follows its kind.
pub fn method(kind: &str, rest: &str) -> String {
    format!("/begin COMPU_METHOD C \"\" {kind} \"%5.2\" \"V\" {rest} /end COMPU_METHOD ")
}

/// A layout with these parts.
pub fn layout(parts: &str) -> String {
    format!("/begin RECORD_LAYOUT L {parts} /end RECORD_LAYOUT ")
}

/// A VALUE object V at the base with a type, a conversion, limits and more.
pub fn value(data_type: &str, conversion: &str, limits: &str, more: &str) -> String {
    layout(&format!("FNC_VALUES 1 {data_type} ROW_DIR DIRECT"))
        + &format!("/begin CHARACTERISTIC V \"\" VALUE 0x1000 L 0 {conversion} {limits} {more} /end CHARACTERISTIC ")
}

/// A MEASUREMENT with a name at an address.
pub fn measurement(name: &str, data_type: &str, address: u32) -> String {
    format!(
        "/begin MEASUREMENT {name} \"\" {data_type} NO_COMPU_METHOD 0 0 0 0 ECU_ADDRESS {address} /end MEASUREMENT "
    )
}

/// A stored axis description of at most so many points.
pub fn std_axis(most: u32) -> String {
    format!("/begin AXIS_DESCR STD_AXIS NO_INPUT_QUANTITY NO_COMPU_METHOD {most} 0 100 /end AXIS_DESCR ")
}

/// A shared axis description of at most so many points.
pub fn com_axis(most: u32, name: &str) -> String {
    format!(
        "/begin AXIS_DESCR COM_AXIS NO_INPUT_QUANTITY NO_COMPU_METHOD {most} 0 100 AXIS_PTS_REF {name} /end AXIS_DESCR "
    )
}

/// A CHARACTERISTIC O at an address with layout L.
pub fn object(kind: &str, address: u32, more: &str) -> String {
    format!("/begin CHARACTERISTIC O \"\" {kind} {address} L 0 NO_COMPU_METHOD 0 100 {more} /end CHARACTERISTIC ")
}

/// A shared axis of at most so many points with a layout's name.
pub fn axis_pts(name: &str, address: u32, deposit: &str, most: u32) -> String {
    format!(
        "/begin AXIS_PTS {name} \"\" {address} NO_INPUT_QUANTITY {deposit} 0 NO_COMPU_METHOD {most} 0 100 /end AXIS_PTS "
    )
}
