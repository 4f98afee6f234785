//! What a description says, as the parser leaves it.
use crate::number::Decimal;
use crate::token::Span;
use std::collections::HashMap;

/// The most objects, methods, verbal tables, layouts, entries, axis points, elements.
pub const MOST_OBJECTS: usize = 512;
pub const MOST_METHODS: usize = 128;
pub const MOST_TABLES: usize = 128;
pub const MOST_LAYOUTS: usize = 64;
pub const MOST_ENTRIES: usize = 1024;
pub const MOST_POINTS: u64 = 256;
pub const MOST_ELEMENTS: u64 = 4096;

/// The six data types; the number is the table's code.
#[derive(Clone, Copy, PartialEq, Eq, Debug)]
pub enum DataType {
    UByte = 1,
    SByte = 2,
    UWord = 3,
    SWord = 4,
    ULong = 5,
    SLong = 6,
}

impl DataType {
    /// The data type with a table's code.
    pub fn from_code(code: u64) -> Option<DataType> {
        use DataType::*;
        [UByte, SByte, UWord, SWord, ULong, SLong].into_iter().find(|&it| it as u64 == code)
    }

    /// Its size in bytes.
    pub fn bytes(self) -> u64 {
        match self {
            DataType::UByte | DataType::SByte => 1,
            DataType::UWord | DataType::SWord => 2,
            DataType::ULong | DataType::SLong => 4,
        }
    }

    /// Whether it is signed.
    pub fn signed(self) -> bool {
        matches!(self, DataType::SByte | DataType::SWord | DataType::SLong)
    }

    /// Which alignment word is for it: byte, word or long.
    pub fn align_word(self) -> usize {
        match self.bytes() {
            1 => 0,
            2 => 1,
            _ => 2,
        }
    }

    /// Its lowest and highest raw value.
    pub fn range(self) -> (i128, i128) {
        let bits = self.bytes() * 8;
        if self.signed() {
            (-(1i128 << (bits - 1)), (1i128 << (bits - 1)) - 1)
        } else {
            (0, (1i128 << bits) - 1)
        }
    }
}

/// The six kinds of object; the number is the table's code.
#[derive(Clone, Copy, PartialEq, Eq, Debug)]
pub enum ObjectKind {
    AxisPts = 7,
    Measurement = 10,
    Value = 15,
    ValBlk = 16,
    Curve = 17,
    Map = 18,
}

impl ObjectKind {
    /// The kind of object with a table's code.
    pub fn from_code(code: u64) -> Option<ObjectKind> {
        use ObjectKind::*;
        [AxisPts, Measurement, Value, ValBlk, Curve, Map].into_iter().find(|&it| it as u64 == code)
    }
}

/// A lower and an upper limit.
#[derive(Clone, Copy, PartialEq, Eq, Debug)]
pub struct Limits {
    pub lower: Decimal,
    pub upper: Decimal,
}

/// An AXIS_DESCR; a shared axis names its AXIS_PTS.
#[derive(Clone, Debug)]
pub struct Axis {
    pub shared: Option<Span>,
    pub conversion: Option<Span>,
    pub most: u64,
    pub limits: Limits,
    pub read_only: bool,
}

/// An object of any kind; fields that its kind has not are empty.
#[derive(Clone, Debug)]
pub struct Object {
    pub name: Span,
    pub kind: ObjectKind,
    pub address: u64,
    pub layout: Option<Span>,
    pub data_type: Option<DataType>,
    pub conversion: Option<Span>,
    pub limits: Limits,
    pub most: u64,
    pub mask: Option<u64>,
    pub msb_first: Option<bool>,
    pub read_only: bool,
    pub axes: Vec<Axis>,
}

/// One part of a layout; `turned` is INDEX_DECR for an axis, COLUMN_DIR for values.
#[derive(Clone, Copy, Debug)]
pub struct Part {
    pub position: u64,
    pub data_type: DataType,
    pub turned: bool,
}

/// A RECORD_LAYOUT: its parts (x, y) and its alignment words (byte, word, long).
#[derive(Clone, Default, Debug)]
pub struct Layout {
    pub values: Option<Part>,
    pub axis: [Option<Part>; 2],
    pub count: [Option<Part>; 2],
    pub align: [Option<u64>; 3],
}

/// A conversion as written.
#[derive(Clone, Debug)]
pub enum Conversion {
    Identical,
    Linear([Decimal; 2]),
    RatFunc([Decimal; 6]),
    TabVerb(Span),
}

/// A COMPU_METHOD.
#[derive(Clone, Debug)]
pub struct Method {
    pub name: Span,
    pub conversion: Conversion,
}

/// A COMPU_VTAB: its first entry, how many, its default text.
#[derive(Clone, Debug)]
pub struct Table {
    pub first: usize,
    pub many: usize,
    pub default: Option<Span>,
}

/// One verbal entry: its number (power 0) and its text.
#[derive(Clone, Copy, Debug)]
pub struct Entry {
    pub number: Decimal,
    pub text: Span,
}

/// What a reference must lead to.
#[derive(Clone, Copy, PartialEq, Eq, Debug)]
pub enum Target {
    Method,
    Table,
    Layout,
    Measurement,
    AxisPts,
}

/// Names of one kind of thing and their numbers in text order.
pub type Names<'a> = HashMap<&'a [u8], usize>;

/// The whole description.
#[derive(Default)]
pub struct Model<'a> {
    pub text: &'a [u8],
    pub msb_first: Option<bool>,
    pub align: [Option<u64>; 3],
    pub objects: Vec<Object>,
    pub methods: Vec<Method>,
    pub tables: Vec<Table>,
    pub entries: Vec<Entry>,
    pub layouts: Vec<Layout>,
    pub object_names: Names<'a>,
    pub method_names: Names<'a>,
    pub table_names: Names<'a>,
    pub layout_names: Names<'a>,
    pub references: Vec<(Target, Span)>,
}

impl<'a> Model<'a> {
    /// The bytes of a stretch of the text.
    pub fn bytes(&self, span: Span) -> &'a [u8] {
        &self.text[span.from..span.past]
    }

    /// The number of what a reference leads to, if it leads anywhere.
    pub fn find(&self, target: Target, span: Span) -> Option<usize> {
        let names = match target {
            Target::Method => &self.method_names,
            Target::Table => &self.table_names,
            Target::Layout => &self.layout_names,
            Target::Measurement | Target::AxisPts => &self.object_names,
        };
        let number = *names.get(self.bytes(span))?;
        let fits = match target {
            Target::Measurement => self.objects[number].kind == ObjectKind::Measurement,
            Target::AxisPts => self.objects[number].kind == ObjectKind::AxisPts,
            _ => true,
        };
        if fits {
            Some(number)
        } else {
            None
        }
    }
}
