//! Descriptions made at random, with images that fit them.
use crate::rng::Rng;
use crate::spell::{decimal, spelled, with_exponent};
use crate::steps::{self, Steps, IDENTICAL};
use crate::token::*;
use std::collections::HashSet;

/// A description as tokens, its image and its base address.
pub struct Made {
    pub tokens: Vec<Token>,
    pub image: Vec<u8>,
    pub base: u32,
}

/// A data type: its word, its size, whether it is signed.
#[derive(Clone, Copy)]
struct Type(&'static str, u64, bool);

impl Type {
    /// Its lowest and highest raw number, or those that a mask leaves (0: no mask).
    fn raws(self, mask: u64) -> (i64, i64) {
        let bits = 8 * self.1;
        match (mask, self.2) {
            (0, true) => (-(1 << (bits - 1)), (1 << (bits - 1)) - 1),
            (0, false) => (0, (1 << bits) - 1),
            _ => (0, (mask >> mask.trailing_zeros()) as i64),
        }
    }
}

/// The six data types.
const TYPES: [Type; 6] = [
    Type("UBYTE", 1, false),
    Type("SBYTE", 1, true),
    Type("UWORD", 2, false),
    Type("SWORD", 2, true),
    Type("ULONG", 4, false),
    Type("SLONG", 4, true),
];

/// What a part of a layout is.
#[derive(Clone, Copy, PartialEq)]
enum What {
    Count(usize),
    Axis(usize),
    Values,
}

/// A part of a layout.
#[derive(Clone, Copy)]
struct Part {
    what: What,
    data: Type,
}

/// A layout: its name, which axes it stores, whether it has values, its parts in order of Position.
#[derive(Clone)]
struct Layout {
    name: Vec<u8>,
    axes: [bool; 2],
    values: bool,
    parts: Vec<Part>,
    align: [Option<u64>; 3],
}

impl Layout {
    /// The data type of one of its parts.
    fn data(&self, what: What) -> Option<Type> {
        self.parts.iter().find(|it| it.what == what).map(|it| it.data)
    }

    /// The lowest and highest raw number of one of its parts; those of a byte where it is not stored.
    fn raws(&self, what: What, mask: u64) -> (i64, i64) {
        self.data(what).map_or((0, 255), |data| data.raws(mask))
    }
}

/// The generator's state.
struct Maker<'r> {
    rng: &'r mut Rng,
    objects: HashSet<Vec<u8>>,
    others: HashSet<Vec<u8>>,
    blocks: Vec<Vec<Token>>,
    /// The methods' names and steps; a verbal one has none.
    methods: Vec<(Vec<u8>, Option<Steps>)>,
    tables: Vec<Vec<u8>>,
    layouts: Vec<Layout>,
    axes: Vec<(Vec<u8>, u64)>,
    measurements: Vec<Vec<u8>>,
    msb_first: Option<bool>,
    align: [Option<u64>; 3],
    base: u64,
    image: Vec<u8>,
    noise: u64,
    overlap: u64,
    slips: u64,
    exponents: u64,
}

/// The words of document 000, as names and items.
fn word(rng: &mut Rng) -> Vec<u8> {
    plain::WORDS[rng.place(plain::WORDS.len())].0.as_bytes().to_vec()
}

/// A string with its quotes.
pub fn string(rng: &mut Rng) -> Vec<u8> {
    const INSIDE: [&[u8]; 14] = [
        b"",
        b"V",
        b"a text",
        b"\\\"",
        b"\"\"",
        b"/* none */",
        b"// none",
        b"\n",
        b"\t",
        b"\\n",
        b"\xC3\xBC\x00\xFF",
        b"/end MODULE",
        b"%6.3",
        b"ON",
    ];
    let mut bytes = vec![b'"'];
    for _ in 0..rng.below(3) {
        let inside = rng.pick(&INSIDE);
        bytes.extend(inside);
    }
    bytes.push(b'"');
    bytes
}

/// A whole number in one of its spellings.
fn whole(value: u64, rng: &mut Rng) -> String {
    match rng.below(10) {
        0 if value < 1 << 32 => format!("0x{value:X}"),
        1 if value < 1 << 32 => format!("0x{value:x}"),
        2 if value < 1 << 24 => format!("0x{value:08X}"),
        3 => format!("000{value}"),
        _ => value.to_string(),
    }
}

/// A coefficient: a whole number over a power of ten.
fn coefficient(rng: &mut Rng) -> (i64, u32) {
    const SOME: [(i64, u32); 18] = [
        (0, 0),
        (0, 0),
        (1, 0),
        (1, 0),
        (-1, 0),
        (2, 0),
        (10, 0),
        (1000, 0),
        (5, 1),
        (1, 3),
        (60, 0),
        (-40, 0),
        (1, 6),
        (1_000_000_000, 0),
        (-1_000_000_000, 0),
        (25, 2),
        (-3, 0),
        (999_999_999, 0),
    ];
    if rng.one_in(3) {
        let value = rng.below(4000) as i64 - 2000;
        return (value, rng.below(4) as u32);
    }
    rng.pick(&SOME)
}

/// Decimals made whole at the greatest of their powers.
fn made_whole<const MANY: usize>(decimals: [(i64, u32); MANY]) -> [i128; MANY] {
    let power = decimals.iter().map(|it| it.1).max().unwrap_or(0);
    decimals.map(|(whole, own)| whole as i128 * 10i128.pow(power - own))
}

/// Makes a description and an image that fits it.
pub fn make(rng: &mut Rng) -> Made {
    let base = match rng.below(8) {
        0 => 0,
        1 => 1,
        2 => 0x8000_0003,
        3 => (1 << 32) - rng.range(8, 120),
        4 => rng.below(1 << 32),
        _ => 0x1000,
    };
    let noise = rng.pick(&[4, 8, 30, 1000]);
    let overlap = rng.pick(&[2, 6, 6, 20]);
    let slips = rng.pick(&[40, 400, 100_000, 100_000]);
    let exponents = rng.pick(&[1, 2, 2, 4, 100_000]);
    let mut maker = Maker {
        rng,
        objects: HashSet::new(),
        others: HashSet::new(),
        blocks: Vec::new(),
        methods: Vec::new(),
        tables: Vec::new(),
        layouts: Vec::new(),
        axes: Vec::new(),
        measurements: Vec::new(),
        msb_first: None,
        align: [None; 3],
        base,
        image: Vec::new(),
        noise,
        overlap,
        slips,
        exponents,
    };
    maker.module();
    let tokens = maker.file();
    let mut image = std::mem::take(&mut maker.image);
    let Maker { rng, .. } = maker;
    let room = (1u64 << 32) - base;
    if room < 200 {
        // The image ends at 2^32 or goes past it.
        if !rng.one_in(4) {
            let fill = rng.next() as u8;
            image.resize(room as usize, fill);
        }
    } else if rng.one_in(2) {
        for _ in 0..rng.below(5) {
            image.push(rng.next() as u8);
        }
    }
    Made { tokens, image, base: base as u32 }
}

impl Maker<'_> {
    // ---- words ----

    /// A name, new among objects or among all other things.
    fn name(&mut self, object: bool) -> Vec<u8> {
        loop {
            let number = self.rng.below(1000);
            let name = match self.rng.below(17) {
                0 => word(self.rng),
                1 => b"A".to_vec(),
                2 => format!("_x[{number}].b").into_bytes(),
                3 => format!("{}{number:03}", "N".repeat(125)).into_bytes(),
                4 => format!("ENGINE.CONTROL.UNIT.SPEED_{number}").into_bytes(),
                5 => b"NO_COMPU_METHOD".to_vec(),
                6 => b"NO_INPUT_QUANTITY".to_vec(),
                7 => format!("a{}", number % 5).into_bytes(),
                8 => format!("A{}", number % 5).into_bytes(),
                9 => b"A..[".to_vec(),
                10 => format!("{}{}", (b'A' + (number % 26) as u8) as char, "N".repeat(127)).into_bytes(),
                _ => format!("OBJ_{number}").into_bytes(),
            };
            let names = if object { &mut self.objects } else { &mut self.others };
            if names.insert(name.clone()) {
                return name;
            }
        }
    }

    /// True where something is to be left out, put in or put wrong.
    fn slip(&mut self) -> bool {
        self.rng.one_in(self.slips)
    }

    /// A text token.
    fn text(&mut self) -> Token {
        token(Kind::Text, string(self.rng))
    }

    /// A whole number token.
    fn whole(&mut self, kind: Kind, value: u64) -> Token {
        token(kind, whole(value, self.rng))
    }

    /// A decimal token, with an exponent or without.
    fn decimal(&mut self, kind: Kind, (value, power): (i64, u32)) -> Token {
        if self.rng.one_in(self.exponents) {
            let bytes = with_exponent(value, power, self.rng).into_bytes();
            return Token { kind, bytes, without: Some(decimal(value, power).into_bytes()) };
        }
        token(kind, spelled(value, power, self.rng))
    }

    /// A MaxDiff or an Accuracy, which say nothing.
    fn said(&mut self) -> Token {
        const SOME: [(i64, u32); 8] =
            [(0, 0), (0, 0), (5, 1), (1, 6), (-1, 0), (9_999_999_999, 0), (-9_999_999_999, 6), (100, 0)];
        let value = self.rng.pick(&SOME);
        self.decimal(Kind::Decimal, value)
    }

    /// Two limit tokens in order: at steps of a conversion for raw numbers of a range, or any.
    fn limits(&mut self, steps: Option<Steps>, raws: (i64, i64)) -> Vec<Token> {
        let at_steps = match steps {
            Some(steps) if steps.close.is_some() || !self.rng.one_in(3) => steps::limits(steps, raws, self.rng),
            _ => None,
        };
        let [lower, upper] = at_steps.unwrap_or_else(|| self.any_limits());
        vec![self.decimal(Kind::Lower, lower), self.decimal(Kind::Upper, upper)]
    }

    /// Two limits in order.
    fn any_limits(&mut self) -> [(i64, u32); 2] {
        const SOME: [[(i64, u32); 2]; 12] = [
            [(0, 0), (100, 0)],
            [(0, 0), (65535, 0)],
            [(-32768, 0), (32767, 0)],
            [(-1_000_000_000, 0), (1_000_000_000, 0)],
            [(0, 0), (4_294_967_295, 0)],
            [(-9_999_999_999, 0), (9_999_999_999, 0)],
            [(-40, 0), (875, 1)],
            [(5, 1), (5, 1)],
            [(0, 0), (0, 0)],
            [(-5, 1), (5, 1)],
            [(-9_999_999_999, 6), (9_999_999_999, 6)],
            [(-1_000_000, 0), (1_000_000, 0)],
        ];
        if self.rng.one_in(4) {
            let low = self.rng.below(3000) as i64 - 1500;
            let power = self.rng.below(4) as u32;
            return [(low, power), (low + self.rng.below(2000) as i64, power)];
        }
        self.rng.pick(&SOME)
    }

    /// A conversion for raw numbers of a range: its name and its steps; a verbal one has none.
    fn conversion(&mut self, raws: (i64, i64)) -> (Token, Option<Steps>) {
        if self.rng.one_in(if raws.1 >= i32::MAX as i64 { 2 } else { 6 }) {
            // One of its own, whose fractions have great numbers.
            let steps = steps::great_made(raws, self.rng);
            let group = self.coeffs(steps.factors.map(|whole| (whole as i64, 0)));
            let name = self.add_method("RAT_FUNC", vec![group], Some(steps));
            return (token(Kind::Ref, name), Some(steps));
        }
        if self.methods.is_empty() || self.rng.one_in(6) {
            return (token(Kind::Ref, "NO_COMPU_METHOD"), Some(Steps { factors: IDENTICAL, close: None }));
        }
        let (name, steps) = self.rng.pick(&self.methods);
        (token(Kind::Ref, name), steps)
    }

    /// An input quantity.
    fn quantity(&mut self) -> Token {
        if self.slip() && !self.axes.is_empty() {
            let (name, _) = self.rng.pick(&self.axes);
            return token(Kind::Ref, name);
        }
        if self.measurements.is_empty() || self.rng.one_in(2) {
            return token(Kind::Ref, "NO_INPUT_QUANTITY");
        }
        let name = self.rng.pick(&self.measurements);
        token(Kind::Ref, name)
    }

    // ---- what is skipped ----

    /// A skipped keyword with its parameters.
    fn skipped_keyword(&mut self) -> Vec<Token> {
        match self.rng.below(5) {
            0 => vec![keyword("FORMAT"), self.text()],
            1 => vec![keyword("PHYS_UNIT"), self.text()],
            2 => {
                let name = word(self.rng);
                vec![keyword("DISPLAY_IDENTIFIER"), token(Kind::Ref, name)]
            }
            3 => vec![keyword("ASAP2_VERSION"), self.whole(Kind::Uint, 1), self.whole(Kind::Uint, 65535)],
            _ => vec![keyword("A2ML_VERSION"), self.whole(Kind::Uint, 0), self.whole(Kind::Uint, 61)],
        }
    }

    /// An item of a skipped block.
    fn item(&mut self) -> Token {
        const ITEMS: [&str; 14] =
            ["x", "0x", "-", ";", "{}", "a/b", "/", "5.5.5", "/BEGIN", "/end;", "\\", "IF_DATA", "/beginX", "~!"];
        match self.rng.below(4) {
            0 => self.text(),
            1 => token(Kind::Item, word(self.rng)),
            _ => token(Kind::Item, self.rng.pick(&ITEMS)),
        }
    }

    /// A skipped block at a depth, PROJECT being 1.
    fn skipped_block(&mut self, depth: u32) -> Vec<Token> {
        const BLOCKS: [&str; 8] =
            ["A2ML", "IF_DATA", "ANNOTATION", "GROUP", "FUNCTION", "FUNCTION_LIST", "MOD_PAR", "HEADER"];
        let word = self.rng.pick(&BLOCKS);
        let inside = if word == "A2ML" { self.a2ml() } else { self.skipped_inside(depth) };
        block(word, inside)
    }

    /// What stands inside a skipped block.
    fn skipped_inside(&mut self, depth: u32) -> Vec<Token> {
        const TAGS: [&str; 6] = ["XCP", "IF_DATA", "a;b", "5", "A2ML", "MODULE"];
        let mut tokens = Vec::new();
        let straight_down = self.rng.one_in(24);
        if straight_down {
            let most = if self.rng.one_in(4) { 17 } else { 16 };
            if depth < most {
                let inner = self.down(depth + 1, most);
                tokens.extend(inner);
            }
            return tokens;
        }
        for _ in 0..self.rng.below(5) {
            if depth < 15 && self.rng.one_in(4) {
                let tag = self.rng.pick(&TAGS);
                let inside = if tag == "A2ML" { self.a2ml() } else { self.skipped_inside(depth + 1) };
                tokens.push(token(Kind::Begin, "/begin"));
                tokens.push(token(Kind::Item, tag));
                tokens.extend(inside);
                tokens.push(token(Kind::End, "/end"));
                tokens.push(token(Kind::Item, tag));
            } else {
                tokens.push(self.item());
            }
        }
        tokens
    }

    /// Blocks inside each other, straight down to a depth.
    fn down(&mut self, depth: u32, most: u32) -> Vec<Token> {
        let inside = if depth < most { self.down(depth + 1, most) } else { vec![self.item()] };
        block("D", inside)
    }

    /// What stands inside A2ML.
    fn a2ml(&mut self) -> Vec<Token> {
        const ITEMS: [&str; 10] =
            ["block", "struct", "{", "};/end", "A2ML", "/begin", "taggedunion", "/end", "uint;", "A2ML;"];
        let mut tokens: Vec<Token> = Vec::new();
        for _ in 0..self.rng.below(6) {
            let item = if self.rng.one_in(4) { self.text() } else { token(Kind::Item, self.rng.pick(&ITEMS)) };
            let would_end = item.bytes == b"A2ML" && tokens.last().is_some_and(|it| it.bytes == b"/end");
            if !would_end {
                tokens.push(item);
            }
        }
        if tokens.last().is_some_and(|it| it.bytes == b"/end") {
            tokens.push(token(Kind::Item, "x"));
        }
        tokens
    }

    /// A keyword with its parameters, or a block, that has no meaning in most blocks.
    fn misplaced(&mut self) -> Vec<Token> {
        let groups = crate::damage::GROUPS;
        let words = groups[self.rng.place(groups.len())].split(' ');
        words.map(|word| token(Kind::Item, word)).collect()
    }

    /// Optional groups in a random order, skipped things between them.
    fn optional(&mut self, mut groups: Vec<Vec<Token>>, axes: Vec<Vec<Token>>, depth: u32) -> Vec<Token> {
        while self.rng.one_in(self.noise) {
            let group = if self.rng.one_in(2) { self.skipped_keyword() } else { self.skipped_block(depth + 1) };
            groups.push(group);
        }
        if self.slip() && !groups.is_empty() {
            groups.remove(self.rng.place(groups.len()));
        }
        if self.slip() && !groups.is_empty() {
            let again = self.rng.pick(&groups);
            groups.push(again);
        }
        if self.slip() {
            let more = self.misplaced();
            groups.push(more);
        }
        // Axes keep their order: an empty group marks where the next one stands.
        groups.extend(axes.iter().map(|_| Vec::new()));
        self.rng.shuffle(&mut groups);
        let mut axes = axes.into_iter();
        let mut tokens = Vec::new();
        for group in groups {
            if group.is_empty() {
                tokens.extend(axes.next().unwrap_or_default());
            } else {
                tokens.extend(group);
            }
        }
        tokens
    }

    // ---- blocks ----

    /// The whole file around the module's blocks.
    fn file(&mut self) -> Vec<Token> {
        if !self.rng.one_in(4) {
            let mut blocks = std::mem::take(&mut self.blocks);
            self.rng.shuffle(&mut blocks);
            self.blocks = blocks;
        }
        let mut inside = vec![token(Kind::Choice, "M"), self.text()];
        let blocks = std::mem::take(&mut self.blocks);
        for one in blocks {
            inside.extend(one);
            if self.rng.one_in(self.noise) {
                let more = self.optional(Vec::new(), Vec::new(), 2);
                inside.extend(more);
            }
        }
        let module = block("MODULE", inside);
        let mut project = vec![token(Kind::Choice, "P"), self.text()];
        let around = self.optional(vec![module], Vec::new(), 1);
        project.extend(around);
        let mut tokens = Vec::new();
        while self.rng.one_in(3) {
            let word = self.rng.pick(&["ASAP2_VERSION", "A2ML_VERSION"]);
            tokens.extend([keyword(word), self.whole(Kind::Uint, 1), self.whole(Kind::Uint, 61)]);
        }
        tokens.extend(block("PROJECT", project));
        tokens
    }

    /// Everything that stands in the module.
    fn module(&mut self) {
        if self.rng.one_in(2) {
            self.mod_common();
        }
        for _ in 0..self.rng.below(3) {
            self.vtab();
        }
        for _ in 0..self.rng.below(5) {
            self.method();
        }
        for _ in 0..self.rng.below(3) {
            self.measurement();
        }
        for _ in 0..self.rng.below(3) {
            self.axis_pts();
        }
        let packed = self.rng.one_in(2);
        if packed {
            self.packed();
        }
        for _ in 0..self.rng.below(if packed { 4 } else { 6 }) {
            self.characteristic();
        }
        if self.rng.one_in(4) {
            let axis = self.rng.one_in(2);
            self.layout([axis, false], true);
        }
    }

    /// MOD_COMMON.
    fn mod_common(&mut self) {
        let mut groups = Vec::new();
        if self.rng.one_in(2) {
            let first = self.rng.one_in(2);
            self.msb_first = Some(first);
            groups.push(order(first));
        }
        self.align = self.alignments(&mut groups);
        let mut inside = vec![self.text()];
        let rest = self.optional(groups, Vec::new(), 3);
        inside.extend(rest);
        self.blocks.push(block("MOD_COMMON", inside));
    }

    /// Some alignment words.
    fn alignments(&mut self, groups: &mut Vec<Vec<Token>>) -> [Option<u64>; 3] {
        const WORDS: [&str; 3] = ["ALIGNMENT_BYTE", "ALIGNMENT_WORD", "ALIGNMENT_LONG"];
        let mut align = [None; 3];
        for (slot, word) in align.iter_mut().zip(WORDS) {
            if self.rng.one_in(4) {
                let border = self.rng.pick(&[1, 2, 4, 8]);
                *slot = Some(border);
                let number = self.whole(Kind::Align, border);
                groups.push(vec![keyword(word), number]);
            }
        }
        align
    }

    /// COMPU_VTAB.
    fn vtab(&mut self) {
        let name = self.name(false);
        let mut numbers = HashSet::new();
        for _ in 0..self.rng.below(6) {
            let number = match self.rng.below(4) {
                0 => self.rng.below(256) as i64,
                1 => self.rng.pick(&[-1, -128, 10, 100, 255, 65535, 9_999_999_999, -9_999_999_999, 4_294_967_295]),
                _ => self.rng.below(6) as i64,
            };
            numbers.insert(number);
        }
        let mut numbers: Vec<i64> = numbers.into_iter().collect();
        numbers.sort();
        self.rng.shuffle(&mut numbers);
        let mut inside = vec![token(Kind::Def, &name), self.text(), choice("TAB_VERB")];
        inside.push(self.whole(Kind::Pairs, numbers.len() as u64));
        for number in numbers {
            inside.push(self.decimal(Kind::Entry, (number, 0)));
            inside.push(self.text());
        }
        let mut groups = Vec::new();
        if self.rng.one_in(2) {
            groups.push(vec![keyword("DEFAULT_VALUE"), self.text()]);
        }
        let rest = self.optional(groups, Vec::new(), 3);
        inside.extend(rest);
        self.blocks.push(block("COMPU_VTAB", inside));
        self.tables.push(name);
    }

    /// COMPU_METHOD.
    fn method(&mut self) {
        let mut groups = Vec::new();
        let mut steps = Some(Steps { factors: IDENTICAL, close: None });
        let kind = match self.rng.below(8) {
            0 => "IDENTICAL",
            1 | 2 => {
                let mut group = vec![keyword("COEFFS_LINEAR")];
                let (mut first, second) = (coefficient(self.rng), coefficient(self.rng));
                if first.0 == 0 && !self.rng.one_in(8) {
                    first = (5, 1);
                }
                group.push(self.decimal(Kind::Coeff, first));
                group.push(self.decimal(Kind::Coeff, second));
                groups.push(group);
                let [one, first, second] = made_whole([(1, 0), first, second]);
                steps = Some(Steps { factors: [one, -second, 0, first], close: None });
                "LINEAR"
            }
            3 | 4 if !self.tables.is_empty() => {
                let table = self.rng.pick(&self.tables);
                groups.push(vec![keyword("COMPU_TAB_REF"), token(Kind::Ref, table)]);
                steps = None;
                "TAB_VERB"
            }
            _ => {
                let (four, made) = self.rat_func();
                groups.push(self.coeffs(four));
                steps = Some(made);
                "RAT_FUNC"
            }
        };
        self.add_method(kind, groups, steps);
    }

    /// Adds a COMPU_METHOD of a kind; its name.
    fn add_method(&mut self, kind: &str, groups: Vec<Vec<Token>>, steps: Option<Steps>) -> Vec<u8> {
        let name = self.name(false);
        let mut inside = vec![token(Kind::Def, &name), self.text(), choice(kind), self.text(), self.text()];
        let rest = self.optional(groups, Vec::new(), 3);
        inside.extend(rest);
        self.blocks.push(block("COMPU_METHOD", inside));
        self.methods.push((name.clone(), steps));
        name
    }

    /// The coefficients b, c, e, f and their steps: any that mostly keep their rule, or made for their steps.
    fn rat_func(&mut self) -> ([(i64, u32); 4], Steps) {
        if self.rng.one_in(2) {
            let raws = self.rng.pick(&TYPES).raws(0);
            let steps = steps::made(raws, self.rng);
            return (steps.factors.map(|whole| (whole as i64, 0)), steps);
        }
        loop {
            let four = [(); 4].map(|()| coefficient(self.rng));
            let factors = made_whole(four);
            if steps::allowed(factors) || self.rng.one_in(60) {
                return (four, Steps { factors, close: None });
            }
        }
    }

    /// COEFFS with b, c, e, f.
    fn coeffs(&mut self, [b, c, e, f]: [(i64, u32); 4]) -> Vec<Token> {
        let mut group = vec![keyword("COEFFS")];
        for value in [(0, 0), b, c, (0, 0), e, f] {
            group.push(self.decimal(Kind::Coeff, value));
        }
        group
    }

    /// A layout that stores these axes and values, an old one or a new one.
    fn layout(&mut self, axes: [bool; 2], values: bool) -> Layout {
        let fitting: Vec<Layout> =
            self.layouts.iter().filter(|it| it.axes == axes && it.values == values).cloned().collect();
        if !fitting.is_empty() && self.rng.one_in(2) {
            return self.rng.pick(&fitting);
        }
        let mut whats = Vec::new();
        if values {
            whats.push(What::Values);
        }
        for (axis, &stored) in axes.iter().enumerate() {
            if stored {
                whats.push(What::Axis(axis));
                if self.rng.one_in(2) {
                    whats.push(What::Count(axis));
                }
            }
        }
        let in_order = |whats: &[What]| {
            let at = |what| whats.iter().position(|&it| it == what);
            (0..2).all(|axis| match at(What::Count(axis)) {
                Some(count) => at(What::Axis(axis)) > Some(count) && (!values || at(What::Values) > Some(count)),
                None => true,
            })
        };
        self.rng.shuffle(&mut whats);
        let any_order = self.slip() || self.rng.one_in(40);
        while !any_order && !in_order(&whats) {
            self.rng.shuffle(&mut whats);
        }
        let mut position = self.rng.below(3);
        let mut parts = Vec::new();
        let mut groups = Vec::new();
        for what in whats {
            let part = Part { what, data: self.rng.pick(&TYPES) };
            parts.push(part);
            groups.push(self.part(part, position));
            position += if self.rng.one_in(40) { 300 } else { self.rng.range(1, 2) };
        }
        self.add_layout(axes, parts, groups)
    }

    /// A layout of values of a type alone, an old one or a new one.
    fn values_layout(&mut self, data: Type) -> Layout {
        let fits = |it: &&Layout| it.axes == [false; 2] && it.data(What::Values).is_some_and(|it| it.0 == data.0);
        if let Some(layout) = self.layouts.iter().find(fits) {
            return layout.clone();
        }
        let part = Part { what: What::Values, data };
        let position = self.rng.below(3);
        let groups = vec![self.part(part, position)];
        self.add_layout([false; 2], vec![part], groups)
    }

    /// A part of a layout.
    fn part(&mut self, Part { what, data }: Part, position: u64) -> Vec<Token> {
        let mut group = vec![keyword(part_word(what)), self.whole(Kind::Position, position), choice(data.0)];
        match what {
            What::Values => group.push(choice(self.rng.pick(&["ROW_DIR", "COLUMN_DIR"]))),
            What::Axis(_) => group.push(choice(self.rng.pick(&["INDEX_INCR", "INDEX_DECR"]))),
            What::Count(_) => {}
        }
        if !matches!(what, What::Count(_)) {
            group.push(choice("DIRECT"));
        }
        group
    }

    /// Adds a RECORD_LAYOUT that stores these axes, with its parts.
    fn add_layout(&mut self, axes: [bool; 2], parts: Vec<Part>, mut groups: Vec<Vec<Token>>) -> Layout {
        let align = self.alignments(&mut groups);
        let name = self.name(false);
        let mut inside = vec![token(Kind::Def, &name)];
        let rest = self.optional(groups, Vec::new(), 3);
        inside.extend(rest);
        self.blocks.push(block("RECORD_LAYOUT", inside));
        let values = parts.iter().any(|it| it.what == What::Values);
        let layout = Layout { name, axes, values, parts, align };
        self.layouts.push(layout.clone());
        layout
    }

    /// An address: behind what is placed, or over it.
    fn address(&mut self) -> u64 {
        let len = self.image.len() as u64;
        if len > 0 && self.rng.one_in(self.overlap) {
            return self.base + self.rng.below(len);
        }
        let gap = if self.rng.one_in(2) { 0 } else { self.rng.below(5) };
        self.base + len + gap
    }

    /// A byte of an image: often small.
    fn byte(&mut self) -> u8 {
        match self.rng.below(4) {
            0 => 0,
            1 => self.rng.below(8) as u8,
            2 => self.rng.pick(&[0xFF, 0x80, 0x7F, 1]),
            _ => self.rng.next() as u8,
        }
    }

    /// Makes the image reach over bytes at an address; gives their place.
    fn cover(&mut self, address: u64, bytes: u64) -> usize {
        let place = (address - self.base) as usize;
        while self.image.len() < place + bytes as usize {
            let byte = self.byte();
            self.image.push(byte);
        }
        place
    }

    /// Lays an object's parts out: chooses stored counts and writes them. Gives the points.
    fn lay_out(&mut self, layout: &Layout, address: u64, msb_first: bool, most: [u64; 2]) -> [u64; 2] {
        let mut points = most;
        let mut at = address;
        for (number, part) in layout.parts.iter().enumerate() {
            let Type(_, bytes, signed) = part.data;
            if number > 0 {
                let word = [0, 0, 1, 1, 2][bytes as usize];
                let border = layout.align[word].or(self.align[word]).unwrap_or(bytes);
                at = at.next_multiple_of(border);
            }
            match part.what {
                What::Count(axis) => {
                    let highest = if signed { (1u64 << (8 * bytes - 1)) - 1 } else { (1u64 << (8 * bytes)) - 1 };
                    let count = match self.rng.below(60) {
                        0 => 0,
                        1 => most[axis] + 1,
                        2..=20 => most[axis],
                        _ => self.rng.range(1, most[axis].min(12)),
                    };
                    let count = count.min(highest);
                    let place = self.cover(at, bytes);
                    for step in 0..bytes {
                        let shift = if msb_first { bytes - 1 - step } else { step };
                        self.image[place + step as usize] = (count >> (8 * shift)) as u8;
                    }
                    points[axis] = count.max(1);
                    at += bytes;
                }
                What::Axis(axis) => {
                    self.cover(at, bytes * points[axis]);
                    at += bytes * points[axis];
                }
                What::Values => {
                    self.cover(at, bytes * points[0] * points[1]);
                    at += bytes * points[0] * points[1];
                }
            }
        }
        points
    }

    /// A BYTE_ORDER of an object's own, sometimes; what holds then.
    fn byte_order(&mut self, groups: &mut Vec<Vec<Token>>) -> bool {
        if self.rng.one_in(3) {
            let first = self.rng.one_in(2);
            groups.push(order(first));
            return first;
        }
        self.msb_first.unwrap_or(false)
    }

    /// A BIT_MASK, sometimes; the mask or 0.
    fn mask(&mut self, data: Type, groups: &mut Vec<Vec<Token>>) -> u64 {
        if data.2 || !self.rng.one_in(3) {
            return 0;
        }
        let bits = 8 * data.1;
        let full = (1u64 << bits) - 1;
        let mask = match self.rng.below(4) {
            0 => full,
            1 => 1 << self.rng.below(bits),
            2 => (full >> self.rng.below(bits)) & (full << self.rng.below(bits)) & full,
            _ => self.rng.next() & full,
        };
        self.bit_mask(mask.max(1), groups)
    }

    /// BIT_MASK with its number, which it gives.
    fn bit_mask(&mut self, mask: u64, groups: &mut Vec<Vec<Token>>) -> u64 {
        let number = self.whole(Kind::Mask, mask);
        groups.push(vec![keyword("BIT_MASK"), number]);
        mask
    }

    /// MEASUREMENT.
    fn measurement(&mut self) {
        let name = self.name(true);
        let data = self.rng.pick(&TYPES);
        let (conversion, steps) = self.conversion(data.raws(0));
        let mut inside = vec![token(Kind::Def, &name), self.text(), choice(data.0), conversion];
        inside.push(self.whole(Kind::Uint, 1));
        inside.push(self.said());
        inside.extend(self.limits(steps, data.raws(0)));
        let mut groups = Vec::new();
        self.byte_order(&mut groups);
        self.mask(data, &mut groups);
        let address = self.address();
        self.cover(address, data.1);
        let number = self.whole(Kind::Address, address);
        groups.push(vec![keyword("ECU_ADDRESS"), number]);
        let rest = self.optional(groups, Vec::new(), 3);
        inside.extend(rest);
        self.blocks.push(block("MEASUREMENT", inside));
        self.measurements.push(name);
    }

    /// MaxAxisPoints, mostly few.
    fn most_points(&mut self) -> u64 {
        match self.rng.below(24) {
            0 => 256,
            1 => self.rng.range(7, 40),
            _ => self.rng.range(1, 5),
        }
    }

    /// AXIS_PTS.
    fn axis_pts(&mut self) {
        let name = self.name(true);
        let layout = self.layout([true, false], false);
        let mut groups = Vec::new();
        let msb_first = self.byte_order(&mut groups);
        if self.rng.one_in(5) {
            groups.push(vec![keyword("READ_ONLY")]);
        }
        let address = self.address();
        let most = self.most_points();
        let points = self.lay_out(&layout, address, msb_first, [most, 1]);
        let mut inside = vec![token(Kind::Def, &name), self.text(), self.whole(Kind::Address, address)];
        inside.push(self.quantity());
        inside.push(token(Kind::Deposit, &layout.name));
        inside.push(self.said());
        let raws = layout.raws(What::Axis(0), 0);
        let (conversion, steps) = self.conversion(raws);
        inside.push(conversion);
        inside.push(self.whole(Kind::Points, most));
        inside.extend(self.limits(steps, raws));
        let rest = self.optional(groups, Vec::new(), 3);
        inside.extend(rest);
        self.blocks.push(block("AXIS_PTS", inside));
        self.axes.push((name, points[0]));
    }

    /// AXIS_DESCR with raw numbers of a range, of a shared axis if there is one to name.
    fn axis_descr(&mut self, shared: Option<Vec<u8>>, most: u64, raws: (i64, i64)) -> Vec<Token> {
        let mut inside = vec![choice(if shared.is_some() { "COM_AXIS" } else { "STD_AXIS" })];
        inside.push(self.quantity());
        let (conversion, steps) = self.conversion(raws);
        inside.push(conversion);
        inside.push(self.whole(Kind::Points, most));
        inside.extend(self.limits(steps, raws));
        let mut groups = Vec::new();
        if let Some(mut name) = shared {
            if self.slip() && !self.measurements.is_empty() {
                name = self.rng.pick(&self.measurements);
            }
            groups.push(vec![keyword("AXIS_PTS_REF"), token(Kind::Ref, name)]);
        }
        if self.rng.one_in(6) {
            groups.push(vec![keyword("READ_ONLY")]);
        }
        let rest = self.optional(groups, Vec::new(), 4);
        inside.extend(rest);
        block("AXIS_DESCR", inside)
    }

    /// CHARACTERISTIC.
    fn characteristic(&mut self) {
        let (kind, axis_count) = self.rng.pick(&[("VALUE", 0), ("VAL_BLK", 0), ("CURVE", 1), ("MAP", 2)]);
        let mut stored = [false; 2];
        let mut most = [1, 1];
        let mut shared = [None, None];
        for axis in 0..axis_count {
            shared[axis] = if self.rng.one_in(2) && !self.axes.is_empty() {
                let (name, points) = self.rng.pick(&self.axes);
                most[axis] = points;
                Some(name)
            } else {
                stored[axis] = true;
                most[axis] = self.most_points();
                None
            };
        }
        let layout = self.layout(stored, true);
        let mut axes = Vec::new();
        for axis in 0..axis_count {
            let said = if shared[axis].is_none() {
                most[axis]
            } else if self.rng.one_in(40) && most[axis] > 1 {
                most[axis] - 1
            } else {
                (most[axis] + self.rng.below(3)).min(256)
            };
            let raws = layout.raws(What::Axis(axis), 0);
            let tokens = self.axis_descr(shared[axis].take(), said, raws);
            if !self.slip() {
                axes.push(tokens);
            }
        }
        if self.slip() {
            let tokens = self.axis_descr(None, 2, (0, 255));
            axes.push(tokens);
        }
        let mut groups = Vec::new();
        if kind == "VAL_BLK" {
            most[0] = if self.rng.one_in(20) { self.rng.range(20, 200) } else { self.rng.range(1, 8) };
            let number = self.whole(Kind::Number, most[0]);
            groups.push(vec![keyword("NUMBER"), number]);
        }
        let msb_first = self.byte_order(&mut groups);
        if self.rng.one_in(8) {
            groups.push(vec![keyword("READ_ONLY")]);
        }
        let mask = match layout.data(What::Values) {
            Some(data) => self.mask(data, &mut groups),
            None => 0,
        };
        let address = self.address();
        self.lay_out(&layout, address, msb_first, most);
        let meaning = self.meaning(layout.raws(What::Values, mask));
        let rest = self.optional(groups, axes, 3);
        self.add_characteristic(kind, address, &layout, meaning, rest);
    }

    /// A conversion and limits for raw numbers of a range.
    fn meaning(&mut self, raws: (i64, i64)) -> Vec<Token> {
        let (conversion, steps) = self.conversion(raws);
        let mut tokens = vec![conversion];
        tokens.extend(self.limits(steps, raws));
        tokens
    }

    /// No conversion, and limits that no raw number is outside of.
    fn wide_meaning(&mut self) -> Vec<Token> {
        let (lower, upper) = ((-9_999_999_999, 0), (9_999_999_999, 0));
        let limits = [self.decimal(Kind::Lower, lower), self.decimal(Kind::Upper, upper)];
        [&[token(Kind::Ref, "NO_COMPU_METHOD")], &limits[..]].concat()
    }

    /// Adds a CHARACTERISTIC of a kind at an address, by a layout, with a conversion and limits and with optional groups.
    fn add_characteristic(&mut self, kind: &str, address: u64, layout: &Layout, meaning: Vec<Token>, rest: Vec<Token>) {
        let name = self.name(true);
        let mut inside = vec![token(Kind::Def, &name), self.text(), choice(kind)];
        inside.push(self.whole(Kind::Address, address));
        inside.push(token(Kind::Deposit, &layout.name));
        inside.push(self.said());
        inside.extend(meaning);
        inside.extend(rest);
        self.blocks.push(block("CHARACTERISTIC", inside));
    }

    /// VALUEs over the same four bytes, each with a width, a place and a byte order of its own. Their masks have no bit
    /// in common while there are free ones: mostly in the image, else as numbers.
    fn packed(&mut self) {
        let address = self.address();
        let in_image = !self.rng.one_in(4);
        let mut taken = [0; 4];
        for _ in 0..self.rng.range(2, 4) {
            self.packed_value(address, in_image, &mut taken);
        }
    }

    /// A VALUE that takes some of the bits that four bytes have free.
    fn packed_value(&mut self, address: u64, in_image: bool, taken: &mut [u8; 4]) {
        // Mostly one of the unsigned types, which can have a mask.
        let data = if self.rng.one_in(8) { self.rng.pick(&TYPES) } else { TYPES[2 * self.rng.place(3)] };
        let width = data.1 as usize;
        let at = if self.rng.one_in(2) { 0 } else { self.rng.place(5 - width) };
        let msb_first = self.rng.one_in(2);
        let mut groups = vec![order(msb_first)];
        let free = match in_image {
            true => self.free_mask(msb_first, &mut taken[at..at + width]),
            false => self.free_mask(false, &mut taken[..width]),
        };
        let mask = self.packed_mask(free, data, &mut groups);
        if self.rng.one_in(12) {
            groups.push(vec![keyword("READ_ONLY")]);
        }
        let layout = self.values_layout(data);
        let address = address + at as u64;
        self.cover(address, data.1);
        let meaning = if self.rng.one_in(2) { self.wide_meaning() } else { self.meaning(data.raws(mask)) };
        let rest = self.optional(groups, Vec::new(), 3);
        self.add_characteristic("VALUE", address, &layout, meaning, rest);
    }

    /// Takes some of the bits that bytes have free: the mask that they are, in a byte order.
    fn free_mask(&mut self, msb_first: bool, bytes: &mut [u8]) -> u64 {
        let mut mask = 0;
        let last = bytes.len() - 1;
        for (step, taken) in bytes.iter_mut().enumerate() {
            let any = self.rng.next() as u8;
            let bits = self.rng.pick(&[0xFF, 0x0F, 0xF0, 0x3C, any, any, 0, 0]) & !*taken;
            *taken |= bits;
            mask |= (bits as u64) << (8 * if msb_first { last - step } else { step });
        }
        mask
    }

    /// BIT_MASK where a type can have one and it is not all of its bits; another one where there are no bits for it.
    fn packed_mask(&mut self, mask: u64, data: Type, groups: &mut Vec<Vec<Token>>) -> u64 {
        let full = (1 << (8 * data.1)) - 1;
        match mask {
            _ if data.2 => 0,
            0 => self.mask(data, groups),
            mask if mask == full && self.rng.one_in(2) => 0,
            mask => self.bit_mask(mask, groups),
        }
    }
}

/// BYTE_ORDER with its word.
fn order(first: bool) -> Vec<Token> {
    vec![keyword("BYTE_ORDER"), choice(if first { "MSB_FIRST" } else { "MSB_LAST" })]
}

/// A layout part's keyword.
fn part_word(what: What) -> &'static str {
    match what {
        What::Values => "FNC_VALUES",
        What::Axis(0) => "AXIS_PTS_X",
        What::Axis(_) => "AXIS_PTS_Y",
        What::Count(0) => "NO_AXIS_PTS_X",
        What::Count(_) => "NO_AXIS_PTS_Y",
    }
}
