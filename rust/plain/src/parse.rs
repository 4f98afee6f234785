//! The text from its start: one function per block, the first offence stops.
use crate::model::*;
use crate::number::{has_form, read_decimal, read_whole, Decimal};
use crate::token::{Kind, Lexer, Span, Token};
use crate::words::stray_number;
use crate::{refuse, Refusal};
use std::collections::HashSet;

type Answer<T> = Result<T, Refusal>;

/// What stands at a keyword's place inside a block.
enum Item {
    Keyword(Span),
    Block(Span),
    End(usize),
}

/// The parser: where it reads and what it has read.
struct Parser<'a> {
    lexer: Lexer<'a>,
    model: Model<'a>,
}

/// Reads a whole description.
pub fn parse(text: &[u8]) -> Answer<Model<'_>> {
    let model = Model { text, ..Model::default() };
    let mut parser = Parser { lexer: Lexer { text, at: 0 }, model };
    parser.file()?;
    Ok(parser.model)
}

/// Refuses with 6 where a once-only keyword stands again.
fn once(there: bool, keyword: Span) -> Answer<()> {
    if there {
        refuse(6, keyword.from)
    } else {
        Ok(())
    }
}

/// Refuses with 5 at the block's `/end` where something needed is missing.
fn needed(there: bool, end: usize) -> Answer<()> {
    if there {
        Ok(())
    } else {
        refuse(5, end)
    }
}

/// Enters a name: 6 if it is there, 8 if it is one too many.
fn enter<'a>(names: &mut Names<'a>, most: usize, text: &'a [u8], span: Span) -> Answer<()> {
    let name = &text[span.from..span.past];
    if names.contains_key(name) {
        return refuse(6, span.from);
    }
    if names.len() >= most {
        return refuse(8, span.from);
    }
    let number = names.len();
    names.insert(name, number);
    Ok(())
}

impl<'a> Parser<'a> {
    // ---- tokens by kind ----

    /// The bytes of a stretch of the text.
    fn bytes(&self, span: Span) -> &'a [u8] {
        &self.lexer.text[span.from..span.past]
    }

    /// The refusal for a token of the wrong kind, `number` unless a lower one holds.
    fn misfit<T>(&self, token: Token, number: u8) -> Answer<T> {
        match token.kind {
            Kind::Finish => refuse(3, token.span.from),
            Kind::Number if !has_form(self.bytes(token.span)) => refuse(2, token.span.from),
            _ => refuse(number, token.span.from),
        }
    }

    /// The refusal for a word that has no meaning where it stands.
    fn stray<T>(&self, word: Span) -> Answer<T> {
        refuse(stray_number(self.bytes(word)), word.from)
    }

    /// Takes a token that must be of one kind.
    fn take(&mut self, kind: Kind) -> Answer<Span> {
        let token = self.lexer.next()?;
        if token.kind == kind {
            Ok(token.span)
        } else {
            self.misfit(token, 5)
        }
    }

    /// Takes an unsigned whole number of at most a given value.
    fn whole(&mut self, most: u64) -> Answer<(u64, usize)> {
        let span = self.take(Kind::Number)?;
        match read_whole(self.bytes(span), most) {
            Some(value) => Ok((value, span.from)),
            None => refuse(2, span.from),
        }
    }

    /// Takes a decimal.
    fn decimal(&mut self) -> Answer<(Decimal, usize)> {
        let span = self.take(Kind::Number)?;
        match read_decimal(self.bytes(span)) {
            Some(value) => Ok((value, span.from)),
            None => refuse(2, span.from),
        }
    }

    /// Takes what stands at a keyword's place.
    fn item(&mut self) -> Answer<Item> {
        let token = self.lexer.next()?;
        match token.kind {
            Kind::Name => Ok(Item::Keyword(token.span)),
            Kind::Begin => Ok(Item::Block(self.take(Kind::Name)?)),
            Kind::End => Ok(Item::End(token.span.from)),
            _ => self.misfit(token, 5),
        }
    }

    /// Takes the word after `/end`, which must be the block's.
    fn close(&mut self, block: &[u8]) -> Answer<()> {
        let token = self.lexer.next()?;
        if token.kind == Kind::Name && self.bytes(token.span) == block {
            return Ok(());
        }
        self.misfit(token, 3)
    }

    // ---- parameters by meaning ----

    /// Takes a data type.
    fn data_type(&mut self) -> Answer<DataType> {
        let word = self.take(Kind::Name)?;
        match self.bytes(word) {
            b"UBYTE" => Ok(DataType::UByte),
            b"SBYTE" => Ok(DataType::SByte),
            b"UWORD" => Ok(DataType::UWord),
            b"SWORD" => Ok(DataType::SWord),
            b"ULONG" => Ok(DataType::ULong),
            b"SLONG" => Ok(DataType::SLong),
            _ => self.stray(word),
        }
    }

    /// Takes one of two choice words: false for the first, true for the second.
    fn either(&mut self, first: &[u8], second: &[u8]) -> Answer<bool> {
        let word = self.take(Kind::Name)?;
        match self.bytes(word) {
            bytes if bytes == first => Ok(false),
            bytes if bytes == second => Ok(true),
            _ => self.stray(word),
        }
    }

    /// Takes the addressing, which must be DIRECT.
    fn direct(&mut self) -> Answer<()> {
        self.either(b"DIRECT", b"DIRECT").map(|_| ())
    }

    /// Takes a conversion's name; none for NO_COMPU_METHOD.
    fn conversion(&mut self) -> Answer<Option<Span>> {
        let name = self.take(Kind::Name)?;
        if self.bytes(name) == b"NO_COMPU_METHOD" {
            return Ok(None);
        }
        self.model.references.push((Target::Method, name));
        Ok(Some(name))
    }

    /// Takes an input quantity.
    fn input_quantity(&mut self) -> Answer<()> {
        let name = self.take(Kind::Name)?;
        if self.bytes(name) != b"NO_INPUT_QUANTITY" {
            self.model.references.push((Target::Measurement, name));
        }
        Ok(())
    }

    /// Takes a name that must lead to something.
    fn reference(&mut self, target: Target) -> Answer<Span> {
        let name = self.take(Kind::Name)?;
        self.model.references.push((target, name));
        Ok(name)
    }

    /// Takes MaxAxisPoints: 0 is 2, above 256 is 8.
    fn max_points(&mut self) -> Answer<u64> {
        match self.whole(65535)? {
            (0, place) => refuse(2, place),
            (value, place) if value > MOST_POINTS => refuse(8, place),
            (value, _) => Ok(value),
        }
    }

    /// Takes the two limits: a lower one above the upper is 5 at the upper.
    fn limits(&mut self) -> Answer<Limits> {
        let (lower, _) = self.decimal()?;
        let (upper, place) = self.decimal()?;
        if !lower.at_most(upper) {
            return refuse(5, place);
        }
        Ok(Limits { lower, upper })
    }

    /// Takes an object's name and enters it.
    fn object_name(&mut self) -> Answer<Span> {
        let name = self.take(Kind::Name)?;
        enter(&mut self.model.object_names, MOST_OBJECTS, self.lexer.text, name)?;
        Ok(name)
    }

    /// Takes BYTE_ORDER's parameter, once: true for MSB_FIRST.
    fn byte_order(&mut self, keyword: Span, slot: &mut Option<bool>) -> Answer<()> {
        once(slot.is_some(), keyword)?;
        *slot = Some(self.either(b"MSB_LAST", b"MSB_FIRST")?);
        Ok(())
    }

    /// Takes BIT_MASK's parameter, once.
    fn bit_mask(&mut self, keyword: Span, slot: &mut Option<u64>) -> Answer<()> {
        once(slot.is_some(), keyword)?;
        *slot = Some(self.whole(u64::MAX)?.0);
        Ok(())
    }

    /// Takes READ_ONLY, once.
    fn read_only(&mut self, keyword: Span, slot: &mut bool) -> Answer<()> {
        once(*slot, keyword)?;
        *slot = true;
        Ok(())
    }

    /// Takes an alignment word's parameter, once: 1, 2, 4 or 8, else 2.
    fn alignment(&mut self, keyword: Span, slot: &mut Option<u64>) -> Answer<()> {
        once(slot.is_some(), keyword)?;
        let (border, place) = self.whole(65535)?;
        if !matches!(border, 1 | 2 | 4 | 8) {
            return refuse(2, place);
        }
        *slot = Some(border);
        Ok(())
    }

    // ---- what is skipped ----

    /// Skips a keyword that is skipped with its parameters, or refuses it.
    fn other_keyword(&mut self, word: Span) -> Answer<()> {
        match self.bytes(word) {
            b"FORMAT" | b"PHYS_UNIT" => {
                self.take(Kind::Text)?;
            }
            b"DISPLAY_IDENTIFIER" => {
                self.take(Kind::Name)?;
            }
            b"ASAP2_VERSION" | b"A2ML_VERSION" => {
                self.whole(65535)?;
                self.whole(65535)?;
            }
            _ => return self.stray(word),
        }
        Ok(())
    }

    /// Skips a block that is skipped whole, or refuses it; `depth` is its own.
    fn other_block(&mut self, word: Span, depth: u32) -> Answer<()> {
        match self.bytes(word) {
            b"A2ML" | b"IF_DATA" | b"ANNOTATION" | b"GROUP" | b"FUNCTION" | b"FUNCTION_LIST" | b"MOD_PAR"
            | b"HEADER" => self.skip_block(word, depth),
            _ => self.stray(word),
        }
    }

    /// Skips a block to its end, whose tag has just been taken.
    fn skip_block(&mut self, tag: Span, depth: u32) -> Answer<()> {
        if self.bytes(tag) == b"A2ML" {
            return self.skip_a2ml();
        }
        loop {
            let token = self.lexer.next_item()?;
            match (token.kind, self.bytes(token.span)) {
                (Kind::Finish, _) => return refuse(3, token.span.from),
                (Kind::Item, b"/begin") => {
                    if depth >= 16 {
                        return refuse(3, token.span.from);
                    }
                    let inner = self.lexer.next_item()?;
                    if inner.kind != Kind::Item {
                        return self.misfit(inner, 5);
                    }
                    if matches!(self.bytes(inner.span), b"/begin" | b"/end") {
                        return refuse(5, inner.span.from);
                    }
                    self.skip_block(inner.span, depth + 1)?;
                }
                (Kind::Item, b"/end") => {
                    let word = self.lexer.next_item()?;
                    if word.kind == Kind::Item && self.bytes(word.span) == self.bytes(tag) {
                        return Ok(());
                    }
                    return refuse(3, word.span.from);
                }
                _ => {}
            }
        }
    }

    /// Skips A2ML to its first `/end A2ML`.
    fn skip_a2ml(&mut self) -> Answer<()> {
        let mut after_end = false;
        loop {
            let token = self.lexer.next_item()?;
            match (token.kind, self.bytes(token.span)) {
                (Kind::Finish, _) => return refuse(3, token.span.from),
                (Kind::Item, b"A2ML") if after_end => return Ok(()),
                (kind, bytes) => after_end = kind == Kind::Item && bytes == b"/end",
            }
        }
    }

    // ---- blocks ----

    /// Reads the file: versions, PROJECT, nothing after it.
    fn file(&mut self) -> Answer<()> {
        loop {
            match self.item()? {
                Item::Keyword(word) => match self.bytes(word) {
                    b"ASAP2_VERSION" | b"A2ML_VERSION" => self.other_keyword(word)?,
                    _ => return self.stray(word),
                },
                Item::Block(word) if self.bytes(word) == b"PROJECT" => break,
                Item::Block(word) => return self.stray(word),
                Item::End(place) => return refuse(3, place),
            }
        }
        self.project()?;
        let token = self.lexer.next()?;
        if token.kind == Kind::Finish {
            Ok(())
        } else {
            self.misfit(token, 3)
        }
    }

    /// Reads PROJECT.
    fn project(&mut self) -> Answer<()> {
        self.take(Kind::Name)?;
        self.take(Kind::Text)?;
        let mut module = false;
        loop {
            match self.item()? {
                Item::Keyword(word) => self.other_keyword(word)?,
                Item::Block(word) if self.bytes(word) == b"MODULE" => {
                    once(module, word)?;
                    module = true;
                    self.module()?;
                }
                Item::Block(word) => self.other_block(word, 2)?,
                Item::End(place) => {
                    needed(module, place)?;
                    return self.close(b"PROJECT");
                }
            }
        }
    }

    /// Reads MODULE.
    fn module(&mut self) -> Answer<()> {
        self.take(Kind::Name)?;
        self.take(Kind::Text)?;
        let mut common = false;
        loop {
            match self.item()? {
                Item::Keyword(word) => self.other_keyword(word)?,
                Item::Block(word) => match self.bytes(word) {
                    b"MOD_COMMON" => {
                        once(common, word)?;
                        common = true;
                        self.mod_common()?;
                    }
                    b"COMPU_METHOD" => self.compu_method()?,
                    b"COMPU_VTAB" => self.compu_vtab()?,
                    b"RECORD_LAYOUT" => self.record_layout()?,
                    b"AXIS_PTS" => self.axis_pts()?,
                    b"CHARACTERISTIC" => self.characteristic()?,
                    b"MEASUREMENT" => self.measurement()?,
                    _ => self.other_block(word, 3)?,
                },
                Item::End(_) => return self.close(b"MODULE"),
            }
        }
    }

    /// Reads MOD_COMMON.
    fn mod_common(&mut self) -> Answer<()> {
        self.take(Kind::Text)?;
        let mut order = None;
        let mut align = [None; 3];
        loop {
            match self.item()? {
                Item::Keyword(word) => match self.bytes(word) {
                    b"BYTE_ORDER" => self.byte_order(word, &mut order)?,
                    b"ALIGNMENT_BYTE" => self.alignment(word, &mut align[0])?,
                    b"ALIGNMENT_WORD" => self.alignment(word, &mut align[1])?,
                    b"ALIGNMENT_LONG" => self.alignment(word, &mut align[2])?,
                    _ => self.other_keyword(word)?,
                },
                Item::Block(word) => self.other_block(word, 4)?,
                Item::End(_) => {
                    self.close(b"MOD_COMMON")?;
                    self.model.msb_first = order;
                    self.model.align = align;
                    return Ok(());
                }
            }
        }
    }

    /// Reads COMPU_METHOD.
    fn compu_method(&mut self) -> Answer<()> {
        let name = self.take(Kind::Name)?;
        enter(&mut self.model.method_names, MOST_METHODS, self.lexer.text, name)?;
        self.take(Kind::Text)?;
        let kind_word = self.take(Kind::Name)?;
        let kind = self.bytes(kind_word);
        let wanted: &[u8] = match kind {
            b"IDENTICAL" => b"",
            b"LINEAR" => b"COEFFS_LINEAR",
            b"RAT_FUNC" => b"COEFFS",
            b"TAB_VERB" => b"COMPU_TAB_REF",
            _ => return self.stray(kind_word),
        };
        self.take(Kind::Text)?;
        self.take(Kind::Text)?;
        let mut conversion = if wanted.is_empty() { Some(Conversion::Identical) } else { None };
        loop {
            match self.item()? {
                Item::Keyword(word) if self.bytes(word) == wanted => {
                    once(conversion.is_some(), word)?;
                    conversion = Some(match kind {
                        b"LINEAR" => Conversion::Linear([self.decimal()?.0, self.decimal()?.0]),
                        b"RAT_FUNC" => Conversion::RatFunc(self.coeffs()?),
                        _ => Conversion::TabVerb(self.reference(Target::Table)?),
                    });
                }
                Item::Keyword(word) => self.other_keyword(word)?,
                Item::Block(word) => self.other_block(word, 4)?,
                Item::End(place) => {
                    let Some(conversion) = conversion else {
                        return refuse(5, place);
                    };
                    self.close(b"COMPU_METHOD")?;
                    self.model.methods.push(Method { name, conversion });
                    return Ok(());
                }
            }
        }
    }

    /// Takes the six COEFFS: a or d not 0 is 9.
    fn coeffs(&mut self) -> Answer<[Decimal; 6]> {
        let mut six = [Decimal { below: false, whole: 0, power: 0 }; 6];
        for (index, slot) in six.iter_mut().enumerate() {
            let (value, place) = self.decimal()?;
            if (index == 0 || index == 3) && value.whole != 0 {
                return refuse(9, place);
            }
            *slot = value;
        }
        Ok(six)
    }

    /// Reads COMPU_VTAB.
    fn compu_vtab(&mut self) -> Answer<()> {
        let name = self.take(Kind::Name)?;
        enter(&mut self.model.table_names, MOST_TABLES, self.lexer.text, name)?;
        self.take(Kind::Text)?;
        self.either(b"TAB_VERB", b"TAB_VERB")?;
        let (pairs, _) = self.whole(65535)?;
        let first = self.model.entries.len();
        let mut numbers = HashSet::new();
        for _ in 0..pairs {
            let (number, place) = self.decimal()?;
            if number.power != 0 {
                return refuse(2, place);
            }
            if !numbers.insert(number.signed()) {
                return refuse(6, place);
            }
            if self.model.entries.len() >= MOST_ENTRIES {
                return refuse(8, place);
            }
            let text = self.take(Kind::Text)?;
            self.model.entries.push(Entry { number, text });
        }
        let many = self.model.entries.len() - first;
        let mut default = None;
        loop {
            match self.item()? {
                Item::Keyword(word) if self.bytes(word) == b"DEFAULT_VALUE" => {
                    once(default.is_some(), word)?;
                    default = Some(self.take(Kind::Text)?);
                }
                Item::Keyword(word) => self.other_keyword(word)?,
                Item::Block(word) => self.other_block(word, 4)?,
                Item::End(_) => {
                    self.close(b"COMPU_VTAB")?;
                    self.model.tables.push(Table { first, many, default });
                    return Ok(());
                }
            }
        }
    }

    /// Reads RECORD_LAYOUT.
    fn record_layout(&mut self) -> Answer<()> {
        let name = self.take(Kind::Name)?;
        enter(&mut self.model.layout_names, MOST_LAYOUTS, self.lexer.text, name)?;
        let mut layout = Layout::default();
        loop {
            match self.item()? {
                Item::Keyword(word) => match self.bytes(word) {
                    b"FNC_VALUES" => self.values_part(word, &mut layout.values)?,
                    b"AXIS_PTS_X" => self.axis_part(word, &mut layout.axis[0])?,
                    b"AXIS_PTS_Y" => self.axis_part(word, &mut layout.axis[1])?,
                    b"NO_AXIS_PTS_X" => self.count_part(word, &mut layout.count[0])?,
                    b"NO_AXIS_PTS_Y" => self.count_part(word, &mut layout.count[1])?,
                    b"ALIGNMENT_BYTE" => self.alignment(word, &mut layout.align[0])?,
                    b"ALIGNMENT_WORD" => self.alignment(word, &mut layout.align[1])?,
                    b"ALIGNMENT_LONG" => self.alignment(word, &mut layout.align[2])?,
                    _ => self.other_keyword(word)?,
                },
                Item::Block(word) => self.other_block(word, 4)?,
                Item::End(_) => {
                    self.close(b"RECORD_LAYOUT")?;
                    self.model.layouts.push(layout);
                    return Ok(());
                }
            }
        }
    }

    /// Takes FNC_VALUES's parameters, once.
    fn values_part(&mut self, keyword: Span, slot: &mut Option<Part>) -> Answer<()> {
        once(slot.is_some(), keyword)?;
        let (position, _) = self.whole(65535)?;
        let data_type = self.data_type()?;
        let turned = self.either(b"ROW_DIR", b"COLUMN_DIR")?;
        self.direct()?;
        *slot = Some(Part { position, data_type, turned });
        Ok(())
    }

    /// Takes AXIS_PTS_X's or _Y's parameters, once.
    fn axis_part(&mut self, keyword: Span, slot: &mut Option<Part>) -> Answer<()> {
        once(slot.is_some(), keyword)?;
        let (position, _) = self.whole(65535)?;
        let data_type = self.data_type()?;
        let turned = self.either(b"INDEX_INCR", b"INDEX_DECR")?;
        self.direct()?;
        *slot = Some(Part { position, data_type, turned });
        Ok(())
    }

    /// Takes NO_AXIS_PTS_X's or _Y's parameters, once.
    fn count_part(&mut self, keyword: Span, slot: &mut Option<Part>) -> Answer<()> {
        once(slot.is_some(), keyword)?;
        let (position, _) = self.whole(65535)?;
        let data_type = self.data_type()?;
        *slot = Some(Part { position, data_type, turned: false });
        Ok(())
    }

    /// Reads AXIS_PTS.
    fn axis_pts(&mut self) -> Answer<()> {
        let name = self.object_name()?;
        self.take(Kind::Text)?;
        let (address, _) = self.whole(u32::MAX as u64)?;
        self.input_quantity()?;
        let layout = Some(self.reference(Target::Layout)?);
        self.decimal()?;
        let conversion = self.conversion()?;
        let most = self.max_points()?;
        let limits = self.limits()?;
        let mut msb_first = None;
        let mut read_only = false;
        loop {
            match self.item()? {
                Item::Keyword(word) => match self.bytes(word) {
                    b"BYTE_ORDER" => self.byte_order(word, &mut msb_first)?,
                    b"READ_ONLY" => self.read_only(word, &mut read_only)?,
                    _ => self.other_keyword(word)?,
                },
                Item::Block(word) => self.other_block(word, 4)?,
                Item::End(_) => {
                    self.close(b"AXIS_PTS")?;
                    self.model.objects.push(Object {
                        name,
                        kind: ObjectKind::AxisPts,
                        address,
                        layout,
                        data_type: None,
                        conversion,
                        limits,
                        most,
                        mask: None,
                        msb_first,
                        read_only,
                        axes: Vec::new(),
                    });
                    return Ok(());
                }
            }
        }
    }

    /// Reads CHARACTERISTIC.
    fn characteristic(&mut self) -> Answer<()> {
        let name = self.object_name()?;
        self.take(Kind::Text)?;
        let kind_word = self.take(Kind::Name)?;
        let (kind, most_axes) = match self.bytes(kind_word) {
            b"VALUE" => (ObjectKind::Value, 0),
            b"VAL_BLK" => (ObjectKind::ValBlk, 0),
            b"CURVE" => (ObjectKind::Curve, 1),
            b"MAP" => (ObjectKind::Map, 2),
            _ => return self.stray(kind_word),
        };
        let (address, _) = self.whole(u32::MAX as u64)?;
        let layout = Some(self.reference(Target::Layout)?);
        self.decimal()?;
        let conversion = self.conversion()?;
        let limits = self.limits()?;
        let mut mask = None;
        let mut msb_first = None;
        let mut read_only = false;
        let mut number = None;
        let mut axes = Vec::new();
        loop {
            match self.item()? {
                Item::Keyword(word) => match self.bytes(word) {
                    b"BIT_MASK" => self.bit_mask(word, &mut mask)?,
                    b"BYTE_ORDER" => self.byte_order(word, &mut msb_first)?,
                    b"READ_ONLY" => self.read_only(word, &mut read_only)?,
                    b"NUMBER" if kind == ObjectKind::ValBlk => {
                        once(number.is_some(), word)?;
                        number = match self.whole(65535)? {
                            (0, place) => return refuse(2, place),
                            (value, _) => Some(value),
                        };
                    }
                    _ => self.other_keyword(word)?,
                },
                Item::Block(word) if self.bytes(word) == b"AXIS_DESCR" => {
                    once(axes.len() >= most_axes, word)?;
                    axes.push(self.axis_descr()?);
                }
                Item::Block(word) => self.other_block(word, 4)?,
                Item::End(place) => {
                    needed(axes.len() == most_axes, place)?;
                    needed(kind != ObjectKind::ValBlk || number.is_some(), place)?;
                    self.close(b"CHARACTERISTIC")?;
                    self.model.objects.push(Object {
                        name,
                        kind,
                        address,
                        layout,
                        data_type: None,
                        conversion,
                        limits,
                        most: number.unwrap_or(1),
                        mask,
                        msb_first,
                        read_only,
                        axes,
                    });
                    return Ok(());
                }
            }
        }
    }

    /// Reads AXIS_DESCR.
    fn axis_descr(&mut self) -> Answer<Axis> {
        let is_shared = self.either(b"STD_AXIS", b"COM_AXIS")?;
        self.input_quantity()?;
        let conversion = self.conversion()?;
        let most = self.max_points()?;
        let limits = self.limits()?;
        let mut shared = None;
        let mut read_only = false;
        loop {
            match self.item()? {
                Item::Keyword(word) => match self.bytes(word) {
                    b"BYTE_ORDER" => return refuse(9, word.from),
                    b"READ_ONLY" => self.read_only(word, &mut read_only)?,
                    b"AXIS_PTS_REF" if is_shared => {
                        once(shared.is_some(), word)?;
                        shared = Some(self.reference(Target::AxisPts)?);
                    }
                    _ => self.other_keyword(word)?,
                },
                Item::Block(word) => self.other_block(word, 5)?,
                Item::End(place) => {
                    needed(shared.is_some() == is_shared, place)?;
                    self.close(b"AXIS_DESCR")?;
                    return Ok(Axis { shared, conversion, most, limits, read_only });
                }
            }
        }
    }

    /// Reads MEASUREMENT.
    fn measurement(&mut self) -> Answer<()> {
        let name = self.object_name()?;
        self.take(Kind::Text)?;
        let data_type = self.data_type()?;
        let conversion = self.conversion()?;
        self.whole(65535)?;
        self.decimal()?;
        let limits = self.limits()?;
        let mut mask = None;
        let mut msb_first = None;
        let mut address = None;
        loop {
            match self.item()? {
                Item::Keyword(word) => match self.bytes(word) {
                    b"BIT_MASK" => self.bit_mask(word, &mut mask)?,
                    b"BYTE_ORDER" => self.byte_order(word, &mut msb_first)?,
                    b"ECU_ADDRESS" => {
                        once(address.is_some(), word)?;
                        address = Some(self.whole(u32::MAX as u64)?.0);
                    }
                    _ => self.other_keyword(word)?,
                },
                Item::Block(word) => self.other_block(word, 4)?,
                Item::End(place) => {
                    let Some(address) = address else {
                        return refuse(5, place);
                    };
                    self.close(b"MEASUREMENT")?;
                    self.model.objects.push(Object {
                        name,
                        kind: ObjectKind::Measurement,
                        address,
                        layout: None,
                        data_type: Some(data_type),
                        conversion,
                        limits,
                        most: 1,
                        mask,
                        msb_first,
                        read_only: true,
                        axes: Vec::new(),
                    });
                    return Ok(());
                }
            }
        }
    }
}
