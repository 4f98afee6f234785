//! A plain hand-written reader of descriptions, images and value lists,
//! written from documents 01 and 02 and their readings alone: the second reader that
//! the proved one is compared with. No dependencies, no unsafe code.
#![forbid(unsafe_code)]

mod bits;
mod convert;
mod list;
mod listing;
mod model;
mod number;
mod parse;
mod place;
mod refer;
mod tables;
mod token;
mod words;

pub use bits::{bits, meet, Bits};
pub use convert::{Edition, Factors};
pub use list::{find, make_list, read, rounded, write_physical, write_raw, Line, Rounded, Shown};
pub use listing::listing;
pub use model::Limits;
pub use number::Decimal;
pub use tables::{check, keeps_rule, CELLS};
pub use words::{Class, WORDS};

/// A refusal: its number in documents 01 and 02 and its byte place.
#[derive(Clone, Copy, PartialEq, Eq, Debug)]
pub struct Refusal {
    pub number: u8,
    pub place: usize,
}

/// Shorthand for a refusal as an error value.
pub(crate) fn refuse<T>(number: u8, place: usize) -> Result<T, Refusal> {
    Err(Refusal { number, place })
}

/// Loads a description of an edition against an image: the cells of the tables, or the refusal.
pub fn load(text: &[u8], image: &[u8], base: u32, edition: u32) -> Result<Vec<u64>, Refusal> {
    if !tables::sizes_fit(text.len(), image.len(), base) {
        return refuse(20, 0);
    }
    let Some(edition) = Edition::from_number(edition as u64) else {
        return refuse(33, 0);
    };
    let model = parse::parse(text)?;
    refer::check_references(&model)?;
    let factors = convert::judge_methods(&model)?;
    let groups = place::judge_objects(&model, image, base)?;
    Ok(tables::build(&model, &factors, &groups, edition))
}
