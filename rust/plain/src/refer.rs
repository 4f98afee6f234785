//! References: each must lead somewhere, in order of their place in the text.
use crate::model::Model;
use crate::{refuse, Refusal};

/// Refuses with 7 at the first reference that leads nowhere.
pub fn check_references(model: &Model) -> Result<(), Refusal> {
    for &(target, span) in &model.references {
        if model.find(target, span).is_none() {
            return refuse(7, span.from);
        }
    }
    Ok(())
}
