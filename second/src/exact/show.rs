//! One condition with each value exact in turn, for a reader who has it at hand.

use super::rounding::{choices, Kept};
use super::weather::Verdicts;
use super::words::{angles, word};
use crate::book::Document;
use crate::refusal::Refusal;

/// A line for document 01's own verdicts of criteria 5 and 8, then one for
/// each choice of exact values.
pub fn table(document: &Document) -> Result<String, Refusal> {
    let mut choices = choices();
    choices.insert(0, ("none", Kept::NONE));
    let mut table = String::new();
    for (name, kept) in choices {
        let Some(verdicts) = Verdicts::of(document, kept) else {
            return Err(Refusal::of_loading(7));
        };
        table.push_str(&format!("exact {name:6} {}\n", described(&verdicts)));
    }
    Ok(table)
}

fn described(verdicts: &Verdicts) -> String {
    format!(
        "criterion 5 {} {}  criterion 8 {} {}  phi1 start e {}",
        word(verdicts.fifth()),
        verdicts.peak,
        verdicts.eighth().map_or("open", word),
        verdicts.figure(),
        angles(verdicts)
    )
}
