//! One call of the instrument: a text, the limit of its characters and the
//! bytes of room for the report. Either one refusal is for the whole text, or
//! there is a judgement or a refusal for each of its conditions.

#[cfg(test)]
mod tests;

use crate::book::Document;
use crate::booklet;
use crate::condition::is_condition_line;
use crate::criteria::{judge_document, Judgement};
use crate::refusal::Refusal;
use crate::report::{report, REPORT};
use crate::text::{lines, MOST_CHARACTERS};

pub const MOST_CONDITIONS: usize = 24;

/// Room for a report of every condition: enough for every text.
pub const MOST_ROOM: usize = MOST_CONDITIONS * REPORT;

#[derive(Clone, Debug, PartialEq)]
pub struct Call {
    pub text: Vec<u8>,
    pub limit: usize,
    pub room: usize,
}

/// A text as the library takes it, with room enough.
impl From<Vec<u8>> for Call {
    fn from(text: Vec<u8>) -> Call {
        Call {
            text,
            limit: MOST_CHARACTERS,
            room: MOST_ROOM,
        }
    }
}

/// What a call sends back and what it writes, in the order of the conditions.
#[derive(Debug, PartialEq)]
pub struct Answer {
    pub number: u8,
    pub written: String,
}

impl Answer {
    /// A line with the number in decimal, then the report lines.
    pub fn shown(&self) -> String {
        format!("{}\n{}", self.number, self.written)
    }
}

/// One report line for a text that is refused as a whole, none with 9, else
/// one for each condition. The number is that of the whole text, else the
/// first of the reports' numbers that is not 0.
pub fn answer(call: &Call) -> Answer {
    match judgements(call) {
        Err(refusal) => Answer {
            number: refusal.number,
            written: match refusal.number {
                9 => String::new(),
                _ => report(&Err(refusal)),
            },
        },
        Ok(judged) => Answer {
            number: judged
                .iter()
                .find_map(|judged| judged.as_ref().err())
                .map_or(0, |refusal| refusal.number),
            written: judged.iter().map(report).collect(),
        },
    }
}

/// The judgement of each condition or its refusal, or that of the whole text.
pub fn judgements(call: &Call) -> Result<Vec<Result<Judgement, Refusal>>, Refusal> {
    let judge = |read: Result<Document, Refusal>| read.and_then(|read| judge_document(&read));
    Ok(documents(call)?.into_iter().map(judge).collect())
}

/// What each condition says or the fault in it, or the refusal of the whole
/// text: 9 for under 209 bytes, 1, the 25th condition line, 9 for under 209
/// bytes per condition line, then the blocks.
pub fn documents(call: &Call) -> Result<Vec<Result<Document, Refusal>>, Refusal> {
    let room_for = |reports: usize| match call.room < reports * REPORT {
        true => Err(Refusal::at(9, 0, 0)),
        false => Ok(()),
    };
    room_for(1)?;
    let lines = lines(&call.text, call.limit)?;
    let conditions = condition_lines(&lines);
    if let Some(&line) = conditions.get(MOST_CONDITIONS) {
        return Err(Refusal::at(5, line, 0));
    }
    room_for(conditions.len())?;
    booklet::documents(&lines)
}

/// The numbers of the condition lines, misplaced or not.
fn condition_lines(lines: &[Vec<u8>]) -> Vec<usize> {
    let numbered = (1..).zip(lines);
    numbered
        .filter_map(|(number, bytes)| is_condition_line(bytes).then_some(number))
        .collect()
}

/// What a text of one condition says, or what refuses it.
pub fn read_text(text: &[u8]) -> Result<Document, Refusal> {
    documents(&Call::from(text.to_vec()))?.swap_remove(0)
}

/// The judgement of a text of one condition, or what refuses it.
pub fn judge_text(text: &[u8]) -> Result<Judgement, Refusal> {
    judge_document(&read_text(text)?)
}
