//! From lines to documents: one ship, 2 to 40 rows, then the condition lines,
//! in that order. A fault in ship or rows, a misplaced line and a text without
//! a condition refuse the whole text; a fault in a condition line spoils that
//! condition only.

use crate::blocks::Line;
use crate::book::{Condition, Document, Row, Ship};
use crate::condition::{condition, is_condition_line};
use crate::layout::{A1, A2, A3};
use crate::refusal::Refusal;

pub const FEWEST_ROWS: usize = 2;
pub const MOST_ROWS: usize = 40;

/// What has been read so far, frame by frame.
#[derive(Default)]
struct Reading {
    ship: Option<Ship>,
    rows: Vec<Row>,
    conditions: Vec<Result<Condition, Refusal>>,
}

impl Reading {
    /// Whether a line that begins with this tag stands in its place.
    fn allows(&self, tag: u8) -> bool {
        match tag {
            A1 => self.ship.is_none(),
            A2 => {
                let open = self.ship.is_some() && self.conditions.is_empty();
                open && self.rows.len() < MOST_ROWS
            }
            A3 => self.rows.len() >= FEWEST_ROWS,
            _ => false,
        }
    }

    /// Takes a line in, or refuses the whole text for it.
    fn line(&mut self, line: &Line) -> Result<(), Refusal> {
        if is_condition_line(line.bytes) && self.allows(A3) {
            self.conditions.push(condition(line));
            return Ok(());
        }
        let frame = line.frame()?;
        if !self.allows(frame.tag) {
            return line.refuse(4, frame.offset);
        }
        line.whole(&frame)?;
        let values = line.limits(&frame)?;
        if frame.tag == A1 {
            self.ship = Some(ship(&values));
            return Ok(());
        }
        let row = row(&values);
        let rises = |last: &Row| last.displacement < row.displacement;
        if !self.rows.last().is_none_or(rises) {
            return line.refuse(6, frame.offset);
        }
        if !row.smooth() {
            return line.refuse(10, frame.offset);
        }
        self.rows.push(row);
        Ok(())
    }
}

/// For each condition line its document or the fault in it, or the refusal of
/// the whole text. There is one condition line at least.
pub fn documents(lines: &[Vec<u8>]) -> Result<Vec<Result<Document, Refusal>>, Refusal> {
    let mut reading = Reading::default();
    for (index, bytes) in lines.iter().enumerate() {
        reading.line(&Line {
            number: index + 1,
            bytes,
        })?;
    }
    match reading.ship {
        Some(ship) if !reading.conditions.is_empty() => {
            let document = |condition| Document {
                ship: ship.clone(),
                rows: reading.rows.clone(),
                condition,
            };
            let read = reading.conditions.into_iter();
            Ok(read.map(|read| read.map(document)).collect())
        }
        _ => Err(Refusal::at(5, lines.len(), 0)),
    }
}

fn ship(values: &[i128]) -> Ship {
    Ship {
        length: values[0],
        breadth: values[1],
        keel_area: values[2],
        sharp_bilge: values[3] == 1,
    }
}

fn row(values: &[i128]) -> Row {
    Row {
        displacement: values[0],
        draught: values[1],
        km: values[2],
        kn: values[3..].to_vec(),
    }
}
