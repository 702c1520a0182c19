//! One condition line: A3 begins with the weather, whose tag chooses the
//! criteria, and then holds a tree of items, tanks, cargo tanks and groups.
//! Blocks are tested as they begin, in the order 2, 4, 3, 5, 6; the first
//! fault met ends the reading of this line and of no other.

use crate::blocks::{Block, Line};
use crate::book::{Condition, Entry, Liquid, Weather, Weight};
use crate::layout::{A3, C2, C3, C4, C5};
use crate::refusal::Refusal;
use crate::sets;

pub const MOST_ENTRIES: usize = 200;
pub const MOST_DEPTH: usize = 4;
pub const MOST_CONDITION: usize = 4_096;

/// A condition line is one that begins with A3, wherever it stands and
/// whatever else it holds.
pub fn is_condition_line(bytes: &[u8]) -> bool {
    bytes.first() == Some(&A3)
}

/// The condition of a line that stands where one may: its own test 2 and
/// those behind it, or the first fault in it.
pub fn condition(line: &Line) -> Result<Condition, Refusal> {
    let frame = line.frame()?;
    line.whole(&frame)?;
    if frame.body.len() > MOST_CONDITION || frame.body.is_empty() {
        return line.refuse(5, frame.offset);
    }
    let first = line.block(frame.inside(), frame.end())?;
    let Some(criteria) = sets::chosen_by(first.tag) else {
        return line.refuse(4, first.offset);
    };
    line.fixed_size(&first)?;
    let weather = weather(&line.limits(&first)?);
    if first.end() == frame.end() {
        return line.refuse(5, frame.offset);
    }
    let entries = Loading::new(line, frame.end()).read(first.end())?;
    Ok(Condition {
        criteria,
        weather,
        entries,
    })
}

fn weather(values: &[i128]) -> Weather {
    Weather {
        wind_area: values[0],
        arm: values[1],
        block_coefficient: values[2],
        flooding: values[3],
        deck_edge: values[4],
    }
}

fn liquid(values: &[i128]) -> Liquid {
    Liquid {
        fill: values[2],
        density: values[3],
        inertia: values[4],
    }
}

/// A parent that has begun and not ended: A3 itself, or a group in it.
struct Open {
    end: usize,
    entries: Vec<Entry>,
}

/// The entries of A3, read with a stack of open parents, A3 at the bottom.
struct Loading<'a> {
    line: &'a Line<'a>,
    open: Vec<Open>,
    counted: usize,
}

impl<'a> Loading<'a> {
    fn new(line: &'a Line<'a>, end: usize) -> Loading<'a> {
        let condition = Open {
            end,
            entries: Vec::new(),
        };
        Loading {
            line,
            open: vec![condition],
            counted: 0,
        }
    }

    fn read(mut self, from: usize) -> Result<Vec<Entry>, Refusal> {
        let mut at = from;
        while let Some(parent) = self.open.pop() {
            if at == parent.end {
                match self.open.last_mut() {
                    Some(outer) => outer.entries.push(Entry::Group(parent.entries)),
                    None => return Ok(parent.entries),
                }
            } else {
                let block = self.line.block(at, parent.end)?;
                self.open.push(parent);
                at = self.begin(&block)?;
            }
        }
        Ok(Vec::new())
    }

    /// Takes a block in and tells where the next one begins.
    fn begin(&mut self, block: &Block) -> Result<usize, Refusal> {
        match block.tag {
            C4 => self.group(block),
            C2 | C3 | C5 => self.entry(block),
            _ => self.line.refuse(4, block.offset),
        }
    }

    fn group(&mut self, block: &Block) -> Result<usize, Refusal> {
        if self.open.len() > MOST_DEPTH || block.body.is_empty() {
            return self.line.refuse(5, block.offset);
        }
        self.open.push(Open {
            end: block.end(),
            entries: Vec::new(),
        });
        Ok(block.inside())
    }

    fn entry(&mut self, block: &Block) -> Result<usize, Refusal> {
        self.line.fixed_size(block)?;
        if self.counted == MOST_ENTRIES {
            return self.line.refuse(5, block.offset);
        }
        let values = self.line.limits(block)?;
        let weight = Weight {
            mass: values[0],
            centre: values[1],
        };
        let entry = match block.tag {
            C3 => Entry::Tank(weight, liquid(&values)),
            C5 => Entry::Cargo(weight, liquid(&values)),
            _ => Entry::Item(weight),
        };
        self.counted += 1;
        if let Some(parent) = self.open.last_mut() {
            parent.entries.push(entry);
        }
        Ok(block.end())
    }
}
