//! A text before it is written: frames as trees of blocks, each of which can
//! be told to lie about its tag and length, to be cut off, or to have bytes
//! behind it that it does not count.

use crate::book::{Row, Ship, Weather};
use crate::layout::{self, A1, A2, A3, C2, C3, C4, C5};
use crate::sets::CriteriaSet;

#[derive(Clone, Debug)]
pub struct Block {
    /// The tag whose fields the values follow, whatever tag is written.
    form: u8,
    pub tag: u8,
    pub values: Vec<i128>,
    pub inner: Vec<Block>,
    /// Bytes at the end of the body, counted in its length.
    pub tail: Vec<u8>,
    pub declared: Option<usize>,
    /// How many bytes of the block are written, if not all.
    pub cut: Option<usize>,
    /// Bytes after the block that only its parent counts.
    pub spill: Vec<u8>,
}

impl Block {
    fn new(tag: u8, values: Vec<i128>, inner: Vec<Block>) -> Block {
        Block {
            form: tag,
            tag,
            values,
            inner,
            tail: Vec::new(),
            declared: None,
            cut: None,
            spill: Vec::new(),
        }
    }

    pub fn body(&self) -> Vec<u8> {
        let mut body = Vec::new();
        let fields = layout::fields(self.form).unwrap_or_default();
        for (value, field) in self.values.iter().zip(fields) {
            body.extend(&value.to_be_bytes()[16 - field.width..]);
        }
        for block in &self.inner {
            body.extend(block.bytes());
        }
        body.extend(&self.tail);
        body
    }

    pub fn bytes(&self) -> Vec<u8> {
        let body = self.body();
        let length = self.declared.unwrap_or(body.len()).to_be_bytes();
        let mut bytes = vec![self.tag, length[6], length[7]];
        bytes.extend(body);
        bytes.truncate(self.cut.unwrap_or(bytes.len()));
        bytes.extend(&self.spill);
        bytes
    }

    pub fn form(&self) -> u8 {
        self.form
    }
}

pub fn ship(ship: &Ship) -> Block {
    let bilge = i128::from(ship.sharp_bilge);
    Block::new(
        A1,
        vec![ship.length, ship.breadth, ship.keel_area, bilge],
        Vec::new(),
    )
}

pub fn row(row: &Row) -> Block {
    let mut values = vec![row.displacement, row.draught, row.km];
    values.extend(&row.kn);
    Block::new(A2, values, Vec::new())
}

pub fn weather(set: &CriteriaSet, weather: &Weather) -> Block {
    let Weather {
        wind_area,
        arm,
        block_coefficient,
        flooding,
        deck_edge,
    } = *weather;
    let values = vec![wind_area, arm, block_coefficient, flooding, deck_edge];
    Block::new(set.tag, values, Vec::new())
}

pub fn condition(set: &CriteriaSet, of_weather: &Weather, entries: Vec<Block>) -> Block {
    let mut inner = vec![weather(set, of_weather)];
    inner.extend(entries);
    Block::new(A3, Vec::new(), inner)
}

pub fn item(mass: i128, centre: i128) -> Block {
    Block::new(C2, vec![mass, centre], Vec::new())
}

pub fn tank(mass: i128, centre: i128, fill: i128, density: i128, inertia: i128) -> Block {
    Block::new(C3, vec![mass, centre, fill, density, inertia], Vec::new())
}

/// A tank as a cargo tank of the same values.
pub fn cargo(tank: Block) -> Block {
    recast(tank, C5)
}

/// A block as another kind of block with the same fields.
fn recast(block: Block, tag: u8) -> Block {
    Block {
        form: tag,
        tag,
        ..block
    }
}

pub fn group(inner: Vec<Block>) -> Block {
    Block::new(C4, Vec::new(), inner)
}

/// Entries within so many groups, one in another.
pub fn nested(depth: usize, entries: Vec<Block>) -> Vec<Block> {
    (0..depth).fold(entries, |inner, _| vec![group(inner)])
}

#[derive(Clone, Debug)]
pub struct Draft {
    pub frames: Vec<Block>,
}

impl Draft {
    pub fn text(&self) -> Vec<u8> {
        let mut text = Vec::new();
        for frame in &self.frames {
            text.extend(line(&frame.bytes()));
        }
        text
    }

    /// The frame of the condition, which a draft ends with.
    pub fn condition(&mut self) -> &mut Block {
        let last = self.frames.len() - 1;
        &mut self.frames[last]
    }

    /// The same draft with its weather as the block that chooses another set.
    pub fn judged_by(mut self, set: &CriteriaSet) -> Draft {
        let first = &mut self.condition().inner[0];
        *first = recast(first.clone(), set.tag);
        self
    }

    /// The block at a path: a frame's index, then indices within blocks.
    pub fn at(&mut self, path: &[usize]) -> &mut Block {
        let mut block = &mut self.frames[path[0]];
        for &index in &path[1..] {
            block = &mut block.inner[index];
        }
        block
    }

    /// The paths of all blocks, first byte to last.
    pub fn paths(&self) -> Vec<Vec<usize>> {
        let mut paths = Vec::new();
        for (index, frame) in self.frames.iter().enumerate() {
            walk(frame, vec![index], &mut paths);
        }
        paths
    }

    pub fn paths_of(&self, tag: u8) -> Vec<Vec<usize>> {
        let mut paths = self.paths();
        let mut copy = self.clone();
        paths.retain(|path| copy.at(path).form() == tag);
        paths
    }
}

fn walk(block: &Block, path: Vec<usize>, paths: &mut Vec<Vec<usize>>) {
    paths.push(path.clone());
    for (index, inner) in block.inner.iter().enumerate() {
        let mut longer = path.clone();
        longer.push(index);
        walk(inner, longer, paths);
    }
}

pub fn line(bytes: &[u8]) -> Vec<u8> {
    let digits: String = bytes.iter().map(|byte| format!("{byte:02X}")).collect();
    format!("{digits}\n").into_bytes()
}
