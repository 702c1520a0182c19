//! A line as a place where blocks begin: each block has a tag, a length and a
//! body that ends within its parent, and a frame's parent is its line. The
//! tests here are those that every block has, each with its number.

use crate::layout::{self, values};
use crate::refusal::Refusal;

pub struct Line<'a> {
    pub number: usize,
    pub bytes: &'a [u8],
}

pub struct Block<'a> {
    pub tag: u8,
    pub offset: usize,
    pub body: &'a [u8],
}

impl Block<'_> {
    pub fn inside(&self) -> usize {
        self.offset + 3
    }

    pub fn end(&self) -> usize {
        self.inside() + self.body.len()
    }
}

impl<'a> Line<'a> {
    pub fn refuse<T>(&self, number: u8, offset: usize) -> Result<T, Refusal> {
        Err(Refusal::at(number, self.number, offset))
    }

    /// The block that begins at `offset` in a parent that ends at `end`:
    /// test 2, which comes before anything is asked of the tag.
    pub fn block(&self, offset: usize, end: usize) -> Result<Block<'a>, Refusal> {
        let [tag, high, low, rest @ ..] = &self.bytes[offset..end] else {
            return self.refuse(2, offset);
        };
        let length = usize::from(*high) * 256 + usize::from(*low);
        match rest.get(..length) {
            Some(body) => Ok(Block {
                tag: *tag,
                offset,
                body,
            }),
            None => self.refuse(2, offset),
        }
    }

    /// The frame of the line: test 2 for the line as a whole.
    pub fn frame(&self) -> Result<Block<'a>, Refusal> {
        self.block(0, self.bytes.len())
    }

    /// Test 3 of a frame: its fixed size, and that it is as long as its line.
    pub fn whole(&self, frame: &Block) -> Result<(), Refusal> {
        self.fixed_size(frame)?;
        if frame.end() < self.bytes.len() {
            return self.refuse(3, frame.offset);
        }
        Ok(())
    }

    pub fn fixed_size(&self, block: &Block) -> Result<(), Refusal> {
        match layout::size_of(block.tag) {
            Some(size) if size != block.body.len() => self.refuse(3, block.offset),
            _ => Ok(()),
        }
    }

    pub fn limits(&self, block: &Block) -> Result<Vec<i128>, Refusal> {
        match values(block.tag, block.body) {
            Some(values) => Ok(values),
            None => self.refuse(6, block.offset),
        }
    }
}
