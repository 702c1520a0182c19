//! A refusal is a number out of the paper's table and the place of the fault:
//! the line from 1, and the byte offset of the block's tag in that line.

#[derive(Clone, Copy, Debug, PartialEq, Eq)]
pub struct Refusal {
    pub number: u8,
    pub line: usize,
    pub offset: usize,
}

impl Refusal {
    pub fn at(number: u8, line: usize, offset: usize) -> Refusal {
        Refusal {
            number,
            line,
            offset,
        }
    }

    /// Refusals 7 and 8 belong to the loading as a whole: line and offset are 0.
    pub fn of_loading(number: u8) -> Refusal {
        Refusal::at(number, 0, 0)
    }
}
