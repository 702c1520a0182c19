//! Each criterion in millimetres of KG and then in tenths: how many texts of
//! the search have another verdict, and which way it goes.

use std::collections::BTreeMap;
use std::io::{self, Write};

use super::words::word;
use crate::book::Document;
use crate::criteria::judge_in;
use crate::unit::{MILLIMETRES, TENTHS};

/// The verdicts of a criterion in the one unit and the other.
pub type Turn = [u8; 2];

#[derive(Default)]
pub struct Turns {
    texts: u64,
    /// Those whose KG came out whole: no verdict of theirs changes.
    whole: u64,
    /// By the number of the criterion, where the verdicts are two.
    turned: BTreeMap<(usize, Turn), u64>,
}

impl Turns {
    pub fn count(&mut self, document: &Document) {
        let judged = [MILLIMETRES, TENTHS].map(|unit| judge_in(document, unit));
        let [Ok(millimetres), Ok(tenths)] = judged else {
            return;
        };
        self.texts += 1;
        self.whole += u64::from(tenths.figures[1] % TENTHS.of(1) == 0);
        let verdicts = millimetres.verdicts.into_iter().zip(tenths.verdicts);
        for (criterion, (one, other)) in (1..).zip(verdicts) {
            if one != other {
                *self.turned.entry((criterion, [one, other])).or_default() += 1;
            }
        }
    }

    pub fn print(&self, out: &mut impl Write, sought: &str) -> io::Result<()> {
        writeln!(
            out,
            "in millimetres and then in tenths, {sought}: {} texts, {} with a whole KG",
            self.texts, self.whole
        )?;
        for ((criterion, turn), texts) in &self.turned {
            let [one, other] = turn.map(word);
            writeln!(out, "  criterion {criterion} {one} to {other} {texts}")?;
        }
        writeln!(out)
    }

    #[cfg(test)]
    pub fn turned(&self) -> Vec<(usize, Turn)> {
        self.turned.keys().copied().collect()
    }
}
