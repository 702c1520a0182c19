//! What the search keeps of each rounding: how many texts it moved, how far,
//! and the best text that passes by it.

use super::rounding::choices;
use super::weather::{Verdicts, Weather};
use super::words::angles;
use crate::criteria::{Judgement, FAIL, NOT_JUDGED, PASS};

/// A text on which document 01's verdict is better than the exact one.
#[derive(Clone)]
pub struct Example {
    pub criterion: usize,
    pub used: (u8, i128),
    pub exact: (u8, i128),
    /// The angles of criterion 8 as used and exact, for the reader.
    pub angles: String,
    pub text: Vec<u8>,
    /// How good an example it is.
    rank: (bool, i128),
}

#[derive(Clone, Default)]
pub struct Line {
    /// Texts with another figure once the value is exact.
    pub moved: u64,
    /// Texts with a lower figure once the value is exact.
    pub lower: u64,
    /// Passes that the exact value makes a fail.
    pub owed: u64,
    /// Texts that are not judged where the exact value makes a fail.
    pub silent: u64,
    /// Passes where the exact value is not judged.
    pub beyond: u64,
    /// Texts on which the two ends of a held value do not agree.
    pub open: u64,
    /// The most by which the used figure is above the exact one.
    pub gain: Option<i128>,
    /// The least exact figure where the used one passes.
    pub least: Option<i128>,
    pub best: Option<Example>,
    pub best_silent: Option<Example>,
}

/// One kind of text, with a line for each choice of exact values.
pub struct Tally {
    pub name: &'static str,
    pub tried: u64,
    /// Those that have the figure.
    pub figured: u64,
    pub near: u64,
    pub lines: Vec<Line>,
}

impl Tally {
    pub fn new(name: &'static str) -> Tally {
        Tally {
            name,
            tried: 0,
            figured: 0,
            near: 0,
            lines: vec![Line::default(); choices().len()],
        }
    }
}

/// A document judged by document 01 and with no value kept.
pub struct Used<'a> {
    pub judged: &'a Judgement,
    pub verdicts: &'a Verdicts,
    pub text: &'a dyn Fn() -> Vec<u8>,
}

fn keep(best: &mut Option<Example>, rank: (bool, i128), make: impl FnOnce() -> Example) {
    if best.as_ref().is_none_or(|best| best.rank < rank) {
        *best = Some(make());
    }
}

impl Line {
    pub fn fifth(&mut self, used: &Used, exact: &Verdicts) {
        let (of_used, of_exact) = (used.judged.figures[7], exact.peak);
        self.moved += u64::from(of_used != of_exact);
        self.lower += u64::from(of_exact < of_used);
        self.gain = self.gain.max(Some(of_used - of_exact));
        if used.judged.verdicts[4] != PASS {
            return;
        }
        self.least = least(self.least, of_exact);
        if exact.fifth() == FAIL {
            self.owed += 1;
            let rank = (sound(used.judged), -of_exact);
            keep(&mut self.best, rank, || Example {
                criterion: 5,
                used: (PASS, of_used),
                exact: (FAIL, of_exact),
                angles: String::new(),
                text: (used.text)(),
                rank,
            });
        }
    }

    pub fn eighth(&mut self, used: &Used, exact: &Verdicts) {
        let net = used.judged.figures[10];
        let figure = exact.figure();
        if let (Weather::Judged(_), Weather::Judged(gust)) =
            (&used.verdicts.weather, &exact.weather)
        {
            self.moved += u64::from(gust.net.0.floor() != net || !gust.net.0.is_whole());
            self.lower += u64::from(gust.net.1.floor() < net);
            self.gain = self.gain.max(Some(net - gust.net.0.floor()));
        }
        let rank = (sound(used.judged), -figure);
        let make = || Example {
            criterion: 8,
            used: (used.judged.verdicts[7], net),
            exact: (FAIL, figure),
            angles: both_angles(used.verdicts, exact),
            text: (used.text)(),
            rank,
        };
        match (used.judged.verdicts[7], exact.eighth()) {
            (_, None) => self.open += 1,
            (PASS, Some(FAIL)) => {
                self.owed += 1;
                self.least = least(self.least, figure);
                keep(&mut self.best, rank, make);
            }
            (PASS, Some(PASS)) => self.least = least(self.least, figure),
            (NOT_JUDGED, Some(FAIL)) => {
                self.silent += 1;
                keep(&mut self.best_silent, rank, make);
            }
            (PASS, Some(NOT_JUDGED)) => self.beyond += 1,
            _ => {}
        }
    }
}

fn least(one: Option<i128>, other: i128) -> Option<i128> {
    Some(one.map_or(other, |one| one.min(other)))
}

/// All that is judged passes.
fn sound(judged: &Judgement) -> bool {
    judged.verdicts.iter().all(|&verdict| verdict != FAIL)
}

fn both_angles(used: &Verdicts, exact: &Verdicts) -> String {
    format!(
        "phi1 start e: used {}; exact {}",
        angles(used),
        angles(exact)
    )
}
