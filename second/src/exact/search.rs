//! The search: texts by chance at the edge of criteria 5 and 8, each judged
//! with every value exact in turn.

use std::io::{self, Write};

use super::draw::{smooth, text};
use super::hull::Hull;
use super::levers::Levers;
use super::rounding::{choices, Kept};
use super::tally::{Example, Line, Tally, Used};
use super::tune;
use super::turns::Turns;
use super::weather::{Verdicts, Weather};
use super::words::word;
use crate::book::Document;
use crate::corpus::dice::Dice;
use crate::criteria::{judge_document, PASS, WEATHER_END};
use crate::curve::Y_PER_MILLIMETRE;
use crate::unit::{MILLIMETRES, TENTHS};

/// A net within reach of the edge: a tenth of a metre-degree.
const NEAR: i128 = 100_000_000_000;

pub struct Search {
    /// Draws that could not be brought where they were sought.
    missed: u64,
    /// Texts that are refused for a row that is not smooth.
    bent: u64,
    /// Texts that are refused for their mass or their KG.
    off: u64,
    fifth: Tally,
    /// One for each kind of curve, in the order of `KINDS`.
    eighth: [Tally; 4],
    /// Of all texts that are judged.
    pub turns: Turns,
    /// Of plain ships brought to the edge with KG in millimetres.
    pub turns_before: Turns,
}

impl Search {
    pub fn run(seed: u64, count: u64) -> Search {
        let mut search = Search {
            missed: 0,
            bent: 0,
            off: 0,
            fifth: Tally::new("peaks near 25 degrees"),
            eighth: KINDS.map(Tally::new),
            turns: Turns::default(),
            turns_before: Turns::default(),
        };
        for number in 0..count {
            match drawn(seed, number) {
                None => search.missed += 1,
                Some(document) if !smooth(&document) => search.bent += 1,
                Some(document) => search.judge(&document),
            }
            if let Some(document) = drawn_before(seed, number).filter(smooth) {
                search.turns_before.count(&document);
            }
        }
        search
    }

    fn judge(&mut self, document: &Document) {
        let Ok(judged) = judge_document(document) else {
            self.off += 1;
            return;
        };
        let Some(verdicts) = Verdicts::of(document, Kept::NONE) else {
            return;
        };
        self.turns.count(document);
        let used = Used {
            judged: &judged,
            verdicts: &verdicts,
            text: &|| text(document),
        };
        let tally = &mut self.eighth[kind(document, &verdicts)];
        tally.tried += 1;
        tally.figured += u64::from(matches!(verdicts.weather, Weather::Judged(_)));
        let near = judged.verdicts[7] == PASS && judged.figures[10] < NEAR;
        tally.near += u64::from(near);
        self.fifth.tried += 1;
        self.fifth.figured += 1;
        self.fifth.near += u64::from(judged.verdicts[4] == PASS && judged.figures[7] < 300);
        for (at, (_, kept)) in choices().into_iter().enumerate() {
            if let Some(exact) = Verdicts::of(document, kept) {
                tally.lines[at].eighth(&used, &exact);
                self.fifth.lines[at].fifth(&used, &exact);
            }
        }
    }

    /// The most that any of these roundings raised a net, on all curves or on
    /// those that do not sag.
    #[cfg(test)]
    pub fn greatest_gain(&self, names: &[&str], upright: bool) -> i128 {
        let tallies = self.eighth.iter().enumerate();
        let chosen = tallies.filter(|(kind, _)| !upright || kind % 2 == 0);
        let gains = chosen.flat_map(|(_, tally)| tally.lines.iter().zip(choices()));
        gains
            .filter(|(_, (name, _))| names.contains(name))
            .filter_map(|(line, _)| line.gain)
            .max()
            .unwrap_or(i128::MIN)
    }

    pub fn print(&self, out: &mut impl Write) -> io::Result<()> {
        writeln!(out, "{COLUMNS}")?;
        writeln!(
            out,
            "left out: {} not brought where they were sought, {} with a row that is not smooth, \
             {} refused with 7 or 8\n",
            self.missed, self.bent, self.off
        )?;
        write_tally(out, 5, &self.fifth)?;
        for tally in &self.eighth {
            write_tally(out, 8, tally)?;
        }
        self.turns.print(out, "at the edge in tenths")?;
        self.turns_before.print(out, "at the edge in millimetres")?;
        for tally in [&self.fifth].into_iter().chain(&self.eighth) {
            for (line, (name, _)) in tally.lines.iter().zip(choices()) {
                for example in line.best.iter().chain(&line.best_silent) {
                    write_example(out, tally.name, name, example)?;
                }
            }
        }
        Ok(())
    }
}

/// The document of this number, if it could be brought where it was sought.
pub fn drawn(seed: u64, number: u64) -> Option<Document> {
    let mut dice = Dice::new(seed, number);
    match dice.index(20) {
        0..=4 => tune::plain_edge(&mut dice, TENTHS),
        5..=8 => tune::clean_edge(&mut dice),
        9..=13 => tune::sagging_edge(&mut dice),
        14..=15 => tune::humped(&mut dice),
        16..=17 => tune::peak(&mut dice),
        _ => tune::border(&mut dice),
    }
}

/// The plain ship of this number, brought to the edge as it was before request
/// 5; none where the document of this number is of another kind.
fn drawn_before(seed: u64, number: u64) -> Option<Document> {
    let mut dice = Dice::new(seed, number);
    match dice.index(20) {
        0..=4 => tune::plain_edge(&mut dice, MILLIMETRES),
        _ => None,
    }
}

const COLUMNS: &str = "\
moved: texts with another figure once the value is exact
lower: those of them with a lower one
owed: passes that are a fail with the exact value
silent: not judged, and a fail with the exact value
beyond: passes that are not judged with the exact value
open: texts on which the two ends of a square root do not agree
gain: the most that the figure used is above the exact one
least: the least exact figure where the one used passes
";

/// Sagging curves lie below -lw2 within the reach of the windward side; those
/// of two humps fall from a top above 0 and rise again before min(E, 500).
pub const KINDS: [&str; 4] = ["ordinary", "sagging", "two humps", "sagging, two humps"];

/// Where criterion 8 has no start the windward side has no reach, and the
/// curve does not sag.
pub fn kind(document: &Document, verdicts: &Verdicts) -> usize {
    let Some(hull) = Hull::of(document, Kept::NONE) else {
        return 0;
    };
    let levers = Levers::of(&hull);
    let last = document.condition.weather.flooding.min(WEATHER_END);
    let reach = match &verdicts.weather {
        Weather::Judged(gust) => (-&gust.start.0).floor(),
        _ => 0,
    };
    let level = hull.lw2.times(-Y_PER_MILLIMETRE);
    let sagging = reach > 0 && levers.falls_below(&level, reach);
    usize::from(sagging) + 2 * usize::from(levers.rises_again(last))
}

fn write_tally(out: &mut impl Write, criterion: usize, tally: &Tally) -> io::Result<()> {
    writeln!(
        out,
        "criterion {criterion}, {}: {} texts, {} with a figure, {} within reach of the edge",
        tally.name, tally.tried, tally.figured, tally.near
    )?;
    for (line, (name, _)) in tally.lines.iter().zip(choices()) {
        if criterion == 8 || ["KG", "KN", "all"].contains(&name) {
            write_line(out, name, line)?;
        }
    }
    writeln!(out)
}

fn write_line(out: &mut impl Write, name: &str, line: &Line) -> io::Result<()> {
    let shown = |value: Option<i128>| value.map_or("-".to_string(), |value| value.to_string());
    writeln!(
        out,
        "  {name:6} moved {:6} lower {:5} owed {:6} silent {:5} beyond {:5} open {} \
         gain {:>14} least {}",
        line.moved,
        line.lower,
        line.owed,
        line.silent,
        line.beyond,
        line.open,
        shown(line.gain),
        shown(line.least)
    )
}

fn write_example(
    out: &mut impl Write,
    curve: &str,
    name: &str,
    example: &Example,
) -> io::Result<()> {
    let Example {
        criterion,
        used,
        exact,
        ..
    } = example;
    writeln!(
        out,
        "exact {name} criterion {criterion} used {} {} exact {} {}",
        word(used.0),
        used.1,
        word(exact.0),
        exact.1
    )?;
    writeln!(out, "note {curve}; {}", example.angles)?;
    writeln!(out, "{}", String::from_utf8_lossy(&example.text))
}
