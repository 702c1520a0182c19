//! How a verdict and the angles of criterion 8 are written for a reader.

use super::weather::{Verdicts, Weather};
use crate::criteria::{FAIL, PASS, UNUSED};

pub fn word(verdict: u8) -> &'static str {
    match verdict {
        FAIL => "fail",
        PASS => "pass",
        UNUSED => "unused",
        _ => "unjudged",
    }
}

/// phi1, start and e in tenths of a degree, rounded down to hundredths.
pub fn angles(verdicts: &Verdicts) -> String {
    match &verdicts.weather {
        Weather::Judged(gust) => [&gust.phi1.1, &gust.start.0, &gust.end]
            .map(|angle| hundredths(angle.times(100).floor()))
            .join(" "),
        _ => "none".to_string(),
    }
}

fn hundredths(value: i128) -> String {
    let sign = if value < 0 { "-" } else { "" };
    format!("{sign}{}.{:02}", value.abs() / 100, value.abs() % 100)
}
