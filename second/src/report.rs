//! The report: one frame D1 of 209 characters, the LF in them.

use crate::criteria::{Judgement, REFUSED};
use crate::refusal::Refusal;

/// The characters of a report, its LF counted.
pub const REPORT: usize = 209;

pub fn report(answer: &Result<Judgement, Refusal>) -> String {
    match answer {
        Ok(judgement) => {
            let none = Refusal::at(0, 0, 0);
            frame(&none, &judgement.verdicts, &judgement.figures)
        }
        Err(refusal) => frame(refusal, &[REFUSED; 8], &[0; 11]),
    }
}

fn frame(refusal: &Refusal, verdicts: &[u8; 8], figures: &[i128; 11]) -> String {
    let Refusal {
        number,
        line,
        offset,
    } = refusal;
    let mut frame = format!("D10065{number:02X}{line:04X}{offset:04X}");
    for verdict in verdicts {
        frame.push_str(&format!("{verdict:02X}"));
    }
    for &figure in figures {
        let written = if figure < 0 {
            figure + (1 << 64)
        } else {
            figure
        };
        frame.push_str(&format!("{written:016X}"));
    }
    frame.push('\n');
    frame
}

#[cfg(test)]
mod tests {
    use super::*;

    #[test]
    fn refusals_are_written_with_threes_and_zeros() {
        let written = report(&Err(Refusal::at(2, 4, 18)));
        assert!(written.starts_with("D10065020004001203030303030303030"));
        assert_eq!((written.len(), REPORT), (209, 209));
        assert!(written[32..208].bytes().all(|c| c == b'0'));
    }

    #[test]
    fn negative_figures_are_written_as_two_to_the_64th_more() {
        let mut figures = [0; 11];
        figures[8] = -1;
        let written = report(&Ok(Judgement {
            verdicts: [0; 8],
            figures,
        }));
        assert_eq!(&written[32 + 8 * 16..32 + 9 * 16], "FFFFFFFFFFFFFFFF");
    }
}
