//! Limits of characters, at a text's length and beside it, none and more than
//! the library takes; and booklets of 12,000 to 180,001 characters.

use super::lines::{condition_of, Shape};
use super::{booklet, coaster, limited, roomed};
use crate::corpus::cases::Cases;
use crate::corpus::dice::Dice;
use crate::corpus::draft::Draft;
use crate::corpus::sizes::filling;
use crate::instrument::Call;

pub fn add(cases: &mut Cases) {
    for beside in [-1, 0, 1] {
        cases.add(format!("limit {beside:+} beside the text"), move |dice| {
            let text = booklet(dice, 2).text();
            let limit = text.len().saturating_add_signed(beside);
            limited(text, limit)
        });
        cases.add(
            format!("limit {beside:+} beside a wrong text"),
            move |dice| {
                let mut text = booklet(dice, 1).text();
                text.pop();
                let limit = text.len().saturating_add_signed(beside);
                limited(text, limit)
            },
        );
    }
    for limit in [0, 1, 60_000, 180_001, 200_000, 4_294_967_295] {
        cases.add(format!("limit {limit}"), move |dice| {
            limited(booklet(dice, 1).text(), limit)
        });
        cases.add(format!("limit {limit} of nothing"), move |_| {
            limited(Vec::new(), limit)
        });
        cases.add(format!("limit {limit} of one line end"), move |_| {
            limited(b"\n".to_vec(), limit)
        });
    }
    for room in [208, 209] {
        cases.add(format!("over the limit, room {room}"), move |dice| {
            let text = booklet(dice, 2).text();
            let limit = text.len() - 1;
            Call {
                limit,
                ..roomed(text, room)
            }
        });
    }
    add_sized(cases);
    add_lines(cases);
}

/// Booklets of exactly so many characters. A small corpus has each length once
/// (those of 12,000 and 12,001 in `sizes.rs`).
fn add_sized(cases: &mut Cases) {
    for total in [12_000, 12_001] {
        cases.add_full(format!("booklet of {total} characters"), move |dice| {
            sized(dice, total).text()
        });
    }
    for (total, limit) in [(60_000, 60_000), (60_001, 60_000), (180_001, 200_000)] {
        cases.add(
            format!("booklet of {total} characters, limit {limit}"),
            move |dice| limited(sized(dice, total).text(), limit),
        );
    }
    for (total, limit) in [
        (59_999, 60_000),
        (59_999, 180_000),
        (60_000, 180_000),
        (60_001, 180_000),
        (180_000, 180_000),
        (180_000, 200_000),
        (180_000, 4_294_967_295),
        (180_000, 179_999),
        (180_001, 180_000),
        (180_001, 4_294_967_295),
    ] {
        cases.add_full(
            format!("booklet of {total} characters, limit {limit}"),
            move |dice| limited(sized(dice, total).text(), limit),
        );
    }
}

/// Long texts of long lines, and of short ones.
fn add_lines(cases: &mut Cases) {
    cases.add("long lines in 59999 characters, limit 60000", |dice| {
        limited(shaped(dice, 59_999, &LONG_LINES).text(), 60_000)
    });
    cases.add("a line of 60000 digits in 180000 characters", |dice| {
        shaped(dice, 180_000, &[(30_000, Shape::Right)]).text()
    });
    cases.add_full("lines of three characters, 180000 of them", |_| {
        b"A1\n".repeat(60_000)
    });
    cases.add_full("180000 line ends", |_| vec![b'\n'; 180_000]);
    cases.add_full("180000 characters, the last no line end", |_| {
        let mut text = b"A1\n".repeat(59_999);
        text.extend(b"A10");
        text
    });
}

/// Condition lines at the greatest length and one byte beyond.
const LONG_LINES: [(usize, Shape); 6] = [
    (4_099, Shape::Right),
    (4_100, Shape::Right),
    (4_099, Shape::Past),
    (4_100, Shape::Past),
    (4_099, Shape::Short),
    (4_100, Shape::Short),
];

/// A sound booklet of so many characters.
pub fn sized(dice: &mut Dice, total: usize) -> Draft {
    shaped(dice, total, &[])
}

/// A booklet of so many characters, with condition lines of so many bytes
/// before the others.
fn shaped(dice: &mut Dice, total: usize, first: &[(usize, Shape)]) -> Draft {
    let vessel = coaster(dice);
    let mut draft = vessel.hull();
    for &(bytes, shape) in first {
        let voyage = vessel.voyage(dice);
        draft.frames.push(condition_of(&voyage, bytes, shape));
    }
    for body in bodies(total - draft.text().len()) {
        let voyage = vessel.voyage(dice);
        draft.frames.push(voyage.condition(filling(&voyage, body)));
    }
    draft
}

/// The bodies of conditions whose lines have so many characters together: as
/// many of the longest as can be, and three or four others for the rest. A
/// line has an odd number of characters.
fn bodies(mut characters: usize) -> Vec<usize> {
    let mut bodies = Vec::new();
    while characters > 20_000 {
        bodies.push(4_096);
        characters -= 2 * 4_099 + 1;
    }
    for left in (1..=4 - characters % 2).rev() {
        let line = if left == 1 {
            characters
        } else {
            characters / left / 2 * 2 + 1
        };
        bodies.push((line - 7) / 2);
        characters -= line;
    }
    bodies
}
