//! Where 10 stands: at its row behind 2, 4, 3 and 6; before everything in the
//! lines behind that row; behind 9, 1, the 25th condition line and everything
//! in the lines before it.

use super::bends::lengthened;
use super::{put_slip, slipped, EITHER, FIRST_KN};
use crate::corpus::booklets::{bound, coaster, limited, lines_of, roomed, spoil, text_of, NUMBERS};
use crate::corpus::cases::Cases;
use crate::corpus::draft;
use crate::corpus::faults::{apply, Fault, OF_FRAME};

/// The case of row 20 came to a small corpus when the others were there, and
/// stands behind them, so that they keep their texts.
pub fn add(cases: &mut Cases) {
    add_same_row(cases);
    add_rising(cases);
    add_rows(cases);
    add_frames(cases);
    add_places(cases);
    add_conditions(cases);
    add_counts(cases);
    add_characters(cases);
    add_rooms(cases);
    add_slips(cases, false, vec![20], 40);
    add_not_due(cases);
}

/// Another fault in the row of the slip.
fn add_same_row(cases: &mut Cases) {
    for row in [1, 2] {
        for fault in OF_FRAME {
            cases.add(format!("slip and {fault:?} in row {row}"), move |dice| {
                let mut draft = slipped(dice, row, 1);
                apply(dice, &mut draft, &[row], fault);
                draft.text()
            });
        }
    }
    for (field, value) in [
        (0, 99_999),
        (0, 600_000_001),
        (1, 499),
        (1, 30_001),
        (2, 60_001),
        (FIRST_KN, 1),
        (FIRST_KN + 1, 30_001),
        (FIRST_KN + 6, 30_001),
        (FIRST_KN + 12, 30_001),
        (FIRST_KN + 12, 65_535),
    ] {
        let name = format!("slip and field {field} at {value} in one row");
        cases.add(name, move |dice| {
            let row = 1 + dice.index(2);
            let mut draft = slipped(dice, row, 1);
            draft.frames[row].values[field] = value;
            draft.text()
        });
    }
}

/// W that does not rise, in the row of the slip and in the one behind it.
fn add_rising(cases: &mut Cases) {
    for slip in [1, 2] {
        for step in [-1, 0, 1] {
            let name = format!("slip in row {slip}, row 2 rises by {step}");
            cases.add(name, move |dice| {
                let mut draft = slipped(dice, slip, 1);
                draft.frames[2].values[0] = draft.frames[1].values[0] + step;
                draft.text()
            });
        }
    }
}

/// Slips in one row of so many, and in two of three. In a 41st row there is
/// no slip, for it is one too many.
fn add_rows(cases: &mut Cases) {
    for (slips, count) in [
        (vec![1], 3),
        (vec![2], 3),
        (vec![3], 3),
        (vec![1, 2], 3),
        (vec![2, 3], 3),
        (vec![1, 3], 3),
        (vec![1, 2, 3], 3),
        (vec![40], 40),
        (vec![41], 41),
    ] {
        add_slips(cases, false, slips, count);
    }
    add_slips(cases, true, vec![40], 41);
    cases.add_full("slip in row 41 of 41, past its line", |dice| {
        let mut vessel = lengthened(dice, 41);
        put_slip(dice, &mut vessel, 41);
        let mut draft = bound(dice, &vessel, 1);
        apply(dice, &mut draft, &[41], Fault::PastParent);
        draft.text()
    });
}

/// Slips in these rows of so many, for full corpora only or for every corpus.
fn add_slips(cases: &mut Cases, full_only: bool, slips: Vec<usize>, count: usize) {
    let words: Vec<String> = slips.iter().map(usize::to_string).collect();
    let name = format!("slip in row {} of {count}", words.join(" and "));
    cases.add_where(full_only, name, move |dice| {
        let mut vessel = lengthened(dice, count);
        for &row in &slips {
            put_slip(dice, &mut vessel, row);
        }
        bound(dice, &vessel, 1).text()
    });
}

/// Faults of the ship, and of the row before and behind.
fn add_frames(cases: &mut Cases) {
    for fault in [
        Fault::PastAll,
        Fault::Cut(1),
        Fault::Tag,
        Fault::BodyShort,
        Fault::Value,
    ] {
        for (frame, slip) in [(0, 1), (0, 2), (1, 2), (2, 1)] {
            let name = format!("{fault:?} of frame {frame} and a slip in row {slip}");
            cases.add(name, move |dice| {
                let mut draft = slipped(dice, slip, 1);
                apply(dice, &mut draft, &[frame], fault);
                draft.text()
            });
        }
    }
}

/// Lines out of their place before the row of the slip and behind it, and an
/// A3 before the second row.
fn add_places(cases: &mut Cases) {
    for (name, bytes) in [("of one byte", vec![0xC1]), ("whole", vec![0xD1, 0, 1, 7])] {
        for (slip, place) in [
            (1, 0),
            (1, 1),
            (1, 2),
            (2, 2),
            (1, 3),
            (2, 3),
            (2, 4),
            (2, 5),
        ] {
            let name = format!(
                "slip in row {slip} and a misplaced line {}, {name}",
                place + 1
            );
            let bytes = bytes.clone();
            cases.add(name, move |dice| {
                let mut lines = lines_of(&slipped(dice, slip, 2));
                lines.insert(place, bytes.clone());
                text_of(&lines)
            });
        }
    }
    for slip in [1, 2] {
        for (word, bytes) in [("of one byte", vec![0xA3]), ("empty", vec![0xA3, 0, 0])] {
            let name = format!("slip in row {slip} and an A3 between the rows, {word}");
            cases.add(name, move |dice| {
                let mut lines = lines_of(&slipped(dice, slip, 1));
                lines.insert(2, bytes.clone());
                text_of(&lines)
            });
        }
    }
}

/// Faults inside conditions, texts without a condition, whole booklets.
fn add_conditions(cases: &mut Cases) {
    for (turn, number) in NUMBERS.into_iter().enumerate() {
        let name = format!("slip and a condition's {number}");
        cases.add(name, move |dice| {
            let mut draft = slipped(dice, 1 + turn % 2, 2);
            spoil(dice, &mut draft, 3 + turn % 2, number);
            draft.text()
        });
    }
    for (slip, kept) in [(1, 2), (1, 3), (2, 3)] {
        let name = format!("slip in row {slip}, {kept} lines and no condition");
        cases.add(name, move |dice| {
            let mut draft = slipped(dice, slip, 0);
            draft.frames.truncate(kept);
            draft.text()
        });
    }
    for count in [2, 3, 24] {
        cases.add(format!("slip in a booklet of {count}"), move |dice| {
            let row = 1 + dice.index(2);
            slipped(dice, row, count).text()
        });
    }
    for row in [1, 2] {
        cases.add_twins(&EITHER, &format!("slip in row {row}"), move |dice, set| {
            slipped(dice, row, 1).judged_by(set).text()
        });
    }
}

/// The 24th condition line and the 25th.
fn add_counts(cases: &mut Cases) {
    for count in [24, 25, 26] {
        for slip in [1, 2] {
            let name = format!("slip in row {slip} and {count} condition lines");
            cases.add(name, move |dice| {
                let mut lines = lines_of(&slipped(dice, slip, 0));
                lines.extend(vec![vec![0xA3]; count]);
                text_of(&lines)
            });
        }
    }
}

/// What is done to the lines of a text.
type Rewrite = fn(&mut Vec<String>);

/// Refusal 1, before the row of the slip, in it and behind it, and for the
/// length of the whole.
fn add_characters(cases: &mut Cases) {
    let rewrites: [(&str, Rewrite); 7] = [
        ("a wrong ship's line", |lines| lines[0].insert(6, 'g')),
        ("an odd digit in its line", |lines| lines[1].push('0')),
        ("a wrong character in its line", |lines| {
            lines[1].replace_range(10..11, "x");
        }),
        ("an empty line behind the rows", |lines| {
            lines.insert(3, String::new());
        }),
        ("a wrong condition line", |lines| lines[3].push('Z')),
        ("an empty line behind all", |lines| {
            lines.push(String::new())
        }),
        ("an odd line behind all", |lines| {
            lines.push("A30".to_string())
        }),
    ];
    for (name, rewrite) in rewrites {
        cases.add(format!("slip in row 1 and {name}"), move |dice| {
            let text = String::from_utf8_lossy(&slipped(dice, 1, 1).text()).into_owned();
            let mut lines: Vec<String> = text.lines().map(str::to_string).collect();
            rewrite(&mut lines);
            (lines.join("\n") + "\n").into_bytes()
        });
    }
    cases.add("slip and an unended line", |dice| {
        let mut text = slipped(dice, 2, 1).text();
        text.pop();
        text
    });
    for beside in [-1, 0] {
        cases.add(format!("slip and limit {beside:+}"), move |dice| {
            let text = slipped(dice, 2, 1).text();
            let limit = text.len().saturating_add_signed(beside);
            limited(text, limit)
        });
    }
}

/// A slip in a booklet and with no condition, in every room.
fn add_rooms(cases: &mut Cases) {
    for count in [0, 1, 2, 3] {
        let mut rooms = vec![0, 208, 209];
        if count > 1 {
            rooms.extend([209 * count - 1, 209 * count]);
        }
        let words: Vec<String> = rooms.iter().map(|room| format!("room {room}")).collect();
        let words = words.iter().map(String::as_str);
        let kinds: Vec<(&str, usize)> = words.zip(rooms).collect();
        let name = format!("slip in a booklet of {count}");
        cases.add_twins(&kinds, &name, move |dice, room| {
            let row = 1 + dice.index(2);
            roomed(slipped(dice, row, count).text(), room)
        });
    }
    cases.add("slip and 25 condition lines, room 209", |dice| {
        let mut lines = lines_of(&slipped(dice, 1, 0));
        lines.extend(vec![vec![0xA3]; 25]);
        roomed(text_of(&lines), 209)
    });
}

/// A row with a slip where the ship is due, or conditions alone: its 4 goes
/// before its 10. And a whole A3 where the row with the slip is due.
fn add_not_due(cases: &mut Cases) {
    cases.add("slip in row 1 and no ship", |dice| {
        let lines = lines_of(&slipped(dice, 1, 1));
        text_of(&lines[1..])
    });
    cases.add("slip in row 1 behind a whole A3", |dice| {
        let mut lines = lines_of(&slipped(dice, 1, 1));
        lines.insert(1, lines[3].clone());
        text_of(&lines)
    });
    for (place, before) in [("before the ship", 0), ("behind the first condition", 4)] {
        cases.add(format!("a row with a slip {place}"), move |dice| {
            let mut vessel = coaster(dice);
            let mut lines = lines_of(&bound(dice, &vessel, 2));
            put_slip(dice, &mut vessel, 2);
            vessel.rows[1].displacement += 1;
            lines.insert(before, draft::row(&vessel.rows[1]).bytes());
            text_of(&lines)
        });
    }
}
