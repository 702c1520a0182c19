//! Booklets of 1 to 26 conditions, sound and with faults inside; the 25th
//! condition line in its place and out of it, behind other faults, and against
//! refusals 1 and 9.

use super::{booklet, coaster, limited, lines_of, roomed, spoil, text_of, FIRST, NUMBERS};
use crate::corpus::cases::Cases;
use crate::corpus::dice::Dice;
use crate::corpus::faults::{apply, Fault};
use crate::instrument::Call;

pub fn add(cases: &mut Cases) {
    for count in [1, 2, 23, 24, 25, 26] {
        let name = format!("{count} conditions");
        let spared = [23, 26].contains(&count);
        cases.add_spared(spared, name, move |dice| booklet(dice, count).text());
    }
    for count in [2, 23, 24, 25, 26] {
        let name = format!("{count} conditions with faults");
        let kept = [24, 25].contains(&count);
        cases.add_where(!kept, name, move |dice| faulty(dice, count));
    }
    add_contents(cases);
    add_misplaced(cases);
    add_behind(cases);
    add_against(cases);
}

/// Every third condition is sound, the others have each of the faults in turn.
fn faulty(dice: &mut Dice, count: usize) -> Vec<u8> {
    let mut draft = booklet(dice, count);
    let spoiled = (0..count).filter(|condition| condition % 3 != 1);
    for (condition, &number) in spoiled.zip(NUMBERS.iter().cycle()) {
        spoil(dice, &mut draft, FIRST + condition, number);
    }
    draft.text()
}

/// The lines of a ship with so many condition lines of one byte.
fn short(dice: &mut Dice, count: usize) -> Vec<Vec<u8>> {
    let mut lines = lines_of(&coaster(dice).hull());
    lines.extend(vec![vec![0xA3]; count]);
    lines
}

/// What the 25th condition line holds makes no difference.
fn add_contents(cases: &mut Cases) {
    let contents: [(&str, &[u8]); 4] = [
        ("of one byte", &[0xA3]),
        ("of two bytes", &[0xA3, 0]),
        ("past its line", &[0xA3, 0, 9, 0]),
        ("empty", &[0xA3, 0, 0]),
    ];
    for (name, bytes) in contents {
        cases.add(format!("25th condition {name}"), move |dice| {
            let mut lines = short(dice, 24);
            lines.push(bytes.to_vec());
            text_of(&lines)
        });
    }
    cases.add_full("24 conditions of one byte", |dice| {
        text_of(&short(dice, 24))
    });
    cases.add("25th condition sound behind 24 of one byte", |dice| {
        let mut lines = lines_of(&booklet(dice, 1));
        lines.splice(FIRST..FIRST, vec![vec![0xA3]; 24]);
        text_of(&lines)
    });
}

/// 25 condition lines of which some stand before the second row or behind
/// other misplaced lines.
fn add_misplaced(cases: &mut Cases) {
    for (name, place) in [
        ("as the first line", 0),
        ("behind the ship", 1),
        ("behind one row", 2),
    ] {
        cases.add(format!("25 conditions, one {name}"), move |dice| {
            let mut lines = short(dice, 24);
            lines.insert(place, vec![0xA3, 0, 0]);
            text_of(&lines)
        });
        cases.add(format!("24 conditions, one {name}"), move |dice| {
            let mut lines = short(dice, 23);
            lines.insert(place, vec![0xA3, 0, 0]);
            text_of(&lines)
        });
    }
    for count in [24, 25] {
        cases.add(format!("{count} conditions and nothing else"), move |_| {
            text_of(&vec![vec![0xA3]; count])
        });
        cases.add(format!("{count} conditions before the ship"), move |dice| {
            let mut lines = vec![vec![0xA3]; count];
            lines.extend(short(dice, 0));
            text_of(&lines)
        });
    }
    cases.add("25th condition misplaced behind 24", |dice| {
        let mut lines = short(dice, 24);
        lines.extend([vec![0xC1, 0, 0], vec![0xA3]]);
        text_of(&lines)
    });
}

/// The 25th condition line behind a fault of the ship, of a row, of a
/// misplaced line.
fn add_behind(cases: &mut Cases) {
    for (frame, fault) in [
        (0, Fault::PastAll),
        (0, Fault::Tag),
        (0, Fault::BodyShort),
        (0, Fault::Value),
        (2, Fault::PastAll),
        (2, Fault::BodyShort),
        (2, Fault::Value),
    ] {
        let name = format!("25th condition behind {fault:?} of frame {frame}");
        cases.add(name, move |dice| {
            let mut draft = coaster(dice).hull();
            apply(dice, &mut draft, &[frame], fault);
            let mut lines = lines_of(&draft);
            lines.extend(vec![vec![0xA3]; 25]);
            text_of(&lines)
        });
    }
    for place in [0, 1, 2, 3, 9] {
        let name = format!("25th condition behind a misplaced line {}", place + 1);
        cases.add(name, move |dice| {
            let mut lines = short(dice, 25);
            lines.insert(place, vec![dice.pick(&[0xC1, 0xD1, 0xA4])]);
            text_of(&lines)
        });
    }
}

/// The 25th condition line against 1 and against 9.
fn add_against(cases: &mut Cases) {
    for (name, number) in [
        ("before the 25th", 5),
        ("as the 25th", 28),
        ("behind the 25th", 29),
    ] {
        cases.add(format!("no line {name} condition"), move |dice| {
            let text = text_of(&short(dice, 26));
            let mut lines: Vec<&[u8]> = text.split_inclusive(|&c| c == b'\n').collect();
            lines[number - 1] = b"A30\n";
            lines.concat()
        });
    }
    cases.add("25th condition unended", |dice| {
        let mut text = text_of(&short(dice, 25));
        text.pop();
        text
    });
    cases.add("25th condition over the limit", |dice| {
        let text = text_of(&short(dice, 25));
        let limit = text.len() - 1;
        limited(text, limit)
    });
    for (count, room) in [
        (24, 209),
        (24, 5_015),
        (25, 208),
        (25, 209),
        (25, 5_015),
        (25, 5_225),
    ] {
        let name = format!("{count} short conditions, room {room}");
        cases.add(name, move |dice| -> Call {
            roomed(text_of(&short(dice, count)), room)
        });
    }
}
