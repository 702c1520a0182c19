//! Rooms of the report buffer: none, under 209 bytes, 209, one short of 209
//! bytes per condition line, as many, and more; for texts that are judged and
//! for those that are refused as a whole, of the same ship at every room.

use super::{booklet, lines_of, roomed, spoil, text_of, FIRST};
use crate::corpus::cases::Cases;
use crate::corpus::dice::Dice;
use crate::corpus::draft::Draft;
use crate::corpus::faults::{apply, Fault};

/// Booklets of so many conditions and what is done to their text.
type Make = fn(Draft, &mut Dice) -> Vec<u8>;

const TEXTS: [(&str, usize, Make); 12] = [
    ("one condition", 1, |draft, _| draft.text()),
    ("one condition with a fault", 1, |mut draft, dice| {
        spoil(dice, &mut draft, FIRST, 6);
        draft.text()
    }),
    ("one condition off the rows", 1, |mut draft, dice| {
        spoil(dice, &mut draft, FIRST, 7);
        draft.text()
    }),
    ("two conditions", 2, |draft, _| draft.text()),
    (
        "three conditions, one with a fault",
        3,
        |mut draft, dice| {
            spoil(dice, &mut draft, FIRST + 1, 3);
            draft.text()
        },
    ),
    ("two conditions and no line", 2, |draft, _| {
        [draft.text(), b"A3".to_vec()].concat()
    }),
    ("a wrong ship", 2, |mut draft, dice| {
        apply(dice, &mut draft, &[0], Fault::Value);
        draft.text()
    }),
    ("a wrong row", 2, |mut draft, dice| {
        apply(dice, &mut draft, &[2], Fault::BodyShort);
        draft.text()
    }),
    ("a misplaced line", 2, |draft, _| {
        [draft.text(), b"C1\n".to_vec()].concat()
    }),
    ("a misplaced condition", 2, |draft, _| {
        let mut lines = lines_of(&draft);
        lines.swap(2, 3);
        text_of(&lines)
    }),
    ("no condition", 0, |draft, _| draft.text()),
    ("nothing", 0, |_, _| Vec::new()),
];

pub fn add(cases: &mut Cases) {
    for (name, count, make) in TEXTS {
        let mut rooms = vec![0, 208, 209];
        if count > 1 {
            rooms.extend([209 * count - 1, 209 * count]);
        }
        rooms.push(209 * count.max(1) + 1);
        let words: Vec<String> = rooms.iter().map(|room| format!("room {room}")).collect();
        let words = words.iter().map(String::as_str);
        let kinds: Vec<(&str, usize)> = words.zip(rooms).collect();
        cases.add_twins(&kinds, name, move |dice, room| {
            let draft = booklet(dice, count);
            roomed(make(draft, dice), room)
        });
    }
    for room in [0, 209, 4_999, 5_015, 5_017, 4_294_967_295] {
        let name = format!("24 conditions, room {room}");
        cases.add_where(room != 5_015, name, move |dice| {
            roomed(booklet(dice, 24).text(), room)
        });
    }
    for room in [100_000, 4_294_967_295] {
        cases.add(format!("three conditions, room {room}"), move |dice| {
            roomed(booklet(dice, 3).text(), room)
        });
    }
}
