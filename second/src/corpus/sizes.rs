//! The sizes of the text: rows, entries, depths, the length of A3, and the
//! characters of the whole, each at its limit and one beyond.

use super::cases::Cases;
use super::dice::Dice;
use super::draft::{group, item, line, nested, tank, Block, Draft};
use super::faults::{apply, Fault};
use super::load::{grouped, spread};
use super::vessel::{self, Vessel};

pub fn add(cases: &mut Cases) {
    for count in [2, 3, 39, 40, 41] {
        cases.add_spared(count == 39, format!("{count} rows"), move |dice| {
            let vessel = vessel::any(dice, count);
            vessel.text(dice)
        });
    }
    for fault in [Fault::PastParent, Fault::BodyShort, Fault::Value] {
        let spared = fault != Fault::PastParent;
        cases.add_spared(spared, format!("41st row {fault:?}"), move |dice| {
            let vessel = vessel::any(dice, 41);
            let mut draft = vessel.draft(vessel::level(dice, vessel.mass, vessel.kg));
            apply(dice, &mut draft, &[41], fault);
            draft.text()
        });
    }
    for count in [1, 2, 10, 50, 199, 200, 201] {
        let spared = [50, 199].contains(&count);
        cases.add_spared(spared, format!("{count} entries"), move |dice| {
            entries(dice, count).text()
        });
    }
    add_201st(cases);
    add_depths(cases);
    for body in [4_096, 4_097] {
        cases.add(format!("A3 of {body}"), move |dice| {
            full(dice, 2, body).text()
        });
    }
    for body in [4_095, 4_098] {
        cases.add_full(format!("A3 of {body}"), move |dice| {
            full(dice, 2, body).text()
        });
    }
    for (name, path) in [("its C1", vec![3, 0]), ("itself", vec![3])] {
        cases.add_full(format!("A3 of 4097 and a fault of {name}"), move |dice| {
            let mut draft = full(dice, 2, 4_097);
            apply(dice, &mut draft, &path, Fault::PastAll);
            draft.text()
        });
    }
    cases.add("the longest sound text", |dice| {
        full(dice, 40, 4_096).text()
    });
    add_characters(cases);
}

/// So many items and a few tanks, grouped at random.
pub fn entries(dice: &mut Dice, count: usize) -> Draft {
    let vessel = vessel::any(dice, 2);
    let entries = spread(dice, &vessel, count);
    vessel.draft(grouped(dice, entries))
}

/// 200 entries and one more, with a fault of its own or without.
fn add_201st(cases: &mut Cases) {
    for (fault, spared) in [
        (None, true),
        (Some(Fault::PastAll), false),
        (Some(Fault::Tag), false),
        (Some(Fault::BodyShort), true),
        (Some(Fault::Value), true),
    ] {
        cases.add_spared(spared, format!("201st entry {fault:?}"), move |dice| {
            let vessel = vessel::any(dice, 2);
            let mut draft = vessel.draft(vec![item(0, 5); 201]);
            if let Some(fault) = fault {
                apply(dice, &mut draft, &[3, 201], fault);
            }
            draft.text()
        });
    }
    for depth in [1, 4] {
        let name = format!("201st entry at depth {depth}");
        cases.add_spared(depth == 1, name, move |dice| {
            let vessel = vessel::any(dice, 2);
            let mut entries = vec![item(vessel.mass, vessel.kg)];
            entries.extend(vec![item(0, 0); 199]);
            entries.extend(nested(depth, vec![tank(0, 0, 0, 0, 0)]));
            vessel.draft(entries).text()
        });
    }
    cases.add("a fault behind the 201st entry", |dice| {
        let mut draft = entries(dice, 200);
        draft
            .condition()
            .inner
            .extend([item(0, 0), item(0, 60_001)]);
        draft.text()
    });
}

/// Groups to the fourth depth and the fifth, and empty ones at each.
fn add_depths(cases: &mut Cases) {
    for depth in 1..=6 {
        cases.add(format!("depth {depth}"), move |dice| {
            let vessel = vessel::judged(dice);
            vessel
                .draft(nested(depth, vec![item(vessel.mass, vessel.kg)]))
                .text()
        });
        for behind in [false, true] {
            cases.add(
                format!("empty group at depth {depth}, behind {behind}"),
                move |dice| {
                    let vessel = vessel::judged(dice);
                    let mut entries = nested(depth, Vec::new());
                    let place = if behind { 0 } else { entries.len() };
                    entries.insert(place, item(vessel.mass, vessel.kg));
                    vessel.draft(entries).text()
                },
            );
        }
    }
    cases.add("depth 5 with a length past its parent", |dice| {
        let vessel = vessel::judged(dice);
        let mut entries = nested(5, vec![item(vessel.mass, vessel.kg)]);
        entries.push(item(0, 0));
        let mut draft = vessel.draft(entries);
        let last = draft.frames.len() - 1;
        apply(dice, &mut draft, &[last, 1, 0, 0, 0, 0], Fault::PastParent);
        draft.text()
    });
    cases.add("the surveyor's drawing", surveyor);
}

/// A group of tanks whose length runs past its parent but not past the line.
fn surveyor(dice: &mut Dice) -> Vec<u8> {
    let vessel = vessel::judged(dice);
    let full = |mass: i128| tank(mass, vessel.kg, 1_000, 1_025, 60);
    let tanks = group(vec![full(1_000), full(2_000)]);
    let outer = group(vec![item(500, vessel.kg), tanks]);
    let rest = item(vessel.mass - 3_500, vessel.kg);
    let mut draft = vessel.draft(vec![outer, rest.clone(), rest]);
    let last = draft.frames.len() - 1;
    let tanks = draft.at(&[last, 1, 1]);
    tanks.declared = Some(tanks.body().len() + 9);
    draft.text()
}

/// A text whose A3 has a body of so many bytes.
pub fn full(dice: &mut Dice, rows: usize, body: usize) -> Draft {
    let vessel = vessel::any(dice, rows);
    vessel.draft(filling(&vessel, body))
}

/// Entries that make a body of so many bytes behind the weather, 120 or more
/// of them: 200 entries where they find room, some as tanks, and as many
/// groups as that takes.
pub fn filling(vessel: &Vessel, body: usize) -> Vec<Block> {
    let count = if body < 1_840 { (body - 15) / 12 } else { 200 };
    let least = 15 + 9 * count;
    let fits =
        |tanks: &usize| body >= least + 8 * tanks && (body - least - 8 * tanks).is_multiple_of(3);
    let tanks = (0..=count).rev().find(fits).unwrap_or(0);
    let mut groups = body.saturating_sub(least + 8 * tanks) / 3;
    let mut entries = Vec::new();
    for number in 0..count {
        let mass = if number == 0 { vessel.mass } else { 0 };
        let entry = if number < tanks {
            tank(mass, vessel.kg, 1_000, 1_000, 1)
        } else {
            item(mass, vessel.kg)
        };
        let depth = groups.min(4);
        groups -= depth;
        entries.extend(nested(depth, vec![entry]));
    }
    entries
}

/// Texts of 12,000 characters and one more. No sound text of one condition is
/// that long: the longest has 11,232.
fn add_characters(cases: &mut Cases) {
    cases.add("12,000 characters, A3 too long", |dice| {
        full(dice, 40, 4_480).text()
    });
    cases.add("12,001 characters, A3 too long", |dice| {
        full(dice, 39, 4_518).text()
    });
    for total in [12_000, 12_001] {
        cases.add_full(
            format!("{total} characters, a frame behind A3"),
            move |dice| {
                let mut text = full(dice, 2, 3_000 + (total % 2)).text();
                let rest = total - text.len();
                text.extend(line(&vec![0xA2; rest / 2]));
                text.truncate(total - 1);
                text.push(b'\n');
                text
            },
        );
        cases.add_full(format!("{total} line ends"), move |_| vec![b'\n'; total]);
    }
    cases.add_full("12,000 characters, the first line wrong", |dice| {
        let mut text = full(dice, 40, 4_480).text();
        text[0] = b'a';
        text
    });
    cases.add_full("20,000 characters", |_| vec![b'0'; 20_000]);
}
