//! C6 as a block: its fields at their limits, its lengths, every place where
//! it may stand and where not, faults at it and around it, and the refusals of
//! a loading behind it.

use super::EITHER;
use crate::book::Weather;
use crate::corpus::bounds::{all_at, base, values, ENDS};
use crate::corpus::cases::Cases;
use crate::corpus::dice::Dice;
use crate::corpus::draft::{group, item, tank, weather, Block, Draft};
use crate::corpus::faults::{
    apply, both, faulty, ladder, Fault, Second, OF_CONDITION, OF_ENTRY, PAIRS, SECONDS,
};
use crate::corpus::order::spelled;
use crate::corpus::rows::highest;
use crate::corpus::sizes::{entries, full};
use crate::corpus::vessel;
use crate::layout::{fields, C6};
use crate::sets::{CriteriaSet, CODE, TIMBER};

/// The weather of a draft of two rows.
const WEATHER: [usize; 2] = [3, 0];

pub fn add(cases: &mut Cases) {
    add_limits(cases);
    add_lengths(cases);
    add_places(cases);
    add_frames(cases);
    add_faults(cases);
    add_loadings(cases);
    add_sizes(cases);
}

fn add_limits(cases: &mut Cases) {
    for (index, field) in fields(C6).unwrap_or_default().iter().enumerate() {
        for value in values(field) {
            let name = format!("bound {C6:02X} field {index} value {value}");
            cases.add(name, move |dice| {
                let mut draft = base(dice).1.judged_by(&TIMBER);
                draft.at(&WEATHER).values[index] = value;
                draft.text()
            });
        }
    }
    for (name, end) in ENDS {
        cases.add(format!("{name}, timber"), move |dice| {
            all_at(dice, end).judged_by(&TIMBER).text()
        });
    }
}

/// Lengths with as many bytes there, and lengths that only say so, with an
/// entry behind and alone in the condition.
fn add_lengths(cases: &mut Cases) {
    for length in [0, 1, 6, 11, 13, 14, 24] {
        let name = format!("weather of {length} bytes");
        add_weather(cases, &name, false, move |block| {
            let mut body = block.body();
            body.resize(length, 0);
            block.values.clear();
            block.tail = body;
        });
    }
    for length in [0, 11, 13, 65_535] {
        let name = format!("weather of length {length}");
        add_weather(cases, &name, false, move |block| {
            block.declared = Some(length);
        });
    }
    for length in [11, 12, 13] {
        let name = format!("weather alone of length {length}");
        add_weather(cases, &name, true, move |block| {
            block.declared = Some(length);
        });
    }
    for kept in [1, 2] {
        let name = format!("weather alone, {kept} bytes of it");
        add_weather(cases, &name, true, move |block| block.cut = Some(kept));
    }
}

/// A text by each set whose weather is changed, alone in the condition or not.
fn add_weather(
    cases: &mut Cases,
    name: &str,
    alone: bool,
    change: impl Fn(&mut Block) + Copy + 'static,
) {
    cases.add_twins(&EITHER, name, move |dice, set| {
        let mut draft = ladder(dice, 1).judged_by(set);
        change(draft.at(&WEATHER));
        if alone {
            draft.condition().inner.truncate(1);
        }
        draft.text()
    });
}

/// Conditions by their blocks: W a C1, T a C6, I an item, brackets a group.
const WORDS: [&str; 26] = [
    "T",
    "TI",
    "T(I)",
    "TII",
    "TW",
    "WT",
    "TT",
    "TWI",
    "WTI",
    "TTI",
    "TIT",
    "TIW",
    "WIT",
    "TITI",
    "IT",
    "ITI",
    "(T)I",
    "(I)T",
    "T(T)",
    "T(IT)I",
    "W(T)I",
    "T(W)I",
    "T(TI)",
    "T((((T))))",
    "T((((IT))))I",
    "W((((IW))))I",
];

fn add_places(cases: &mut Cases) {
    for word in WORDS {
        cases.add(format!("condition {word}"), move |dice| {
            condition(dice, word).text()
        });
    }
    for (word, path) in [
        ("WTI", vec![3, 1]),
        ("TTI", vec![3, 1]),
        ("TWI", vec![3, 1]),
        ("TIT", vec![3, 2]),
        ("T(IT)I", vec![3, 1, 1]),
    ] {
        for fault in [Fault::PastParent, Fault::BodyShort, Fault::Value] {
            let path = path.clone();
            cases.add(format!("condition {word}, {fault:?}"), move |dice| {
                let mut draft = condition(dice, word);
                apply(dice, &mut draft, &path, fault);
                draft.text()
            });
        }
    }
}

/// A draft of two rows with such a condition, its mass in equal items.
fn condition(dice: &mut Dice, word: &str) -> Draft {
    let mut vessel = vessel::judged(dice);
    vessel.rows.truncate(2);
    vessel.mass = vessel.rows[0].displacement;
    let items = word.matches('I').count().max(1) as i128;
    let each = item(vessel.mass / items, vessel.kg);
    vessel.rows[0].displacement = items * (vessel.mass / items);
    let mut draft = vessel.draft(Vec::new());
    draft.condition().inner = blocks(&vessel.weather, &each, word);
    draft
}

fn blocks(of_weather: &Weather, each: &Block, word: &str) -> Vec<Block> {
    let mut open = vec![Vec::new()];
    for letter in word.chars() {
        let block = match letter {
            'W' => weather(&CODE, of_weather),
            'T' => weather(&TIMBER, of_weather),
            '(' => {
                open.push(Vec::new());
                continue;
            }
            ')' => group(open.pop().unwrap_or_default()),
            _ => each.clone(),
        };
        if let Some(parent) = open.last_mut() {
            parent.push(block);
        }
    }
    open.pop().unwrap_or_default()
}

/// Frames, with the letters of `order.rs`.
const FRAMES: [&str; 22] = [
    "M", "MRRC", "SM", "SMRC", "SRMC", "SRRM", "SRRMC", "SRRMT", "SRRCM", "SRRTM", "m", "SRRCm",
    "SRRTm", "T", "ST", "SRT", "SRRT", "SRRTT", "SRRTC", "SRRCT", "SRRTR", "SRRT1",
];

fn add_frames(cases: &mut Cases) {
    for word in FRAMES {
        cases.add(format!("frames {word}"), move |dice| spelled(dice, word));
    }
}

/// The faults of a C6 and of the condition that it begins: alone, with another
/// elsewhere, and two at once.
fn add_faults(cases: &mut Cases) {
    for fault in OF_ENTRY {
        for second in SECONDS {
            let name = format!("timber fault {fault:?}, second {second:?}");
            cases.add(name, move |dice| {
                let draft = ladder(dice, 1).judged_by(&TIMBER);
                faulty(dice, draft, &WEATHER, fault, second)
            });
        }
    }
    for pair in PAIRS {
        let name = format!("timber faults {:?} and {:?}", pair.0, pair.1);
        cases.add(name, move |dice| {
            let draft = ladder(dice, 1).judged_by(&TIMBER);
            both(dice, draft, &WEATHER, pair)
        });
    }
    for fault in OF_CONDITION {
        let name = format!("timber fault {fault:?} of the condition");
        cases.add(name, move |dice| {
            let draft = ladder(dice, 1).judged_by(&TIMBER);
            faulty(dice, draft, &[3], fault, Second::None)
        });
    }
}

/// A text by each set, with the same draft but for the weather's tag.
fn add_either(cases: &mut Cases, name: &str, make: impl Fn(&mut Dice) -> Draft + Copy + 'static) {
    cases.add_twins(&EITHER, name, move |dice, set: &CriteriaSet| {
        make(dice).judged_by(set).text()
    });
}

/// Refusals 7 and 8, each at its edge, and both at once.
fn add_loadings(cases: &mut Cases) {
    for (name, last, beside) in [
        ("on the first row", false, 0),
        ("one under the first row", false, -1),
        ("on the last row", true, 0),
        ("one over the last row", true, 1),
    ] {
        add_either(cases, &format!("timber mass {name}"), move |dice| {
            let vessel = vessel::any(dice, 2);
            let mass = vessel.rows[usize::from(last)].displacement + beside;
            vessel.draft(vec![item(mass, vessel.kg)])
        });
    }
    for beside in [-1, 0, 1] {
        let name = format!("timber KG 60,000 by free surface {beside:+}");
        add_either(cases, &name, move |dice| highest(dice, beside, 1));
    }
    for under in [true, false] {
        let name = format!("timber mass off the rows, under {under}, with KG too high");
        add_either(cases, &name, move |dice| {
            let vessel = vessel::judged(dice);
            let high = item(1, 60_000);
            let over = item(vessel.mass * 2, 60_000);
            let surface = tank(0, 0, 500, 2_000, 100_000);
            vessel.draft(vec![if under { high } else { over }, surface])
        });
    }
}

/// The greatest sizes behind a C6, and one beyond.
fn add_sizes(cases: &mut Cases) {
    for count in [200, 201] {
        cases.add_full(format!("timber with {count} entries"), move |dice| {
            entries(dice, count).judged_by(&TIMBER).text()
        });
    }
    for body in [4_096, 4_097] {
        cases.add_full(format!("timber with A3 of {body}"), move |dice| {
            full(dice, 2, body).judged_by(&TIMBER).text()
        });
    }
    cases.add_full("the longest sound text, timber", |dice| {
        full(dice, 40, 4_096).judged_by(&TIMBER).text()
    });
}
