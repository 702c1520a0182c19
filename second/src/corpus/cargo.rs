//! Cargo tanks: at every fill beside tanks of the same values, at the limits
//! of their fields, of every length, as the 200th entry and the 201st, where
//! they may not stand, with faults, and where their free surface decides.

use super::bounds::{base, values};
use super::cases::Cases;
use super::dice::Dice;
use super::draft::{cargo, item, nested, tank, Block, Draft};
use super::edges::crest;
use super::faults::{self, apply, both, entry_path, faulty, Fault, OF_ENTRY, PAIRS, SECONDS};
use super::order::spelled;
use super::rows::highest;
use super::vessel::{self, Vessel};
use super::winds::blow;
use crate::criteria::{FAIL, PASS};
use crate::instrument::judge_text;
use crate::layout::{fields, C3, C5};
use crate::line::up;
use crate::sets::{CriteriaSet, CODE};
use crate::unit::TENTHS;

/// What stands for a tank.
pub type Kind = fn(Block) -> Vec<Block>;

pub const EITHER: [(&str, Kind); 2] = [("C3", |tank| vec![tank]), ("C5", |tank| vec![cargo(tank)])];
pub const BOTH: (&str, Kind) = ("C3 and C5", |tank| vec![tank.clone(), cargo(tank)]);

pub fn add(cases: &mut Cases) {
    add_fills(cases);
    add_limits(cases);
    add_lengths(cases);
    add_counts(cases);
    add_places(cases);
    add_faults(cases);
    add_planner(cases);
    add_highest(cases);
}

/// Makes the tank at a path a cargo tank.
fn recast(draft: &mut Draft, path: &[usize]) {
    let tank = draft.at(path);
    *tank = cargo(tank.clone());
}

/// Each fill that a rule names, and those beside it.
fn add_fills(cases: &mut Cases) {
    for (fill, mass) in [
        (0, 0),
        (0, 1),
        (1, 5_000),
        (979, 5_000),
        (980, 5_000),
        (985, 5_000),
        (1_000, 5_000),
        (1_001, 5_000),
    ] {
        for depth in [0, 4] {
            let name = format!("fill {fill} mass {mass} depth {depth}");
            cases.add_twins(&[EITHER[0], EITHER[1], BOTH], &name, move |dice, kind| {
                filled(dice, (fill, mass), depth, kind).text()
            });
        }
    }
}

/// A tank, or what stands for it, so full and heavy and so deep.
pub fn filled(dice: &mut Dice, (fill, mass): (i128, i128), depth: usize, kind: Kind) -> Draft {
    let vessel = vessel::judged(dice);
    let tested = kind(tank(mass, vessel.kg, fill, 1_025, 30));
    let rest = vessel.mass - mass * tested.len() as i128;
    let mut entries = nested(depth, tested);
    entries.push(item(rest, vessel.kg));
    vessel.draft(entries)
}

/// Each field at its limits and one beyond, and the greatest tank there can
/// be, at the highest centre that its free surface leaves it and one higher.
fn add_limits(cases: &mut Cases) {
    for (index, field) in fields(C5).unwrap_or_default().iter().enumerate() {
        for value in values(field) {
            let name = format!("bound {C5:02X} field {index} value {value}");
            cases.add(name, move |dice| {
                let (_, mut draft) = base(dice);
                let path = dice.pick(&draft.paths_of(C3));
                recast(&mut draft, &path);
                draft.at(&path).values[index] = value;
                draft.text()
            });
        }
    }
    for centre in [59_666, 59_667] {
        cases.add(format!("greatest cargo tank at {centre}"), move |dice| {
            let mut vessel = vessel::judged(dice);
            vessel.rows.truncate(2);
            vessel.rows[1].displacement = 600_000_000;
            let greatest = tank(600_000_000, centre, 1_000, 2_000, 100_000);
            vessel.draft(vec![cargo(greatest)]).text()
        });
    }
}

/// Lengths with as many bytes there, and lengths that only say so; the tank
/// the last of its parent, or with an item behind it there.
fn add_lengths(cases: &mut Cases) {
    for depth in [0, 4] {
        for last in [true, false] {
            for length in [0, 6, 13, 15] {
                let name = format!("cargo tank of {length} bytes at depth {depth}, last {last}");
                cases.add(name, move |dice| {
                    let resized = |tested: &mut Block| {
                        let mut body = tested.body();
                        body.resize(length, 0);
                        tested.values.clear();
                        tested.tail = body;
                    };
                    placed(dice, depth, last, resized).text()
                });
            }
            for length in [13, 15] {
                let name = format!("cargo tank of length {length} at depth {depth}, last {last}");
                cases.add(name, move |dice| {
                    placed(dice, depth, last, |tested| tested.declared = Some(length)).text()
                });
            }
        }
    }
}

/// An item, and a changed cargo tank so deep. Where that is in groups an item
/// stands behind them.
fn placed(dice: &mut Dice, depth: usize, last: bool, change: impl FnOnce(&mut Block)) -> Draft {
    let vessel = vessel::judged(dice);
    let mut tested = cargo(tank(5_000, vessel.kg, 985, 1_025, 30));
    change(&mut tested);
    let mut inner = vec![tested];
    if !last {
        inner.push(item(0, 0));
    }
    let mut entries = vec![item(vessel.mass - 5_000, vessel.kg)];
    entries.extend(nested(depth, inner));
    if depth > 0 {
        entries.push(item(0, 0));
    }
    vessel.draft(entries)
}

type Entry = fn(i128, i128) -> Block;

const ITEM: (&str, Entry) = ("C2", item);
const TANK: (&str, Entry) = ("C3", |mass, centre| tank(mass, centre, 979, 250, 1));
const CARGO: (&str, Entry) = ("C5", |mass, centre| cargo(tank(mass, centre, 985, 250, 1)));

/// The 200th entry and the 201st, each of a kind behind others of a kind.
fn add_counts(cases: &mut Cases) {
    for (others, last, count, spared) in [
        (ITEM, CARGO, 200, false),
        (TANK, CARGO, 200, true),
        (CARGO, CARGO, 200, false),
        (ITEM, CARGO, 201, true),
        (TANK, CARGO, 201, true),
        (CARGO, CARGO, 201, false),
        (CARGO, TANK, 201, true),
        (CARGO, ITEM, 201, true),
    ] {
        let name = format!("{} as entry {count} behind {}", last.0, others.0);
        cases.add_spared(spared, name, move |dice| {
            let vessel = vessel::judged(dice);
            let share = vessel.mass / count;
            let mut entries = vec![others.1(share, vessel.kg); count as usize - 1];
            entries.push(last.1(vessel.mass - share * (count - 1), vessel.kg));
            vessel.draft(entries).text()
        });
    }
    cases.add_spared(true, "C5 as entry 201 at depth 4", |dice| {
        crowded(dice, 4, None).text()
    });
    for fault in [None, Some(Fault::BodyShort)] {
        cases.add(format!("C5 as entry 201, fill 0, {fault:?}"), move |dice| {
            crowded(dice, 0, fault).text()
        });
    }
    for fault in [Some(Fault::PastAll), Some(Fault::Tag)] {
        cases.add_full(format!("C5 as entry 201, fill 0, {fault:?}"), move |dice| {
            crowded(dice, 0, fault).text()
        });
    }
}

/// 200 items, and a cargo tank behind them that has a mass and fill 0.
fn crowded(dice: &mut Dice, depth: usize, fault: Option<Fault>) -> Draft {
    let mut vessel = vessel::judged(dice);
    vessel.rows.truncate(2);
    let mut entries = vec![item(0, 5); 200];
    entries.extend(nested(depth, vec![cargo(tank(1, 5, 0, 1_025, 30))]));
    let mut draft = vessel.draft(entries);
    if let Some(fault) = fault {
        apply(dice, &mut draft, &[3, 201], fault);
    }
    draft
}

/// Frames, with the letters of `order.rs`.
const WORDS: [&str; 10] = [
    "K", "KRRC", "SK", "SKRC", "SRKC", "SRRK", "SRRKC", "SRRCK", "k", "SRRCk",
];

/// Cargo tanks as frames, in the place of the C1, and alone at each depth.
fn add_places(cases: &mut Cases) {
    for word in WORDS {
        cases.add(format!("frames {word}"), move |dice| spelled(dice, word));
    }
    for (name, replaced) in [("before the C1", 0), ("for the C1", 1), ("for all", 4)] {
        for fault in [None, Some(Fault::PastAll), Some(Fault::BodyShort)] {
            cases.add(format!("cargo tank {name}, {fault:?}"), move |dice| {
                let mut draft = faults::ladder(dice, 0);
                let tested = cargo(tank(5, 5, 985, 1_025, 30));
                draft.condition().inner.splice(..replaced, [tested]);
                if let Some(fault) = fault {
                    apply(dice, &mut draft, &[3, 0], fault);
                }
                draft.text()
            });
        }
    }
    for depth in 0..=5 {
        cases.add(format!("cargo tank alone at depth {depth}"), move |dice| {
            let vessel = vessel::judged(dice);
            let only = cargo(tank(vessel.mass, vessel.kg, 985, 1_025, 9));
            vessel.draft(nested(depth, vec![only])).text()
        });
    }
}

/// The faults of entries at a cargo tank, in the condition and as the last of
/// the fourth group: alone, with another elsewhere, and two at once.
fn add_faults(cases: &mut Cases) {
    for depth in [0, 4] {
        let path = entry_path(depth, 1);
        for fault in OF_ENTRY {
            for second in SECONDS {
                let name = format!("cargo fault {fault:?} at depth {depth}, second {second:?}");
                let path = path.clone();
                cases.add(name, move |dice| {
                    let mut draft = faults::ladder(dice, depth);
                    recast(&mut draft, &path);
                    faulty(dice, draft, &path, fault, second)
                });
            }
        }
        for pair in PAIRS {
            let (one, other) = pair;
            let name = format!("cargo faults {one:?} and {other:?} at depth {depth}");
            let path = path.clone();
            cases.add(name, move |dice| {
                let mut draft = faults::ladder(dice, depth);
                recast(&mut draft, &path);
                both(dice, draft, &path, pair)
            });
        }
    }
}

/// The planner's tank: 98.5 % full, with a tenth of the ship's mass.
pub fn planned(vessel: &Vessel, inertia: i128, kind: Kind) -> Vec<u8> {
    let part = vessel.mass / 10;
    let mut entries = kind(tank(part, vessel.kg, 985, 1_025, inertia));
    let mut others = vessel.items();
    others[0].values[0] -= part;
    entries.extend(others);
    vessel.draft(entries).text()
}

/// A free surface of about 205 mm in KG, one that leaves a GM of 1,500 tenths
/// or of 1,499, and one by which each criterion fails in its turn.
fn add_planner(cases: &mut Cases) {
    cases.add_twins(&EITHER, "planner's tank", |dice, kind| {
        let vessel = vessel::judged(dice);
        planned(&vessel, vessel.mass / 5_000, kind)
    });
    for gm in [1_499, 1_500] {
        let name = format!("planner's tank, GM {gm} tenths with its surface");
        cases.add_twins(&EITHER, &name, move |dice, kind| {
            let (vessel, inertia) = left_with(dice, &CODE, gm);
            planned(&vessel, inertia, kind)
        });
    }
    for criterion in 1..=8 {
        let name = format!("planner's tank, criterion {criterion}");
        cases.add_twins(&EITHER, &name, move |dice, kind| {
            let (vessel, inertia) = turned(dice, &CODE, criterion);
            planned(&vessel, inertia, kind)
        });
    }
}

/// A ship and a surface that leaves her this GM, in tenths.
pub fn left_with(dice: &mut Dice, set: &'static CriteriaSet, gm: i128) -> (Vessel, i128) {
    let mut vessel = vessel::judged(dice);
    vessel.criteria = set;
    let inertia = vessel.mass / 5_000;
    vessel.set_gm(gm + up(TENTHS.of(1_025_000 * inertia), vessel.mass));
    (vessel, inertia)
}

const TRIES: usize = 300;

/// A ship and a surface by which a pass of the set's criterion becomes a fail.
/// For the angle of criterion 5 she has a crest at 25 degrees and one at 20,
/// for criterion 8 a wind that may be strong.
pub fn turned(dice: &mut Dice, set: &'static CriteriaSet, criterion: usize) -> (Vessel, i128) {
    let mut draw = || {
        let mut vessel = vessel::judged(dice);
        vessel.criteria = set;
        if criterion == 5 {
            crest(&mut vessel, &[5, 4]);
        }
        if criterion == 8 {
            blow(&mut vessel, dice.between(40, 160));
        }
        let inertia = dice.between(vessel.mass / 20_000, vessel.mass / 1_500);
        (vessel, inertia)
    };
    let mut drawn = draw();
    for _ in 0..TRIES {
        let verdict = |(_, kind): (&str, Kind)| {
            let judged = judge_text(&planned(&drawn.0, drawn.1, kind));
            judged.ok().map(|judged| judged.verdicts[criterion - 1])
        };
        if EITHER.into_iter().map(verdict).eq([Some(PASS), Some(FAIL)]) {
            break;
        }
        drawn = draw();
    }
    drawn
}

/// A corrected KG of 60,000 mm by the free surface, and by one density unit
/// less and more.
fn add_highest(cases: &mut Cases) {
    for fill in [1, 980, 985, 1_000] {
        for beside in [-1, 0, 1] {
            let name = format!("KG 60,000 by fill {fill} {beside:+}");
            cases.add_twins(&EITHER, &name, move |dice, kind| {
                let mut draft = highest(dice, beside, 1);
                let group = draft.at(&[3, 1]);
                group.inner[0].values[2] = fill;
                group.inner = kind(group.inner[0].clone());
                draft.text()
            });
        }
    }
}
