//! Ships for the search, drawn by chance between two rows, so that every
//! value has a fraction to be rounded.

use crate::book::{Condition, Document, Entry, Liquid, Row, Ship, Weather, Weight};
use crate::corpus::dice::Dice;
use crate::corpus::draft::{self, Block, Draft};
use crate::curve::SINES;
use crate::line::up;
use crate::loading::laden;
use crate::sets::CODE;
use crate::unit::TENTHS;

/// Levers at the stations in thousandths of the greatest.
type Form = [i128; 13];

const LATE: Form = [
    0, 90, 190, 310, 450, 620, 800, 930, 1_000, 980, 890, 740, 540,
];
const MIDDLE: Form = [
    0, 150, 310, 490, 680, 850, 960, 1_000, 960, 850, 690, 480, 250,
];
const SLOW: Form = [
    0, 25, 60, 130, 280, 500, 740, 920, 1_000, 970, 870, 700, 480,
];
const EARLY: Form = [
    0, 240, 510, 780, 1_000, 990, 930, 830, 700, 550, 380, 190, 0,
];

fn ship(dice: &mut Dice, draught: i128) -> Ship {
    let breadth = (draught * dice.between(2_000, 3_450) / 1_000).max(3_000);
    let length = (breadth * dice.between(45, 80) / 10).clamp(24_000, 400_000);
    let index = if dice.chance(20) {
        0
    } else {
        dice.between(1, 4_500)
    };
    Ship {
        length,
        breadth,
        keel_area: (length * breadth * index / 1_000_000_000).min(20_000),
        sharp_bilge: dice.chance(8),
    }
}

fn weather(dice: &mut Dice, ship: &Ship, draught: i128) -> Weather {
    let height = dice.between(2_000, 3 * draught);
    Weather {
        wind_area: (ship.length * height / 100_000).clamp(1, 300_000),
        arm: draught / 2 + height / 2,
        block_coefficient: dice.between(430, 780),
        flooding: if dice.chance(80) {
            dice.between(400, 600)
        } else {
            dice.between(250, 400)
        },
        deck_edge: dice.between(200, 400),
    }
}

/// Two items, so that KG is hardly ever a whole number of tenths, and KG in
/// millimetres, rounded up.
fn entries(dice: &mut Dice, mass: i128, kg: i128) -> (Vec<Entry>, i128) {
    let part = dice.between(1, mass / 2);
    let (low, high) = (kg - dice.between(0, 400), kg + dice.between(0, 900));
    let item = |mass: i128, centre: i128| Entry::Item(Weight { mass, centre });
    let moment = (mass - part) * low + part * high;
    (
        vec![item(mass - part, low), item(part, high)],
        up(moment, mass),
    )
}

/// Two rows with the mass between, that differ by a few millimetres.
fn rows(dice: &mut Dice, mass: i128, middle: &Row) -> Vec<Row> {
    let gaps = [(); 2].map(|()| dice.between(1, mass / 40));
    let mut row = |displacement: i128, side: i128| {
        let mut beside = |value: i128, most: i128| (value + side * dice.between(0, most)).max(0);
        Row {
            displacement,
            draught: beside(middle.draught, 3),
            km: beside(middle.km, 3),
            kn: middle
                .kn
                .iter()
                .enumerate()
                .map(|(station, &kn)| beside(kn, if station == 0 { 0 } else { 2 }))
                .collect(),
        }
    };
    vec![row(mass - gaps[0], -1), row(mass + gaps[1], 1)]
}

fn drawn(dice: &mut Dice, form: &Form) -> Document {
    let draught = dice.between(2_500, 9_000);
    let ship = ship(dice, draught);
    let weather = weather(dice, &ship, draught);
    let volume = ship.length * ship.breadth / 1_000 * draught / 1_000;
    let mass = volume * weather.block_coefficient * 1_025 / 1_000_000 + dice.between(0, 999);
    let around = draught * dice.between(75, 140) / 100;
    let (entries, kg) = entries(dice, mass, around);
    let greatest = dice.between(250, 1_200);
    let lever = |station: usize| greatest * form[station] / 1_000;
    let kn = (0..13).map(|station| up(kg * SINES[station], 100_000) + lever(station));
    let gm = lever(1) * 100_000 / SINES[1] * dice.between(70, 130) / 100;
    let middle = Row {
        displacement: mass,
        draught,
        km: kg + gm,
        kn: kn.collect(),
    };
    Document {
        rows: rows(dice, mass, &middle),
        ship,
        condition: Condition {
            criteria: &CODE,
            weather,
            entries,
        },
    }
}

/// A ship with one hump in her curve.
pub fn ordinary(dice: &mut Dice) -> Document {
    let form = dice.pick(&[LATE, MIDDLE, MIDDLE, SLOW]);
    drawn(dice, &form)
}

/// A ship whose values come out whole but for KM, or for KN at her first
/// stations, which are rounded down by most of a millimetre.
pub fn clean(dice: &mut Dice) -> Option<Document> {
    let mut document = drawn(dice, &SLOW);
    let used = laden(&document).ok()?;
    let mass = used.displacement;
    let centre = up(used.kg, TENTHS.of(1));
    document.condition.entries = vec![Entry::Item(Weight { mass, centre })];
    let lower = Row {
        displacement: mass - 97 * (mass / 10_000),
        draught: used.draught,
        km: centre + dice.between(200, 1_500),
        kn: used.kn,
    };
    let mut upper = lower.clone();
    upper.displacement = mass + 3 * (mass / 10_000);
    if dice.chance(50) {
        upper.km += 1;
    } else {
        let last = 1 + dice.index(3);
        for kn in &mut upper.kn[1..=last] {
            *kn += 1;
        }
    }
    document.rows = vec![lower, upper];
    Some(document)
}

/// A ship with her greatest lever around 20 degrees.
pub fn early(dice: &mut Dice) -> Document {
    drawn(dice, &EARLY)
}

/// Whether a text with these rows is read, as far as KN's bends go.
pub fn smooth(document: &Document) -> bool {
    document.rows.iter().all(Row::smooth)
}

/// The most that KN bends in the first row once it is straightened. In the
/// other it is up to 4 mm greater at each station, and bends by no more than
/// 400.
const MOST_BENT: i128 = 392;

/// Brings KN from this station on near enough to the straight line through
/// the two before it, in both rows alike; none if it would leave KN's limits.
pub fn straighten(document: &mut Document, from: usize) -> Option<()> {
    (from..13).try_for_each(|station| {
        let kn = &document.rows[0].kn;
        let straight = 2 * kn[station - 1] - kn[station - 2];
        let near = kn[station].clamp(straight - MOST_BENT, straight + MOST_BENT);
        let more = near - kn[station];
        lift(document, station, more).then_some(())
    })
}

/// Lifts KN by this much at 40 degrees, and by less before and beyond.
pub fn swell(document: &mut Document, most: i128) -> Option<()> {
    (1..13)
        .try_for_each(|station| lift(document, station, most * LATE[station] / 1_000).then_some(()))
}

/// Adds so many millimetres to KN at a station in both rows; false if it
/// would leave KN's limits.
pub fn lift(document: &mut Document, station: usize, more: i128) -> bool {
    let fits = |row: &Row| (0..=30_000).contains(&(row.kn[station] + more));
    let possible = document.rows.iter().all(fits);
    if possible {
        for row in &mut document.rows {
            row.kn[station] += more;
        }
    }
    possible
}

/// The text of a document.
pub fn text(document: &Document) -> Vec<u8> {
    let mut frames = vec![draft::ship(&document.ship)];
    frames.extend(document.rows.iter().map(draft::row));
    let Condition {
        criteria,
        weather,
        entries,
    } = &document.condition;
    let entries = entries.iter().map(block).collect();
    frames.push(draft::condition(criteria, weather, entries));
    Draft { frames }.text()
}

fn block(entry: &Entry) -> Block {
    match entry {
        Entry::Item(weight) => draft::item(weight.mass, weight.centre),
        Entry::Tank(weight, liquid) => tank(weight, liquid),
        Entry::Cargo(weight, liquid) => draft::cargo(tank(weight, liquid)),
        Entry::Group(inner) => draft::group(inner.iter().map(block).collect()),
    }
}

fn tank(weight: &Weight, liquid: &Liquid) -> Block {
    let Liquid {
        fill,
        density,
        inertia,
    } = *liquid;
    draft::tank(weight.mass, weight.centre, fill, density, inertia)
}
