//! Ships with plausible hydrostatics, drawn from the dice: KM from breadth
//! and draught, and KN as KM's share plus a form that peaks at some angle.

use super::dice::Dice;
use super::draft::{self, Block, Draft};
use super::mend::{mend, OPEN};
use crate::book::{Row, Ship, Weather};
use crate::curve::SINES;
use crate::line::up;
use crate::sets::{CriteriaSet, CODE, SETS};
use crate::unit::TENTHS;

#[derive(Clone, Debug)]
pub struct Vessel {
    pub ship: Ship,
    pub rows: Vec<Row>,
    pub criteria: &'static CriteriaSet,
    pub weather: Weather,
    pub mass: i128,
    /// KG in whole millimetres, and how many tenths of one it is above that.
    pub kg: i128,
    pub tenths: i128,
}

/// What KN has beyond KM x sine, in thousandths of its amplitude.
const LATE: [i128; 13] = [0, 2, 15, 50, 120, 230, 400, 600, 800, 950, 1_000, 950, 800];
const EARLY: [i128; 13] = [
    0, 20, 110, 300, 500, 560, 430, 150, -300, -900, -1_600, -2_400, -3_300,
];
const MIDDLE: [i128; 13] = [0, 5, 40, 130, 300, 520, 750, 900, 930, 800, 500, 50, -600];

impl Vessel {
    /// Ship, rows and one condition.
    pub fn draft(&self, entries: Vec<Block>) -> Draft {
        let mut draft = self.hull();
        draft.frames.push(self.condition(entries));
        draft
    }

    /// Ship and rows, with no condition.
    pub fn hull(&self) -> Draft {
        let mut frames = vec![draft::ship(&self.ship)];
        frames.extend(self.rows.iter().map(draft::row));
        Draft { frames }
    }

    pub fn condition(&self, entries: Vec<Block>) -> Block {
        draft::condition(self.criteria, &self.weather, entries)
    }

    /// The same ship on another voyage: mass, height, weather and criteria
    /// anew.
    pub fn voyage(&self, dice: &mut Dice) -> Vessel {
        let mut other = self.clone();
        let last = self.rows.len() - 1;
        other.mass = dice.between(self.rows[0].displacement, self.rows[last].displacement);
        other.kg = (self.kg * dice.between(94, 106) / 100).min(60_000);
        other.criteria = dice.pick(&SETS);
        let Weather { wind_area, arm, .. } = self.weather;
        other.weather = Weather {
            wind_area: (wind_area * dice.between(40, 200) / 100).min(300_000),
            arm: (arm * dice.between(70, 140) / 100).min(60_000),
            block_coefficient: dice.between(430, 760),
            flooding: dice.between(280, 600),
            deck_edge: dice.between(90, 350),
        };
        other
    }

    /// The text with the mass at the height of KG.
    pub fn text(&self, dice: &mut Dice) -> Vec<u8> {
        let [lower, higher] = self.parts();
        let mut entries = level(dice, lower, self.kg);
        entries.extend(self.above(higher));
        self.draft(entries).text()
    }

    /// The mass as one item, or as two where KG has tenths.
    pub fn items(&self) -> Vec<Block> {
        let [lower, higher] = self.parts();
        let mut entries = vec![draft::item(lower, self.kg)];
        entries.extend(self.above(higher));
        entries
    }

    /// The mass at a whole number of millimetres, and that which is one higher
    /// for the sake of KG's tenths.
    fn parts(&self) -> [i128; 2] {
        let higher = self.mass * self.tenths / 10;
        [self.mass - higher, higher]
    }

    fn above(&self, higher: i128) -> Option<Block> {
        (higher > 0).then(|| draft::item(higher, self.kg + 1))
    }

    pub fn kg_in_tenths(&self) -> i128 {
        TENTHS.of(self.kg) + self.tenths
    }

    pub fn set_kg(&mut self, tenths: i128) {
        self.kg = tenths.div_euclid(10);
        self.tenths = tenths.rem_euclid(10);
    }

    /// The same vessel with another KG, in tenths.
    pub fn at_kg(&self, tenths: i128) -> Vessel {
        let mut vessel = self.clone();
        vessel.set_kg(tenths);
        vessel
    }

    /// The row that the mass stands on, or the last one.
    pub fn laden(&mut self) -> &mut Row {
        let last = self.rows.len() - 1;
        let found = self
            .rows
            .iter()
            .position(|row| row.displacement == self.mass);
        &mut self.rows[found.unwrap_or(last)]
    }

    /// Gives the laden row a KM and KG its tenths so that GM is what is asked,
    /// in tenths of a millimetre.
    pub fn set_gm(&mut self, gm: i128) {
        let whole = up(gm, 10);
        self.tenths = TENTHS.of(whole) - gm;
        let km = self.kg + whole;
        self.laden().km = km;
    }

    /// Another KG, in tenths of a millimetre, with KM and KN of the laden row
    /// raised along with it so that GM and the curve stay about the same.
    pub fn raise_to(&mut self, tenths: i128) {
        let before = self.kg;
        self.set_kg(tenths);
        let lift = self.kg - before;
        let row = self.laden();
        row.km = (row.km + lift).clamp(0, 60_000);
        for (kn, sine) in row.kn.iter_mut().zip(SINES).skip(1) {
            *kn = (*kn + lift * sine / 100_000).clamp(0, 29_000);
        }
    }
}

/// A few entries with the whole mass at one height, so that KG is that height.
pub fn level(dice: &mut Dice, mass: i128, kg: i128) -> Vec<Block> {
    let part = dice.between(0, mass);
    let item = draft::item(mass - part, kg);
    match dice.index(4) {
        0 => vec![draft::item(mass, kg)],
        1 => vec![item, draft::item(part, kg)],
        2 => vec![draft::tank(part, kg, 980, 1_025, 400), item],
        _ => vec![draft::group(vec![
            item,
            draft::tank(part, kg, 1_000, 850, 9),
        ])],
    }
}

fn kn_of(km: i128, form: &[i128; 13], amplitude: i128) -> Vec<i128> {
    let at = |station: usize| km * SINES[station] / 100_000 + amplitude * form[station] / 1_000;
    (0..13)
        .map(|station| at(station).clamp(0, 30_000))
        .collect()
}

fn displaced(ship: &Ship, draught: i128, block_coefficient: i128) -> i128 {
    let volume = ship.length * ship.breadth * draught / 1_000_000;
    (volume * block_coefficient / 1_000 * 1_025 / 1_000).clamp(250_000, 540_000_000)
}

fn weather(dice: &mut Dice, ship: &Ship, draught: i128) -> Weather {
    let height = ship.breadth * dice.between(20, 140) / 100;
    let flooding = match dice.index(10) {
        0 => dice.between(0, 250),
        1..=3 => dice.between(250, 400),
        4 => 600,
        _ => dice.between(400, 600),
    };
    Weather {
        wind_area: (ship.length * height / 100_000).min(300_000),
        arm: ((draught + height) / 2).min(60_000),
        block_coefficient: if dice.chance(8) {
            dice.between(200, 1_000)
        } else {
            dice.between(430, 880)
        },
        flooding,
        deck_edge: if dice.chance(10) {
            dice.between(1, 600)
        } else {
            dice.between(90, 350)
        },
    }
}

fn keel_area(dice: &mut Dice, ship: &Ship) -> i128 {
    let index = if dice.chance(30) {
        0
    } else {
        dice.between(1, 5_000)
    };
    (ship.length * ship.breadth * index / 1_000_000_000).min(20_000)
}

/// Rows from half the displacement to a tenth above it.
fn rows(dice: &mut Dice, ship: &Ship, full: (i128, i128), count: usize) -> Vec<Row> {
    let (displacement, draught) = full;
    let form = dice.pick(&[LATE, EARLY, MIDDLE, MIDDLE]);
    let amplitude = ship.breadth * dice.between(-8, 45) / 1_000;
    let spread = dice.between(80, 125);
    let gaps = (count as i128 - 1).max(1);
    let step = displacement * 60 / 100 / gaps;
    (0..count as i128)
        .map(|number| {
            let jitter = dice.between(0, step / 3);
            let carried = displacement / 2 + step * number + jitter;
            let here = (draught * (15 + 85 * carried / displacement) / 100).clamp(500, 30_000);
            let metacentre = ship.breadth * ship.breadth * spread / (1_200 * here);
            let km = (here * 53 / 100 + metacentre).min(60_000);
            let mut row = Row {
                displacement: carried.clamp(100_000, 600_000_000),
                draught: here,
                km,
                kn: kn_of(km, &form, amplitude),
            };
            mend(&mut row, &OPEN);
            row
        })
        .collect()
}

/// Any ship from the smallest to the largest, loaded somewhere in its rows.
pub fn any(dice: &mut Dice, count: usize) -> Vessel {
    let scale = dice.between(0, 100);
    let length = 24_000 + 376_000 * scale * scale * scale / 1_000_000;
    let breadth = (length * 10 / dice.between(35, 80)).clamp(3_000, 70_000);
    let draught = (breadth * 1_000 / dice.between(2_000, 3_700)).clamp(500, 28_000);
    let mut ship = Ship {
        length,
        breadth,
        keel_area: 0,
        sharp_bilge: dice.chance(10),
    };
    ship.keel_area = keel_area(dice, &ship);
    let weather = weather(dice, &ship, draught);
    let full = (
        displaced(&ship, draught, weather.block_coefficient),
        draught,
    );
    let rows = rows(dice, &ship, full, count);
    let below = dice.index(rows.len().saturating_sub(1));
    let above = (below + 1).min(rows.len() - 1);
    let mass = dice.between(rows[below].displacement, rows[above].displacement);
    let km = (rows[below].km + rows[above].km) / 2;
    let gm = match dice.index(10) {
        0 => dice.between(-400, 100),
        1 => dice.between(100, 200),
        2..=6 => dice.between(200, 1_200),
        _ => dice.between(breadth / 100, breadth / 10),
    };
    Vessel {
        ship,
        rows,
        criteria: &CODE,
        weather,
        mass,
        kg: (km - gm).clamp(0, 60_000),
        tenths: 0,
    }
}

/// A ship that criterion 8 judges, loaded exactly on one of its two or three
/// rows, with a draught and a breadth over draught as given.
pub fn judged_at(dice: &mut Dice, draught: i128, fullness: i128) -> Vessel {
    let breadth = draught * fullness / 1_000;
    let length = breadth * dice.between(50, 75) / 10;
    let ship = Ship {
        length,
        breadth,
        keel_area: 0,
        sharp_bilge: false,
    };
    let weather = Weather {
        wind_area: length * dice.between(3_000, 7_000) / 100_000,
        arm: draught / 2 + dice.between(1_500, 4_000),
        block_coefficient: dice.between(480, 720),
        flooding: dice.between(420, 600),
        deck_edge: dice.between(180, 320),
    };
    let mass = displaced(&ship, draught, weather.block_coefficient) / 1_000 * 1_000;
    let kg = draught * dice.between(90, 135) / 100;
    let km = kg + dice.between(550, 1_300);
    let kn = kn_of(km, &MIDDLE, breadth * dice.between(10, 40) / 1_000);
    let mut rows = Vec::new();
    let mut displacement = mass;
    for _ in 0..dice.between(2, 3) {
        rows.push(Row {
            displacement,
            draught,
            km,
            kn: kn.clone(),
        });
        displacement += dice.between(1, mass / 5);
    }
    let mut vessel = Vessel {
        ship,
        rows,
        criteria: &CODE,
        weather,
        mass,
        kg,
        tenths: 0,
    };
    vessel.vary_rows(dice);
    vessel.mass = vessel.rows[dice.index(vessel.rows.len())].displacement;
    vessel
}

pub fn judged(dice: &mut Dice) -> Vessel {
    let draught = dice.between(3_000, 4_400);
    let fullness = dice.between(2_300, 3_300);
    judged_at(dice, draught, fullness)
}

impl Vessel {
    /// Small differences between the rows, upward and downward.
    fn vary_rows(&mut self, dice: &mut Dice) {
        for row in &mut self.rows {
            row.km += dice.between(-40, 40);
            for kn in &mut row.kn[1..] {
                *kn += dice.between(0, 3);
            }
        }
    }
}
