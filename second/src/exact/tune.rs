//! Bringing a drawn ship to the edge of criterion 5 or 8, by document 01's
//! own judgement: only there can a rounding decide.

use super::draw::{clean, early, lift, ordinary, smooth, straighten, swell};
use super::hull::Hull;
use super::roll;
use super::rounding::{Kept, Rounding};
use crate::book::{Document, Entry};
use crate::corpus::dice::Dice;
use crate::criteria::{judge_in, Wind, PASS};
use crate::curve::{Curve, Y_PER_MILLIMETRE};
use crate::line::down;
use crate::loading::{laden, Laden};
use crate::roll::{angle, period};
use crate::unit::{Unit, TENTHS};

const MOST_WIND: i128 = 300_000;

fn passes(document: &Document, unit: Unit) -> bool {
    judge_in(document, unit).is_ok_and(|judged| judged.verdicts[7] == PASS)
}

fn curve(document: &Document) -> Option<(Laden, Curve)> {
    let laden = laden(document).ok()?;
    let curve = Curve::of(&laden);
    Some((laden, curve))
}

fn wind(document: &Document) -> Option<Wind> {
    let (laden, curve) = curve(document)?;
    Some(Wind::on(document, &laden, &curve))
}

/// The strongest wind that passes.
fn balance(document: &mut Document, unit: Unit) {
    let (mut low, mut high) = (0, MOST_WIND + 1);
    while high - low > 1 {
        let middle = (low + high) / 2;
        document.condition.weather.wind_area = middle;
        if passes(document, unit) {
            low = middle;
        } else {
            high = middle;
        }
    }
    document.condition.weather.wind_area = low;
}

/// Any wind with the same lever that is no stronger.
fn slacken(dice: &mut Dice, document: &mut Document) -> Option<()> {
    let lever = wind(document)?.steady_lever;
    let mass = laden(document).ok()?.displacement;
    let weather = &mut document.condition.weather;
    let least = down((lever - 1).max(0) * 981 * mass, 5_040 * weather.arm) + 1;
    weather.wind_area = dice.between(least.min(weather.wind_area), weather.wind_area);
    Some(())
}

/// Gives the wind that has about this lever.
fn blow(document: &mut Document, lever: i128) -> Option<()> {
    let mass = laden(document).ok()?.displacement;
    let area = lever * 981 * mass / (5_040 * document.condition.weather.arm);
    document.condition.weather.wind_area = area.clamp(0, MOST_WIND);
    Some(())
}

/// Takes from KN at the higher stations as long as the rows stay smooth and
/// criterion 8 passes: first from all of them, in great steps by the slope and
/// in small ones alike, then from each alone.
fn trim(document: &mut Document, most: u32, unit: Unit) {
    for step in (0..=most).rev().map(|power| 1 << power) {
        let stations: &[Part] = if step > 32 { &SLOPE } else { &ALIKE };
        take(document, stations, step, unit);
        if step <= 4 {
            for station in &ALIKE {
                take(document, std::slice::from_ref(station), step, unit);
            }
        }
    }
}

/// A station, and how many quarters of a step are taken there.
type Part = (usize, i128);

const ALIKE: [Part; 6] = [(5, 4), (6, 4), (7, 4), (8, 4), (9, 4), (10, 4)];

/// Bends KN by a quarter of the step only.
const SLOPE: [Part; 8] = [
    (4, 1),
    (5, 2),
    (6, 3),
    (7, 4),
    (8, 4),
    (9, 3),
    (10, 2),
    (11, 1),
];

fn take(document: &mut Document, stations: &[Part], step: i128, unit: Unit) {
    let mut lower = document.clone();
    let fits = stations
        .iter()
        .all(|&(station, quarters)| lift(&mut lower, station, -step * quarters / 4));
    if fits && smooth(&lower) && passes(&lower, unit) {
        *document = lower;
    }
}

/// Moves KN at a station so that its lever is this many y units, or less by
/// less than a millimetre.
fn set_lever(document: &mut Document, station: usize, y: i128) -> Option<()> {
    let now = curve(document)?.1.y(50 * station as i128);
    lift(document, station, down(y - now, Y_PER_MILLIMETRE)).then_some(())
}

/// At the edge with KG in this unit.
pub fn plain_edge(dice: &mut Dice, unit: Unit) -> Option<Document> {
    let mut document = ordinary(dice);
    balance(&mut document, unit);
    slacken(dice, &mut document)?;
    trim(&mut document, 5, unit);
    Some(document)
}

pub fn clean_edge(dice: &mut Dice) -> Option<Document> {
    let mut document = clean(dice)?;
    balance(&mut document, TENTHS);
    let lever = wind(&document)?.steady_lever;
    blow(&mut document, lever - lever % 2)?;
    trim(&mut document, 9, TENTHS);
    Some(document)
}

/// A curve that lies below -lw2 at its first stations, where the roll starts,
/// and rises from there no more steeply than KN may bend.
pub fn sagging_edge(dice: &mut Dice) -> Option<Document> {
    for _ in 0..8 {
        let mut document = ordinary(dice);
        let more = dice.between(0, 1_500);
        swell(&mut document, more)?;
        let lever = dice.between(10, 200);
        blow(&mut document, lever)?;
        let gusting = wind(&document)?.gust_lever;
        let depth = gusting + dice.between(1, 120);
        let last = 1 + dice.index(3);
        for station in 1..=last {
            set_lever(&mut document, station, -depth * Y_PER_MILLIMETRE)?;
        }
        straighten(&mut document, last + 1)?;
        let wanted = dice.pick(&OF_THE_ROLL);
        if seek(dice, &mut document, wanted) && starts_below(&document) == Some(true) {
            trim(&mut document, 9, TENTHS);
            return Some(document);
        }
    }
    None
}

const OF_THE_ROLL: [Rounding; 12] = [
    Rounding::B,
    Rounding::C,
    Rounding::Q,
    Rounding::N,
    Rounding::X1,
    Rounding::X2,
    Rounding::Index,
    Rounding::K,
    Rounding::S,
    Rounding::P,
    Rounding::R,
    Rounding::Phi1,
];

/// Varies KM, the length and the keel until the rounding moves phi1; false
/// if it does not.
fn seek(dice: &mut Dice, document: &mut Document, wanted: Rounding) -> bool {
    for _ in 0..400 {
        if roll_of(document, Kept::NONE) != roll_of(document, Kept::only(wanted)) {
            return true;
        }
        let km = dice.between(-30, 30);
        for row in &mut document.rows {
            row.km = (row.km + km).clamp(0, 60_000);
        }
        let ship = &mut document.ship;
        ship.length = (ship.length + dice.between(-40, 40)).clamp(24_000, 400_000);
        ship.keel_area = (ship.keel_area + dice.between(-3, 3)).clamp(0, 20_000);
    }
    false
}

/// phi1 rounded up, as far as it is a whole number without that.
fn roll_of(document: &Document, kept: Kept) -> Option<(i128, bool)> {
    let hull = Hull::of(document, kept)?;
    let phi1 = roll::angle(document, &hull, kept)?.1;
    Some((phi1.ceiling(), phi1.is_whole()))
}

/// Whether the roll starts where the curve is above lw2 to windward.
fn starts_below(document: &Document) -> Option<bool> {
    let (laden, curve) = curve(document)?;
    let weather = &document.condition.weather;
    let phi1 = angle(&document.ship, weather.block_coefficient, &laden)?;
    let wind = Wind::on(document, &laden, &curve);
    let start = wind.phi0? - phi1;
    Some((-600..0).contains(&start) && curve.y(start) > wind.gust_lever * Y_PER_MILLIMETRE)
}

/// A curve with a first hump that stays just below lw2.
pub fn humped(dice: &mut Dice) -> Option<Document> {
    let mut document = ordinary(dice);
    let lever = dice.between(10, 150);
    blow(&mut document, lever)?;
    let Wind { gust_lever, .. } = wind(&document)?;
    let top = gust_lever * Y_PER_MILLIMETRE - 1;
    let station = 1 + dice.index(3);
    for before in 1..station {
        let part = top / station as i128 * before as i128;
        set_lever(&mut document, before, part)?;
    }
    set_lever(&mut document, station, top)?;
    let dip = dice.between(1, gust_lever + 20);
    set_lever(&mut document, station + 1, top - dip * Y_PER_MILLIMETRE)?;
    for later in station + 2..=10 {
        lift(&mut document, later, 300);
    }
    straighten(&mut document, station + 2)?;
    Some(document)
}

/// The lever at 25 degrees greater than all before it by less than a
/// millimetre.
pub fn peak(dice: &mut Dice) -> Option<Document> {
    let mut document = early(dice);
    let greatest = curve(&document)?.1.greatest(0..=200)?.1;
    set_lever(&mut document, 5, greatest + Y_PER_MILLIMETRE)?;
    Some(document)
}

/// A hull at a border beyond which criterion 8 is not judged, in a wind that
/// she does not stand.
pub fn border(dice: &mut Dice) -> Option<Document> {
    let mut document = ordinary(dice);
    let lever = dice.pick(&[20, 400]);
    blow(&mut document, lever)?;
    let ship_laden = laden(&document).ok()?;
    match dice.index(3) {
        0 => {
            let times = dice.pick(&[15, 7]);
            let kg = nudge(&mut document, |kg| kg % times <= 1)?;
            for row in &mut document.rows {
                row.draught = row.draught - ship_laden.draught + kg / times;
            }
        }
        1 => document.ship.breadth = 35 * ship_laden.draught / 10 + dice.between(0, 5),
        _ => {
            let slow = |gm: &i128| period(&document.ship, ship_laden.draught, *gm, TENTHS) < 2_000;
            let gm = (1..TENTHS.of(3_000)).find(slow)? - dice.between(0, 1);
            let kg = nudge(&mut document, |kg| (kg + gm) % TENTHS.of(1) == 0)?;
            for row in &mut document.rows {
                row.km = row.km - ship_laden.km + (kg + gm) / TENTHS.of(1);
            }
        }
    }
    Some(document)
}

/// Moves the first item by a few millimetres until KG, in tenths, is as wanted,
/// and gives that KG; none if it is so nowhere near.
fn nudge(document: &mut Document, wanted: impl Fn(i128) -> bool) -> Option<i128> {
    let (moved, kg) = (-40..=40).find_map(|millimetres| {
        let mut moved = document.clone();
        if let Entry::Item(weight) = &mut moved.condition.entries[0] {
            weight.centre += millimetres;
        }
        let kg = laden(&moved).ok()?.kg;
        wanted(kg).then_some((moved, kg))
    })?;
    *document = moved;
    Some(kg)
}
