//! Criteria 7 and 8 by their winds: the steady heel at its limits, levers met
//! exactly, angles that are none, every kind of flooding angle, and a net
//! area of 0 with its neighbours.

use super::cases::Cases;
use super::dice::Dice;
use super::mend::{mend, OPEN};
use super::solve::{area, figures, fit, lever, reachable, sine_curve, sine_sum};
use super::vessel::{self, Vessel};
use crate::criteria::{Gust, Wind};
use crate::curve::{Curve, SINES, Y_PER_MILLIMETRE};
use crate::instrument::read_text;
use crate::line::up;
use crate::loading::laden;
use crate::roll;

const TRIES: usize = 60;

pub fn add(cases: &mut Cases) {
    for (heel, deck_edge) in HEELS {
        cases.add(format!("phi0 {heel} deck edge {deck_edge}"), move |dice| {
            let mut vessel = heeled(dice, heel);
            vessel.weather.deck_edge = deck_edge;
            vessel.text(dice)
        });
    }
    for flooding in FLOODINGS {
        cases.add(format!("flooding at {flooding}"), move |dice| {
            let mut vessel = vessel::judged(dice);
            vessel.weather.flooding = flooding;
            vessel.text(dice)
        });
    }
    for beside in [-1, 0, 1] {
        cases.add(format!("lever exact {beside:+}"), move |dice| {
            let (mut vessel, lever) = exact(dice, 0);
            blow(&mut vessel, lever + beside);
            vessel.text(dice)
        });
        cases.add(format!("net {beside:+}"), move |dice| {
            net(dice, beside).text(dice)
        });
    }
    add_none(cases);
    add_ends(cases);
    add_dips(cases);
}

const HEELS: [(i128, i128); 15] = [
    (1, 1),
    (1, 2),
    (80, 99),
    (80, 100),
    (120, 149),
    (120, 150),
    (159, 199),
    (160, 199),
    (160, 200),
    (160, 201),
    (161, 202),
    (161, 600),
    (499, 600),
    (500, 600),
    (501, 600),
];

const FLOODINGS: [i128; 20] = [
    0, 1, 2, 49, 50, 51, 249, 250, 251, 299, 300, 301, 399, 400, 401, 499, 500, 501, 599, 600,
];

/// The curve and the winds on a laden ship.
pub struct Sailing {
    pub curve: Curve,
    pub wind: Wind,
    pub gust: Option<Gust>,
}

/// A vessel under its wind, with its mass at KG.
pub fn sail(vessel: &Vessel) -> Option<Sailing> {
    sail_text(&vessel.draft(vessel.items()).text())
}

pub fn sail_text(text: &[u8]) -> Option<Sailing> {
    let document = read_text(text).ok()?;
    let laden = laden(&document).ok()?;
    let curve = Curve::of(&laden);
    let wind = Wind::on(&document, &laden, &curve);
    let weather = &document.condition.weather;
    let gust = roll::angle(&document.ship, weather.block_coefficient, &laden)
        .and_then(|phi1| wind.gust(&curve, phi1, weather.flooding));
    Some(Sailing { curve, wind, gust })
}

/// Gives the vessel a wind with this steady lever; false if none has it.
pub fn blow(vessel: &mut Vessel, lever: i128) -> bool {
    let scale = 981 * vessel.mass;
    for arm in (1_000..=60_000).step_by(500) {
        let wind_area = lever * scale / (5_040 * arm);
        if wind_area <= 300_000 && up(5_040 * wind_area * arm, scale) == lever {
            vessel.weather.wind_area = wind_area;
            vessel.weather.arm = arm;
            return true;
        }
    }
    false
}

/// A vessel with a steady heel of exactly this angle.
pub fn heeled(dice: &mut Dice, heel: i128) -> Vessel {
    let mut vessel = vessel::judged(dice);
    for _ in 0..TRIES {
        vessel.weather.flooding = 600;
        steepen(&mut vessel, usize::try_from((heel + 49) / 50).unwrap_or(12));
        if let Some(sailing) = sail(&vessel) {
            let lever = sailing.curve.y(heel) / Y_PER_MILLIMETRE;
            let blows = blow(&mut vessel, lever);
            if blows && figures(&vessel).is_some_and(|judged| judged.figures[8] == heel) {
                return vessel;
            }
        }
        vessel = vessel::judged(dice);
    }
    vessel
}

/// A lever at the station that is at least 80 mm above all before it.
fn steepen(vessel: &mut Vessel, station: usize) {
    let kg = vessel.kg;
    let kn = &mut vessel.laden().kn;
    let before = (0..station)
        .map(|at| 100_000 * kn[at] - kg * SINES[at])
        .max()
        .unwrap_or(0);
    let least = (before + 8_000_000 + kg * SINES[station]) / 100_000;
    kn[station] = kn[station].max(least);
}

/// A vessel whose lever at its steady heel is a whole number of millimetres,
/// or so many y units beside that.
pub fn exact(dice: &mut Dice, beside: i128) -> (Vessel, i128) {
    let mut vessel = vessel::judged(dice);
    for _ in 0..TRIES {
        let turn = dice.between(0, 140);
        for t in (0..=140).map(|step| 20 + (turn + step) % 141) {
            if let Some(found) = exact_at(&vessel, t, beside) {
                return found;
            }
        }
        vessel = vessel::judged(dice);
    }
    (vessel, 10)
}

/// The same at this angle, which is the steady heel, or the tenth before it
/// where the lever falls short.
pub fn exact_at(base: &Vessel, t: i128, beside: i128) -> Option<(Vessel, i128)> {
    let weights = lever(t);
    let own = base.kg_in_tenths();
    let near = EXACT_REACHES.map(|reach| (own - reach).max(0)..=own + reach);
    let heights = near
        .into_iter()
        .flat_map(|near| reachable(beside, sine_sum(&weights), *near.start(), *near.end()));
    for kg in heights {
        let mut vessel = base.clone();
        vessel.raise_to(kg);
        let millimetres = sail(&vessel)?.curve.y(t) / Y_PER_MILLIMETRE;
        let figure = millimetres * Y_PER_MILLIMETRE + beside;
        let fits = fit(vessel.laden(), &weights, kg, figure, 1);
        let heel = t + i128::from(beside < 0);
        if fits && blow(&mut vessel, millimetres) && sail(&vessel)?.wind.phi0 == Some(heel) {
            return Some((vessel, millimetres));
        }
    }
    None
}

/// How far KG may go for a lever, in tenths.
const EXACT_REACHES: [i128; 2] = [3_000, 60_000];

/// Winds that leave no phi0 or no u, by how much each is stronger than the
/// greatest lever.
pub const NONE: [(&str, i128); 3] = [("phi0 none", 1), ("u none", 0), ("phi0 none by far", 300)];

/// A vessel in a wind stronger by so much than her greatest lever.
pub fn overblown(dice: &mut Dice, beyond: i128) -> Vessel {
    let mut vessel = vessel::judged(dice);
    if let Some(sailing) = sail(&vessel) {
        let highest = sailing.curve.greatest(0..=vessel.weather.flooding);
        let lever = highest.map_or(0, |(_, y)| y / Y_PER_MILLIMETRE);
        blow(&mut vessel, lever + beyond);
    }
    vessel
}

/// A wind just too strong for phi0, one just too strong for u, and no wind.
fn add_none(cases: &mut Cases) {
    for (name, beyond) in NONE {
        cases.add(name, move |dice| overblown(dice, beyond).text(dice));
    }
    cases.add("no wind area", |dice| {
        let mut vessel = vessel::judged(dice);
        vessel.weather.wind_area = 0;
        vessel.text(dice)
    });
    cases.add("no wind arm", |dice| {
        let mut vessel = vessel::judged(dice);
        vessel.weather.arm = 0;
        vessel.text(dice)
    });
}

/// The flooding angle at phi0 and at u, and one before each.
pub const ENDS: [(&str, bool, i128); 4] = [
    ("flooding at phi0", false, 0),
    ("flooding before phi0", false, 1),
    ("flooding at u", true, 0),
    ("flooding before u", true, 1),
];

/// A vessel that floods so much before phi0 or u.
pub fn ended(dice: &mut Dice, of_gust: bool, before: i128) -> Vessel {
    let mut vessel = vessel::judged(dice);
    if let Some(Sailing { curve, wind, .. }) = sail(&vessel) {
        let lever = if of_gust {
            wind.gust_lever
        } else {
            wind.steady_lever
        };
        let met = curve.first_at_least(lever * Y_PER_MILLIMETRE, 0..=600);
        vessel.weather.flooding = (met.unwrap_or(0) - before).max(0);
    }
    vessel
}

fn add_ends(cases: &mut Cases) {
    for (name, of_gust, before) in ENDS {
        cases.add(name, move |dice| ended(dice, of_gust, before).text(dice));
    }
}

/// Curves that fall under the gust lever and rise again, or stay under it.
fn add_dips(cases: &mut Cases) {
    for (dip, again) in DIPS {
        cases.add(
            format!("dip at station {dip}, again {again}"),
            move |dice| dipped(dice, dip, again).text(dice),
        );
    }
}

/// The station of each dip, and whether the curve rises again behind it.
pub const DIPS: [(usize, bool); 6] = [
    (4, true),
    (6, true),
    (7, false),
    (9, true),
    (10, false),
    (11, true),
];

/// A vessel whose levers lie around 0 at a station, or from there on, and
/// above the gust lever beside it.
fn dipped(dice: &mut Dice, dip: usize, again: bool) -> Vessel {
    let mut vessel = vessel::judged(dice);
    for _ in 0..TRIES {
        vessel.weather.flooding = dice.pick(&[500, 550, 600]);
        let blows = blow(&mut vessel, dice.between(20, 60));
        let Some(Sailing { wind, .. }) = sail(&vessel) else {
            continue;
        };
        let high = wind.gust_lever + 20;
        let kg = vessel.kg;
        let mut bounds = OPEN;
        for (station, bound) in bounds.iter_mut().enumerate().skip(1) {
            let upright = kg * SINES[station] / 100_000;
            let beside = station + 1 == dip || (again && station == dip + 1);
            if beside {
                *bound = (upright + high, 30_000);
            }
            if station == dip || (station > dip && !again) {
                let lever = dice.between(-30, 30);
                *bound = (upright + lever, upright + lever);
            }
        }
        if blows && mend(vessel.laden(), &bounds) {
            return vessel;
        }
        vessel = vessel::judged(dice);
    }
    vessel
}

/// The strongest wind whose net area is not below 0.
fn balanced(vessel: &mut Vessel) -> bool {
    let mut best = None;
    for lever in 5..250 {
        let blows = blow(vessel, lever);
        let gust = sail(vessel).and_then(|sailing| sailing.gust);
        if blows && gust.is_some_and(|gust| gust.net >= 0) {
            best = Some(lever);
        } else if best.is_some() {
            break;
        }
    }
    best.is_some_and(|lever| blow(vessel, lever))
}

/// A vessel with this net area, or the nearest that was met.
pub fn net(dice: &mut Dice, wanted: i128) -> Vessel {
    let sines = sine_curve();
    let mut vessel = vessel::judged(dice);
    for _ in 0..TRIES {
        vessel.weather.flooding = 500;
        if balanced(&mut vessel) {
            if let Some(found) = net_near(&vessel, wanted, &sines) {
                return found;
            }
        }
        vessel = vessel::judged(dice);
    }
    balanced(&mut vessel);
    vessel
}

/// How far KG may go from the vessel's own for a net area, in tenths.
const NET_REACH: i128 = 2_500;

/// The vessel at another KG and flooding angle, with this net area: for every
/// start of the roll that there is within reach.
fn net_near(base: &Vessel, wanted: i128, sines: &Curve) -> Option<Vessel> {
    let own = base.kg_in_tenths();
    let (lowest, highest) = (own - NET_REACH, own + NET_REACH);
    let starts = [lowest, own, highest].map(|kg| Some(sail(&base.at_kg(kg))?.gust?.start));
    let first = starts.into_iter().flatten().min()?;
    let last = starts.into_iter().flatten().max()?;
    let gust_y = sail(base)?.wind.gust_lever * Y_PER_MILLIMETRE;
    let turns = (first..=last).flat_map(|start| (350..=500).map(move |end| (start, end)));
    turns
        .flat_map(|(start, end)| {
            let whole = wanted + 2 * gust_y * (end - start);
            let heights = reachable(whole, sines.area(start, end), lowest, highest);
            heights.map(move |kg| (base.at_kg(kg), (start, end), whole))
        })
        .find_map(|(vessel, turn, whole)| net_at(vessel, turn, whole, wanted))
}

/// The vessel with KN solved for this area from start to end, if the net area
/// comes out as wanted.
fn net_at(
    mut vessel: Vessel,
    (start, end): (i128, i128),
    whole: i128,
    wanted: i128,
) -> Option<Vessel> {
    vessel.weather.flooding = end;
    let kg = vessel.kg_in_tenths();
    let fits = fit(vessel.laden(), &area(start, end), kg, whole, 5);
    let gust = if fits { sail(&vessel)?.gust } else { None };
    (gust?.net == wanted).then_some(vessel)
}
