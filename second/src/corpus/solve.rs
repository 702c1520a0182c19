//! Figures of the curve are sums of station values, so a KN table that gives
//! a figure exactly can be solved for. A sum is kept as how often each
//! station's g stands in it.

use super::dice::Dice;
use super::vessel::Vessel;
use crate::book::Row;
use crate::criteria::Judgement;
use crate::curve::{Curve, SINES};
use crate::instrument::judge_text;
use crate::loading::Laden;
use crate::unit::TENTHS;

pub type Weights = [i128; 13];

const MOST_KN: i128 = 30_000;

/// What a millimetre of KN is in g, where a tenth of KG is a sine.
pub const PER_KN: i128 = TENTHS.of(100_000);

/// The weights of y(t), so many times, with y(-t) = -y(t).
fn add_lever(weights: &mut Weights, t: i128, times: i128) {
    let times = if t < 0 { -times } else { times };
    let station = usize::try_from(t.abs() / 50).unwrap_or(0);
    let past = t.abs() % 50;
    weights[station] += times * (50 - past);
    if past > 0 {
        weights[station + 1] += times * past;
    }
}

pub fn lever(t: i128) -> Weights {
    let mut weights = [0; 13];
    add_lever(&mut weights, t, 1);
    weights
}

pub fn area(from: i128, to: i128) -> Weights {
    let mut weights = [0; 13];
    for t in from..to {
        add_lever(&mut weights, t, 1);
        add_lever(&mut weights, t + 1, 1);
    }
    weights
}

pub fn sine_sum(weights: &Weights) -> i128 {
    weights
        .iter()
        .zip(SINES)
        .map(|(weight, sine)| weight * sine)
        .sum()
}

/// The curve whose g is the sine: its areas are the sine sums of areas.
pub fn sine_curve() -> Curve {
    Curve::of(&Laden {
        unit: TENTHS,
        displacement: 1,
        kg: -1,
        draught: 1,
        km: 0,
        kn: vec![0; 13],
    })
}

fn common_divisor(a: i128, b: i128) -> i128 {
    if b == 0 {
        a.abs()
    } else {
        common_divisor(b, a % b)
    }
}

/// Every KG from the least to the most, in tenths, at which KN values of whole
/// millimetres can give the figure to a sum with this sine sum.
pub fn reachable(figure: i128, sines: i128, least: i128, most: i128) -> impl Iterator<Item = i128> {
    let divisor = common_divisor(sines, PER_KN);
    let step = PER_KN / divisor;
    let first = (figure % divisor == 0).then(|| {
        let met = -figure / divisor * inverse(sines / divisor, step);
        least + (met - least).rem_euclid(step)
    });
    let all = first
        .into_iter()
        .flat_map(move |first| (0..).map(move |turn| first + turn * step));
    all.take_while(move |&kg| kg <= most)
}

/// The number that gives 1 with another, which has no divisor in common with
/// the modulus.
fn inverse(number: i128, modulus: i128) -> i128 {
    let (mut last, mut now) = ((modulus, 0), (number.rem_euclid(modulus), 1));
    while now.0 > 0 {
        let times = last.0 / now.0;
        (last, now) = (now, (last.0 - times * now.0, last.1 - times * now.1));
    }
    last.1.rem_euclid(modulus)
}

/// What the weighted sum of KN must be for the figure, if whole numbers can
/// give it at this KG with the free stations from `from` on.
fn kn_sum(weights: &Weights, kn: &[i128], kg: i128, figure: i128, from: usize) -> Option<i128> {
    let needed = figure + kg * sine_sum(weights);
    if needed % PER_KN != 0 {
        return None;
    }
    let sum: i128 = weights.iter().zip(kn).map(|(weight, kn)| weight * kn).sum();
    let divisor = weights[from..]
        .iter()
        .fold(0, |all, &weight| common_divisor(all, weight));
    let missing = needed / PER_KN - sum;
    (divisor != 0 && missing % divisor == 0).then_some(missing)
}

/// Changes KN from station `from` on so that the weighted sum of g is the
/// figure at this KG, in tenths: by a straight slope, which bends the row at its beginning alone,
/// and by little at single stations for the rest. False if it cannot be done
/// with a smooth row within KN's limits.
pub fn fit(row: &mut Row, weights: &Weights, kg: i128, figure: i128, from: usize) -> bool {
    let Some(missing) = kn_sum(weights, &row.kn, kg, figure, from) else {
        return false;
    };
    let run = |station: usize| (station + 1 - from) as i128;
    let total: i128 = (from..13).map(|at| weights[at] * run(at)).sum();
    if total <= 0 {
        return false;
    }
    let slope = (missing + total / 2).div_euclid(total);
    for station in from..13 {
        row.kn[station] += slope * run(station);
    }
    settle(&mut row.kn, weights, from, missing - slope * total)
        && row.kn.iter().all(|kn| (0..=MOST_KN).contains(kn))
        && row.smooth()
}

/// The most that a single station is changed by.
const MOST_CHANGE: i128 = 60;

/// Spreads what is still missing over the stations of the greatest weight,
/// after the two of the least have taken what that weight does not divide.
fn settle(kn: &mut [i128], weights: &Weights, from: usize, missing: i128) -> bool {
    let mut stations: Vec<usize> = (from..13).filter(|&at| weights[at] > 0).collect();
    stations.sort_by_key(|&at| weights[at]);
    let Some(&last) = stations.last() else {
        return false;
    };
    let greatest = weights[last];
    let (heavy, light): (Vec<usize>, Vec<usize>) = stations
        .into_iter()
        .partition(|&at| weights[at] == greatest);
    let weight = |number: usize| light.get(number).map_or(0, |&at| weights[at]);
    let rest = |(one, other): (i128, i128)| missing - one * weight(0) - other * weight(1);
    let mut changes = (0..=MOST_CHANGE).flat_map(|reach| ring(reach, light.len()));
    let Some(found) = changes.find(|&change| rest(change) % greatest == 0) else {
        return false;
    };
    for (&station, change) in light.iter().zip([found.0, found.1]) {
        kn[station] += change;
    }
    let (shares, count) = (rest(found) / greatest, heavy.len() as i128);
    for (number, station) in (0..).zip(heavy) {
        kn[station] += (shares + number).div_euclid(count);
    }
    true
}

/// The changes of two stations of which the greater is so great, or of one,
/// or of none.
fn ring(reach: i128, stations: usize) -> Vec<(i128, i128)> {
    let along = |used: bool| if used { -reach..=reach } else { 0..=0 };
    let ones = along(stations > 0);
    ones.flat_map(|one| along(stations > 1).map(move |other| (one, other)))
        .filter(|(one, other)| one.abs().max(other.abs()) == reach)
        .collect()
}

/// A vessel whose figure comes out as wanted: KG and the flooding angle are
/// tried until KN can be solved for, and the judge confirms it.
pub struct Search {
    pub flooding: (i128, i128),
    pub weights: fn(i128) -> Weights,
    pub figure: usize,
    /// What is done to the vessel once its KG is set.
    pub prepare: fn(&mut Vessel),
}

/// How far KG may go from the vessel's own, in tenths: near first, then
/// anywhere.
const REACHES: [i128; 2] = [7_000, 240_000];

impl Search {
    pub fn vessel(&self, dice: &mut Dice, base: &Vessel, wanted: i128) -> Option<Vessel> {
        let (least, most) = self.flooding;
        let turn = dice.between(0, most - least);
        REACHES.iter().find_map(|&reach| {
            (0..=most - least)
                .map(|step| least + (turn + step) % (most - least + 1))
                .find_map(|flooding| self.at(base, flooding, reach, wanted))
        })
    }

    fn at(&self, base: &Vessel, flooding: i128, reach: i128, wanted: i128) -> Option<Vessel> {
        let weights = (self.weights)(flooding);
        let own = base.kg_in_tenths();
        let least = (own - reach).max(0);
        for kg in reachable(wanted, sine_sum(&weights), least, own + reach) {
            let mut vessel = base.clone();
            vessel.raise_to(kg);
            vessel.weather.flooding = flooding;
            (self.prepare)(&mut vessel);
            if fit(vessel.laden(), &weights, kg, wanted, 1)
                && figures(&vessel).is_some_and(|judged| judged.figures[self.figure] == wanted)
            {
                return Some(vessel);
            }
        }
        None
    }
}

/// What the judge says of the vessel with its mass at KG.
pub fn figures(vessel: &Vessel) -> Option<Judgement> {
    judge_text(&vessel.draft(vessel.items()).text()).ok()
}

#[cfg(test)]
mod tests {
    use super::*;

    /// Every KG that is found gives a whole KN, and no other does.
    #[test]
    fn reachable_heights_are_found() {
        for (figure, sines) in [
            (7, 8_716),
            (-1, 12_345_677),
            (-8, 868),
            (0, 50_000),
            (3, -909),
        ] {
            let holds = |kg: &i128| (figure + kg * sines) % PER_KN == 0;
            let (least, most) = (20_000, 1_300_000);
            let by_hand: Vec<i128> = (least..=most).filter(holds).collect();
            assert!(reachable(figure, sines, least, most).eq(by_hand));
        }
    }
}
