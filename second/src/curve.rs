//! The curve of righting levers in y units (5,000,000 to each of the unit of
//! KG) at every tenth of a degree from 600 to windward to 600 to leeward, with
//! the areas under it summed once from the windward end.

use std::ops::RangeInclusive;

use crate::loading::Laden;
use crate::unit::{Unit, TENTHS};

pub const REACH: i128 = 600;
pub const STEP: i128 = 50;

/// One of the unit of KG in y units.
const Y_PER_UNIT: i128 = 5_000_000;

/// A millimetre in y units: 50,000,000.
pub const Y_PER_MILLIMETRE: i128 = TENTHS.of(Y_PER_UNIT);

pub const SINES: [i128; 13] = [
    0, 8_716, 17_365, 25_882, 34_202, 42_262, 50_000, 57_358, 64_279, 70_711, 76_604, 81_915,
    86_603,
];

pub struct Curve {
    unit: Unit,
    levers: Vec<i128>,
    areas: Vec<i128>,
}

impl Curve {
    pub fn of(laden: &Laden) -> Curve {
        let stations: Vec<i128> = laden
            .kn
            .iter()
            .zip(SINES)
            .map(|(&kn, sine)| 100_000 * laden.unit.of(kn) - laden.kg * sine)
            .collect();
        let levers: Vec<i128> = (-REACH..=REACH).map(|t| lever(&stations, t)).collect();
        let mut areas = vec![0];
        let mut area = 0;
        for pair in levers.windows(2) {
            area += pair[0] + pair[1];
            areas.push(area);
        }
        Curve {
            unit: laden.unit,
            levers,
            areas,
        }
    }

    /// A lever of so many millimetres in y units.
    pub fn of_millimetres(&self, lever: i128) -> i128 {
        Y_PER_UNIT * self.unit.of(lever)
    }

    pub fn y(&self, t: i128) -> i128 {
        self.levers[place(t)]
    }

    pub fn area(&self, from: i128, to: i128) -> i128 {
        if to <= from {
            0
        } else {
            self.areas[place(to)] - self.areas[place(from)]
        }
    }

    pub fn first_at_least(&self, y: i128, mut range: RangeInclusive<i128>) -> Option<i128> {
        range.find(|&t| self.y(t) >= y)
    }

    /// The first angle of the range with the greatest lever, and that lever.
    pub fn greatest(&self, range: RangeInclusive<i128>) -> Option<(i128, i128)> {
        range.rev().map(|t| (t, self.y(t))).max_by_key(|&(_, y)| y)
    }

    /// The last angle up to which the lever stays at or above y from `from`.
    pub fn stays_to(&self, y: i128, from: i128, end: i128) -> i128 {
        match (from..=end).find(|&t| self.y(t) < y) {
            Some(below) => below - 1,
            None => end,
        }
    }
}

fn place(t: i128) -> usize {
    usize::try_from(t + REACH).unwrap_or(0)
}

fn lever(stations: &[i128], t: i128) -> i128 {
    if t < 0 {
        return -lever(stations, -t);
    }
    let station = usize::try_from(t / STEP).unwrap_or(0);
    let past = t % STEP;
    let beyond = stations.get(station + 1).copied().unwrap_or(0);
    stations[station] * (STEP - past) + beyond * past
}

#[cfg(test)]
mod tests {
    use super::*;

    fn curve(kn: [i128; 13], kg: i128) -> Curve {
        Curve::of(&Laden {
            unit: TENTHS,
            displacement: 1,
            kg,
            draught: 1,
            km: 0,
            kn: kn.to_vec(),
        })
    }

    #[test]
    fn the_first_of_equal_greatest_levers() {
        let mut kn = [0, 1, 2, 3, 4, 9, 4, 9, 9, 3, 2, 1, 0];
        assert_eq!(curve(kn, 0).greatest(0..=600).map(|best| best.0), Some(250));
        kn[3] = 9;
        assert_eq!(curve(kn, 0).greatest(0..=600).map(|best| best.0), Some(150));
    }

    #[test]
    fn windward_is_the_mirror_of_leeward() {
        let curve = curve([0, 5, 11, 20, 30, 50, 60, 70, 80, 70, 60, 50, 40], 37);
        assert!((0..=600).all(|t| curve.y(-t) == -curve.y(t)));
        assert_eq!(curve.area(-600, 600), 0);
        assert_eq!(curve.area(300, 300), 0);
        assert_eq!(curve.area(300, 200), 0);
    }

    #[test]
    fn areas_are_sums_of_neighbours() {
        let curve = curve([0, 5, 11, 20, 30, 50, 60, 70, 80, 70, 60, 50, 40], 37);
        let by_hand: i128 = (-123..457).map(|t| curve.y(t) + curve.y(t + 1)).sum();
        assert_eq!(curve.area(-123, 457), by_hand);
    }
}
