//! The curve of righting levers as the straight pieces that it is made of, in
//! y units, with the exact angles where it meets a level.

use super::fraction::Fraction;
use super::hull::Hull;
use crate::curve::{SINES, STEP};
use crate::unit::TENTHS;

pub struct Levers {
    stations: Vec<Fraction>,
    /// The area from 0 to each station, as document 01 counts areas: twice
    /// the integral of y over tenths.
    areas: Vec<Fraction>,
}

impl Levers {
    pub fn of(hull: &Hull) -> Levers {
        let per_kn = TENTHS.of(100_000);
        let lever =
            |(kn, sine): (&Fraction, i128)| (&kn.times(per_kn) - &hull.kg.times(sine)).times(STEP);
        let stations: Vec<Fraction> = hull.kn.iter().zip(SINES).map(lever).collect();
        let mut areas = vec![Fraction::whole(0)];
        for pair in stations.windows(2) {
            let more = (&pair[0] + &pair[1]).times(STEP);
            areas.push(&more + &areas[areas.len() - 1]);
        }
        Levers { stations, areas }
    }

    pub fn greatest_size(&self) -> Fraction {
        let sizes = self.stations.iter().map(Fraction::size);
        sizes.max().unwrap_or(Fraction::whole(0))
    }

    /// The station at or before an angle from 0 to 600, and the way past it.
    fn place(&self, t: &Fraction) -> (usize, Fraction) {
        let station = t.part(STEP).floor().min(self.stations.len() as i128 - 2);
        (station as usize, t - &Fraction::whole(STEP * station))
    }

    fn rise(&self, station: usize) -> Fraction {
        &self.stations[station + 1] - &self.stations[station]
    }

    /// y at an angle from 0 to 600.
    pub fn y(&self, t: &Fraction) -> Fraction {
        let (station, past) = self.place(t);
        &self.stations[station] + &(&self.rise(station) * &past).part(STEP)
    }

    /// The area from 0 to an angle, the same to windward as to leeward since
    /// y(-t) = -y(t).
    fn area_to(&self, t: &Fraction) -> Fraction {
        let (station, past) = self.place(&t.size());
        let level = self.stations[station].times(2);
        let slope = (&self.rise(station) * &past).part(STEP);
        &self.areas[station] + &(&past * &(&level + &slope))
    }

    pub fn area(&self, from: &Fraction, to: &Fraction) -> Fraction {
        &self.area_to(to) - &self.area_to(from)
    }

    /// The first angle from 0 to `end` where y is at or above the level.
    pub fn first_at_least(&self, level: &Fraction, end: i128) -> Option<Fraction> {
        for (station, lever) in self.stations.iter().enumerate() {
            let angle = STEP * station as i128;
            if angle > end {
                return None;
            }
            if lever >= level {
                return Some(Fraction::whole(angle));
            }
            let next = self.stations.get(station + 1)?;
            if next >= level {
                let past = (level - lever).times(STEP).over(&(next - lever));
                let met = &Fraction::whole(angle) + &past;
                return (met <= Fraction::whole(end)).then_some(met);
            }
        }
        None
    }

    /// The last angle up to which y stays at or above the level from `from`
    /// on, where it is at or above it, and not beyond `end`.
    pub fn stays_to(&self, level: &Fraction, from: &Fraction, end: i128) -> Fraction {
        let mut station = from.part(STEP).ceiling();
        while STEP * station < end {
            let (lever, next) = self.pair(station);
            if next < level {
                let past = (lever - level).times(STEP).over(&(lever - next));
                let met = &Fraction::whole(STEP * station) + &past;
                return met.min(Fraction::whole(end));
            }
            station += 1;
        }
        Fraction::whole(end)
    }

    fn pair(&self, station: i128) -> (&Fraction, &Fraction) {
        let station = station as usize;
        (&self.stations[station], &self.stations[station + 1])
    }

    /// The first angle from 0 to `end` with the greatest y: a station, or the
    /// end, since the pieces between are straight.
    pub fn peak(&self, end: i128) -> i128 {
        let mut best = (0, self.stations[0].clone());
        let whole = (0..=end / STEP).map(|station| STEP * station);
        for angle in whole.chain([end]) {
            let lever = self.y(&Fraction::whole(angle));
            if lever > best.1 {
                best = (angle, lever);
            }
        }
        best.0
    }

    /// Whether y is below the level at some angle from 0 to `end`.
    pub fn falls_below(&self, level: &Fraction, end: i128) -> bool {
        let whole = (0..=end / STEP).map(|station| STEP * station);
        whole
            .chain([end])
            .any(|angle| self.y(&Fraction::whole(angle)) < *level)
    }

    /// Whether y falls from a top above 0 and rises again before `end`.
    pub fn rises_again(&self, end: i128) -> bool {
        let mut fallen = false;
        for (station, pair) in self.stations.windows(2).enumerate() {
            if STEP * station as i128 >= end {
                break;
            }
            if fallen && pair[1] > pair[0] {
                return true;
            }
            let top = pair[0] > Fraction::whole(0);
            fallen = fallen || (top && pair[1] < pair[0]);
        }
        false
    }
}
