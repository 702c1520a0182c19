//! What a condition says together with its ship and rows: the ship, her rows
//! of hydrostatics, and one loading condition with its tree of items, tanks,
//! cargo tanks and groups. Lengths are in millimetres, masses in kilograms,
//! angles in tenths of a degree.

use crate::sets::CriteriaSet;

#[derive(Clone, Debug, PartialEq)]
pub struct Ship {
    pub length: i128,
    pub breadth: i128,
    pub keel_area: i128,
    pub sharp_bilge: bool,
}

#[derive(Clone, Debug, PartialEq)]
pub struct Row {
    pub displacement: i128,
    pub draught: i128,
    pub km: i128,
    pub kn: Vec<i128>,
}

/// How far a KN value, doubled, may differ from the sum of its two neighbours.
const MOST_BEND: i128 = 400;

impl Row {
    /// Whether no inner KN value bends more than it may, up or down.
    pub fn smooth(&self) -> bool {
        self.kn.windows(3).all(|three| {
            let (doubled, neighbours) = (2 * three[1], three[0] + three[2]);
            doubled <= neighbours + MOST_BEND && neighbours <= doubled + MOST_BEND
        })
    }
}

#[derive(Clone, Debug, PartialEq)]
pub struct Weather {
    pub wind_area: i128,
    pub arm: i128,
    pub block_coefficient: i128,
    pub flooding: i128,
    pub deck_edge: i128,
}

#[derive(Clone, Debug, PartialEq)]
pub struct Weight {
    pub mass: i128,
    pub centre: i128,
}

#[derive(Clone, Debug, PartialEq)]
pub struct Liquid {
    pub fill: i128,
    pub density: i128,
    pub inertia: i128,
}

#[derive(Clone, Debug, PartialEq)]
pub enum Entry {
    Item(Weight),
    Tank(Weight, Liquid),
    Cargo(Weight, Liquid),
    Group(Vec<Entry>),
}

#[derive(Clone, Debug, PartialEq)]
pub struct Condition {
    /// The set that the weather block's tag chooses.
    pub criteria: &'static CriteriaSet,
    pub weather: Weather,
    pub entries: Vec<Entry>,
}

#[derive(Clone, Debug, PartialEq)]
pub struct Document {
    pub ship: Ship,
    pub rows: Vec<Row>,
    pub condition: Condition,
}

#[cfg(test)]
mod tests {
    use super::*;

    fn row(kn: [i128; 13]) -> Row {
        Row {
            displacement: 100_000,
            draught: 500,
            km: 0,
            kn: kn.to_vec(),
        }
    }

    /// KN on two straight lines that meet at a station, where the doubled value
    /// lies this much above the sum of its neighbours.
    fn bent(station: usize, bend: i128) -> Row {
        row(std::array::from_fn(|at| {
            let behind = at.saturating_sub(station);
            900 * at as i128 - bend * behind as i128
        }))
    }

    /// 400 is smooth and 401 is not, either way, at each inner station.
    #[test]
    fn a_bend_of_400_is_smooth_and_one_of_401_is_not() {
        for station in 1..12 {
            for (bend, smooth) in [
                (0, true),
                (399, true),
                (400, true),
                (401, false),
                (60_000, false),
            ] {
                assert_eq!(bent(station, bend).smooth(), smooth, "{bend} at {station}");
                assert_eq!(
                    bent(station, -bend).smooth(),
                    smooth,
                    "-{bend} at {station}"
                );
            }
        }
    }

    /// The values at 0 and at 60 have no test of their own.
    #[test]
    fn the_ends_do_not_bend() {
        assert!(bent(0, 20_000).smooth() && bent(0, -20_000).smooth());
        assert!(bent(12, 20_000).smooth());
        let mut last = bent(0, 0);
        last.kn[12] += 400;
        assert!(last.smooth());
        last.kn[12] += 1;
        assert!(!last.smooth());
    }

    #[test]
    fn any_one_of_several_bends_counts() {
        let mut up_and_down = [0; 13];
        for at in (1..13).step_by(2) {
            up_and_down[at] = 200;
        }
        assert!(row(up_and_down).smooth());
        up_and_down[12] = 1;
        assert!(row(up_and_down).smooth());
        up_and_down[11] = 201;
        assert!(!row(up_and_down).smooth());
        assert!(row([0; 13]).smooth());
        let mut far = [30_000; 13];
        far[0] = 0;
        assert!(!row(far).smooth());
    }
}
