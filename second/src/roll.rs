//! The angle of roll to windward (Code 2.3.4): the period from GM and the
//! hull, then the four factors out of their tables.

use crate::book::Ship;
use crate::line::{down, read_up, root_down, root_up, up, Point};
use crate::loading::Laden;
use crate::unit::Unit;

pub const X1: [Point; 11] = [
    (2_400, 1_000),
    (2_500, 980),
    (2_600, 960),
    (2_700, 950),
    (2_800, 930),
    (2_900, 910),
    (3_000, 900),
    (3_100, 880),
    (3_200, 860),
    (3_400, 820),
    (3_500, 800),
];

pub const X2: [Point; 6] = [
    (450, 750),
    (500, 820),
    (550, 890),
    (600, 950),
    (650, 970),
    (700, 1_000),
];

pub const K: [Point; 8] = [
    (0, 1_000),
    (1_000, 980),
    (1_500, 950),
    (2_000, 880),
    (2_500, 790),
    (3_000, 740),
    (3_500, 720),
    (4_000, 700),
];

pub const S: [Point; 8] = [
    (600, 1_000),
    (700, 980),
    (800, 930),
    (1_200, 650),
    (1_400, 530),
    (1_600, 440),
    (1_800, 380),
    (2_000, 350),
];

pub const K_OF_SHARP_BILGE: i128 = 700;
pub const LONGEST_PERIOD: i128 = 2_000;

/// b, breadth over draught in thousandths.
pub fn fullness(ship: &Ship, draught: i128) -> i128 {
    down(1_000 * ship.breadth, draught)
}

/// The rolling period in hundredths of a second, for a GM above 0 in this
/// unit: the greatest n with n² GM <= 100 q² in tenths.
pub fn period(ship: &Ship, draught: i128, gm: i128, unit: Unit) -> i128 {
    let c = 373_000 + 23 * fullness(ship, draught) - up(43 * ship.length, 100);
    let q = down(2 * c * ship.breadth, 1_000_000);
    root_down(down(unit.of(10 * q * q), gm))
}

pub fn keel_index(ship: &Ship) -> i128 {
    down(1_000_000_000 * ship.keel_area, ship.length * ship.breadth)
}

fn keel_factor(ship: &Ship) -> i128 {
    if ship.sharp_bilge {
        K_OF_SHARP_BILGE
    } else {
        read_up(&K, keel_index(ship))
    }
}

/// r in thousandths, from the height of KG over the waterline, both in the
/// same unit.
pub fn height_factor(kg: i128, waterline: i128) -> i128 {
    730 + up(600 * (kg - waterline), waterline)
}

/// phi1 in tenths of a degree, or none where criterion 8 is not judged.
pub fn angle(ship: &Ship, block_coefficient: i128, laden: &Laden) -> Option<i128> {
    let (draught, kg, gm) = (laden.draught, laden.kg, laden.gm());
    let waterline = laden.unit.of(draught);
    let outside = gm <= 0
        || 10 * ship.breadth >= 35 * draught
        || 10 * kg < 7 * waterline
        || 10 * kg > 15 * waterline;
    if outside {
        return None;
    }
    let n = period(ship, draught, gm, laden.unit);
    if n >= LONGEST_PERIOD {
        return None;
    }
    let x1 = read_up(&X1, fullness(ship, draught));
    let x2 = read_up(&X2, block_coefficient);
    let p = up(up(keel_factor(ship) * x1, 1_000) * x2, 1_000);
    let product = 1_090 * 1_090 * p * p * height_factor(kg, waterline) * read_up(&S, n);
    Some(root_up(up(product, 10_i128.pow(13))))
}

#[cfg(test)]
mod tests {
    use super::*;
    use crate::unit::TENTHS;

    #[test]
    fn p8_height_factor_rounds_up_either_side() {
        let waterline = TENTHS.of(4_000);
        assert_eq!(height_factor(39_999, waterline), 730);
        assert_eq!(height_factor(40_000, waterline), 730);
        assert_eq!(height_factor(40_001, waterline), 731);
        assert_eq!(height_factor(28_000, waterline), 550);
    }

    #[test]
    fn p9_between_the_points_of_x1() {
        assert_eq!(read_up(&X1, 3_300), 840);
    }

    #[test]
    fn phi1_is_the_least_angle_that_holds() {
        for product in (0..400).map(|step| step * 7_654_321_987_654_321_i128) {
            let m = root_up(up(product, 10_i128.pow(13)));
            let holds = |m: i128| 10_i128.pow(13) * m * m >= product;
            assert!(holds(m) && (m == 0 || !holds(m - 1)));
        }
    }
}
