//! Exact division with the rounding named, whole square roots, and the
//! straight line between two points.

pub fn down(numerator: i128, denominator: i128) -> i128 {
    numerator.div_euclid(denominator)
}

pub fn up(numerator: i128, denominator: i128) -> i128 {
    -((-numerator).div_euclid(denominator))
}

/// The greatest n with n² <= value.
pub fn root_down(value: i128) -> i128 {
    let (mut holds, mut fails) = (0, 1);
    while fails * fails <= value {
        fails *= 2;
    }
    while fails - holds > 1 {
        let middle = (holds + fails) / 2;
        if middle * middle <= value {
            holds = middle;
        } else {
            fails = middle;
        }
    }
    holds
}

/// The least n with n² >= value.
pub fn root_up(value: i128) -> i128 {
    if value <= 0 {
        0
    } else {
        root_down(value - 1) + 1
    }
}

pub type Point = (i128, i128);

/// The height of the line through two points at x, as a fraction with a
/// denominator above 0 if the first point is the left one.
pub fn between(left: Point, right: Point, x: i128) -> (i128, i128) {
    let weighted = left.1 * (right.0 - x) + right.1 * (x - left.0);
    (weighted, right.0 - left.0)
}

/// A table read at x: linear between points, flat beyond, rounded up.
pub fn read_up(points: &[Point], x: i128) -> i128 {
    let right = points.partition_point(|point| point.0 < x);
    match (points.get(right.wrapping_sub(1)), points.get(right)) {
        (Some(&left), Some(&right)) => {
            let (numerator, denominator) = between(left, right, x);
            up(numerator, denominator)
        }
        (Some(only), None) | (None, Some(only)) => only.1,
        (None, None) => 0,
    }
}

#[cfg(test)]
mod tests {
    use super::*;

    #[test]
    fn rounding_either_side_of_zero() {
        assert_eq!((up(7, 2), up(-7, 2), up(6, 2), up(0, 5)), (4, -3, 3, 0));
        assert_eq!((down(7, 2), down(-7, 2), down(6, 2)), (3, -4, 3));
    }

    #[test]
    fn roots_hold_by_definition() {
        for value in 0..5_000 {
            let (low, high) = (root_down(value), root_up(value));
            assert!(low * low <= value && (low + 1) * (low + 1) > value);
            assert!(high * high >= value && (high == 0 || (high - 1) * (high - 1) < value));
        }
    }

    #[test]
    fn tables_are_flat_beyond_their_ends() {
        let points = [(10, 100), (20, 90), (40, 85)];
        let read: Vec<i128> = [9, 10, 11, 15, 20, 21, 30, 40, 41]
            .iter()
            .map(|&x| read_up(&points, x))
            .collect();
        assert_eq!(read, [100, 100, 99, 95, 90, 90, 88, 85, 85]);
    }
}
