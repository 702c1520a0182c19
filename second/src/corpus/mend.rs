//! Smooth rows near a wish. A row's KN values are brought within bounds, one
//! pair for each station, and no inner one bends more than it may; what is
//! moved for that is moved as little as can be.

use crate::book::Row;

/// The least and the most that KN may be at each station.
pub type Bounds = [(i128, i128); 13];

/// The paper's own limits.
pub const OPEN: Bounds = {
    let mut open = [(0, 30_000); 13];
    open[0] = (0, 0);
    open
};

/// The greatest KN that a smooth row can have at each station. All of them are
/// one row, of which each inner value bends by 400.
pub const GREATEST: [i128; 13] = [
    0, 4_700, 9_000, 12_900, 16_400, 19_500, 22_200, 24_500, 26_400, 27_900, 29_000, 29_700, 30_000,
];

/// A little under the request's 400, for the values are rounded at the end.
const BEND: i128 = 396;

/// Parts of a millimetre that the search moves by.
const PARTS: i128 = 1 << 20;

const ROUNDS: usize = 3_000;

/// Brings a row within the bounds and makes it smooth; false if no such row
/// was found, which leaves it as it is.
pub fn mend(row: &mut Row, bounds: &Bounds) -> bool {
    if row.smooth() && within(&row.kn, bounds) {
        return true;
    }
    let mut scaled: Vec<i128> = row.kn.iter().map(|kn| kn * PARTS).collect();
    for _ in 0..ROUNDS {
        if !straighten(&mut scaled, bounds) {
            break;
        }
    }
    let rounded = scaled.iter().map(|kn| (kn + PARTS / 2).div_euclid(PARTS));
    let found = Row {
        kn: rounded.collect(),
        ..row.clone()
    };
    let mended = found.smooth() && within(&found.kn, bounds);
    if mended {
        *row = found;
    }
    mended
}

fn within(kn: &[i128], bounds: &Bounds) -> bool {
    kn.iter()
        .zip(bounds)
        .all(|(kn, (least, most))| (least..=most).contains(&kn))
}

/// Brings each value within its bounds, and each that bends too much with its
/// neighbours to where it does not, those that may not move left out. False
/// if there was nothing to do.
fn straighten(scaled: &mut [i128], bounds: &Bounds) -> bool {
    let mut moved = false;
    for (kn, (least, most)) in scaled.iter_mut().zip(bounds) {
        let inside = (*kn).clamp(least * PARTS, most * PARTS);
        moved |= inside != *kn;
        *kn = inside;
    }
    for station in 1..12 {
        let bend = 2 * scaled[station] - scaled[station - 1] - scaled[station + 1];
        let over = bend.abs() - BEND * PARTS;
        let shares = [(station - 1, -1), (station, 2), (station + 1, -1)];
        let free = shares.map(|(at, share)| {
            (
                at,
                if bounds[at].0 < bounds[at].1 {
                    share
                } else {
                    0
                },
            )
        });
        let squares: i128 = free.iter().map(|(_, share)| share * share).sum();
        if over > 0 && squares > 0 {
            for (at, share) in free {
                scaled[at] -= bend.signum() * (over + PARTS) * share / squares;
            }
            moved = true;
        }
    }
    moved
}
