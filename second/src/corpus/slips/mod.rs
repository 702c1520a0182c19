//! Request 4, typing slips in KN tables: how far a row bends, at each station
//! and in its extremes (`bends.rs`), and where 10 stands among the other
//! refusals (`order.rs`).

mod bends;
mod order;

#[cfg(test)]
mod tests;

use super::booklets::{bound, coaster};
use super::cases::Cases;
use super::dice::Dice;
use super::draft::Draft;
use super::vessel::Vessel;
use crate::sets::{CriteriaSet, CODE, TIMBER};

pub fn add(cases: &mut Cases) {
    bends::add(cases);
    order::add(cases);
}

/// Where the KN values of a row begin among its fields.
pub const FIRST_KN: usize = 3;

/// Either set, by the tag in C1's place.
static EITHER: [(&str, &CriteriaSet); 2] = [("C1", &CODE), ("C6", &TIMBER)];

/// A ship of two rows with so many conditions, and a slip in one of the rows.
fn slipped(dice: &mut Dice, row: usize, count: usize) -> Draft {
    let mut vessel = coaster(dice);
    put_slip(dice, &mut vessel, row);
    bound(dice, &vessel, count)
}

/// Puts a slip into a row of a small ship, rows from 1: it bends at some
/// station by a little too much or by far, up or down.
fn put_slip(dice: &mut Dice, vessel: &mut Vessel, row: usize) {
    let station = 1 + dice.index(11);
    let wanted = dice.pick(&[401, -401, 900, -700]);
    fold(&mut vessel.rows[row - 1].kn, station, wanted);
}

/// Folds a row at a station so that its doubled value there is so much above
/// the sum of its neighbours. The row bends elsewhere as before.
fn fold(kn: &mut [i128], station: usize, wanted: i128) {
    let more = wanted - (2 * kn[station] - kn[station - 1] - kn[station + 1]);
    for (behind, kn) in (0..).zip(&mut kn[station..]) {
        *kn -= more * behind;
    }
    let back = more * (12 - station as i128) / 12;
    let risen = (1..).zip(&kn[1..]).map(|(at, kn)| (at - 1 - kn) / at);
    let slope = risen.chain([back]).max().unwrap_or(back);
    for (at, kn) in (0..).zip(kn) {
        *kn += slope * at;
    }
}

/// A slip in the KN values of a row, as they are made, or a bend that is just
/// no slip.
pub fn slip(dice: &mut Dice, kn: &mut [i128]) {
    let station = 1 + dice.index(12);
    let inner = station.min(11);
    match dice.index(8) {
        0 => kn[station] /= 10,
        1 => kn[station] /= 16,
        2 => kn[station] = exchanged(kn[station]),
        3 => kn[station] = dice.between(0, 30_000),
        4 => kn[station] = dice.pick(&[0, 30_000]),
        5 => kn.swap(inner, inner + 1),
        6 => fold(kn, inner, dice.pick(&[-1, 1]) * dice.between(401, 420)),
        _ => fold(kn, inner, dice.pick(&[-1, 1]) * dice.between(380, 400)),
    }
    for kn in &mut kn[1..] {
        *kn = (*kn).clamp(0, 30_000);
    }
}

/// A number with its first two digits in the other order.
fn exchanged(number: i128) -> i128 {
    let mut digits = number.to_string().into_bytes();
    if digits.len() > 1 {
        digits.swap(0, 1);
    }
    digits
        .iter()
        .fold(0, |value, digit| value * 10 + i128::from(digit - b'0'))
}
