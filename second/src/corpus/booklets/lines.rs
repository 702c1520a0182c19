//! Lines of 4,099 bytes, as a condition at its greatest has, and of 4,100, and
//! lines of 60,000 digits: as condition, ship, row and misplaced line, with
//! their length right, past the line and short of it.

use super::{booklet, coaster, lines_of, text_of};
use crate::corpus::cases::Cases;
use crate::corpus::dice::Dice;
use crate::corpus::draft::Block;
use crate::corpus::sizes::filling;
use crate::corpus::vessel::Vessel;
use crate::layout::{A1, A2, C2};

/// What a line's length says of it.
#[derive(Clone, Copy, Debug, PartialEq)]
pub enum Shape {
    Right,
    Past,
    Short,
}

const SHAPES: [Shape; 3] = [Shape::Right, Shape::Past, Shape::Short];

impl Shape {
    fn length(self, bytes: usize) -> usize {
        match self {
            Shape::Right => bytes - 3,
            Shape::Past => bytes - 2,
            Shape::Short => bytes - 4,
        }
    }
}

/// A condition line of so many bytes: sound within the greatest length, and
/// one of zeros behind its weather where it is far beyond it.
pub fn condition_of(vessel: &Vessel, bytes: usize, shape: Shape) -> Block {
    let body = bytes - 3;
    let mut condition = vessel.condition(Vec::new());
    if body <= 4_100 {
        condition.inner.extend(filling(vessel, body));
    } else {
        condition.tail = vec![0; body - 15];
    }
    condition.declared = Some(shape.length(bytes));
    condition
}

const PLACES: [(&str, u8, usize); 3] = [("ship", A1, 0), ("row", A2, 2), ("misplaced line", C2, 4)];

/// A small corpus has one misplaced line; the condition lines stand in a longer
/// text of `limits.rs`.
pub fn add(cases: &mut Cases) {
    for bytes in [4_099, 4_100] {
        for shape in SHAPES {
            cases.add_full(
                format!("condition of {bytes} bytes, {shape:?}"),
                move |dice| {
                    let vessel = coaster(dice);
                    let mut draft = vessel.hull();
                    draft.frames.push(condition_of(&vessel, bytes, shape));
                    draft.text()
                },
            );
            for (name, tag, place) in PLACES {
                let name = format!("{name} of {bytes} bytes, {shape:?}");
                let make = move |dice: &mut Dice| in_place(dice, (tag, place), bytes, shape);
                let kept = (tag, bytes, shape) == (C2, 4_100, Shape::Short);
                cases.add_where(!kept, name, make);
            }
        }
    }
    for shape in SHAPES {
        for (name, tag, place) in PLACES {
            let name = format!("{name} of 60000 digits, {shape:?}");
            cases.add_full(name, move |dice| {
                in_place(dice, (tag, place), 30_000, shape)
            });
        }
    }
}

/// A booklet of two conditions with a line of zeros for that of ship or row,
/// or between its conditions.
fn in_place(dice: &mut Dice, (tag, place): (u8, usize), bytes: usize, shape: Shape) -> Vec<u8> {
    let mut lines = lines_of(&booklet(dice, 2));
    let [.., high, low] = shape.length(bytes).to_be_bytes();
    let mut long = vec![tag, high, low];
    long.resize(bytes, 0);
    let replaced = usize::from(tag != C2);
    lines.splice(place..place + replaced, [long]);
    text_of(&lines)
}
