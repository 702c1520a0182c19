//! The corpus: first every systematic case in order, then texts by chance.
//! A text depends on the seed and its own number only.

mod booklets;
mod bounds;
mod cargo;
mod cases;
mod chance;
mod characters;
pub mod dice;
pub mod draft;
mod edges;
mod faults;
mod garble;
mod load;
mod mend;
mod order;
mod rolls;
mod rows;
mod sizes;
mod slips;
mod solve;
mod tenths;
mod timber;
mod vessel;
mod winds;

#[cfg(test)]
mod tests;

use cases::{Case, Cases};
use dice::Dice;

use crate::instrument::Call;

pub struct Corpus {
    seed: u64,
    small: bool,
    cases: Vec<Case>,
    /// By how much the number of a text's dice is ahead of its own, behind the
    /// systematic cases.
    ahead: u64,
}

impl Corpus {
    /// With `small`, some systematic cases are left out and the texts by
    /// chance stay short.
    pub fn new(seed: u64, small: bool) -> Corpus {
        let mut cases = Cases::default();
        bounds::add(&mut cases);
        edges::add(&mut cases);
        winds::add(&mut cases);
        rolls::add(&mut cases);
        rows::add(&mut cases);
        order::add(&mut cases);
        faults::add(&mut cases);
        characters::add(&mut cases);
        sizes::add(&mut cases);
        cargo::add(&mut cases);
        timber::add(&mut cases);
        booklets::add(&mut cases);
        slips::add(&mut cases);
        tenths::add(&mut cases);
        let (cases, given) = cases.numbered(small);
        Corpus {
            seed,
            small,
            ahead: given - cases.len() as u64,
            cases,
        }
    }

    /// The names of the systematic cases, in the order of their texts.
    pub fn names(&self) -> impl Iterator<Item = &str> {
        self.cases.iter().map(|case| case.name.as_str())
    }

    /// The text of this number, with its limit and its room.
    pub fn call(&self, number: u64) -> Call {
        match usize::try_from(number)
            .ok()
            .and_then(|number| self.cases.get(number))
        {
            Some(case) => (case.make)(&mut Dice::new(self.seed, case.number)),
            None => chance::call(&mut Dice::new(self.seed, number + self.ahead), self.small),
        }
    }
}
