//! The systematic cases of the corpus, as a list that each part adds to.

use super::dice::Dice;
use crate::instrument::Call;

type Make = Box<dyn Fn(&mut Dice) -> Call>;

/// A systematic case: its name, how its text is made, and whether a small
/// corpus goes without it, for the text is long or has others like it.
pub struct Case {
    pub name: String,
    pub make: Make,
    pub full_only: bool,
    /// A small corpus goes without it, but not without its dice, so that the
    /// cases behind it keep the ships they had when it was there.
    pub spared: bool,
    /// The number of the dice it throws.
    pub number: u64,
    /// How many cases before this one stands the case whose dice it throws.
    back: u64,
}

/// The list that each part of the corpus adds its cases to.
#[derive(Default)]
pub struct Cases {
    pub list: Vec<Case>,
}

impl Cases {
    /// A case with the library's limit and room enough, unless it says
    /// otherwise.
    pub fn add<T: Into<Call>>(
        &mut self,
        name: impl Into<String>,
        make: impl Fn(&mut Dice) -> T + 'static,
    ) {
        self.list.push(Case {
            name: name.into(),
            make: Box::new(move |dice| make(dice).into()),
            full_only: false,
            spared: false,
            number: 0,
            back: 0,
        });
    }

    /// A case for full corpora only, or for every corpus.
    pub fn add_where<T: Into<Call>>(
        &mut self,
        full_only: bool,
        name: impl Into<String>,
        make: impl Fn(&mut Dice) -> T + 'static,
    ) {
        self.add(name, make);
        self.last(|case| case.full_only = full_only);
    }

    /// A case that a small corpus goes without.
    pub fn add_full<T: Into<Call>>(
        &mut self,
        name: impl Into<String>,
        make: impl Fn(&mut Dice) -> T + 'static,
    ) {
        self.add_where(true, name, make);
    }

    /// A case that a small corpus has had and goes without, or one for every
    /// corpus.
    pub fn add_spared<T: Into<Call>>(
        &mut self,
        spared: bool,
        name: impl Into<String>,
        make: impl Fn(&mut Dice) -> T + 'static,
    ) {
        self.add(name, make);
        self.last(|case| case.spared = spared);
    }

    /// Cases that throw the same dice, and so have the same ship.
    pub fn add_twins<K: Copy + 'static, T: Into<Call>>(
        &mut self,
        kinds: &[(&str, K)],
        name: &str,
        make: impl Fn(&mut Dice, K) -> T + Copy + 'static,
    ) {
        for (back, &(word, kind)) in (0..).zip(kinds) {
            self.add(format!("{name} as {word}"), move |dice| make(dice, kind));
            self.last(|case| case.back = back);
        }
    }

    fn last(&mut self, change: impl FnOnce(&mut Case)) {
        if let Some(case) = self.list.last_mut() {
            change(case);
        }
    }

    /// The cases of a full corpus or of a small one, each with the number of
    /// its dice, and how many numbers are given away.
    pub fn numbered(self, small: bool) -> (Vec<Case>, u64) {
        let mut given = 0;
        let mut cases = Vec::new();
        for mut case in self.list {
            if small && case.full_only {
                continue;
            }
            case.number = given - case.back;
            given += 1;
            if !(small && case.spared) {
                cases.push(case);
            }
        }
        (cases, given)
    }
}
