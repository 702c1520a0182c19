//! The sets of criteria. A set is one value: its limits, the slots that it
//! uses, and what its slots 4 and 7 look at. The tag of the block in C1's
//! place chooses it; a further set is one more value in `SETS`. Limits of
//! areas, levers and GM stand here as document 01 and request 2 have them, in
//! millimetres; a judgement raises them to its unit, tenfold to tenths.

use crate::layout::{C1, C6};

/// What a figure must be at least; none where the set leaves the slot unused.
pub type Limit = Option<i128>;

#[derive(Debug, PartialEq)]
pub struct CriteriaSet {
    /// The tag of the weather block that chooses the set.
    pub tag: u8,
    pub area_to_30: Limit,
    pub area_30_to_40: Limit,
    pub area_to_40: Limit,
    pub greatest_lever: Limit,
    /// The angle from which slot 4 looks for the greatest lever.
    pub lever_from: i128,
    pub angle_of_greatest: Limit,
    pub gm: Limit,
    /// The most that the steady heel may be.
    pub steady_heel: i128,
    /// Whether the steady heel is held against the deck edge angle too.
    pub deck_edge_counts: bool,
}

/// Document 01's own criteria, those of the Code.
pub static CODE: CriteriaSet = CriteriaSet {
    tag: C1,
    area_to_30: Some(315_126_800_000),
    area_30_to_40: Some(171_887_400_000),
    area_to_40: Some(515_662_100_000),
    greatest_lever: Some(1_000_000_000),
    lever_from: 300,
    angle_of_greatest: Some(250),
    gm: Some(150),
    steady_heel: 160,
    deck_edge_counts: true,
};

/// Request 2: timber on deck.
pub static TIMBER: CriteriaSet = CriteriaSet {
    tag: C6,
    area_to_30: None,
    area_30_to_40: None,
    area_to_40: Some(458_366_300_000),
    greatest_lever: Some(1_250_000_000),
    lever_from: 0,
    angle_of_greatest: None,
    gm: Some(100),
    steady_heel: 160,
    deck_edge_counts: false,
};

pub static SETS: [&CriteriaSet; 2] = [&CODE, &TIMBER];

/// The set that a weather block with this tag chooses.
pub fn chosen_by(tag: u8) -> Option<&'static CriteriaSet> {
    SETS.into_iter().find(|set| set.tag == tag)
}

#[cfg(test)]
mod tests {
    use super::*;

    #[test]
    fn each_set_is_chosen_by_a_tag_of_its_own() {
        assert_eq!(chosen_by(0xC1), Some(&CODE));
        assert_eq!(chosen_by(0xC6), Some(&TIMBER));
        let others = (0..=255).filter(|tag| ![0xC1, 0xC6].contains(tag));
        assert!(others.into_iter().all(|tag| chosen_by(tag).is_none()));
    }
}
