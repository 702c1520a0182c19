//! The exact judge of texts by the criteria for timber: slot 5 is unused with
//! any value exact, and criterion 8 is what it is with a C1.

use super::rounding::{choices, Kept};
use super::show::table;
use super::tests::{exact, numbered};
use crate::book::Document;
use crate::criteria::{judge_document, FAIL, PASS, UNUSED};
use crate::sets::{CODE, TIMBER};

/// The texts of `docs/ROUNDINGS.md`, each by the criteria for timber too.
fn pairs() -> Vec<[Document; 2]> {
    (1..=15)
        .map(|number| {
            let code = numbered(&number.to_string());
            assert_eq!(code.condition.criteria, &CODE);
            let mut timber = code.clone();
            timber.condition.criteria = &TIMBER;
            [code, timber]
        })
        .collect()
}

#[test]
fn slot_5_is_unused_and_criterion_8_the_same() {
    for [code, timber] in pairs() {
        let used = judge_document(&timber).expect("it is judged");
        assert_eq!(used.verdicts[4], UNUSED);
        for (name, _) in choices() {
            let [of_code, of_timber] = [&code, &timber].map(|document| exact(document, name));
            assert_eq!(of_timber.fifth(), UNUSED);
            assert_eq!(of_timber.peak, of_code.peak);
            assert_eq!(of_timber.eighth(), of_code.eighth());
            assert_eq!(of_timber.figure(), of_code.figure());
        }
    }
}

/// Text 1 passes criterion 5 by the rounding of KN, and owes it nothing as
/// timber.
#[test]
fn a_rounding_cannot_favour_what_is_unused() {
    let [code, timber] = pairs().swap_remove(0);
    let verdicts = |document: &Document| {
        let used = judge_document(document).expect("it is judged").verdicts[4];
        [used, exact(document, "KN").fifth()]
    };
    assert_eq!(verdicts(&code), [PASS, FAIL]);
    assert_eq!(verdicts(&timber), [UNUSED, UNUSED]);
}

#[test]
fn the_table_says_unused() {
    for [code, timber] in pairs() {
        let [code, timber] = [code, timber].map(|document| {
            let lines = table(&document).expect("it is judged");
            lines.lines().map(str::to_string).collect::<Vec<_>>()
        });
        assert_eq!(timber.len(), choices().len() + 1);
        for (of_code, of_timber) in code.iter().zip(&timber) {
            let said = of_code.replacen("criterion 5 pass", "criterion 5 unused", 1);
            let said = said.replacen("criterion 5 fail", "criterion 5 unused", 1);
            assert_eq!(*of_timber, said);
            assert!(of_timber.contains("criterion 5 unused"));
        }
    }
    assert!(choices().iter().all(|choice| choice.1 != Kept::NONE));
}
