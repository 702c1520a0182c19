//! Request 5 against document 01's own unit, on the corpus: what a judgement
//! in tenths of a millimetre must share with one in millimetres.

use std::collections::BTreeSet;
use std::sync::OnceLock;

use super::{Unit, MILLIMETRES, TENTHS};
use crate::book::Document;
use crate::corpus::Corpus;
use crate::criteria::{judge_in, Judgement, FAIL, NOT_JUDGED, PASS};
use crate::instrument::documents;
use crate::line::up;
use crate::refusal::Refusal;
use crate::sets::{CODE, TIMBER};

/// KG, GM, the areas of 1, 2 and 3, the greatest lever and the net.
const TENFOLD: [usize; 7] = [1, 2, 3, 4, 5, 6, 10];

type Answer = Result<Judgement, Refusal>;

/// What is said of each sound condition of a corpus, in millimetres and in
/// tenths.
fn both() -> &'static [[Answer; 2]] {
    static BOTH: OnceLock<Vec<[Answer; 2]>> = OnceLock::new();
    BOTH.get_or_init(|| {
        let corpus = Corpus::new(3, true);
        let count = corpus.names().count() as u64 + 3_000;
        let read = (0..count).flat_map(|number| documents(&corpus.call(number)));
        let judge =
            |document: Document| [MILLIMETRES, TENTHS].map(|unit| judge_in(&document, unit));
        read.flatten().flatten().map(judge).collect()
    })
}

/// What is judged in both.
fn judged() -> impl Iterator<Item = [&'static Judgement; 2]> {
    both().iter().filter_map(|answers| match answers {
        [Ok(millimetres), Ok(tenths)] => Some([millimetres, tenths]),
        _ => None,
    })
}

fn is_whole(tenths: &Judgement) -> bool {
    tenths.figures[1] % 10 == 0
}

/// The numbers of the request page, from those of document 01.
#[test]
fn the_limits_in_tenths() {
    let raised = |limit: Option<i128>| TENTHS.of(limit.expect("a slot that is used"));
    let of_code = [
        CODE.area_to_30,
        CODE.area_30_to_40,
        CODE.area_to_40,
        CODE.greatest_lever,
        CODE.gm,
    ];
    assert_eq!(
        of_code.map(raised),
        [
            3_151_268_000_000,
            1_718_874_000_000,
            5_156_621_000_000,
            10_000_000_000,
            1_500
        ]
    );
    let of_timber = [TIMBER.area_to_40, TIMBER.greatest_lever, TIMBER.gm];
    assert_eq!(
        of_timber.map(raised),
        [4_583_663_000_000, 12_500_000_000, 1_000]
    );
}

#[test]
fn a_kg_that_came_out_whole_has_the_verdicts_of_millimetres() {
    let mut seen = 0;
    for [millimetres, tenths] in judged().filter(|[_, tenths]| is_whole(tenths)) {
        assert_eq!(tenths.verdicts, millimetres.verdicts);
        for (slot, figure) in tenths.figures.into_iter().enumerate() {
            let times = if TENFOLD.contains(&slot) { 10 } else { 1 };
            assert_eq!(figure, times * millimetres.figures[slot], "figure {slot}");
        }
        seen += 1;
    }
    assert!(seen > 1_000, "{seen}");
}

/// And of each criterion but 6 something that was failed is passed. GM is not:
/// KM and the limits are whole millimetres, and KG is above a whole number
/// exactly when it is so rounded up.
#[test]
fn what_is_passed_in_millimetres_is_passed_in_tenths() {
    let mut broken = 0;
    let mut passed_now = BTreeSet::new();
    for [millimetres, tenths] in judged() {
        for slot in 0..7 {
            let passes = [millimetres, tenths].map(|judged| judged.verdicts[slot] == PASS);
            assert!(passes[1] || !passes[0], "criterion {}", slot + 1);
            if passes[0] != passes[1] {
                passed_now.insert(slot + 1);
            }
        }
        broken += u32::from(!is_whole(tenths));
    }
    assert!(broken > 1_000, "{broken}");
    assert_eq!(passed_now, BTreeSet::from([1, 2, 3, 4, 5, 7]));
}

#[test]
fn criterion_8_goes_either_way() {
    let turns: BTreeSet<[u8; 2]> = judged()
        .map(|judged| judged.map(|judged| judged.verdicts[7]))
        .collect();
    for turn in [
        [FAIL, PASS],
        [PASS, FAIL],
        [NOT_JUDGED, PASS],
        [PASS, NOT_JUDGED],
    ] {
        assert!(turns.contains(&turn), "{turn:?} in {turns:?}");
    }
}

#[test]
fn kg_in_millimetres_is_that_in_tenths_rounded_up() {
    for [millimetres, tenths] in judged() {
        assert_eq!(millimetres.figures[0], tenths.figures[0]);
        assert_eq!(millimetres.figures[1], up(tenths.figures[1], 10));
    }
}

/// The unit changes no refusal.
#[test]
fn refusals_are_the_same() {
    let number = |answer: &Answer| answer.as_ref().err().map_or(0, |refusal| refusal.number);
    let mut seen = [0; 9];
    for answers in both() {
        let numbers = answers.each_ref().map(number);
        assert_eq!(numbers[0], numbers[1]);
        seen[usize::from(numbers[0])] += 1;
    }
    assert!(seen[7] > 20 && seen[8] > 20, "{seen:?}");
}

#[test]
fn a_tenth_is_a_tenth() {
    let in_each = |unit: Unit| [unit.of(0), unit.of(3), unit.of(-4)];
    assert_eq!(in_each(MILLIMETRES), [0, 3, -4]);
    assert_eq!(in_each(TENTHS), [0, 30, -40]);
}
