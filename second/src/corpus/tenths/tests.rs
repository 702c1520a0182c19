//! The cases of request 5 are what their names say, by the numbers of the
//! request page and the decisions for it.

use super::heights::{AROUND, SURFACES};
use crate::corpus::tests::{judged, named, with_stored};
use crate::corpus::winds::sail_text;
use crate::corpus::Corpus;
use crate::criteria::{judge_in, Judgement, FAIL, NOT_JUDGED, PASS};
use crate::curve::Y_PER_MILLIMETRE;
use crate::instrument::{judgements, read_text};
use crate::loading::laden;
use crate::refusal::Refusal;
use crate::roll::{height_factor, period};
use crate::unit::{MILLIMETRES, TENTHS};

/// What is said of each condition of a case.
fn conditions(corpus: &Corpus, name: &str) -> Vec<Result<Judgement, Refusal>> {
    judgements(&named(corpus, name)).unwrap_or_else(|refusal| panic!("{name}: {refusal:?}"))
}

/// A figure of each condition of a case, all of which are judged.
fn figures(corpus: &Corpus, name: &str, figure: usize) -> Vec<i128> {
    let judged = conditions(corpus, name).into_iter();
    judged
        .map(|judged| judged.expect("it is judged").figures[figure])
        .collect()
}

/// A case in millimetres and in tenths.
fn both(corpus: &Corpus, name: &str) -> [Judgement; 2] {
    let document = read_text(&named(corpus, name).text).expect("a sound text");
    [MILLIMETRES, TENTHS].map(|unit| judge_in(&document, unit).expect("it is judged"))
}

#[test]
fn kg_beside_a_whole_millimetre() {
    for corpus in with_stored() {
        let found = figures(&corpus, "KG around a whole millimetre", 1);
        let whole = found[4];
        assert_eq!(whole % 10, 0);
        let expected = AROUND.map(|(tenths, kilograms)| tenths + i128::from(kilograms > 0));
        assert!(found.iter().map(|kg| kg - whole).eq(expected));
        let name = "KG around a whole millimetre by free surfaces";
        let found = figures(&corpus, name, 1);
        assert_eq!(found.len(), SURFACES.len());
        let whole = found[3];
        assert_eq!(whole % 10, 0);
        let above: Vec<i128> = found.iter().map(|kg| kg - whole).collect();
        assert_eq!(above, [1, 1, 2, 0, 1, 2]);
    }
}

#[test]
fn kg_at_600000_and_beyond() {
    for corpus in with_stored() {
        let said = conditions(&corpus, "KG around 600,000 tenths");
        let heights: Vec<Option<i128>> = said
            .iter()
            .map(|said| said.as_ref().ok().map(|judged| judged.figures[1]))
            .collect();
        let judged = [
            599_990, 599_999, 600_000, 600_000, 600_000, 600_000, 600_000,
        ];
        assert!(heights[..7].iter().copied().eq(judged.map(Some)));
        assert_eq!(heights.len(), 12);
        for refused in &said[7..] {
            assert_eq!(refused, &Err(Refusal::of_loading(8)));
        }
    }
}

#[test]
fn gm_around_its_limits() {
    for corpus in with_stored() {
        for (name, limit) in [
            ("GM around 1500 tenths by the Code", 1_500),
            ("GM around 1000 tenths by timber's criteria", 1_000),
        ] {
            let besides = [11, 10, 9, 1, 0, -1, -9, -10, -11];
            let said = conditions(&corpus, name);
            assert_eq!(said.len(), besides.len());
            for (said, beside) in said.into_iter().zip(besides) {
                let judged = said.expect("it is judged");
                let verdict = if beside < 0 { FAIL } else { PASS };
                let found = (judged.figures[2], judged.verdicts[5]);
                assert_eq!(found, (limit + beside, verdict));
            }
        }
    }
}

#[test]
fn r_where_its_quotient_is_whole() {
    for corpus in with_stored() {
        let heights = figures(&corpus, "r around whole numbers at d 3600", 1);
        let factors: Vec<i128> = heights
            .iter()
            .map(|&kg| height_factor(kg, 36_000))
            .collect();
        let expected = [729, 729, 730, 730, 730, 730, 731, 731, 731, 731, 732];
        assert_eq!(factors, expected);
    }
}

#[test]
fn levers_beside_the_winds() {
    for corpus in with_stored() {
        let sailing = |name: &str| sail_text(&named(&corpus, name).text).expect("a sound text");
        for off in [-1, 1] {
            let sailing = sailing(&format!("y at phi0 {off:+} from lw1"));
            let level = sailing.wind.steady_lever * Y_PER_MILLIMETRE;
            let at = sailing.wind.phi0.expect("a steady heel") - i128::from(off < 0);
            assert_eq!(sailing.curve.y(at) - level, off);
        }
        for (off, heel, verdict) in [(-100, 161, FAIL), (0, 160, PASS), (100, 160, PASS)] {
            for tag in ["C1", "C6"] {
                let name = format!("y at 160 {off:+} from lw1 as {tag}");
                let judged = judged(&corpus, &name);
                assert_eq!((judged.figures[8], judged.verdicts[6]), (heel, verdict));
                let sailing = sailing(&name);
                let level = sailing.wind.steady_lever * Y_PER_MILLIMETRE;
                assert_eq!(sailing.curve.y(160) - level, off);
            }
        }
        for off in [-1, 0, 1] {
            let name = |wind: &str| format!("greatest y {off:+} from {wind}");
            assert_eq!(sailing(&name("lw1")).wind.phi0.is_some(), off >= 0);
            let of_gust = sailing(&name("lw2"));
            assert!(of_gust.wind.phi0.is_some());
            assert_eq!(of_gust.gust.is_some(), off >= 0);
            let ending = sailing(&format!("y at e {off:+} from lw2"));
            let level = ending.wind.gust_lever * Y_PER_MILLIMETRE;
            let end = ending.gust.expect("a gust that is met").end;
            assert_eq!(ending.curve.y(end + i128::from(off < 0)) - level, off);
        }
    }
}

#[test]
fn periods_met_and_missed() {
    for corpus in with_stored() {
        for n in [700, 800, 1_200, 2_000] {
            let name = format!("period {n} met and missed by a tenth");
            let call = named(&corpus, &name);
            let documents = crate::instrument::documents(&call).expect("a sound text");
            let periods: Vec<i128> = documents
                .into_iter()
                .map(|document| {
                    let document = document.expect("a sound condition");
                    let laden = laden(&document).expect("on a row");
                    period(&document.ship, laden.draught, laden.gm(), TENTHS)
                })
                .collect();
            assert_eq!(periods, [n - 1, n, n]);
            assert_eq!(figures(&corpus, &name, 2), [2_501, 2_500, 2_499]);
            let unjudged = conditions(&corpus, &name)
                .into_iter()
                .map(|judged| judged.expect("it is judged").verdicts[7] == NOT_JUDGED);
            assert!(unjudged.eq([false, n == 2_000, n == 2_000]));
        }
    }
}

#[test]
fn equal_levers_at_half_a_millimetre() {
    for corpus in with_stored() {
        for tag in ["C1", "C6"] {
            let name = format!("equal levers at stations 3 and 4, KG 40625 tenths as {tag}");
            let judged = judged(&corpus, &name);
            assert_eq!((judged.figures[1], judged.figures[7]), (40_625, 150));
            let curve = sail_text(&named(&corpus, &name).text).expect("sound").curve;
            assert_eq!(curve.y(150), curve.y(200));
        }
    }
}

/// The criterion that is named has another verdict, and no other one.
#[test]
fn the_ferry_by_the_rounding_of_kg_alone() {
    for corpus in with_stored() {
        let turned = |name: &str, criterion: usize, turn: [u8; 2]| {
            let [millimetres, tenths] = both(&corpus, name);
            let mut expected = millimetres.verdicts;
            assert_eq!(expected[criterion - 1], turn[0], "{name}");
            expected[criterion - 1] = turn[1];
            assert_eq!(tenths.verdicts, expected, "{name}");
        };
        for (tag, criteria) in [("C1", &[1, 2, 3, 4, 5, 7, 8][..]), ("C6", &[3, 4, 7, 8])] {
            for &criterion in criteria {
                let name = format!("ferry passes {criterion} in tenths alone, by {tag}");
                turned(&name, criterion, [FAIL, PASS]);
            }
            let name = format!("ferry passes 8 in millimetres alone, by {tag}");
            turned(&name, 8, [PASS, FAIL]);
        }
    }
}

/// Criterion 8 is judged in one unit and not in the other, either way.
#[test]
fn criterion_8_is_judged_in_one_unit_alone() {
    for corpus in with_stored() {
        for (name, in_tenths) in [
            ("KG 7d -1 tenths at d 4000", false),
            ("KG 15d +0 tenths at d 4001", true),
            ("narrowest and longest, GM 38 tenths", true),
        ] {
            let judged = both(&corpus, name).map(|judged| judged.verdicts[7] != NOT_JUDGED);
            assert_eq!(judged, [!in_tenths, in_tenths], "{name}");
        }
    }
}
