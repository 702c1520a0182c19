//! The timber cases are what their names say, by the numbers of the request
//! pages: 4,583,663,000,000 for the area of slot 3, 12,500,000,000 for the lever
//! of slot 4, a GM of 1,000 tenths, a steady heel of 160, slots 1, 2 and 5 unused.

use crate::corpus::tests::{judged, named, refused, seeds, with_stored};
use crate::corpus::Corpus;
use crate::criteria::{Judgement, FAIL, NOT_JUDGED, PASS, UNUSED};
use crate::instrument::{judge_text, judgements};
use crate::refusal::Refusal;

const TWINS: usize = 155;

/// What each set says of a case.
fn both(corpus: &Corpus, name: &str) -> [Judgement; 2] {
    ["C1", "C6"].map(|tag| judged(corpus, &format!("{name} as {tag}")))
}

#[test]
fn limits_met_exactly_pass_and_one_less_fails() {
    let limits = [
        ("criterion 3", 3, 5, 4_583_663_000_000),
        ("criterion 4 late", 4, 6, 12_500_000_000),
        ("criterion 4 early", 4, 6, 12_500_000_000),
    ];
    for corpus in with_stored() {
        for (name, slot, figure, limit) in limits {
            for (beside, verdict) in [(-1, FAIL), (0, PASS), (1, PASS)] {
                let [code, timber] = both(&corpus, &format!("timber {name} limit {beside:+}"));
                assert_eq!(timber.figures[figure], limit + beside);
                assert_eq!(timber.verdicts[slot - 1], verdict);
                let (of_code, figure_of_code) = match name {
                    "criterion 3" => (FAIL, limit + beside),
                    "criterion 4 late" => (PASS, limit + beside),
                    _ => (FAIL, 0),
                };
                assert_eq!(code.verdicts[slot - 1], of_code);
                assert_eq!(code.figures[figure], figure_of_code);
            }
        }
        for (gm, of_code, of_timber) in [
            (0, FAIL, FAIL),
            (999, FAIL, FAIL),
            (1_000, FAIL, PASS),
            (1_001, FAIL, PASS),
            (1_499, FAIL, PASS),
            (1_500, PASS, PASS),
        ] {
            let said = both(&corpus, &format!("timber GM {gm} tenths"));
            assert_eq!(said.each_ref().map(|judged| judged.figures[2]), [gm; 2]);
            assert_eq!(said.map(|judged| judged.verdicts[5]), [of_code, of_timber]);
        }
    }
}

#[test]
fn the_steady_heel_whatever_the_deck_edge() {
    for corpus in seeds() {
        for (heel, edge, of_code, of_timber) in [
            (159, 1, FAIL, PASS),
            (160, 1, FAIL, PASS),
            (161, 1, FAIL, FAIL),
            (160, 199, FAIL, PASS),
            (160, 200, PASS, PASS),
            (161, 600, FAIL, FAIL),
        ] {
            let said = both(&corpus, &format!("timber phi0 {heel} deck edge {edge}"));
            assert_eq!(said.each_ref().map(|judged| judged.figures[8]), [heel; 2]);
            assert_eq!(said.map(|judged| judged.verdicts[6]), [of_code, of_timber]);
        }
        let [code, timber] = both(&corpus, "timber phi0 none");
        assert_eq!((code.verdicts[6], timber.verdicts[6]), (FAIL, FAIL));
        assert_eq!(timber.figures[8..], [-1, 0, 0]);
    }
}

/// The numbers of the texts that have a twin with a C1 right before them.
fn twins(corpus: &Corpus) -> Vec<u64> {
    (0..)
        .zip(corpus.names())
        .filter_map(|(number, name)| name.ends_with(" as C6").then_some(number))
        .collect()
}

/// A text with a C1 and its twin with a C6 differ in one digit, and are refused
/// alike. Where they are judged there is a 4 in slots 1, 2 and 5 with the C6
/// and nowhere else, and slot 8 and all figures but slot 4's are the same.
#[test]
fn twins_have_the_same_ship() {
    for corpus in seeds() {
        let twins = twins(&corpus);
        assert_eq!(twins.len(), TWINS);
        for number in twins {
            let [code, timber] = [number - 1, number].map(|number| corpus.call(number).text);
            assert_eq!(code.len(), timber.len());
            let changed = code.iter().zip(&timber).filter(|(one, other)| one != other);
            assert!(changed.eq([(&b'1', &b'6')]), "text {number}");
            match (judge_text(&code), judge_text(&timber)) {
                (Ok(code), Ok(timber)) => assert_shared(&code, &timber),
                (code, timber) => assert_eq!(code, timber, "text {number}"),
            }
        }
    }
}

fn assert_shared(code: &Judgement, timber: &Judgement) {
    let unused = timber.verdicts.map(|verdict| verdict == UNUSED);
    let [t, f] = [true, false];
    assert_eq!(unused, [t, t, f, f, t, f, f, f]);
    assert!(!code.verdicts.contains(&UNUSED));
    assert_eq!(timber.verdicts[7], code.verdicts[7]);
    assert_eq!(timber.figures[..6], code.figures[..6]);
    assert_eq!(timber.figures[7..], code.figures[7..]);
    assert!(timber.figures[6] >= code.figures[6].max(0));
}

/// The greatest lever from 0 on, where the Code looks from 300 on.
#[test]
fn the_greatest_lever_is_looked_for_from_0() {
    for corpus in seeds() {
        for flooding in [0, 1, 249, 299] {
            let [code, timber] = both(&corpus, &format!("timber flooding at {flooding}"));
            assert_eq!((code.verdicts[3], code.figures[6]), (FAIL, 0));
            assert_eq!(timber.figures[6] > 0, flooding > 0);
        }
        for (station, flooding) in [(2, 600), (5, 600), (2, 299), (5, 299)] {
            let name = format!("timber crest at station {station}, flooding {flooding}");
            let [code, timber] = both(&corpus, &name);
            assert!(timber.figures[6] > code.figures[6]);
            assert_eq!(timber.figures[7], 50 * station);
        }
        let humps = |first: &str, second: &str| {
            let name = format!("timber humps {first} and {second}, flooding 600");
            both(&corpus, &name).map(|judged| judged.verdicts[3])
        };
        assert_eq!(humps("250 at 25", "190 at 40"), [FAIL, PASS]);
        assert_eq!(humps("249 at 25", "190 at 40"), [FAIL, FAIL]);
        assert_eq!(humps("250 at 10", "190 at 45"), [FAIL, PASS]);
        assert_eq!(humps("300 at 25", "220 at 40"), [PASS, PASS]);
        assert_eq!(humps("220 at 25", "249 at 40"), [PASS, FAIL]);
        assert_eq!(humps("220 at 25", "250 at 40"), [PASS, PASS]);
        for (first, second, kg) in [(3, 5, 5_000), (2, 6, 20_000), (5, 7, 12_500), (2, 4, 0)] {
            let name = format!("timber equal levers at stations {first} and {second}, KG {kg}");
            assert_eq!(both(&corpus, &name)[1].figures[7], 50 * first);
        }
        let [code, timber] = both(&corpus, "timber levers below 0");
        assert!(code.figures[6] < 0);
        assert_eq!((timber.figures[6], timber.verdicts[3]), (0, FAIL));
    }
}

/// The slots of a judgement that fail.
fn failed(judged: &Judgement) -> Vec<usize> {
    (1..=8)
        .filter(|&slot| judged.verdicts[slot - 1] == FAIL)
        .collect()
}

#[test]
fn one_set_passes_and_the_other_fails() {
    for corpus in seeds() {
        let fails = |name: &str| both(&corpus, name).each_ref().map(failed);
        assert_eq!(fails("fails in no slot"), [vec![], vec![]]);
        for slot in 1..=7 {
            let name = format!("fails by the Code in slot {slot} alone");
            assert_eq!(fails(&name), [vec![slot], vec![]]);
        }
        let lower = "fails as timber in slot 4 alone";
        assert_eq!(fails(lower), [vec![], vec![4]]);
        let figure = both(&corpus, lower)[1].figures[6];
        assert!((10_000_000_000..12_500_000_000).contains(&figure));
        let gusty = "fails by both in slot 8 alone";
        assert_eq!(fails(gusty), [vec![8], vec![8]]);
        let flooded = "fails by the Code by flooding before 30";
        assert_eq!(fails(flooded), [vec![2, 4], vec![]]);
        for (lever, said) in [
            (199, [FAIL, FAIL]),
            (200, [PASS, FAIL]),
            (249, [PASS, FAIL]),
            (250, [PASS, PASS]),
        ] {
            let name = format!("greatest lever of {lever} mm at 40 degrees");
            let verdicts = both(&corpus, &name).map(|judged| judged.verdicts[3]);
            assert_eq!(verdicts, said, "{name}");
        }
    }
}

#[test]
fn criterion_8_is_as_before() {
    for corpus in with_stored() {
        for (name, verdict) in [
            ("timber net -1", FAIL),
            ("timber net +0", PASS),
            ("timber net +1", PASS),
            ("timber u none", FAIL),
            ("timber GM 0 tenths", NOT_JUDGED),
            ("timber B 14000 at d 4000", NOT_JUDGED),
            ("timber KG 27999 tenths at d 4000", NOT_JUDGED),
            ("timber KG 60001 tenths at d 4000", NOT_JUDGED),
            ("timber period 2000", NOT_JUDGED),
        ] {
            let [code, timber] = both(&corpus, name);
            assert_eq!((code.verdicts[7], timber.verdicts[7]), (verdict, verdict));
        }
        for name in [
            "timber B 13999 at d 4000",
            "timber KG 28000 tenths at d 4000",
            "timber KG 60000 tenths at d 4000",
            "timber period 1999",
        ] {
            assert_ne!(both(&corpus, name)[1].verdicts[7], NOT_JUDGED, "{name}");
        }
    }
}

#[test]
fn tanks_and_cargo_tanks_behind_a_c6() {
    for corpus in seeds() {
        let tanks = |name: &str| {
            ["C3", "C5"].map(|kind| judged(&corpus, &format!("timber {name} as {kind}")))
        };
        for (fill, depth) in [(980, 0), (980, 4), (1_000, 0)] {
            let [tank, cargo] = tanks(&format!("fill {fill} depth {depth}"));
            assert!(tank.figures[1] < cargo.figures[1]);
        }
        for (gm, verdict) in [(999, FAIL), (1_000, PASS)] {
            let [tank, cargo] = tanks(&format!("planner's tank, GM {gm} tenths with its surface"));
            assert_eq!((cargo.figures[2], cargo.verdicts[5]), (gm, verdict));
            assert_eq!(tank.verdicts[5], PASS);
        }
        for criterion in [3, 4, 6, 7, 8] {
            let said = tanks(&format!("planner's tank, criterion {criterion}"));
            assert_eq!(
                said.each_ref().map(|judged| judged.verdicts[4]),
                [UNUSED; 2]
            );
            let verdicts = said.map(|judged| judged.verdicts[criterion - 1]);
            assert_eq!(verdicts, [PASS, FAIL], "criterion {criterion}");
        }
    }
}

/// Conditions in the letters of `blocks.rs`, with the refusal and its offset.
const PLACES: [(&str, Option<(u8, usize)>); 17] = [
    ("T", Some((5, 0))),
    ("TI", None),
    ("T(I)", None),
    ("TW", Some((4, 18))),
    ("WT", Some((4, 18))),
    ("TTI", Some((4, 18))),
    ("TWI", Some((4, 18))),
    ("WTI", Some((4, 18))),
    ("TIT", Some((4, 27))),
    ("WIT", Some((4, 27))),
    ("ITI", Some((4, 3))),
    ("(T)I", Some((4, 3))),
    ("T(T)", Some((4, 21))),
    ("T((((T))))", Some((4, 30))),
    ("WTI, PastParent", Some((2, 18))),
    ("WTI, BodyShort", Some((4, 18))),
    ("TIT, Value", Some((4, 27))),
];

#[test]
fn where_a_c6_may_stand() {
    for corpus in seeds() {
        for (word, place) in PLACES {
            let refusal = refused(&corpus, &format!("condition {word}"));
            let place = place.map(|(number, offset)| Refusal::at(number, 4, offset));
            assert_eq!(refusal, place, "{word}");
        }
        for (word, place) in [
            ("M", Some((4, 1))),
            ("SRRM", Some((4, 4))),
            ("SRRTM", Some((4, 5))),
            ("m", Some((2, 1))),
            ("SRRT", None),
            ("SRRTT", None),
            ("SRT", Some((4, 3))),
        ] {
            let refusal = refused(&corpus, &format!("frames {word}"));
            let place = place.map(|(number, line)| Refusal::at(number, line, 0));
            assert_eq!(refusal, place, "{word}");
        }
    }
}

#[test]
fn c6_is_tested_as_c1() {
    for corpus in seeds() {
        let number = |name: &str| refused(&corpus, name).map(|refusal| refusal.number);
        for what in ["0 bytes", "11 bytes", "13 bytes", "length 11", "length 13"] {
            let name = format!("weather of {what} as C6");
            assert_eq!(refused(&corpus, &name), Some(Refusal::at(3, 4, 3)));
        }
        let past = [
            "weather of length 65535 as C6",
            "weather alone of length 13 as C6",
        ];
        for name in past {
            assert_eq!(refused(&corpus, name), Some(Refusal::at(2, 4, 3)));
        }
        let edges = [0, 1, 600, 601].map(|edge| format!("bound C6 field 4 value {edge}"));
        let said = edges.each_ref().map(|name| number(name));
        assert_eq!(said, [Some(6), None, None, Some(6)]);
        for (name, refusal) in [
            ("mass on the first row", None),
            ("mass one under the first row", Some(7)),
            ("mass one over the last row", Some(7)),
            ("KG 60,000 by free surface +0", None),
            ("KG 60,000 by free surface +1", Some(8)),
            ("mass off the rows, under true, with KG too high", Some(7)),
            ("mass off the rows, under false, with KG too high", Some(7)),
        ] {
            assert_eq!(number(&format!("timber {name} as C6")), refusal, "{name}");
        }
        for (name, refusal) in [("200 entries", None), ("201 entries", Some(5))] {
            assert_eq!(number(&format!("timber with {name}")), refusal);
        }
        assert_eq!(number("timber with A3 of 4096"), None);
        assert_eq!(number("timber with A3 of 4097"), Some(5));
        assert_eq!(number("the longest sound text, timber"), None);
        assert_eq!(
            named(&corpus, "the longest sound text, timber").text.len(),
            11_232
        );
    }
}

/// Texts by chance have a C6 in a good part.
#[test]
fn chance_chooses_timber_too() {
    for corpus in seeds() {
        let first = corpus.names().count() as u64;
        let calls = (first..first + 600).map(|number| corpus.call(number));
        let judged = calls.flat_map(|call| judgements(&call).unwrap_or_default());
        let judged: Vec<Judgement> = judged.flatten().collect();
        let timber = judged.iter().filter(|judged| judged.verdicts[0] == UNUSED);
        assert!(3 * timber.count() > judged.len());
    }
}
