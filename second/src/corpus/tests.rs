//! What the corpus must hold: the named cases are what their names say, each
//! verdict and refusal occurs, and the stored corpus is what is made today.

use std::collections::BTreeSet;
use std::path::PathBuf;

use super::edges::TIES;
use super::winds::{sail_text, Sailing, DIPS};
use super::Corpus;
use crate::criteria::{Judgement, FAIL, NOT_JUDGED, PASS, UNUSED};
use crate::curve::Y_PER_MILLIMETRE;
use crate::instrument::{answer, judge_text, judgements, Call};
use crate::refusal::Refusal;
use crate::stream::write_call;

const SYSTEMATIC: usize = 3_006;
const SYSTEMATIC_SMALL: usize = 2_436;
const TWINS: usize = 51;
const STORED_SEED: u64 = 20_261_115;
/// The bytes of both stored files are fewer.
const STORED_MOST: usize = 2_000_000;
const STORED_COUNT: u64 = 2_496;

pub fn named(corpus: &Corpus, name: &str) -> Call {
    let number = corpus.cases.iter().position(|case| case.name == name);
    corpus.call(number.unwrap_or_else(|| panic!("no case {name}")) as u64)
}

pub fn judged(corpus: &Corpus, name: &str) -> Judgement {
    judge_text(&named(corpus, name).text).unwrap_or_else(|refusal| panic!("{name}: {refusal:?}"))
}

pub fn refused(corpus: &Corpus, name: &str) -> Option<Refusal> {
    judge_text(&named(corpus, name).text).err()
}

pub fn seeds() -> impl Iterator<Item = Corpus> {
    (1..=6).map(|seed| Corpus::new(seed, false))
}

/// The same and the corpus that is stored, for cases that it must have.
pub fn with_stored() -> impl Iterator<Item = Corpus> {
    seeds().chain([Corpus::new(STORED_SEED, true)])
}

#[test]
fn the_number_of_systematic_cases() {
    assert_eq!(Corpus::new(1, false).cases.len(), SYSTEMATIC);
    assert_eq!(Corpus::new(1, true).cases.len(), SYSTEMATIC_SMALL);
}

#[test]
fn figures_equal_to_their_limits_pass_and_one_less_fails() {
    let limits = [
        (1, 3, 3_151_268_000_000),
        (2, 4, 1_718_874_000_000),
        (3, 5, 5_156_621_000_000),
        (4, 6, 10_000_000_000),
    ];
    for corpus in with_stored() {
        for (number, figure, limit) in limits {
            for (beside, verdict) in [(-1, FAIL), (0, PASS), (1, PASS)] {
                let judged = judged(&corpus, &format!("criterion {number} limit {beside:+}"));
                assert_eq!(judged.figures[figure], limit + beside);
                assert_eq!(judged.verdicts[number - 1], verdict);
            }
        }
        for (gm, verdict) in [(-1, FAIL), (1_499, FAIL), (1_500, PASS), (1_501, PASS)] {
            let judged = judged(&corpus, &format!("GM {gm} tenths"));
            assert_eq!((judged.figures[2], judged.verdicts[5]), (gm, verdict));
        }
    }
}

#[test]
fn winds_are_what_they_are_named() {
    for corpus in with_stored() {
        for (heel, edge, verdict) in [(160, 199, FAIL), (160, 200, PASS), (161, 600, FAIL)] {
            let judged = judged(&corpus, &format!("phi0 {heel} deck edge {edge}"));
            assert_eq!((judged.figures[8], judged.verdicts[6]), (heel, verdict));
        }
        for (net, verdict) in [(-1, FAIL), (0, PASS), (1, PASS)] {
            let judged = judged(&corpus, &format!("net {net:+}"));
            assert_eq!((judged.figures[10], judged.verdicts[7]), (net, verdict));
        }
        assert_eq!(judged(&corpus, "phi0 none").figures[8..], [-1, 0, 0]);
        let none = judged(&corpus, "u none");
        assert!(none.figures[8] >= 0 && none.verdicts[7] == FAIL && none.figures[9] == 0);
        let exact = sail_text(&named(&corpus, "lever exact +0").text).expect("a sound text");
        let met = exact.wind.phi0.map(|phi0| exact.curve.y(phi0));
        assert_eq!(met, Some(exact.wind.steady_lever * Y_PER_MILLIMETRE));
    }
}

#[test]
fn criterion_8_is_judged_up_to_its_edges() {
    let edges = [
        ("B 13999 at d 4000", true),
        ("B 14000 at d 4000", false),
        ("B 14003 at d 4001", true),
        ("B 14004 at d 4001", false),
        ("KG 7d -10 tenths at d 4000", false),
        ("KG 7d -1 tenths at d 4000", false),
        ("KG 7d +0 tenths at d 4000", true),
        ("KG 7d -1 tenths at d 4001", false),
        ("KG 7d +0 tenths at d 4001", true),
        ("KG 15d +0 tenths at d 4000", true),
        ("KG 15d +1 tenths at d 4000", false),
        ("KG 15d +10 tenths at d 4000", false),
        ("KG 15d +0 tenths at d 4001", true),
        ("KG 15d +1 tenths at d 4001", false),
        ("period 1999", true),
        ("period 2000", false),
        ("GM 0 tenths", false),
        ("narrowest and longest, GM 37 tenths", false),
        ("narrowest and longest, GM 38 tenths", true),
    ];
    for corpus in with_stored() {
        for (name, is_judged) in edges {
            assert_eq!(
                judged(&corpus, name).verdicts[7] != NOT_JUDGED,
                is_judged,
                "{name}"
            );
        }
    }
}

#[test]
fn the_first_of_equal_levers_is_taken() {
    for corpus in seeds() {
        for (first, second, kg) in TIES {
            let name = format!("equal levers at stations {first} and {second}, KG {kg}");
            assert_eq!(judged(&corpus, &name).figures[7], 50 * first as i128);
        }
    }
}

/// Crests at a station, and flooding angles before one.
#[test]
fn angles_are_what_they_are_named() {
    for corpus in seeds() {
        for station in [4, 5, 6, 12] {
            let judged = judged(&corpus, &format!("crest at station {station}"));
            assert_eq!(judged.figures[7], 50 * station);
            let verdict = if station < 5 { FAIL } else { PASS };
            assert_eq!(judged.verdicts[4], verdict);
        }
        for (flooding, station) in [(249, 5), (250, 5), (251, 6), (250, 6)] {
            let name = format!("flooding at {flooding} before a crest at station {station}");
            assert_eq!(judged(&corpus, &name).figures[7], flooding);
        }
    }
}

/// The curve falls under the gust lever before a dip and rises again or not.
#[test]
fn dips_are_what_they_are_named() {
    for corpus in seeds() {
        for (dip, again) in DIPS {
            let name = format!("dip at station {dip}, again {again}");
            let Sailing { curve, wind, gust } =
                sail_text(&named(&corpus, &name).text).expect("a sound text");
            let gust_y = wind.gust_lever * Y_PER_MILLIMETRE;
            let at = 50 * dip as i128;
            let end = gust.map(|gust| gust.end).expect("a gust that is met");
            assert!(curve.y(at - 50) >= gust_y && curve.y(at) < gust_y, "{name}");
            assert!(end == 500.min(end) && end >= (at - 50).min(500) && end < at);
            assert_eq!(curve.first_at_least(gust_y, at..=600).is_some(), again);
        }
    }
}

#[test]
fn sizes_are_what_they_are_named() {
    for corpus in seeds() {
        let number = |name: &str| refused(&corpus, name).map(|refusal| refusal.number);
        assert_eq!(named(&corpus, "the longest sound text").text.len(), 11_232);
        assert_eq!(number("the longest sound text"), None);
        for (total, line) in [(12_000, 42), (12_001, 41)] {
            let grouped = format!("{},{:03}", total / 1_000, total % 1_000);
            let name = format!("{grouped} characters, A3 too long");
            assert_eq!(named(&corpus, &name).text.len(), total);
            assert_eq!(refused(&corpus, &name), Some(Refusal::at(5, line, 0)));
        }
        let seen = [
            "A3 of 4096",
            "A3 of 4097",
            "40 rows",
            "41 rows",
            "200 entries",
            "201 entries",
        ]
        .map(number);
        assert_eq!(seen, [None, Some(5), None, Some(4), None, Some(5)]);
        let groups = ["depth 4", "depth 5", "empty group at depth 4, behind true"].map(number);
        assert_eq!(groups, [None, Some(5), Some(5)]);
        assert_eq!(number("the surveyor's drawing"), Some(2));
        assert_eq!(number("KG 60,000 by free surface +0, 1 m"), None);
        assert_eq!(number("KG 60,000 by free surface +1, 1 m"), Some(8));
        assert_eq!(number("mass under the rows with KG too high"), Some(7));
        assert_eq!(number("mass over the rows with KG too high"), Some(7));
    }
}

#[test]
fn fills_count_as_their_kind_of_tank_says() {
    for corpus in seeds() {
        for depth in [0, 4] {
            let kg = |fill: i128, kind: &str| {
                let name = format!("fill {fill} mass 5000 depth {depth} as {kind}");
                judged(&corpus, &name).figures[1]
            };
            for fill in [1, 979] {
                assert_eq!(kg(fill, "C3"), kg(fill, "C5"));
                assert!(kg(fill, "C3 and C5") > kg(fill, "C5"));
            }
            for fill in [980, 985, 1_000] {
                assert!(kg(fill, "C3") < kg(fill, "C5"));
                assert_eq!(kg(fill, "C3 and C5"), kg(fill, "C5"));
            }
            for kind in ["C3", "C5", "C3 and C5"] {
                let number = |what: &str| {
                    let name = format!("fill {what} depth {depth} as {kind}");
                    refused(&corpus, &name).map(|refusal| refusal.number)
                };
                let seen = ["0 mass 0", "0 mass 1", "1001 mass 5000"].map(number);
                assert_eq!(seen, [None, Some(6), Some(6)]);
            }
        }
    }
}

/// A text with a tank and its twin with a cargo tank differ in one digit.
#[test]
fn twins_have_the_same_ship() {
    for corpus in seeds() {
        let twins: Vec<u64> = (0..)
            .zip(corpus.names())
            .filter_map(|(number, name)| name.ends_with(" as C5").then_some(number))
            .collect();
        assert_eq!(twins.len(), TWINS);
        for number in twins {
            let [tank, cargo] = [number - 1, number].map(|number| corpus.call(number).text);
            assert_eq!(tank.len(), cargo.len());
            let changed = tank.iter().zip(&cargo).filter(|(one, other)| one != other);
            assert!(changed.eq([(&b'3', &b'5')]), "text {number}");
        }
    }
}

#[test]
fn the_planners_tank_decides() {
    for corpus in seeds() {
        let both = |name: &str| {
            ["C3", "C5"].map(|kind| judged(&corpus, &format!("planner's tank{name} as {kind}")))
        };
        let [tank, cargo] = both("");
        assert!((2_000..=2_051).contains(&(cargo.figures[1] - tank.figures[1])));
        for (gm, verdict) in [(1_499, FAIL), (1_500, PASS)] {
            let [tank, cargo] = both(&format!(", GM {gm} tenths with its surface"));
            assert_eq!((cargo.figures[2], cargo.verdicts[5]), (gm, verdict));
            assert_eq!(tank.verdicts[5], PASS);
        }
        for criterion in 1..=8 {
            let judged = both(&format!(", criterion {criterion}"));
            let verdicts = judged.map(|judged| judged.verdicts[criterion - 1]);
            assert_eq!(verdicts, [PASS, FAIL], "criterion {criterion}");
        }
        for fill in [1, 980, 985, 1_000] {
            let name = |beside: i128| format!("KG 60,000 by fill {fill} {beside:+} as C5");
            assert_eq!(judged(&corpus, &name(0)).figures[1], 600_000);
            assert_eq!(refused(&corpus, &name(1)), Some(Refusal::of_loading(8)));
        }
        let greatest = [59_666, 59_667].map(|at| format!("greatest cargo tank at {at}"));
        assert_eq!(judged(&corpus, &greatest[0]).figures[1], 599_994);
        assert_eq!(refused(&corpus, &greatest[1]), Some(Refusal::of_loading(8)));
    }
}

#[test]
fn cargo_tanks_count_and_stand_as_tanks() {
    for corpus in seeds() {
        let number = |name: &str| refused(&corpus, name).map(|refusal| refusal.number);
        for others in ["C2", "C3", "C5"] {
            let counted = |count: usize| number(&format!("C5 as entry {count} behind {others}"));
            assert_eq!([200, 201].map(counted), [None, Some(5)]);
        }
        for last in ["C2", "C3"] {
            assert_eq!(number(&format!("{last} as entry 201 behind C5")), Some(5));
        }
        let faults = ["None", "Some(BodyShort)", "Some(PastAll)", "Some(Tag)"];
        let crowded = faults.map(|fault| number(&format!("C5 as entry 201, fill 0, {fault}")));
        assert_eq!(crowded, [5, 3, 2, 4].map(Some));
        for depth in 0..=5 {
            let alone = number(&format!("cargo tank alone at depth {depth}"));
            assert_eq!(alone, if depth == 5 { Some(5) } else { None });
        }
        for place in ["before the C1", "for the C1", "for all"] {
            let refusal = refused(&corpus, &format!("cargo tank {place}, None"));
            assert_eq!(refusal, Some(Refusal::at(4, 4, 3)));
        }
        for (word, line) in [
            ("K", 1),
            ("KRRC", 1),
            ("SKRC", 2),
            ("SRRK", 4),
            ("SRRCK", 5),
        ] {
            let refusal = refused(&corpus, &format!("frames {word}"));
            assert_eq!(refusal, Some(Refusal::at(4, line, 0)));
        }
    }
}

#[test]
fn cargo_tanks_of_other_lengths() {
    for corpus in seeds() {
        for (depth, offset) in [(0, 27), (4, 39)] {
            for last in [true, false] {
                let place = |what: &str| {
                    let name = format!("cargo tank of {what} at depth {depth}, last {last}");
                    refused(&corpus, &name).map(|refusal| (refusal.number, refusal.offset))
                };
                for what in ["0 bytes", "6 bytes", "13 bytes", "15 bytes", "length 13"] {
                    assert_eq!(place(what), Some((3, offset)));
                }
                let past = if last { 2 } else { 3 };
                assert_eq!(place("length 15"), Some((past, offset)));
            }
            for kept in [1, 2] {
                let name = format!("cargo fault Cut({kept}) at depth {depth}, second None");
                assert_eq!(refused(&corpus, &name), Some(Refusal::at(2, 4, offset)));
            }
        }
    }
}

#[test]
fn every_verdict_and_refusal_occurs() {
    let corpus = Corpus::new(1, false);
    let mut verdicts = BTreeSet::new();
    let mut refusals = BTreeSet::new();
    let mut below_zero = BTreeSet::new();
    for call in (0..5_000).map(|number| corpus.call(number)) {
        assert!(call.text.len() <= 180_001);
        let judged = match judgements(&call) {
            Ok(judged) => judged,
            Err(refusal) => vec![Err(refusal)],
        };
        for judged in judged {
            match judged {
                Ok(judged) => {
                    verdicts.extend(judged.verdicts.into_iter().enumerate());
                    below_zero.extend((0..11).filter(|&figure| judged.figures[figure] < 0));
                }
                Err(refusal) => {
                    refusals.insert(refusal.number);
                }
            }
        }
    }
    assert_eq!(refusals, (1..=10).collect());
    let mut both: BTreeSet<(usize, u8)> = (0..8).flat_map(|slot| [(slot, 0), (slot, 1)]).collect();
    both.insert((7, NOT_JUDGED));
    both.extend([0, 1, 4].map(|slot| (slot, UNUSED)));
    assert_eq!(verdicts, both);
    assert_eq!(below_zero, BTreeSet::from([2, 3, 4, 5, 6, 8, 10]));
}

#[test]
fn the_same_seed_gives_the_same_texts() {
    let (one, same, other) = (
        Corpus::new(5, true),
        Corpus::new(5, true),
        Corpus::new(6, true),
    );
    let calls = |corpus: &Corpus| -> Vec<Call> {
        (0..100)
            .chain(2_200..2_600)
            .map(|number| corpus.call(number))
            .collect()
    };
    assert_eq!(calls(&one), calls(&same));
    assert_ne!(calls(&one), calls(&other));
}

#[test]
fn the_stored_corpus_is_what_is_made_today() {
    let folder: PathBuf = [env!("CARGO_MANIFEST_DIR"), "..", "corpus"]
        .iter()
        .collect();
    let stored = |name: &str| {
        std::fs::read(folder.join(name)).unwrap_or_else(|error| panic!("{name}: {error}"))
    };
    let corpus = Corpus::new(STORED_SEED, true);
    assert!(STORED_COUNT as usize > corpus.cases.len());
    let mut lengths = BTreeSet::new();
    let (mut texts, mut answers) = (Vec::new(), String::new());
    for call in (0..STORED_COUNT).map(|number| corpus.call(number)) {
        assert!(write_call(&mut texts, &call).is_ok());
        lengths.insert(call.text.len());
        answers.push_str(&answer(&call).shown());
    }
    for length in [12_000, 12_001, 59_999, 60_000, 60_001, 180_000, 180_001] {
        assert!(lengths.contains(&length), "no text of {length} characters");
    }
    assert!(texts.len() + answers.len() < STORED_MOST);
    assert!(stored("stored.texts") == texts, "stored.texts differs");
    assert!(
        stored("stored.answers") == answers.into_bytes(),
        "stored.answers differs"
    );
}
