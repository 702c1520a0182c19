//! The booklets are what their names say, by the numbers of the request page
//! and the decisions for it; and each report of a booklet is that of its
//! condition alone.

use super::NUMBERS;
use crate::corpus::draft::line;
use crate::corpus::tests::{named, seeds};
use crate::corpus::Corpus;
use crate::criteria::Judgement;
use crate::instrument::{answer, judge_text, judgements, Call};
use crate::refusal::Refusal;
use crate::text::lines;

type Said = Result<Vec<Result<Judgement, Refusal>>, Refusal>;

fn said(corpus: &Corpus, name: &str) -> Said {
    judgements(&named(corpus, name))
}

/// The refusal of the whole text, if it has one: number and line.
fn whole(corpus: &Corpus, name: &str) -> Option<(u8, usize)> {
    let refusal = said(corpus, name).err()?;
    assert_eq!(refusal.offset, 0);
    Some((refusal.number, refusal.line))
}

/// The number in each report, 0 where a condition is judged.
fn numbers(corpus: &Corpus, name: &str) -> Vec<u8> {
    let judged = said(corpus, name).unwrap_or_else(|refusal| panic!("{name}: {refusal:?}"));
    let number =
        |judged: &Result<Judgement, Refusal>| judged.as_ref().err().map_or(0, |r| r.number);
    judged.iter().map(number).collect()
}

/// Those calls of a corpus that have to do with booklets, and some by chance.
fn calls(corpus: &Corpus) -> Vec<Call> {
    let first = corpus.names().position(|name| name == "1 conditions");
    let first = first.expect("the first case of a booklet") as u64;
    let last = corpus.names().count() as u64 + 400;
    (first..last).map(|number| corpus.call(number)).collect()
}

/// Each report is that of the ship and rows with its condition line alone, but
/// for the line number.
#[test]
fn each_condition_is_as_if_it_stood_alone() {
    let mut compared = 0;
    for call in calls(&Corpus::new(1, false)) {
        let Ok(judged) = judgements(&call) else {
            continue;
        };
        let lines = lines(&call.text, call.limit).expect("lines");
        let hull = lines.len() - judged.len();
        for (number, judged) in (hull..).zip(judged) {
            let mut text: Vec<u8> = lines[..hull].iter().flat_map(|bytes| line(bytes)).collect();
            text.extend(line(&lines[number]));
            let alone = judge_text(&text).map_err(|refusal| Refusal {
                line: if refusal.line == 0 { 0 } else { number + 1 },
                ..refusal
            });
            assert_eq!(judged, alone);
            compared += 1;
        }
    }
    assert!(compared > 1_000);
}

/// 9 is sent back exactly where the room is short, and then nothing is written;
/// else a report for each condition or one for the whole text, and the number
/// is the first that is not 0.
#[test]
fn what_is_sent_back_and_written() {
    let (mut short, mut whole, mut each) = (0, 0, 0);
    for call in calls(&Corpus::new(2, true)) {
        let said = judgements(&Call {
            room: usize::MAX,
            ..call.clone()
        });
        let condition_lines = call.text.split(|&c| c == b'\n');
        let condition_lines = condition_lines
            .filter(|line| line.starts_with(b"A3"))
            .count();
        let unasked = matches!(said, Err(Refusal { number: 1, .. })) || condition_lines > 24;
        let asked = if unasked {
            209
        } else {
            209 * condition_lines.max(1)
        };
        let answer = answer(&call);
        assert_eq!(answer.number == 9, call.room < asked);
        match said {
            _ if answer.number == 9 => {
                assert_eq!(answer.written, "");
                short += 1;
            }
            Err(refusal) => {
                assert_eq!((answer.number, answer.written.len()), (refusal.number, 209));
                whole += 1;
            }
            Ok(judged) => {
                assert_eq!(answer.written.len(), 209 * judged.len());
                let first = judged.iter().find_map(|judged| judged.as_ref().err());
                assert_eq!(answer.number, first.map_or(0, |refusal| refusal.number));
                each += 1;
            }
        }
    }
    assert!(
        short > 30 && whole > 150 && each > 150,
        "{short} {whole} {each}"
    );
}

#[test]
fn so_many_conditions() {
    for corpus in seeds() {
        for count in [1, 2, 23, 24] {
            assert_eq!(
                numbers(&corpus, &format!("{count} conditions")),
                vec![0; count]
            );
        }
        for count in [25, 26] {
            for faults in ["", " with faults"] {
                let name = format!("{count} conditions{faults}");
                assert_eq!(whole(&corpus, &name), Some((5, 28)));
            }
        }
        let faulty = numbers(&corpus, "24 conditions with faults");
        let start = [2, 0, 3, 4, 0, 5, 6, 0, 7, 8, 0, 2];
        assert_eq!((&faulty[..12], faulty.len()), (&start[..], 24));
        assert_eq!(numbers(&corpus, "24 conditions of one byte"), [2; 24]);
    }
}

/// The 25th condition line goes before all but 1 and the first 9.
#[test]
fn the_twenty_fifth() {
    for corpus in seeds() {
        for (name, refusal) in [
            ("25th condition of one byte", (5, 28)),
            ("25th condition sound behind 24 of one byte", (5, 28)),
            ("25 conditions, one as the first line", (5, 28)),
            ("24 conditions, one as the first line", (4, 1)),
            ("24 conditions, one behind one row", (4, 3)),
            ("25 conditions and nothing else", (5, 25)),
            ("24 conditions and nothing else", (2, 1)),
            ("25th condition misplaced behind 24", (5, 29)),
            ("25th condition behind Value of frame 0", (5, 28)),
            ("25th condition behind PastAll of frame 2", (5, 28)),
            ("25th condition behind a misplaced line 1", (5, 29)),
            ("25th condition behind a misplaced line 10", (5, 29)),
            ("no line before the 25th condition", (1, 5)),
            ("no line as the 25th condition", (1, 28)),
            ("no line behind the 25th condition", (1, 29)),
            ("25th condition unended", (1, 28)),
            ("25th condition over the limit", (1, 0)),
            ("24 short conditions, room 209", (9, 0)),
            ("24 short conditions, room 5015", (9, 0)),
            ("25 short conditions, room 208", (9, 0)),
            ("25 short conditions, room 209", (5, 28)),
        ] {
            assert_eq!(whole(&corpus, name), Some(refusal), "{name}");
        }
    }
}

#[test]
fn lines_out_of_their_place() {
    let places = [
        ("as the first line", 1, 0xA1),
        ("before the first row", 2, 0xA2),
        ("between the rows", 3, 0xA2),
        ("behind the rows", 4, 0xA2),
        ("between conditions", 5, 0xA3),
        ("behind all", 6, 0xA3),
    ];
    let tags = [0xA1, 0xA2, 0xA3, 0xA4, 0xC1, 0xC5, 0xC6, 0xD1, 0x00, 0xFF];
    for corpus in seeds() {
        for (place, line, allowed) in places {
            let first = [0xA2, 0xA3, 0xC1];
            let tags = if line == 1 { &first[..] } else { &tags[..] };
            let conditions = |tag: u8| line == 4 && tag == 0xA3;
            for &tag in tags
                .iter()
                .filter(|&&tag| tag != allowed && !conditions(tag))
            {
                for (shape, number) in [
                    ("one byte", 2),
                    ("two bytes", 2),
                    ("past its line", 2),
                    ("whole", 4),
                ] {
                    let name = format!("{tag:02X} {place}, {shape}");
                    assert_eq!(whole(&corpus, &name), Some((number, line)), "{name}");
                }
            }
        }
    }
}

/// A condition line in its place is for itself, and a row out of its place for
/// the whole text.
#[test]
fn conditions_and_rows_in_their_place_and_out_of_it() {
    for corpus in seeds() {
        for (shape, number) in [("one byte", 2), ("past its line", 2), ("whole", 0)] {
            let between = numbers(&corpus, &format!("A3 between conditions, {shape}"));
            assert_eq!(between, [0, number, 0]);
            let before = numbers(&corpus, &format!("A3 behind the rows, {shape}"));
            assert_eq!(before, [number, 0, 0]);
        }
        for (shape, number) in [("one byte", 2), ("two bytes", 2), ("whole", 4)] {
            let name = format!("41st row before two conditions, {shape}");
            assert_eq!(whole(&corpus, &name), Some((number, 42)));
        }
        let third = "a third row behind the first condition";
        assert_eq!(whole(&corpus, third), Some((4, 5)));
    }
}

#[test]
fn faults_inside_conditions() {
    for corpus in seeds() {
        for (turn, number) in NUMBERS.into_iter().enumerate() {
            for place in 0..3 {
                let mut expected = [0; 3];
                expected[place] = number;
                let name = format!("{number} in condition {} of 3", place + 1);
                assert_eq!(numbers(&corpus, &name), expected);
                assert_eq!(answer(&named(&corpus, &name)).number, number);
            }
            let [other, third] = [3, 5].map(|step| NUMBERS[(turn + step) % 7]);
            for (one, two) in [(1, 2), (1, 3), (2, 3)] {
                let mut expected = [0; 3];
                (expected[one - 1], expected[two - 1]) = (number, other);
                let name =
                    format!("{number} in condition {one} and {other} in condition {two} of 3");
                assert_eq!(numbers(&corpus, &name), expected);
                assert_eq!(answer(&named(&corpus, &name)).number, number);
            }
            let all = format!("{number}, {other} and {third} in the conditions");
            assert_eq!(numbers(&corpus, &all), [number, other, third]);
            let behind = format!("{all}, two sound behind");
            assert_eq!(numbers(&corpus, &behind), [number, other, third, 0, 0]);
        }
    }
}

/// What is for the whole text goes before a condition's fault.
#[test]
fn faults_of_the_whole_text() {
    for corpus in seeds() {
        for (name, refusal) in [
            ("an unended line behind a condition's 2", (1, 6)),
            (
                "a misplaced line of one byte behind a condition's 5",
                (2, 6),
            ),
            ("a misplaced frame behind a condition's 8", (4, 6)),
            (
                "a misplaced line and no line behind a condition's 2",
                (1, 7),
            ),
            ("two misplaced lines behind a condition's 3", (4, 6)),
            ("Value of frame 0 and a condition's 6", (6, 1)),
            ("BodyShort of frame 2 and a condition's 6", (3, 3)),
            ("25 conditions, number 1 with a 2", (5, 28)),
            ("no room behind a condition's 4", (9, 0)),
        ] {
            assert_eq!(whole(&corpus, name), Some(refusal), "{name}");
        }
    }
}

/// Each of the conditions is judged, and the second not as the first.
#[test]
fn conditions_that_differ() {
    let things = [
        "wind area",
        "arm",
        "block coefficient",
        "flooding angle",
        "deck edge",
        "criteria from the Code's",
        "criteria from timber's",
        "mass",
        "height",
    ];
    for corpus in seeds() {
        for thing in things {
            let name = format!("three conditions that differ in {thing}");
            let judged = said(&corpus, &name).expect("judged");
            assert!(judged.iter().all(Result::is_ok), "{name}");
            assert!(judged[0] != judged[1] && judged[1] != judged[2], "{name}");
        }
        for (name, expected) in [
            ("a condition, another, and the first again", &[0, 0, 0][..]),
            ("two halves of a mass in two conditions", &[7, 7]),
            ("no mass between two conditions", &[0, 7, 0]),
            ("four groups deep in each condition", &[0, 0]),
            ("five groups deep between four groups deep", &[0, 5, 0]),
            ("200 and 200 entries", &[0, 0]),
            ("201 and 200 entries", &[5, 0]),
            ("200 and 201 entries", &[0, 5]),
        ] {
            assert_eq!(numbers(&corpus, name), expected, "{name}");
        }
        let wet = said(&corpus, "free surfaces in the first condition only").expect("judged");
        assert!(wet[0] == wet[2] && wet[0] != wet[1]);
        for kept in 0..=3 {
            let name = format!("no condition, {kept} lines");
            assert_eq!(whole(&corpus, &name), Some((5, kept)));
        }
        assert_eq!(whole(&corpus, "no condition, 40 rows"), Some((5, 41)));
    }
}

#[test]
fn rooms_are_asked_for_by_condition_line() {
    let texts = [
        ("one condition", 1, 0),
        ("one condition with a fault", 1, 6),
        ("one condition off the rows", 1, 7),
        ("two conditions", 2, 0),
        ("three conditions, one with a fault", 3, 3),
        ("two conditions and no line", 2, 1),
        ("a wrong ship", 2, 6),
        ("a wrong row", 2, 3),
        ("a misplaced line", 2, 2),
        ("a misplaced condition", 2, 4),
        ("no condition", 0, 5),
        ("nothing", 0, 5),
    ];
    for corpus in seeds() {
        for (name, count, number) in texts {
            let sent = |room: usize| {
                let call = named(&corpus, &format!("{name} as room {room}"));
                assert_eq!(call.room, room);
                answer(&call).number
            };
            assert_eq!([0, 208].map(sent), [9, 9], "{name}");
            let asked = if number == 1 { 1 } else { count };
            if count > 1 {
                let short = if asked > 1 { 9 } else { number };
                assert_eq!([209, 209 * count - 1].map(sent), [short; 2], "{name}");
            }
            let enough = 209 * count.max(1);
            assert_eq!([enough, enough + 1].map(sent), [number; 2], "{name}");
        }
        let sent = |room: usize| answer(&named(&corpus, &format!("24 conditions, room {room}")));
        assert_eq!([0, 209, 4_999, 5_015].map(|room| sent(room).number), [9; 4]);
        for room in [5_017, 4_294_967_295] {
            assert_eq!(sent(room).written.len(), 5_016);
        }
    }
}

#[test]
fn limits_of_short_texts() {
    let corpus = Corpus::new(3, false);
    for (name, number, line) in [
        ("limit -1 beside the text", 1, 0),
        ("limit -1 beside a wrong text", 1, 0),
        ("limit +0 beside a wrong text", 1, 4),
        ("limit 0", 1, 0),
        ("limit 0 of nothing", 5, 0),
        ("limit 0 of one line end", 1, 0),
        ("limit 1 of one line end", 1, 1),
        ("over the limit, room 208", 9, 0),
        ("over the limit, room 209", 1, 0),
        ("180000 line ends", 1, 1),
        ("180000 characters, the last no line end", 1, 60_000),
    ] {
        assert_eq!(whole(&corpus, name), Some((number, line)), "{name}");
    }
    assert_eq!(numbers(&corpus, "limit +0 beside the text"), [0, 0]);
    for limit in [60_000_u32, 180_001, 200_000, 4_294_967_295] {
        assert_eq!(numbers(&corpus, &format!("limit {limit}")), [0]);
    }
}

/// Sound booklets of every length, and 1 beyond the limit.
#[test]
fn booklets_by_length() {
    let corpus = Corpus::new(3, false);
    for (total, limit, count) in [
        (59_999, 60_000, 8),
        (60_000, 60_000, 9),
        (60_001, 180_000, 8),
        (180_000, 180_000, 23),
        (180_000, 4_294_967_295, 23),
        (60_001, 60_000, 0),
        (180_000, 179_999, 0),
        (180_001, 180_000, 0),
        (180_001, 200_000, 0),
        (180_001, 4_294_967_295, 0),
    ] {
        let name = format!("booklet of {total} characters, limit {limit}");
        let call = named(&corpus, &name);
        assert_eq!((call.text.len(), call.limit), (total, limit));
        match count {
            0 => assert_eq!(whole(&corpus, &name), Some((1, 0))),
            _ => assert_eq!(numbers(&corpus, &name), vec![0; count]),
        }
    }
    for total in [12_000, 12_001] {
        let name = format!("booklet of {total} characters");
        assert_eq!(named(&corpus, &name).text.len(), total);
        assert!(numbers(&corpus, &name).iter().all(|&number| number == 0));
    }
}

#[test]
fn long_lines() {
    let corpus = Corpus::new(4, false);
    let many = "long lines in 59999 characters, limit 60000";
    assert_eq!(named(&corpus, many).text.len(), 59_999);
    assert_eq!(numbers(&corpus, many)[..7], [0, 5, 2, 2, 3, 3, 0]);
    let digits = "a line of 60000 digits in 180000 characters";
    let text = named(&corpus, digits).text;
    assert_eq!(text.len(), 180_000);
    assert!(text.split(|&c| c == b'\n').any(|line| line.len() == 60_000));
    let said = numbers(&corpus, digits);
    assert!(said[0] == 5 && said[1..].iter().all(|&number| number == 0));
    for (shape, of_ship, of_line) in [("Right", 3, 4), ("Past", 2, 2), ("Short", 3, 4)] {
        for size in ["4099 bytes", "4100 bytes", "60000 digits"] {
            for (name, line, number) in [
                ("ship", 1, of_ship),
                ("row", 3, of_ship),
                ("misplaced line", 5, of_line),
            ] {
                let name = format!("{name} of {size}, {shape}");
                assert_eq!(whole(&corpus, &name), Some((number, line)), "{name}");
            }
        }
    }
    for (bytes, said) in [(4_099, [0, 2, 3]), (4_100, [5, 2, 3])] {
        let names =
            ["Right", "Past", "Short"].map(|shape| format!("condition of {bytes} bytes, {shape}"));
        assert_eq!(names.map(|name| numbers(&corpus, &name)[0]), said);
    }
}

/// Texts by chance: a good part of them booklets, all kinds of answers to
/// booklets, and now and then another limit and another room.
#[test]
fn chance_draws_booklets() {
    for small in [true, false] {
        let corpus = Corpus::new(5, small);
        let first = corpus.names().count() as u64;
        let calls: Vec<Call> = (first..first + 600)
            .map(|number| corpus.call(number))
            .collect();
        let count = |holds: &dyn Fn(&Call) -> bool| calls.iter().filter(|call| holds(call)).count();
        let reports = |call: &Call| judgements(call).map_or(0, |judged| judged.len());
        assert!(count(&|call| reports(call) > 1) > 150);
        assert!(count(&|call| reports(call) == 1) > 100);
        assert!(count(&|call| call.limit != 180_000) > 40);
        assert!(count(&|call| call.room != 5_016) > 40);
        let mixed = |call: &Call| {
            let judged = judgements(call).unwrap_or_default();
            judged.iter().any(Result::is_ok) && judged.iter().any(Result::is_err)
        };
        assert!(count(&mixed) > 20);
        let refused =
            |number: u8| count(&|call| judgements(call).is_err_and(|r| r.number == number));
        assert!([1, 2, 4, 9].into_iter().all(|number| refused(number) > 5));
        assert_eq!(count(&|call| reports(call) == 24) > 0, !small);
    }
}
