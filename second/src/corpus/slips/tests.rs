//! The cases about slips are what their names say, by the numbers of the
//! request page and the decisions for it; no other case has a slip but those
//! that cannot do without; and chance has them in a good part.

use crate::book::Row;
use crate::corpus::booklets::text_of;
use crate::corpus::mend::{mend, GREATEST, OPEN};
use crate::corpus::tests::{judged, named, refused, seeds};
use crate::corpus::Corpus;
use crate::instrument::{answer, judgements, read_text, Call};
use crate::layout::{values, A2};
use crate::loading::laden;
use crate::refusal::Refusal;
use crate::text::lines;

use super::{exchanged, fold, FIRST_KN};

/// The bends of a row, from 5 degrees to 55.
fn bends(kn: &[i128]) -> Vec<i128> {
    kn.windows(3).map(|kn| 2 * kn[1] - kn[0] - kn[2]).collect()
}

fn row(kn: &[i128]) -> Row {
    Row {
        displacement: 100_000,
        draught: 500,
        km: 0,
        kn: kn.to_vec(),
    }
}

/// The numbers of the lines that are sound rows but for a slip.
fn slips(text: &[u8]) -> Vec<usize> {
    let lines = lines(text, usize::MAX).unwrap_or_default();
    let slip = |bytes: &[u8]| match bytes {
        [A2, 0, 34, body @ ..] if body.len() == 34 => {
            values(A2, body).is_some_and(|values| !row(&values[FIRST_KN..]).smooth())
        }
        _ => false,
    };
    let numbered = (1..).zip(&lines);
    numbered
        .filter_map(|(number, bytes)| slip(bytes).then_some(number))
        .collect()
}

/// The refusal of the whole text, if it has one: number and line.
fn whole(corpus: &Corpus, name: &str) -> Option<(u8, usize)> {
    let refusal = judgements(&named(corpus, name)).err()?;
    assert_eq!(refusal.offset, 0);
    Some((refusal.number, refusal.line))
}

#[test]
fn a_fold_bends_at_its_station_alone() {
    let straight = std::array::from_fn::<i128, 13, _>(|at| 400 * at as i128);
    for station in 1..=11 {
        for bend in [400, 401, -401, 900, -700, 0, 1] {
            let mut kn = straight;
            fold(&mut kn, station, bend);
            assert!(kn[0] == 0 && kn.iter().all(|kn| (0..=30_000).contains(kn)));
            let mut expected = vec![0; 11];
            expected[station - 1] = bend;
            assert_eq!(bends(&kn), expected);
        }
    }
    assert_eq!([7, 12, 305, 4_567].map(exchanged), [7, 21, 35, 5_467]);
}

/// The greatest of all smooth rows bends by 400 everywhere. No row can have
/// 30,000 before 60 degrees.
#[test]
fn the_greatest_smooth_row() {
    assert_eq!(bends(&GREATEST), [400; 11]);
    for station in 1..13 {
        for (beyond, found) in [(0, true), (1, false)] {
            let value = GREATEST[station] - 200 + 201 * beyond;
            let mut bounds = OPEN;
            bounds[station] = (value, value);
            let mut wish = row(&GREATEST);
            let within = mend(&mut wish, &bounds) && value <= 30_000;
            assert_eq!(within, found, "{value} at station {station}");
        }
    }
}

/// A smooth row within its bounds stays as it is; another is brought there, or
/// stays as it is too.
#[test]
fn rows_are_mended() {
    let arch = row(&std::array::from_fn::<i128, 13, _>(|at| {
        (100 * at * (12 - at)) as i128
    }));
    let mut same = arch.clone();
    assert!(mend(&mut same, &OPEN) && same == arch);
    let mut high = arch.clone();
    high.kn[4] += 2_000;
    assert!(mend(&mut high, &OPEN) && high.smooth());
    assert!(high.kn[4] > arch.kn[4] + 300);
    let mut bounds = OPEN;
    bounds[1] = (30_000, 30_000);
    let mut never = arch.clone();
    assert!(!mend(&mut never, &bounds) && never == arch);
}

#[test]
fn bends_of_400_and_401_at_every_station() {
    for corpus in seeds() {
        for degrees in (5..=55).step_by(5) {
            for (bend, refused) in [(400, false), (401, true), (-400, false), (-401, true)] {
                let name = format!("bend of {bend} at {degrees} degrees");
                let said = whole(&corpus, &name);
                assert_eq!(said.is_some(), refused, "{name}");
                if let Some((number, line)) = said {
                    assert_eq!((number, [2, 3].contains(&line)), (10, true));
                    assert_eq!(slips(&named(&corpus, &name).text), [line]);
                } else {
                    judged(&corpus, &name);
                }
            }
        }
    }
}

/// Rows as a whole, with the number that is sent back.
const ROWS: [(&str, u8); 46] = [
    ("bends of 401 at 10 and -401 at 50 degrees", 10),
    ("bends of -401 at 10 and 401 at 50 degrees", 10),
    ("bends of 400 at 10 and 401 at 50 degrees", 10),
    ("bends of -401 at 10 and -400 at 50 degrees", 10),
    ("bends of 400 at 10 and -400 at 50 degrees", 0),
    ("bends of 401 at 25 and -401 at 30 degrees", 10),
    ("bends of -400 at 25 and 400 at 30 degrees", 0),
    ("bends of 401 at 5 and 401 at 55 degrees", 10),
    ("a straight row, 1 a station", 0),
    ("a straight row, 401 a station", 0),
    ("a straight row, 2500 a station", 0),
    ("every second value 200 higher, odd stations true", 0),
    ("every second value 201 higher, odd stations true", 10),
    ("every second value 200 higher, odd stations false", 0),
    ("every second value 201 higher, odd stations false", 10),
    ("every second value 200 higher, but at 5", 10),
    ("every second value 200 higher, but at 30", 10),
    ("every second value 200 higher, but at 55", 10),
    ("the steepest row", 0),
    ("the steepest row, +1 at 5", 10),
    ("the steepest row, +1 at 55", 10),
    ("the steepest row, -1 at 60", 10),
    ("the hollowest row", 0),
    ("the hollowest row, -1 at 30", 10),
    ("the hollowest row, +1 at 60", 10),
    ("the hollowest row, -1 at 60", 0),
    ("a straight row but for +400 at 60", 0),
    ("a straight row but for +401 at 60", 10),
    ("a straight row but for -400 at 60", 0),
    ("a straight row but for -401 at 60", 10),
    ("a straight row but for +200 at 5", 0),
    ("a straight row but for +201 at 5", 10),
    ("a straight row but for -200 at 5", 0),
    ("a straight row but for -201 at 5", 10),
    ("a row that ends at 0", 0),
    ("a row that begins flat and ends steeply", 0),
    ("all values 30,000 but the first", 10),
    ("30,000 at 5, all others 0", 10),
    ("0 at 5, all others 30,000", 10),
    ("30,000 at 55, all others 0", 10),
    ("0 at 55, all others 30,000", 10),
    ("30,000 at 60, all others 0", 10),
    ("0 at 60, all others 30,000", 10),
    ("0 and 30,000 in turn, odd stations true", 10),
    ("0 and 30,000 in turn, odd stations false", 10),
    ("bend of 400 in both rows, one more between them as C6", 0),
];

#[test]
fn rows_of_all_shapes() {
    for corpus in seeds() {
        for (name, number) in ROWS {
            let call = named(&corpus, name);
            assert_eq!(answer(&call).number, number, "{name}");
            assert_eq!(slips(&call.text).is_empty(), number == 0, "{name}");
        }
        for degrees in (5..=60).step_by(5) {
            let name = format!("a digit missing at {degrees} degrees");
            assert_eq!(whole(&corpus, &name).map(|place| place.0), Some(10));
        }
        for bend in [400_i128, -400, 401, -401] {
            for tag in ["C1", "C6"] {
                let name = format!("bend of {bend} at 30 degrees in both rows as {tag}");
                let said = whole(&corpus, &name);
                assert_eq!(said, (bend.abs() > 400).then_some((10, 2)));
            }
        }
    }
}

/// Rounded down between two rows that bend by 400, the values bend by 401, and
/// the text is judged.
#[test]
fn what_lies_between_two_rows_is_not_tested() {
    for corpus in seeds() {
        for bend in [400_i128, -400] {
            for tag in ["C1", "C6"] {
                let name = format!("bend of {bend} in both rows, one more between them as {tag}");
                let document = read_text(&named(&corpus, &name).text).expect("sound");
                let laden = laden(&document).expect("between the rows");
                assert_eq!(bends(&laden.kn)[5], bend + bend.signum());
                judged(&corpus, &name);
            }
        }
        for (row, mass) in [(5, 1), (1, 5), (3, 1), (3, 5)] {
            let name = format!("slip in row {row} of 5, the mass on row {mass}");
            assert_eq!(whole(&corpus, &name), Some((10, row + 1)));
        }
        for (first, second, kg) in [(3, 5, 40_000), (5, 7, 37_500)] {
            for tag in ["C1", "C6"] {
                let name =
                    format!("equal levers at stations {first} and {second}, KG {kg} as {tag}");
                let judged = judged(&corpus, &name);
                assert_eq!(
                    (judged.figures[1], judged.figures[7]),
                    (10 * kg, 50 * first)
                );
            }
        }
    }
}

/// Number and line of a text with a slip and something else.
const ORDER: [(&str, (u8, usize)); 56] = [
    ("slip and PastAll in row 1", (2, 2)),
    ("slip and Tag in row 1", (4, 2)),
    ("slip and BodyShort in row 1", (3, 2)),
    ("slip and Value in row 1", (6, 2)),
    ("slip and PastParent in row 2", (2, 3)),
    ("slip and Cut(1) in row 2", (2, 3)),
    ("slip and Tag in row 2", (4, 3)),
    ("slip and OneShort in row 2", (3, 3)),
    ("slip and BodyLong in row 2", (3, 3)),
    ("slip and Value in row 2", (6, 3)),
    ("slip in row 1, row 2 rises by -1", (10, 2)),
    ("slip in row 1, row 2 rises by 0", (10, 2)),
    ("slip in row 2, row 2 rises by -1", (6, 3)),
    ("slip in row 2, row 2 rises by 0", (6, 3)),
    ("slip in row 2, row 2 rises by 1", (10, 3)),
    ("slip in row 1 of 3", (10, 2)),
    ("slip in row 3 of 3", (10, 4)),
    ("slip in row 1 and 2 of 3", (10, 2)),
    ("slip in row 2 and 3 of 3", (10, 3)),
    ("slip in row 1 and 3 of 3", (10, 2)),
    ("slip in row 40 of 40", (10, 41)),
    ("slip in row 20 of 40", (10, 21)),
    ("slip in row 41 of 41", (4, 42)),
    ("slip in row 40 of 41", (10, 41)),
    ("slip in row 41 of 41, past its line", (2, 42)),
    ("slip in row 1 and a misplaced line 1, of one byte", (2, 1)),
    ("slip in row 1 and a misplaced line 3, whole", (10, 2)),
    ("slip in row 2 and a misplaced line 3, whole", (4, 3)),
    ("slip in row 2 and a misplaced line 4, of one byte", (10, 3)),
    ("slip in row 2 and a misplaced line 6, whole", (10, 3)),
    ("slip in row 1 and an A3 between the rows, empty", (10, 2)),
    ("slip in row 2 and an A3 between the rows, empty", (4, 3)),
    (
        "slip in row 2 and an A3 between the rows, of one byte",
        (2, 3),
    ),
    ("slip in row 1, 2 lines and no condition", (10, 2)),
    ("slip in row 2, 3 lines and no condition", (10, 3)),
    ("slip in row 1 and 24 condition lines", (10, 2)),
    ("slip in row 2 and 24 condition lines", (10, 3)),
    ("slip in row 1 and 25 condition lines", (5, 28)),
    ("slip in row 2 and 26 condition lines", (5, 28)),
    ("slip and 25 condition lines, room 209", (5, 28)),
    ("slip in row 1 and a wrong ship's line", (1, 1)),
    ("slip in row 1 and an odd digit in its line", (1, 2)),
    ("slip in row 1 and a wrong character in its line", (1, 2)),
    ("slip in row 1 and an empty line behind the rows", (1, 4)),
    ("slip in row 1 and a wrong condition line", (1, 4)),
    ("slip in row 1 and an odd line behind all", (1, 5)),
    ("slip and an unended line", (1, 4)),
    ("slip and limit -1", (1, 0)),
    ("slip and limit +0", (10, 3)),
    ("slip in row 1 as C1", (10, 2)),
    ("slip in row 1 as C6", (10, 2)),
    ("slip in row 2 as C6", (10, 3)),
    ("slip in row 1 and no ship", (4, 1)),
    ("slip in row 1 behind a whole A3", (4, 2)),
    ("a row with a slip before the ship", (4, 1)),
    ("a row with a slip behind the first condition", (4, 5)),
];

#[test]
fn where_10_stands() {
    for corpus in seeds() {
        for (name, place) in ORDER {
            assert_eq!(whole(&corpus, name), Some(place), "{name}");
        }
        for (fault, number) in [
            ("PastAll", 2),
            ("Cut(1)", 2),
            ("Tag", 4),
            ("BodyShort", 3),
            ("Value", 6),
        ] {
            for (frame, slip, place) in [
                (0, 1, (number, 1)),
                (0, 2, (number, 1)),
                (1, 2, (number, 2)),
                (2, 1, (10, 2)),
            ] {
                let name = format!("{fault} of frame {frame} and a slip in row {slip}");
                assert_eq!(whole(&corpus, &name), Some(place), "{name}");
            }
        }
        for field in [
            "0 at 99999",
            "1 at 499",
            "2 at 60001",
            "3 at 1",
            "15 at 30001",
        ] {
            let name = format!("slip and field {field} in one row");
            assert_eq!(whole(&corpus, &name).map(|place| place.0), Some(6));
        }
        for number in 2..=8 {
            let name = format!("slip and a condition's {number}");
            assert_eq!(whole(&corpus, &name).map(|place| place.0), Some(10));
        }
    }
}

/// Texts with a line whose tag is not due, and with a slip in a row that is
/// whole and within its limits: the same line, or the one behind an A3. Without
/// the line that is not due nothing refuses the text as a whole but the slip
/// behind the A3.
#[test]
fn slips_where_a_tag_is_not_due() {
    for corpus in seeds() {
        for (name, not_due, slip, without) in [
            ("slip in row 41 of 41", 42, 42, None),
            ("slip in row 1 behind a whole A3", 2, 3, Some((10, 2))),
            ("a row with a slip before the ship", 1, 1, None),
            ("a row with a slip behind the first condition", 5, 5, None),
        ] {
            let text = named(&corpus, name).text;
            assert_eq!(slips(&text), [slip], "{name}");
            let mut kept = lines(&text, usize::MAX).expect("lines");
            kept.remove(not_due - 1);
            let said = judgements(&text_of(&kept).into()).err();
            let place = said.map(|refusal| (refusal.number, refusal.line));
            assert_eq!(place, without, "{name}");
        }
        let text = named(&corpus, "slip in row 1 and no ship").text;
        assert_eq!(slips(&text), [1]);
    }
}

/// One report for the whole, and none with either 9.
#[test]
fn slips_in_booklets() {
    for corpus in seeds() {
        for count in [2, 3, 24] {
            let answer = answer(&named(&corpus, &format!("slip in a booklet of {count}")));
            assert_eq!((answer.number, answer.written.len()), (10, 209));
            assert!(answer.written.starts_with("D100650A000"));
            assert!(answer.shown().starts_with("10\nD1"));
        }
        for count in 0..=3 {
            let sent = |room: usize| {
                let call = named(
                    &corpus,
                    &format!("slip in a booklet of {count} as room {room}"),
                );
                assert_eq!(call.room, room);
                answer(&call).number
            };
            assert_eq!([0, 208].map(sent), [9, 9]);
            assert_eq!(sent(209), if count > 1 { 9 } else { 10 });
            if count > 1 {
                assert_eq!([209 * count - 1, 209 * count].map(sent), [9, 10]);
            }
        }
    }
}

/// Of the cases before those about slips only rows with 30,000 before 60
/// degrees have one.
#[test]
fn other_cases_have_no_slips() {
    for corpus in seeds() {
        let first = corpus
            .names()
            .position(|name| name == "bend of 400 at 5 degrees");
        let before = (0..first.expect("the first case about slips") as u64).zip(corpus.names());
        for (number, name) in before {
            let full = (4..=14).any(|field| name == format!("bound A2 field {field} value 30000"));
            let call = corpus.call(number);
            assert_eq!(!slips(&call.text).is_empty(), full, "{name}");
            let ten = judgements(&call).is_err_and(|refusal| refusal.number == 10);
            assert_eq!(ten, full, "{name}");
        }
        assert_eq!(refused(&corpus, "bound A2 field 15 value 30000"), None);
        for field in 4..=15 {
            let [none, beyond] = [0, 30_001].map(|value| {
                let name = format!("bound A2 field {field} value {value}");
                refused(&corpus, &name).map(|refusal| refusal.number)
            });
            assert_eq!((none, beyond), (None, Some(6)));
        }
    }
}

/// A small corpus goes without two of the cases about slips.
#[test]
fn slips_in_a_small_corpus() {
    let [kept, all] = [true, false].map(|small| -> Vec<String> {
        let corpus = Corpus::new(1, small);
        let names = corpus.names().map(str::to_string);
        names
            .skip_while(|name| name != "bend of 400 at 5 degrees")
            .collect()
    });
    let left_out = all.iter().filter(|name| !kept.contains(name));
    assert!(left_out.eq([
        "slip in row 40 of 41",
        "slip in row 41 of 41, past its line"
    ]));
}

/// One text in fourteen or more has a slip: refused for it, and for what goes
/// before it.
#[test]
fn chance_makes_slips() {
    for small in [true, false] {
        let corpus = Corpus::new(8, small);
        let first = corpus.names().count() as u64;
        let calls: Vec<Call> = (first..first + 2_400)
            .map(|number| corpus.call(number))
            .filter(|call| !slips(&call.text).is_empty())
            .collect();
        assert!((171..600).contains(&calls.len()), "{}", calls.len());
        let said: Vec<Option<Refusal>> = calls.iter().map(|call| judgements(call).err()).collect();
        let count = |number: u8| {
            let refused = said.iter().flatten();
            refused.filter(|refusal| refusal.number == number).count()
        };
        assert!(count(10) > 130, "{}", count(10));
        let others = [2, 3, 4, 6, 9].map(count);
        assert!(others.iter().all(|&count| count > 2), "{others:?}");
        let places = calls.iter().zip(&said).filter_map(|(call, said)| {
            let refusal = said.filter(|refusal| refusal.number == 10)?;
            assert_eq!(refusal.line, slips(&call.text)[0]);
            Some(refusal.line)
        });
        assert!(places.filter(|&line| line > 3).count() > 10);
    }
}
