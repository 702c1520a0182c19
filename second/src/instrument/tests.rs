//! Request 3 on the bench sheet's ship: the order of the refusals, rooms and
//! limits, the number that is sent back, and the line numbers of the reports.

use super::{answer, Call, MOST_ROOM};
use crate::bench::{CONDITION, REPORT, ROW_1, ROW_2, SHIP};

/// P1's condition by timber's criteria, too light by a kilogram, at the second
/// row's draught with KG too high, and with faults 2, 3, 4, 5 and 6.
const TIMBER: &str = "A30018C6000C000009C40FA002BC01F400C8C2000600155CC00FA0\n";
const LIGHT: &str = "A30018C1000C000009C40FA002BC01F400C8C2000600155CBF0FA0\n";
const HIGH: &str = "A30029C1000C000009C40FA002BC01F400C8C2000600155CC0EA60\
                    C3000E00000000000001F407D0000186A0\n";
const TWO: &str = "A30018C1000C000009C40FA002BC01F400C8C2000700155CC00FA0\n";
const THREE: &str = "A30018C1000C000009C40FA002BC01F400C8C2000500155CC00FA0\n";
const FOUR: &str = "A30018C1000C000009C40FA002BC01F400C8D1000600155CC00FA0\n";
const FIVE: &str = "A3000FC1000C000009C40FA002BC01F400C8\n";
const SIX: &str = "A30018C1000C000009C40FA002BC01F40000C2000600155CC00FA0\n";

/// Each condition with its refusal, if it has one, and the offset.
const CONDITIONS: [(&str, (u8, usize)); 9] = [
    (CONDITION, (0, 0)),
    (TIMBER, (0, 0)),
    (LIGHT, (7, 0)),
    (HIGH, (8, 0)),
    (TWO, (2, 18)),
    (THREE, (3, 18)),
    (FOUR, (4, 18)),
    (FIVE, (5, 0)),
    (SIX, (6, 3)),
];

/// P1's ship and rows with these lines behind them.
fn text(lines: &[&str]) -> String {
    [SHIP, ROW_1, ROW_2, &lines.concat()].concat()
}

fn call(text: &str) -> Call {
    Call::from(text.as_bytes().to_vec())
}

/// The number sent back, and number, line and offset of each report.
fn said(call: &Call) -> (u8, Vec<(u8, usize, usize)>) {
    let answer = answer(call);
    let place = |line: &str| {
        assert_eq!(line.len(), 208);
        let number = |at: usize, end: usize| usize::from_str_radix(&line[at..end], 16);
        let [line_number, offset] = [number(8, 12), number(12, 16)].map(Result::unwrap);
        (number(6, 8).expect("digits") as u8, line_number, offset)
    };
    (answer.number, answer.written.lines().map(place).collect())
}

fn assert_whole(text: &str, refusal: (u8, usize, usize)) {
    assert_eq!(said(&call(text)), (refusal.0, vec![refusal]), "{text}");
}

/// What a condition's report says of its place: its line where it has one.
fn at_line(line: usize, (number, offset): (u8, usize)) -> (u8, usize, usize) {
    let named = (2..=6).contains(&number);
    (number, if named { line } else { 0 }, offset)
}

#[test]
fn each_condition_is_judged_as_if_it_stood_alone() {
    for (first, one) in CONDITIONS {
        for (second, other) in CONDITIONS {
            let lines = [first, CONDITION, second];
            let (number, places) = said(&call(&text(&lines)));
            let expected = [at_line(4, one), (0, 0, 0), at_line(6, other)];
            assert_eq!(places, expected);
            assert_eq!(number, if one.0 == 0 { other.0 } else { one.0 });
            let alone = lines.map(|line| answer(&call(&text(&[line]))).written);
            let written = answer(&call(&text(&lines))).written;
            let longer = alone[2].replacen("0004", "0006", usize::from(at_line(6, other).1 > 0));
            assert_eq!(written, [alone[0].as_str(), REPORT, &longer].concat());
        }
    }
}

/// 24 conditions in every mixture of nine, each where its line says.
#[test]
fn twenty_four_conditions() {
    let mixed: Vec<(&str, (u8, usize))> = CONDITIONS.into_iter().cycle().take(24).collect();
    let lines: Vec<&str> = mixed.iter().map(|(line, _)| *line).collect();
    let places = (4..)
        .zip(&mixed)
        .map(|(line, (_, place))| at_line(line, *place));
    assert_eq!(said(&call(&text(&lines))), (7, places.collect()));
    assert_eq!(
        answer(&call(&text(&[CONDITION; 24]))).written,
        REPORT.repeat(24)
    );
}

/// The 25th condition line, whatever it holds, before all faults but 1.
#[test]
fn the_twenty_fifth_condition_line() {
    for last in [CONDITION, TWO, "A3\n", "A3FFFF\n"] {
        let mut lines = vec![CONDITION; 24];
        lines.push(last);
        assert_whole(&text(&lines), (5, 28, 0));
        lines.push(CONDITION);
        assert_whole(&text(&lines), (5, 28, 0));
        lines[3] = TWO;
        lines.insert(5, "C1\n");
        assert_whole(&text(&lines), (5, 29, 0));
        lines.push("0\n");
        assert_whole(&text(&lines), (1, 31, 0));
    }
    assert_whole(&"A3\n".repeat(25), (5, 25, 0));
    assert_whole(&"A3\n".repeat(24), (2, 1, 0));
    assert_whole(&format!("{}{SHIP}", "A30000\n".repeat(25)), (5, 25, 0));
}

/// A line where none like it may stand, with one byte, two bytes, a length
/// past the line, and none of these.
#[test]
fn misplaced_lines_are_for_the_whole_text() {
    let tags = [
        "A1", "A2", "A3", "A4", "C1", "C2", "C3", "C4", "C5", "C6", "D1", "00", "FF",
    ];
    for tag in tags {
        for (rest, number) in [("", 2), ("00", 2), ("0001", 2), ("0000", 4), ("000000", 4)] {
            let odd = format!("{tag}{rest}\n");
            if tag != "A1" {
                assert_whole(
                    &[&odd, SHIP, ROW_1, ROW_2, CONDITION].concat(),
                    (number, 1, 0),
                );
            }
            if tag != "A2" {
                let before = [SHIP, &odd, ROW_1, ROW_2, TWO].concat();
                assert_whole(&before, (number, 2, 0));
                let between = [SHIP, ROW_1, &odd, ROW_2, TWO].concat();
                assert_whole(&between, (number, 3, 0));
            }
            if tag != "A3" {
                assert_whole(&text(&[CONDITION, &odd, CONDITION]), (number, 5, 0));
                assert_whole(&text(&[TWO, TIMBER, &odd]), (number, 6, 0));
            }
        }
    }
}

/// Where an A3 may stand its own fault 2 at offset 0 is for it alone; before
/// the second row the same line is for the whole text.
#[test]
fn a_condition_line_of_one_byte() {
    for odd in ["A3\n", "A300\n", "A30001\n"] {
        let (number, places) = said(&call(&text(&[odd, CONDITION, odd])));
        assert_eq!(number, 2);
        assert_eq!(places, [(2, 4, 0), (0, 0, 0), (2, 6, 0)]);
        assert_whole(&[SHIP, ROW_1, odd, ROW_2, CONDITION].concat(), (2, 3, 0));
    }
    assert_whole(&[SHIP, ROW_1, CONDITION].concat(), (4, 3, 0));
}

#[test]
fn the_first_fault_of_the_whole_text_counts() {
    let low = ROW_2.replace("00186A00", "00155CC0");
    assert_whole(&[SHIP, ROW_1, &low, TWO, "C1\n"].concat(), (6, 3, 0));
    let sharp = SHIP.replace("00000000000\n", "00000000002\n");
    assert_whole(&[&sharp, ROW_1, ROW_2, TWO].concat(), (6, 1, 0));
    assert_whole(&text(&[TWO, SHIP, "C1\n"]), (4, 5, 0));
    assert_whole(&text(&[TWO, SHIP, "G1\n"]), (1, 6, 0));
    for kept in 0..4 {
        let lines = [SHIP, ROW_1, ROW_2][..kept.min(3)].concat();
        assert_whole(&lines, (5, kept.min(3), 0));
    }
    let mut rows = String::from(SHIP);
    for mass in 1_400_000..1_400_040 {
        rows.push_str(&ROW_1.replace("00155CC0", &format!("{mass:08X}")));
    }
    assert_eq!(said(&call(&format!("{rows}{CONDITION}"))).0, 0);
    assert_whole(&format!("{rows}{ROW_2}{TWO}"), (4, 42, 0));
}

/// With a room one short of what is asked for nothing is written.
#[test]
fn rooms() {
    let asked = |text: &str| {
        let mut call = call(text);
        let enough = (0..=MOST_ROOM + 1).find(|&room| {
            call.room = room;
            let answer = answer(&call);
            assert_eq!(answer.number == 9, answer.written.is_empty());
            answer.number != 9
        });
        call.room = u32::MAX as usize;
        assert_ne!(answer(&call).number, 9);
        enough
    };
    for count in 1..=24 {
        assert_eq!(asked(&text(&vec![CONDITION; count])), Some(209 * count));
    }
    let three = [TWO, CONDITION, FIVE];
    assert_eq!(asked(&text(&three)), Some(627));
    for behind in ["C1\n", SHIP] {
        assert_eq!(asked(&text(&[&three[..], &[behind]].concat())), Some(627));
    }
    let bad_ship = text(&three).replacen("A1000D", "A1000C", 1);
    assert_eq!(asked(&bad_ship), Some(627));
    assert_eq!(asked(&"A3\n".repeat(7)), Some(1_463));
    assert_eq!(asked(&text(&vec![CONDITION; 25])), Some(209));
    assert_eq!(asked(&(text(&three) + "0")), Some(209));
    assert_eq!(asked(""), Some(209));
    assert_eq!(asked(&text(&[])), Some(209));
}

/// The limit goes behind the first 9 and before all else.
#[test]
fn limits() {
    let lines = text(&[TWO, CONDITION]);
    for (limit, room, number) in [
        (lines.len(), 418, 2),
        (lines.len(), 417, 9),
        (lines.len() - 1, 417, 1),
        (lines.len() - 1, 208, 9),
        (0, 209, 1),
        (usize::MAX, 418, 2),
    ] {
        let call = Call {
            text: lines.clone().into_bytes(),
            limit,
            room,
        };
        assert_eq!(said(&call).0, number, "limit {limit}, room {room}");
    }
    let nothing = Call {
        limit: 0,
        ..call("")
    };
    assert_eq!(said(&nothing), (5, vec![(5, 0, 0)]));
}

/// The greatest line and the greatest offset that a report can name.
#[test]
fn the_greatest_places() {
    let lines = [text(&[]), "A3\n".repeat(59_939)].concat();
    assert_eq!(lines.len(), 180_000);
    assert_whole(&lines, (5, 28, 0));
    let short = ["A1\n".repeat(59_999), "0\n".to_string()].concat();
    assert_whole(&short, (1, 60_000, 0));
    assert_whole(&["A1\n".repeat(60_000)].concat(), (2, 1, 0));
    let tank = "C3000E0000000000000000000000000000";
    let deep = format!("C4001AC40017C40014C40011{tank}").repeat(140);
    let weather = "C1000C000009C40FA002BC01F400C8";
    let condition = format!("A31000{weather}{deep}C40011{tank}C3\n");
    assert_eq!(said(&call(&text(&[&condition]))).1, [(2, 4, 4_098)]);
}

#[test]
fn the_shown_answer_is_a_number_and_the_reports() {
    let mut call = call(&text(&[TWO, CONDITION]));
    let shown = answer(&call).shown();
    let lines: Vec<&str> = shown.split_inclusive('\n').collect();
    assert_eq!((lines[0], lines[2], lines.len()), ("2\n", REPORT, 3));
    assert!(lines[1].starts_with("D100650200040012030303030303030300"));
    call.room = 417;
    assert_eq!(answer(&call).shown(), "9\n");
}

/// P1's first row, or its second, with its KN at 30 degrees raised so that it
/// bends by 400 or by 401. P1's own three values there are 1,930, 2,300 and
/// 2,594: 76 up.
fn bent(row: &str, bend: i128) -> String {
    let raised = 2_300 + (bend - 76 + 1) / 2;
    let behind = 2_594 + (bend - 76) % 2;
    row.replace("08FC0A22", &format!("{raised:04X}{behind:04X}"))
}

/// 10 at each row, at its line and offset 0, in decimal in the answer.
#[test]
fn a_slip_in_a_row() {
    let sound = [SHIP, &bent(ROW_1, 400), &bent(ROW_2, 400), CONDITION].concat();
    assert_eq!(said(&call(&sound)).0, 0);
    let first = [SHIP, &bent(ROW_1, 401), ROW_2, CONDITION].concat();
    assert_whole(&first, (10, 2, 0));
    let second = [SHIP, ROW_1, &bent(ROW_2, 401), CONDITION, TWO].concat();
    assert_whole(&second, (10, 3, 0));
    let shown = answer(&call(&second)).shown();
    let start = format!(
        "10\nD100650A00030000{}{}\n",
        "03".repeat(8),
        "0".repeat(176)
    );
    assert_eq!(shown, start);
}

/// At a row 2, 4, 3, 6, a W that does not rise too, and then 10; then the
/// lines behind it.
#[test]
fn where_10_stands_in_the_order() {
    let slip = bent(ROW_2, 401);
    let fixed = |row: &str| [SHIP, ROW_1, row, TWO, "C1\n"].concat();
    assert_whole(&fixed(&slip), (10, 3, 0));
    for (old, new, number) in [
        ("A20022", "A20023", 2),
        ("A20022", "A10022", 4),
        ("A20022", "A20021", 3),
        ("186A001130", "186A000001", 6),
        ("00186A00", "00155CC0", 6),
    ] {
        assert_whole(&fixed(&slip.replacen(old, new, 1)), (number, 3, 0));
    }
    let low = ROW_2.replace("00186A00", "00155CC0");
    let next = [SHIP, ROW_1, &slip, &low, CONDITION].concat();
    assert_whole(&next, (10, 3, 0));
    let before = [SHIP, &bent(ROW_1, 401), &low, CONDITION].concat();
    assert_whole(&before, (10, 2, 0));
    let ship = SHIP.replace("A1000D", "A1000C");
    assert_whole(&[&ship, ROW_1, &slip, CONDITION].concat(), (3, 1, 0));
    assert_whole(&(fixed(&slip) + "G\n"), (1, 6, 0));
    assert_whole(&(fixed(&slip) + &"A3\n".repeat(24)), (5, 29, 0));
    assert_whole(&[SHIP, ROW_1, &slip].concat(), (10, 3, 0));
}

/// Neither 9 is given way to.
#[test]
fn a_slip_without_room() {
    let slip = [SHIP, ROW_1, &bent(ROW_2, 401), CONDITION, CONDITION].concat();
    for (room, number) in [(0, 9), (208, 9), (209, 9), (417, 9), (418, 10)] {
        let call = Call {
            room,
            ..call(&slip)
        };
        assert_eq!(answer(&call).number, number);
    }
}
