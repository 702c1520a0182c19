//! The bench sheet: P1 to P13, its unmarked lines, and the slips it has met.
//! Since request 5 its figures for KG, GM, areas, lever, y and net are tenfold.

use crate::book::Document;
use crate::criteria::{Gust, Wind, FAIL, PASS, UNUSED};
use crate::curve::Curve;
use crate::instrument::{judge_text, read_text};
use crate::line::{read_up, up};
use crate::loading::laden;
use crate::refusal::Refusal;
use crate::report::report;
use crate::roll;
use crate::unit::TENTHS;

pub const SHIP: &str = "A1000D0000C350000027100000000000\n";
pub const ROW_1: &str =
    "A2002200155CC00FA0119400000189030F04970620078A08FC0A220B050BA20C5C0CCD0D48\n";
pub const ROW_2: &str =
    "A2002200186A001130119400000189030F04970620078A08FC0A220B050BA20C5C0CCD0D48\n";
pub const CONDITION: &str = "A30018C1000C000009C40FA002BC01F400C8C2000600155CC00FA0\n";

pub const REPORT: &str = concat!(
    "D1006500000000000101010101010101",
    "0000000000155CC00000000000009C400000000000001388",
    "000003EB682D58000000029CEC24FA000000068854525200",
    "000000037E11D600000000000000012C000000000000002A",
    "00000000000000EF000002CB91879B00\n"
);

fn p1() -> String {
    [SHIP, ROW_1, ROW_2, CONDITION].concat()
}

/// P1 with other words in its condition, each `old` standing there once.
fn p1_with(changes: &[(&str, &str)]) -> String {
    let mut condition = CONDITION.to_string();
    for (old, new) in changes {
        assert_eq!(condition.matches(old).count(), 1);
        condition = condition.replace(old, new);
    }
    [SHIP, ROW_1, ROW_2, &condition].concat()
}

fn read(text: &str) -> Document {
    read_text(text.as_bytes()).expect("the bench sheet's text is sound")
}

fn refused(text: &str) -> Option<Refusal> {
    judge_text(text.as_bytes()).err()
}

#[test]
fn p1_report() {
    assert_eq!(report(&judge_text(p1().as_bytes())), REPORT);
}

#[test]
fn p2_to_p4_the_roll() {
    let document = read(&p1());
    let laden = laden(&document).expect("P1 lies on a row");
    let n = roll::period(&document.ship, laden.draught, laden.gm(), TENTHS);
    assert_eq!(n, 1_156);
    assert_eq!(read_up(&roll::S, n), 681);
    assert_eq!(roll::angle(&document.ship, 700, &laden), Some(239));
}

#[test]
fn p5_to_p7_the_wind_and_the_gust() {
    let document = read(&p1());
    let laden = laden(&document).expect("P1 lies on a row");
    let curve = Curve::of(&laden);
    let wind = Wind::on(&document, &laden, &curve);
    assert_eq!((wind.steady_lever, wind.gust_lever), (37, 56));
    assert_eq!(curve.y(-50), -2_218_000_000);
    let Some(Gust { start, end, .. }) = wind.gust(&curve, 239, 500) else {
        panic!("P1 has a steady heel and a gust's first angle");
    };
    assert_eq!((start, end), (-198, 500));
}

#[test]
fn p10_and_p11_an_item_too_long_and_too_short() {
    let long = p1_with(&[("C20006", "C20007")]);
    assert_eq!(refused(&long), Some(Refusal::at(2, 4, 18)));
    let short = p1_with(&[("C20006", "C20005")]);
    assert_eq!(refused(&short), Some(Refusal::at(3, 4, 18)));
}

#[test]
fn p12_the_empty_text() {
    assert_eq!(refused(""), Some(Refusal::at(5, 0, 0)));
}

#[test]
fn p13_a_mass_below_the_first_row() {
    let light = p1_with(&[("00155CC00FA0", "00155CBF0FA0")]);
    assert_eq!(refused(&light), Some(Refusal::at(7, 0, 0)));
}

/// The page has 12,000; since request 3 it is the library's limit.
#[test]
fn too_many_characters() {
    for most in [12_000, 180_000] {
        let mut text = p1();
        text.push_str(&"0".repeat(most - text.len()));
        assert_eq!(refused(&text), Some(Refusal::at(1, 5, 0)));
        text.push('0');
        let line = if most == 180_000 { 0 } else { 5 };
        assert_eq!(refused(&text), Some(Refusal::at(1, line, 0)));
    }
}

#[test]
fn flooding_at_300_leaves_no_area_for_criterion_2() {
    let judged = judge_text(p1_with(&[("01F400C8", "012C00C8")]).as_bytes()).expect("sound");
    assert_eq!((judged.verdicts[1], judged.figures[4]), (FAIL, 0));
    assert_eq!(
        judged.figures[6],
        judge_text(p1().as_bytes()).expect("sound").figures[6]
    );
}

/// P1 with the wind arm that heels it to 160 tenths, and by timber's criteria
/// with that which heels it to 161 too.
#[test]
fn steady_heel_of_160_and_the_deck_edge() {
    let heel = |tag: &str, arm: u32, edge: u32| {
        let weather = format!("{tag}000C000009C4{arm:04X}02BC01F4{edge:04X}");
        let text = p1_with(&[("C1000C000009C40FA002BC01F400C8", &weather)]);
        judge_text(text.as_bytes()).expect("sound")
    };
    let arms = [160, 161].map(|angle| {
        let heels = |arm: &u32| heel("C1", *arm, 200).figures[8] == angle;
        (0..60_000).find(heels).expect("an arm that heels P1 so")
    });
    assert_eq!(heel("C1", arms[0], 200).verdicts[6], PASS);
    assert_eq!(heel("C1", arms[0], 199).verdicts[6], FAIL);
    for edge in [1, 199, 200, 600] {
        let verdicts = arms.map(|arm| heel("C6", arm, edge).verdicts[6]);
        assert_eq!(verdicts, [PASS, FAIL]);
    }
}

/// P1 by the criteria for timber: its lever is greatest at 30 degrees, so all
/// figures stay.
#[test]
fn p1_with_timber_on_deck() {
    let timber = p1_with(&[("C1000C", "C6000C")]);
    let expected = REPORT.replace("0101010101010101", "0404010104010101");
    assert_eq!(report(&judge_text(timber.as_bytes())), expected);
}

/// The KM of both rows, 4,500 in P1, makes the GM; flooding at 299 leaves a
/// greatest lever for timber and none for the Code.
#[test]
fn timber_by_gm_and_by_flooding_before_30() {
    let timber = |from: &str, to: &str| {
        let text = p1_with(&[("C1000C", "C6000C")]).replace(from, to);
        judge_text(text.as_bytes()).expect("sound")
    };
    for (km, gm, verdict) in [("1003", 990, FAIL), ("1004", 1_000, PASS)] {
        let judged = timber("1194", km);
        assert_eq!((judged.figures[2], judged.verdicts[5]), (gm, verdict));
    }
    let early = timber("01F400C8", "012B00C8");
    let lever = 10 * (23_952_000 + 49 * 30_000_000);
    assert_eq!((early.verdicts[3], early.figures[6]), (PASS, lever));
    assert_eq!(early.verdicts[..2], [UNUSED; 2]);
}

#[test]
fn a_c6_is_refused_where_a_c1_would_be() {
    let timber = "C6000C000009C40FA002BC01F400C8";
    let weather = "C1000C000009C40FA002BC01F400C8";
    let long = p1_with(&[("C1000C", "C6000D")]);
    assert_eq!(refused(&long), Some(Refusal::at(3, 4, 3)));
    let edge = p1_with(&[("C1000C", "C6000C"), ("01F400C8", "01F40000")]);
    assert_eq!(refused(&edge), Some(Refusal::at(6, 4, 3)));
    for pair in [[weather, timber], [timber, weather], [timber, timber]] {
        let behind = p1_with(&[("A30018", "A30027"), (weather, &pair.concat())]);
        assert_eq!(refused(&behind), Some(Refusal::at(4, 4, 18)));
    }
    let alone = p1_with(&[
        ("A30018", "A3000F"),
        ("C2000600155CC00FA0", ""),
        ("C1000C", "C6000C"),
    ]);
    assert_eq!(refused(&alone), Some(Refusal::at(5, 4, 0)));
}

#[test]
fn a_group_past_its_parent_but_not_past_its_line() {
    let item = "C2000600155CC00FA0";
    let weather = "C1000C000009C40FA002BC01F400C8";
    let inner = format!("C4000A{item}");
    let outer = format!("C4000C{inner}");
    let condition = format!("A3{:04X}{weather}{outer}{item}\n", 15 + 15 + 9);
    let text = [SHIP, ROW_1, ROW_2, &condition].concat();
    assert_eq!(refused(&text), Some(Refusal::at(2, 4, 21)));
}

#[test]
fn the_gust_lever_is_made_of_the_rounded_steady_lever() {
    let document = read(&p1_with(&[("09C40FA0", "09C40F5F")]));
    let laden = laden(&document).expect("P1 lies on a row");
    let wind = Wind::on(&document, &laden, &Curve::of(&laden));
    let heeling = 5_040 * 2_500 * 3_935;
    assert_eq!(up(3 * heeling, 2 * 981 * 1_400_000), 55);
    assert_eq!((wind.steady_lever, wind.gust_lever), (37, 56));
}
