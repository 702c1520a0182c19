//! The exact judge: with no value kept it is document 01's own, whole values
//! make no difference, and the texts of `corpus/roundings.txt` are what is
//! said of them there and in `docs/ROUNDINGS.md`.

use std::path::PathBuf;

use super::draw::{smooth, text as written};
use super::fraction::Fraction;
use super::hull::Hull;
use super::levers::Levers;
use super::roll::period;
use super::rounding::{choices, Kept, Rounding};
use super::search::{drawn, kind, Search, KINDS};
use super::weather::{Verdicts, Weather};
use super::words::{angles, word};
use crate::book::Document;
use crate::corpus::Corpus;
use crate::criteria::{judge_document, PASS, UNUSED};
use crate::curve::{SINES, Y_PER_MILLIMETRE};
use crate::instrument::{documents, read_text};
use crate::line::read_up;
use crate::roll::X1;
use crate::sets::{CODE, TIMBER};
use crate::unit::TENTHS;

pub fn read(text: &str) -> Document {
    read_text(text.as_bytes()).unwrap_or_else(|refusal| panic!("{refusal:?}: {text}"))
}

pub fn kept(name: &str) -> Kept {
    let found = choices().into_iter().find(|choice| choice.0 == name);
    found.unwrap_or_else(|| panic!("no rounding {name}")).1
}

pub fn exact(document: &Document, name: &str) -> Verdicts {
    Verdicts::of(document, kept(name)).expect("the text lies on its rows")
}

/// Verdict 8, phi1 and net as document 01 writes them.
fn eighth(verdicts: &Verdicts) -> (Option<u8>, i128, i128) {
    match &verdicts.weather {
        Weather::Judged(gust) => {
            assert!(gust.net.0 == gust.net.1 && gust.net.0.is_whole());
            assert!(gust.phi1.0 == gust.phi1.1 && gust.phi1.0.is_whole());
            (verdicts.eighth(), gust.phi1.0.floor(), gust.net.0.floor())
        }
        _ => (verdicts.eighth(), 0, 0),
    }
}

fn assert_as_used(document: &Document, exact: &Verdicts) {
    let used = judge_document(document).expect("a text that is judged");
    assert_eq!(
        (exact.fifth(), exact.peak),
        (used.verdicts[4], used.figures[7])
    );
    let expected = (Some(used.verdicts[7]), used.figures[9], used.figures[10]);
    assert_eq!(eighth(exact), expected);
}

#[test]
fn with_no_value_kept_the_verdicts_are_document_01s() {
    let corpus = Corpus::new(7, true);
    let (mut judged, mut timber) = (0, 0);
    let read = (0..3_500).flat_map(|number| documents(&corpus.call(number)).unwrap_or_default());
    for document in read.flatten() {
        let again = String::from_utf8_lossy(&written(&document)).into_owned();
        assert_eq!(self::read(&again), document);
        if judge_document(&document).is_ok() {
            let verdicts = Verdicts::of(&document, Kept::NONE).expect("on its rows");
            assert_as_used(&document, &verdicts);
            judged += 1;
            timber += u32::from(verdicts.fifth() == UNUSED);
        }
    }
    assert!(judged > 1_300 && timber > 400);
}

/// Every value of this text comes out whole, the period of 5.64 s, the roll
/// of 32.7 degrees and the steady heel of 30.0 degrees too.
const WHOLE: &str = "\
A1000D000186A000002EE00000000000
A20022004CE78017702814000002A9054D07F00A850D060F6E126C1549179C19621A971B9C
A20022005B8D8017702814000002A9054D07F00A850D060F6E126C1549179C19621A971B9C
A30018C1000C00002652271002BC02580190C20006004CE7801E14
";

#[test]
fn whole_values_make_no_difference() {
    let document = read(WHOLE);
    for (name, _) in choices() {
        assert_as_used(&document, &exact(&document, name));
    }
}

/// Text 10 passes all eight by document 01's angles, which are whole tenths;
/// with the exact ones its net is below zero.
#[test]
fn the_text_that_sags() {
    let document = numbered("10");
    let used = judge_document(&document).expect("it is judged");
    assert_eq!((used.verdicts, used.figures[10]), ([1; 8], 61_440_000));
    let Weather::Judged(gust) = exact(&document, "angles").weather else {
        panic!("its angles are judged");
    };
    let parts = 26 * 26;
    let b_less_a = Fraction::of(-1_923_929_040_000, parts);
    assert!(gust.net.0 == b_less_a && gust.net.1 == b_less_a);
    assert_eq!(b_less_a.floor(), -2_846_048_876);
}

fn file(path: [&str; 2]) -> String {
    let root: PathBuf = [env!("CARGO_MANIFEST_DIR"), ".."].iter().collect();
    let path = root.join(path[0]).join(path[1]);
    std::fs::read_to_string(&path).unwrap_or_else(|error| panic!("{path:?}: {error}"))
}

pub fn page() -> String {
    file(["docs", "ROUNDINGS.md"])
}

/// An example as it is stored: its head, the number of its text on the page,
/// and the text. A head of ten words begins with `exact` and is of a rounding,
/// one of nine with `units` and is of KG in millimetres and in tenths.
pub struct Stored {
    pub head: Vec<String>,
    pub number: String,
    pub text: String,
}

pub fn stored() -> Vec<Stored> {
    let whole = file(["corpus", "roundings.txt"]);
    let parts = whole.split("\n\n").filter(|part| !part.trim().is_empty());
    let example = |part: &str| {
        let mut lines = part.trim().lines();
        let mut words = || -> Vec<String> {
            let line = lines.next().unwrap_or_default();
            line.split(' ').map(str::to_string).collect()
        };
        let (head, note) = (words(), words());
        Stored {
            head,
            number: note[2].clone(),
            text: lines.map(|line| format!("{line}\n")).collect(),
        }
    };
    parts.map(example).collect()
}

pub fn figured(value: i128) -> String {
    let digits = value.abs().to_string();
    let mut written = String::new();
    for (place, digit) in digits.chars().enumerate() {
        if place > 0 && (digits.len() - place).is_multiple_of(3) {
            written.push(',');
        }
        written.push(digit);
    }
    let sign = if value < 0 { "-" } else { "" };
    format!("{sign}{written}")
}

/// The head that this program writes for a text and a choice.
fn head(text: &str, name: &str, criterion: &str) -> (String, [i128; 2]) {
    let document = read(text);
    let used = judge_document(&document).expect("an example is judged");
    let exact = exact(&document, name);
    let (place, slot) = if criterion == "5" { (4, 7) } else { (7, 10) };
    let (verdict, value) = if criterion == "5" {
        (exact.fifth(), exact.peak)
    } else {
        let verdict = exact.eighth().expect("both ends agree");
        (verdict, exact.figure())
    };
    let figures = [used.figures[slot], value];
    let words = [used.verdicts[place], verdict].map(word);
    let head = format!(
        "exact {name} criterion {criterion} used {} {} exact {} {}",
        words[0], figures[0], words[1], figures[1]
    );
    (head, figures)
}

/// How the row of an example begins on the page.
fn row(example: &Stored, figures: [i128; 2]) -> String {
    let [used, exact] = figures.map(figured);
    let name = on_the_page(&example.head[1]);
    let start = format!("| {name} | {} |", example.number);
    match (example.head[3].as_str(), example.head[5].as_str()) {
        ("5", _) => format!("{start} {used}, pass | {exact}, fail |"),
        (_, "unjudged") => format!("{start} not judged, {used} | fail, {exact} |"),
        _ => format!("{start} {used} | {exact} |"),
    }
}

fn on_the_page(name: &str) -> &str {
    if name == "angles" {
        "start and e"
    } else {
        name
    }
}

/// phi1, start and e as used and exact, as the page writes them where both
/// are judged.
fn both_angles(text: &str, name: &str) -> Option<String> {
    let document = read(text);
    let [used, exact] = [Kept::NONE, kept(name)].map(|kept| {
        let verdicts = Verdicts::of(&document, kept).expect("on its rows");
        angles(&verdicts).replace(".00", "")
    });
    let used: Vec<&str> = used.split(' ').collect();
    let exact: Vec<&str> = exact.split(' ').collect();
    let ([phi1, start, end], [phi1_exact, start_exact, end_exact]) = (&used[..], &exact[..]) else {
        return None;
    };
    Some(format!(
        "phi1 {phi1} and {phi1_exact}, start {start} and {start_exact}, e {end} and {end_exact}"
    ))
}

#[test]
fn the_stored_examples_are_what_is_said_of_them() {
    let page = page();
    let examples = stored();
    let of_roundings = examples.iter().filter(|example| example.head[0] == "exact");
    assert!(of_roundings.clone().count() > 20);
    for example in of_roundings {
        let Stored {
            head: said, text, ..
        } = example;
        let (found, figures) = head(text, &said[1], &said[3]);
        assert_eq!(found, said.join(" "));
        assert!(said[8] == "fail" && said[5] != "fail");
        let row = row(example, figures);
        let line = page.lines().find(|line| line.starts_with(&row));
        let line = line.unwrap_or_else(|| panic!("the page lacks {row}"));
        let angles = both_angles(text, &said[1]).filter(|_| said[3] == "8");
        assert!(
            angles.is_none_or(|angles| line.contains(&angles)),
            "the angles of {row}"
        );
    }
}

/// The texts that the rows of part 1 name are examples for their values.
#[test]
fn the_texts_of_part_1_are_examples() {
    let page = page();
    let examples = stored();
    let (_, part) = page.split_once("\n## 1. ").expect("a part 1");
    let (part, _) = part.split_once("\n## 2. ").expect("a part 2");
    let mut named = 0;
    for row in part.lines().filter(|line| line.starts_with("| ")) {
        let value = row
            .trim_start_matches("| keel")
            .trim_start_matches(['|', ' ']);
        let name = value.split([' ', ',']).next().unwrap_or_default();
        let numbers = row.split("text ").skip(1);
        for number in numbers.map(|rest| rest.split(')').next().unwrap_or_default()) {
            let known = |example: &Stored| example.head[1] == name && example.number == number;
            assert!(examples.iter().any(known), "{name} and text {number}");
            named += 1;
        }
    }
    assert_eq!(named, 20);
}

/// All texts that are stored stand on the page, and no others.
#[test]
fn the_texts_of_the_page_are_stored() {
    let page = page();
    let examples = stored();
    for Stored { head, text, .. } in &examples {
        let printed: String = text.lines().map(|line| format!("    {line}\n")).collect();
        assert!(
            page.contains(&printed),
            "the page lacks the text of {head:?}"
        );
    }
    let printed = page.lines().filter(|line| line.starts_with("    A1000D"));
    for line in printed {
        let known = |example: &Stored| example.text.starts_with(line.trim());
        assert!(examples.iter().any(known), "{line} is not stored");
    }
}

/// The text of this number on the page.
pub fn numbered(number: &str) -> Document {
    let found = stored()
        .into_iter()
        .find(|example| example.number == number);
    read(&found.unwrap_or_else(|| panic!("no text {number}")).text)
}

/// Which criteria pass, as the page says it.
fn passes(verdicts: [u8; 8]) -> String {
    let passed: Vec<String> = (1..=8)
        .filter(|&number| verdicts[number - 1] == PASS)
        .map(|number: usize| number.to_string())
        .collect();
    match passed.join(", ").as_str() {
        "1, 2, 3, 4, 5, 6, 7, 8" => "passes all eight".to_string(),
        "1, 2, 3, 4, 5, 6, 7" => "passes 1 to 7".to_string(),
        other => format!("passes {other}"),
    }
}

/// What a text is an example for, as its heading says it.
fn example_for(head: &[String]) -> String {
    match head[0].as_str() {
        "units" => {
            let passes_in = if head[4] == "pass" {
                &head[3]
            } else {
                &head[6]
            };
            format!("criterion {} in {passes_in} alone", head[2])
        }
        _ => on_the_page(&head[1]).to_string(),
    }
}

/// Above each text stand its kind of curve, what it is an example for, and the
/// criteria that pass.
#[test]
fn the_headings_say_what_the_texts_are() {
    let page = page();
    let headings = page.lines().filter_map(|line| {
        let heading = line.strip_prefix("Text ")?.strip_suffix("):")?;
        heading.split_once(" (")
    });
    let mut found = 0;
    for (number, said) in headings {
        let document = numbered(number);
        let used = judge_document(&document).expect("it is judged");
        let verdicts = Verdicts::of(&document, Kept::NONE).expect("on its rows");
        let unjudged = matches!(verdicts.weather, Weather::NotJudged);
        let names: Vec<String> = stored()
            .iter()
            .filter(|example| example.number == number)
            .map(|example| example_for(&example.head))
            .collect();
        let expected = format!(
            "{}{}; {}; {}",
            KINDS[kind(&document, &verdicts)],
            if unjudged { ", not judged" } else { "" },
            names.join(", "),
            passes(used.verdicts)
        );
        assert_eq!(said, expected, "text {number}");
        found += 1;
    }
    assert_eq!(found, 15);
}

/// A number to hundredths, rounded down, as the page writes it.
fn hundredths(value: &Fraction) -> String {
    let value = value.times(100).floor();
    format!("{}.{:02}", figured(value / 100), value % 100)
}

fn assert_said(page: &str, said: &str) {
    assert!(page.contains(said), "the page lacks {said}");
}

fn hull(document: &Document, kept: Kept) -> Hull {
    Hull::of(document, kept).expect("on its rows")
}

/// The exact values that the page quotes. KG is in tenths of a millimetre, the
/// others in millimetres.
#[test]
fn the_exact_values_are_quoted() {
    let page = page();
    let quoted = |number: &str, name: &str, of: &dyn Fn(&Hull) -> Fraction| {
        let document = numbered(number);
        let [used, exact] = [Kept::NONE, kept(name)].map(|kept| of(&hull(&document, kept)));
        let (exact, used) = (hundredths(&exact), figured(used.floor()));
        assert_said(&page, &format!("{name} {exact} used as {used}"));
    };
    quoted("1", "KN", &|hull| hull.kn[4].clone());
    quoted("2", "KG", &|hull| hull.kg.clone());
    quoted("2", "lw1", &|hull| hull.lw1.clone());
    quoted("12", "KM", &|hull| hull.km.clone());
    quoted("3", "d", &|hull| hull.draught.clone());
    quoted("5", "lw2", &|hull| hull.lw2.clone());
    quoted("11", "KG", &|hull| hull.kg.clone());
    quoted("11", "KM", &|hull| hull.km.clone());
    quoted("13", "d", &|hull| hull.draught.clone());
    let document = numbered("5");
    let hump = Levers::of(&hull(&document, Kept::NONE)).y(&Fraction::whole(50));
    let hump = hundredths(&hump.part(Y_PER_MILLIMETRE));
    assert_said(&page, &format!("The first hump of text 5, {hump} mm"));
    let bare = hull(&document, Kept::ALL);
    let [lw1, lw2] = [&bare.lw1, &bare.lw2].map(hundredths);
    assert_said(&page, &format!("lw1 is {lw1} and lw2 {lw2}"));
}

/// KN of text 2 is rounded down at all stations but 0, 5 and 20 degrees, by
/// less than 0.95 mm.
#[test]
fn the_kn_of_text_2() {
    let document = numbered("2");
    let [used, bare] = [Kept::NONE, kept("KN")].map(|kept| hull(&document, kept).kn);
    let lost: Vec<Fraction> = bare
        .iter()
        .zip(&used)
        .map(|(bare, used)| bare - used)
        .collect();
    let whole = |&station: &usize| lost[station] == Fraction::whole(0);
    assert_eq!((0..13).filter(whole).collect::<Vec<_>>(), [0, 1, 4]);
    let most = lost.iter().max().expect("thirteen of them");
    assert_eq!(most.times(100).floor(), 94);
    assert_said(
        &page(),
        "at all stations but 0°, 5° and 20°, by less than 0.95 mm",
    );
}

/// b, n and r with this value exact; n is none from 2,000 on.
fn of_the_roll(document: &Document, name: &str) -> (i128, Option<i128>, i128) {
    let kept = if name == "none" {
        Kept::NONE
    } else {
        kept(name)
    };
    let hull = hull(document, kept);
    let b = Fraction::whole(1_000 * document.ship.breadth).over(&hull.draught);
    let b = Fraction::whole(b.floor());
    let n = period(document, &b, &hull.gm(), kept).map(|n| n.0.floor());
    let height = (&hull.kg - &hull.waterline()).times(600);
    let r = 730 + height.over(&hull.waterline()).ceiling();
    (b.floor(), n, r)
}

/// What the page says of b, X1, n and r where d, KM or KG is exact.
#[test]
fn what_follows_from_a_value() {
    let page = page();
    let of = |number: &str, name: &str| of_the_roll(&numbered(number), name);
    assert_eq!(of("3", "none"), (2_690, Some(807), 768));
    assert_eq!(of("3", "d"), (2_689, Some(807), 768));
    assert_eq!([2_690, 2_689].map(|b| read_up(&X1, b)), [951, 952]);
    assert_eq!(
        ["none", "KM"].map(|name| of("12", name).1),
        [Some(960), Some(959)]
    );
    let periods = ["none", "KG", "KM"].map(|name| of("11", name).1);
    assert_eq!(periods, [None, Some(1_999), Some(1_997)]);
    assert_eq!(["none", "KG"].map(|name| of("15", name).2), [963, 962]);
    for said in [
        "a greater b (2,690 and 2,689), so a smaller X1 (951 and 952)",
        "n is 807 and r 768 with both",
        "(n 960 and 959)",
        "of 19.99 s by the exact one",
        "of 19.97 s by the exact one",
        "r 963 and 962",
    ] {
        assert_said(&page, said);
    }
    let above = hull(&numbered("13"), kept("d")).draught.times(15);
    let used = hull(&numbered("13"), Kept::NONE);
    let [kg, limit] = [used.kg, used.draught.times(15)].map(|value| figured(value.floor()));
    let exact = hundredths(&above);
    let said = format!(
        "KG used, {kg}, is above 15d with the d used, {limit}, and not with the exact one, {exact}"
    );
    assert_said(&page, &said);
}

/// The steady heels of text 2, and its nets with KG exact in the levers or in
/// the roll alone.
#[test]
fn what_is_kept_and_what_is_worked_out_anew() {
    let page = page();
    let document = numbered("2");
    let heel = |kept: Kept| {
        let verdicts = Verdicts::of(&document, kept.with(Rounding::Start));
        let Weather::Judged(gust) = verdicts.expect("on its rows").weather else {
            panic!("it is judged");
        };
        hundredths(&(&gust.start.0 + &gust.phi1.1))
    };
    assert_eq!(heel(Kept::NONE), "105.00");
    for (name, met) in [("KG", "104.99"), ("KN", "104.85"), ("lw1", "104.96")] {
        assert_eq!(heel(kept(name)), met);
        assert_said(&page, &format!("(105.00 and {met})"));
    }
    let net = |hull: &Hull, levers: &Hull| {
        Verdicts::with(&document, hull, &Levers::of(levers), Kept::NONE).figure()
    };
    let [used, exact] = [Kept::NONE, kept("KG")].map(|kept| hull(&document, kept));
    assert_eq!(net(&exact, &exact), -97_299_332_544);
    assert_eq!(net(&used, &exact), -97_299_332_544);
    assert_eq!(net(&exact, &used), 1_440_596_260);
    let exact = hull(&document, kept("lw1"));
    assert!(exact.lw2 == Fraction::whole(558) && used.lw2 == exact.lw2);
    assert_said(&page, "lw2, worked out anew, is 558 with both");
}

/// Which of the texts that are judged pass criterion 8 with all values exact,
/// and what KN has to do with it in text 4.
#[test]
fn with_all_values_exact() {
    let numbers = ["2", "3", "12", "4", "5", "6", "7", "8", "9", "10"];
    let passed = |number: &&str| exact(&numbered(number), "all").eighth() == Some(PASS);
    let passed: Vec<&str> = numbers.into_iter().filter(passed).collect();
    assert_eq!(passed, ["2", "3", "12", "7", "8", "10"]);
    let page = page();
    for (number, name) in [("2", "all"), ("3", "all"), ("12", "all"), ("4", "KN")] {
        assert_said(&page, &figured(exact(&numbered(number), name).figure()));
    }
}

/// What the page says of every curve, and of those that do not sag.
#[test]
fn a_short_search_bears_the_page_out() {
    let search = Search::run(5, 120);
    assert!(search.greatest_gain(&["end"], false) <= 0);
    let of_the_roll = [
        "b", "C", "q", "n", "X1", "X2", "index", "k", "s", "p", "r", "phi1", "start", "angles",
    ];
    assert!(search.greatest_gain(&of_the_roll, true) <= 0);
    assert!(search.greatest_gain(&of_the_roll, false) > 0);
    assert!(search.greatest_gain(&["KG", "KN", "lw1"], true) > 0);
}

/// What the search counts are texts that are read, as they were drawn; what it
/// leaves out as not smooth is refused with 10.
#[test]
fn the_search_counts_texts_that_are_read() {
    let mut counted = 0;
    for document in (0..600).filter_map(|number| drawn(20261115, number)) {
        let found = read_text(&written(&document));
        if smooth(&document) {
            assert_eq!(found.expect("it is read"), document);
            counted += 1;
        } else {
            assert_eq!(found.expect_err("it is bent").number, 10);
        }
    }
    assert!(counted > 500);
}

/// By how much the limits of criteria 1 to 3 are above 0.055, 0.03 and 0.09
/// metre-radians, and timber's of criterion 3 above 0.08, in y units rounded
/// down, for pi between two fractions.
#[test]
fn the_limits_are_stricter_by_so_much() {
    let limits = [
        (CODE.area_to_30, 55, 126_780),
        (CODE.area_30_to_40, 30, 614_607),
        (CODE.area_to_40, 90, 843_822),
        (TIMBER.area_to_40, 80, 638_953),
    ];
    for (limit, thousandths, stricter) in limits {
        for pi in [314_159_265_358_979, 314_159_265_358_980] {
            let radians = Fraction::of(thousandths * 180 * 10_i128.pow(23), pi);
            let limit = Fraction::whole(TENTHS.of(limit.expect("a slot that is used")));
            assert_eq!((&limit - &radians).floor(), stricter);
        }
    }
}

/// The sines to ten digits.
const FINER: [i128; 13] = [
    0,
    871_557_427,
    1_736_481_777,
    2_588_190_451,
    3_420_201_433,
    4_226_182_617,
    5_000_000_000,
    5_735_764_364,
    6_427_876_097,
    7_071_067_812,
    7_660_444_431,
    8_191_520_443,
    8_660_254_038,
];

/// They are sines: the squares of a pair that makes 90 degrees add up to 1,
/// and sin 3x = 3 sin x - 4 sin³ x. Document 01's are these to five digits,
/// and below them at 20, 50 and 55 degrees only.
#[test]
fn the_five_digits_of_the_sines() {
    let one = 10_i128.pow(10);
    let near = |value: i128, other: i128, reach: i128| (value - other).abs() <= reach;
    for station in 6..=12 {
        let pair = FINER[station].pow(2) + FINER[18 - station].pow(2);
        assert!(near(pair, one * one, 2 * one));
    }
    let tripled = |sine: i128| 3 * sine - 4 * sine * sine / one * sine / one;
    for station in 1..=4 {
        assert!(near(tripled(FINER[station]), FINER[3 * station], 8));
    }
    let of_75 = tripled(FINER[5]);
    assert!(near(of_75.pow(2) + FINER[3].pow(2), one * one, 20 * one));
    let below: Vec<usize> = (0..13)
        .filter(|&station| 100_000 * SINES[station] < FINER[station])
        .collect();
    assert_eq!(below, [4, 10, 11]);
    let most = |station: usize| FINER[station] - 100_000 * SINES[station];
    assert_eq!(
        below.iter().map(|&at| most(at)).collect::<Vec<_>>(),
        [1_433, 44_431, 20_443]
    );
    assert!((0..13).all(|at| near(100_000 * SINES[at], FINER[at], 50_000)));
}
