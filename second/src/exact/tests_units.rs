//! The texts of `docs/ROUNDINGS.md` that are judged otherwise with KG in
//! millimetres and in tenths, and what a search says of the two units.

use super::hull::Hull;
use super::rounding::Kept;
use super::search::Search;
use super::tests::{exact, figured, kept, numbered, page, read, stored, Stored};
use super::weather::Weather;
use super::words::word;
use crate::criteria::{judge_in, Judgement, FAIL, NOT_JUDGED, PASS};
use crate::line::down;
use crate::loading::laden_in;
use crate::roll::{height_factor, period};
use crate::unit::{Unit, MILLIMETRES, TENTHS};

const UNITS: [(&str, Unit); 2] = [("millimetres", MILLIMETRES), ("tenths", TENTHS)];

fn of_two_units() -> Vec<Stored> {
    let mut stored = stored();
    stored.retain(|example| example.head[0] == "units");
    stored
}

fn judged_in_both(text: &str) -> [Judgement; 2] {
    let document = read(text);
    UNITS.map(|(_, unit)| judge_in(&document, unit).expect("it is judged"))
}

/// Where the figure of a criterion stands among the eleven.
fn slot(criterion: usize) -> usize {
    [3, 4, 5, 6, 7, 2, 8, 10][criterion - 1]
}

/// The head that this program writes for such a text: the one criterion whose
/// verdicts are two, and its figures.
fn head(judged: &[Judgement; 2]) -> String {
    let [before, now] = judged.each_ref().map(|judged| judged.verdicts);
    let turned: Vec<usize> = (1..=8)
        .filter(|&at| before[at - 1] != now[at - 1])
        .collect();
    let [criterion] = turned[..] else {
        panic!("other verdicts of {turned:?}");
    };
    let mut head = format!("units criterion {criterion}");
    for ((name, _), judged) in UNITS.iter().zip(judged) {
        let verdict = word(judged.verdicts[criterion - 1]);
        head.push_str(&format!(
            " {name} {verdict} {}",
            judged.figures[slot(criterion)]
        ));
    }
    head
}

/// The row of such a text on the page: the unit, all eleven figures, and the
/// criterion that fails.
fn row(number: &str, unit: &str, judged: &Judgement) -> String {
    let figures = judged.figures.map(figured).join(" | ");
    let failed = (1..=8).find(|&at| judged.verdicts[at - 1] == FAIL);
    let failed = failed.map_or("none".to_string(), |at| at.to_string());
    format!("| {number} | {unit} | {figures} | {failed} |")
}

#[test]
fn the_texts_of_two_units_are_what_is_said_of_them() {
    let page = page();
    for Stored {
        head: said,
        number,
        text,
    } in of_two_units()
    {
        let judged = judged_in_both(&text);
        assert_eq!(said.join(" "), head(&judged));
        for ((unit, _), judged) in UNITS.iter().zip(&judged) {
            let row = row(&number, unit, judged);
            assert!(page.lines().any(|line| line == row), "the page lacks {row}");
        }
    }
    assert_eq!(of_two_units().len(), 2);
}

/// The ferry's KG is 4,759.5 mm, and in tenths nothing of it is rounded. Her
/// greatest levers are those of the page.
#[test]
fn the_ferry_of_tenths_is_the_exact_one() {
    let document = numbered("14");
    let [used, bare] = [Kept::NONE, kept("KG")].map(|kept| Hull::of(&document, kept));
    let [used, bare] = [used, bare].map(|hull| hull.expect("on its rows").kg);
    assert!(used == bare && used.floor() == 47_595);
    let page = page();
    assert!(page.contains("4,759.5 mm"));
    for (_, unit) in UNITS {
        let judged = judge_in(&document, unit).expect("it is judged");
        let lever = down(100 * judged.figures[6], unit.of(5_000_000));
        let said = format!("{}.{:02} mm", lever / 100, lever % 100);
        assert!(page.contains(&said), "the page lacks {said}");
    }
}

/// Text 15: n, r, phi0 and phi1 in millimetres and in tenths, and with KG exact
/// the pass that she has in millimetres.
#[test]
fn the_stiffer_ship_with_kg_exact() {
    let page = page();
    let document = numbered("15");
    let roll = |unit: Unit| {
        let laden = laden_in(&document, unit).expect("on its rows");
        let waterline = unit.of(laden.draught);
        let n = period(&document.ship, laden.draught, laden.gm(), unit);
        (n, height_factor(laden.kg, waterline))
    };
    assert_eq!(
        UNITS.map(|(_, unit)| roll(unit)),
        [(1_053, 963), (1_052, 963)]
    );
    assert!(page.contains("n 1,053 and 1,052"));
    let heels = UNITS.map(|(_, unit)| judge_in(&document, unit).expect("it is judged"));
    assert_eq!(
        heels.map(|judged| judged.figures[8..=9].to_vec()),
        [[98, 207], [97, 208]]
    );
    assert!(page.contains("phi0 98 and 97") && page.contains("phi1 207 and 208"));
    let exact = exact(&document, "KG");
    let Weather::Judged(gust) = &exact.weather else {
        panic!("it is judged");
    };
    assert_eq!((exact.eighth(), gust.phi1.1.floor()), (Some(PASS), 207));
    let figure = figured(exact.figure());
    assert!(page.contains(&figure), "the page lacks {figure}");
}

/// What is proved of criteria 1 to 7 on the draws of a short search; and that
/// criterion 8 goes either way.
#[test]
fn the_units_of_a_short_search() {
    let search = Search::run(20_261_115, 600);
    let turned: Vec<_> = [&search.turns, &search.turns_before]
        .into_iter()
        .flat_map(|turns| turns.turned())
        .collect();
    for &(criterion, turn) in &turned {
        assert!(criterion == 8 || (criterion != 6 && turn == [FAIL, PASS]));
    }
    for turn in [[FAIL, PASS], [PASS, FAIL], [NOT_JUDGED, PASS]] {
        assert!(turned.contains(&(8, turn)), "{turn:?} in {turned:?}");
    }
}
