//! Refusal 1: a small text cut at every byte, and characters, line ends and
//! empty lines that no line may have.

use super::cases::Cases;
use super::dice::Dice;
use super::draft::{item, nested};
use super::vessel;

/// The characters of the small text, which has always the same shape.
pub const SMALL: usize = 244;

/// Where its lines begin, and where it ends.
const LINES: [usize; 5] = [0, 33, 108, 183, SMALL];

/// A small corpus has the cuts at the ends of the lines and around them, and of
/// the others one in five.
pub fn add(cases: &mut Cases) {
    for kept in 0..SMALL {
        let between = LINES.iter().all(|line| line.abs_diff(kept) > 3);
        let name = format!("cut after {kept} characters");
        cases.add_spared(between && kept % 5 > 0, name, move |dice| {
            let mut text = small(dice);
            text.truncate(kept);
            text
        });
    }
    for wrong in [
        "a", "f", "G", "g", "/", ":", "@", "`", " ", "\t", "\0", "\r", "x", "-",
    ] {
        add_wrong(cases, wrong.as_bytes().to_vec());
    }
    for wrong in [0x7F, 0x80, 0xC3, 0xFF] {
        add_wrong(cases, vec![wrong]);
    }
    add_lines(cases);
    for (name, behind) in [
        ("unended", "00"),
        ("empty", "\n"),
        ("wrong", "0a\n"),
        ("odd", "000\n"),
    ] {
        cases.add(
            format!("ship outside its limits and the last line {name}"),
            move |dice| {
                let mut text = small(dice);
                text[6..14].copy_from_slice(b"FFFFFFFF");
                text.extend(behind.bytes());
                text
            },
        );
    }
}

pub fn small(dice: &mut Dice) -> Vec<u8> {
    let mut vessel = vessel::judged(dice);
    vessel.rows.truncate(2);
    vessel.mass = vessel.rows[0].displacement;
    vessel
        .draft(nested(1, vec![item(vessel.mass, vessel.kg)]))
        .text()
}

/// One digit anywhere gives way to another character.
fn add_wrong(cases: &mut Cases, wrong: Vec<u8>) {
    cases.add(format!("character {wrong:?}"), move |dice| {
        let mut text = small(dice);
        let place = dice.index(text.len());
        text.splice(place..=place, wrong.clone());
        text
    });
}

type Rewrite = fn(&[&str]) -> String;

fn add_lines(cases: &mut Cases) {
    let rewrites: [(&str, Rewrite); 14] = [
        ("CR LF everywhere", |lines| lines.join("\r\n") + "\r\n"),
        ("CR everywhere", |lines| lines.join("\r") + "\r"),
        ("CR LF last", |lines| lines.join("\n") + "\r\n"),
        ("no last LF", |lines| lines.join("\n")),
        ("two last LFs", |lines| lines.join("\n") + "\n\n"),
        ("empty line first", |lines| {
            format!("\n{}\n", lines.join("\n"))
        }),
        ("empty lines between", |lines| lines.join("\n\n") + "\n"),
        ("one line only", |lines| lines.concat() + "\n"),
        ("no line end at all", |lines| lines.concat()),
        ("lower case", |lines| {
            (lines.join("\n") + "\n").to_lowercase()
        }),
        ("odd first line", |lines| format!("0{}\n", lines.join("\n"))),
        ("odd last line", |lines| lines.join("\n") + "0\n"),
        ("space before LF", |lines| lines.join("\n") + " \n"),
        ("one LF", |_| "\n".to_string()),
    ];
    for (name, rewrite) in rewrites {
        cases.add(name, move |dice| {
            let text = String::from_utf8_lossy(&small(dice)).into_owned();
            let lines: Vec<&str> = text.lines().collect();
            rewrite(&lines).into_bytes()
        });
    }
}
