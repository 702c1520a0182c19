//! Frames in every order: missing, doubled, misplaced, and behind A3. Each
//! letter of a case's word stands for a frame.

use super::cases::Cases;
use super::dice::Dice;
use super::draft::{self, cargo, group, item, line, tank, Block};
use super::vessel;
use crate::sets::{CODE, TIMBER};

/// S ship, R row, C condition; lower case s, r, c the same with its length
/// one too long, and x, y, z with one byte left behind it; I, K, G, W, D, O
/// frames with tags of other places, K a cargo tank's and k the same with its
/// length one too long; T a condition that begins with C6, M a frame with that
/// tag and m the same with its length one too long; 1 and 2 lines of so many
/// bytes.
const WORDS: [&str; 62] = [
    "", "S", "SR", "SRR", "SRRR", "R", "C", "RR", "RRC", "RSRC", "CSRR", "SC", "SRC", "SRRC", "SS",
    "SSRRC", "SRSRC", "SRRSC", "SCRR", "SRCR", "SRRCS", "SRRCR", "SRRCC", "SRRCI", "SRRCD",
    "SRRCs", "SRRCr", "SRRCc", "SRRCx", "SRRCy", "SRRCz", "SRRC1", "SRRC2", "I", "SI", "SRRI", "G",
    "SRRG", "W", "SW", "SRRW", "D", "SRRD", "SRRO", "O", "1", "2", "S1", "S2", "SR1", "SRR1",
    "SRR2", "s", "Ss", "Sr", "Sc", "SRc", "x", "Sy", "Sz", "SRz", "SRRz",
];

pub fn add(cases: &mut Cases) {
    for word in WORDS {
        cases.add(format!("frames {word}"), move |dice| spelled(dice, word));
    }
}

pub fn spelled(dice: &mut Dice, word: &str) -> Vec<u8> {
    let mut vessel = vessel::judged(dice);
    let mut text = Vec::new();
    for letter in word.chars() {
        let bytes = match letter {
            '1' => vec![dice.pick(&[0xA1, 0xA2, 0xA3, 0x00])],
            '2' => vec![dice.pick(&[0xA1, 0xA2, 0xA3]), 0],
            _ => frame(dice, &mut vessel, letter).bytes(),
        };
        text.extend(line(&bytes));
    }
    text
}

fn frame(dice: &mut Dice, vessel: &mut vessel::Vessel, letter: char) -> Block {
    let mut block = match letter {
        'S' | 's' | 'x' => draft::ship(&vessel.ship),
        'R' | 'r' | 'y' => {
            vessel.rows[0].displacement += 1_000;
            draft::row(&vessel.rows[0])
        }
        'C' | 'c' | 'z' | 'T' => {
            let set = if letter == 'T' { &TIMBER } else { &CODE };
            let entries = vessel::level(dice, vessel.rows[0].displacement, vessel.kg);
            draft::condition(set, &vessel.weather, entries)
        }
        'W' => draft::weather(&CODE, &vessel.weather),
        'M' | 'm' => draft::weather(&TIMBER, &vessel.weather),
        'G' => group(vec![item(5, 5)]),
        'K' | 'k' => cargo(tank(vessel.mass, vessel.kg, 985, 1_025, 9)),
        _ => item(vessel.mass, vessel.kg),
    };
    match letter {
        's' | 'r' | 'c' | 'k' | 'm' => block.declared = Some(block.body().len() + 1),
        'x' | 'y' | 'z' => block.spill = vec![0],
        'D' => block.tag = 0xD1,
        'O' => block.tag = 0,
        _ => (),
    }
    block
}
