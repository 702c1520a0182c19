//! Sound texts garbled: bytes changed, lines changed, doubled and put where
//! they may not stand, and texts of mere noise.

use super::dice::Dice;
use super::draft::line;

/// A text with a few changes of its bytes or lines.
pub fn changed(dice: &mut Dice, mut text: Vec<u8>) -> Vec<u8> {
    for _ in 0..dice.between(1, 4) {
        text = if dice.chance(75) {
            byte_changed(dice, text)
        } else {
            line_changed(dice, &text)
        };
    }
    text
}

fn byte_changed(dice: &mut Dice, mut text: Vec<u8>) -> Vec<u8> {
    if text.is_empty() {
        return text;
    }
    let place = dice.index(text.len());
    match dice.index(10) {
        0 => text[place] ^= 1 << dice.index(8),
        1 => text[place] = dice.byte(),
        2 => {
            text.remove(place);
        }
        3 => {
            text.drain(place..(place + 2).min(text.len()));
        }
        4 => text.truncate(place),
        _ => {
            text[place] = if text[place] == b'\n' {
                b'\n'
            } else {
                digit(dice)
            }
        }
    }
    text
}

fn digit(dice: &mut Dice) -> u8 {
    dice.pick(b"0123456789ABCDEF")
}

fn line_changed(dice: &mut Dice, text: &[u8]) -> Vec<u8> {
    let mut lines = lines_of(text);
    if lines.is_empty() {
        return Vec::new();
    }
    let (one, other) = (dice.index(lines.len()), dice.index(lines.len()));
    match dice.index(4) {
        0 => lines.swap(one, other),
        1 => {
            lines.remove(one);
        }
        2 => lines.insert(other, lines[one].clone()),
        _ => lines.truncate(one),
    }
    lines.concat()
}

/// A text with a line of some tag put in anywhere: one or two bytes of it, or
/// a few more.
pub fn misplaced(dice: &mut Dice, text: &[u8]) -> Vec<u8> {
    let mut lines = lines_of(text);
    let tags = [
        0xA1, 0xA2, 0xA3, 0xA3, 0xA4, 0xC1, 0xC2, 0xC4, 0xC6, 0xD1, 0x00,
    ];
    let mut bytes = vec![dice.pick(&tags), 0, dice.byte() & 3, 0, 0];
    bytes.truncate(1 + dice.index(5));
    let place = dice.index(lines.len() + 1);
    lines.insert(place, line(&bytes));
    lines.concat()
}

fn lines_of(text: &[u8]) -> Vec<Vec<u8>> {
    let lines = text.split_inclusive(|&c| c == b'\n');
    lines.map(<[u8]>::to_vec).collect()
}

/// Bytes, digits, or lines of digits that begin like blocks.
pub fn noise(dice: &mut Dice, small: bool) -> Vec<u8> {
    let most = if small { 200 } else { 3_000 };
    let length = dice.index(most);
    match dice.index(3) {
        0 => (0..length).map(|_| dice.byte()).collect(),
        1 => {
            let mut text: Vec<u8> = (0..length).map(|_| digit(dice)).collect();
            text.push(b'\n');
            text
        }
        _ => {
            let mut bytes = vec![dice.pick(&[0xA1, 0xA2, 0xA3]), 0];
            bytes.extend((0..length / 8).map(|_| dice.byte() & 0x1F));
            line(&bytes)
        }
    }
}
