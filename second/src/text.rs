//! From characters to lines of bytes. A line is an even, nonzero number of
//! digits 0-9 A-F and then one LF; anything else is refusal 1.

use crate::refusal::Refusal;

/// The most characters that the library takes, whatever limit it is given.
pub const MOST_CHARACTERS: usize = 180_000;

/// The bytes of every line, or refusal 1 for the whole text: at line 0 where
/// it has more characters than the limit, LFs counted.
pub fn lines(text: &[u8], limit: usize) -> Result<Vec<Vec<u8>>, Refusal> {
    if text.len() > limit.min(MOST_CHARACTERS) {
        return Err(Refusal::at(1, 0, 0));
    }
    let mut pieces: Vec<&[u8]> = text.split(|&c| c == b'\n').collect();
    let unended = pieces.pop().unwrap_or_default();
    let mut lines = Vec::with_capacity(pieces.len());
    for piece in pieces {
        match bytes_of(piece) {
            Some(bytes) => lines.push(bytes),
            None => return Err(Refusal::at(1, lines.len() + 1, 0)),
        }
    }
    if !unended.is_empty() {
        return Err(Refusal::at(1, lines.len() + 1, 0));
    }
    Ok(lines)
}

fn bytes_of(piece: &[u8]) -> Option<Vec<u8>> {
    if piece.is_empty() || piece.len() % 2 == 1 {
        return None;
    }
    piece
        .chunks(2)
        .map(|pair| Some(digit(pair[0])? * 16 + digit(pair[1])?))
        .collect()
}

fn digit(character: u8) -> Option<u8> {
    match character {
        b'0'..=b'9' => Some(character - b'0'),
        b'A'..=b'F' => Some(character - b'A' + 10),
        _ => None,
    }
}

#[cfg(test)]
mod tests {
    use super::*;

    fn all(text: &[u8]) -> Result<Vec<Vec<u8>>, Refusal> {
        lines(text, MOST_CHARACTERS)
    }

    fn first_bad(text: &str) -> Option<usize> {
        all(text.as_bytes()).err().map(|refusal| refusal.line)
    }

    #[test]
    fn what_a_line_is() {
        assert_eq!(all(b"00FF\nA1\n"), Ok(vec![vec![0, 255], vec![0xA1]]));
        assert_eq!(all(b""), Ok(vec![]));
        assert_eq!(first_bad("\n"), Some(1));
        assert_eq!(first_bad("00\n\n00\n"), Some(2));
        assert_eq!(first_bad("00\n000\n"), Some(2));
        assert_eq!(first_bad("00\r\n"), Some(1));
        assert_eq!(first_bad("00\na1\n"), Some(2));
        assert_eq!(first_bad("00\n00"), Some(2));
        assert_eq!(first_bad("00\n0G\n00"), Some(2));
    }

    /// One character over the limit is too long, wherever the limit is; none
    /// is over 180,000.
    #[test]
    fn over_the_limit() {
        for (limit, most) in [
            (0, 0),
            (7, 7),
            (12_000, 12_000),
            (60_000, 60_000),
            (180_000, 180_000),
            (180_001, 180_000),
            (usize::MAX, 180_000),
        ] {
            let text = vec![b'0'; most + 1];
            assert_eq!(lines(&text, limit), Err(Refusal::at(1, 0, 0)));
            let unended = Err(Refusal::at(1, 1, 0));
            let expected = if most == 0 { Ok(vec![]) } else { unended };
            assert_eq!(lines(&text[1..], limit), expected);
        }
    }
}
