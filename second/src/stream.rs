//! The framed stream of texts: for each text four bytes with its length, four
//! with the limit of characters and four with the bytes of room, each the
//! highest first, then the text. It ends only before a length.

use std::io::{self, Read, Write};

use crate::instrument::Call;

/// The longest text that a stream carries.
pub const LONGEST: usize = 180_001;

pub fn write_call(out: &mut impl Write, call: &Call) -> io::Result<()> {
    carried(call.text.len())?;
    for number in [call.text.len(), call.limit, call.room] {
        let number = u32::try_from(number)
            .map_err(|_| io::Error::new(io::ErrorKind::InvalidInput, "a number is too great"))?;
        out.write_all(&number.to_be_bytes())?;
    }
    out.write_all(&call.text)
}

/// The next text with its limit and its room, or none at the end.
pub fn read_call(input: &mut impl Read) -> io::Result<Option<Call>> {
    let header = up_to(input, 12)?;
    if header.is_empty() {
        return Ok(None);
    }
    if header.len() < 12 {
        return Err(cut("a head"));
    }
    let number = |at: usize| {
        header[at..at + 4]
            .iter()
            .fold(0, |n, &byte| n * 256 + usize::from(byte))
    };
    let length = number(0);
    carried(length)?;
    let text = up_to(input, length)?;
    if text.len() < length {
        return Err(cut("a text"));
    }
    Ok(Some(Call {
        text,
        limit: number(4),
        room: number(8),
    }))
}

fn up_to(input: &mut impl Read, count: usize) -> io::Result<Vec<u8>> {
    let mut bytes = Vec::new();
    input.take(count as u64).read_to_end(&mut bytes)?;
    Ok(bytes)
}

fn carried(length: usize) -> io::Result<()> {
    if length > LONGEST {
        let message = format!("a text has more than {LONGEST} characters");
        return Err(io::Error::new(io::ErrorKind::InvalidInput, message));
    }
    Ok(())
}

fn cut(what: &str) -> io::Error {
    io::Error::new(
        io::ErrorKind::UnexpectedEof,
        format!("the stream ends within {what}"),
    )
}

#[cfg(test)]
mod tests {
    use super::*;

    fn call(text: &[u8], limit: usize, room: usize) -> Call {
        Call {
            text: text.to_vec(),
            limit,
            room,
        }
    }

    #[test]
    fn round_trip() {
        let calls = [
            call(b"", 0, 0),
            call(b"A1\n", 180_000, 5_016),
            call(&[0, 255, 10], 4_294_967_295, 209),
            call(&[7; LONGEST], 60_000, 4_294_967_295),
        ];
        let mut stream = Vec::new();
        for call in &calls {
            assert!(write_call(&mut stream, call).is_ok());
        }
        let mut rest = stream.as_slice();
        for call in calls {
            assert_eq!(read_call(&mut rest).ok().flatten(), Some(call));
        }
        assert!(matches!(read_call(&mut rest), Ok(None)));
    }

    /// The form byte for byte, as the decisions have it.
    #[test]
    fn the_form_of_a_stream() {
        let mut stream = Vec::new();
        assert!(write_call(&mut stream, &call(b"A1", 258, 772)).is_ok());
        assert_eq!(stream, [0, 0, 0, 2, 0, 0, 1, 2, 0, 0, 3, 4, b'A', b'1']);
    }

    #[test]
    fn a_cut_stream_is_an_error() {
        let whole = [0, 0, 0, 2, 0, 0, 0, 9, 0, 0, 0, 9, b'A', b'1'];
        assert!(read_call(&mut &whole[..]).is_ok());
        for kept in 1..whole.len() {
            assert!(read_call(&mut &whole[..kept]).is_err());
        }
    }

    #[test]
    fn texts_that_no_stream_carries() {
        let long = call(&[b'0'; LONGEST + 1], 9, 9);
        assert!(write_call(&mut Vec::new(), &long).is_err());
        assert!(write_call(&mut Vec::new(), &call(b"", 1 << 32, 9)).is_err());
        assert!(write_call(&mut Vec::new(), &call(b"", 9, 1 << 32)).is_err());
        let mut head = vec![0, 2, 0xBF, 0x22, 0, 0, 0, 9, 0, 0, 0, 9];
        head.extend(long.text);
        assert!(read_call(&mut head.as_slice()).is_err());
    }
}
