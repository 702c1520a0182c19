//! The proved stability instrument, for Rust. The archive is x86-64 code: `bindings/run` makes it (of crates/instrument_c).

/// How many characters a report line has, and how many a text may have.
pub const REPORT: usize = 209;
pub const TEXT: usize = 180_000;

extern "C" {
    fn rostblume_judge(
        text: *const u8,
        text_length: usize,
        report: *mut u8,
        report_length: usize,
    ) -> u8;
    fn rostblume_room(text: *const u8, text_length: usize) -> usize;
}

/// Judges one text, of any length and any bytes: a ship, its rows and up to 24 conditions. The number is that of document 01 and
/// request 4, 0 to 10: 0 where every condition is judged, 9 where the buffer has no room; else the number of the whole text, 1 to 6 or
/// 10 (a row of the KN table with a typing slip), or the first number among its conditions that is not 0, 2 to 8. One report line of
/// 209 characters is written for each condition, in order, or a single one for a text that is refused as a whole; bytes beyond keep
/// their values, and a report holds no byte 0. With 9 nothing is written.
/// The caller's thread has 64 KiB of stack to spare: no contract bounds it, and what was measured stands in docs/TRUST.md.
pub fn judge(text: &[u8], report: &mut [u8]) -> u8 {
    // SAFETY: the contract asks for two slices, and these are slices that cannot overlap.
    unsafe { rostblume_judge(text.as_ptr(), text.len(), report.as_mut_ptr(), report.len()) }
}

/// How many bytes of room a text asks for: 209, or 209 for each of its condition lines, 5,016 at most. `judge` gives 9 exactly where
/// the buffer is shorter.
pub fn room(text: &[u8]) -> usize {
    // SAFETY: the contract asks for a slice.
    unsafe { rostblume_room(text.as_ptr(), text.len()) }
}
