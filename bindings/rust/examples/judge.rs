//! Judges standard input and prints the report lines: the instrument called from Rust.

use std::io::{self, Read, Write};

fn main() -> io::Result<()> {
    let mut text = Vec::new();
    io::stdin().take(rostblume::TEXT as u64 + 1).read_to_end(&mut text)?;
    let mut reports = vec![0; rostblume::room(&text)];
    rostblume::judge(&text, &mut reports);
    // What is written ends before the first byte that is still 0.
    let written = reports.iter().position(|&byte| byte == 0).unwrap_or(reports.len());
    io::stdout().write_all(&reports[..written])
}
