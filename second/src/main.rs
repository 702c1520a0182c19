//! The second program's command line: judge one text, make a corpus or name
//! its systematic cases, answer a corpus with reports, judge a text with exact
//! values, and search for texts that a rounding favours.

mod blocks;
mod book;
mod booklet;
mod condition;
mod corpus;
mod criteria;
mod curve;
mod exact;
mod instrument;
mod layout;
mod line;
mod loading;
mod refusal;
mod report;
mod roll;
mod sets;
mod stream;
mod text;
mod unit;

#[cfg(test)]
mod bench;

use std::io::{self, BufReader, BufWriter, ErrorKind, Read, Write};
use std::process::ExitCode;

use book::Document;
use corpus::Corpus;
use instrument::{answer, documents, Call, MOST_ROOM};
use refusal::Refusal;

const USAGE: &str = "usage: second judge | exact | answers | cases [--small] \
                     | corpus --seed S --count N [--small] \
                     | roundings --seed S --count N";

fn main() -> ExitCode {
    let arguments: Vec<String> = std::env::args().skip(1).collect();
    let words: Vec<&str> = arguments.iter().map(String::as_str).collect();
    let done = match words.as_slice() {
        ["judge"] => judge_one(),
        ["exact"] => show_one(),
        ["answers"] => answer_all(),
        ["cases"] => write_names(&Corpus::new(0, false)),
        ["cases", "--small"] => write_names(&Corpus::new(0, true)),
        ["corpus", options @ ..] => match corpus_asked(options) {
            Some((corpus, count)) => write_corpus(&corpus, count),
            None => return usage(),
        },
        ["roundings", "--seed", seed, "--count", count] => match (seed.parse(), count.parse()) {
            (Ok(seed), Ok(count)) => write_roundings(seed, count),
            _ => return usage(),
        },
        _ => return usage(),
    };
    match done {
        Ok(()) => ExitCode::SUCCESS,
        Err(error) if error.kind() == ErrorKind::BrokenPipe => ExitCode::SUCCESS,
        Err(error) => {
            eprintln!("second: {error}");
            ExitCode::FAILURE
        }
    }
}

fn usage() -> ExitCode {
    eprintln!("{USAGE}");
    ExitCode::from(2)
}

/// The most characters that the program takes.
const PROGRAM_LIMIT: usize = 60_000;

/// Standard input as one call, one character beyond the limit at most.
fn read_one() -> io::Result<Call> {
    let mut text = Vec::new();
    let enough = PROGRAM_LIMIT as u64 + 1;
    io::stdin().lock().take(enough).read_to_end(&mut text)?;
    Ok(Call {
        text,
        limit: PROGRAM_LIMIT,
        room: MOST_ROOM,
    })
}

fn judge_one() -> io::Result<()> {
    let answer = answer(&read_one()?);
    io::stdout().lock().write_all(answer.written.as_bytes())
}

/// A table for each condition, in order.
fn show_one() -> io::Result<()> {
    let refused = |refusal: Refusal| format!("refused with {}\n", refusal.number);
    let shown = |read: Result<Document, Refusal>| {
        let table = read.and_then(|document| exact::table(&document));
        table.unwrap_or_else(refused)
    };
    let written = match documents(&read_one()?) {
        Ok(read) => read.into_iter().map(shown).collect(),
        Err(refusal) => refused(refusal),
    };
    io::stdout().lock().write_all(written.as_bytes())
}

fn answer_all() -> io::Result<()> {
    let mut input = BufReader::new(io::stdin().lock());
    let mut output = BufWriter::new(io::stdout().lock());
    while let Some(call) = stream::read_call(&mut input)? {
        output.write_all(answer(&call).shown().as_bytes())?;
    }
    output.flush()
}

fn corpus_asked(options: &[&str]) -> Option<(Corpus, u64)> {
    let (seed, count, small) = match options {
        ["--seed", seed, "--count", count] => (seed, count, false),
        ["--seed", seed, "--count", count, "--small"] => (seed, count, true),
        _ => return None,
    };
    Some((Corpus::new(seed.parse().ok()?, small), count.parse().ok()?))
}

fn write_corpus(corpus: &Corpus, count: u64) -> io::Result<()> {
    let mut output = BufWriter::new(io::stdout().lock());
    for number in 0..count {
        stream::write_call(&mut output, &corpus.call(number))?;
    }
    output.flush()
}

fn write_roundings(seed: u64, count: u64) -> io::Result<()> {
    let mut output = BufWriter::new(io::stdout().lock());
    exact::Search::run(seed, count).print(&mut output)?;
    output.flush()
}

fn write_names(corpus: &Corpus) -> io::Result<()> {
    let mut output = BufWriter::new(io::stdout().lock());
    for (number, name) in corpus.names().enumerate() {
        writeln!(output, "{number} {name}")?;
    }
    output.flush()
}
