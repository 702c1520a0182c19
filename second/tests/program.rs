//! The program as it is run: `judge` with its own limit, `answers` with the
//! form of its stream and of its answers, and wrong arguments.

use std::io::Write;
use std::process::{Command, Stdio};

const HULL: &str = "\
A1000D0000C350000027100000000000
A2002200155CC00FA0119400000189030F04970620078A08FC0A220B050BA20C5C0CCD0D48
A2002200186A001130119400000189030F04970620078A08FC0A220B050BA20C5C0CCD0D48
";
const CONDITION: &str = "A30018C1000C000009C40FA002BC01F400C8C2000600155CC00FA0\n";
const EMPTY: &str = "A30000\n";

/// What the program writes with this input, and its exit code.
fn run(arguments: &[&str], input: &[u8]) -> (String, Option<i32>) {
    let mut child = Command::new(env!("CARGO_BIN_EXE_second"))
        .args(arguments)
        .stdin(Stdio::piped())
        .stdout(Stdio::piped())
        .stderr(Stdio::null())
        .spawn()
        .expect("the program starts");
    let mut pipe = child.stdin.take().expect("a pipe");
    // The program leaves what is beyond 60,001 characters unread.
    let _ = pipe.write_all(input);
    drop(pipe);
    let output = child.wait_with_output().expect("the program ends");
    let written = String::from_utf8(output.stdout).expect("characters");
    (written, output.status.code())
}

/// The first sixteen characters of each line.
fn heads(written: &str) -> Vec<&str> {
    written
        .lines()
        .map(|line| &line[..line.len().min(16)])
        .collect()
}

#[test]
fn judge_prints_a_report_for_each_condition() {
    let text = [HULL, CONDITION, EMPTY, CONDITION].concat();
    let (written, code) = run(&["judge"], text.as_bytes());
    assert_eq!((written.len(), code), (627, Some(0)));
    let said = ["D100650000000000", "D100650500050000", "D100650000000000"];
    assert_eq!(heads(&written), said);
    let (written, _) = run(
        &["judge"],
        [HULL, &CONDITION.repeat(24)].concat().as_bytes(),
    );
    assert_eq!(written.len(), 5_016);
    let (written, _) = run(
        &["judge"],
        [HULL, &CONDITION.repeat(25)].concat().as_bytes(),
    );
    assert_eq!(heads(&written), ["D1006505001C0000"]);
}

#[test]
fn judge_takes_60000_characters() {
    for (length, head) in [
        (60_000, "D100650100010000"),
        (60_001, "D100650100000000"),
        (200_000, "D100650100000000"),
    ] {
        let (written, _) = run(&["judge"], &vec![b'0'; length]);
        assert_eq!(heads(&written), [head]);
    }
}

/// A text with its head in the stream.
fn framed(text: &str, limit: u32, room: u32) -> Vec<u8> {
    let numbers = [text.len() as u32, limit, room].map(u32::to_be_bytes);
    [&numbers.concat(), text.as_bytes()].concat()
}

#[test]
fn answers_have_the_number_and_the_reports() {
    let text = [HULL, CONDITION, EMPTY].concat();
    let stream = [
        framed(&text, 180_000, 418),
        framed(&text, 180_000, 417),
        framed(&text, text.len() as u32 - 1, 209),
        framed("", 0, u32::MAX),
    ]
    .concat();
    let (written, code) = run(&["answers"], &stream);
    let said = [
        "5",
        "D100650000000000",
        "D100650500050000",
        "9",
        "1",
        "D100650100000000",
        "5",
        "D100650500000000",
    ];
    assert_eq!((heads(&written), code), (said.to_vec(), Some(0)));
    assert_eq!(run(&["answers"], &stream[..stream.len() - 1]).1, Some(1));
}

#[test]
fn wrong_arguments_get_exit_code_2() {
    for arguments in [&[][..], &["judge", "1"], &["corpus", "--seed", "1"]] {
        assert_eq!(run(arguments, b""), (String::new(), Some(2)));
    }
}
