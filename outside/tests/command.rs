//! The command line, as it is called from outside.

use std::io::Write;
use std::process::{Command, Stdio};

/// Runs the program and answers what it prints and its status.
fn run(args: &[&str], input: &[u8]) -> (String, i32) {
    let mut child = Command::new(env!("CARGO_BIN_EXE_outside"))
        .args(args)
        .stdin(Stdio::piped())
        .stdout(Stdio::piped())
        .spawn()
        .unwrap();
    // A thread of its own, so that neither side waits for the other. A program that does not read is no fault.
    let mut stdin = child.stdin.take().unwrap();
    let input = input.to_vec();
    let writer = std::thread::spawn(move || drop(stdin.write_all(&input)));
    let output = child.wait_with_output().unwrap();
    writer.join().unwrap();
    (String::from_utf8(output.stdout).unwrap(), output.status.code().unwrap())
}

#[test]
fn rows_are_printed_as_the_rules_say() {
    let (out, status) = run(&["rows"], b"allow * * * * 6");
    assert_eq!(out, "rows 3\nnone * * * * 0-5\nallow * * * * 6\nnone * * * * 7-255\n");
    assert_eq!(status, 0);
    let (out, status) = run(&["rows"], b"allow * * 10.0.0.256 * 6");
    assert_eq!((out.as_str(), status), ("refused 10 layer 2 line 1 column 11\n", 1));
    let (out, status) = run(&["rows", "--marks"], b"log+hold * * * * *\n");
    assert_eq!((out.as_str(), status), ("rows 1\nlog+hold * * * * *\n", 0));
    let onion: String = (0..64)
        .map(|i| format!("{} * {i}-{} * {i}-{} {i}-{}\n", ["deny", "allow"][i % 2], 999 - i, 999 - i, 255 - i))
        .rev()
        .collect();
    let (out, status) = run(&["rows"], onion.as_bytes());
    assert_eq!((out.as_str(), status), ("refused 5 layer 0 line 0 column 0\n", 1));
}

#[test]
fn packed_bytes_go_from_call_to_call() {
    let pack = Command::new(env!("CARGO_BIN_EXE_outside")).args(["pack", "/dev/null"]).output().unwrap();
    assert_eq!(pack.stdout.len(), 512);
    assert_eq!(run(&["open"], &pack.stdout), ("opened 1\n".to_string(), 0));
    assert_eq!(run(&["open", "--marks"], &pack.stdout), ("refused 14 place 0\n".to_string(), 1));
    let block = pack.stdout.iter().map(|byte| format!("{byte:02x}")).collect::<String>();
    assert_eq!(run(&["repack"], &pack.stdout), (format!("packed 1\nblock {block}\n"), 0));
    assert_eq!(run(&["repack"], &pack.stdout[1..]), ("refused 11 place 0\n".to_string(), 1));
    assert_eq!(
        run(&["opened", "-", "1.2.3.4", "5", "6.7.8.9", "0", "0"], &pack.stdout),
        ("decision 1\n".to_string(), 0)
    );
    assert_eq!(run(&["rig", "-", "0.0.0.0", "0", "0.0.0.0", "0", "0"], &pack.stdout), ("answer 1\n".to_string(), 0));
}

#[test]
fn expected_answers_are_the_answers_to_the_stream() {
    for call in ["read", "rows", "open", "packed"] {
        let (lines, _) = run(&["stream", "4", "160", call], b"");
        assert_eq!(lines.lines().count(), 160);
        let (answers, _) = run(&["answer"], lines.as_bytes());
        let (expected, _) = run(&["expect", "4", "160", call], b"");
        assert!(answers == expected, "{call}");
    }
}

#[test]
fn programs_are_compared() {
    let itself = format!("{} answer", env!("CARGO_BIN_EXE_outside"));
    let (out, status) = run(&["agree", "5", "300", &itself, &itself], b"");
    let last = out.lines().last().unwrap();
    assert!(last.starts_with("agree: seed 5, 300 tables, ") && last.ends_with(" 0 differences"), "{out}");
    assert_eq!((out.lines().count(), status), (2, 0));
    let (out, status) = run(&["agree", "5", "30", &itself, "cat"], b"");
    assert!(out.starts_with("difference: cat, line 1 of the answer\n  case     rig "), "{out}");
    assert_eq!(status, 1);
}

#[test]
fn lists_are_made_from_seeds() {
    let (text, status) = run(&["list", "realistic", "1"], b"");
    assert_eq!((text.lines().count(), status), (64, 0));
    assert_eq!(run(&["read"], text.as_bytes()), ("taken 64\n".to_string(), 0));
    assert_ne!(run(&["list", "realistic", "2"], b"").0, text);
}

#[test]
fn wrong_use_is_told() {
    for args in [
        &["nothing"][..],
        &[],
        &["stream", "x", "1"],
        &["stream", "1", "1", "nothing"],
        &["winner", "a"],
        &["list", "nothing", "1"],
        &["agree", "1", "1", "cat"],
    ] {
        assert_eq!(run(args, b"").1, 2);
    }
}
