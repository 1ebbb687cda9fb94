//! The comparison of calls finds nothing where nothing is wrong, and one byte that is.

use std::io::Write;
use std::process::{Command, Output, Stdio};

fn calls(word: &str, input: &[u8]) -> Output {
    let mut child = Command::new(env!("CARGO_BIN_EXE_calls"))
        .args([word, "7", "60"])
        .stdin(Stdio::piped())
        .stdout(Stdio::piped())
        .spawn()
        .unwrap();
    let mut stdin = child.stdin.take().unwrap();
    let input = input.to_vec();
    let writer = std::thread::spawn(move || stdin.write_all(&input));
    let output = child.wait_with_output().unwrap();
    _ = writer.join();
    output
}

/// What the comparison says last, and its exit status.
fn compared(answers: &[u8]) -> (String, Option<i32>) {
    let output = calls("compare", answers);
    let said = String::from_utf8(output.stdout).unwrap();
    (said.lines().last().unwrap_or_default().to_owned(), output.status.code())
}

#[test]
fn each_byte_that_comes_back_counts() {
    let right = calls("answer", b"").stdout;
    let (said, status) = compared(&right);
    assert!(said.ends_with(" calls compared, 0 differ"), "{said}");
    assert_eq!(status, Some(0));
    for at in [0, 4, 20, right.len() / 3, right.len() / 2, right.len() - 1] {
        let mut wrong = right.clone();
        wrong[at] ^= 1;
        let (said, status) = compared(&wrong);
        assert!(said.ends_with(" calls compared, 1 differ"), "{at}: {said}");
        assert_eq!(status, Some(1));
    }
}

#[test]
fn a_byte_missing_or_too_many_fails() {
    let right = calls("answer", b"").stdout;
    assert_eq!(compared(&right[..right.len() - 1]).1, Some(1));
    assert_eq!(compared(&[&right[..], b"x"].concat()).1, Some(1));
    assert_eq!(compared(b"").1, Some(1));
}
