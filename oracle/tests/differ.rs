//! The comparison finds nothing where nothing is wrong, and finds each thing that can be.

use std::io::Write;
use std::process::{Command, Output, Stdio};

const COUNT: usize = 300;

fn differ(words: &[&str], input: &[u8]) -> Output {
    let mut child = Command::new(env!("CARGO_BIN_EXE_differ"))
        .args(words)
        .stdin(Stdio::piped())
        .stdout(Stdio::piped())
        .stderr(Stdio::piped())
        .spawn()
        .unwrap();
    let mut stdin = child.stdin.take().unwrap();
    let input = input.to_vec();
    let writer = std::thread::spawn(move || stdin.write_all(&input));
    let output = child.wait_with_output().unwrap();
    _ = writer.join();
    output
}

/// The answers of the gate here, a line each.
fn answers() -> Vec<String> {
    let frames = differ(&["frames", "7", &COUNT.to_string()], b"").stdout;
    let lines = String::from_utf8(differ(&["answer"], &frames).stdout).unwrap();
    lines.lines().map(String::from).collect()
}

/// What the comparison says of these lines, and its exit status.
fn compared(lines: &[String], more: &[&str]) -> (Vec<String>, i32) {
    let text: String = lines.iter().map(|line| format!("{line}\n")).collect();
    let count = COUNT.to_string();
    let words = [&["compare", "7", &count], more].concat();
    let output = differ(&words, text.as_bytes());
    let said = String::from_utf8(output.stdout).unwrap();
    (said.lines().map(String::from).collect(), output.status.code().unwrap())
}

#[test]
fn right_answers_pass() {
    let (said, status) = compared(&answers(), &[]);
    assert_eq!((said.last().unwrap().as_str(), status), ("300 compared, 0 differ", 0));
}

#[test]
fn each_number_of_each_line_counts() {
    let right = answers();
    for (index, part) in [(0, 0), (150, 1), (299, 2), (77, 3)] {
        let mut lines = right.clone();
        let mut numbers: Vec<usize> = lines[index].split(' ').map(|number| number.parse().unwrap()).collect();
        numbers[part] += 1;
        lines[index] = numbers.iter().map(usize::to_string).collect::<Vec<_>>().join(" ");
        let (said, status) = compared(&lines, &[]);
        assert_eq!((said.last().unwrap().as_str(), status), ("300 compared, 1 differ", 1));
        assert!(said[0].ends_with(&format!("wanted {}, got {}", right[index], lines[index])), "{said:?}");
    }
}

#[test]
fn a_line_missing_or_too_many_fails() {
    let right = answers();
    let (said, status) = compared(&right[..COUNT - 1], &[]);
    assert_eq!((said[0].as_str(), status), ("299 lines for 300 requests", 1));
    assert_eq!(said.last().unwrap(), "299 compared, 0 differ");
    let (said, status) = compared(&[right, vec!["0 0 1 0".into()]].concat(), &[]);
    assert_eq!((said[0].as_str(), status), ("301 lines for 300 requests", 1));
    let (_, status) = compared(&[], &[]);
    assert_eq!(status, 1);
    assert_eq!(differ(&["compare", "7", "0"], b"").status.code(), Some(1), "nothing compared is no success");
}

#[test]
fn a_request_that_differs_is_saved() {
    let folder = std::env::temp_dir().join(format!("differ-{}", std::process::id()));
    let mut lines = answers();
    lines[3] = "13 0 0 0".into();
    let (said, status) = compared(&lines, &[folder.to_str().unwrap()]);
    assert_eq!(status, 1);
    let name = said[0].split(':').next().unwrap();
    let text = oracle::generate::texts(7, COUNT).nth(3).unwrap();
    assert_eq!(name, text.name);
    assert_eq!(std::fs::read(folder.join(format!("{name}.req"))).unwrap(), text.bytes);
    std::fs::remove_dir_all(folder).unwrap();
}

#[test]
fn every_generated_request_fits_a_frame() {
    let frames = differ(&["frames", "1", "6000"], b"").stdout;
    let mut rest = &frames[..];
    let mut count = 0;
    while let Some((length, after)) = rest.split_first_chunk() {
        let length = u32::from_le_bytes(*length) as usize;
        assert!(length <= 70_000);
        rest = &after[length..];
        count += 1;
    }
    assert_eq!((count, rest.len()), (6000, 0));
}

#[test]
fn bad_words_are_refused() {
    for words in [&["frames", "1"][..], &["frames", "x", "1"], &["compare", "1", "-1"], &[]] {
        assert_eq!(differ(words, b"").status.code(), Some(2));
    }
}
