//! The differential run finds nothing between the library and the model, and everything between the library and a broken model. What
//! it finds nothing in would show little if an answer of the header never came.
use std::process::{Command, Output};
use tailsprig::model::Mistake;

fn differ(words: &[&str]) -> Output {
    Command::new(env!("CARGO_BIN_EXE_differ")).args(words).output().expect("differ can be run")
}

/// Every call, and every answer that the header names for it; a count or a place is told as 0, a block or a span as 1 and none as 0.
const ANSWERS: [(&str, &str); 22] = [
    ("write", "-12 -10 -6 -5 -4 -3 0"),
    ("write_cj", "-6 0"),
    ("fresh and hear", "-13 -10 -4 -3 -2 -1 0 1 2 3 4"),
    ("hear_many", "-13 -10 -4 -3 -2 -1 0 1 2 3 4"),
    ("last_span", "-10 0 1"),
    ("find", "-5 -4 -3 0 64"),
    ("part", "0"),
    ("read", "-5 -4 -3 0"),
    ("asks", "-9 -5 -4 -3 0 1"),
    ("fields", "-15 -14 -6 -5 -4 -3 0"),
    ("blocks", "-14 0"),
    ("block_of", "0 1"),
    ("block_at", "0 1"),
    ("cm", "-14 -10 -6 -5 -4 0"),
    ("jm", "-10 -6 -5 -4 -3 0"),
    ("call_function", "0 1 2"),
    ("choice", "-11 -5 -4 -3 0 1 2 3 4 5 6 7 8 9 10 11 12 17 18 19 20 21 22 23"),
    ("start_caller", "-16 -10 0"),
    ("start_caller_default", "-16 -10 0"),
    ("start_answerer", "0"),
    ("step", "-10 -9 -8 -7 0 2 3 4 5 6 8 9 17 18 19 20 33 34 35 36 37 38 39 40 41 42 43 44 49 50 51 52 53 54 55"),
    ("draw", "-10 0"),
];

#[test]
fn the_library_and_the_model_answer_the_same_and_every_answer_comes() {
    let run = differ(&[]);
    let printed = String::from_utf8_lossy(&run.stdout);
    assert_eq!(run.status.code(), Some(0), "{printed}");
    let lines: Vec<&str> = printed.lines().collect();
    assert_eq!(lines.len(), ANSWERS.len() + 1, "{printed}");
    for (line, (call, answers)) in lines.iter().zip(ANSWERS) {
        assert!(line.starts_with(&format!("{call} ")), "{line}");
        assert!(line.ends_with(&format!(" inputs, 0 differ; answers {answers}")), "{line}");
    }
}

#[test]
fn every_broken_model_is_noticed() {
    for (name, mistake) in Mistake::ALL {
        let run = differ(&["--broken", name]);
        assert_eq!(run.status.code(), Some(1), "{mistake:?}: {}", String::from_utf8_lossy(&run.stdout));
    }
}

#[test]
fn what_is_no_run_is_refused() {
    for words in [&["--broken", "nothing"][..], &["--inputs", "0"], &["--inputs"], &["--seed", "x"], &["all"]] {
        assert_eq!(differ(words).status.code(), Some(2), "{words:?}");
    }
}
