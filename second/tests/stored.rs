//! The stored run of the program under examination: its requests are the worked files, and its answers are the paper's.

mod support;

use std::fs;
use std::path::PathBuf;

use second::wire::{Answer, Request};
use second::worked::{all_cases, Case};
use support::{accepted, loops_allowed, output};

fn stored(name: &str) -> Vec<u8> {
    let path = PathBuf::from(env!("CARGO_MANIFEST_DIR")).join("../crates/exam").join(name);
    fs::read(&path).unwrap_or_else(|error| panic!("{}: {error}", path.display()))
}

fn request(case: &Case) -> Request {
    Request::Solve { room: case.draft.room(), file: case.draft.file() }
}

#[test]
fn the_requests_are_the_worked_files() {
    let mut due = Vec::new();
    all_cases().iter().for_each(|case| request(case).write(&mut due).unwrap());
    assert!(stored("stdin") == due);
}

#[test]
fn the_answers_are_the_papers() {
    let bytes = stored("stdout");
    let mut input = &bytes[..];
    for case in all_cases() {
        let Answer::Solved { number, place, buffer } = request(&case).read_answer(&mut input).unwrap() else {
            panic!("{}: a question's answer", case.name);
        };
        assert_eq!((number, place), (case.number, 0), "{}", case.name);
        let mut allowed = loops_allowed(&accepted(&case.draft), case.number, case.period);
        if allowed.is_empty() {
            allowed.push(Vec::new());
        }
        let due = |witness| output(case.draft.room(), case.period, case.latencies, witness) == buffer;
        assert!(allowed.iter().any(|witness| due(witness)), "{}", case.name);
    }
    assert!(input.is_empty());
}
