//! The program as it is run: its commands, streams and exit codes.

use std::io::Write;
use std::path::PathBuf;
use std::process::{Command, Output, Stdio};

use second::gen::{shapes, Source};
use second::wire::{Request, FILE_MOST, ROOM_MOST};
use second::worked::worked_cases;

fn second(words: &[&str], input: &[u8]) -> Output {
    let mut command = Command::new(env!("CARGO_BIN_EXE_second"));
    command.args(words).stdin(Stdio::piped()).stdout(Stdio::piped()).stderr(Stdio::piped());
    let mut child = command.spawn().unwrap();
    let mut stdin = child.stdin.take().unwrap();
    let input = input.to_vec();
    // Both streams may be longer than a pipe holds, so input is fed while output is read.
    let feeder = std::thread::spawn(move || drop(stdin.write_all(&input)));
    let output = child.wait_with_output().unwrap();
    feeder.join().unwrap();
    output
}

/// A file in the test folder, by a name no other test uses.
fn stored(name: &str, bytes: &[u8]) -> String {
    let path = PathBuf::from(env!("CARGO_TARGET_TMPDIR")).join(name);
    std::fs::write(&path, bytes).unwrap();
    path.to_str().unwrap().to_string()
}

fn judged(name: &str, requests: &[u8], answers: &[u8]) -> (Option<i32>, String) {
    let requests = stored(&format!("{name}.requests"), requests);
    let answers = stored(&format!("{name}.answers"), answers);
    let output = second(&["judge", &requests, &answers], b"");
    let text = String::from_utf8(output.stdout).unwrap();
    (output.status.code(), text.lines().last().unwrap_or("").to_string())
}

#[test]
fn solve_prints_the_listing() {
    let output = second(&["solve"], &worked_cases()[0].draft.file());
    assert_eq!(output.stdout, b"period 9\nlatency 0 0\nlatency 1 1\nlatency 2 -1\nloop 8\nsetup 0\nhold 0\n");
    assert_eq!(output.status.code(), Some(0));
}

#[test]
fn a_stream_asked_answered_and_judged_is_clean() {
    let requests = second(&["ask", "5", "500"], b"").stdout;
    assert_eq!(requests, second(&["ask", "5", "500", "mix"], b"").stdout);
    let answers = second(&["answer"], &requests).stdout;
    assert_eq!(judged("clean", &requests, &answers), (Some(0), "judged 500, wrong 0".to_string()));
}

#[test]
fn files_are_asked_for_one_after_the_other() {
    let cases = worked_cases();
    let names: Vec<String> =
        cases.iter().map(|case| stored(&format!("{}.net", case.name), &case.draft.file())).collect();
    let words: Vec<&str> = ["ask", "files"].into_iter().chain(names.iter().map(String::as_str)).collect();
    let requests = second(&words, b"").stdout;
    let mut rest = &requests[..];
    for case in &cases {
        let due = Request::Solve { room: ROOM_MOST, file: case.draft.file() };
        assert_eq!(Request::read(&mut rest).unwrap(), Some(due), "{}", case.name);
    }
    assert!(rest.is_empty());
    assert_eq!(second(&["ask", "files", "no such file"], b"").status.code(), Some(2));
}

#[test]
fn what_the_paper_works_by_hand_is_asked_for_in_one_run() {
    let requests = second(&["ask", "worked"], b"").stdout;
    let answers = second(&["answer"], &requests).stdout;
    assert_eq!(judged("worked", &requests, &answers), (Some(0), "judged 73, wrong 0".to_string()));
}

#[test]
fn answers_cut_short_or_too_long_fail() {
    let requests = second(&["ask", "6", "50", "tiny"], b"").stdout;
    let answers = second(&["answer"], &requests).stdout;
    let short = &answers[..answers.len() - 1];
    let broken = |fault: &str, judged| (Some(1), format!("BROKEN: {fault}; {judged} judged, 0 wrong"));
    assert_eq!(judged("short", &requests, short), broken("the answers are cut short at request 49", 49));
    let long = [&answers[..], &[0]].concat();
    assert_eq!(judged("long", &requests, &long), broken("1 bytes follow the last answer", 50));
    assert_eq!(judged("none", &requests, b""), broken("the answers are cut short at request 0", 0));
}

#[test]
fn every_wrong_program_fails_the_judge() {
    let of_schedules = "hold-period round-down shifted worst-path setup-only strict";
    let of_slacks =
        "hold-period hold-turned cut-off one-off low-tail u-sign delays-exchanged sender-charged times-exchanged";
    let of_charges =
        "self-hold-charged host-hold-charged self-setup-uncharged hold-uncharged way-back self-hold-missing";
    let streams = [
        ("tiny", of_schedules.to_string()),
        ("toggles", of_charges.to_string()),
        ("questions", format!("{of_slacks} {of_charges} equal-latencies")),
    ];
    for (shape, names) in streams {
        let requests = second(&["ask", "7", "400", shape], b"").stdout;
        for name in names.split(' ') {
            let answers = second(&["wrong", name], &requests).stdout;
            let (code, last) = judged(&format!("{shape}-{name}"), &requests, &answers);
            assert_eq!(code, Some(1), "{name}: {last}");
            assert!(last.starts_with("judged 400, wrong ") && !last.ends_with(" 0"), "{name}: {last}");
        }
    }
}

#[test]
fn wrongs_reports_every_program() {
    let output = second(&["wrongs", "8", "2000"], b"");
    let text = String::from_utf8(output.stdout).unwrap();
    assert_eq!(output.status.code(), Some(0), "{text}");
    assert_eq!(text.lines().filter(|line| line.ends_with(", as it should be")).count(), 22, "{text}");
    // Without a single request no wrong program can be caught, and that must not pass for success.
    assert_eq!(second(&["wrongs", "8", "0"], b"").status.code(), Some(1));
}

#[test]
fn unknown_words_and_misformed_streams_exit_with_2() {
    for words in [&[][..], &["sing"], &["ask", "1", "x"], &["ask", "1", "1", "round"], &["wrong", "right"]] {
        assert_eq!(second(words, b"").status.code(), Some(2), "{words:?}");
    }
    assert_eq!(second(&["answer"], b"X").status.code(), Some(2));
    assert_eq!(second(&["answer"], b"S\0\0").status.code(), Some(2));
}

#[test]
fn every_shape_gives_requests_within_the_wires_limits_that_read_back_the_same() {
    for shape in shapes() {
        let mut source = Source::new(9, shape).unwrap();
        for _ in 0..30 {
            let request = source.request();
            if let Request::Solve { room, .. } = request {
                assert!((0..=ROOM_MOST).contains(&room), "{shape}: room {room}");
            }
            assert!(request.file().len() <= FILE_MOST as usize, "{shape}: {} bytes", request.file().len());
            let mut bytes = Vec::new();
            request.write(&mut bytes).unwrap();
            let mut rest = &bytes[..];
            assert_eq!(Request::read(&mut rest).unwrap(), Some(request), "{shape}");
            assert_eq!(Request::read(&mut rest).unwrap(), None, "{shape}");
        }
    }
}
