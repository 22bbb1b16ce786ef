//! The wire's bytes, written out by hand, and the room that decides refusal 7.

use second::check::judge_solve;
use second::draft::Draft;
use second::question::Question;
use second::wire::{fresh_buffer, Answer, Request};
use second::worked::{all_cases, worked_cases};

fn written(write: impl Fn(&mut Vec<u8>) -> std::io::Result<()>) -> Vec<u8> {
    let mut bytes = Vec::new();
    write(&mut bytes).unwrap();
    bytes
}

#[test]
fn requests_have_the_wires_bytes() {
    let solve = Request::Solve { room: 300, file: vec![7, 8] };
    assert_eq!(written(|out| solve.write(out)), [b'S', 44, 1, 0, 0, 2, 0, 0, 0, 7, 8]);
    let question = Question { period: 1, kind: 2, number: 3, at_tail: -1, at_head: 256 };
    let asked = Request::Question { question, file: vec![9] };
    let numbers = [1, 0, 0, 0, 2, 0, 0, 0, 3, 0, 0, 0, 255, 255, 255, 255, 0, 1, 0, 0, 1, 0, 0, 0];
    assert_eq!(written(|out| asked.write(out)), [&b"Q"[..], &numbers, &[9]].concat());
}

#[test]
fn answers_have_the_wires_bytes_and_read_back() {
    let solved = Answer::Solved { number: 5, place: 258, buffer: vec![1, 2, 3] };
    let bytes = written(|out| solved.write(out));
    assert_eq!(bytes, [5, 0, 0, 0, 2, 1, 0, 0, 1, 2, 3]);
    let request = Request::Solve { room: 3, file: vec![] };
    assert_eq!(request.read_answer(&mut &bytes[..]).unwrap(), solved);
}

/// The slack follows number 0, and nothing follows a refusal: what comes next in the stream is the next answer's.
#[test]
fn a_question_is_answered_with_a_slack_or_refused_without() {
    let question = Question { period: 1, kind: 2, number: 3, at_tail: -1, at_head: 256 };
    let request = Request::Question { question, file: vec![] };
    let answers = [
        (Answer::Replied { number: 0, place: 0, slack: Some(1) }, vec![0, 0, 0, 0, 0, 0, 0, 0, 1, 0, 0, 0]),
        (Answer::Replied { number: 0, place: 0, slack: Some(-2) }, vec![0, 0, 0, 0, 0, 0, 0, 0, 254, 255, 255, 255]),
        (
            Answer::Replied { number: 0, place: 0, slack: Some(-3_109_999) },
            vec![0, 0, 0, 0, 0, 0, 0, 0, 145, 139, 208, 255],
        ),
        (Answer::Replied { number: 6, place: 258, slack: None }, vec![6, 0, 0, 0, 2, 1, 0, 0]),
    ];
    for (answer, bytes) in answers {
        assert_eq!(written(|out| answer.write(out)), bytes, "{answer:?}");
        let followed = [&bytes[..], &[7, 7, 7, 7]].concat();
        let mut rest = &followed[..];
        assert_eq!(request.read_answer(&mut rest).unwrap(), answer);
        assert_eq!(rest, [7, 7, 7, 7], "{answer:?}");
        let short = &bytes[..bytes.len() - 1];
        assert!(request.read_answer(&mut &short[..]).is_err(), "{answer:?} cut short");
    }
}

#[test]
fn the_buffer_is_filled_as_the_wire_says() {
    assert_eq!(fresh_buffer(0), []);
    assert_eq!(fresh_buffer(5), [165, 172, 179, 186, 193]);
    assert_eq!(fresh_buffer(8_192)[13..15], [0, 7]);
    assert_eq!(fresh_buffer(8_192).len(), 8_192);
}

#[test]
fn streams_beyond_the_wires_limits_are_not_read() {
    for (room, length) in [(-1, 0), (8_193, 0), (0, -1), (0, 65_537)] {
        let bytes = [&b"S"[..], &i32::to_le_bytes(room), &i32::to_le_bytes(length)].concat();
        assert!(Request::read(&mut &bytes[..]).is_err(), "room {room}, length {length}");
    }
}

/// The room is wanted whatever the answer is, but after the file's own refusals.
#[test]
fn one_byte_short_is_refused_with_7_whatever_the_verdict_would_be() {
    let number_due = |draft: &Draft, room: i32| {
        let buffer = fresh_buffer(room);
        (0..=9).filter(|&number| judge_solve(&draft.file(), &buffer, number, 0, &buffer).is_ok()).collect::<Vec<_>>()
    };
    for case in all_cases() {
        let exact = 14 + 16 * case.draft.registers.len() as i32;
        for room in [0, 13, 14, exact - 1] {
            assert_eq!(number_due(&case.draft, room), [7], "{} in {room} bytes", case.name);
        }
        // With the room there, an untouched buffer is right for no number: something has to be written.
        assert_eq!(number_due(&case.draft, exact), [], "{}", case.name);
    }
    let faulty = Draft { ceiling: 0, ..worked_cases().swap_remove(0).draft };
    assert_eq!(number_due(&faulty, 0), [4]);
}
