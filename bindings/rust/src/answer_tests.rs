//! What a library leaves that does not keep to the rules is never taken for an answer.

use super::*;
use crate::network::{Host, Path, PathId, Period, Register};

/// Two registers and one path; 64 bytes of output would be enough.
fn file() -> Vec<u8> {
    let mut network = Network::new(Period { floor: 1, ceiling: 100 }, 0, Host { setup: 0, hold: 0 });
    let to = network.register(Register { name: None, setup: 0, hold: 0, low: -10, high: 10 });
    network.path(Path { from: RegisterId::HOST, to, dmin: 5, dmax: 10 });
    network.to_bytes()
}

fn output(first: [i32; 3], latencies: &[i32], entries: &[[i32; 2]]) -> Vec<u8> {
    let mut out = Vec::new();
    record::put(&mut out, b"SK", first);
    latencies.iter().for_each(|latency| record::put(&mut out, b"LT", [*latency]));
    entries.iter().for_each(|entry| record::put(&mut out, b"ED", *entry));
    out
}

fn reading(number: u64, out: &[u8]) -> Result<Answer, Refusal> {
    read(Returned(number), &file(), out)
}

fn sound() -> Vec<u8> {
    output([9, 2, 2], &[0, 1], &[[0, 0], [3, 1]])
}

#[test]
fn a_sound_output_is_read() {
    let rules = vec![Rule::Setup(PathId::new(0)), Rule::High(RegisterId::new(1))];
    let answer = Answer { period: 9, latencies: vec![0, 1], loop_: Some(Loop { rules }) };
    assert_eq!(reading(0, &sound()), Ok(answer));
    let rules = vec![Rule::Hold(PathId::new(0)), Rule::Low(RegisterId::new(1))];
    let shown = output([0, 0, 2], &[], &[[1, 0], [2, 1]]);
    assert_eq!(reading(8, &shown), Err(Refusal::NoPeriod(Loop { rules: rules.clone() })));
    assert_eq!(reading(9, &shown), Err(Refusal::NoneToCeiling(Loop { rules })));
    assert_eq!(reading(7, &[]), Err(Refusal::Room));
}

#[test]
fn an_answer_that_breaks_off_or_has_a_wrong_mark_is_unreadable() {
    let sound = sound();
    for length in 0..sound.len() {
        assert_eq!(reading(0, &sound[..length]), Err(Refusal::Unreadable(0)), "{length} bytes");
    }
    for mark in [0, 1, 14, 15, 20, 21, 26, 27, 36, 37] {
        let mut wrong = sound.clone();
        wrong[mark] ^= 1;
        assert_eq!(reading(0, &wrong), Err(Refusal::Unreadable(0)), "byte {mark}");
    }
}

#[test]
fn counts_and_rules_that_the_network_does_not_have_are_unreadable() {
    let wrong = [
        output([0, 2, 0], &[0, 1], &[]),
        output([9, 1, 0], &[0], &[]),
        output([9, 3, 0], &[0, 1, 2], &[]),
        output([9, -1, 0], &[0, 1], &[]),
        output([9, 2, -1], &[0, 1], &[]),
        output([9, 2, 3], &[0, 1], &[[0, 0], [3, 1], [0, 0]]),
        output([9, 2, i32::MAX], &[0, 1], &[[0, 0], [3, 1]]),
        output([9, i32::MAX, 0], &[0, 1], &[]),
    ];
    for out in wrong {
        assert_eq!(reading(0, &out), Err(Refusal::Unreadable(0)), "{out:?}");
    }
    for entry in [[-1, 0], [4, 0], [0, 1], [0, -1], [1, 1], [2, 0], [2, 2], [3, 0], [3, -1]] {
        let out = output([9, 2, 1], &[0, 1], &[entry]);
        assert_eq!(reading(0, &out), Err(Refusal::Unreadable(0)), "{entry:?}");
    }
}

#[test]
fn a_refusal_shows_a_loop_and_nothing_else() {
    let wrong = [
        output([0, 0, 0], &[], &[]),
        output([1, 0, 1], &[], &[[1, 0]]),
        output([0, 2, 1], &[0, 1], &[[1, 0]]),
        output([0, 0, 2], &[], &[[1, 0]]),
        output([0, 0, 3], &[], &[[1, 0], [1, 0], [1, 0]]),
    ];
    for (number, out) in [8, 9].into_iter().flat_map(|number| wrong.iter().map(move |out| (number, out))) {
        assert_eq!(reading(number, out), Err(Refusal::Unreadable(number as u32)), "{out:?}");
    }
}

#[test]
fn numbers_and_places_that_the_scheduler_does_not_give_are_unreadable() {
    let place = |place: u64, number: u64| reading(place << 32 | number, &[]);
    assert_eq!(place(1, 5), Err(Refusal::Register(RegisterId::new(1))));
    assert_eq!(place(0x7fff_ffff, 6), Err(Refusal::Path(PathId::new(i32::MAX))));
    assert_eq!(place(0x8000_0000, 5), Err(Refusal::Unreadable(5)));
    assert_eq!(place(0xffff_ffff, 6), Err(Refusal::Unreadable(6)));
    for number in [10, 11, u32::MAX] {
        assert_eq!(place(0, number.into()), Err(Refusal::Unreadable(number)));
    }
}
