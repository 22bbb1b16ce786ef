//! Answers, loops and the sums of their amounts, as RULES 11.5, 11.6, 16.10 and 16.11 have them.

use crate::networks::{high, hold, named, setup};
use mileparcel::{schedule, Answer, Loop, Refusal, Register, RegisterId, Rule};

/// A case: its name, its number, the period and the latencies, and the loop. Of a refusal there is neither period nor latency.
type Case = (&'static str, u32, i32, &'static [i32], Vec<Rule>);

#[rustfmt::skip]
pub fn cases() -> Vec<Case> {
    vec![
        ("A", 0, 9, &[0, 1, -1], vec![setup(0), hold(0)]),
        ("A2", 0, 9, &[0, 1, -1], vec![]),
        ("A3", 0, 20, &[0, -2, -1], vec![]),
        ("A4", 9, 0, &[], vec![setup(0), hold(0)]),
        ("A5", 0, 9, &[0, 1, -1], vec![setup(0), hold(0)]),
        ("A6", 0, 11, &[0, 0, 0], vec![setup(0), hold(0)]),
        ("A7", 8, 0, &[], vec![hold(2), hold(1), hold(0)]),
        ("B", 8, 0, &[], vec![hold(0)]),
        ("D", 0, 8, &[0, 2], vec![setup(0), setup(1)]),
        ("E", 0, 9, &[0, 1], vec![setup(0), high(1)]),
        ("F", 0, 1, &[0], vec![]),
        ("T", 0, 10, &[0, -10], vec![setup(0)]),
        ("T2", 8, 0, &[], vec![hold(1), hold(0)]),
        ("T3", 0, 14, &[0, -10, -10], vec![setup(0), hold(0)]),
        ("T4", 0, 10, &[0], vec![setup(0)]),
        ("T5", 8, 0, &[], vec![hold(0)]),
        ("T6", 9, 0, &[], vec![setup(0)]),
        ("T7", 0, 15, &[0, -9, -10], vec![setup(1), hold(1)]),
        ("T8", 0, 10, &[0, -10], vec![setup(0)]),
        ("T9", 0, 12, &[0, -10], vec![setup(1)]),
    ]
}

/// Number, period, latencies and loop of a result, as a case has them.
pub fn told(result: &Result<Answer, Refusal>) -> (u32, i32, &[i32], &[Rule]) {
    match result {
        Ok(Answer { period, latencies, loop_ }) => (0, *period, latencies, loop_.as_ref().map_or(&[], Loop::rules)),
        Err(refusal) => (refusal.number(), 0, &[], refusal.shown().map_or(&[], Loop::rules)),
    }
}

#[test]
fn every_worked_network_comes_out_as_the_paper_has_it() {
    for (name, number, period, latencies, rules) in cases() {
        // Each of these networks has one loop at most that qualifies, so that it is known which one is shown.
        let result = schedule(&named(name).network());
        assert_eq!(told(&result), (number, period, latencies, &rules[..]), "{name}");
        assert_eq!(result.ok().and_then(|answer| answer.loop_).is_some(), number == 0 && !rules.is_empty(), "{name}");
    }
}

/// The loop that is shown for a network, and the period at which it contradicts itself.
fn shown(name: &str) -> (Loop, i32) {
    match schedule(&named(name).network()) {
        Ok(answer) => (answer.loop_.unwrap(), answer.period - 1),
        Err(refusal) => (refusal.shown().unwrap().clone(), named(name).ceiling),
    }
}

#[test]
fn the_amounts_of_each_loop_add_up_to_the_papers_sum() {
    let sums = [
        ("A", 8, 1),
        ("A4", 8, 1),
        ("A5", 8, 1),
        ("A6", 10, 1),
        ("A7", 100, 3),
        ("B", 100, 1),
        ("D", 7, 1),
        ("E", 8, 1),
    ];
    let sums_of_requests = [
        ("T", 9, 1),
        ("T2", 100, 6),
        ("T3", 13, 1),
        ("T4", 9, 1),
        ("T5", 100, 1),
        ("T6", 100, 9_907),
        ("T7", 14, 1),
        ("T8", 9, 1),
        ("T9", 11, 1),
    ];
    for (name, period, sum) in sums.into_iter().chain(sums_of_requests) {
        let (shown, at) = shown(name);
        assert_eq!((at, shown.sum(&named(name).network(), at)), (period, Ok(sum)), "{name}");
    }
}

#[test]
fn the_period_stands_in_the_sum_once_for_each_setup_rule() {
    for (name, setups) in [("A", 1), ("A7", 0), ("D", 2), ("E", 1), ("T2", 0), ("T7", 1)] {
        let (network, (shown, at)) = (named(name).network(), shown(name));
        assert_eq!(shown.setups(), setups, "{name}");
        assert_eq!(shown.sum(&network, at + 1).unwrap(), shown.sum(&network, at).unwrap() - setups as i64, "{name}");
    }
}

#[test]
fn a_register_has_its_latency_in_the_answer() {
    let mut network = named("A").network();
    let answer = schedule(&network).unwrap();
    let latencies: Vec<_> = (-1..4).map(|number| answer.latency(RegisterId::new(number))).collect();
    assert_eq!(latencies, [None, Some(0), Some(1), Some(-1), None]);
    let late = network.register(Register { name: None, setup: 0, hold: 0, low: 7, high: 8 });
    assert_eq!(schedule(&network).unwrap().latency(late), Some(7));
}
