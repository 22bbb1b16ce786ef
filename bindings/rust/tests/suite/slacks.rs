//! Slacks, as RULES 15.9 and 16.12 have them, and questions that are refused.

use crate::networks::{a, high, hold, low, named, setup, Draft};
use crate::worked::cases;
use mileparcel::{check, schedule, slack, slacks, Answer, Ends, Refusal, RegisterId, Rule, RuleSlack};

const M: i32 = 1_000_000;

/// A row: the network, the rule, the period, the latencies at tail and head, and the slack.
type Row = (&'static str, Rule, i32, i32, i32, i32);

#[rustfmt::skip]
fn rows() -> Vec<Row> {
    vec![
        ("A", setup(0), 9, 0, 1, 0),
        ("A", setup(1), 9, 1, -1, 3),
        ("A", setup(2), 9, -1, 0, 3),
        ("A", hold(0), 9, 1, 0, 0),
        ("A", hold(1), 9, -1, 1, 3),
        ("A", hold(2), 9, 0, -1, 0),
        ("A", low(1), 9, 0, 1, 11),
        ("A", low(2), 9, 0, -1, 9),
        ("A", high(1), 9, 1, 0, 9),
        ("A", high(2), 9, -1, 0, 11),
        ("A6", hold(1), 11, 0, 0, 0),
        ("D", setup(0), 8, 0, 2, 0),
        ("D", setup(1), 8, 2, 0, 1),
        ("A", setup(0), 8, 0, 1, -1),
        ("A", hold(0), 8, 2, 0, -1),
        ("A", low(1), 9, 5, -11, -1),
        ("A", high(1), 9, 11, 5, -1),
        ("G", setup(0), 10 * M, -M, M, 12_100_000),
        ("H", setup(0), 1, M, -M, -3_109_999),
        ("G", hold(1), 1, -M, M, 3_100_000),
        ("H", hold(0), 10 * M, M, -M, -2_110_000),
        ("G", low(1), 1, 0, M, 2_000_000),
        ("H", low(1), 1, 0, -M, -2_000_000),
        ("G", high(1), 1, -M, 0, 2_000_000),
        ("H", high(2), 1, M, 0, -2_000_000),
        ("B", setup(0), 9, 2, 5, 7),
        ("B", hold(0), 9, 2, 5, 2),
        ("T", setup(0), 10, -10, -10, 0),
        ("T", hold(0), 10, -10, -10, 0),
        ("T", setup(0), 9, -10, -10, -1),
        ("T", setup(0), 9, 2, 5, 2),
        ("T", hold(0), 9, 2, 5, 3),
        ("T", hold(0), 9, 5, 2, -3),
        ("T2", hold(0), 10, 0, 0, -3),
        ("T3", hold(0), 14, -10, -10, 0),
        ("T4", setup(0), 10, 0, 0, 0),
        ("T4", hold(0), 10, 0, 0, 0),
        ("T5", hold(0), 10, -10, -10, -1),
        ("T6", setup(0), 10_007, -10, -10, 0),
        ("T6", hold(0), 100, -10, -10, 0),
        ("T7", hold(0), 15, -9, -9, 0),
        ("T7", hold(1), 15, -10, -9, 0),
        ("T7", hold(2), 15, -10, -10, 1),
        ("T8", hold(0), 10, -10, -10, 3),
        ("T9", hold(0), 12, -10, -10, 0),
        ("T9", hold(1), 12, -10, -10, 1),
    ]
}

#[test]
fn every_worked_slack_comes_out_as_the_paper_has_it() {
    for (name, rule, period, tail, head, due) in rows() {
        assert_eq!(slack(&named(name).network(), period, rule, tail, head), Ok(due), "{name}: {rule} at {period}");
    }
}

#[test]
fn the_slacks_of_a_network_name_each_rule_with_its_registers() {
    let network = a().network();
    let due = [
        (setup(0), 0, 1, 0),
        (setup(1), 1, 2, 3),
        (setup(2), 2, 0, 3),
        (hold(0), 1, 0, 0),
        (hold(1), 2, 1, 3),
        (hold(2), 0, 2, 0),
        (low(1), 0, 1, 11),
        (low(2), 0, 2, 9),
        (high(1), 1, 0, 9),
        (high(2), 2, 0, 11),
    ];
    let register = RegisterId::new;
    let due = due.map(|(rule, tail, head, slack)| {
        let ends = Ends { tail: register(tail), head: register(head) };
        RuleSlack { rule, ends, slack }
    });
    assert_eq!(slacks(&network, 9, &[0, 1, -1]).unwrap(), due);
    let broken: Vec<_> = slacks(&network, 8, &[0, 1, -1]).unwrap().into_iter().filter(|rule| !rule.is_met()).collect();
    assert_eq!(broken, [RuleSlack { slack: -1, ..due[0] }]);
}

#[test]
fn an_answer_meets_every_rule_and_its_loop_leaves_no_room() {
    let mut loops = Vec::new();
    for (name, ..) in cases().into_iter().filter(|(_, number, ..)| *number == 0) {
        let network = named(name).network();
        let Answer { period, latencies, loop_ } = schedule(&network).unwrap();
        assert!(slacks(&network, period, &latencies).unwrap().iter().all(RuleSlack::is_met), "{name}");
        if let Some(shown) = loop_ {
            let slacks = |period| shown.slacks(&network, period, &latencies).unwrap();
            let sum = |period| slacks(period).iter().map(|rule| rule.slack).sum::<i32>();
            let setups = shown.setups() as i32;
            assert!((0..setups).contains(&sum(period)), "{name}: {}", sum(period));
            assert_eq!(sum(period - 1), sum(period) - setups, "{name}");
            loops.push(name);
        }
    }
    assert_eq!(loops, ["A", "A5", "A6", "D", "E", "T", "T3", "T4", "T7", "T8", "T9"]);
}

#[test]
fn questions_out_of_range_are_refused_and_those_just_inside_are_not() {
    let network = a().network();
    let ask = |period, tail, head| slack(&network, period, setup(0), tail, head).map(|_| ());
    for (period, tail, head) in [(1, 0, 0), (10 * M, 0, 0), (9, M, -M), (9, -M, M)] {
        assert_eq!(ask(period, tail, head), Ok(()));
    }
    for (period, tail, head) in
        [(0, 0, 0), (10 * M + 1, 0, 0), (9, M + 1, 0), (9, -M - 1, 0), (9, 0, M + 1), (9, 0, -M - 1)]
    {
        assert_eq!(ask(period, tail, head), Err(Refusal::Question));
    }
    for rule in [setup(3), setup(-1), hold(3), low(0), low(3), high(0), high(3), high(-1)] {
        assert_eq!(slack(&network, 9, rule, 0, 0), Err(Refusal::Question), "{rule}");
        assert_eq!(rule.ends(&network), None, "{rule}");
    }
}

#[test]
fn latencies_are_one_for_each_register() {
    let network = a().network();
    for latencies in [&[][..], &[0], &[0, 1], &[0, 1, -1, 0]] {
        assert_eq!(slacks(&network, 9, latencies), Err(Refusal::Question), "{latencies:?}");
    }
    assert_eq!(slacks(&network, 9, &[0, M + 1, 0]), Err(Refusal::Question));
    assert_eq!(slacks(&network, 0, &[0, 1, -1]), Err(Refusal::Question));
}

#[test]
fn a_network_out_of_range_is_refused_before_the_question() {
    let wrong = Draft { u: -1, ..a() }.network();
    assert_eq!(slack(&wrong, 0, setup(9), 0, 0), Err(Refusal::Ranges));
    assert_eq!(slacks(&wrong, 9, &[]), Err(Refusal::Ranges));
    // A network without rules has no slack to ask for, and is refused all the same.
    let alone = Draft { registers: vec![[100_001, 0, 0, 0]], paths: vec![], ..a() }.network();
    assert_eq!(slacks(&alone, 9, &[0]), Err(Refusal::Register(RegisterId::HOST)));
    assert_eq!(check(&alone), Err(Refusal::Register(RegisterId::HOST)));
    assert_eq!(slacks(&named("F").network(), 9, &[0]), Ok(vec![]));
    assert_eq!(check(&named("F").network()), Ok(()));
}
