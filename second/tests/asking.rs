//! The question about a single rule.

use second::draft::Draft;
use second::file::Refusal;
use second::question::{reply, Question, Reply};
use second::worked::worked_cases;

fn ask(period: i32, kind: i32, number: i32, at_tail: i32, at_head: i32) -> Question {
    Question { period, kind, number, at_tail, at_head }
}

fn network_a() -> Vec<u8> {
    worked_cases().swap_remove(0).draft.file()
}

fn refused(number: i32) -> Reply {
    Reply::Refused(Refusal { number, place: 0 })
}

/// On network A: path 0 goes from 0 to 1 with delays 2 and 9, every setup and hold is 1, windows are -10 to 10.
#[test]
fn each_kind_is_met_at_equality_and_broken_one_beyond() {
    let pairs = [
        // setup 0 at period 9: 0 + 9 + 1 <= 1 + 9
        (ask(9, 0, 0, 0, 1), ask(9, 0, 0, 0, 0)),
        (ask(9, 0, 0, 0, 1), ask(8, 0, 0, 0, 1)),
        (ask(9, 0, 0, 0, 1), ask(9, 0, 0, 1, 1)),
        // hold 0: the receiver is at the tail, the sender at the head: 0 + 2 >= 1 + 1
        (ask(1, 1, 0, 1, 0), ask(1, 1, 0, 2, 0)),
        (ask(1, 1, 0, 1, 0), ask(10_000_000, 1, 0, 1, -1)),
        // low 1 reads the head, high 1 the tail; the host's latency is not read
        (ask(1, 2, 1, 777, -10), ask(1, 2, 1, 777, -11)),
        (ask(1, 2, 2, -1_000_000, -10), ask(1, 2, 2, -1_000_000, -11)),
        (ask(1, 3, 1, 10, 777), ask(1, 3, 1, 11, 777)),
        (ask(1, 3, 2, 10, -1_000_000), ask(1, 3, 2, 11, 1_000_000)),
    ];
    for (met, broken) in pairs {
        assert_eq!(reply(&network_a(), &met), Reply::Slack(0), "{met:?}");
        assert_eq!(reply(&network_a(), &broken), Reply::Slack(-1), "{broken:?}");
    }
}

#[test]
fn a_host_latency_other_than_0_is_used_by_setup_and_hold() {
    assert_eq!(reply(&network_a(), &ask(9, 0, 0, 5, 6)), Reply::Slack(0));
    assert_eq!(reply(&network_a(), &ask(9, 0, 0, 5, 5)), Reply::Slack(-1));
    assert_eq!(reply(&network_a(), &ask(9, 1, 0, 5, 4)), Reply::Slack(0));
    assert_eq!(reply(&network_a(), &ask(9, 1, 0, 5, 3)), Reply::Slack(-1));
}

/// One register, hold 1, a path to itself with delays 3 and 5.
#[test]
fn on_a_self_path_differing_latencies_are_taken_as_given() {
    let registers = vec![[0, 1, 0, 0]];
    let file = Draft { floor: 1, ceiling: 9, uncertainty: 0, registers, paths: vec![[0, 0, 3, 5]] }.file();
    assert_eq!(reply(&file, &ask(5, 0, 0, 0, 0)), Reply::Slack(0));
    assert_eq!(reply(&file, &ask(5, 0, 0, 1, 0)), Reply::Slack(-1));
    assert_eq!(reply(&file, &ask(4, 0, 0, 0, 1)), Reply::Slack(0));
    assert_eq!(reply(&file, &ask(1, 1, 0, 2, 0)), Reply::Slack(0));
    assert_eq!(reply(&file, &ask(1, 1, 0, 3, 0)), Reply::Slack(-1));
}

#[test]
fn what_is_out_of_range_is_refused_with_10_for_every_kind() {
    let (low, high) = (-1_000_000, 1_000_000);
    for kind in 0..=3 {
        let sound = ask(10_000_000, kind, 1, high, low);
        assert!(matches!(reply(&network_a(), &sound), Reply::Slack(_)), "{sound:?}");
        let periods = [0, -1, 10_000_001, i32::MIN, i32::MAX].map(|period| Question { period, ..sound });
        let tails = [low - 1, high + 1, i32::MIN, i32::MAX].map(|at_tail| Question { at_tail, ..sound });
        let heads = [low - 1, high + 1, i32::MIN, i32::MAX].map(|at_head| Question { at_head, ..sound });
        let numbers = [-1, 3, 65_537, i32::MIN, i32::MAX].map(|number| Question { number, ..sound });
        for question in periods.into_iter().chain(tails).chain(heads).chain(numbers) {
            assert_eq!(reply(&network_a(), &question), refused(10), "{question:?}");
        }
    }
    for kind in [-1, 4, 256, i32::MIN, i32::MAX] {
        assert_eq!(reply(&network_a(), &ask(9, kind, 1, 0, 0)), refused(10), "kind {kind}");
    }
    for kind in [2, 3] {
        assert_eq!(reply(&network_a(), &ask(9, kind, 0, 0, 0)), refused(10), "the host has no rule of kind {kind}");
    }
}

#[test]
fn the_files_own_refusal_comes_first() {
    let mut file = network_a();
    file[112] = b'?';
    let due = Reply::Refused(Refusal { number: 6, place: 2 });
    assert_eq!(reply(&file, &ask(0, 9, 9, 0, 0)), due);
    assert_eq!(reply(&[], &ask(0, 9, 9, 0, 0)), refused(1));
}
