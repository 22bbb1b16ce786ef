//! Calls from several threads at once, and from one with little stack.

use crate::networks::{named, Draft};
use crate::worked::{cases, told};
use mileparcel::{schedule, slacks};
use std::thread;

/// Every case this many times, beginning with another one in each thread.
fn work(thread: usize, rounds: usize) -> usize {
    let cases = cases();
    let mut right = 0;
    for index in thread..thread + rounds * cases.len() {
        let (name, number, period, latencies, rules) = &cases[index % cases.len()];
        let network = named(name).network();
        assert_eq!(told(&schedule(&network)), (*number, *period, *latencies, &rules[..]), "{name}");
        if *number == 0 {
            assert!(slacks(&network, *period, latencies).unwrap().iter().all(|rule| rule.is_met()), "{name}");
        }
        right += 1;
    }
    right
}

#[test]
fn threads_do_not_disturb_each_other() {
    let right = thread::scope(|scope| {
        let threads: Vec<_> = (0..8).map(|number| scope.spawn(move || work(number, 50))).collect();
        threads.into_iter().map(|thread| thread.join().unwrap()).sum::<usize>()
    });
    assert_eq!(right, 8 * 50 * cases().len());
}

#[test]
fn the_largest_network_is_scheduled_on_a_small_stack() {
    let paths = (0..2048).map(|path| [path % 256, (path * 7 + 1) % 256, 3, 40 + path % 11]).collect();
    let largest = Draft { floor: 1, ceiling: 1000, u: 1, registers: vec![[2, 1, 0, 0]; 256], paths }.network();
    let small = thread::Builder::new().stack_size(128 * 1024);
    let answer = small.spawn(move || schedule(&largest)).unwrap().join().unwrap().unwrap();
    // All windows are 0 to 0, so the slowest path alone decides.
    assert_eq!((answer.period, answer.latencies), (50 + 2 + 1, vec![0; 256]));
}
