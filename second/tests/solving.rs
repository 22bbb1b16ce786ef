//! The two solvers against each other, and both against the definitions tried out by exhaustion.

mod support;

use second::arrows::Problem;
use second::gen::{maximal, planned};
use second::paper::Network;
use second::rng::Rng;
use second::solver::least_latencies;
use second::verdict::Verdict;
use second::{draft::Draft, fast, solver};
use support::{accepted, combinations, least_by_trying, loops_allowed, period_by_needs, tiny_networks};

#[test]
fn the_solvers_agree_on_tiny_networks() {
    let mut seen = [0; 10];
    for (draft, network) in tiny_networks(11, 20_000, |_| true) {
        let problem = Problem::of(&network);
        let (plain, quick) = (solver::solve(&problem), fast::solve(&problem));
        assert_eq!(plain.settled(), quick.settled(), "{draft:?}");
        assert_eq!(plain.witness().is_empty(), quick.witness().is_empty(), "{draft:?}");
        seen[plain.number() as usize] += 1;
    }
    assert!([0, 8, 9].into_iter().all(|number: usize| seen[number] > 1_000), "{seen:?}");
}

#[test]
fn the_solvers_agree_on_medium_networks() {
    let mut rng = Rng::new(12);
    for _ in 0..60 {
        let draft = planned::medium(&mut rng);
        let problem = Problem::of(&accepted(&draft));
        assert_eq!(solver::solve(&problem).settled(), fast::solve(&problem).settled(), "{draft:?}");
    }
}

/// The definition itself: no schedule at any smaller period, and the smallest latencies over all schedules.
#[test]
fn answers_are_the_smallest_by_trying_every_latency() {
    let small = |network: &Network| network.registers.len() <= 4 && combinations(network) <= 3_000;
    let mut answered = 0;
    for (draft, network) in tiny_networks(13, 3_000, small) {
        let highest = network.ceiling.min(120);
        let tried = (network.floor..=highest).find_map(|period| Some((period, least_by_trying(&network, period)?)));
        match (tried, fast::solve(&Problem::of(&network))) {
            (Some((due, least)), Verdict::Answered { period, latencies, .. }) => {
                assert_eq!((period, latencies), (due, least), "{draft:?}");
                answered += 1;
            }
            (None, verdict) => assert_ne!(verdict.number(), 0, "{draft:?}"),
            (Some(_), verdict) => panic!("{verdict:?} for {draft:?}"),
        }
    }
    assert!(answered > 1_000, "only {answered} were answered");
}

#[test]
fn periods_are_the_greatest_need_over_all_loops() {
    for (draft, network) in tiny_networks(14, 2_000, |network| network.paths.len() <= 7) {
        let verdict = solver::solve(&Problem::of(&network));
        let (number, answer) = verdict.settled();
        assert_eq!((number, answer.map_or(0, |(period, _)| period)), period_by_needs(&network), "{draft:?}");
    }
}

#[test]
fn shown_loops_are_among_those_allowed() {
    let mut shown = 0;
    for (draft, network) in tiny_networks(15, 2_000, |network| network.paths.len() <= 7) {
        let problem = Problem::of(&network);
        for verdict in [solver::solve(&problem), fast::solve(&problem)] {
            let (number, answer) = verdict.settled();
            let allowed = loops_allowed(&network, number, answer.map_or(0, |(period, _)| period));
            if verdict.witness().is_empty() {
                assert!(allowed.is_empty(), "{draft:?}");
            } else {
                assert!(allowed.contains(&verdict.witness().to_vec()), "{draft:?} {verdict:?}");
                shown += 1;
            }
        }
    }
    assert!(shown > 1_500, "only {shown} loops were shown");
}

/// On the greatest networks all pairs are too dear for a whole search, but not for the two periods that matter.
#[test]
fn all_pairs_confirm_the_fast_solver_on_the_greatest_networks() {
    let makers: [fn(&mut Rng) -> Draft; 8] = [
        planned::pipeline,
        planned::dense,
        planned::tight,
        planned::parallel,
        maximal::chain,
        maximal::ring,
        maximal::race,
        maximal::extreme,
    ];
    let mut rng = Rng::new(16);
    for make in makers.into_iter().chain(makers) {
        let draft = make(&mut rng);
        confirm(&Problem::of(&accepted(&draft)));
    }
}

fn confirm(problem: &Problem) {
    let at = |period| least_latencies(problem.registers, &problem.arrows, period);
    let timeless = least_latencies(problem.registers, &problem.timeless(), 0);
    match fast::solve(problem) {
        Verdict::Answered { period, latencies, .. } => {
            assert_eq!(at(period), Some(latencies));
            assert!(period == problem.floor || at(period - 1).is_none());
        }
        Verdict::NoPeriod { .. } => assert_eq!(timeless, None),
        Verdict::AboveCeiling { .. } => {
            assert!(timeless.is_some());
            assert_eq!(at(problem.ceiling), None);
        }
    }
}

#[test]
fn the_arrow_form_and_the_slack_say_the_same() {
    let mut rng = Rng::new(17);
    let mut met = 0;
    for (_, network) in tiny_networks(17, 500, |_| true) {
        for rule in network.rules() {
            let period = i64::from(rng.between(1, 30));
            let mut latency = |register: usize| if register == 0 { 0 } else { i64::from(rng.between(-12, 12)) };
            let (at_tail, at_head) = (latency(network.tail(rule)), latency(network.head(rule)));
            let by_arrow = at_head - (at_tail + network.amount(rule, period));
            assert_eq!(network.slack(rule, period, at_tail, at_head), by_arrow, "{rule:?}");
            assert_eq!(network.is_met(rule, period, at_tail, at_head), by_arrow >= 0, "{rule:?}");
            met += u32::from(by_arrow >= 0);
        }
    }
    assert!(met > 500, "only {met} rules were met");
}
