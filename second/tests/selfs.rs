//! A register against itself (RULES section 16): the paper's tables, the charge, what changed with it and what did not,
//! and the errors.

mod support;

use second::answer::answer;
use second::arrows::Problem;
use second::decide;
use second::draft::Draft;
use second::gen::{maximal, planned, tiny, toggles};
use second::judge::Judge;
use second::paper::{Kind, Network, Rule};
use second::question::Reply;
use second::rng::Rng;
use second::slip::Slip;
use second::verdict::Verdict;
use second::wire::Request;
use second::worked::{request_cases, request_slack_rows, requests, Case};
use second::{fast, solver, wrong};
use support::{accepted, held_to_the_page, networks_of, number, rules_of, setups_in, sum_at, table};

fn case(name: &str) -> Case {
    request_cases().into_iter().find(|case| case.name == name).expect("a case of the requests")
}

fn numbers(cell: &str) -> Vec<i64> {
    cell.split(',').map(str::trim).filter(|part| !part.is_empty()).map(number).collect()
}

/// The paths that a cell spells out, as (from, to, dmin, dmax).
fn paths_in(cell: &str) -> Vec<Vec<i64>> {
    cell.split('(').skip(1).map(|after| numbers(after.split(')').next().unwrap())).collect()
}

fn loop_of(case: &Case) -> String {
    case.witness.iter().map(|(kind, number)| format!("{} {number}", kind.name())).collect::<Vec<_>>().join(", ")
}

#[test]
fn the_cases_are_those_of_the_rules() {
    let (cases, written) = (request_cases(), table("16.10"));
    assert_eq!((cases.len(), written.len()), (9, 9));
    for (case, cells) in cases.iter().zip(written) {
        let result = if case.number == 0 { "answered".to_string() } else { format!("refused {}", case.number) };
        assert_eq!([case.name, &result, &loop_of(case)], [&cells[1], &cells[3], &cells[6]]);
        let period: Vec<i64> = Some(case.period).into_iter().filter(|&period| period > 0).collect();
        assert_eq!([period, case.latencies.to_vec()], [numbers(&cells[4]), numbers(&cells[5])], "{}", case.name);
        let u = cells[2].split_once(" u ").map_or(3, |(_, u)| number(u));
        assert_eq!(i64::from(case.draft.uncertainty), u, "{}", case.name);
        let paths: Vec<Vec<i64>> = case.draft.paths.iter().map(|path| path.map(i64::from).to_vec()).collect();
        assert!(paths_in(&cells[2]).is_empty() || paths_in(&cells[2]) == paths, "{}", case.name);
    }
}

/// RULES 16.11: the sum at the period that the page names, or at every period.
#[test]
fn the_loops_add_up_to_what_the_rules_say() {
    let written = table("16.11");
    let named = written.iter().flat_map(|cells| cells[1].split(", ").map(|name| (name, &cells[3])));
    let mut summed = 0;
    for (name, words) in named {
        let case = case(name);
        let (network, rules) = (accepted(&case.draft), rules_of(case.witness));
        let period = if case.number == 0 { case.period - 1 } else { network.ceiling };
        let sum = sum_at(&network, &rules, period);
        let said = words.replace(',', "");
        match setups_in(&rules) {
            0 => assert_eq!(said, format!("{sum} at every period"), "{name}"),
            _ => assert!(said.ends_with(&format!(" at {period} it is {sum}")), "{name}: {said}, and not {sum}"),
        }
        summed += 1;
    }
    assert_eq!(summed, request_cases().len());
}

#[test]
fn the_slacks_are_those_of_the_rules_and_the_replies_are_theirs() {
    held_to_the_page(&request_slack_rows(), "16.12", 19);
}

/// RULES 16.2: "The hold rule of a self path is charged nothing of u. The hold rule of every other path is charged u,
/// once." RULES 16.3: "it is charged u on every path, on a self path too". RULES 16.5: "the latencies that a question
/// gives change nothing in this".
#[test]
fn every_rule_of_a_path_is_charged_as_the_words_say() {
    let mut charged = [0; 2];
    for (draft, network) in networks_of(toggles::network, 41, 1_500, |_| true) {
        for (number, &[from, to, dmin, dmax]) in draft.paths.iter().enumerate() {
            let ([setup, hold, ..], u) = (draft.registers[to as usize], draft.uncertainty);
            let c = if from == to { 0 } else { u };
            charged[usize::from(from == to)] += u32::from(u > 0);
            let of = |kind| Rule { kind, number };
            assert_eq!(network.amount(of(Kind::Setup), 7), i64::from(dmax + setup + u - 7), "{draft:?}");
            assert_eq!(network.amount(of(Kind::Hold), 7), i64::from(hold + c - dmin), "{draft:?}");
            for (t, v) in [(0, 0), (-9, -9), (2, 5), (5, 2), (0, u), (u, 0)] {
                let slack = |kind| network.slack(of(kind), 7, i64::from(t), i64::from(v));
                assert_eq!(slack(Kind::Setup), i64::from((v + 7) - (t + dmax + setup + u)), "{draft:?}");
                assert_eq!(slack(Kind::Hold), i64::from((v + dmin) - (t + hold + c)), "{draft:?}");
            }
        }
    }
    assert!(charged.iter().all(|&count| count > 1_000), "{charged:?}");
}

/// RULES 16.6: "the rule is met exactly when dmin is at least the hold time .. a network in which dmin is less is still
/// refused with 8".
#[test]
fn a_self_paths_hold_rule_stays() {
    let mut broken_ones = 0;
    for (draft, network) in networks_of(toggles::network, 42, 1_500, |_| true) {
        let meets = |&[_, to, dmin, _]: &[i32; 4]| dmin >= draft.registers[to as usize][1];
        let broken = draft.paths.iter().filter(|path| path[0] == path[1]).any(|path| !meets(path));
        assert!(!broken || decide::verdict(&network).number() == 8, "{draft:?}");
        broken_ones += u32::from(broken);
    }
    assert!(broken_ones > 100, "only {broken_ones} were broken");
}

type Maker = fn(&mut Rng) -> Draft;

/// Seeded networks of many shapes, those with self paths and those without.
fn many_networks() -> Vec<Network> {
    let makers: [(Maker, usize); 8] = [
        (tiny::network, 6_000),
        (toggles::network, 6_000),
        (planned::medium, 400),
        (planned::selfs, 4),
        (planned::dense, 4),
        (planned::tight, 4),
        (maximal::extreme, 8),
        (maximal::corner, 8),
    ];
    let drawn = makers.into_iter().flat_map(|(make, count)| networks_of(make, 43, count, |_| true));
    drawn.map(|(_, network)| network).collect()
}

/// The verdict with u charged everywhere, and the right one, each by the solver that the size allows.
fn before_and_after(network: &Network) -> [Verdict; 2] {
    let everywhere = wrong::charged(network, Slip::SelfHoldCharged);
    let solve = if everywhere.registers <= 8 { solver::solve } else { fast::solve };
    [solve(&everywhere), decide::verdict(network)]
}

/// RULES 16.8: "Where a network has no self path, or u is 0, none of these depends on which of the two is read".
#[test]
fn without_self_paths_or_without_u_nothing_changes() {
    let (mut without_selfs, mut without_u) = (0, 0);
    for network in many_networks() {
        let selfs = network.paths.iter().any(|path| path.is_self());
        let everywhere = wrong::charged(&network, Slip::SelfHoldCharged);
        let same = !selfs || network.uncertainty == 0;
        assert_eq!(everywhere.arrows == Problem::of(&network).arrows, same, "{network:?}");
        if same {
            let [before, after] = before_and_after(&network);
            assert_eq!(before, after, "{network:?}");
        }
        without_selfs += u32::from(!selfs && network.uncertainty > 0);
        without_u += u32::from(selfs && network.uncertainty == 0);
    }
    assert!(without_selfs > 500 && without_u > 500, "{without_selfs} without self paths, {without_u} without u");
}

/// RULES 16.9: "Only a network that is refused with 8 when u is charged everywhere can have another result. What is
/// answered then is answered now, with the same period and latencies; so no period becomes longer."
#[test]
fn only_what_was_refused_with_8_is_decided_anew() {
    let mut pairs = std::collections::BTreeMap::new();
    for network in many_networks() {
        let [before, after] = before_and_after(&network);
        if let Verdict::Answered { period, latencies, .. } = &before {
            let at = |register: usize| latencies[register];
            let met = |rule| network.is_met(rule, *period, at(network.tail(rule)), at(network.head(rule)));
            assert!(network.rules().into_iter().all(met), "{network:?}");
            let shorter = after.settled().1.map(|(mended, _)| mended <= *period);
            assert_eq!(shorter, Some(true), "{network:?}");
        }
        assert!(before.number() == 8 || before.settled() == after.settled(), "{network:?}");
        *pairs.entry((before.number(), after.number())).or_insert(0) += 1;
    }
    for pair in [(0, 0), (9, 9), (8, 8), (8, 0), (8, 9)] {
        assert!(pairs[&pair] > 300, "{pair:?} of {pairs:?}");
    }
}

/// What an error gives for a worked network: its number, and its period where it is answered.
fn told(name: &str, slip: Slip) -> (i32, Option<i64>) {
    let verdict = wrong::verdict(&accepted(&case(name).draft), Some(slip));
    (verdict.number(), verdict.settled().1.map(|(period, _)| period))
}

/// What an error gives for a row of RULES 16.12.
fn slack_told(row: usize, slip: Slip) -> Reply {
    let row = &request_slack_rows()[row];
    wrong::reply(&row.draft().file(), &row.question, Some(slip))
}

/// Row 4 is the hold rule of T with 2 and 5, row 6 that of T2.
#[test]
fn the_wrong_programs_err_as_the_rules_say() {
    use Slip::*;
    let says = [
        "T would be refused with 8, and its hold 0 with 2 and 5 would get 0",
        "T4 would be refused with 8",
        "T would get 7",
        "T2 would be answered, with 10, and T3 would get 12",
        "T2 would be answered, with 10",
        "T's hold 0 with 2 and 5 would get 0, and T2's hold 0 would get 0",
        "T5 would be answered, with 10",
    ];
    assert_eq!(table("16.13").iter().map(|cells| &cells[2][..]).collect::<Vec<_>>(), says);
    let solved = [
        (SelfHoldCharged, "T", (8, None)),
        (HostHoldCharged, "T4", (8, None)),
        (SelfSetupUncharged, "T", (0, Some(7))),
        (HoldUncharged, "T2", (0, Some(10))),
        (HoldUncharged, "T3", (0, Some(12))),
        (WayBack, "T2", (0, Some(10))),
        (SelfHoldMissing, "T5", (0, Some(10))),
    ];
    for (slip, name, due) in solved {
        assert_eq!(told(name, slip), due, "{slip:?} on {name}");
    }
    for (slip, row) in [(SelfHoldCharged, 4), (EqualLatencies, 4), (EqualLatencies, 6)] {
        assert_eq!(slack_told(row, slip), Reply::Slack(0), "{slip:?} on row {row}");
    }
}

/// The host's error leaves T alone, and a way back is no matter to a self path: each error is one of its own. T8 can
/// bear u in its hold rule, so that only a slack tells of it.
#[test]
fn the_wrong_programs_are_right_elsewhere() {
    use Slip::*;
    let right = [(HostHoldCharged, "T"), (SelfSetupUncharged, "T3"), (HoldUncharged, "T"), (WayBack, "T7")];
    let also = [(SelfHoldMissing, "T"), (SelfHoldCharged, "T2"), (SelfHoldCharged, "T8")];
    for (slip, name) in right.into_iter().chain(also) {
        let case = case(name);
        let due = (case.number, Some(case.period).filter(|&period| period > 0));
        assert_eq!(told(name, slip), due, "{slip:?} on {name}");
    }
}

/// What the paper works by hand is enough to catch each of the seven.
#[test]
fn the_worked_requests_alone_catch_every_error_of_the_table() {
    let seven = &Slip::ALL[Slip::ALL.len() - 7..];
    for &slip in seven {
        let caught = |request: &Request| Judge::of(request).judge(&answer(request, Some(slip))).is_err();
        assert!(requests().iter().any(caught), "{slip:?}");
    }
}
