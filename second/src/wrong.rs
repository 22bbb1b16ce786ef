//! The easy errors of this trade (RULES 12.1), of the slack (RULES 15.10) and of paths from a register to itself (RULES
//! 16.13), one program each. A judge that does not catch them is no judge.
//!
//! All of them, and the right program beside them, use the fast solver, while the judge uses the plain one wherever
//! that is quick enough: so a clean run of the right program is also a comparison of the two solvers.

use std::collections::{HashMap, HashSet};

use crate::arrows::{Arrow, Problem};
use crate::fast;
use crate::file::{self, Refusal};
use crate::paper::{Kind, Network, Path, Register, Rule};
use crate::question::{self, Question, Reply};
use crate::slip::Slip;
use crate::verdict::Verdict;

pub fn verdict(network: &Network, slip: Option<Slip>) -> Verdict {
    let right = Problem::of(network);
    match slip {
        Some(Slip::HoldPeriod) => fast::solve(&changed(&right, with_period_in_hold)),
        Some(Slip::Strict) => fast::solve(&changed(&right, made_strict)),
        Some(Slip::WorstPath) => fast::solve(&worst_paths_only(network, right)),
        Some(Slip::SetupOnly) => without_holds(right),
        Some(Slip::RoundDown) => rounded_down(right),
        Some(Slip::Shifted) => moved_up(fast::solve(&right)),
        Some(Slip::SelfHoldMissing) => fast::solve(&without_self_holds(right)),
        Some(slip) => fast::solve(&charged(network, slip)),
        None => fast::solve(&right),
    }
}

/// The problem with each rule charged as the error has it. RULES 16.8 speaks of the one with u "charged everywhere",
/// which is `SelfHoldCharged`; under an error of another sort the charges are right.
pub fn charged(network: &Network, slip: Slip) -> Problem {
    let right = Problem::of(network);
    let misread = |arrow: &Arrow| Arrow { fixed: arrow.fixed + overcharge(network, arrow.rule, slip), ..*arrow };
    Problem { arrows: right.arrows.iter().map(misread).collect(), ..right }
}

pub fn reply(file: &[u8], question: &Question, slip: Option<Slip>) -> Reply {
    let right = question::reply(file, question);
    let (Some(slip), Reply::Slack(slack)) = (slip, right) else {
        return right;
    };
    let network = file::read(file).expect("a question with a slack is about an accepted file");
    let rule = network.rule(question.kind, question.number).expect("a question with a slack names a rule");
    if slip == Slip::SelfHoldMissing && rule.kind == Kind::Hold && network.paths[rule.number].is_self() {
        return Reply::Refused(Refusal::whole_file(10));
    }
    Reply::Slack(misjudged(&network, rule, question, slip, slack))
}

/// The slack as the error has it.
fn misjudged(network: &Network, rule: Rule, question: &Question, slip: Slip, right: i64) -> i64 {
    let [period, at_tail, at_head] = [question.period, question.at_tail, question.at_head].map(i64::from);
    let slack_in = |other: Network| other.slack(rule, period, at_tail, at_head);
    match (slip, rule.kind) {
        (Slip::HoldPeriod, Kind::Hold) => right + period,
        (Slip::Strict, Kind::Setup | Kind::Hold) => right - 1,
        (Slip::HoldTurned, Kind::Hold) => -right,
        (Slip::CutOff, _) => right.max(0),
        (Slip::OneOff, _) => right - 1,
        (Slip::LowTail, Kind::Low) => network.slack(rule, period, at_tail, at_tail),
        (Slip::UncertaintySign, _) => slack_in(Network { uncertainty: -network.uncertainty, ..network.clone() }),
        (Slip::DelaysExchanged, _) => {
            slack_in(with_paths(network, |path| Path { dmin: path.dmax, dmax: path.dmin, ..*path }))
        }
        // The latencies come with the question, so the path's ends decide only whose margins are charged.
        (Slip::SenderCharged, _) => {
            slack_in(with_paths(network, |path| Path { from: path.to, to: path.from, ..*path }))
        }
        (Slip::TimesExchanged, _) => slack_in(with_times_exchanged(network)),
        (Slip::EqualLatencies, Kind::Hold) => {
            let taken = if at_tail == at_head { 0 } else { network.uncertainty };
            right + network.charge_of_hold(&network.paths[rule.number]) - taken
        }
        _ => right - overcharge(network, rule, slip),
    }
}

/// How much of u the error charges the rule beyond what is right.
fn overcharge(network: &Network, rule: Rule, slip: Slip) -> i64 {
    let u = network.uncertainty;
    let path = match rule.kind {
        Kind::Setup | Kind::Hold => &network.paths[rule.number],
        Kind::Low | Kind::High => return 0,
    };
    match (slip, rule.kind) {
        (Slip::SelfHoldCharged, Kind::Hold) => u - network.charge_of_hold(path),
        (Slip::HostHoldCharged, Kind::Hold) if path.is_self() && path.to == 0 => u,
        (Slip::SelfSetupUncharged, Kind::Setup) if path.is_self() => -u,
        (Slip::HoldUncharged, Kind::Hold) => -network.charge_of_hold(path),
        (Slip::WayBack, Kind::Hold) if leads_back(network, path) => -network.charge_of_hold(path),
        _ => 0,
    }
}

/// Whether some path leads straight back to where this one comes from.
fn leads_back(network: &Network, path: &Path) -> bool {
    network.paths.iter().any(|other| (other.from, other.to) == (path.to, path.from))
}

fn without_self_holds(right: Problem) -> Problem {
    let stays = |arrow: &&Arrow| arrow.rule.kind != Kind::Hold || arrow.tail != arrow.head;
    Problem { arrows: right.arrows.iter().filter(stays).copied().collect(), ..right }
}

fn with_times_exchanged(network: &Network) -> Network {
    let turned = |register: &Register| Register { setup: register.hold, hold: register.setup, ..*register };
    Network { registers: network.registers.iter().map(turned).collect(), ..network.clone() }
}

fn with_paths(network: &Network, change: fn(&Path) -> Path) -> Network {
    Network { paths: network.paths.iter().map(change).collect(), ..network.clone() }
}

fn changed(right: &Problem, change: fn(Arrow) -> Arrow) -> Problem {
    Problem { arrows: right.arrows.iter().copied().map(change).collect(), ..*right }
}

fn with_period_in_hold(arrow: Arrow) -> Arrow {
    let periods = if arrow.rule.kind == Kind::Hold { 1 } else { arrow.periods };
    Arrow { periods, ..arrow }
}

/// In whole numbers "more than" is "at least one more". The windows stay as they are.
fn made_strict(arrow: Arrow) -> Arrow {
    let timed = matches!(arrow.rule.kind, Kind::Setup | Kind::Hold);
    Arrow { fixed: arrow.fixed + i64::from(timed), ..arrow }
}

/// Keeps, of all paths between the same two registers, one with the greatest dmax.
fn worst_paths_only(network: &Network, right: Problem) -> Problem {
    let mut worst: HashMap<(usize, usize), usize> = HashMap::new();
    for (number, path) in network.paths.iter().enumerate() {
        let kept = worst.entry((path.from, path.to)).or_insert(number);
        if path.dmax > network.paths[*kept].dmax {
            *kept = number;
        }
    }
    let kept: HashSet<usize> = worst.into_values().collect();
    let keeps = |arrow: &Arrow| match arrow.rule.kind {
        Kind::Low | Kind::High => true,
        Kind::Setup | Kind::Hold => kept.contains(&arrow.rule.number),
    };
    Problem { arrows: right.arrows.iter().filter(|arrow| keeps(arrow)).copied().collect(), ..right }
}

/// Races are still refused, but for the period the hold rules are forgotten.
fn without_holds(right: Problem) -> Verdict {
    let verdict = fast::solve(&right);
    if matches!(verdict, Verdict::NoPeriod { .. }) {
        return verdict;
    }
    let forgetful = right.arrows.iter().filter(|arrow| arrow.rule.kind != Kind::Hold).copied().collect();
    fast::solve(&Problem { arrows: forgetful, ..right })
}

/// Answers one less where the greatest need is not a whole number; latencies and loop stay the right ones.
fn rounded_down(right: Problem) -> Verdict {
    match fast::solve(&right) {
        Verdict::Answered { period, latencies, witness }
            if period > right.floor && need_is_fractional(&right, period) =>
        {
            Verdict::Answered { period: period - 1, latencies, witness }
        }
        verdict => verdict,
    }
}

/// A need is a quotient by at most n. In units finer than 1/n, a fractional need leaves the unit below the whole
/// period free; a whole one bars it.
fn need_is_fractional(right: &Problem, period: i64) -> bool {
    let scale = right.registers as i64 + 1;
    let finer = right.arrows.iter().map(|arrow| Arrow { fixed: arrow.fixed * scale, ..*arrow }).collect();
    fast::has_schedule(&Problem { arrows: finer, ..*right }, period * scale - 1)
}

/// Moves all latencies so that none is below 0, as if only their differences mattered.
fn moved_up(right: Verdict) -> Verdict {
    match right {
        Verdict::Answered { period, latencies, witness } => {
            let lowest = latencies.iter().copied().min().unwrap_or(0);
            Verdict::Answered { period, latencies: latencies.iter().map(|latency| latency - lowest).collect(), witness }
        }
        refused => refused,
    }
}
