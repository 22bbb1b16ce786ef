//! The shape of self paths: what it must draw, and the solvers against the definitions on what it draws.

mod support;

use std::collections::BTreeSet;

use second::arrows::Problem;
use second::draft::Draft;
use second::file;
use second::gen::{toggles, Source};
use second::paper::{Kind, Network};
use second::question::{reply, Reply};
use second::slip::Slip;
use second::verdict::Verdict;
use second::wire::Request;
use second::{fast, solver, wrong};
use support::{combinations, least_by_trying, loops_allowed, networks_of, period_by_needs};

fn selfs(draft: &Draft) -> impl Iterator<Item = &[i32; 4]> {
    draft.paths.iter().filter(|path| path[0] == path[1])
}

/// What a draft's self paths show: whose they are, how many, and how u stands to what dmin has to spare.
fn shown(draft: &Draft) -> Vec<String> {
    let u = draft.uncertainty;
    let sort = match u {
        0 | 1 | 10_000 => u.to_string(),
        2..=6 => "small".to_string(),
        _ => "other".to_string(),
    };
    let mut shown = Vec::new();
    for &[at, _, dmin, _] in selfs(draft) {
        let owner = if at == 0 { "the host" } else { "another" };
        let several = selfs(draft).filter(|path| path[0] == at).count() > 1;
        shown.push(format!("u {sort}, {}self path of {owner}", if several { "second " } else { "" }));
        let spare = dmin - draft.registers[at as usize][1];
        shown.extend([-1, 0, 1].iter().filter(|&&off| u == spare + off).map(|off| format!("u {sort}, off by {off}")));
        shown.extend([-1, 0].iter().filter(|&&race| spare == race).map(|race| format!("u {sort}, spare {race}")));
    }
    shown
}

#[test]
fn self_paths_are_drawn_on_every_register_under_every_u() {
    let drawn = networks_of(toggles::network, 51, 3_000, |_| true);
    assert!(drawn.iter().all(|(draft, _)| selfs(draft).count() > 0));
    let seen: BTreeSet<String> = drawn.iter().flat_map(|(draft, _)| shown(draft)).collect();
    for u in ["0", "1", "small", "other", "10000"] {
        let owners = ["self path of the host", "self path of another"].map(String::from);
        let second = owners.clone().map(|owner| format!("second {owner}"));
        let off = [-1, 0, 1].map(|off| format!("off by {off}"));
        let spare = [-1, 0].map(|spare| format!("spare {spare}"));
        for what in owners.into_iter().chain(second).chain(off).chain(spare) {
            assert!(seen.contains(&format!("u {u}, {what}")), "u {u}: never {what}");
        }
    }
}

fn period(verdict: &Verdict) -> Option<i64> {
    verdict.settled().1.map(|(period, _)| period)
}

/// What u decides in a network with self paths, by what comes of it where it is charged otherwise.
#[test]
fn every_reading_of_u_decides_some_network() {
    let mut counts = [0; 5];
    for (_, network) in networks_of(toggles::network, 52, 2_000, |network| network.uncertainty > 0) {
        let right = wrong::verdict(&network, None);
        let under = |slip| wrong::verdict(&network, Some(slip));
        let barred = under(Slip::SelfHoldCharged).number() == 8;
        let cheaper = |slip| period(&under(slip)).zip(period(&right)).is_some_and(|(other, due)| other < due);
        let shows = [
            barred && right.number() == 0,
            barred && right.number() == 9,
            // u in the hold rules of the other paths makes the period longer, or bars every period.
            cheaper(Slip::HoldUncharged),
            right.number() == 8 && under(Slip::HoldUncharged).number() != 8,
            // u in a self path's setup rule makes it longer.
            cheaper(Slip::SelfSetupUncharged),
        ];
        counts.iter_mut().zip(shows).for_each(|(count, shows)| *count += u32::from(shows));
    }
    assert!(counts.iter().all(|&count| count > 50), "{counts:?}");
}

/// A question of a stream with its slack: its kind, whether it is a self path's, whether the latencies are equal.
fn asked(request: &Request) -> Option<(Kind, bool, bool, i64)> {
    let Request::Question { question, file } = request else { panic!("no question: {request:?}") };
    let Reply::Slack(slack) = reply(file, question) else { return None };
    let (network, kind) = (file::read(file).ok()?, Kind::numbered(question.kind)?);
    let path = network.paths.get(question.number as usize).filter(|_| network.uncertainty > 0)?;
    Some((kind, path.is_self(), question.at_tail == question.at_head, slack))
}

#[test]
fn questions_just_meet_and_just_break_the_rules_of_self_paths() {
    let mut source = Source::new(53, "questions").unwrap();
    let seen: BTreeSet<_> = (0..4_000).filter_map(|_| asked(&source.request())).collect();
    for kind in [Kind::Setup, Kind::Hold] {
        for (of_self, equal) in [(true, true), (true, false), (false, true), (false, false)] {
            for slack in [-1, 0, 1] {
                assert!(seen.contains(&(kind, of_self, equal, slack)), "{kind:?} {of_self} {equal} {slack}");
            }
        }
    }
}

#[test]
fn the_solvers_agree_on_toggles() {
    let mut seen = [0; 10];
    for (draft, network) in networks_of(toggles::network, 54, 6_000, |_| true) {
        let problem = Problem::of(&network);
        let (plain, quick) = (solver::solve(&problem), fast::solve(&problem));
        assert_eq!(plain.settled(), quick.settled(), "{draft:?}");
        seen[plain.number() as usize] += 1;
    }
    assert!([0, 8, 9].into_iter().all(|number: usize| seen[number] > 500), "{seen:?}");
}

#[test]
fn answers_are_the_smallest_by_trying_every_latency() {
    let small = |network: &Network| combinations(network) <= 3_000 && (1..=6).contains(&network.uncertainty);
    let mut answered = 0;
    for (draft, network) in networks_of(toggles::network, 55, 1_000, small) {
        let highest = network.ceiling.min(80);
        let tried = (network.floor..=highest).find_map(|period| Some((period, least_by_trying(&network, period)?)));
        let verdict = fast::solve(&Problem::of(&network));
        let found = verdict.settled().1.map(|(period, latencies)| (period, latencies.to_vec()));
        assert_eq!(found, tried, "{draft:?}");
        answered += u32::from(found.is_some());
    }
    assert!(answered > 300, "only {answered} were answered");
}

#[test]
fn periods_and_loops_are_those_of_the_definitions() {
    for (draft, network) in networks_of(toggles::network, 56, 1_500, |network| network.paths.len() <= 7) {
        let verdict = fast::solve(&Problem::of(&network));
        let due = period_by_needs(&network);
        assert_eq!((verdict.number(), period(&verdict).unwrap_or(0)), due, "{draft:?}");
        let allowed = loops_allowed(&network, due.0, due.1);
        let witness = verdict.witness().to_vec();
        assert!(witness.is_empty() && allowed.is_empty() || allowed.contains(&witness), "{draft:?}");
    }
}
