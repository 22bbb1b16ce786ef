//! The slack that a rule question is answered with (RULES 15.1): the paper's tables, the ends, and what the judge
//! refuses.

mod support;

use std::collections::BTreeSet;

use second::answer::answer;
use second::check::judge_question;
use second::decide;
use second::gen::Source;
use second::judge::{as_it_should_be, judge, try_programs};
use second::paper::{Kind, DELAY_MOST, LATENCY_MOST, MARGIN_MOST, PERIOD_MOST, UNCERTAINTY_MOST};
use second::question::{reply, Question, Reply};
use second::slip::Slip;
use second::wire::Request;
use second::worked::{all_slack_rows, refused_questions, slack_rows, worked_cases, SlackRow};
use second::wrong;
use support::{accepted, all_loops, held_to_the_page, name_of, number, setups_in, sum_at, table, tiny_networks};

fn request_of(row: &SlackRow) -> Request {
    Request::Question { question: row.question, file: row.draft().file() }
}

#[test]
fn the_rows_are_those_of_the_rules_and_the_replies_are_theirs() {
    held_to_the_page(&slack_rows(), "15.9", 27);
}

#[test]
fn the_first_thirteen_rows_ask_about_the_networks_answers() {
    for row in &slack_rows()[..13] {
        let case = worked_cases().into_iter().find(|case| case.name == row.network).unwrap();
        let network = accepted(&case.draft);
        let rule = network.rule(row.question.kind, row.question.number).unwrap();
        let ends = [network.tail(rule), network.head(rule)].map(|register| case.latencies[register] as i32);
        let Question { period, at_tail, at_head, .. } = row.question;
        assert_eq!((i64::from(period), [at_tail, at_head]), (case.period, ends), "{}", name_of(&row.question));
    }
}

/// Each end is a sum of the limits of the file and of the question, and the paper's own rows reach all eight.
#[test]
fn the_ends_are_sums_of_the_limits_and_the_rows_reach_them() {
    let (latencies, hard) = (2 * LATENCY_MOST, MARGIN_MOST + UNCERTAINTY_MOST);
    let setup = (1 - latencies - DELAY_MOST - hard, PERIOD_MOST + latencies + MARGIN_MOST);
    let hold = (-latencies - hard, latencies + DELAY_MOST + MARGIN_MOST);
    let sums = [setup, hold, (-latencies, latencies), (-latencies, latencies)];
    assert_eq!(Kind::ALL.map(Kind::slack_ends), sums);
    for (kind, cells) in Kind::ALL.into_iter().zip(table("15.6")) {
        let (smallest, greatest) = kind.slack_ends();
        assert_eq!((kind.name(), smallest, greatest), (&cells[1][..], number(&cells[2]), number(&cells[3])));
        for end in [smallest, greatest] {
            let at_end = |row: &SlackRow| row.question.kind == kind.number() && row.slack == end;
            assert_eq!(all_slack_rows().into_iter().filter(at_end).count(), 1, "{} {end}", kind.name());
        }
    }
}

/// The slacks of a seeded stream of questions, by kind.
fn slacks(seed: u64, count: usize, shape: &str) -> BTreeSet<(Kind, i64)> {
    let mut source = Source::new(seed, shape).unwrap();
    let mut seen = BTreeSet::new();
    for _ in 0..count {
        let Request::Question { question, file } = source.request() else { panic!("{shape} asks questions alone") };
        if let Reply::Slack(slack) = reply(&file, &question) {
            seen.insert((Kind::numbered(question.kind).unwrap(), slack));
        }
    }
    seen
}

#[test]
fn seeded_questions_reach_every_end_its_neighbour_and_nothing_beyond() {
    for (shape, count) in [("ends", 200), ("questions", 3_000)] {
        let seen = slacks(31, count, shape);
        for kind in Kind::ALL {
            let (smallest, greatest) = kind.slack_ends();
            for slack in [smallest, smallest + 1, greatest - 1, greatest] {
                assert!(seen.contains(&(kind, slack)), "{shape}: {} {slack}", kind.name());
            }
            let within = |&(of, slack): &(Kind, i64)| of != kind || (smallest..=greatest).contains(&slack);
            assert!(seen.iter().all(within), "{shape}: {}", kind.name());
        }
    }
}

#[test]
fn seeded_questions_just_meet_and_just_break_every_kind() {
    let seen = slacks(32, 400, "questions");
    for kind in Kind::ALL {
        for slack in [-1, 0, 1] {
            assert!(seen.contains(&(kind, slack)), "{} {slack}", kind.name());
        }
    }
}

/// One off, of the other sign, cut off at 0, or none at all.
#[test]
fn the_judge_refuses_every_other_slack() {
    let mut refused = 0;
    let mut source = Source::new(33, "questions").unwrap();
    let seeded = (0..1_500).map(|_| source.request()).collect::<Vec<_>>();
    for request in all_slack_rows().iter().map(request_of).chain(seeded) {
        let Request::Question { question, file } = &request else { panic!("no question: {request:?}") };
        let Reply::Slack(right) = reply(file, question) else { continue };
        let right = right as i32;
        assert_eq!(judge_question(file, question, 0, 0, Some(right)), Ok(()));
        let others = [right - 1, right + 1, -right, right.max(0), right.min(0), i32::from(right >= 0), i32::MAX];
        for other in others.into_iter().filter(|&other| other != right) {
            assert!(judge_question(file, question, 0, 0, Some(other)).is_err(), "{other} for {question:?}");
            refused += 1;
        }
        assert!(judge_question(file, question, 0, 0, None).is_err(), "no slack for {question:?}");
        for (number, place) in [(10, 0), (1, 0), (0, 1), (-1, 0)] {
            assert!(judge_question(file, question, number, place, Some(right)).is_err(), "{number} {place}");
        }
    }
    assert!(refused > 4_000, "only {refused} slacks were refused");
}

#[test]
fn a_refusal_carries_no_slack() {
    for (request, number, place) in refused_questions() {
        let Request::Question { question, file } = &request else { panic!("no question: {request:?}") };
        assert_eq!(judge_question(file, question, number, place, None), Ok(()), "{question:?}");
        for slack in [-1, 0, 1] {
            assert!(judge_question(file, question, number, place, Some(slack)).is_err(), "{question:?} {slack}");
            assert!(judge_question(file, question, 0, 0, Some(slack)).is_err(), "{question:?} answered {slack}");
        }
    }
}

/// A slack behind a refusal, or none behind an answer, moves all that follows.
#[test]
fn a_stream_with_a_slack_too_many_or_too_few_is_not_clean() {
    let refused = refused_questions().into_iter().map(|(request, _, _)| request);
    let requests: Vec<Request> = refused.chain(all_slack_rows().iter().map(request_of)).collect();
    let (mut asked, mut answers) = (Vec::new(), Vec::new());
    for request in &requests {
        request.write(&mut asked).unwrap();
        let mut bytes = Vec::new();
        answer(request, None).write(&mut bytes).unwrap();
        answers.push(bytes);
    }
    let clean = |answers: &[Vec<u8>]| judge(&mut &asked[..], &mut &answers.concat()[..]).unwrap().is_clean();
    assert!(clean(&answers));
    for at in 0..answers.len() {
        let mut changed = answers.clone();
        match changed[at].len() {
            8 => changed[at].extend([0; 4]),
            _ => changed[at].truncate(8),
        }
        assert!(!clean(&changed), "answer {at}: {:?}", requests[at]);
    }
}

/// What RULES 15.10 says of each error, row by row: the last but one is less than the right slack by so much, and the
/// last row speaks of two rules.
#[test]
fn the_wrong_slacks_are_those_of_the_rules() {
    use Slip::*;
    let rows = [
        (HoldTurned, 14, 1),
        (CutOff, 13, 0),
        (OneOff, 0, -1),
        (LowTail, 7, 10),
        (UncertaintySign, 10, 2),
        (HoldPeriod, 3, 9),
        (DelaysExchanged, 0, 7),
        (SenderCharged, 17, 12_100_000 - 100_000),
        (TimesExchanged, 25, 6),
        (TimesExchanged, 26, 3),
    ];
    assert_eq!(table("15.10").len() + 1, rows.len());
    for (slip, row, slack) in rows {
        let row = &slack_rows()[row];
        let file = row.draft().file();
        let told = wrong::reply(&file, &row.question, Some(slip));
        assert_eq!(told, Reply::Slack(slack), "{slip:?} on {} {}", row.network, name_of(&row.question));
        assert!(judge_question(&file, &row.question, 0, 0, Some(slack as i32)).is_err(), "{slip:?}");
    }
}

#[test]
fn every_wrong_slack_is_caught_among_seeded_questions() {
    for (slip, caught) in try_programs(Source::new(34, "questions").unwrap(), 300) {
        let wrong = slip.is_some_and(Slip::touches_questions);
        assert_eq!(caught.questions > 0, wrong, "{slip:?}: {caught:?}");
    }
    for (slip, caught) in try_programs(Source::new(35, "mix").unwrap(), 1_500) {
        assert!(as_it_should_be(slip, caught), "{slip:?}: {caught:?}");
    }
}

/// RULES 15.7: around a shown loop there is room, but less than one for each setup rule.
#[test]
fn the_slacks_around_a_shown_loop_leave_no_room_for_a_shorter_period() {
    let mut tried = 0;
    for (draft, network) in tiny_networks(36, 1_500, |network| network.paths.len() <= 7) {
        let verdict = decide::verdict(&network);
        let (_, Some((period, latencies))) = verdict.settled() else { continue };
        let slack = |rule| network.slack(rule, period, latencies[network.tail(rule)], latencies[network.head(rule)]);
        for rules in all_loops(&network) {
            let sum: i64 = rules.iter().map(|&rule| slack(rule)).sum();
            let binds = sum_at(&network, &rules, period - 1) > 0;
            assert!(sum >= 0, "{rules:?} of {draft:?}");
            assert_eq!(sum < setups_in(&rules), binds, "{rules:?} of {draft:?}");
            tried += u32::from(binds);
        }
    }
    assert!(tried > 300, "only {tried} loops bound");
}
