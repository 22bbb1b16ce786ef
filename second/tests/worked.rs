//! The networks worked by hand: the eleven, and those of the requests.

mod support;

use second::answer::answer;
use second::arrows::Problem;
use second::check::judge_solve;
use second::listing::listing;
use second::verdict::Verdict;
use second::wire::{fresh_buffer, Answer, Request};
use second::worked::{all_cases, worked_cases, Case};
use second::{fast, solver};
use support::{accepted, loops_allowed, output, rules_of};

fn expected(case: &Case, verdict: &Verdict) -> bool {
    match verdict {
        Verdict::Answered { period, latencies, .. } => {
            (case.number, case.period, case.latencies) == (0, *period, &latencies[..])
        }
        _ => case.number == verdict.number(),
    }
}

#[test]
fn there_are_eleven_and_a_is_130_bytes_long() {
    let names: Vec<&str> = worked_cases().iter().map(|case| case.name).collect();
    assert_eq!(names, ["A", "A2", "A3", "A4", "A5", "A6", "A7", "B", "D", "E", "F"]);
    assert_eq!(worked_cases()[0].draft.file().len(), 130);
}

#[test]
fn both_solvers_give_the_papers_number_period_and_latencies() {
    for case in all_cases() {
        let problem = Problem::of(&accepted(&case.draft));
        for verdict in [solver::solve(&problem), fast::solve(&problem)] {
            assert!(expected(&case, &verdict), "{}: {verdict:?}", case.name);
        }
    }
}

#[test]
fn both_solvers_show_the_papers_loop() {
    for case in all_cases() {
        let network = accepted(&case.draft);
        let due = rules_of(case.witness);
        let allowed = loops_allowed(&network, case.number, case.period);
        assert_eq!(allowed.is_empty(), due.is_empty(), "{}", case.name);
        assert!(due.is_empty() || allowed.contains(&due), "{}: {allowed:?}", case.name);
        for verdict in [solver::solve(&Problem::of(&network)), fast::solve(&Problem::of(&network))] {
            assert!(due.is_empty() || allowed.contains(&verdict.witness().to_vec()), "{}: {verdict:?}", case.name);
            if allowed.len() <= 1 {
                assert_eq!(verdict.witness(), due, "{}", case.name);
            }
        }
    }
}

#[test]
fn the_judge_accepts_the_papers_own_outputs() {
    for case in all_cases() {
        let room = case.draft.room();
        let after = output(room, case.period, case.latencies, &rules_of(case.witness));
        let judged = judge_solve(&case.draft.file(), &fresh_buffer(room), case.number, 0, &after);
        assert_eq!(judged, Ok(()), "{}", case.name);
    }
}

#[test]
fn the_answers_bytes_are_the_papers_but_for_the_choice_of_loop() {
    for case in all_cases() {
        let (room, file) = (case.draft.room(), case.draft.file());
        let network = accepted(&case.draft);
        let Answer::Solved { number, place, buffer } = answer(&Request::Solve { room, file }, None) else {
            panic!("{}: a question's answer", case.name);
        };
        assert_eq!((number, place), (case.number, 0), "{}", case.name);
        let mut allowed = loops_allowed(&network, case.number, case.period);
        if allowed.is_empty() {
            allowed.push(Vec::new());
        }
        let outputs = allowed.iter().map(|witness| output(room, case.period, case.latencies, witness));
        assert_eq!(outputs.filter(|bytes| *bytes == buffer).count(), 1, "{}", case.name);
    }
}

#[test]
fn listings_are_as_the_paper_prints_them() {
    let listed = |name: &str| listing(&all_cases().iter().find(|case| case.name == name).unwrap().draft.file());
    assert_eq!(listed("A"), "period 9\nlatency 0 0\nlatency 1 1\nlatency 2 -1\nloop 8\nsetup 0\nhold 0\n");
    assert_eq!(listed("A2"), "period 9\nlatency 0 0\nlatency 1 1\nlatency 2 -1\n");
    assert_eq!(listed("A4"), "refused 9 0\nloop 8\nsetup 0\nhold 0\n");
    assert_eq!(listed("A7"), "refused 8 0\nloop 100\nhold 2\nhold 1\nhold 0\n");
    assert_eq!(listed("E"), "period 9\nlatency 0 0\nlatency 1 1\nloop 8\nsetup 0\nhigh 1\n");
    assert_eq!(listed("T"), "period 10\nlatency 0 0\nlatency 1 -10\nloop 9\nsetup 0\n");
    assert_eq!(listed("T5"), "refused 8 0\nloop 100\nhold 0\n");
    assert_eq!(listing(b"NW"), "refused 1 0\n");
}
