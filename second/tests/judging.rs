//! The judge accepts every right output, and refuses whatever differs from one.

mod support;

use second::answer::answer;
use second::check::judge_solve;
use second::decide;
use second::gen::Source;
use second::judge::{as_it_should_be, judge, try_programs, Judge};
use second::paper::{Kind, Network, Rule};
use second::verdict::Verdict;
use second::wire::{fresh_buffer, Answer, Request};
use second::worked::{all_cases, worked_cases};
use support::{accepted, all_loops, loops_allowed, output, rules_of, sum_at, tiny_networks};

/// An answered or refused network with the parts of its right output.
struct Sample {
    file: Vec<u8>,
    room: i32,
    network: Network,
    number: i32,
    period: i64,
    latencies: Vec<i64>,
    witness: Vec<Rule>,
}

impl Sample {
    fn of(draft: &second::draft::Draft, spare: i32) -> Sample {
        let network = accepted(draft);
        let verdict = decide::verdict(&network);
        let (period, latencies) = match &verdict {
            Verdict::Answered { period, latencies, .. } => (*period, latencies.clone()),
            _ => (0, Vec::new()),
        };
        let (number, witness) = (verdict.number(), verdict.witness().to_vec());
        Sample { file: draft.file(), room: draft.room() + spare, network, number, period, latencies, witness }
    }

    fn output(&self, witness: &[Rule]) -> Vec<u8> {
        output(self.room, self.period, &self.latencies, witness)
    }

    fn judge(&self, number: i32, place: i32, after: &[u8]) -> Result<(), String> {
        judge_solve(&self.file, &fresh_buffer(self.room), number, place, after)
    }

    fn accepts(&self, after: &[u8]) -> bool {
        self.judge(self.number, 0, after).is_ok()
    }

    /// The byte at which the loop entries begin.
    fn entries_at(&self) -> usize {
        14 + 6 * self.latencies.len()
    }
}

fn samples(seed: u64, count: usize) -> Vec<Sample> {
    let drafts = tiny_networks(seed, count, |network| network.paths.len() <= 7);
    drafts.iter().map(|(draft, _)| Sample::of(draft, 9)).collect()
}

#[test]
fn the_judge_accepts_what_the_right_program_answers() {
    let mut source = Source::new(21, "mix").unwrap();
    let (mut requests, mut answers) = (Vec::new(), Vec::new());
    for _ in 0..4_000 {
        let request = source.request();
        request.write(&mut requests).unwrap();
        answer(&request, None).write(&mut answers).unwrap();
    }
    let tally = judge(&mut &requests[..], &mut &answers[..]).unwrap();
    assert_eq!((tally.judged, tally.wrong, tally.broken), (4_000, 0, None), "{:?}", tally.faults);
    let numbers = (1..=9).map(|number| format!("solved {number}"));
    let questions = [1, 2, 3, 4, 5, 6, 10].map(|number| format!("question {number}"));
    let slacks = ["slack below 0", "slack of 0", "slack above 0"].map(String::from);
    let ends = Kind::ALL.map(|kind| ["smallest", "greatest"].map(|end| format!("slack of {}, the {end}", kind.name())));
    let kinds = Kind::ALL.map(|kind| format!("loop with {}", kind.name()));
    let answered = ["solved 0, no loop", "solved 0, with a loop"].map(String::from);
    let reached = slacks.into_iter().chain(ends.concat());
    for what in numbers.chain(questions).chain(kinds).chain(answered).chain(reached) {
        assert!(tally.seen.contains_key(&what), "the mix never shows: {what}");
    }
}

#[test]
fn every_changed_byte_of_a_worked_output_is_refused() {
    for case in all_cases() {
        let sample = Sample::of(&case.draft, 9);
        let right = sample.output(&rules_of(case.witness));
        assert_eq!(sample.judge(case.number, 0, &right), Ok(()), "{}", case.name);
        for at in 0..right.len() {
            for mask in [0x01, 0x02, 0x80, 0xff] {
                let mut changed = right.clone();
                changed[at] ^= mask;
                assert!(!sample.accepts(&changed), "{}: byte {at} changed by {mask}", case.name);
            }
        }
    }
}

#[test]
fn every_changed_byte_outside_the_loop_is_refused() {
    for sample in samples(22, 400) {
        let right = sample.output(&sample.witness);
        let entries = sample.entries_at()..sample.entries_at() + 10 * sample.witness.len();
        for at in (0..right.len()).filter(|at| !entries.contains(at)) {
            let mut changed = right.clone();
            changed[at] ^= 0x01 << (at % 8);
            assert!(!sample.accepts(&changed), "byte {at} of {:?}", sample.network);
        }
    }
}

/// Within the loop a changed byte may make another loop that is allowed too; the exhaustive list decides.
#[test]
fn a_changed_loop_is_accepted_exactly_when_it_is_allowed() {
    let (mut accepted, mut refused) = (0, 0);
    for sample in samples(23, 400).into_iter().filter(|sample| !sample.witness.is_empty()) {
        let allowed = loops_allowed(&sample.network, sample.number, sample.period);
        let rules = sample.network.rules();
        for at in 0..sample.witness.len() {
            for &other in &rules {
                let mut changed = sample.witness.clone();
                changed[at] = other;
                let due = allowed.contains(&changed);
                assert_eq!(sample.accepts(&sample.output(&changed)), due, "{changed:?} of {:?}", sample.network);
                if due {
                    accepted += 1
                } else {
                    refused += 1
                }
            }
        }
    }
    assert!(accepted > 100 && refused > 1_000, "{accepted} accepted, {refused} refused");
}

#[test]
fn every_loop_is_accepted_exactly_when_it_is_allowed() {
    let (mut accepted, mut refused) = (0, 0);
    for sample in samples(24, 300).into_iter().filter(|sample| !sample.witness.is_empty()) {
        let allowed = loops_allowed(&sample.network, sample.number, sample.period);
        for rules in all_loops(&sample.network) {
            let due = allowed.contains(&rules);
            assert_eq!(sample.accepts(&sample.output(&rules)), due, "{rules:?} of {:?}", sample.network);
            if due {
                accepted += 1
            } else {
                refused += 1
            }
        }
    }
    assert!(accepted > 300 && refused > 1_000, "{accepted} accepted, {refused} refused");
}

#[test]
fn loops_turned_cut_doubled_or_left_out_are_refused() {
    let mut turned = 0;
    for sample in samples(25, 400).into_iter().filter(|sample| !sample.witness.is_empty()) {
        let length = sample.witness.len();
        for by in 1..length {
            let mut changed = sample.witness.clone();
            changed.rotate_left(by);
            assert!(!sample.accepts(&sample.output(&changed)), "turned by {by}: {:?}", sample.network);
            turned += 1;
        }
        assert!(!sample.accepts(&sample.output(&[])), "left out: {:?}", sample.network);
        let doubled = [&sample.witness[..], &sample.witness[..]].concat();
        if 2 * length <= sample.network.registers.len() {
            assert!(!sample.accepts(&sample.output(&doubled)), "doubled: {:?}", sample.network);
        }
    }
    assert!(turned > 100, "only {turned} loops could be turned");
}

#[test]
fn two_loops_joined_at_a_register_are_refused() {
    let mut joined = 0;
    for sample in samples(26, 400).into_iter().filter(|sample| sample.number == 8 && !sample.witness.is_empty()) {
        let start = sample.network.tail(sample.witness[0]);
        for other in all_loops(&sample.network) {
            let both = [&sample.witness[..], &other[..]].concat();
            let fits = sample.network.tail(other[0]) == start && both.len() <= sample.network.registers.len();
            if fits && sum_at(&sample.network, &both, 1) > 0 {
                assert!(!sample.accepts(&sample.output(&both)), "{both:?} of {:?}", sample.network);
                joined += 1;
            }
        }
    }
    assert!(joined > 50, "only {joined} pairs of loops could be joined");
}

#[test]
fn a_loop_at_the_floor_is_refused() {
    let mut shown = 0;
    for sample in samples(27, 300).into_iter().filter(|sample| sample.number == 0 && sample.witness.is_empty()) {
        for rules in all_loops(&sample.network) {
            assert!(!sample.accepts(&sample.output(&rules)), "{rules:?} of {:?}", sample.network);
            shown += 1;
        }
    }
    assert!(shown > 300, "only {shown} loops were shown");
}

#[test]
fn every_other_number_or_place_is_refused() {
    let mut source = Source::new(28, "mix").unwrap();
    for _ in 0..1_500 {
        let request = source.request();
        let judge = Judge::of(&request);
        let right = answer(&request, None);
        assert_eq!(judge.judge(&right).map(|_| ()), Ok(()));
        for (by_number, by_place) in [(1, 0), (-1, 0), (0, 1), (0, -1), (1, 1)] {
            let changed = match right.clone() {
                Answer::Solved { number, place, buffer } => {
                    Answer::Solved { number: number + by_number, place: place + by_place, buffer }
                }
                Answer::Replied { number, place, slack } => {
                    Answer::Replied { number: number + by_number, place: place + by_place, slack }
                }
            };
            assert!(judge.judge(&changed).is_err(), "{changed:?} for {request:?}");
        }
    }
}

#[test]
fn any_touched_byte_is_refused_where_nothing_may_be_written() {
    let mut refused = [0; 8];
    for shape in ["damaged", "rooms"] {
        let mut source = Source::new(29, shape).unwrap();
        for _ in 0..1_500 {
            let request = source.request();
            let Answer::Solved { number, place, buffer } = answer(&request, None) else { continue };
            if !(1..=7).contains(&number) {
                continue;
            }
            for at in [0, buffer.len() / 2, buffer.len().saturating_sub(1)].into_iter().filter(|&at| at < buffer.len())
            {
                let mut changed = buffer.clone();
                changed[at] ^= 0x10;
                let judged = Judge::of(&request).judge(&Answer::Solved { number, place, buffer: changed });
                assert!(judged.is_err(), "byte {at} touched for {request:?}");
                refused[number as usize] += 1;
            }
        }
    }
    assert!(refused[1..].iter().all(|&count| count > 0), "{refused:?}");
}

#[test]
fn every_wrong_program_is_caught_and_the_right_one_is_clean() {
    for (slip, caught) in try_programs(Source::new(30, "mix").unwrap(), 3_000) {
        assert!(as_it_should_be(slip, caught), "{slip:?}: {caught:?}");
    }
}

#[test]
fn every_wrong_program_fails_the_worked_case_named_for_it() {
    use second::slip::Slip::*;
    let named = [(HoldPeriod, "A7"), (RoundDown, "D"), (Shifted, "A"), (SetupOnly, "A"), (Strict, "A6")];
    for (slip, name) in named {
        let case = worked_cases().into_iter().find(|case| case.name == name).unwrap();
        let request = Request::Solve { room: case.draft.room(), file: case.draft.file() };
        assert!(Judge::of(&request).judge(&answer(&request, Some(slip))).is_err(), "{slip:?} on {name}");
    }
}

/// What RULES 12.1 says of four of the errors.
#[test]
fn the_wrong_programs_err_as_the_paper_says() {
    use second::{slip::Slip::*, wrong};
    let network = |name: &str| accepted(&worked_cases().iter().find(|case| case.name == name).unwrap().draft);
    let period = |name, slip| wrong::verdict(&network(name), Some(slip)).settled().1.map(|(period, _)| period);
    assert_eq!(period("D", RoundDown), Some(7));
    assert_eq!(period("A", SetupOnly), Some(7));
    assert!(period("A7", HoldPeriod).is_some());
    assert_eq!(wrong::verdict(&network("A6"), Some(Strict)).number(), 8);
}

/// Network D with two more paths from 0 to 1. The fast one binds its hold rule and lifts the period to 10; kept by
/// dmax alone, it is lost, and D's own 8 comes out.
#[test]
fn keeping_the_worst_path_by_dmax_loses_a_faster_ones_hold() {
    use second::{slip::Slip::WorstPath, wrong};
    let mut draft = worked_cases().into_iter().find(|case| case.name == "D").unwrap().draft;
    draft.paths.extend([[0, 1, 7, 8], [0, 1, 0, 3]]);
    let network = accepted(&draft);
    let period = |slip| wrong::verdict(&network, slip).settled().1.map(|(period, _)| period);
    assert_eq!((period(None), period(Some(WorstPath))), (Some(10), Some(8)));
}
