//! Questions about single rules: each part at and past its limits, and latencies that just meet or just break a rule.

use crate::draft::Draft;
use crate::paper::{LATENCY_MOST, PERIOD_MOST};
use crate::question::{reply, Question, Reply};
use crate::rng::Rng;

const LATENCY: i32 = LATENCY_MOST as i32;
const PERIOD: i32 = PERIOD_MOST as i32;

/// A question that nothing but the file can make refused.
pub fn plain() -> Question {
    Question { period: 10, kind: 0, number: 0, at_tail: 0, at_head: 0 }
}

pub fn about(rng: &mut Rng, draft: &Draft) -> Question {
    let mut question = within(rng, draft);
    if rng.percent(60) {
        question = at_the_edge(rng, draft, question);
    }
    if rng.percent(30) {
        spoil(rng, draft, &mut question);
    }
    question
}

/// A question in range, if the network has a rule of the kind drawn at all.
fn within(rng: &mut Rng, draft: &Draft) -> Question {
    let kind = rng.between(0, 3);
    let number = match kind {
        0 | 1 => rng.between(0, (draft.paths.len() as i32 - 1).max(0)),
        _ => rng.between(draft.n().min(2) - 1, draft.n() - 1),
    };
    Question { period: period(rng), kind, number, at_tail: latency(rng), at_head: latency(rng) }
}

fn period(rng: &mut Rng) -> i32 {
    match rng.index(5) {
        0 => 1,
        1 => PERIOD,
        2 => rng.between(1, PERIOD),
        _ => rng.between(1, 30),
    }
}

/// Any latency may stand for the host's too: one other than 0 is not refused.
fn latency(rng: &mut Rng) -> i32 {
    match rng.index(8) {
        0 => LATENCY,
        1 => -LATENCY,
        2 => rng.between(-LATENCY, LATENCY),
        3 => 0,
        _ => rng.between(-20, 20),
    }
}

/// Moves a latency, or the period, to where the slack is -1, 0 or 1, if that is in range.
fn at_the_edge(rng: &mut Rng, draft: &Draft, question: Question) -> Question {
    let file = draft.file();
    let due = rng.between(-1, 1);
    let first = rng.index(3);
    let Reply::Slack(slack) = reply(&file, &question) else {
        return question;
    };
    let short = due - slack as i32;
    let mut moved = [
        Question { at_head: question.at_head + short, ..question },
        Question { at_tail: question.at_tail - short, ..question },
        Question { period: question.period + short, ..question },
    ];
    moved.rotate_left(first);
    // What the rule does not read, or what would leave its range, cannot be moved to any effect.
    let there = |moved: &Question| reply(&file, moved) == Reply::Slack(i64::from(due));
    moved.into_iter().find(there).unwrap_or(question)
}

/// Puts one part at or just past its limit, or far past it.
fn spoil(rng: &mut Rng, draft: &Draft, question: &mut Question) {
    let latencies = [LATENCY + 1, -LATENCY - 1, LATENCY, -LATENCY, i32::MAX, i32::MIN];
    let (n, m) = (draft.n(), draft.paths.len() as i32);
    match rng.index(5) {
        0 => question.period = rng.pick(&[0, -1, PERIOD, PERIOD + 1, i32::MAX, i32::MIN]),
        1 => question.kind = rng.pick(&[-1, 4, 5, 256, i32::MAX, i32::MIN]),
        2 => question.number = rng.pick(&[-1, 0, n - 1, n, m - 1, m, m + 1, 65_536, i32::MAX, i32::MIN]),
        3 => question.at_tail = rng.pick(&latencies),
        _ => question.at_head = rng.pick(&latencies),
    }
}
