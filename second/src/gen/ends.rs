//! Questions whose slack stands at an end of what its rule can reach (RULES 15.6), or one short of it.

use crate::draft::Draft;
use crate::gen::limits::MOST;
use crate::paper::{Kind, Rule, DELAY_MOST, LATENCY_MOST, MARGIN_MOST, UNCERTAINTY_MOST};
use crate::question::Question;
use crate::rng::Rng;
use crate::wire::Request;

const LATENCY: i32 = LATENCY_MOST as i32;
const DELAY: i32 = DELAY_MOST as i32;
const MARGIN: i32 = MARGIN_MOST as i32;
const UNCERTAINTY: i32 = UNCERTAINTY_MOST as i32;

/// Every kind and either end alike. One in three is one short of the end, so that a sum cut off there shows.
pub fn request(rng: &mut Rng) -> Request {
    let mut draft = network(rng);
    let kind = rng.pick(&Kind::ALL);
    let number = match kind {
        Kind::Setup | Kind::Hold => rng.index(draft.paths.len()),
        Kind::Low | Kind::High => 1 + rng.index(draft.registers.len() - 1),
    };
    let hard = rng.percent(50);
    stretch(&mut draft, Rule { kind, number }, hard);
    let mut question = stretched(rng, Rule { kind, number }, hard);
    if rng.percent(33) {
        one_short(&mut question, kind, hard);
    }
    Request::Question { question, file: draft.file() }
}

/// A few registers and paths with every field at one of its ends. Paths from a register to itself, the host among
/// them, come by chance.
fn network(rng: &mut Rng) -> Draft {
    let (n, m) = (rng.between(2, 4), rng.between(1, 4));
    let mut registers: Vec<[i32; 4]> = (0..n).map(|_| register(rng)).collect();
    registers[0][2..].fill(0);
    let paths = (0..m).map(|_| path(rng, n)).collect();
    let (floor, uncertainty) = (rng.pick(&[1, MOST]), rng.pick(&[0, UNCERTAINTY]));
    Draft { floor, ceiling: MOST, uncertainty, registers, paths }
}

fn register(rng: &mut Rng) -> [i32; 4] {
    let (low, high) = rng.pick(&[(-LATENCY, LATENCY), (LATENCY, LATENCY), (-LATENCY, -LATENCY)]);
    [rng.pick(&[-MARGIN, MARGIN]), rng.pick(&[-MARGIN, MARGIN]), low, high]
}

fn path(rng: &mut Rng, n: i32) -> [i32; 4] {
    let (dmin, dmax) = rng.pick(&[(0, 0), (0, DELAY), (DELAY, DELAY)]);
    [rng.between(0, n - 1), rng.between(0, n - 1), dmin, dmax]
}

/// Puts all that the rule reads of the network where it is hardest to meet, or easiest. The hold rule of a path from a
/// register to itself does not read u, so it stops short of the smallest slack; one that is charged u all the same
/// would reach it.
fn stretch(draft: &mut Draft, rule: Rule, hard: bool) {
    let end = |easy: i32, hardest: i32| if hard { hardest } else { easy };
    match rule.kind {
        Kind::Setup => {
            let [_, to, dmin, dmax] = &mut draft.paths[rule.number];
            *dmax = end(0, DELAY);
            *dmin = (*dmin).min(*dmax);
            draft.registers[*to as usize][0] = end(-MARGIN, MARGIN);
            draft.uncertainty = end(0, UNCERTAINTY);
        }
        Kind::Hold => {
            let [_, to, dmin, dmax] = &mut draft.paths[rule.number];
            *dmin = end(DELAY, 0);
            *dmax = (*dmax).max(*dmin);
            draft.registers[*to as usize][1] = end(-MARGIN, MARGIN);
            draft.uncertainty = end(0, UNCERTAINTY);
        }
        Kind::Low => {
            let [_, _, low, high] = &mut draft.registers[rule.number];
            *low = end(-LATENCY, LATENCY);
            *high = (*high).max(*low);
        }
        Kind::High => {
            let [_, _, low, high] = &mut draft.registers[rule.number];
            *high = end(LATENCY, -LATENCY);
            *low = (*low).min(*high);
        }
    }
}

/// The period and the latencies likewise; what the rule does not read is drawn.
fn stretched(rng: &mut Rng, rule: Rule, hard: bool) -> Question {
    let (period, at_tail, at_head) = if hard { (1, LATENCY, -LATENCY) } else { (MOST, -LATENCY, LATENCY) };
    let unread = rng.pick(&[-LATENCY, 0, LATENCY]);
    let other_period = rng.pick(&[1, MOST]);
    Question {
        period: if rule.kind == Kind::Setup { period } else { other_period },
        kind: rule.kind.number(),
        number: rule.number as i32,
        at_tail: if rule.kind == Kind::Low { unread } else { at_tail },
        at_head: if rule.kind == Kind::High { unread } else { at_head },
    }
}

/// Moves a latency that the rule reads by 1 towards the other end.
fn one_short(question: &mut Question, kind: Kind, hard: bool) {
    let by = if hard { 1 } else { -1 };
    match kind {
        Kind::High => question.at_tail -= by,
        _ => question.at_head += by,
    }
}
