//! Small networks around self paths (RULES 16.1): of the host and of others, several on one register too, mixed with
//! other paths, under every u that could decide a hold rule.

use crate::draft::Draft;
use crate::gen::limits::{near_need, MOST};
use crate::paper::{Kind, UNCERTAINTY_MOST};
use crate::question::{reply, Question, Reply};
use crate::rng::Rng;
use crate::wire::Request;

pub fn network(rng: &mut Rng) -> Draft {
    let (n, uncertainty) = (rng.between(1, 4), uncertainty(rng));
    let registers = (0..n).map(|i| register(rng, i)).collect();
    let mut draft = Draft { floor: 1, ceiling: MOST, uncertainty, registers, paths: Vec::new() };
    add_selfs(rng, &mut draft);
    add_others(rng, &mut draft);
    rng.shuffle(&mut draft.paths);
    match rng.index(4) {
        0 => draft,
        1 => Draft { ceiling: rng.between(8, 40), ..draft },
        _ => near_need(rng, draft),
    }
}

fn uncertainty(rng: &mut Rng) -> i32 {
    match rng.index(7) {
        0 => 0,
        1 => 1,
        2 => UNCERTAINTY_MOST as i32,
        3 => rng.between(7, 999),
        _ => rng.between(2, 6),
    }
}

fn register(rng: &mut Rng, i: i32) -> [i32; 4] {
    let (setup, hold) = (rng.between(-1, 4), rng.between(-1, 6));
    let (low, width) = if i == 0 { (0, 0) } else { (rng.between(-15, 0), rng.between(0, 25)) };
    [setup, hold, low, low + width]
}

/// One to three self paths, often on one register. What dmin exceeds the hold time by is 0, or about as much as u, or
/// below 0, which no reading of u can cure.
fn add_selfs(rng: &mut Rng, draft: &mut Draft) {
    let u = draft.uncertainty;
    let rooms = match rng.index(5) {
        0 => vec![0],
        1 => vec![0, 1, u - 1],
        2 => vec![u, u + 1],
        3 => vec![u - 1, u, u + 1],
        _ => vec![-1, 0, 0, u],
    };
    let mut at = rng.index(draft.registers.len());
    for _ in 0..rng.between(1, 3) {
        if rng.percent(50) {
            at = rng.index(draft.registers.len());
        }
        let room = rng.pick(&rooms);
        add_path(rng, draft, (at, at), room);
    }
}

/// Other paths, often with a way back. At equal latencies their hold rules, with u in them, are just met or just not,
/// so that u decides between a skew that costs some period and none.
fn add_others(rng: &mut Rng, draft: &mut Draft) {
    let n = draft.registers.len();
    let (count, u) = (if n == 1 { 0 } else { rng.between(0, 3) }, draft.uncertainty);
    for _ in 0..count {
        let from = rng.index(n);
        let to = (from + 1 + rng.index(n - 1)) % n;
        let room = u + rng.between(-1, 4);
        add_path(rng, draft, (from, to), room);
        if rng.percent(40) {
            let room = u + rng.between(-1, 4);
            add_path(rng, draft, (to, from), room);
        }
    }
}

/// A path whose dmin exceeds the receiver's hold time by so much, if it can.
fn add_path(rng: &mut Rng, draft: &mut Draft, (from, to): (usize, usize), room: i32) {
    let dmin = (draft.registers[to][1] + room).max(0);
    draft.paths.push([from as i32, to as i32, dmin, dmin + rng.between(0, 9)]);
}

/// A question about a setup or hold rule of such a network, mostly a self path's. The latencies are equal or differ,
/// each half of the time. They stay, and the period or dmin moves to where the slack is -1, 0 or 1, mostly.
pub fn request(rng: &mut Rng) -> Request {
    let mut draft = network(rng);
    let number = path_asked(rng, &draft);
    let kind = rng.pick(&[Kind::Setup, Kind::Hold]);
    let at_tail = rng.between(-12, 12);
    let apart = if rng.percent(50) { 0 } else { rng.between(-8, 8) };
    let (period, at_head) = (rng.between(1, 40), at_tail + apart);
    let mut question = Question { period, kind: kind.number(), number: number as i32, at_tail, at_head };
    let due = rng.between(-1, 1);
    let Reply::Slack(slack) = reply(&draft.file(), &question) else { panic!("a toggle's question is refused") };
    let short = if rng.percent(80) { due - slack as i32 } else { 0 };
    if kind == Kind::Setup {
        question.period = (period + short).max(1);
    } else {
        let [_, _, dmin, dmax] = &mut draft.paths[number];
        *dmin = (*dmin + short).max(0);
        *dmax = (*dmax).max(*dmin);
    }
    Request::Question { question, file: draft.file() }
}

fn path_asked(rng: &mut Rng, draft: &Draft) -> usize {
    let of_selfs = rng.percent(60);
    let asked = |path: &[i32; 4]| !of_selfs || path[0] == path[1];
    let numbers: Vec<usize> = (0..draft.paths.len()).filter(|&number| asked(&draft.paths[number])).collect();
    rng.pick(&numbers)
}
