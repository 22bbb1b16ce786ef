//! The greatest networks, shaped to be hard: long binding loops, races decided by 1, and fields at their ends.

use crate::draft::Draft;
use crate::gen::limits::{near_need, MOST};
use crate::gen::planned;
use crate::paper::{DELAY_MOST, LATENCY_MOST, MARGIN_MOST, PATHS_MOST, REGISTERS_MOST, UNCERTAINTY_MOST};
use crate::rng::Rng;

const REGISTERS: i32 = REGISTERS_MOST as i32;
const PATHS: usize = PATHS_MOST as usize;
const LATENCY: i32 = LATENCY_MOST as i32;
const DELAY: i32 = DELAY_MOST as i32;
const MARGIN: i32 = MARGIN_MOST as i32;

/// Registers without margins and with windows wide open, in which only the paths decide.
fn open(floor: i32) -> Draft {
    let mut registers = vec![[0, 0, -LATENCY, LATENCY]; REGISTERS as usize];
    registers[0] = [0; 4];
    Draft { floor, ceiling: MOST, uncertainty: 0, registers, paths: Vec::new() }
}

/// The registers of a long loop, in some order; the host is the first of them if it is to take part.
fn order(rng: &mut Rng, with_host: bool) -> Vec<i32> {
    let mut order: Vec<i32> = (1..REGISTERS).collect();
    match rng.index(3) {
        0 => order.reverse(),
        1 => rng.shuffle(&mut order),
        _ => {}
    }
    if with_host {
        order.insert(0, 0);
    }
    order
}

/// A loop of setup rules through every register, listed against its direction or in no order: what is known of the
/// first register reaches the last only after many rounds. Paths that cannot bind fill the list.
pub fn chain(rng: &mut Rng) -> Draft {
    setup_loop(rng, true)
}

/// The same without the host, so that a contradiction creeps up by as little as 1 each time round.
pub fn ring(rng: &mut Rng) -> Draft {
    setup_loop(rng, false)
}

fn setup_loop(rng: &mut Rng, with_host: bool) -> Draft {
    let mut draft = open(1);
    let around = order(rng, with_host);
    let spread = rng.pick(&[0, 1, 5, 500]);
    for (index, &from) in around.iter().enumerate() {
        let to = around[(index + 1) % around.len()];
        let dmax = 500_000 + rng.between(0, spread);
        draft.paths.push([from, to, 500_000, dmax]);
    }
    if rng.percent(60) {
        while draft.paths.len() < PATHS {
            let (from, to) = (rng.between(0, REGISTERS - 1), rng.between(0, REGISTERS - 1));
            draft.paths.push([from, to, 400_000, rng.between(400_000, 450_000)]);
        }
    }
    match rng.index(3) {
        0 => draft.paths.reverse(),
        1 => rng.shuffle(&mut draft.paths),
        _ => {}
    }
    draft
}

/// A loop of hold rules through nearly every register whose amounts add up to 1, 0 or -1: refused with 8 or just not.
pub fn race(rng: &mut Rng) -> Draft {
    let mut draft = open(1);
    let with_host = rng.percent(50);
    let around = order(rng, with_host);
    let mut left = rng.between(-1, 1);
    for (index, &from) in around.iter().enumerate() {
        let to = around[(index + 1) % around.len()];
        let last = index + 1 == around.len();
        let amount = if last { left } else { rng.between(-40, 40) };
        left -= amount;
        // The amount is the receiver's hold less dmin; each register receives once here, so its hold is free.
        let dmin = rng.between(0, 3_000);
        draft.registers[to as usize][1] = dmin + amount;
        draft.paths.push([from, to, dmin, dmin + rng.between(0, 2_000)]);
    }
    let fillers = if rng.percent(60) { PATHS - draft.paths.len() } else { 0 };
    for _ in 0..fillers {
        let dmin = rng.between(900_000, DELAY);
        draft.paths.push([
            rng.between(0, REGISTERS - 1),
            rng.between(0, REGISTERS - 1),
            dmin,
            rng.between(dmin, DELAY),
        ]);
    }
    if rng.percent(50) {
        rng.shuffle(&mut draft.paths);
    }
    draft
}

/// Every field at one end of its range. The harder end of each comes with a chance of its own for each network, from
/// never to always, so that not all of them are refused.
pub fn extreme(rng: &mut Rng) -> Draft {
    let hard = rng.pick(&[0, 0, 1, 10, 50, 100]);
    let windows: &[(i32, i32)] = match rng.index(5) {
        0 => &[(-LATENCY, LATENCY)],
        1 => &[(LATENCY, LATENCY)],
        2 => &[(-LATENCY, -LATENCY)],
        3 => &[(-LATENCY, LATENCY), (0, LATENCY), (-LATENCY, 0)],
        _ => &[(-LATENCY, LATENCY), (LATENCY, LATENCY), (-LATENCY, -LATENCY), (0, 0)],
    };
    let mut draft = open(rng.pick(&[1, 1, 1, MOST]));
    draft.ceiling = if rng.percent(80) { MOST } else { draft.floor };
    draft.uncertainty = if rng.percent(50) { UNCERTAINTY_MOST as i32 } else { 0 };
    for (i, register) in draft.registers.iter_mut().enumerate() {
        let (low, high) = if i == 0 { (0, 0) } else { rng.pick(windows) };
        let hold = if rng.percent(hard) { MARGIN } else { -MARGIN };
        *register = [rng.pick(&[-MARGIN, MARGIN]), hold, low, high];
    }
    for _ in 0..PATHS {
        let dmin = if rng.percent(hard) { 0 } else { DELAY };
        let ends = [0, REGISTERS - 1, rng.between(0, REGISTERS - 1), rng.between(0, REGISTERS - 1)];
        let dmax = if rng.percent(50) { dmin } else { DELAY };
        draft.paths.push([rng.pick(&ends), rng.pick(&ends), dmin, dmax]);
    }
    draft
}

/// A great network whose ceiling or floor is just below, at or just above its least period.
pub fn near_limits(rng: &mut Rng) -> Draft {
    let make = rng.pick(&[planned::pipeline, planned::dense, planned::tight, chain, ring, race]);
    let draft = make(rng);
    near_need(rng, draft)
}

/// The greatest count of one sort with the least of the other.
pub fn corner(rng: &mut Rng) -> Draft {
    let mut draft = open(rng.between(1, 3));
    let (n, m) = rng.pick(&[(256, 0), (256, 1), (1, 2_048), (2, 2_048), (1, 0), (255, 2_047)]);
    draft.registers.truncate(n as usize);
    for _ in 0..m {
        let dmin = rng.between(0, 20);
        draft.paths.push([rng.between(0, n - 1), rng.between(0, n - 1), dmin, dmin + rng.between(0, 30)]);
    }
    draft
}
