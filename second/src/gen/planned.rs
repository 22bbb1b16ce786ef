//! Networks drawn around a hidden schedule, so that their hold rules and windows can be met and the period decides.

use crate::draft::Draft;
use crate::gen::limits::{near_need, MOST};
use crate::paper::{hold_charge, DELAY_MOST, PATHS_MOST, REGISTERS_MOST};
use crate::rng::Rng;

const DELAY: i32 = DELAY_MOST as i32;
const PATHS: i32 = PATHS_MOST as i32;
const REGISTERS: i32 = REGISTERS_MOST as i32;

/// How far the numbers of a planned network go.
pub struct Scale {
    /// Hidden latencies lie within this of 0.
    pub latency: i32,
    /// Each window reaches at most this far beyond the hidden latency, on either side.
    pub window: i32,
    pub margin: i32,
    pub u: i32,
    /// How much dmin exceeds what the hidden schedule's hold rule asks for, at most.
    pub slack: i32,
    /// How much dmax exceeds dmin, at most.
    pub spread: i32,
}

/// A draft under work, with the schedule it is drawn around.
pub struct Plan<'a> {
    pub rng: &'a mut Rng,
    pub draft: Draft,
    scale: Scale,
    hidden: Vec<i32>,
}

impl<'a> Plan<'a> {
    pub fn new(rng: &'a mut Rng, n: i32, scale: Scale) -> Plan<'a> {
        let hidden: Vec<i32> =
            (0..n).map(|i| if i == 0 { 0 } else { rng.between(-scale.latency, scale.latency) }).collect();
        let mut registers = Vec::new();
        for (i, latency) in hidden.iter().enumerate() {
            let (below, above) =
                if i == 0 { (0, 0) } else { (rng.between(0, scale.window), rng.between(0, scale.window)) };
            let (setup, hold) =
                (rng.between(-scale.margin / 4, scale.margin), rng.between(-scale.margin / 4, scale.margin));
            registers.push([setup, hold, latency - below, latency + above]);
        }
        let uncertainty = rng.between(0, scale.u);
        let draft = Draft { floor: 1, ceiling: MOST, uncertainty, registers, paths: Vec::new() };
        Plan { rng, draft, scale, hidden }
    }

    /// A path whose hold rule the hidden schedule meets.
    pub fn path(&mut self, from: i32, to: i32) {
        let (sender, receiver) = (from as usize, to as usize);
        let charge = hold_charge(sender, receiver, i64::from(self.draft.uncertainty)) as i32;
        let asked = self.hidden[receiver] + self.draft.registers[receiver][1] + charge - self.hidden[sender];
        let dmin = (asked.max(0) + self.rng.between(0, self.scale.slack)).min(DELAY);
        let dmax = (dmin + self.rng.between(0, self.scale.spread)).min(DELAY);
        self.draft.paths.push([from, to, dmin, dmax]);
    }

    pub fn any(&mut self) -> i32 {
        let n = self.draft.n();
        self.rng.between(0, n - 1)
    }

    /// Adds paths between any two registers until there are so many.
    pub fn fill(&mut self, m: i32) {
        while (self.draft.paths.len() as i32) < m {
            let (from, to) = (self.any(), self.any());
            self.path(from, to);
        }
    }

    /// The draft, its paths in any order, its floor above 1 now and then.
    pub fn finish(mut self) -> Draft {
        let order = self.rng.percent(50);
        if order {
            self.rng.shuffle(&mut self.draft.paths);
        }
        self.draft.floor = if self.rng.percent(70) { 1 } else { self.rng.between(1, 5_000) };
        self.draft
    }
}

pub fn medium(rng: &mut Rng) -> Draft {
    let n = rng.between(6, 40);
    let scale = Scale {
        latency: 60,
        window: rng.pick(&[0, 3, 40, 500]),
        margin: 20,
        u: 5,
        slack: rng.pick(&[0, 10, 80]),
        spread: 300,
    };
    let mut plan = Plan::new(rng, n, scale);
    let m = plan.rng.between(n, 4 * n);
    plan.fill(m);
    let mut draft = plan.finish();
    // A race now and then: one path made as fast as can be.
    if rng.percent(20) {
        let fast = rng.index(draft.paths.len());
        draft.paths[fast][2] = 0;
    }
    if rng.percent(40) {
        near_need(rng, draft)
    } else {
        draft
    }
}

/// Stages one after the other, skips forward, and some feedback.
pub fn pipeline(rng: &mut Rng) -> Draft {
    let scale = Scale { latency: 200, window: 2_000, margin: 100, u: 50, slack: 400, spread: 3_000 };
    let mut plan = Plan::new(rng, REGISTERS, scale);
    for stage in 0..REGISTERS {
        plan.path(stage, (stage + 1) % REGISTERS);
    }
    for _ in REGISTERS..PATHS {
        let from = plan.any();
        let forward = plan.rng.percent(80);
        let to = if forward { (from + plan.rng.between(1, 8)).min(REGISTERS - 1) } else { plan.rng.between(0, from) };
        plan.path(from, to);
    }
    plan.finish()
}

/// A path between every two of 45 registers, or as many paths as can be between any of 256.
pub fn dense(rng: &mut Rng) -> Draft {
    let scale = Scale { latency: 1_000, window: 3_000, margin: 200, u: 100, slack: 2_000, spread: 20_000 };
    let complete = rng.percent(50);
    let mut plan = Plan::new(rng, if complete { 45 } else { REGISTERS }, scale);
    if complete {
        (0..45 * 45).for_each(|pair| plan.path(pair / 45, pair % 45));
    } else {
        plan.fill(PATHS);
    }
    plan.finish()
}

/// Windows of hardly any width and hold rules that are just met.
pub fn tight(rng: &mut Rng) -> Draft {
    let scale = Scale {
        latency: 5_000,
        window: rng.between(0, 3),
        margin: 100,
        u: 20,
        slack: rng.between(0, 2),
        spread: 4_000,
    };
    let mut plan = Plan::new(rng, REGISTERS, scale);
    plan.fill(PATHS);
    plan.finish()
}

/// All paths between a few pairs of registers.
pub fn parallel(rng: &mut Rng) -> Draft {
    let scale = Scale { latency: 100, window: 400, margin: 50, u: 10, slack: 300, spread: 2_000 };
    let mut plan = Plan::new(rng, REGISTERS, scale);
    let pairs: Vec<(i32, i32)> = (0..plan.rng.between(3, 30)).map(|_| (plan.any() % 20, plan.any() % 20)).collect();
    for _ in 0..PATHS {
        let (from, to) = plan.rng.pick(&pairs);
        plan.path(from, to);
    }
    plan.finish()
}

/// Paths from a register to itself, the host among them.
pub fn selfs(rng: &mut Rng) -> Draft {
    let scale = Scale { latency: 300, window: 900, margin: 100, u: 30, slack: 500, spread: 5_000 };
    let mut plan = Plan::new(rng, REGISTERS, scale);
    for _ in 0..PATHS {
        let from = plan.any();
        let to = if plan.rng.percent(60) { from } else { plan.any() };
        let host = plan.rng.percent(10);
        if host {
            plan.path(0, 0)
        } else {
            plan.path(from, to)
        }
    }
    plan.finish()
}
