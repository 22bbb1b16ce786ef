//! The network and its four rules, as the table of RULES 2.2 writes them.
//!
//! Every time is an `i64`, far wider than the file's four bytes, so that no sum of the judge's can overflow.

pub const REGISTERS_MOST: i64 = 256;
pub const PATHS_MOST: i64 = 2_048;
pub const PERIOD_MOST: i64 = 10_000_000;
pub const UNCERTAINTY_MOST: i64 = 10_000;
pub const MARGIN_MOST: i64 = 100_000;
pub const LATENCY_MOST: i64 = 1_000_000;
pub const DELAY_MOST: i64 = 1_000_000;

#[derive(Clone, Debug, PartialEq, Eq)]
pub struct Register {
    pub setup: i64,
    pub hold: i64,
    pub low: i64,
    pub high: i64,
}

#[derive(Clone, Debug, PartialEq, Eq)]
pub struct Path {
    pub from: usize,
    pub to: usize,
    pub dmin: i64,
    pub dmax: i64,
}

impl Path {
    /// RULES 16.1: "A path that leads from a register to itself is a *self path*."
    pub fn is_self(&self) -> bool {
        self.from == self.to
    }
}

/// What a hold rule is charged of u. RULES 2.8: "A hold rule is charged c: nothing where the path leads from a register
/// to itself, and u once on every other path". Whatever reads a hold rule asks here.
pub fn hold_charge(from: usize, to: usize, u: i64) -> i64 {
    if from == to {
        0
    } else {
        u
    }
}

/// An accepted network: every field is within its range.
#[derive(Clone, Debug, PartialEq, Eq)]
pub struct Network {
    pub floor: i64,
    pub ceiling: i64,
    pub uncertainty: i64,
    pub registers: Vec<Register>,
    pub paths: Vec<Path>,
}

#[derive(Clone, Copy, Debug, PartialEq, Eq, PartialOrd, Ord)]
pub enum Kind {
    Setup,
    Hold,
    Low,
    High,
}

impl Kind {
    pub const ALL: [Kind; 4] = [Kind::Setup, Kind::Hold, Kind::Low, Kind::High];

    pub fn number(self) -> i32 {
        match self {
            Kind::Setup => 0,
            Kind::Hold => 1,
            Kind::Low => 2,
            Kind::High => 3,
        }
    }

    pub fn name(self) -> &'static str {
        match self {
            Kind::Setup => "setup",
            Kind::Hold => "hold",
            Kind::Low => "low",
            Kind::High => "high",
        }
    }

    pub fn numbered(number: i32) -> Option<Kind> {
        Kind::ALL.into_iter().find(|kind| kind.number() == number)
    }

    /// The smallest and the greatest slack that a file and a question can reach (RULES 15.6).
    pub fn slack_ends(self) -> (i64, i64) {
        match self {
            Kind::Setup => (-3_109_999, 12_100_000),
            Kind::Hold => (-2_110_000, 3_100_000),
            Kind::Low | Kind::High => (-2_000_000, 2_000_000),
        }
    }
}

/// A rule by kind and number: the path's number for setup and hold, the register's for low and high.
#[derive(Clone, Copy, Debug, PartialEq, Eq, PartialOrd, Ord)]
pub struct Rule {
    pub kind: Kind,
    pub number: usize,
}

impl Network {
    /// The rule of that kind and number, if the network has it. The host has neither low nor high.
    pub fn rule(&self, kind: i32, number: i32) -> Option<Rule> {
        let kind = Kind::numbered(kind)?;
        let number = usize::try_from(number).ok()?;
        let exists = match kind {
            Kind::Setup | Kind::Hold => number < self.paths.len(),
            Kind::Low | Kind::High => number >= 1 && number < self.registers.len(),
        };
        exists.then_some(Rule { kind, number })
    }

    pub fn rules(&self) -> Vec<Rule> {
        let of_paths =
            (0..self.paths.len()).flat_map(|number| [Kind::Setup, Kind::Hold].map(|kind| Rule { kind, number }));
        let of_windows =
            (1..self.registers.len()).flat_map(|number| [Kind::Low, Kind::High].map(|kind| Rule { kind, number }));
        of_paths.chain(of_windows).collect()
    }

    pub fn tail(&self, rule: Rule) -> usize {
        match rule.kind {
            Kind::Setup => self.paths[rule.number].from,
            Kind::Hold => self.paths[rule.number].to,
            Kind::Low => 0,
            Kind::High => rule.number,
        }
    }

    pub fn head(&self, rule: Rule) -> usize {
        match rule.kind {
            Kind::Setup => self.paths[rule.number].to,
            Kind::Hold => self.paths[rule.number].from,
            Kind::Low => rule.number,
            Kind::High => 0,
        }
    }

    /// What the path's hold rule is charged here.
    pub fn charge_of_hold(&self, path: &Path) -> i64 {
        hold_charge(path.from, path.to, self.uncertainty)
    }

    /// By how much the latency at the arrow's head must at least exceed the one at its tail.
    pub fn amount(&self, rule: Rule, period: i64) -> i64 {
        match rule.kind {
            Kind::Setup => {
                let path = &self.paths[rule.number];
                path.dmax + self.registers[path.to].setup + self.uncertainty - period
            }
            Kind::Hold => {
                let path = &self.paths[rule.number];
                self.registers[path.to].hold + self.charge_of_hold(path) - path.dmin
            }
            Kind::Low => self.registers[rule.number].low,
            Kind::High => -self.registers[rule.number].high,
        }
    }

    /// One side of the rule's inequality less the other (RULES 15.2), with the latencies named by where they stand on
    /// the arrow. Low and high do not read the host's latency, so they are not the arrow form with 0 put in by the
    /// caller.
    pub fn slack(&self, rule: Rule, period: i64, at_tail: i64, at_head: i64) -> i64 {
        match rule.kind {
            Kind::Setup => {
                let path = &self.paths[rule.number];
                (at_head + period) - (at_tail + path.dmax + self.registers[path.to].setup + self.uncertainty)
            }
            Kind::Hold => {
                // The arrow runs against the path: the receiver stands at its tail, the sender at its head.
                let path = &self.paths[rule.number];
                (at_head + path.dmin) - (at_tail + self.registers[path.to].hold + self.charge_of_hold(path))
            }
            Kind::Low => at_head - self.registers[rule.number].low,
            Kind::High => self.registers[rule.number].high - at_tail,
        }
    }

    /// Both sides equal is a slack of 0, which meets the rule.
    pub fn is_met(&self, rule: Rule, period: i64, at_tail: i64, at_head: i64) -> bool {
        self.slack(rule, period, at_tail, at_head) >= 0
    }
}
