//! The rules of a network, and loops of them (RULES 2 and 4).

use crate::network::{count, Network, PathId, RegisterId};
use std::fmt;

/// The four kinds of rules.
#[derive(Clone, Copy, Debug, PartialEq, Eq, Hash)]
pub enum Kind {
    /// The slowest data of a path is there before the receiver's next edge.
    Setup,
    /// The fastest data of a path comes after the receiver's edge.
    Hold,
    /// A register's latency is at least the low end of its window.
    Low,
    /// A register's latency is at most the high end of its window.
    High,
}

impl Kind {
    /// The kind's number: 0 to 3.
    pub const fn number(self) -> i32 {
        match self {
            Kind::Setup => 0,
            Kind::Hold => 1,
            Kind::Low => 2,
            Kind::High => 3,
        }
    }
}

impl fmt::Display for Kind {
    fn fmt(&self, f: &mut fmt::Formatter<'_>) -> fmt::Result {
        f.write_str(match self {
            Kind::Setup => "setup",
            Kind::Hold => "hold",
            Kind::Low => "low",
            Kind::High => "high",
        })
    }
}

/// A rule: of a path, or of a register other than the host.
#[derive(Clone, Copy, Debug, PartialEq, Eq, Hash)]
pub enum Rule {
    /// The setup rule of a path.
    Setup(PathId),
    /// The hold rule of a path.
    Hold(PathId),
    /// The low rule of a register.
    Low(RegisterId),
    /// The high rule of a register.
    High(RegisterId),
}

impl Rule {
    /// Its kind.
    pub const fn kind(self) -> Kind {
        match self {
            Rule::Setup(_) => Kind::Setup,
            Rule::Hold(_) => Kind::Hold,
            Rule::Low(_) => Kind::Low,
            Rule::High(_) => Kind::High,
        }
    }

    /// The number of its path or register.
    pub const fn number(self) -> i32 {
        match self {
            Rule::Setup(path) | Rule::Hold(path) => path.number(),
            Rule::Low(register) | Rule::High(register) => register.number(),
        }
    }

    /// The registers at the tail and at the head of its arrow: the latency at the head is at least the one at the tail plus an amount. Where
    /// the network has no such rule, there are none.
    pub fn ends(self, network: &Network) -> Option<Ends> {
        let path = |path: PathId| network.paths.get(usize::try_from(path.number()).ok()?);
        let has = |register: RegisterId| (1..count(network.registers.len())).contains(&register.number());
        match self {
            Rule::Setup(id) => path(id).map(|path| Ends { tail: path.from, head: path.to }),
            Rule::Hold(id) => path(id).map(|path| Ends { tail: path.to, head: path.from }),
            Rule::Low(id) => has(id).then_some(Ends { tail: RegisterId::HOST, head: id }),
            Rule::High(id) => has(id).then_some(Ends { tail: id, head: RegisterId::HOST }),
        }
    }

    /// The rule in words that have the registers' names: `hold 0: of the path from register 0 (the host) to register 1 (a)`.
    pub fn describe(self, network: &Network) -> String {
        let path = |from, to| format!("of the path from {} to {}", network.label(from), network.label(to));
        let told = self.ends(network).map(|Ends { tail, head }| match self {
            Rule::Setup(_) => path(tail, head),
            Rule::Hold(_) => path(head, tail),
            Rule::Low(register) | Rule::High(register) => format!("of the window of {}", network.label(register)),
        });
        format!("{self}: {}", told.unwrap_or_else(|| "the network has no such rule".into()))
    }

    /// The rule that a loop entry names, in a network of n registers and m paths.
    pub(crate) fn of_entry([kind, number]: [i32; 2], n: i32, m: i32) -> Option<Rule> {
        let path = (0..m).contains(&number).then_some(PathId::new(number));
        let register = (1..n).contains(&number).then_some(RegisterId::new(number));
        match kind {
            0 => path.map(Rule::Setup),
            1 => path.map(Rule::Hold),
            2 => register.map(Rule::Low),
            3 => register.map(Rule::High),
            _ => None,
        }
    }
}

impl fmt::Display for Rule {
    fn fmt(&self, f: &mut fmt::Formatter<'_>) -> fmt::Result {
        write!(f, "{} {}", self.kind(), self.number())
    }
}

/// The registers at the two ends of a rule's arrow.
#[derive(Clone, Copy, Debug, PartialEq, Eq, Hash)]
pub struct Ends {
    /// Where the arrow comes from.
    pub tail: RegisterId,
    /// Where it leads to.
    pub head: RegisterId,
}

/// A loop of rules that contradicts itself: arrow after arrow, from the one that leaves the lowest-numbered register.
#[derive(Clone, Debug, PartialEq, Eq, Hash)]
pub struct Loop {
    pub(crate) rules: Vec<Rule>,
}

impl Loop {
    /// Its rules, at least one.
    pub fn rules(&self) -> &[Rule] {
        &self.rules
    }

    /// How many of them are setup rules.
    pub fn setups(&self) -> usize {
        self.rules.iter().filter(|rule| rule.kind() == Kind::Setup).count()
    }
}

impl fmt::Display for Loop {
    fn fmt(&self, f: &mut fmt::Formatter<'_>) -> fmt::Result {
        for (index, rule) in self.rules.iter().enumerate() {
            write!(f, "{}{rule}", if index == 0 { "" } else { ", " })?;
        }
        Ok(())
    }
}

impl Network {
    /// All rules: setup and hold of every path, low and high of every register but the host. They come kind by kind.
    pub fn rules(&self) -> impl Iterator<Item = Rule> {
        let (n, m) = (count(self.registers.len()), count(self.paths.len()));
        let of_paths = move |rule: fn(PathId) -> Rule| (0..m).map(move |path| rule(PathId::new(path)));
        let of_registers =
            move |rule: fn(RegisterId) -> Rule| (1..n).map(move |register| rule(RegisterId::new(register)));
        let rules = of_paths(Rule::Setup).chain(of_paths(Rule::Hold));
        rules.chain(of_registers(Rule::Low)).chain(of_registers(Rule::High))
    }
}
