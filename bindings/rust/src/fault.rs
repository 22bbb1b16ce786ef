//! Which numbers of a network are out of range. The proved module refuses by itself; this only puts its refusal into words.

use crate::network::{count, Network, Path, PathId, Register, RegisterId};
use std::fmt;
use std::ops::RangeInclusive;

const PERIODS: RangeInclusive<i32> = 1..=10_000_000;
const TIMES: RangeInclusive<i32> = -100_000..=100_000;
const LATENCIES: RangeInclusive<i32> = -1_000_000..=1_000_000;
const DELAYS: RangeInclusive<i32> = 0..=1_000_000;

/// A record of the network file.
#[derive(Clone, Copy, Debug, PartialEq, Eq, Hash)]
pub enum Record {
    /// The header.
    Header,
    /// The record of a register.
    Register(RegisterId),
    /// The record of a path.
    Path(PathId),
}

/// A number of a network that is out of range.
#[derive(Clone, Debug, PartialEq, Eq, Hash)]
pub struct Fault {
    /// Where it stands.
    pub record: Record,
    /// What it is called: `setup`, `dmax` and so on.
    pub field: &'static str,
    /// What it is.
    pub value: i32,
    /// What it may be.
    pub range: RangeInclusive<i32>,
    /// What the range hangs on, where that is something else in the network.
    pub because: Option<&'static str>,
}

impl Fault {
    /// The fault in words that have the register's name: `register 1 (a): setup is 100001, outside -100000 to 100000`.
    pub fn describe(&self, network: &Network) -> String {
        let record = match self.record {
            Record::Header => "the network".to_string(),
            Record::Register(register) => network.label(register),
            Record::Path(path) => path.to_string(),
        };
        format!("{record}: {self}")
    }

    fn because(self, because: &'static str) -> Fault {
        Fault { because: Some(because), ..self }
    }
}

/// Without the record: `setup is 100001, outside -100000 to 100000`.
impl fmt::Display for Fault {
    fn fmt(&self, f: &mut fmt::Formatter<'_>) -> fmt::Result {
        write!(f, "{} is {}, outside {} to {}", self.field, self.value, self.range.start(), self.range.end())?;
        self.because.map_or(Ok(()), |because| write!(f, " ({because})"))
    }
}

/// A number and its range, as the fault that it would be.
fn field(record: Record, field: &'static str, value: i32, range: RangeInclusive<i32>) -> Fault {
    Fault { record, field, value, range, because: None }
}

/// The range from another number on, where that one is in range itself.
fn not_below(other: i32, range: RangeInclusive<i32>) -> RangeInclusive<i32> {
    if range.contains(&other) {
        other..=*range.end()
    } else {
        range
    }
}

fn not_above(other: i32, range: RangeInclusive<i32>) -> RangeInclusive<i32> {
    if range.contains(&other) {
        *range.start()..=other
    } else {
        range
    }
}

impl Network {
    /// Every number that is out of range, in the order of the file. There is none exactly where [`check`](crate::check) refuses nothing.
    pub fn faults(&self) -> Vec<Fault> {
        let (n, m) = (count(self.registers.len()), count(self.paths.len()));
        let registers =
            self.registers.iter().zip(0..n).flat_map(|(register, i)| register_fields(register, RegisterId::new(i)));
        let paths = self.paths.iter().zip(0..m).flat_map(|(path, p)| path_fields(path, PathId::new(p), n));
        let fields = self.header_fields().into_iter().chain(registers).chain(paths);
        fields.filter(|field| !field.range.contains(&field.value)).collect()
    }

    fn header_fields(&self) -> [Fault; 5] {
        let field = |name, value, range| field(Record::Header, name, value, range);
        let (floor, ceiling) = (self.period.floor, self.period.ceiling);
        [
            field("register count", count(self.registers.len()), 1..=256),
            field("path count", count(self.paths.len()), 0..=2048),
            field("floor", floor, PERIODS),
            field("ceiling", ceiling, not_below(floor, PERIODS)).because("not below floor"),
            field("uncertainty", self.uncertainty, 0..=10_000),
        ]
    }
}

fn register_fields(register: &Register, id: RegisterId) -> [Fault; 4] {
    let field = |name, value, range| field(Record::Register(id), name, value, range);
    let Register { setup, hold, low, high, .. } = *register;
    let window = match id {
        RegisterId::HOST => {
            [("low", low), ("high", high)].map(|(name, value)| field(name, value, 0..=0).because("it is the host's"))
        }
        _ => [field("low", low, LATENCIES), field("high", high, not_below(low, LATENCIES)).because("not below low")],
    };
    let [low, high] = window;
    [field("setup", setup, TIMES), field("hold", hold, TIMES), low, high]
}

fn path_fields(path: &Path, id: PathId, n: i32) -> [Fault; 4] {
    let field = |name, value, range| field(Record::Path(id), name, value, range);
    let Path { from, to, dmin, dmax } = *path;
    let registers = 0..=n - 1;
    [
        field("from", from.number(), registers.clone()).because("the network's registers"),
        field("to", to.number(), registers).because("the network's registers"),
        field("dmin", dmin, not_above(dmax, DELAYS)).because("not above dmax"),
        field("dmax", dmax, DELAYS),
    ]
}
