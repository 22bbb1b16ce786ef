//! A network under construction. No number is checked here: the proved module does that, and refuses.

use std::fmt;

/// A register's number, from 0, the host.
#[derive(Clone, Copy, Debug, PartialEq, Eq, PartialOrd, Ord, Hash)]
pub struct RegisterId(i32);

impl RegisterId {
    /// Register 0, which stands for all ports. Its latency is 0.
    pub const HOST: RegisterId = RegisterId(0);

    /// The register of this number, whether a network has it or not.
    pub const fn new(number: i32) -> RegisterId {
        RegisterId(number)
    }

    /// Its number.
    pub const fn number(self) -> i32 {
        self.0
    }

    /// What stands at its number in a row that has one thing for each register.
    pub(crate) fn of<T>(self, row: &[T]) -> Option<&T> {
        row.get(usize::try_from(self.0).ok()?)
    }
}

impl fmt::Display for RegisterId {
    fn fmt(&self, f: &mut fmt::Formatter<'_>) -> fmt::Result {
        write!(f, "register {}", self.0)
    }
}

/// A path's number, from 0.
#[derive(Clone, Copy, Debug, PartialEq, Eq, PartialOrd, Ord, Hash)]
pub struct PathId(i32);

impl PathId {
    /// The path of this number, whether a network has it or not.
    pub const fn new(number: i32) -> PathId {
        PathId(number)
    }

    /// Its number.
    pub const fn number(self) -> i32 {
        self.0
    }
}

impl fmt::Display for PathId {
    fn fmt(&self, f: &mut fmt::Formatter<'_>) -> fmt::Result {
        write!(f, "path {}", self.0)
    }
}

/// The periods that an answer may have, both ends included.
#[derive(Clone, Copy, Debug, PartialEq, Eq, Hash)]
pub struct Period {
    /// 1 to 10,000,000.
    pub floor: i32,
    /// The floor to 10,000,000.
    pub ceiling: i32,
}

/// The host's times. It has no window, for its latency is 0.
#[derive(Clone, Copy, Debug, PartialEq, Eq, Hash)]
pub struct Host {
    /// -100,000 to 100,000.
    pub setup: i32,
    /// -100,000 to 100,000.
    pub hold: i32,
}

/// A register other than the host: its times, and the window of its latency.
#[derive(Clone, Debug, PartialEq, Eq, Hash)]
pub struct Register {
    /// What it is called in texts. A network file has no names.
    pub name: Option<String>,
    /// -100,000 to 100,000.
    pub setup: i32,
    /// -100,000 to 100,000.
    pub hold: i32,
    /// -1,000,000 to 1,000,000.
    pub low: i32,
    /// `low` to 1,000,000.
    pub high: i32,
}

/// A path from a register to another or to itself, with its least and its greatest delay.
#[derive(Clone, Copy, Debug, PartialEq, Eq, Hash)]
pub struct Path {
    /// The sender.
    pub from: RegisterId,
    /// The receiver.
    pub to: RegisterId,
    /// 0 to `dmax`.
    pub dmin: i32,
    /// `dmin` to 1,000,000.
    pub dmax: i32,
}

/// Registers, the host among them, and the paths between them. All times are whole picoseconds.
///
/// It may hold any numbers. Whether they are in range is told by [`check`](crate::check) and by every other call.
#[derive(Clone, Debug, PartialEq, Eq)]
pub struct Network {
    pub(crate) period: Period,
    pub(crate) uncertainty: i32,
    /// Register 0, the host, is the first.
    pub(crate) registers: Vec<Register>,
    pub(crate) paths: Vec<Path>,
}

/// A count as a number of the file. One that does not fit is out of range, and so is the greatest number.
pub(crate) fn count(things: usize) -> i32 {
    i32::try_from(things).unwrap_or(i32::MAX)
}

impl Network {
    /// A network of the host alone. The uncertainty of the clock is 0 to 10,000.
    pub fn new(period: Period, uncertainty: i32, host: Host) -> Network {
        let host = Register { name: None, setup: host.setup, hold: host.hold, low: 0, high: 0 };
        Network { period, uncertainty, registers: vec![host], paths: Vec::new() }
    }

    /// Adds a register. At most 256 are accepted, with the host.
    pub fn register(&mut self, register: Register) -> RegisterId {
        self.registers.push(register);
        RegisterId(count(self.registers.len() - 1))
    }

    /// Adds a path. At most 2,048 are accepted. Several between the same two registers are legal, and each one counts.
    pub fn path(&mut self, path: Path) -> PathId {
        self.paths.push(path);
        PathId(count(self.paths.len() - 1))
    }

    /// The floor and the ceiling.
    pub fn period(&self) -> Period {
        self.period
    }

    /// The uncertainty of the clock.
    pub fn uncertainty(&self) -> i32 {
        self.uncertainty
    }

    /// All registers in the order of their numbers, the host first.
    pub fn registers(&self) -> &[Register] {
        &self.registers
    }

    /// All paths in the order of their numbers.
    pub fn paths(&self) -> &[Path] {
        &self.paths
    }

    /// The register's number and name: `register 1 (a)`.
    pub fn label(&self, register: RegisterId) -> String {
        match register.of(&self.registers).and_then(|known| known.name.as_deref()) {
            Some(name) => format!("{register} ({})", on_one_line(name)),
            None if register == RegisterId::HOST => format!("{register} (the host)"),
            None => register.to_string(),
        }
    }
}

/// The name with every character that could end a line in its escaped form.
fn on_one_line(name: &str) -> String {
    let ends_a_line = |letter: char| letter.is_control() || letter.is_whitespace() && letter != ' ';
    let mut line = String::new();
    for letter in name.chars() {
        match ends_a_line(letter) {
            true => line.extend(letter.escape_default()),
            false => line.push(letter),
        }
    }
    line
}

/// The network as text, a line for each record, as `mileparcel` reads it. The names are comments.
impl fmt::Display for Network {
    fn fmt(&self, f: &mut fmt::Formatter<'_>) -> fmt::Result {
        let Period { floor, ceiling } = self.period;
        write!(f, "network floor {floor} ceiling {ceiling} u {}", self.uncertainty)?;
        for Register { name, setup, hold, low, high } in &self.registers {
            write!(f, "\nregister setup {setup} hold {hold} low {low} high {high}")?;
            if let Some(name) = name {
                write!(f, " # {}", on_one_line(name))?;
            }
        }
        for Path { from, to, dmin, dmax } in &self.paths {
            write!(f, "\npath {} {} {dmin} {dmax}", from.0, to.0)?;
        }
        Ok(())
    }
}
