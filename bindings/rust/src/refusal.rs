//! Why a call refused (RULES 6).

use crate::linked::Returned;
use crate::network::{Network, PathId, RegisterId};
use crate::rule::Loop;
use std::error::Error;
use std::fmt;

/// Why a call refused: the lowest of the numbers 1 to 10 that apply, with its place or its loop.
#[derive(Clone, Debug, PartialEq, Eq)]
pub enum Refusal {
    /// 1: the file has fewer than 22 bytes, or its first two are not `NW`.
    Header,
    /// 2: there are not 1 to 256 registers, or not 0 to 2,048 paths.
    Counts,
    /// 3: the file's length does not fit its counts.
    Length,
    /// 4: floor, ceiling or uncertainty is out of range.
    Ranges,
    /// 5: a register's record has a wrong mark, or a number out of range. It is the lowest such register.
    Register(RegisterId),
    /// 6: a path's record has a wrong mark, or a number out of range. It is the lowest such path.
    Path(PathId),
    /// 7: the output has too little room. This crate always lends enough.
    Room,
    /// 8: there is no schedule at any period, however long: this loop, which has no setup rule, contradicts itself.
    NoPeriod(Loop),
    /// 9: there is a schedule at some period, but at none up to the ceiling: this loop contradicts itself there.
    NoneToCeiling(Loop),
    /// 10: a question's period is outside 1 to 10,000,000, a latency is missing or outside -1,000,000 to 1,000,000, or the network has no
    /// such rule.
    Question,
    /// No refusal of the rules: after this number the library left what the rules do not have. It is not the library that this crate is for.
    Unreadable(u32),
}

impl Refusal {
    /// The refusal's number: 1 to 10. Of [`Unreadable`](Refusal::Unreadable) it is the number that was returned, whatever that was.
    pub fn number(&self) -> u32 {
        match self {
            Refusal::Header => 1,
            Refusal::Counts => 2,
            Refusal::Length => 3,
            Refusal::Ranges => 4,
            Refusal::Register(_) => 5,
            Refusal::Path(_) => 6,
            Refusal::Room => 7,
            Refusal::NoPeriod(_) => 8,
            Refusal::NoneToCeiling(_) => 9,
            Refusal::Question => 10,
            Refusal::Unreadable(number) => *number,
        }
    }

    /// The loop that is shown with it.
    pub fn shown(&self) -> Option<&Loop> {
        match self {
            Refusal::NoPeriod(shown) | Refusal::NoneToCeiling(shown) => Some(shown),
            _ => None,
        }
    }

    /// The refusal and what lies behind it in the network that was refused, a line for each: every wrong field of every record with its
    /// value and range, or every rule of the loop with its registers.
    pub fn describe(&self, network: &Network) -> String {
        let mut lines = vec![self.to_string()];
        match self {
            Refusal::Counts | Refusal::Ranges | Refusal::Register(_) | Refusal::Path(_) => {
                lines.extend(network.faults().iter().map(|fault| fault.describe(network)));
            }
            Refusal::NoPeriod(shown) | Refusal::NoneToCeiling(shown) => {
                lines.extend(shown.rules().iter().map(|rule| rule.describe(network)));
                let ceiling = network.period().ceiling;
                let sum = shown.sum(network, ceiling).ok();
                lines.extend(sum.map(|sum| format!("at the ceiling, {ceiling}, the loop's amounts add up to {sum}")));
            }
            _ => {}
        }
        lines.join("\n")
    }

    /// Of 1 to 6, which both calls give.
    pub(crate) fn of_file(returned: Returned) -> Option<Refusal> {
        let place = i32::try_from(returned.above()).ok();
        match returned.number() {
            1 => Some(Refusal::Header),
            2 => Some(Refusal::Counts),
            3 => Some(Refusal::Length),
            4 => Some(Refusal::Ranges),
            5 => place.map(|register| Refusal::Register(RegisterId::new(register))),
            6 => place.map(|path| Refusal::Path(PathId::new(path))),
            _ => None,
        }
    }
}

impl fmt::Display for Refusal {
    fn fmt(&self, f: &mut fmt::Formatter<'_>) -> fmt::Result {
        let verb = if matches!(self, Refusal::Unreadable(_)) { "returned" } else { "refused" };
        write!(f, "{verb} {}: ", self.number())?;
        match self {
            Refusal::Header => f.write_str("the file has fewer than 22 bytes, or its first two are not `NW`"),
            Refusal::Counts => f.write_str("the registers must be 1 to 256, with the host, and the paths 0 to 2048"),
            Refusal::Length => {
                f.write_str("the file's length is not 22 + 18(n + m) bytes for its n registers and m paths")
            }
            Refusal::Ranges => f.write_str("floor, ceiling or uncertainty is out of range"),
            Refusal::Register(register) => write!(f, "{register} has a wrong mark, or a number out of range"),
            Refusal::Path(path) => write!(f, "{path} has a wrong mark, or a number out of range"),
            Refusal::Room => f.write_str("the output has fewer than 14 + 16n bytes for the n registers"),
            Refusal::NoPeriod(shown) => {
                write!(f, "no period has a schedule, however long: the loop {shown} contradicts itself")
            }
            Refusal::NoneToCeiling(shown) => {
                write!(f, "no period up to the ceiling has a schedule: the loop {shown} contradicts itself there")
            }
            Refusal::Question => f.write_str(
                "the question's period must be 1 to 10000000, its latencies -1000000 to 1000000, \
                 one for each register, and its rule one of the network's",
            ),
            Refusal::Unreadable(_) => {
                f.write_str("the library left what the rules do not have; it is not the one that this crate is for")
            }
        }
    }
}

impl Error for Refusal {}
