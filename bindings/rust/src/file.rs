//! The network file (RULES 5).

use crate::network::{count, Network, Path, PathId, Period, Register, RegisterId};
use crate::record;
use std::error::Error;
use std::fmt;

const HEADER_BYTES: usize = 22;
const RECORD_BYTES: usize = 18;

/// Why bytes cannot be read as a network.
#[derive(Clone, Copy, Debug, PartialEq, Eq)]
pub enum FileError {
    /// There are fewer than 22 bytes, or the first two are not `NW`.
    Header,
    /// The header counts no register, or a negative number of paths.
    Counts {
        /// The number of registers in the header.
        registers: i32,
        /// The number of paths in the header.
        paths: i32,
    },
    /// The header counts more or fewer records than there are.
    Length {
        /// How many bytes there are.
        bytes: usize,
        /// How many there should be.
        due: usize,
    },
    /// The record of this register does not begin with `RG`.
    RegisterMark(RegisterId),
    /// The record of this path does not begin with `PT`.
    PathMark(PathId),
}

impl fmt::Display for FileError {
    fn fmt(&self, f: &mut fmt::Formatter<'_>) -> fmt::Result {
        match self {
            FileError::Header => f.write_str("the file has fewer than 22 bytes, or its first two are not `NW`"),
            FileError::Counts { registers, paths } => {
                write!(f, "the header counts {registers} registers and {paths} paths: 1 to 256 and 0 to 2048 are due")
            }
            FileError::Length { bytes, due } => write!(f, "the file has {bytes} bytes, and its header counts {due}"),
            FileError::RegisterMark(register) => write!(f, "the record of {register} does not begin with `RG`"),
            FileError::PathMark(path) => write!(f, "the record of {path} does not begin with `PT`"),
        }
    }
}

impl Error for FileError {}

/// How many registers and paths a header counts, with its other numbers: floor, ceiling and uncertainty.
pub(crate) fn header(bytes: &[u8]) -> Option<[i32; 5]> {
    record::get(bytes, 0, b"NW")
}

impl Network {
    /// The network file. It has no names in it.
    pub fn to_bytes(&self) -> Vec<u8> {
        let (n, m) = (count(self.registers.len()), count(self.paths.len()));
        let mut bytes = Vec::with_capacity(HEADER_BYTES + RECORD_BYTES * (self.registers.len() + self.paths.len()));
        record::put(&mut bytes, b"NW", [n, m, self.period.floor, self.period.ceiling, self.uncertainty]);
        for Register { setup, hold, low, high, .. } in &self.registers {
            record::put(&mut bytes, b"RG", [*setup, *hold, *low, *high]);
        }
        for Path { from, to, dmin, dmax } in &self.paths {
            record::put(&mut bytes, b"PT", [from.number(), to.number(), *dmin, *dmax]);
        }
        bytes
    }

    /// Reads a network file. An error is only what a network cannot hold; numbers out of range are kept, for the proved module to refuse.
    pub fn from_bytes(bytes: &[u8]) -> Result<Network, FileError> {
        let [n, m, floor, ceiling, uncertainty] = header(bytes).ok_or(FileError::Header)?;
        if n < 1 || m < 0 {
            return Err(FileError::Counts { registers: n, paths: m });
        }
        let due = HEADER_BYTES + RECORD_BYTES * (n as usize + m as usize);
        if bytes.len() != due {
            return Err(FileError::Length { bytes: bytes.len(), due });
        }
        let registers = (0..n).map(|i| register_at(bytes, i)).collect::<Result<_, _>>()?;
        let paths = (0..m).map(|p| path_at(bytes, n, p)).collect::<Result<_, _>>()?;
        Ok(Network { period: Period { floor, ceiling }, uncertainty, registers, paths })
    }
}

/// Where a record behind the header begins, counted over registers and paths.
fn place(index: usize) -> usize {
    HEADER_BYTES + RECORD_BYTES * index
}

fn register_at(bytes: &[u8], i: i32) -> Result<Register, FileError> {
    let numbers = record::get(bytes, place(i as usize), b"RG");
    let [setup, hold, low, high] = numbers.ok_or(FileError::RegisterMark(RegisterId::new(i)))?;
    Ok(Register { name: None, setup, hold, low, high })
}

fn path_at(bytes: &[u8], n: i32, p: i32) -> Result<Path, FileError> {
    let numbers = record::get(bytes, place(n as usize + p as usize), b"PT");
    let [from, to, dmin, dmax] = numbers.ok_or(FileError::PathMark(PathId::new(p)))?;
    Ok(Path { from: RegisterId::new(from), to: RegisterId::new(to), dmin, dmax })
}
