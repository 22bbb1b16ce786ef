//! A network still to be written as a file. Its fields are not checked, so that faulty files can be drafted too.

use crate::file::{HEADER_BYTES, RECORD_BYTES};

#[derive(Clone, Debug, PartialEq, Eq)]
pub struct Draft {
    pub floor: i32,
    pub ceiling: i32,
    pub uncertainty: i32,
    /// setup, hold, low, high
    pub registers: Vec<[i32; 4]>,
    /// from, to, dmin, dmax
    pub paths: Vec<[i32; 4]>,
}

impl Draft {
    pub fn n(&self) -> i32 {
        self.registers.len() as i32
    }

    /// The room that this network's answer must have (RULES 7.1).
    pub fn room(&self) -> i32 {
        14 + 16 * self.n()
    }

    pub fn file(&self) -> Vec<u8> {
        let records = self.registers.len() + self.paths.len();
        let mut bytes = Vec::with_capacity(HEADER_BYTES + RECORD_BYTES * records);
        let header = [self.n(), self.paths.len() as i32, self.floor, self.ceiling, self.uncertainty];
        put_record(&mut bytes, b"NW", &header);
        for register in &self.registers {
            put_record(&mut bytes, b"RG", register);
        }
        for path in &self.paths {
            put_record(&mut bytes, b"PT", path);
        }
        bytes
    }
}

pub fn put_record(bytes: &mut Vec<u8>, mark: &[u8; 2], numbers: &[i32]) {
    bytes.extend_from_slice(mark);
    for number in numbers {
        bytes.extend_from_slice(&number.to_le_bytes());
    }
}
