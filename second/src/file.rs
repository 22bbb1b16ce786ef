//! Reading a network file: an accepted network, or the refusal (1 to 6) that the table of RULES 6.2 names.

use crate::paper::*;

pub const HEADER_BYTES: usize = 22;
pub const RECORD_BYTES: usize = 18;

#[derive(Clone, Copy, Debug, PartialEq, Eq)]
pub struct Refusal {
    pub number: i32,
    pub place: i32,
}

impl Refusal {
    pub fn whole_file(number: i32) -> Refusal {
        Refusal { number, place: 0 }
    }
}

/// Checks stand in the order of the table, so the first that fails is the lowest number that applies.
pub fn read(file: &[u8]) -> Result<Network, Refusal> {
    if file.len() < HEADER_BYTES || !marked(file, 0, b"NW") {
        return Err(Refusal::whole_file(1));
    }
    let [n, m, floor, ceiling] = four_numbers(file, 2);
    let uncertainty = number_at(file, 18);
    if !(1..=REGISTERS_MOST).contains(&n) || !(0..=PATHS_MOST).contains(&m) {
        return Err(Refusal::whole_file(2));
    }
    let (n, m) = (n as usize, m as usize);
    if file.len() != HEADER_BYTES + RECORD_BYTES * (n + m) {
        return Err(Refusal::whole_file(3));
    }
    let floor_fits = (1..=PERIOD_MOST).contains(&floor);
    let ceiling_fits = (floor..=PERIOD_MOST).contains(&ceiling);
    if !floor_fits || !ceiling_fits || !(0..=UNCERTAINTY_MOST).contains(&uncertainty) {
        return Err(Refusal::whole_file(4));
    }
    let registers = records(n, 5, |i| register_at(file, i))?;
    let paths = records(m, 6, |p| path_at(file, n, p))?;
    Ok(Network { floor, ceiling, uncertainty, registers, paths })
}

/// All records of one sort, or the refusal with the lowest place that has none.
fn records<T>(count: usize, refusal: i32, record: impl Fn(usize) -> Option<T>) -> Result<Vec<T>, Refusal> {
    (0..count).map(|place| record(place).ok_or(Refusal { number: refusal, place: place as i32 })).collect()
}

fn register_at(file: &[u8], i: usize) -> Option<Register> {
    let at = HEADER_BYTES + RECORD_BYTES * i;
    let [setup, hold, low, high] = four_numbers(file, at + 2);
    let margins_fit = setup.abs() <= MARGIN_MOST && hold.abs() <= MARGIN_MOST;
    let window_fits = -LATENCY_MOST <= low && low <= high && high <= LATENCY_MOST;
    let host_is_fixed = i != 0 || (low == 0 && high == 0);
    let fits = marked(file, at, b"RG") && margins_fit && window_fits && host_is_fixed;
    fits.then_some(Register { setup, hold, low, high })
}

fn path_at(file: &[u8], n: usize, p: usize) -> Option<Path> {
    let at = HEADER_BYTES + RECORD_BYTES * (n + p);
    let [from, to, dmin, dmax] = four_numbers(file, at + 2);
    let registers = 0..n as i64;
    let ends_fit = registers.contains(&from) && registers.contains(&to);
    let delays_fit = 0 <= dmin && dmin <= dmax && dmax <= DELAY_MOST;
    let fits = marked(file, at, b"PT") && ends_fit && delays_fit;
    fits.then_some(Path { from: from as usize, to: to as usize, dmin, dmax })
}

pub fn marked(bytes: &[u8], at: usize, mark: &[u8; 2]) -> bool {
    bytes[at..at + 2] == mark[..]
}

/// Four bytes, two's complement, low byte first.
pub fn number_at(bytes: &[u8], at: usize) -> i64 {
    let four = [bytes[at], bytes[at + 1], bytes[at + 2], bytes[at + 3]];
    i64::from(i32::from_le_bytes(four))
}

fn four_numbers(bytes: &[u8], at: usize) -> [i64; 4] {
    [0, 4, 8, 12].map(|step| number_at(bytes, at + step))
}
