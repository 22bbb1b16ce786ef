//! The networks that the paper works by hand (RULES 11, 15 and 16).

use mileparcel::{Host, Network, Path, PathId, Period, Register, RegisterId, Rule};

/// A network as plain numbers, which tests can change: setup, hold, low and high of each register, and each path.
#[derive(Clone)]
pub struct Draft {
    pub floor: i32,
    pub ceiling: i32,
    pub u: i32,
    pub registers: Vec<[i32; 4]>,
    pub paths: Vec<[i32; 4]>,
}

impl Draft {
    /// The network, through the builder. The host's window is not given to it.
    pub fn network(&self) -> Network {
        let [setup, hold, ..] = self.registers[0];
        let period = Period { floor: self.floor, ceiling: self.ceiling };
        let mut network = Network::new(period, self.u, Host { setup, hold });
        for &[setup, hold, low, high] in &self.registers[1..] {
            network.register(Register { name: None, setup, hold, low, high });
        }
        for &[from, to, dmin, dmax] in &self.paths {
            network.path(Path { from: RegisterId::new(from), to: RegisterId::new(to), dmin, dmax });
        }
        network
    }

    /// The network file as RULES 5 has it, written without the crate.
    pub fn file(&self) -> Vec<u8> {
        let counts = [self.registers.len() as i32, self.paths.len() as i32];
        let header = [counts[0], counts[1], self.floor, self.ceiling, self.u];
        let mut file = record(b"NW", &header);
        file.extend(self.registers.iter().flat_map(|numbers| record(b"RG", numbers)));
        file.extend(self.paths.iter().flat_map(|numbers| record(b"PT", numbers)));
        file
    }
}

fn record(mark: &[u8; 2], numbers: &[i32]) -> Vec<u8> {
    mark.iter().copied().chain(numbers.iter().flat_map(|number| number.to_le_bytes())).collect()
}

pub fn setup(path: i32) -> Rule {
    Rule::Setup(PathId::new(path))
}

pub fn hold(path: i32) -> Rule {
    Rule::Hold(PathId::new(path))
}

pub fn low(register: i32) -> Rule {
    Rule::Low(RegisterId::new(register))
}

pub fn high(register: i32) -> Rule {
    Rule::High(RegisterId::new(register))
}

fn of(registers: &[[i32; 4]], paths: &[[i32; 4]]) -> Draft {
    Draft { floor: 1, ceiling: 100, u: 0, registers: registers.to_vec(), paths: paths.to_vec() }
}

pub fn a() -> Draft {
    of(&[[1, 1, 0, 0], [1, 1, -10, 10], [1, 1, -10, 10]], &[[0, 1, 2, 9], [1, 2, 2, 3], [2, 0, 2, 6]])
}

const M: i32 = 1_000_000;
const TOGGLE: [i32; 4] = [2, 2, -10, 10];

fn t(paths: &[[i32; 4]]) -> Draft {
    Draft { u: 3, ..of(&[[0; 4], TOGGLE], paths) }
}

fn two(paths: &[[i32; 4]]) -> Draft {
    Draft { u: 3, ..of(&[[0; 4], TOGGLE, TOGGLE], paths) }
}

/// The network that the paper calls by this name.
pub fn named(name: &str) -> Draft {
    match name {
        "A" => a(),
        "A2" => Draft { floor: 9, ..a() },
        "A3" => Draft { floor: 20, ..a() },
        "A4" => Draft { ceiling: 8, ..a() },
        "A5" => Draft { ceiling: 9, ..a() },
        "A6" => Draft { u: 1, ..a() },
        "A7" => Draft { u: 2, ..a() },
        "B" => of(&[[0, 1, 0, 0]], &[[0, 0, 0, 5]]),
        "D" => of(&[[0; 4], [0, 0, -10, 10]], &[[0, 1, 5, 10], [1, 0, 5, 5]]),
        "E" => of(&[[0; 4], [0, 0, 0, 1]], &[[0, 1, 5, 10], [1, 0, 5, 5]]),
        "F" => of(&[[0; 4]], &[]),
        "G" => Draft { ceiling: 10 * M, ..of(&[[0; 4], [-100_000, -100_000, -M, M]], &[[0, 1, 0, 0], [0, 1, M, M]]) },
        "H" => {
            let registers = [[0; 4], [100_000, 100_000, M, M], [100_000, 100_000, -M, -M]];
            Draft { ceiling: 10 * M, u: 10_000, ..of(&registers, &[[0, 1, 0, M]]) }
        }
        "T" => t(&[[1, 1, 2, 5]]),
        "T2" => two(&[[1, 2, 2, 5], [2, 1, 2, 5]]),
        "T3" => two(&[[1, 2, 5, 9], [2, 1, 5, 5]]),
        "T4" => Draft { registers: vec![[2, 2, 0, 0]], ..t(&[[0, 0, 2, 5]]) },
        "T5" => Draft { registers: vec![[0; 4], [2, 3, -10, 10]], ..t(&[[1, 1, 2, 5]]) },
        "T6" => Draft { u: 10_000, ..t(&[[1, 1, 2, 5]]) },
        "T7" => two(&[[1, 1, 2, 5], [1, 2, 4, 9], [2, 2, 3, 6]]),
        "T8" => t(&[[1, 1, 5, 5]]),
        "T9" => t(&[[1, 1, 2, 5], [1, 1, 3, 7]]),
        _ => panic!("the paper has no network {name}"),
    }
}
