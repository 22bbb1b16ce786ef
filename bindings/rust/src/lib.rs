//! Clock skew scheduling for parts with one edge-triggered clock: the shortest period, the smallest latency of every register at it, and the
//! rules that leave no room for a shorter one.
//!
//! A [`Network`] has registers and the paths between them; register 0, the host, stands for all ports. All times are whole picoseconds.
//! [`schedule`] finds the best schedule there is, [`slacks`] tells by how much each rule is met, and a [`Refusal`] tells in words why there is
//! no answer. What is promised is proved of the source that the static library `libskew_c.a` is compiled from; this crate writes the network
//! file and reads the answer, and is outside the proofs. `docs/RULES.md` of the project has the rules in full.
//!
//! ```
//! use mileparcel::{schedule, slacks, Host, Network, Path, Period, Refusal, Register, RegisterId};
//!
//! let mut network = Network::new(Period { floor: 1, ceiling: 100 }, 0, Host { setup: 1, hold: 1 });
//! let a = network.register(Register { name: Some("a".into()), setup: 1, hold: 1, low: -10, high: 10 });
//! let b = network.register(Register { name: Some("b".into()), setup: 1, hold: 1, low: -10, high: 10 });
//! network.path(Path { from: RegisterId::HOST, to: a, dmin: 2, dmax: 9 });
//! network.path(Path { from: a, to: b, dmin: 2, dmax: 3 });
//! network.path(Path { from: b, to: RegisterId::HOST, dmin: 2, dmax: 6 });
//!
//! let answer = schedule(&network)?;
//! assert_eq!(answer.period, 9);
//! assert_eq!(answer.latency(a), Some(1));
//! assert_eq!(answer.latency(b), Some(-1));
//!
//! // At 8 the setup rule and the hold rule of path 0 contradict each other.
//! assert_eq!(answer.loop_.map(|rules| rules.to_string()), Some("setup 0, hold 0".to_string()));
//!
//! // Every rule is met at 9, and the least slack is 0.
//! let least = slacks(&network, 9, &answer.latencies)?.into_iter().map(|rule| rule.slack).min();
//! assert_eq!(least, Some(0));
//!
//! // What is out of range is refused by the library, and told in words.
//! network.register(Register { name: Some("c".into()), setup: 100_001, hold: 0, low: 0, high: 0 });
//! let refusal = schedule(&network).unwrap_err();
//! assert_eq!(refusal, Refusal::Register(RegisterId::new(3)));
//! assert!(refusal.describe(&network).ends_with("register 3 (c): setup is 100001, outside -100000 to 100000"));
//! # Ok::<(), Refusal>(())
//! ```
//!
//! Calls keep nothing, so that any number of threads may make them. [`schedule`] takes some 70 KB of the stack: give a thread 128 KB or more.

#![deny(unsafe_code, unsafe_op_in_unsafe_fn, missing_docs)]

#[cfg(not(all(target_arch = "x86_64", target_os = "linux", target_pointer_width = "64")))]
compile_error!(
    "mileparcel: the proved library libskew_c.a is for x86-64 Linux; build with `--target x86_64-unknown-linux-gnu` and a linker for it"
);

mod answer;
mod fault;
mod file;
#[allow(unsafe_code)]
mod linked;
mod network;
mod record;
mod refusal;
mod rule;
mod slack;

pub use answer::{schedule, schedule_bytes, Answer};
pub use fault::{Fault, Record};
pub use file::FileError;
pub use network::{Host, Network, Path, PathId, Period, Register, RegisterId};
pub use refusal::Refusal;
pub use rule::{Ends, Kind, Loop, Rule};
pub use slack::{check, slack, slacks, RuleSlack};
