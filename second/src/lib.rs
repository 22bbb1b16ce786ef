//! A second, independent program for clock skew scheduling.
//!
//! It reads the same network files as the module it is compared with, solves them by other algorithms, writes
//! streams of requests, and judges the answers to them byte by byte. Nothing in it is shared with that module but the
//! rules, docs/RULES.md, which are called the paper.

#![forbid(unsafe_code)]

pub mod answer;
pub mod arrows;
pub mod check;
pub mod decide;
pub mod draft;
pub mod fast;
pub mod file;
pub mod gen;
pub mod judge;
pub mod listing;
pub mod paper;
pub mod question;
pub mod rng;
pub mod slip;
pub mod solver;
pub mod verdict;
pub mod wire;
pub mod witness;
pub mod worked;
pub mod wrong;
