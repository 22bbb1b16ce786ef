//! Tests over the proved library.

mod files;
mod networks;
mod ranges;
mod slacks;
mod texts;
mod threads;
mod worked;
