//! The product's rules once more, in plain Rust, written from the documents and not from the product's code.

pub mod boxes;
pub mod element;
pub mod history;
pub mod log;
pub mod machine;
pub mod ports;
pub mod queue;
pub mod record;
pub mod refusal;
pub mod set;
pub mod sheet;
pub mod show;
#[cfg(test)]
mod tests;
pub mod work;

/// Parts are numbered 0 to 7.
pub const PARTS: usize = 8;
/// Ports are numbered 0 to 15.
pub const PORTS: usize = 16;
/// How many arguments an instruct may name, and so how much argument scratch a command needs.
pub const MOST_ARGS: usize = 8;
/// How many results a command may name, and so how much result scratch it needs.
pub const MOST_RESULTS: usize = 4;

/// A set of parts: bit n is part n.
pub type Mask = u8;

/// The set of one part; empty for a part over 7.
pub fn single(part: u8) -> Mask {
    1u8.checked_shl(u32::from(part)).unwrap_or(0)
}
