//! Random rigs, records and show files: mostly sensible, sometimes broken.

pub mod commands;
pub mod files;
pub mod rigs;
