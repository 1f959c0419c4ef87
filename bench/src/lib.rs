//! A reference of the product's rules, and what the programs of this folder have in common.

#![deny(unsafe_code)]

pub mod compare;
pub mod kind;
pub mod product;
pub mod random;
pub mod records;
#[forbid(unsafe_code)]
pub mod reference;
pub mod setting;
pub mod wild;
