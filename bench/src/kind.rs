use crate::product;
use crate::reference::set::{HeadSet, InstructionSet, LevelSet};

/// The two instruction sets, as the product's library names them.
pub trait Kind: InstructionSet + Default {
    const NUMBER: u32;
    const NAME: &str;
    /// Each code with the fewest and the most elements that it takes.
    const CODES: &[(u8, usize, usize)];
}

impl Kind for LevelSet {
    const NUMBER: u32 = product::LEVELS;
    const NAME: &str = "levels";
    const CODES: &[(u8, usize, usize)] = &[(1, 0, 4), (2, 1, 8), (3, 2, 2), (4, 1, 1), (5, 3, 3), (6, 1, 1)];
}

impl Kind for HeadSet {
    const NUMBER: u32 = product::HEADS;
    const NAME: &str = "heads";
    const CODES: &[(u8, usize, usize)] = &[(1, 0, 4), (2, 2, 2), (3, 2, 2), (4, 1, 1)];
}
