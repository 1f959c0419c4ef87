use super::{Mask, PARTS, single};

pub const MOST_CELLS: usize = 512;
pub const MOST_SWAPS: usize = 16;

#[derive(Clone, Copy, Debug, PartialEq, Eq)]
pub enum SheetFault {
    Part,
    Size,
    Cell,
    Taken,
    Swaps,
    Mode,
}

impl SheetFault {
    pub fn number(self) -> u32 {
        match self {
            SheetFault::Part => 9,
            SheetFault::Size => 14,
            SheetFault::Cell => 15,
            SheetFault::Taken => 16,
            SheetFault::Swaps => 17,
            SheetFault::Mode => 18,
        }
    }
}

#[derive(Clone, Copy, Debug, PartialEq, Eq)]
pub enum Use {
    Read,
    Write,
}

#[derive(Clone, Copy, Debug, Default)]
struct Rights {
    read: Mask,
    write: Mask,
    swapped: bool,
}

/// Which part may read and write which cell, and which cells are swapped.
#[derive(Clone, Debug)]
pub struct Sheet {
    rights: Vec<Rights>,
    swaps: Vec<u16>,
}

impl Sheet {
    pub fn new(size: usize) -> Result<Self, SheetFault> {
        if size == 0 || size > MOST_CELLS {
            return Err(SheetFault::Size);
        }
        Ok(Sheet { rights: vec![Rights::default(); size], swaps: Vec::with_capacity(MOST_SWAPS) })
    }

    /// Mode 1 reads, 2 writes, 0 and 3 do both.
    pub fn grant(&mut self, cell: usize, part: u8, mode: u8) -> Result<(), SheetFault> {
        let rights = self.rights.get_mut(cell).ok_or(SheetFault::Cell)?;
        if usize::from(part) >= PARTS {
            return Err(SheetFault::Part);
        }
        let (read, write) = match mode {
            0 | 3 => (true, true),
            1 => (true, false),
            2 => (false, true),
            _ => return Err(SheetFault::Mode),
        };
        let own = single(part);
        if rights.swapped || (rights.read | rights.write) & !own != 0 {
            return Err(SheetFault::Taken);
        }
        if read {
            rights.read |= own;
        }
        if write {
            rights.write |= own;
        }
        Ok(())
    }

    pub fn swap(&mut self, cell: usize) -> Result<(), SheetFault> {
        let rights = self.rights.get_mut(cell).ok_or(SheetFault::Cell)?;
        if rights.swapped || rights.read | rights.write != 0 {
            return Err(SheetFault::Taken);
        }
        if self.swaps.len() == MOST_SWAPS {
            return Err(SheetFault::Swaps);
        }
        rights.swapped = true;
        self.swaps.push(cell as u16);
        Ok(())
    }

    /// Whether the part may use the cell so while it has the turn.
    pub fn may_touch(&self, cell: u16, part: u8, usage: Use) -> bool {
        let Some(rights) = self.rights.get(usize::from(cell)) else {
            return false;
        };
        let mask = match usage {
            Use::Read => rights.read,
            Use::Write => rights.write,
        };
        usize::from(part) < PARTS && (rights.swapped || mask & single(part) != 0)
    }

    pub fn size(&self) -> usize {
        self.rights.len()
    }

    /// The swapped cells, in the order of swapping.
    pub fn swaps(&self) -> &[u16] {
        &self.swaps
    }
}
