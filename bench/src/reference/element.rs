use std::fmt;

/// What a cell may hold.
pub trait Element: Copy + PartialEq + fmt::Debug {
    const NULL: Self;

    fn pack(self) -> [u32; 2];

    /// Never fails: any two words mean an element.
    fn unpack(words: [u32; 2]) -> Self;
}

/// A dimmer level.
#[derive(Clone, Copy, Debug, PartialEq, Eq)]
pub struct Level(pub u8);

impl Element for Level {
    const NULL: Self = Level(0);

    fn pack(self) -> [u32; 2] {
        [u32::from(self.0), 0]
    }

    fn unpack([first, _]: [u32; 2]) -> Self {
        Level(low_byte(first))
    }
}

#[derive(Clone, Copy, Debug, PartialEq, Eq)]
pub enum Colour {
    Open,
    Slot(u8),
    Mix { red: u8, green: u8, blue: u8 },
}

impl Colour {
    fn word(self) -> u32 {
        match self {
            Colour::Open => 0,
            Colour::Slot(slot) => u32::from_be_bytes([1, 0, 0, slot]),
            Colour::Mix { red, green, blue } => u32::from_be_bytes([2, red, green, blue]),
        }
    }

    fn from_word(word: u32) -> Self {
        match word.to_be_bytes() {
            [1, _, _, slot] => Colour::Slot(slot),
            [2, red, green, blue] => Colour::Mix { red, green, blue },
            _ => Colour::Open,
        }
    }
}

/// A moving head: its aim and its colour.
#[derive(Clone, Copy, Debug, PartialEq, Eq)]
pub struct Head {
    pub pan: u16,
    pub tilt: u16,
    pub colour: Colour,
}

impl Element for Head {
    const NULL: Self = Head { pan: 0, tilt: 0, colour: Colour::Open };

    fn pack(self) -> [u32; 2] {
        [u32::from(self.pan) << 16 | u32::from(self.tilt), self.colour.word()]
    }

    fn unpack([aim, colour]: [u32; 2]) -> Self {
        Head { pan: (aim >> 16) as u16, tilt: aim as u16, colour: Colour::from_word(colour) }
    }
}

fn low_byte(word: u32) -> u8 {
    word.to_le_bytes()[0]
}

/// The elements that a list of words means, two words each; an odd last word means nothing.
pub fn unpack_all<E: Element>(words: &[u32]) -> Vec<E> {
    words.as_chunks().0.iter().map(|pair| E::unpack(*pair)).collect()
}
