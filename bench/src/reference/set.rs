use super::MOST_RESULTS;
use super::element::{Element, Head, Level};

/// Why an instruction set gives nothing.
#[derive(Clone, Copy, Debug, PartialEq, Eq)]
pub enum SetFault {
    UnknownCode,
    WrongCount,
    FewPlaces,
}

impl SetFault {
    pub fn number(self) -> u8 {
        match self {
            SetFault::UnknownCode => 1,
            SetFault::WrongCount => 2,
            SetFault::FewPlaces => 3,
        }
    }
}

/// What the codes of an instruct do.
pub trait InstructionSet: Copy {
    type Element: Element;

    /// Puts what the code gives into the first places and tells how many there are.
    fn call(&self, code: u8, args: &[Self::Element], places: &mut [Self::Element]) -> Result<usize, SetFault>;
}

#[derive(Clone, Copy, Debug, Default)]
pub struct LevelSet;

impl InstructionSet for LevelSet {
    type Element = Level;

    fn call(&self, code: u8, args: &[Level], places: &mut [Level]) -> Result<usize, SetFault> {
        if places.len() < MOST_RESULTS {
            return Err(SetFault::FewPlaces);
        }
        let value = match (code, args) {
            (1, _) if args.len() <= 4 => {
                places[..args.len()].copy_from_slice(args);
                return Ok(args.len());
            }
            (2, [first, rest @ ..]) if rest.len() < 8 => rest.iter().fold(first.0, |high, level| high.max(level.0)),
            (3, [a, b]) => share(u32::from(a.0) * u32::from(b.0)),
            (4, [v]) => CURVE[usize::from(v.0)],
            (5, [a, b, t]) => {
                let t = u32::from(t.0);
                share(u32::from(a.0) * (255 - t) + u32::from(b.0) * t)
            }
            (6, [v]) => v.0.saturating_add(1),
            (1..=6, _) => return Err(SetFault::WrongCount),
            _ => return Err(SetFault::UnknownCode),
        };
        places[0] = Level(value);
        Ok(1)
    }
}

/// A product of two levels, as a level; at most 255 × 255 is given.
const fn share(product: u32) -> u8 {
    ((product + 127) / 255) as u8
}

const CURVE: [u8; 256] = {
    let mut curve = [0; 256];
    let mut v = 0;
    while v < 256 {
        curve[v] = share((v * v) as u32);
        v += 1;
    }
    curve
};

#[derive(Clone, Copy, Debug, Default)]
pub struct HeadSet;

impl InstructionSet for HeadSet {
    type Element = Head;

    fn call(&self, code: u8, args: &[Head], places: &mut [Head]) -> Result<usize, SetFault> {
        if places.len() < MOST_RESULTS {
            return Err(SetFault::FewPlaces);
        }
        let value = match (code, args) {
            (1, _) if args.len() <= 4 => {
                places[..args.len()].copy_from_slice(args);
                return Ok(args.len());
            }
            (2, [a, b]) => Head { colour: b.colour, ..*a },
            (3, [a, b]) => Head { pan: a.pan.wrapping_add(b.pan), tilt: a.tilt.wrapping_add(b.tilt), colour: a.colour },
            (4, [a]) => Head { pan: a.pan.wrapping_add(32768), tilt: 65535 - a.tilt, colour: a.colour },
            (1..=4, _) => return Err(SetFault::WrongCount),
            _ => return Err(SetFault::UnknownCode),
        };
        places[0] = value;
        Ok(1)
    }
}
