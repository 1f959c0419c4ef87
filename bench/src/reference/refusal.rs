use super::set::SetFault;

/// Why a command is not done, in the order in which it is checked.
#[derive(Clone, Copy, Debug, PartialEq, Eq)]
pub enum Refusal {
    Length,
    Scratch,
    Misfit,
    Kind,
    /// The lowest byte at fault.
    Shape(u8),
    Part,
    Turn,
    Port,
    /// The first cell at fault: arguments 0 to 7, results 8 to 11.
    Right(u8),
    Set(SetFault),
}

impl Refusal {
    pub fn number(self) -> u8 {
        match self {
            Refusal::Length => 1,
            Refusal::Scratch => 6,
            Refusal::Misfit => 19,
            Refusal::Kind => 7,
            Refusal::Shape(_) => 8,
            Refusal::Part => 9,
            Refusal::Turn => 10,
            Refusal::Port => 11,
            Refusal::Right(_) => 12,
            Refusal::Set(_) => 13,
        }
    }

    pub fn detail(self) -> u8 {
        match self {
            Refusal::Length | Refusal::Scratch | Refusal::Misfit | Refusal::Turn => 0,
            Refusal::Kind => 3,
            Refusal::Shape(byte) => byte,
            Refusal::Part => 2,
            Refusal::Port => 5,
            Refusal::Right(place) => place,
            Refusal::Set(fault) => fault.number(),
        }
    }
}
