//! What a refused call says.

#[derive(Clone, Copy, Debug, PartialEq, Eq)]
pub enum Layer {
    Call = 1,
    Hatch = 2,
    Hash = 3,
    Key = 4,
    Line = 5,
}

#[derive(Clone, Copy, Debug, PartialEq, Eq)]
pub enum Part {
    None = 0,
    Support = 1,
    Coefficient = 2,
    Clash = 3,
    Zeros = 4,
    Matrix = 5,
    Rank = 6,
}

#[derive(Clone, Copy, Debug, PartialEq, Eq)]
pub struct Fault {
    pub number: u8,
    pub layer: Layer,
    pub part: Part,
    pub place: usize,
}

impl Fault {
    /// A fault that is not about a part of a key.
    pub const fn new(number: u8, layer: Layer, place: usize) -> Self {
        Fault { number, layer, part: Part::None, place }
    }
}

/// The four numbers that the C interface reports: all 0 for an accepted call.
pub fn report(answer: Result<(), Fault>) -> [u64; 4] {
    match answer {
        Ok(()) => [0; 4],
        Err(fault) => {
            [fault.number.into(), fault.layer as u64, fault.part as u64, fault.place as u64]
        }
    }
}
