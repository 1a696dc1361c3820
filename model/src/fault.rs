//! What a refusal tells: a number, a layer and a place.

pub const SHEET: u8 = 1;
pub const RECORD: u8 = 2;
pub const PLAN: u8 = 3;

#[derive(Clone, Copy, Debug, PartialEq, Eq)]
pub struct Fault {
    pub number: u8,
    pub layer: u8,
    pub index: u64,
    pub bit: u16,
    pub hop: u8,
}

impl Fault {
    /// A record that does not lie whole in its sheet.
    pub fn unfinished(index: u64) -> Fault {
        Fault { number: 1, layer: SHEET, index, bit: 0, hop: 0 }
    }

    /// A field that is not zero (2) or outside its limits (3).
    pub fn field(number: u8, index: u64, bit: usize) -> Fault {
        Fault { number, layer: RECORD, index, bit: bit as u16, hop: 0 }
    }

    /// A refusal of the plan without a place.
    pub fn plan(number: u8) -> Fault {
        Fault::hop(number, 0)
    }

    /// A refusal of the plan with the hop of its place.
    pub fn hop(number: u8, hop: usize) -> Fault {
        Fault { number, layer: PLAN, index: 0, bit: 0, hop: hop as u8 }
    }
}
