//! The refusal table: numbers and names.

/// Why a command isn't carried out, or why a run stops.
#[derive(Clone, Copy, PartialEq, Eq, Debug)]
pub enum Refusal {
    Unknown = 1,
    Revoked = 2,
    Conflict = 3,
    Relied = 4,
    Visible = 5,
    Released = 6,
    Capacity = 7,
    InvalidState = 8,
    BadTable = 9,
    Absent = 10,
    BadLine = 11,
    NoRoom = 12,
}

impl Refusal {
    pub fn number(self) -> u8 {
        self as u8
    }
}

/// A number's name in the printed report; 0 is `Done`.
pub fn name(number: u8) -> &'static str {
    match number {
        0 => "Done",
        1 => "Unknown",
        2 => "Revoked",
        3 => "Conflict",
        4 => "Relied",
        5 => "Visible",
        6 => "Released",
        7 => "Capacity",
        8 => "InvalidState",
        9 => "BadTable",
        10 => "Absent",
        11 => "BadLine",
        12 => "NoRoom",
        _ => "unnamed",
    }
}
