//! The zone planner a second time, in plain Rust, written from documents 01 and 02 alone.
//!
//! It shares no code and no idea with the planner under test, so that a slip in one is not repeated in the other.
//! It aims at being easy to hold against the documents, not at speed.

pub mod board;
pub mod cuts;
pub mod doors;
pub mod drawing;
pub mod elsewhere;
pub mod fields;
pub mod job;
pub mod register;
pub mod totals;
pub mod turning;
pub mod walls;

#[cfg(test)]
mod examples;

pub use board::Board;
pub use elsewhere::judge;
pub use job::star;

/// A refusal, by the number the user sees.
#[derive(Clone, Copy, Debug, PartialEq, Eq, PartialOrd, Ord)]
pub struct Refusal(pub u8);

/// The refusals, by their numbers; 8 is not used.
pub mod refusal {
    use super::Refusal;

    pub const BYTES: Refusal = Refusal(1);
    pub const ROOM_COUNT: Refusal = Refusal(2);
    pub const PAIR_COUNT: Refusal = Refusal(3);
    pub const BAD_ENTRY: Refusal = Refusal(4);
    pub const BAD_STAR: Refusal = Refusal(5);
    pub const CONTRADICTION: Refusal = Refusal(6);
    pub const CIRCLE: Refusal = Refusal(7);
    pub const UNDRAWABLE: Refusal = Refusal(9);
    pub const NO_PLAN: Refusal = Refusal(10);
    pub const NOT_IN_CONTACT: Refusal = Refusal(11);
    pub const LIST_TOO_SHORT: Refusal = Refusal(12);
    pub const NO_SUCH_VERTEX: Refusal = Refusal(13);
    pub const BUFFER_TOO_SHORT: Refusal = Refusal(14);
    pub const NOT_SLICEABLE: Refusal = Refusal(15);
    pub const NOT_A_PLAN: Refusal = Refusal(16);
    pub const BAD_SIZE: Refusal = Refusal(17);
    pub const SHEET_TOO_LARGE: Refusal = Refusal(18);
    pub const NOT_A_SEASON: Refusal = Refusal(19);
}

/// The frame sides; each also is the number of the one kind with which it may appear.
pub const NORTH: usize = 0;
pub const WEST: usize = 1;
pub const SOUTH: usize = 2;
pub const EAST: usize = 3;

/// Rooms are numbered after the four frame sides.
pub const FIRST_ROOM: usize = 4;

/// The kinds: where the neighbour stands, seen from the room whose star it is.
pub const ABOVE: u8 = 0;
pub const LEFT: u8 = 1;
pub const BELOW: u8 = 2;
pub const RIGHT: u8 = 3;

/// 0 with 2, 1 with 3.
pub fn opposite(kind: u8) -> u8 {
    match kind {
        ABOVE => BELOW,
        BELOW => ABOVE,
        LEFT => RIGHT,
        _ => LEFT,
    }
}
