//! Floors made by geometry, and the jobs that describe them: what the comparison and the benchmark both start from.

pub mod chance;
pub mod floor;
pub mod known;
pub mod sizes;

pub use chance::Chance;
pub use floor::{any_floor, floor_of, renumbered, restarted, some_start, started_at};
pub use floor::{turned_at_random, Floor, MOST_ROOMS};
pub use sizes::{oversized, sized, some_sizes, LARGEST_SHEET, LARGEST_SIZE};
