//! Rectangles from wall numbers, and the drawing test, item by item.

use crate::fields::put_field;
use crate::job::{round, Entry, Job};
use crate::walls::{number_walls, WallNumbers};
use crate::{refusal, Refusal, ABOVE, BELOW, EAST, FIRST_ROOM, LEFT, NORTH, RIGHT, SOUTH, WEST};

pub const TAG_SHEET: u8 = 3;
pub const TAG_RECTANGLE: u8 = 4;
const LARGEST_SHEET: usize = 250;

#[derive(Clone, Copy, Debug, PartialEq, Eq)]
pub struct Rectangle {
    pub x1: usize,
    pub y1: usize,
    pub x2: usize,
    pub y2: usize,
}

#[derive(Clone, Debug, PartialEq, Eq)]
pub struct Plan {
    pub width: usize,
    pub height: usize,
    /// In vertex order.
    pub rectangles: Vec<Rectangle>,
}

/// A wall that two rectangles share: the side on which the second stands, seen from the first, and how long it is.
#[derive(Clone, Copy, Debug, PartialEq, Eq)]
pub struct Touch {
    pub side: u8,
    pub length: usize,
}

/// Which items of the drawing test fail; several may at once.
#[derive(Clone, Copy, Debug, Default, PartialEq, Eq)]
pub struct Faults {
    pub outside: bool,
    pub overlap: bool,
    pub area: bool,
    pub unjoined: bool,
    pub corner: bool,
    pub order: bool,
}

impl Faults {
    pub fn any(&self) -> bool {
        *self != Faults::default()
    }
}

/// Tests 7, 18 and 9 of any job that has passed the earlier ones.
pub fn draw(job: &Job) -> Result<Plan, Refusal> {
    let plan = place(job, &number_walls(job)?);
    debug_assert!(within_bound(job, &plan), "a sheet past the bound of W1");
    if plan.width.max(plan.height) > LARGEST_SHEET {
        return Err(refusal::SHEET_TOO_LARGE);
    }
    if faults(job, &plan).any() {
        return Err(refusal::UNDRAWABLE);
    }
    Ok(plan)
}

/// Every wall but the first holds the far side of some room, so no sheet passes what all rooms ask for one behind the other, plus 2: without sizes the number
/// of rooms plus 2.
pub fn within_bound(job: &Job, plan: &Plan) -> bool {
    let widths: usize = job.rooms().map(|room| job.size_of(room).width).sum();
    let heights: usize = job.rooms().map(|room| job.size_of(room).height).sum();
    plan.width <= widths + 2 && plan.height <= heights + 2
}

/// The rectangles, frame included, of numbered walls.
pub fn place(job: &Job, walls: &WallNumbers) -> Plan {
    let width = walls.left_of_east + 1;
    let height = walls.bottom_of_north + 1;
    let mut rectangles: Vec<Rectangle> = (0..FIRST_ROOM)
        .map(|side| frame_side(side, width, height))
        .collect();
    rectangles.extend(job.rooms().map(|room| Rectangle {
        x1: walls.left[room],
        y1: walls.lower[room],
        x2: walls.right[room],
        y2: walls.upper[room],
    }));
    Plan {
        width,
        height,
        rectangles,
    }
}

/// W and E stand the full height; N and S lie between them.
fn frame_side(side: usize, width: usize, height: usize) -> Rectangle {
    let (x1, y1, x2, y2) = match side {
        NORTH => (1, height - 1, width - 1, height),
        WEST => (0, 0, 1, height),
        SOUTH => (1, 0, width - 1, 1),
        _ => (width - 1, 0, width, height),
    };
    Rectangle { x1, y1, x2, y2 }
}

/// The drawing test. Every item is looked at, so that a test run can say which of them failed alone.
pub fn faults(job: &Job, plan: &Plan) -> Faults {
    let mut found = Faults {
        outside: plan.rectangles.iter().any(|r| !inside(r, plan)),
        area: plan.rectangles.iter().map(area).sum::<usize>() != plan.width * plan.height,
        order: job
            .rooms()
            .any(|room| !star_in_order(job.star_of(room), plan)),
        ..Faults::default()
    };
    for (a, one) in plan.rectangles.iter().enumerate() {
        for (b, other) in plan.rectangles.iter().enumerate().skip(a + 1) {
            found.overlap |= share_a_cell(one, other);
            found.corner |= meet_only_at_a_corner(one, other);
            found.unjoined |=
                touch(one, other).is_some() && !job.joins(a, b) && !frame_neighbours(a, b);
        }
    }
    found
}

fn inside(r: &Rectangle, plan: &Plan) -> bool {
    r.x1 < r.x2 && r.x2 <= plan.width && r.y1 < r.y2 && r.y2 <= plan.height
}

fn area(r: &Rectangle) -> usize {
    r.x2.saturating_sub(r.x1) * r.y2.saturating_sub(r.y1)
}

/// How far two stretches overlap; noughts where they only touch or lie apart.
fn overlap(a1: usize, a2: usize, b1: usize, b2: usize) -> usize {
    a2.min(b2).saturating_sub(a1.max(b1))
}

fn across(a: &Rectangle, b: &Rectangle) -> usize {
    overlap(a.x1, a.x2, b.x1, b.x2)
}

fn upward(a: &Rectangle, b: &Rectangle) -> usize {
    overlap(a.y1, a.y2, b.y1, b.y2)
}

fn touch_sideways(a: &Rectangle, b: &Rectangle) -> bool {
    a.x2 == b.x1 || b.x2 == a.x1
}

fn touch_up_or_down(a: &Rectangle, b: &Rectangle) -> bool {
    a.y2 == b.y1 || b.y2 == a.y1
}

fn share_a_cell(a: &Rectangle, b: &Rectangle) -> bool {
    across(a, b) >= 1 && upward(a, b) >= 1
}

/// The four sides of the first, each with whether the second begins on its line and how far the two lie side by side there.
fn sides(a: &Rectangle, b: &Rectangle) -> [(u8, bool, usize); 4] {
    [
        (ABOVE, a.y2 == b.y1, across(a, b)),
        (LEFT, a.x1 == b.x2, upward(a, b)),
        (BELOW, a.y1 == b.y2, across(a, b)),
        (RIGHT, a.x2 == b.x1, upward(a, b)),
    ]
}

/// The wall that the two share, if it is at least 1 long. Rectangles of at least a cell share on one side at most.
pub fn touch(a: &Rectangle, b: &Rectangle) -> Option<Touch> {
    sides(a, b)
        .into_iter()
        .find(|&(_, meet, length)| meet && length >= 1)
        .map(|(side, _, length)| Touch { side, length })
}

/// Where a wall shared on this side begins and ends along its length: in y beside, in x above and below.
pub fn stretch(a: &Rectangle, b: &Rectangle, side: u8) -> (usize, usize) {
    match side {
        LEFT | RIGHT => (a.y1.max(b.y1), a.y2.min(b.y2)),
        _ => (a.x1.max(b.x1), a.x2.min(b.x2)),
    }
}

pub fn meet_only_at_a_corner(a: &Rectangle, b: &Rectangle) -> bool {
    touch_sideways(a, b) && touch_up_or_down(a, b)
}

pub fn frame_neighbours(a: usize, b: usize) -> bool {
    let pairs = [(NORTH, WEST), (WEST, SOUTH), (SOUTH, EAST), (EAST, NORTH)];
    pairs.contains(&(a, b)) || pairs.contains(&(b, a))
}

/// Once round the star, back to the start, so that a list is read over the start as well.
fn star_in_order(star: &[Entry], plan: &Plan) -> bool {
    round(star).all(|(entry, next)| in_order(entry, next, plan))
}

/// Neighbours of one kind follow each other as the counterclockwise walk meets them.
pub fn in_order(entry: &Entry, next: &Entry, plan: &Plan) -> bool {
    let one = &plan.rectangles[entry.neighbour];
    let other = &plan.rectangles[next.neighbour];
    match (entry.kind, next.kind) {
        (kind, next_kind) if kind != next_kind => true,
        (ABOVE, _) => one.x1 > other.x1,
        (LEFT, _) => one.y1 > other.y1,
        (BELOW, _) => one.x1 < other.x1,
        _ => one.y1 < other.y1,
    }
}

impl Plan {
    pub fn bytes(&self) -> Vec<u8> {
        let mut out = Vec::new();
        put_field(&mut out, TAG_SHEET, &[self.width as u8, self.height as u8]);
        for (vertex, r) in self.rectangles.iter().enumerate() {
            let numbers = [vertex, r.x1, r.y1, r.x2, r.y2];
            put_field(&mut out, TAG_RECTANGLE, &numbers.map(|number| number as u8));
        }
        out
    }
}

const _: () = assert!(EAST + 1 == FIRST_ROOM);
