//! The joiner's list: the walls of a plan, counted afresh from its rectangles, unit edge by unit edge along every line.

use crate::drawing::{Plan, Rectangle};
use crate::fields::put_field;
use crate::FIRST_ROOM;

const TAG_WALL: u8 = 8;

pub const UPRIGHT: u8 = 0;
pub const LEVEL: u8 = 1;

/// One wall: where it begins and ends along its length, and how many room sides lie on it.
#[derive(Clone, Copy, Debug, PartialEq, Eq, PartialOrd, Ord)]
pub struct Wall {
    pub direction: u8,
    pub number: usize,
    pub beginning: usize,
    pub end: usize,
    pub sides: usize,
}

/// One side of a room: the line it lies on, and where it begins and ends.
#[derive(Clone, Copy)]
struct Side {
    line: usize,
    beginning: usize,
    end: usize,
}

/// Upright walls come first, then by number, then by beginning: the order in which they are met.
pub fn register(plan: &Plan) -> Vec<Wall> {
    let mut walls = Vec::new();
    for direction in [UPRIGHT, LEVEL] {
        let sides = room_sides(plan, direction);
        for line in 0..=plan.width.max(plan.height) {
            let here: Vec<Side> = sides.iter().copied().filter(|s| s.line == line).collect();
            walls_on(direction, line, &here, &mut walls);
        }
    }
    walls
}

/// The frame's sides lie along the outer walls and count for nothing.
fn room_sides(plan: &Plan, direction: u8) -> Vec<Side> {
    let both = |r: &Rectangle| {
        let (lines, beginning, end) = match direction {
            UPRIGHT => ([r.x1, r.x2], r.y1, r.y2),
            _ => ([r.y1, r.y2], r.x1, r.x2),
        };
        lines.map(|line| Side {
            line,
            beginning,
            end,
        })
    };
    plan.rectangles[FIRST_ROOM..]
        .iter()
        .flat_map(both)
        .collect()
}

/// Along one line: edges that lie on room sides, as far as they go on, are one wall. No four rooms meet at a point, so where one edge follows
/// another some side lies on both, or a frame side does, and contacts join the two. The comparison also joins by contacts alone, and asks for the same.
fn walls_on(direction: u8, line: usize, sides: &[Side], walls: &mut Vec<Wall>) {
    let covered = |edge: usize| sides.iter().any(|s| s.beginning <= edge && edge < s.end);
    let last = sides.iter().map(|s| s.end).max().unwrap_or(0);
    let mut edge = 0;
    while edge < last {
        if !covered(edge) {
            edge += 1;
            continue;
        }
        let beginning = edge;
        while covered(edge) {
            edge += 1;
        }
        let on_it = |s: &&Side| beginning <= s.beginning && s.end <= edge;
        walls.push(Wall {
            direction,
            number: line,
            beginning,
            end: edge,
            sides: sides.iter().filter(on_it).count(),
        });
    }
}

/// The register's bytes, a field a wall.
pub fn bytes(walls: &[Wall]) -> Vec<u8> {
    let mut out = Vec::new();
    for wall in walls {
        let numbers = [wall.number, wall.beginning, wall.end, wall.sides].map(|n| n as u8);
        let [number, beginning, end, sides] = numbers;
        put_field(
            &mut out,
            TAG_WALL,
            &[wall.direction, number, beginning, end, sides],
        );
    }
    out
}
