//! Walls and their numbers: sides joined by contacts, then longest paths.

use crate::job::{Job, Size};
use crate::{refusal, Refusal, ABOVE, BELOW, EAST, LEFT, NORTH, RIGHT, SOUTH, WEST};

/// The wall numbers of the rooms' sides, by vertex number (the frame's places in the four lists stay unused).
#[derive(Clone, Debug, PartialEq, Eq)]
pub struct WallNumbers {
    pub left: Vec<usize>,
    pub right: Vec<usize>,
    pub lower: Vec<usize>,
    pub upper: Vec<usize>,
    pub left_of_east: usize,
    pub bottom_of_north: usize,
}

/// Numbers both counts; walls in a circle are refusal 7. The two counts never meet.
pub fn number_walls(job: &Job) -> Result<WallNumbers, Refusal> {
    let upright = one_count(job, &UPRIGHT)?;
    let level = one_count(job, &LEVEL)?;
    Ok(WallNumbers {
        left_of_east: upright.near[EAST],
        bottom_of_north: level.near[NORTH],
        left: upright.near,
        right: upright.far,
        lower: level.near,
        upper: level.far,
    })
}

/// The number of E's left wall, then that of N's bottom wall, each where its own count runs in no circle. The comparison's planners with a slip look at
/// one before the other.
pub fn far_walls(job: &Job) -> [Option<usize>; 2] {
    let last = |direction: &Direction| {
        let count = one_count(job, direction).ok();
        count.map(|count| count.near[direction.end])
    };
    [last(&UPRIGHT), last(&LEVEL)]
}

/// What tells upright walls from level ones: which contacts join two sides, and which only say "before".
struct Direction {
    /// The neighbour of this kind has its near side on our far side.
    joining: u8,
    /// The frame sides at the start and at the end, with the kinds in which rooms list them.
    start: usize,
    start_kind: u8,
    end: usize,
    end_kind: u8,
    /// Two rooms in this contact overlap across the direction, so each one's near wall precedes the other's far wall.
    crossing: u8,
    /// How far a room's near wall comes before its far wall, at least.
    least: fn(Size) -> usize,
}

/// Near is left, far is right.
const UPRIGHT: Direction = Direction {
    joining: RIGHT,
    start: WEST,
    start_kind: LEFT,
    end: EAST,
    end_kind: RIGHT,
    crossing: ABOVE,
    least: |size| size.width,
};

/// Near is lower, far is upper.
const LEVEL: Direction = Direction {
    joining: ABOVE,
    start: SOUTH,
    start_kind: BELOW,
    end: NORTH,
    end_kind: ABOVE,
    crossing: RIGHT,
    least: |size| size.height,
};

/// Numbers of the near and the far sides, by vertex.
struct Count {
    near: Vec<usize>,
    far: Vec<usize>,
}

/// Every vertex gets two sides; those of the frame that no rule mentions stay alone and disturb nothing.
fn near_side(vertex: usize) -> usize {
    2 * vertex
}

fn far_side(vertex: usize) -> usize {
    2 * vertex + 1
}

fn one_count(job: &Job, direction: &Direction) -> Result<Count, Refusal> {
    let mut walls = Joined::apart(2 * job.vertices());
    join_sides(job, direction, &mut walls);
    let before = before_rules(job, direction, &mut walls);
    let numbers = longest_paths(walls.len(), &before).ok_or(refusal::CIRCLE)?;
    let mut number_of = |side| numbers[walls.wall_of(side)];
    Ok(Count {
        near: (0..job.vertices())
            .map(|v| number_of(near_side(v)))
            .collect(),
        far: (0..job.vertices())
            .map(|v| number_of(far_side(v)))
            .collect(),
    })
}

fn join_sides(job: &Job, direction: &Direction, walls: &mut Joined) {
    for room in job.rooms() {
        for entry in job.star_of(room) {
            if entry.neighbour == direction.start && entry.kind == direction.start_kind {
                walls.join(far_side(direction.start), near_side(room));
            } else if entry.neighbour == direction.end && entry.kind == direction.end_kind {
                walls.join(far_side(room), near_side(direction.end));
            } else if job.is_room(entry.neighbour) && entry.kind == direction.joining {
                walls.join(far_side(room), near_side(entry.neighbour));
            }
        }
    }
}

/// One wall comes before another, by at least so much.
struct Before {
    earlier: usize,
    later: usize,
    least: usize,
}

/// A room asks for its least size, a contact for 1.
fn before_rules(job: &Job, direction: &Direction, walls: &mut Joined) -> Vec<Before> {
    let mut sides = Vec::new();
    for room in job.rooms() {
        let least = (direction.least)(job.size_of(room));
        sides.push((near_side(room), far_side(room), least));
        for entry in job.star_of(room) {
            if job.is_room(entry.neighbour) && entry.kind == direction.crossing {
                sides.push((near_side(room), far_side(entry.neighbour), 1));
                sides.push((near_side(entry.neighbour), far_side(room), 1));
            }
        }
    }
    sides
        .into_iter()
        .map(|(earlier, later, least)| Before {
            earlier: walls.wall_of(earlier),
            later: walls.wall_of(later),
            least,
        })
        .collect()
}

/// Walls are taken once all that come before them are numbered; if some are never taken, they run in a circle.
fn longest_paths(count: usize, before: &[Before]) -> Option<Vec<usize>> {
    let mut waiting_for = vec![0usize; count];
    let mut later_walls = vec![Vec::new(); count];
    for rule in before {
        waiting_for[rule.later] += 1;
        later_walls[rule.earlier].push((rule.later, rule.least));
    }
    let mut numbers = vec![1usize; count];
    let mut ready: Vec<usize> = (0..count).filter(|&wall| waiting_for[wall] == 0).collect();
    let mut taken = 0;
    while let Some(wall) = ready.pop() {
        taken += 1;
        for &(later, least) in &later_walls[wall] {
            numbers[later] = numbers[later].max(numbers[wall] + least);
            waiting_for[later] -= 1;
            if waiting_for[later] == 0 {
                ready.push(later);
            }
        }
    }
    (taken == count).then_some(numbers)
}

/// Sides joined to walls; a wall is named by one of its sides.
struct Joined {
    parent: Vec<usize>,
}

impl Joined {
    fn apart(sides: usize) -> Self {
        Joined {
            parent: (0..sides).collect(),
        }
    }

    fn len(&self) -> usize {
        self.parent.len()
    }

    fn wall_of(&mut self, side: usize) -> usize {
        let mut top = side;
        while self.parent[top] != top {
            // Halving the way keeps later searches short.
            self.parent[top] = self.parent[self.parent[top]];
            top = self.parent[top];
        }
        top
    }

    fn join(&mut self, a: usize, b: usize) {
        let (a, b) = (self.wall_of(a), self.wall_of(b));
        self.parent[a] = b;
    }
}
