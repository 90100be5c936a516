//! Which floors come apart by straight cuts: the rooms of a plan, frame left out, by plain recursion over sets of rooms.

use crate::drawing::Plan;
use crate::fields::put_field;
use crate::register::{LEVEL, UPRIGHT};
use crate::FIRST_ROOM;
use std::collections::HashMap;

const TAG_CUT: u8 = 5;
const TAG_LEAF: u8 = 6;

/// A straight cut: its direction, 0 upright or 1 level, and its place on the sheet.
#[derive(Clone, Copy, Debug, PartialEq, Eq)]
pub struct Cut {
    pub direction: u8,
    pub place: usize,
}

/// The tree as it is written: behind a cut its left or lower part, then the other; a leaf is a room.
#[derive(Clone, Copy, Debug, PartialEq, Eq)]
pub enum Part {
    Cut(Cut),
    Leaf(usize),
}

pub fn all_rooms(plan: &Plan) -> Vec<usize> {
    (FIRST_ROOM..plan.rectangles.len()).collect()
}

/// Where a room begins and ends across a direction of cuts.
pub fn span(plan: &Plan, room: usize, direction: u8) -> (usize, usize) {
    let r = &plan.rectangles[room];
    match direction {
        UPRIGHT => (r.x1, r.x2),
        _ => (r.y1, r.y2),
    }
}

/// The cuts across the rectangle that the rooms fill which pass through none of them: upright ones from left to right, then level ones upward.
pub fn cuts(plan: &Plan, rooms: &[usize]) -> Vec<Cut> {
    let mut all = Vec::new();
    for direction in [UPRIGHT, LEVEL] {
        let spans: Vec<_> = rooms.iter().map(|&r| span(plan, r, direction)).collect();
        let first = spans.iter().map(|s| s.0).min().unwrap_or(0);
        let last = spans.iter().map(|s| s.1).max().unwrap_or(0);
        let free = |place: &usize| spans.iter().all(|s| s.1 <= *place || *place <= s.0);
        let places = (first + 1..last).filter(free);
        all.extend(places.map(|place| Cut { direction, place }));
    }
    all
}

/// The rooms to the left of a cut or below it, and the others.
pub fn parted(plan: &Plan, rooms: &[usize], cut: Cut) -> (Vec<usize>, Vec<usize>) {
    rooms
        .iter()
        .partition(|&&room| span(plan, room, cut.direction).0 < cut.place)
}

/// One room is sliceable; more are where any cut at all leaves two sliceable parts.
pub fn sliceable(plan: &Plan) -> bool {
    sliceable_set(plan, &all_rooms(plan), &mut HashMap::new())
}

/// What was answered of a set is remembered: the ways to one set are many.
fn sliceable_set(plan: &Plan, rooms: &[usize], known: &mut HashMap<Vec<usize>, bool>) -> bool {
    if rooms.len() == 1 {
        return true;
    }
    if let Some(&answer) = known.get(rooms) {
        return answer;
    }
    let answer = cuts(plan, rooms).into_iter().any(|cut| {
        let (one, other) = parted(plan, rooms, cut);
        sliceable_set(plan, &one, known) && sliceable_set(plan, &other, known)
    });
    known.insert(rooms.to_vec(), answer);
    answer
}

/// The tree of a sliceable floor: the leftmost upright cut if any, else the lowest level cut. None of a floor that is not sliceable.
pub fn tree(plan: &Plan) -> Option<Vec<Part>> {
    let leftmost_or_lowest = |rooms: &[usize]| {
        let cut = cuts(plan, rooms).first().copied();
        cut.expect("every part of a sliceable floor has a cut")
    };
    sliceable(plan).then(|| tree_by(plan, leftmost_or_lowest))
}

/// The same with another choice of the cut, which the comparison's planners with a slip bring along.
pub fn tree_by(plan: &Plan, choose: impl Fn(&[usize]) -> Cut) -> Vec<Part> {
    let mut parts = Vec::new();
    put_tree(plan, &all_rooms(plan), &choose, &mut parts);
    parts
}

fn put_tree(
    plan: &Plan,
    rooms: &[usize],
    choose: &impl Fn(&[usize]) -> Cut,
    parts: &mut Vec<Part>,
) {
    if let [room] = rooms {
        parts.push(Part::Leaf(*room));
        return;
    }
    let cut = choose(rooms);
    parts.push(Part::Cut(cut));
    let (one, other) = parted(plan, rooms, cut);
    put_tree(plan, &one, choose, parts);
    put_tree(plan, &other, choose, parts);
}

/// The tree's bytes, a field a part.
pub fn bytes(parts: &[Part]) -> Vec<u8> {
    let mut out = Vec::new();
    for part in parts {
        match part {
            Part::Cut(cut) => put_field(&mut out, TAG_CUT, &[cut.direction, cut.place as u8]),
            Part::Leaf(room) => put_field(&mut out, TAG_LEAF, &[*room as u8]),
        }
    }
    out
}
