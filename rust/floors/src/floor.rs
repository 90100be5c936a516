//! Floors made by geometry: a rectangle cut into rooms, and the job that describes it.
//! None of the planner's rules is used here, so every such floor must be accepted.

use crate::chance::Chance;
use reference::drawing::Rectangle;
use reference::job::{Entry, Job, Star};
use reference::{ABOVE, BELOW, EAST, FIRST_ROOM, LEFT, NORTH, RIGHT, SOUTH, WEST};

pub const MOST_ROOMS: usize = 60;
const FINE: usize = 1 << 20;

/// Rooms that fill the rectangle from 0,0 to width,height.
pub struct Floor {
    pub width: usize,
    pub height: usize,
    pub rooms: Vec<Rectangle>,
}

/// A floor of some size and make, as a job.
pub fn any_floor(chance: &mut Chance) -> Job {
    let rooms = any_size(chance);
    floor_of(chance, rooms)
}

fn any_size(chance: &mut Chance) -> usize {
    match chance.below(10) {
        0..=4 => chance.between(1, 8),
        5..=7 => chance.between(9, 30),
        8 => chance.between(31, MOST_ROOMS),
        _ => chance.between(54, MOST_ROOMS),
    }
}

/// Floors in which four rooms meet at a point are no jobs; another is made then.
pub fn floor_of(chance: &mut Chance, rooms: usize) -> Job {
    loop {
        let floor = one_floor(chance, rooms);
        let floor = mirrored(chance, floor);
        if let Some(job) = job_of(&floor) {
            return job;
        }
    }
}

fn one_floor(chance: &mut Chance, rooms: usize) -> Floor {
    match chance.below(15) {
        0..=2 => cut_floor(chance, rooms, FINE),
        3 => cut_floor(chance, rooms, 24),
        4..=7 => grown_floor(chance, rooms),
        8 => row(rooms),
        9..=10 => bricks(chance, rooms),
        11 => nested_pinwheels(chance, rooms),
        _ => sliced_pinwheel(chance, rooms),
    }
}

fn cut_floor(chance: &mut Chance, rooms: usize, grain: usize) -> Floor {
    let mut parts = vec![rectangle(0, 0, grain, grain)];
    let pinwheels = *chance.pick(&[0, 20, 60]);
    cut_on(chance, &mut parts, rooms, pinwheels);
    Floor {
        width: grain,
        height: grain,
        rooms: parts,
    }
}

/// Cuts a random room again and again, in two or, so many times in a hundred, as a pinwheel of five.
fn cut_on(chance: &mut Chance, parts: &mut Vec<Rectangle>, rooms: usize, pinwheels: usize) {
    let mut idle = 0;
    while parts.len() < rooms && idle < 200 {
        let chosen = chance.below(parts.len());
        let wheel = parts.len() + 4 <= rooms && chance.percent(pinwheels);
        let pieces = if wheel {
            pinwheel(chance, parts[chosen])
        } else {
            cut_in_two(chance, parts[chosen])
        };
        idle += 1;
        if let Some(pieces) = pieces {
            parts.swap_remove(chosen);
            parts.extend(pieces);
            idle = 0;
        }
    }
}

fn cut_in_two(chance: &mut Chance, r: Rectangle) -> Option<Vec<Rectangle>> {
    if chance.percent(50) {
        let x = strictly_between(chance, r.x1, r.x2)?;
        Some(vec![Rectangle { x2: x, ..r }, Rectangle { x1: x, ..r }])
    } else {
        let y = strictly_between(chance, r.y1, r.y2)?;
        Some(vec![Rectangle { y2: y, ..r }, Rectangle { y1: y, ..r }])
    }
}

/// Four arms round a middle room, of either hand; no straight cut takes it apart.
fn pinwheel(chance: &mut Chance, r: Rectangle) -> Option<Vec<Rectangle>> {
    let right_handed = chance.percent(50);
    pinwheel_of(chance, r, right_handed)
}

/// The middle room comes last.
fn pinwheel_of(chance: &mut Chance, r: Rectangle, right_handed: bool) -> Option<Vec<Rectangle>> {
    let (xa, xb) = two_between(chance, r.x1, r.x2)?;
    let (ya, yb) = two_between(chance, r.y1, r.y2)?;
    let middle = rectangle(xa, ya, xb, yb);
    let arms = if right_handed {
        [
            rectangle(r.x1, r.y1, xb, ya),
            rectangle(xb, r.y1, r.x2, yb),
            rectangle(xa, yb, r.x2, r.y2),
            rectangle(r.x1, ya, xa, r.y2),
        ]
    } else {
        [
            rectangle(xa, r.y1, r.x2, ya),
            rectangle(xb, ya, r.x2, r.y2),
            rectangle(r.x1, yb, xb, r.y2),
            rectangle(r.x1, r.y1, xa, yb),
        ]
    };
    let mut all = arms.to_vec();
    all.push(middle);
    Some(all)
}

fn nested_pinwheels(chance: &mut Chance, rooms: usize) -> Floor {
    let whole = rectangle(0, 0, FINE, FINE);
    let spiral = chance.percent(50);
    let hand = chance.percent(50);
    let mut parts = vec![whole];
    while parts.len() + 4 <= rooms {
        let middle = *parts.last().expect("there is always a middle room");
        let turn = if spiral { hand } else { chance.percent(50) };
        let Some(pieces) = pinwheel_of(chance, middle, turn) else {
            break;
        };
        parts.pop();
        parts.extend(pieces);
    }
    Floor {
        width: FINE,
        height: FINE,
        rooms: parts,
    }
}

/// Some slices, a pinwheel in one of them, and all that cut further: straight cuts take such a floor apart here and there, but never all of it.
fn sliced_pinwheel(chance: &mut Chance, rooms: usize) -> Floor {
    let mut parts = vec![rectangle(0, 0, FINE, FINE)];
    // Five rooms are left for the pinwheel, where there are so many.
    let slices = chance.below(rooms.saturating_sub(4).clamp(1, 7));
    cut_on(chance, &mut parts, 1 + slices, 0);
    let with_wheel = rooms.min(parts.len() + 4);
    cut_on(chance, &mut parts, with_wheel, 100);
    cut_on(chance, &mut parts, rooms, 20);
    Floor {
        width: FINE,
        height: FINE,
        rooms: parts,
    }
}

/// Rooms are pushed in one after another at the upper right corner, from the right or from the top. Every dissection
/// can be grown so. The walls are then put at random places that keep every room's sides apart.
fn grown_floor(chance: &mut Chance, rooms: usize) -> Floor {
    let (mut width, mut height) = (1, 1);
    let mut grown = vec![rectangle(0, 0, 1, 1)];
    while grown.len() < rooms {
        let room = if chance.percent(50) {
            width += 1;
            push_in_from_the_right(chance, &mut grown, width, height)
        } else {
            height += 1;
            push_in_from_the_top(chance, &mut grown, width, height)
        };
        grown.push(room);
    }
    let xs: Vec<(usize, usize)> = grown.iter().map(|r| (r.x1, r.x2)).collect();
    let ys: Vec<(usize, usize)> = grown.iter().map(|r| (r.y1, r.y2)).collect();
    let x_places = random_places(chance, width, &xs);
    let y_places = random_places(chance, height, &ys);
    for r in &mut grown {
        *r = rectangle(
            x_places[r.x1],
            y_places[r.y1],
            x_places[r.x2],
            y_places[r.y2],
        );
    }
    Floor {
        width,
        height,
        rooms: grown,
    }
}

/// The new room covers some of the topmost rooms at the old right edge; the others stretch to the new one.
fn push_in_from_the_right(
    chance: &mut Chance,
    rooms: &mut [Rectangle],
    width: usize,
    height: usize,
) -> Rectangle {
    let edge = width - 1;
    let mut starts: Vec<usize> = rooms
        .iter()
        .filter(|r| r.x2 == edge)
        .map(|r| r.y1)
        .collect();
    starts.sort_unstable();
    let y1 = *chance.pick(&starts);
    for r in rooms.iter_mut().filter(|r| r.x2 == edge && r.y1 < y1) {
        r.x2 = width;
    }
    rectangle(edge, y1, width, height)
}

fn push_in_from_the_top(
    chance: &mut Chance,
    rooms: &mut [Rectangle],
    width: usize,
    height: usize,
) -> Rectangle {
    let edge = height - 1;
    let mut starts: Vec<usize> = rooms
        .iter()
        .filter(|r| r.y2 == edge)
        .map(|r| r.x1)
        .collect();
    starts.sort_unstable();
    let x1 = *chance.pick(&starts);
    for r in rooms.iter_mut().filter(|r| r.y2 == edge && r.x1 < x1) {
        r.y2 = height;
    }
    rectangle(x1, edge, width, height)
}

/// A random order of the walls 0 to last in which each pair (earlier, later) stays in order.
fn random_places(chance: &mut Chance, last: usize, pairs: &[(usize, usize)]) -> Vec<usize> {
    let mut place = vec![0; last + 1];
    let mut waiting: Vec<usize> = (0..=last).collect();
    for next in 0..=last {
        let free: Vec<usize> = waiting
            .iter()
            .copied()
            .filter(|wall| {
                pairs
                    .iter()
                    .all(|(earlier, later)| later != wall || !waiting.contains(earlier))
            })
            .collect();
        let chosen = *chance.pick(&free);
        place[chosen] = next;
        waiting.retain(|&wall| wall != chosen);
    }
    place
}

fn row(rooms: usize) -> Floor {
    Floor {
        width: rooms,
        height: 1,
        rooms: (0..rooms).map(|x| rectangle(x, 0, x + 1, 1)).collect(),
    }
}

/// Rows of bricks; mirrored and exchanged later, also staggered columns.
fn bricks(chance: &mut Chance, rooms: usize) -> Floor {
    let rows = chance.between(1, rooms.min(12));
    let mut bricks_in = vec![1; rows];
    for _ in rows..rooms {
        bricks_in[chance.below(rows)] += 1;
    }
    let mut all = Vec::new();
    for (y, &count) in bricks_in.iter().enumerate() {
        let mut x1 = 0;
        for joint in joints(chance, count) {
            all.push(rectangle(x1, y, joint, y + 1));
            x1 = joint;
        }
        all.push(rectangle(x1, y, FINE, y + 1));
    }
    Floor {
        width: FINE,
        height: rows,
        rooms: all,
    }
}

/// The inner joints of one row, rising.
fn joints(chance: &mut Chance, bricks: usize) -> Vec<usize> {
    let mut all: Vec<usize> = Vec::new();
    while all.len() + 1 < bricks {
        let joint = chance.between(1, FINE - 1);
        if !all.contains(&joint) {
            all.push(joint);
        }
    }
    all.sort_unstable();
    all
}

/// Any of the eight ways to turn the sheet over.
fn mirrored(chance: &mut Chance, mut floor: Floor) -> Floor {
    if chance.percent(50) {
        for r in &mut floor.rooms {
            *r = rectangle(r.y1, r.x1, r.y2, r.x2);
        }
        std::mem::swap(&mut floor.width, &mut floor.height);
    }
    if chance.percent(50) {
        for r in &mut floor.rooms {
            *r = rectangle(floor.width - r.x2, r.y1, floor.width - r.x1, r.y2);
        }
    }
    if chance.percent(50) {
        for r in &mut floor.rooms {
            *r = rectangle(r.x1, floor.height - r.y2, r.x2, floor.height - r.y1);
        }
    }
    floor
}

/// The stars as seen on the floor, or nothing where two rooms meet only at a corner.
pub fn job_of(floor: &Floor) -> Option<Job> {
    let stars: Option<Vec<Star>> = floor.rooms.iter().map(|r| star_on(floor, r)).collect();
    Some(Job::plain(stars?))
}

fn star_on(floor: &Floor, r: &Rectangle) -> Option<Star> {
    let (mut above, mut left, mut below, mut right) = (vec![], vec![], vec![], vec![]);
    for (place, o) in floor.rooms.iter().enumerate() {
        let room = FIRST_ROOM + place;
        let beside = o.y1 < r.y2 && r.y1 < o.y2;
        let over = o.x1 < r.x2 && r.x1 < o.x2;
        let touches_across = o.x2 == r.x1 || r.x2 == o.x1;
        let touches_upward = o.y2 == r.y1 || r.y2 == o.y1;
        if touches_across && touches_upward {
            return None;
        }
        if over && o.y1 == r.y2 {
            above.push((o.x1, room));
        } else if beside && o.x2 == r.x1 {
            left.push((o.y1, room));
        } else if over && o.y2 == r.y1 {
            below.push((o.x1, room));
        } else if beside && o.x1 == r.x2 {
            right.push((o.y1, room));
        }
    }
    // Counterclockwise: above from right to left, left from top to bottom, then rising.
    above.sort_unstable_by(|a, b| b.cmp(a));
    left.sort_unstable_by(|a, b| b.cmp(a));
    below.sort_unstable();
    right.sort_unstable();
    if r.y2 == floor.height {
        above.push((0, NORTH));
    }
    if r.x1 == 0 {
        left.push((0, WEST));
    }
    if r.y1 == 0 {
        below.push((0, SOUTH));
    }
    if r.x2 == floor.width {
        right.push((0, EAST));
    }
    let lists = [(ABOVE, above), (LEFT, left), (BELOW, below), (RIGHT, right)];
    let star = lists
        .into_iter()
        .flat_map(|(kind, list)| {
            list.into_iter()
                .map(move |(_, neighbour)| Entry { neighbour, kind })
        })
        .collect();
    Some(star)
}

/// The same floor with other room numbers.
pub fn renumbered(chance: &mut Chance, job: &Job) -> Job {
    let mut new_numbers: Vec<usize> = job.rooms().collect();
    chance.shuffle(&mut new_numbers);
    let renumber = |vertex: usize| match vertex.checked_sub(FIRST_ROOM) {
        Some(place) => new_numbers[place],
        None => vertex,
    };
    let mut result = job.clone();
    for room in job.rooms() {
        *result.star_of_mut(renumber(room)) = job
            .star_of(room)
            .iter()
            .map(|entry| Entry {
                neighbour: renumber(entry.neighbour),
                kind: entry.kind,
            })
            .collect();
        if let (Some(sizes), Some(new)) = (&job.sizes, &mut result.sizes) {
            new[renumber(room) - FIRST_ROOM] = sizes[room - FIRST_ROOM];
        }
    }
    result
}

/// The same job with none, some or all of its stars started elsewhere.
pub fn restarted(chance: &mut Chance, job: Job) -> Job {
    let share = *chance.pick(&[0, 30, 100]);
    let starts: Vec<usize> = job
        .stars
        .iter()
        .map(|star| {
            if chance.percent(share) {
                some_start(chance, star)
            } else {
                0
            }
        })
        .collect();
    started_at(job, &starts)
}

pub fn some_start(chance: &mut Chance, star: &Star) -> usize {
    chance.below(star.len().max(1))
}

/// Each star started with the entry that stood at the place given for it.
pub fn started_at(mut job: Job, starts: &[usize]) -> Job {
    for (star, start) in job.stars.iter_mut().zip(starts) {
        star.rotate_left(*start);
    }
    job
}

/// Some contacts turned, through the reference; turns it refuses are passed over.
pub fn turned_at_random(chance: &mut Chance, job: Job) -> Job {
    let mut result = job;
    for _ in 0..chance.below(12) {
        let room = chance.between(FIRST_ROOM, result.vertices() - 1);
        let neighbour = chance.pick(result.star_of(room)).neighbour;
        if let Ok(next) = reference::turning::turned(&result, room, neighbour) {
            if reference::drawing::draw(&next).is_ok() {
                result = next;
            }
        }
    }
    result
}

pub fn rectangle(x1: usize, y1: usize, x2: usize, y2: usize) -> Rectangle {
    Rectangle { x1, y1, x2, y2 }
}

fn strictly_between(chance: &mut Chance, low: usize, high: usize) -> Option<usize> {
    (high - low >= 2).then(|| chance.between(low + 1, high - 1))
}

fn two_between(chance: &mut Chance, low: usize, high: usize) -> Option<(usize, usize)> {
    if high - low < 3 {
        return None;
    }
    let first = chance.between(low + 1, high - 2);
    Some((first, chance.between(first + 1, high - 1)))
}
