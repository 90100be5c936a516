//! Stars that do not go once round as they should: nothing but the run of their kinds is at fault, so test 5 alone decides.

use crate::circle::{kinds_of, list, places};
use crate::damage::put_contact;
use floors::floor::{job_of, rectangle, Floor};
use floors::{renumbered, Chance};
use reference::job::{Entry, Job, Star};

/// One star goes round twice, jumps, runs backwards, or has one kind in two stretches.
pub fn go_round_wrongly(chance: &mut Chance, job: &mut Job) {
    match chance.below(5) {
        0..=1 => twice_round(chance, job),
        2 => jump(chance, job),
        3 => backwards(chance, job),
        _ => two_stretches(chance, job),
    }
}

fn some_room(chance: &mut Chance, job: &Job) -> usize {
    *chance.pick(&job.rooms().collect::<Vec<usize>>())
}

/// The entries of one kind, in circular order.
fn entries_of(star: &Star, kind: u8) -> Vec<Entry> {
    places(&kinds_of(star), kind)
        .into_iter()
        .map(|place| star[place])
        .collect()
}

/// Kinds 0 1 2 3 0 1 2 3: each list is parted in two, and the star goes through the first parts and then through the second.
fn twice_round(chance: &mut Chance, job: &mut Job) {
    let room = match chance.below(3) {
        0 => {
            *job = wheel(chance);
            fullest_room(job)
        }
        1 => fullest_room(job),
        _ => some_room(chance, job),
    };
    for kind in 0..4 {
        lengthen(chance, job, room, kind);
    }
    let lists: Vec<Vec<Entry>> = (0..4)
        .map(|kind| entries_of(job.star_of(room), kind))
        .collect();
    if lists.iter().any(|list| list.len() < 2) {
        return;
    }
    let (mut first, mut second) = (Vec::new(), Vec::new());
    for list in lists {
        let (one, other) = list.split_at(chance.between(1, list.len() - 1));
        first.extend_from_slice(one);
        second.extend_from_slice(other);
    }
    first.append(&mut second);
    *job.star_of_mut(room) = first;
}

/// A floor whose middle room has two neighbours on each side, so that its star may go round twice and all else is in order.
fn wheel(chance: &mut Chance) -> Job {
    let rooms = vec![
        rectangle(2, 2, 6, 6),
        rectangle(0, 0, 4, 2),
        rectangle(4, 0, 6, 2),
        rectangle(6, 0, 8, 4),
        rectangle(6, 4, 8, 6),
        rectangle(2, 6, 4, 8),
        rectangle(4, 6, 8, 8),
        rectangle(0, 2, 2, 4),
        rectangle(0, 4, 2, 8),
    ];
    let floor = Floor {
        width: 8,
        height: 8,
        rooms,
    };
    let job = job_of(&floor).expect("no two of its rooms meet only at a corner");
    renumbered(chance, &job)
}

/// The room with the most lists that are long enough as they are.
fn fullest_room(job: &Job) -> usize {
    let long_lists = |room: &usize| {
        let star = job.star_of(*room);
        let long = |kind: &u8| entries_of(star, *kind).len() >= 2;
        (0..4).filter(long).count()
    };
    job.rooms().max_by_key(long_lists).expect("there is a room")
}

/// A second neighbour of the kind, on both sides, so that test 6 would pass.
fn lengthen(chance: &mut Chance, job: &mut Job, room: usize, kind: u8) {
    for _ in 0..8 {
        if entries_of(job.star_of(room), kind).len() >= 2 {
            return;
        }
        let other = some_room(chance, job);
        put_contact(chance, job, room, other, kind);
    }
}

/// The lists one after another in the order given.
fn lists_in(star: &Star, order: &[u8]) -> Star {
    order
        .iter()
        .flat_map(|&kind| entries_of(star, kind))
        .collect()
}

/// The lists stand in an order that is neither the right one nor its reverse, or one of them is missing.
fn jump(chance: &mut Chance, job: &mut Job) {
    const ORDERS: [&[u8]; 8] = [
        &[0, 2, 1, 3],
        &[0, 1, 3, 2],
        &[0, 2, 3, 1],
        &[0, 3, 1, 2],
        &[0, 2, 3],
        &[0, 1, 3],
        &[1, 2, 3],
        &[0, 1, 2],
    ];
    let order = *chance.pick(&ORDERS);
    let room = some_room(chance, job);
    *job.star_of_mut(room) = lists_in(job.star_of(room), order);
}

/// Clockwise, as one might draw it, or only the lists in reverse.
fn backwards(chance: &mut Chance, job: &mut Job) {
    let room = some_room(chance, job);
    let star = job.star_of_mut(room);
    if chance.percent(50) {
        star.reverse();
    } else {
        *star = lists_in(star, &[3, 2, 1, 0]);
    }
}

/// The last of a list with others is put where it touches none of them.
fn two_stretches(chance: &mut Chance, job: &mut Job) {
    for _ in 0..20 {
        let room = some_room(chance, job);
        let kind = chance.below(4) as u8;
        let star = job.star_of_mut(room);
        let own = places(&kinds_of(star), kind);
        // At least two others have to stand between both stretches, one on either side.
        if own.len() < 2 || star.len() < own.len() + 2 {
            continue;
        }
        let moved = star.remove(own[own.len() - 1]);
        let kinds = kinds_of(star);
        let (begin, length) = list(&kinds, kind).expect("one is left");
        let away = chance.between(length + 1, kinds.len() - 1);
        star.insert((begin + away) % kinds.len(), moved);
        return;
    }
}
