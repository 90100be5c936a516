//! Jobs of every sort: floors as they are, floors damaged in many ways, limits, and mere garbage. A third of them have least sizes.

use crate::alone::{passed_over, undrawable};
use crate::circle::{gap, inserting, kinds_of, list};
use crate::misfits::{change_sizes, misfit};
use crate::rounds::go_round_wrongly;
use floors::{any_floor, floor_of, renumbered, restarted, turned_at_random, MOST_ROOMS};
use floors::{oversized, some_sizes, Chance};
use reference::fields::put_field;
use reference::job::{Entry, Job};
use reference::{opposite, ABOVE, FIRST_ROOM, RIGHT};

/// A job for a load or for the star question.
pub fn any_job(chance: &mut Chance) -> Vec<u8> {
    match chance.below(100) {
        0..=29 => finished_floor(chance).bytes(),
        30..=67 => damaged_job(chance).bytes(),
        68..=71 => undrawable(chance).bytes(),
        72..=79 => damaged_bytes(chance),
        80..=83 => misfit(chance),
        84..=85 => too_large(chance).bytes(),
        86 => passed_over(chance).bytes(),
        87..=91 => scattered(chance).bytes(),
        92..=94 => garbage(chance),
        _ => at_the_limits(chance),
    }
}

/// A job made star by star, so that each can be started elsewhere; more often one that is accepted.
pub fn job_of_stars(chance: &mut Chance) -> Job {
    match chance.below(10) {
        0..=5 => finished_floor(chance),
        6..=7 => damaged_job(chance),
        8 => undrawable(chance),
        _ => scattered(chance),
    }
}

/// A floor from geometry, some contacts turned, a third with sizes, its rooms numbered and its stars started at random.
pub fn finished_floor(chance: &mut Chance) -> Job {
    let floor = any_floor(chance);
    let floor = turned_at_random(chance, floor);
    let floor = some_sizes(chance, floor);
    let floor = renumbered(chance, &floor);
    restarted(chance, floor)
}

/// The stars are started elsewhere before and behind the damages, so that these meet a list that runs over the start.
pub fn damaged_job(chance: &mut Chance) -> Job {
    let floor = finished_floor(chance);
    damaged(chance, floor)
}

pub fn damaged(chance: &mut Chance, mut job: Job) -> Job {
    // Several damages at once show whether the tests come in the written order.
    let times = *chance.pick(&[1, 1, 1, 1, 2, 2, 3, 6]);
    for _ in 0..times {
        damage(chance, &mut job);
    }
    restarted(chance, job)
}

/// Many rooms that ask for much; some with something wrong besides, so that it shows which is told first: a circle, the sheet or the drawing.
fn too_large(chance: &mut Chance) -> Job {
    let rooms = chance.between(17, MOST_ROOMS);
    let floor = floor_of(chance, rooms);
    let floor = oversized(chance, floor);
    let mut job = renumbered(chance, &floor);
    match chance.below(5) {
        0 => {}
        1 => return damaged(chance, job),
        2 => close_a_circle(chance, &mut job),
        3 => remove_contact(chance, &mut job),
        _ => exchange_order(chance, &mut job),
    }
    restarted(chance, job)
}

/// One damage. Those that keep both sides of every contact in step are chosen more often: only they reach tests 7 and 9.
fn damage(chance: &mut Chance, job: &mut Job) {
    if job.stars.iter().all(Vec::is_empty) {
        return;
    }
    match chance.below(25) {
        0 => change_neighbour(chance, job),
        1 => change_kind(chance, job),
        2 if chance.percent(50) => swap_entries(chance, job),
        2 => go_round_wrongly(chance, job),
        3 => delete_entry(chance, job),
        4 => insert_entry(chance, job),
        5 => delete_star(chance, job),
        6 => duplicate_star(chance, job),
        7 => swap_stars(chance, job),
        8..=10 => change_one_side(chance, job),
        11..=12 => close_a_circle(chance, job),
        13..=15 => remove_contact(chance, job),
        16..=17 => exchange_order(chance, job),
        18..=20 => add_contact(chance, job),
        21 => change_frame(chance, job),
        22 => change_sizes(chance, job),
        _ => change_both_sides(chance, job),
    }
}

/// A place in a star that has at least one entry.
fn some_entry(chance: &mut Chance, job: &Job) -> (usize, usize) {
    loop {
        let star = chance.below(job.stars.len());
        if !job.stars[star].is_empty() {
            return (star, chance.below(job.stars[star].len()));
        }
    }
}

fn some_neighbour(chance: &mut Chance, job: &Job) -> usize {
    match chance.below(10) {
        0 => job.vertices(),
        1 => usize::from(chance.byte()),
        _ => chance.below(job.vertices()),
    }
}

fn some_kind(chance: &mut Chance) -> u8 {
    match chance.below(10) {
        0 => 4,
        1 => chance.byte(),
        _ => chance.below(4) as u8,
    }
}

fn change_neighbour(chance: &mut Chance, job: &mut Job) {
    let (star, place) = some_entry(chance, job);
    job.stars[star][place].neighbour = some_neighbour(chance, job);
}

fn change_kind(chance: &mut Chance, job: &mut Job) {
    let (star, place) = some_entry(chance, job);
    job.stars[star][place].kind = some_kind(chance);
}

fn swap_entries(chance: &mut Chance, job: &mut Job) {
    let (star, place) = some_entry(chance, job);
    let other = chance.below(job.stars[star].len());
    job.stars[star].swap(place, other);
}

fn delete_entry(chance: &mut Chance, job: &mut Job) {
    let (star, place) = some_entry(chance, job);
    job.stars[star].remove(place);
}

fn insert_entry(chance: &mut Chance, job: &mut Job) {
    let star = chance.below(job.stars.len());
    let place = chance.below(job.stars[star].len() + 1);
    let entry = Entry {
        neighbour: some_neighbour(chance, job),
        kind: some_kind(chance),
    };
    job.stars[star].insert(place, entry);
}

/// With its size, so that the field keeps its length.
fn delete_star(chance: &mut Chance, job: &mut Job) {
    let star = chance.below(job.stars.len());
    job.stars.remove(star);
    if let Some(sizes) = &mut job.sizes {
        sizes.remove(star);
    }
}

fn duplicate_star(chance: &mut Chance, job: &mut Job) {
    let star = chance.below(job.stars.len());
    let place = chance.below(job.stars.len() + 1);
    job.stars.insert(place, job.stars[star].clone());
    if let Some(sizes) = &mut job.sizes {
        sizes.insert(place, sizes[star]);
    }
}

fn swap_stars(chance: &mut Chance, job: &mut Job) {
    let one = chance.below(job.stars.len());
    let other = chance.below(job.stars.len());
    job.stars.swap(one, other);
}

/// A contradiction that leaves the star itself well formed: the entry at a list's end joins the next list, or goes.
fn change_one_side(chance: &mut Chance, job: &mut Job) {
    let (star, place) = some_entry(chance, job);
    let entries = &mut job.stars[star];
    let kind = entries[place].kind;
    let alone = entries.iter().filter(|entry| entry.kind == kind).count() == 1;
    let room = entries[place].neighbour >= FIRST_ROOM;
    if alone || !room {
        return;
    }
    let next = entries[(place + 1) % entries.len()].kind;
    if next != kind && chance.percent(70) {
        entries[place].kind = next;
    } else {
        entries.remove(place);
    }
}

/// Goes to the right, or upward, some rooms far and calls the start a further step that way.
fn close_a_circle(chance: &mut Chance, job: &mut Job) {
    let kind = *chance.pick(&[ABOVE, RIGHT]);
    let start = chance.between(FIRST_ROOM, job.vertices() - 1);
    let mut end = start;
    for _ in 0..chance.between(1, 6) {
        let further: Vec<usize> = job
            .star_of(end)
            .iter()
            .filter(|entry| entry.kind == kind && job.is_room(entry.neighbour))
            .map(|entry| entry.neighbour)
            .collect();
        if further.is_empty() {
            break;
        }
        end = *chance.pick(&further);
    }
    put_contact(chance, job, end, start, kind);
}

/// A contact between two rooms that list each other.
fn some_contact(chance: &mut Chance, job: &Job) -> Option<(usize, usize)> {
    let (star, place) = some_entry(chance, job);
    let (room, neighbour) = (FIRST_ROOM + star, job.stars[star][place].neighbour);
    (job.is_room(neighbour) && room != neighbour).then_some((room, neighbour))
}

/// On both sides: the two rooms then often meet only at a corner, or leave a gap.
fn remove_contact(chance: &mut Chance, job: &mut Job) {
    if let Some((one, other)) = some_contact(chance, job) {
        take_contact(job, one, other);
    }
}

fn take_contact(job: &mut Job, one: usize, other: usize) {
    job.star_of_mut(one)
        .retain(|entry| entry.neighbour != other);
    job.star_of_mut(other)
        .retain(|entry| entry.neighbour != one);
    fill_with_frame(job, one);
    fill_with_frame(job, other);
}

/// A kind that is missing gets its frame side, so that test 5 is passed and the drawing decides.
fn fill_with_frame(job: &mut Job, room: usize) {
    for kind in 0..4u8 {
        let star = job.star_of_mut(room);
        let kinds = kinds_of(star);
        if !kinds.contains(&kind) {
            let place = gap(&kinds, kind);
            let neighbour = usize::from(kind);
            star.insert(place, Entry { neighbour, kind });
        }
    }
}

fn exchange_order(chance: &mut Chance, job: &mut Job) {
    for _ in 0..20 {
        let (star, place) = some_entry(chance, job);
        let entries = &mut job.stars[star];
        let next = (place + 1) % entries.len();
        if place != next && entries[place].kind == entries[next].kind {
            entries.swap(place, next);
            return;
        }
    }
}

fn add_contact(chance: &mut Chance, job: &mut Job) {
    let one = chance.between(FIRST_ROOM, job.vertices() - 1);
    // Rooms close to each other, two steps away, are more telling than any two.
    let other = match some_contact(chance, job) {
        Some((near, far)) if chance.percent(60) => {
            let Some(kind) = job.kind_of(near, far) else {
                return;
            };
            // Some room always lists the far one, but the far star may have lost everything.
            if job.star_of(far).is_empty() {
                return;
            }
            let beyond = chance.pick(job.star_of(far));
            if beyond.kind == kind || !job.is_room(beyond.neighbour) {
                return;
            }
            let beyond = beyond.neighbour;
            return put_contact(chance, job, near, beyond, kind);
        }
        _ => chance.between(FIRST_ROOM, job.vertices() - 1),
    };
    let kind = chance.below(4) as u8;
    put_contact(chance, job, one, other, kind);
}

/// The other room stands in this kind from the one, written into both stars at random places of the right lists.
pub fn put_contact(chance: &mut Chance, job: &mut Job, one: usize, other: usize, kind: u8) {
    let listed = job.kind_of(one, other).is_some() || job.kind_of(other, one).is_some();
    if one == other || listed {
        return;
    }
    put_entry(chance, job, one, other, kind);
    put_entry(chance, job, other, one, opposite(kind));
}

fn put_entry(chance: &mut Chance, job: &mut Job, room: usize, neighbour: usize, kind: u8) {
    let star = job.star_of_mut(room);
    let kinds = kinds_of(star);
    let (begin, length) = list(&kinds, kind).unwrap_or((gap(&kinds, kind), 0));
    let place = inserting(&kinds, begin + chance.below(length + 1));
    star.insert(place, Entry { neighbour, kind });
    if chance.percent(50) {
        // A frame side stands alone in its list wherever walls run in no circle.
        star.retain(|entry| entry.neighbour >= FIRST_ROOM || entry.kind != kind);
    }
}

/// Frame contacts have one side only.
fn change_frame(chance: &mut Chance, job: &mut Job) {
    let room = chance.between(FIRST_ROOM, job.vertices() - 1);
    let kind = chance.below(4) as u8;
    let side = usize::from(kind);
    if job.kind_of(room, side).is_some() {
        job.star_of_mut(room)
            .retain(|entry| entry.neighbour != side);
    } else {
        put_entry(chance, job, room, side, kind);
    }
}

/// A contact gets another kind on both sides, as no turn would do it.
fn change_both_sides(chance: &mut Chance, job: &mut Job) {
    if let Some((one, other)) = some_contact(chance, job) {
        take_contact(job, one, other);
        let kind = chance.below(4) as u8;
        put_contact(chance, job, one, other, kind);
    }
}

/// Few rooms with contacts drawn by lot, both sides in step: everything but the drawing is in order.
fn scattered(chance: &mut Chance) -> Job {
    let rooms = chance.between(2, 9);
    let mut job = Job::plain(vec![Vec::new(); rooms]);
    let density = *chance.pick(&[15, 30, 50]);
    for one in job.rooms() {
        for other in one + 1..job.vertices() {
            if chance.percent(density) {
                // Always upward in the numbering, so that contacts alone make no circle.
                let kind = *chance.pick(&[ABOVE, RIGHT]);
                put_contact(chance, &mut job, one, other, kind);
            }
        }
    }
    for room in job.rooms() {
        fill_with_frame(&mut job, room);
    }
    let job = some_sizes(chance, job);
    let job = renumbered(chance, &job);
    restarted(chance, job)
}

/// A floor, or a damaged one, whose bytes are then damaged without regard to their meaning.
fn damaged_bytes(chance: &mut Chance) -> Vec<u8> {
    let mut bytes = if chance.percent(70) {
        finished_floor(chance).bytes()
    } else {
        damaged_job(chance).bytes()
    };
    for _ in 0..*chance.pick(&[1, 1, 1, 2, 4]) {
        damage_byte(chance, &mut bytes);
    }
    bytes
}

fn damage_byte(chance: &mut Chance, bytes: &mut Vec<u8>) {
    if bytes.is_empty() {
        bytes.push(chance.byte());
        return;
    }
    let place = chance.below(bytes.len());
    match chance.below(10) {
        0..=1 => bytes[place] = chance.byte(),
        2 => bytes[place] ^= 1 << chance.below(8),
        3 => bytes[place] = bytes[place].wrapping_add(1),
        4 => bytes.truncate(place),
        5 => {
            bytes.remove(place);
        }
        6 => {
            let byte = chance.byte();
            bytes.insert(place, byte);
        }
        7 => {
            for _ in 0..chance.between(1, 5) {
                bytes.push(chance.byte());
            }
        }
        8 => {
            let near_head = chance.below(bytes.len().min(7));
            bytes[near_head] = *chance.pick(&[0, 1, 2, 3, 7, 60, 61, 255]);
        }
        _ if chance.percent(50) => put_field(bytes, 2, &[0, 0, 1, 1, 2, 2, 3, 3]),
        _ => put_field(bytes, 7, &[2, 2]),
    }
}

fn garbage(chance: &mut Chance) -> Vec<u8> {
    let length = *chance.pick(&[0, 1, 2, 3, 4, 5, 8, 15, 40, 300]);
    let mut bytes: Vec<u8> = (0..length).map(|_| chance.byte()).collect();
    if chance.percent(50) {
        // With a first field that is in order, the garbage gets further.
        let mut headed = Vec::new();
        put_field(&mut headed, 1, &[chance.between(0, 62) as u8]);
        headed.append(&mut bytes);
        bytes = headed;
    }
    bytes
}

fn at_the_limits(chance: &mut Chance) -> Vec<u8> {
    match chance.below(7) {
        0 => floor_of_sixty(chance).bytes(),
        1 => {
            let row = long_row(chance.between(60, 62));
            let row = some_sizes(chance, row);
            restarted(chance, row).bytes()
        }
        2 => crowded_floor(chance).bytes(),
        3 => crowded_stars(chance),
        4 => one_long_star(chance),
        5 => long_shape(chance),
        _ => wrong_count(chance),
    }
}

fn floor_of_sixty(chance: &mut Chance) -> Job {
    let floor = floor_of(chance, MOST_ROOMS);
    let floor = some_sizes(chance, floor);
    restarted(chance, floor)
}

/// Like the row of the floor examples, of any length that one byte can count.
fn long_row(rooms: usize) -> Job {
    let last = rooms + 3;
    let star = |room: usize| {
        let left = if room == FIRST_ROOM { 1 } else { room - 1 };
        let right = if room == last { 3 } else { room + 1 };
        let pairs = [(0, 0), (left, 1), (2, 2), (right, 3)];
        pairs
            .map(|(neighbour, kind)| Entry { neighbour, kind })
            .to_vec()
    };
    Job::plain((FIRST_ROOM..=last).map(star).collect())
}

/// Sixty rooms and about 360 pairs, both sides in step: the limit itself, then tests 4 to 9.
fn crowded_floor(chance: &mut Chance) -> Job {
    let mut job = floor_of_sixty(chance);
    let wanted = chance.between(359, 362);
    for _ in 0..400 {
        if job.pairs() + 1 >= wanted {
            break;
        }
        add_contact(chance, &mut job);
    }
    if job.pairs() < wanted {
        change_frame(chance, &mut job);
    }
    job
}

/// 359 to 362 pairs that are no stars at all.
fn crowded_stars(chance: &mut Chance) -> Vec<u8> {
    let rooms = chance.between(1, MOST_ROOMS);
    let mut job = Job::plain(vec![Vec::new(); rooms]);
    for _ in 0..chance.between(359, 362) {
        let neighbour = chance.below(job.vertices());
        let kind = chance.below(4) as u8;
        let star = chance.below(rooms);
        job.stars[star].push(Entry { neighbour, kind });
    }
    some_sizes(chance, job).bytes()
}

/// A star round and round, from any start, whose length needs both bytes, up to the longest that the stream of calls can carry.
fn one_long_star(chance: &mut Chance) -> Vec<u8> {
    let length = *chance.pick(&[254, 255, 256, 258, 720, 721, 722, 2_000, 30_001, 65_000]);
    let mut bytes = Vec::new();
    put_field(&mut bytes, 1, &[1]);
    let value: Vec<u8> = [0, 0, 1, 1, 2, 2, 3, 3]
        .into_iter()
        .cycle()
        .skip(2 * chance.below(4))
        .take(length)
        .collect();
    put_field(&mut bytes, 2, &value);
    bytes
}

/// Heads that promise more, or less, than there is.
fn long_shape(chance: &mut Chance) -> Vec<u8> {
    let mut bytes = finished_floor(chance).bytes();
    let wanted = *chance.pick(&[904, 905, 1_027, 1_028, 2_048, 8_191, 8_192, 8_193, 40_000]);
    while bytes.len() < wanted {
        bytes.push(chance.byte());
    }
    bytes
}

fn wrong_count(chance: &mut Chance) -> Vec<u8> {
    let mut bytes = finished_floor(chance).bytes();
    bytes[3] = match chance.below(4) {
        0 => 0,
        1 => bytes[3].wrapping_sub(1),
        2 => bytes[3] + 1,
        _ => chance.byte(),
    };
    bytes
}
