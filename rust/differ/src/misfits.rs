//! Jobs whose sizes are not as they should be: numbers that are no sizes, which test 17 tells, and fields of another shape, which test 1 tells.

use crate::damage::{damaged_job, finished_floor};
use floors::{sized, Chance, LARGEST_SIZE};
use reference::fields::put_field;
use reference::job::{Job, Size, ONE_CELL};

/// The tag of the sizes.
const SIZES: u8 = 7;

/// Sizes put in or taken away, all ones, numbers outside 1 to 15, or widths and heights exchanged.
pub fn change_sizes(chance: &mut Chance, job: &mut Job) {
    let rooms = job.stars.len();
    match (&mut job.sizes, chance.below(10)) {
        (_, 0..=2) => job.sizes = Some(vec![ONE_CELL; rooms]),
        (None, _) => *job = sized(chance, job.clone()),
        (Some(_), 3) => job.sizes = None,
        (Some(sizes), 4) => sizes.iter_mut().for_each(exchange),
        (Some(sizes), 5) => exchange(&mut sizes[chance.below(rooms)]),
        (Some(sizes), _) => {
            for _ in 0..*chance.pick(&[1, 1, 1, 2]) {
                let room = chance.below(rooms);
                put_outside(chance, &mut sizes[room]);
            }
        }
    }
}

fn exchange(size: &mut Size) {
    *size = Size {
        width: size.height,
        height: size.width,
    };
}

/// One of the two is no size.
fn put_outside(chance: &mut Chance, size: &mut Size) {
    let any = usize::from(chance.byte());
    let outside = *chance.pick(&[0, 0, LARGEST_SIZE + 1, LARGEST_SIZE + 1, 17, 31, 255, any]);
    if chance.percent(50) {
        size.width = outside;
    } else {
        size.height = outside;
    }
}

/// A job with sizes, cut up.
struct Parts {
    /// The first field, the stars, and the sizes as (tag, value).
    fields: Vec<(u8, Vec<u8>)>,
}

impl Parts {
    fn of(job: &Job) -> Parts {
        let mut fields = vec![(1, vec![job.stars.len() as u8])];
        for star in &job.stars {
            let pairs = star.iter().flat_map(|e| [e.neighbour as u8, e.kind]);
            fields.push((2, pairs.collect()));
        }
        let sizes = job.sizes.iter().flatten();
        let value = sizes.flat_map(|size| [size.width as u8, size.height as u8]);
        fields.push((SIZES, value.collect()));
        Parts { fields }
    }

    fn sizes(&mut self) -> &mut (u8, Vec<u8>) {
        self.fields.last_mut().expect("the sizes come last")
    }

    fn bytes(&self) -> Vec<u8> {
        let mut bytes = Vec::new();
        for (tag, value) in &self.fields {
            put_field(&mut bytes, *tag, value);
        }
        bytes
    }
}

/// A job whose field of sizes is all ones or has a number outside, another tag, another length, another place, stands twice, or has something behind it.
pub fn misfit(chance: &mut Chance) -> Vec<u8> {
    let mut job = if chance.percent(75) {
        finished_floor(chance)
    } else {
        damaged_job(chance)
    };
    if job.stars.is_empty() || job.sizes.is_none() {
        job = finished_floor(chance);
        job = sized(chance, job);
    }
    let case = chance.below(16);
    if case < 4 {
        change_sizes(chance, &mut job);
        return job.bytes();
    }
    let mut parts = Parts::of(&job);
    match case {
        4..=5 => other_tag(chance, &mut parts),
        6..=7 => shorter(chance, &mut parts),
        8..=9 => longer(chance, &mut parts),
        10..=11 => twice(chance, &mut parts),
        12..=13 => misplaced(chance, &mut parts),
        14 => something_behind(chance, &mut parts),
        _ => return other_length(chance, &parts),
    }
    parts.bytes()
}

fn other_tag(chance: &mut Chance, parts: &mut Parts) {
    let any = chance.byte();
    parts.sizes().0 = *chance.pick(&[0, 1, 2, 3, 4, 5, 6, 8, 9, 17, 71, SIZES + 128, any]);
}

fn shorter(chance: &mut Chance, parts: &mut Parts) {
    let less = *chance.pick(&[1, 2, 2, 3, 4, 120]);
    let value = &mut parts.sizes().1;
    value.truncate(value.len().saturating_sub(less));
}

/// Also twice as long as two bytes a room.
fn longer(chance: &mut Chance, parts: &mut Parts) {
    let value = &mut parts.sizes().1;
    let more = *chance.pick(&[1, 2, 2, 3, 4, 256, value.len()]);
    value.extend((0..more).map(|_| chance.between(1, 3) as u8));
}

/// The same once more, or another.
fn twice(chance: &mut Chance, parts: &mut Parts) {
    let mut again = parts.sizes().clone();
    if chance.percent(50) {
        again.1.iter_mut().for_each(|least| *least = 2);
    }
    parts.fields.push(again);
}

/// In front of all, in front of the stars, or among them.
fn misplaced(chance: &mut Chance, parts: &mut Parts) {
    let sizes = parts.fields.pop().expect("the sizes come last");
    let last = parts.fields.len() - 1;
    let place = match chance.below(4) {
        0 => 0,
        1 => 1,
        2 => last,
        _ => chance.between(0, last),
    };
    parts.fields.insert(place, sizes);
}

fn something_behind(chance: &mut Chance, parts: &mut Parts) {
    let behind = match chance.below(3) {
        0 => (chance.byte(), Vec::new()),
        1 => parts.fields[1].clone(),
        _ => parts.fields[0].clone(),
    };
    parts.fields.push(behind);
}

/// The length that the field says is not the length it has.
fn other_length(chance: &mut Chance, parts: &Parts) -> Vec<u8> {
    let mut bytes = parts.bytes();
    let value = parts.fields.last().map_or(0, |sizes| sizes.1.len());
    let low = bytes.len() - value - 1;
    match chance.below(4) {
        0 => bytes[low - 1] = *chance.pick(&[1, 2, 255]),
        1 => bytes[low] = bytes[low].wrapping_add(1),
        2 => bytes[low] = bytes[low].wrapping_sub(1),
        _ => bytes[low] = bytes[low].wrapping_add(2),
    }
    bytes
}

#[cfg(test)]
mod tests {
    use super::misfit;
    use floors::Chance;
    use reference::{Board, Refusal};

    /// Most are told by 1 or by 17, each many times.
    #[test]
    fn misfits_are_refused() {
        let mut chance = Chance::new(9);
        let (mut shape, mut numbers) = (0, 0);
        for _ in 0..1_000 {
            match Board::empty().load(&misfit(&mut chance)) {
                Err(Refusal(1)) => shape += 1,
                Err(Refusal(17)) => numbers += 1,
                _ => {}
            }
        }
        assert!(shape >= 500, "{shape} by 1");
        assert!(numbers >= 80, "{numbers} by 17");
    }
}
