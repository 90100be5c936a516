//! A job: its bytes, tests 1 to 6, which look at nothing but the stars, and test 17 of the sizes.

use crate::fields::{put_field, Reader};
use crate::{opposite, refusal, Refusal, EAST, FIRST_ROOM};

const TAG_ROOM_COUNT: u8 = 1;
const TAG_STAR: u8 = 2;
const TAG_SIZES: u8 = 7;
const MOST_ROOMS: usize = 60;
const MOST_PAIRS: usize = 360;
const LARGEST_SIZE: usize = 15;

/// One pair of a star.
#[derive(Clone, Copy, Debug, PartialEq, Eq)]
pub struct Entry {
    pub neighbour: usize,
    pub kind: u8,
}

pub type Star = Vec<Entry>;

/// The least width and the least height of a room.
#[derive(Clone, Copy, Debug, PartialEq, Eq)]
pub struct Size {
    pub width: usize,
    pub height: usize,
}

/// What a room has that is sent no size.
pub const ONE_CELL: Size = Size {
    width: 1,
    height: 1,
};

/// The stars of rooms 4, 5 and so on, and the sizes of the same rooms where they were sent.
#[derive(Clone, Debug, PartialEq, Eq)]
pub struct Job {
    pub stars: Vec<Star>,
    pub sizes: Option<Vec<Size>>,
}

impl Job {
    /// A job without the field of sizes: 1 throughout.
    pub fn plain(stars: Vec<Star>) -> Job {
        Job { stars, sizes: None }
    }

    pub fn rooms(&self) -> std::ops::Range<usize> {
        FIRST_ROOM..self.vertices()
    }

    /// Frame sides and rooms together: one more than the largest vertex number.
    pub fn vertices(&self) -> usize {
        FIRST_ROOM + self.stars.len()
    }

    pub fn is_room(&self, number: usize) -> bool {
        self.rooms().contains(&number)
    }

    pub fn star_of(&self, room: usize) -> &Star {
        &self.stars[room - FIRST_ROOM]
    }

    pub fn star_of_mut(&mut self, room: usize) -> &mut Star {
        &mut self.stars[room - FIRST_ROOM]
    }

    pub fn size_of(&self, room: usize) -> Size {
        let sent = self.sizes.as_ref();
        sent.map_or(ONE_CELL, |sizes| sizes[room - FIRST_ROOM])
    }

    /// The kind with which the room lists the neighbour, if it does.
    pub fn kind_of(&self, room: usize, neighbour: usize) -> Option<u8> {
        self.star_of(room)
            .iter()
            .find(|entry| entry.neighbour == neighbour)
            .map(|entry| entry.kind)
    }

    /// A frame side has no star, so its contacts are read from the rooms' stars.
    pub fn joins(&self, a: usize, b: usize) -> bool {
        (self.is_room(a) && self.kind_of(a, b).is_some())
            || (self.is_room(b) && self.kind_of(b, a).is_some())
    }

    pub fn pairs(&self) -> usize {
        self.stars.iter().map(Vec::len).sum()
    }

    /// The job's bytes, with the field of sizes where they were sent. Neighbour numbers and sizes must fit one byte.
    pub fn bytes(&self) -> Vec<u8> {
        let mut out = Vec::new();
        put_field(&mut out, TAG_ROOM_COUNT, &[self.stars.len() as u8]);
        for star in &self.stars {
            let value: Vec<u8> = star
                .iter()
                .flat_map(|entry| [entry.neighbour as u8, entry.kind])
                .collect();
            put_field(&mut out, TAG_STAR, &value);
        }
        if let Some(sizes) = &self.sizes {
            let value: Vec<u8> = sizes
                .iter()
                .flat_map(|size| [size.width as u8, size.height as u8])
                .collect();
            put_field(&mut out, TAG_SIZES, &value);
        }
        out
    }
}

/// The values of a job's fields behind the first, each the very bytes of the job.
#[derive(Clone, Debug, PartialEq, Eq)]
pub struct Values<'a> {
    pub stars: Vec<&'a [u8]>,
    pub sizes: Option<&'a [u8]>,
}

/// Tests 1 and 2: the fields of the stars, and behind them at most one of the sizes.
pub fn values(bytes: &[u8]) -> Result<Values<'_>, Refusal> {
    let mut reader = Reader::new(bytes);
    let count = room_count(&mut reader)?;
    if count == 0 || count > MOST_ROOMS {
        return Err(refusal::ROOM_COUNT);
    }
    let mut stars = Vec::new();
    for _ in 0..count {
        stars.push(star_value(&mut reader)?);
    }
    let sizes = if reader.at_end() {
        None
    } else {
        Some(size_value(&mut reader, count)?)
    };
    if !reader.at_end() {
        return Err(refusal::BYTES);
    }
    Ok(Values { stars, sizes })
}

fn room_count(reader: &mut Reader) -> Result<usize, Refusal> {
    let field = reader.next_field().ok_or(refusal::BYTES)?;
    if field.tag != TAG_ROOM_COUNT || field.value.len() != 1 {
        return Err(refusal::BYTES);
    }
    Ok(usize::from(field.value[0]))
}

fn star_value<'a>(reader: &mut Reader<'a>) -> Result<&'a [u8], Refusal> {
    let field = reader.next_field().ok_or(refusal::BYTES)?;
    if field.tag != TAG_STAR || field.value.len() % 2 != 0 {
        return Err(refusal::BYTES);
    }
    Ok(field.value)
}

/// Two bytes for each room.
fn size_value<'a>(reader: &mut Reader<'a>, rooms: usize) -> Result<&'a [u8], Refusal> {
    let field = reader.next_field().ok_or(refusal::BYTES)?;
    if field.tag != TAG_SIZES || field.value.len() != 2 * rooms {
        return Err(refusal::BYTES);
    }
    Ok(field.value)
}

/// The star question: the bytes of one room's star, empty where tests 1 or 2 fail or there is no such room.
pub fn star(bytes: &[u8], room: usize) -> &[u8] {
    let Ok(values) = values(bytes) else {
        return &[];
    };
    room.checked_sub(FIRST_ROOM)
        .and_then(|place| values.stars.get(place).copied())
        .unwrap_or(&[])
}

/// Tests 1 to 6 and 17, each over the entire job before the next.
pub fn read(bytes: &[u8]) -> Result<Job, Refusal> {
    let job = read_by(bytes, star_is_fit)?;
    if !sizes_are_fit(&job) {
        return Err(refusal::BAD_SIZE);
    }
    Ok(job)
}

/// Tests 1 to 3: a job that can be held, whatever its stars say.
pub fn hold(bytes: &[u8]) -> Result<Job, Refusal> {
    let values = values(bytes)?;
    let job = Job {
        stars: values.stars.into_iter().map(entries).collect(),
        sizes: values.sizes.map(sizes),
    };
    if job.pairs() > MOST_PAIRS {
        return Err(refusal::PAIR_COUNT);
    }
    Ok(job)
}

/// Tests 1 to 6 with another test 5 of a star, which the comparison's planners with a slip bring along.
pub fn read_by(bytes: &[u8], star_is_fit: impl Fn(&Star) -> bool) -> Result<Job, Refusal> {
    let job = hold(bytes)?;
    if !job.rooms().all(|room| entries_are_fit(&job, room)) {
        return Err(refusal::BAD_ENTRY);
    }
    if !job.stars.iter().all(star_is_fit) {
        return Err(refusal::BAD_STAR);
    }
    if !job.rooms().all(|room| neighbours_agree(&job, room)) {
        return Err(refusal::CONTRADICTION);
    }
    Ok(job)
}

fn entries(value: &[u8]) -> Star {
    value
        .chunks_exact(2)
        .map(|pair| Entry {
            neighbour: usize::from(pair[0]),
            kind: pair[1],
        })
        .collect()
}

fn sizes(value: &[u8]) -> Vec<Size> {
    value
        .chunks_exact(2)
        .map(|pair| Size {
            width: usize::from(pair[0]),
            height: usize::from(pair[1]),
        })
        .collect()
}

/// Test 4, one room.
fn entries_are_fit(job: &Job, room: usize) -> bool {
    job.star_of(room).iter().all(|entry| {
        let known = entry.neighbour < job.vertices() && entry.neighbour != room;
        // A frame side's number is the number of its one allowed kind.
        let frame_fits = entry.neighbour > EAST || usize::from(entry.kind) == entry.neighbour;
        known && entry.kind <= 3 && frame_fits
    })
}

/// Once round the star, back to the start: each entry with the one that follows it.
pub fn round(star: &[Entry]) -> impl Iterator<Item = (&Entry, &Entry)> {
    star.iter().zip(star.iter().cycle().skip(1))
}

/// The changes of kind once round the star, each as the kind before it and the kind behind it.
pub fn changes(star: &[Entry]) -> Vec<(u8, u8)> {
    round(star)
        .map(|(entry, next)| (entry.kind, next.kind))
        .filter(|(kind, next)| kind != next)
        .collect()
}

/// A change of 0 to 1, 1 to 2, 2 to 3 or 3 to 0.
pub fn goes_on(change: &(u8, u8)) -> bool {
    [(0, 1), (1, 2), (2, 3), (3, 0)].contains(change)
}

pub fn nobody_twice(star: &[Entry]) -> bool {
    star.iter().enumerate().all(|(place, entry)| {
        star[..place]
            .iter()
            .all(|earlier| earlier.neighbour != entry.neighbour)
    })
}

/// Test 5, one star. Four changes that all go on leave no kind out, wherever the star starts.
pub fn star_is_fit(star: &Star) -> bool {
    let changes = changes(star);
    changes.len() == 4 && changes.iter().all(goes_on) && nobody_twice(star)
}

/// Test 6, one room.
fn neighbours_agree(job: &Job, room: usize) -> bool {
    job.star_of(room)
        .iter()
        .filter(|entry| job.is_room(entry.neighbour))
        .all(|entry| job.kind_of(entry.neighbour, room) == Some(opposite(entry.kind)))
}

/// Test 17. Sizes that are all 1 are refused, so that a job has one writing.
pub fn sizes_are_fit(job: &Job) -> bool {
    let Some(sizes) = &job.sizes else {
        return true;
    };
    sizes.iter().all(size_is_fit) && sizes.iter().any(|&size| size != ONE_CELL)
}

fn size_is_fit(size: &Size) -> bool {
    [size.width, size.height]
        .iter()
        .all(|least| (1..=LARGEST_SIZE).contains(least))
}
