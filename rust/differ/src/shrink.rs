//! A difference made small: calls left out while it stays, then stars, entries, sizes and bytes of the jobs, then starts elsewhere.

use crate::batches::WRAPPER;
use crate::circle::{gap, list};
use crate::planner::{calls_text, LOAD, STAR};
use crate::programs::UnderTest;
use reference::fields::{put_field, Reader};
use reference::{totals, Board};

/// Enough to get small, and an end even if every try takes a second.
const MOST_TRIES: usize = 4_000;
/// So many pairs a job may have.
const MOST_PAIRS: usize = 360;
/// Of more wrapped jobs than these none is made smaller: each try would go over all of them.
const FEW_JOBS: usize = 8;

pub struct Shrinker<'a> {
    under_test: &'a UnderTest,
    both: fn(&UnderTest, &[Vec<u8>]) -> (String, String),
    tries: usize,
}

/// Both texts for a stream in pieces.
pub fn both_texts(under_test: &UnderTest, pieces: &[Vec<u8>]) -> (String, String) {
    let stream = pieces.concat();
    let expected = calls_text(&mut Board::empty(), &stream);
    (expected, under_test.calls(&stream))
}

/// Both texts for a batch in pieces.
pub fn both_totals(under_test: &UnderTest, pieces: &[Vec<u8>]) -> (String, String) {
    let stream = pieces.concat();
    (totals::text(&stream), under_test.totals(&stream))
}

/// The number of the first line that differs.
pub fn first_difference(expected: &str, found: &str) -> usize {
    let same = expected
        .lines()
        .zip(found.lines())
        .take_while(|(a, b)| a == b);
    same.count()
}

impl<'a> Shrinker<'a> {
    pub fn new(under_test: &'a UnderTest) -> Self {
        Shrinker {
            under_test,
            both: both_texts,
            tries: 0,
        }
    }

    /// A batch of wrapped jobs made small.
    pub fn shrink_batch(under_test: &'a UnderTest, pieces: Vec<Vec<u8>>) -> Vec<Vec<u8>> {
        let mut shrinker = Shrinker {
            under_test,
            both: both_totals,
            tries: 0,
        };
        let pieces = shrinker.leave_out(pieces);
        if pieces.len() > FEW_JOBS {
            return pieces;
        }
        shrinker.shrink_jobs(pieces)
    }

    pub fn shrink(&mut self, pieces: Vec<Vec<u8>>) -> Vec<Vec<u8>> {
        let pieces = self.cut_behind(pieces);
        let pieces = self.leave_out(pieces);
        self.shrink_jobs(pieces)
    }

    fn differs(&mut self, pieces: &[Vec<u8>]) -> bool {
        self.tries += 1;
        if self.tries > MOST_TRIES {
            return false;
        }
        let (expected, found) = (self.both)(self.under_test, pieces);
        expected != found
    }

    /// Every call has one line, so what stands behind the first differing line is not needed.
    fn cut_behind(&mut self, pieces: Vec<Vec<u8>>) -> Vec<Vec<u8>> {
        let (expected, found) = both_texts(self.under_test, &pieces);
        let needed = (first_difference(&expected, &found) + 1).min(pieces.len());
        let front = pieces[..needed].to_vec();
        if self.differs(&front) {
            front
        } else {
            pieces
        }
    }

    fn leave_out(&mut self, mut pieces: Vec<Vec<u8>>) -> Vec<Vec<u8>> {
        let mut width = pieces.len().div_ceil(2);
        while width > 0 {
            let mut start = 0;
            while start < pieces.len() {
                let end = (start + width).min(pieces.len());
                let mut fewer = pieces.clone();
                fewer.drain(start..end);
                if self.differs(&fewer) {
                    pieces = fewer;
                } else {
                    start = end;
                }
            }
            width /= 2;
        }
        pieces
    }

    fn shrink_jobs(&mut self, mut pieces: Vec<Vec<u8>>) -> Vec<Vec<u8>> {
        let mut place = 0;
        while place < pieces.len() {
            let smaller = smaller_calls(&pieces[place]);
            let kept = smaller.into_iter().find(|call| {
                let mut changed = pieces.clone();
                changed[place] = call.clone();
                self.differs(&changed)
            });
            match kept {
                Some(call) => pieces[place] = call,
                None => place += 1,
            }
        }
        pieces
    }
}

/// Calls with a smaller job, best first; none for calls without a job.
fn smaller_calls(piece: &[u8]) -> Vec<Vec<u8>> {
    let front = match piece.first() {
        Some(&LOAD | &WRAPPER) => 3,
        Some(&STAR) if piece.len() >= 5 => 5,
        _ => return Vec::new(),
    };
    if piece.len() < front {
        return Vec::new();
    }
    smaller_jobs(&piece[front..])
        .into_iter()
        .map(|job| {
            let mut value = piece[3..front].to_vec();
            value.extend(job);
            let mut call = Vec::new();
            put_field(&mut call, piece[0], &value);
            call
        })
        .collect()
}

fn smaller_jobs(bytes: &[u8]) -> Vec<Vec<u8>> {
    let mut all = Vec::new();
    let job = Loose::read(bytes);
    for place in 0..job.stars.len() {
        all.push(job.without_room(place).bytes());
    }
    all.push(job.without_sizes().bytes());
    // A star longer than any job may have is cut in halves first, below.
    let few = |star: &&Vec<u8>| star.len() <= 2 * MOST_PAIRS;
    for (place, star) in job.stars.iter().enumerate().filter(|(_, star)| few(star)) {
        for pair in 0..star.len() / 2 {
            all.push(job.without_contact(place, pair).bytes());
            all.push(job.without_entry(place, pair).bytes());
        }
    }
    for length in [bytes.len() / 2, 16, 4, 1] {
        if length > 0 && length <= bytes.len() {
            all.push(bytes[..bytes.len() - length].to_vec());
            all.push(bytes[length..].to_vec());
        }
    }
    // A job that is not in order comes back changed from being read so; only what gets shorter is a step.
    all.retain(|job| job.len() < bytes.len());
    // As long as before, but with one start elsewhere fewer or a smaller size, so that this comes to an end too.
    let milder = job.straighter().chain(job.milder());
    all.extend(milder.filter(|job| job.len() == bytes.len()));
    all
}

/// A job as far as the bytes are fields at all.
#[derive(Clone)]
struct Loose {
    /// The values of the stars.
    stars: Vec<Vec<u8>>,
    /// The value of the sizes, where two bytes a room stand behind the stars.
    sizes: Option<Vec<u8>>,
    /// What is left over.
    rest: Vec<u8>,
}

impl Loose {
    fn read(bytes: &[u8]) -> Loose {
        let mut reader = Reader::new(bytes);
        let mut job = Loose {
            stars: Vec::new(),
            sizes: None,
            rest: Vec::new(),
        };
        let mut used = 0;
        while let Some(field) = reader.next_field() {
            match field.tag {
                1 if used == 0 => {}
                2 if used > 0 => job.stars.push(field.value.to_vec()),
                7 if used > 0 && field.value.len() == 2 * job.stars.len() => {
                    job.sizes = Some(field.value.to_vec());
                }
                _ => break,
            }
            used += 3 + field.value.len();
            if job.sizes.is_some() {
                break;
            }
        }
        job.rest = bytes[used..].to_vec();
        job
    }

    fn bytes(&self) -> Vec<u8> {
        let mut bytes = Vec::new();
        put_field(&mut bytes, 1, &[self.stars.len() as u8]);
        for star in &self.stars {
            put_field(&mut bytes, 2, star);
        }
        if let Some(sizes) = &self.sizes {
            put_field(&mut bytes, 7, sizes);
        }
        bytes.extend_from_slice(&self.rest);
        bytes
    }

    /// The room goes, with its size and with every mention of it; a kind that is then missing gets its frame side.
    fn without_room(&self, place: usize) -> Loose {
        let gone = place + 4;
        let mut fewer = self.clone();
        fewer.stars.remove(place);
        for star in &mut fewer.stars {
            let pairs = star.chunks_exact(2).filter(|p| usize::from(p[0]) != gone);
            let kept: Vec<[u8; 2]> = pairs
                .map(|p| [p[0] - u8::from(usize::from(p[0]) > gone), p[1]])
                .collect();
            *star = with_each_kind(kept);
        }
        if let Some(sizes) = &mut fewer.sizes {
            sizes.drain(2 * place..2 * place + 2);
        }
        fewer
    }

    fn without_sizes(&self) -> Loose {
        Loose {
            sizes: None,
            ..self.clone()
        }
    }

    fn without_entry(&self, place: usize, pair: usize) -> Loose {
        let mut fewer = self.clone();
        fewer.stars[place].drain(2 * pair..2 * pair + 2);
        fewer
    }

    fn without_contact(&self, place: usize, pair: usize) -> Loose {
        let neighbour = usize::from(self.stars[place][2 * pair]);
        let mut fewer = self.without_entry(place, pair);
        let other = neighbour.checked_sub(4);
        if let Some(other) = other.and_then(|other| fewer.stars.get_mut(other)) {
            *other = other
                .chunks_exact(2)
                .filter(|p| usize::from(p[0]) != place + 4)
                .flatten()
                .copied()
                .collect();
        }
        fewer
    }

    /// One star started with its first above-neighbour again, so that a start elsewhere that is left matters.
    fn straighter(&self) -> impl Iterator<Item = Vec<u8>> + '_ {
        let straightened = |(place, star): (usize, &Vec<u8>)| {
            let kinds: Vec<u8> = star.chunks_exact(2).map(|pair| pair[1]).collect();
            let (begin, _) = list(&kinds, 0)?;
            let mut straighter = self.clone();
            straighter.stars[place].rotate_left(2 * begin);
            (begin > 0 && star.len() % 2 == 0).then(|| straighter.bytes())
        };
        self.stars.iter().enumerate().filter_map(straightened)
    }

    /// One size made 1, or half of what it is.
    fn milder(&self) -> impl Iterator<Item = Vec<u8>> + '_ {
        let sizes = self.sizes.iter().flatten().copied().enumerate();
        let larger = sizes.filter(|(_, least)| *least > 1);
        larger.flat_map(|(place, least)| {
            [1, least / 2].map(|milder| {
                let mut job = self.clone();
                if let Some(sizes) = &mut job.sizes {
                    sizes[place] = milder;
                }
                job.bytes()
            })
        })
    }
}

fn with_each_kind(mut pairs: Vec<[u8; 2]>) -> Vec<u8> {
    for kind in 0..4 {
        let kinds: Vec<u8> = pairs.iter().map(|pair| pair[1]).collect();
        if !kinds.contains(&kind) {
            pairs.insert(gap(&kinds, kind), [kind, kind]);
        }
    }
    pairs.concat()
}
