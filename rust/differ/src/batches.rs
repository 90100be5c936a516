//! Batches of wrapped jobs for the season's totals (W12): none to 201 of every sort, and wrappers that are broken. The sorts come in turn, so that as many
//! batches as there are sorts have each of them.

use crate::damage::{any_job, finished_floor};
use floors::{floor_of, renumbered, restarted, sized, Chance};
use reference::fields::put_field;
use reference::job::Job;
use reference::totals::{FIGURES, REFUSALS};
use reference::{Board, Refusal};

pub const WRAPPER: u8 = 9;
pub const MOST_JOBS: usize = 200;
/// The longest job that a wrapper holds.
const LONGEST: usize = 65_535;

/// What a batch is made of. Where something is broken, it is that one thing.
#[derive(Clone, Copy, Debug, PartialEq, Eq)]
pub enum Sort {
    NoJobs,
    OneJob,
    /// One job for each refusal, and accepted ones with sizes and without.
    EachRefusal,
    Few,
    Many,
    TwoHundred,
    OneTooMany,
    AcceptedOnly,
    RefusedOnly,
    /// Sheets near the limit, two hundred of them: sums past what two bytes hold.
    LargeSheets,
    /// Jobs of 65,535 bytes among others.
    Longest,
    /// Empty jobs among others.
    Empty,
    /// The tag of one wrapper is another.
    OtherTag,
    /// Cut inside the last job.
    CutInValue,
    /// Cut inside the head of one wrapper more.
    CutInHead,
    /// One byte behind the last wrapper.
    ByteBehind,
    /// The last wrapper says that it is longer than it is.
    TooLong,
    /// The length of some wrapper is off, so that what follows is read at a wrong place.
    LengthOff,
    /// A job that is in no wrapper.
    Unwrapped,
}

pub const SORTS: [Sort; 19] = [
    Sort::NoJobs,
    Sort::OneJob,
    Sort::EachRefusal,
    Sort::Few,
    Sort::Many,
    Sort::TwoHundred,
    Sort::OneTooMany,
    Sort::AcceptedOnly,
    Sort::RefusedOnly,
    Sort::LargeSheets,
    Sort::Longest,
    Sort::Empty,
    Sort::OtherTag,
    Sort::CutInValue,
    Sort::CutInHead,
    Sort::ByteBehind,
    Sort::TooLong,
    Sort::LengthOff,
    Sort::Unwrapped,
];

/// A batch in pieces: wrapped jobs, and perhaps one piece that breaks it.
pub struct Batch {
    pub sort: Sort,
    pub pieces: Vec<Vec<u8>>,
}

/// The batch of a round.
pub fn batch_of(chance: &mut Chance, round: usize) -> Batch {
    let sort = SORTS[round % SORTS.len()];
    let jobs = jobs_of(chance, sort);
    let mut pieces: Vec<Vec<u8>> = jobs.iter().map(|job| wrapped(job)).collect();
    break_one(chance, sort, &mut pieces);
    Batch { sort, pieces }
}

fn wrapped(job: &[u8]) -> Vec<u8> {
    let mut piece = Vec::new();
    put_field(&mut piece, WRAPPER, job);
    piece
}

fn jobs_of(chance: &mut Chance, sort: Sort) -> Vec<Vec<u8>> {
    let few = chance.between(2, 12);
    let some = |chance: &mut Chance, many: usize| -> Vec<Vec<u8>> {
        (0..many).map(|_| season_job(chance)).collect()
    };
    match sort {
        Sort::NoJobs => Vec::new(),
        Sort::OneJob => some(chance, 1),
        Sort::EachRefusal => one_for_each(chance),
        Sort::Few => some(chance, few),
        Sort::Many => {
            let many = chance.between(13, MOST_JOBS - 1);
            some(chance, many)
        }
        Sort::TwoHundred => some(chance, MOST_JOBS),
        Sort::OneTooMany => some(chance, MOST_JOBS + 1),
        Sort::AcceptedOnly => {
            let many = chance.between(1, MOST_JOBS);
            (0..many).map(|_| accepted(chance, None)).collect()
        }
        Sort::RefusedOnly => (0..few)
            .map(|_| {
                let number = *chance.pick(&REFUSALS);
                fallen_to(chance, number)
            })
            .collect(),
        Sort::LargeSheets => {
            // Making one takes the reference a while: a few are wrapped again and again.
            let large: Vec<Vec<u8>> = (0..5).map(|_| large_sheet(chance)).collect();
            (0..MOST_JOBS)
                .map(|_| chance.pick(&large).clone())
                .collect()
        }
        Sort::Longest => {
            let mut jobs = some(chance, few);
            for number in [1, 2, 3] {
                jobs.insert(chance.below(jobs.len() + 1), longest(chance, number));
            }
            jobs
        }
        Sort::Empty => {
            let mut jobs = some(chance, few);
            for _ in 0..few {
                jobs.insert(chance.below(jobs.len() + 1), Vec::new());
            }
            jobs
        }
        // Where the last wrapper is cut there has to be something to cut.
        _ => {
            let mut jobs = some(chance, few);
            jobs.push(finished_floor(chance).bytes());
            jobs
        }
    }
}

/// A third are floors as they are.
fn season_job(chance: &mut Chance) -> Vec<u8> {
    if chance.percent(33) {
        finished_floor(chance).bytes()
    } else {
        any_job(chance)
    }
}

fn loaded(job: &[u8]) -> Result<(usize, usize), Refusal> {
    Board::empty().load(job)
}

/// A job that falls to this refusal.
fn fallen_to(chance: &mut Chance, number: u8) -> Vec<u8> {
    loop {
        let job = season_job(chance);
        if loaded(&job) == Err(Refusal(number)) {
            return job;
        }
    }
}

/// A floor that is accepted, with sizes or without where that is asked.
fn accepted(chance: &mut Chance, with_sizes: Option<bool>) -> Vec<u8> {
    loop {
        let job = finished_floor(chance);
        let with = job.sizes.is_some();
        if with_sizes.unwrap_or(with) == with && loaded(&job.bytes()).is_ok() {
            return job.bytes();
        }
    }
}

/// Each refusal, up to three times so that lines differ, and an accepted one with sizes and without, in any order.
fn one_for_each(chance: &mut Chance) -> Vec<Vec<u8>> {
    let mut jobs = vec![accepted(chance, Some(true)), accepted(chance, Some(false))];
    for number in REFUSALS {
        for _ in 0..chance.between(1, 3) {
            jobs.push(fallen_to(chance, number));
        }
    }
    chance.shuffle(&mut jobs);
    jobs
}

/// A floor of many rooms that ask for much, and still fit.
fn large_sheet(chance: &mut Chance) -> Vec<u8> {
    loop {
        let floor = floor_of(chance, 40);
        let job: Job = sized(chance, floor);
        let large = loaded(&job.bytes()).is_ok_and(|(width, height)| width * height > 2_000);
        if large {
            let job = renumbered(chance, &job);
            return restarted(chance, job).bytes();
        }
    }
}

/// The longest job that a wrapper holds, which falls to 1 by what is left over, to 2 by its number of rooms, or to 3 by its pairs.
fn longest(chance: &mut Chance, number: u8) -> Vec<u8> {
    let mut job = match number {
        1 => accepted(chance, None),
        2 => vec![1, 0, 1, *chance.pick(&[0, 61, 255])],
        _ => {
            let mut front = vec![1, 0, 1, 1, 2];
            front.extend((LONGEST as u16 - 7).to_be_bytes());
            front
        }
    };
    job.resize(LONGEST, chance.byte());
    assert_eq!(loaded(&job), Err(Refusal(number)));
    job
}

/// What the sort says is wrong, done to the pieces.
fn break_one(chance: &mut Chance, sort: Sort, pieces: &mut Vec<Vec<u8>>) {
    let some = chance.below(pieces.len().max(1));
    let last = pieces.len().saturating_sub(1);
    match sort {
        Sort::OtherTag => pieces[some][0] = *chance.pick(&[0, 1, 8, 10, 73, 255]),
        Sort::CutInValue => {
            let length = chance.between(3, pieces[last].len() - 1);
            pieces[last].truncate(length);
        }
        Sort::CutInHead => pieces.push([WRAPPER, 0][..chance.between(1, 2)].to_vec()),
        Sort::ByteBehind => pieces.push(vec![chance.byte()]),
        Sort::TooLong => {
            let more = chance.between(1, 300) as u16;
            put_length(&mut pieces[last], |length| length.saturating_add(more));
        }
        Sort::LengthOff => {
            let off = chance.between(1, 20) as u16;
            let longer = chance.percent(50);
            put_length(&mut pieces[some], |length| match longer {
                true => length.saturating_add(off),
                false => length.saturating_sub(off),
            });
        }
        Sort::Unwrapped => pieces[some] = finished_floor(chance).bytes(),
        _ => {}
    }
}

fn put_length(piece: &mut [u8], changed: impl Fn(u16) -> u16) {
    let length = u16::from_be_bytes([piece[1], piece[2]]);
    piece[1..3].copy_from_slice(&changed(length).to_be_bytes());
}

/// What came of the batches.
#[derive(Default)]
pub struct Tally {
    sorts: [u64; SORTS.len()],
    told: u64,
    refused: u64,
    jobs: u64,
    /// In how many batches each figure was more than nought.
    nonzero: [u64; FIGURES],
}

impl Tally {
    /// A batch with the text that the reference gives for it.
    pub fn count(&mut self, batch: &Batch, text: &str) {
        let place = SORTS.iter().position(|&sort| sort == batch.sort);
        self.sorts[place.expect("every sort is listed")] += 1;
        if text.starts_with("refused") {
            self.refused += 1;
            return;
        }
        self.told += 1;
        self.jobs += batch.pieces.len() as u64;
        for (count, line) in self.nonzero.iter_mut().zip(text.lines()) {
            *count += u64::from(line != "0");
        }
    }

    pub fn batches(&self) -> u64 {
        self.told + self.refused
    }

    /// What did not come up: a sort, a figure more than nought, an answer.
    pub fn never(&self) -> Vec<String> {
        let sorts = SORTS.iter().zip(self.sorts);
        let sorts = sorts.map(|(sort, count)| (format!("{sort:?}"), count));
        let figures = figure_names().into_iter().zip(self.nonzero);
        let answers = [("told", self.told), ("refused 19", self.refused)];
        let answers = answers.map(|(name, count)| (name.to_string(), count));
        let all = sorts.chain(figures).chain(answers);
        all.filter(|(_, count)| *count == 0)
            .map(|(name, _)| name)
            .collect()
    }

    /// Whether something is missing though there were as many batches as there are sorts.
    pub fn lacks(&self) -> bool {
        self.batches() >= SORTS.len() as u64 && !self.never().is_empty()
    }

    pub fn in_words(&self) -> String {
        let figures: Vec<String> = figure_names()
            .into_iter()
            .zip(self.nonzero)
            .map(|(name, count)| format!("{name} in {count}"))
            .collect();
        format!(
            "{} told, with {} jobs, {} refused 19; more than 0: {}",
            self.told,
            self.jobs,
            self.refused,
            figures.join(", ")
        )
    }
}

fn figure_names() -> Vec<String> {
    let mut names = vec!["accepted".to_string()];
    names.extend(REFUSALS.iter().map(|number| format!("refused {number}")));
    let sums = [
        "widths",
        "heights",
        "room cells",
        "frame cells",
        "sheet cells",
    ];
    names.extend(sums.map(str::to_string));
    names
}
