//! Least sizes for the rooms of a job: mild ones mostly, and some that make a sheet as large as it may be, or larger.

use crate::chance::Chance;
use reference::drawing::place;
use reference::job::{Job, Size, ONE_CELL};
use reference::walls::number_walls;

/// What a room may ask for.
pub const LARGEST_SIZE: usize = 15;
/// What a sheet may measure.
pub const LARGEST_SHEET: usize = 250;

/// A third of the jobs get sizes.
pub fn some_sizes(chance: &mut Chance, job: Job) -> Job {
    if chance.below(3) == 0 {
        sized(chance, job)
    } else {
        job
    }
}

/// The job with sizes that pass test 17.
pub fn sized(chance: &mut Chance, job: Job) -> Job {
    let rooms = job.stars.len();
    let reaches_the_limit = rooms * LARGEST_SIZE >= LARGEST_SHEET;
    let sizes = match chance.below(if reaches_the_limit { 27 } else { 18 }) {
        0..=10 => up_to(chance, rooms, 4, 4),
        11..=12 => up_to(chance, rooms, 4, 1),
        13..=14 => up_to(chance, rooms, 1, 4),
        15..=16 => up_to(chance, rooms, LARGEST_SIZE, LARGEST_SIZE),
        17..=20 => large(chance, rooms),
        _ => return near_the_limit(chance, job),
    };
    with(chance, job, sizes)
}

/// The job with sizes that mostly make a sheet of many rooms too large.
pub fn oversized(chance: &mut Chance, job: Job) -> Job {
    let sizes = large(chance, job.stars.len());
    with(chance, job, sizes)
}

/// Sizes that are all 1 are none: some room then gets one that is larger.
fn with(chance: &mut Chance, mut job: Job, mut sizes: Vec<Size>) -> Job {
    if sizes.iter().all(|&size| size == ONE_CELL) {
        let least = chance.between(2, 4);
        let larger = chance.below(sizes.len());
        if chance.percent(50) {
            sizes[larger].width = least;
        } else {
            sizes[larger].height = least;
        }
    }
    job.sizes = Some(sizes);
    job
}

/// A few rooms, some, or all ask for something.
fn up_to(chance: &mut Chance, rooms: usize, width: usize, height: usize) -> Vec<Size> {
    let share = *chance.pick(&[15, 50, 100]);
    (0..rooms)
        .map(|_| {
            if !chance.percent(share) {
                return ONE_CELL;
            }
            Size {
                width: chance.between(1, width),
                height: chance.between(1, height),
            }
        })
        .collect()
}

/// All rooms ask for much, one way or both.
fn large(chance: &mut Chance, rooms: usize) -> Vec<Size> {
    let (wide, high) = *chance.pick(&[(true, false), (false, true), (true, true)]);
    let mut least = |much: bool| {
        if much {
            chance.between(11, LARGEST_SIZE)
        } else {
            1
        }
    };
    (0..rooms)
        .map(|_| Size {
            width: least(wide),
            height: least(high),
        })
        .collect()
}

/// Large sizes made smaller, some at a time, until the sheet just fits, or is just too large; many stay below it.
fn near_the_limit(chance: &mut Chance, job: Job) -> Job {
    let mut job = oversized(chance, job);
    let most = *chance.pick(&[LARGEST_SHEET, LARGEST_SHEET, LARGEST_SHEET + 1]);
    while let Some((wide, high)) = excess(&job, most) {
        let times = 1 + wide.max(high) / 12;
        let sizes = job.sizes.as_mut().expect("large sizes were put in");
        for _ in 0..times {
            let room = chance.below(sizes.len());
            let smaller = |least: usize, over: usize| least - usize::from(over > 0 && least > 1);
            sizes[room] = Size {
                width: smaller(sizes[room].width, wide),
                height: smaller(sizes[room].height, high),
            };
        }
    }
    job
}

/// How far the sheet is too wide and too high; nothing where it is neither, or has walls in a circle.
fn excess(job: &Job, most: usize) -> Option<(usize, usize)> {
    let plan = place(job, &number_walls(job).ok()?);
    let over = |length: usize| length.saturating_sub(most);
    let (wide, high) = (over(plan.width), over(plan.height));
    (wide + high > 0).then_some((wide, high))
}

#[cfg(test)]
mod tests {
    use super::{oversized, sized, some_sizes};
    use crate::floor::any_floor;
    use crate::Chance;
    use reference::drawing::draw;
    use reference::job::sizes_are_fit;
    use reference::Refusal;

    /// Every floor is drawn with any sizes, or its sheet is too large; all of it happens.
    #[test]
    fn sizes_pass_their_test_and_reach_the_limit() {
        let mut chance = Chance::new(3);
        let (mut largest, mut too_large) = (0, 0);
        for _ in 0..3_000 {
            let floor = any_floor(&mut chance);
            let job = sized(&mut chance, floor);
            assert!(sizes_are_fit(&job) && job.sizes.is_some());
            match draw(&job) {
                Ok(plan) => largest += usize::from(plan.width.max(plan.height) == 250),
                Err(refusal) => {
                    assert_eq!(refusal, Refusal(18));
                    too_large += 1;
                }
            }
        }
        assert!(largest >= 30, "{largest} sheets of 250");
        assert!(too_large >= 60, "{too_large} sheets too large");
    }

    #[test]
    fn a_third_of_the_jobs_have_sizes() {
        let mut chance = Chance::new(3);
        let mut with = 0;
        for _ in 0..3_000 {
            let floor = any_floor(&mut chance);
            with += usize::from(some_sizes(&mut chance, floor).sizes.is_some());
        }
        assert!((900..1_100).contains(&with), "{with} of 3,000");
    }

    #[test]
    fn many_rooms_that_ask_for_much_are_too_large() {
        let mut chance = Chance::new(3);
        let mut too_large = 0;
        for _ in 0..300 {
            let floor = crate::floor_of(&mut chance, 60);
            let refused = draw(&oversized(&mut chance, floor)) == Err(Refusal(18));
            too_large += usize::from(refused);
        }
        assert!(too_large >= 60, "{too_large} of 300");
    }
}
