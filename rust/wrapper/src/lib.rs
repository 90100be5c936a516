//! The zone planner for Rust programs: safe functions over the proved static library. No state is kept between two calls.
//!
//! `plan_into`, `walls_into`, `cuts_into`, `turned_into` and `star_into` write to a lent buffer and tell the length, `narrowed_into` how many turns it made,
//! `totals_into` how many figures: the front is filled, what lies behind stays as it was, and a refusal leaves every byte. `plan`, `walls`, `cuts`, `turned`,
//! `narrowed`, `star` and `totals` bring a buffer that always suffices.

/// The number of a refusal, 1 to 19; 8 is not used.
#[derive(Clone, Copy, Debug, PartialEq, Eq)]
pub struct Refusal(pub u8);

/// A wall that two vertices share: the side on which the second stands, seen from the first (0 above, 1 left, 2 below, 3 right), and its length.
#[derive(Clone, Copy, Debug, PartialEq, Eq)]
pub struct Touch {
    pub side: u8,
    pub length: usize,
}

/// No plan is longer: a sheet and 64 rectangles.
pub const PLAN_MOST: usize = 5 + 64 * 8;

/// No list of walls is longer: 60 rooms have 63 walls.
pub const WALLS_MOST: usize = 63 * 8;

/// No tree of cuts is longer: 60 rooms and 59 cuts.
pub const CUTS_MOST: usize = 60 * 4 + 59 * 5;

/// No accepted job is longer: 60 stars of 360 pairs, and 60 least sizes.
pub const JOB_MOST: usize = 4 + 60 * 3 + 360 * 2 + 3 + 60 * 2;

/// From here on an answer is no refusal.
const FIRST_VALUE: usize = 256;

/// The functions as the library has them: a slice is a pointer and a length.
mod library {
    extern "C" {
        pub fn tirunoiwa_plan(
            job: *const u8,
            job_length: usize,
            out: *mut u8,
            out_length: usize,
        ) -> usize;

        pub fn tirunoiwa_walls(
            job: *const u8,
            job_length: usize,
            out: *mut u8,
            out_length: usize,
        ) -> usize;

        pub fn tirunoiwa_cuts(
            job: *const u8,
            job_length: usize,
            out: *mut u8,
            out_length: usize,
        ) -> usize;

        pub fn tirunoiwa_turned(
            job: *const u8,
            job_length: usize,
            u: usize,
            v: usize,
            out: *mut u8,
            out_length: usize,
        ) -> usize;

        pub fn tirunoiwa_narrow(
            job: *const u8,
            job_length: usize,
            out: *mut u8,
            out_length: usize,
        ) -> usize;

        pub fn tirunoiwa_star(
            job: *const u8,
            job_length: usize,
            room: usize,
            out: *mut u8,
            out_length: usize,
        ) -> usize;

        pub fn tirunoiwa_check(
            job: *const u8,
            job_length: usize,
            plan: *const u8,
            plan_length: usize,
        ) -> usize;

        pub fn tirunoiwa_touch(job: *const u8, job_length: usize, u: usize, v: usize) -> usize;

        pub fn tirunoiwa_totals(
            jobs: *const u8,
            jobs_length: usize,
            figures: *mut u64,
            figures_length: usize,
        ) -> usize;
    }
}

/// The plan of a job.
pub fn plan(job: &[u8]) -> Result<Vec<u8>, Refusal> {
    written(PLAN_MOST, |out| plan_into(job, out))
}

/// The walls of a job's plan, for the joiner.
pub fn walls(job: &[u8]) -> Result<Vec<u8>, Refusal> {
    written(WALLS_MOST, |out| walls_into(job, out))
}

/// The tree of straight cuts that take a job's plan apart; refused by 15 where none do.
pub fn cuts(job: &[u8]) -> Result<Vec<u8>, Refusal> {
    written(CUTS_MOST, |out| cuts_into(job, out))
}

/// The job with the contact of two rooms turned, and with the least sizes that it came with.
pub fn turned(job: &[u8], u: usize, v: usize) -> Result<Vec<u8>, Refusal> {
    written(JOB_MOST, |out| turned_into(job, u, v, out))
}

/// A job made narrower by turns.
#[derive(Clone, Debug, PartialEq, Eq)]
pub struct Narrowed {
    /// The job that they come to, as long as the one that came in.
    pub job: Vec<u8>,
    /// How many were made: the sheet is narrower by as many cells.
    pub turns: usize,
}

/// The job made narrower by turns, one behind the other, until no single turn of two rooms, one above the other, makes it narrower.
pub fn narrowed(job: &[u8]) -> Result<Narrowed, Refusal> {
    let mut bytes = vec![0; JOB_MOST];
    let turns = narrowed_into(job, &mut bytes)?;
    bytes.truncate(job.len());
    Ok(Narrowed { job: bytes, turns })
}

/// The bytes of a room's star; none where the bytes fail test 1 or 2 or have no such room.
pub fn star(job: &[u8], room: usize) -> Vec<u8> {
    let bytes = written(job.len(), |out| star_into(job, room, out));
    bytes.expect("a star is a part of the job, so a buffer as long as the job is never too short")
}

/// The wall that two vertices share, or none.
pub fn touch(job: &[u8], u: usize, v: usize) -> Result<Option<Touch>, Refusal> {
    // SAFETY: `job` is a slice, so its pointer is not null and valid for its length, and is only read.
    let answer = unsafe { library::tirunoiwa_touch(job.as_ptr(), job.len(), u, v) };
    let value = value(answer)?;
    // Four times the length, which is at least 1, and the side; 0 for none.
    Ok((value > 0).then_some(Touch {
        side: (value % 4) as u8,
        length: value / 4,
    }))
}

/// Whether a plan, drawn elsewhere or here, is good for a job; refused by 16 where the bytes are not a plan of just the job's vertices.
pub fn check(job: &[u8], plan: &[u8]) -> Result<bool, Refusal> {
    // SAFETY: both are slices, so the pointers are not null and valid for the lengths, and are only read.
    let answer =
        unsafe { library::tirunoiwa_check(job.as_ptr(), job.len(), plan.as_ptr(), plan.len()) };
    Ok(value(answer)? == 1)
}

/// The refusals that a job can fall to, in the order in which the season's totals count them.
pub const REFUSALS: [u8; 10] = [1, 2, 3, 4, 5, 6, 7, 9, 17, 18];

/// How many figures the season's totals have: the accepted jobs, those that fell to each refusal, and five sums.
pub const FIGURES: usize = 1 + REFUSALS.len() + 5;

/// The season's totals: counts of jobs, and sums over the accepted ones alone.
#[derive(Clone, Copy, Debug, Default, PartialEq, Eq)]
pub struct Totals {
    pub accepted: u64,
    /// How many fell to each refusal, in the order of `REFUSALS`.
    pub refused: [u64; REFUSALS.len()],
    pub widths: u64,
    pub heights: u64,
    pub room_cells: u64,
    pub frame_cells: u64,
    /// Width times height, summed: room cells and frame cells together.
    pub sheet_cells: u64,
}

/// The season's totals of up to 200 jobs, each wrapped in a field of tag 9; refused by 19 where a wrapper is broken or there are more. A job that is refused
/// changes nothing but its own count.
pub fn totals(jobs: &[u8]) -> Result<Totals, Refusal> {
    let mut figures = [0; FIGURES];
    totals_into(jobs, &mut figures)?;
    let [accepted, counts @ .., widths, heights, room_cells, frame_cells, sheet_cells] = figures;
    Ok(Totals {
        accepted,
        refused: counts,
        widths,
        heights,
        room_cells,
        frame_cells,
        sheet_cells,
    })
}

/// The plan of a job, written to the front of a lent buffer.
pub fn plan_into(job: &[u8], out: &mut [u8]) -> Result<usize, Refusal> {
    // SAFETY: both are slices, so the pointers are not null and valid for the lengths; `out` is lent alone, so `job` does not overlap it.
    let answer =
        unsafe { library::tirunoiwa_plan(job.as_ptr(), job.len(), out.as_mut_ptr(), out.len()) };
    value(answer)
}

/// The walls of a job's plan, written to the front of a lent buffer.
pub fn walls_into(job: &[u8], out: &mut [u8]) -> Result<usize, Refusal> {
    // SAFETY: both are slices, so the pointers are not null and valid for the lengths; `out` is lent alone, so `job` does not overlap it.
    let answer =
        unsafe { library::tirunoiwa_walls(job.as_ptr(), job.len(), out.as_mut_ptr(), out.len()) };
    value(answer)
}

/// The tree of straight cuts, written to the front of a lent buffer.
pub fn cuts_into(job: &[u8], out: &mut [u8]) -> Result<usize, Refusal> {
    // SAFETY: both are slices, so the pointers are not null and valid for the lengths; `out` is lent alone, so `job` does not overlap it.
    let answer =
        unsafe { library::tirunoiwa_cuts(job.as_ptr(), job.len(), out.as_mut_ptr(), out.len()) };
    value(answer)
}

/// The job with the contact of two rooms turned, written to the front of a lent buffer.
pub fn turned_into(job: &[u8], u: usize, v: usize, out: &mut [u8]) -> Result<usize, Refusal> {
    // SAFETY: both are slices, so the pointers are not null and valid for the lengths; `out` is lent alone, so `job` does not overlap it.
    let answer = unsafe {
        library::tirunoiwa_turned(job.as_ptr(), job.len(), u, v, out.as_mut_ptr(), out.len())
    };
    value(answer)
}

/// The narrowed job, written to the front of a lent buffer, as long as the job that came in; how many turns were made.
pub fn narrowed_into(job: &[u8], out: &mut [u8]) -> Result<usize, Refusal> {
    // SAFETY: both are slices, so the pointers are not null and valid for the lengths; `out` is lent alone, so `job` does not overlap it.
    let answer =
        unsafe { library::tirunoiwa_narrow(job.as_ptr(), job.len(), out.as_mut_ptr(), out.len()) };
    value(answer)
}

/// The bytes of a room's star, written to the front of a lent buffer; refused, by 14, only where that is too short.
pub fn star_into(job: &[u8], room: usize, out: &mut [u8]) -> Result<usize, Refusal> {
    // SAFETY: both are slices, so the pointers are not null and valid for the lengths; `out` is lent alone, so `job` does not overlap it.
    let answer = unsafe {
        library::tirunoiwa_star(job.as_ptr(), job.len(), room, out.as_mut_ptr(), out.len())
    };
    value(answer)
}

/// The figures of the season's totals, in the order of `Totals`, written to the front of a lent buffer; refused by 14, after 19, where it has fewer than
/// `FIGURES` places. How many were written.
pub fn totals_into(jobs: &[u8], figures: &mut [u64]) -> Result<usize, Refusal> {
    // SAFETY: both are slices, so the pointers are not null and valid for the lengths; `figures` is lent alone, so `jobs` does not overlap it. The library is for
    // x86-64 only, where its numbers have 64 bits.
    let answer = unsafe {
        library::tirunoiwa_totals(
            jobs.as_ptr(),
            jobs.len(),
            figures.as_mut_ptr(),
            figures.len(),
        )
    };
    value(answer)
}

/// What an answer says: a refusal's number, or the value behind it.
fn value(answer: usize) -> Result<usize, Refusal> {
    match answer.checked_sub(FIRST_VALUE) {
        Some(value) => Ok(value),
        None => Err(Refusal(answer as u8)),
    }
}

/// What is written to a buffer of this length, and no more.
fn written(
    most: usize,
    write: impl FnOnce(&mut [u8]) -> Result<usize, Refusal>,
) -> Result<Vec<u8>, Refusal> {
    let mut bytes = vec![0; most];
    let length = write(&mut bytes)?;
    bytes.truncate(length);
    Ok(bytes)
}
