//! The season's totals (W12): jobs in wrappers, how many were accepted and how many fell to each refusal, and what the sheets of the accepted ones come to.

use crate::drawing::{Plan, Rectangle};
use crate::fields::Reader;
use crate::{refusal, Board, Refusal, FIRST_ROOM};

const TAG_WRAPPER: u8 = 9;
const MOST_JOBS: usize = 200;

/// The refusals of a job, in the order of their lines.
pub const REFUSALS: [u8; 10] = [1, 2, 3, 4, 5, 6, 7, 9, 17, 18];

/// How many figures are told.
pub const FIGURES: usize = 1 + REFUSALS.len() + 5;

/// Counts of jobs, and sums over the accepted ones alone.
#[derive(Clone, Debug, Default, PartialEq, Eq)]
pub struct Totals {
    pub accepted: usize,
    /// How many fell to each of `REFUSALS`.
    pub refused: [usize; REFUSALS.len()],
    pub widths: usize,
    pub heights: usize,
    pub room_cells: usize,
    pub frame_cells: usize,
    pub sheet_cells: usize,
}

/// The jobs behind one another to the end of the bytes; 19 for a broken wrapper or more than 200 jobs.
pub fn unwrap(bytes: &[u8]) -> Result<Vec<&[u8]>, Refusal> {
    let mut reader = Reader::new(bytes);
    let mut jobs = Vec::new();
    while !reader.at_end() {
        let field = reader.next_field().ok_or(refusal::NOT_A_SEASON)?;
        if field.tag != TAG_WRAPPER || jobs.len() == MOST_JOBS {
            return Err(refusal::NOT_A_SEASON);
        }
        jobs.push(field.value);
    }
    Ok(jobs)
}

/// The totals of a wrapped stream.
pub fn totals(bytes: &[u8]) -> Result<Totals, Refusal> {
    Ok(totals_of(&unwrap(bytes)?))
}

/// Each job is loaded on a board of its own, so that none has to do with another.
pub fn totals_of(jobs: &[&[u8]]) -> Totals {
    let mut totals = Totals::default();
    for job in jobs {
        let mut board = Board::empty();
        match board.load(job) {
            Err(refusal) => totals.refused[place_of(refusal)] += 1,
            Ok(_) => totals.add(board.plan().expect("an accepted job is held")),
        }
    }
    totals
}

/// Where a refusal stands among the lines of refusals.
pub fn place_of(Refusal(number): Refusal) -> usize {
    let place = REFUSALS.iter().position(|&one| one == number);
    place.expect("a load gives no other refusal")
}

impl Totals {
    /// One accepted job more.
    pub fn add(&mut self, plan: &Plan) {
        let cells = |rectangles: &[Rectangle]| -> usize { rectangles.iter().map(area).sum() };
        let (frame, rooms) = plan.rectangles.split_at(FIRST_ROOM);
        self.accepted += 1;
        self.widths += plan.width;
        self.heights += plan.height;
        self.room_cells += cells(rooms);
        self.frame_cells += cells(frame);
        self.sheet_cells += plan.width * plan.height;
    }

    /// The figures in the order of their lines.
    pub fn figures(&self) -> Vec<usize> {
        let mut figures = vec![self.accepted];
        figures.extend(self.refused);
        figures.extend([self.widths, self.heights]);
        figures.extend([self.room_cells, self.frame_cells, self.sheet_cells]);
        figures
    }
}

fn area(r: &Rectangle) -> usize {
    (r.x2 - r.x1) * (r.y2 - r.y1)
}

/// All that the program prints: one figure a line, or the refusal and nothing else.
pub fn text(bytes: &[u8]) -> String {
    match totals(bytes) {
        Ok(totals) => lines(&totals.figures()),
        Err(Refusal(number)) => format!("refused {number}\n"),
    }
}

pub fn lines(figures: &[usize]) -> String {
    figures.iter().map(|figure| format!("{figure}\n")).collect()
}

#[cfg(test)]
mod tests {
    use super::{text, totals, Totals, FIGURES, REFUSALS};
    use crate::fields::put_field;
    use crate::Refusal;

    const F: &[u8] = include_bytes!("../../../examples/F.job");
    const CAGE: &[u8] = include_bytes!("../../../examples/cage.job");
    const ROW: &[u8] = include_bytes!("../../../examples/row60.job");

    /// A job for each refusal, in the order of `REFUSALS`.
    const BAD: [&[u8]; REFUSALS.len()] = [
        include_bytes!("../../../examples/refused-1.job"),
        include_bytes!("../../../examples/refused-2.job"),
        include_bytes!("../../../examples/refused-3.job"),
        include_bytes!("../../../examples/refused-4.job"),
        include_bytes!("../../../examples/refused-5.job"),
        include_bytes!("../../../examples/refused-6.job"),
        include_bytes!("../../../examples/refused-7.job"),
        include_bytes!("../../../examples/refused-9.job"),
        include_bytes!("../../../examples/refused-17.job"),
        include_bytes!("../../../examples/refused-18.job"),
    ];

    const BROKEN: Result<Totals, Refusal> = Err(Refusal(19));

    fn wrapped(jobs: &[&[u8]]) -> Vec<u8> {
        let mut stream = Vec::new();
        for job in jobs {
            put_field(&mut stream, 9, job);
        }
        stream
    }

    fn figures(jobs: &[&[u8]]) -> Vec<usize> {
        totals(&wrapped(jobs)).expect("wrapped").figures()
    }

    #[test]
    fn no_jobs_are_noughts() {
        assert_eq!(figures(&[]), [0; FIGURES]);
        assert_eq!(text(&[]), "0\n".repeat(16));
    }

    /// F is 4 by 5 with a frame of 14 cells: W and E of 5 each, N and S of 2 each; its four rooms fill 2 by 3. The cage is 4 by 4 with a frame of 12: twice
    /// 4, twice 2; its three rooms fill 2 by 2. The row is 62 by 3 with a frame of 126: twice 3, twice 60; its sixty rooms fill 60 by 1.
    #[test]
    fn a_small_batch_by_hand() {
        let by_hand = |refused: [usize; 10], sums: [usize; 5], accepted| {
            let mut all = vec![accepted];
            all.extend(refused);
            all.extend(sums);
            all
        };
        let none = [0; 10];
        assert_eq!(figures(&[F]), by_hand(none, [4, 5, 6, 14, 20], 1));
        assert_eq!(figures(&[CAGE]), by_hand(none, [4, 4, 4, 12, 16], 1));
        assert_eq!(figures(&[ROW]), by_hand(none, [62, 3, 60, 126, 186], 1));
        let mixed = [F, BAD[7], CAGE, &[], ROW, BAD[9], BAD[0]];
        let refused = [2, 0, 0, 0, 0, 0, 0, 1, 0, 1];
        assert_eq!(figures(&mixed), by_hand(refused, [70, 12, 70, 152, 222], 3));
        assert_eq!(
            text(&wrapped(&mixed)),
            "3\n2\n0\n0\n0\n0\n0\n0\n1\n0\n1\n70\n12\n70\n152\n222\n"
        );
    }

    #[test]
    fn each_refusal_has_its_line() {
        for (place, bad) in BAD.into_iter().enumerate() {
            let mut expected = [0; FIGURES];
            expected[1 + place] = 1;
            assert_eq!(figures(&[bad]), expected);
        }
    }

    #[test]
    fn two_hundred_jobs_are_the_most() {
        let many = |job, count| wrapped(&vec![job; count]);
        let told = totals(&many(F, 200)).unwrap();
        assert_eq!((told.accepted, told.sheet_cells), (200, 200 * 20));
        assert_eq!(totals(&many(F, 201)), BROKEN);
        assert_eq!(text(&many(F, 201)), "refused 19\n");
        // Jobs that are refused count as well.
        assert_eq!(totals(&many(&[], 200)).unwrap().refused[0], 200);
        assert_eq!(totals(&many(&[], 201)), BROKEN);
    }

    #[test]
    fn a_broken_wrapper_is_19() {
        let whole = wrapped(&[F, CAGE]);
        assert!(totals(&whole).is_ok());
        // Cut short anywhere but between two wrappers.
        for length in 0..whole.len() {
            let between = length == 0 || length == 3 + F.len();
            assert_eq!(totals(&whole[..length]) == BROKEN, !between, "{length}");
        }
        for place in [0, 3 + F.len()] {
            for tag in (0..=255).filter(|&tag| tag != 9) {
                let mut other = whole.clone();
                other[place] = tag;
                assert_eq!(totals(&other), BROKEN, "tag {tag}");
            }
        }
        let mut longer = whole.clone();
        longer.push(9);
        assert_eq!(totals(&longer), BROKEN);
        let mut lengthened = whole;
        lengthened[3 + F.len() + 2] += 1;
        assert_eq!(totals(&lengthened), BROKEN);
        assert_eq!(totals(F), BROKEN);
    }

    /// A job as long as a wrapper can be is judged as any: 1 for what is left over, 2 for its number of rooms, 3 for its pairs.
    #[test]
    fn a_job_of_65535_bytes_is_judged() {
        let padded = |front: &[u8]| {
            let mut job = front.to_vec();
            job.resize(65_535, 3);
            job
        };
        let pairs = [&[1, 0, 1, 1, 2][..], &65_528u16.to_be_bytes()].concat();
        let jobs = [padded(F), padded(&[1, 0, 1, 0]), padded(&pairs)];
        let told = figures(&[&jobs[0], &jobs[1], F, &jobs[2]]);
        assert_eq!(told[..4], [1, 1, 1, 1]);
    }

    #[test]
    fn the_order_does_not_matter() {
        let mut jobs = [&BAD[..], &[F, CAGE, ROW]].concat();
        let told = figures(&jobs);
        for _ in 0..jobs.len() {
            jobs.rotate_left(1);
            assert_eq!(figures(&jobs), told);
        }
        jobs.reverse();
        assert_eq!(figures(&jobs), told);
    }

    #[test]
    fn a_bad_job_changes_only_its_own_count() {
        let jobs = [F, BAD[4], CAGE, ROW];
        for (line, bad) in BAD.into_iter().enumerate() {
            let mut expected = figures(&jobs);
            expected[1 + line] += 1;
            for place in 0..=jobs.len() {
                let mut with = jobs.to_vec();
                with.insert(place, bad);
                assert_eq!(figures(&with), expected);
            }
        }
    }

    /// What the request says of every season.
    #[test]
    fn counts_are_the_jobs_and_cells_are_the_sheets() {
        let jobs = [&BAD[..], &[F, CAGE, ROW, F]].concat();
        let told = totals(&wrapped(&jobs)).unwrap();
        let refused: usize = told.refused.iter().sum();
        assert_eq!(told.accepted + refused, jobs.len());
        assert_eq!(told.room_cells + told.frame_cells, told.sheet_cells);
    }
}
