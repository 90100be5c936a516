//! A job and the same job with its stars started elsewhere. The planner under test has to answer both alike and to write each back as it came;
//! its own answers are held against each other, whatever the reference says.

use crate::damage::job_of_stars;
use crate::planner::{hex, OneJob, LOAD, TURN, WRITE_JOB, WRITE_PLAN};
use crate::programs::UnderTest;
use crate::streams::{call, four, two};
use crate::table::Table;
use floors::{some_start, started_at, Chance};
use reference::job::{read, Job};
use reference::turning::turned;
use reference::{Board, FIRST_ROOM};

/// P1 of document 01, loaded before each job, so that both meet the same board.
const ONE_ROOM: [u8; 15] = [1, 0, 1, 1, 2, 0, 8, 0, 0, 1, 1, 2, 2, 3, 3];
/// Pairs in one stream of calls.
const AT_ONCE: usize = 50;
/// A listing is a process of its own, so only one pair in so many is listed.
const LISTED: usize = 20;

pub struct Pair {
    job: Job,
    /// Where each star of the other job starts in this one's.
    starts: Vec<usize>,
    contact: (usize, usize),
}

/// The first pair that is not answered alike, in words.
pub fn first_unlike(
    under_test: &UnderTest,
    seed: u64,
    pairs: usize,
    table: &mut Table,
) -> Option<String> {
    let mut chance = Chance::new(seed ^ 0x7061_6972);
    let all: Vec<usize> = (0..pairs).collect();
    all.chunks(AT_ONCE).find_map(|some| {
        let some: Vec<Pair> = some.iter().map(|_| Pair::any(&mut chance)).collect();
        unlike_in(under_test, &some, table)
    })
}

/// The same of the pairs of one stream.
fn unlike_in(under_test: &UnderTest, pairs: &[Pair], table: &mut Table) -> Option<String> {
    let stream: Vec<u8> = pairs.iter().flat_map(Pair::calls).collect();
    let text = under_test.calls(&stream);
    let lines: Vec<&str> = text.lines().collect();
    let of_pairs = lines.chunks(2 * CALLS).chain(std::iter::repeat(&[][..]));
    for (place, (pair, lines)) in pairs.iter().zip(of_pairs).enumerate() {
        let mut judged = pair.judge(lines, table);
        if judged.is_ok() && place % LISTED == 0 {
            judged = pair.judge_listings(under_test);
        }
        if let Err(why) = judged {
            return Some(pair.told(&why));
        }
    }
    None
}

/// What is asked of each job.
const CALLS: usize = 9;

/// The lines of one job: loaded and written, a turn made, written, and made again.
struct Answers<'a> {
    loaded: &'a str,
    plan: &'a str,
    job: &'a str,
    turned: &'a str,
    turned_plan: &'a str,
    turned_job: &'a str,
    turned_again: &'a str,
    job_again: &'a str,
}

impl<'a> Answers<'a> {
    fn of(lines: &[&'a str]) -> Option<Self> {
        let &[_, loaded, plan, job, turned, turned_plan, turned_job, turned_again, job_again] =
            lines
        else {
            return None;
        };
        Some(Answers {
            loaded,
            plan,
            job,
            turned,
            turned_plan,
            turned_job,
            turned_again,
            job_again,
        })
    }

    fn accepted(&self) -> bool {
        self.loaded.starts_with("sheet")
    }

    /// What does not tell where a star starts.
    fn of_the_plan(&self) -> [&str; 5] {
        [
            self.loaded,
            self.plan,
            self.turned,
            self.turned_plan,
            self.turned_again,
        ]
    }
}

impl Pair {
    fn any(chance: &mut Chance) -> Pair {
        let job = job_of_stars(chance);
        let starts = job
            .stars
            .iter()
            .map(|star| some_start(chance, star))
            .collect();
        let contact = some_turn(chance, &job);
        Pair {
            job,
            starts,
            contact,
        }
    }

    fn other(&self) -> Job {
        started_at(self.job.clone(), &self.starts)
    }

    fn calls(&self) -> Vec<u8> {
        let mut stream = self.calls_on(&self.job);
        stream.extend(self.calls_on(&self.other()));
        stream
    }

    fn calls_on(&self, job: &Job) -> Vec<u8> {
        let turn = call(TURN, &four(self.contact.0, self.contact.1));
        let write_plan = call(WRITE_PLAN, &two(self.plan_buffer()));
        let write_job = call(WRITE_JOB, &two(self.job_buffer()));
        let calls: [Vec<u8>; CALLS] = [
            call(LOAD, &ONE_ROOM),
            call(LOAD, &job.bytes()),
            write_plan.clone(),
            write_job.clone(),
            turn.clone(),
            write_plan,
            write_job.clone(),
            turn,
            write_job,
        ];
        calls.concat()
    }

    /// Buffers that hold what belongs to this job, or to the one room that a refused load leaves.
    fn plan_buffer(&self) -> usize {
        5 + 8 * self.job.vertices().max(FIRST_ROOM + 1)
    }

    fn job_buffer(&self) -> usize {
        self.job.bytes().len().max(ONE_ROOM.len())
    }

    /// The lines of both jobs, held against each other.
    fn judge(&self, lines: &[&str], table: &mut Table) -> Result<(), String> {
        let (one, other) = lines.split_at(CALLS.min(lines.len()));
        let (Some(one), Some(other)) = (Answers::of(one), Answers::of(other)) else {
            return Err(format!("{} lines for {} calls", lines.len(), 2 * CALLS));
        };
        for (line, other_line) in one.of_the_plan().into_iter().zip(other.of_the_plan()) {
            same(line, other_line)?;
        }
        self.judge_written(&self.job, &one)?;
        self.judge_written(&self.other(), &other)?;
        self.judge_turned(&one, &other)?;
        table.count_pair(one.loaded, one.turned);
        Ok(())
    }

    /// The very bytes that were loaded, and again once the turn was made twice.
    fn judge_written(&self, job: &Job, answers: &Answers) -> Result<(), String> {
        let line = if answers.accepted() {
            self.line_of(&job.bytes())
        } else {
            self.line_of(&ONE_ROOM)
        };
        same(&line, answers.job)?;
        same(&line, answers.job_again)
    }

    /// No entry moves, so that the turned jobs still differ in the same starts.
    fn judge_turned(&self, one: &Answers, other: &Answers) -> Result<(), String> {
        if !one.accepted() {
            return same(one.turned_job, other.turned_job);
        }
        let lengths = |job: &Job| -> Vec<usize> { job.stars.iter().map(Vec::len).collect() };
        let turned = job_in(one.turned_job)
            .filter(|turned| lengths(turned) == lengths(&self.job))
            .ok_or(format!("  no such turned job: {}", one.turned_job))?;
        let restarted = started_at(turned, &self.starts);
        same(&self.line_of(&restarted.bytes()), other.turned_job)
    }

    /// The line of a job written to the buffer that was lent.
    fn line_of(&self, bytes: &[u8]) -> String {
        let untouched = "aa".repeat(self.job_buffer() - bytes.len());
        format!("wrote {} {}{untouched}", bytes.len(), hex(bytes))
    }

    fn judge_listings(&self, under_test: &UnderTest) -> Result<(), String> {
        let listed = |job: &Job| under_test.told(OneJob::Listing, &job.bytes());
        same(&listed(&self.job), &listed(&self.other()))
    }

    fn told(&self, why: &str) -> String {
        let (one, other) = (hex(&self.job.bytes()), hex(&self.other().bytes()));
        let (u, v) = self.contact;
        format!("jobs:\n  {one}\n  {other}\nturned at {u} and {v}; lines:\n{why}")
    }
}

/// A contact that can be turned, mostly, where there is one; else two numbers that may be those of rooms.
fn some_turn(chance: &mut Chance, job: &Job) -> (usize, usize) {
    let turnable = turnable_contacts(job);
    if turnable.is_empty() || chance.percent(10) {
        (FIRST_ROOM, FIRST_ROOM + chance.below(4))
    } else {
        *chance.pick(&turnable)
    }
}

/// None where the job is refused: only stars that agree can be turned.
fn turnable_contacts(job: &Job) -> Vec<(usize, usize)> {
    if Board::empty().load(&job.bytes()).is_err() {
        return Vec::new();
    }
    job.rooms()
        .flat_map(|room| job.star_of(room).iter().map(move |e| (room, e.neighbour)))
        .filter(|&(room, neighbour)| turned(job, room, neighbour).is_ok())
        .collect()
}

fn same(one: &str, other: &str) -> Result<(), String> {
    if one == other {
        Ok(())
    } else {
        Err(format!("  {one}\n  {other}"))
    }
}

/// The job of a line "wrote", which has to be one that passes tests 1 to 6.
fn job_in(line: &str) -> Option<Job> {
    let (length, digits) = line.strip_prefix("wrote ")?.split_once(' ')?;
    let length: usize = length.parse().ok()?;
    let bytes: Option<Vec<u8>> = (0..length)
        .map(|at| u8::from_str_radix(digits.get(2 * at..2 * at + 2)?, 16).ok())
        .collect();
    read(&bytes?).ok()
}
