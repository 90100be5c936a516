//! What the calls program and the programs of one job must print, worked out with any planner: the reference, or one with a slip.

use reference::cuts::Part;
use reference::doors::Door;
use reference::drawing::{Rectangle, Touch};
use reference::fields::{Field, Reader};
use reference::register::Wall;
use reference::{Board, Refusal};

pub const LOAD: u8 = 32;
pub const TURN: u8 = 33;
pub const RECTANGLE: u8 = 34;
pub const TOUCH: u8 = 35;
pub const WRITE_JOB: u8 = 36;
pub const WRITE_PLAN: u8 = 37;
pub const STAR: u8 = 38;
pub const WRITE_WALLS: u8 = 39;
pub const SLICEABLE: u8 = 40;
pub const WRITE_CUTS: u8 = 41;
pub const NARROW: u8 = 42;
pub const CHECK: u8 = 43;

pub const LARGEST_BUFFER: usize = 2_048;
pub const LONGEST_JOB: usize = 8_192;
const UNTOUCHED: u8 = 0xAA;

/// The calls of document 01, and what the programs of one job ask besides.
pub trait Planner {
    fn load(&mut self, bytes: &[u8]) -> Result<(usize, usize), Refusal>;
    fn turn(&mut self, one: usize, other: usize) -> Result<(usize, usize), Refusal>;
    fn narrow(&mut self) -> Result<usize, Refusal>;
    fn rectangle(&self, vertex: usize) -> Result<Rectangle, Refusal>;
    fn touch(&self, one: usize, other: usize) -> Result<Option<Touch>, Refusal>;
    fn doors(&self) -> Result<Vec<Door>, Refusal>;
    fn walls(&self) -> Result<Vec<Wall>, Refusal>;
    fn sliceable(&self) -> Result<bool, Refusal>;
    fn cuts(&self) -> Result<Vec<Part>, Refusal>;
    fn write_job(&self, buffer: &mut [u8]) -> Result<usize, Refusal>;
    fn write_plan(&self, buffer: &mut [u8]) -> Result<usize, Refusal>;
    fn write_walls(&self, buffer: &mut [u8]) -> Result<usize, Refusal>;
    fn write_cuts(&self, buffer: &mut [u8]) -> Result<usize, Refusal>;
    fn star<'a>(&self, bytes: &'a [u8], room: usize) -> &'a [u8];
    fn check(&self, job: &[u8], plan: &[u8]) -> Result<bool, Refusal>;
}

impl Planner for Board {
    fn load(&mut self, bytes: &[u8]) -> Result<(usize, usize), Refusal> {
        Board::load(self, bytes)
    }
    fn turn(&mut self, one: usize, other: usize) -> Result<(usize, usize), Refusal> {
        Board::turn(self, one, other)
    }
    fn narrow(&mut self) -> Result<usize, Refusal> {
        Board::narrow(self)
    }
    fn rectangle(&self, vertex: usize) -> Result<Rectangle, Refusal> {
        Board::rectangle(self, vertex)
    }
    fn touch(&self, one: usize, other: usize) -> Result<Option<Touch>, Refusal> {
        Board::touch(self, one, other)
    }
    fn doors(&self) -> Result<Vec<Door>, Refusal> {
        Board::doors(self)
    }
    fn walls(&self) -> Result<Vec<Wall>, Refusal> {
        Board::walls(self)
    }
    fn sliceable(&self) -> Result<bool, Refusal> {
        Board::sliceable(self)
    }
    fn cuts(&self) -> Result<Vec<Part>, Refusal> {
        Board::cuts(self)
    }
    fn write_job(&self, buffer: &mut [u8]) -> Result<usize, Refusal> {
        Board::write_job(self, buffer)
    }
    fn write_plan(&self, buffer: &mut [u8]) -> Result<usize, Refusal> {
        Board::write_plan(self, buffer)
    }
    fn write_walls(&self, buffer: &mut [u8]) -> Result<usize, Refusal> {
        Board::write_walls(self, buffer)
    }
    fn write_cuts(&self, buffer: &mut [u8]) -> Result<usize, Refusal> {
        Board::write_cuts(self, buffer)
    }
    fn star<'a>(&self, bytes: &'a [u8], room: usize) -> &'a [u8] {
        reference::star(bytes, room)
    }
    fn check(&self, job: &[u8], plan: &[u8]) -> Result<bool, Refusal> {
        reference::judge(job, plan)
    }
}

/// One answer: the call it answers, what came of it, and the line printed.
pub struct Answer {
    pub tag: u8,
    pub outcome: Outcome,
    pub line: String,
}

#[derive(Clone, Copy, Debug, PartialEq, Eq, PartialOrd, Ord)]
pub enum Outcome {
    Accepted,
    Refused(u8),
    /// Nothing to tell: a star that is an empty stretch, no shared wall, no way to cut a floor, or a plan that is not good.
    Empty,
}

/// The answers to a stream, and whether it is broken after them.
pub fn answer_stream(planner: &mut dyn Planner, bytes: &[u8]) -> (Vec<Answer>, bool) {
    let mut reader = Reader::new(bytes);
    let mut answers = Vec::new();
    while !reader.at_end() {
        let answer = reader
            .next_field()
            .and_then(|field| answer_call(planner, field));
        match answer {
            Some(answer) => answers.push(answer),
            None => return (answers, true),
        }
    }
    (answers, false)
}

/// All that the calls program prints for a stream.
pub fn calls_text(planner: &mut dyn Planner, bytes: &[u8]) -> String {
    let (answers, broken) = answer_stream(planner, bytes);
    let mut text = String::new();
    for answer in &answers {
        text.push_str(&answer.line);
        text.push('\n');
    }
    if broken {
        text.push_str("broken stream\n");
    }
    text
}

/// Nothing where the value does not fit the tag.
fn answer_call(planner: &mut dyn Planner, field: Field) -> Option<Answer> {
    let tag = field.tag;
    let (outcome, line) = match tag {
        LOAD => sheet(planner.load(field.value)),
        TURN => {
            let [one, other] = numbers(field.value)?;
            sheet(planner.turn(one, other))
        }
        NARROW => {
            let [] = numbers(field.value)?;
            refused_or(planner.narrow(), |turns| format!("made {turns}"))
        }
        RECTANGLE => {
            let [vertex] = numbers(field.value)?;
            refused_or(planner.rectangle(vertex), |r| {
                format!("{} {} {} {}", r.x1, r.y1, r.x2, r.y2)
            })
        }
        TOUCH => {
            let [one, other] = numbers(field.value)?;
            touched(planner.touch(one, other))
        }
        SLICEABLE => {
            let [] = numbers(field.value)?;
            sliced(planner.sliceable())
        }
        WRITE_JOB | WRITE_PLAN | WRITE_WALLS | WRITE_CUTS => {
            let [size] = numbers(field.value)?;
            written(planner, tag, size)?
        }
        CHECK => {
            let [length] = numbers(field.value.get(..2)?)?;
            let (job, plan) = field.value[2..].split_at_checked(length)?;
            sliced(planner.check(job, plan))
        }
        STAR => {
            let [room] = numbers(field.value.get(..2)?)?;
            let star = planner.star(&field.value[2..], room);
            if star.is_empty() {
                (Outcome::Empty, "-".to_string())
            } else {
                (Outcome::Accepted, hex(star))
            }
        }
        _ => return None,
    };
    Some(Answer { tag, outcome, line })
}

/// Two-byte numbers, high byte first, and nothing else.
fn numbers<const COUNT: usize>(value: &[u8]) -> Option<[usize; COUNT]> {
    if value.len() != 2 * COUNT {
        return None;
    }
    let mut all = [0; COUNT];
    for (number, pair) in all.iter_mut().zip(value.chunks_exact(2)) {
        *number = usize::from(pair[0]) * 256 + usize::from(pair[1]);
    }
    Some(all)
}

fn refused(Refusal(number): Refusal) -> (Outcome, String) {
    (Outcome::Refused(number), format!("refused {number}"))
}

fn refused_or<T>(answer: Result<T, Refusal>, shown: impl FnOnce(T) -> String) -> (Outcome, String) {
    match answer {
        Ok(value) => (Outcome::Accepted, shown(value)),
        Err(refusal) => refused(refusal),
    }
}

fn sheet(answer: Result<(usize, usize), Refusal>) -> (Outcome, String) {
    refused_or(answer, |(width, height)| format!("sheet {width} {height}"))
}

fn touched(answer: Result<Option<Touch>, Refusal>) -> (Outcome, String) {
    match answer {
        Ok(Some(Touch { side, length })) => (Outcome::Accepted, format!("touch {side} {length}")),
        Ok(None) => (Outcome::Empty, "none".to_string()),
        Err(refusal) => refused(refusal),
    }
}

fn sliced(answer: Result<bool, Refusal>) -> (Outcome, String) {
    match answer {
        Ok(true) => (Outcome::Accepted, "yes".to_string()),
        Ok(false) => (Outcome::Empty, "no".to_string()),
        Err(refusal) => refused(refusal),
    }
}

fn written(planner: &mut dyn Planner, tag: u8, size: usize) -> Option<(Outcome, String)> {
    if size > LARGEST_BUFFER {
        return None;
    }
    let mut buffer = vec![UNTOUCHED; size];
    let answer = match tag {
        WRITE_JOB => planner.write_job(&mut buffer),
        WRITE_PLAN => planner.write_plan(&mut buffer),
        WRITE_WALLS => planner.write_walls(&mut buffer),
        _ => planner.write_cuts(&mut buffer),
    };
    Some(refused_or(answer, |length| {
        format!("wrote {length} {}", hex(&buffer))
    }))
}

/// All that the narrowing program writes for a job: the narrowed job.
pub fn narrowed(planner: &mut dyn Planner, bytes: &[u8]) -> Vec<u8> {
    if bytes.len() > LONGEST_JOB {
        return b"input too long\n".to_vec();
    }
    match narrowed_job(planner, bytes) {
        Ok(job) => job,
        Err(refusal) => (refused(refusal).1 + "\n").into_bytes(),
    }
}

fn narrowed_job(planner: &mut dyn Planner, bytes: &[u8]) -> Result<Vec<u8>, Refusal> {
    planner.load(bytes)?;
    planner.narrow()?;
    let mut job = vec![0; LARGEST_BUFFER];
    let length = planner.write_job(&mut job)?;
    job.truncate(length);
    Ok(job)
}

/// A program that reads one job.
#[derive(Clone, Copy, Debug, PartialEq, Eq)]
pub enum OneJob {
    Listing,
    Doors,
    Walls,
    Cuts,
}

impl OneJob {
    /// The program's name.
    pub fn name(self) -> &'static str {
        match self {
            OneJob::Listing => "listing",
            OneJob::Doors => "doors",
            OneJob::Walls => "walls_list",
            OneJob::Cuts => "cuts_list",
        }
    }

    /// Its first four letters as a number, so that each program gets jobs of its own from one seed.
    pub fn salt(self) -> u64 {
        let letters = self.name().bytes().take(4);
        letters.fold(0, |sum, letter| sum * 256 + u64::from(letter))
    }

    /// All that the program prints for a job.
    pub fn text(self, planner: &mut dyn Planner, bytes: &[u8]) -> String {
        if bytes.len() > LONGEST_JOB {
            return "input too long\n".to_string();
        }
        match self.lines(planner, bytes) {
            Ok(lines) => lines,
            Err(refusal) => refused(refusal).1 + "\n",
        }
    }

    /// The lines of a job that is not refused.
    fn lines(self, planner: &mut dyn Planner, bytes: &[u8]) -> Result<String, Refusal> {
        let (width, height) = planner.load(bytes)?;
        Ok(match self {
            OneJob::Listing => format!("sheet {width} {height}\n") + &rectangle_lines(planner),
            OneJob::Doors => planner.doors()?.iter().map(door_line).collect(),
            OneJob::Walls => planner.walls()?.iter().map(wall_line).collect(),
            OneJob::Cuts => planner.cuts()?.iter().map(part_line).collect(),
        })
    }
}

/// The rectangles of all vertices: there is none behind the last.
fn rectangle_lines(planner: &dyn Planner) -> String {
    let all = (0..).map_while(|vertex| Some((vertex, planner.rectangle(vertex).ok()?)));
    all.map(|(vertex, r)| format!("{vertex} {} {} {} {}\n", r.x1, r.y1, r.x2, r.y2))
        .collect()
}

fn door_line(door: &Door) -> String {
    let Touch { side, length } = door.touch;
    format!(
        "{} {} {side} {} {} {length}\n",
        door.u, door.v, door.from, door.to
    )
}

fn wall_line(w: &Wall) -> String {
    format!(
        "{} {} {} {} {}\n",
        w.direction, w.number, w.beginning, w.end, w.sides
    )
}

/// Direction and place of a cut, or a room alone.
fn part_line(part: &Part) -> String {
    match part {
        Part::Cut(cut) => format!("{} {}\n", cut.direction, cut.place),
        Part::Leaf(room) => format!("{room}\n"),
    }
}

pub fn hex(bytes: &[u8]) -> String {
    bytes.iter().map(|byte| format!("{byte:02x}")).collect()
}
