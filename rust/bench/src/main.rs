//! Times the calls on sixty rooms: the built program `bench` beside the reference, on the same jobs.

use floors::known::known_floors;
use floors::{renumbered, Chance};
use reference::{Board, Refusal, FIRST_ROOM};
use std::hint::black_box;
use std::io::{Read, Write};
use std::process::{Command, Stdio};
use std::time::Instant;

const RUNNER: &str = "../bin/run";
const REPEATS: usize = 11;
const VERTICES: u32 = 64;

/// What is timed, and the rounds of it as a power of ten.
#[derive(Clone, Copy, PartialEq)]
enum What {
    Load,
    Turn,
    RefusedTurn,
    Question,
}

const ALL: [What; 4] = [What::Load, What::Turn, What::RefusedTurn, What::Question];

impl What {
    fn name(self) -> &'static str {
        match self {
            What::Load => "load",
            What::Turn => "turn",
            What::RefusedTurn => "refused turn",
            What::Question => "question",
        }
    }

    fn letter(self) -> u8 {
        match self {
            What::Load => b'l',
            What::Turn | What::RefusedTurn => b't',
            What::Question => b'q',
        }
    }

    fn power(self) -> u8 {
        match self {
            What::Load | What::Turn => 4,
            What::RefusedTurn => 6,
            What::Question => 7,
        }
    }

    fn rounds(self) -> u32 {
        10u32.pow(u32::from(self.power()))
    }
}

/// One thing to time: its name, what is done, the contact to turn, and the job.
struct Case {
    name: String,
    what: What,
    contact: (usize, usize),
    job: Vec<u8>,
}

/// The least microseconds a round of both.
#[derive(Clone, Copy)]
struct Times {
    ours: f64,
    reference: f64,
}

fn main() {
    println!("{REPEATS} repeats of 10,000 loads or turns, a million refused turns, ten million questions: the least microseconds a round of both, and their ratio;");
    println!("beside it the least, the middle and the greatest ratio of one repeat, and both as parts of a load of the same floor");
    println!("{}", machine());
    println!(
        "{:<30} {:>8} {:>10} {:>7} {:>20} {:>17}",
        "", "ours", "reference", "ratio", "ratios of repeats", "parts of a load"
    );
    let mut ratios = Vec::new();
    for floor in floors() {
        let mut load = None;
        for case in floor {
            let times = timed(&case, &mut load);
            ratios.push((case.what, times.ours / times.reference));
        }
    }
    for what in ALL {
        let of: Vec<f64> = ratios.iter().filter(|r| r.0 == what).map(|r| r.1).collect();
        println!(
            "{}: median of the ratios {:.2}, greatest {:.2}",
            what.name(),
            median(of.clone()),
            of.iter().copied().fold(0.0, f64::max)
        );
    }
}

/// Each floor loaded, with its rooms as they come and shuffled; each that is accepted also turned and asked of.
fn floors() -> Vec<Vec<Case>> {
    let mut all = Vec::new();
    for (name, floor) in known_floors() {
        let shuffled = renumbered(&mut Chance::new(1), &floor);
        for (order, job) in [("", &floor), (" shuffled", &shuffled)] {
            let bytes = job.bytes();
            let case = |what: What, contact| Case {
                name: format!("{} {name}{order}", what.name()),
                what,
                contact,
                job: bytes.clone(),
            };
            let mut cases = vec![case(What::Load, (0, 0))];
            if let Some(contact) = some_turn(&bytes, |answer| answer.is_ok()) {
                cases.push(case(What::Turn, contact));
            }
            if let Some(contact) = some_turn(&bytes, |answer| answer == Err(Refusal(12))) {
                cases.push(case(What::RefusedTurn, contact));
            }
            if let Some(room) = some_turn(&bytes, |_| true) {
                cases.push(case(What::Question, room));
            }
            all.push(cases);
        }
    }
    all
}

/// The first contact whose turn is so answered.
fn some_turn(
    job: &[u8],
    answered: impl Fn(Result<reference::board::Sheet, Refusal>) -> bool,
) -> Option<(usize, usize)> {
    let mut board = Board::empty();
    board.load(job).ok()?;
    let last = board.job()?.vertices();
    (FIRST_ROOM..last)
        .flat_map(|u| (FIRST_ROOM..last).map(move |v| (u, v)))
        .find(|&(u, v)| answered(board.clone().turn(u, v)))
}

/// Both are run in turn, so that what slows the machine for a while slows both.
fn timed(case: &Case, load: &mut Option<Times>) -> Times {
    let (mut ours, mut theirs, mut ratios) = (Vec::new(), Vec::new(), Vec::new());
    for _ in 0..REPEATS {
        let (one, answer) = ours_once(case);
        let (other, sum) = reference_once(case);
        assert_eq!(
            answer.trim(),
            sum.to_string(),
            "{}: other answers",
            case.name
        );
        ours.push(one);
        theirs.push(other);
        ratios.push(one / other);
    }
    ratios.sort_by(f64::total_cmp);
    let times = Times {
        ours: least(&ours),
        reference: least(&theirs),
    };
    let load = load.get_or_insert(times);
    println!(
        "{:<30} {:>8.3} {:>10.3} {:>7.2} {:>10.2} {:.2} {:.2} {:>10.4} {:.4}",
        case.name,
        times.ours,
        times.reference,
        times.ours / times.reference,
        ratios[0],
        ratios[REPEATS / 2],
        ratios[REPEATS - 1],
        times.ours / load.ours,
        times.reference / load.reference
    );
    times
}

/// Microseconds a round, without what starting the program costs.
fn ours_once(case: &Case) -> (f64, String) {
    let (start, _) = run(case, 0);
    let (all, answer) = run(case, case.what.power());
    let more = case.what.rounds() - 1;
    ((all - start) / f64::from(more) * 1e6, answer)
}

/// Seconds, and what the program printed.
fn run(case: &Case, power: u8) -> (f64, String) {
    let (u, v) = case.contact;
    let mut input = vec![case.what.letter(), b'0' + power, u as u8, v as u8];
    input.extend(&case.job);
    let begun = Instant::now();
    let mut child = Command::new(RUNNER)
        .arg("bench")
        .stdin(Stdio::piped())
        .stdout(Stdio::piped())
        .spawn()
        .expect("the program bench is built");
    let mut stdin = child.stdin.take().expect("standard input is a pipe");
    stdin.write_all(&input).expect("the program reads");
    drop(stdin);
    let mut text = String::new();
    let mut stdout = child.stdout.take().expect("standard output is a pipe");
    stdout
        .read_to_string(&mut text)
        .expect("the program writes");
    child.wait().expect("the program ends");
    (begun.elapsed().as_secs_f64(), text)
}

/// Microseconds a round, and the sum that the program prints.
fn reference_once(case: &Case) -> (f64, u64) {
    let mut board = Board::empty();
    if case.what != What::Load {
        board.load(&case.job).expect("a job to turn is accepted");
    }
    let rounds = case.what.rounds();
    let (u, v) = case.contact;
    let mut sum = 0;
    let begun = Instant::now();
    for left in (1..=rounds).rev() {
        sum += match case.what {
            What::Load => mark(board.load(black_box(&case.job)), |_| 1),
            What::Turn | What::RefusedTurn => mark(board.turn(u, v), |_| 1),
            What::Question => {
                let at = (left % VERTICES) as usize;
                mark(board.rectangle(at), |rect| rect.x2 as u64)
                    + mark(board.touch(u, at), |touch| {
                        touch.map_or(0, |touch| touch.length as u64)
                    })
            }
        };
    }
    let micros = begun.elapsed().as_secs_f64() * 1e6 / f64::from(rounds);
    (micros, sum)
}

/// A thousand times the number of a refusal, and what counts of another answer.
fn mark<T>(answer: Result<T, Refusal>, worth: impl Fn(T) -> u64) -> u64 {
    match black_box(answer) {
        Ok(value) => worth(value),
        Err(refusal) => 1000 * u64::from(refusal.0),
    }
}

/// What else the machine does only makes a time longer, so that the least of some says most.
fn least(numbers: &[f64]) -> f64 {
    numbers.iter().copied().fold(f64::INFINITY, f64::min)
}

fn median(mut numbers: Vec<f64>) -> f64 {
    numbers.sort_by(f64::total_cmp);
    numbers[numbers.len() / 2]
}

/// The processor, and whether the planner runs on it as it is.
fn machine() -> String {
    let info = std::fs::read_to_string("/proc/cpuinfo").unwrap_or_default();
    let model = info
        .lines()
        .find_map(|line| line.strip_prefix("model name"))
        .map_or("an unnamed processor", |rest| {
            rest.trim_start_matches([' ', '\t', ':'])
        });
    if cfg!(target_arch = "x86_64") {
        format!("{model}, both native")
    } else {
        format!("{model}, the planner emulated and the reference native: the ratio says nothing")
    }
}
