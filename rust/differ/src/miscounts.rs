//! Seasons told with one known slip each (W12).

use crate::batches::{MOST_JOBS, WRAPPER};
use crate::planner::{Planner, LONGEST_JOB};
use crate::slips::{Slip, SlippedBoard};
use reference::drawing::{place, Plan};
use reference::fields::Reader;
use reference::job;
use reference::totals::{lines, place_of, Totals, REFUSALS};
use reference::walls::number_walls;
use reference::Refusal;

/// The places of some figures among the lines.
const WIDTHS: usize = 1 + REFUSALS.len();
const HEIGHTS: usize = WIDTHS + 1;
const ROOM_CELLS: usize = WIDTHS + 2;
const FRAME_CELLS: usize = WIDTHS + 3;
const SHEET_CELLS: usize = WIDTHS + 4;

/// How a stream of wrappers ends.
#[derive(Clone, Copy, PartialEq, Eq)]
enum End {
    Whole,
    Broken,
    TooMany,
}

/// What the program prints, were it written with this slip. A slip of another request shows in what it loads.
pub fn text(slip: Slip, bytes: &[u8]) -> String {
    let (jobs, end) = unwrapped(slip, bytes);
    let told = lines(&figures(slip, &counted(slip, &jobs)));
    let refused = "refused 19\n".to_string();
    match (end, slip) {
        (End::Whole, Slip::NoJobsRefused) if jobs.is_empty() => refused,
        (End::Whole, _) | (End::Broken, Slip::BrokenEndsList) => told,
        (End::Broken, Slip::FiguresBefore19) => told + &refused,
        _ => refused,
    }
}

/// The jobs up to the end, or up to what is wrong.
fn unwrapped(slip: Slip, bytes: &[u8]) -> (Vec<&[u8]>, End) {
    let most = match slip {
        Slip::OneJobMore => MOST_JOBS + 1,
        Slip::OneJobLess => MOST_JOBS - 1,
        _ => MOST_JOBS,
    };
    let mut reader = Reader::new(bytes);
    let mut jobs = Vec::new();
    while !reader.at_end() {
        let field = reader.next_field();
        match field.filter(|field| field.tag == WRAPPER || slip == Slip::AnyWrapper) {
            Some(field) if jobs.len() < most => jobs.push(field.value),
            Some(_) => return (jobs, End::TooMany),
            None => return (jobs, End::Broken),
        }
    }
    (jobs, End::Whole)
}

fn counted(slip: Slip, jobs: &[&[u8]]) -> Totals {
    let mut totals = Totals::default();
    let mut board = SlippedBoard::empty(slip);
    let mut held = None;
    for job in jobs {
        if slip == Slip::LastJobOnly {
            totals = Totals::default();
        }
        if slip == Slip::EmptyPassedOver && job.is_empty() {
            continue;
        }
        let loaded = match slip {
            Slip::LongJobIsOne if job.len() > LONGEST_JOB => Err(Refusal(1)),
            _ => board.load(job),
        };
        match loaded {
            Ok(sheet) => {
                let plan = plan_on(&board, sheet);
                totals.add(&plan);
                held = Some(plan);
            }
            Err(refusal) => {
                totals.refused[line_of(slip, refusal)] += 1;
                match (slip, &held) {
                    (Slip::RefusedWidthAdded, _) => totals.widths += width_by_numbers(job),
                    (Slip::HeldAgain, Some(plan)) => {
                        totals.add(plan);
                        totals.accepted -= 1;
                    }
                    (Slip::StopsAtRefusal, _) => break,
                    _ => {}
                }
            }
        }
    }
    totals
}

fn line_of(slip: Slip, refusal: Refusal) -> usize {
    match slip {
        Slip::NineUnderSeven if refusal == Refusal(9) => place_of(Refusal(7)),
        _ => place_of(refusal),
    }
}

/// What the board holds, with the sheet that its load told.
fn plan_on(board: &SlippedBoard, (width, height): (usize, usize)) -> Plan {
    let rectangles = (0..).map_while(|vertex| board.rectangle(vertex).ok());
    Plan {
        width,
        height,
        rectangles: rectangles.collect(),
    }
}

/// The width of a job whose walls have numbers, though it is refused.
fn width_by_numbers(bytes: &[u8]) -> usize {
    let Ok(job) = job::read(bytes) else {
        return 0;
    };
    let walls = number_walls(&job);
    walls.map_or(0, |walls| place(&job, &walls).width)
}

/// The figures in the order of their lines.
fn figures(slip: Slip, totals: &Totals) -> Vec<usize> {
    let mut figures = totals.figures();
    match slip {
        Slip::FrameForgotten => figures[FRAME_CELLS] = 0,
        Slip::SheetWithoutFrame => figures[SHEET_CELLS] = figures[ROOM_CELLS],
        Slip::SheetOfSums => figures[SHEET_CELLS] = figures[WIDTHS] * figures[HEIGHTS],
        Slip::HeightsFirst => figures.swap(WIDTHS, HEIGHTS),
        Slip::FrameFirst => figures.swap(ROOM_CELLS, FRAME_CELLS),
        Slip::LinesByTests => {
            let by_tests = [1, 2, 3, 4, 5, 6, 17, 7, 18, 9];
            for (line, number) in by_tests.into_iter().enumerate() {
                figures[1 + line] = totals.refused[place_of(Refusal(number))];
            }
        }
        Slip::SixteenBits => figures.iter_mut().for_each(|figure| *figure %= 65_536),
        _ => {}
    }
    figures
}
