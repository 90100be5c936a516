//! Jobs with plans that contractors might return (W8): ours, ours stretched or drawn with other sizes, and plans that are wrong in one way or another.

use crate::alone::undrawable;
use crate::damage::{any_job, damaged_job, finished_floor};
use floors::{renumbered, turned_at_random, Chance, LARGEST_SIZE};
use reference::drawing::{draw, place, Plan, Rectangle};
use reference::job::{Job, Size};
use reference::walls::number_walls;

/// What a byte holds.
const LARGEST: usize = 255;

/// A job's bytes and a plan's.
pub struct Returned {
    pub job: Vec<u8>,
    pub plan: Vec<u8>,
}

/// One case. Floors here are small enough for the reference, which looks at every cell.
pub fn any_returned(chance: &mut Chance) -> Returned {
    let job = finished_floor(chance);
    match chance.below(20) {
        0..=3 => of(&job, ours(&job)),
        4..=8 => of(&job, drawn_larger(chance, &job)),
        9..=13 => {
            let plan = drawn_larger(chance, &job);
            of(&job, spoilt(chance, plan))
        }
        14 => of_another(chance, &job),
        15..=16 => of_itself(&undrawable(chance), &job),
        17 => of_damaged(chance, job),
        18 => bytes_damaged(chance, &job),
        _ => Returned {
            job: any_job(chance),
            plan: ours(&job).bytes(),
        },
    }
}

fn of(job: &Job, plan: Plan) -> Returned {
    Returned {
        job: job.bytes(),
        plan: plan.bytes(),
    }
}

/// The plan by its wall numbers; of a job without it, one room's.
fn ours(job: &Job) -> Plan {
    let plan = number_walls(job).map(|walls| place(job, &walls));
    let fits = plan
        .ok()
        .filter(|plan| plan.width.max(plan.height) <= LARGEST);
    fits.unwrap_or_else(|| Plan {
        width: 3,
        height: 3,
        rectangles: vec![rectangle(0, 0, 1, 3); job.vertices()],
    })
}

/// A good plan with other proportions: rooms drawn larger than they must be, or lines moved apart, the frame's among them.
fn drawn_larger(chance: &mut Chance, job: &Job) -> Plan {
    let plan = if chance.percent(60) {
        draw(&asking_more(chance, job)).unwrap_or_else(|_| ours(job))
    } else {
        ours(job)
    };
    if chance.percent(60) {
        stretched(chance, &plan)
    } else {
        plan
    }
}

/// The job with some sizes raised.
fn asking_more(chance: &mut Chance, job: &Job) -> Job {
    let most = *chance.pick(&[2, 3, 5]);
    let sizes = job.rooms().map(|room| {
        let Size { width, height } = job.size_of(room);
        let more = |chance: &mut Chance, least: usize| {
            let larger = least + chance.below(most);
            larger.min(LARGEST_SIZE)
        };
        Size {
            width: more(chance, width),
            height: more(chance, height),
        }
    });
    Job {
        stars: job.stars.clone(),
        sizes: Some(sizes.collect()),
    }
}

/// Each line of the sheet moved further from the one before, as far as a byte reaches.
fn stretched(chance: &mut Chance, plan: &Plan) -> Plan {
    let across = moved_apart(chance, plan.width);
    let upward = moved_apart(chance, plan.height);
    Plan {
        width: across[plan.width],
        height: upward[plan.height],
        rectangles: plan
            .rectangles
            .iter()
            .map(|r| rectangle(across[r.x1], upward[r.y1], across[r.x2], upward[r.y2]))
            .collect(),
    }
}

fn moved_apart(chance: &mut Chance, last: usize) -> Vec<usize> {
    let mut spare = LARGEST - last;
    let most = *chance.pick(&[0, 1, 2, 6]);
    let mut lines = vec![0];
    for _ in 0..last {
        let more = chance.below(most + 1).min(spare);
        spare -= more;
        lines.push(lines[lines.len() - 1] + 1 + more);
    }
    lines
}

/// A plan made wrong, or sometimes only other.
fn spoilt(chance: &mut Chance, mut plan: Plan) -> Plan {
    let one = chance.below(plan.rectangles.len());
    let other = chance.below(plan.rectangles.len());
    match chance.below(9) {
        0 => return mirrored(chance, &plan),
        1 => plan.rectangles.swap(one, other),
        2 => moved_by_one(chance, &mut plan.rectangles[one]),
        3 => *some_side(chance, &mut plan.rectangles[one]) = usize::from(chance.byte()),
        4 => return one_line_moved(chance, &plan),
        5 => {
            let r = &mut plan.rectangles[one];
            std::mem::swap(&mut r.x1, &mut r.x2);
        }
        6 => plan.rectangles[one] = rectangle(1, 1, 1, 1),
        7 => plan.width = LARGEST.min(plan.width + chance.between(1, 3)),
        _ => plan.height -= 1,
    };
    plan
}

/// The sheet turned over: W and E change their numbers too, so that only the rooms stand on wrong sides.
fn mirrored(chance: &mut Chance, plan: &Plan) -> Plan {
    let over = |r: &Rectangle| rectangle(plan.width - r.x2, r.y1, plan.width - r.x1, r.y2);
    let mut rectangles: Vec<Rectangle> = plan.rectangles.iter().map(over).collect();
    if chance.percent(80) {
        rectangles.swap(1, 3);
    }
    Plan {
        width: plan.width,
        height: plan.height,
        rectangles,
    }
}

fn moved_by_one(chance: &mut Chance, r: &mut Rectangle) {
    let further = chance.percent(50);
    let side = some_side(chance, r);
    *side = if further {
        (*side + 1).min(LARGEST)
    } else {
        side.saturating_sub(1)
    };
}

fn some_side<'a>(chance: &mut Chance, r: &'a mut Rectangle) -> &'a mut usize {
    match chance.below(4) {
        0 => &mut r.x1,
        1 => &mut r.y1,
        2 => &mut r.x2,
        _ => &mut r.y2,
    }
}

/// All sides on one line go to the next: rooms between the two vanish, or walls meet that did not.
fn one_line_moved(chance: &mut Chance, plan: &Plan) -> Plan {
    let line = chance.between(1, plan.width - 1);
    let to = |x: usize| if x == line { x + 1 } else { x };
    let moved = |r: &Rectangle| rectangle(to(r.x1), r.y1, to(r.x2), r.y2);
    Plan {
        width: plan.width,
        height: plan.height,
        rectangles: plan.rectangles.iter().map(moved).collect(),
    }
}

/// The plan of a job with the same pairs on other sides, or of one with its rooms numbered otherwise.
fn of_another(chance: &mut Chance, job: &Job) -> Returned {
    let another = if chance.percent(70) {
        turned_at_random(chance, job.clone())
    } else {
        renumbered(chance, job)
    };
    of(job, drawn_larger(chance, &another))
}

/// A job that has no good plan, with the plan by its own numbers, which fails in one way only.
fn of_itself(job: &Job, instead: &Job) -> Returned {
    match number_walls(job) {
        Ok(_) => of(job, ours(job)),
        Err(_) => of(instead, ours(instead)),
    }
}

/// A damaged job with the plan of the job before; where the damage leaves it, the plan is still good.
fn of_damaged(chance: &mut Chance, job: Job) -> Returned {
    let damaged = if chance.percent(50) {
        crate::damage::damaged(chance, job.clone())
    } else {
        damaged_job(chance)
    };
    of(&damaged, ours(&job))
}

/// Bytes that are hardly a plan's: one changed, cut short, or something behind.
fn bytes_damaged(chance: &mut Chance, job: &Job) -> Returned {
    let mut returned = of(job, drawn_larger(chance, job));
    let plan = &mut returned.plan;
    match chance.below(5) {
        0 => plan.truncate(chance.below(plan.len())),
        1 => plan.push(chance.byte()),
        2 => {
            let place = chance.below(plan.len());
            plan[place] = chance.byte();
        }
        3 => {
            // Two rectangles exchanged with their numbers.
            let fields = (plan.len() - 5) / 8;
            let (one, other) = (chance.below(fields), chance.below(fields));
            for place in 0..8 {
                plan.swap(5 + 8 * one + place, 5 + 8 * other + place);
            }
        }
        _ => {
            // The last rectangle is missing, or stands twice.
            let last = plan[plan.len() - 8..].to_vec();
            if chance.percent(50) {
                plan.truncate(plan.len() - 8);
            } else {
                plan.extend(last);
            }
        }
    }
    returned
}

fn rectangle(x1: usize, y1: usize, x2: usize, y2: usize) -> Rectangle {
    Rectangle { x1, y1, x2, y2 }
}
