//! Plans drawn elsewhere: a plan's bytes, and whether that plan is good for a job, by the request's list, cell by cell and pair by pair.

use crate::drawing::{frame_neighbours, in_order, Plan, Rectangle, TAG_RECTANGLE, TAG_SHEET};
use crate::fields::Reader;
use crate::job::{self, round, Job};
use crate::{refusal, Refusal, ABOVE, BELOW, EAST, LEFT, NORTH, RIGHT, SOUTH, WEST};

/// The job's 1 to 6 and 17 in order, then 16, then yes or no.
pub fn judge(job: &[u8], plan: &[u8]) -> Result<bool, Refusal> {
    let job = job::read(job)?;
    let plan = read_plan(plan, job.vertices()).ok_or(refusal::NOT_A_PLAN)?;
    Ok(good(&job, &plan))
}

/// The bytes of a plan of so many vertices in order, and nothing behind.
pub fn read_plan(bytes: &[u8], vertices: usize) -> Option<Plan> {
    let mut reader = Reader::new(bytes);
    let sheet = value(&mut reader, TAG_SHEET, 2)?;
    let mut rectangles = Vec::new();
    for vertex in 0..vertices {
        let numbers = value(&mut reader, TAG_RECTANGLE, 5)?;
        if numbers[0] != vertex {
            return None;
        }
        rectangles.push(Rectangle {
            x1: numbers[1],
            y1: numbers[2],
            x2: numbers[3],
            y2: numbers[4],
        });
    }
    reader.at_end().then_some(Plan {
        width: sheet[0],
        height: sheet[1],
        rectangles,
    })
}

fn value(reader: &mut Reader, tag: u8, length: usize) -> Option<Vec<usize>> {
    let field = reader.next_field()?;
    let fits = field.tag == tag && field.value.len() == length;
    fits.then(|| field.value.iter().copied().map(usize::from).collect())
}

/// Every condition of the request, in its order, and the least sizes of W9: which of them hold.
#[derive(Clone, Copy, Debug, PartialEq, Eq)]
pub struct Conditions {
    pub frame: bool,
    pub inside: bool,
    pub cover: bool,
    pub no_four: bool,
    pub walls: bool,
    pub sides: bool,
    pub order: bool,
    pub sizes: bool,
}

impl Conditions {
    pub fn all(&self) -> bool {
        self.frame
            && self.inside
            && self.cover
            && self.no_four
            && self.walls
            && self.sides
            && self.order
            && self.sizes
    }
}

/// Each is looked at, so that a planner that leaves one out can be told from this one.
pub fn conditions(job: &Job, plan: &Plan) -> Conditions {
    let solid = |r: &Rectangle| r.x1 < r.x2 && r.y1 < r.y2;
    let inside = |r: &Rectangle| r.x2 <= plan.width && r.y2 <= plan.height;
    Conditions {
        frame: frame_lies_as_ours(plan),
        inside: plan.rectangles.iter().all(|r| solid(r) && inside(r)),
        cover: each_cell(plan, |rectangles| rectangles == 1),
        no_four: no_point_in_four(plan),
        walls: walls_where_joined(job, plan),
        sides: job.rooms().all(|room| labelled_sides(job, plan, room)),
        order: job.rooms().all(|room| star_order(job, plan, room)),
        sizes: job.rooms().all(|room| large_enough(job, plan, room)),
    }
}

pub fn good(job: &Job, plan: &Plan) -> bool {
    conditions(job, plan).all()
}

/// W and E full height, N and S between; that each is a cell thick is asked of every rectangle.
fn frame_lies_as_ours(plan: &Plan) -> bool {
    let [north, west, south, east] = [NORTH, WEST, SOUTH, EAST].map(|side| plan.rectangles[side]);
    let full_height = |r: Rectangle| r.y1 == 0 && r.y2 == plan.height;
    let between = |r: Rectangle| r.x1 == west.x2 && r.x2 == east.x1;
    full_height(west)
        && full_height(east)
        && west.x1 == 0
        && east.x2 == plan.width
        && between(north)
        && between(south)
        && north.y2 == plan.height
        && south.y1 == 0
}

/// Whether every cell of the sheet lies in so many rectangles.
pub fn each_cell(plan: &Plan, so_many: impl Fn(usize) -> bool) -> bool {
    let holds = |r: &Rectangle, x, y| (r.x1..r.x2).contains(&x) && (r.y1..r.y2).contains(&y);
    let count = |x, y| plan.rectangles.iter().filter(|r| holds(r, x, y)).count();
    (0..plan.width).all(|x| (0..plan.height).all(|y| so_many(count(x, y))))
}

fn no_point_in_four(plan: &Plan) -> bool {
    let holds = |r: &Rectangle, x, y| (r.x1..=r.x2).contains(&x) && (r.y1..=r.y2).contains(&y);
    (0..=plan.width).all(|x| {
        (0..=plan.height).all(|y| plan.rectangles.iter().filter(|r| holds(r, x, y)).count() < 4)
    })
}

/// Whether b stands on this side of a, with a cell's length of wall that is on both.
fn stands(a: &Rectangle, b: &Rectangle, side: u8) -> bool {
    let across = || (a.x1..a.x2).any(|x| (b.x1..b.x2).contains(&x));
    let upward = || (a.y1..a.y2).any(|y| (b.y1..b.y2).contains(&y));
    match side {
        ABOVE => a.y2 == b.y1 && across(),
        LEFT => a.x1 == b.x2 && upward(),
        BELOW => a.y1 == b.y2 && across(),
        _ => a.x2 == b.x1 && upward(),
    }
}

/// A pair shares a cell's length of wall exactly if the job joins it or it is two neighbouring frame sides.
fn walls_where_joined(job: &Job, plan: &Plan) -> bool {
    let shares = |a: usize, b: usize| {
        [ABOVE, LEFT, BELOW, RIGHT]
            .into_iter()
            .any(|side| stands(&plan.rectangles[a], &plan.rectangles[b], side))
    };
    (0..job.vertices()).all(|a| {
        (a + 1..job.vertices()).all(|b| shares(a, b) == (job.joins(a, b) || frame_neighbours(a, b)))
    })
}

fn labelled_sides(job: &Job, plan: &Plan, room: usize) -> bool {
    job.star_of(room).iter().all(|entry| {
        let neighbour = &plan.rectangles[entry.neighbour];
        stands(&plan.rectangles[room], neighbour, entry.kind)
    })
}

fn star_order(job: &Job, plan: &Plan, room: usize) -> bool {
    round(job.star_of(room)).all(|(entry, next)| in_order(entry, next, plan))
}

fn large_enough(job: &Job, plan: &Plan, room: usize) -> bool {
    let (r, size) = (&plan.rectangles[room], job.size_of(room));
    r.x1 + size.width <= r.x2 && r.y1 + size.height <= r.y2
}
