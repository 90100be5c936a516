//! Demand 3 held against the reference itself, cell by cell, so that a comparison with it means something.

use floors::LARGEST_SHEET;
use reference::cuts;
use reference::drawing::{touch, within_bound, Plan, Touch};
use reference::job::{Entry, Job};
use reference::register::{register, Wall, LEVEL, UPRIGHT};
use reference::{ABOVE, BELOW, EAST, LEFT, NORTH, RIGHT, SOUTH, WEST};

/// What is wrong with a held plan, if anything is.
pub fn plan_fault(job: &Job, plan: &Plan) -> Option<&'static str> {
    if !within_bound(job, plan) {
        return Some("the sheet is wider or higher than all rooms one behind the other, plus 2");
    }
    if plan.width.max(plan.height) > LARGEST_SHEET {
        return Some("the sheet is wider or higher than 250");
    }
    if !rooms_are_large_enough(job, plan) {
        return Some("a room is smaller than its least size");
    }
    if !walls_are_pushed(job, plan) {
        return Some("a wall could have a smaller number");
    }
    let Some(cells) = painted(plan) else {
        return Some("a cell lies in two rectangles, or a rectangle outside the sheet");
    };
    if cells.iter().any(Option::is_none) {
        return Some("a cell lies in no rectangle");
    }
    if four_at_a_point(plan, &cells) {
        return Some("four rectangles meet at a point");
    }
    if !contacts_are_walls(job, plan) {
        return Some("contacts and shared walls are not the same");
    }
    if !touches_are_counted(plan, &cells) {
        return Some(
            "a shared wall is not as long as the cells that lie along it, or not on that side",
        );
    }
    if register(plan) != walls_by_contacts(job, plan) {
        return Some("the register has other walls than the contacts join");
    }
    if cuts::sliceable(plan) != cut_as_they_come(plan) {
        return Some("whether the floor comes apart depends on which cut is taken first");
    }
    if !job
        .rooms()
        .all(|room| stands_round(plan, room, job.star_of(room)))
    {
        return Some("neighbours do not stand round a room in its star's order");
    }
    None
}

/// Which rectangle covers each cell; nothing if two do.
fn painted(plan: &Plan) -> Option<Vec<Option<usize>>> {
    let mut cells = vec![None; plan.width * plan.height];
    for (vertex, r) in plan.rectangles.iter().enumerate() {
        for y in r.y1..r.y2 {
            for x in r.x1..r.x2 {
                if x >= plan.width || y >= plan.height || cells[y * plan.width + x].is_some() {
                    return None;
                }
                cells[y * plan.width + x] = Some(vertex);
            }
        }
    }
    Some(cells)
}

fn four_at_a_point(plan: &Plan, cells: &[Option<usize>]) -> bool {
    let cell = |x: usize, y: usize| cells[y * plan.width + x];
    (1..plan.height).any(|y| {
        (1..plan.width).any(|x| {
            let mut round = [
                cell(x - 1, y - 1),
                cell(x, y - 1),
                cell(x - 1, y),
                cell(x, y),
            ];
            round.sort_unstable();
            round.windows(2).all(|two| two[0] != two[1])
        })
    })
}

fn contacts_are_walls(job: &Job, plan: &Plan) -> bool {
    let frame = [(NORTH, WEST), (WEST, SOUTH), (SOUTH, EAST), (NORTH, EAST)];
    (0..job.vertices()).all(|a| {
        (a + 1..job.vertices()).all(|b| {
            let wanted = job.joins(a, b) || frame.contains(&(a, b));
            wanted == touch(&plan.rectangles[a], &plan.rectangles[b]).is_some()
        })
    })
}

/// Every pair, both ways round, touches as its cells do that lie side by side or one over the other.
fn touches_are_counted(plan: &Plan, cells: &[Option<usize>]) -> bool {
    let vertices = plan.rectangles.len();
    let counted = counted_touches(plan, cells);
    (0..vertices).all(|u| {
        (0..vertices).all(|v| {
            let said = touch(&plan.rectangles[u], &plan.rectangles[v]);
            u == v || said == counted[u * vertices + v]
        })
    })
}

/// By the first vertex, then the second.
fn counted_touches(plan: &Plan, cells: &[Option<usize>]) -> Vec<Option<Touch>> {
    let cell = |x: usize, y: usize| cells[y * plan.width + x].expect("every cell is painted");
    let vertices = plan.rectangles.len();
    let mut all: Vec<Option<Touch>> = vec![None; vertices * vertices];
    // One edge of two cells more.
    let mut count = |one: usize, other: usize, side: u8| {
        if one != other {
            let touch = all[one * vertices + other].get_or_insert(Touch { side, length: 0 });
            touch.length += 1;
        }
    };
    for y in 0..plan.height {
        for x in 0..plan.width {
            if x > 0 {
                count(cell(x, y), cell(x - 1, y), LEFT);
                count(cell(x - 1, y), cell(x, y), RIGHT);
            }
            if y > 0 {
                count(cell(x, y), cell(x, y - 1), BELOW);
                count(cell(x, y - 1), cell(x, y), ABOVE);
            }
        }
    }
    all
}

/// Each neighbour on the side its kind says, and the walk round the room, back to its start, meets them in the star's order.
fn stands_round(plan: &Plan, room: usize, star: &[Entry]) -> bool {
    let r = &plan.rectangles[room];
    let on_its_side = star.iter().all(|entry| {
        let o = &plan.rectangles[entry.neighbour];
        match entry.kind {
            ABOVE => o.y1 == r.y2,
            LEFT => o.x2 == r.x1,
            BELOW => o.y2 == r.y1,
            _ => o.x1 == r.x2,
        }
    });
    let in_order = (0..star.len()).all(|place| {
        let (entry, follower) = (&star[place], &star[(place + 1) % star.len()]);
        let first = &plan.rectangles[entry.neighbour];
        let next = &plan.rectangles[follower.neighbour];
        match (entry.kind, follower.kind) {
            (a, b) if a != b => b == (a + 1) % 4,
            (ABOVE, _) => next.x2 <= first.x1,
            (LEFT, _) => next.y2 <= first.y1,
            (BELOW, _) => first.x2 <= next.x1,
            _ => first.y2 <= next.y1,
        }
    });
    on_its_side && in_order
}

/// The sides of the rooms, and of the frame where it joins walls, each with the mark of its wall: contacts join, and nothing else does.
struct Marks {
    /// By vertex, then by kind.
    of: Vec<[usize; 4]>,
}

impl Marks {
    fn joined_by(job: &Job) -> Marks {
        let apart = (0..job.vertices()).map(|v| std::array::from_fn(|side| 4 * v + side));
        let mut marks = Marks {
            of: apart.collect(),
        };
        for room in job.rooms() {
            for entry in job.star_of(room) {
                let back = reference::opposite(entry.kind);
                marks.join((room, entry.kind), (entry.neighbour, back));
            }
        }
        marks
    }

    fn at(&self, (vertex, side): (usize, u8)) -> usize {
        self.of[vertex][usize::from(side)]
    }

    fn join(&mut self, one: (usize, u8), other: (usize, u8)) {
        let (old, new) = (self.at(one), self.at(other));
        for mark in self.of.iter_mut().flatten().filter(|mark| **mark == old) {
            *mark = new;
        }
    }
}

fn rooms_are_large_enough(job: &Job, plan: &Plan) -> bool {
    job.rooms().all(|room| {
        let (r, size) = (&plan.rectangles[room], job.size_of(room));
        r.x1 + size.width <= r.x2 && r.y1 + size.height <= r.y2
    })
}

/// W7: each wall to the right of a room, or above it, is where some room or contact on that wall needs it to be, counted from a wall before it; so none could
/// have a smaller number. The walls of W and S have number 1.
fn walls_are_pushed(job: &Job, plan: &Plan) -> bool {
    let marks = Marks::joined_by(job);
    let first = |room: usize, side: u8| {
        let frame = job.kind_of(room, usize::from(side)).is_some();
        !frame || near_of(plan, room, side) == 1
    };
    job.rooms().all(|room| {
        let far_walls = [RIGHT, ABOVE].into_iter().all(|far| {
            let mark = marks.at((room, far));
            let on_it = |other: &usize| marks.at((*other, far)) == mark;
            job.rooms()
                .filter(on_it)
                .any(|other| pushes(job, plan, other, far))
        });
        far_walls && first(room, LEFT) && first(room, BELOW)
    })
}

/// Where the side to the left of a room lies, or the one below it.
fn near_of(plan: &Plan, room: usize, near: u8) -> usize {
    match near {
        LEFT => plan.rectangles[room].x1,
        _ => plan.rectangles[room].y1,
    }
}

/// Whether the room's right or upper side lies no further than its own size, or a room over or beside it, asks for.
fn pushes(job: &Job, plan: &Plan, room: usize, far: u8) -> bool {
    let (r, size) = (&plan.rectangles[room], job.size_of(room));
    let (place, near, least, crossing) = match far {
        RIGHT => (r.x2, LEFT, size.width, [ABOVE, BELOW]),
        _ => (r.y2, BELOW, size.height, [LEFT, RIGHT]),
    };
    let by_contact = job.star_of(room).iter().any(|entry| {
        job.is_room(entry.neighbour)
            && crossing.contains(&entry.kind)
            && near_of(plan, entry.neighbour, near) + 1 == place
    });
    by_contact || near_of(plan, room, near) + least == place
}

/// The walls as the job's contacts join the rooms' sides, in the register's order: n + 3 of them, with 4n sides.
fn walls_by_contacts(job: &Job, plan: &Plan) -> Vec<Wall> {
    let marks = Marks::joined_by(job);
    let mut found: Vec<(usize, Wall)> = Vec::new();
    for room in job.rooms() {
        for side in [ABOVE, LEFT, BELOW, RIGHT] {
            let alone = wall_of_side(plan, room, side);
            let mark = marks.at((room, side));
            match found.iter_mut().find(|(other, _)| *other == mark) {
                Some((_, wall)) => add_side(wall, &alone),
                None => found.push((mark, alone)),
            }
        }
    }
    let mut walls: Vec<Wall> = found.into_iter().map(|(_, wall)| wall).collect();
    walls.sort_unstable();
    let sides: usize = walls.iter().map(|wall| wall.sides).sum();
    assert_eq!(walls.len(), job.stars.len() + 3, "walls");
    assert_eq!(sides, 4 * job.stars.len(), "room sides");
    walls
}

/// The wall that one side of a room would be by itself.
fn wall_of_side(plan: &Plan, room: usize, side: u8) -> Wall {
    let r = &plan.rectangles[room];
    let (direction, number, beginning, end) = match side {
        ABOVE => (LEVEL, r.y2, r.x1, r.x2),
        LEFT => (UPRIGHT, r.x1, r.y1, r.y2),
        BELOW => (LEVEL, r.y1, r.x1, r.x2),
        _ => (UPRIGHT, r.x2, r.y1, r.y2),
    };
    Wall {
        direction,
        number,
        beginning,
        end,
        sides: 1,
    }
}

fn add_side(wall: &mut Wall, side: &Wall) {
    wall.beginning = wall.beginning.min(side.beginning);
    wall.end = wall.end.max(side.end);
    wall.sides += 1;
}

/// The last cut that there is, always, and never another: a floor is sliceable if this ends with rooms alone.
fn cut_as_they_come(plan: &Plan) -> bool {
    let mut waiting = vec![cuts::all_rooms(plan)];
    while let Some(rooms) = waiting.pop() {
        if rooms.len() > 1 {
            let mut all = cuts::cuts(plan, &rooms);
            let one_way = all
                .windows(2)
                .all(|two| two[0].direction == two[1].direction);
            assert!(one_way, "two cuts cross, where four rooms would meet");
            let Some(cut) = all.pop() else {
                return false;
            };
            let (one, other) = cuts::parted(plan, &rooms, cut);
            waiting.extend([one, other]);
        }
    }
    true
}
