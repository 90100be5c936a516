//! Floors of sixty rooms that are always the same: three that are accepted and two whose walls run in a circle.

use crate::floor::{job_of, rectangle, Floor, MOST_ROOMS};
use reference::drawing::Rectangle;
use reference::job::Job;
use reference::{opposite, ABOVE, FIRST_ROOM, RIGHT};

const COLUMNS: usize = 6;
const BRICKS: usize = MOST_ROOMS / COLUMNS;

/// The floors by name.
pub fn known_floors() -> Vec<(&'static str, Job)> {
    vec![
        ("row", row()),
        ("bricks", bricks()),
        ("spiral", spiral()),
        ("ring", ring()),
        ("closed bricks", closed_bricks()),
    ]
}

fn row() -> Job {
    drawn(Floor {
        width: MOST_ROOMS,
        height: 1,
        rooms: (0..MOST_ROOMS).map(|x| rectangle(x, 0, x + 1, 1)).collect(),
    })
}

/// Columns of bricks, every second one shifted by half a brick.
fn bricks() -> Job {
    let height = 2 * BRICKS;
    let mut rooms = Vec::new();
    for x in 0..COLUMNS {
        let mut y1 = 0;
        for brick in 1..=BRICKS {
            let y2 = if brick == BRICKS {
                height
            } else {
                2 * brick - x % 2
            };
            rooms.push(rectangle(x, y1, x + 1, y2));
            y1 = y2;
        }
    }
    drawn(Floor {
        width: COLUMNS,
        height,
        rooms,
    })
}

/// Each room lies along one whole side of all before it, and the sides go round.
fn spiral() -> Job {
    let mut whole = rectangle(MOST_ROOMS, MOST_ROOMS, MOST_ROOMS + 1, MOST_ROOMS + 1);
    let mut rooms = vec![whole];
    for room in 1..MOST_ROOMS {
        let r = whole;
        let strip = match room % 4 {
            0 => rectangle(r.x1, r.y2, r.x2, r.y2 + 1),
            1 => rectangle(r.x1 - 1, r.y1, r.x1, r.y2),
            2 => rectangle(r.x1, r.y1 - 1, r.x2, r.y1),
            _ => rectangle(r.x2, r.y1, r.x2 + 1, r.y2),
        };
        rooms.push(strip);
        whole = Rectangle {
            x1: r.x1.min(strip.x1),
            y1: r.y1.min(strip.y1),
            x2: r.x2.max(strip.x2),
            y2: r.y2.max(strip.y2),
        };
    }
    for r in &mut rooms {
        *r = rectangle(
            r.x1 - whole.x1,
            r.y1 - whole.y1,
            r.x2 - whole.x1,
            r.y2 - whole.y1,
        );
    }
    drawn(Floor {
        width: whole.x2 - whole.x1,
        height: whole.y2 - whole.y1,
        rooms,
    })
}

/// The row, with its first room again to the right of its last.
fn ring() -> Job {
    let mut job = row();
    join(&mut job, FIRST_ROOM + MOST_ROOMS - 1, FIRST_ROOM, RIGHT);
    job
}

/// The bricks, with the lowest of each column again above its highest.
fn closed_bricks() -> Job {
    let mut job = bricks();
    for column in 0..COLUMNS {
        let lowest = FIRST_ROOM + column * BRICKS;
        join(&mut job, lowest + BRICKS - 1, lowest, ABOVE);
    }
    job
}

/// Two rooms that touch opposite frame sides touch each other instead.
fn join(job: &mut Job, one: usize, other: usize, kind: u8) {
    for (room, neighbour, kind) in [(one, other, kind), (other, one, opposite(kind))] {
        for entry in job.star_of_mut(room) {
            if entry.neighbour == usize::from(kind) {
                entry.neighbour = neighbour;
            }
        }
    }
}

fn drawn(floor: Floor) -> Job {
    job_of(&floor).expect("no two of its rooms meet only at a corner")
}
