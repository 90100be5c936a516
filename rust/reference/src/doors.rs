//! For door fitting: the walls that two rooms share, each once.

use crate::drawing::{stretch, touch, Plan, Touch};
use crate::FIRST_ROOM;

/// Rooms u and v, u the lower number; where v stands seen from u, and where along the wall they meet.
#[derive(Clone, Copy, Debug, PartialEq, Eq)]
pub struct Door {
    pub u: usize,
    pub v: usize,
    pub touch: Touch,
    pub from: usize,
    pub to: usize,
}

/// Ordered by u, then v.
pub fn doors(plan: &Plan) -> Vec<Door> {
    doors_by(plan, |u, v| touch(&plan.rectangles[u], &plan.rectangles[v]))
}

/// The same with another answer of how two rooms touch, which the comparison's planners with a slip bring along.
pub fn doors_by(plan: &Plan, touch: impl Fn(usize, usize) -> Option<Touch>) -> Vec<Door> {
    let mut all = Vec::new();
    for u in FIRST_ROOM..plan.rectangles.len() {
        for v in u + 1..plan.rectangles.len() {
            if let Some(touch) = touch(u, v) {
                let (from, to) = stretch(&plan.rectangles[u], &plan.rectangles[v], touch.side);
                all.push(Door {
                    u,
                    v,
                    touch,
                    from,
                    to,
                });
            }
        }
    }
    all
}
