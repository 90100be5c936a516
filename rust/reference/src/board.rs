//! The board: holds at most one job with its plan. A refusal leaves it, and the caller's buffer, as they were.

use crate::cuts::{self, Part};
use crate::doors::{doors, Door};
use crate::drawing::{draw, touch, Plan, Rectangle, Touch};
use crate::job::{read, Job};
use crate::register::{self, register, Wall};
use crate::turning::turned;
use crate::{refusal, Refusal, ABOVE};

#[derive(Clone, Debug, Default, PartialEq, Eq)]
pub struct Board {
    held: Option<Held>,
}

#[derive(Clone, Debug, PartialEq, Eq)]
struct Held {
    job: Job,
    plan: Plan,
}

/// Width and height.
pub type Sheet = (usize, usize);

impl Board {
    pub fn empty() -> Self {
        Board::default()
    }

    /// Tests 1 to 6, 17, 7, 18 and 9, each over the entire job before the next.
    pub fn load(&mut self, bytes: &[u8]) -> Result<Sheet, Refusal> {
        let job = read(bytes)?;
        self.hold(job)
    }

    /// 10, 11, 12, then 7, 18 and 9 of the turned labelling.
    pub fn turn(&mut self, one: usize, other: usize) -> Result<Sheet, Refusal> {
        let job = turned(&self.held()?.job, one, other)?;
        self.hold(job)
    }

    /// Again and again the first room contact of kind 0, by lower-numbered room and then the other, whose turn is accepted and makes the sheet narrower is
    /// turned, until there is none; how many turns were made. Only 10 is given: a turn that is refused is passed over.
    pub fn narrow(&mut self) -> Result<usize, Refusal> {
        let mut turns = 0;
        while let Some(narrower) = self.narrower()? {
            *self = narrower;
            turns += 1;
        }
        Ok(turns)
    }

    /// The board after the first turn that makes the sheet narrower, if there is one.
    fn narrower(&self) -> Result<Option<Board>, Refusal> {
        let held = self.held()?;
        let mut contacts: Vec<(usize, usize)> = Vec::new();
        for room in held.job.rooms() {
            for entry in held.job.star_of(room) {
                if entry.kind == ABOVE && held.job.is_room(entry.neighbour) {
                    contacts.push((room.min(entry.neighbour), room.max(entry.neighbour)));
                }
            }
        }
        contacts.sort();
        let turned = contacts.into_iter().filter_map(|(one, other)| {
            let mut board = self.clone();
            board.turn(one, other).ok().map(|(width, _)| (board, width))
        });
        let narrower = turned.filter(|(_, width)| *width < held.plan.width);
        Ok(narrower.map(|(board, _)| board).next())
    }

    pub fn rectangle(&self, vertex: usize) -> Result<Rectangle, Refusal> {
        let plan = &self.held()?.plan;
        plan.rectangles
            .get(vertex)
            .copied()
            .ok_or(refusal::NO_SUCH_VERTEX)
    }

    /// The side on which the other stands, seen from the one, and the shared length; one vertex asked twice has none.
    pub fn touch(&self, one: usize, other: usize) -> Result<Option<Touch>, Refusal> {
        let (a, b) = (self.rectangle(one)?, self.rectangle(other)?);
        Ok(touch(&a, &b).filter(|_| one != other))
    }

    pub fn doors(&self) -> Result<Vec<Door>, Refusal> {
        Ok(doors(&self.held()?.plan))
    }

    /// The register is no thing of its own here: what is held is always what a fresh count from the plan gives.
    pub fn walls(&self) -> Result<Vec<Wall>, Refusal> {
        Ok(register(&self.held()?.plan))
    }

    /// Whether the rooms come apart by straight cuts.
    pub fn sliceable(&self) -> Result<bool, Refusal> {
        Ok(cuts::sliceable(&self.held()?.plan))
    }

    /// 10, then 15 for a floor that is not sliceable.
    pub fn cuts(&self) -> Result<Vec<Part>, Refusal> {
        cuts::tree(&self.held()?.plan).ok_or(refusal::NOT_SLICEABLE)
    }

    pub fn write_job(&self, buffer: &mut [u8]) -> Result<usize, Refusal> {
        write(&self.held()?.job.bytes(), buffer)
    }

    pub fn write_plan(&self, buffer: &mut [u8]) -> Result<usize, Refusal> {
        write(&self.held()?.plan.bytes(), buffer)
    }

    pub fn write_walls(&self, buffer: &mut [u8]) -> Result<usize, Refusal> {
        write(&register::bytes(&self.walls()?), buffer)
    }

    /// 10, then 15, then 14.
    pub fn write_cuts(&self, buffer: &mut [u8]) -> Result<usize, Refusal> {
        write(&cuts::bytes(&self.cuts()?), buffer)
    }

    pub fn job(&self) -> Option<&Job> {
        self.held.as_ref().map(|held| &held.job)
    }

    pub fn plan(&self) -> Option<&Plan> {
        self.held.as_ref().map(|held| &held.plan)
    }

    fn held(&self) -> Result<&Held, Refusal> {
        self.held.as_ref().ok_or(refusal::NO_PLAN)
    }

    /// Nothing is held before the last test has passed.
    fn hold(&mut self, job: Job) -> Result<Sheet, Refusal> {
        let plan = draw(&job)?;
        let sheet = (plan.width, plan.height);
        self.held = Some(Held { job, plan });
        Ok(sheet)
    }
}

/// Fills the front of the buffer and touches nothing behind it.
fn write(bytes: &[u8], buffer: &mut [u8]) -> Result<usize, Refusal> {
    let front = buffer
        .get_mut(..bytes.len())
        .ok_or(refusal::BUFFER_TOO_SHORT)?;
    front.copy_from_slice(bytes);
    Ok(bytes.len())
}
