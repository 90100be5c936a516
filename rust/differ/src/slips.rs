//! Planners with one known slip each. A comparison that lets one of them pass would show little.

use crate::circle::{kinds_of, list, places};
use crate::planner::Planner;
use floors::{LARGEST_SHEET, LARGEST_SIZE};
use reference::cuts::{self, cuts, tree_by, Cut, Part};
use reference::doors::{doors_by, Door};
use reference::drawing::{faults, in_order, meet_only_at_a_corner, place, touch};
use reference::drawing::{Faults, Plan, Rectangle, Touch};
use reference::elsewhere::{conditions, each_cell, read_plan};
use reference::fields::{put_field, Reader};
use reference::job::{changes, goes_on, nobody_twice, read_by, sizes_are_fit, star_is_fit};
use reference::job::{Job, Size, Star, ONE_CELL};
use reference::register::{self, register, Wall, LEVEL, UPRIGHT};
use reference::turning::turned;
use reference::walls::{far_walls, number_walls, WallNumbers};
use reference::{Board, Refusal, ABOVE, BELOW, FIRST_ROOM, LEFT, RIGHT};

#[derive(Clone, Copy, Debug, PartialEq, Eq)]
pub enum Slip {
    /// Walls numbered from rooms and joins only, without the contact rules.
    RoomsOnly,
    /// The area sum trusted alone: an overlap and a gap of one size cancel.
    AreaAlone,
    /// An item of the drawing test left out.
    NoArea,
    NoUnjoined,
    NoCorner,
    NoOrder,
    /// Above-lists read left to right.
    AboveLeftToRight,
    /// A refused load empties the board.
    RefusalEmpties,
    /// The first plan is kept for ever.
    FirstPlanKept,
    /// A turn reports done and keeps the old board.
    TurnKeeps,
    /// Every turn is refused.
    TurnRefuses,
    /// A frame side named in a turn is answered like a question.
    TurnAnswers13,
    /// One vertex asked twice touches itself.
    TouchesItself,
    /// One vertex asked twice is "none" before its number is looked at.
    NoneBefore13,
    /// The side on which the first stands, seen from the second.
    SeenFromSecond,
    /// The length of the longer of the two walls.
    LongerWall,
    /// A corner is a wall of length 0, to the drawing test too.
    CornerTouches,
    /// Two that lie apart with sides on one line touch with length 0.
    OneLineTouches,
    /// Frame sides do not touch each other, as no job joins them.
    FrameApart,
    /// Walls joined because their numbers are equal.
    JoinedByNumbers,
    /// A frame side counted as a room side.
    FrameSideCounted,
    /// A wall's length in the place of its end.
    LengthForEnd,
    /// The register stays as it was before a turn.
    RegisterKept,
    /// Level walls come first.
    LevelFirst,
    /// The rightmost upright cut is taken first.
    RightmostFirst,
    /// The highest level cut is taken first.
    HighestFirst,
    /// The right or upper part is written before the other.
    OtherPartFirst,
    /// A cut may pass through a room.
    CutThroughRoom,
    /// A cut's place is counted from where the rooms begin.
    PlaceFromRooms,
    /// Of a floor that is not sliceable, 14 before 15.
    FourteenFirst,
    /// Numbers cut to one byte.
    OneByteNumbers,
    /// The buffer behind the bytes is cleared.
    ClearsBehind,
    /// A buffer that just fits is refused.
    WantsOneMore,
    /// The job as loaded is written, without its turns.
    WritesOldJob,
    /// Test 4 is made before test 3.
    FourBeforeThree,
    /// A job with n too large and bytes missing is 1.
    ShapeBeforeCount,
    /// The star question answers jobs with bytes left over.
    StarOfLongerJob,
    /// A star that goes round twice is accepted.
    TwiceRound,
    /// Four changes of kind are enough, whichever they are.
    AnyFourChanges,
    /// A star that does not start with its first above-neighbour is 5.
    FirstAboveOnly,
    /// Stars are held, and written, from their first above-neighbour on.
    HeldFromFirstAbove,
    /// Last is who stands last of the list as written, not on the circle.
    LastAsWritten,
    /// Document 01's old rule: a turn moves an entry over the star's start.
    EntryMoved,
    /// The order test does not look from the star's end to its start.
    OrderNotClosed,
    /// Widths taken for heights and heights for widths.
    SizesExchanged,
    /// A contact asks for the size of its room, too.
    SizeOfContacts,
    /// Sizes that are all 1 are accepted.
    OnesAccepted,
    /// A size of 16 is accepted.
    SixteenAccepted,
    /// A size of 0 is accepted, and counts as 1.
    NoughtAccepted,
    /// Test 17 is made before tests 3 to 6.
    SeventeenFirst,
    /// The sizes are lost by a turn.
    SizesLostByTurn,
    /// The sizes are held and written, but ask for nothing.
    SizesIgnored,
    /// A job is written without its sizes.
    SizesNotWritten,
    /// A job without sizes that has as many rooms as the one held keeps the sizes of that.
    SizesKept,
    /// A sheet too wide is 18 before the level walls are looked at for a circle.
    EighteenBeforeSeven,
    /// Walls in a circle are pushed up until the sheet is too large.
    CircleTooLarge,
    /// The drawing test is made before 18.
    NineBeforeEighteen,
    /// A sheet of 251 is accepted.
    SheetOf251,
    /// Only the width is looked at for 18.
    AnyHeight,
    /// 18 is given on a load only.
    AnyTurnedSheet,
    /// A field of sizes in front of the stars is accepted.
    SizesInFront,
    /// Two fields of sizes are accepted, and the second counts.
    SizesTwice,
    /// A field of too few sizes is accepted; the other rooms have 1.
    FewerSizes,
    /// A field of another tag behind the stars is taken for the sizes.
    AnyTag,
    /// The last contact that narrows is turned, not the first.
    LastNarrows,
    /// A turn that keeps the width counts as one that narrows.
    WidthKept,
    /// Narrowing stops after one round over the list of contacts.
    OneRoundOver,
    /// Narrowing stops after one turn.
    OneTurn,
    /// Contacts in the order of the room that lies lower, not of the lower number.
    ByLowerLying,
    /// Contacts to the right are turned as well.
    SidewaysToo,
    /// The register stays as it was before a narrowing.
    RegisterKeptNarrow,
    /// One turn more is told than was made, where any was.
    OneTurnMore,
    /// Nothing is narrowed where none is held, and 0 is told.
    NothingNarrowed,
    /// A plan may have neighbours on another side than their label says.
    SideNotAsked,
    /// The frame of a plan has to be one cell thick.
    FrameOneThick,
    /// A plan may have neighbours in another order.
    OrderNotAsked,
    /// A plan may leave cells to nobody.
    GapAllowed,
    /// A plan may have a point in four rectangles.
    FourAllowed,
    /// A plan may have walls between rooms that are not joined.
    UnjoinedAllowed,
    /// A plan may have rooms that are smaller than they must be.
    SizesNotAsked,
    /// Only our own plan is good.
    OursOnly,
    /// A plan of more than 250 cells is not good.
    PlanLimited,
    /// 16 comes before the job's own refusals.
    SixteenFirst,
    /// A plan of another number of vertices is not good, where 16 is due.
    NoForSixteen,
    /// In a text the height comes first, written and read.
    TextHeightFirst,
    /// A size of 1 by 1 is told in a text.
    TextOnesTold,
    /// No size is told in a text.
    TextSizesUntold,
    /// A text in which every size is 1 by 1 makes a job with a field of ones.
    TextOnesRead,
    /// The width of a refused job is added, where its walls have numbers.
    RefusedWidthAdded,
    /// A refused job adds the sheet of the job before it, which is still held.
    HeldAgain,
    /// Nothing is counted behind the first job that is refused.
    StopsAtRefusal,
    /// Only the last job is counted.
    LastJobOnly,
    /// An empty job is passed over.
    EmptyPassedOver,
    /// A job longer than other programs read counts under 1.
    LongJobIsOne,
    /// A job that falls to 9 counts under 7.
    NineUnderSeven,
    /// The frame's cells stay nought.
    FrameForgotten,
    /// The sheet's cells are those of the rooms.
    SheetWithoutFrame,
    /// The sheet's cells are the sum of widths times that of heights.
    SheetOfSums,
    /// Heights come before widths.
    HeightsFirst,
    /// The frame's cells come before those of rooms.
    FrameFirst,
    /// The refusals in the order of their tests, not of their numbers.
    LinesByTests,
    /// Figures cut to sixteen bits.
    SixteenBits,
    /// 201 jobs are taken.
    OneJobMore,
    /// 200 jobs are too many.
    OneJobLess,
    /// A broken wrapper ends the list.
    BrokenEndsList,
    /// A field of any tag is taken for a wrapper.
    AnyWrapper,
    /// No jobs are refused by 19.
    NoJobsRefused,
    /// The figures of the jobs before a broken wrapper are told, and then 19.
    FiguresBefore19,
}

/// Those that calls show.
pub const ALL: [Slip; 84] = [
    Slip::RoomsOnly,
    Slip::AreaAlone,
    Slip::NoArea,
    Slip::NoUnjoined,
    Slip::NoCorner,
    Slip::NoOrder,
    Slip::AboveLeftToRight,
    Slip::RefusalEmpties,
    Slip::FirstPlanKept,
    Slip::TurnKeeps,
    Slip::TurnRefuses,
    Slip::TurnAnswers13,
    Slip::TouchesItself,
    Slip::NoneBefore13,
    Slip::SeenFromSecond,
    Slip::LongerWall,
    Slip::CornerTouches,
    Slip::OneLineTouches,
    Slip::FrameApart,
    Slip::JoinedByNumbers,
    Slip::FrameSideCounted,
    Slip::LengthForEnd,
    Slip::RegisterKept,
    Slip::LevelFirst,
    Slip::RightmostFirst,
    Slip::HighestFirst,
    Slip::OtherPartFirst,
    Slip::CutThroughRoom,
    Slip::PlaceFromRooms,
    Slip::FourteenFirst,
    Slip::OneByteNumbers,
    Slip::ClearsBehind,
    Slip::WantsOneMore,
    Slip::WritesOldJob,
    Slip::FourBeforeThree,
    Slip::ShapeBeforeCount,
    Slip::StarOfLongerJob,
    Slip::TwiceRound,
    Slip::AnyFourChanges,
    Slip::FirstAboveOnly,
    Slip::HeldFromFirstAbove,
    Slip::LastAsWritten,
    Slip::EntryMoved,
    Slip::OrderNotClosed,
    Slip::SizesExchanged,
    Slip::SizeOfContacts,
    Slip::OnesAccepted,
    Slip::SixteenAccepted,
    Slip::NoughtAccepted,
    Slip::SeventeenFirst,
    Slip::SizesLostByTurn,
    Slip::SizesIgnored,
    Slip::SizesNotWritten,
    Slip::SizesKept,
    Slip::EighteenBeforeSeven,
    Slip::CircleTooLarge,
    Slip::NineBeforeEighteen,
    Slip::SheetOf251,
    Slip::AnyHeight,
    Slip::AnyTurnedSheet,
    Slip::SizesInFront,
    Slip::SizesTwice,
    Slip::FewerSizes,
    Slip::AnyTag,
    Slip::LastNarrows,
    Slip::WidthKept,
    Slip::OneRoundOver,
    Slip::OneTurn,
    Slip::ByLowerLying,
    Slip::SidewaysToo,
    Slip::RegisterKeptNarrow,
    Slip::OneTurnMore,
    Slip::NothingNarrowed,
    Slip::SideNotAsked,
    Slip::FrameOneThick,
    Slip::OrderNotAsked,
    Slip::GapAllowed,
    Slip::FourAllowed,
    Slip::UnjoinedAllowed,
    Slip::SizesNotAsked,
    Slip::OursOnly,
    Slip::PlanLimited,
    Slip::SixteenFirst,
    Slip::NoForSixteen,
];

/// Those that only texts show.
pub const OF_TEXTS: [Slip; 4] = [
    Slip::TextHeightFirst,
    Slip::TextOnesTold,
    Slip::TextSizesUntold,
    Slip::TextOnesRead,
];

/// Those that only the season's totals show.
pub const OF_TOTALS: [Slip; 20] = [
    Slip::RefusedWidthAdded,
    Slip::HeldAgain,
    Slip::StopsAtRefusal,
    Slip::LastJobOnly,
    Slip::EmptyPassedOver,
    Slip::LongJobIsOne,
    Slip::NineUnderSeven,
    Slip::FrameForgotten,
    Slip::SheetWithoutFrame,
    Slip::SheetOfSums,
    Slip::HeightsFirst,
    Slip::FrameFirst,
    Slip::LinesByTests,
    Slip::SixteenBits,
    Slip::OneJobMore,
    Slip::OneJobLess,
    Slip::BrokenEndsList,
    Slip::AnyWrapper,
    Slip::NoJobsRefused,
    Slip::FiguresBefore19,
];

/// Those that a job and the same job started elsewhere show without the reference.
#[cfg(test)]
pub const OF_STARTS: [Slip; 5] = [
    Slip::FirstAboveOnly,
    Slip::HeldFromFirstAbove,
    Slip::LastAsWritten,
    Slip::EntryMoved,
    Slip::OrderNotClosed,
];

/// Those that the doors show as well.
#[cfg(test)]
pub const OF_TOUCHES: [Slip; 4] = [
    Slip::SeenFromSecond,
    Slip::LongerWall,
    Slip::CornerTouches,
    Slip::OneLineTouches,
];

/// Those that the joiner's list of one job shows as well.
#[cfg(test)]
pub const OF_WALLS: [Slip; 4] = [
    Slip::JoinedByNumbers,
    Slip::FrameSideCounted,
    Slip::LengthForEnd,
    Slip::LevelFirst,
];

/// Those that the cuts of one job show as well.
#[cfg(test)]
pub const OF_CUTS: [Slip; 5] = [
    Slip::RightmostFirst,
    Slip::HighestFirst,
    Slip::OtherPartFirst,
    Slip::CutThroughRoom,
    Slip::PlaceFromRooms,
];

/// Those of plans drawn elsewhere.
#[cfg(test)]
pub const OF_RETURNED: [Slip; 11] = [
    Slip::SideNotAsked,
    Slip::FrameOneThick,
    Slip::OrderNotAsked,
    Slip::GapAllowed,
    Slip::FourAllowed,
    Slip::UnjoinedAllowed,
    Slip::SizesNotAsked,
    Slip::OursOnly,
    Slip::PlanLimited,
    Slip::SixteenFirst,
    Slip::NoForSixteen,
];

/// Those that a job narrowed by the program shows as well.
#[cfg(test)]
pub const OF_NARROWING: [Slip; 6] = [
    Slip::LastNarrows,
    Slip::WidthKept,
    Slip::OneRoundOver,
    Slip::OneTurn,
    Slip::ByLowerLying,
    Slip::SidewaysToo,
];

/// Those of the sizes that the listing of one job shows as well.
#[cfg(test)]
pub const OF_SIZES: [Slip; 12] = [
    Slip::SizesExchanged,
    Slip::SizeOfContacts,
    Slip::OnesAccepted,
    Slip::SixteenAccepted,
    Slip::NoughtAccepted,
    Slip::SeventeenFirst,
    Slip::SizesIgnored,
    Slip::CircleTooLarge,
    Slip::SizesInFront,
    Slip::SizesTwice,
    Slip::FewerSizes,
    Slip::AnyTag,
];

pub struct SlippedBoard {
    slip: Slip,
    held: Option<(Job, Plan)>,
    loaded: Option<Job>,
    /// The plan from which the walls are counted.
    walled: Option<Plan>,
}

impl SlippedBoard {
    pub fn empty(slip: Slip) -> Self {
        SlippedBoard {
            slip,
            held: None,
            loaded: None,
            walled: None,
        }
    }

    /// Tests 7, 18 and 9.
    fn draw(&self, job: &Job) -> Result<Plan, Refusal> {
        let mut judged = job.clone();
        if self.slip == Slip::AboveLeftToRight {
            judged.stars.iter_mut().for_each(reverse_above);
        }
        let plan = place(&judged, &self.numbers(&judged)?);
        let undrawable = self.undrawable(&judged, &plan);
        if self.slip == Slip::NineBeforeEighteen && undrawable {
            return Err(Refusal(9));
        }
        if self.too_large(&plan) {
            return Err(Refusal(18));
        }
        if undrawable {
            return Err(Refusal(9));
        }
        Ok(plan)
    }

    /// The walls' numbers, or test 7.
    fn numbers(&self, job: &Job) -> Result<WallNumbers, Refusal> {
        if self.slip == Slip::EighteenBeforeSeven {
            let right = far_walls(job)[0];
            if right.is_some_and(|wall| wall + 1 > LARGEST_SHEET) {
                return Err(Refusal(18));
            }
        }
        let numbers = number_walls(&self.asked(job));
        match self.slip {
            Slip::CircleTooLarge if job.sizes.is_some() => numbers.map_err(|_| Refusal(18)),
            Slip::RoomsOnly => numbers.map(|_| pushed(job, |_| 0)),
            Slip::SizeOfContacts => numbers.map(|_| pushed(job, |least| least)),
            _ => numbers,
        }
    }

    /// The job with the sizes that its walls are numbered by.
    fn asked(&self, job: &Job) -> Job {
        let exchanged = |size: &Size| Size {
            width: size.height,
            height: size.width,
        };
        let at_least_one = |size: &Size| Size {
            width: size.width.max(1),
            height: size.height.max(1),
        };
        let sizes = job.sizes.as_ref();
        let sizes = match self.slip {
            Slip::SizesExchanged => sizes.map(|sizes| sizes.iter().map(exchanged).collect()),
            Slip::NoughtAccepted => sizes.map(|sizes| sizes.iter().map(at_least_one).collect()),
            Slip::SizesIgnored => None,
            _ => sizes.cloned(),
        };
        Job {
            stars: job.stars.clone(),
            sizes,
        }
    }

    fn too_large(&self, plan: &Plan) -> bool {
        match self.slip {
            Slip::SheetOf251 => plan.width.max(plan.height) > LARGEST_SHEET + 1,
            Slip::AnyHeight => plan.width > LARGEST_SHEET,
            _ => plan.width.max(plan.height) > LARGEST_SHEET,
        }
    }

    fn undrawable(&self, job: &Job, plan: &Plan) -> bool {
        let mut found = self.without_item(faults(job, plan));
        if self.slip == Slip::OrderNotClosed {
            found.order = !in_order_as_written(job, plan);
        }
        found.any()
    }

    /// Test 17.
    fn sizes_are_fit(&self, job: &Job) -> bool {
        let Some(sizes) = &job.sizes else {
            return true;
        };
        let each = sizes.iter().flat_map(|size| [size.width, size.height]);
        let all_within = |first, last| each.clone().all(|least| (first..=last).contains(&least));
        let larger = sizes.iter().any(|&size| size != ONE_CELL);
        match self.slip {
            Slip::OnesAccepted => all_within(1, LARGEST_SIZE),
            Slip::SixteenAccepted => all_within(1, LARGEST_SIZE + 1) && larger,
            Slip::NoughtAccepted => all_within(0, LARGEST_SIZE) && larger,
            _ => sizes_are_fit(job),
        }
    }

    /// The bytes with a field of sizes that the planner takes for one, as it should be.
    fn mended(&self, bytes: &[u8]) -> Vec<u8> {
        let Some(mut fields) = all_fields(bytes) else {
            return bytes.to_vec();
        };
        let rooms = usize::from(bytes[3]);
        let last = fields.len() - 1;
        match self.slip {
            Slip::SizesInFront if last > 0 && fields[1].0 == 7 => fields[1..].rotate_left(1),
            Slip::SizesTwice if last > rooms + 1 && fields[last - 1].0 == 7 => {
                fields.remove(last - 1);
            }
            Slip::FewerSizes if fields[last].0 == 7 && fields[last].1.len() < 2 * rooms => {
                fields[last].1.resize(2 * rooms, 1);
            }
            Slip::AnyTag if last == rooms + 1 => fields[last].0 = 7,
            _ => {}
        }
        let mut mended = Vec::new();
        for (tag, value) in fields {
            put_field(&mut mended, tag, &value);
        }
        mended
    }

    /// Test 5 of a star.
    fn star_is_fit(&self, star: &Star) -> bool {
        let changes = changes(star);
        match self.slip {
            Slip::TwiceRound => {
                !changes.is_empty() && changes.iter().all(goes_on) && nobody_twice(star)
            }
            Slip::AnyFourChanges => changes.len() == 4 && nobody_twice(star),
            Slip::FirstAboveOnly => star_is_fit(star) && kinds_of(star).is_sorted(),
            _ => star_is_fit(star),
        }
    }

    fn turned(&self, job: &Job, one: usize, other: usize) -> Result<Job, Refusal> {
        match self.slip {
            Slip::LastAsWritten => {
                // Sorted so, each list stands in its written order; only the kinds are taken over.
                let mut sorted = job.clone();
                for star in &mut sorted.stars {
                    star.sort_by_key(|entry| entry.kind);
                }
                Ok(with_kinds_of(job, &turned(&sorted, one, other)?))
            }
            Slip::EntryMoved => {
                let mut result = turned(job, one, other)?;
                for (star, before) in result.stars.iter_mut().zip(&job.stars) {
                    move_over_the_start(star, before);
                }
                Ok(result)
            }
            _ => turned(job, one, other),
        }
    }

    fn without_item(&self, mut found: Faults) -> Faults {
        match self.slip {
            Slip::AreaAlone => found.overlap = false,
            Slip::NoArea => found.area = false,
            Slip::NoUnjoined => found.unjoined = false,
            Slip::NoCorner | Slip::CornerTouches => found.corner = false,
            Slip::NoOrder => found.order = false,
            _ => {}
        }
        found
    }

    /// The contacts that narrowing looks at, in its order.
    fn contacts_above(&self, job: &Job) -> Vec<(usize, usize)> {
        let mut contacts = Vec::new();
        for room in job.rooms() {
            for entry in job.star_of(room) {
                let other = entry.neighbour;
                let wanted =
                    entry.kind == ABOVE || (entry.kind == RIGHT && self.slip == Slip::SidewaysToo);
                if wanted && job.is_room(other) {
                    contacts.push(match self.slip {
                        Slip::ByLowerLying => (room, other),
                        _ => (room.min(other), room.max(other)),
                    });
                }
            }
        }
        contacts.sort();
        if self.slip == Slip::LastNarrows {
            contacts.reverse();
        }
        contacts
    }

    /// The job and plan after a turn that counts as one that narrows.
    fn narrower(&self, job: &Job, width: usize, contact: (usize, usize)) -> Option<(Job, Plan)> {
        let next = turned(job, contact.0, contact.1).ok()?;
        let plan = self.draw(&next).ok()?;
        let counts = plan.width < width || (plan.width == width && self.slip == Slip::WidthKept);
        counts.then_some((next, plan))
    }

    /// A floor narrowed, and how many turns were made. A turn that keeps the width could go on for ever: there is an end to it here.
    fn slim(&self, mut job: Job, mut plan: Plan) -> (Job, Plan, usize) {
        let mut turns = 0;
        let rounds = match self.slip {
            Slip::OneTurn | Slip::OneRoundOver => 1,
            _ => plan.width,
        };
        for _ in 0..rounds {
            let before = turns;
            for contact in self.contacts_above(&job) {
                if let Some(next) = self.narrower(&job, plan.width, contact) {
                    (job, plan) = next;
                    turns += 1;
                    if self.slip != Slip::OneRoundOver {
                        break;
                    }
                }
            }
            if turns == before {
                break;
            }
        }
        (job, plan, turns)
    }

    /// Whether a plan drawn elsewhere is good for a job.
    fn is_good(&self, job: &Job, plan: &Plan) -> bool {
        let mut found = conditions(job, plan);
        match self.slip {
            Slip::SideNotAsked => found.sides = true,
            Slip::FrameOneThick => found.frame &= frame_is_thin(plan),
            Slip::OrderNotAsked => found.order = true,
            Slip::GapAllowed => found.cover = each_cell(plan, |rectangles| rectangles <= 1),
            Slip::FourAllowed => found.no_four = true,
            Slip::UnjoinedAllowed => found.walls = true,
            Slip::SizesNotAsked => found.sizes = true,
            Slip::OursOnly => return reference::drawing::draw(job).as_ref() == Ok(plan),
            Slip::PlanLimited => found.inside &= plan.width.max(plan.height) <= LARGEST_SHEET,
            _ => {}
        }
        found.all()
    }

    /// How two rectangles touch.
    fn touching(&self, a: &Rectangle, b: &Rectangle) -> Option<Touch> {
        let right = touch(a, b);
        match self.slip {
            Slip::SeenFromSecond => touch(b, a),
            Slip::LongerWall => right.map(|touch| longer(a, b, touch)),
            Slip::CornerTouches if meet_only_at_a_corner(a, b) => on_one_line(a, b),
            Slip::OneLineTouches => right.or_else(|| on_one_line(a, b)),
            _ => right,
        }
    }

    /// The register of a plan.
    fn walls_of(&self, plan: &Plan) -> Vec<Wall> {
        let mut walls = register(plan);
        match self.slip {
            Slip::JoinedByNumbers => walls = joined_by_numbers(walls),
            Slip::FrameSideCounted => walls.iter_mut().for_each(|wall| count_frame(plan, wall)),
            Slip::LengthForEnd => walls.iter_mut().for_each(|w| w.end -= w.beginning),
            Slip::LevelFirst => walls.sort_by_key(|wall| std::cmp::Reverse(wall.direction)),
            _ => {}
        }
        walls
    }

    /// The cut that is taken of those that there are. They are of one direction: two that cross would make four rooms meet at a point. So
    /// "level before upright" is no slip that could show.
    fn chosen_cut(&self, plan: &Plan, rooms: &[usize]) -> Cut {
        let all = cuts(plan, rooms);
        let last_of = |direction: u8| all.last().filter(|cut| cut.direction == direction);
        let chosen = match self.slip {
            Slip::RightmostFirst => last_of(UPRIGHT).or(all.first()),
            Slip::HighestFirst => last_of(LEVEL).or(all.first()),
            _ => all.first(),
        };
        let chosen = chosen.copied();
        chosen.unwrap_or_else(|| cut_through(plan, rooms))
    }

    fn number(&self, number: usize) -> usize {
        if self.slip == Slip::OneByteNumbers {
            number % 256
        } else {
            number
        }
    }

    fn held(&self) -> Result<&(Job, Plan), Refusal> {
        self.held.as_ref().ok_or(Refusal(10))
    }

    fn judge(&self, bytes: &[u8]) -> Result<(Job, Plan), Refusal> {
        let counted = bytes.len() >= 4 && bytes[..3] == [1, 0, 1];
        if self.slip == Slip::ShapeBeforeCount && counted && bytes[3] > 60 {
            let mut bytes_of_sixty = bytes.to_vec();
            bytes_of_sixty[3] = 60;
            if reference::job::values(&bytes_of_sixty).is_err() {
                return Err(Refusal(1));
            }
        }
        let bytes = &self.mended(bytes);
        if self.slip == Slip::SeventeenFirst && seventeen_by_bytes(bytes) {
            return Err(Refusal(17));
        }
        let mut job = match read_by(bytes, |star| self.star_is_fit(star)) {
            Err(Refusal(3)) if self.slip == Slip::FourBeforeThree => return Err(Refusal(4)),
            other => other?,
        };
        if !self.sizes_are_fit(&job) {
            return Err(Refusal(17));
        }
        if self.slip == Slip::SizesKept && job.sizes.is_none() {
            job.sizes = self.sizes_held(job.stars.len());
        }
        if self.slip == Slip::HeldFromFirstAbove {
            job.stars.iter_mut().for_each(start_with_above);
        }
        let plan = self.draw(&job)?;
        Ok((job, plan))
    }

    /// The sizes of the held job, where it has so many rooms.
    fn sizes_held(&self, rooms: usize) -> Option<Vec<Size>> {
        let (job, _) = self.held.as_ref()?;
        let sizes = job.sizes.as_ref()?;
        (sizes.len() == rooms).then(|| sizes.clone())
    }

    fn write(&self, bytes: Vec<u8>, buffer: &mut [u8]) -> Result<usize, Refusal> {
        let wanted = bytes.len() + usize::from(self.slip == Slip::WantsOneMore);
        if buffer.len() < wanted {
            return Err(Refusal(14));
        }
        buffer[..bytes.len()].copy_from_slice(&bytes);
        if self.slip == Slip::ClearsBehind {
            buffer[bytes.len()..].fill(0);
        }
        Ok(bytes.len())
    }
}

/// Whether every side of the frame is one cell thick.
fn frame_is_thin(plan: &Plan) -> bool {
    let sides = &plan.rectangles[..FIRST_ROOM];
    let thick = |(side, r): (usize, &Rectangle)| match side {
        0 | 2 => r.y2 - r.y1,
        _ => r.x2 - r.x1,
    };
    sides.iter().enumerate().all(|side| thick(side) == 1)
}

/// Tag and value of each field, where the bytes are fields and nothing else, the first that of one room or more.
fn all_fields(bytes: &[u8]) -> Option<Vec<(u8, Vec<u8>)>> {
    let mut reader = Reader::new(bytes);
    let mut fields = Vec::new();
    while !reader.at_end() {
        let field = reader.next_field()?;
        fields.push((field.tag, field.value.to_vec()));
    }
    let counted = bytes.len() >= 4 && bytes[..3] == [1, 0, 1] && bytes[3] > 0;
    counted.then_some(fields)
}

/// Whether test 17 would fail, were it made on the bytes alone.
fn seventeen_by_bytes(bytes: &[u8]) -> bool {
    let Ok(values) = reference::job::values(bytes) else {
        return false;
    };
    let outside = |sizes: &[u8]| {
        let most = LARGEST_SIZE as u8;
        sizes.iter().any(|least| !(1..=most).contains(least)) || sizes.iter().all(|&one| one == 1)
    };
    values.sizes.is_some_and(outside)
}

fn reverse_above(star: &mut Star) {
    let above = places(&kinds_of(star), ABOVE);
    for (&one, &other) in above.iter().zip(above.iter().rev()).take(above.len() / 2) {
        star.swap(one, other);
    }
}

fn start_with_above(star: &mut Star) {
    if let Some((begin, _)) = list(&kinds_of(star), ABOVE) {
        star.rotate_left(begin);
    }
}

fn in_order_as_written(job: &Job, plan: &Plan) -> bool {
    job.stars
        .iter()
        .all(|star| star.windows(2).all(|two| in_order(&two[0], &two[1], plan)))
}

/// The touch with the length of the longer wall.
fn longer(a: &Rectangle, b: &Rectangle, touch: Touch) -> Touch {
    let length = match touch.side {
        LEFT | RIGHT => (a.y2 - a.y1).max(b.y2 - b.y1),
        _ => (a.x2 - a.x1).max(b.x2 - b.x1),
    };
    Touch { length, ..touch }
}

/// A touch of length 0 where the second begins on a line on which the first ends.
fn on_one_line(a: &Rectangle, b: &Rectangle) -> Option<Touch> {
    let sides = [
        (ABOVE, a.y2 == b.y1),
        (LEFT, a.x1 == b.x2),
        (BELOW, a.y1 == b.y2),
        (RIGHT, a.x2 == b.x1),
    ];
    let &(side, _) = sides.iter().find(|(_, meet)| *meet)?;
    Some(Touch { side, length: 0 })
}

/// One wall for each direction and number.
fn joined_by_numbers(walls: Vec<Wall>) -> Vec<Wall> {
    let mut joined: Vec<Wall> = Vec::new();
    for wall in walls {
        match joined.last_mut() {
            Some(last) if (last.direction, last.number) == (wall.direction, wall.number) => {
                last.end = wall.end;
                last.sides += wall.sides;
            }
            _ => joined.push(wall),
        }
    }
    joined
}

/// One side more where a frame side lies along the wall.
fn count_frame(plan: &Plan, wall: &mut Wall) {
    let last = match wall.direction {
        UPRIGHT => plan.width - 1,
        _ => plan.height - 1,
    };
    wall.sides += usize::from(wall.number == 1 || wall.number == last);
}

/// Where the last rooms begin, whatever lies across: to the right if they do not all begin on one line, else upward.
fn cut_through(plan: &Plan, rooms: &[usize]) -> Cut {
    let beginnings = |direction| rooms.iter().map(move |&r| cuts::span(plan, r, direction).0);
    let upright = beginnings(UPRIGHT).min() != beginnings(UPRIGHT).max();
    let direction = if upright { UPRIGHT } else { LEVEL };
    let place = beginnings(direction).max().expect("there are rooms");
    Cut { direction, place }
}

/// A cut with its place counted from where the rooms begin.
fn from_rooms(part: Part) -> Part {
    match part {
        Part::Cut(Cut { direction, place }) => Part::Cut(Cut {
            direction,
            place: place - 1,
        }),
        leaf => leaf,
    }
}

/// The tree with the two parts of each cut exchanged.
fn other_part_first(parts: &mut dyn Iterator<Item = Part>) -> Vec<Part> {
    match parts.next().expect("a tree has a root") {
        Part::Cut(cut) => {
            let (one, other) = (other_part_first(parts), other_part_first(parts));
            [vec![Part::Cut(cut)], other, one].concat()
        }
        leaf => vec![leaf],
    }
}

/// Every entry where it stands, with the kind that the other job gives it.
fn with_kinds_of(job: &Job, other: &Job) -> Job {
    let mut result = job.clone();
    for room in job.rooms() {
        for entry in result.star_of_mut(room) {
            let kind = other.kind_of(room, entry.neighbour);
            entry.kind = kind.expect("both list the same neighbours");
        }
    }
    result
}

/// A first entry gone from 0 to 3 moves to the end, a last one gone from 3 to 0 to the front.
fn move_over_the_start(star: &mut Star, before: &Star) {
    let last = star.len() - 1;
    let gone = |place: usize| (before[place].kind, star[place].kind);
    if gone(0) == (ABOVE, RIGHT) {
        star.rotate_left(1);
    } else if gone(last) == (RIGHT, ABOVE) {
        star.rotate_right(1);
    }
}

/// Sides pushed up until every join and every room is content, and every contact across, which asks for something by its room's size, or for nothing.
fn pushed(job: &Job, asked: impl Fn(usize) -> usize) -> WallNumbers {
    let count = job.vertices();
    let mut near = [vec![1; count], vec![1; count]];
    let mut far = [vec![1; count], vec![1; count]];
    for _ in 0..4 * count {
        for room in job.rooms() {
            let size = job.size_of(room);
            let ways = [
                (RIGHT, [ABOVE, BELOW], size.width),
                (ABOVE, [LEFT, RIGHT], size.height),
            ];
            for (axis, (joining, crossing, least)) in ways.into_iter().enumerate() {
                for entry in job.star_of(room) {
                    let other = entry.neighbour;
                    if entry.kind == joining {
                        let most = far[axis][room].max(near[axis][other]);
                        far[axis][room] = most;
                        near[axis][other] = most;
                    }
                    let step = asked(least);
                    if job.is_room(other) && crossing.contains(&entry.kind) && step > 0 {
                        far[axis][other] = far[axis][other].max(near[axis][room] + step);
                    }
                }
                far[axis][room] = far[axis][room].max(near[axis][room] + least);
            }
        }
    }
    let [left, lower] = near;
    let [right, upper] = far;
    WallNumbers {
        left_of_east: left[3],
        bottom_of_north: lower[0],
        left,
        right,
        lower,
        upper,
    }
}

impl Planner for SlippedBoard {
    fn load(&mut self, bytes: &[u8]) -> Result<(usize, usize), Refusal> {
        let judged = self.judge(bytes);
        if judged.is_err() && self.slip == Slip::RefusalEmpties {
            self.held = None;
        }
        let (job, plan) = judged?;
        let sheet = (plan.width, plan.height);
        if self.held.is_none() || self.slip != Slip::FirstPlanKept {
            self.loaded = Some(job.clone());
            self.walled = Some(plan.clone());
            self.held = Some((job, plan));
        }
        Ok(sheet)
    }

    fn turn(&mut self, one: usize, other: usize) -> Result<(usize, usize), Refusal> {
        let (one, other) = (self.number(one), self.number(other));
        let (job, _) = self.held()?;
        if self.slip == Slip::TurnAnswers13 && one.max(other) >= job.vertices() {
            return Err(Refusal(13));
        }
        let mut job = self.turned(job, one, other)?;
        if self.slip == Slip::TurnRefuses {
            return Err(Refusal(12));
        }
        if self.slip == Slip::SizesLostByTurn {
            job.sizes = None;
        }
        let plan = match self.draw(&job) {
            Err(Refusal(18)) if self.slip == Slip::AnyTurnedSheet => {
                place(&job, &number_walls(&job)?)
            }
            other => other?,
        };
        let sheet = (plan.width, plan.height);
        if self.slip != Slip::RegisterKept && self.slip != Slip::TurnKeeps {
            self.walled = Some(plan.clone());
        }
        if self.slip != Slip::TurnKeeps {
            self.held = Some((job, plan));
        }
        Ok(sheet)
    }

    fn narrow(&mut self) -> Result<usize, Refusal> {
        if self.slip == Slip::NothingNarrowed && self.held.is_none() {
            return Ok(0);
        }
        let (job, plan) = self.held()?.clone();
        let (job, plan, turns) = self.slim(job, plan);
        if turns > 0 && self.slip != Slip::RegisterKeptNarrow {
            self.walled = Some(plan.clone());
        }
        self.held = Some((job, plan));
        Ok(turns + usize::from(turns > 0 && self.slip == Slip::OneTurnMore))
    }

    fn rectangle(&self, vertex: usize) -> Result<Rectangle, Refusal> {
        let (_, plan) = self.held()?;
        let found = plan.rectangles.get(self.number(vertex)).copied();
        found.ok_or(Refusal(13))
    }

    fn touch(&self, one: usize, other: usize) -> Result<Option<Touch>, Refusal> {
        self.held()?;
        if one == other && self.slip == Slip::NoneBefore13 {
            return Ok(None);
        }
        let (a, b) = (self.rectangle(one)?, self.rectangle(other)?);
        let (one, other) = (self.number(one), self.number(other));
        let both_of_the_frame = one.max(other) < FIRST_ROOM;
        if one == other && self.slip == Slip::TouchesItself {
            let length = a.x2 - a.x1;
            return Ok(Some(Touch {
                side: ABOVE,
                length,
            }));
        }
        if one == other || (both_of_the_frame && self.slip == Slip::FrameApart) {
            return Ok(None);
        }
        Ok(self.touching(&a, &b))
    }

    fn doors(&self) -> Result<Vec<Door>, Refusal> {
        let (_, plan) = self.held()?;
        let touch = |u: usize, v: usize| self.touching(&plan.rectangles[u], &plan.rectangles[v]);
        Ok(doors_by(plan, touch))
    }

    fn walls(&self) -> Result<Vec<Wall>, Refusal> {
        self.held()?;
        let plan = self.walled.as_ref().ok_or(Refusal(10))?;
        Ok(self.walls_of(plan))
    }

    fn sliceable(&self) -> Result<bool, Refusal> {
        let (_, plan) = self.held()?;
        Ok(self.slip == Slip::CutThroughRoom || cuts::sliceable(plan))
    }

    fn cuts(&self) -> Result<Vec<Part>, Refusal> {
        let (_, plan) = self.held()?;
        if !self.sliceable()? {
            return Err(Refusal(15));
        }
        let parts = tree_by(plan, |rooms| self.chosen_cut(plan, rooms));
        Ok(match self.slip {
            Slip::OtherPartFirst => other_part_first(&mut parts.into_iter()),
            Slip::PlaceFromRooms => parts.into_iter().map(from_rooms).collect(),
            _ => parts,
        })
    }

    fn write_cuts(&self, buffer: &mut [u8]) -> Result<usize, Refusal> {
        let (job, _) = self.held()?;
        if self.slip == Slip::FourteenFirst && buffer.len() < 9 * job.stars.len() - 5 {
            return Err(Refusal(14));
        }
        self.write(cuts::bytes(&self.cuts()?), buffer)
    }

    fn write_walls(&self, buffer: &mut [u8]) -> Result<usize, Refusal> {
        self.write(register::bytes(&self.walls()?), buffer)
    }

    fn write_job(&self, buffer: &mut [u8]) -> Result<usize, Refusal> {
        let (job, _) = self.held()?;
        match &self.loaded {
            Some(loaded) if self.slip == Slip::WritesOldJob => self.write(loaded.bytes(), buffer),
            _ if self.slip == Slip::SizesNotWritten => {
                self.write(Job::plain(job.stars.clone()).bytes(), buffer)
            }
            _ => self.write(job.bytes(), buffer),
        }
    }

    fn write_plan(&self, buffer: &mut [u8]) -> Result<usize, Refusal> {
        let (_, plan) = self.held()?;
        self.write(plan.bytes(), buffer)
    }

    fn check(&self, job: &[u8], plan: &[u8]) -> Result<bool, Refusal> {
        let vertices = job
            .get(3)
            .map_or(0, |&rooms| usize::from(rooms) + FIRST_ROOM);
        let shaped = read_plan(plan, vertices);
        if self.slip == Slip::SixteenFirst && shaped.is_none() {
            return Err(Refusal(16));
        }
        let job = reference::job::read(job)?;
        match shaped {
            None if self.slip == Slip::NoForSixteen => Ok(false),
            None => Err(Refusal(16)),
            Some(plan) => Ok(self.is_good(&job, &plan)),
        }
    }

    fn star<'a>(&self, bytes: &'a [u8], room: usize) -> &'a [u8] {
        let mut shorter = bytes;
        while self.slip == Slip::StarOfLongerJob && shorter.len() > 4 {
            if reference::job::values(shorter).is_ok() {
                break;
            }
            shorter = &shorter[..shorter.len() - 1];
        }
        let found = Board::empty().star(shorter, self.number(room));
        if found.is_empty() {
            Board::empty().star(bytes, self.number(room))
        } else {
            found
        }
    }
}
