//! Calls each function of the static library from Rust. Every byte of a lent buffer is looked at, behind what was written too.

use tirunoiwa::{check, cuts, narrowed, plan, star, totals, touch, turned, walls, Narrowed};
use tirunoiwa::{cuts_into, narrowed_into, plan_into, star_into, totals_into, turned_into};
use tirunoiwa::{walls_into, Refusal, Totals, Touch};
use tirunoiwa::{CUTS_MOST, FIGURES, JOB_MOST, PLAN_MOST, REFUSALS, WALLS_MOST};

const MOST: usize = 1100;

/// The floor F of document 01.
const F: &[u8] = &[
    1, 0, 1, 4, // four rooms
    2, 0, 8, 0, 0, 1, 1, 6, 2, 5, 3, // 4
    2, 0, 10, 0, 0, 4, 1, 6, 1, 7, 2, 3, 3, // 5
    2, 0, 10, 4, 0, 1, 1, 2, 2, 7, 3, 5, 3, // 6
    2, 0, 8, 5, 0, 6, 1, 2, 2, 3, 3, // 7
];

const F_PLAN: &[u8] = &[
    3, 0, 2, 4, 5, // the sheet
    4, 0, 5, 0, 1, 4, 3, 5, // N
    4, 0, 5, 1, 0, 0, 1, 5, // W
    4, 0, 5, 2, 1, 0, 3, 1, // S
    4, 0, 5, 3, 3, 0, 4, 5, // E
    4, 0, 5, 4, 1, 3, 2, 4, // 4
    4, 0, 5, 5, 2, 2, 3, 4, // 5
    4, 0, 5, 6, 1, 1, 2, 3, // 6
    4, 0, 5, 7, 2, 1, 3, 2, // 7
];

/// F with the contact of 5 and 6 turned: two kinds change where they stand.
const P9: &[u8] = &[
    1, 0, 1, 4, // four rooms
    2, 0, 8, 0, 0, 1, 1, 6, 2, 5, 3, // 4
    2, 0, 10, 0, 0, 4, 1, 6, 2, 7, 2, 3, 3, // 5
    2, 0, 10, 4, 0, 1, 1, 2, 2, 7, 3, 5, 0, // 6
    2, 0, 8, 5, 0, 6, 1, 2, 2, 3, 3, // 7
];

const P9_PLAN: &[u8] = &[
    3, 0, 2, 5, 4, // the sheet
    4, 0, 5, 0, 1, 3, 4, 4, // N
    4, 0, 5, 1, 0, 0, 1, 4, // W
    4, 0, 5, 2, 1, 0, 4, 1, // S
    4, 0, 5, 3, 4, 0, 5, 4, // E
    4, 0, 5, 4, 1, 2, 2, 3, // 4
    4, 0, 5, 5, 2, 2, 4, 3, // 5
    4, 0, 5, 6, 1, 1, 3, 2, // 6
    4, 0, 5, 7, 3, 1, 4, 2, // 7
];

const F_WALLS: &[u8] = &[
    8, 0, 5, 0, 1, 1, 4, 2, // along W
    8, 0, 5, 0, 2, 1, 4, 4, // between 6, 4 and 7, 5
    8, 0, 5, 0, 3, 1, 4, 2, // along E
    8, 0, 5, 1, 1, 1, 3, 2, // along S
    8, 0, 5, 1, 2, 2, 3, 2, // between 7 and 5
    8, 0, 5, 1, 3, 1, 2, 2, // between 6 and 4
    8, 0, 5, 1, 4, 1, 3, 2, // along N
];

const P9_WALLS: &[u8] = &[
    8, 0, 5, 0, 1, 1, 3, 2, // along W
    8, 0, 5, 0, 2, 2, 3, 2, // between 4 and 5
    8, 0, 5, 0, 3, 1, 2, 2, // between 6 and 7
    8, 0, 5, 0, 4, 1, 3, 2, // along E
    8, 0, 5, 1, 1, 1, 4, 2, // along S
    8, 0, 5, 1, 2, 1, 4, 4, // between 6, 7 and 4, 5
    8, 0, 5, 1, 3, 1, 4, 2, // along N
];

const F_CUTS: &[u8] = &[
    5, 0, 2, 0, 2, // upright at 2
    5, 0, 2, 1, 3, 6, 0, 1, 6, 6, 0, 1, 4, // left of it, level at 3: 6 and 4
    5, 0, 2, 1, 2, 6, 0, 1, 7, 6, 0, 1, 5, // right of it, level at 2: 7 and 5
];

const P9_CUTS: &[u8] = &[
    5, 0, 2, 1, 2, // level at 2
    5, 0, 2, 0, 3, 6, 0, 1, 6, 6, 0, 1, 7, // below it, upright at 3: 6 and 7
    5, 0, 2, 0, 2, 6, 0, 1, 4, 6, 0, 1, 5, // above it, upright at 2: 4 and 5
];

/// Four arms round room 8, which no straight cut takes apart.
const PINWHEEL: &[u8] = &[
    1, 0, 1, 5, // five rooms
    2, 0, 10, 8, 0, 7, 0, 1, 1, 2, 2, 5, 3, // 4
    2, 0, 10, 6, 0, 8, 1, 4, 1, 2, 2, 3, 3, // 5
    2, 0, 10, 0, 0, 7, 1, 8, 2, 5, 2, 3, 3, // 6
    2, 0, 10, 0, 0, 1, 1, 4, 2, 8, 3, 6, 3, // 7
    2, 0, 8, 6, 0, 7, 1, 4, 2, 5, 3, // 8
];

/// The least sizes of rooms 4 to 7: 1 by 3, 3 by 2, 2 by 1, 1 by 2.
const SIZES: &[u8] = &[7, 0, 8, 1, 3, 3, 2, 2, 1, 1, 2];

/// F with these sizes.
const SIZED_PLAN: &[u8] = &[
    3, 0, 2, 7, 8, // the sheet
    4, 0, 5, 0, 1, 7, 6, 8, // N
    4, 0, 5, 1, 0, 0, 1, 8, // W
    4, 0, 5, 2, 1, 0, 6, 1, // S
    4, 0, 5, 3, 6, 0, 7, 8, // E
    4, 0, 5, 4, 1, 4, 3, 7, // 4
    4, 0, 5, 5, 3, 3, 6, 7, // 5
    4, 0, 5, 6, 1, 1, 3, 4, // 6
    4, 0, 5, 7, 3, 1, 6, 3, // 7
];

const SIZED_WALLS: &[u8] = &[
    8, 0, 5, 0, 1, 1, 7, 2, // along W
    8, 0, 5, 0, 3, 1, 7, 4, // between 6, 4 and 7, 5
    8, 0, 5, 0, 6, 1, 7, 2, // along E
    8, 0, 5, 1, 1, 1, 6, 2, // along S
    8, 0, 5, 1, 3, 3, 6, 2, // between 7 and 5
    8, 0, 5, 1, 4, 1, 3, 2, // between 6 and 4
    8, 0, 5, 1, 7, 1, 6, 2, // along N
];

const SIZED_CUTS: &[u8] = &[
    5, 0, 2, 0, 3, // upright at 3
    5, 0, 2, 1, 4, 6, 0, 1, 6, 6, 0, 1, 4, // left of it, level at 4: 6 and 4
    5, 0, 2, 1, 3, 6, 0, 1, 7, 6, 0, 1, 5, // right of it, level at 3: 7 and 5
];

/// F with these sizes, the contact of 5 and 6 turned.
const SIZED_P9_PLAN: &[u8] = &[
    3, 0, 2, 6, 7, // the sheet
    4, 0, 5, 0, 1, 6, 5, 7, // N
    4, 0, 5, 1, 0, 0, 1, 7, // W
    4, 0, 5, 2, 1, 0, 5, 1, // S
    4, 0, 5, 3, 5, 0, 6, 7, // E
    4, 0, 5, 4, 1, 3, 2, 6, // 4
    4, 0, 5, 5, 2, 3, 5, 6, // 5
    4, 0, 5, 6, 1, 1, 3, 3, // 6
    4, 0, 5, 7, 3, 1, 5, 3, // 7
];

/// No rooms.
const P2: &[u8] = &[1, 0, 1, 0];

/// No bytes.
const P3: &[u8] = &[];

/// F without the contact of 5 and 6.
const P10: &[u8] = &[
    1, 0, 1, 4, // four rooms
    2, 0, 8, 0, 0, 1, 1, 6, 2, 5, 3, // 4
    2, 0, 8, 0, 0, 4, 1, 7, 2, 3, 3, // 5
    2, 0, 8, 4, 0, 1, 1, 2, 2, 7, 3, // 6
    2, 0, 8, 5, 0, 6, 1, 2, 2, 3, 3, // 7
];

const STAR_6: &[u8] = &[4, 0, 1, 1, 2, 2, 7, 3, 5, 3];

/// What stands in the buffer before a call.
fn before() -> [u8; MOST] {
    std::array::from_fn(|place| (place * 7 + 161) as u8)
}

/// A call on the first bytes of a buffer fills its front with these bytes, and touches nothing behind them.
fn fills(length: usize, bytes: &[u8], call: impl FnOnce(&mut [u8]) -> Result<usize, Refusal>) {
    let mut lent = before();
    assert_eq!(call(&mut lent[..length]), Ok(bytes.len()));
    assert_eq!(&lent[..bytes.len()], bytes);
    assert_eq!(lent[bytes.len()..], before()[bytes.len()..]);
}

/// A call on the first bytes of a buffer is refused, and every byte is as it was.
fn refuses(length: usize, number: u8, call: impl FnOnce(&mut [u8]) -> Result<usize, Refusal>) {
    let mut lent = before();
    assert_eq!(call(&mut lent[..length]), Err(Refusal(number)));
    assert_eq!(lent, before());
}

#[test]
fn plans_are_written() {
    fills(MOST, F_PLAN, |out| plan_into(F, out));
    fills(F_PLAN.len(), F_PLAN, |out| plan_into(F, out));
    fills(PLAN_MOST, P9_PLAN, |out| plan_into(P9, out));
    assert_eq!(plan(F), Ok(F_PLAN.to_vec()));
    assert_eq!(plan(P9), Ok(P9_PLAN.to_vec()));
}

/// The greatest plan: sixty rooms in a row, between W and E.
#[test]
fn the_greatest_plan_is_written() {
    let job = include_bytes!("../../../examples/row60.job");
    let frame = [
        [0, 1, 2, 61, 3],
        [1, 0, 0, 1, 3],
        [2, 1, 0, 61, 1],
        [3, 61, 0, 62, 3],
    ];
    let rooms = (4..64).map(|v: u8| [v, v - 3, 1, v - 2, 2]);
    let mut row = vec![3, 0, 2, 62, 3];
    for rectangle in frame.into_iter().chain(rooms) {
        row.extend([4, 0, 5]);
        row.extend(rectangle);
    }
    assert_eq!(row.len(), PLAN_MOST);
    fills(PLAN_MOST, &row, |out| plan_into(job, out));
    refuses(PLAN_MOST - 1, 14, |out| plan_into(job, out));
    assert_eq!(plan(job), Ok(row));
}

#[test]
fn plans_are_refused() {
    refuses(F_PLAN.len() - 1, 14, |out| plan_into(F, out));
    refuses(0, 14, |out| plan_into(F, out));
    refuses(MOST, 2, |out| plan_into(P2, out));
    refuses(MOST, 1, |out| plan_into(P3, out));
    refuses(MOST, 9, |out| plan_into(P10, out));
    refuses(0, 9, |out| plan_into(P10, out));
    assert_eq!(plan(P2), Err(Refusal(2)));
    assert_eq!(plan(P3), Err(Refusal(1)));
    assert_eq!(plan(P10), Err(Refusal(9)));
}

#[test]
fn walls_are_written() {
    fills(MOST, F_WALLS, |out| walls_into(F, out));
    fills(F_WALLS.len(), F_WALLS, |out| walls_into(F, out));
    fills(WALLS_MOST, P9_WALLS, |out| walls_into(P9, out));
    assert_eq!(walls(F), Ok(F_WALLS.to_vec()));
    assert_eq!(walls(P9), Ok(P9_WALLS.to_vec()));
}

/// The longest list of walls: sixty rooms in a row.
#[test]
fn the_longest_list_of_walls_is_written() {
    let job = include_bytes!("../../../examples/row60.job");
    let sides = |x: u8| if x == 1 || x == 61 { 1 } else { 2 };
    let upright = (1..62).map(|x| [0, x, 1, 2, sides(x)]);
    let row: Vec<u8> = upright
        .chain([[1, 1, 1, 61, 60], [1, 2, 1, 61, 60]])
        .flat_map(|[d, n, from, to, sides]| [8, 0, 5, d, n, from, to, sides])
        .collect();
    assert_eq!(row.len(), WALLS_MOST);
    fills(WALLS_MOST, &row, |out| walls_into(job, out));
    refuses(WALLS_MOST - 1, 14, |out| walls_into(job, out));
    assert_eq!(walls(job), Ok(row));
}

#[test]
fn walls_are_refused() {
    refuses(F_WALLS.len() - 1, 14, |out| walls_into(F, out));
    refuses(0, 14, |out| walls_into(F, out));
    refuses(MOST, 2, |out| walls_into(P2, out));
    refuses(MOST, 1, |out| walls_into(P3, out));
    refuses(0, 9, |out| walls_into(P10, out));
    assert_eq!(walls(P10), Err(Refusal(9)));
}

#[test]
fn cuts_are_written() {
    fills(MOST, F_CUTS, |out| cuts_into(F, out));
    fills(F_CUTS.len(), F_CUTS, |out| cuts_into(F, out));
    fills(CUTS_MOST, P9_CUTS, |out| cuts_into(P9, out));
    assert_eq!(cuts(F), Ok(F_CUTS.to_vec()));
    assert_eq!(cuts(P9), Ok(P9_CUTS.to_vec()));
}

/// The longest tree: sixty rooms in a row, each cut off on the left.
#[test]
fn the_longest_tree_of_cuts_is_written() {
    let job = include_bytes!("../../../examples/row60.job");
    let cut_off = (4..63).flat_map(|v: u8| [5, 0, 2, 0, v - 2, 6, 0, 1, v]);
    let row: Vec<u8> = cut_off.chain([6, 0, 1, 63]).collect();
    assert_eq!(row.len(), CUTS_MOST);
    fills(CUTS_MOST, &row, |out| cuts_into(job, out));
    refuses(CUTS_MOST - 1, 14, |out| cuts_into(job, out));
    assert_eq!(cuts(job), Ok(row));
}

#[test]
fn cuts_are_refused() {
    refuses(F_CUTS.len() - 1, 14, |out| cuts_into(F, out));
    refuses(0, 14, |out| cuts_into(F, out));
    refuses(MOST, 15, |out| cuts_into(PINWHEEL, out));
    refuses(0, 15, |out| cuts_into(PINWHEEL, out));
    refuses(MOST, 2, |out| cuts_into(P2, out));
    refuses(MOST, 1, |out| cuts_into(P3, out));
    refuses(0, 9, |out| cuts_into(P10, out));
    assert_eq!(cuts(PINWHEEL), Err(Refusal(15)));
}

/// Our own plans are good, a stretched one too; the plan of F turned is not good for F, and a plan of other vertices is refused.
#[test]
fn plans_drawn_elsewhere_are_judged() {
    assert_eq!(check(F, F_PLAN), Ok(true));
    assert_eq!(check(P9, P9_PLAN), Ok(true));
    assert_eq!(check(F, P9_PLAN), Ok(false));
    // Every line at thrice its place: the frame is three cells thick.
    let mut stretched = F_PLAN.to_vec();
    for place in (3..5).chain((5..stretched.len()).filter(|place| (place - 5) % 8 > 3)) {
        stretched[place] *= 3;
    }
    assert_eq!(check(F, &stretched), Ok(true));
    assert_eq!(check(&[F, SIZES].concat(), &stretched), Ok(true));
    assert_eq!(check(&[F, SIZES].concat(), F_PLAN), Ok(false));
    stretched[5 + 8 * 4 + 4] += 1;
    assert_eq!(check(F, &stretched), Ok(false));
    assert_eq!(check(F, &F_PLAN[..F_PLAN.len() - 1]), Err(Refusal(16)));
    assert_eq!(check(F, &[]), Err(Refusal(16)));
    assert_eq!(check(P3, F_PLAN), Err(Refusal(1)));
    assert_eq!(check(P10, F_PLAN), Ok(false));
}

/// A job for each of `REFUSALS`.
const BAD: [&[u8]; REFUSALS.len()] = [
    include_bytes!("../../../examples/refused-1.job"),
    include_bytes!("../../../examples/refused-2.job"),
    include_bytes!("../../../examples/refused-3.job"),
    include_bytes!("../../../examples/refused-4.job"),
    include_bytes!("../../../examples/refused-5.job"),
    include_bytes!("../../../examples/refused-6.job"),
    include_bytes!("../../../examples/refused-7.job"),
    include_bytes!("../../../examples/refused-9.job"),
    include_bytes!("../../../examples/refused-17.job"),
    include_bytes!("../../../examples/refused-18.job"),
];

/// Jobs, each in its wrapper.
fn wrapped(jobs: &[&[u8]]) -> Vec<u8> {
    let wrap = |job: &&[u8]| [&[9][..], &(job.len() as u16).to_be_bytes(), job].concat();
    jobs.iter().flat_map(wrap).collect()
}

/// F is 4 by 5 with 6 cells of rooms, F turned 5 by 4 with 6, and F with sizes 7 by 8 with 30; P2, no bytes and P10 fall to 2, 1 and 9.
fn season() -> (Vec<u8>, Totals) {
    let told = Totals {
        accepted: 4,
        refused: [1, 2, 0, 0, 0, 0, 0, 1, 0, 0],
        widths: 4 + 5 + 7 + 4,
        heights: 5 + 4 + 8 + 5,
        room_cells: 6 + 6 + 30 + 6,
        frame_cells: 14 + 14 + 26 + 14,
        sheet_cells: 20 + 20 + 56 + 20,
    };
    let sized = [F, SIZES].concat();
    (wrapped(&[F, P2, P9, P10, &sized, P3, F, P2]), told)
}

#[test]
fn totals_are_told() {
    let (jobs, told) = season();
    assert_eq!(totals(&jobs), Ok(told));
    assert_eq!(totals(&[]), Ok(Totals::default()));
    for (place, bad) in BAD.into_iter().enumerate() {
        let mut one = Totals::default();
        one.refused[place] = 1;
        assert_eq!(totals(&wrapped(&[bad])), Ok(one));
    }
    assert_eq!(
        totals(&wrapped(&[P10; 200])).map(|told| told.refused[7]),
        Ok(200)
    );
}

/// The figures stand in the order of the names, and what lies behind them stays.
#[test]
fn figures_are_written() {
    let (jobs, _) = season();
    let figures = [
        4, 1, 2, 0, 0, 0, 0, 0, 1, 0, 0, 20, 22, 48, 68, 116, 7, 7, 7,
    ];
    let mut lent = [7; FIGURES + 3];
    assert_eq!(totals_into(&jobs, &mut lent), Ok(FIGURES));
    assert_eq!(lent, figures);
    let mut lent = [7; FIGURES];
    assert_eq!(totals_into(&jobs, &mut lent), Ok(FIGURES));
    assert_eq!(lent, figures[..FIGURES]);
}

#[test]
fn totals_are_refused() {
    let (jobs, _) = season();
    let refused = |jobs: &[u8], places: usize, number: u8| {
        let mut lent = [7; FIGURES];
        assert_eq!(totals_into(jobs, &mut lent[..places]), Err(Refusal(number)));
        assert_eq!(lent, [7; FIGURES]);
    };
    let too_many = wrapped(&[F; 201]);
    let longer = [&jobs[..], &[9]].concat();
    for broken in [&too_many, &longer, F, &jobs[..jobs.len() - 1]] {
        refused(broken, FIGURES, 19);
        refused(broken, 0, 19);
        assert_eq!(totals(broken), Err(Refusal(19)));
    }
    refused(&jobs, FIGURES - 1, 14);
    refused(&jobs, 0, 14);
    refused(&[], FIGURES - 1, 14);
}

/// F turned is narrowed by one turn, and is F again; F is as narrow as it gets. With sizes, F turned is the narrower one, and stays.
#[test]
fn narrowed_jobs_are_written() {
    let so = |job: &[u8], turns| {
        let job = job.to_vec();
        Ok(Narrowed { job, turns })
    };
    assert_eq!(narrowed(P9), so(F, 1));
    assert_eq!(narrowed(F), so(F, 0));
    let sized = |job: &[u8]| [job, SIZES].concat();
    assert_eq!(narrowed(&sized(P9)), so(&sized(P9), 0));
    let mut lent = [0xAA; 100];
    assert_eq!(narrowed_into(P9, &mut lent), Ok(1));
    assert_eq!(lent[..F.len()], *F);
    assert!(lent[F.len()..].iter().all(|&byte| byte == 0xAA));
}

#[test]
fn refused_narrowings_leave_the_buffer() {
    refuses(F.len() - 1, 14, |out| narrowed_into(P9, out));
    refuses(0, 14, |out| narrowed_into(F, out));
    refuses(MOST, 1, |out| narrowed_into(P3, out));
    refuses(0, 9, |out| narrowed_into(P10, out));
    assert_eq!(narrowed(P10), Err(Refusal(9)));
}

#[test]
fn turned_jobs_are_written() {
    fills(MOST, P9, |out| turned_into(F, 5, 6, out));
    fills(JOB_MOST, P9, |out| turned_into(F, 6, 5, out));
    fills(F.len(), F, |out| turned_into(P9, 5, 6, out));
    assert_eq!(turned(F, 5, 6), Ok(P9.to_vec()));
    assert_eq!(turned(P9, 6, 5), Ok(F.to_vec()));
}

#[test]
fn turns_are_refused() {
    refuses(P9.len() - 1, 14, |out| turned_into(F, 5, 6, out));
    refuses(MOST, 12, |out| turned_into(F, 4, 5, out));
    refuses(MOST, 11, |out| turned_into(F, 4, 0, out));
    refuses(0, 12, |out| turned_into(F, 4, 5, out));
    refuses(MOST, 1, |out| turned_into(P3, 5, 6, out));
    refuses(MOST, 9, |out| turned_into(P10, 5, 6, out));
    refuses(MOST, 11, |out| turned_into(F, usize::MAX, 5, out));
    assert_eq!(turned(F, 4, 5), Err(Refusal(12)));
    assert_eq!(turned(F, 4, 0), Err(Refusal(11)));
}

#[test]
fn stars_are_written() {
    fills(MOST, STAR_6, |out| star_into(F, 6, out));
    fills(STAR_6.len(), STAR_6, |out| star_into(F, 6, out));
    fills(MOST, &[], |out| star_into(F, 3, out));
    fills(MOST, &[], |out| star_into(F, 8, out));
    fills(MOST, &[], |out| star_into(F, usize::MAX, out));
    fills(0, &[], |out| star_into(P3, 4, out));
    fills(MOST, &[], |out| star_into(P2, 4, out));
    refuses(STAR_6.len() - 1, 14, |out| star_into(F, 6, out));
    assert_eq!(star(F, 6), STAR_6);
    assert_eq!(star(F, 8), []);
    assert_eq!(star(P3, 4), []);
}

/// A shared wall, as it is told.
fn shared(side: u8, length: usize) -> Result<Option<Touch>, Refusal> {
    Ok(Some(Touch { side, length }))
}

#[test]
fn shared_walls_are_told() {
    assert_eq!(touch(F, 5, 6), shared(1, 1));
    assert_eq!(touch(F, 6, 5), shared(3, 1));
    assert_eq!(touch(F, 7, 5), shared(0, 1));
    assert_eq!(touch(F, 5, 7), shared(2, 1));
    assert_eq!(touch(F, 1, 6), shared(3, 2));
    assert_eq!(touch(F, 0, 1), shared(1, 1));
    assert_eq!(touch(F, 1, 2), shared(3, 1));
    assert_eq!(touch(F, 0, 2), Ok(None));
    assert_eq!(touch(F, 4, 7), Ok(None));
    assert_eq!(touch(F, 5, 5), Ok(None));
    assert_eq!(touch(F, 5, 8), Err(Refusal(13)));
    assert_eq!(touch(F, usize::MAX, usize::MAX), Err(Refusal(13)));
    assert_eq!(touch(P3, 5, 6), Err(Refusal(1)));
    assert_eq!(touch(P10, 5, 8), Err(Refusal(9)));
}

/// Room 4 over the full height, and beside it rooms 5 to 63, one over the other.
fn tall() -> Vec<u8> {
    let mut job = vec![1, 0, 1, 60, 2, 0, 124, 0, 0, 1, 1, 2, 2];
    job.extend((5..64).flat_map(|v| [v, 3]));
    for v in 5..64 {
        let above = if v == 63 { 0 } else { v + 1 };
        let below = if v == 5 { 2 } else { v - 1 };
        job.extend([2, 0, 8, above, 0, 4, 1, below, 2, 3, 3]);
    }
    job
}

#[test]
fn the_longest_wall_of_a_room_is_told() {
    let job = tall();
    assert_eq!(touch(&job, 4, 1), shared(1, 59));
    assert_eq!(touch(&job, 1, 4), shared(3, 59));
    assert_eq!(touch(&job, 4, 63), shared(3, 1));
    assert_eq!(touch(&job, 63, 4), shared(1, 1));
    assert_eq!(touch(&job, 63, 62), shared(2, 1));
}

/// A job with least sizes behind it, as width and height by room.
fn sized(job: &[u8], sizes: &[[u8; 2]]) -> Vec<u8> {
    let mut all = job.to_vec();
    all.extend([7, 0, 2 * sizes.len() as u8]);
    all.extend(sizes.iter().flatten());
    all
}

#[test]
fn rooms_have_their_least_sizes() {
    let job = [F, SIZES].concat();
    fills(MOST, SIZED_PLAN, |out| plan_into(&job, out));
    fills(MOST, SIZED_WALLS, |out| walls_into(&job, out));
    fills(MOST, SIZED_CUTS, |out| cuts_into(&job, out));
    fills(MOST, STAR_6, |out| star_into(&job, 6, out));
    assert_eq!(touch(&job, 4, 5), shared(3, 3));
    assert_eq!(touch(&job, 5, 6), shared(1, 1));
}

/// The turned job keeps the sizes; turned again it is the job before.
#[test]
fn sizes_are_kept_by_a_turn() {
    let (job, turned_job) = ([F, SIZES].concat(), [P9, SIZES].concat());
    fills(JOB_MOST, &turned_job, |out| turned_into(&job, 5, 6, out));
    fills(MOST, SIZED_P9_PLAN, |out| plan_into(&turned_job, out));
    assert_eq!(turned(&turned_job, 6, 5), Ok(job.clone()));
    refuses(job.len() - 1, 14, |out| turned_into(&job, 5, 6, out));
    refuses(MOST, 12, |out| turned_into(&job, 4, 5, out));
}

#[test]
fn sizes_are_refused() {
    let with = |sizes: &[[u8; 2]]| sized(F, sizes);
    for wrong in [[[1, 1]; 4], [[0, 2]; 4], [[2, 16]; 4]] {
        refuses(MOST, 17, |out| plan_into(&with(&wrong), out));
        refuses(MOST, 17, |out| turned_into(&with(&wrong), 5, 6, out));
        assert_eq!(touch(&with(&wrong), 4, 5), Err(Refusal(17)));
    }
    refuses(MOST, 1, |out| plan_into(&with(&[[2, 2]; 3]), out));
    refuses(MOST, 1, |out| walls_into(&with(&[[2, 2]; 5]), out));
    refuses(MOST, 1, |out| cuts_into(&[F, SIZES, SIZES].concat(), out));
    refuses(MOST, 17, |out| plan_into(&sized(P10, &[[1, 1]; 4]), out));
    refuses(MOST, 9, |out| plan_into(&sized(P10, &[[2, 3]; 4]), out));
    fills(MOST, STAR_6, |out| star_into(&with(&[[0, 16]; 4]), 6, out));
    fills(MOST, &[], |out| star_into(&with(&[[2, 2]; 3]), 6, out));
}

/// Room 4 over the full width, and below it rooms 5 on, side by side, as wide as is said.
fn wide(widths: &[u8]) -> Vec<u8> {
    let last = 4 + widths.len() as u8;
    let mut job = vec![1, 0, 1, 1 + widths.len() as u8];
    job.extend([2, 0, 6 + 2 * widths.len() as u8, 0, 0, 1, 1]);
    job.extend((5..=last).flat_map(|v| [v, 2]));
    job.extend([3, 3]);
    for v in 5..=last {
        let left = if v == 5 { 1 } else { v - 1 };
        let right = if v == last { 3 } else { v + 1 };
        job.extend([2, 0, 8, 4, 0, left, 1, 2, 2, right, 3]);
    }
    let sizes = widths.iter().map(|&width| [width, 1]);
    let sizes: Vec<[u8; 2]> = std::iter::once([1, 1]).chain(sizes).collect();
    sized(&job, &sizes)
}

/// 250 cells are the most: 248 between W and E.
#[test]
fn the_widest_sheet_is_planned() {
    let mut widths = [15; 17];
    widths[16] = 8;
    let job = wide(&widths);
    assert_eq!(plan(&job).map(|plan| plan[3..5].to_vec()), Ok(vec![250, 4]));
    assert_eq!(touch(&job, 4, 0), shared(0, 248));
    assert_eq!(touch(&job, 0, 4), shared(2, 248));
    assert_eq!(touch(&job, 21, 4), shared(0, 8));
    widths[16] = 9;
    refuses(MOST, 18, |out| plan_into(&wide(&widths), out));
    refuses(MOST, 18, |out| walls_into(&wide(&widths), out));
    refuses(0, 18, |out| cuts_into(&wide(&widths), out));
    refuses(MOST, 18, |out| turned_into(&wide(&widths), 4, 5, out));
    assert_eq!(touch(&wide(&widths), 4, 0), Err(Refusal(18)));
}

/// 15 rooms to the right of F turned, and the contact that would make it F again, which is wider.
#[test]
fn a_turn_to_a_sheet_too_large_is_refused() {
    let mut job = vec![
        1, 0, 1, 19, // nineteen rooms
        2, 0, 8, 0, 0, 1, 1, 6, 2, 5, 3, // 4
        2, 0, 10, 0, 0, 4, 1, 6, 2, 7, 2, 8, 3, // 5
        2, 0, 10, 4, 0, 1, 1, 2, 2, 7, 3, 5, 0, // 6
        2, 0, 8, 5, 0, 6, 1, 2, 2, 8, 3, // 7
        2, 0, 10, 0, 0, 5, 1, 7, 1, 2, 2, 9, 3, // 8
    ];
    for v in 9..23 {
        let right = if v == 22 { 3 } else { v + 1 };
        job.extend([2, 0, 8, 0, 0, v - 1, 1, 2, 2, right, 3]);
    }
    let with = |row: u8| {
        let mut sizes = vec![[1, 1], [15, 1], [15, 1], [1, 1]];
        sizes.extend([[row, 1]; 15]);
        sized(&job, &sizes)
    };
    assert_eq!(plan(&with(15)).map(|plan| plan[3]), Ok(243));
    refuses(MOST, 18, |out| turned_into(&with(15), 5, 6, out));
    assert_eq!(
        turned(&with(14), 5, 6)
            .and_then(|job| plan(&job))
            .map(|plan| plan[3]),
        Ok(242)
    );
}
