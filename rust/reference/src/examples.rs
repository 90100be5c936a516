//! The floor examples of document 01, and a few facts the documents state in words.

use crate::cuts::Part;
use crate::drawing::{stretch, touch, within_bound, Rectangle, Touch};
use crate::job::{Entry, Job, Size, ONE_CELL};
use crate::register::Wall;
use crate::{judge, opposite, star, Board, Refusal, ABOVE, BELOW, LEFT, RIGHT};

const P1: &str = "01 00 01 01 02 00 08 00 00 01 01 02 02 03 03";
const F: &str = "01 00 01 04 02 00 08 00 00 01 01 06 02 05 03 \
    02 00 0A 00 00 04 01 06 01 07 02 03 03 02 00 0A 04 00 01 01 02 02 07 03 05 03 \
    02 00 08 05 00 06 01 02 02 03 03";

fn bytes(hex: &str) -> Vec<u8> {
    hex.split_whitespace()
        .map(|byte| u8::from_str_radix(byte, 16).unwrap())
        .collect()
}

/// Stars written as (neighbour, kind) pairs.
fn job(stars: &[&[(usize, u8)]]) -> Vec<u8> {
    let star = |pairs: &&[(usize, u8)]| {
        pairs
            .iter()
            .map(|&(neighbour, kind)| Entry { neighbour, kind })
            .collect()
    };
    Job::plain(stars.iter().map(star).collect()).bytes()
}

fn load(bytes: &[u8]) -> Result<(usize, usize), Refusal> {
    Board::empty().load(bytes)
}

fn loaded(bytes: &[u8]) -> Board {
    let mut board = Board::empty();
    board.load(bytes).expect("accepted");
    board
}

fn written(board: &Board) -> Vec<u8> {
    let mut buffer = vec![0; 1027];
    let length = board.write_job(&mut buffer).expect("no job is longer");
    buffer.truncate(length);
    buffer
}

fn at(x1: usize, y1: usize, x2: usize, y2: usize) -> Result<Rectangle, Refusal> {
    Ok(Rectangle { x1, y1, x2, y2 })
}

fn row(rooms: usize) -> Vec<u8> {
    let stars: Vec<Vec<(usize, u8)>> = (4..rooms + 4)
        .map(|room| {
            let left = if room == 4 { 1 } else { room - 1 };
            let right = if room == rooms + 3 { 3 } else { room + 1 };
            vec![(0, 0), (left, 1), (2, 2), (right, 3)]
        })
        .collect();
    let stars: Vec<&[(usize, u8)]> = stars.iter().map(Vec::as_slice).collect();
    job(&stars)
}

#[test]
fn p1_one_room() {
    let board = loaded(&bytes(P1));
    assert_eq!(load(&bytes(P1)), Ok((3, 3)));
    assert_eq!(board.rectangle(4), at(1, 1, 2, 2));
}

#[test]
fn p2_no_rooms() {
    assert_eq!(load(&bytes("01 00 01 00")), Err(Refusal(2)));
}

#[test]
fn p3_empty_input() {
    assert_eq!(load(&[]), Err(Refusal(1)));
}

#[test]
fn p4_one_byte_added() {
    let mut longer = bytes(P1);
    longer.push(0);
    assert_eq!(load(&longer), Err(Refusal(1)));
}

#[test]
fn p5_side_by_side() {
    let board = loaded(&row(2));
    assert_eq!(load(&row(2)), Ok((4, 3)));
    assert_eq!(board.rectangle(5), at(2, 1, 3, 2));
}

#[test]
fn p6_both_in_one_place() {
    let alone: &[(usize, u8)] = &[(0, 0), (1, 1), (2, 2), (3, 3)];
    assert_eq!(load(&job(&[alone, alone])), Err(Refusal(9)));
}

/// Rooms 4, 5, 6, each right of the one before, and 4 right of 6.
fn ring() -> Vec<u8> {
    job(&[
        &[(0, 0), (6, 1), (2, 2), (5, 3)],
        &[(0, 0), (4, 1), (2, 2), (6, 3)],
        &[(0, 0), (5, 1), (2, 2), (4, 3)],
    ])
}

#[test]
fn p7_a_circle() {
    assert_eq!(load(&ring()), Err(Refusal(7)));
}

#[test]
fn p8_the_job_f() {
    let board = loaded(&bytes(F));
    assert_eq!(load(&bytes(F)), Ok((4, 5)));
    let expected = [
        at(1, 4, 3, 5),
        at(0, 0, 1, 5),
        at(1, 0, 3, 1),
        at(3, 0, 4, 5),
        at(1, 3, 2, 4),
        at(2, 2, 3, 4),
        at(1, 1, 2, 3),
        at(2, 1, 3, 2),
    ];
    for (vertex, rectangle) in expected.into_iter().enumerate() {
        assert_eq!(board.rectangle(vertex), rectangle);
    }
}

#[test]
fn p9_f_turned_and_turned_back() {
    let before = loaded(&bytes(F));
    let mut board = before.clone();
    assert_eq!(board.turn(5, 6), Ok((5, 4)));
    assert_eq!(board.rectangle(4), at(1, 2, 2, 3));
    assert_eq!(board.rectangle(5), at(2, 2, 4, 3));
    assert_eq!(board.rectangle(6), at(1, 1, 3, 2));
    assert_eq!(board.rectangle(7), at(3, 1, 4, 2));
    assert_eq!(board.turn(5, 6), Ok((4, 5)));
    assert_eq!(board, before);
    assert_eq!(board.turn(6, 5), Ok((5, 4)));
}

/// W2: the kinds change where they stand. Document 01 itself would have moved room 5 to the front of room 6's star.
#[test]
fn a_turn_moves_no_entry() {
    let mut board = loaded(&bytes(F));
    board.turn(5, 6).expect("accepted");
    let turned = written(&board);
    assert_eq!(star(&turned, 5), bytes("00 00 04 01 06 02 07 02 03 03"));
    assert_eq!(star(&turned, 6), bytes("04 00 01 01 02 02 07 03 05 00"));
    assert_eq!(loaded(&turned), board);
}

#[test]
fn p10_four_at_a_point() {
    let mut parted = crate::job::read(&bytes(F)).unwrap();
    parted.star_of_mut(5).retain(|entry| entry.neighbour != 6);
    parted.star_of_mut(6).retain(|entry| entry.neighbour != 5);
    assert_eq!(load(&parted.bytes()), Err(Refusal(9)));
    // Two upright walls have number 2, yet they are two walls.
    let walls = crate::walls::number_walls(&parted).unwrap();
    assert_eq!((walls.right[4], walls.right[6]), (2, 2));
}

#[test]
fn p11_a_list_too_short() {
    let mut board = loaded(&bytes(F));
    let before = board.clone();
    assert_eq!(board.turn(4, 5), Err(Refusal(12)));
    assert_eq!(board, before);
}

#[test]
fn p12_a_frame_side_is_not_turned() {
    let mut board = loaded(&bytes(F));
    for (one, other) in [(4, 0), (0, 4), (4, 4), (4, 7), (4, 8), (300, 4), (0, 1)] {
        assert_eq!(board.turn(one, other), Err(Refusal(11)));
    }
}

#[test]
fn above_lists_run_from_right_to_left() {
    let with_first_star = |first: [usize; 2]| {
        job(&[
            &[(first[0], 0), (first[1], 0), (1, 1), (2, 2), (3, 3)],
            &[(0, 0), (1, 1), (4, 2), (6, 3)],
            &[(0, 0), (5, 1), (4, 2), (3, 3)],
        ])
    };
    assert_eq!(load(&with_first_star([6, 5])), Ok((4, 4)));
    assert_eq!(load(&with_first_star([5, 6])), Err(Refusal(9)));
}

/// Room 4 starts with its second above-neighbour, so that its above-list runs over the start.
#[test]
fn an_above_list_is_read_over_the_start() {
    let started_between = |second: usize, first: usize| {
        job(&[
            &[(second, 0), (1, 1), (2, 2), (3, 3), (first, 0)],
            &[(0, 0), (1, 1), (4, 2), (6, 3)],
            &[(0, 0), (5, 1), (4, 2), (3, 3)],
        ])
    };
    assert_eq!(load(&started_between(5, 6)), Ok((4, 4)));
    assert_eq!(load(&started_between(6, 5)), Err(Refusal(9)));
}

/// F with its stars started in every way there is, itself among them.
fn f_started_everywhere() -> Vec<Vec<u8>> {
    let mut all = vec![crate::job::read(&bytes(F)).unwrap()];
    for room in 4..8 {
        let starts = 0..all[0].star_of(room).len();
        let started = |job: &Job, start: usize| {
            let mut other = job.clone();
            other.star_of_mut(room).rotate_left(start);
            other
        };
        all = all
            .iter()
            .flat_map(|job| starts.clone().map(move |start| started(job, start)))
            .collect();
    }
    all.iter().map(Job::bytes).collect()
}

#[test]
fn f_started_elsewhere_has_the_plan_of_f() {
    let floor = loaded(&bytes(F));
    let mut floor_turned = floor.clone();
    floor_turned.turn(5, 6).expect("accepted");
    let all = f_started_everywhere();
    assert_eq!(all.len(), 4 * 5 * 5 * 4);
    for bytes in all {
        let mut board = loaded(&bytes);
        assert_eq!(board.plan(), floor.plan());
        assert_eq!(written(&board), bytes);
        assert_eq!(board.turn(6, 5), Ok((5, 4)));
        assert_eq!(board.plan(), floor_turned.plan());
        assert_eq!(board.turn(5, 6), Ok((4, 5)));
        assert_eq!(board, loaded(&bytes));
        assert_eq!(board.turn(4, 5), Err(Refusal(12)));
    }
}

/// Room 4 lists the four frame sides and rooms 5 to 8, which list it; only the run of its kinds differs.
fn with_kinds_of_room_4(star: &[(usize, u8)]) -> Vec<u8> {
    job(&[
        star,
        &[(0, 0), (1, 1), (4, 2), (3, 3)],
        &[(0, 0), (1, 1), (2, 2), (4, 3)],
        &[(4, 0), (1, 1), (2, 2), (3, 3)],
        &[(0, 0), (4, 1), (2, 2), (3, 3)],
    ])
}

#[test]
fn a_star_goes_round_once() {
    let (n, w, s, e) = ((0, 0), (1, 1), (2, 2), (3, 3));
    let (above, left, below, right) = ((5, 0), (6, 1), (7, 2), (8, 3));
    let load = |star: &[(usize, u8)]| load(&with_kinds_of_room_4(star));
    // Once round, from any start, the walls decide.
    let mut once = [n, above, w, left, s, below, e, right];
    for _ in 0..once.len() {
        assert_eq!(load(&once), Err(Refusal(7)));
        once.rotate_left(1);
    }
    let twice = [n, w, s, e, above, left, below, right];
    let backwards = [right, e, below, s, left, w, above, n];
    let jumping = [n, above, s, below, w, left, e, right];
    let apart = [n, w, above, left, s, below, e, right];
    for mut star in [twice, backwards, jumping, apart] {
        for _ in 0..star.len() {
            assert_eq!(load(&star), Err(Refusal(5)), "{star:?}");
            star.rotate_left(1);
        }
    }
    assert_eq!(load(&[n, above, s, below, e, right]), Err(Refusal(5)));
    assert_eq!(load(&[]), Err(Refusal(5)));
    assert_eq!(load(&[n]), Err(Refusal(5)));
}

#[test]
fn a_neighbour_stands_once() {
    for star in [
        [(0, 0), (1, 1), (2, 2), (3, 3), (0, 0)],
        [(5, 0), (1, 1), (5, 2), (3, 3), (0, 0)],
    ] {
        assert_eq!(load(&with_kinds_of_room_4(&star)), Err(Refusal(5)));
    }
}

#[test]
fn sixty_rooms_in_a_row_and_one_more() {
    assert_eq!(load(&row(60)), Ok((62, 3)));
    assert_eq!(load(&row(61)), Err(Refusal(2)));
}

/// W1: as wide as the number of rooms plus 2, and never wider, turned or not; since W9 of jobs without sizes.
#[test]
fn a_sheet_stays_within_the_number_of_rooms_plus_two() {
    let mut floor = loaded(&bytes(F));
    floor.turn(5, 6).expect("accepted");
    for board in [loaded(&bytes(P1)), loaded(&bytes(F)), floor] {
        assert!(within_bound(board.job().unwrap(), board.plan().unwrap()));
    }
    for rooms in 1..=60 {
        assert_eq!(load(&row(rooms)), Ok((rooms + 2, 3)));
    }
}

#[test]
fn pairs_are_counted_before_they_are_read() {
    // Entries that fail test 4, so that the answer tells whether test 3 was passed.
    let with_pairs = |pairs: usize| {
        let mut stars = vec![vec![(0usize, 9u8); 6]; 60];
        stars[0].extend(vec![(0, 9); pairs - 360]);
        let stars: Vec<&[(usize, u8)]> = stars.iter().map(Vec::as_slice).collect();
        job(&stars)
    };
    assert_eq!(load(&with_pairs(360)), Err(Refusal(4)));
    assert_eq!(load(&with_pairs(361)), Err(Refusal(3)));
}

#[test]
fn room_count_is_judged_before_the_remaining_shape() {
    assert_eq!(load(&bytes("01 00 01 00 07")), Err(Refusal(2)));
    assert_eq!(load(&bytes("01 00 01 3D")), Err(Refusal(2)));
    assert_eq!(load(&bytes("01 00 01 01")), Err(Refusal(1)));
    assert_eq!(load(&bytes("01 00 02 00 00")), Err(Refusal(1)));
}

#[test]
fn an_odd_star_is_refused_and_has_no_stars() {
    let odd = bytes("01 00 01 01 02 00 03 00 00 01");
    assert_eq!(load(&odd), Err(Refusal(1)));
    assert_eq!(star(&odd, 4), &[] as &[u8]);
}

#[test]
fn a_refused_load_keeps_the_held_plan() {
    let mut board = loaded(&bytes(F));
    let before = board.clone();
    assert_eq!(board.load(&row(61)), Err(Refusal(2)));
    assert_eq!(board, before);
}

#[test]
fn the_star_question_hands_back_the_very_bytes() {
    let floor = bytes(F);
    let answer = star(&floor, 5);
    assert_eq!(answer, bytes("00 00 04 01 06 01 07 02 03 03"));
    assert_eq!(answer.as_ptr(), floor[18..].as_ptr());
    for room in [0, 3, 8, 256 + 5] {
        assert!(star(&floor, room).is_empty());
    }
}

#[test]
fn questions_and_writing_without_a_plan() {
    let mut board = Board::empty();
    let mut buffer = [7u8; 4];
    assert_eq!(board.turn(0, 0), Err(Refusal(10)));
    assert_eq!(board.rectangle(99), Err(Refusal(10)));
    assert_eq!(board.touch(99, 99), Err(Refusal(10)));
    assert_eq!(board.doors(), Err(Refusal(10)));
    assert_eq!(board.walls(), Err(Refusal(10)));
    assert_eq!(board.write_walls(&mut buffer), Err(Refusal(10)));
    assert_eq!(board.sliceable(), Err(Refusal(10)));
    assert_eq!(board.cuts(), Err(Refusal(10)));
    assert_eq!(board.write_cuts(&mut buffer), Err(Refusal(10)));
    assert_eq!(board.write_job(&mut buffer), Err(Refusal(10)));
    assert_eq!(board.write_plan(&mut buffer), Err(Refusal(10)));
    assert_eq!(buffer, [7; 4]);
}

#[test]
fn questions_of_f() {
    let board = loaded(&bytes(F));
    assert_eq!(board.rectangle(8), Err(Refusal(13)));
    assert_eq!(board.touch(8, 8), Err(Refusal(13)));
    assert_eq!(board.touch(4, 8), Err(Refusal(13)));
    assert_eq!(board.touch(300, 4), Err(Refusal(13)));
    assert_eq!(board.touch(4, 4), Ok(None));
    assert_eq!(board.touch(5, 6), shared(LEFT, 1));
    assert_eq!(board.touch(6, 5), shared(RIGHT, 1));
    assert_eq!(board.touch(4, 7), Ok(None));
    assert_eq!(board.touch(1, 6), shared(RIGHT, 2));
    assert_eq!(board.touch(0, 5), shared(BELOW, 1));
}

fn shared(side: u8, length: usize) -> Result<Option<Touch>, Refusal> {
    Ok(Some(Touch { side, length }))
}

/// Frame sides answer as they lie: from W, N and S stand to the right; from N and S, W is left and E right.
#[test]
fn frame_sides_touch_their_neighbours() {
    let mut turned = loaded(&bytes(F));
    turned.turn(5, 6).expect("accepted");
    for board in [
        loaded(&bytes(P1)),
        loaded(&bytes(F)),
        turned,
        loaded(&row(60)),
    ] {
        for lying in [0, 2] {
            assert_eq!(board.touch(lying, 1), shared(LEFT, 1));
            assert_eq!(board.touch(1, lying), shared(RIGHT, 1));
            assert_eq!(board.touch(lying, 3), shared(RIGHT, 1));
            assert_eq!(board.touch(3, lying), shared(LEFT, 1));
        }
        for apart in [(0, 2), (2, 0), (1, 3), (3, 1)] {
            assert_eq!(board.touch(apart.0, apart.1), Ok(None));
        }
    }
}

/// Rooms 4 and 5 stand side by side over the full height; 6 lies over 7 to their right.
fn two_columns_and_a_stack() -> Board {
    loaded(&job(&[
        &[(0, 0), (1, 1), (2, 2), (5, 3)],
        &[(0, 0), (4, 1), (2, 2), (7, 3), (6, 3)],
        &[(0, 0), (5, 1), (7, 2), (3, 3)],
        &[(6, 0), (5, 1), (2, 2), (3, 3)],
    ]))
}

/// W4: the shared stretch is neither wall as a whole.
#[test]
fn the_length_is_that_of_the_shared_stretch() {
    let board = two_columns_and_a_stack();
    assert_eq!(board.rectangle(5), at(2, 1, 3, 3));
    assert_eq!(board.touch(4, 5), shared(RIGHT, 2));
    assert_eq!(board.touch(5, 6), shared(RIGHT, 1));
    assert_eq!(board.touch(6, 5), shared(LEFT, 1));
    assert_eq!(board.touch(7, 6), shared(ABOVE, 1));
    assert_eq!(board.touch(4, 6), Ok(None));
    // Staggered: neither begins or ends with the other.
    let (a, b) = (at(0, 0, 5, 2).unwrap(), at(3, 2, 9, 4).unwrap());
    let over = Touch {
        side: ABOVE,
        length: 2,
    };
    assert_eq!(touch(&a, &b), Some(over));
    assert_eq!(stretch(&a, &b, ABOVE), (3, 5));
}

/// Two that meet at a corner share nothing, and neither do two that lie apart on one line.
#[test]
fn a_corner_is_no_wall() {
    let middle = at(2, 2, 4, 4).unwrap();
    let corners = [(0, 0, 2, 2), (4, 0, 6, 2), (0, 4, 2, 6), (4, 4, 6, 6)];
    let apart = [(4, 0, 6, 1), (4, 5, 6, 6), (0, 4, 1, 6), (5, 0, 6, 2)];
    for (x1, y1, x2, y2) in corners.into_iter().chain(apart) {
        let other = at(x1, y1, x2, y2).unwrap();
        assert_eq!(touch(&middle, &other), None);
        assert_eq!(touch(&other, &middle), None);
    }
}

/// W4: asked the other way round, the side is opposite and the length equal; and the side is the kind in the star.
#[test]
fn a_touch_seen_from_both() {
    let mut turned = loaded(&bytes(F));
    turned.turn(5, 6).expect("accepted");
    for board in [loaded(&bytes(F)), turned, two_columns_and_a_stack()] {
        let job = board.job().unwrap();
        for u in 0..job.vertices() {
            for v in 0..job.vertices() {
                let there = board.touch(u, v).unwrap();
                let back = board.touch(v, u).unwrap().map(|touch| Touch {
                    side: opposite(touch.side),
                    ..touch
                });
                assert_eq!(there, back);
                if job.is_room(u) {
                    assert_eq!(there.map(|touch| touch.side), job.kind_of(u, v));
                }
            }
        }
    }
}

/// u, v, side, from, to, length.
fn told_doors(board: &Board) -> Vec<[usize; 6]> {
    let doors = board.doors().expect("held");
    doors
        .iter()
        .map(|door| {
            let touch = door.touch;
            [
                door.u,
                door.v,
                usize::from(touch.side),
                door.from,
                door.to,
                touch.length,
            ]
        })
        .collect()
}

#[test]
fn doors_name_each_contact_of_two_rooms_once() {
    let mut board = loaded(&bytes(F));
    let of_f = [
        [4, 5, 3, 3, 4, 1],
        [4, 6, 2, 1, 2, 1],
        [5, 6, 1, 2, 3, 1],
        [5, 7, 2, 2, 3, 1],
        [6, 7, 3, 1, 2, 1],
    ];
    assert_eq!(told_doors(&board), of_f);
    board.turn(5, 6).expect("accepted");
    let turned = [
        [4, 5, 3, 2, 3, 1],
        [4, 6, 2, 1, 2, 1],
        [5, 6, 2, 2, 3, 1],
        [5, 7, 2, 3, 4, 1],
        [6, 7, 3, 1, 2, 1],
    ];
    assert_eq!(told_doors(&board), turned);
    let stacked = [
        [4, 5, 3, 1, 3, 2],
        [5, 6, 3, 2, 3, 1],
        [5, 7, 3, 1, 2, 1],
        [6, 7, 2, 3, 4, 1],
    ];
    assert_eq!(told_doors(&two_columns_and_a_stack()), stacked);
    assert_eq!(told_doors(&loaded(&bytes(P1))), [[0; 6]; 0]);
    assert_eq!(told_doors(&loaded(&row(60))).len(), 59);
}

#[test]
fn writing_gives_back_the_bytes_and_touches_nothing_behind() {
    let floor = bytes(F);
    let board = loaded(&floor);
    let mut buffer = vec![0xAA; floor.len() + 2];
    assert_eq!(board.write_job(&mut buffer), Ok(floor.len()));
    assert_eq!(buffer[..floor.len()], floor);
    assert_eq!(buffer[floor.len()..], [0xAA, 0xAA]);
    let mut short = vec![0xAA; floor.len() - 1];
    assert_eq!(board.write_job(&mut short), Err(Refusal(14)));
    assert!(short.iter().all(|&byte| byte == 0xAA));
    let mut plan = vec![0xAA; 5 + 8 * 8];
    assert_eq!(board.write_plan(&mut plan), Ok(69));
    assert_eq!(plan[..13], bytes("03 00 02 04 05 04 00 05 00 01 04 03 05"));
}

/// Direction, number, beginning, end, sides.
fn told_walls(board: &Board) -> Vec<[usize; 5]> {
    let numbers = |wall: &Wall| {
        let direction = usize::from(wall.direction);
        [direction, wall.number, wall.beginning, wall.end, wall.sides]
    };
    board.walls().expect("held").iter().map(numbers).collect()
}

#[test]
fn the_walls_of_one_room() {
    let expected = [
        [0, 1, 1, 2, 1],
        [0, 2, 1, 2, 1],
        [1, 1, 1, 2, 1],
        [1, 2, 1, 2, 1],
    ];
    assert_eq!(told_walls(&loaded(&bytes(P1))), expected);
}

const WALLS_OF_F: [[usize; 5]; 7] = [
    [0, 1, 1, 4, 2],
    [0, 2, 1, 4, 4],
    [0, 3, 1, 4, 2],
    [1, 1, 1, 3, 2],
    [1, 2, 2, 3, 2],
    [1, 3, 1, 2, 2],
    [1, 4, 1, 3, 2],
];

/// W3: after each load and turn a fresh count, and a refused one leaves it.
#[test]
fn the_walls_of_f_before_and_after_a_turn() {
    let mut board = loaded(&bytes(F));
    assert_eq!(told_walls(&board), WALLS_OF_F);
    assert_eq!(board.turn(4, 5), Err(Refusal(12)));
    assert_eq!(board.load(&row(61)), Err(Refusal(2)));
    assert_eq!(told_walls(&board), WALLS_OF_F);
    board.turn(5, 6).expect("accepted");
    let turned = [
        [0, 1, 1, 3, 2],
        [0, 2, 2, 3, 2],
        [0, 3, 1, 2, 2],
        [0, 4, 1, 3, 2],
        [1, 1, 1, 4, 2],
        [1, 2, 1, 4, 4],
        [1, 3, 1, 4, 2],
    ];
    assert_eq!(told_walls(&board), turned);
    board.turn(6, 5).expect("accepted");
    assert_eq!(told_walls(&board), WALLS_OF_F);
}

/// Room 4 over 5, then 6 over the full height, then 7 over 8: two level walls have number 2 and stay two.
#[test]
fn walls_of_one_number_stay_apart() {
    let board = loaded(&job(&[
        &[(0, 0), (1, 1), (5, 2), (6, 3)],
        &[(4, 0), (1, 1), (2, 2), (6, 3)],
        &[(0, 0), (4, 1), (5, 1), (2, 2), (8, 3), (7, 3)],
        &[(0, 0), (6, 1), (8, 2), (3, 3)],
        &[(7, 0), (6, 1), (2, 2), (3, 3)],
    ]));
    let expected = [
        [0, 1, 1, 3, 2],
        [0, 2, 1, 3, 3],
        [0, 3, 1, 3, 3],
        [0, 4, 1, 3, 2],
        [1, 1, 1, 4, 3],
        [1, 2, 1, 2, 2],
        [1, 2, 3, 4, 2],
        [1, 3, 1, 4, 3],
    ];
    assert_eq!(told_walls(&board), expected);
}

#[test]
fn the_register_has_a_wall_for_each_room_and_three_and_every_side() {
    for rooms in [1, 2, 59, 60] {
        let walls = told_walls(&loaded(&row(rooms)));
        assert_eq!(walls.len(), rooms + 3);
        assert_eq!(walls.iter().map(|wall| wall[4]).sum::<usize>(), 4 * rooms);
        assert_eq!(walls[rooms + 1], [1, 1, 1, rooms + 1, rooms]);
    }
}

#[test]
fn the_register_is_written_as_fields_of_tag_8() {
    let board = loaded(&bytes(F));
    let mut buffer = vec![0xAA; 7 * 8 + 1];
    assert_eq!(board.write_walls(&mut buffer), Ok(56));
    let first = bytes("08 00 05 00 01 01 04 02 08 00 05 00 02 01 04 04");
    assert_eq!(buffer[..16], first);
    assert_eq!(buffer[48..], bytes("08 00 05 01 04 01 03 02 AA"));
    let mut short = vec![0xAA; 55];
    assert_eq!(board.write_walls(&mut short), Err(Refusal(14)));
    assert!(short.iter().all(|&byte| byte == 0xAA));
}

/// Direction and place of a cut, or a room alone.
fn told_cuts(board: &Board) -> Vec<Vec<usize>> {
    let numbers = |part: &Part| match part {
        Part::Cut(cut) => vec![usize::from(cut.direction), cut.place],
        Part::Leaf(room) => vec![*room],
    };
    board
        .cuts()
        .expect("sliceable")
        .iter()
        .map(numbers)
        .collect()
}

#[test]
fn one_room_is_a_leaf() {
    let board = loaded(&bytes(P1));
    assert_eq!(board.sliceable(), Ok(true));
    assert_eq!(told_cuts(&board), [vec![4]]);
}

/// F comes apart by one upright cut; turned, by one level cut.
#[test]
fn the_cuts_of_f_before_and_after_a_turn() {
    let mut board = loaded(&bytes(F));
    let of_f = [
        vec![0, 2],
        vec![1, 3],
        vec![6],
        vec![4],
        vec![1, 2],
        vec![7],
        vec![5],
    ];
    assert_eq!(told_cuts(&board), of_f);
    board.turn(5, 6).expect("accepted");
    let turned = [
        vec![1, 2],
        vec![0, 3],
        vec![6],
        vec![7],
        vec![0, 2],
        vec![4],
        vec![5],
    ];
    assert_eq!(told_cuts(&board), turned);
}

/// The leftmost cut of a row, then the leftmost of what is left.
#[test]
fn the_leftmost_cut_comes_first() {
    let row = told_cuts(&loaded(&row(4)));
    let expected = [
        vec![0, 2],
        vec![4],
        vec![0, 3],
        vec![5],
        vec![0, 4],
        vec![6],
        vec![7],
    ];
    assert_eq!(row, expected);
}

/// Rooms 4, then 5 and 6 side by side, then 7, one over the other.
#[test]
fn the_lowest_cut_where_none_is_upright() {
    let board = loaded(&job(&[
        &[(6, 0), (5, 0), (1, 1), (2, 2), (3, 3)],
        &[(7, 0), (1, 1), (4, 2), (6, 3)],
        &[(7, 0), (5, 1), (4, 2), (3, 3)],
        &[(0, 0), (1, 1), (5, 2), (6, 2), (3, 3)],
    ]));
    let expected = [
        vec![1, 2],
        vec![4],
        vec![1, 3],
        vec![0, 2],
        vec![5],
        vec![6],
        vec![7],
    ];
    assert_eq!(told_cuts(&board), expected);
}

/// Four arms round room 8: 4 below, 5 to the right, 6 above, 7 to the left.
fn pinwheel() -> Board {
    loaded(&job(&[
        &[(8, 0), (7, 0), (1, 1), (2, 2), (5, 3)],
        &[(6, 0), (8, 1), (4, 1), (2, 2), (3, 3)],
        &[(0, 0), (7, 1), (8, 2), (5, 2), (3, 3)],
        &[(0, 0), (1, 1), (4, 2), (8, 3), (6, 3)],
        &[(6, 0), (7, 1), (4, 2), (5, 3)],
    ]))
}

#[test]
fn a_pinwheel_is_not_sliceable() {
    let board = pinwheel();
    assert_eq!(board.sliceable(), Ok(false));
    assert_eq!(board.cuts(), Err(Refusal(15)));
    for length in [0, 1024] {
        let mut buffer = vec![0xAA; length];
        assert_eq!(board.write_cuts(&mut buffer), Err(Refusal(15)));
        assert!(buffer.iter().all(|&byte| byte == 0xAA));
    }
}

/// A pinwheel between two strips: cuts there are, but none helps.
#[test]
fn a_pinwheel_in_slices_is_not_sliceable() {
    let board = loaded(&job(&[
        &[(8, 0), (7, 0), (9, 1), (2, 2), (5, 3)],
        &[(6, 0), (8, 1), (4, 1), (2, 2), (10, 3)],
        &[(0, 0), (7, 1), (8, 2), (5, 2), (10, 3)],
        &[(0, 0), (9, 1), (4, 2), (8, 3), (6, 3)],
        &[(6, 0), (7, 1), (4, 2), (5, 3)],
        &[(0, 0), (1, 1), (2, 2), (4, 3), (7, 3)],
        &[(0, 0), (6, 1), (5, 1), (2, 2), (3, 3)],
    ]));
    let rooms = crate::cuts::all_rooms(board.plan().unwrap());
    assert_eq!(crate::cuts::cuts(board.plan().unwrap(), &rooms).len(), 2);
    assert_eq!(board.sliceable(), Ok(false));
    assert_eq!(board.cuts(), Err(Refusal(15)));
}

#[test]
fn cuts_are_written_as_fields_of_tags_5_and_6() {
    let board = loaded(&bytes(F));
    let expected = bytes(
        "05 00 02 00 02 05 00 02 01 03 06 00 01 06 06 00 01 04 \
        05 00 02 01 02 06 00 01 07 06 00 01 05",
    );
    assert_eq!(expected.len(), 9 * 4 - 5);
    let mut buffer = vec![0xAA; 32];
    assert_eq!(board.write_cuts(&mut buffer), Ok(31));
    assert_eq!(buffer[..31], expected);
    assert_eq!(buffer[31], 0xAA);
    let mut short = vec![0xAA; 30];
    assert_eq!(board.write_cuts(&mut short), Err(Refusal(14)));
    assert!(short.iter().all(|&byte| byte == 0xAA));
}

/// A job with a field of sizes behind it, as (width, height) by room.
fn sized(mut job: Vec<u8>, sizes: &[(u8, u8)]) -> Vec<u8> {
    job.extend([7, 0, 2 * sizes.len() as u8]);
    job.extend(sizes.iter().flat_map(|&(width, height)| [width, height]));
    job
}

/// Rooms 4 to 7 of F get the sizes 1 by 3, 3 by 2, 2 by 1 and 1 by 2.
const SIZES_OF_F: [(u8, u8); 4] = [(1, 3), (3, 2), (2, 1), (1, 2)];

fn sized_f() -> Vec<u8> {
    sized(bytes(F), &SIZES_OF_F)
}

/// W9: where a size binds, walls move; a contact still asks for 1.
#[test]
fn f_with_sizes() {
    let board = loaded(&sized_f());
    assert_eq!(load(&sized_f()), Ok((7, 8)));
    let expected = [
        at(1, 7, 6, 8),
        at(0, 0, 1, 8),
        at(1, 0, 6, 1),
        at(6, 0, 7, 8),
        at(1, 4, 3, 7),
        at(3, 3, 6, 7),
        at(1, 1, 3, 4),
        at(3, 1, 6, 3),
    ];
    for (vertex, rectangle) in expected.into_iter().enumerate() {
        assert_eq!(board.rectangle(vertex), rectangle);
    }
    assert_eq!(board.touch(5, 6), shared(LEFT, 1));
    assert_eq!(board.touch(5, 4), shared(LEFT, 3));
    let walls = told_walls(&board);
    assert_eq!(walls[1], [0, 3, 1, 7, 4]);
    assert_eq!(walls[4..6], [[1, 3, 3, 6, 2], [1, 4, 1, 3, 2]]);
    assert_eq!(told_cuts(&board)[..2], [vec![0, 3], vec![1, 4]]);
}

/// W9: a turn keeps the sizes, and made again it gives back the plan before it.
#[test]
fn f_with_sizes_turned_and_turned_back() {
    let before = loaded(&sized_f());
    let mut board = before.clone();
    assert_eq!(board.turn(5, 6), Ok((6, 7)));
    assert_eq!(board.rectangle(4), at(1, 3, 2, 6));
    assert_eq!(board.rectangle(5), at(2, 3, 5, 6));
    assert_eq!(board.rectangle(6), at(1, 1, 3, 3));
    assert_eq!(board.rectangle(7), at(3, 1, 5, 3));
    let turned = written(&board);
    assert_eq!(turned[52..], bytes("07 00 08 01 03 03 02 02 01 01 02"));
    assert_eq!(loaded(&turned), board);
    assert_eq!(board.turn(6, 5), Ok((7, 8)));
    assert_eq!(board, before);
}

#[test]
fn a_job_is_written_with_its_sizes_or_without_the_field() {
    assert_eq!(written(&loaded(&sized_f())), sized_f());
    assert_eq!(written(&loaded(&bytes(F))), bytes(F));
    let mut short = vec![0xAA; sized_f().len() - 1];
    assert_eq!(loaded(&sized_f()).write_job(&mut short), Err(Refusal(14)));
    assert!(short.iter().all(|&byte| byte == 0xAA));
}

/// Sizes that a floor has anyway change nothing but the writing.
#[test]
fn sizes_that_do_not_bind() {
    let roomy = loaded(&sized(bytes(F), &[(1, 1), (1, 2), (1, 2), (1, 1)]));
    assert_eq!(roomy.plan(), loaded(&bytes(F)).plan());
    assert_ne!(roomy, loaded(&bytes(F)));
}

/// A width is no height: one room 3 wide and 2 high.
#[test]
fn the_width_comes_before_the_height() {
    let board = loaded(&sized(bytes(P1), &[(3, 2)]));
    assert_eq!(board.rectangle(4), at(1, 1, 4, 3));
    assert_eq!(board.rectangle(3), at(4, 0, 5, 4));
    let job = board.job().unwrap();
    let size = Size {
        width: 3,
        height: 2,
    };
    assert_eq!(job.size_of(4), size);
    assert_eq!(loaded(&bytes(P1)).job().unwrap().size_of(4), ONE_CELL);
}

#[test]
fn a_size_is_1_to_15_and_one_of_them_is_larger() {
    let with = |sizes: &[(u8, u8)]| load(&sized(bytes(P1), sizes));
    assert_eq!(with(&[(1, 1)]), Err(Refusal(17)));
    for outside in [0, 16, 17, 128, 255] {
        assert_eq!(with(&[(outside, 2)]), Err(Refusal(17)));
        assert_eq!(with(&[(2, outside)]), Err(Refusal(17)));
    }
    assert_eq!(with(&[(15, 15)]), Ok((17, 17)));
    assert_eq!(with(&[(1, 2)]), Ok((3, 4)));
    let ones = sized(bytes(F), &[(1, 1); 4]);
    assert_eq!(load(&ones), Err(Refusal(17)));
    for place in 0..8 {
        let mut larger = ones.clone();
        larger[55 + place] = 2;
        assert!(load(&larger).is_ok());
        for outside in [0, 16] {
            larger[55 + place] = outside;
            assert_eq!(load(&larger), Err(Refusal(17)));
        }
    }
}

#[test]
fn a_field_of_sizes_has_its_tag_its_length_and_its_place() {
    let whole = sized_f();
    let field = whole[52..].to_vec();
    let first_star = 4..15;
    let refused = |job: Vec<u8>| assert_eq!(load(&job), Err(Refusal(1)));
    // Another tag, another length, twice, cut short, something behind it.
    for tag in [0, 1, 2, 3, 6, 8, 17] {
        let mut other = whole.clone();
        other[52] = tag;
        refused(other);
    }
    for rooms in [0, 1, 3, 5, 60] {
        refused(sized(bytes(F), &vec![(2, 2); rooms]));
    }
    let odd = |length: u8| {
        let mut value = vec![2; usize::from(length)];
        let mut job = bytes(F);
        job.extend([7, 0, length]);
        job.append(&mut value);
        job
    };
    refused(odd(7));
    refused(odd(9));
    refused([whole.clone(), field.clone()].concat());
    refused(whole[..whole.len() - 1].to_vec());
    refused([whole.clone(), vec![0]].concat());
    let mut longer = whole.clone();
    longer[53] = 1;
    refused(longer);
    // In front of all, in front of the stars, between them.
    let plain = bytes(F);
    for place in [0, first_star.start, first_star.end] {
        refused([&plain[..place], &field[..], &plain[place..]].concat());
    }
    // The number of rooms is judged before.
    assert_eq!(load(&sized(bytes("01 00 01 00"), &[])), Err(Refusal(2)));
    assert_eq!(load(&sized(row(61), &[(2, 2); 61])), Err(Refusal(2)));
}

/// Each is refused by its own test, whatever the sizes are.
#[test]
fn sizes_are_tested_behind_6_and_before_7() {
    let outside = |job: Vec<u8>, rooms: usize| load(&sized(job, &vec![(0, 16); rooms]));
    let crowded = {
        let stars = vec![vec![(0usize, 0u8); 91]; 4];
        let stars: Vec<&[(usize, u8)]> = stars.iter().map(Vec::as_slice).collect();
        job(&stars)
    };
    assert_eq!(outside(crowded, 4), Err(Refusal(3)));
    let itself: &[(usize, u8)] = &[(4, 0), (1, 1), (2, 2), (3, 3)];
    assert_eq!(outside(job(&[itself]), 1), Err(Refusal(4)));
    assert_eq!(outside(job(&[&[]]), 1), Err(Refusal(5)));
    let one_sided = job(&[
        &[(0, 0), (1, 1), (2, 2), (5, 3)],
        &[(0, 0), (1, 1), (2, 2), (3, 3)],
    ]);
    assert_eq!(outside(one_sided, 2), Err(Refusal(6)));
    assert_eq!(outside(ring(), 3), Err(Refusal(17)));
    assert_eq!(load(&sized(ring(), &[(1, 1); 3])), Err(Refusal(17)));
    assert_eq!(load(&sized(ring(), &[(15, 1); 3])), Err(Refusal(7)));
}

#[test]
fn a_row_of_rooms_15_wide() {
    let wide = |rooms: usize| sized(row(rooms), &vec![(15, 1); rooms]);
    assert_eq!(load(&wide(17)), Err(Refusal(18)));
    assert_eq!(load(&wide(16)), Ok((242, 3)));
    assert_eq!(loaded(&wide(16)).rectangle(19), at(226, 1, 241, 2));
    assert_eq!(written(&loaded(&wide(16))), wide(16));
    assert_eq!(load(&wide(60)), Err(Refusal(18)));
}

/// 250 either way is held, 251 is not.
#[test]
fn the_largest_sheet() {
    let last = |least: u8| {
        let mut sizes = vec![(15, 1); 17];
        sizes[16].0 = least;
        sizes
    };
    assert_eq!(load(&sized(row(17), &last(8))), Ok((250, 3)));
    assert_eq!(load(&sized(row(17), &last(9))), Err(Refusal(18)));
    let upward = |least: u8| -> Vec<(u8, u8)> {
        let wide = last(least).into_iter();
        wide.map(|(width, height)| (height, width)).collect()
    };
    assert_eq!(load(&sized(column(17), &upward(8))), Ok((3, 250)));
    assert_eq!(load(&sized(column(17), &upward(9))), Err(Refusal(18)));
    let high = loaded(&sized(column(17), &upward(8)));
    assert_eq!(high.rectangle(20), at(1, 241, 2, 249));
}

fn column(rooms: usize) -> Vec<u8> {
    let stars: Vec<Vec<(usize, u8)>> = (4..rooms + 4)
        .map(|room| {
            let below = if room == 4 { 2 } else { room - 1 };
            let above = if room == rooms + 3 { 0 } else { room + 1 };
            vec![(above, 0), (1, 1), (below, 2), (3, 3)]
        })
        .collect();
    let stars: Vec<&[(usize, u8)]> = stars.iter().map(Vec::as_slice).collect();
    job(&stars)
}

/// Three rooms side by side over a stack of 17: in a ring, or between W and E.
fn stack_under_three(ring: bool, height: u8) -> Vec<u8> {
    let (first, last) = if ring { (23, 21) } else { (1, 3) };
    let mut stars: Vec<Vec<(usize, u8)>> = (4..21)
        .map(|room| {
            let below = if room == 4 { 2 } else { room - 1 };
            vec![(room + 1, 0), (1, 1), (below, 2), (3, 3)]
        })
        .collect();
    stars[16] = vec![(23, 0), (22, 0), (21, 0), (1, 1), (19, 2), (3, 3)];
    for (left, right) in [(first, 22), (21, 23), (22, last)] {
        stars.push(vec![(0, 0), (left, 1), (20, 2), (right, 3)]);
    }
    let stars: Vec<&[(usize, u8)]> = stars.iter().map(Vec::as_slice).collect();
    sized(job(&stars), &[(1, height); 20])
}

/// Of a sheet too high in which rooms run in a ring, 7 is told.
#[test]
fn a_circle_is_told_before_the_sheet() {
    assert_eq!(load(&stack_under_three(false, 13)), Ok((5, 236)));
    assert_eq!(load(&stack_under_three(false, 15)), Err(Refusal(18)));
    assert_eq!(load(&stack_under_three(true, 15)), Err(Refusal(7)));
    assert_eq!(load(&stack_under_three(true, 2)), Err(Refusal(7)));
}

/// A row that is too wide, and a room that lies over all of it: 18 before 9.
#[test]
fn the_sheet_is_told_before_the_drawing() {
    let mut covered = crate::job::read(&row(17)).unwrap();
    let frame = (0..4u8).map(|kind| Entry {
        neighbour: usize::from(kind),
        kind,
    });
    covered.stars.push(frame.collect());
    let with = |least: u8| load(&sized(covered.bytes(), &[(least, 1); 18]));
    assert_eq!(with(14), Err(Refusal(9)));
    assert_eq!(with(15), Err(Refusal(18)));
}

/// F turned, its rooms so wide that F itself is wider, and 15 rooms to the right of it.
#[test]
fn a_turn_to_a_sheet_too_large_is_refused() {
    let mut stars: Vec<Vec<(usize, u8)>> = vec![
        vec![(0, 0), (1, 1), (6, 2), (5, 3)],
        vec![(0, 0), (4, 1), (6, 2), (7, 2), (8, 3)],
        vec![(5, 0), (4, 0), (1, 1), (2, 2), (7, 3)],
        vec![(5, 0), (6, 1), (2, 2), (8, 3)],
        vec![(0, 0), (5, 1), (7, 1), (2, 2), (9, 3)],
    ];
    for room in 9..23 {
        let right = if room == 22 { 3 } else { room + 1 };
        stars.push(vec![(0, 0), (room - 1, 1), (2, 2), (right, 3)]);
    }
    let stars: Vec<&[(usize, u8)]> = stars.iter().map(Vec::as_slice).collect();
    let with = |row: u8| {
        let mut sizes = vec![(1, 1), (15, 1), (15, 1), (1, 1)];
        sizes.extend(vec![(row, 1); 15]);
        loaded(&sized(job(&stars), &sizes))
    };
    let mut board = with(15);
    let before = board.clone();
    assert_eq!(board.plan().unwrap().width, 1 + 16 + 15 * 15 + 1);
    assert_eq!(board.turn(5, 6), Err(Refusal(18)));
    assert_eq!(board, before);
    assert_eq!(with(14).turn(5, 6), Ok((1 + 30 + 15 * 14 + 1, 5)));
}

/// The star question asks nothing of the sizes but their field's shape.
#[test]
fn stars_of_a_job_with_sizes() {
    let floor = sized_f();
    assert_eq!(star(&floor, 5), star(&bytes(F), 5));
    assert_eq!(star(&sized(bytes(F), &[(0, 16); 4]), 7).len(), 8);
    assert!(star(&sized(bytes(F), &[(2, 2); 3]), 5).is_empty());
    assert!(star(&[floor.clone(), floor[52..].to_vec()].concat(), 5).is_empty());
    assert!(star(&floor, 8).is_empty());
}

#[test]
fn a_refused_load_of_sizes_keeps_the_held_plan() {
    let mut board = loaded(&sized_f());
    let before = board.clone();
    assert_eq!(board.load(&sized(bytes(F), &[(1, 1); 4])), Err(Refusal(17)));
    assert_eq!(
        board.load(&sized(row(17), &[(15, 15); 17])),
        Err(Refusal(18))
    );
    assert_eq!(board, before);
    assert_eq!(board.load(&bytes(F)), Ok((4, 5)));
    assert_eq!(board, loaded(&bytes(F)));
}

#[test]
fn a_floor_is_narrowed_until_no_turn_narrows_it() {
    assert_eq!(Board::empty().narrow(), Err(Refusal(10)));
    let mut board = loaded(&bytes(F));
    assert_eq!(board.narrow(), Ok(0));
    assert_eq!(written(&board), bytes(F));
    assert_eq!(board.turn(5, 6), Ok((5, 4)));
    assert_eq!(board.narrow(), Ok(1));
    assert_eq!(written(&board), bytes(F));
}

/// A plan's bytes: the sheet, then a rectangle for each vertex in order.
fn drawn(width: u8, height: u8, rectangles: &[[u8; 4]]) -> Vec<u8> {
    let mut out = vec![3, 0, 2, width, height];
    for (vertex, corners) in rectangles.iter().enumerate() {
        out.extend_from_slice(&[4, 0, 5, vertex as u8]);
        out.extend_from_slice(corners);
    }
    out
}

/// P5 with other proportions: a thick frame, room 4 up to x, room 5 from y on.
fn stretched(x: u8, y: u8) -> Vec<u8> {
    let frame = [[2, 5, 8, 7], [0, 0, 2, 7], [2, 0, 8, 1], [8, 0, 9, 7]];
    drawn(
        9,
        7,
        &[&frame[..], &[[2, 1, x, 5], [y, 1, 8, 5]][..]].concat(),
    )
}

#[test]
fn our_own_plans_are_good() {
    for job in [bytes(P1), row(2), row(60), bytes(F), sized_f()] {
        let mut board = loaded(&job);
        let plan = board.plan().expect("held").bytes();
        assert_eq!(judge(&job, &plan), Ok(true));
        if board.turn(5, 6).is_ok() {
            let turned = board.plan().expect("held").bytes();
            assert_eq!(judge(&written(&board), &turned), Ok(true));
            assert_eq!(judge(&job, &turned), Ok(false));
        }
    }
}

#[test]
fn other_proportions_are_good_without_a_gap() {
    assert_eq!(judge(&row(2), &stretched(3, 3)), Ok(true));
    assert_eq!(judge(&row(2), &stretched(7, 7)), Ok(true));
    // A gap, an overlap, an empty rectangle and a reversed one.
    for (x, y) in [(3, 4), (4, 3), (2, 2), (3, 9)] {
        assert_eq!(judge(&row(2), &stretched(x, y)), Ok(false));
    }
}

#[test]
fn rooms_drawn_elsewhere_have_their_sizes() {
    let job = sized(row(2), &[(3, 1), (1, 1)]);
    assert_eq!(judge(&job, &stretched(4, 4)), Ok(false));
    assert_eq!(judge(&job, &stretched(5, 5)), Ok(true));
    let high = sized(row(2), &[(1, 5), (1, 1)]);
    assert_eq!(judge(&high, &stretched(5, 5)), Ok(false));
}

#[test]
fn a_plan_of_the_wrong_sides_is_not_good() {
    // Room 4 to the right of room 5, where the job has it to the left.
    let mut exchanged = stretched(3, 3);
    let (four, five) = (5 + 8 * 4 + 4, 5 + 8 * 5 + 4);
    for corner in 0..4 {
        exchanged.swap(four + corner, five + corner);
    }
    assert_eq!(judge(&row(2), &exchanged), Ok(false));
}

#[test]
fn the_frame_lies_as_in_ours() {
    let room = [1, 1, 2, 2];
    let ours = [[1, 2, 2, 3], [0, 0, 1, 3], [1, 0, 2, 1], [2, 0, 3, 3], room];
    assert_eq!(judge(&bytes(P1), &drawn(3, 3, &ours)), Ok(true));
    // N and S the full width, W and E between them.
    let level = [[0, 2, 3, 3], [0, 1, 1, 2], [0, 0, 3, 1], [2, 1, 3, 2], room];
    assert_eq!(judge(&bytes(P1), &drawn(3, 3, &level)), Ok(false));
    // A sheet larger than what is drawn on it.
    assert_eq!(judge(&bytes(P1), &drawn(4, 3, &ours)), Ok(false));
}

#[test]
fn four_rooms_at_a_point_are_not_good() {
    // Rooms 4 and 5 below, 6 and 7 above; 5 touches 6, so the wall between the lower two stands to the left of that between the upper two.
    let job = job(&[
        &[(6, 0), (1, 1), (2, 2), (5, 3)],
        &[(7, 0), (6, 0), (4, 1), (2, 2), (3, 3)],
        &[(0, 0), (1, 1), (4, 2), (5, 2), (7, 3)],
        &[(0, 0), (6, 1), (5, 2), (3, 3)],
    ]);
    let plan = |below: u8, above: u8| {
        let frame = [[1, 3, 5, 4], [0, 0, 1, 4], [1, 0, 5, 1], [5, 0, 6, 4]];
        let rooms = [
            [1, 1, below, 2],
            [below, 1, 5, 2],
            [1, 2, above, 3],
            [above, 2, 5, 3],
        ];
        drawn(6, 4, &[&frame[..], &rooms[..]].concat())
    };
    assert_eq!(judge(&job, &plan(2, 3)), Ok(true));
    assert_eq!(judge(&job, &plan(2, 4)), Ok(true));
    assert_eq!(judge(&job, &plan(3, 3)), Ok(false));
    assert_eq!(judge(&job, &plan(4, 3)), Ok(false));
}

#[test]
fn bytes_not_shaped_as_a_plan() {
    let job = row(2);
    let good = stretched(3, 3);
    let changed = |place: usize, byte: u8| {
        let mut plan = good.clone();
        plan[place] = byte;
        plan
    };
    let mut longer = good.clone();
    longer.push(0);
    let fewer = good[..good.len() - 8].to_vec();
    let mut exchanged = good.clone();
    exchanged.swap(8, 16);
    let others = [
        vec![],
        longer,
        fewer,
        exchanged,
        good[..good.len() - 1].to_vec(),
        changed(0, 4),
        changed(2, 3),
        changed(5, 3),
        changed(7, 4),
        changed(8, 1),
    ];
    for plan in others {
        assert_eq!(judge(&job, &plan), Err(Refusal(16)));
    }
}

#[test]
fn the_job_is_refused_before_its_plan() {
    let plan = stretched(3, 3);
    assert_eq!(judge(&[], &[]), Err(Refusal(1)));
    assert_eq!(judge(&bytes("01 00 01 00"), &plan), Err(Refusal(2)));
    let ones = sized(row(2), &[(1, 1), (1, 1)]);
    assert_eq!(judge(&ones, &[]), Err(Refusal(17)));
    // 7 and 9 are no refusals here: such a job has no good plan.
    assert_eq!(judge(&ring(), &[]), Err(Refusal(16)));
    let alone: &[(usize, u8)] = &[(0, 0), (1, 1), (2, 2), (3, 3)];
    assert_eq!(judge(&job(&[alone, alone]), &plan), Ok(false));
}

#[test]
fn a_sheet_that_a_load_refuses_may_be_good_elsewhere() {
    // Seventeen rooms in a row, all 15 wide but the last, which brings the sheet to 251.
    let mut sizes = vec![(15, 1); 16];
    sizes.push((9, 1));
    let job = sized(row(17), &sizes);
    assert_eq!(load(&job), Err(Refusal(18)));
    let mut rectangles = vec![
        [1, 2, 250, 3],
        [0, 0, 1, 3],
        [1, 0, 250, 1],
        [250, 0, 251, 3],
    ];
    let mut left = 1;
    for (width, _) in sizes {
        rectangles.push([left, 1, left + width, 2]);
        left += width;
    }
    assert_eq!(judge(&job, &drawn(251, 3, &rectangles)), Ok(true));
}
