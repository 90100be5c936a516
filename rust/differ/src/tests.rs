//! The comparison tried on itself: every known slip is found and shrunk, and the reference agrees with itself.

use crate::batches::{batch_of, Batch, Sort, Tally, SORTS};
use crate::damage::finished_floor;
use crate::listing_job;
use crate::pairs::first_unlike;
use crate::picture::{listing_shown, Marked};
use crate::planner::{narrowed, OneJob};
use crate::programs::UnderTest;
use crate::proofread::plan_fault;
use crate::shrink::{both_texts, both_totals, Shrinker};
use crate::slips::{
    Slip, ALL, OF_CUTS, OF_NARROWING, OF_RETURNED, OF_SIZES, OF_STARTS, OF_TEXTS, OF_TOTALS,
    OF_TOUCHES, OF_WALLS,
};
use crate::streams::{make_checks, make_stream, Budget};
use crate::table::Table;
use crate::texts::{damaged_text, job_of, text_of};
use floors::Chance;
use reference::drawing::draw;
use reference::job::Job;
use reference::{cuts, totals, Board, Refusal};
use std::ops::Range;

/// The first stream in which the planner under test differs.
fn first_difference(under_test: &UnderTest, seed: u64) -> Option<Vec<Vec<u8>>> {
    let mut chance = Chance::new(seed);
    let mut budget = Budget {
        jobs: 20_000,
        calls: 20_000,
    };
    let mut table = Table::default();
    while !budget.is_empty() {
        let stream = make_stream(&mut chance, &mut budget, &mut table);
        if under_test.calls(&stream.pieces.concat()) != stream.expected {
            return Some(stream.pieces);
        }
    }
    None
}

#[test]
fn every_slip_is_found_and_shrunk() {
    for slip in ALL {
        // Plans drawn elsewhere have streams of their own, below.
        if OF_RETURNED.contains(&slip) {
            continue;
        }
        let under_test = UnderTest::Slipped(slip);
        let pieces =
            first_difference(&under_test, 11).unwrap_or_else(|| panic!("{slip:?} is not found"));
        let small = Shrinker::new(&under_test).shrink(pieces);
        let (expected, found) = both_texts(&under_test, &small);
        assert_ne!(expected, found, "{slip:?} lost while shrinking");
        assert!(
            small.len() <= 5,
            "{slip:?} is left with {} calls",
            small.len()
        );
    }
}

#[test]
fn a_slip_of_starts_is_found_without_the_reference() {
    let unlike = |under_test| first_unlike(&under_test, 11, 500, &mut Table::default());
    for slip in OF_STARTS {
        let found = unlike(UnderTest::Slipped(slip));
        assert!(found.is_some(), "{slip:?} is not found");
    }
    assert_eq!(unlike(UnderTest::Reference), None);
}

/// Whether a program of one job prints something else for some job.
fn told_otherwise(under_test: &UnderTest, program: OneJob) -> bool {
    let mut chance = Chance::new(11);
    (0..6_000).any(|round| {
        let job = listing_job(&mut chance, round);
        under_test.told(program, &job) != program.text(&mut Board::empty(), &job)
    })
}

/// Every one of these slips shows in what a program of one job prints.
fn slips_show(slips: &[Slip], program: OneJob) {
    for &slip in slips {
        let found = told_otherwise(&UnderTest::Slipped(slip), program);
        assert!(found, "{slip:?} is not found");
    }
    assert!(!told_otherwise(&UnderTest::Reference, program));
}

#[test]
fn a_slip_of_touches_is_found_in_the_doors() {
    slips_show(&OF_TOUCHES, OneJob::Doors);
}

#[test]
fn a_slip_of_walls_is_found_in_the_joiners_list() {
    slips_show(&OF_WALLS, OneJob::Walls);
}

#[test]
fn a_slip_of_sizes_is_found_in_the_listing() {
    slips_show(&OF_SIZES, OneJob::Listing);
}

/// Whether the narrowing program writes something else for some job.
fn narrowed_otherwise(under_test: &UnderTest) -> bool {
    let mut chance = Chance::new(11);
    (0..3_000).any(|round| {
        let job = listing_job(&mut chance, round);
        under_test.narrowed(&job) != narrowed(&mut Board::empty(), &job)
    })
}

#[test]
fn a_slip_of_narrowing_is_found_in_the_narrowed_job() {
    for slip in OF_NARROWING {
        let found = narrowed_otherwise(&UnderTest::Slipped(slip));
        assert!(found, "{slip:?} is not found");
    }
    assert!(!narrowed_otherwise(&UnderTest::Reference));
}

/// The first stream of plans drawn elsewhere in which the planner under test differs.
fn first_unlike_check(under_test: &UnderTest) -> Option<Vec<Vec<u8>>> {
    let mut chance = Chance::new(11);
    (0..20).find_map(|_| {
        let stream = make_checks(&mut chance, 500, &mut Table::default());
        let same = under_test.calls(&stream.pieces.concat()) == stream.expected;
        (!same).then_some(stream.pieces)
    })
}

#[test]
fn a_slip_of_plans_drawn_elsewhere_is_found() {
    for slip in OF_RETURNED {
        let under_test = UnderTest::Slipped(slip);
        let pieces =
            first_unlike_check(&under_test).unwrap_or_else(|| panic!("{slip:?} is not found"));
        let small = Shrinker::new(&under_test).shrink(pieces);
        assert_eq!(small.len(), 1, "{slip:?}");
    }
    assert!(first_unlike_check(&UnderTest::Reference).is_none());
}

/// W8: of 2,000 plans at least 100 are good and not ours.
#[test]
fn a_twentieth_of_the_plans_are_good_and_not_ours() {
    let mut table = Table::default();
    make_checks(&mut Chance::new(5), 2_000, &mut table);
    assert!(table.good_elsewhere >= 100, "only {}", table.good_elsewhere);
}

/// As many batches as the gate has.
const BATCHES: usize = 60;

/// The first batch of wrapped jobs whose totals the planner under test tells otherwise.
fn first_unlike_batch(under_test: &UnderTest) -> Option<Batch> {
    let mut chance = Chance::new(11);
    let mut batches = (0..BATCHES).map(|round| batch_of(&mut chance, round));
    batches.find(|batch| {
        let stream = batch.pieces.concat();
        under_test.totals(&stream) != totals::text(&stream)
    })
}

#[test]
fn a_slip_of_totals_is_found_and_shrunk() {
    for slip in OF_TOTALS {
        let under_test = UnderTest::Slipped(slip);
        let batch =
            first_unlike_batch(&under_test).unwrap_or_else(|| panic!("{slip:?} is not found"));
        let small = Shrinker::shrink_batch(&under_test, batch.pieces);
        let (expected, found) = both_totals(&under_test, &small);
        assert_ne!(expected, found, "{slip:?} lost while shrinking");
        let most = match slip {
            Slip::OneJobMore => 201,
            Slip::OneJobLess => 200,
            Slip::SixteenBits => 66,
            _ => 2,
        };
        assert!(
            small.len() <= most,
            "{slip:?} is left with {} jobs",
            small.len()
        );
    }
    assert!(first_unlike_batch(&UnderTest::Reference).is_none());
}

/// A slip in what is loaded shows in the totals, too.
#[test]
fn a_slip_of_loading_is_found_in_the_totals() {
    for slip in [Slip::NoCorner, Slip::OnesAccepted, Slip::AnyHeight] {
        let found = first_unlike_batch(&UnderTest::Slipped(slip));
        assert!(found.is_some(), "{slip:?} is not found");
    }
}

/// A tally of the batches that go on, of so many.
fn tally_of(many: usize, goes_on: impl Fn(&Batch, &str) -> bool) -> Tally {
    let mut chance = Chance::new(5);
    let mut tally = Tally::default();
    for round in 0..many {
        let batch = batch_of(&mut chance, round);
        let text = totals::text(&batch.pieces.concat());
        if goes_on(&batch, &text) {
            tally.count(&batch, &text);
        }
    }
    tally
}

/// One batch of each sort is enough for every figure; without one of them, or without a refusal, something is lacking, and so it is told.
#[test]
fn every_sort_and_every_figure_come_up() {
    let all = tally_of(SORTS.len(), |_, _| true);
    assert_eq!(all.never(), Vec::<String>::new());
    assert!(!all.lacks());
    let named = |tally: &Tally, name: &str| {
        assert!(tally.lacks());
        assert!(tally.never().contains(&name.to_string()), "{name}");
    };
    for sort in [Sort::NoJobs, Sort::Longest, Sort::OneTooMany] {
        let without = tally_of(2 * SORTS.len(), |batch, _| batch.sort != sort);
        named(&without, &format!("{sort:?}"));
    }
    let no_eighteen = |text: &str| text.lines().nth(10).unwrap_or("0") == "0";
    let without = tally_of(3 * SORTS.len(), |_, text| no_eighteen(text));
    named(&without, "refused 18");
    let without = tally_of(3 * SORTS.len(), |_, text| !text.starts_with("refused"));
    named(&without, "refused 19");
}

/// A broken batch is refused, and any other told, with as many jobs as it has wrappers.
#[test]
fn a_batch_is_refused_where_its_sort_says_so() {
    let mut chance = Chance::new(5);
    for round in 0..10 * SORTS.len() {
        let batch = batch_of(&mut chance, round);
        let told = totals::totals(&batch.pieces.concat());
        let broken = match batch.sort {
            Sort::OneTooMany
            | Sort::OtherTag
            | Sort::CutInValue
            | Sort::CutInHead
            | Sort::ByteBehind
            | Sort::TooLong
            | Sort::Unwrapped => true,
            // It may happen to be read at places where wrappers stand.
            Sort::LengthOff => continue,
            _ => false,
        };
        match told {
            Err(refusal) => assert!(broken && refusal == Refusal(19), "{:?}", batch.sort),
            Ok(told) => {
                assert!(!broken, "{:?}", batch.sort);
                let refused: usize = told.refused.iter().sum();
                assert_eq!(told.accepted + refused, batch.pieces.len());
                assert_eq!(told.room_cells + told.frame_cells, told.sheet_cells);
            }
        }
    }
}

/// Whether some job has another text, or some text another job.
fn texts_differ(under_test: &UnderTest) -> bool {
    let mut chance = Chance::new(11);
    (0..500).any(|round| {
        let job = listing_job(&mut chance, round);
        let text = text_of(&job, None);
        let damaged = damaged_text(&mut chance, &text);
        under_test.text(&job) != text
            || under_test.job(&text) != job_of(&text, None)
            || under_test.job(&damaged) != job_of(&damaged, None)
    })
}

#[test]
fn a_slip_of_texts_is_found() {
    for slip in OF_TEXTS {
        assert!(
            texts_differ(&UnderTest::Slipped(slip)),
            "{slip:?} is not found"
        );
    }
    assert!(!texts_differ(&UnderTest::Reference));
}

/// A job that has a text is what that text says, with its sizes.
#[test]
fn a_job_told_and_read_is_the_same() {
    let mut chance = Chance::new(5);
    let mut with_sizes = 0;
    for round in 0..2_000 {
        let job = listing_job(&mut chance, round);
        let text = text_of(&job, None);
        if text.starts_with(b"4:") {
            assert_eq!(job_of(&text, None), job);
            with_sizes += usize::from(text.windows(8).any(|some| some == b"at least"));
        }
    }
    assert!(with_sizes >= 300, "{with_sizes} with sizes");
}

/// All of them without their sizes; with them those whose sheet is not too large.
#[test]
fn floors_from_geometry_are_accepted() {
    let mut chance = Chance::new(5);
    for _ in 0..2_000 {
        let job = finished_floor(&mut chance);
        let plain = Job::plain(job.stars.clone());
        for job in [plain, job] {
            let mut board = Board::empty();
            match board.load(&job.bytes()) {
                Err(Refusal(18)) => assert!(job.sizes.is_some(), "{job:?}"),
                other => {
                    assert!(other.is_ok(), "{job:?}");
                    let fault = plan_fault(&job, board.plan().unwrap());
                    assert_eq!(fault, None, "{job:?}");
                }
            }
        }
    }
}

#[test]
fn a_slip_of_cuts_is_found_in_the_cuts_of_one_job() {
    slips_show(&OF_CUTS, OneJob::Cuts);
}

/// W6: at least a third of the floors do not come apart by straight cuts, and many of those can be cut somewhere.
#[test]
fn a_third_of_the_floors_are_not_sliceable() {
    let mut chance = Chance::new(5);
    let (mut wholes, mut cut_somewhere) = (0, 0);
    for _ in 0..2_000 {
        let stars = finished_floor(&mut chance).stars;
        let plan = draw(&Job::plain(stars)).expect("accepted");
        if !cuts::sliceable(&plan) {
            wholes += 1;
            let somewhere = !cuts::cuts(&plan, &cuts::all_rooms(&plan)).is_empty();
            cut_somewhere += usize::from(somewhere);
        }
    }
    assert!(3 * wholes >= 2_000, "only {wholes} of 2,000");
    assert!(5 * cut_somewhere >= wholes, "{cut_somewhere} of {wholes}");
}

#[test]
fn one_seed_gives_one_stream() {
    let make = |seed| {
        let mut budget = Budget {
            jobs: 50,
            calls: 50,
        };
        make_stream(&mut Chance::new(seed), &mut budget, &mut Table::default()).pieces
    };
    assert_eq!(make(3), make(3));
    assert_ne!(make(3), make(4));
}

const PICTURE: &str = include_str!("../../../docs/pictures/F.svg");
const CUT_PICTURE: &str = include_str!("../../../docs/pictures/F-cuts.svg");
const JOB: &[u8] = include_bytes!("../../../examples/F.job");

/// What a picture of F shows.
fn shown(picture: &str) -> Result<String, String> {
    listing_shown(picture, Marked::Walls, b"F.job", JOB)
}

/// What a picture of F with its cuts shows.
fn shown_cut(picture: &str) -> Result<String, String> {
    listing_shown(picture, Marked::Cuts, b"F.job", JOB)
}

#[test]
fn a_picture_shows_its_listing() {
    let expected = "sheet 4 5\n0 1 4 3 5\n1 0 0 1 5\n2 1 0 3 1\n3 3 0 4 5\n\
        4 1 3 2 4\n5 2 2 3 4\n6 1 1 2 3\n7 2 1 3 2\n";
    assert_eq!(shown(PICTURE).as_deref(), Ok(expected));
    assert_eq!(shown_cut(CUT_PICTURE).as_deref(), Ok(expected));
    assert!(shown(CUT_PICTURE).is_err());
    assert!(shown_cut(PICTURE).is_err());
}

/// The parts of a picture's line that say where a rectangle, a mark or a text stands and what it is called.
fn telling_parts(line: &str) -> Vec<Range<usize>> {
    let until = |from: usize, word: &str| from..from + line[from..].find(word).unwrap();
    if line.starts_with("<text") || line.starts_with("<path stroke") {
        let texts = line.match_indices("<text").map(|(at, _)| at);
        return texts
            .flat_map(|at| {
                let says = at + line[at..].find('>').unwrap();
                [until(at, " dy"), until(says, "</text>")]
            })
            .collect();
    }
    if line.starts_with("<g class=") {
        let mark = line.find("<text").unwrap();
        let name = mark + line[mark..].find('>').unwrap();
        return vec![
            0..line.find("<rect").unwrap(),
            until(line.find("<rect").unwrap(), " fill"),
            until(mark, " dy"),
            until(name, "</text>"),
        ];
    }
    if line.starts_with("<rect x=") {
        return vec![until(0, " fill")];
    }
    if line.starts_with("<g>") {
        let outline = line.rfind("<rect").unwrap();
        let label = line.find("<text").unwrap();
        let name = label + line[label..].find('>').unwrap();
        return vec![
            until(0, "</title>"),
            until(outline, " fill"),
            until(label, " dy"),
            until(name, "</text>"),
        ];
    }
    Vec::new()
}

fn telling_digits(picture: &str) -> Vec<usize> {
    let starts = picture.match_indices('\n').map(|(at, _)| at + 1);
    let parts = starts.flat_map(|at| {
        let line = picture[at..].lines().next().unwrap_or("");
        telling_parts(line)
            .into_iter()
            .flatten()
            .map(move |i| at + i)
    });
    parts
        .filter(|&i| picture.as_bytes()[i].is_ascii_digit())
        .collect()
}

fn assert_digits_tell(picture: &str, shown: impl Fn(&str) -> Result<String, String>) {
    let places = telling_digits(picture);
    assert!(places.len() > 100, "only {} digits", places.len());
    let told = shown(picture);
    for place in places {
        let mut other = picture.as_bytes().to_vec();
        other[place] = if other[place] == b'9' {
            b'8'
        } else {
            other[place] + 1
        };
        let other = String::from_utf8(other).unwrap();
        assert_ne!(shown(&other), told, "digit at {place}");
    }
}

#[test]
fn a_changed_digit_of_a_picture_is_noticed() {
    assert_digits_tell(PICTURE, shown);
    assert_digits_tell(CUT_PICTURE, shown_cut);
}

/// The lines of a picture that hold a mark.
fn marks_of(picture: &str) -> Vec<&str> {
    picture
        .split_inclusive('\n')
        .filter(|line| line.starts_with("<g class="))
        .collect()
}

/// The marks of the walls.
fn marks() -> Vec<&'static str> {
    marks_of(PICTURE)
}

fn assert_marks_tell(picture: &str, many: usize, shown: impl Fn(&str) -> Result<String, String>) {
    let marks = marks_of(picture);
    assert_eq!(marks.len(), many);
    for pair in marks.windows(2) {
        let swapped = [pair[1], pair[0]].concat();
        assert!(shown(&picture.replace(&pair.concat(), &swapped)).is_err());
    }
    for mark in marks {
        assert!(shown(&picture.replace(mark, "")).is_err());
        assert!(shown(&picture.replace(mark, &mark.repeat(2))).is_err());
    }
}

#[test]
fn a_mark_that_is_missing_doubled_or_out_of_order_is_noticed() {
    assert_marks_tell(PICTURE, 7, shown);
    assert_marks_tell(CUT_PICTURE, 3, shown_cut);
}

#[test]
fn a_mark_of_the_other_kind_is_noticed() {
    let first = marks()[0];
    let cut = marks_of(CUT_PICTURE)[0];
    assert!(shown(&PICTURE.replace(first, &[first, cut].concat())).is_err());
    assert!(shown_cut(&CUT_PICTURE.replace(cut, &[cut, first].concat())).is_err());
    for (from, to) in [
        ("#000000", "#ffffff"),
        ("fill=\"#ffffff\"", "fill=\"#000000\""),
    ] {
        assert!(cut.contains(from));
        assert!(shown_cut(&CUT_PICTURE.replace(cut, &cut.replace(from, to))).is_err());
    }
}

#[test]
fn a_mark_off_its_wall_or_on_another_is_noticed() {
    let (first, second) = ("rotate(-90 200 268)", "x=\"200\" y=\"268\"");
    assert!(PICTURE.contains(first) && PICTURE.contains(second));
    let moved = |x: usize, y: usize, left: usize, top: usize| {
        let mark = marks()[0]
            .replace(first, &format!("rotate(-90 {x} {y})"))
            .replace(second, &format!("x=\"{x}\" y=\"{y}\""))
            .replace(
                "<rect x=\"189\" y=\"262\"",
                &format!("<rect x=\"{left}\" y=\"{top}\""),
            );
        shown(&PICTURE.replace(marks()[0], &mark))
    };
    assert!(moved(200, 188, 189, 182).is_ok());
    assert!(moved(200, 228, 189, 222).is_err());
    assert!(moved(200, 428, 189, 422).is_err());
    assert!(moved(280, 188, 269, 182).is_err());
}

#[test]
fn a_mark_that_covers_a_number_is_noticed() {
    let mark = "width=\"22\" height=\"12\"";
    assert!(marks()[0].contains(mark));
    // The letter of the west side stands 30 units and two thirds from the wall.
    let wide = marks()[0]
        .replace(mark, "width=\"22\" height=\"60\"")
        .replace("y=\"262\"", "y=\"238\"");
    assert!(shown(&PICTURE.replace(marks()[0], &wide)).is_ok());
    let wider = wide
        .replace("\"60\"", "\"62\"")
        .replace("\"238\"", "\"237\"");
    assert!(shown(&PICTURE.replace(marks()[0], &wider)).is_err());
}

#[test]
fn neighbours_of_one_tint_are_noticed() {
    let tint = |x: &str| {
        let rest = &PICTURE[PICTURE.find(x).unwrap()..];
        let from = rest.find("fill=\"").unwrap() + 6;
        rest[from..from + 7].to_string()
    };
    let (four, five) = (
        tint("<rect x=\"200\" y=\"148\""),
        tint("<rect x=\"280\" y=\"148\""),
    );
    assert_ne!(four, five);
    assert!(shown(&PICTURE.replace(&four, &five)).is_err());
}

#[test]
fn what_lies_outside_a_picture_is_noticed() {
    let wide =
        |n: usize| format!("<rect x=\"500\" y=\"500\" width=\"{n}\" height=\"10\"/>\n</svg>");
    let with = |n: usize| {
        PICTURE
            .replace("</svg>", &wide(n))
            .replace("<rect x=\"500", "<path/><rect x=\"500")
    };
    assert!(shown(&with(60)).is_ok());
    assert!(shown(&with(61)).is_err());
    let line = |x: usize| PICTURE.replace("</svg>", &format!("<path d=\"M{x} 10h60\"/>\n</svg>"));
    assert!(shown(&line(500)).is_ok());
    assert!(shown(&line(501)).is_err());
}

#[test]
fn another_job_or_name_is_noticed() {
    assert!(listing_shown(PICTURE, Marked::Walls, b"G.job", JOB).is_err());
    assert!(listing_shown(PICTURE, Marked::Walls, b"", JOB).is_err());
    assert!(listing_shown(PICTURE, Marked::Walls, b"F.job", &JOB[1..]).is_err());
}
