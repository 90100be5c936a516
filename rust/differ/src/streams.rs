//! Streams of calls, made while the reference answers them, so that later calls can aim at what is held.

use crate::damage::any_job;
use crate::planner::{
    answer_stream, Answer, Outcome, CHECK, LARGEST_BUFFER, LOAD, NARROW, RECTANGLE,
};
use crate::planner::{SLICEABLE, STAR};
use crate::planner::{TOUCH, TURN, WRITE_CUTS, WRITE_JOB, WRITE_PLAN, WRITE_WALLS};
use crate::proofread::plan_fault;
use crate::returned::{any_returned, Returned};
use crate::table::Table;
use floors::{Chance, LARGEST_SHEET, LARGEST_SIZE};
use reference::fields::put_field;
use reference::{drawing, job, register, walls, Board, Refusal, ABOVE, FIRST_ROOM};

/// A stream in pieces: whole calls, and at the end perhaps one piece that breaks it.
pub struct Stream {
    pub pieces: Vec<Vec<u8>>,
    pub expected: String,
}

/// What is still to be made.
pub struct Budget {
    pub jobs: usize,
    pub calls: usize,
}

impl Budget {
    pub fn is_empty(&self) -> bool {
        self.jobs + self.calls == 0
    }

    /// Jobs and other calls stay mixed to the end.
    fn take_job(&mut self, chance: &mut Chance) -> bool {
        let job = chance.below(self.jobs + self.calls) < self.jobs;
        if job {
            self.jobs -= 1;
        } else {
            self.calls -= 1;
        }
        job
    }
}

/// Makes one stream and its expected text. A fault of the reference itself ends the run with a message.
pub fn make_stream(chance: &mut Chance, budget: &mut Budget, table: &mut Table) -> Stream {
    let length = *chance.pick(&[1, 5, 20, 500, 2_000, 2_000, 4_000]);
    let mut maker = Maker::empty();
    for _ in 0..length {
        if budget.is_empty() {
            break;
        }
        let job = budget.take_job(chance);
        let piece = maker.next_piece(chance, job);
        maker.put(piece, table);
    }
    if chance.percent(40) {
        let tail = breaking_tail(chance);
        maker.put(tail, table);
    }
    table.streams += 1;
    maker.stream
}

/// A stream of plans drawn elsewhere, each with its job.
pub fn make_checks(chance: &mut Chance, many: usize, table: &mut Table) -> Stream {
    let mut maker = Maker::empty();
    for _ in 0..many {
        let returned = any_returned(chance);
        let piece = check(&returned);
        let before = table.of(CHECK, Outcome::Accepted);
        maker.put(piece, table);
        if table.of(CHECK, Outcome::Accepted) > before && !is_ours(&returned) {
            table.good_elsewhere += 1;
        }
    }
    table.streams += 1;
    maker.stream
}

/// The call that asks of a job and a plan.
fn check(returned: &Returned) -> Vec<u8> {
    let mut value = two(returned.job.len()).to_vec();
    value.extend(&returned.job);
    value.extend(&returned.plan);
    call(CHECK, &value)
}

/// Whether the plan is the one that a load of the job gives.
fn is_ours(returned: &Returned) -> bool {
    let mut board = Board::empty();
    let loaded = board.load(&returned.job);
    loaded.is_ok()
        && board
            .plan()
            .is_some_and(|plan| plan.bytes() == returned.plan)
}

struct Maker {
    board: Board,
    /// The rooms of an accepted turn just made, and the board before it.
    last_turn: Option<(Vec<u8>, Board)>,
    stream: Stream,
}

impl Maker {
    fn empty() -> Maker {
        Maker {
            board: Board::empty(),
            last_turn: None,
            stream: Stream {
                pieces: Vec::new(),
                expected: String::new(),
            },
        }
    }

    fn next_piece(&self, chance: &mut Chance, job: bool) -> Vec<u8> {
        if job {
            return if chance.percent(85) {
                call(LOAD, &any_job(chance))
            } else {
                self.star_question(chance)
            };
        }
        match chance.below(100) {
            0..=35 => self.turn(chance),
            36..=39 => call(NARROW, &[]),
            40..=51 => call(RECTANGLE, &two(self.some_vertex(chance))),
            52..=68 => self.touch(chance),
            69..=74 => self.writing(chance, WRITE_JOB),
            75..=79 => self.writing(chance, WRITE_PLAN),
            80..=87 => self.writing(chance, WRITE_WALLS),
            88..=90 => call(SLICEABLE, &[]),
            91 => check(&any_returned(chance)),
            _ => self.writing(chance, WRITE_CUTS),
        }
    }

    /// Answers the piece, counts the answers, and holds the reference against demand 3.
    fn put(&mut self, piece: Vec<u8>, table: &mut Table) {
        let before = self.board.clone();
        let (answers, broken) = answer_stream(&mut self.board, &piece);
        for answer in &answers {
            table.count(answer.tag, answer.outcome);
            if answer.tag == LOAD && has_sizes(&piece[3..]) {
                table.count_sized(answer.outcome);
            }
            self.stream.expected.push_str(&answer.line);
            self.stream.expected.push('\n');
        }
        if let [answer] = answers.as_slice() {
            self.check(answer, before, &piece, table);
        }
        if broken {
            self.stream.expected.push_str("broken stream\n");
            table.broken_streams += 1;
        }
        self.stream.pieces.push(piece);
    }

    fn check(&mut self, answer: &Answer, before: Board, piece: &[u8], table: &mut Table) {
        let (tag, outcome) = (answer.tag, answer.outcome);
        let changes_plan = [LOAD, TURN, NARROW].contains(&tag) && outcome == Outcome::Accepted;
        if !changes_plan {
            assert!(
                self.board == before,
                "a call that may not change the board did"
            );
            if tag == LOAD && outcome == Outcome::Refused(9) {
                count_faults(&piece[3..], table);
            }
            return;
        }
        let (job, plan) = (self.board.job(), self.board.plan());
        let fault = plan_fault(job.expect("held"), plan.expect("held"));
        assert!(fault.is_none(), "the reference holds a bad plan: {fault:?}");
        table.plans_checked += 1;
        if tag == LOAD {
            let written = job.expect("held").bytes();
            assert!(
                written == piece[3..],
                "a job read and written has other bytes"
            );
            self.last_turn = None;
            return;
        }
        if tag == NARROW {
            let turns = self.check_narrowed(&before);
            assert!(
                answer.line == format!("made {turns}"),
                "other turns are told"
            );
            table.count_slimmed(turns);
            self.last_turn = None;
            return;
        }
        if let Some((rooms, earlier)) = &self.last_turn {
            if same_rooms(rooms, piece) {
                assert!(*earlier == self.board, "a turn made again did not go back");
                table.turned_back += 1;
            }
        }
        self.last_turn = Some((piece.to_vec(), before));
    }

    /// W10's own claims, of a narrowing just made: the same pairs, the same sizes, narrower by 1 for each turn, and no turn of a room that lies above
    /// another narrows it further. How many turns were made.
    fn check_narrowed(&self, before: &Board) -> usize {
        let (was, old) = (before.job().expect("held"), before.plan().expect("held"));
        let (job, plan) = (
            self.board.job().expect("held"),
            self.board.plan().expect("held"),
        );
        let pairs = |job: &job::Job| -> Vec<Vec<usize>> {
            let stars = job.stars.iter();
            stars
                .map(|star| star.iter().map(|entry| entry.neighbour).collect())
                .collect()
        };
        assert!(pairs(was) == pairs(job), "narrowing joins other pairs");
        assert!(was.sizes == job.sizes, "narrowing changes the sizes");
        for room in job.rooms() {
            for entry in job.star_of(room).iter().filter(|entry| entry.kind == ABOVE) {
                let mut again = self.board.clone();
                let turned = again.turn(room, entry.neighbour);
                let narrower = turned.is_ok_and(|(width, _)| width < plan.width);
                assert!(!narrower, "a turn is left that narrows");
            }
        }
        old.width - plan.width
    }

    fn some_vertex(&self, chance: &mut Chance) -> usize {
        let vertices = self.board.job().map_or(5, |job| job.vertices());
        match chance.below(20) {
            0 => vertices,
            1 => chance.below(65_536),
            // A number that is a vertex again when cut to one byte.
            2 => 256 + chance.below(vertices),
            3 => vertices - 1,
            _ => chance.below(vertices),
        }
    }

    /// Two rooms in contact, where a plan is held.
    fn some_contact(&self, chance: &mut Chance) -> (usize, usize) {
        let Some(job) = self.board.job() else {
            return (self.some_vertex(chance), self.some_vertex(chance));
        };
        let room = chance.between(FIRST_ROOM, job.vertices() - 1);
        (room, chance.pick(job.star_of(room)).neighbour)
    }

    fn turn(&self, chance: &mut Chance) -> Vec<u8> {
        if let Some((rooms, _)) = &self.last_turn {
            if chance.percent(40) {
                return rooms.clone();
            }
        }
        let (one, other) = match chance.below(10) {
            0 => (self.some_vertex(chance), self.some_vertex(chance)),
            1 => {
                let room = self.some_vertex(chance);
                (room, room)
            }
            2 => {
                let (one, other) = self.some_contact(chance);
                (one, other + 256)
            }
            3..=5 => {
                let growing = self.some_growing(chance);
                growing.unwrap_or_else(|| self.some_turnable(chance))
            }
            _ => self.some_turnable(chance),
        };
        if chance.percent(50) {
            call(TURN, &four(one, other))
        } else {
            call(TURN, &four(other, one))
        }
    }

    /// Most contacts have a list too short; a few more tries find one that can be turned.
    fn some_turnable(&self, chance: &mut Chance) -> (usize, usize) {
        let mut contact = self.some_contact(chance);
        for _ in 0..chance.below(12) {
            let Some(job) = self.board.job() else {
                break;
            };
            if reference::turning::turned(job, contact.0, contact.1).is_ok() {
                break;
            }
            contact = self.some_contact(chance);
        }
        contact
    }

    /// A contact of a large sheet whose turn would make it too large, if a few tries find one.
    fn some_growing(&self, chance: &mut Chance) -> Option<(usize, usize)> {
        let (job, plan) = (self.board.job()?, self.board.plan()?);
        if plan.width.max(plan.height) + LARGEST_SIZE < LARGEST_SHEET {
            return None;
        }
        let mut tries = (0..60).map(|_| self.some_contact(chance));
        tries.find(|&(one, other)| {
            let turned = reference::turning::turned(job, one, other);
            turned.is_ok_and(|job| drawing::draw(&job) == Err(Refusal(18)))
        })
    }

    fn some_room(&self, chance: &mut Chance) -> usize {
        let vertices = self.board.job().map_or(5, |job| job.vertices());
        chance.between(FIRST_ROOM, vertices - 1)
    }

    /// Two that are joined, seen from either; one vertex twice; two frame sides, or one and a room; two rooms; any two.
    fn touch(&self, chance: &mut Chance) -> Vec<u8> {
        let (one, other) = match chance.below(12) {
            0..=4 => self.some_contact(chance),
            5 => {
                let vertex = self.some_vertex(chance);
                (vertex, vertex)
            }
            6 => (chance.below(FIRST_ROOM), chance.below(FIRST_ROOM)),
            7 => (chance.below(FIRST_ROOM), self.some_room(chance)),
            8..=9 => (self.some_room(chance), self.some_room(chance)),
            _ => (self.some_vertex(chance), self.some_vertex(chance)),
        };
        if chance.percent(50) {
            call(TOUCH, &four(one, other))
        } else {
            call(TOUCH, &four(other, one))
        }
    }

    /// Buffers that just fit, that just do not, and any others.
    fn writing(&self, chance: &mut Chance, tag: u8) -> Vec<u8> {
        let length = self.written_length(tag).unwrap_or(100);
        let size = match chance.below(8) {
            0..=1 => length,
            2 => length - 1,
            3 => length + 1,
            4 => 0,
            5 => LARGEST_BUFFER,
            _ => chance.below(LARGEST_BUFFER + 1),
        };
        call(tag, &two(size))
    }

    /// How many bytes a writing fills, where a plan is held.
    fn written_length(&self, tag: u8) -> Option<usize> {
        let (job, plan) = (self.board.job()?, self.board.plan()?);
        Some(match tag {
            WRITE_JOB => job.bytes().len(),
            WRITE_PLAN => plan.bytes().len(),
            WRITE_WALLS => register::bytes(&register::register(plan)).len(),
            // So long where the floor comes apart, and as long a buffer where it does not.
            _ => 9 * job.stars.len() - 5,
        })
    }

    fn star_question(&self, chance: &mut Chance) -> Vec<u8> {
        let bytes = any_job(chance);
        let rooms = usize::from(bytes.get(3).copied().unwrap_or(1));
        let room = match chance.below(12) {
            0 => chance.below(FIRST_ROOM),
            1 => FIRST_ROOM + rooms,
            2 => 256 + FIRST_ROOM + chance.below(rooms + 1),
            3 => chance.below(65_536),
            4 => FIRST_ROOM + rooms.saturating_sub(1),
            _ => FIRST_ROOM + chance.below(rooms + 1),
        };
        let mut value = two(room).to_vec();
        value.extend(bytes);
        call(STAR, &value)
    }
}

/// Whether a job has a field of sizes, and the shape of a job at all.
fn has_sizes(bytes: &[u8]) -> bool {
    job::values(bytes).is_ok_and(|values| values.sizes.is_some())
}

fn count_faults(bytes: &[u8], table: &mut Table) {
    let job = job::read(bytes).expect("a job refused by 9 has passed tests 1 to 6 and 17");
    let numbers = walls::number_walls(&job).expect("and test 7");
    table.count_faults(drawing::faults(&job, &drawing::place(&job, &numbers)));
}

fn same_rooms(one: &[u8], other: &[u8]) -> bool {
    one == other || (one[3..5] == other[5..7] && one[5..7] == other[3..5])
}

/// Bytes at whose first field, or soon after, a stream breaks; calls behind the break must stay unanswered.
fn breaking_tail(chance: &mut Chance) -> Vec<u8> {
    let mut tail = match chance.below(9) {
        0 => cut(chance, call(TURN, &four(4, 5))),
        1 => {
            let bytes = any_job(chance);
            cut(chance, call(LOAD, &bytes))
        }
        2 => call(
            *chance.pick(&[0, 1, 2, 31, 44, 255, 32 + 128]),
            &four(4, 5)[..chance.below(5)],
        ),
        3 => call(
            *chance.pick(&[TURN, TOUCH]),
            &[0, 4, 0, 5, 0, 6][..*chance.pick(&[0, 1, 2, 3, 5, 6])],
        ),
        4 => call(
            *chance.pick(&[RECTANGLE, WRITE_JOB, WRITE_PLAN, WRITE_WALLS, WRITE_CUTS]),
            &[0, 4, 0, 5][..*chance.pick(&[0, 1, 3, 4])],
        ),
        5 => call(*chance.pick(&[STAR, CHECK]), &[0, 4][..chance.below(2)]),
        6 => call(
            *chance.pick(&[WRITE_JOB, WRITE_PLAN, WRITE_WALLS, WRITE_CUTS]),
            &two(*chance.pick(&[2_049, 2_050, 4_096, 65_535])),
        ),
        7 => call(
            *chance.pick(&[SLICEABLE, NARROW]),
            &[0, 0][..chance.between(1, 2)],
        ),
        _ => (0..chance.between(1, 12)).map(|_| chance.byte()).collect(),
    };
    for _ in 0..chance.below(3) {
        tail.extend(call(RECTANGLE, &two(0)));
    }
    tail
}

/// At least one byte is missing, and at least one is left.
fn cut(chance: &mut Chance, mut piece: Vec<u8>) -> Vec<u8> {
    let length = chance.between(1, piece.len() - 1);
    piece.truncate(length);
    piece
}

pub fn call(tag: u8, value: &[u8]) -> Vec<u8> {
    let mut piece = Vec::new();
    put_field(&mut piece, tag, value);
    piece
}

pub fn two(number: usize) -> [u8; 2] {
    (number as u16).to_be_bytes()
}

pub fn four(one: usize, other: usize) -> [u8; 4] {
    let (a, b) = (two(one), two(other));
    [a[0], a[1], b[0], b[1]]
}
