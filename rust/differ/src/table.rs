//! How often each answer was seen.

use crate::batches::Tally;
use crate::picture::Marked;
use crate::planner::{
    OneJob, Outcome, CHECK, LOAD, NARROW, RECTANGLE, SLICEABLE, STAR, TOUCH, TURN,
};
use crate::planner::{WRITE_CUTS, WRITE_JOB, WRITE_PLAN, WRITE_WALLS};
use reference::drawing::Faults;
use std::collections::BTreeMap;

#[derive(Default)]
pub struct Table {
    seen: BTreeMap<(u8, Outcome), u64>,
    /// For loads refused by 9: which items of the drawing test failed together.
    faults: BTreeMap<[bool; 6], u64>,
    /// Loads of jobs with a field of sizes, by what came of them.
    sized: BTreeMap<Outcome, u64>,
    pub streams: u64,
    pub broken_streams: u64,
    /// Pairs of one job with two starts, by what came of both.
    pairs: BTreeMap<String, u64>,
    /// Programs of one job, by name and by what came of it.
    told: BTreeMap<(&'static str, String), u64>,
    /// Pictures, by what is marked on them and by what came of it.
    pictures: BTreeMap<String, u64>,
    /// Texts, by what was asked and by what came of it.
    texts: BTreeMap<String, u64>,
    /// Narrowings on a board, by how many turns they made.
    slimmed: BTreeMap<usize, u64>,
    /// Jobs narrowed by the program, by what came of it.
    narrowed: BTreeMap<String, u64>,
    /// Good plans that are not ours.
    pub good_elsewhere: u64,
    /// Batches of wrapped jobs.
    pub batches: Tally,
    pub turned_back: u64,
    pub plans_checked: u64,
}

const CALLS: [(u8, &str); 12] = [
    (LOAD, "load"),
    (TURN, "turn"),
    (NARROW, "narrow"),
    (RECTANGLE, "rectangle"),
    (TOUCH, "touch"),
    (WRITE_JOB, "write job"),
    (WRITE_PLAN, "write plan"),
    (WRITE_WALLS, "walls"),
    (SLICEABLE, "sliceable"),
    (WRITE_CUTS, "cuts"),
    (STAR, "star"),
    (CHECK, "check"),
];

/// The numbers of refusals, those of a load in the order of their tests; 8 is not used.
const REFUSALS: [u8; 17] = [1, 2, 3, 4, 5, 6, 17, 7, 18, 9, 10, 11, 12, 13, 14, 15, 16];

const ITEMS: [&str; 6] = ["outside", "overlap", "area", "unjoined", "corner", "order"];

impl Table {
    pub fn count(&mut self, tag: u8, outcome: Outcome) {
        *self.seen.entry((tag, outcome)).or_default() += 1;
    }

    pub fn count_faults(&mut self, faults: Faults) {
        let key = [
            faults.outside,
            faults.overlap,
            faults.area,
            faults.unjoined,
            faults.corner,
            faults.order,
        ];
        *self.faults.entry(key).or_default() += 1;
    }

    pub fn count_sized(&mut self, outcome: Outcome) {
        *self.sized.entry(outcome).or_default() += 1;
    }

    pub fn count_pair(&mut self, loaded: &str, turned: &str) {
        let turn = match (first_words(loaded).as_str(), first_words(turned).as_str()) {
            ("accepted", "accepted") => " and turned",
            _ => "",
        };
        let name = format!("{}{turn}", first_words(loaded));
        *self.pairs.entry(name).or_default() += 1;
    }

    pub fn count_told(&mut self, program: OneJob, text: &str) {
        let key = (program.name(), first_words(text));
        *self.told.entry(key).or_default() += 1;
    }

    pub fn count_slimmed(&mut self, turns: usize) {
        *self.slimmed.entry(turns).or_default() += 1;
    }

    pub fn count_narrowed(&mut self, job: &[u8], told: &[u8]) {
        let name = match first_words(&String::from_utf8_lossy(told)).as_str() {
            "accepted" if job == told => "as it was".to_string(),
            "accepted" => "narrowed".to_string(),
            other => other.to_string(),
        };
        *self.narrowed.entry(name).or_default() += 1;
    }

    pub fn count_picture(&mut self, marked: Marked, text: &str) {
        let with = match marked {
            Marked::Walls => "",
            Marked::Cuts => " with cuts",
        };
        let name = format!("{}{with}", first_words(text));
        *self.pictures.entry(name).or_default() += 1;
    }

    /// A wrong line is told by what was expected there, any room as one.
    pub fn count_text(&mut self, asked: &str, told: &[u8]) {
        let text = String::from_utf8_lossy(told);
        let name = match text.trim_end().split_once(": expected ") {
            Some((_, number)) if number.starts_with("the number") => "no number".to_string(),
            Some((_, expected)) => format!("no \"{expected}\""),
            None => first_words(&text),
        };
        *self.texts.entry(format!("{asked}, {name}")).or_default() += 1;
    }

    pub fn cases(&self) -> u64 {
        let calls = self.seen.values().chain(self.told.values());
        calls
            .chain(self.pairs.values())
            .chain(self.narrowed.values())
            .chain(self.pictures.values())
            .chain(self.texts.values())
            .chain([&self.batches.batches()])
            .sum()
    }

    pub fn of(&self, tag: u8, outcome: Outcome) -> u64 {
        self.seen.get(&(tag, outcome)).copied().unwrap_or(0)
    }

    fn row(&self, name: &str, outcome: Outcome) {
        print!("{name:>9}");
        for (tag, _) in CALLS {
            print!(" {:>10}", self.of(tag, outcome));
        }
        println!();
    }

    pub fn print(&self) {
        print!("{:>9}", "answer");
        for (_, name) in CALLS {
            print!(" {name:>10}");
        }
        println!();
        self.row("accepted", Outcome::Accepted);
        for number in REFUSALS {
            self.row(&number.to_string(), Outcome::Refused(number));
        }
        self.row("empty", Outcome::Empty);
        self.print_faults();
        self.print_rest();
    }

    fn by_program(&self) -> BTreeMap<&'static str, BTreeMap<String, u64>> {
        let mut all: BTreeMap<_, BTreeMap<_, _>> = BTreeMap::new();
        for ((program, outcome), count) in &self.told {
            let of_program = all.entry(*program).or_default();
            of_program.insert(outcome.clone(), *count);
        }
        all
    }

    fn sized_in_words(&self) -> BTreeMap<String, u64> {
        let name = |outcome: &Outcome| match outcome {
            Outcome::Refused(number) => format!("refused {number}"),
            _ => "accepted".to_string(),
        };
        let named = self.sized.iter().map(|(o, count)| (name(o), *count));
        named.collect()
    }

    /// An item that never fails alone is not shown to be looked at.
    fn print_faults(&self) {
        println!("drawing test, loads refused by 9: item, failed at all, failed alone");
        for (item, name) in ITEMS.iter().enumerate() {
            let with = |alone: bool| -> u64 {
                let fits = |key: &[bool; 6]| {
                    key[item] && (!alone || key.iter().filter(|&&failed| failed).count() == 1)
                };
                self.faults
                    .iter()
                    .filter(|(key, _)| fits(key))
                    .map(|(_, count)| count)
                    .sum()
            };
            println!("{name:>9} {:>10} {:>10}", with(false), with(true));
        }
    }

    fn print_rest(&self) {
        println!(
            "{} streams, {} of them broken; {} plans checked cell by cell; {} turns made again at once",
            self.streams, self.broken_streams, self.plans_checked, self.turned_back
        );
        println!("good plans that are not ours: {}", self.good_elsewhere);
        println!("loads with sizes: {}", in_words(&self.sized_in_words()));
        let turns = self
            .slimmed
            .iter()
            .map(|(n, count)| (n.to_string(), *count));
        println!("narrowings by turns made: {}", in_words(&turns.collect()));
        println!("narrow_job: {}", in_words(&self.narrowed));
        println!("pairs of starts: {}", in_words(&self.pairs));
        for (program, counts) in self.by_program() {
            println!("{program}: {}", in_words(&counts));
        }
        println!("pictures: {}", in_words(&self.pictures));
        println!("texts: {}", in_words(&self.texts));
        println!("batches: {}", self.batches.in_words());
        println!(
            "never came up in a batch: {}",
            none_or(&self.batches.never())
        );
        let never: Vec<String> = REFUSALS
            .into_iter()
            .filter(|&number| {
                CALLS
                    .iter()
                    .all(|&(tag, _)| self.of(tag, Outcome::Refused(number)) == 0)
            })
            .map(|number| number.to_string())
            .collect();
        println!("refusals never seen: {}", none_or(&never));
        let turns: Vec<String> = [7, 9]
            .into_iter()
            .filter(|&number| self.of(TURN, Outcome::Refused(number)) == 0)
            .map(|number| number.to_string())
            .collect();
        println!("never seen on a turn: {}", none_or(&turns));
    }
}

/// What a text comes to: its one line where it says why there is no more, else accepted.
fn first_words(text: &str) -> String {
    let first = text.lines().next().unwrap_or("");
    let name = if first.starts_with("refused") || first == "input too long" {
        first
    } else {
        "accepted"
    };
    name.to_string()
}

fn in_words(counts: &BTreeMap<String, u64>) -> String {
    let words: Vec<String> = counts
        .iter()
        .map(|(name, count)| format!("{name}: {count}"))
        .collect();
    words.join(", ")
}

fn none_or(names: &[String]) -> String {
    if names.is_empty() {
        "none".to_string()
    } else {
        names.join(", ")
    }
}
