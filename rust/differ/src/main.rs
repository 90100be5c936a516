//! Puts many jobs and calls to the reference and to the built programs `calls`, `listing`, `doors`, `walls_list`, `cuts_list`, `narrow_job`, `draw`,
//! `job_to_text`, `text_to_job` and `totals`, and compares every line.

mod alone;
mod batches;
mod circle;
mod damage;
mod marks;
mod miscounts;
mod misfits;
mod pairs;
mod picture;
mod planner;
mod programs;
mod proofread;
mod returned;
mod rounds;
mod shrink;
mod slips;
mod streams;
mod table;
#[cfg(test)]
mod tests;
mod texts;

use floors::Chance;
use picture::Marked;
use planner::{hex, OneJob};
use programs::UnderTest;
use reference::{totals, Board};
use shrink::{both_texts, both_totals, first_difference, Shrinker};
use std::process::ExitCode;
use std::time::Instant;
use streams::{make_stream, Budget};
use table::Table;

const USAGE: &str = "differ [--short | --long] [--seed N] [--jobs N] [--calls N] [--pairs N] \
    [--listings N] [--doors N] [--walls N] [--cuts N] [--narrows N] [--checks N] [--pictures N] [--texts N] [--batches N] [--runner PATH] [--slip NAME] [--reference]";

struct Options {
    seed: u64,
    jobs: usize,
    calls: usize,
    pairs: usize,
    listings: usize,
    doors: usize,
    walls: usize,
    cuts: usize,
    narrows: usize,
    checks: usize,
    pictures: usize,
    texts: usize,
    batches: usize,
    under_test: UnderTest,
}

fn main() -> ExitCode {
    let Some(options) = read_options() else {
        eprintln!("usage: {USAGE}");
        return ExitCode::from(2);
    };
    let begun = Instant::now();
    println!(
        "seed {}, {} jobs, {} other calls, {} pairs of starts, {} listings, {} lists of doors, {} of walls, {} of cuts, {} narrowed, {} plans checked, {} pictures, {} texts, {} batches",
        options.seed,
        options.jobs,
        options.calls,
        options.pairs,
        options.listings,
        options.doors,
        options.walls,
        options.cuts,
        options.narrows,
        options.checks,
        options.pictures,
        options.texts,
        options.batches
    );
    let mut table = Table::default();
    let same = compare_calls(&options, &mut table)
        && compare_pairs(&options, &mut table)
        && compare_told(&options, OneJob::Listing, options.listings, &mut table)
        && compare_told(&options, OneJob::Doors, options.doors, &mut table)
        && compare_told(&options, OneJob::Walls, options.walls, &mut table)
        && compare_told(&options, OneJob::Cuts, options.cuts, &mut table)
        && compare_narrowed(&options, &mut table)
        && compare_checks(&options, &mut table)
        && compare_pictures(&options, &mut table)
        && compare_texts(&options, &mut table)
        && compare_batches(&options, &mut table);
    table.print();
    println!(
        "{} cases in {:.1} seconds",
        table.cases(),
        begun.elapsed().as_secs_f64()
    );
    // A comparison that never met a case says nothing of it.
    if !same {
        println!("DIFFERENT");
    } else if table.batches.lacks() {
        println!("no difference, but the batches lack something");
    } else {
        println!("no difference");
        return ExitCode::SUCCESS;
    }
    ExitCode::FAILURE
}

fn read_options() -> Option<Options> {
    let mut options = Options {
        seed: 1,
        jobs: 20_000,
        calls: 50_000,
        pairs: 1_000,
        listings: 300,
        doors: 300,
        walls: 300,
        cuts: 300,
        narrows: 300,
        checks: 10_000,
        pictures: 200,
        texts: 300,
        batches: 60,
        under_test: UnderTest::Runner("../bin/run".to_string()),
    };
    let mut words = std::env::args().skip(1);
    while let Some(word) = words.next() {
        match word.as_str() {
            "--short" => {}
            "--long" => {
                (options.jobs, options.calls) = (400_000, 600_000);
                options.pairs = 10_000;
                (options.listings, options.doors) = (3_000, 3_000);
                (options.walls, options.cuts) = (3_000, 3_000);
                (options.narrows, options.checks) = (3_000, 200_000);
                (options.pictures, options.texts) = (2_000, 3_000);
                options.batches = 1_000;
            }
            "--seed" => options.seed = words.next()?.parse().ok()?,
            "--jobs" => options.jobs = words.next()?.parse().ok()?,
            "--calls" => options.calls = words.next()?.parse().ok()?,
            "--pairs" => options.pairs = words.next()?.parse().ok()?,
            "--listings" => options.listings = words.next()?.parse().ok()?,
            "--doors" => options.doors = words.next()?.parse().ok()?,
            "--walls" => options.walls = words.next()?.parse().ok()?,
            "--cuts" => options.cuts = words.next()?.parse().ok()?,
            "--narrows" => options.narrows = words.next()?.parse().ok()?,
            "--checks" => options.checks = words.next()?.parse().ok()?,
            "--pictures" => options.pictures = words.next()?.parse().ok()?,
            "--texts" => options.texts = words.next()?.parse().ok()?,
            "--batches" => options.batches = words.next()?.parse().ok()?,
            "--runner" => options.under_test = UnderTest::Runner(words.next()?),
            "--reference" => options.under_test = UnderTest::Reference,
            "--slip" => {
                let name = words.next()?;
                let besides = slips::OF_TEXTS.iter().chain(&slips::OF_TOTALS);
                let mut all = slips::ALL.iter().chain(besides);
                let slip = all.find(|slip| format!("{slip:?}") == name)?;
                options.under_test = UnderTest::Slipped(*slip);
            }
            _ => return None,
        }
    }
    Some(options)
}

/// Stream after stream until all jobs and calls are made; the first difference ends it.
fn compare_calls(options: &Options, table: &mut Table) -> bool {
    let mut chance = Chance::new(options.seed);
    let mut budget = Budget {
        jobs: options.jobs,
        calls: options.calls,
    };
    while !budget.is_empty() {
        // Each stream has its own seed, so that what one stream uses up does not move the next.
        let mut own = Chance::new(chance.next());
        let stream = make_stream(&mut own, &mut budget, table);
        let found = options.under_test.calls(&stream.pieces.concat());
        if found != stream.expected {
            show_stream_difference(options, stream.pieces);
            return false;
        }
    }
    true
}

fn show_stream_difference(options: &Options, pieces: Vec<Vec<u8>>) {
    println!("difference in a stream of {} calls", pieces.len());
    let small = Shrinker::new(&options.under_test).shrink(pieces);
    let (expected, found) = both_texts(&options.under_test, &small);
    println!("shrunk to {} calls, one a line:", small.len());
    for piece in &small {
        println!("  {}", hex(piece));
    }
    let line = first_difference(&expected, &found);
    println!("first differing line: {}", line + 1);
    println!(
        "  reference: {}",
        expected.lines().nth(line).unwrap_or("(nothing)")
    );
    println!(
        "  program:   {}",
        found.lines().nth(line).unwrap_or("(nothing)")
    );
}

/// Each job beside the same job with its stars started elsewhere, both put to the planner under test.
fn compare_pairs(options: &Options, table: &mut Table) -> bool {
    let unlike = pairs::first_unlike(&options.under_test, options.seed, options.pairs, table);
    if let Some(pair) = &unlike {
        println!("two jobs that differ only in their starts are not answered alike");
        println!("{pair}");
    }
    unlike.is_none()
}

/// One process a job, so only a sample, with lengths about the program's limit among them.
fn compare_told(options: &Options, program: OneJob, rounds: usize, table: &mut Table) -> bool {
    let mut chance = Chance::new(options.seed ^ program.salt());
    for round in 0..rounds {
        let job = listing_job(&mut chance, round);
        let expected = program.text(&mut Board::empty(), &job);
        let found = options.under_test.told(program, &job);
        table.count_told(program, &expected);
        if expected != found {
            println!("difference in {} of {} bytes:", program.name(), job.len());
            println!("  {}", hex(&job));
            println!("reference:\n{expected}program:\n{found}");
            return false;
        }
    }
    true
}

/// Plans drawn elsewhere, so many to a stream.
fn compare_checks(options: &Options, table: &mut Table) -> bool {
    let mut chance = Chance::new(options.seed ^ 0x6368_6563);
    let mut left = options.checks;
    while left > 0 {
        let many = left.min(2_000);
        left -= many;
        let mut own = Chance::new(chance.next());
        let stream = streams::make_checks(&mut own, many, table);
        if options.under_test.calls(&stream.pieces.concat()) != stream.expected {
            show_stream_difference(options, stream.pieces);
            return false;
        }
    }
    true
}

/// The job that the narrowing program writes, byte for byte.
fn compare_narrowed(options: &Options, table: &mut Table) -> bool {
    let mut chance = Chance::new(options.seed ^ 0x6e61_7272);
    for round in 0..options.narrows {
        let job = listing_job(&mut chance, round);
        let expected = planner::narrowed(&mut Board::empty(), &job);
        table.count_narrowed(&job, &expected);
        let found = options.under_test.narrowed(&job);
        if !same_text("a job narrowed", &job, &expected, &found) {
            return false;
        }
    }
    true
}

/// A picture shows what the listing says, rectangle by rectangle; where there is no plan, it is the listing. A planner in plain Rust draws nothing: what it
/// tells stands for the picture.
fn compare_pictures(options: &Options, table: &mut Table) -> bool {
    let mut chance = Chance::new(options.seed ^ 0x6472_6177);
    for round in 0..options.pictures {
        let job = listing_job(&mut chance, round);
        let marked = *chance.pick(&[Marked::Walls, Marked::Cuts]);
        let expected = picture_text(marked, |program| program.text(&mut Board::empty(), &job));
        table.count_picture(marked, &expected);
        let name = picture_name(&mut chance);
        let asked = picture::asked(marked, chance.percent(50), &name, &job);
        let tell = |program| options.under_test.told(program, &job);
        let shown = options.under_test.picture(&asked);
        let shown = shown.unwrap_or_else(|| picture_text(marked, tell));
        let found = picture::listing_shown(&shown, marked, &name, &job);
        if found.as_ref() != Ok(&expected) {
            println!("difference in a picture of {} bytes:", job.len());
            println!("  {}", hex(&asked));
            println!("reference:\n{expected}picture:\n{found:?}");
            return false;
        }
    }
    true
}

/// A job as text, that text as a job again, and a text damaged: three processes, so only a sample.
fn compare_texts(options: &Options, table: &mut Table) -> bool {
    let mut chance = Chance::new(options.seed ^ 0x7465_7874);
    for round in 0..options.texts {
        let job = listing_job(&mut chance, round);
        let text = texts::text_of(&job, None);
        table.count_text("as text", &text);
        if !same_text("a job as text", &job, &text, &options.under_test.text(&job)) {
            return false;
        }
        // A job that has no text leaves one that the reader must refuse, word for word.
        let damaged = texts::damaged_text(&mut chance, &text);
        for text in [text, damaged] {
            let back = texts::job_of(&text, None);
            table.count_text("read", &back);
            if !same_text("a text read", &text, &back, &options.under_test.job(&text)) {
                return false;
            }
        }
    }
    true
}

/// Batches of wrapped jobs, one process each.
fn compare_batches(options: &Options, table: &mut Table) -> bool {
    let mut chance = Chance::new(options.seed ^ 0x746f_7461);
    for round in 0..options.batches {
        // Each batch has its own seed, as each stream.
        let mut own = Chance::new(chance.next());
        let batch = batches::batch_of(&mut own, round);
        let stream = batch.pieces.concat();
        let expected = totals::text(&stream);
        table.batches.count(&batch, &expected);
        if options.under_test.totals(&stream) != expected {
            show_batch_difference(options, batch);
            return false;
        }
    }
    true
}

fn show_batch_difference(options: &Options, batch: batches::Batch) {
    println!("difference in the totals of a batch of {:?}", batch.sort);
    let small = Shrinker::shrink_batch(&options.under_test, batch.pieces);
    let (expected, found) = both_totals(&options.under_test, &small);
    println!("shrunk to {} wrapped jobs, one a line:", small.len());
    for piece in &small {
        println!("  {}", hex(piece));
    }
    println!("reference:\n{expected}program:\n{found}");
}

/// Whether both are the same; if not, all three are shown.
fn same_text(what: &str, asked: &[u8], expected: &[u8], found: &[u8]) -> bool {
    if expected != found {
        println!("difference in {what}, asked:\n{}", shown(asked));
        println!("reference:\n{}program:\n{}", shown(expected), shown(found));
    }
    expected == found
}

/// A text as it is, and bytes as digits.
fn shown(bytes: &[u8]) -> String {
    let printed = |byte: &u8| byte.is_ascii_graphic() || byte.is_ascii_whitespace();
    if bytes.iter().all(printed) {
        String::from_utf8_lossy(bytes).into_owned()
    } else {
        hex(bytes) + "\n"
    }
}

/// What a picture shows: the listing, but with cuts the refusal of a floor that has none.
fn picture_text(marked: Marked, tell: impl Fn(OneJob) -> String) -> String {
    let cuts = match marked {
        Marked::Walls => String::new(),
        Marked::Cuts => tell(OneJob::Cuts),
    };
    if cuts.starts_with("refused") {
        return cuts;
    }
    tell(OneJob::Listing)
}

/// No name, a plain one, or bytes of any kind, which are no text or mean something to a picture.
fn picture_name(chance: &mut Chance) -> Vec<u8> {
    const KINDS: [&str; 4] = [
        "floor.job",
        "a<b>&amp;\"'.job",
        "Süd-Magazin ½ 倉庫.job",
        "",
    ];
    let mut name = chance.pick(&KINDS).as_bytes().to_vec();
    if chance.percent(30) {
        name.extend((0..chance.below(60)).map(|_| chance.byte()));
    }
    name
}

/// Half of them floors that are accepted; every fifth of a length about the limit.
pub fn listing_job(chance: &mut Chance, round: usize) -> Vec<u8> {
    const LENGTHS: [usize; 9] = [
        8_190, 8_191, 8_192, 8_193, 8_194, 9_000, 16_384, 65_536, 300_000,
    ];
    let mut job = if chance.percent(50) {
        damage::finished_floor(chance).bytes()
    } else {
        damage::any_job(chance)
    };
    if round % 5 == 0 {
        job.resize(LENGTHS[round / 5 % LENGTHS.len()], chance.byte());
    }
    job
}
