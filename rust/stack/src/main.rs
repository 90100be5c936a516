//! Reads off built x86-64 code what stack each call takes: a table of calls, bytes and deepest paths. It fails where a function calls itself, directly or
//! round about, where one is called by a pointer, where the library calls more outside than the C library's copying, and where a call passes the limit.

mod depth;
mod frame;
mod object;
#[cfg(test)]
mod tests;

use depth::{depths, Depth, C_LIBRARY, OF_THE_C_LIBRARY};
use object::Object;
use std::collections::BTreeMap;
use std::path::Path;
use std::process::{Command, ExitCode};

const USAGE: &str = "stack [--limit BYTES] [--crates NAME,NAME] [--objdump NAME] FILE...";

struct Options {
    limit: u64,
    /// The crates whose functions are held to the limit wherever they stand.
    crates: Vec<String>,
    objdump: String,
    files: Vec<String>,
}

/// Who answers for a function: it is called from outside, it is a part of the library, or it belongs to a program.
#[derive(Clone, Copy, PartialEq, Eq, PartialOrd, Ord)]
enum Whose {
    Call,
    Part,
    Program,
}

struct Row {
    whose: Whose,
    name: String,
    file: String,
    depth: Depth,
}

fn main() -> ExitCode {
    let Some(options) = read_options() else {
        eprintln!("usage: {USAGE}");
        return ExitCode::from(2);
    };
    let mut rows = Vec::new();
    for file in &options.files {
        match rows_of(&options, file) {
            Ok(more) => rows.extend(more),
            Err(why) => {
                eprintln!("stack: {}: {why}", short(file));
                return ExitCode::FAILURE;
            }
        }
    }
    let rows = deepest_of_each(rows);
    print(&rows, options.limit);
    let faults: Vec<_> = rows
        .iter()
        .filter_map(|row| fault(row, options.limit))
        .collect();
    for fault in &faults {
        eprintln!("stack: {fault}");
    }
    if faults.is_empty() {
        ExitCode::SUCCESS
    } else {
        ExitCode::FAILURE
    }
}

fn read_options() -> Option<Options> {
    let mut options = Options {
        limit: 32 * 1024,
        crates: Vec::new(),
        objdump: "objdump".to_string(),
        files: Vec::new(),
    };
    let mut words = std::env::args().skip(1);
    while let Some(word) = words.next() {
        match word.as_str() {
            "--limit" => options.limit = words.next()?.parse().ok()?,
            "--crates" => options
                .crates
                .extend(words.next()?.split(',').map(str::to_string)),
            "--objdump" => options.objdump = words.next()?,
            _ if word.starts_with('-') => return None,
            _ => options.files.push(word),
        }
    }
    (!options.files.is_empty()).then_some(options)
}

/// The file's own name, without its folders.
fn short(file: &str) -> &str {
    Path::new(file)
        .file_name()
        .and_then(|name| name.to_str())
        .unwrap_or(file)
}

fn rows_of(options: &Options, file: &str) -> Result<Vec<Row>, String> {
    let code = dumped(&options.objdump, &object::CODE, file)?;
    let records = dumped(&options.objdump, &object::RECORDS, file)?;
    let object = Object::read(&code, &records)?;
    if object.functions.is_empty() {
        return Err("there is no code in it".to_string());
    }
    let depths = depths(&object)?;
    let row = |(function, depth): (&object::Function, Depth)| Row {
        whose: whose(options, &object, &function.name),
        name: function.name.clone(),
        file: short(file).to_string(),
        depth,
    };
    Ok(object.functions.iter().zip(depths).map(row).collect())
}

fn dumped(objdump: &str, words: &[&str], file: &str) -> Result<String, String> {
    let output = Command::new(objdump)
        .args(words)
        .arg(file)
        .output()
        .map_err(|why| format!("{objdump} does not start: {why}"))?;
    if !output.status.success() {
        return Err(String::from_utf8_lossy(&output.stderr).trim().to_string());
    }
    String::from_utf8(output.stdout).map_err(|why| why.to_string())
}

fn whose(options: &Options, object: &Object, name: &str) -> Whose {
    let own = name.split("::").next().unwrap_or(name);
    if name != "main" && object.exported.iter().any(|exported| exported == name) {
        Whose::Call
    } else if options.crates.iter().any(|one| one == own) {
        Whose::Part
    } else {
        Whose::Program
    }
}

/// A part of the library stands in several objects: the one in which it goes deepest counts. Of a program its `main` is shown.
fn deepest_of_each(rows: Vec<Row>) -> Vec<Row> {
    let mut kept: BTreeMap<(Whose, String), Row> = BTreeMap::new();
    for row in rows {
        let key = match row.whose {
            Whose::Program if row.name != "main" => continue,
            Whose::Program => (row.whose, row.file.clone()),
            _ => (row.whose, row.name.clone()),
        };
        match kept.get(&key) {
            Some(before) if before.depth.bytes >= row.depth.bytes => {}
            _ => {
                kept.insert(key, row);
            }
        }
    }
    let mut rows: Vec<_> = kept.into_values().collect();
    rows.sort_by(|a, b| (a.whose, b.depth.bytes).cmp(&(b.whose, a.depth.bytes)));
    rows
}

fn print(rows: &[Row], limit: u64) {
    let groups = [
        (Whose::Call, format!("calls, at most {limit} bytes")),
        (
            Whose::Part,
            format!("other functions of the library, at most {limit} bytes"),
        ),
        (
            Whose::Program,
            "of programs, with their buffers; what they call of the system is not counted"
                .to_string(),
        ),
    ];
    for (whose, title) in groups {
        let group: Vec<_> = rows.iter().filter(|row| row.whose == whose).collect();
        if group.is_empty() {
            continue;
        }
        println!("{title}:");
        for row in group {
            let path: Vec<_> = row
                .depth
                .path
                .iter()
                .map(|stop| format!("{} {}", stop.name, stop.bytes))
                .collect();
            println!(
                "  {:<28} {:>6}  {:<18} {}",
                row.name,
                row.depth.bytes,
                row.file,
                path.join(" > ")
            );
        }
    }
    let outside: Vec<_> = rows
        .iter()
        .filter(|row| row.whose != Whose::Program)
        .flat_map(|row| row.depth.outside.iter().map(String::as_str))
        .collect::<std::collections::BTreeSet<_>>()
        .into_iter()
        .collect();
    println!(
        "called outside: {}, {OF_THE_C_LIBRARY} bytes each",
        outside.join(", ")
    );
}

fn fault(row: &Row, limit: u64) -> Option<String> {
    if row.whose == Whose::Program {
        return None;
    }
    let unknown = row
        .depth
        .outside
        .iter()
        .find(|name| !C_LIBRARY.contains(&name.as_str()));
    if let Some(unknown) = unknown {
        return Some(format!("{} calls {unknown}, which is outside", row.name));
    }
    (row.depth.bytes > limit).then(|| {
        format!(
            "{} takes {} bytes, over the limit of {limit}",
            row.name, row.depth.bytes
        )
    })
}
