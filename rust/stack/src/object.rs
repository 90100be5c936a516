//! An object file as objdump writes it out: its functions, their instructions, and the tables they jump by.

use std::collections::BTreeMap;

/// What stands at a relocation: a symbol or a section, and a number added to it.
#[derive(Clone, Debug, PartialEq)]
pub struct Place {
    pub name: String,
    pub plus: i64,
}

#[derive(Clone, Debug)]
pub struct Instruction {
    pub at: u64,
    pub text: String,
    pub places: Vec<Place>,
}

#[derive(Clone, Debug)]
pub struct Function {
    pub name: String,
    pub section: String,
    pub start: u64,
    pub code: Vec<Instruction>,
    /// Where the jumps that go by a table of this function may lead.
    pub tables: Vec<u64>,
}

#[derive(Clone, Debug, Default)]
pub struct Object {
    pub functions: Vec<Function>,
    /// The functions that can be called from outside.
    pub exported: Vec<String>,
}

/// The words for objdump, and what it then writes: the code with its relocations, and the symbols with the relocations of all else.
pub const CODE: [&str; 2] = ["-drwz", "--no-show-raw-insn"];
pub const RECORDS: [&str; 1] = ["-rtw"];

impl Object {
    pub fn read(code: &str, records: &str) -> Result<Object, String> {
        let files = code
            .lines()
            .filter(|line| line.contains("file format"))
            .count();
        if files > 1 {
            return Err(format!("{files} objects, where one is read"));
        }
        let mut functions = read_code(code)?;
        for function in &mut functions {
            function.tables = tables_of(function, records)?;
        }
        let exported = records.lines().filter_map(exported_name).collect();
        Ok(Object {
            functions,
            exported,
        })
    }

    /// The function that starts at a place of a section.
    pub fn starting_at(&self, section: &str, at: u64) -> Option<usize> {
        self.functions
            .iter()
            .position(|f| f.section == section && f.start == at)
    }

    pub fn named(&self, name: &str) -> Option<usize> {
        self.functions.iter().position(|f| f.name == name)
    }
}

fn read_code(text: &str) -> Result<Vec<Function>, String> {
    let mut functions: Vec<Function> = Vec::new();
    let mut section = String::new();
    for line in text.lines() {
        if let Some(rest) = line.strip_prefix("Disassembly of section ") {
            section = rest.trim_end_matches(':').to_string();
        } else if let Some((start, name)) = function_head(line) {
            functions.push(Function {
                name: name.to_string(),
                section: section.clone(),
                start,
                code: Vec::new(),
                tables: Vec::new(),
            });
        } else if let Some(instruction) = read_instruction(line)? {
            let Some(function) = functions.last_mut() else {
                return Err(format!("code that is in no function: {line}"));
            };
            function.code.push(instruction);
        }
    }
    Ok(functions)
}

/// `0000000000000000 <name>:`
fn function_head(line: &str) -> Option<(u64, &str)> {
    let (number, rest) = line.split_once(" <")?;
    let name = rest.strip_suffix(">:")?;
    Some((u64::from_str_radix(number, 16).ok()?, name))
}

/// `  1a3:`, the instruction, and for each relocation its place and kind, and what stands there, all set apart by tabs.
fn read_instruction(line: &str) -> Result<Option<Instruction>, String> {
    let mut parts = line.split('\t');
    let Some(at) = parts.next().and_then(|part| part.trim().strip_suffix(':')) else {
        return Ok(None);
    };
    let (Ok(at), Some(text)) = (u64::from_str_radix(at, 16), parts.next()) else {
        return Ok(None);
    };
    let text = text.split('#').next().unwrap_or(text).trim().to_string();
    let mut places = Vec::new();
    while let (Some(_), Some(value)) = (parts.next(), parts.next()) {
        places.push(read_place(value).ok_or_else(|| format!("no place: {line}"))?);
    }
    Ok(Some(Instruction { at, text, places }))
}

/// `name+0x10` or `name-0x4`, or the name alone.
fn read_place(value: &str) -> Option<Place> {
    let value = value.trim();
    for (sign, mark) in [(1, "+0x"), (-1, "-0x")] {
        if let Some(found) = value.rfind(mark) {
            let number = i64::from_str_radix(&value[found + mark.len()..], 16).ok()?;
            return Some(Place {
                name: value[..found].to_string(),
                plus: sign * number,
            });
        }
    }
    Some(Place {
        name: value.to_string(),
        plus: 0,
    })
}

/// A table holds, for each case, how far the case lies from the table's start. The entry's relocation counts from the entry instead.
fn tables_of(function: &Function, records: &str) -> Result<Vec<u64>, String> {
    let mut targets = Vec::new();
    for (section, entries) in records_by_section(records) {
        if !section.starts_with(".rodata") {
            continue;
        }
        let starts: Vec<i64> = function
            .code
            .iter()
            .flat_map(|i| &i.places)
            .filter(|place| place.name == section)
            // the four bytes of the place end the instruction, and it counts from its end
            .map(|place| place.plus + 4)
            .collect();
        for (at, kind, place) in entries {
            let base = if place.name == function.section {
                0
            } else if place.name == function.name {
                function.start as i64
            } else {
                continue;
            };
            let start = starts.iter().copied().filter(|s| *s <= at).max();
            match start {
                Some(start) if kind == "R_X86_64_PC32" => {
                    targets.push((base + place.plus - (at - start)) as u64)
                }
                _ => {
                    return Err(format!(
                        "{}: a table that is not read, at {at:x} of {section}",
                        function.name
                    ))
                }
            }
        }
    }
    Ok(targets)
}

type Record<'a> = (i64, &'a str, Place);

fn records_by_section(records: &str) -> BTreeMap<&str, Vec<Record<'_>>> {
    let mut found: BTreeMap<&str, Vec<Record>> = BTreeMap::new();
    let mut section = None;
    for line in records.lines() {
        if let Some(rest) = line.strip_prefix("RELOCATION RECORDS FOR [") {
            section = rest.strip_suffix("]:");
            continue;
        }
        let Some(section) = section else { continue };
        let mut words = line.splitn(3, char::is_whitespace);
        let (Some(at), Some(kind), Some(value)) = (words.next(), words.next(), words.next()) else {
            continue;
        };
        if let (Ok(at), Some(place)) = (i64::from_str_radix(at, 16), read_place(value)) {
            found.entry(section).or_default().push((at, kind, place));
        }
    }
    found
}

/// `0000000000000000 g     F .text.name`, a tab, `000000000000012c name`
fn exported_name(line: &str) -> Option<String> {
    let (front, back) = line.split_once('\t')?;
    let mut words = front.split_whitespace().skip(1);
    if (words.next()?, words.next()?) != ("g", "F") {
        return None;
    }
    let (_, name) = back.split_once(' ')?;
    Some(name.trim_start_matches(".hidden ").trim().to_string())
}
