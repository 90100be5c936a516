//! The listing that a picture shows: every rectangle read back from its ground, its outline, its title and its label, which have to agree; and
//! what else a picture owes: everything inside it, neighbours in different tints, every wall marked or every cut numbered, every line numbered at both
//! ends, least sizes shown where they bind, and the job it shows.

use crate::marks::check_marks;
use reference::drawing::{Plan, Rectangle};
use reference::fields::put_field;
use reference::job::{read, Job};

const TOP: usize = 68;
const MARGIN: usize = 40;
const WORDS_ROOM: usize = 480;
const FRAME: &str = "#dcdcdc";
const NAME_TAG: u8 = b'n';
const CUTS_TAG: u8 = b'c';
const SIDES: [(&str, &str); 4] = [
    ("north side", "N"),
    ("west side", "W"),
    ("south side", "S"),
    ("east side", "E"),
];

/// What is marked on the lines of a picture.
#[derive(Clone, Copy, Debug, PartialEq, Eq)]
pub enum Marked {
    Walls,
    Cuts,
}

/// Where a sheet stands in its picture.
pub struct Sheet {
    width: usize,
    height: usize,
    pub cell: usize,
    left: usize,
    sized: bool,
}

impl Sheet {
    fn new(width: usize, height: usize, sized: bool) -> Sheet {
        let cell = match width.max(height) {
            0..=6 => 80,
            7..=8 => 60,
            9..=12 => 40,
            13..=16 => 30,
            17..=20 => 24,
            _ => 20,
        };
        let left = MARGIN + WORDS_ROOM.saturating_sub(width * cell) / 2;
        Sheet {
            width,
            height,
            cell,
            left,
            sized,
        }
    }

    pub fn across(&self, x: usize) -> usize {
        self.left + self.cell * x
    }

    pub fn down(&self, y: usize) -> usize {
        TOP + self.cell * (self.height - y)
    }

    /// How large the whole picture is.
    fn size(&self) -> (usize, usize) {
        let words = if self.sized { 97 } else { 85 };
        (self.across(self.width) + self.left, self.down(0) + words)
    }
}

/// A text on the picture: where its middle stands, how large it is, and what it says.
#[derive(Clone, Debug, PartialEq, Eq, PartialOrd, Ord)]
pub struct Words {
    pub x: usize,
    pub y: usize,
    pub size: usize,
    pub says: String,
}

/// A job with what is asked for in front of it, as the program that draws takes it; the cuts before the name or behind it.
pub fn asked(marked: Marked, cuts_first: bool, name: &[u8], job: &[u8]) -> Vec<u8> {
    let mut bytes = Vec::new();
    if marked == Marked::Cuts && cuts_first {
        put_field(&mut bytes, CUTS_TAG, &[]);
    }
    if !name.is_empty() {
        put_field(&mut bytes, NAME_TAG, name);
    }
    if marked == Marked::Cuts && !cuts_first {
        put_field(&mut bytes, CUTS_TAG, &[]);
    }
    bytes.extend(job);
    bytes
}

/// A text that is no picture stands for itself, as a refusal does.
pub fn listing_shown(
    picture: &str,
    marked: Marked,
    name: &[u8],
    job: &[u8],
) -> Result<String, String> {
    if !picture.starts_with("<svg") {
        return Ok(picture.to_string());
    }
    let (width, height) = sheet(picture).ok_or("no sheet in the title")?;
    let drawn = read(job).map_err(|refusal| format!("a picture of what is {refusal:?}"))?;
    let sheet = Sheet::new(width, height, drawn.sizes.is_some());
    check_size(picture, &sheet)?;
    check_bounds(picture, &sheet)?;
    check_words(picture, &sheet, marked, name, job)?;
    let grounds: Vec<&str> = lines_starting(picture, "<rect x=");
    let groups: Vec<&str> = lines_starting(picture, "<g>");
    if grounds.len() != groups.len() {
        return Err(format!(
            "{} grounds, {} outlines",
            grounds.len(),
            groups.len()
        ));
    }
    let mut text = format!("sheet {width} {height}\n");
    let mut painted = Vec::new();
    let mut labels = Vec::new();
    for (vertex, (ground, group)) in grounds.iter().zip(&groups).enumerate() {
        let lines = rectangle(ground, &sheet).ok_or(format!("the ground of {vertex}"))?;
        labels.push(check_group(group, vertex, &sheet, lines)?);
        let tint = between(ground, " fill=\"", "\"").ok_or(format!("the tint of {vertex}"))?;
        if between(group, " fill=\"", "\"") != Some(tint) {
            return Err(format!("the plate of {vertex}"));
        }
        painted.push((lines, tint));
        let [x1, y1, x2, y2] = lines;
        text.push_str(&format!("{vertex} {x1} {y1} {x2} {y2}\n"));
    }
    check_tints(&painted)?;
    let plan = plan_of(&sheet, &painted);
    check_marks(picture, &sheet, &plan, marked, &labels)?;
    check_least(picture, &sheet, &plan, &drawn)?;
    Ok(text)
}

/// A blue line inside each room that is just as wide as it must be, or as high, where that is more than a cell, and no other.
fn check_least(picture: &str, sheet: &Sheet, plan: &Plan, job: &Job) -> Result<(), String> {
    let mut found = Vec::new();
    for line in picture.lines().filter(|line| line.contains("<line")) {
        let ends: Option<Vec<usize>> = ["x1", "y1", "x2", "y2"]
            .iter()
            .map(|name| attribute(line, name))
            .collect();
        let blue = line.ends_with(" stroke=\"#1f4e9e\" stroke-width=\"2\"/>");
        found.push(ends.filter(|_| blue).ok_or(format!("a line: {line:.80}"))?);
    }
    let mut expected = Vec::new();
    for room in job.rooms() {
        let (r, least) = (&plan.rectangles[room], job.size_of(room));
        let (left, right) = (sheet.across(r.x1) + 4, sheet.across(r.x2) - 4);
        let (upper, lower) = (sheet.down(r.y2) + 4, sheet.down(r.y1) - 4);
        if least.width > 1 && r.x2 - r.x1 == least.width {
            expected.push(vec![left, lower, right, lower]);
        }
        if least.height > 1 && r.y2 - r.y1 == least.height {
            expected.push(vec![left, upper, left, lower]);
        }
    }
    if found != expected {
        return Err(format!("least sizes {found:?} in place of {expected:?}"));
    }
    Ok(())
}

/// The plan that the rectangles make.
fn plan_of(sheet: &Sheet, painted: &[([usize; 4], &str)]) -> Plan {
    let rectangle = |&([x1, y1, x2, y2], _): &([usize; 4], &str)| Rectangle { x1, y1, x2, y2 };
    Plan {
        width: sheet.width,
        height: sheet.height,
        rectangles: painted.iter().map(rectangle).collect(),
    }
}

fn lines_starting<'a>(picture: &'a str, start: &str) -> Vec<&'a str> {
    picture
        .lines()
        .filter(|line| line.starts_with(start))
        .collect()
}

/// What stands between two words.
pub fn between<'a>(text: &'a str, before: &str, behind: &str) -> Option<&'a str> {
    let from = text.find(before)? + before.len();
    let to = text[from..].find(behind)?;
    Some(&text[from..from + to])
}

fn sheet(picture: &str) -> Option<(usize, usize)> {
    let words = between(picture, "<title>Floor plan of ", " cells</title>")?;
    let (width, height) = words.split_once(" by ")?;
    Some((width.parse().ok()?, height.parse().ok()?))
}

/// Units of 0.3 mm, in millimetres.
fn millimetres(units: usize) -> String {
    let tenths = units * 3;
    if tenths % 10 == 0 {
        return (tenths / 10).to_string();
    }
    format!("{}.{}", tenths / 10, tenths % 10)
}

/// The picture is as large as the sheet and what stands round it, in millimetres, and bounded by any page.
fn check_size(picture: &str, sheet: &Sheet) -> Result<(), String> {
    let (wide, high) = sheet.size();
    let expected = format!(
        " width=\"{}mm\" height=\"{}mm\" viewBox=\"0 0 {wide} {high}\" ",
        millimetres(wide),
        millimetres(high)
    );
    if !picture.lines().next().unwrap_or("").contains(&expected) {
        return Err(format!("the picture is not{expected}large"));
    }
    if !picture.contains("svg{max-width:100%;max-height:100%}") {
        return Err("the picture is not bounded by its page".to_string());
    }
    Ok(())
}

pub fn attribute(element: &str, name: &str) -> Option<usize> {
    between(element, &format!(" {name}=\""), "\"")?.parse().ok()
}

/// The elements of a name, each from behind its name on.
pub fn elements<'a>(picture: &'a str, name: &'a str) -> impl Iterator<Item = &'a str> {
    picture.split(name).skip(1)
}

/// Nothing lies outside the picture: rectangles, paths and texts, whose columns are taken to be two thirds as wide as the letters are high.
fn check_bounds(picture: &str, sheet: &Sheet) -> Result<(), String> {
    let (wide, high) = sheet.size();
    for rect in elements(picture, "<rect").filter_map(|rest| rest.split('>').next()) {
        let at = |name: &str| attribute(rect, name).unwrap_or(0);
        if at("x") + at("width") > wide || at("y") + at("height") > high {
            return Err(format!("a rectangle outside: {rect:.60}"));
        }
    }
    for path in elements(picture, " d=\"") {
        let moves = path.split('"').next().unwrap_or("");
        for from_to in moves.split('M').skip(1) {
            let (x, y) = end_of(from_to).ok_or(format!("a path: {from_to}"))?;
            if x > wide || y > high {
                return Err(format!("a line outside: {from_to}"));
            }
        }
    }
    for words in all_words(picture)? {
        let half = (columns(&words.says) * words.size).div_ceil(3);
        let level = words.size.div_ceil(2);
        if words.x < half || words.x + half > wide || words.y < level || words.y + level > high {
            return Err(format!("a text outside: {words:?}"));
        }
    }
    Ok(())
}

/// How much room a text takes: most characters a column, those of the far east two.
fn columns(says: &str) -> usize {
    let plain = says
        .replace("&lt;", "<")
        .replace("&gt;", ">")
        .replace("&amp;", "&");
    plain.chars().map(column).sum()
}

fn column(c: char) -> usize {
    if c.len_utf8() < 3 {
        1
    } else {
        2
    }
}

/// The end of one stroke of a path, as `48 16v100`.
fn end_of(stroke: &str) -> Option<(usize, usize)> {
    let (x, rest) = stroke.split_once(' ')?;
    let x: usize = x.parse().ok()?;
    if let Some((y, down)) = rest.split_once('v') {
        return Some((x, y.parse::<usize>().ok()? + down.parse::<usize>().ok()?));
    }
    let (y, across) = rest.split_once('h')?;
    Some((x + across.parse::<usize>().ok()?, y.parse().ok()?))
}

/// All texts of a picture.
fn all_words(picture: &str) -> Result<Vec<Words>, String> {
    elements(picture, "<text").map(words_of).collect()
}

pub fn words_of(element: &str) -> Result<Words, String> {
    let read = || {
        Some(Words {
            x: attribute(element, "x")?,
            y: attribute(element, "y")?,
            size: attribute(element, "font-size")?,
            says: between(element, ">", "</text>")?.to_string(),
        })
    };
    read().ok_or(format!("a text: {element:.60}"))
}

/// The texts beside those of rectangles and marks are these and no others: which job it is, how it is read, and each line's number at both its ends.
fn check_words(
    picture: &str,
    sheet: &Sheet,
    marked: Marked,
    name: &[u8],
    job: &[u8],
) -> Result<(), String> {
    let mut found = Vec::new();
    for line in picture.lines().filter(|line| !line.starts_with("<g")) {
        found.extend(all_words(line)?);
    }
    let mut expected = told(sheet, marked, name, job);
    expected.extend(line_numbers(sheet));
    found.sort();
    expected.sort();
    match expected.iter().zip(&found).find(|(e, f)| e != f) {
        Some((e, f)) => Err(format!("{f:?} in place of {e:?}")),
        None if expected.len() != found.len() => Err(format!("{} texts", found.len())),
        None => Ok(()),
    }
}

/// The words above and below the sheet.
fn told(sheet: &Sheet, marked: Marked, name: &[u8], job: &[u8]) -> Vec<Words> {
    let bottom = sheet.down(0);
    let marks = match marked {
        Marked::Walls => "Walls are marked as in the joiner's list: W upright, L level.",
        Marked::Cuts => "White on black: straight cuts, in the order in which they are made.",
    };
    let lines = [
        (16, 12, name_shown(name)),
        (
            34,
            12,
            format!(
                "sheet {} by {} cells, fingerprint {}",
                sheet.width,
                sheet.height,
                cksum(job)
            ),
        ),
        (
            bottom + 30,
            11,
            "The grey strip, one cell wide, is the frame: sides N, W, S and E.".into(),
        ),
        (
            bottom + 42,
            11,
            format!(
                "Rooms begin at line 1 and end at line {} across and line {} up.",
                sheet.width - 1,
                sheet.height - 1
            ),
        ),
        (bottom + 54, 11, marks.into()),
        (
            bottom + 66,
            11,
            format!(
                "x runs west to east, y south to north. At full size a cell is {} mm.",
                millimetres(sheet.cell)
            ),
        ),
        (
            bottom + 78,
            11,
            "No sheet with these contacts is smaller.".into(),
        ),
    ];
    let least = sheet.sized.then(|| {
        let says = "Blue inside a room: it is just as wide, or as high, as it must be at least.";
        (bottom + 90, 11, says.into())
    });
    let x = sheet.size().0 / 2;
    lines
        .into_iter()
        .chain(least)
        .map(|(y, size, says)| Words { x, y, size, says })
        .collect()
}

/// Every line's number, at both its ends.
fn line_numbers(sheet: &Sheet) -> Vec<Words> {
    let number = |x, y, n: usize| Words {
        x,
        y,
        size: if n < 100 { 12 } else { 8 },
        says: n.to_string(),
    };
    let mut all = Vec::new();
    for x in 0..=sheet.width {
        all.push(number(sheet.across(x), TOP - 12, x));
        all.push(number(sheet.across(x), sheet.down(0) + 12, x));
    }
    for y in 0..=sheet.height {
        all.push(number(sheet.left - 16, sheet.down(y), y));
        all.push(number(sheet.across(sheet.width) + 16, sheet.down(y), y));
    }
    all
}

/// A name as a picture shows it: whole characters that XML allows, else a question mark a byte, and no more than 40 columns.
fn name_shown(name: &[u8]) -> String {
    if name.is_empty() {
        return "(a job without a file name)".to_string();
    }
    let (mut at, mut columns, mut text) = (0, 0, String::new());
    while at < name.len() {
        if columns >= 40 {
            text.push_str("...");
            break;
        }
        let whole = (1..=4)
            .filter_map(|n| std::str::from_utf8(name.get(at..at + n)?).ok())
            .find(|s| s.chars().count() == 1);
        match whole.and_then(|s| s.chars().next()) {
            Some(c) if c >= ' ' && c != '\u{7f}' && c != '\u{fffe}' && c != '\u{ffff}' => {
                match c {
                    '&' => text.push_str("&amp;"),
                    '<' => text.push_str("&lt;"),
                    '>' => text.push_str("&gt;"),
                    c => text.push(c),
                }
                columns += column(c);
                at += c.len_utf8();
            }
            _ => {
                text.push('?');
                columns += 1;
                at += 1;
            }
        }
    }
    text
}

/// What POSIX's `cksum` prints first: the bytes and their count, low byte first, divided by a polynomial.
fn cksum(bytes: &[u8]) -> u32 {
    let mut count = bytes.len();
    let mut all = bytes.to_vec();
    while count > 0 {
        all.push((count % 256) as u8);
        count /= 256;
    }
    let mut rest: u32 = 0;
    for byte in all {
        rest ^= u32::from(byte) << 24;
        for _ in 0..8 {
            let carry = rest >> 31 == 1;
            rest <<= 1;
            if carry {
                rest ^= 0x04c1_1db7;
            }
        }
    }
    !rest
}

/// A number of cells, if it is one.
fn cells(units: usize, sheet: &Sheet) -> Option<usize> {
    (units % sheet.cell == 0).then_some(units / sheet.cell)
}

/// The lines that a `rect` spans: x1, y1, x2, y2.
fn rectangle(element: &str, sheet: &Sheet) -> Option<[usize; 4]> {
    let x1 = cells(attribute(element, "x")?.checked_sub(sheet.left)?, sheet)?;
    let top = cells(attribute(element, "y")?.checked_sub(TOP)?, sheet)?;
    let y2 = sheet.height.checked_sub(top)?;
    let x2 = x1 + cells(attribute(element, "width")?, sheet)?;
    let y1 = y2.checked_sub(cells(attribute(element, "height")?, sheet)?)?;
    Some([x1, y1, x2, y2])
}

/// Title, outline and label of a vertex; the label is handed back.
fn check_group(
    group: &str,
    vertex: usize,
    sheet: &Sheet,
    lines: [usize; 4],
) -> Result<Words, String> {
    let [x1, y1, x2, y2] = lines;
    let (full, short) = match SIDES.get(vertex) {
        Some((full, short)) => (full.to_string(), short.to_string()),
        None => (format!("room {vertex}"), vertex.to_string()),
    };
    let title = format!("{full}: x {x1} to {x2}, y {y1} to {y2}");
    if between(group, "<title>", "</title>") != Some(title.as_str()) {
        return Err(format!("the title of {vertex}"));
    }
    let outline = elements(group, "<rect")
        .nth(1)
        .and_then(|rest| rectangle(rest, sheet));
    if outline != Some(lines) {
        return Err(format!("the outline of {vertex}"));
    }
    let label = elements(group, "<text")
        .next()
        .ok_or(format!("no label of {vertex}"))?;
    let label = words_of(label)?;
    let middle = (
        (sheet.across(x1) + sheet.across(x2)) / 2,
        (sheet.down(y1) + sheet.down(y2)) / 2,
    );
    if (label.x, label.y) != middle {
        return Err(format!("the place of the label of {vertex}"));
    }
    if label.says != short {
        return Err(format!("the label of {vertex}"));
    }
    Ok(label)
}

/// The frame is grey and no room is; rooms that share a wall differ in their tints.
fn check_tints(painted: &[([usize; 4], &str)]) -> Result<(), String> {
    for (v, (lines, tint)) in painted.iter().enumerate() {
        if (v < 4) != (*tint == FRAME) {
            return Err(format!("the tint of {v}"));
        }
        for (u, (other, same)) in painted.iter().enumerate().take(v).skip(4) {
            if tint == same && share(lines, other) {
                return Err(format!("{u} and {v} are neighbours of one tint"));
            }
        }
    }
    Ok(())
}

/// Whether two rectangles have a wall in common.
fn share(a: &[usize; 4], b: &[usize; 4]) -> bool {
    let along = |i: usize| a[i + 2].min(b[i + 2]) > a[i].max(b[i]);
    let ends = |i: usize| a[i + 2] == b[i] || b[i + 2] == a[i];
    (ends(0) && along(1)) || (ends(1) && along(0))
}
