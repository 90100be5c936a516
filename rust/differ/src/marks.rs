//! The marks on a picture: one for each wall of the joiner's list, or one for each cut, in their order, each on its own stretch of a line, clear of one another
//! and of the numbers of rooms.

use crate::picture::{attribute, between, elements, words_of, Marked, Sheet, Words};
use reference::cuts::{all_rooms, parted, span, tree, Cut, Part};
use reference::drawing::Plan;
use reference::register::{register, Wall, LEVEL, UPRIGHT};

/// The start of a line that holds a mark.
const MARK: &str = "<g class=\"";
/// The least size of a mark, in units of 0.3 mm.
const LEAST: usize = 7;

/// What a text or a mark covers: left, top, right and bottom, in thirds of a unit.
type Patch = [usize; 4];

/// A stretch of a line: its direction, the line, and where it begins and ends.
struct Stretch {
    direction: u8,
    line: usize,
    from: usize,
    to: usize,
}

/// A mark that a picture owes: what it says, what its title says, and where it stands.
struct Mark {
    name: String,
    title: String,
    stretch: Stretch,
}

/// How the marks of walls, or those of cuts, are told from others.
struct Look {
    class: &'static str,
    ground: &'static str,
    letters: Option<&'static str>,
}

impl Look {
    fn of(marked: Marked) -> Look {
        match marked {
            Marked::Walls => Look {
                class: "wall",
                ground: "#ffffff",
                letters: None,
            },
            Marked::Cuts => Look {
                class: "cut",
                ground: "#000000",
                letters: Some("#ffffff"),
            },
        }
    }
}

/// The marks are those of the plan's walls, or of its cuts; the labels are the texts of its rectangles.
pub fn check_marks(
    picture: &str,
    sheet: &Sheet,
    plan: &Plan,
    marked: Marked,
    labels: &[Words],
) -> Result<(), String> {
    let found: Vec<&str> = picture.lines().filter(|l| l.starts_with(MARK)).collect();
    let owed = match marked {
        Marked::Walls => wall_marks(plan),
        Marked::Cuts => cut_marks(plan)?,
    };
    if found.len() != owed.len() {
        return Err(format!("{} marks, not {}", found.len(), owed.len()));
    }
    let look = Look::of(marked);
    let mut taken: Vec<Patch> = labels.iter().map(patch_of).collect();
    let smallest = labels.iter().map(|label| label.size).min().unwrap_or(0);
    for (line, mark) in found.iter().zip(&owed) {
        let told = |what: &str| format!("{what} of {} {}", look.class, mark.name);
        let patch = patch_on(line, sheet, mark, &look, smallest).map_err(told)?;
        if taken.iter().any(|other| overlap(other, &patch)) {
            return Err(told("another or a number is covered by the mark"));
        }
        taken.push(patch);
    }
    Ok(())
}

/// The walls of the joiner's list: each direction is counted by itself.
fn wall_marks(plan: &Plan) -> Vec<Mark> {
    let walls = register(plan);
    let uprights = walls.iter().filter(|w| w.direction == UPRIGHT).count();
    let name = |i: usize| match i.checked_sub(uprights) {
        None => format!("W{}", i + 1),
        Some(level) => format!("L{}", level + 1),
    };
    let mark = |(i, wall)| wall_mark(name(i), wall);
    walls.iter().enumerate().map(mark).collect()
}

fn wall_mark(name: String, wall: &Wall) -> Mark {
    let stretch = Stretch {
        direction: wall.direction,
        line: wall.number,
        from: wall.beginning,
        to: wall.end,
    };
    let title = format!(
        "wall {name}, {}, length {}, room sides {}",
        told(&stretch),
        wall.end - wall.beginning,
        wall.sides
    );
    Mark {
        name,
        title,
        stretch,
    }
}

/// The cuts of the reference's tree in the order of its writing, each across the part that the rooms fill which it parts.
fn cut_marks(plan: &Plan) -> Result<Vec<Mark>, String> {
    let mut marks = Vec::new();
    let mut waiting = vec![all_rooms(plan)];
    for part in tree(plan).ok_or("a floor that is not sliceable")? {
        let rooms = waiting.pop().expect("a part waits for every field");
        if let Part::Cut(cut) = part {
            let (one, other) = parted(plan, &rooms, cut);
            waiting.extend([other, one]);
            marks.push(cut_mark(plan, &rooms, cut, marks.len() + 1));
        }
    }
    Ok(marks)
}

fn cut_mark(plan: &Plan, rooms: &[usize], cut: Cut, nth: usize) -> Mark {
    let along = if cut.direction == UPRIGHT {
        LEVEL
    } else {
        UPRIGHT
    };
    let spans = || rooms.iter().map(|&room| span(plan, room, along));
    let stretch = Stretch {
        direction: cut.direction,
        line: cut.place,
        from: spans().map(|s| s.0).min().unwrap_or(0),
        to: spans().map(|s| s.1).max().unwrap_or(0),
    };
    Mark {
        name: nth.to_string(),
        title: format!("cut {nth}, {}", told(&stretch)),
        stretch,
    }
}

/// What a title says of a stretch.
fn told(stretch: &Stretch) -> String {
    let (direction, line, along) = match stretch.direction {
        UPRIGHT => ("upright", "x", "y"),
        _ => ("level", "y", "x"),
    };
    format!(
        "{direction}: {line} {}, {along} {} to {}",
        stretch.line, stretch.from, stretch.to
    )
}

/// Whether a point lies on a stretch, in the middle of one of its units.
fn lies_on(sheet: &Sheet, stretch: &Stretch, x: usize, y: usize) -> bool {
    let half = sheet.cell / 2;
    (stretch.from..stretch.to).any(|unit| match stretch.direction {
        UPRIGHT => (x, y + half) == (sheet.across(stretch.line), sheet.down(unit)),
        _ => (x, y) == (sheet.across(unit) + half, sheet.down(stretch.line)),
    })
}

/// The ground of a mark, once the mark has been found right: what it says, where it stands, which way it is read, and its ground under all of it.
fn patch_on(
    line: &str,
    sheet: &Sheet,
    mark: &Mark,
    look: &Look,
    smallest: usize,
) -> Result<Patch, &'static str> {
    let text = elements(line, "<text").next().ok_or("no text")?;
    let Words { x, y, size, says } = words_of(text).map_err(|_| "the text")?;
    if between(line, MARK, "\"") != Some(look.class) {
        return Err("the class");
    }
    if between(line, "<title>", "</title>") != Some(mark.title.as_str()) {
        return Err("the title");
    }
    if says != mark.name {
        return Err("the name");
    }
    if between(text, " fill=\"", "\"") != look.letters {
        return Err("the letters' tint");
    }
    if !lies_on(sheet, &mark.stretch, x, y) {
        return Err("the place");
    }
    if size < LEAST || size >= smallest {
        return Err("the size");
    }
    let turn = format!("rotate(-90 {x} {y})");
    let upright = (mark.stretch.direction == UPRIGHT).then_some(turn.as_str());
    if between(line, " transform=\"", "\"") != upright {
        return Err("the turn");
    }
    let ground = elements(line, "<rect").next().ok_or("no ground")?;
    let at = |name: &str| attribute(ground, name).ok_or("the ground");
    let (width, height) = (at("width")?, at("height")?);
    let centred = (2 * at("x")? + width, 2 * at("y")? + height) == (2 * x, 2 * y);
    let covers = 3 * width >= 2 * says.len() * size && 4 * height >= 3 * size;
    if !centred || !covers || between(ground, " fill=\"", "\"") != Some(look.ground) {
        return Err("the ground");
    }
    let (along, across) = (3 * width / 2, 3 * height / 2);
    Ok(match upright {
        Some(_) => about(x, y, across, along),
        None => about(x, y, along, across),
    })
}

/// What a label covers: its columns are two thirds as wide as the letters are high, and digits three quarters as high.
fn patch_of(label: &Words) -> Patch {
    let wide = label.says.len() * label.size;
    about(label.x, label.y, wide, (9 * label.size).div_ceil(8))
}

/// The patch about a point, by its half widths in thirds of a unit.
fn about(x: usize, y: usize, wide: usize, high: usize) -> Patch {
    [3 * x - wide, 3 * y - high, 3 * x + wide, 3 * y + high]
}

fn overlap(a: &Patch, b: &Patch) -> bool {
    a[0] < b[2] && b[0] < a[2] && a[1] < b[3] && b[1] < a[3]
}
