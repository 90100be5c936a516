//! A job as text and back: what the programs `job_to_text` and `text_to_job` print, worked out a second time, and texts that are not as they should be.
//!
//! A line a room, as `4: above N, left W, below 6, right 5, at least 3 by 2`, from room 4 on. Blanks between words do not count, nor what stands behind `#`, nor
//! a line with nothing on it. A least size, width by height, stands behind the contacts, and is left out where it is 1 by 1.

use crate::planner::LONGEST_JOB;
use crate::slips::Slip;
use floors::{Chance, MOST_ROOMS};
use reference::job::{hold, sizes_are_fit, Entry, Job, Size, Star, ONE_CELL};
use reference::{Refusal, FIRST_ROOM};

const LONGEST_TEXT: usize = 16_384;
const MOST_CONTACTS: usize = 360;
const TOO_LONG: &str = "input too long\n";
const SIDES: [&str; 4] = ["above", "left", "below", "right"];
const FRAME: [&str; 4] = ["N", "W", "S", "E"];

/// All that is printed for the bytes of a job.
pub fn text_of(bytes: &[u8], slip: Option<Slip>) -> Vec<u8> {
    if bytes.len() > LONGEST_JOB {
        return TOO_LONG.into();
    }
    let text = match can_be_told(bytes) {
        Ok(job) => told(&job, slip),
        Err(Refusal(number)) => format!("refused {number}\n"),
    };
    text.into_bytes()
}

/// Tests 1 to 3; a kind that is no side is 4, and sizes that a text cannot give back are 17.
fn can_be_told(bytes: &[u8]) -> Result<Job, Refusal> {
    let job = hold(bytes)?;
    if job.stars.iter().flatten().any(|entry| entry.kind > 3) {
        return Err(Refusal(4));
    }
    if !sizes_are_fit(&job) {
        return Err(Refusal(17));
    }
    Ok(job)
}

fn told(job: &Job, slip: Option<Slip>) -> String {
    let line = |room: usize| {
        let mut parts: Vec<String> = job.star_of(room).iter().map(contact).collect();
        parts.extend(size_told(job.size_of(room), slip));
        format!("{room}:{}\n", parts.join(","))
    };
    job.rooms().map(line).collect()
}

fn contact(entry: &Entry) -> String {
    let side = SIDES[usize::from(entry.kind)];
    match FRAME.get(entry.neighbour) {
        Some(letter) => format!(" {side} {letter}"),
        None => format!(" {side} {}", entry.neighbour),
    }
}

fn size_told(size: Size, slip: Option<Slip>) -> Option<String> {
    let (width, height) = match slip {
        Some(Slip::TextHeightFirst) => (size.height, size.width),
        _ => (size.width, size.height),
    };
    let said = match slip {
        Some(Slip::TextOnesTold) => true,
        Some(Slip::TextSizesUntold) => false,
        _ => size != ONE_CELL,
    };
    said.then(|| format!(" at least {width} by {height}"))
}

/// All that is printed for a text: the job's bytes, or the first wrong line and what should have stood there.
pub fn job_of(text: &[u8], slip: Option<Slip>) -> Vec<u8> {
    if text.len() > LONGEST_TEXT {
        return TOO_LONG.into();
    }
    match read(text, slip) {
        Ok(job) => job.bytes(),
        Err((line, expected)) => format!("line {line}: expected {expected}\n").into_bytes(),
    }
}

fn read(text: &[u8], slip: Option<Slip>) -> Result<Job, (usize, String)> {
    let mut stars: Vec<Star> = Vec::new();
    let mut sizes: Vec<Size> = Vec::new();
    let mut left = MOST_CONTACTS;
    let mut line = 0;
    for full in text.split(|&byte| byte == b'\n') {
        line += 1;
        let said = full.split(|&byte| byte == b'#').next().unwrap_or(&[]);
        let said = skip(said);
        if said.is_empty() {
            continue;
        }
        let room = FIRST_ROOM + stars.len();
        let (star, size) = room_line(said, room, left, slip).map_err(|lack| (line, lack))?;
        left -= star.len();
        stars.push(star);
        sizes.push(size);
    }
    if stars.is_empty() {
        return Err((line, format!("the number of room {FIRST_ROOM}")));
    }
    let told = slip == Some(Slip::TextOnesRead) || sizes.iter().any(|&size| size != ONE_CELL);
    Ok(Job {
        stars,
        sizes: told.then_some(sizes),
    })
}

/// One line, no blanks in front, when so many contacts are left.
fn room_line(
    said: &[u8],
    room: usize,
    left: usize,
    slip: Option<Slip>,
) -> Result<(Star, Size), String> {
    if room >= FIRST_ROOM + MOST_ROOMS {
        return Err(format!("no more than {MOST_ROOMS} rooms"));
    }
    let (number, rest) = word(said);
    if number_of(number) != Some(room) {
        return Err(format!("the number of room {room}"));
    }
    let Some(rest) = rest.strip_prefix(b":") else {
        return Err("a colon behind the room's number".to_string());
    };
    let mut rest = skip(rest);
    let mut star = Star::new();
    while !rest.is_empty() {
        let (first, behind) = word(rest);
        if first == b"at" {
            let size = size_read(behind, slip)?;
            return Ok((star, size));
        }
        if star.len() == left {
            return Err(format!("no more than {MOST_CONTACTS} contacts"));
        }
        let (second, behind) = word(behind);
        star.push(contact_read(first, second)?);
        let Some(&next) = behind.first() else {
            break;
        };
        if next != b',' {
            return Err("a comma, or the end of the line".to_string());
        }
        rest = skip(&behind[1..]);
        if rest.is_empty() {
            return Err(nothing_follows(star.len() == left));
        }
    }
    Ok((star, ONE_CELL))
}

/// What is missing behind a comma.
fn nothing_follows(none_left: bool) -> String {
    if none_left {
        format!("no more than {MOST_CONTACTS} contacts")
    } else {
        "above, left, below, right or at least".to_string()
    }
}

fn contact_read(side: &[u8], vertex: &[u8]) -> Result<Entry, String> {
    let place = |words: &[&str; 4], said: &[u8]| words.iter().position(|w| w.as_bytes() == said);
    let Some(kind) = place(&SIDES, side) else {
        return Err(nothing_follows(false));
    };
    let Some(neighbour) = place(&FRAME, vertex).or_else(|| byte_of(vertex)) else {
        return Err("N, W, S, E or a number up to 255".to_string());
    };
    Ok(Entry {
        neighbour,
        kind: kind as u8,
    })
}

/// Behind `at`: `least`, a width, `by`, a height, and the end of the line.
fn size_read(behind: &[u8], slip: Option<Slip>) -> Result<Size, String> {
    let (least, rest) = word(behind);
    let (width, rest) = word(rest);
    let (by, rest) = word(rest);
    let (height, rest) = word(rest);
    match (least, byte_of(width), by, byte_of(height)) {
        (b"least", Some(width), b"by", Some(height)) if rest.is_empty() => Ok(match slip {
            Some(Slip::TextHeightFirst) => Size {
                width: height,
                height: width,
            },
            _ => Size { width, height },
        }),
        _ => Err("a least size, as at least 3 by 2, and the end of the line".to_string()),
    }
}

fn blank(byte: &u8) -> bool {
    [b' ', b'\t', b'\r'].contains(byte)
}

fn skip(said: &[u8]) -> &[u8] {
    let blanks = said.iter().take_while(|byte| blank(byte)).count();
    &said[blanks..]
}

/// The letters and digits in front, and what follows them behind blanks.
fn word(said: &[u8]) -> (&[u8], &[u8]) {
    let letters = said.iter().take_while(|b| b.is_ascii_alphanumeric());
    let (word, rest) = said.split_at(letters.count());
    (word, skip(rest))
}

/// Digits and nothing else; of a number that is far too large it is only known that it is.
fn number_of(word: &[u8]) -> Option<usize> {
    let digits = !word.is_empty() && word.iter().all(u8::is_ascii_digit);
    let value = |sum: usize, digit: &u8| (10 * sum + usize::from(digit - b'0')).min(1_000_000);
    digits.then(|| word.iter().fold(0, value))
}

fn byte_of(word: &[u8]) -> Option<usize> {
    number_of(word).filter(|&number| number < 256)
}

/// A text with something changed: most are wrong then, some say the same or another job.
pub fn damaged_text(chance: &mut Chance, text: &[u8]) -> Vec<u8> {
    let mut text = text.to_vec();
    for _ in 0..*chance.pick(&[1, 1, 1, 2, 3]) {
        match chance.below(24) {
            0..=4 => change_byte(chance, &mut text),
            5..=8 => change_word(chance, &mut text),
            9..=10 => change_line(chance, &mut text),
            11..=12 => blanks_and_comments(chance, &mut text),
            13 => too_many(chance, &mut text),
            _ => change_size(chance, &mut text),
        }
    }
    if chance.percent(2) {
        text.resize(*chance.pick(&[16_383, 16_384, 16_385]), b' ');
    }
    text
}

fn change_byte(chance: &mut Chance, text: &mut Vec<u8>) {
    const KINDS: &[u8] = b"0123456789 ,:#\n\t\rNWSEabelty.\0\xff";
    let place = chance.below(text.len() + 1);
    let byte = *chance.pick(KINDS);
    match chance.below(3) {
        0 => text.insert(place, byte),
        1 if place < text.len() => text[place] = byte,
        _ if place < text.len() => {
            text.remove(place);
        }
        _ => text.push(byte),
    }
}

/// Where the words of a text begin and end.
fn words(text: &[u8]) -> Vec<(usize, usize)> {
    let mut all: Vec<(usize, usize)> = Vec::new();
    for (place, byte) in text.iter().enumerate() {
        match all.last_mut() {
            Some((_, end)) if byte.is_ascii_alphanumeric() && *end == place => *end += 1,
            _ if byte.is_ascii_alphanumeric() => all.push((place, place + 1)),
            _ => {}
        }
    }
    all
}

fn change_word(chance: &mut Chance, text: &mut Vec<u8>) {
    const OTHERS: [&str; 22] = [
        "above",
        "left",
        "below",
        "right",
        "at",
        "least",
        "by",
        "N",
        "W",
        "S",
        "E",
        "0",
        "1",
        "4",
        "004",
        "15",
        "16",
        "63",
        "64",
        "255",
        "256",
        "99999999999999999999",
    ];
    let all = words(text);
    if all.is_empty() {
        return;
    }
    let &(begin, end) = chance.pick(&all);
    let other = chance.pick(&OTHERS).bytes();
    text.splice(begin..end, other);
}

/// Lines of a text without their ends.
fn lines(text: &[u8]) -> Vec<Vec<u8>> {
    text.split(|&byte| byte == b'\n')
        .map(<[u8]>::to_vec)
        .collect()
}

fn change_line(chance: &mut Chance, text: &mut Vec<u8>) {
    let mut all = lines(text);
    let (one, other) = (chance.below(all.len()), chance.below(all.len()));
    match chance.below(3) {
        0 => all.swap(one, other),
        1 => all.insert(one, all[other].clone()),
        _ => {
            all.remove(one);
        }
    }
    *text = all.join(&b'\n');
}

/// What does not count, put where it may stand, or among a word.
fn blanks_and_comments(chance: &mut Chance, text: &mut Vec<u8>) {
    const WORDS: [&[u8]; 7] = [
        b" ",
        b"\t",
        b"\r",
        b"  ",
        b"\n",
        b" # at least 3 by 2",
        b"\n#\n",
    ];
    for _ in 0..chance.between(1, 6) {
        let place = if chance.percent(60) {
            let ends: Vec<usize> = words(text).iter().map(|word| word.1).collect();
            ends.get(chance.below(ends.len().max(1))).copied()
        } else {
            Some(chance.below(text.len() + 1))
        };
        let place = place.unwrap_or(0);
        text.splice(place..place, chance.pick(&WORDS).iter().copied());
    }
}

/// Rooms up to the sixtieth or one more, or contacts up to about the last that there may be, a size behind them or not.
fn too_many(chance: &mut Chance, text: &mut Vec<u8>) {
    let said = String::from_utf8_lossy(text).into_owned();
    let rooms = said.lines().count();
    if chance.percent(50) {
        let last = FIRST_ROOM + MOST_ROOMS + chance.below(2);
        let more = (FIRST_ROOM + rooms..last).map(|room| format!("{room}: left W\n"));
        text.extend(more.collect::<String>().bytes());
    } else {
        let contacts = said.matches(',').count() + rooms;
        let wanted = (MOST_CONTACTS + chance.below(3)).saturating_sub(contacts);
        let more = ", left W".repeat(wanted);
        let size = *chance.pick(&["", ", at least 3 by 2"]);
        text.extend(format!("{}: left W{more}{size}\n", FIRST_ROOM + rooms).bytes());
    }
}

/// Something about sizes at the end of a line, of some lines, or in front of their contacts.
fn change_size(chance: &mut Chance, text: &mut Vec<u8>) {
    const SIZES: [&str; 24] = [
        ", at least 3 by 2",
        ", at least 1 by 1",
        ", at least 1 by 1",
        ", at least 1 by 15",
        ", at least 15 by 1",
        ", at least 16 by 1",
        ", at least 0 by 1",
        ", at least 1 by 0",
        ", at least 255 by 255",
        ", at least 256 by 1",
        ", at least 007 by 02",
        ",at least 3 by 2",
        ", at\tleast   3   by   2  ",
        ", at least 3 by 2,",
        ", at least 3 by",
        ", at least 3",
        ", at least",
        ", at",
        ", at least 3 x 2",
        ", at most 3 by 2",
        ", at least 3 by 2 cells",
        ", At least 3 by 2",
        " at least 3 by 2",
        ", at least 3 by 2, at least 3 by 2",
    ];
    let mut all = lines(text);
    let share = *chance.pick(&[20, 100]);
    let size = chance.pick(&SIZES).as_bytes();
    let in_front = chance.percent(10);
    for line in all.iter_mut().filter(|line| !line.is_empty()) {
        if !chance.percent(share) {
            continue;
        }
        let colon = line.iter().position(|&byte| byte == b':');
        match colon {
            Some(colon) if in_front => drop(line.splice(colon + 1..colon + 1, size[1..].to_vec())),
            Some(colon) if line.len() == colon + 1 => line.extend_from_slice(&size[1..]),
            _ => line.extend_from_slice(size),
        }
    }
    *text = all.join(&b'\n');
}

#[cfg(test)]
mod tests {
    use super::{job_of, text_of};

    const F: &[u8] = include_bytes!("../../../examples/F.job");
    const F_TEXT: &[u8] = include_bytes!("../../../examples/F.txt");

    fn read(text: &str) -> String {
        String::from_utf8_lossy(&job_of(text.as_bytes(), None)).into_owned()
    }

    #[test]
    fn f_there_and_back() {
        assert_eq!(text_of(F, None), F_TEXT);
        assert_eq!(job_of(F_TEXT, None), F);
    }

    /// One room by 3 by 2, and by 1 by 1.
    #[test]
    fn sizes_there_and_back() {
        let frame = "4: above N, left W, below S, right E";
        let plain = job_of(format!("{frame}\n").as_bytes(), None);
        let mut sized = plain.clone();
        sized.extend([7, 0, 2, 3, 2]);
        let text = format!("{frame}, at least 3 by 2\n").into_bytes();
        assert_eq!(text_of(&sized, None), text);
        assert_eq!(job_of(&text, None), sized);
        let ones = format!("{frame}, at least 1 by 1");
        assert_eq!(job_of(ones.as_bytes(), None), plain);
        sized[15..].copy_from_slice(&[7, 0, 2, 1, 1]);
        assert_eq!(text_of(&sized, None), b"refused 17\n");
    }

    #[test]
    fn a_room_without_contacts_may_have_a_size() {
        let job = [1, 0, 1, 2, 2, 0, 0, 2, 0, 0, 7, 0, 4, 1, 1, 16, 1];
        assert_eq!(job_of(b"4:\n5: at least 16 by 1", None), job);
        assert_eq!(text_of(&job, None), b"refused 17\n");
        let mild = [1, 0, 1, 2, 2, 0, 0, 2, 0, 0, 7, 0, 4, 1, 1, 15, 1];
        assert_eq!(text_of(&mild, None), b"4:\n5: at least 15 by 1\n");
    }

    #[test]
    fn what_was_expected() {
        let size = "line 1: expected a least size, as at least 3 by 2, and the end of the line\n";
        for wrong in [
            "4: at",
            "4: at least",
            "4: at least 3",
            "4: at least 3 by",
            "4: at least 3 by 256",
            "4: at least 3 by 2,",
            "4: at least 3 by 2, above N",
            "4: above N, at least 3 by 2 1",
            "4: above N, at most 3 by 2",
        ] {
            assert_eq!(read(wrong), size, "{wrong}");
        }
        let side = "line 1: expected above, left, below, right or at least\n";
        for wrong in ["4: above N,", "4: ,", "4: At least 3 by 2", "4: north N"] {
            assert_eq!(read(wrong), side, "{wrong}");
        }
        assert_eq!(
            read("4: above N at least 3 by 2"),
            "line 1: expected a comma, or the end of the line\n"
        );
        assert_eq!(read("\n"), "line 2: expected the number of room 4\n");
        assert_eq!(
            read("4 above"),
            "line 1: expected a colon behind the room's number\n"
        );
        assert_eq!(
            read("4: left 256"),
            "line 1: expected N, W, S, E or a number up to 255\n"
        );
    }

    /// A size asks for no contact, so that it may stand behind the last that there may be.
    #[test]
    fn contacts_are_counted_down() {
        let full = format!("4:{}", " above N,".repeat(360));
        let lack = "line 1: expected no more than 360 contacts\n";
        assert_eq!(read(&full), lack);
        assert_eq!(read(&format!("{full} above N")), lack);
        let sized = format!("{full} at least 3 by 2");
        assert_eq!(job_of(sized.as_bytes(), None).len(), 4 + 3 + 720 + 5);
        let rooms: String = (4..65).map(|room| format!("{room}:\n")).collect();
        assert_eq!(read(&rooms), "line 61: expected no more than 60 rooms\n");
    }
}
