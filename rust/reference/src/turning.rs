//! Turning one contact by the written rule: two kinds change where they stand, no entry moves, and the sizes stay.

use crate::job::{round, Job, Star};
use crate::{refusal, Refusal, ABOVE, BELOW, LEFT, RIGHT};

/// The turned labelling, or 11 or 12. It is numbered and tested afresh by the board.
pub fn turned(job: &Job, one: usize, other: usize) -> Result<Job, Refusal> {
    let contact = find_contact(job, one, other).ok_or(refusal::NOT_IN_CONTACT)?;
    let Contact { u, v, kind } = contact;
    let back = crate::opposite(kind);
    if list(job.star_of(u), kind).len() < 2 || list(job.star_of(v), back).len() < 2 {
        return Err(refusal::LIST_TOO_SHORT);
    }
    let v_is_last = list(job.star_of(u), kind).last() == Some(&v);
    let new_kind = match (kind, v_is_last) {
        (ABOVE, true) => LEFT,
        (ABOVE, false) => RIGHT,
        (_, true) => ABOVE,
        (_, false) => BELOW,
    };
    let mut result = job.clone();
    change_kind(result.star_of_mut(u), v, new_kind);
    change_kind(result.star_of_mut(v), u, crate::opposite(new_kind));
    Ok(result)
}

/// A contact in the rule's own words: v is above u, or v is right of u.
struct Contact {
    u: usize,
    v: usize,
    kind: u8,
}

/// The call names the rooms in either order. Too large a number, a frame side or one room twice is no contact.
fn find_contact(job: &Job, one: usize, other: usize) -> Option<Contact> {
    if !job.is_room(one) || !job.is_room(other) || one == other {
        return None;
    }
    let kind = job.kind_of(one, other)?;
    let (u, v) = match kind {
        ABOVE | RIGHT => (one, other),
        _ => (other, one),
    };
    let kind = match kind {
        ABOVE | BELOW => ABOVE,
        _ => RIGHT,
    };
    Some(Contact { u, v, kind })
}

/// The neighbours of one kind, in circular order from where the list begins: behind an entry of another kind.
fn list(star: &Star, kind: u8) -> Vec<usize> {
    let begin = round(star)
        .position(|(entry, next)| entry.kind != kind && next.kind == kind)
        .map_or(0, |before| before + 1);
    star.iter()
        .cycle()
        .skip(begin)
        .take(star.len())
        .take_while(|entry| entry.kind == kind)
        .map(|entry| entry.neighbour)
        .collect()
}

fn change_kind(star: &mut Star, neighbour: usize, new_kind: u8) {
    let entry = star
        .iter_mut()
        .find(|entry| entry.neighbour == neighbour)
        .expect("both rooms of a contact list each other");
    entry.kind = new_kind;
}
