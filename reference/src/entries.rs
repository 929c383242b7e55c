//! The entries, each with its order of checks (document 01, "Refusing"; document 02).

use crate::component::Component;
use crate::count::tables;
use crate::digraph6::{line_of_map, map_of_line};
use crate::landau::longest;
use crate::map::{checked, cycle_lengths, height as height_of, in_pairs, map_of_system, period as period_of, side_by_side, system_of_map};
use crate::system::{accepted, predecessor as previous, successor as next};
use crate::written::write;
use crate::{Cause, EVERY_CODE, MOST_COUNTED, MOST_PERIOD_POINTS, MOST_POINTS, MOST_WANTED};

/// The reply of a successor entry to the last code of its count.
pub const LAST: i64 = -100;

/// The reply where there is no isomorphism.
pub const NONE: i64 = -101;

/// The reply of a predecessor entry to the first code of its count.
pub const FIRST: i64 = -102;

fn reply(result: Result<i64, Cause>) -> i64 {
    result.unwrap_or_else(|cause| -(cause as i64))
}

/// Two numbers; a refusal stands in both.
fn two_replies(result: Result<(i64, i64), Cause>) -> (i64, i64) {
    (reply(result.map(|(one, _)| one)), reply(result.map(|(_, other)| other)))
}

/// A result fills the first places of the lent buffer, or is refused.
fn put(result: &[u8], out: &mut [u8]) -> Result<i64, Cause> {
    out.get_mut(..result.len()).ok_or(Cause::Room)?.copy_from_slice(result);
    Ok(result.len() as i64)
}

fn points(system: &[Component]) -> usize {
    system.iter().map(Component::points).sum()
}

pub fn accept(code: &[u8]) -> i64 {
    reply(accepted(code).map(|system| points(&system) as i64))
}

pub fn first(n: usize, out: &mut [u8]) -> i64 {
    if n > MOST_POINTS {
        return reply(Err(Cause::Count));
    }
    reply(put(&write(&vec![Component::cycle(1); n]).0, out))
}

pub fn successor(code: &[u8], out: &mut [u8]) -> i64 {
    reply(accepted(code).and_then(|system| match next(&system) {
        None => Ok(LAST),
        Some(following) => put(&write(&following).0, out),
    }))
}

pub fn predecessor(code: &[u8], out: &mut [u8]) -> i64 {
    reply(accepted(code).and_then(|system| match previous(&system) {
        None => Ok(FIRST),
        Some(before) => put(&write(&before).0, out),
    }))
}

/// The reply of a page: how many codes it has, and how many bytes. A refusal stands in both.
#[repr(C)]
#[derive(Clone, Copy, Debug, PartialEq, Eq)]
pub struct PageReply {
    pub codes: i64,
    pub bytes: i64,
}

/// The codes that follow, at most so many, one after another: how many they are, and their bytes.
fn following(code: &[u8], wanted: usize) -> Result<(i64, Vec<u8>), Cause> {
    if wanted > MOST_WANTED {
        return Err(Cause::Wanted);
    }
    let mut system = accepted(code)?;
    let (mut codes, mut bytes) = (0, Vec::new());
    for _ in 0..wanted {
        let Some(after) = next(&system) else { break };
        bytes.extend(write(&after).0);
        codes += 1;
        system = after;
    }
    Ok((codes, bytes))
}

pub fn page(code: &[u8], wanted: usize, out: &mut [u8]) -> PageReply {
    let (codes, bytes) = two_replies(following(code, wanted).and_then(|(codes, bytes)| Ok((codes, put(&bytes, out)?))));
    PageReply { codes, bytes }
}

pub fn code_of_map(table: &[u8], out: &mut [u8]) -> i64 {
    reply(checked(table).and_then(|()| put(&write(&system_of_map(table).0).0, out)))
}

pub fn map_of_code(code: &[u8], out: &mut [u8]) -> i64 {
    reply(accepted(code).and_then(|system| put(&map_of_system(&system), out)))
}

pub fn digraph6_of_code(code: &[u8], out: &mut [u8]) -> i64 {
    reply(accepted(code).and_then(|system| put(&line_of_map(&map_of_system(&system)), out)))
}

pub fn code_of_digraph6(line: &[u8], out: &mut [u8]) -> i64 {
    reply(map_of_line(line).and_then(|table| put(&write(&system_of_map(&table).0).0, out)))
}

/// The code of a map that is made of the maps of two codes, and has so many points as their counts give.
fn combined(first: &[u8], second: &[u8], points: fn(usize, usize) -> usize, both: fn(&[u8], &[u8]) -> Vec<u8>) -> Result<Vec<u8>, Cause> {
    let f = map_of_system(&accepted(first)?);
    let g = map_of_system(&accepted(second)?);
    if points(f.len(), g.len()) > MOST_POINTS {
        return Err(Cause::TooLarge);
    }
    Ok(write(&system_of_map(&both(&f, &g)).0).0)
}

pub fn sum(first: &[u8], second: &[u8], out: &mut [u8]) -> i64 {
    reply(combined(first, second, |n, m| n + m, side_by_side).and_then(|code| put(&code, out)))
}

pub fn product(first: &[u8], second: &[u8], out: &mut [u8]) -> i64 {
    reply(combined(first, second, |n, m| n * m, in_pairs).and_then(|code| put(&code, out)))
}

/// Points that stand at the same place of the same code are mapped to each other.
pub fn isomorphism(f: &[u8], g: &[u8], out: &mut [u8]) -> i64 {
    reply(checked(f).and_then(|()| checked(g)).and_then(|()| {
        let ((system, from), (other, to)) = (system_of_map(f), system_of_map(g));
        if system != other {
            return Ok(NONE);
        }
        let mut renaming = vec![0; f.len()];
        for (&x, &y) in from.iter().zip(&to) {
            renaming[x as usize] = y;
        }
        put(&renaming, out)
    }))
}

/// The rows of the census in two lists beside each other; a row needs a place in both.
pub fn census(table: &[u8], lengths: &mut [u8], counts: &mut [u8]) -> i64 {
    reply(checked(table).and_then(|()| {
        let rows = cycle_lengths(table);
        if rows.len() > lengths.len().min(counts.len()) {
            return Err(Cause::Room);
        }
        for (i, &(length, count)) in rows.iter().enumerate() {
            (lengths[i], counts[i]) = (length, count);
        }
        Ok(rows.len() as i64)
    }))
}

pub fn height(table: &[u8]) -> i64 {
    reply(checked(table).map(|()| height_of(table) as i64))
}

/// 13 stands between the two checks of a table.
pub fn period(table: &[u8]) -> i64 {
    if (MOST_PERIOD_POINTS + 1..=MOST_POINTS).contains(&table.len()) {
        return reply(Err(Cause::TooManyPoints));
    }
    reply(checked(table).map(|()| period_of(table) as i64))
}

/// The reply of the greatest period: how many bytes the code has, and what its period is. A refusal stands in both.
#[repr(C)]
#[derive(Clone, Copy, Debug, PartialEq, Eq)]
pub struct GreatestReply {
    pub length: i64,
    pub period: i64,
}

/// Writes a code with the greatest period. What room there has to be does not depend on the code.
fn put_longest(n: usize, out: &mut [u8]) -> Result<(i64, i64), Cause> {
    if n > MOST_POINTS {
        return Err(Cause::Count);
    }
    if n > MOST_PERIOD_POINTS {
        return Err(Cause::TooManyPoints);
    }
    if out.len() < EVERY_CODE {
        return Err(Cause::Room);
    }
    let (lengths, period) = longest(n);
    let system: Vec<Component> = lengths.into_iter().map(Component::cycle).collect();
    Ok((put(&write(&system).0, out)?, period as i64))
}

pub fn greatest_period(n: usize, out: &mut [u8]) -> GreatestReply {
    let (length, period) = two_replies(put_longest(n, out));
    GreatestReply { length, period }
}

/// Where the part of the component at a position starts and ends.
fn component_part(code: &[u8], position: usize) -> Result<(usize, usize), Cause> {
    let (_, parts) = write(&accepted(code)?);
    parts.get(position).copied().ok_or(Cause::Position)
}

pub fn component_start(code: &[u8], position: usize) -> i64 {
    reply(component_part(code, position).map(|(start, _)| start as i64))
}

pub fn component_end(code: &[u8], position: usize) -> i64 {
    reply(component_part(code, position).map(|(_, end)| end as i64))
}

pub fn component_turns(code: &[u8], position: usize) -> i64 {
    reply(accepted(code).and_then(|system| system.get(position).map(|component| component.turns() as i64).ok_or(Cause::Position)))
}

pub fn table_count(code: &[u8]) -> i64 {
    reply(accepted(code).and_then(|system| if points(&system) > MOST_COUNTED { Err(Cause::Uncounted) } else { Ok(tables(&system) as i64) }))
}
