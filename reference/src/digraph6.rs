//! digraph6 lines (document 02, paper 10), after nauty's description of its formats: the sign &, the number of points N(n), and the bits of the adjacency matrix
//! row by row, R(x), six to a byte. All bits of a line are made as a list, or read into one, and then looked at.

use crate::{Cause, MOST_POINTS};

const SIGN: u8 = b'&';

/// What is added to six bits to make a byte of a line, and the greatest byte that this gives. A size that does not fit into one byte starts with the greatest one, or
/// with two of it.
const LEAST: u8 = 63;
const GREATEST: u8 = 126;

/// So many bits of a number, the highest first.
fn bits(number: usize, count: usize) -> impl Iterator<Item = bool> {
    (0..count).rev().map(move |place| number >> place & 1 == 1)
}

fn number(bits: &[bool]) -> usize {
    bits.iter().fold(0, |number, &bit| 2 * number + usize::from(bit))
}

/// R(x): the last byte is padded with zeros.
pub fn packed(bits: &[bool]) -> Vec<u8> {
    let byte = |six: &[bool]| LEAST + ((number(six) << (6 - six.len())) as u8);
    bits.chunks(6).map(byte).collect()
}

/// The bits of bytes that R(x) can have.
fn unpacked(bytes: &[u8]) -> Result<Vec<bool>, Cause> {
    if bytes.iter().any(|byte| !(LEAST..=GREATEST).contains(byte)) {
        return Err(Cause::LineForm);
    }
    Ok(bytes.iter().flat_map(|byte| bits((byte - LEAST) as usize, 6)).collect())
}

/// N(n), in the shortest form.
pub fn size(n: usize) -> Vec<u8> {
    let longer = |signs: usize, digits: usize| [vec![GREATEST; signs], packed(&bits(n, 6 * digits).collect::<Vec<_>>())].concat();
    match n {
        0..=62 => longer(0, 1),
        63..=258_047 => longer(1, 3),
        _ => longer(2, 6),
    }
}

/// The line of a map.
pub fn line_of_map(table: &[u8]) -> Vec<u8> {
    let n = table.len();
    let matrix: Vec<bool> = table.iter().flat_map(|&image| (0..n).map(move |y| y == image as usize)).collect();
    [vec![SIGN], size(n), packed(&matrix)].concat()
}

/// The number of points at the start, in the shortest form, and the bytes behind it.
fn read_size(bytes: &[u8]) -> Result<(usize, &[u8]), Cause> {
    let (signs, length) = match bytes {
        [GREATEST, GREATEST, ..] => (2, 8),
        [GREATEST, ..] => (1, 4),
        _ => (0, 1),
    };
    let (read, rest) = bytes.split_at_checked(length).ok_or(Cause::LineForm)?;
    let n = number(&unpacked(&read[signs..])?);
    if n > MOST_POINTS {
        return Err(Cause::Count);
    }
    if read != size(n) {
        return Err(Cause::LineForm);
    }
    Ok((n, rest))
}

/// The image of a point: the place of the only mark in its row.
fn only_mark(row: &[bool]) -> Result<u8, Cause> {
    let mut marks = (0..).zip(row).filter(|&(_, &mark)| mark).map(|(place, _)| place);
    match (marks.next(), marks.next()) {
        (Some(place), None) => Ok(place),
        _ => Err(Cause::OutDegree),
    }
}

/// The images of n points. The rows are looked at only where all bytes have the form of R(x) and its padding bits are zeros.
fn read_matrix(n: usize, bytes: &[u8]) -> Result<Vec<u8>, Cause> {
    if bytes.len() != (n * n).div_ceil(6) {
        return Err(Cause::LineForm);
    }
    let bits = unpacked(bytes)?;
    let (matrix, padding) = bits.split_at(n * n);
    if padding.contains(&true) {
        return Err(Cause::LineForm);
    }
    matrix.chunks(n.max(1)).map(only_mark).collect()
}

/// The map of a line.
pub fn map_of_line(line: &[u8]) -> Result<Vec<u8>, Cause> {
    let (n, matrix) = read_size(line.strip_prefix(&[SIGN]).ok_or(Cause::LineForm)?)?;
    read_matrix(n, matrix)
}
