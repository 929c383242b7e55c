//! digraph6 lines of any maps, after nauty's description of its formats, by neither side: an entry that takes lines is given these.

/// Six bits as a byte of a line, the first the highest; bits that are missing are 0.
fn byte(bits: &[bool]) -> u8 {
    63 + (0..6).fold(0, |sum, i| 2 * sum + u8::from(bits.get(i) == Some(&true)))
}

/// The adjacency matrix row by row.
pub fn body(table: &[u8]) -> Vec<u8> {
    let bits: Vec<bool> = table.iter().flat_map(|&image| (0..table.len()).map(move |x| x == image as usize)).collect();
    bits.chunks(6).map(byte).collect()
}

/// The forms of a size, by the bytes 126 that they start with: how many bytes follow, and the greatest number that this is the shortest form of.
pub const FORMS: [(usize, usize); 3] = [(1, 62), (3, 258_047), (6, (1 << 36) - 1)];

/// A number of points in one of the forms, which may be longer than needed. What does not fit is cut off.
pub fn size(n: usize, form: usize) -> Vec<u8> {
    let digit = |place: usize| 63 + (n >> (6 * place) & 63) as u8;
    let mut bytes = vec![126; form];
    bytes.extend((0..FORMS[form].0).rev().map(digit));
    bytes
}

/// The shortest form of a number of points.
pub fn shortest(n: usize) -> usize {
    FORMS.iter().position(|&(_, most)| n <= most).expect("a number of 36 bits")
}

/// The line of a map.
pub fn line(table: &[u8]) -> Vec<u8> {
    [&b"&"[..], &size(table.len(), shortest(table.len())), &body(table)].concat()
}

/// Changes a bit of a body.
pub fn change(body: &mut [u8], bit: usize) {
    body[bit / 6] = 63 + ((body[bit / 6] - 63) ^ (32 >> (bit % 6)));
}
