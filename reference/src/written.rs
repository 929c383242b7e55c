//! The written code (document 01).

use crate::component::Component;
use crate::{Cause, MOST_POINTS};

/// The numbers of a written code; the first 3 or 4 decides.
pub fn cut(code: &[u8]) -> Result<Vec<u16>, Cause> {
    let mut numbers = Vec::with_capacity(code.len());
    let mut bytes = code.iter();
    while let Some(&low) = bytes.next() {
        if low < 128 {
            numbers.push(low as u16);
            continue;
        }
        match bytes.next() {
            None => return Err(Cause::Truncated),
            Some(&high) if high == 0 || high >= 128 => return Err(Cause::NumberForm),
            Some(&high) => numbers.push((low - 128) as u16 + 128 * high as u16),
        }
    }
    Ok(numbers)
}

/// What has been read of the numbers, and the points that are left.
struct Reader<'a> {
    numbers: std::slice::Iter<'a, u16>,
    left: usize,
}

impl Reader<'_> {
    fn number(&mut self) -> Result<usize, Cause> {
        self.numbers.next().map(|&x| x as usize).ok_or(Cause::Truncated)
    }

    /// A number from 1 to the points left.
    fn size(&mut self, left: usize) -> Result<usize, Cause> {
        let size = self.number()?;
        if size == 0 || size > left {
            Err(Cause::Sizes)
        } else {
            Ok(size)
        }
    }

    /// A tree and its branches are appended to the component.
    fn tree(&mut self, left: usize, flat: &mut Vec<u8>) -> Result<usize, Cause> {
        let size = self.size(left)?;
        flat.push(size as u8);
        let mut inside = size - 1;
        while inside > 0 {
            inside -= self.tree(inside, flat)?;
        }
        Ok(size)
    }

    fn component(&mut self) -> Result<Component, Cause> {
        let trees = self.size(self.left)?;
        let mut flat = Vec::new();
        for _ in 0..trees {
            self.left -= self.tree(self.left, &mut flat)?;
        }
        Ok(Component { flat, trees })
    }
}

/// The components that the numbers say, whatever their order: 1, 3 and 5 from left to right, then 7.
pub fn read(numbers: &[u16]) -> Result<Vec<Component>, Cause> {
    let mut reader = Reader { numbers: numbers.iter(), left: 0 };
    let n = reader.number()?;
    if n > MOST_POINTS {
        return Err(Cause::Count);
    }
    reader.left = n;
    let m = reader.number()?;
    if m > n || (m == 0 && n > 0) {
        return Err(Cause::Sizes);
    }
    let system = (0..m).map(|_| reader.component()).collect::<Result<Vec<_>, _>>()?;
    if reader.left > 0 {
        return Err(Cause::Sizes);
    }
    if reader.numbers.next().is_some() {
        return Err(Cause::Trailing);
    }
    Ok(system)
}

fn write_number(x: usize, code: &mut Vec<u8>) {
    if x < 128 {
        code.push(x as u8);
    } else {
        code.extend([(x % 128 + 128) as u8, (x / 128) as u8]);
    }
}

/// A component's part of a code: its number of trees and its tree codes.
fn write_component(c: &Component, code: &mut Vec<u8>) {
    write_number(c.trees, code);
    for &x in &c.flat {
        write_number(x as usize, code);
    }
}

/// The code of a system, and for each component the places where its part starts and ends.
pub fn write(system: &[Component]) -> (Vec<u8>, Vec<(usize, usize)>) {
    let mut code = Vec::with_capacity(2 * MOST_POINTS);
    write_number(system.iter().map(Component::points).sum(), &mut code);
    write_number(system.len(), &mut code);
    let mut parts = Vec::with_capacity(system.len());
    for c in system {
        let start = code.len();
        write_component(c, &mut code);
        parts.push((start, code.len()));
    }
    (code, parts)
}
