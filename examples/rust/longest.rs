//! longest: prints a code with the greatest period of some counts of points, and that period; and what is told of greater counts and of shorter buffers.

#[allow(dead_code)]
mod lethmuok;

use lethmuok::{MAX_CODE, MAX_PERIOD_POINTS};

fn print_longest(n: usize, room: usize) {
    let mut out = [0; MAX_CODE];
    print!("{n} points, {room} bytes: ");
    match lethmuok::greatest_period(n, &mut out[..room]) {
        Err(cause) => println!("refused {}", cause as u8),
        Ok(found) => {
            print!("period {}, code", found.period);
            out[..found.length].iter().for_each(|byte| print!(" {byte}"));
            println!();
        }
    }
}

fn main() {
    // of 0, 5, 7, 30 and 120 points only one code has the greatest period; that of 120 takes more than 32 bits
    for n in [0, 5, 7, 30, MAX_PERIOD_POINTS, MAX_PERIOD_POINTS + 1, 201] {
        print_longest(n, MAX_CODE);
    }
    // the room is told last, and of the shortest code too
    for n in [0, MAX_PERIOD_POINTS, MAX_PERIOD_POINTS + 1, 201] {
        print_longest(n, MAX_CODE - 1);
    }
}
