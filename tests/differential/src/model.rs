//! The cases in `crates/checks/data` and `crates/line_checks/data`, made by `tools/plain_model.py`, a third implementation: both sides have to answer them. `tools/README.md` has the format.

use crate::compare::{Comparison, FILLING};
use sides::maps::is_isomorphism;
use sides::{written, PageReply, Side, ENGINE, FIRST, LAST, NONE, REFERENCE};
use std::fmt::Write;
use std::path::Path;

/// The numbers of a line that have not been read.
struct Line<'a>(std::str::SplitWhitespace<'a>);

impl Line<'_> {
    fn number(&mut self) -> usize {
        self.0.next().and_then(|word| word.parse().ok()).expect("a number")
    }

    /// A length, and a list of so many bytes, unless its pattern is empty.
    fn list(&mut self) -> (usize, Vec<u8>) {
        let (length, period) = (self.number(), self.number());
        let pattern: Vec<u8> = (0..period).map(|_| self.number() as u8).collect();
        (length, pattern.into_iter().cycle().take(length).collect())
    }

    /// A number of runs, and the byte and the length of each.
    fn runs(&mut self) -> Vec<u8> {
        let mut bytes = Vec::new();
        for _ in 0..self.number() {
            let (byte, length) = (self.number() as u8, self.number());
            bytes.resize(bytes.len() + length, byte);
        }
        bytes
    }

    /// The kind of a reply, and its number.
    fn reply(&mut self) -> i64 {
        let (kind, value) = (self.number(), self.number() as i64);
        [value, LAST, NONE, -value, FIRST][kind]
    }
}

/// A census as the data has it: height, and the rows.
fn census(side: &Side, table: &[u8], room: usize) -> (i64, Vec<u8>) {
    let (mut lengths, mut counts) = (vec![0; room], vec![0; room]);
    let reply = (side.census)(table, &mut lengths, &mut counts);
    if reply < 0 {
        return (reply, Vec::new());
    }
    let rows = lengths.into_iter().zip(counts).take(reply as usize).flat_map(|(length, count)| [length, count]);
    (reply, std::iter::once((side.height)(table) as u8).chain(rows).collect())
}

/// The reply to a case, and what was written.
fn answer(side: &Side, entry: usize, room: usize, first: &(usize, Vec<u8>), second: &[u8]) -> (i64, Vec<u8>) {
    let (count, input) = first;
    if entry == 7 {
        return census(side, input, room);
    }
    let mut out = vec![0; room];
    let reply = match entry {
        1 => return ((side.accept)(input), Vec::new()),
        11 => return ((side.table_count)(input), Vec::new()),
        12 => return ((side.period)(input), Vec::new()),
        2 => (side.first)(*count, &mut out),
        3 => (side.successor)(input, &mut out),
        4 => (side.code_of_map)(input, &mut out),
        5 => (side.map_of_code)(input, &mut out),
        6 => (side.isomorphism)(input, second, &mut out),
        8 => (side.predecessor)(input, &mut out),
        9 => (side.sum)(input, second, &mut out),
        10 => (side.product)(input, second, &mut out),
        _ => panic!("no entry {entry}"),
    };
    out.truncate(reply.max(0) as usize);
    (reply, out)
}

const NAMES: [&str; 13] =
    ["", "accept", "first", "successor", "code_of_map", "map_of_code", "isomorphism", "census", "predecessor", "sum", "product", "table_count", "period"];

/// The files of cases.
const FILES: [&str; 16] = [
    "examples",
    "damaged",
    "damaged_long",
    "reordered",
    "hostile",
    "keystrokes",
    "rooms",
    "steps",
    "steps_back",
    "codes",
    "census",
    "sums",
    "sums_long",
    "products_long",
    "table_counts",
    "periods",
];

/// One line of a file of cases.
fn case(comparison: &mut Comparison, line: &str) {
    let mut words = Line(line.split_whitespace());
    let (entry, room) = (words.number(), words.number());
    let (first, second) = (words.list(), words.list().1);
    let expected = (words.reply(), words.list().1);
    for side in [&ENGINE, &REFERENCE] {
        let got = answer(side, entry, room, &first, &second);
        comparison.count(NAMES[entry], got == expected, |text| write!(text, "{} {got:?}, model {expected:?}, case {line}", side.name).unwrap());
    }
}

/// One line of a file of pages.
fn page(comparison: &mut Comparison, line: &str) {
    let mut words = Line(line.split_whitespace());
    let (code, wanted, room) = (words.list().1, words.number(), words.number());
    let (kind, codes, bytes) = (words.number(), words.number() as i64, words.number() as i64);
    let reply = if kind == 0 { PageReply { codes, bytes } } else { PageReply { codes: -codes, bytes: -codes } };
    let expected = (reply, Some(words.list().1));
    for side in [&ENGINE, &REFERENCE] {
        comparison.page_as(side, &code, wanted, room, ("model", &expected));
    }
}

/// One line of the file of greatest periods.
fn greatest(comparison: &mut Comparison, line: &str) {
    let mut words = Line(line.split_whitespace());
    let (n, room) = (words.number(), words.number());
    let (kind, value) = (words.number(), words.number() as i64);
    let expected = if kind == 0 { Ok(value) } else { Err(-value) };
    for side in [&ENGINE, &REFERENCE] {
        comparison.greatest_as(side, n, (room, FILLING), expected);
    }
}

/// A code goes out as a digraph6 line, with this reply and these bytes.
fn goes_out(comparison: &mut Comparison, code: &[u8], room: usize, expected: (i64, Vec<u8>)) {
    for side in [&ENGINE, &REFERENCE] {
        comparison.written_as("digraph6_of_code", side, |side| side.digraph6_of_code, (code, room), &expected);
    }
}

/// A digraph6 line comes in, with this reply and these bytes.
fn comes_in(comparison: &mut Comparison, line: &[u8], room: usize, expected: (i64, Vec<u8>)) {
    for side in [&ENGINE, &REFERENCE] {
        comparison.written_as("code_of_digraph6", side, |side| side.code_of_digraph6, (line, room), &expected);
    }
}

/// One line of a file of codes that go out.
fn line_out(comparison: &mut Comparison, line: &str) {
    let mut words = Line(line.split_whitespace());
    let (code, room) = (words.list().1, words.number());
    goes_out(comparison, &code, room, (words.reply(), words.runs()));
}

/// One line of a file of digraph6 lines that come in.
fn line_in(comparison: &mut Comparison, line: &str) {
    let mut words = Line(line.split_whitespace());
    let (given, room) = (words.runs(), words.number());
    comes_in(comparison, &given, room, (words.reply(), words.list().1));
}

/// One line of the file of digraph6 lines that come in as a code and go out as another line, which has the same code.
fn line_back(comparison: &mut Comparison, line: &str) {
    let mut words = Line(line.split_whitespace());
    let (given, code, own) = (words.runs(), words.list().1, words.runs());
    for given in [&given, &own] {
        comes_in(comparison, given, code.len(), (code.len() as i64, code.clone()));
    }
    goes_out(comparison, &code, own.len(), (own.len() as i64, own.clone()));
}

/// One line of the file of components. Both ends are told by the start and by the bytes that are shown.
fn component(comparison: &mut Comparison, line: &str) {
    let mut words = Line(line.split_whitespace());
    let (code, position) = (words.list().1, words.number());
    let (kind, value, turns) = (words.number(), words.number() as i64, words.number() as i64);
    let part = words.list().1;
    assert!(kind != 0 || code[value as usize..].starts_with(&part), "the part of the code, case {line}");
    let expected = if kind == 0 { [value, value + part.len() as i64, turns] } else { [-value; 3] };
    for side in [&ENGINE, &REFERENCE] {
        let entries = [("component_start", side.component_start), ("component_end", side.component_end), ("component_turns", side.component_turns)];
        for ((entry, call), expected) in entries.into_iter().zip(expected) {
            let got = call(&code, position);
            comparison.count(entry, got == expected, |text| write!(text, "{} {got}, model {expected}, case {line}", side.name).unwrap());
        }
    }
}

/// One line of the file of maps with shuffled copies.
fn pair(comparison: &mut Comparison, line: &str) {
    let mut words = Line(line.split_whitespace());
    let (f, g) = (words.list().1, words.list().1);
    for side in [&ENGINE, &REFERENCE] {
        let got = written(|out| (side.isomorphism)(&f, &g, out));
        let good = got.as_ref().is_ok_and(|r| is_isomorphism(&f, &g, r));
        comparison.count("isomorphism", good, |text| write!(text, "{} {got:?}, case {line}", side.name).unwrap());
    }
}

/// A whole listing: a header, numbered codes, the total. It is also gone through backwards.
fn listing(comparison: &mut Comparison, n: usize, text: &str) {
    for side in [&ENGINE, &REFERENCE] {
        let mut code = written(|out| (side.first)(n, out));
        let (mut entry, mut before) = ("first", Err(FIRST));
        for line in text.lines().skip(1) {
            let expected: Result<Vec<u8>, i64> = match line.split_once(": ") {
                Some((_, numbers)) => Ok(numbers.split(' ').map(|x| x.parse().expect("a byte")).collect()),
                None => Err(LAST),
            };
            comparison.count(entry, code == expected, |text| write!(text, "{} {code:?}, listing {expected:?}", side.name).unwrap());
            let Ok(expected) = expected else { break };
            let back = written(|out| (side.predecessor)(&expected, out));
            comparison.count("predecessor", back == before, |text| write!(text, "{} {back:?}, listing {before:?}, code {expected:?}", side.name).unwrap());
            entry = "successor";
            code = written(|out| (side.successor)(&expected, out));
            before = Ok(expected);
        }
    }
}

/// All files of the data, those of digraph6 lines in a directory of their own.
pub fn run(comparison: &mut Comparison, data: &Path, lines: &Path) {
    let read = |name: &str| {
        let folder = if name.starts_with("digraph6_") { lines } else { data };
        std::fs::read_to_string(folder.join(name)).expect(name)
    };
    for name in FILES {
        read(name).lines().for_each(|line| case(comparison, line));
    }
    for name in ["pages", "pages_long"] {
        read(name).lines().for_each(|line| page(comparison, line));
    }
    read("greatest").lines().for_each(|line| greatest(comparison, line));
    for name in ["digraph6_out", "digraph6_out_long"] {
        read(name).lines().for_each(|line| line_out(comparison, line));
    }
    for name in ["digraph6_in", "digraph6_in_long", "digraph6_sizes"] {
        read(name).lines().for_each(|line| line_in(comparison, line));
    }
    read("digraph6_back").lines().for_each(|line| line_back(comparison, line));
    read("components").lines().for_each(|line| component(comparison, line));
    read("pairs").lines().for_each(|line| pair(comparison, line));
    for n in 0..=8 {
        listing(comparison, n, &read(&format!("listing_{n}")));
    }
}
