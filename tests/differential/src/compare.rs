//! One call of both sides: the replies and the whole lent buffers, with the bytes around them, have to agree.

use sides::maps::is_isomorphism;
use sides::{written, GreatestReply, PageReply, Side, ENGINE, REFERENCE};
use std::fmt::Write;

pub const ENTRIES: [&str; 20] = [
    "accept",
    "first",
    "successor",
    "predecessor",
    "page",
    "code_of_map",
    "map_of_code",
    "digraph6_of_code",
    "code_of_digraph6",
    "sum",
    "product",
    "isomorphism",
    "census",
    "height",
    "period",
    "greatest_period",
    "component_start",
    "component_end",
    "component_turns",
    "table_count",
];

/// The bytes in front of a lent buffer and behind it.
const MARGIN: usize = 16;

/// What buffers are filled with, unless another filling is asked for.
pub const FILLING: u8 = 0xa5;

/// A buffer and its margins. No result is likely to have these bytes; with another filling all of them are others.
#[derive(PartialEq)]
struct Lent {
    bytes: Vec<u8>,
    room: usize,
    filling: u8,
}

impl Lent {
    fn new(room: usize) -> Lent {
        Lent::filled(room, FILLING)
    }

    fn filled(room: usize, filling: u8) -> Lent {
        Lent { bytes: (0..room + 2 * MARGIN).map(|i| (i as u8).wrapping_mul(37) ^ filling).collect(), room, filling }
    }

    fn holding(bytes: &[u8]) -> Lent {
        let mut lent = Lent::new(bytes.len());
        lent.out().copy_from_slice(bytes);
        lent
    }

    fn lent(&self) -> &[u8] {
        &self.bytes[MARGIN..MARGIN + self.room]
    }

    fn out(&mut self) -> &mut [u8] {
        &mut self.bytes[MARGIN..MARGIN + self.room]
    }

    /// The first places, if all other bytes are as they were.
    fn only_first(&self, places: usize) -> Option<&[u8]> {
        let untouched = Lent::filled(self.room, self.filling);
        let end = MARGIN + places;
        let kept = places <= self.room && self.bytes[..MARGIN] == untouched.bytes[..MARGIN] && self.bytes[end..] == untouched.bytes[end..];
        kept.then(|| &self.bytes[MARGIN..end])
    }
}

/// A page of one side: the reply, and what was written, if all other bytes are as they were.
pub type Page = (PageReply, Option<Vec<u8>>);

pub fn page(side: &Side, code: &[u8], wanted: usize, room: usize) -> Page {
    let mut lent = Lent::new(room);
    let reply = (side.page)(code, wanted, lent.out());
    (reply, lent.only_first(reply.bytes.max(0) as usize).map(<[u8]>::to_vec))
}

/// An entry that takes one input, and writes.
pub type Writing = fn(&Side) -> fn(&[u8], &mut [u8]) -> i64;

/// Whether both sides accept a code with n points, and find this period in its map.
fn has_period(code: &[u8], n: usize, period: i64) -> bool {
    let found = |side: &Side| written(|out| (side.map_of_code)(code, out)).map(|table| (side.period)(&table));
    [ENGINE, REFERENCE].iter().all(|side| (side.accept)(code) == n as i64 && found(side) == Ok(period))
}

/// What has been compared so far.
pub struct Comparison {
    pub calls: [u64; ENTRIES.len()],
    pub differences: u64,
}

impl Comparison {
    pub fn new() -> Comparison {
        Comparison { calls: [0; ENTRIES.len()], differences: 0 }
    }

    /// Counts a call, and shows the first differences.
    pub fn count(&mut self, entry: &str, agree: bool, show: impl FnOnce(&mut String)) {
        let place = ENTRIES.iter().position(|&name| name == entry).expect("an entry");
        self.calls[place] += 1;
        if agree {
            return;
        }
        self.differences += 1;
        if self.differences <= 20 {
            let mut text = String::new();
            show(&mut text);
            println!("DIFFERENCE in {entry}: {text}");
        }
    }

    fn replies(&mut self, entry: &str, input: &[u8], call: impl Fn(&Side) -> i64) {
        let (engine, reference) = (call(&ENGINE), call(&REFERENCE));
        self.count(entry, engine == reference, |text| write!(text, "engine {engine}, reference {reference}, input {input:?}").unwrap());
    }

    /// The input, too, has bytes around it, and all of them have to be kept.
    fn buffers(&mut self, entry: &str, input: &[u8], room: usize, call: impl Fn(&Side, &[u8], &mut [u8]) -> i64) {
        let (given, mut by_engine, mut by_reference) = (Lent::holding(input), Lent::new(room), Lent::new(room));
        let (engine, reference) = (call(&ENGINE, given.lent(), by_engine.out()), call(&REFERENCE, given.lent(), by_reference.out()));
        let kept = *std::hint::black_box(&given) == Lent::holding(input);
        self.count(entry, engine == reference && by_engine == by_reference && kept, |text| {
            let (e, r) = (by_engine.out(), by_reference.out());
            let around = if kept { "kept" } else { "not kept" };
            write!(text, "engine {engine} {e:?}, reference {reference} {r:?}, room {room}, input {around}, {input:?}").unwrap()
        });
    }

    /// The same of a call that is lent no output.
    fn kept(&mut self, entry: &str, input: &[u8], call: impl Fn(&Side, &[u8]) -> i64) {
        let given = Lent::holding(input);
        let (engine, reference) = (call(&ENGINE, given.lent()), call(&REFERENCE, given.lent()));
        let kept = *std::hint::black_box(&given) == Lent::holding(input);
        self.count(entry, engine == reference && kept, |text| {
            let around = if kept { "kept" } else { "not kept" };
            write!(text, "engine {engine}, reference {reference}, input {around}, {input:?}").unwrap()
        });
    }

    /// The same for two inputs. Where one slice is given twice, the entries, too, are given one buffer twice.
    fn two_buffers(&mut self, entry: &str, [first, second]: [&[u8]; 2], room: usize, call: impl Fn(&Side, &[u8], &[u8], &mut [u8]) -> i64) {
        let (given, other, mut by_engine, mut by_reference) = (Lent::holding(first), Lent::holding(second), Lent::new(room), Lent::new(room));
        let (left, right) = (given.lent(), if std::ptr::eq(first, second) { given.lent() } else { other.lent() });
        let (engine, reference) = (call(&ENGINE, left, right, by_engine.out()), call(&REFERENCE, left, right, by_reference.out()));
        let kept = *std::hint::black_box(&given) == Lent::holding(first) && *std::hint::black_box(&other) == Lent::holding(second);
        self.count(entry, engine == reference && by_engine == by_reference && kept, |text| {
            let (e, r) = (by_engine.out(), by_reference.out());
            let around = if kept { "kept" } else { "not kept" };
            write!(text, "engine {engine} {e:?}, reference {reference} {r:?}, room {room}, inputs {around}, {first:?} {second:?}").unwrap()
        });
    }

    pub fn accept(&mut self, code: &[u8]) {
        self.replies("accept", code, |side| (side.accept)(code));
    }

    pub fn first(&mut self, n: usize, room: usize) {
        self.buffers("first", &n.to_le_bytes(), room, |side, _, out| (side.first)(n, out));
    }

    pub fn successor(&mut self, code: &[u8], room: usize) {
        self.buffers("successor", code, room, |side, code, out| (side.successor)(code, out));
    }

    pub fn predecessor(&mut self, code: &[u8], room: usize) {
        self.buffers("predecessor", code, room, |side, code, out| (side.predecessor)(code, out));
    }

    pub fn page(&mut self, code: &[u8], wanted: usize, room: usize) {
        self.page_as(&ENGINE, code, wanted, room, ("reference", &page(&REFERENCE, code, wanted, room)));
    }

    /// The page of a side is the expected one. It may be long, so of its bytes only the first place that differs is shown.
    pub fn page_as(&mut self, side: &Side, code: &[u8], wanted: usize, room: usize, (name, expected): (&str, &Page)) {
        let got = page(side, code, wanted, room);
        self.count("page", got == *expected && got.1.is_some(), |text| {
            let place = got.1.iter().flatten().zip(expected.1.iter().flatten()).position(|(a, b)| a != b);
            let around = if got.1.is_some() { "kept" } else { "not kept" };
            write!(text, "{} {:?}, {name} {:?}, first other byte at {place:?}, bytes around {around}, ", side.name, got.0, expected.0).unwrap();
            write!(text, "wanted {wanted}, room {room}, code {code:?}").unwrap()
        });
    }

    pub fn code_of_map(&mut self, table: &[u8], room: usize) {
        self.buffers("code_of_map", table, room, |side, table, out| (side.code_of_map)(table, out));
    }

    pub fn map_of_code(&mut self, code: &[u8], room: usize) {
        self.buffers("map_of_code", code, room, |side, code, out| (side.map_of_code)(code, out));
    }

    pub fn digraph6_of_code(&mut self, code: &[u8], room: usize) {
        self.buffers("digraph6_of_code", code, room, |side, code, out| (side.digraph6_of_code)(code, out));
    }

    pub fn code_of_digraph6(&mut self, line: &[u8], room: usize) {
        self.buffers("code_of_digraph6", line, room, |side, line, out| (side.code_of_digraph6)(line, out));
    }

    /// The same of a short line, without bytes around it and around the output, which takes less time: millions of lines are compared so.
    pub fn short_line(&mut self, line: &[u8]) {
        let call = |side: &Side| {
            let mut out = [FILLING; 20];
            ((side.code_of_digraph6)(line, &mut out), out)
        };
        let (engine, reference) = (call(&ENGINE), call(&REFERENCE));
        self.count("code_of_digraph6", engine == reference, |text| write!(text, "engine {engine:?}, reference {reference:?}, line {line:?}").unwrap());
    }

    /// The reply of a side and what it writes are the expected ones, and all other bytes are as they were.
    pub fn written_as(&mut self, name: &str, side: &Side, entry: Writing, (input, room): (&[u8], usize), expected: &(i64, Vec<u8>)) {
        let mut lent = Lent::new(room);
        let reply = entry(side)(input, lent.out());
        let written = lent.only_first(reply.max(0) as usize);
        let agree = reply == expected.0 && written == Some(&expected.1[..]);
        self.count(name, agree, |text| write!(text, "{} {reply} {written:?}, expected {expected:?}, room {room}, input {input:?}", side.name).unwrap());
    }

    pub fn sum(&mut self, first: &[u8], second: &[u8], room: usize) {
        self.two_buffers("sum", [first, second], room, |side, first, second, out| (side.sum)(first, second, out));
    }

    pub fn product(&mut self, first: &[u8], second: &[u8], room: usize) {
        self.two_buffers("product", [first, second], room, |side, first, second, out| (side.product)(first, second, out));
    }

    pub fn height(&mut self, table: &[u8]) {
        self.replies("height", table, |side| (side.height)(table));
    }

    pub fn period(&mut self, table: &[u8]) {
        self.kept("period", table, |side, table| (side.period)(table));
    }

    /// A side tells of n points the expected period, or is refused as expected. Which code it writes is left open, so it is read by both sides.
    pub fn greatest_as(&mut self, side: &Side, n: usize, (room, filling): (usize, u8), expected: Result<i64, i64>) {
        let mut lent = Lent::filled(room, filling);
        let reply = (side.greatest_period)(n, lent.out());
        let written = lent.only_first(reply.length.max(0) as usize);
        let good = match (written, expected) {
            (Some(code), Ok(period)) => reply.period == period && has_period(code, n, period),
            (Some(_), Err(refusal)) => reply == GreatestReply { length: refusal, period: refusal },
            (None, _) => false,
        };
        self.count("greatest_period", good, |text| {
            write!(text, "{} {reply:?}, expected {expected:?}, {n} points, room {room}, filling {filling}, written {written:?}", side.name).unwrap()
        });
    }

    /// Both ends of a component, and its turns.
    pub fn component(&mut self, code: &[u8], position: usize) {
        self.replies("component_start", code, |side| (side.component_start)(code, position));
        self.replies("component_end", code, |side| (side.component_end)(code, position));
        self.replies("component_turns", code, |side| (side.component_turns)(code, position));
    }

    pub fn table_count(&mut self, code: &[u8]) {
        self.kept("table_count", code, |side, code| (side.table_count)(code));
    }

    /// Which isomorphism is written is left open, so the engine's is checked arrow by arrow.
    pub fn isomorphism(&mut self, f: &[u8], g: &[u8], room: usize) {
        let mut lent = Lent::new(room);
        let engine = (ENGINE.isomorphism)(f, g, lent.out());
        let reference = (REFERENCE.isomorphism)(f, g, Lent::new(room).out());
        let written = lent.only_first(engine.max(0) as usize);
        let good = written.is_some_and(|r| engine < 0 || is_isomorphism(f, g, r));
        self.count("isomorphism", engine == reference && good, |text| {
            write!(text, "engine {engine}, reference {reference}, written {written:?}, room {room}, maps {f:?} {g:?}").unwrap()
        });
    }

    /// The rows in two lists, in their order.
    pub fn census(&mut self, table: &[u8], room: usize, other: usize) {
        let rows = |side: &Side| {
            let (mut lengths, mut counts) = (Lent::new(room), Lent::new(other));
            let reply = (side.census)(table, lengths.out(), counts.out());
            let places = reply.max(0) as usize;
            (reply, lengths.only_first(places).map(<[u8]>::to_vec).zip(counts.only_first(places).map(<[u8]>::to_vec)))
        };
        let (engine, reference) = (rows(&ENGINE), rows(&REFERENCE));
        let good = engine == reference && engine.1.is_some();
        self.count("census", good, |text| write!(text, "engine {engine:?}, reference {reference:?}, rooms {room} {other}, map {table:?}").unwrap());
    }
}
