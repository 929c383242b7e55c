//! What is compared: the engine, through its static library, and the reference implementation, under one set of signatures; and the maps and lines that both are given.

pub mod lines;
pub mod maps;
pub mod random;

/// The entries of one implementation. A reply is a length, n or another number that was asked for, minus the number of the cause of a refusal, [`LAST`], [`NONE`] or
/// [`FIRST`]; that of a page is a [`PageReply`], and that of the greatest period a [`GreatestReply`].
pub struct Side {
    pub name: &'static str,
    pub accept: fn(&[u8]) -> i64,
    pub first: fn(usize, &mut [u8]) -> i64,
    pub successor: fn(&[u8], &mut [u8]) -> i64,
    pub predecessor: fn(&[u8], &mut [u8]) -> i64,
    pub page: fn(&[u8], usize, &mut [u8]) -> PageReply,
    pub code_of_map: fn(&[u8], &mut [u8]) -> i64,
    pub map_of_code: fn(&[u8], &mut [u8]) -> i64,
    pub digraph6_of_code: fn(&[u8], &mut [u8]) -> i64,
    pub code_of_digraph6: fn(&[u8], &mut [u8]) -> i64,
    pub sum: fn(&[u8], &[u8], &mut [u8]) -> i64,
    pub product: fn(&[u8], &[u8], &mut [u8]) -> i64,
    pub isomorphism: fn(&[u8], &[u8], &mut [u8]) -> i64,
    pub census: fn(&[u8], &mut [u8], &mut [u8]) -> i64,
    pub height: fn(&[u8]) -> i64,
    pub period: fn(&[u8]) -> i64,
    pub greatest_period: fn(usize, &mut [u8]) -> GreatestReply,
    pub component_start: fn(&[u8], usize) -> i64,
    pub component_end: fn(&[u8], usize) -> i64,
    pub component_turns: fn(&[u8], usize) -> i64,
    pub table_count: fn(&[u8]) -> i64,
}

pub use reference::{GreatestReply, PageReply, EVERY_CODE, EVERY_LINE, FIRST, LAST, MOST_COUNTED, MOST_PERIOD_POINTS, MOST_WANTED, NONE};

/// Bytes that hold every page.
pub const EVERY_PAGE: usize = 1_000_000;

/// Whether the library has the entry `page`; `bench/against` may be given one from before it.
pub const HAS_PAGE: bool = cfg!(not(without_page));

/// The same of the entry `predecessor`.
pub const HAS_PREDECESSOR: bool = cfg!(not(without_predecessor));

/// The same of the entries `sum` and `product`, which came together.
pub const HAS_SUM: bool = cfg!(not(without_sum));

/// The same of the turns that the component reader tells.
pub const HAS_TURNS: bool = cfg!(not(without_component_turns));

/// The same of the entry `table_count`.
pub const HAS_TABLE_COUNT: bool = cfg!(not(without_table_count));

/// The same of the entry `period`.
pub const HAS_PERIOD: bool = cfg!(not(without_period));

/// The same of the entry `greatest_period`.
pub const HAS_GREATEST_PERIOD: bool = cfg!(not(without_greatest_period));

/// The same of the entries `digraph6_of_code` and `code_of_digraph6`, which came together.
pub const HAS_DIGRAPH6: bool = cfg!(not(without_digraph6_of_code));

pub const REFERENCE: Side = Side {
    name: "reference",
    accept: reference::accept,
    first: reference::first,
    successor: reference::successor,
    predecessor: reference::predecessor,
    page: reference::page,
    code_of_map: reference::code_of_map,
    map_of_code: reference::map_of_code,
    digraph6_of_code: reference::digraph6_of_code,
    code_of_digraph6: reference::code_of_digraph6,
    sum: reference::sum,
    product: reference::product,
    isomorphism: reference::isomorphism,
    census: reference::census,
    height: reference::height,
    period: reference::period,
    greatest_period: reference::greatest_period,
    component_start: reference::component_start,
    component_end: reference::component_end,
    component_turns: reference::component_turns,
    table_count: reference::table_count,
};

/// The C prototypes of the static library: a slice is a pointer, never null, and a count.
mod c {
    #[link(name = "c_interface", kind = "static")]
    extern "C" {
        pub fn lethmuok_accept(code: *const u8, len: usize) -> i64;
        pub fn lethmuok_first(n: usize, out: *mut u8, room: usize) -> i64;
        pub fn lethmuok_successor(code: *const u8, len: usize, out: *mut u8, room: usize) -> i64;
        #[cfg(not(without_predecessor))]
        pub fn lethmuok_predecessor(code: *const u8, len: usize, out: *mut u8, room: usize) -> i64;
        #[cfg(not(without_page))]
        pub fn lethmuok_page(code: *const u8, len: usize, wanted: usize, out: *mut u8, room: usize) -> super::PageReply;
        pub fn lethmuok_code_of_map(table: *const u8, n: usize, out: *mut u8, room: usize) -> i64;
        pub fn lethmuok_map_of_code(code: *const u8, len: usize, out: *mut u8, room: usize) -> i64;
        #[cfg(not(without_digraph6_of_code))]
        pub fn lethmuok_digraph6_of_code(code: *const u8, len: usize, out: *mut u8, room: usize) -> i64;
        #[cfg(not(without_digraph6_of_code))]
        pub fn lethmuok_code_of_digraph6(line: *const u8, len: usize, out: *mut u8, room: usize) -> i64;
        #[cfg(not(without_sum))]
        pub fn lethmuok_sum(first: *const u8, len: usize, second: *const u8, other: usize, out: *mut u8, room: usize) -> i64;
        #[cfg(not(without_sum))]
        pub fn lethmuok_product(first: *const u8, len: usize, second: *const u8, other: usize, out: *mut u8, room: usize) -> i64;
        pub fn lethmuok_isomorphism(f: *const u8, n: usize, g: *const u8, m: usize, out: *mut u8, room: usize) -> i64;
        pub fn lethmuok_census(table: *const u8, n: usize, lengths: *mut u8, room: usize, counts: *mut u8, other: usize) -> i64;
        pub fn lethmuok_height(table: *const u8, n: usize) -> i64;
        #[cfg(not(without_period))]
        pub fn lethmuok_period(table: *const u8, n: usize) -> i64;
        #[cfg(not(without_greatest_period))]
        pub fn lethmuok_greatest_period(n: usize, out: *mut u8, room: usize) -> super::GreatestReply;
        pub fn lethmuok_component_start(code: *const u8, len: usize, position: usize) -> i64;
        pub fn lethmuok_component_end(code: *const u8, len: usize, position: usize) -> i64;
        #[cfg(not(without_component_turns))]
        pub fn lethmuok_component_turns(code: *const u8, len: usize, position: usize) -> i64;
        #[cfg(not(without_table_count))]
        pub fn lethmuok_table_count(code: *const u8, len: usize) -> i64;
    }
}

// Each call hands over slices that live until it returns, as pointer and count, and no output overlaps another slice.
pub const ENGINE: Side = Side {
    name: "engine",
    accept: |code| unsafe { c::lethmuok_accept(code.as_ptr(), code.len()) },
    first: |n, out| unsafe { c::lethmuok_first(n, out.as_mut_ptr(), out.len()) },
    successor: |code, out| unsafe { c::lethmuok_successor(code.as_ptr(), code.len(), out.as_mut_ptr(), out.len()) },
    #[cfg(not(without_predecessor))]
    predecessor: |code, out| unsafe { c::lethmuok_predecessor(code.as_ptr(), code.len(), out.as_mut_ptr(), out.len()) },
    #[cfg(without_predecessor)]
    predecessor: |_, _| panic!("this library has no predecessor"),
    #[cfg(not(without_page))]
    page: |code, wanted, out| unsafe { c::lethmuok_page(code.as_ptr(), code.len(), wanted, out.as_mut_ptr(), out.len()) },
    #[cfg(without_page)]
    page: |_, _, _| panic!("this library has no page"),
    code_of_map: |table, out| unsafe { c::lethmuok_code_of_map(table.as_ptr(), table.len(), out.as_mut_ptr(), out.len()) },
    map_of_code: |code, out| unsafe { c::lethmuok_map_of_code(code.as_ptr(), code.len(), out.as_mut_ptr(), out.len()) },
    #[cfg(not(without_digraph6_of_code))]
    digraph6_of_code: |code, out| unsafe { c::lethmuok_digraph6_of_code(code.as_ptr(), code.len(), out.as_mut_ptr(), out.len()) },
    #[cfg(not(without_digraph6_of_code))]
    code_of_digraph6: |line, out| unsafe { c::lethmuok_code_of_digraph6(line.as_ptr(), line.len(), out.as_mut_ptr(), out.len()) },
    #[cfg(without_digraph6_of_code)]
    digraph6_of_code: |_, _| panic!("this library has no digraph6_of_code"),
    #[cfg(without_digraph6_of_code)]
    code_of_digraph6: |_, _| panic!("this library has no code_of_digraph6"),
    #[cfg(not(without_sum))]
    sum: |first, second, out| unsafe { c::lethmuok_sum(first.as_ptr(), first.len(), second.as_ptr(), second.len(), out.as_mut_ptr(), out.len()) },
    #[cfg(not(without_sum))]
    product: |first, second, out| unsafe { c::lethmuok_product(first.as_ptr(), first.len(), second.as_ptr(), second.len(), out.as_mut_ptr(), out.len()) },
    #[cfg(without_sum)]
    sum: |_, _, _| panic!("this library has no sum"),
    #[cfg(without_sum)]
    product: |_, _, _| panic!("this library has no product"),
    isomorphism: |f, g, out| unsafe { c::lethmuok_isomorphism(f.as_ptr(), f.len(), g.as_ptr(), g.len(), out.as_mut_ptr(), out.len()) },
    census: |table, lengths, counts| unsafe {
        c::lethmuok_census(table.as_ptr(), table.len(), lengths.as_mut_ptr(), lengths.len(), counts.as_mut_ptr(), counts.len())
    },
    height: |table| unsafe { c::lethmuok_height(table.as_ptr(), table.len()) },
    #[cfg(not(without_period))]
    period: |table| unsafe { c::lethmuok_period(table.as_ptr(), table.len()) },
    #[cfg(without_period)]
    period: |_| panic!("this library has no period"),
    #[cfg(not(without_greatest_period))]
    greatest_period: |n, out| unsafe { c::lethmuok_greatest_period(n, out.as_mut_ptr(), out.len()) },
    #[cfg(without_greatest_period)]
    greatest_period: |_, _| panic!("this library has no greatest_period"),
    component_start: |code, position| unsafe { c::lethmuok_component_start(code.as_ptr(), code.len(), position) },
    component_end: |code, position| unsafe { c::lethmuok_component_end(code.as_ptr(), code.len(), position) },
    #[cfg(not(without_component_turns))]
    component_turns: |code, position| unsafe { c::lethmuok_component_turns(code.as_ptr(), code.len(), position) },
    #[cfg(without_component_turns)]
    component_turns: |_, _| panic!("this library has no component_turns"),
    #[cfg(not(without_table_count))]
    table_count: |code| unsafe { c::lethmuok_table_count(code.as_ptr(), code.len()) },
    #[cfg(without_table_count)]
    table_count: |_| panic!("this library has no table_count"),
};

/// What an entry writes into a buffer of so many bytes, or its reply.
pub fn written_in(room: usize, entry: impl FnOnce(&mut [u8]) -> i64) -> Result<Vec<u8>, i64> {
    let mut out = vec![0; room];
    let reply = entry(&mut out);
    if reply < 0 {
        return Err(reply);
    }
    out.truncate(reply as usize);
    Ok(out)
}

/// What an entry writes into a buffer that holds every code, or its reply.
pub fn written(entry: impl FnOnce(&mut [u8]) -> i64) -> Result<Vec<u8>, i64> {
    written_in(EVERY_CODE, entry)
}

/// The digraph6 line of a code, or the reply.
pub fn line_of(side: &Side, code: &[u8]) -> Result<Vec<u8>, i64> {
    written_in(EVERY_LINE, |out| (side.digraph6_of_code)(code, out))
}

/// The code of a map, which must be one, by the reference implementation.
pub fn code_of(table: &[u8]) -> Vec<u8> {
    written(|out| reference::code_of_map(table, out)).expect("a table")
}
