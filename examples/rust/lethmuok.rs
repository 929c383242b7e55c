//! The engine for Rust programs: safe functions over the static library. A buffer is a slice, and a reply an enum.

/// Makes the enum of causes, and the cause of a number, from one line for each.
macro_rules! causes {
    ($($name:ident = $number:literal, $meaning:literal;)*) => {
        /// Why an input was refused.
        #[derive(Clone, Copy, Debug, PartialEq, Eq)]
        pub enum Refusal {
            $(#[doc = $meaning] $name = $number,)*
        }

        fn refusal(number: i64) -> Option<Refusal> {
            match number {
                $($number => Some(Refusal::$name),)*
                _ => None,
            }
        }
    };
}

causes! {
    Count = 1, "a count of points, or the length of a table, is above 200";
    Image = 2, "a byte of a table is no point";
    Truncated = 3, "the bytes end before the code does";
    NumberForm = 4, "a number of two bytes has a wrong second byte";
    Sizes = 5, "the sizes in a code do not fit each other";
    NotCanonical = 6, "the sizes fit, but this is not the code of the pattern";
    Trailing = 7, "there are numbers after the code";
    Room = 8, "the output is shorter than the result; for the greatest period, than 1,000 bytes";
    Position = 9, "the code has no component at that position";
    Wanted = 10, "more than 1,000 codes are wanted";
    TooLarge = 11, "the result has more than 200 points";
    Uncounted = 12, "the code has more than 15 points, and its tables are not counted";
    TooManyPoints = 13, "a count of points, or the length of a table, is above 120, and no period is told";
    LineForm = 14, "the bytes are no digraph6 line in the required form";
    OutDegree = 15, "a row of a digraph6 line has not exactly one mark, so it is no map";
}

/// What every function answers but `predecessor`, `page`, `period`, `greatest_period`, `component` and `table_count`. A result fills the first places of its
/// buffer; with another reply than a number all buffers are kept.
#[derive(Clone, Copy, Debug, PartialEq, Eq)]
pub enum Reply {
    /// the length of what was written, or the number that was asked for
    Number(usize),
    /// no code follows in the list
    Last,
    /// there is no isomorphism
    Lacking,
    Refused(Refusal),
}

/// What `predecessor` answers.
#[derive(Clone, Copy, Debug, PartialEq, Eq)]
pub enum Predecessor {
    /// the length of the code that was written
    Length(usize),
    /// no code comes before in the list
    First,
    Refused(Refusal),
}

/// What `page` answers where it is not refused: how many codes it wrote, and how many bytes they take together.
#[derive(Clone, Copy, Debug, PartialEq, Eq)]
pub struct Page {
    pub codes: usize,
    pub bytes: usize,
}

/// What `greatest_period` answers where it is not refused: the length of the code that it wrote, and its period.
#[derive(Clone, Copy, Debug, PartialEq, Eq)]
pub struct GreatestPeriod {
    pub length: usize,
    pub period: u64,
}

/// 1,000 bytes hold every code, 6,672 every digraph6 line, 19 entries every census. No more than 1,000 codes may be wanted, which `MAX_WANTED * MAX_CODE` bytes
/// hold. Tables are counted of codes of at most 15 points, and a period, that of a map or the greatest, is told of at most 120.
pub const MAX_CODE: usize = 1000;
pub const MAX_LINE: usize = 6672;
pub const MAX_ENTRIES: usize = 19;
pub const MAX_WANTED: usize = 1000;
pub const MAX_COUNTED: usize = 15;
pub const MAX_PERIOD_POINTS: usize = 120;

mod c {
    #[repr(C)]
    pub struct PageReply {
        pub codes: i64,
        pub bytes: i64,
    }

    #[repr(C)]
    pub struct GreatestReply {
        pub length: i64,
        pub period: i64,
    }

    extern "C" {
        pub fn lethmuok_accept(code: *const u8, code_len: usize) -> i64;
        pub fn lethmuok_first(n: usize, out: *mut u8, out_len: usize) -> i64;
        pub fn lethmuok_successor(code: *const u8, code_len: usize, out: *mut u8, out_len: usize) -> i64;
        pub fn lethmuok_predecessor(code: *const u8, code_len: usize, out: *mut u8, out_len: usize) -> i64;
        pub fn lethmuok_page(code: *const u8, code_len: usize, wanted: usize, out: *mut u8, out_len: usize) -> PageReply;
        pub fn lethmuok_code_of_map(table: *const u8, n: usize, out: *mut u8, out_len: usize) -> i64;
        pub fn lethmuok_map_of_code(code: *const u8, code_len: usize, out: *mut u8, out_len: usize) -> i64;
        pub fn lethmuok_digraph6_of_code(code: *const u8, code_len: usize, out: *mut u8, out_len: usize) -> i64;
        pub fn lethmuok_code_of_digraph6(line: *const u8, line_len: usize, out: *mut u8, out_len: usize) -> i64;
        pub fn lethmuok_sum(first: *const u8, first_len: usize, second: *const u8, second_len: usize, out: *mut u8, out_len: usize) -> i64;
        pub fn lethmuok_product(first: *const u8, first_len: usize, second: *const u8, second_len: usize, out: *mut u8, out_len: usize) -> i64;
        pub fn lethmuok_isomorphism(f: *const u8, f_len: usize, g: *const u8, g_len: usize, out: *mut u8, out_len: usize) -> i64;
        pub fn lethmuok_census(table: *const u8, n: usize, lengths: *mut u8, lengths_len: usize, counts: *mut u8, counts_len: usize) -> i64;
        pub fn lethmuok_height(table: *const u8, n: usize) -> i64;
        pub fn lethmuok_period(table: *const u8, n: usize) -> i64;
        pub fn lethmuok_greatest_period(n: usize, out: *mut u8, out_len: usize) -> GreatestReply;
        pub fn lethmuok_component_start(code: *const u8, code_len: usize, position: usize) -> i64;
        pub fn lethmuok_component_end(code: *const u8, code_len: usize, position: usize) -> i64;
        pub fn lethmuok_component_turns(code: *const u8, code_len: usize, position: usize) -> i64;
        pub fn lethmuok_table_count(code: *const u8, code_len: usize) -> i64;
    }
}

impl From<i64> for Reply {
    fn from(number: i64) -> Reply {
        match number {
            -100 => Reply::Last,
            -101 => Reply::Lacking,
            length if length >= 0 => Reply::Number(length as usize),
            other => Reply::Refused(refusal(-other).expect("the library has no other answers")),
        }
    }
}

/// A number that may need more than 32 bits, or a refusal.
fn quantity(number: i64) -> Result<u64, Refusal> {
    match number {
        number if number >= 0 => Ok(number as u64),
        other => Err(refusal(-other).expect("the library has no other answers")),
    }
}

// Every call below is sound: the pointer and the count of a slice go together, a slice's pointer is not null, and a `&mut` overlaps nothing.

/// Whether these bytes are a code: its number of points.
pub fn accept(code: &[u8]) -> Reply {
    unsafe { c::lethmuok_accept(code.as_ptr(), code.len()) }.into()
}

/// Writes the first code in the list of n points.
pub fn first(n: usize, out: &mut [u8]) -> Reply {
    unsafe { c::lethmuok_first(n, out.as_mut_ptr(), out.len()) }.into()
}

/// Writes the code that follows in the list, or says `Last`.
pub fn successor(code: &[u8], out: &mut [u8]) -> Reply {
    unsafe { c::lethmuok_successor(code.as_ptr(), code.len(), out.as_mut_ptr(), out.len()) }.into()
}

/// Writes the code that comes before in the list, or says `First`.
pub fn predecessor(code: &[u8], out: &mut [u8]) -> Predecessor {
    match unsafe { c::lethmuok_predecessor(code.as_ptr(), code.len(), out.as_mut_ptr(), out.len()) } {
        -102 => Predecessor::First,
        length if length >= 0 => Predecessor::Length(length as usize),
        other => Predecessor::Refused(refusal(-other).expect("the library has no other answers")),
    }
}

/// Writes the codes that follow in the list, one after another with nothing between them, as many as are wanted, or fewer where the list ends.
pub fn page(code: &[u8], wanted: usize, out: &mut [u8]) -> Result<Page, Refusal> {
    let reply = unsafe { c::lethmuok_page(code.as_ptr(), code.len(), wanted, out.as_mut_ptr(), out.len()) };
    match (reply.codes.into(), reply.bytes.into()) {
        (Reply::Number(codes), Reply::Number(bytes)) => Ok(Page { codes, bytes }),
        (Reply::Refused(cause), _) => Err(cause),
        _ => unreachable!("the library has no other answers"),
    }
}

/// Writes the code of a map.
pub fn code_of_map(table: &[u8], out: &mut [u8]) -> Reply {
    unsafe { c::lethmuok_code_of_map(table.as_ptr(), table.len(), out.as_mut_ptr(), out.len()) }.into()
}

/// Writes a map that has this code: its number of points.
pub fn map_of_code(code: &[u8], out: &mut [u8]) -> Reply {
    unsafe { c::lethmuok_map_of_code(code.as_ptr(), code.len(), out.as_mut_ptr(), out.len()) }.into()
}

/// Writes the digraph6 line of the map that `map_of_code` writes. There is no header and no newline.
pub fn digraph6_of_code(code: &[u8], out: &mut [u8]) -> Reply {
    unsafe { c::lethmuok_digraph6_of_code(code.as_ptr(), code.len(), out.as_mut_ptr(), out.len()) }.into()
}

/// Writes the code of the map that a digraph6 line is of. The line has no header and no newline, and its size has the shortest form.
pub fn code_of_digraph6(line: &[u8], out: &mut [u8]) -> Reply {
    unsafe { c::lethmuok_code_of_digraph6(line.as_ptr(), line.len(), out.as_mut_ptr(), out.len()) }.into()
}

/// Writes the code of two systems side by side.
pub fn sum_of_codes(first: &[u8], second: &[u8], out: &mut [u8]) -> Reply {
    unsafe { c::lethmuok_sum(first.as_ptr(), first.len(), second.as_ptr(), second.len(), out.as_mut_ptr(), out.len()) }.into()
}

/// Writes the code of the system whose points are pairs, each half moving by the map of its own code.
pub fn product_of_codes(first: &[u8], second: &[u8], out: &mut [u8]) -> Reply {
    unsafe { c::lethmuok_product(first.as_ptr(), first.len(), second.as_ptr(), second.len(), out.as_mut_ptr(), out.len()) }.into()
}

/// Writes an isomorphism from the map f to the map g, or says `Lacking`.
pub fn isomorphism(f: &[u8], g: &[u8], out: &mut [u8]) -> Reply {
    unsafe { c::lethmuok_isomorphism(f.as_ptr(), f.len(), g.as_ptr(), g.len(), out.as_mut_ptr(), out.len()) }.into()
}

/// Writes the cycle lengths that occur into `lengths`, rising, and the number of cycles of each beside it into `counts`: how many lengths occur.
pub fn census(table: &[u8], lengths: &mut [u8], counts: &mut [u8]) -> Reply {
    unsafe {
        c::lethmuok_census(table.as_ptr(), table.len(), lengths.as_mut_ptr(), lengths.len(), counts.as_mut_ptr(), counts.len())
    }
    .into()
}

/// The greatest distance of a point of a map from its cycle.
pub fn height(table: &[u8]) -> Reply {
    unsafe { c::lethmuok_height(table.as_ptr(), table.len()) }.into()
}

/// The period of a map, which may have `MAX_PERIOD_POINTS` points: the least number of steps, at least 1, that bring each point back once every point is on a cycle. That
/// is the least common multiple of the cycle lengths, and 1 for no points.
pub fn period(table: &[u8]) -> Result<u64, Refusal> {
    quantity(unsafe { c::lethmuok_period(table.as_ptr(), table.len()) })
}

/// Writes a code of n points with the greatest period, n at most `MAX_PERIOD_POINTS`, and tells that period: no map of n points has a greater one. Fewer than
/// `MAX_CODE` bytes of room are refused, however short the code is.
pub fn greatest_period(n: usize, out: &mut [u8]) -> Result<GreatestPeriod, Refusal> {
    let reply = unsafe { c::lethmuok_greatest_period(n, out.as_mut_ptr(), out.len()) };
    Ok(GreatestPeriod { length: quantity(reply.length)? as usize, period: quantity(reply.period)? })
}

/// The bytes of the component at a position, counted from 0, as a part of the code.
pub fn component(code: &[u8], position: usize) -> Result<&[u8], Refusal> {
    let start = unsafe { c::lethmuok_component_start(code.as_ptr(), code.len(), position) }.into();
    let end = unsafe { c::lethmuok_component_end(code.as_ptr(), code.len(), position) }.into();
    match (start, end) {
        (Reply::Number(start), Reply::Number(end)) => Ok(&code[start..end]),
        (Reply::Refused(cause), _) => Err(cause),
        _ => unreachable!("the library has no other answers"),
    }
}

/// How many of its rotations equal the component at a position: from 1 to the number of its trees along the cycle.
pub fn component_turns(code: &[u8], position: usize) -> Reply {
    unsafe { c::lethmuok_component_turns(code.as_ptr(), code.len(), position) }.into()
}

/// How many tables of as many points have this code, which may have `MAX_COUNTED` points: over all codes of n points these numbers make n to the power n.
pub fn table_count(code: &[u8]) -> Result<u64, Refusal> {
    quantity(unsafe { c::lethmuok_table_count(code.as_ptr(), code.len()) })
}
