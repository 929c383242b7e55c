//! graphs: prints the digraph6 lines of some codes and the codes of some lines; of long lines only how they begin, and whether the code comes back.

#[allow(dead_code)]
mod lethmuok;

use lethmuok::{Reply, MAX_LINE};

/// What a call wrote, or the word for its refusal.
fn written(call: impl FnOnce(&mut [u8]) -> Reply) -> Result<Vec<u8>, String> {
    let mut out = [0; MAX_LINE];
    match call(&mut out) {
        Reply::Number(length) => Ok(out[..length].to_vec()),
        Reply::Refused(cause) => Err(format!("refused {}", cause as u8)),
        Reply::Last | Reply::Lacking => unreachable!("these entries say no such thing"),
    }
}

fn line_of(code: &[u8]) -> Result<Vec<u8>, String> {
    written(|out| lethmuok::digraph6_of_code(code, out))
}

fn code_of(line: &[u8]) -> Result<Vec<u8>, String> {
    written(|out| lethmuok::code_of_digraph6(line, out))
}

fn words(code: &[u8]) -> String {
    code.iter().map(u8::to_string).collect::<Vec<_>>().join(" ")
}

fn text(line: &[u8]) -> String {
    String::from_utf8_lossy(line).replace('\n', "\\n")
}

fn print_line(code: &[u8]) {
    println!("code {}: {}", words(code), line_of(code).map_or_else(|word| word, |line| text(&line)));
}

fn print_code(line: &[u8]) {
    println!("line {}: {}", text(line), code_of(line).map_or_else(|word| word, |code| words(&code)));
}

fn print_cycle(n: usize) {
    let table: Vec<u8> = (0..n).map(|x| ((x + 1) % n) as u8).collect();
    let code = written(|out| lethmuok::code_of_map(&table, out)).expect("a table");
    let line = line_of(&code).expect("a code");
    let back = if code_of(&line) == Ok(code) { "the same code" } else { "ANOTHER code" };
    println!("cycle of {n} points: {} bytes, {} and on, read in: {back}", line.len(), text(&line[..5]));
}

fn main() {
    print_line(&[0, 0]);
    print_line(&[1, 1, 1, 1]);
    print_line(&[2, 1, 2, 1, 1]);
    print_line(&[2, 1, 1, 2, 1]);
    print_line(&[3, 1, 3, 1, 1, 1]);
    print_line(&[3, 1, 1, 3, 2, 1]);
    print_line(&[8, 3, 2, 1, 1, 1, 3, 2, 1, 2, 1, 2, 1]);
    print_line(&[3, 1, 2, 2, 1, 1]);
    // a cycle of 3 points, and with other names; a graph of 8 points
    print_code(b"&BP_");
    print_code(b"&BKO");
    print_code(b"&GOG?_G@?A@?G");
    // no sign in front, or a header; no size, 201 points, and a longer form than needed
    print_code(b"");
    print_code(b"BP_");
    print_code(b">>digraph6<<&BP_");
    print_code(b"&");
    print_code(b"&~?BH");
    print_code(b"&~??BP_");
    // a byte too few, a newline, a padding bit; a row without a mark, and one with two
    print_code(b"&BP");
    print_code(b"&BP_\n");
    print_code(b"&BP`");
    print_code(b"&B?_");
    print_code(b"&Bp_");
    print_cycle(62);
    print_cycle(63);
    print_cycle(200);
}
