//! mark SHEET: marks the answers of a student, and fails where a mark is not the one that the sheet names. ../README.md says what a sheet is.

#[allow(dead_code)]
mod lethmuok;

use lethmuok::{Refusal, Reply, MAX_CODE};
use std::process::ExitCode;

/// A line that is not of the form that a sheet has.
struct Unreadable;

enum Mark {
    Right,
    Wrong,
    Refused(Refusal),
}

impl Mark {
    fn words(&self) -> String {
        match self {
            Mark::Right => "right".into(),
            Mark::Wrong => "wrong".into(),
            Mark::Refused(cause) => format!("refused {}", *cause as u8),
        }
    }
}

fn right_if(test: bool) -> Mark {
    if test {
        Mark::Right
    } else {
        Mark::Wrong
    }
}

fn words_in(text: &str) -> Vec<&str> {
    text.split(' ').filter(|word| !word.is_empty()).collect()
}

/// A number of one to three digits, without sign or leading zeros.
fn number_in(word: &str) -> Result<u16, Unreadable> {
    let digits = word.bytes().all(|b| b.is_ascii_digit()) && (1..=3).contains(&word.len()) && (word == "0" || !word.starts_with('0'));
    word.parse().ok().filter(|_| digits).ok_or(Unreadable)
}

fn bytes_in(text: &str) -> Result<Vec<u8>, Unreadable> {
    let words = words_in(text);
    if words.len() > MAX_CODE {
        return Err(Unreadable);
    }
    words.into_iter().map(|word| u8::try_from(number_in(word)?).map_err(|_| Unreadable)).collect()
}

/// The codes that the student says follow, and None for the end of the list.
fn answers_in(text: &str) -> Result<Vec<Option<Vec<u8>>>, Unreadable> {
    text.split(',').map(|part| if part.trim_matches(' ') == "end" { Ok(None) } else { bytes_in(part).map(Some) }).collect()
}

fn mark_code(table: &[u8], answer: &[u8]) -> Mark {
    if let Reply::Refused(cause) = lethmuok::accept(answer) {
        return Mark::Refused(cause);
    }
    let mut code = [0; MAX_CODE];
    match lethmuok::code_of_map(table, &mut code) {
        Reply::Number(length) => right_if(&code[..length] == answer),
        Reply::Refused(cause) => Mark::Refused(cause),
        Reply::Last | Reply::Lacking => Mark::Wrong,
    }
}

fn mark_map(code: &[u8], answer: &[u8]) -> Mark {
    let mut map = [0; MAX_CODE];
    let mut renaming = [0; MAX_CODE];
    let reply = match lethmuok::map_of_code(code, &mut map) {
        Reply::Number(n) => lethmuok::isomorphism(answer, &map[..n], &mut renaming),
        other => other,
    };
    match reply {
        Reply::Refused(cause) => Mark::Refused(cause),
        found => right_if(matches!(found, Reply::Number(_))),
    }
}

fn mark_next(mut code: Vec<u8>, answers: &[Option<Vec<u8>>]) -> Mark {
    for (i, answer) in answers.iter().enumerate() {
        let mut next = [0; MAX_CODE];
        match lethmuok::successor(&code, &mut next) {
            Reply::Number(length) if answer.as_deref() == Some(&next[..length]) => code = next[..length].to_vec(),
            Reply::Last => return right_if(answer.is_none() && i + 1 == answers.len()),
            Reply::Refused(cause) => return Mark::Refused(cause),
            Reply::Number(_) | Reply::Lacking => return Mark::Wrong,
        }
    }
    Mark::Right
}

/// The mark that a sheet names, with one space between its words.
fn named_mark(text: &str) -> Result<String, Unreadable> {
    match words_in(text)[..] {
        [word @ ("right" | "wrong")] => Ok(word.into()),
        ["refused", cause] if (1..100).contains(&number_in(cause)?) => Ok(format!("refused {cause}")),
        _ => Err(Unreadable),
    }
}

/// Prints the mark of one line; answers whether it is the expected one.
fn mark_line(line: &[u8]) -> Result<bool, Unreadable> {
    let parts: Vec<&str> = std::str::from_utf8(line).map_err(|_| Unreadable)?.split(':').collect();
    let [question, given, answer, named] = parts[..] else {
        return Err(Unreadable);
    };
    let expected = named_mark(named)?;
    let mark = match question {
        "code" => mark_code(&bytes_in(given)?, &bytes_in(answer)?),
        "map" => mark_map(&bytes_in(given)?, &bytes_in(answer)?),
        "next" => mark_next(bytes_in(given)?, &answers_in(answer)?),
        _ => return Err(Unreadable),
    };
    let found = mark.words();
    println!("{question}:{given}:{answer}: {found}{}", if found == expected { "" } else { " (NOT as expected)" });
    Ok(found == expected)
}

fn main() -> ExitCode {
    let Some(name) = std::env::args_os().nth(1) else {
        eprintln!("usage: mark SHEET");
        return ExitCode::from(2);
    };
    let Ok(sheet) = std::fs::read(name) else {
        eprintln!("mark: the sheet cannot be read");
        return ExitCode::from(2);
    };
    let (mut marked, mut failed, mut unreadable) = (0, 0, 0);
    for (i, line) in sheet.split(|byte| *byte == b'\n').enumerate() {
        if line.is_empty() || line.starts_with(b"#") {
            continue;
        }
        match mark_line(line) {
            Ok(as_expected) => {
                marked += 1;
                failed += usize::from(!as_expected);
            }
            Err(Unreadable) => {
                println!("line {}: unreadable", i + 1);
                unreadable += 1;
            }
        }
    }
    println!("{marked} answers marked, {failed} marks not as expected, {unreadable} lines unreadable");
    if marked == 0 || failed != 0 || unreadable != 0 {
        return ExitCode::FAILURE;
    }
    ExitCode::SUCCESS
}
