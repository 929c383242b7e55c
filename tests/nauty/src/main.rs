//! digraph6 lines between the engine, through its static library, and nauty's own programs: amtog writes lines from adjacency matrices, showg prints the arcs of
//! lines, ranlabg renames their points at random, and labelg gives canonical forms, which are equal exactly where digraphs are isomorphic.
//!
//! It is given what stands in front of the names of these programs, and a file through which they get what they read. Every comparison is made once more with an arc
//! moved in one line, and has to find it. The maps are the same in every run.

use sides::lines::line;
use sides::maps::{shuffled, KINDS, PERIODIC};
use sides::random::Random;
use sides::{line_of, written, ENGINE};
use std::collections::{HashMap, HashSet};
use std::process::{Command, ExitCode};

/// A program that takes longer is ended, and so is this one.
const LIMIT_SECONDS: &str = "40";

/// digraph6 for matrices, without a warning where a point goes to itself; lists of arcs without line breaks; and a seed, so that every run is the same.
const AMTOG: [&str; 3] = ["-q", "-w", "-z"];
const SHOWG: [&str; 1] = ["-l0"];
const RANLABG: [&str; 2] = ["-q", "-S1"];

/// nauty's guide advises the invariant "adjacencies" (13) for digraphs. Without it, or at the first level alone, 100 random maps of 50 points take more than 5
/// seconds; with it at every level a random map of 200 points takes a few milliseconds. Of most other kinds the sparse form (-S) is the faster one.
const LABELG: [&str; 4] = ["-q", "-i13", "-I0:1000", "-S"];

/// Kinds of which labelg may take seconds for one map of 200 points, since it tries out parts that look alike one by one. It is given up to 60 points of them.
const SLOW: [&str; 3] = ["a cycle of each length", "binary tree", "small components"];

/// How many renamed copies of each line are read.
const COPIES: usize = 3;

/// Numbers of points. From 63 on the size takes four bytes.
const FEW: [usize; 17] = [1, 2, 3, 4, 5, 6, 7, 8, 10, 13, 16, 20, 25, 30, 40, 50, 60];
const MANY: [usize; 8] = [61, 62, 63, 64, 100, 150, 199, 200];

/// nauty's programs.
struct Programs {
    prefix: String,
    file: String,
}

impl Programs {
    /// What a program writes of a text.
    fn run(&self, name: &str, options: &[&str], text: &str) -> String {
        std::fs::write(&self.file, text).expect("a file for nauty");
        let program = format!("{}{name}", self.prefix);
        let run = Command::new("timeout").args([LIMIT_SECONDS, &program]).args(options).arg(&self.file).output().expect("timeout runs");
        assert!(run.status.success(), "{program} {options:?}: {}, {}", run.status, String::from_utf8_lossy(&run.stderr));
        String::from_utf8(run.stdout).expect("a text")
    }

    /// The lines that a program makes of lines.
    fn lines(&self, name: &str, options: &[&str], lines: &[String]) -> Vec<String> {
        self.run(name, options, &as_file(lines)).lines().map(String::from).collect()
    }

    /// So many copies of each line in turn with its points renamed by ranlabg. Few may be as they were, as those of maps of one point are.
    fn renamed(&self, lines: &[String], copies: usize) -> Vec<String> {
        let renamed = self.lines("ranlabg", &[&RANLABG[..], &[&format!("-m{copies}")]].concat(), lines);
        let kept = (0..).zip(&renamed).filter(|&(i, line): &(usize, _)| lines.get(i / copies) == Some(line)).count();
        assert!(2 * kept < renamed.len(), "ranlabg has kept {kept} lines of {}", renamed.len());
        renamed
    }

    /// The lines that amtog writes for tables.
    fn written<'a>(&self, tables: impl Iterator<Item = &'a Vec<u8>>) -> Vec<String> {
        self.run("amtog", &AMTOG, &tables.map(matrix).collect::<String>()).lines().map(String::from).collect()
    }
}

fn as_file(lines: &[String]) -> String {
    lines.iter().flat_map(|line| [line, "\n"]).collect()
}

/// The adjacency matrix of a map as amtog reads it.
fn matrix(table: &Vec<u8>) -> String {
    let row = |&image: &u8| (0..table.len()).map(|y| if y == image as usize { '1' } else { '0' }).chain(['\n']).collect::<String>();
    format!("n={} m\n{}", table.len(), table.iter().map(row).collect::<String>())
}

/// A map, and what the engine writes for it: its code, the map of this code, and the line of that.
#[derive(Clone)]
struct Known {
    table: Vec<u8>,
    code: Vec<u8>,
    map: Vec<u8>,
    line: String,
}

fn text(line: Vec<u8>) -> String {
    String::from_utf8(line).expect("a text")
}

fn code_of(table: &[u8]) -> Vec<u8> {
    written(|out| (ENGINE.code_of_map)(table, out)).expect("a code")
}

impl Known {
    fn of(table: Vec<u8>) -> Known {
        let code = code_of(&table);
        let map = written(|out| (ENGINE.map_of_code)(&code, out)).expect("a map");
        let line = text(line_of(&ENGINE, &code).expect("a line"));
        Known { table, code, map, line }
    }

    /// The same, but with an arc moved in its line, so that the line has another code.
    fn with_fault(&self) -> Option<Known> {
        let n = self.map.len();
        let moved = |arc: usize| {
            let mut map = self.map.clone();
            map[arc / n] = (arc % n) as u8;
            map
        };
        let other = (0..n * n).map(moved).find(|map| code_of(map) != self.code)?;
        Some(Known { line: text(line(&other)), ..self.clone() })
    }
}

fn lines_of(known: &[Known]) -> Vec<String> {
    known.iter().map(|known| known.line.clone()).collect()
}

/// How many of these lines have not the codes that are expected, so many lines in turn having the same.
fn other_codes(lines: &[String], known: &[Known], copies: usize) -> usize {
    let found: Vec<_> = lines.iter().map(|line| written(|out| (ENGINE.code_of_digraph6)(line.as_bytes(), out))).collect();
    let expected: Vec<_> = known.iter().flat_map(|known| vec![Ok(known.code.clone()); copies]).collect();
    different(&found, &expected)
}

/// How many of these are not as expected; where there are too few or too many, all.
fn different<T: PartialEq>(found: &[T], expected: &[T]) -> usize {
    if found.len() == expected.len() {
        found.iter().zip(expected).filter(|(one, other)| one != other).count()
    } else {
        found.len().max(expected.len())
    }
}

/// amtog writes the same lines for the maps of codes, and lines with these codes for the others.
fn written_alike(programs: &Programs, known: &[Known]) -> usize {
    let own = programs.written(known.iter().map(|known| &known.map));
    let given = programs.written(known.iter().map(|known| &known.table));
    different(&own, &lines_of(known)) + other_codes(&given, known, 1)
}

/// showg prints the arcs of the maps.
fn shown_alike(programs: &Programs, known: &[Known]) -> usize {
    let shown = programs.run("showg", &SHOWG, &as_file(&lines_of(known)));
    let words = |graph: &str| graph.split_whitespace().collect::<Vec<_>>().join(" ");
    let found: Vec<String> = shown.split("Graph").skip(1).map(words).collect();
    let arcs = |map: &[u8]| map.iter().enumerate().map(|(x, y)| format!(" {x} : {y};")).collect::<String>();
    let expected: Vec<String> = (1..).zip(known).map(|(i, known)| format!("{i}, order {}.{}", known.map.len(), arcs(&known.map))).collect();
    different(&found, &expected)
}

/// Lines that ranlabg makes of these have the same codes.
fn renamed_alike(programs: &Programs, known: &[Known]) -> usize {
    other_codes(&programs.renamed(&lines_of(known), COPIES), known, COPIES)
}

/// How many forms are not equal exactly where the codes are.
fn inconsistent(known: &[Known], forms: &[String]) -> usize {
    let (mut form_of, mut code_of) = (HashMap::new(), HashMap::new());
    let mut broken = 0;
    for (Known { code, .. }, form) in known.iter().zip(forms) {
        let both = (*form_of.entry(code).or_insert(form), *code_of.entry(form).or_insert(code));
        broken += usize::from(both != (form, code));
    }
    broken
}

/// labelg finds the forms of the maps as they are given and of the lines, all with their points renamed: they have the codes of the maps, and are equal exactly where
/// these are.
fn labelled_alike(programs: &Programs, known: &[Known]) -> usize {
    let lines = [programs.written(known.iter().map(|known| &known.table)), lines_of(known)].concat();
    let forms = programs.lines("labelg", &LABELG, &programs.renamed(&lines, 1));
    let twice = [known, known].concat();
    other_codes(&forms, &twice, 1) + inconsistent(&twice, &forms)
}

/// A comparison with nauty: how many differences there are.
type Comparison = fn(&Programs, &[Known]) -> usize;

fn patterns(known: &[Known]) -> usize {
    known.iter().map(|known| &known.code).collect::<HashSet<_>>().len()
}

/// Makes a comparison, and makes it again with one fault among a few lines. Says whether all is well.
fn compared(programs: &Programs, name: &str, comparison: Comparison, known: &[Known]) -> bool {
    let differences = comparison(programs, known);
    let mut few = known[known.len() - 20..].to_vec();
    let (place, faulty) = few.iter().enumerate().find_map(|(place, known)| Some((place, known.with_fault()?))).expect("a map with another beside it");
    few[place] = faulty;
    let found = comparison(programs, &few);
    println!("{name}: {} maps of {} patterns, {differences} differences; {found} with an arc moved in one line", known.len(), patterns(known));
    differences == 0 && found > 0
}

/// No point, and maps of every kind for each number of points, each once more with other names, and with one arc moved and then another: these are isomorphic at
/// times, and nearly so else.
fn maps(sizes: &[usize], kept: impl Fn(&str) -> bool) -> Vec<Known> {
    let (random, mut tables) = (&mut Random::new(8), vec![Vec::new()]);
    for (_, kind) in KINDS.into_iter().chain(PERIODIC).filter(|(name, _)| kept(name)) {
        for &n in sizes {
            let mut table = kind(n, random);
            tables.extend([table.clone(), shuffled(&table, random)]);
            for _ in 0..2 {
                table[random.below(n)] = random.below(n) as u8;
                tables.push(table.clone());
            }
        }
    }
    tables.into_iter().map(Known::of).collect()
}

/// Every map of up to so many points.
fn small_maps(most: usize) -> Vec<Known> {
    let every_table = |n: usize| (0..n.pow(n as u32)).map(move |number| (0..n).map(|x| (number / n.pow(x as u32) % n) as u8).collect());
    (0..=most).flat_map(every_table).map(Known::of).collect()
}

fn main() -> ExitCode {
    let mut words = std::env::args().skip(1);
    let programs = Programs { prefix: words.next().expect("what stands in front of a name"), file: words.next().expect("a file") };
    let (all, small) = (maps(&[&FEW[..], &MANY].concat(), |_| true), small_maps(6));
    let labelled = [maps(&MANY, |kind| !SLOW.contains(&kind)), maps(&FEW, |_| true)].concat();
    let good = [
        // OEIS A001372
        patterns(&small) == [1, 1, 3, 7, 19, 47, 130].iter().sum(),
        compared(&programs, "lines that amtog writes", written_alike, &all),
        compared(&programs, "arcs that showg prints", shown_alike, &all),
        compared(&programs, "codes of lines that ranlabg renames", renamed_alike, &all),
        compared(&programs, "forms that labelg finds", labelled_alike, &labelled),
        compared(&programs, "forms that labelg finds, every map of up to 6 points", labelled_alike, &small),
    ];
    if good.contains(&false) {
        return ExitCode::FAILURE;
    }
    ExitCode::SUCCESS
}
