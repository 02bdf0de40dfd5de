//! compare walk FILE...                              a JSON line for each file, as the oracle prints it, by our readers
//! compare accepted FILE...                          the names of those that our check accepts
//! compare run ORACLE FILE...                        both sides, file by file
//! compare lines ORACLE TABLE                        a file for each line of docs/DIFFERENCES.md, and what each side says of it (made.py)
//! compare mutants ORACLE SEED COUNT FOLDER FILE...  both sides on COUNT accepted mutants of the files, one byte changed in each
//!
//! A file that our check refuses is not compared. The last lines say how many files and items were compared, which lines of docs/DIFFERENCES.md were
//! met, and how many answers are unexplained; where there are any, the exit status is 1.
mod dralovika;
mod json;
mod raw;
mod walk;

use std::io::Write;
use std::path::{Path, PathBuf};
use std::process::Command;
use walk::{walk, Tally};

#[derive(Default)]
struct Report {
    refused: u64,
    equal: u64,
    by_line: u64,
    unexplained: u64,
    tally: Tally,
    answers: std::collections::BTreeMap<&'static str, u64>,
}

/// One JSON line for each file. Texts with surrogates become what the stand-in for mutf8 makes of them, on both sides: they are not compared.
fn oracle(program: &str, files: &[PathBuf]) -> Vec<String> {
    let out = Command::new(program).env("MUTF8_STANDIN", "lossy").args(files).output().expect("the oracle runs");
    String::from_utf8(out.stdout).expect("the oracle prints UTF-8").lines().map(String::from).collect()
}

/// Which of the oracle's answers a line is.
fn answer_of(line: &str) -> &'static str {
    ["ok", "error", "panic", "abort", "unmodelled"].into_iter().find(|a| line.starts_with(&format!("{{\"{a}\":"))).unwrap_or("nothing")
}

impl Report {
    /// Ours, predicted, beside the oracle's.
    fn take(&mut self, name: &str, ours: Result<walk::Walked, String>, theirs: &str) {
        *self.answers.entry(answer_of(theirs)).or_default() += 1;
        match ours {
            Err(fault) => {
                self.unexplained += 1;
                println!("{name}: {fault}");
            }
            Ok(w) => {
                self.tally.add(&w.tally);
                if w.line != theirs {
                    self.unexplained += 1;
                    let at = w.line.bytes().zip(theirs.bytes()).take_while(|(a, b)| a == b).count();
                    let from = |t: &str| String::from_utf8_lossy(&t.as_bytes()[at.saturating_sub(60).min(t.len())..(at + 60).min(t.len())]).into_owned();
                    println!("{name}: differs at {at}\n  predicted {}\n  the Rust  {}", from(&w.line), from(theirs));
                } else if w.tally.lines.is_empty() {
                    self.equal += 1;
                } else {
                    self.by_line += 1;
                }
            }
        }
    }

    fn print(&self) -> bool {
        println!("not compared, refused by our check: {}", self.refused);
        println!("compared: {}", self.equal + self.by_line + self.unexplained);
        println!("  equal in every answer: {}", self.equal);
        println!("  equal but for lines of docs/DIFFERENCES.md, as predicted: {}", self.by_line);
        println!("  unexplained: {}", self.unexplained);
        let join = |l: Vec<String>| l.join(", ");
        println!("the Rust's answers: {}", join(self.answers.iter().map(|(k, n)| format!("{k} {n}")).collect()));
        println!("lines met, with how many answers: {}", join(self.tally.lines.iter().map(|(k, n)| format!("{k}: {n}")).collect()));
        println!("items: {}", join(self.tally.kinds.iter().map(|(k, n)| format!("{k} {n}")).collect()));
        self.unexplained == 0
    }
}

fn run(program: &str, files: &[String]) -> bool {
    let mut report = Report::default();
    for group in files.chunks(64) {
        let mut asked = vec![];
        for name in group {
            match walk(&std::fs::read(name).expect(name)) {
                None => report.refused += 1,
                Some(w) => asked.push((PathBuf::from(name), w)),
            }
        }
        report.both(program, asked);
    }
    report.print()
}

impl Report {
    fn both(&mut self, program: &str, asked: Vec<(PathBuf, Result<walk::Walked, String>)>) {
        if asked.is_empty() {
            return;
        }
        let names: Vec<PathBuf> = asked.iter().map(|a| a.0.clone()).collect();
        let theirs = oracle(program, &names);
        assert_eq!(theirs.len(), asked.len(), "the oracle answers each file");
        for ((name, ours), line) in asked.into_iter().zip(theirs) {
            self.take(&name.to_string_lossy(), ours, &line);
        }
    }
}

/// Each row: the line's number, a name, the file, what we say, a part of what the Rust says.
fn lines(program: &str, table: &str) -> bool {
    let text = std::fs::read_to_string(table).expect(table);
    let mut wrong = 0;
    for row in text.lines() {
        let [line, name, file, ours, theirs] = row.split('\t').collect::<Vec<_>>()[..] else { panic!("a row of five: {row}") };
        let bytes = std::fs::read(file).expect(file);
        let said = match (dralovika::File { bytes: &bytes }).dralovika_check() {
            dralovika::Answer::Refused(r) => format!("{} {}", r.number, r.place),
            _ => "accepted".to_string(),
        };
        let answer = oracle(program, &[PathBuf::from(file)]).concat();
        if said != ours || !answer.contains(theirs) {
            wrong += 1;
            println!("line {line}, {name}: ours {said}, not {ours}; or the Rust's: {}", &answer[..answer.len().min(300)]);
        }
    }
    println!("files for single lines: {}, of which other than said: {wrong}", text.lines().count());
    wrong == 0
}

/// A small generator, so that a seed says which mutants there are: xorshift64*.
struct Dice(u64);

impl Dice {
    fn below(&mut self, n: u64) -> u64 {
        self.0 ^= self.0 >> 12;
        self.0 ^= self.0 << 25;
        self.0 ^= self.0 >> 27;
        self.0.wrapping_mul(0x2545f4914f6cdd1d) % n
    }
}

/// Single bytes changed, at any place, to any other value; those that our check accepts, until there are enough.
fn mutants(program: &str, seed: u64, wanted: u64, folder: &Path, files: &[String]) -> bool {
    let sources: Vec<Vec<u8>> = files.iter().map(|f| std::fs::read(f).expect(f)).collect();
    let mut dice = Dice(seed);
    let mut report = Report::default();
    let mut compared = 0;
    while compared < wanted {
        let mut asked = vec![];
        while asked.len() < 256 && compared < wanted {
            let which = dice.below(sources.len() as u64) as usize;
            let mut bytes = sources[which].clone();
            let at = dice.below(bytes.len() as u64) as usize;
            bytes[at] ^= 1 + dice.below(255) as u8;
            match walk(&bytes) {
                None => report.refused += 1,
                Some(w) => {
                    let name = folder.join(format!("{}-{at}-{:02x}.dex", Path::new(&files[which]).file_stem().unwrap().to_string_lossy(), bytes[at]));
                    std::fs::write(&name, &bytes).expect("a mutant is written");
                    asked.push((name, w));
                    compared += 1;
                }
            }
        }
        let names: Vec<PathBuf> = asked.iter().map(|a| a.0.clone()).collect();
        let before = report.unexplained;
        report.both(program, asked);
        // mutants that differ stay in the folder
        if report.unexplained == before {
            names.iter().for_each(|n| drop(std::fs::remove_file(n)));
        }
    }
    report.print()
}

fn main() {
    let words: Vec<String> = std::env::args().skip(1).collect();
    let fine = match words.iter().map(|w| w.as_str()).collect::<Vec<_>>()[..] {
        ["walk", ..] => {
            for name in &words[1..] {
                let line = match walk(&std::fs::read(name).expect(name)) {
                    None => "refused".to_string(),
                    Some(Ok(w)) => w.line,
                    Some(Err(fault)) => format!("fault: {fault}"),
                };
                let _ = writeln!(std::io::stdout(), "{line}");
            }
            true
        }
        ["accepted", ..] => {
            for name in &words[1..] {
                if walk(&std::fs::read(name).expect(name)).is_some() {
                    println!("{name}");
                }
            }
            true
        }
        ["run", program, ..] => run(program, &words[2..]),
        ["lines", program, table] => lines(program, table),
        ["mutants", program, seed, wanted, folder, ..] => {
            mutants(program, seed.parse().expect("a seed"), wanted.parse().expect("a number"), Path::new(folder), &words[5..])
        }
        _ => {
            eprintln!("usage: compare walk FILE... | accepted FILE... | run ORACLE FILE... | lines ORACLE TABLE | mutants ORACLE SEED COUNT FOLDER FILE...");
            false
        }
    };
    std::process::exit(if fine { 0 } else { 1 });
}
