//! The answers of both sides to one input, taken apart. What is not in the form that it must have ends the run.

use std::fs::File;
use std::io::{BufRead, BufReader, Lines};

#[derive(PartialEq)]
pub enum Ours {
    Read { consumed: usize, tail: usize, fields: String, again: String },
    /// `had` is what the line says behind the value, if it says anything there.
    Refused { number: u64, place: usize, value: u64, had: Option<usize> },
}

pub enum Crates<'a> {
    Read { consumed: usize, written: &'a str, who: &'a str, fields: &'a str },
    Refused { who: &'a str, name: &'a str, offset: usize, value: u64, had: usize },
}

pub fn lines(path: &str) -> Lines<BufReader<File>> {
    let file = File::open(path).unwrap_or_else(|e| panic!("{path}: {e}"));
    BufReader::with_capacity(1 << 20, file).lines()
}

/// A number as our program and `reading` print it, and in no other way.
fn number<T: std::str::FromStr + ToString>(word: &str) -> T {
    let value = word.parse::<T>().ok().filter(|value| value.to_string() == word);
    value.unwrap_or_else(|| panic!("no number: {word}"))
}

/// Our program's answers: a first line, and behind a record that was read its fields and `again`.
pub struct OurAnswers(pub Lines<BufReader<File>>);

impl OurAnswers {
    fn line(&mut self) -> String {
        self.0.next().expect("an answer of ours is missing").expect("text")
    }

    pub fn next(&mut self, kind: &str) -> (Ours, String) {
        let first = self.line();
        let words: Vec<&str> = first.split(' ').collect();
        let ours = match words[..] {
            ["kind", k, "refused", n, "at", place, "value", value] if k == kind => {
                Ours::Refused { number: number(n), place: number(place), value: number(value), had: None }
            }
            ["kind", k, "refused", n, "at", place, "value", value, "had", had] if k == kind => {
                Ours::Refused { number: number(n), place: number(place), value: number(value), had: Some(number(had)) }
            }
            ["kind", k, "read", consumed, "tail", tail] if k == kind => self.read(number(consumed), number(tail)),
            _ => panic!("ours, kind {kind}: {first}"),
        };
        (ours, first)
    }

    fn read(&mut self, consumed: usize, tail: usize) -> Ours {
        let mut fields = String::new();
        loop {
            let line = self.line();
            if let Some(again) = line.strip_prefix("again ") {
                return Ours::Read { consumed, tail, fields, again: again.to_string() };
            }
            fields.push('|');
            fields.push_str(&line);
        }
    }
}

/// The crate's answer, and in which of its own calls it disagrees with itself.
pub fn crates_answer(line: &str) -> (Crates<'_>, Vec<&str>) {
    let (front, fields) = line.find('|').map_or((line, ""), |at| line.split_at(at));
    let words: Vec<&str> = front.split(' ').collect();
    let (answer, notes) = match words[..] {
        ["ok", consumed, written, who, ref notes @ ..] => (Crates::Read { consumed: number(consumed), written, who, fields }, notes),
        ["err", who, name, offset, value, had, ref notes @ ..] => {
            (Crates::Refused { who, name, offset: number(offset), value: number(value), had: number(had) }, notes)
        }
        _ => panic!("the crate: {line}"),
    };
    (answer, notes.to_vec())
}
