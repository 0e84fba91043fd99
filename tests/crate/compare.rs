//! compare listed|same INPUTS CRATES OURS: the answers of the crate's readers and of our program `deposits`, side by side.
//!
//! Prints how many were alike, by kind and by sort of input, and each difference with its shortest input. Ends with 0 only if there was no
//! difference but those of listed.rs; with `same`, only if there was none at all.

mod answers;
mod forms;
mod listed;
mod tables;
mod words;

use answers::{Crates, OurAnswers, Ours, crates_answer, lines};
use listed::class;
use std::collections::HashSet;
use std::hash::{DefaultHasher, Hash, Hasher};
use tables::{Difference, Tables};
use words::{number_of, unhex};

/// Kinds whose arm has one field at most in the crate: there the crate's offsets are our places (docs/DIFFERENCES.md, 2.4).
const ONE_PLACE: [u32; 6] = [1, 3, 5, 6, 7, 8];

const SHORT: u64 = 1;

/// What of two records that were read is not alike.
fn unlike_records(input: &str, ours: &Ours, crates: &Crates) -> Vec<&'static str> {
    let (Ours::Read { consumed, tail, fields, again }, Crates::Read { consumed: n, written, who, fields: f }) = (ours, crates) else {
        return vec!["reading"];
    };
    let mut unlike = Vec::new();
    if consumed != n {
        unlike.push("bytes consumed");
    }
    if consumed + tail != input.len() / 2 {
        unlike.push("tail");
    }
    if fields != f || f.matches('|').count() != who.len() {
        unlike.push("fields");
    }
    if again != written || Some(again.as_str()) != input.get(..2 * consumed) {
        unlike.push("bytes written");
    }
    unlike
}

/// What is cut is the count of Ecdaa: a second field, which the adapted text alone has in these kinds.
fn is_count(kind: u32, input: &str, number: u64) -> bool {
    number == SHORT && (5..=8).contains(&kind) && input.starts_with("001a") && input.len() >= 8
}

/// Elsewhere the crate counts from a later start, so that its offset is at most our place; and that lies in the input or at its end.
fn fits(kind: u32, input: &str, number: u64, place: usize, offset: usize) -> bool {
    let is_exact = ONE_PLACE.contains(&kind) && !is_count(kind, input, number);
    if is_exact { place == offset } else { (offset..=input.len() / 2).contains(&place) }
}

/// Short says how many bytes the input has from its place on; no other refusal says anything of that.
fn wrong_had(input: &str, ours: &Ours) -> Option<String> {
    let Ours::Refused { number, place, had, .. } = ours else { return None };
    let there = (*number == SHORT).then(|| (input.len() / 2).saturating_sub(*place));
    (*had != there).then(|| "ours does not say of Short, and of Short alone, how many bytes the input has from its place on".to_string())
}

/// Nothing, if the answers are alike; else in what they are not.
fn unlike(kind: u32, input: &str, ours: &Ours, crates: &Crates) -> Option<String> {
    match (ours, crates) {
        (Ours::Refused { number, place, value, had }, Crates::Refused { name, offset, value: v, had: h, .. }) => {
            if *number != number_of(name) || value != v {
                return Some("both refuse, for another fault".to_string());
            }
            if had.unwrap_or(0) != *h {
                return Some("both refuse, with another number of bytes there".to_string());
            }
            (!fits(kind, input, *number, *place, *offset)).then(|| "both refuse, at another place".to_string())
        }
        (Ours::Read { .. }, Crates::Read { .. }) => {
            let unlike = unlike_records(input, ours, crates);
            (!unlike.is_empty()).then(|| format!("both read, with other {}", unlike.join(", ")))
        }
        _ => Some("one side accepts".to_string()),
    }
}

fn fingerprint(kind: u32, input: &str) -> u64 {
    let mut hasher = DefaultHasher::new();
    (kind, input).hash(&mut hasher);
    hasher.finish()
}

fn main() {
    let words: Vec<String> = std::env::args().collect();
    let [_, mode, inputs, crates, ours] = &words[..] else { panic!("compare listed|same INPUTS CRATES OURS") };
    let has_classes = match mode.as_str() {
        "listed" => true,
        "same" => false,
        _ => panic!("listed or same, not {mode}"),
    };
    let mut our_answers = OurAnswers(lines(ours));
    let mut crates_lines = lines(crates);
    let mut tables = Tables::default();
    let mut different = HashSet::new();
    for line in lines(inputs) {
        let line = line.expect("text");
        let [kind, input, sort] = line.split(' ').collect::<Vec<_>>()[..] else { panic!("input: {line}") };
        let (ours, first) = our_answers.next(kind);
        let answer = crates_lines.next().expect("an answer of the crate is missing").expect("text");
        let (crates, notes) = crates_answer(&answer);
        let kind: u32 = kind.parse().expect("a kind");
        different.insert(fingerprint(kind, input));
        tables.input(kind, sort);
        for note in notes {
            tables.new_difference(&format!("the crate disagrees with itself: {note}"), kind, input, &first, &answer);
        }
        let class = if has_classes { class(kind, &unhex(input).expect("hex")) } else { None };
        let how = wrong_had(input, &ours).or_else(|| match &class {
            Some(class) => (!class.holds(kind, input, &ours, &crates)).then(|| format!("not as {} has it", class.name)),
            None => unlike(kind, input, &ours, &crates),
        });
        match (how, class) {
            (Some(how), _) => tables.new_difference(&how, kind, input, &first, &answer),
            (None, Some(class)) => tables.listed(&Difference { name: class.name, kind, sort, input, ours: &first, crates: &answer }, &ours, &crates),
            (None, None) => tables.alike(kind, sort, &ours, &crates),
        }
    }
    assert!(crates_lines.next().is_none() && our_answers.0.next().is_none(), "answers are left over");
    tables.print(different.len());
    std::process::exit(i32::from(!tables.is_explained()));
}
