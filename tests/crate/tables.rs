//! The counts of a comparison, and how they are printed. Every table keeps apart what the text decides and what a rebuilt module decides.

use crate::answers::{Crates, Ours};
use std::collections::BTreeMap;
use std::ops::AddAssign;

const TEXT_ERRORS: [&str; 3] = ["UnexpectedEnd", "VariantNotAvailable", "TooManyItems"];
const REBUILT_FAULTS: [&str; 4] = ["End", "Code", "Length", "Value"];

/// One count for what the text decides, one for what a rebuilt module does.
#[derive(Default, Clone, Copy)]
struct Pair {
    text: u64,
    rebuilt: u64,
}

impl Pair {
    fn one(who: &str) -> Self {
        let text = u64::from(who == "text");
        Self { text, rebuilt: 1 - text }
    }
}

impl AddAssign for Pair {
    fn add_assign(&mut self, other: Self) {
        self.text += other.text;
        self.rebuilt += other.rebuilt;
    }
}

#[derive(Default, Clone)]
struct Counts {
    inputs: u64,
    /// Records read alike; in `text` those that no rebuilt structure is in.
    read: Pair,
    fields: Pair,
    refused: Pair,
    same_place: Pair,
    by_error: BTreeMap<String, u64>,
    listed: Pair,
    new: u64,
}

impl AddAssign<&Counts> for Counts {
    fn add_assign(&mut self, other: &Self) {
        self.inputs += other.inputs;
        self.read += other.read;
        self.fields += other.fields;
        self.refused += other.refused;
        self.same_place += other.same_place;
        for (name, count) in &other.by_error {
            *self.by_error.entry(name.clone()).or_default() += count;
        }
        self.listed += other.listed;
        self.new += other.new;
    }
}

/// One input that was answered differently.
pub struct Difference<'a> {
    pub name: &'a str,
    pub kind: u32,
    pub sort: &'a str,
    pub input: &'a str,
    pub ours: &'a str,
    pub crates: &'a str,
}

#[derive(Default)]
struct Class {
    inputs: u64,
    both_read: u64,
    only_we: u64,
    only_the_crate: u64,
    crates: Pair,
    shortest: Option<(usize, String)>,
}

impl Class {
    fn show(&mut self, kind: u32, input: &str, ours: &str, crates: &str) {
        self.inputs += 1;
        if self.shortest.as_ref().is_none_or(|(length, _)| input.len() < *length) {
            self.shortest = Some((input.len(), format!("    kind {kind}, {input}\n    ours:  {ours}\n    crate: {crates}")));
        }
    }
}

/// Who has a part in the crate's answer: who refuses; and of a record, whether a rebuilt structure is in it.
fn who_of<'a>(crates: &Crates<'a>) -> &'a str {
    match crates {
        Crates::Refused { who, .. } => who,
        Crates::Read { who, .. } if who.contains('r') => "rebuilt",
        Crates::Read { .. } => "text",
    }
}

#[derive(Default)]
pub struct Tables {
    by_kind: BTreeMap<u32, Counts>,
    by_sort: BTreeMap<String, Counts>,
    listed: BTreeMap<String, Class>,
    new: BTreeMap<String, Class>,
}

impl Tables {
    /// The counts of the kind and those of the sort.
    fn both(&mut self, kind: u32, sort: &str) -> [&mut Counts; 2] {
        [self.by_kind.entry(kind).or_default(), self.by_sort.entry(sort.to_string()).or_default()]
    }

    pub fn input(&mut self, kind: u32, sort: &str) {
        for counts in self.both(kind, sort) {
            counts.inputs += 1;
        }
    }

    pub fn alike(&mut self, kind: u32, sort: &str, ours: &Ours, crates: &Crates) {
        for counts in self.both(kind, sort) {
            match (ours, crates) {
                (_, Crates::Read { who, .. }) => {
                    let text = who.matches('t').count() as u64;
                    counts.read += Pair::one(who_of(crates));
                    counts.fields += Pair { text, rebuilt: who.len() as u64 - text };
                }
                (Ours::Refused { place, .. }, Crates::Refused { who, name, offset, .. }) => {
                    counts.refused += Pair::one(who);
                    if place == offset {
                        counts.same_place += Pair::one(who);
                    }
                    *counts.by_error.entry((*name).to_string()).or_default() += 1;
                }
                _ => unreachable!("one side accepts"),
            }
        }
    }

    pub fn listed(&mut self, found: &Difference, ours: &Ours, crates: &Crates) {
        let by = Pair::one(who_of(crates));
        for counts in self.both(found.kind, found.sort) {
            counts.listed += by;
        }
        let class = self.listed.entry(found.name.to_string()).or_default();
        class.crates += by;
        match (ours, crates) {
            (Ours::Read { .. }, Crates::Read { .. }) => class.both_read += 1,
            (Ours::Read { .. }, Crates::Refused { .. }) => class.only_we += 1,
            (Ours::Refused { .. }, Crates::Read { .. }) => class.only_the_crate += 1,
            (Ours::Refused { .. }, Crates::Refused { .. }) => {}
        }
        class.show(found.kind, found.input, found.ours, found.crates);
    }

    pub fn new_difference(&mut self, how: &str, kind: u32, input: &str, ours: &str, crates: &str) {
        self.by_kind.entry(kind).or_default().new += 1;
        self.new.entry(how.to_string()).or_default().show(kind, input, ours, crates);
    }

    pub fn is_explained(&self) -> bool {
        self.new.is_empty() && self.by_kind.values().any(|counts| counts.inputs > 0)
    }

    pub fn print(&self, different: usize) {
        let mut all = Counts::default();
        self.by_kind.values().for_each(|counts| all += counts);
        println!("{} inputs, {different} different", all.inputs);
        self.print_answers(&all);
        self.print_errors(&all);
        self.print_sorts();
        self.print_listed();
        for (how, class) in &self.new {
            println!("\nNEW: {how}: {} inputs. The shortest:\n{}", class.inputs, class.shortest.as_ref().map_or("", |(_, text)| text));
        }
        let end = match (self.is_explained(), self.listed.is_empty()) {
            (true, true) => "no difference",
            (true, false) => "no difference but those listed",
            (false, _) => "NOT EXPLAINED",
        };
        println!("\n{end}");
    }

    /// The kinds, and all of them together.
    fn rows<'a>(&'a self, all: &'a Counts) -> impl Iterator<Item = (String, &'a Counts)> {
        self.by_kind.iter().map(|(kind, counts)| (kind.to_string(), counts)).chain([("all".to_string(), all)])
    }

    fn print_answers(&self, all: &Counts) {
        print!("\n| Kind | Inputs | Read alike | of these in the text's structures alone | Fields alike: text | rebuilt ");
        println!("| Refused alike: text | rebuilt | at one place: text | rebuilt | Listed: text | rebuilt | New |");
        println!("|---|---|---|---|---|---|---|---|---|---|---|---|---|");
        for (kind, c) in self.rows(all) {
            print!("| {kind} | {} | {} | {} ", c.inputs, c.read.text + c.read.rebuilt, c.read.text);
            for pair in [c.fields, c.refused, c.same_place, c.listed] {
                print!("| {} | {} ", pair.text, pair.rebuilt);
            }
            println!("| {} |", c.new);
        }
    }

    fn print_errors(&self, all: &Counts) {
        println!("\n| Refused alike | text: {} | rebuilt: {} |", TEXT_ERRORS.join(" | "), REBUILT_FAULTS.join(" | "));
        println!("|---|{}", "---|".repeat(TEXT_ERRORS.len() + REBUILT_FAULTS.len()));
        for (kind, c) in self.rows(all) {
            let counts = TEXT_ERRORS.iter().chain(&REBUILT_FAULTS).map(|name| c.by_error.get(*name).copied().unwrap_or(0));
            println!("| {kind} | {} |", counts.map(|count| count.to_string()).collect::<Vec<_>>().join(" | "));
        }
    }

    fn print_sorts(&self) {
        println!("\n| Sort | Inputs | Read alike: in the text's structures alone | a rebuilt one too | Refused alike: text | rebuilt | Listed: text | rebuilt |");
        println!("|---|---|---|---|---|---|---|---|");
        for (sort, c) in &self.by_sort {
            print!("| {sort} | {} ", c.inputs);
            for pair in [c.read, c.refused, c.listed] {
                print!("| {} | {} ", pair.text, pair.rebuilt);
            }
            println!("|");
        }
    }

    fn print_listed(&self) {
        if self.listed.is_empty() {
            return;
        }
        println!("\n| Listed difference | Inputs | Both read | only we | only the crate | neither | The crate's answer: text | rebuilt |");
        println!("|---|---|---|---|---|---|---|---|");
        for (name, c) in &self.listed {
            let neither = c.inputs - c.both_read - c.only_we - c.only_the_crate;
            print!("| {name} | {} | {} | {} | {} | {neither} ", c.inputs, c.both_read, c.only_we, c.only_the_crate);
            println!("| {} | {} |", c.crates.text, c.crates.rebuilt);
        }
        for (name, class) in &self.listed {
            println!("\n{name}. The shortest:\n{}", class.shortest.as_ref().map_or("", |(_, text)| text));
        }
    }
}
