//! How many inputs of each kind were compared, and how often each number was
//! the answer.

use std::collections::BTreeMap;

use crate::answers::{Verdict, ARRIVAL_LOG, BOOTH_TABLE, NOTHING};

#[derive(Default)]
pub struct Tally {
    kinds: BTreeMap<&'static str, u64>,
    answers: BTreeMap<(&'static str, u32), u64>,
}

impl Tally {
    pub fn add(&mut self, kind: &'static str, answer: Verdict) {
        self.add_in_words(kind, (name(answer.refused), answer.number));
    }

    /// An answer in words: about what it is, and its number.
    pub fn add_in_words(&mut self, kind: &'static str, answer: (&'static str, u32)) {
        *self.kinds.entry(kind).or_default() += 1;
        *self.answers.entry(answer).or_default() += 1;
    }

    pub fn inputs(&self) -> u64 {
        self.kinds.values().sum()
    }

    pub fn of_kind(&self, kind: &'static str) -> u64 {
        self.kinds.get(kind).copied().unwrap_or(0)
    }

    /// How often this number was said about this file or call.
    pub fn times(&self, refused: u32, number: u32) -> u64 {
        self.times_in_words((name(refused), number))
    }

    pub fn times_in_words(&self, answer: (&'static str, u32)) -> u64 {
        self.answers.get(&answer).copied().unwrap_or(0)
    }

    pub fn print(&self, title: &str) {
        println!("{title}: {} inputs compared", self.inputs());
        for (kind, inputs) in &self.kinds {
            println!("  {inputs:8} {kind}");
        }
        for ((what, number), times) in &self.answers {
            println!("  {times:8} times {what} {number}");
        }
    }
}

fn name(refused: u32) -> &'static str {
    match refused {
        NOTHING => "accepted",
        BOOTH_TABLE => "table",
        ARRIVAL_LOG => "log",
        _ => "call",
    }
}
