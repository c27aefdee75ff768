//! What a test has met, so that it can say what it covered and fail where
//! something that is possible never came up.

use std::collections::BTreeMap;

use crate::call::{Case, Outcome, NAMES, WORDS_BYTES};

/// An answer's number, with the rule of an 11, and with what a 10 is about.
#[derive(Clone, Copy, Debug, PartialEq, Eq, PartialOrd, Ord)]
pub enum Given {
    Number(u64),
    Rule(u64),
    /// 10 with 616: too few words.
    FewWords,
}

impl Given {
    fn of(case: &Case, outcome: &Outcome) -> Self {
        match outcome.answer {
            [11, rule, ..] => Given::Rule(rule),
            [10, WORDS_BYTES, ..] if case.sets.len() < 77 => Given::FewWords,
            [number, ..] => Given::Number(number),
        }
    }
}

/// The numbers, rules and refusals of words that are given.
pub fn given(numbers: &[u64], rules: &[u64], few_words: bool) -> Vec<Given> {
    let numbers = numbers.iter().map(|&number| Given::Number(number));
    let rules = rules.iter().map(|&rule| Given::Rule(rule));
    let words = few_words.then_some(Given::FewWords);
    numbers.chain(rules).chain(words).collect()
}

#[derive(Default)]
pub struct Tally {
    answers: BTreeMap<(usize, Given), u64>,
    notes: BTreeMap<String, u64>,
}

impl Tally {
    pub fn answer(&mut self, case: &Case, outcome: &Outcome) {
        let given = Given::of(case, outcome);
        *self.answers.entry((case.call.number(), given)).or_default() += 1;
    }

    pub fn note(&mut self, what: impl Into<String>) {
        *self.notes.entry(what.into()).or_default() += 1;
    }

    pub fn noted(&self, what: &str) -> u64 {
        self.notes.get(what).copied().unwrap_or(0)
    }

    /// Calls in all.
    pub fn calls(&self) -> u64 {
        self.answers.values().sum()
    }

    pub fn print(&self, title: &str) {
        println!("{title}: {} calls", self.calls());
        for (number, name) in NAMES.iter().enumerate() {
            let of_call = self.answers.iter().filter(|((call, _), _)| *call == number);
            let counts: Vec<String> = of_call
                .map(|((_, given), count)| match given {
                    Given::Number(number) => format!("{number}: {count}"),
                    Given::Rule(rule) => format!("11.{rule}: {count}"),
                    Given::FewWords => format!("words: {count}"),
                })
                .collect();
            if !counts.is_empty() {
                println!("  {name:14} {}", counts.join("  "));
            }
        }
        for (what, count) in &self.notes {
            println!("  {count:9}  {what}");
        }
    }

    /// Each call has given all of these answers and no other.
    pub fn expect(&self, call: &str, due: &[Given]) {
        let number = NAMES.iter().position(|name| *name == call);
        let number = number.expect("a call's name");
        let seen: Vec<Given> = self
            .answers
            .keys()
            .filter(|(call, _)| *call == number)
            .map(|(_, given)| *given)
            .collect();
        let mut due = due.to_vec();
        due.sort();
        assert_eq!(seen, due, "answers of {call}");
    }

    /// Each of these has come up.
    pub fn expect_notes<'a>(&self, names: impl IntoIterator<Item = &'a str>) {
        for name in names {
            assert!(self.noted(name) > 0, "never met: {name}");
        }
    }
}
