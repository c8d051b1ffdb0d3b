// The families of calls. A new family is a module and a line in FAMILIES.

mod built;
pub mod graphs;
mod labels;
pub mod layout;
mod letters;
mod loading;
mod lxd;
mod macondo;
mod nodes;
mod numbers;
pub mod outcome;
mod pages;
pub mod samples;
mod trial;
mod typed;

use crate::numbers::{Inputs, Unreadable, join, parse};
use crate::requests::Requests;
use std::ops::RangeInclusive;

pub struct Family {
    // The name of the list of its requests.
    pub list: &'static str,
    // The numbers of its calls, which no other family has.
    pub calls: RangeInclusive<u64>,
    pub requests: fn(&mut Requests),
    // The case of a call with these inputs. An error is for a request that
    // cannot be asked; what the Rust refuses is an answer.
    pub answer: fn(u64, &mut Inputs) -> Result<Case, Unreadable>,
}

// What a list stores of a request: its inputs as a list of words and a list of
// bytes, and the Rust's answer.
pub struct Case {
    pub words: Vec<u32>,
    pub bytes: Vec<u8>,
    pub answer: Vec<u64>,
}

impl Case {
    // For a call with no list of bytes.
    fn of_words(words: Vec<u32>, answer: Vec<u64>) -> Self {
        Self {
            words,
            bytes: Vec::new(),
            answer,
        }
    }

    fn numbers(&self, call: u64) -> Vec<u64> {
        let mut numbers = vec![call, self.words.len() as u64];
        numbers.extend(self.words.iter().map(|&word| u64::from(word)));
        numbers.push(self.bytes.len() as u64);
        numbers.extend(self.bytes.iter().map(|&byte| u64::from(byte)));
        numbers.extend(&self.answer);
        numbers
    }
}

const FAMILIES: &[Family] = &[
    trial::FAMILY,
    nodes::FAMILY,
    loading::FAMILY,
    numbers::FAMILY,
    letters::FAMILY,
    macondo::FAMILY,
    lxd::FAMILY,
    pages::FAMILY,
    typed::FAMILY,
    built::FAMILY,
];

pub fn find_list(name: &str) -> Option<&'static Family> {
    FAMILIES.iter().find(|family| family.list == name)
}

pub fn list_names() -> String {
    let names: Vec<&str> = FAMILIES
        .iter()
        .map(|family| family.list)
        .filter(|&list| list != trial::FAMILY.list)
        .collect();
    names.join(" ")
}

pub fn answer(request: &str) -> Result<String, Unreadable> {
    let numbers = parse(request)?;
    let mut inputs = Inputs(&numbers);
    let call = inputs.number(u64::MAX)?;
    let family = FAMILIES
        .iter()
        .find(|family| family.calls.contains(&call))
        .ok_or_else(|| format!("no call {call}"))?;
    Ok(join(&(family.answer)(call, &mut inputs)?.numbers(call)))
}
