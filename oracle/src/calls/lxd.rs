// Call 15: a graph written as an LXD file. The Rust is asked with the code
// points that it writes as the bytes of Windows-1252, or refuses.

mod requests;

use super::graphs::kwg_of;
use super::labels::alphabet_of;
use super::outcome::{NOT_ONE_CODE_POINT, NOT_WINDOWS_1252, TOO_LONG, file, no_file, unknown};
use super::{Case, Family};
use crate::lexport::to_lxd;
use crate::numbers::{Inputs, Unreadable};
use crate::windows1252::for_the_original;

const LXD: u64 = 15;

pub const FAMILY: Family = Family {
    list: "lxd",
    calls: LXD..=LXD,
    requests: requests::requests,
    answer,
};

fn answer(_call: u64, inputs: &mut Inputs) -> Result<Case, Unreadable> {
    let words = inputs.words()?;
    let labels = inputs.words()?;
    let title = inputs.words()?;
    let date = inputs.words()?;
    inputs.end()?;
    let head = [labels.len() as u32, title.len() as u32, date.len() as u32];
    let answer = written(
        &words,
        &for_the_original(&labels),
        &text(&for_the_original(&title))?,
        &text(&for_the_original(&date))?,
    )?;
    let words = [&head, &labels[..], &title, &date, &words].concat();
    Ok(Case::of_words(words, answer))
}

fn written(words: &[u32], labels: &[u32], title: &str, date: &str) -> Result<Vec<u64>, Unreadable> {
    let graph = kwg_of(words);
    let alphabet = alphabet_of(labels)?.ok_or("the Rust makes no alphabet of these labels")?;
    match to_lxd(&graph, &alphabet, title, date) {
        Ok(bytes) => Ok(file(&bytes)),
        Err(refusal) => match refusal.to_string().as_str() {
            "unsupported title" | "unsupported date" => Ok(no_file(NOT_WINDOWS_1252)),
            "title too long" | "date too long" => Ok(no_file(TOO_LONG)),
            "unrepresentable letter" => Ok(no_file(NOT_ONE_CODE_POINT)),
            _ => Err(unknown(&refusal)),
        },
    }
}

// A text is a list of code points.
fn text(numbers: &[u32]) -> Result<String, Unreadable> {
    numbers
        .iter()
        .map(|&number| char::from_u32(number).ok_or(format!("{number} is no code point")))
        .collect()
}
