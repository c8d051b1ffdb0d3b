// The oracle: asks the Rust of wolges, and writes down what it answers.

mod answers;
mod calls;
mod evenings;
mod numbers;
mod random;
mod requests;
mod windows1252;
mod worker;

use std::process::ExitCode;
use wolges::{alphabet, bites, error, kwg, lexport, text, word_list};

const USAGE: &str = "usage: oracle requests LIST... | oracle answers
       oracle evenings | oracle evening-answers";

fn main() -> ExitCode {
    let arguments: Vec<String> = std::env::args().skip(1).collect();
    let words: Vec<&str> = arguments.iter().map(String::as_str).collect();
    let done = match words[..] {
        ["requests", ref lists @ ..] if !lists.is_empty() => requests::write(lists),
        ["answers"] => answers::write(),
        ["evenings"] => evenings::write_calls(),
        ["evening-answers"] => evenings::write_answers(),
        ["worker"] => worker::run(),
        _ => Err(format!("{USAGE}\nlists: {}", calls::list_names())),
    };
    match done {
        Ok(()) => ExitCode::SUCCESS,
        Err(why) => {
            eprintln!("oracle: {why}");
            ExitCode::FAILURE
        }
    }
}
