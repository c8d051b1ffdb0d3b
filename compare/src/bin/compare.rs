//! The comparison at scale: the engine against the Rust that it is ported from and against documents 01 and 02.

use compare::checker::Checker;
use compare::corpus::{self, Size};
use std::process::ExitCode;

const USAGE: &str = "usage: compare [short | full] [SEED]";

// The Rust's counter recurses once for each node of a chain.
const STACK: usize = 1 << 30;

fn main() -> ExitCode {
    let arguments: Vec<String> = std::env::args().skip(1).collect();
    let Some((size, seed)) = read(&arguments) else {
        eprintln!("{USAGE}");
        return ExitCode::from(2);
    };
    // A panic of the Rust is an answer; the report says so.
    std::panic::set_hook(Box::new(|_| {}));
    let run = move || {
        let mut checker = Checker::new(seed);
        corpus::run(&mut checker, size, seed);
        print!("{}", checker.report.text());
        checker.report.differences()
    };
    let thread = std::thread::Builder::new().stack_size(STACK).spawn(run);
    match thread.map(|thread| thread.join()) {
        Ok(Ok(0)) => ExitCode::SUCCESS,
        Ok(Ok(_)) => ExitCode::FAILURE,
        _ => {
            eprintln!("compare: the comparison itself broke off");
            ExitCode::FAILURE
        }
    }
}

fn read(arguments: &[String]) -> Option<(Size, u64)> {
    let (size, seed) = match arguments {
        [] => ("short", "1"),
        [size] => (size.as_str(), "1"),
        [size, seed] => (size.as_str(), seed.as_str()),
        _ => return None,
    };
    let size = match size {
        "short" => Size::Short,
        "full" => Size::Full,
        _ => return None,
    };
    Some((size, seed.parse().ok()?))
}
