// The child process: answers requests one by one, and may die of any of them.

use crate::calls;
use std::io::{BufRead, Write};
use std::panic;

// What the child says of a request, as the first word of its line.
pub const CASE: &str = "case";
pub const PANIC: &str = "panic";
pub const UNREADABLE: &str = "unreadable";

// A stack of a stated size: which graphs exhaust it must not depend on the
// limits of the shell.
const STACK_SIZE: usize = 8 << 20;

pub fn run() -> Result<(), String> {
    panic::set_hook(Box::new(|_| {}));
    std::thread::Builder::new()
        .stack_size(STACK_SIZE)
        .spawn(answer_all)
        .map_err(|e| e.to_string())?
        .join()
        .unwrap_or_else(|_| Err("the worker's own code panicked".into()))
}

fn answer_all() -> Result<(), String> {
    let mut out = std::io::stdout().lock();
    for request in std::io::stdin().lock().lines() {
        let request = request.map_err(|e| e.to_string())?;
        let line = match panic::catch_unwind(|| calls::answer(&request)) {
            Ok(Ok(case)) => format!("{CASE} {case}"),
            Ok(Err(why)) => format!("{UNREADABLE} {why}"),
            Err(_) => PANIC.to_string(),
        };
        writeln!(out, "{line}")
            .and_then(|()| out.flush())
            .map_err(|e| e.to_string())?;
    }
    Ok(())
}
