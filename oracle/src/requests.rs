// Gathers the requests of a list, and writes them.

use crate::{calls, numbers};
use std::collections::HashSet;
use std::io::{BufWriter, Write};

#[derive(Default)]
pub struct Requests {
    lines: Vec<String>,
    asked: HashSet<String>,
}

impl Requests {
    pub fn comment(&mut self, text: &str) {
        self.lines.push(format!("# {text}"));
    }

    // Asks once only: a random request may well be one that was asked before.
    pub fn ask(&mut self, numbers: &[u64]) {
        let line = numbers::join(numbers);
        if self.asked.insert(line.clone()) {
            self.lines.push(line);
        }
    }
}

pub fn write(lists: &[&str]) -> Result<(), String> {
    let mut requests = Requests::default();
    for list in lists {
        let family = calls::find_list(list)
            .ok_or_else(|| format!("no list {list:?}; lists: {}", calls::list_names()))?;
        (family.requests)(&mut requests);
    }
    write_lines(&requests.lines)
}

pub fn write_lines(lines: &[String]) -> Result<(), String> {
    let mut out = BufWriter::new(std::io::stdout().lock());
    for line in lines {
        writeln!(out, "{line}").map_err(|e| e.to_string())?;
    }
    out.flush().map_err(|e| e.to_string())
}
