// Reads requests, has them answered by a child process, and writes the list.

use crate::worker;
use std::io::{self, BufRead, BufReader, BufWriter, Write};
use std::process::{Child, ChildStdin, ChildStdout, Command, Stdio};

enum Reply {
    Case(String),
    Panic,
    Died,
    Unreadable(String),
}

struct Worker {
    child: Child,
    to: ChildStdin,
    from: BufReader<ChildStdout>,
}

impl Worker {
    fn start() -> io::Result<Self> {
        let mut child = Command::new(std::env::current_exe()?)
            .arg("worker")
            .stdin(Stdio::piped())
            .stdout(Stdio::piped())
            // The last words of a dying child: the list says which request it
            // was.
            .stderr(Stdio::null())
            .spawn()?;
        let to = child.stdin.take().expect("the child's input is piped");
        let from = child.stdout.take().expect("the child's output is piped");
        Ok(Self {
            child,
            to,
            from: BufReader::new(from),
        })
    }

    fn ask(&mut self, request: &str) -> Reply {
        let mut line = String::new();
        let asked = writeln!(self.to, "{request}").and_then(|()| self.from.read_line(&mut line));
        // A child that has died takes no request and ends its output, perhaps
        // within a line.
        let Some(line) = line.strip_suffix('\n').filter(|_| asked.is_ok()) else {
            return Reply::Died;
        };
        match line.split_once(' ').unwrap_or((line, "")) {
            (worker::CASE, case) => Reply::Case(case.to_string()),
            (worker::PANIC, _) => Reply::Panic,
            (worker::UNREADABLE, why) => Reply::Unreadable(why.to_string()),
            _ => Reply::Unreadable(format!("the worker said {line:?}")),
        }
    }

    // The end of its input ends the child.
    fn finish(mut self) -> io::Result<()> {
        drop(self.to);
        self.child.wait().map(|_| ())
    }
}

pub fn write() -> Result<(), String> {
    let mut out = BufWriter::new(io::stdout().lock());
    let mut worker = None;
    let (mut cases, mut panics, mut deaths) = (0, 0, 0);
    for (index, request) in io::stdin().lock().lines().enumerate() {
        let request = request.map_err(|e| e.to_string())?;
        if request.starts_with('#') {
            writeln!(out, "{request}").map_err(|e| e.to_string())?;
            continue;
        }
        let mut living = match worker.take() {
            Some(living) => living,
            None => Worker::start().map_err(|e| format!("the worker does not start: {e}"))?,
        };
        let reply = living.ask(&request);
        if let Reply::Died = reply {
            living.finish().map_err(|e| e.to_string())?;
        } else {
            worker = Some(living);
        }
        let line = match reply {
            Reply::Case(case) => {
                cases += 1;
                case
            }
            // Comments, so that they never stand in a list as cases.
            Reply::Panic => {
                panics += 1;
                format!("# panic: {request}")
            }
            Reply::Died => {
                deaths += 1;
                eprintln!("died: {request}");
                format!("# died: {request}")
            }
            Reply::Unreadable(why) => {
                return Err(format!("line {}: {request:?}: {why}", index + 1));
            }
        };
        writeln!(out, "{line}").map_err(|e| e.to_string())?;
    }
    if let Some(living) = worker {
        living.finish().map_err(|e| e.to_string())?;
    }
    out.flush().map_err(|e| e.to_string())?;
    eprintln!("{cases} cases, {panics} panic, {deaths} died");
    Ok(())
}
