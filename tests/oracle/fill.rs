//! fill < LIST: the list with an answer in the place of every question mark. A line that has another answer than this ends the program
//! with status 2; what is not known here stays as it is.
use std::io::{BufRead, Write};

// of which only the text of a line is used here
#[allow(dead_code)]
mod lists;

/// As in compare.rs.
const STACK: usize = 1 << 30;

fn filled(line: &str) -> Result<String, String> {
    let columns: Vec<&str> = line.split('\t').collect();
    let [call, said, text] = columns[..] else {
        return Ok(line.to_string());
    };
    let bytes = lists::text_of(text).ok_or(format!("not a text: {line}"))?;
    match oracle::answer(call, &bytes) {
        None => Ok(line.to_string()),
        Some(answer) if said == "?" || said == answer => Ok(format!("{call}\t{answer}\t{text}")),
        Some(answer) => Err(format!("the answer is {answer}: {line}")),
    }
}

fn run() -> Result<(), String> {
    let mut out = std::io::BufWriter::new(std::io::stdout());
    for line in std::io::stdin().lock().lines() {
        let line = line.map_err(|e| e.to_string())?;
        writeln!(out, "{}", filled(&line)?).map_err(|e| e.to_string())?;
    }
    out.flush().map_err(|e| e.to_string())
}

fn main() {
    let thread = std::thread::Builder::new()
        .stack_size(STACK)
        .spawn(run)
        .expect("a thread");
    if let Err(message) = thread.join().expect("the thread ends") {
        eprintln!("fill: {message}");
        std::process::exit(2);
    }
}
