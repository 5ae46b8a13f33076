//! compare lists FILE...                 every line of the lists: the Rust, the port and what the list says
//! compare fuzz FIRST LAST COUNT FILE... COUNT calls for each seed, over the lists' texts and generated ones
//!
//! Prints every difference with both answers and the text, and counts for each list and seed. Exit status: 0 none differ, 1 some do,
//! 2 a list cannot be read.
mod damage;
mod fuzz;
mod generate;
mod lists;
mod places;
mod port;
mod prologs;
mod random;
mod scripts;

use oracle::{Gate, Record, answer, record_text};

/// Longer texts are compared, but not damaged: most of the time would go there.
const LONGEST_SAMPLE: usize = 4000;

/// The Rust takes a call for each open group, and a text of 1 MiB can open a million.
const STACK: usize = 1 << 30;

/// Who is asked beside the port.
fn judge(call: &str) -> &'static str {
    match call {
        "check_document" => "the reference",
        "check_document_fifth" => "the reference with the fifth edition's names",
        _ if call.ends_with("_fifth") => "the Rust with the fifth edition's names",
        _ => "the Rust",
    }
}

/// Prints a difference, with at most `shown` bytes of the text.
fn difference(call: &str, wanted: &str, given: &str, text: &[u8], shown: usize) {
    let rest = text.len().saturating_sub(shown);
    let more = if rest > 0 {
        format!(" and {rest} bytes more")
    } else {
        String::new()
    };
    let front = text[..text.len() - rest].escape_ascii();
    let judge = judge(call);
    println!("{call}: {judge} answers {wanted}, the port {given}, on \"{front}\"{more}");
}

/// Counts of one list.
#[derive(Default)]
struct Counts {
    compared: u64,
    differ: u64,
    /// calls that are not at the C boundary
    left_out: u64,
}

fn list(path: &str) -> Result<Counts, String> {
    let mut counts = Counts::default();
    let (mut rust, mut port) = (
        Gate::new(Record::default()),
        port::Gate::new(Record::default()),
    );
    for (k, line) in lists::read(path)? {
        let call = line.call.as_str();
        if call == "gate_set" {
            let record =
                lists::record_of(&line.answer).ok_or(format!("{path}:{k}: not a record"))?;
            (rust, port) = (Gate::new(record), port::Gate::new(record));
            continue;
        }
        if let Some(plain) = call.strip_suffix("_at") {
            counts.compared += 1;
            counts.differ += placed(path, k, plain, &line) as u64;
            continue;
        }
        let wanted = answer(call, &line.text)
            .or_else(|| Some(record_text(rust.answer(call, &line.text)?, &rust.record())));
        let given = port::answer(call, &line.text).or_else(|| port.answer(call, &line.text));
        let (Some(wanted), Some(given)) = (wanted, given) else {
            counts.left_out += 1;
            continue;
        };
        counts.compared += 1;
        if wanted != given {
            print!("{path}:{k}: ");
            // the whole text stands in the list
            difference(call, &wanted, &given, &line.text, 200);
        }
        // a list that has not been answered has a question mark there
        if line.answer != wanted && line.answer != "?" {
            println!(
                "{path}:{k}: {call}: the list says {}, {} {wanted}",
                line.answer,
                judge(call)
            );
        }
        let place = places::fault(call, &wanted, &line.text);
        if let Some(given) = &place {
            print!("{path}:{k}: ");
            difference(call, &wanted, given, &line.text, 200);
        }
        let differs = wanted != given || line.answer != wanted && line.answer != "?";
        counts.differ += (differs || place.is_some()) as u64;
    }
    Ok(counts)
}

/// A line whose answer is `number@place`, written by hand: whether the number is not the Rust's, or the answer of the port or of the
/// reference, where it has one, is another.
fn placed(path: &str, k: usize, plain: &str, line: &lists::Line) -> bool {
    let number = answer(plain, &line.text);
    let given = port::answer(&line.call, &line.text);
    let right = line.answer.split('@').next() == number.as_deref()
        && given.as_deref() == Some(&line.answer)
        && answer(&line.call, &line.text).is_none_or(|a| a == line.answer);
    if !right {
        println!(
            "{path}:{k}: {}: the list says {}, {} {number:?}, the port {given:?}",
            line.call,
            line.answer,
            judge(plain)
        );
    }
    !right
}

fn lists(paths: &[String]) -> Result<u64, String> {
    let mut differ = 0;
    for path in paths {
        let counts = list(path)?;
        let left_out = if counts.left_out > 0 {
            format!(", {} of other calls left out", counts.left_out)
        } else {
            String::new()
        };
        println!(
            "{path}: {} compared, {} differ{left_out}",
            counts.compared, counts.differ
        );
        differ += counts.differ;
    }
    Ok(differ)
}

fn fuzz(first: u64, last: u64, count: u64, paths: &[String]) -> Result<u64, String> {
    let mut samples = fuzz::Samples::default();
    for path in paths {
        for (_, line) in lists::read(path)? {
            if line.text.len() <= LONGEST_SAMPLE && line.call != "gate_set" {
                samples.add(&line.call, line.text);
            }
        }
    }
    let mut differ = 0;
    for seed in first..=last {
        let (made, differences) = fuzz::run(seed, count, &samples);
        println!("seed {seed}: {made} calls, {differences} differ");
        differ += differences;
    }
    Ok(differ)
}

fn run() -> Result<u64, String> {
    let args: Vec<String> = std::env::args().skip(1).collect();
    let number = |k: usize| {
        args.get(k)
            .and_then(|a| a.parse().ok())
            .ok_or("compare fuzz FIRST LAST COUNT FILE...".to_string())
    };
    match args.first().map(String::as_str) {
        Some("lists") => lists(&args[1..]),
        Some("fuzz") => fuzz(number(1)?, number(2)?, number(3)?, &args[4..]),
        _ => Err("compare lists|fuzz".to_string()),
    }
}

fn main() {
    let thread = std::thread::Builder::new()
        .stack_size(STACK)
        .spawn(run)
        .expect("a thread");
    let status = match thread.join().expect("the thread ends") {
        Ok(0) => 0,
        Ok(_) => 1,
        Err(message) => {
            eprintln!("{message}");
            2
        }
    };
    std::process::exit(status);
}
