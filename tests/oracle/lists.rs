//! Lists of calls with their answers: `call TAB answer TAB text` (README.md).
use oracle::Record;

pub struct Line {
    pub call: String,
    pub answer: String,
    pub text: Vec<u8>,
}

/// The lines of a list that count, with their line numbers. A line that cannot be read is an error.
pub fn read(path: &str) -> Result<Vec<(usize, Line)>, String> {
    let whole = std::fs::read_to_string(path).map_err(|e| format!("{path}: {e}"))?;
    let counts = |l: &&str| !l.is_empty() && !l.starts_with('#');
    let numbered = whole
        .lines()
        .enumerate()
        .map(|(k, l)| (k + 1, l))
        .filter(|(_, l)| counts(l));
    numbered
        .map(|(k, l)| {
            Ok((
                k,
                line(l).ok_or(format!("{path}:{k}: not a line of a list"))?,
            ))
        })
        .collect()
}

fn line(whole: &str) -> Option<Line> {
    let mut columns = whole.split('\t');
    let (call, answer, text) = (columns.next()?, columns.next()?, columns.next()?);
    Some(Line {
        call: call.to_string(),
        answer: answer.to_string(),
        text: text_of(text)?,
    })
}

/// Hexadecimal pieces joined by `+`, each with an optional `*count`.
pub fn text_of(column: &str) -> Option<Vec<u8>> {
    let mut text = Vec::new();
    for piece in column.split('+') {
        let (digits, count) = match piece.split_once('*') {
            Some((digits, count)) => (digits, count.parse().ok()?),
            None => (piece, 1),
        };
        text.extend(bytes_of(digits)?.repeat(count));
    }
    Some(text)
}

fn bytes_of(digits: &str) -> Option<Vec<u8>> {
    if digits.len() % 2 != 0 || !digits.is_ascii() {
        return None;
    }
    (0..digits.len())
        .step_by(2)
        .map(|k| u8::from_str_radix(&digits[k..k + 2], 16).ok())
        .collect()
}

/// The record that a `gate_set` line has in its answer column, `-/started/seen/open/refused`.
pub fn record_of(column: &str) -> Option<Record> {
    let mut parts = column.split('/').skip(1);
    let mut flag = || Some(parts.next()? == "1");
    let (started, seen, open) = (flag()?, flag()?, flag()?);
    Some(Record {
        started,
        seen,
        open,
        refused: parts.next()?.parse().ok()?,
    })
}
