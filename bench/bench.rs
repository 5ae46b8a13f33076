//! bench [CALL]: times the Rust and the port in turn, and the peers on the same DOCTYPEs.
mod peers;
// the gate's calls in it are not timed
#[allow(dead_code)]
#[path = "../tests/oracle/port.rs"]
mod port;
mod shapes;
mod timing;

use oracle::raw;
use std::hint::black_box;
use timing::in_turn;

const SIZES: [(&str, usize); 3] = [("1 KiB", 1 << 10), ("64 KiB", 1 << 16), ("1 MiB", 1 << 20)];

/// The Rust on bytes, as the port has them: its UTF-8 test comes first.
fn rust(call: &str) -> fn(&str) -> bool {
    match call {
        "check_chars" => raw::check_chars,
        "check_text" => raw::check_text,
        "check_attr_value" => raw::check_attr_value,
        "check_char_refs" => raw::check_char_refs,
        "check_name" => raw::check_name,
        "check_doctype" => raw::check_doctype,
        "check_declaration" => raw::check_declaration,
        "is_ncname" => raw::is_ncname,
        "check_utf8" => |_| true,
        "scan" => |text| matches!(raw::scan(text), raw::Scan::Closed(_)),
        _ => panic!("no call {call}"),
    }
}

/// The port, true where it accepts.
fn ours(call: &str) -> Box<dyn Fn(&[u8]) -> bool> {
    match call {
        "is_ncname" => Box::new(|text| port::is_ncname(text, 0) == (0, 1)),
        "check_utf8" => Box::new(|text| port::check_utf8(text) == 0),
        "scan" => Box::new(|text| matches!(port::scan(text, 0, 0), (0, 2, _))),
        _ => {
            let (_, check) = *port::CHECKS
                .iter()
                .find(|(name, _)| *name == call)
                .expect("a call");
            Box::new(move |text| unsafe { check(text.as_ptr(), text.len()) == 0 })
        }
    }
}

/// Nanoseconds per byte of the Rust and of the port on each of the texts. All take turns, so that the sizes of a shape can be compared
/// too where the machine changes its speed.
fn both(call: &str, texts: &[String]) -> Vec<(f64, f64)> {
    let (rust, ours) = (rust(call), ours(call));
    let theirs = |text: &str| std::str::from_utf8(black_box(text.as_bytes())).is_ok_and(rust);
    let port = |text: &str| ours(black_box(text.as_bytes()));
    let mut calls: Vec<Box<dyn Fn() -> bool + '_>> = Vec::new();
    for text in texts {
        assert!(
            theirs(text) && port(text),
            "{call} refuses a text of {} bytes",
            text.len()
        );
        calls.push(Box::new(move || theirs(text)));
        calls.push(Box::new(|| port(text)));
    }
    let calls: Vec<&dyn Fn() -> bool> = calls.iter().map(|call| &**call).collect();
    let times = in_turn(&calls);
    (times.chunks(2).zip(texts))
        .map(|(pair, text)| (pair[0] / text.len() as f64, pair[1] / text.len() as f64))
        .collect()
}

fn cells((rust, port): (f64, f64)) -> String {
    format!(" | {rust:>7.3} {port:>7.3} {:>5.2}", port / rust)
}

fn row(call: &str, (name, shape): shapes::Shape) {
    let texts = SIZES.map(|(_, size)| shape(size));
    for (text, (_, size)) in texts.iter().zip(SIZES) {
        assert!(
            text.len() <= size && text.len() + 40 > size,
            "{name} at {size} has {} bytes",
            text.len()
        );
    }
    print!("{call:<18}{name:<22}");
    println!(
        "{}",
        both(call, &texts)
            .into_iter()
            .map(cells)
            .collect::<String>()
    );
}

fn head(columns: &str) {
    print!("{:<40}", "");
    for (size, _) in SIZES {
        print!(" | {size:<w$}", w = columns.len());
    }
    print!("\n{:<18}{:<22}", "call", "shape");
    println!("{}", format!(" | {columns}").repeat(SIZES.len()));
}

fn calls(only: Option<&str>) {
    println!(
        "\nNanoseconds per byte, best of the rounds, Rust (its UTF-8 test included) and port in turn; ratio = port / Rust\n"
    );
    head("   Rust    port ratio");
    let wanted = |call: &str| only.is_none_or(|o| o == call);
    for call in ["check_doctype", "scan"] {
        for shape in shapes::DOCTYPES.iter().filter(|_| wanted(call)) {
            row(call, *shape);
        }
    }
    for (call, shape) in shapes::OTHERS.iter().filter(|(call, _)| wanted(call)) {
        row(call, *shape);
    }
    if wanted("check_declaration") {
        let text = [shapes::USUAL_DECLARATION.to_string()];
        print!("{:<18}{:<22}", "check_declaration", "usual");
        println!(
            "{}, at its {} bytes",
            cells(both("check_declaration", &text)[0]),
            text[0].len()
        );
    }
}

/// The port and every peer on one DOCTYPE. A parser that refuses it has no time.
fn peer_cells(text: &str) -> String {
    let document = peers::document(text);
    let document = document.as_bytes();
    let ours = ours("check_doctype");
    let port = || ours(black_box(text.as_bytes()));
    let others: Vec<_> = peers::PEERS
        .iter()
        .map(|(_, accepts)| move || accepts(black_box(document)))
        .collect();
    let mut calls: Vec<&dyn Fn() -> bool> = vec![&port];
    calls.extend(others.iter().map(|call| call as &dyn Fn() -> bool));
    let mut cells = String::from(" |");
    for (call, time) in calls.iter().zip(in_turn(&calls)) {
        cells += &if call() {
            format!(" {:>8.3}", time / text.len() as f64)
        } else {
            format!(" {:>8}", "refused")
        };
    }
    cells
}

fn peers() {
    if peers::PEERS.is_empty() {
        return;
    }
    println!(
        "\nThe port on the DOCTYPE's text and the peers on <!DOCTYPE ...><root/>, of which they keep some; nanoseconds per byte\n"
    );
    let names: String = peers::PEERS
        .iter()
        .map(|(name, _)| format!(" {name:>8}"))
        .collect();
    head(&format!("    port{names}"));
    for (name, shape) in shapes::DOCTYPES {
        print!("{:<18}{name:<22}", "check_doctype");
        for (_, size) in SIZES {
            print!("{}", peer_cells(&shape(size)));
        }
        println!();
    }
}

fn main() {
    let only = std::env::args().nth(1);
    calls(only.as_deref());
    if only.as_deref().is_none_or(|o| o == "check_doctype") {
        peers();
    }
}
