//! Two forms of each check beside each other: of an earlier library, under names that begin with `before_`, and of this one; or, with
//! `--cfg editions`, by Appendix B's names and by the fifth edition's.
//!
//! before time [CALL]                 times them in turn
//! before list [CALL]                 the calls and the shapes that both accept, a tab between
//! before run WHICH CALL SHAPE TIMES  calls one of them (WHICH is `first` or `second`) on a text of 64 KiB
#[cfg(editions)]
mod editions;
// the program for editions times few of these
#[cfg_attr(editions, allow(dead_code))]
mod shapes;
mod timing;

use shapes::Shape;
use std::hint::black_box;

type Check = unsafe extern "C" fn(*const u8, usize) -> u8;

const SIZES: [(&str, usize); 3] = [("1 KiB", 1 << 10), ("64 KiB", 1 << 16), ("1 MiB", 1 << 20)];

macro_rules! checks {
    ($($call:literal: $first:ident, $second:ident;)*) => {
        unsafe extern "C" {
            $(fn $first(text: *const u8, len: usize) -> u8;
            fn $second(text: *const u8, len: usize) -> u8;)*
        }

        /// Each check by its name, in both forms.
        const CHECKS: &[(&str, Check, Check)] = &[$(($call, $first, $second)),*];
    };
}

#[cfg(editions)]
checks! {
    "check_name": moxkeldi_check_name, moxkeldi_check_name_fifth;
    "check_doctype": moxkeldi_check_doctype, moxkeldi_check_doctype_fifth;
}

#[cfg(not(editions))]
checks! {
    "check_doctype": before_moxkeldi_check_doctype, moxkeldi_check_doctype;
    "check_chars": before_moxkeldi_check_chars, moxkeldi_check_chars;
    "check_text": before_moxkeldi_check_text, moxkeldi_check_text;
    "check_attr_value": before_moxkeldi_check_attr_value, moxkeldi_check_attr_value;
    "check_char_refs": before_moxkeldi_check_char_refs, moxkeldi_check_char_refs;
    "check_name": before_moxkeldi_check_name, moxkeldi_check_name;
    "check_declaration": before_moxkeldi_check_declaration, moxkeldi_check_declaration;
}

/// What the two are called.
const FORMS: [&str; 2] = if cfg!(editions) {
    ["B", "fifth"]
} else {
    ["earlier", "this"]
};

fn both(call: &str) -> Option<(Check, Check)> {
    let (_, first, second) = CHECKS.iter().find(|(name, _, _)| *name == call)?;
    Some((*first, *second))
}

#[cfg(editions)]
fn all_rows() -> Vec<(&'static str, Shape)> {
    editions::SHAPES.to_vec()
}

/// The usual declaration is always its own size.
#[cfg(not(editions))]
fn all_rows() -> Vec<(&'static str, Shape)> {
    let mut rows: Vec<(&str, Shape)> = Vec::new();
    rows.extend(
        shapes::DOCTYPES
            .iter()
            .map(|shape| ("check_doctype", *shape)),
    );
    rows.extend(shapes::OTHERS.iter().copied());
    rows.push((
        "check_declaration",
        ("usual", |_| shapes::USUAL_DECLARATION.to_string()),
    ));
    rows
}

/// The shapes of the checks that have both forms.
fn rows(only: Option<&str>) -> Vec<(&'static str, Shape)> {
    let mut rows = all_rows();
    rows.retain(|(call, _)| both(call).is_some() && only.is_none_or(|o| o == *call));
    rows
}

fn accepts(check: Check, text: &str) -> bool {
    unsafe { check(black_box(text.as_ptr()), text.len()) == 0 }
}

/// Nanoseconds per byte of the two in turn; of the second alone where the first refuses the text.
fn cells((first, second): (Check, Check), text: &str) -> String {
    let (first, second) = (|| accepts(first, text), || accepts(second, text));
    assert!(second(), "a text of {} bytes is refused", text.len());
    let per_byte = |time: f64| time / text.len() as f64;
    if !first() {
        let time = per_byte(timing::in_turn(&[&second])[0]);
        return format!(" | {:>7} {time:>7.3} {:>5}", "refused", "");
    }
    let times = timing::in_turn(&[&first, &second]);
    let [first, second] = [times[0], times[1]].map(per_byte);
    format!(" | {first:>7.3} {second:>7.3} {:>5.2}", second / first)
}

fn time(only: Option<&str>) {
    let [first, second] = FORMS;
    println!("Nanoseconds per byte, best of the rounds, in turn; ratio = {second} / {first}\n");
    print!("{:<40}", "");
    for (size, _) in SIZES {
        print!(" | {size:<21}");
    }
    print!("\n{:<18}{:<22}", "call", "shape");
    println!(
        "{}",
        format!(" | {first:>7} {second:>7} ratio").repeat(SIZES.len())
    );
    for (call, (name, shape)) in rows(only) {
        print!("{call:<18}{name:<22}");
        for (_, size) in SIZES {
            print!("{}", cells(both(call).expect("a row"), &shape(size)));
        }
        println!();
    }
}

fn list(only: Option<&str>) {
    for (call, (name, shape)) in rows(only) {
        let (first, _) = both(call).expect("a row");
        if accepts(first, &shape(1 << 16)) {
            println!("{call}\t{name}");
        }
    }
}

fn run(which: &str, call: &str, name: &str, times: usize) {
    let (_, (_, shape)) = rows(Some(call))
        .into_iter()
        .find(|(_, (n, _))| *n == name)
        .expect("a shape of the call");
    let (first, second) = both(call).expect("a call");
    let check = if which == "first" { first } else { second };
    let text = shape(1 << 16);
    for _ in 0..times {
        assert!(accepts(check, &text));
    }
}

fn main() {
    let args: Vec<String> = std::env::args().skip(1).collect();
    let words: Vec<&str> = args.iter().map(String::as_str).collect();
    match words[..] {
        ["time"] => time(None),
        ["time", call] => time(Some(call)),
        ["list", ref call @ ..] => list(call.first().copied()),
        ["run", which, call, name, times] => {
            run(which, call, name, times.parse().expect("a number"))
        }
        _ => panic!("before time|list|run"),
    }
}
