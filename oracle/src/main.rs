//! Runs the unchanged `connection_manager.rs` of trouble-host 0.8.0 on histories of calls (README.md).

#[macro_use]
mod fmt;
mod bench;
mod compare;
mod cover;
mod crate_root;
mod exhaustive;
mod history;
mod make;

// What `lib.rs` of trouble-host has at the crate's root, where the Rust looks for it.
pub(crate) use crate_root::*;

// config.rs, connection.rs and pdu.rs, unchanged.
include!(concat!(env!("OUT_DIR"), "/modules.rs"));

// The module under test, unchanged, and as its child the driver, which sees its private parts.
#[allow(unused, private_interfaces)]
pub mod connection_manager {
    include!(env!("CONNECTION_MANAGER"));
    pub(crate) mod driver;
}

use std::io::{self, Write};
use std::process::exit;

const USAGE: &str = "oracle replay                        histories on standard input, answers on standard output
oracle make SEED HISTORIES CALLS     writes random histories
oracle exhaustive                    writes every short history over a small alphabet
oracle sample                        writes the fixed sample of histories
oracle cover                         counts what occurs in answers on standard input
oracle compare FILE FILE             compares two streams of answers
oracle repeat KIND SLOTS CALLS       makes the calls of one kind many times";

fn main() {
    let words: Vec<String> = std::env::args().skip(1).collect();
    let words: Vec<&str> = words.iter().map(String::as_str).collect();
    let number = |word: &str| -> u64 { word.parse().unwrap_or_else(|_| stop(&format!("not a number: {word}"))) };
    let mut out = io::BufWriter::with_capacity(1 << 16, io::stdout().lock());
    connection_manager::driver::listen();
    let done = match words[..] {
        ["replay"] => connection_manager::driver::replay(&mut io::stdin().lock(), &mut out),
        ["make", seed, histories, calls] => make::random(number(seed), number(histories), number(calls), &mut out),
        ["exhaustive"] => exhaustive::all(&mut out),
        ["sample"] => make::sample(&mut out),
        ["cover"] => cover::cover(&mut io::stdin().lock(), &mut out),
        ["repeat", kind, slots, calls] if (1..=16).contains(&number(slots)) => {
            connection_manager::driver::repeat(number(kind), number(slots) as u8, number(calls), &mut out)
        }
        ["compare", left, right] => compare::compare(left, right, &mut out),
        _ => stop(USAGE),
    };
    match done.and_then(|same| out.flush().map(|_| same)) {
        Ok(true) => {}
        Ok(false) => exit(1),
        // A reader that has seen enough is no error.
        Err(e) if e.kind() == io::ErrorKind::BrokenPipe => exit(1),
        Err(e) => stop(&e.to_string()),
    }
}

/// For what can be no answer of the Rust: an error of the driver or of its use.
pub(crate) fn stop(message: &str) -> ! {
    eprintln!("{message}");
    exit(2)
}
