//! Checks certificates by the library for C, and prints a line for each.
//!
//!     VIPR_LIB_DIR=/usr/local/lib cargo run --release -- FILE..
//!
//! The exit status is the largest of the files': 0 verified, 1 refused, 3 no memory; 2 if one can't be read.
use std::{env, fs, process};
use vipr::{check, Profile, Verdict};

fn status(name: &str) -> i32 {
    let text = match fs::read(name) {
        Ok(text) => text,
        Err(fault) => {
            eprintln!("{name}: {fault}");
            return 2;
        }
    };
    let (status, lines) = match check(&text, Profile::One) {
        Ok(Verdict::Verified(lines, _)) => (0, lines),
        Ok(Verdict::Refused(lines, _)) => (1, lines),
        Err(fault) => (3, fault.to_string()),
    };
    println!("{name}: {}", lines.trim_end().replace('\n', ", "));
    status
}

fn main() {
    process::exit(env::args().skip(1).map(|name| status(&name)).max().unwrap_or(0));
}
