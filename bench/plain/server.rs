//! An authorization server for GNAP (RFC 9635, RFC 9767) by hand, in plain Rust and with its standard library alone, by which `gnap` is measured.
//!
//!     server as CONFIG LISTEN WORKERS QUOTA
//!     server load N START WORKERS
//!
//! The words are those of `gnap`, and so is the setup (docs/FORMATS.md, sections 3 and 9). `as` answers signed grant requests that are approved at once, and
//! signed introspections, by the same rules and with the same members. `load` makes the calls of `gnap load` at the same state, without HTTP. The rest isn't
//! there: other paths are 404 and other methods 405, a request that the user would have to be asked about is denied, and rights in full (objects) aren't read.
//! Fields are those of RFC 8941, of at most 64 members, and of digests SHA-256 alone is known.
#![allow(dead_code)]

mod base64;
mod calls;
mod chacha20;
mod fields;
mod http;
mod json;
mod load;
mod replies;
mod service;
mod setup;
mod sha256;
mod signatures;
mod state;

use std::{env, process};

const USAGE: &str = "usage: server as CONFIG LISTEN WORKERS QUOTA, or server load N START WORKERS";

fn number<T: std::str::FromStr>(word: &str) -> Result<T, String> {
    word.parse().map_err(|_| format!("{word} is no number"))
}

fn run(words: &[&str]) -> Result<(), String> {
    match words {
        ["as", config, listen, workers, quota] => service::serve(config, listen, number(workers)?, number(quota)?),
        ["load", grants, start, workers] => load::load(number(grants)?, number(start)?, number::<u64>(workers)?.max(1)),
        _ => Err(USAGE.to_owned()),
    }
}

fn main() {
    let words: Vec<String> = env::args().skip(1).collect();
    let words: Vec<&str> = words.iter().map(String::as_str).collect();
    if let Err(fault) = run(&words) {
        eprintln!("{fault}");
        process::exit(2);
    }
}
