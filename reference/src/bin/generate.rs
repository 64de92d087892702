//! `generate SEED` prints the random script of a seed for `panes`, `generate
//! calls SEED` one for `calls`. `generate --stats COUNT` and `generate calls
//! --stats COUNT` run the scripts of the seeds 1 to COUNT and print what they
//! did.

use reference::generator::{script, stats::Stats};
use reference::script::Language;
use std::io::Write;

fn main() {
    let arguments: Vec<String> = std::env::args().skip(1).collect();
    let words: Vec<&str> = arguments.iter().map(String::as_str).collect();
    match output(&words) {
        Some(bytes) => {
            if std::io::stdout().write_all(&bytes).is_err() {
                std::process::exit(1);
            }
        }
        None => {
            eprintln!("usage: generate [panes|calls] SEED | generate [panes|calls] --stats COUNT");
            std::process::exit(2);
        }
    }
}

/// What is asked for; nothing if it is not understood.
fn output(words: &[&str]) -> Option<Vec<u8>> {
    let named = words.first().and_then(|word| Language::named(word));
    let rest = &words[usize::from(named.is_some())..];
    let language = named.unwrap_or_default();
    match rest {
        ["--stats", count] => {
            let report = Stats::of(language, count.parse().ok()?).report();
            Some((report + "\n").into_bytes())
        }
        [seed] => Some(script(language, seed.parse().ok()?)),
        _ => None,
    }
}
