//! The Rust beside us, asked line by line on standard input; one line answers each:
//!
//!     plan HEX                        words N W W ..: the tree of a book
//!     read FILE                       the same of the book in a file
//!     walk HEX NUMBERS IDENTITIES     found RULE RESULT, or nothing: the last book's tree walked
//!     sets CALL CALL ..               one answer a call, then the store
//!     time COUNT HEX                  nanoseconds for planning a book COUNT times, reading included
//!
//! HEX is bytes in hexadecimal, lists are parted by commas, and `-` is an empty one. An assertion of
//! the original that fires is answered by `panicked` and what it said.

include!(concat!(env!("OUT_DIR"), "/originals.rs"));
mod book;
#[path = "../standin/lexer.rs"]
mod lexer;
mod sets;
#[path = "../standin/trie_again.rs"]
mod trie_again;
mod walk;
mod words;

use std::io::{BufRead, Write};
use std::panic::{self, AssertUnwindSafe};
use std::sync::Mutex;
use std::time::Instant;

/// What the last panic said.
static SAID: Mutex<String> = Mutex::new(String::new());

fn main() {
    panic::set_hook(Box::new(|info| *SAID.lock().unwrap() = info.to_string()));
    let mut last_tree = serialize::Block::default();
    let mut out = std::io::stdout().lock();
    for line in std::io::stdin().lock().lines() {
        let line = line.expect("standard input is text");
        let asked = panic::catch_unwind(AssertUnwindSafe(|| answer(&line, &mut last_tree)));
        let told = match asked {
            Ok(Ok(told)) => told,
            Ok(Err(why)) => format!("unreadable {why}"),
            Err(_) => format!("panicked {}", SAID.lock().unwrap().replace('\n', " ")),
        };
        writeln!(out, "{told}")
            .and_then(|()| out.flush())
            .expect("standard output is open");
    }
}

fn answer(line: &str, last_tree: &mut serialize::Block) -> Result<String, String> {
    let (command, rest) = line.split_once(' ').unwrap_or((line, ""));
    match command {
        "plan" => tell_tree(&bytes(rest)?, last_tree),
        "read" => tell_tree(&std::fs::read(rest).map_err(|e| e.to_string())?, last_tree),
        "walk" => Ok(match walk::walk(last_tree, &reading(rest)?) {
            Some((rule, result)) => format!("found {rule} {result}"),
            None => "nothing".into(),
        }),
        "sets" => sets::answers(rest),
        "time" => time(rest),
        _ => Err(format!("no command: {command}")),
    }
}

fn tell_tree(book: &[u8], last_tree: &mut serialize::Block) -> Result<String, String> {
    *last_tree = plan(book)?;
    let words = words::tree_words(last_tree);
    let told: Vec<_> = words.iter().map(u32::to_string).collect();
    Ok(format!("words {} {}", words.len(), told.join(" ")))
}

fn plan(book: &[u8]) -> Result<serialize::Block, String> {
    Ok(serialize::serialize(&book::rule_set(book)?))
}

fn time(rest: &str) -> Result<String, String> {
    let (count, hex) = rest.split_once(' ').ok_or("a count and a book")?;
    let count = count.parse().map_err(|_| "a count is a number")?;
    let book = bytes(hex)?;
    let start = Instant::now();
    for _ in 0..count {
        std::hint::black_box(plan(std::hint::black_box(&book))?);
    }
    Ok(format!("nanoseconds {}", start.elapsed().as_nanos()))
}

fn reading(rest: &str) -> Result<walk::Reading, String> {
    let mut parts = rest.split(' ');
    let mut next = || parts.next().ok_or("a reading has three lists");
    Ok(walk::Reading {
        kinds: bytes(next()?)?,
        numbers: list(next()?)?,
        identities: list(next()?)?,
    })
}

fn list<T: std::str::FromStr>(text: &str) -> Result<Vec<T>, String> {
    let entries = text.split(',').filter(|_| text != "-");
    entries
        .map(|entry| entry.parse().map_err(|_| format!("no number: {entry}")))
        .collect()
}

fn bytes(hex: &str) -> Result<Vec<u8>, String> {
    let hex = if hex == "-" { "" } else { hex };
    let pair = |at: usize| {
        hex.get(at..at + 2)
            .and_then(|two| u8::from_str_radix(two, 16).ok())
    };
    (0..hex.len())
        .step_by(2)
        .map(|at| pair(at).ok_or("no hexadecimal".into()))
        .collect()
}
