//! Counts the words of standard input with several threads, each with a handle of its own, and lists them in order.
//!
//!     words THREADS <TEXT
use hot::{Error, Handle, Hot, MAX_KEY};
use std::io::{self, Read, Write};
use std::thread;

/// Counts the words of a part of the text.
fn count(handle: &Handle, text: &[u8]) -> Result<(), Error> {
    let words = text
        .split(|byte| !byte.is_ascii_alphabetic())
        .filter(|word| !word.is_empty());
    for word in words {
        handle.fetch_add(&word[..word.len().min(MAX_KEY)], 1)?;
    }
    Ok(())
}

/// Cuts a text in so many parts, each of which ends where no word goes on.
fn parts(mut text: &[u8], count: usize) -> Vec<&[u8]> {
    (1..=count)
        .rev()
        .map(|left| {
            let least = text.len() / left;
            let rest = &text[least..];
            let end = least
                + rest
                    .iter()
                    .position(|byte| !byte.is_ascii_alphabetic())
                    .unwrap_or(rest.len());
            let (part, after) = text.split_at(end);
            text = after;
            part
        })
        .collect()
}

fn main() -> Result<(), Box<dyn std::error::Error>> {
    let threads = std::env::args().nth(1).map_or(Ok(4), |word| word.parse())?;
    let mut text = Vec::new();
    io::stdin().read_to_end(&mut text)?;
    let hot = Hot::with_capacity(100_000, 24, threads)?;
    thread::scope(|scope| {
        let started: Vec<_> = parts(&text, threads)
            .into_iter()
            .map(|part| {
                let hot = &hot;
                scope.spawn(move || count(&hot.handle()?, part))
            })
            .collect();
        started
            .into_iter()
            .try_for_each(|it| it.join().expect("no thread panics"))
    })?;
    let mut out = io::stdout().lock();
    for (word, times) in &hot.handle()? {
        writeln!(out, "{} {times}", String::from_utf8_lossy(&word))?;
    }
    Ok(())
}
