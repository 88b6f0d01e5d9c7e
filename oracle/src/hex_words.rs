//! The fixed lists' form: a word of 64 bits as 16 hex digits on each line.

use std::io::BufRead;

/// A program takes an input of fewer bytes than these; a word is a line of 17.
const MOST_WORDS: usize = 65_535 / 17;

/// Prints a list for a program to read.
pub fn print_list(words: &[u64]) {
    assert!(words.len() <= MOST_WORDS, "the list is too long");
    print_words(words);
}

pub fn print_words(words: &[u64]) {
    for word in words {
        println!("{word:016x}");
    }
}

/// Reads all of standard input.
pub fn read_words() -> Result<Vec<u64>, String> {
    let lines = std::io::stdin().lock().lines().enumerate();
    lines
        .map(|(number, line)| {
            let line = line.map_err(|error| error.to_string())?;
            word(&line).ok_or_else(|| format!("line {}: not 16 hex digits: {line}", number + 1))
        })
        .collect()
}

fn word(line: &str) -> Option<u64> {
    let digits_only = line.len() == 16 && line.bytes().all(|byte| byte.is_ascii_hexdigit());
    if digits_only {
        u64::from_str_radix(line, 16).ok()
    } else {
        None
    }
}
