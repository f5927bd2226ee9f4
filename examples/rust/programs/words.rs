//! Counts the words of its input: the ten most frequent, by falling count, the longest, and the mean length.
#![no_std]
#![no_main]

extern crate alloc;

use alloc::collections::BTreeMap;
use alloc::string::String;
use alloc::vec::Vec;
use sfi_guest::println;

const SHOWN: usize = 10;

fn counted(text: &str) -> BTreeMap<String, u32> {
    let mut counts = BTreeMap::new();
    for word in text
        .split(|letter: char| !letter.is_alphanumeric())
        .filter(|word| !word.is_empty())
    {
        *counts.entry(word.to_lowercase()).or_insert(0) += 1;
    }
    counts
}

fn by_count(counts: &BTreeMap<String, u32>) -> Vec<(&String, u32)> {
    let mut found: Vec<_> = counts.iter().map(|(word, &count)| (word, count)).collect();
    found.sort_by(|one, other| other.1.cmp(&one.1).then(one.0.cmp(other.0)));
    found
}

fn run() -> i32 {
    let input = sfi_guest::rest_of_input();
    let counts = counted(&String::from_utf8_lossy(&input));
    let words: u32 = counts.values().sum();
    println!(
        "{} bytes, {} words, {} different",
        input.len(),
        words,
        counts.len()
    );
    for (rank, (word, count)) in by_count(&counts).iter().take(SHOWN).enumerate() {
        println!("{:>2}. {:<12} {:>5} {:#06x}", rank + 1, word, count, count);
    }
    if let Some(longest) = counts.keys().max_by_key(|word| word.chars().count()) {
        println!("longest: {:?}", longest);
        let letters: u32 = counts
            .iter()
            .map(|(word, count)| word.chars().count() as u32 * count)
            .sum();
        let thousandths = u64::from(letters) * 1000 / u64::from(words);
        println!(
            "mean length: {}.{:03}",
            thousandths / 1000,
            thousandths % 1000
        );
    }
    (words % 256) as i32
}

sfi_guest::main!(run);
