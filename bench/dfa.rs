//! The loop of rx_dfa's full DFA, in Rust: what bench/dfa.py holds it against.
//!
//! `dfa NEEDLE` reads a text from standard input, makes the DFA of a search for the needle, and prints where its first match ends,
//! or the text does, and the nanoseconds of each of nine searches.
use std::io::Read;
use std::time::Instant;

const ROUNDS: usize = 9;

/// The state behind each text that ends with so many bytes of the needle. A match is told one byte late.
struct Dense {
    classes: [u8; 256],
    table: Vec<u32>,
    first_match: u32,
}

impl Dense {
    fn new(needle: &[u8]) -> Dense {
        let mut classes = [0; 256];
        let mut count = 1;
        for byte in needle {
            if classes[*byte as usize] == 0 {
                classes[*byte as usize] = count;
                count += 1;
            }
        }
        let stride = (count as usize + 1).next_power_of_two();
        let first_match = ((needle.len() + 1) * stride) as u32;
        let mut table = vec![0; first_match as usize];
        for state in 0..needle.len() {
            for byte in 0..=255u8 {
                let place = state * stride + classes[byte as usize] as usize;
                table[place] = (Dense::after(needle, state, byte) * stride) as u32;
            }
        }
        table[needle.len() * stride..].fill(first_match);
        Dense { classes, table, first_match }
    }

    /// How many bytes of the needle a text ends with that ended with so many, after this byte.
    fn after(needle: &[u8], state: usize, byte: u8) -> usize {
        let mut text = needle[..state].to_vec();
        text.push(byte);
        (0..=text.len()).rev().find(|len| needle.starts_with(&text[text.len() - len..])).unwrap_or(0)
    }

    #[inline(never)]
    fn find_end(&self, text: &[u8]) -> usize {
        let mut state = 0;
        let mut at = 0;
        while at < text.len() {
            let place = state as usize + self.classes[text[at] as usize] as usize;
            // SAFETY: each cell of the table is the place of a row, but for those that tell a match, at which the search ends.
            state = unsafe { *self.table.get_unchecked(place) };
            if state >= self.first_match {
                return at;
            }
            at += 1;
        }
        text.len()
    }
}

fn main() {
    let needle = std::env::args().nth(1).expect("a needle");
    let dfa = Dense::new(needle.as_bytes());
    let mut text = Vec::new();
    std::io::stdin().read_to_end(&mut text).expect("a text");
    for _ in 0..ROUNDS {
        let start = Instant::now();
        let end = dfa.find_end(&text);
        println!("end {end} nanoseconds {}", start.elapsed().as_nanos());
    }
}
