//! The loops of rx_prefilter's `ByteSet` and `AhoCorasick`, in Rust: what bench/prefilters.py holds them against.
//!
//! `loops NEEDLES` reads a text from standard input, searches it for the needles, which commas part, and prints how many
//! were found, each from the end of the one before it on, and the nanoseconds of each of nine searches.
use std::io::Read;
use std::time::Instant;

const ROUNDS: usize = 9;
const STOP: u32 = u32::MAX;

type Span = (usize, usize);

trait Search {
    fn find(&self, text: &[u8], from: usize) -> Option<Span>;
}

struct ByteSet {
    is_needle: [bool; 256],
}

impl ByteSet {
    fn new(needles: &[Vec<u8>]) -> ByteSet {
        let mut is_needle = [false; 256];
        for needle in needles {
            is_needle[needle[0] as usize] = true;
        }
        ByteSet { is_needle }
    }
}

impl Search for ByteSet {
    #[inline(never)]
    fn find(&self, text: &[u8], from: usize) -> Option<Span> {
        for at in from..text.len() {
            if self.is_needle[text[at] as usize] {
                return Some((at, at + 1));
            }
        }
        None
    }
}

struct AhoCorasick {
    needles: Vec<Vec<u8>>,
    next: Vec<u32>,
    depths: Vec<usize>,
}

impl AhoCorasick {
    fn new(needles: Vec<Vec<u8>>) -> AhoCorasick {
        let (mut next, mut depths, mut ends) = (vec![STOP; 256], vec![0], vec![false]);
        for needle in &needles {
            let mut state = 0;
            for byte in needle {
                let place = state * 256 + *byte as usize;
                if next[place] == STOP {
                    next[place] = depths.len() as u32;
                    depths.push(depths[state] + 1);
                    ends.push(false);
                    next.extend_from_slice(&[STOP; 256]);
                }
                state = next[place] as usize;
            }
            ends[state] = true;
        }
        let mut fails = vec![STOP; depths.len()];
        let mut queue = vec![0];
        let mut turn = 0;
        while turn < queue.len() {
            let state = queue[turn];
            turn += 1;
            for byte in 0..256 {
                let place = state * 256 + byte;
                let later = match fails[state] {
                    _ if state == 0 => 0,
                    STOP => STOP,
                    fail => next[fail as usize * 256 + byte],
                };
                let child = next[place];
                if child == STOP {
                    next[place] = later;
                } else if depths[child as usize] > depths[state] {
                    queue.push(child as usize);
                    if !ends[child as usize] {
                        fails[child as usize] = later;
                    }
                }
            }
        }
        AhoCorasick { needles, next, depths }
    }

    #[inline(never)]
    fn look_back(&self, text: &[u8], at: usize, state: usize) -> Option<Span> {
        for start in at - self.depths[state]..at + 1 {
            for needle in &self.needles {
                if text[start..].starts_with(needle) {
                    return Some((start, start + needle.len()));
                }
            }
        }
        None
    }
}

impl Search for AhoCorasick {
    #[inline(never)]
    fn find(&self, text: &[u8], from: usize) -> Option<Span> {
        let mut state = 0;
        for at in from..text.len() {
            let next = self.next[state * 256 + text[at] as usize];
            if next != STOP {
                state = next as usize;
                continue;
            }
            if let Some(span) = self.look_back(text, at, state) {
                return Some(span);
            }
            state = 0;
        }
        self.look_back(text, text.len(), state)
    }
}

fn count(search: &impl Search, text: &[u8]) -> usize {
    let (mut count, mut start) = (0, 0);
    while start < text.len() {
        let Some((_, end)) = search.find(text, start) else {
            break;
        };
        count += 1;
        start = end;
    }
    count
}

fn time(search: &impl Search, text: &[u8]) {
    for _ in 0..ROUNDS {
        let start = Instant::now();
        let found = count(search, text);
        println!("found {found} nanoseconds {}", start.elapsed().as_nanos());
    }
}

fn main() {
    let needles = std::env::args().nth(1).expect("needles");
    let needles: Vec<Vec<u8>> = needles.split(',').map(|needle| needle.as_bytes().to_vec()).collect();
    let mut text = Vec::new();
    std::io::stdin().read_to_end(&mut text).expect("a text");
    if needles.iter().all(|needle| needle.len() == 1) {
        time(&ByteSet::new(&needles), &text);
    } else {
        time(&AhoCorasick::new(needles), &text);
    }
}
