//! The least that a call costs: its bytes are read, the tails of the six rows of words that an event comes into or goes out of are moved, and the answer's
//! bytes are written.
use std::hint::black_box;

/// Places, alterations and lengths, and the bars, ticks and signs that are kept with them, as six rows of words.
#[derive(Clone)]
pub struct Rows {
    rows: [Vec<u32>; 6],
    used: usize,
}

fn read(input: &[u8]) {
    let mut bytes = [0; 16];
    bytes[..input.len()].copy_from_slice(input);
    black_box(bytes);
}

impl Rows {
    pub fn new(used: usize) -> Rows {
        Rows { rows: std::array::from_fn(|row| vec![row as u32; used]), used }
    }

    #[inline(never)]
    pub fn put(&mut self, at: usize, input: &[u8], bytes: &mut [u8]) {
        read(input);
        for row in &mut self.rows {
            row.copy_within(at..self.used, at + 1);
            row[at] = 48;
        }
        self.used += 1;
        bytes[0] = 0;
    }

    #[inline(never)]
    pub fn cut(&mut self, at: usize, input: &[u8], bytes: &mut [u8]) {
        read(input);
        for row in &mut self.rows {
            row.copy_within(at + 1..self.used, at);
            row[self.used - 1] = 0;
        }
        self.used -= 1;
        bytes[0] = 0;
    }

    #[inline(never)]
    pub fn change(&mut self, at: usize, input: &[u8], bytes: &mut [u8]) {
        read(input);
        for row in &mut self.rows {
            row[at] = 48;
        }
        bytes[0] = 0;
    }
}

/// Writes an answer that is known.
#[inline(never)]
pub fn write(input: &[u8], answer: &[u8], bytes: &mut [u8]) {
    read(input);
    bytes[..answer.len()].copy_from_slice(answer);
}
