//! Times reading a packed query of 1,024 by 1,024 cells beside the same reader written in Rust: a cursor by value, and each field from the five bytes at its place.
mod common;
// Only the reading is called here.
#[allow(dead_code)]
#[path = "../bindings/rust/src/ffi.rs"]
mod ffi;

use common::{least, Random};
use ffi::{walls_c_read_packed, READ_WORDS};
use std::hint::black_box;

#[derive(Copy, Clone)]
struct Bits {
    at: usize,
}

fn five(s: &[u8], i: usize) -> u64 {
    let byte = |k: usize| u64::from(s.get(i + k).copied().unwrap_or(0));
    if i + 4 < s.len() {
        return s[i..i + 5].iter().fold(0, |n, b| n * 256 + u64::from(*b));
    }
    (0..5).fold(0, |n, k| n * 256 + byte(k))
}

impl Bits {
    fn get(self, s: &[u8], n: usize) -> (u32, Bits) {
        let value = five(s, self.at / 8) >> (40 - (self.at % 8 + n)) & ((1 << n) - 1);
        (value as u32, Bits { at: self.at + n })
    }
}

/// The cells of a packed query, once its length is seen to be right.
fn cells(s: &[u8], out: &mut [u8]) -> bool {
    let header = five(s, 0);
    let (width, height) = ((header >> 30) as usize + 1, (header >> 20) as usize % 1024 + 1);
    let count = width * height;
    let words = 4 * ((header >> 6) as usize % 16384) + 12 + 8 * (header as usize % 64);
    if s.len() != (40 + 5 * count + 32 * words + 7) / 8 || out.len() < count {
        return false;
    }
    let mut cursor = Bits { at: 40 };
    for cell in &mut out[..count] {
        let (value, next) = cursor.get(s, 5);
        *cell = value as u8;
        cursor = next;
    }
    true
}

fn main() {
    let count = 1024 * 1024;
    let mut packed = vec![0u8; (40 + 5 * count + 32 * 12 + 7) / 8];
    packed[..3].copy_from_slice(&[0xff, 0xff, 0xf0]);
    let mut random = Random::new();
    for byte in &mut packed[5..5 + 5 * count / 8] {
        *byte = random.below(256) as u8;
    }
    let (mut ours, mut theirs, mut answer) = (vec![0u8; count], vec![0u8; count], [0; READ_WORDS]);
    let mut obstacles = [0; 1];
    let rust = least(41, 1, || assert!(cells(black_box(&packed), black_box(&mut theirs)))) / 1e6;
    let this = least(41, 1, || {
        let number = unsafe { walls_c_read_packed(packed.as_ptr(), packed.len(), ours.as_mut_ptr(), ours.len(), obstacles.as_mut_ptr(), 1, answer.as_mut_ptr(), answer.len()) };
        assert_eq!(number, 0);
    }) / 1e6;
    assert!(ours == theirs, "the cells differ");
    println!("1,048,576 cells: Rust {rust:.2} ms, this {this:.2} ms, {:.2} times as fast", rust / this);
}
