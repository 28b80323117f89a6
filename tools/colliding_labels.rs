//! Prints labels of seven letters and digits whose hashes agree in 13 low bits and 3 high ones: a table with up to
//! 8,192 groups puts them all in one chain. The hash is that of the kit's `indexmap` under its default hasher, whose
//! seed is fixed.
//!
//! usage: colliding_labels COUNT
use std::io::Write;

const SEED: u64 = 0x243f_6a88_85a3_08d3;
const MULTIPLIER: u64 = 0x9e37_79b9_7f4a_7c15;
const LETTERS: &[u8] = b"abcdefghijklmnopqrstuvwxyz0123456789";
const LENGTH: usize = 7;
const MASK: u32 = 0xe000_1fff;

fn folded(a: u64, b: u64) -> u64 {
    let product = u128::from(a) * u128::from(b);
    product as u64 ^ (product >> 64) as u64
}

/// The state after one more byte.
fn with_byte(state: u64, byte: u8) -> u64 {
    folded(state ^ u64::from(byte) * 0x01_0101, MULTIPLIER ^ 2)
}

/// Prints those that begin with this label and have one more letter, until `wanted` is 0.
fn print_last(label: &[u8], state: u64, wanted: &mut usize, out: &mut impl Write) {
    for &byte in LETTERS {
        let last = with_byte(state, byte);
        if (last ^ last >> 32) as u32 & MASK == 0 && *wanted > 0 {
            out.write_all(&[label, &[byte, b'\n']].concat()).expect("writing");
            *wanted -= 1;
        }
    }
}

/// Prints those that begin with this label, until `wanted` is 0.
fn print_from(label: &mut Vec<u8>, state: u64, wanted: &mut usize, out: &mut impl Write) {
    if label.len() + 1 == LENGTH {
        return print_last(label, state, wanted, out);
    }
    let letters = if label.is_empty() { &LETTERS[..26] } else { LETTERS };
    for &byte in letters {
        if *wanted == 0 {
            return;
        }
        label.push(byte);
        print_from(label, with_byte(state, byte), wanted, out);
        label.pop();
    }
}

fn main() {
    let mut wanted: usize = std::env::args().nth(1).expect("COUNT").parse().expect("COUNT");
    let state = folded(SEED ^ LENGTH as u64, MULTIPLIER ^ 2 * 8);
    let mut out = std::io::BufWriter::new(std::io::stdout().lock());
    print_from(&mut Vec::new(), state, &mut wanted, &mut out);
}
