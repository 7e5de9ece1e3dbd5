//! Puts, gets and rewrites of keys with the crate `crdts`: an `MVReg` for each key, in a hash map. The words are the
//! number of keys, the length of a key in bytes, or 0 for keys `key-N`, and the length of a value. Keys and values are
//! those of bench/entries.h. Prints a line of JSON, with members named as in bench/calls.c. Reads are gets, done again.
use crdts::{CmRDT, MVReg};
use std::collections::HashMap;
use std::time::Instant;

const NODE: u16 = 1;

type Registers = HashMap<Vec<u8>, MVReg<Vec<u8>, u16>>;

const SCRAMBLE: u64 = 0x9e37_79b9_7f4a_7c15;

/// The lengths of keys and values.
struct Shape {
    key_bytes: usize,
    value_bytes: usize,
}

impl Shape {
    fn key_of(&self, number: u64) -> Vec<u8> {
        if self.key_bytes == 0 {
            return format!("key-{number}").into_bytes();
        }
        let mut key = format!("user:{:016x}", number.wrapping_mul(SCRAMBLE)).into_bytes();
        key.resize(self.key_bytes.max(13), b'z');
        key
    }

    /// Returns the value of a number. Its first 32 bytes differ from those of each other number.
    fn value_of(&self, number: u64) -> Vec<u8> {
        let mut value = Vec::with_capacity(self.value_bytes.max(32));
        let mut x = number;
        for _ in 0..4 {
            x = x.wrapping_add(SCRAMBLE);
            let mut y = (x ^ (x >> 30)).wrapping_mul(0xbf58_476d_1ce4_e5b9);
            y ^= y >> 27;
            value.extend_from_slice(&y.to_be_bytes());
        }
        value.resize(self.value_bytes, 7);
        value
    }

    fn put(&self, registers: &mut Registers, number: u64, of: u64) {
        let register = registers.entry(self.key_of(number)).or_default();
        let context = register.read_ctx().derive_add_ctx(NODE);
        let op = register.write(self.value_of(of), context);
        register.apply(op);
    }

    fn get(&self, registers: &Registers, number: u64) {
        let values = registers[&self.key_of(number)].read().val;
        assert_eq!(values.len(), 1);
    }
}

fn main() {
    let words: Vec<usize> = std::env::args().skip(1).map(|word| word.parse().expect("a number")).collect();
    let &[keys, key_bytes, value_bytes] = words.as_slice() else {
        panic!("the words are KEYS KEY_BYTES VALUE_BYTES");
    };
    let (keys, shape) = (keys as u64, Shape { key_bytes, value_bytes });
    let mut registers = Registers::new();
    let mut paces = Vec::new();
    for phase in ["puts", "gets", "reads", "rewrites"] {
        let from = Instant::now();
        for number in 0..keys {
            match phase {
                "puts" => shape.put(&mut registers, number, number),
                "gets" | "reads" => shape.get(&registers, number),
                _ => shape.put(&mut registers, number, keys + number),
            }
        }
        let a_second = keys as f64 / from.elapsed().as_secs_f64();
        paces.push(format!("\"{phase}_per_s\":{a_second:.0}"));
    }
    println!("{{\"keys\":{keys},{}}}", paces.join(","));
}
