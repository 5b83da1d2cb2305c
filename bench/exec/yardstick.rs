//! The yardstick of main.rt.txt: the interpreter of interpreter.rs.

use std::fs;
use std::time::Instant;

mod interpreter;
use interpreter::{Given, Prepared, read};

const RUNS: u32 = 20;
const ROUNDS: u32 = 5;
const NAMES: [&str; 6] = ["variable_loop", "phi_loop", "swapping_phis", "straight", "nested_selections", "traffic"];

fn time_module(name: &str) {
    let bytes = fs::read(format!("{name}.spv")).unwrap();
    let words: Vec<u32> = bytes.chunks_exact(4).map(|b| u32::from_le_bytes([b[0], b[1], b[2], b[3]])).collect();
    let module = read(&words);
    let uniform: Vec<u32> = (0..64).collect();
    let given = Given::default();
    let mut prepared = Prepared::new(&module, &[]);
    let mut best = u128::MAX;
    let mut ended = prepared.run(&given, &uniform);
    for _ in 0..ROUNDS {
        let start = Instant::now();
        for _ in 0..RUNS {
            ended = prepared.run(&given, &uniform);
        }
        best = best.min(start.elapsed().as_nanos());
    }
    assert!(ended.kind < 3);
    println!("{name}, a step\t{best}\t{}\t{}", ended.work * u64::from(RUNS), ended.slots[0][0]);
    let mut best = u128::MAX;
    let mut length = 0;
    for _ in 0..ROUNDS {
        let start = Instant::now();
        for _ in 0..RUNS {
            length += Prepared::new(&module, &[]).frame.len();
        }
        best = best.min(start.elapsed().as_nanos());
    }
    assert!(length > 0);
    println!("{name}, new, an instruction\t{best}\t{}", module.insts.len() as u32 * RUNS);
}

fn main() {
    for name in NAMES {
        time_module(name);
    }
}
