#!/usr/bin/env python3
"""Times, in one built program and in processor time, with keys and values of 8 bytes: `over_all` of 64 layers of 2,000 rows beside that of
2 layers of 64,000; `outputs` of 100,000 rows beside a plain pass over their keys and values (`sum * 31 + byte`); and merge, drop and cut
(`over_all`, `without_deletions`, `outputs`) of 200,000 rows in 8 layers beside `Layer::copy` of the same. Prints the rounds, and the
ratios of the best of each.

    python3 bench/compaction_outputs.py [FOLDER]"""
import sys
import tempfile

from built import SHORT_ROWS, best, build, numbers

ROUNDS = 9
PROGRAM = """//! Times what a compaction writes.
#![tactic(auto)]

ghost use Rattle.std.specs.Prelude.{◌<◌, ◌≤◌, All};
ghost use Rattle.pb_rows.specs.Layer.{IsShortRow};

use pb_compact::{outputs, without_deletions};
use pb_keys::{Bytes, Key, List};
use pb_rangedel::over_all;
use pb_rows::{Layer, Layers, Row};
use std::alloc::{AllocError, Global};
use std::io;
use std::time::{CpuClock, Duration};

fn digits(number: u32) -> [u8; 8] {
    let mut digits = [b'0'; 8];
    let mut rest = number;
    for place in 0..8 {
        digits[7 - place] = b'0' + (rest % 10) as u8;
        rest /= 10;
    }
    digits
}

/// Adds a row whose key and value are the number's digits.
fn add_row(alloc: Global, rows: &mut Vec<Row>, number: u32) -> Option<()>
    requires { All IsShortRow rows.old.items }
    ensures { All IsShortRow rows.new.items }
{
    let text = digits(number);
    let key = Key::new(alloc, &text).ok()?;
    let value = Some(Bytes::new(alloc, &text).ok()?);
    let row = Row { key, value };
    if row.is_short() {
        rows.push(row).ok()?;
    }
    Some(())
}

/// So many rows, of which each number is `step` above the one before.
fn layer_of(alloc: Global, first: u32, step: u32, count: u32) -> Option<Layer> {
    let mut rows = Vec::new(alloc);
    for number in 0..count {
        add_row(alloc, &mut rows, number.wrapping_mul(step).wrapping_add(first))?;
    }
    Layer::new(alloc, Vec::new(alloc), rows).ok()
}

fn add_layer(layers: &mut Vec<Layer>, layer: Layer) -> Option<()> {
    layers.push(layer).ok()?;
    Some(())
}

/// So many layers, whose rows lie between one another's.
fn layers_of(alloc: Global, layers: u32, count: u32) -> Option<Vec<Layer>> {
    let mut list = Vec::new(alloc);
    for first in 0..layers {
        let layer = layer_of(alloc, first, layers, count)?;
        add_layer(&mut list, layer)?;
    }
    Some(list)
}

fn copies(alloc: Global, layers: &[Layer]) -> Option<Vec<Layer>> {
    let mut copies = Vec::new(alloc);
    for layer in layers {
        let copy = layer.copy(alloc).ok()?;
        add_layer(&mut copies, copy)?;
    }
    Some(copies)
}

fn pass(layer: &Layer) -> u64 {
    let mut sum: u64 = 0;
    for row in layer.rows() {
        sum = pass_over(sum, row.key.as_bytes());
        if let Some(value) = &row.value {
            sum = pass_over(sum, value.as_slice());
        }
    }
    sum
}

fn pass_over(from: u64, bytes: &[u8]) -> u64 {
    let mut sum = from;
    for byte in bytes {
        sum = sum.wrapping_mul(31).wrapping_add(*byte as u64);
    }
    sum
}

fn compacted(alloc: Global, layers: Vec<Layer>) -> Result<Layers, AllocError> {
    let merged = over_all(alloc, List::from_vec(layers))?;
    let values = without_deletions(alloc, merged)?;
    let written = outputs(alloc, values)?;
    Ok(written)
}

fn rows_of(layer: &Option<Layer>) -> usize {
    match layer {
        Some(layer) => layer.rows().len(),
        None => 0,
    }
}

fn count_of(layers: &Option<Layers>) -> usize {
    match layers {
        Some(layers) => layers.as_slice().len(),
        None => 0,
    }
}

fn micros(from: Duration, to: Duration) -> u128 {
    to.saturating_sub(from).as_micros()
}

/// Prints the microseconds in which these are put over one another, and their rows.
fn time_over(rt: &HostRuntime, layers: Vec<Layer>) -> io::Result<()> {
    let start = rt.thread_cpu_time()?;
    let merged = over_all(rt.alloc(), List::from_vec(layers)).ok();
    let end = rt.thread_cpu_time()?;
    println!(rt; "{} {}", micros(start, end), rows_of(&merged))
}

/// Prints the microseconds of a pass over the layer's bytes and of its outputs, and how many there are.
fn time_outputs(rt: &HostRuntime, layer: Layer) -> io::Result<()> {
    let start = rt.thread_cpu_time()?;
    let sum = pass(&layer);
    let passed = rt.thread_cpu_time()?;
    let written = outputs(rt.alloc(), layer).ok();
    let end = rt.thread_cpu_time()?;
    println!(rt; "{} {} {} {sum}", micros(start, passed), micros(passed, end), count_of(&written))
}

/// Prints the microseconds of a copy of these and of their compaction, and how many outputs there are.
fn time_all(rt: &HostRuntime, layers: Vec<Layer>) -> io::Result<()> {
    let start = rt.thread_cpu_time()?;
    let copies = copies(rt.alloc(), layers.as_slice());
    let copied = rt.thread_cpu_time()?;
    let is_copied = copies.is_some();
    let begin = rt.thread_cpu_time()?;
    let written = compacted(rt.alloc(), layers).ok();
    let end = rt.thread_cpu_time()?;
    println!(rt; "{} {} {} {is_copied}", micros(start, copied), micros(begin, end), count_of(&written))
}

fn time_two(rt: &HostRuntime) -> io::Result<()> {
    let many = layers_of(rt.alloc(), 64, 2_000);
    let few = layers_of(rt.alloc(), 2, 64_000);
    match (many, few) {
        (Some(many), Some(few)) => {
            time_over(rt, many)?;
            time_over(rt, few)
        }
        _ => println!(rt; "no memory"),
    }
}

fn main(rt: HostRuntime) -> io::Result<()> {
    time_two(&rt)?;
    let whole = layer_of(rt.alloc(), 0, 1, 100_000);
    let parts = layers_of(rt.alloc(), 8, 25_000);
    match (whole, parts) {
        (Some(whole), Some(parts)) => {
            time_outputs(&rt, whole)?;
            time_all(&rt, parts)
        }
        _ => println!(rt; "no memory"),
    }
}
"""


def main():
    folder = sys.argv[1] if len(sys.argv) > 1 else tempfile.mkdtemp()
    libraries = ["pb_compact", "pb_rangedel", "pb_rows", "pb_keys"]
    program = build(folder, "outputs_bench", libraries, PROGRAM, {"layer_of/Invariants.antt": SHORT_ROWS})
    rounds = [numbers(program) for _ in range(ROUNDS)]
    for figures in rounds:
        print(" ".join(map(str, figures)))
    many, _, few, _, passed, cut, *_ = figures = best(rounds)
    copied, compacted = figures[8:10]
    print(f"over_all of 64 layers {many / 1000:.2f} ms, of 2 {few / 1000:.2f} ms: {many / few:.2f}")
    print(f"outputs {cut / 1000:.2f} ms, a pass {passed / 1000:.2f} ms: {cut / passed:.2f}")
    print(f"merge, drop and cut {compacted / 1000:.2f} ms, a copy {copied / 1000:.2f} ms: {compacted / copied:.2f}")


if __name__ == "__main__":
    main()
