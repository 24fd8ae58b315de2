#!/usr/bin/env python3
"""Times blocks of 100,000 rows with keys and values of 8 bytes and a restart at every 16th, in one built program and in processor time:
`BlockReader::new` and a whole pass of a cursor, each beside a plain pass over the same bytes (`sum * 31 + byte`); and `seek` in a block of
150 such rows beside a binary search in a `Vec` of its keys. Prints the rounds, and the ratios of the best of each.

    python3 bench/blocks.py [FOLDER]"""
import sys
import tempfile

from built import best, build, numbers

ROUNDS = 9
PROGRAM = """//! Times blocks.
#![tactic(auto)]

ghost use Rattle.std.specs.Prelude.{◌≤◌, IfSome, length};

use pb_block::{BlockReader, BlockWriter};
use pb_keys::{Bytes, Key};
use std::alloc::Global;
use std::io;
use std::time::{CpuClock, Duration};

const ROWS: u32 = 50_000;
const FEW: u32 = 150;
const TIMES: u32 = 1_000;

fn digits(number: u32) -> [u8; 8] {
    let mut digits = [b'0'; 8];
    let mut rest = number;
    for place in 0..8 {
        digits[7 - place] = b'0' + (rest % 10) as u8;
        rest /= 10;
    }
    digits
}

/// Adds the row whose key and value are the number's digits.
fn add(alloc: Global, writer: &mut BlockWriter<16>, number: u32) -> Option<()>
    ensures { IfSome result (λ _. 1 ≤ length writer.new) }
{
    let text = digits(number);
    let key = Key::new(alloc, &text).ok()?;
    let value = Some(text.as_slice());
    if !writer.may_add(&key, value) {
        return None;
    }
    match writer.add(alloc, &key, value) {
        Ok(()) => Some(()),
        Err(_) => None,
    }
}

/// The block of the rows of these numbers.
fn block_of(alloc: Global, first: u32, last: u32) -> Option<Bytes> {
    let mut writer = BlockWriter::<16>::new(alloc);
    for number in first..last {
        add(alloc, &mut writer, number)?;
    }
    add(alloc, &mut writer, last)?;
    writer.finish(alloc).ok()
}

fn pass(bytes: &[u8]) -> u64 {
    let mut sum: u64 = 0;
    for byte in bytes {
        sum = sum.wrapping_mul(31).wrapping_add(*byte as u64);
    }
    sum
}

/// The lengths of all keys and values.
fn lengths(reader: &BlockReader<'_, 16>) -> usize {
    let mut sum: usize = 0;
    let mut cursor = reader.seek(b"", b"");
    for _ in 0..ROWS {
        if !cursor.advance() {
            break;
        }
        sum = sum.wrapping_add(cursor.key().len());
        if let Some(value) = cursor.value() {
            sum = sum.wrapping_add(value.len());
        }
    }
    sum
}

fn micros(from: Duration, to: Duration) -> u128 {
    to.saturating_sub(from).as_micros()
}

/// Prints the microseconds of a pass over the bytes, of a reader and of a cursor's pass.
fn time_block(rt: &HostRuntime, bytes: &[u8]) -> io::Result<()> {
    let start = rt.thread_cpu_time()?;
    let sum = pass(bytes);
    let passed = rt.thread_cpu_time()?;
    let reader = BlockReader::<16>::new(bytes);
    let read = rt.thread_cpu_time()?;
    let Some(reader) = reader else {
        return println!(rt; "no block");
    };
    let begin = rt.thread_cpu_time()?;
    let rows = lengths(&reader);
    let end = rt.thread_cpu_time()?;
    println!(rt; "{} {} {} {sum} {rows}", micros(start, passed), micros(passed, read), micros(begin, end))
}

fn add_key(alloc: Global, keys: &mut Vec<Key>, number: u32) -> Option<()> {
    let key = Key::new(alloc, &digits(number)).ok()?;
    keys.push(key).ok()?;
    Some(())
}

/// The keys of a block of few rows, in order or not.
fn keys_of(alloc: Global, step: u32) -> Option<Vec<Key>> {
    let mut keys = Vec::new(alloc);
    for number in 0..FEW {
        add_key(alloc, &mut keys, number.wrapping_mul(step) % FEW)?;
    }
    Some(keys)
}

fn sought(reader: &BlockReader<'_, 16>, wanted: &[Key]) -> usize {
    let mut sum: usize = 0;
    for key in wanted {
        let mut cursor = reader.seek(key.prefix(), key.suffix());
        if cursor.advance() {
            sum = sum.wrapping_add(cursor.key().len());
        }
    }
    sum
}

fn sought_times(reader: &BlockReader<'_, 16>, wanted: &[Key]) -> usize {
    let mut sum: usize = 0;
    for _ in 0..TIMES {
        sum = sum.wrapping_add(sought(reader, wanted));
    }
    sum
}

fn searched(keys: &[Key], wanted: &[Key]) -> usize {
    let mut sum: usize = 0;
    for key in wanted {
        if let Ok(at) = keys.binary_search(key) {
            sum = sum.wrapping_add(at);
        }
    }
    sum
}

fn searched_times(keys: &[Key], wanted: &[Key]) -> usize {
    let mut sum: usize = 0;
    for _ in 0..TIMES {
        sum = sum.wrapping_add(searched(keys, wanted));
    }
    sum
}

/// Prints the microseconds of all seeks and of all searches.
fn time_seeks(rt: &HostRuntime, bytes: &[u8], keys: &[Key], wanted: &[Key]) -> io::Result<()> {
    let Some(reader) = BlockReader::<16>::new(bytes) else {
        return println!(rt; "no block");
    };
    let start = rt.thread_cpu_time()?;
    let found = sought_times(&reader, wanted);
    let sought = rt.thread_cpu_time()?;
    let sum = searched_times(keys, wanted);
    let end = rt.thread_cpu_time()?;
    println!(rt; "{} {} {found} {sum}", micros(start, sought), micros(sought, end))
}

fn time_few(rt: &HostRuntime) -> io::Result<()> {
    let bytes = block_of(rt.alloc(), 0, FEW - 1);
    let keys = keys_of(rt.alloc(), 1);
    let wanted = keys_of(rt.alloc(), 77);
    match (bytes, keys, wanted) {
        (Some(bytes), Some(keys), Some(wanted)) => {
            time_seeks(rt, bytes.as_slice(), keys.as_slice(), wanted.as_slice())
        }
        _ => println!(rt; "no memory"),
    }
}

fn main(rt: HostRuntime) -> io::Result<()> {
    let front = block_of(rt.alloc(), 0, ROWS - 1);
    let back = block_of(rt.alloc(), ROWS, 2 * ROWS - 1);
    match (front, back) {
        (Some(front), Some(back)) => {
            time_block(&rt, front.as_slice())?;
            time_block(&rt, back.as_slice())?;
            time_few(&rt)
        }
        _ => println!(rt; "no memory"),
    }
}
"""


def main():
    folder = sys.argv[1] if len(sys.argv) > 1 else tempfile.mkdtemp()
    program = build(folder, "blocks_bench", ["pb_block", "pb_keys"], PROGRAM, {})
    rounds = [numbers(program) for _ in range(ROUNDS)]
    for figures in rounds:
        print(" ".join(map(str, figures)))
    figures = best(rounds)
    passed, read, walked = (figures[at] + figures[at + 5] for at in (0, 1, 2))
    sought, searched = figures[10:12]
    print(f"a pass over the bytes {passed / 1000:.2f} ms; new {read / 1000:.2f} ms, {read / passed:.2f} passes;", end=" ")
    print(f"a cursor's pass {walked / 1000:.2f} ms, {walked / passed:.2f} passes")
    print(f"seek {sought / 150:.0f} ns in 150 rows, a binary search {searched / 150:.0f} ns: {sought / searched:.2f}")


if __name__ == "__main__":
    main()
