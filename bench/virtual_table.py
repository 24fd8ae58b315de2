#!/usr/bin/env python3
"""Times `VirtualTable::layer` of a table of 100,000 rows, with keys and values of 8 bytes and 10,000 deletions, through bounds that hold
all of them, beside `read_table` of the same bytes, in one built program and in processor time. Prints the rounds, and the ratio of the
best of each.

    python3 bench/virtual_table.py [FOLDER]"""
import sys
import tempfile

from built import SHORT_ROWS, best, build, numbers

ROUNDS = 9
PROGRAM = """//! Times what a table shows through its view.
#![tactic(auto)]

ghost use Rattle.std.specs.Prelude.{All};
ghost use Rattle.pb_rows.specs.Layer.{IsShortRow};

use pb_keys::{Bytes, Key, Span, View};
use pb_rows::{Layer, Row};
use pb_table::{NEW_TABLE_FORMAT, read_table, write_table};
use pb_virtual::VirtualTable;
use std::alloc::{AllocError, Global};
use std::io;
use std::time::{CpuClock, Duration};

fn digits(number: u32) -> [u8; 8] {
    let mut digits = [b'0'; 8];
    let mut rest = number;
    for place in 0..8 {
        digits[7 - place] = b'0' + (rest % 10) as u8;
        rest /= 10;
    }
    digits
}

/// Adds a row whose key and value are the number's digits.
fn add_row(alloc: Global, rows: &mut Vec<Row>, number: u32) -> Option<()>
    requires { All IsShortRow rows.old.items }
    ensures { All IsShortRow rows.new.items }
{
    let text = digits(number);
    let key = Key::new(alloc, &text).ok()?;
    let value = Some(Bytes::new(alloc, &text).ok()?);
    let row = Row { key, value };
    if row.is_short() {
        rows.push(row).ok()?;
    }
    Some(())
}

fn add_del(alloc: Global, dels: &mut Vec<Span>, number: u32) -> Option<()> {
    let lo = number.wrapping_mul(10);
    let del = Span::new(alloc, &digits(lo), &digits(lo.wrapping_add(5))).ok()?;
    dels.push(del).ok()?;
    Some(())
}

fn dels_of(alloc: Global, count: u32) -> Option<Vec<Span>> {
    let mut dels = Vec::new(alloc);
    for number in 0..count {
        add_del(alloc, &mut dels, number)?;
    }
    Some(dels)
}

fn layer_of(alloc: Global, count: u32, dels: Vec<Span>) -> Option<Layer> {
    let mut rows = Vec::new(alloc);
    for number in 0..count {
        add_row(alloc, &mut rows, number)?;
    }
    Layer::new(alloc, dels, rows).ok()
}

fn table_of(alloc: Global, layer: &Layer) -> Option<Bytes> {
    let dels = layer.dels();
    let rows = layer.rows();
    if dels.is_empty() && rows.is_empty() {
        return None;
    }
    write_table(alloc, layer, NEW_TABLE_FORMAT).ok()
}

/// What the table with these bounds shows of the bytes.
fn shown(alloc: Global, bounds: Span, bytes: &[u8]) -> Result<Option<Layer>, AllocError> {
    let _lo = bounds.lo();
    let prefix = Bytes::new(alloc, b"")?;
    let suffix = Bytes::new(alloc, b"")?;
    let table = VirtualTable::new(View { bounds, prefix, suffix });
    let layer = table.layer(alloc, bytes)?;
    Ok(layer)
}

fn rows_of(layer: &Result<Option<Layer>, AllocError>) -> usize {
    match layer {
        Ok(Some(layer)) => layer.rows().len(),
        _ => 0,
    }
}

fn micros(from: Duration, to: Duration) -> u128 {
    to.saturating_sub(from).as_micros()
}

/// Prints the microseconds of a read of the table and of what it shows, and the rows of both.
fn time_table(rt: &HostRuntime, bounds: Span, bytes: &[u8]) -> io::Result<()> {
    let start = rt.thread_cpu_time()?;
    let table = read_table(rt.alloc(), bytes);
    let read = rt.thread_cpu_time()?;
    let rows = rows_of(&table);
    let begin = rt.thread_cpu_time()?;
    let layer = shown(rt.alloc(), bounds, bytes);
    let end = rt.thread_cpu_time()?;
    println!(rt; "{} {} {rows} {}", micros(start, read), micros(begin, end), rows_of(&layer))
}

fn bytes_of(alloc: Global) -> Option<Bytes> {
    let dels = dels_of(alloc, 10_000)?;
    let layer = layer_of(alloc, 100_000, dels)?;
    table_of(alloc, &layer)
}

fn main(rt: HostRuntime) -> io::Result<()> {
    let bytes = bytes_of(rt.alloc());
    let bounds = Span::new(rt.alloc(), b"0", b"1").ok();
    match (bytes, bounds) {
        (Some(bytes), Some(bounds)) => time_table(&rt, bounds, bytes.as_slice()),
        _ => println!(rt; "no memory"),
    }
}
"""


def main():
    folder = sys.argv[1] if len(sys.argv) > 1 else tempfile.mkdtemp()
    libraries = ["pb_virtual", "pb_table", "pb_rows", "pb_keys"]
    program = build(folder, "virtual_bench", libraries, PROGRAM, {"layer_of/Invariants.antt": SHORT_ROWS})
    rounds = [numbers(program) for _ in range(ROUNDS)]
    for read, shown, rows, held in rounds:
        print(f"read_table {read / 1000:.2f} ms of {rows} rows, layer {shown / 1000:.2f} ms of {held}")
    read, shown, *_ = best(rounds)
    print(f"layer through bounds that hold all takes {shown / read:.2f} of read_table")


if __name__ == "__main__":
    main()
