#!/usr/bin/env python3
"""Times, in one built program and in processor time: `write_table` of 100,000 rows beside a copy of its bytes; a memtable filled with
60,000 rows in no order beside one of 10,000; `layer_within` of 20 rows of a memtable of 60,000 beside the same of 6,000; and `decode` of
10,000 entries of 100 bytes beside a plain pass over them (`sum * 31 + byte`). Prints the rounds and the ratios of the best of each. Then
it fills a memtable with 262,144 commands of each kind, with keys and ends of three bytes, and prints the memory of one command, and with
350,000 dels of such keys, which is all that a memtable of 1 MiB holds, and prints the time of one.

    python3 bench/memtable_and_tables.py [FOLDER [BEFORE]]

With a commit BEFORE, tables and fills are timed in a program over the crates of that commit too, its rounds between the others. The
programs stand over copies of the crates in a folder of their own, since they belong to nothing that is released. Their first build
proves these crates, so a FOLDER that is kept saves minutes."""
import os
import re
import shutil
import subprocess
import sys
import tempfile

TOP = os.path.dirname(os.path.dirname(os.path.abspath(__file__)))
CRATES = ["pb_bytes", "pb_keys", "pb_names", "pb_span_cases", "pb_rows", "pb_payloads", "pb_rangedel", "pb_table", "pb_wal", "pb_memtable"]
LIBRARIES = "pb_keys pb_rows pb_table pb_wal pb_memtable"
ROUNDS = 9
COMMANDS = 262_144
KINDS = ["set", "del", "delrange"]
PROGRAM = """//! Times tables, memtables and log entries.
#![tactic(auto)]

ghost use Rattle.std.specs.Prelude.{◌<◌, ◌≤◌, All};
ghost use Rattle.pb_rows.specs.Layer.{IsShortRow};
ghost use Rattle.pb_wal.specs.Changes.{HasShortValue};

use pb_keys::{Bytes, Key, Span};
use pb_memtable::Memtable;
use pb_rows::{Layer, Row};
use pb_table::{NEW_TABLE_FORMAT, write_table};
use pb_wal::{Change, Entry};
use std::alloc::Global;
use std::env;
use std::io;
use std::time::{CpuClock, Duration};

fn digits(number: u32) -> [u8; 8] {
    let mut digits = [b'0'; 8];
    let mut rest = number;
    for place in 0..8 {
        digits[7 - place] = b'0' + (rest % 10) as u8;
        rest /= 10;
    }
    digits
}

/// Adds a row whose key and value are the number's digits.
fn add_row(alloc: Global, rows: &mut Vec<Row>, number: u32) -> Option<()>
    requires { All IsShortRow rows.old.items }
    ensures { All IsShortRow rows.new.items }
{
    let text = digits(number);
    let key = Key::new(alloc, &text).ok()?;
    let value = Some(Bytes::new(alloc, &text).ok()?);
    let row = Row { key, value };
    if row.is_short() {
        rows.push(row).ok()?;
    }
    Some(())
}

fn layer_of(alloc: Global, count: u32) -> Option<Layer> {
    let mut rows = Vec::new(alloc);
    for at in 0..count {
        add_row(alloc, &mut rows, at)?;
    }
    Layer::new(alloc, Vec::new(alloc), rows).ok()
}

fn table_of(alloc: Global, layer: &Layer) -> Option<Bytes> {
    let dels = layer.dels();
    let rows = layer.rows();
    if dels.is_empty() && rows.is_empty() {
        return None;
    }
    write_table(alloc, layer, NEW_TABLE_FORMAT).ok()
}

fn add(alloc: Global, memtable: &mut Memtable, change: Change) -> Option<()>
    requires { HasShortValue change }
{
    let entry = Entry { count: 1, change };
    if memtable.size() > 1 << 62 {
        return None;
    }
    memtable.reserve(alloc, &entry).ok()?;
    memtable.add(entry);
    Some(())
}

fn set(alloc: Global, memtable: &mut Memtable, number: u32) -> Option<()> {
    let text = digits(number);
    let key = Key::new(alloc, &text).ok()?;
    let value = Bytes::new(alloc, &text[..]).ok()?;
    if value.as_slice().len() > 65_536 {
        return None;
    }
    add(alloc, memtable, Change::Set(key, value))
}

/// So many sets, of which no two have one key, in no order. The modulus is a prime above their number.
fn filled(alloc: Global, count: u32, modulus: u32) -> Option<Memtable>
    requires { 0 < modulus }
{
    let mut memtable = Memtable::new(alloc);
    for at in 0..count {
        set(alloc, &mut memtable, at.wrapping_mul(7_919) % modulus)?;
    }
    Some(memtable)
}

fn rows_within(alloc: Global, memtable: &Memtable, first: u32) -> Option<usize> {
    let lo = digits(first);
    let hi = digits(first.wrapping_add(20));
    let span = Span::new(alloc, &lo, &hi).ok()?;
    let mut rows: usize = 0;
    for _ in 0..2_000u64 {
        let layer = LAYER;
        rows = rows.wrapping_add(layer.rows().len());
    }
    Some(rows)
}

/// So many payloads of 100 bytes each.
fn payloads(alloc: Global) -> Option<Vec<u8>> {
    let mut out = Vec::new(alloc);
    for at in 0..10_000u32 {
        add_payload(alloc, &mut out, at)?;
    }
    Some(out)
}

fn add_payload(alloc: Global, out: &mut Vec<u8>, number: u32) -> Option<()> {
    let key = Key::new(alloc, &digits(number)).ok()?;
    let value = Bytes::new(alloc, &[7; 88]).ok()?;
    if value.as_slice().len() > 65_536 {
        return None;
    }
    let entry = Entry { count: 1, change: Change::Set(key, value) };
    entry.encode(alloc, out).ok()
}

fn decoded(alloc: Global, payloads: &[u8]) -> Option<u64> {
    let mut size: u64 = 0;
    for at in 0..10_000usize {
        let from = at * 100;
        if from + 100 > payloads.len() {
            return None;
        }
        let entry = Entry::decode(alloc, &payloads[from..from + 100]).ok()??;
        size = size.wrapping_add(entry.change.len());
    }
    Some(size)
}

/// A sum in which each byte waits for the one before.
fn pass(bytes: &[u8]) -> u64 {
    let mut sum: u64 = 0;
    for byte in bytes {
        sum = sum.wrapping_mul(31).wrapping_add(*byte as u64);
    }
    sum
}

fn micros(from: Duration, to: Duration) -> u128 {
    to.saturating_sub(from).as_micros()
}

/// Prints the microseconds of a table, of a copy of its bytes, and its length.
fn tables(rt: &HostRuntime) -> io::Result<()> {
    let alloc = rt.alloc();
    let Some(layer) = layer_of(alloc, 100_000) else {
        return println!(rt; "no memory");
    };
    let start = rt.thread_cpu_time()?;
    let table = table_of(alloc, &layer);
    let wrote = rt.thread_cpu_time()?;
    let Some(table) = table else {
        return println!(rt; "no memory");
    };
    let copy = Vec::from_slice(alloc, table.as_slice()).ok();
    let copied = rt.thread_cpu_time()?;
    let len = copy.map(|copy| copy.len()).unwrap_or(0);
    println!(rt; "{} {} {len}", micros(start, wrote), micros(wrote, copied))
}

/// The microseconds of a fill.
fn fill(rt: &HostRuntime, count: u32, modulus: u32) -> io::Result<u128>
    requires { 0 < modulus }
{
    let start = rt.thread_cpu_time()?;
    let memtable = filled(rt.alloc(), count, modulus);
    let end = rt.thread_cpu_time()?;
    drop(memtable);
    Ok(micros(start, end))
}

/// Prints the microseconds of looks at 20 rows of so many, and the rows that were found.
fn looks(rt: &HostRuntime, count: u32, modulus: u32) -> io::Result<()>
    requires { 0 < modulus }
{
    let Some(memtable) = filled(rt.alloc(), count, modulus) else {
        return println!(rt; "no memory");
    };
    let start = rt.thread_cpu_time()?;
    let rows = rows_within(rt.alloc(), &memtable, count / 2).unwrap_or(0);
    let end = rt.thread_cpu_time()?;
    println!(rt; "{} {rows}", micros(start, end))
}

/// Prints the microseconds of a fill of 60,000 rows and of one of 10,000, and of looks at 20 rows of 60,000 and of 6,000.
fn fills(rt: &HostRuntime) -> io::Result<()> {
    let many = fill(rt, 60_000, 60_013)?;
    let few = fill(rt, 10_000, 10_007)?;
    println!(rt; "{many} {few}")?;
    looks(rt, 60_000, 60_013)?;
    looks(rt, 6_000, 6_007)
}

/// Prints the microseconds of a pass over 10,000 payloads and of reading them, and what is counted of them.
fn entries(rt: &HostRuntime) -> io::Result<()> {
    let alloc = rt.alloc();
    let Some(payloads) = payloads(alloc) else {
        return println!(rt; "no memory");
    };
    let start = rt.thread_cpu_time()?;
    let sum = pass(payloads.as_slice());
    let passed = rt.thread_cpu_time()?;
    let size = decoded(alloc, payloads.as_slice()).unwrap_or(0);
    let read = rt.thread_cpu_time()?;
    println!(rt; "{} {} {size} {sum}", micros(start, passed), micros(passed, read))
}

/// Three bytes, none of them an '@'.
fn short(number: u32) -> [u8; 3] {
    [(128 + number / 16_384 % 128) as u8, (128 + number / 128 % 128) as u8, (128 + number % 128) as u8]
}

fn add_short(alloc: Global, memtable: &mut Memtable, kind: usize, number: u32) -> Option<()> {
    let lo = short(number);
    match kind {
        2 => {
            let key = Key::new(alloc, &lo).ok()?;
            let value = Bytes::new(alloc, b"").ok()?;
            if value.as_slice().len() > 65_536 {
                return None;
            }
            add(alloc, memtable, Change::Set(key, value))
        }
        4 => {
            let first = number.wrapping_mul(2);
            let span = Span::new(alloc, &short(first), &short(first.wrapping_add(1))).ok()?;
            add(alloc, memtable, Change::DelRange(span))
        }
        _ => {
            let key = Key::new(alloc, &lo).ok()?;
            add(alloc, memtable, Change::Del(key))
        }
    }
}

/// So many short commands of a kind, each behind those before it, or of kind 5 in no order. Between two spans is a gap.
fn crowd(alloc: Global, kind: usize, count: u32) -> Option<Memtable> {
    let mut memtable = Memtable::new(alloc);
    for at in 0..count {
        let number = if kind == 5 { at.wrapping_mul(7_919) % 350_003 } else { at };
        add_short(alloc, &mut memtable, kind, number)?;
    }
    Some(memtable)
}

/// Prints the microseconds of a crowd, and its size.
fn crowded(rt: &HostRuntime, kind: usize) -> io::Result<()> {
    let count = if kind == 5 { 350_000 } else { COMMANDS };
    let start = rt.thread_cpu_time()?;
    let memtable = crowd(rt.alloc(), kind, count);
    let end = rt.thread_cpu_time()?;
    let size = memtable.map(|memtable| memtable.size()).unwrap_or(0);
    println!(rt; "{} {size}", micros(start, end))
}

/// By the number of words: a round, a crowd of sets, of dels or of delranges, the greatest crowd, or nothing.
fn main(rt: HostRuntime) -> io::Result<()> {
    let words = env::args(&rt)?.count();
    if words == 1 {
        tables(&rt)?;
        fills(&rt)?;
        return entries(&rt);
    }
    if words < 6 {
        return crowded(&rt, words);
    }
    println!(rt; "nothing")
}
"""
PROOF = """use Rattle.std.specs.Prelude.{All}
use Rattle.pb_rows.specs.Layer.{IsShortRow}
use Rattle.memtable_bench.proofs.layer_of.Given as goal

abbrev pub invariant-loop-at : goal.invariant-loop-at
invariant-loop-at l = All IsShortRow l.rows.items
"""


def write(path, text):
    os.makedirs(os.path.dirname(path), exist_ok=True)
    with open(path, "w") as file:
        file.write(text)


def copy_tree(source, folder):
    for crate in CRATES:
        for part in ("src", "specs", "proofs"):
            there = os.path.join(folder, "crates", crate, part)
            shutil.rmtree(there, ignore_errors=True)
            if os.path.isdir(os.path.join(source, "crates", crate, part)):
                shutil.copytree(os.path.join(source, "crates", crate, part), there)
    with open(os.path.join(source, "crates.txt")) as file:
        kept = [line for line in file if line.split(":")[0] in CRATES]
    write(os.path.join(folder, "crates.txt"), "".join(kept) + f"memtable_bench: {LIBRARIES}\n")
    shutil.copy(os.path.join(TOP, "HANDLES"), folder)


def build(source, folder):
    copy_tree(source, folder)
    with open(os.path.join(source, "crates", "pb_memtable", "src", "memtable.rt")) as file:
        has_within = "fn layer_within" in file.read()
    layer = "memtable.layer_within(alloc, &span).ok()?" if has_within else "Layer::new(alloc, Vec::new(alloc), Vec::new(alloc)).ok()?"
    home = os.path.join(folder, "crates", "memtable_bench")
    write(os.path.join(home, "src", "main.rt"), PROGRAM.replace("LAYER;", layer + ";").replace("COMMANDS", str(COMMANDS)))
    write(os.path.join(home, "proofs", "layer_of", "Invariants.antt"), PROOF)
    # Words, so that what is run here to the end of the build is the short run.
    subprocess.run(["rt", "run", "--", *["word"] * 5], cwd=home, check=True, stdout=subprocess.DEVNULL)
    return os.path.join(home, "out", "memtable_bench")


def commit_tree(commit, folder):
    os.makedirs(folder, exist_ok=True)
    archive = subprocess.run(["git", "archive", commit, "crates", "crates.txt"], cwd=TOP, check=True, stdout=subprocess.PIPE)
    subprocess.run(["tar", "x", "-C", folder], input=archive.stdout, check=True)


def run(program, words):
    """The numbers that the program prints, and the most memory that it held, in bytes. GNU time starts it: a program that is started
    from here counts this one's memory as its own."""
    done = subprocess.run(["time", "-f", "%M", program, *["word"] * words], check=True, capture_output=True, text=True)
    return [int(word) for word in re.findall(r"\d+", done.stdout)], int(done.stderr) * 1024


def best(rounds):
    return [min(round[at] for round in rounds) for at in range(len(rounds[0]))]


def say_tables(name, figures):
    wrote, copied, _, many, few, *_ = figures
    print(f"{name}: write_table {wrote / 1000:.2f} ms, {wrote / copied:.2f} copies of its bytes; "
          f"fill of 60,000 {many / 1000:.2f} ms, {many / few:.1f} of one of 10,000")


def main():
    folder = sys.argv[1] if len(sys.argv) > 1 else tempfile.mkdtemp()
    program = build(TOP, os.path.join(folder, "now"))
    before = None
    if len(sys.argv) > 2:
        commit_tree(sys.argv[2], os.path.join(folder, "tree"))
        before = build(os.path.join(folder, "tree"), os.path.join(folder, "before"))
    now, then = [], []
    for _ in range(ROUNDS):
        now.append(run(program, 0)[0])
        if before:
            then.append(run(before, 0)[0])
    for figures in now:
        print(" ".join(map(str, figures)))
    least = best(now)
    if before:
        say_tables("before", best(then))
        print(f"a table takes {least[0] / best(then)[0]:.2f} of before, a fill of 60,000 {least[3] / best(then)[3]:.2f}")
    say_tables("now", least)
    of_many, _, of_few, rows = least[5:9]
    print(f"layer_within: {of_many / 2000:.2f} us of 60,000, {of_many / of_few:.2f} of that of 6,000 ({rows // 2000} rows)")
    passed, read = least[9:11]
    print(f"decode: {read / 10:.1f} ns an entry, {read / passed:.2f} passes")
    for name, one in (("before", before), ("now", program)):
        if one:
            without = run(one, 5)[1]
            for words, kind in enumerate(KINDS, 1):
                figures, peak = run(one, words)
                print(f"{name}, {kind}: {(peak - without) / COMMANDS:.0f} bytes a command")
    took, size = run(program, 4)[0]
    print(f"350,000 dels of three bytes, {size} bytes: {took / 350_000:.1f} us each")


if __name__ == "__main__":
    main()
