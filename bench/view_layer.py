#!/usr/bin/env python3
"""Times a view of 20 rows of a layer of 10,000 rows and of one of 100,000, and a view of all 100,000 rows with a prefix against
`Layer::copy` of the same, in one built program and in processor time; keys and values have 8 bytes. Prints the rounds, and the ratios
of the best of each.

    python3 bench/view_layer.py [FOLDER]

The program stands over copies of the crates in a folder of its own, since it belongs to nothing that is released. Its first build
proves these crates, so a FOLDER that is kept saves minutes."""
import os
import re
import shutil
import subprocess
import sys
import tempfile

TOP = os.path.dirname(os.path.dirname(os.path.abspath(__file__)))
CRATES = ["pb_keys", "pb_rows", "pb_synth"]
ROUNDS = 9
PROGRAM = """//! Times what views show of layers.
#![tactic(auto)]

ghost use Rattle.std.specs.Prelude.{◌<◌, ◌≤◌, All, IsTrue};
ghost use Rattle.pb_keys.specs.View.{IsPrefix, IsSuffix, IsMapping, IsView};
ghost use Rattle.pb_rows.specs.Layer.{IsShortRow};
ghost use Rattle.pb_rows.specs.Viewed.{MapsWithin};

use pb_keys::{Bytes, Key, Span, View};
use pb_rows::{Layer, Row};
use pb_synth::{maps_within, view_layer};
use std::alloc::Global;
use std::io;
use std::time::CpuClock;

/// How often a narrow view is made in one round.
const TIMES: u32 = 1_000;

fn digits(number: u32) -> [u8; 8] {
    let mut digits = [b'0'; 8];
    let mut rest = number;
    for place in 0..8 {
        digits[7 - place] = b'0' + (rest % 10) as u8;
        rest /= 10;
    }
    digits
}

/// Adds a row whose key and value are the number's digits.
fn add_row(alloc: Global, rows: &mut Vec<Row>, number: u32) -> Option<()>
    requires { All IsShortRow rows.old.items }
    ensures { All IsShortRow rows.new.items }
{
    let text = digits(number);
    let key = Key::new(alloc, &text).ok()?;
    let value = Some(Bytes::new(alloc, &text).ok()?);
    let row = Row { key, value };
    if row.is_short() {
        rows.push(row).ok()?;
    }
    Some(())
}

fn layer_of(alloc: Global, count: u32) -> Option<Layer> {
    let mut rows = Vec::new(alloc);
    for number in 0..count {
        add_row(alloc, &mut rows, number)?;
    }
    Layer::new(alloc, Vec::new(alloc), rows).ok()
}

fn view_of(alloc: Global, prefix: &[u8], lo: &[u8], hi: &[u8]) -> Option<View> {
    let bounds = Span::new(alloc, lo, hi).ok()?;
    let prefix = Bytes::new(alloc, prefix).ok()?;
    let suffix = Bytes::new(alloc, b"").ok()?;
    Some(View { bounds, prefix, suffix })
}

fn is_prefix(bytes: &[u8]) -> bool
    ensures { IsTrue result → IsPrefix bytes.now }
{
    bytes.len() <= 1024 && !bytes.contains(&b'@')
}

fn is_suffix(bytes: &[u8]) -> bool
    ensures { IsTrue result → IsSuffix bytes.now }
{
    if bytes.is_empty() {
        return true;
    }
    bytes.len() <= 1024 && bytes[0] == b'@'
}

fn is_mapping(view: &View) -> bool
    ensures { IsTrue result → IsMapping view.now }
{
    is_prefix(view.prefix.as_slice()) && is_suffix(view.suffix.as_slice())
}

/// The rows that the view shows.
fn shown(alloc: Global, view: &View, layer: &Layer) -> usize
    requires view { IsView view.now }
    requires within { MapsWithin view.now layer.now }
{
    match view_layer(alloc, view, layer) {
        Ok(shown) => shown.rows().len(),
        Err(_) => 0,
    }
}

/// The rows that the view shows the last of so many times.
fn shown_times(alloc: Global, view: &View, layer: &Layer, times: u32) -> usize
    requires view { IsView view.now }
    requires within { MapsWithin view.now layer.now }
{
    let mut rows = 0;
    for _ in 0..times {
        rows = shown(alloc, view, layer);
    }
    rows
}

/// Prints the microseconds of so many views, and the rows that one shows.
fn time_view(rt: &HostRuntime, view: &View, layer: &Layer, times: u32) -> io::Result<()> {
    let _lo = view.bounds.lo();
    if !is_mapping(view) {
        return println!(rt; "0 0");
    }
    if !maps_within(view, layer) {
        return println!(rt; "0 0");
    }
    let start = rt.thread_cpu_time()?;
    let rows = shown_times(rt.alloc(), view, layer, times);
    let end = rt.thread_cpu_time()?;
    let micros = end.saturating_sub(start).as_micros();
    println!(rt; "{micros} {rows}")
}

/// Prints the microseconds of a copy, and its rows.
fn time_copy(rt: &HostRuntime, layer: &Layer) -> io::Result<()> {
    let start = rt.thread_cpu_time()?;
    let copy = layer.copy(rt.alloc());
    let end = rt.thread_cpu_time()?;
    let rows = match &copy {
        Ok(copy) => copy.rows().len(),
        Err(_) => 0,
    };
    let micros = end.saturating_sub(start).as_micros();
    println!(rt; "{micros} {rows}")
}

fn time_all(rt: &HostRuntime, few: &Layer, many: &Layer, narrow: &View, whole: &View) -> io::Result<()> {
    time_copy(rt, many)?;
    time_view(rt, whole, many, 1)?;
    time_view(rt, narrow, few, TIMES)?;
    time_view(rt, narrow, many, TIMES)?;
    Ok(())
}

fn main(rt: HostRuntime) -> io::Result<()> {
    let few = layer_of(rt.alloc(), 10_000);
    let many = layer_of(rt.alloc(), 100_000);
    let narrow = view_of(rt.alloc(), b"t/", b"t/00005000", b"t/00005020");
    let whole = view_of(rt.alloc(), b"t/", b"t/", b"t0");
    match (few, many) {
        (Some(few), Some(many)) => match (narrow, whole) {
            (Some(narrow), Some(whole)) => time_all(&rt, &few, &many, &narrow, &whole),
            _ => println!(rt; "no memory"),
        },
        _ => println!(rt; "no memory"),
    }
}
"""
PROOF = """use Rattle.std.specs.Prelude.{All}
use Rattle.pb_rows.specs.Layer.{IsShortRow}
use Rattle.views_bench.proofs.layer_of.Given as goal

abbrev pub invariant-loop-number : goal.invariant-loop-number
invariant-loop-number l = All IsShortRow l.rows.items
"""


def write(path, text):
    os.makedirs(os.path.dirname(path), exist_ok=True)
    with open(path, "w") as file:
        file.write(text)


def copy_tree(folder):
    for crate in CRATES:
        for part in ("src", "specs", "proofs"):
            there = os.path.join(folder, "crates", crate, part)
            shutil.rmtree(there, ignore_errors=True)
            shutil.copytree(os.path.join(TOP, "crates", crate, part), there)
    with open(os.path.join(TOP, "crates.txt")) as file:
        kept = [line for line in file if line.split(":")[0] in CRATES]
    write(os.path.join(folder, "crates.txt"), "".join(kept) + "views_bench: pb_keys pb_rows pb_synth\n")
    shutil.copy(os.path.join(TOP, "HANDLES"), folder)


def build(folder):
    copy_tree(folder)
    home = os.path.join(folder, "crates", "views_bench")
    write(os.path.join(home, "src", "main.rt"), PROGRAM)
    write(os.path.join(home, "proofs", "layer_of", "Invariants.antt"), PROOF)
    subprocess.run(["rt", "run"], cwd=home, check=True, stdout=subprocess.DEVNULL)
    return os.path.join(home, "out", "views_bench")


def run(program):
    printed = subprocess.run([program], check=True, stdout=subprocess.PIPE, text=True).stdout
    return [int(word) for word in re.findall(r"\d+", printed)]


def main():
    folder = sys.argv[1] if len(sys.argv) > 1 else tempfile.mkdtemp()
    program = build(folder)
    rounds = [run(program) for _ in range(ROUNDS)]
    for copy, copied, whole, shown, few, few_rows, many, many_rows in rounds:
        print(f"copy {copy / 1000:.2f} ms of {copied} rows, view {whole / 1000:.2f} ms of {shown};", end=" ")
        print(f"narrow {few / 1000:.2f} us of {few_rows} rows in 10,000, {many / 1000:.2f} us of {many_rows} in 100,000")
    copy, whole, few, many = (min(round[at] for round in rounds) for at in (0, 2, 4, 6))
    print(f"a view of all rows takes {whole / copy:.2f} of a copy; a view of 20 rows of 100,000 {many / few:.2f} of that of 10,000")


if __name__ == "__main__":
    main()
