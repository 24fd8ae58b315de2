#!/usr/bin/env python3
"""Times copies of a layer of 100,000 rows with keys and values of 8 bytes, 16 layers of 6,250 such rows put over one another by
`over_all`, and the same layers folded by `over` from the right, in one built program and in processor time. Prints the rounds, and
the ratios of the best of each.

    python3 bench/layers.py [FOLDER [BEFORE]]

With a commit BEFORE, a copy is timed in a program over the crates of that commit too, its rounds between the others. The programs
stand over copies of the crates in a folder of their own, since they belong to nothing that is released. Their first build proves these
crates, so a FOLDER that is kept saves minutes."""
import os
import re
import shutil
import subprocess
import sys
import tempfile

TOP = os.path.dirname(os.path.dirname(os.path.abspath(__file__)))
CRATES = ["pb_bytes", "pb_keys", "pb_span_cases", "pb_rows", "pb_rangedel"]
ROUNDS = 9
PROGRAM = """//! Times copies of a layer, and layers put over one another.
#![tactic(auto)]

ghost use Rattle.std.specs.Prelude.{◌<◌, ◌≤◌, All};
ghost use Rattle.pb_rows.specs.Layer.{IsShortRow};

use pb_keys::{Bytes, Key, List};
use pb_rangedel::{over, over_all};
use pb_rows::{Layer, Row};
use std::alloc::Global;
use std::io;
use std::time::CpuClock;

const LAYERS: u32 = 16;

fn digits(number: u32) -> [u8; 8] {
    let mut digits = [b'0'; 8];
    let mut rest = number;
    for place in 0..8 {
        digits[7 - place] = b'0' + (rest % 10) as u8;
        rest /= 10;
    }
    digits
}

/// Adds a row whose key and value are the number's digits.
fn add_row(alloc: Global, rows: &mut Vec<Row>, number: u32) -> Option<()>
    requires { All IsShortRow rows.old.items }
    ensures { All IsShortRow rows.new.items }
{
    let text = digits(number);
    let key = Key::new(alloc, &text).ok()?;
    let value = Some(Bytes::new(alloc, &text).ok()?);
    let row = Row { key, value };
    if row.is_short() {
        rows.push(row).ok()?;
    }
    Some(())
}

/// So many rows, of which each number is `step` above the one before.
fn layer_of(alloc: Global, first: u32, step: u32, count: u32) -> Option<Layer>
    requires first { first < 100 }
    requires step { step ≤ 16 }
    requires count { count ≤ 100000 }
{
    let mut rows = Vec::new(alloc);
    for at in 0..count {
        add_row(alloc, &mut rows, first + at * step)?;
    }
    Layer::new(alloc, Vec::new(alloc), rows).ok()
}

fn layers(alloc: Global) -> Option<Vec<Layer>> {
    let mut layers = Vec::new(alloc);
    for first in 0..LAYERS {
        let layer = layer_of(alloc, first, LAYERS, 6_250)?;
        layers.push(layer).ok()?;
    }
    Some(layers)
}

fn copies(alloc: Global, layers: &[Layer]) -> Option<Vec<Layer>> {
    let mut copies = Vec::new(alloc);
    for layer in layers {
        let copy = layer.copy(alloc).ok()?;
        copies.push(copy).ok()?;
    }
    Some(copies)
}

fn folded(alloc: Global, layers: &[Layer]) -> Option<Layer> {
    let mut all = Layer::new(alloc, Vec::new(alloc), Vec::new(alloc)).ok()?;
    for layer in layers.iter().rev() {
        all = over(alloc, layer, &all).ok()?;
    }
    Some(all)
}

fn rows_of(layer: &Option<Layer>) -> usize {
    match layer {
        Some(layer) => layer.rows().len(),
        None => 0,
    }
}

/// Prints the microseconds of a copy, of `over_all` and of a fold, and the rows of each.
fn round(rt: &HostRuntime, whole: &Layer, parts: &[Layer]) -> io::Result<()> {
    let alloc = rt.alloc();
    let start = rt.thread_cpu_time()?;
    let copy = whole.copy(alloc).ok();
    let copied = rt.thread_cpu_time()?;
    let list = copies(alloc, parts);
    let ready = rt.thread_cpu_time()?;
    let all = ALL;
    let put = rt.thread_cpu_time()?;
    let fold = folded(alloc, parts);
    let end = rt.thread_cpu_time()?;
    let copying = copied.saturating_sub(start).as_micros();
    let putting = put.saturating_sub(ready).as_micros();
    let folding = end.saturating_sub(put).as_micros();
    let (a, b, c) = (rows_of(&copy), rows_of(&all), rows_of(&fold));
    println!(rt; "{copying} {putting} {folding} {a} {b} {c}")
}

fn main(rt: HostRuntime) -> io::Result<()> {
    let whole = layer_of(rt.alloc(), 0, 1, 100_000);
    let parts = layers(rt.alloc());
    match (whole, parts) {
        (Some(whole), Some(parts)) => round(&rt, &whole, parts.as_slice()),
        _ => println!(rt; "no memory"),
    }
}
"""
PROOF = """use Rattle.std.specs.Prelude.{All}
use Rattle.pb_rows.specs.Layer.{IsShortRow}
use Rattle.layers_bench.proofs.layer_of.Given as goal

abbrev pub invariant-loop-at : goal.invariant-loop-at
invariant-loop-at l = All IsShortRow l.rows.items
"""
NOW = "list.and_then(|list| over_all(alloc, List::from_vec(list)).ok())"


def program_text(has_all):
    if has_all:
        return PROGRAM.replace("ALL;", NOW + ";")
    text = PROGRAM.replace("ALL;", "list.and_then(|list| folded(alloc, &list));").replace("IsShortRow", "IsShort")
    return text.replace("{Bytes, Key, List}", "{Bytes, Key}").replace("{over, over_all}", "over")


def proof_text(has_all):
    return PROOF if has_all else PROOF.replace("IsShortRow", "IsShort")


def write(path, text):
    os.makedirs(os.path.dirname(path), exist_ok=True)
    with open(path, "w") as file:
        file.write(text)


def copy_tree(source, folder):
    for crate in CRATES:
        for part in ("src", "specs", "proofs"):
            there = os.path.join(folder, "crates", crate, part)
            shutil.rmtree(there, ignore_errors=True)
            if os.path.isdir(os.path.join(source, "crates", crate, part)):
                shutil.copytree(os.path.join(source, "crates", crate, part), there)
    with open(os.path.join(source, "crates.txt")) as file:
        kept = [line for line in file if line.split(":")[0] in CRATES]
    write(os.path.join(folder, "crates.txt"), "".join(kept) + "layers_bench: pb_keys pb_rows pb_rangedel\n")
    shutil.copy(os.path.join(TOP, "HANDLES"), folder)


def build(source, folder):
    copy_tree(source, folder)
    has_all = os.path.exists(os.path.join(source, "crates", "pb_rangedel", "src", "layers.rt"))
    home = os.path.join(folder, "crates", "layers_bench")
    write(os.path.join(home, "src", "main.rt"), program_text(has_all))
    write(os.path.join(home, "proofs", "layer_of", "Invariants.antt"), proof_text(has_all))
    subprocess.run(["rt", "run"], cwd=home, check=True, stdout=subprocess.DEVNULL)
    return os.path.join(home, "out", "layers_bench")


def commit_tree(commit, folder):
    os.makedirs(folder, exist_ok=True)
    archive = subprocess.run(["git", "archive", commit, "crates", "crates.txt"], cwd=TOP, check=True, stdout=subprocess.PIPE)
    subprocess.run(["tar", "x", "-C", folder], input=archive.stdout, check=True)


def run(program):
    printed = subprocess.run([program], check=True, stdout=subprocess.PIPE, text=True).stdout
    return [int(word) for word in re.findall(r"\d+", printed)]


def main():
    folder = sys.argv[1] if len(sys.argv) > 1 else tempfile.mkdtemp()
    program = build(TOP, os.path.join(folder, "now"))
    before = None
    if len(sys.argv) > 2:
        commit_tree(sys.argv[2], os.path.join(folder, "tree"))
        before = build(os.path.join(folder, "tree"), os.path.join(folder, "before"))
    rounds, copies = [], []
    for _ in range(ROUNDS):
        rounds.append(run(program))
        if before:
            copies.append(run(before)[0])
    for copying, putting, folding, *rows in rounds:
        print(f"copy {copying / 1000:.2f} ms, over_all {putting / 1000:.2f} ms, fold {folding / 1000:.2f} ms, {rows} rows")
    copying, putting, folding = (min(round[at] for round in rounds) for at in (0, 1, 2))
    if before:
        print(f"copy before {min(copies) / 1000:.2f} ms; a copy takes {copying / min(copies):.2f} of it")
    print(f"over_all: {putting / copying:.2f} copies, {putting / folding:.2f} of the fold")


if __name__ == "__main__":
    main()
