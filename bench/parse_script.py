#!/usr/bin/env python3
"""Times `parse`, `parse_numbered` and the program's own `read_lines` of a script of 16 MiB of `A set k v` lines, and of the same with a
comment before every tenth line, in one built program and in processor time: the first two beside a plain pass over the bytes, the third
beside `parse_numbered`. Prints for each the best of nine rounds, over the best of what it stands beside, and how many bytes a script byte
are held at the peak.

    python3 bench/parse_script.py [FOLDER]

The program stands over a copy of the crates in a folder of its own, since it belongs to nothing that is released. Of pebble_cli it has
the reading alone. Its first build proves these crates, so a FOLDER that is kept saves minutes."""
import os
import re
import shutil
import subprocess
import sys
import tempfile

from built import TOP, build, write

READING = ["src/lines.rt", "specs/Lines.antt", "proofs/FaultLines.antt", "proofs/lines"]
LENGTHS = {"plain": 16_777_210, "commented": 16_777_215}
PROGRAM = """//! Times the parse of a script beside a plain pass over its bytes, and the program's reading beside the parse.
#![tactic(auto)]

mod lines;

use lines::read_lines;
use pb_script::{parse, parse_numbered};
use std::env;
use std::io;
use std::time::CpuClock;

fn plain(rt: &HostRuntime) -> io::Result<Vec<u8>> {
    let mut script = Vec::new(rt.alloc());
    for _ in 0..1_677_721 {
        script.extend_from_slice(b"A set k v\\n")?;
    }
    Ok(script)
}

fn commented(rt: &HostRuntime) -> io::Result<Vec<u8>> {
    let mut script = Vec::new(rt.alloc());
    for _ in 0..159_783 {
        script.extend_from_slice(b"# ten\\nA set k v\\nA set k v\\nA set k v\\nA set k v\\nA set k v\\n")?;
        script.extend_from_slice(b"A set k v\\nA set k v\\nA set k v\\nA set k v\\n")?;
        script.extend_from_slice(b"A set k v")?;
        script.extend_from_slice(b"\\n")?;
    }
    Ok(script)
}

/// A sum in which each byte waits for the one before.
fn pass(script: &[u8]) -> u64 {
    let mut sum: u64 = 0;
    for byte in script {
        sum = sum.wrapping_mul(31).wrapping_add(*byte as u64);
    }
    sum
}

/// Prints the microseconds of a pass and of a parse, and the number of lines.
fn round(rt: &HostRuntime, script: &[u8]) -> io::Result<()> {
    let start = rt.thread_cpu_time()?;
    let sum = pass(script);
    let passed = rt.thread_cpu_time()?;
    let lines = parse(rt.alloc(), script);
    let parsed = rt.thread_cpu_time()?;
    let number = match &lines {
        Ok(lines) => lines.len(),
        Err(_) => 0,
    };
    drop(lines);
    let pass = passed.saturating_sub(start).as_micros();
    let parse = parsed.saturating_sub(passed).as_micros();
    println!(rt; "{pass} {parse} {number} {sum}")
}

/// The same of a parse with numbers.
fn numbered_round(rt: &HostRuntime, script: &[u8]) -> io::Result<()> {
    let start = rt.thread_cpu_time()?;
    let sum = pass(script);
    let passed = rt.thread_cpu_time()?;
    let read = parse_numbered(rt.alloc(), script);
    let parsed = rt.thread_cpu_time()?;
    let number = match &read {
        Ok(read) => read.lines().len(),
        Err(_) => 0,
    };
    drop(read);
    let pass = passed.saturating_sub(start).as_micros();
    let parse = parsed.saturating_sub(passed).as_micros();
    println!(rt; "{pass} {parse} {number} {sum}")
}

/// Prints the microseconds of a parse with numbers and of the program's reading, and the number of lines.
fn reading_round(rt: &HostRuntime, script: &[u8]) -> io::Result<()> {
    let start = rt.thread_cpu_time()?;
    let read = parse_numbered(rt.alloc(), script);
    let parsed = rt.thread_cpu_time()?;
    drop(read);
    let again = rt.thread_cpu_time()?;
    let lines = read_lines(rt.alloc(), script);
    let end = rt.thread_cpu_time()?;
    let number = match &lines {
        Ok(lines) => lines.len(),
        Err(_) => 0,
    };
    drop(lines);
    let parse = parsed.saturating_sub(start).as_micros();
    let reading = end.saturating_sub(again).as_micros();
    println!(rt; "{parse} {reading} {number} 0")
}

/// The words: which script, and which call. A pass alone shows the memory that the script takes.
fn main(rt: HostRuntime) -> io::Result<()> {
    let words: Vec<String> = env::args(&rt)?.skip(1).collect(rt.alloc())?;
    let is_plain = words.len() < 2 || words[0].as_str() == "plain";
    let script = if is_plain { plain(&rt)? } else { commented(&rt)? };
    if words.len() < 2 || words[1].as_str() == "pass" {
        let sum = pass(script.as_slice());
        return println!(rt; "{sum}");
    }
    if words[1].as_str() == "parse" {
        for _ in 0..9 {
            round(&rt, script.as_slice())?;
        }
        return Ok(());
    }
    if words[1].as_str() == "parse_numbered" {
        for _ in 0..9 {
            numbered_round(&rt, script.as_slice())?;
        }
        return Ok(());
    }
    for _ in 0..9 {
        reading_round(&rt, script.as_slice())?;
    }
    Ok(())
}
"""


def built(folder):
    home = os.path.join(folder, "crates", "pebble_cli")
    shutil.rmtree(os.path.join(home, "proofs"), ignore_errors=True)
    for part in READING:
        here, there = os.path.join(TOP, "crates", "pebble_cli", part), os.path.join(home, part)
        os.makedirs(os.path.dirname(there), exist_ok=True)
        (shutil.copytree if os.path.isdir(here) else shutil.copy)(here, there)
    write(os.path.join(home, "specs", "Lib.antt"), "pub mod Lines\n")
    return build(folder, "pebble_cli", ["pb_keys", "pb_names", "pb_script"], PROGRAM, {"Lib.antt": "pub mod FaultLines\n"})


def run(program, *words):
    """The lines that the program prints, and the most memory that it held, in bytes."""
    child = subprocess.Popen([program, *words], stdout=subprocess.PIPE, text=True)
    printed = child.stdout.read()
    _, status, usage = os.wait4(child.pid, 0)
    if status != 0:
        sys.exit(f"{program}: status {status}")
    return printed.splitlines(), usage.ru_maxrss * 1024


def main():
    folder = sys.argv[1] if len(sys.argv) > 1 else tempfile.mkdtemp()
    program = built(folder)
    for script, length in LENGTHS.items():
        _, without = run(program, script, "pass")
        for call in ("parse", "parse_numbered"):
            lines, peak = run(program, script, call)
            rounds = [[int(word) for word in re.findall(r"\d+", line)] for line in lines]
            passed, parsed = (min(round[at] for round in rounds) for at in (0, 1))
            print(f"{script}, {call}: {rounds[0][2]} lines, best pass {passed / 1000:.1f} ms, best {parsed / 1000:.1f} ms, {parsed / passed:.1f} passes")
            print(f"    the first {rounds[0][1] / passed:.1f} passes; at the peak {(peak - without) / length:.1f} bytes a script byte")
        lines, peak = run(program, script, "read_lines")
        rounds = [[int(word) for word in re.findall(r"\d+", line)] for line in lines]
        parsed, reading = (min(round[at] for round in rounds) for at in (0, 1))
        print(f"{script}, read_lines: {rounds[0][2]} lines, best parse_numbered {parsed / 1000:.1f} ms, best {reading / 1000:.1f} ms, {reading / parsed:.2f}")
        print(f"    the first {rounds[0][1] / rounds[0][0]:.2f}; at the peak {(peak - without) / length:.1f} bytes a script byte")


if __name__ == "__main__":
    main()
