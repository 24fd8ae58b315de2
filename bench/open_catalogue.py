#!/usr/bin/env python3
"""Times openings of a catalogue of 4,096 entries and of one of 1,024 over a disk in memory, in one built program and in processor time.
Prints the rounds, and the ratio of the best of each.

    python3 bench/open_catalogue.py [FOLDER]

The program stands over copies of the crates in a folder of its own, since it belongs to nothing that is released. Its first build
proves these crates, so a FOLDER that is kept saves minutes."""
import sys
import tempfile

from built import best, build, numbers

ROUNDS = 9
TIMES = 20
PROGRAM = """//! Times openings of catalogues.
#![tactic(auto)]

use pb_catalog::Catalog;
use pb_devices::Disk;
use pb_mem::MemDisk;
use pb_names::{FileKind, Name, file};
use std::alloc::Global;
use std::io;
use std::time::CpuClock;

/// The entry of a log that enters an object under the number 128 and so many.
fn entry(more: u32) -> [u8; 11] {
    let low = (128 + more % 128) as u8;
    let high = (1 + more / 128 % 100) as u8;
    [1, 0, 0, 0, 6, 2, low, high, 1, low, high]
}

fn file_of(alloc: Global, count: u32) -> Option<Vec<u8>> {
    let mut bytes = Vec::from_slice(alloc, &[1, 0, 0, 0, 2, 1, 1]).ok()?;
    for more in 0..count {
        bytes.extend_from_slice(&entry(more)).ok()?;
    }
    bytes.push(0).ok()?;
    Some(bytes)
}

fn put(disk: &mut MemDisk, name: Name, bytes: &[u8]) -> Option<()> {
    let file = name.as_str();
    if disk.len(file).ok()?.is_some() {
        return None;
    }
    disk.create(file).ok()?;
    disk.write_at(file, 0, bytes).ok()?;
    Some(())
}

/// Opens the catalogue, and answers how many entries it has.
fn opened(alloc: Global, disk: &mut MemDisk, name: Name) -> Option<usize> {
    let len = disk.len(name.as_str()).ok()?;
    disk.barrier().ok()?;
    if len.is_none() {
        return None;
    }
    let catalog = Catalog::open(alloc, disk, name, 1).ok()?;
    Some(catalog.len())
}

fn opened_times(alloc: Global, disk: &mut MemDisk, name: Name, times: u32) -> usize {
    let mut found = 0;
    for _ in 0..times {
        found = opened(alloc, disk, name).unwrap_or(0);
    }
    found
}

/// Prints the microseconds of the openings of a catalogue of so many entries, and the entries that the last one found.
fn time_openings(rt: &HostRuntime, count: u32) -> io::Result<()> {
    let alloc = rt.alloc();
    let name = file(FileKind::Catalogue, 2);
    let mut disk = MemDisk::new(alloc, Vec::new(alloc), 0);
    let bytes = file_of(alloc, count);
    let put = bytes.and_then(|bytes| put(&mut disk, name, bytes.as_slice()));
    if put.is_none() {
        return println!(rt; "0 0");
    }
    let start = rt.thread_cpu_time()?;
    let found = opened_times(alloc, &mut disk, name, TIMES);
    let end = rt.thread_cpu_time()?;
    let micros = end.saturating_sub(start).as_micros();
    println!(rt; "{micros} {found}")
}

fn main(rt: HostRuntime) -> io::Result<()> {
    time_openings(&rt, 1_024)?;
    time_openings(&rt, 4_096)?;
    Ok(())
}
"""


def main():
    folder = sys.argv[1] if len(sys.argv) > 1 else tempfile.mkdtemp()
    program = build(folder, "catalogue_bench", ["pb_catalog", "pb_mem", "pb_devices", "pb_names"], PROGRAM.replace("TIMES", str(TIMES)), {})
    rounds = [numbers(program) for _ in range(ROUNDS)]
    for few, few_entries, many, many_entries in rounds:
        print(f"{few / TIMES:.0f} us of {few_entries} entries, {many / TIMES:.0f} us of {many_entries}")
    few, _, many, _ = best(rounds)
    print(f"an opening of 4,096 entries takes {many / few:.2f} of one of 1,024")


if __name__ == "__main__":
    main()
