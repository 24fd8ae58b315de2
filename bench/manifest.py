#!/usr/bin/env python3
"""Commits 20,000 edits to a manifest, each of one table in and one out over 100 tables, and appends the same edits to a log, which is what a
manifest is that never rotates. Prints the bytes by which the files grew, and the processor time of `Manifest::open` behind 2,000 of the edits
and behind all of them, with the length of the manifest there. Tables have ends of 238 bytes, so that at both places the manifest is nearly as
long as it gets.

    python3 bench/manifest.py [FOLDER]

The program stands in a folder of its own, as that of `blocks.py`, and its store in the system's folder in memory, where there is one: a commit
syncs twice."""
import os
import re
import subprocess
import sys
import tempfile

from built import build

SHM = "/dev/shm"
PROGRAM = """//! Commits edits to a manifest and to a log, and times openings.
#![tactic(auto)]

ghost use Rattle.std.specs.Prelude.{◌≤◌, IfSome};
ghost use Rattle.pb_edit.specs.Grammar.{IsEdit};

use pb_devices::Disk;
use pb_edit::Edit;
use pb_gate_log::GateLog;
use pb_host::HostDisk;
use pb_manifest::Manifest;
use pb_names::{FileKind, current, file};
use pb_version::Version;
use std::alloc::Global;
use std::env;
use std::io;
use std::time::CpuClock;

const TABLES: u64 = 100;
const FEW: u64 = 2_000;
const MANY: u64 = 20_000;
const ENDS: usize = 238;
const TIMES: u64 = 50;

/// The number of the first table: all have three bytes.
const FIRST: u64 = 100_000;

/// The file of the log, which no store has.
const PLAIN: u64 = 3;

fn digits(number: u64) -> [u8; 8] {
    let mut digits = [b'0'; 8];
    let mut rest = number;
    for place in 0..8 {
        digits[7 - place] = b'0' + (rest % 10) as u8;
        rest /= 10;
    }
    digits
}

fn put_number(out: &mut Vec<u8>, number: u64) -> Option<()> {
    out.push((number % 128 + 128) as u8).ok()?;
    out.push((number / 128 % 128 + 128) as u8).ok()?;
    out.push((number / 16_384 % 128) as u8).ok()?;
    Some(())
}

fn put_end(out: &mut Vec<u8>, place: u64) -> Option<()> {
    out.push((ENDS % 128 + 128) as u8).ok()?;
    out.push((ENDS / 128) as u8).ok()?;
    out.extend_from_slice(digits(place).as_slice()).ok()?;
    let end = out.len().saturating_add(ENDS - 8);
    out.resize(end, b'x').ok()?;
    Some(())
}

/// A table of level 6 of eight bytes. Tables in different places don't overlap.
fn put_table(out: &mut Vec<u8>, number: u64, place: u64) -> Option<()> {
    out.extend_from_slice([7, 6].as_slice()).ok()?;
    put_number(out, number)?;
    put_number(out, number)?;
    out.push(8).ok()?;
    put_end(out, place.wrapping_mul(2))?;
    put_end(out, place.wrapping_mul(2).wrapping_add(1))?;
    Some(())
}

/// The first edit of a store, with the numbers below 2^20 reserved, and a table in each place.
fn first_bytes(alloc: Global) -> Option<Vec<u8>> {
    let mut out = Vec::new(alloc);
    out.extend_from_slice(b"\\x01\\x00\\x02\\x80\\x80\\x40\\x03\\x03\\x04\\x00\\x05\\x01").ok()?;
    for place in 0..TABLES {
        put_table(&mut out, FIRST.wrapping_add(place), place)?;
    }
    Some(out)
}

/// The oldest table goes, and another comes in its place.
fn edit_bytes(alloc: Global, at: u64) -> Option<Vec<u8>> {
    let mut out = Vec::new(alloc);
    out.extend_from_slice([6, 6].as_slice()).ok()?;
    let old = FIRST.wrapping_add(at);
    put_number(&mut out, old)?;
    put_table(&mut out, old.wrapping_add(TABLES), at % TABLES)?;
    Some(out)
}

fn edit_of(alloc: Global, bytes: &[u8]) -> Option<Edit>
    ensures { IfSome result IsEdit }
{
    match Edit::decode(alloc, bytes) {
        Ok(edit) => edit,
        Err(_) => None,
    }
}

fn created(alloc: Global, disk: &mut HostDisk, first: &Edit) -> Option<(Manifest, Version)>
    requires { IsEdit first.now }
{
    let next = first.next?;
    if next < 4 {
        return None;
    }
    disk.barrier().ok()?;
    let made = Manifest::create(alloc, disk, 1, 2, 4, first).ok()?;
    Some(made)
}

fn put_catalogue(disk: &mut HostDisk) -> Option<()> {
    disk.create(file(FileKind::Catalogue, 2).as_str()).ok()?;
    Some(())
}

fn plain_log(disk: &mut HostDisk, first: &[u8]) -> Option<GateLog> {
    let mut log = GateLog::create(disk, file(FileKind::Log, PLAIN)).ok()?;
    log.append(disk, first).ok()?;
    Some(log)
}

fn manifest_len(disk: &mut HostDisk, number: u64) -> Option<u64> {
    let len = disk.len(file(FileKind::Manifest, number).as_str()).ok()?;
    len
}

#[derive(Drop)]
struct Store {
    disk: HostDisk,
    manifest: Manifest,
    version: Version,
    plain: GateLog,
    len: u64,
    grown: u64,
}

fn new_store(rt: &HostRuntime) -> Option<Store> {
    let alloc = rt.alloc();
    let mut disk = HostDisk::new(alloc, *rt, "store").ok()?;
    put_catalogue(&mut disk)?;
    let bytes = first_bytes(alloc)?;
    let first = edit_of(alloc, bytes.as_slice())?;
    let (manifest, version) = created(alloc, &mut disk, &first)?;
    let plain = plain_log(&mut disk, bytes.as_slice())?;
    let len = manifest_len(&mut disk, 1)?;
    Some(Store {
        disk,
        manifest,
        version,
        plain,
        len,
        grown: len,
    })
}

/// Commits the edit of this place to the manifest, and appends it to the log.
fn commit(alloc: Global, store: &mut Store, at: u64) -> Option<()> {
    let bytes = edit_bytes(alloc, at)?;
    let edit = edit_of(alloc, bytes.as_slice())?;
    let before = store.manifest.number();
    store
        .manifest
        .commit(alloc, &mut store.disk, &mut store.version, &edit)
        .ok()?;
    store.plain.append(&mut store.disk, bytes.as_slice()).ok()?;
    let number = store.manifest.number();
    let len = manifest_len(&mut store.disk, number)?;
    let kept = if number == before { store.len } else { 0 };
    store.grown = store.grown.saturating_add(len.saturating_sub(kept));
    store.len = len;
    Some(())
}

fn commit_between(alloc: Global, store: &mut Store, first: u64, end: u64) -> Option<()> {
    for at in first..end {
        commit(alloc, store, at)?;
    }
    Some(())
}

/// The tables of level 6 that an opening finds.
fn opened(alloc: Global, disk: &mut HostDisk) -> Option<usize> {
    let found = Manifest::open(alloc, disk).ok()?;
    let (_manifest, version) = found?;
    Some(version.tables(6).len())
}

fn opened_times(alloc: Global, disk: &mut HostDisk) -> Option<usize> {
    let mut found = 0;
    for _ in 0..TIMES {
        found = opened(alloc, disk)?;
    }
    Some(found)
}

/// Prints the microseconds of the openings, the tables that the last one found, the manifest's length and its number.
fn time_openings(rt: &HostRuntime, store: &mut Store) -> io::Result<()> {
    let start = rt.thread_cpu_time()?;
    let found = opened_times(rt.alloc(), &mut store.disk);
    let end = rt.thread_cpu_time()?;
    let micros = end.saturating_sub(start).as_micros();
    let (len, number) = (store.len, store.manifest.number());
    match found {
        Some(tables) => println!(rt; "{micros} {tables} {len} {number}"),
        None => println!(rt; "no opening"),
    }
}

/// Prints by how many bytes the manifests and `CURRENT` have grown, and how many the log has.
fn print_bytes(rt: &HostRuntime, store: &mut Store) -> io::Result<()> {
    let name = current();
    let pointer = store.disk.len(name.as_str());
    let plain = store.disk.len(file(FileKind::Log, PLAIN).as_str());
    match (pointer, plain) {
        (Ok(Some(pointer)), Ok(Some(plain))) => {
            let grown = store.grown.saturating_add(pointer);
            println!(rt; "{grown} {plain}")
        }
        _ => println!(rt; "no file"),
    }
}

fn run(rt: &HostRuntime, store: &mut Store) -> io::Result<()> {
    if commit_between(rt.alloc(), store, 0, FEW).is_none() {
        return println!(rt; "no commit");
    }
    time_openings(rt, store)?;
    if commit_between(rt.alloc(), store, FEW, MANY).is_none() {
        return println!(rt; "no commit");
    }
    time_openings(rt, store)?;
    print_bytes(rt, store)
}

fn main(rt: HostRuntime) -> io::Result<()> {
    // The build runs it too, with no word.
    if env::args(&rt)?.count() < 2 {
        return Ok(());
    }
    match new_store(&rt) {
        Some(mut store) => run(&rt, &mut store),
        None => println!(rt; "no store"),
    }
}
"""


def run(program):
    with tempfile.TemporaryDirectory(dir=SHM if os.path.isdir(SHM) else None) as folder:
        printed = subprocess.run([program, "run"], cwd=folder, check=True, stdout=subprocess.PIPE, text=True).stdout
    print(printed, end="")
    return [int(word) for word in re.findall(r"\d+", printed)]


def main():
    folder = sys.argv[1] if len(sys.argv) > 1 else tempfile.mkdtemp()
    libraries = ["pb_devices", "pb_edit", "pb_gate_log", "pb_host", "pb_manifest", "pb_names", "pb_version"]
    program = build(folder, "manifest_bench", libraries, PROGRAM, {})
    few, _, few_len, _, many, tables, many_len, number, grown, plain = run(program)
    print(f"{tables} tables, the manifest {number}: {grown} bytes, {grown / plain:.3f} of the {plain} of a log")
    print(f"an opening of {many_len} bytes takes {many / few:.2f} of one of {few_len}")


if __name__ == "__main__":
    main()
