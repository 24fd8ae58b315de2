#!/usr/bin/env python3
"""Times 20,000 look-ups in one table of 1,000 rows with keys and values of 8 bytes, beside 20,000 times `read_whole` of the table's file
and 20,000 times `read_table` of its bytes, in one built program and in processor time. Prints the rounds, and the ratios of the best of each.

    python3 bench/look_up.py [FOLDER]"""
import sys
import tempfile

from built import best, build, numbers

ROUNDS = 9
TIMES = 20
PROGRAM = """//! Times look-ups in one table beside readings of it.
#![tactic(auto)]

use pb_catalog::Catalog;
use pb_devices::Disk;
use pb_keys::{Bytes, Key};
use pb_mem::{MemBucket, MemDisk};
use pb_memtable::Memtable;
use pb_names::{FileKind, Name, file};
use pb_provider::Provider;
use pb_read::get;
use pb_table::read_table;
use pb_version::Version;
use std::alloc::Global;
use std::io;
use std::time::{CpuClock, Duration};

/// The edits of a store with the table 4, of 19,004 bytes and from `0` to `1`.
const FIRST: &[u8] = b"\\x01\\0\\x02\\x40\\x03\\x03\\x04\\0\\x05\\x01";

const TABLE: &[u8] = b"\\x07\\0\\x04\\x04\\xbc\\x94\\x01\\x010\\x011";

const SIZE: u64 = 19_004;

#[derive(Drop)]
struct Store {
    disk: MemDisk,
    bucket: MemBucket,
    provider: Provider,
    version: Version,
    memtable: Memtable,
}

fn digits(number: u32) -> [u8; 8] {
    let mut digits = [b'0'; 8];
    let mut rest = number;
    for place in 0..8 {
        digits[7 - place] = b'0' + (rest % 10) as u8;
        rest /= 10;
    }
    digits
}

/// The row whose key and value are the number's digits.
fn put_row(out: &mut Vec<u8>, number: u32) -> Option<()> {
    let text = digits(number);
    out.push(8).ok()?;
    out.extend_from_slice(&text).ok()?;
    out.extend_from_slice(&[1, 8]).ok()?;
    out.extend_from_slice(&text).ok()?;
    Some(())
}

/// A table of the rows 0 to 999.
fn table_of(alloc: Global) -> Option<Vec<u8>> {
    let mut out = Vec::from_slice(alloc, &[1, 0, 0xe8, 7]).ok()?;
    for number in 0..1_000 {
        put_row(&mut out, number)?;
    }
    Some(out)
}

fn push_key(alloc: Global, keys: &mut Vec<Key>, number: u32) -> Option<()> {
    let key = Key::new(alloc, &digits(number)).ok()?;
    keys.push(key).ok()?;
    Some(())
}

fn keys_of(alloc: Global) -> Option<Vec<Key>> {
    let mut keys = Vec::new(alloc);
    for number in 0..1_000 {
        push_key(alloc, &mut keys, number)?;
    }
    Some(keys)
}

fn version_of(alloc: Global) -> Option<Version> {
    let mut payloads = Vec::new(alloc);
    payloads.push(Bytes::new(alloc, FIRST).ok()?).ok()?;
    payloads.push(Bytes::new(alloc, TABLE).ok()?).ok()?;
    Version::of_payloads(alloc, payloads.as_slice()).ok()?
}

/// Where bytes stand without an entry. The catalogue has a disk of its own.
fn provider_of(alloc: Global, version: &Version) -> Option<Provider> {
    let name = file(FileKind::Catalogue, 2);
    let mut disk = MemDisk::new(alloc, Vec::new(alloc), 0);
    if disk.len(name.as_str()).ok()?.is_some() {
        return None;
    }
    let catalog = Catalog::create(alloc, &mut disk, name, 1).ok()?;
    if catalog.id() != 1 {
        return None;
    }
    Provider::new(alloc, 1, catalog, version).ok()
}

fn put(disk: &mut MemDisk, name: Name, bytes: &[u8]) -> Option<()> {
    let file = name.as_str();
    if disk.len(file).ok()?.is_some() {
        return None;
    }
    disk.create(file).ok()?;
    disk.write_at(file, 0, bytes).ok()?;
    Some(())
}

fn disk_of(alloc: Global, bytes: &[u8]) -> Option<MemDisk> {
    let mut disk = MemDisk::new(alloc, Vec::new(alloc), 0);
    put(&mut disk, file(FileKind::Table, 4), bytes)?;
    Some(disk)
}

fn store_of(alloc: Global, bytes: &[u8]) -> Option<Store> {
    let version = version_of(alloc)?;
    let provider = provider_of(alloc, &version)?;
    let disk = disk_of(alloc, bytes)?;
    Some(Store {
        disk,
        bucket: MemBucket::new(alloc, Vec::new(alloc)),
        provider,
        version,
        memtable: Memtable::new(alloc),
    })
}

fn is_found(alloc: Global, store: &mut Store, key: &Key) -> bool {
    let answer = get(
        alloc,
        &store.memtable,
        &store.version,
        &store.provider,
        &mut store.disk,
        &mut store.bucket,
        key,
    );
    matches!(answer, Ok(Some(_)))
}

fn find_all(alloc: Global, store: &mut Store, keys: &[Key]) -> u32 {
    let mut found = 0u32;
    for key in keys {
        found = found.wrapping_add(u32::from(is_found(alloc, store, key)));
    }
    found
}

fn find_times(alloc: Global, store: &mut Store, keys: &[Key]) -> u32 {
    let mut found = 0u32;
    for _ in 0..TIMES {
        found = found.wrapping_add(find_all(alloc, store, keys));
    }
    found
}

fn is_read_whole(alloc: Global, store: &mut Store) -> bool {
    let provider = &store.provider;
    let read = provider.read_whole(alloc, &mut store.disk, &mut store.bucket, 4, SIZE);
    read.is_ok()
}

fn read_whole_times(alloc: Global, store: &mut Store) -> u32 {
    let mut read = 0u32;
    for _ in 0..TIMES * 1_000 {
        read = read.wrapping_add(u32::from(is_read_whole(alloc, store)));
    }
    read
}

fn is_table(alloc: Global, bytes: &[u8]) -> bool {
    matches!(read_table(alloc, bytes), Ok(Some(_)))
}

fn read_table_times(alloc: Global, bytes: &[u8]) -> u32 {
    let mut read = 0u32;
    for _ in 0..TIMES * 1_000 {
        read = read.wrapping_add(u32::from(is_table(alloc, bytes)));
    }
    read
}

fn micros(from: Duration, to: Duration) -> u128 {
    to.saturating_sub(from).as_micros()
}

/// Prints the microseconds of the look-ups and how many found a value.
fn time_look_ups(rt: &HostRuntime, store: &mut Store, keys: &[Key]) -> io::Result<()> {
    let start = rt.thread_cpu_time()?;
    let found = find_times(rt.alloc(), store, keys);
    let end = rt.thread_cpu_time()?;
    println!(rt; "{} {found}", micros(start, end))
}

/// Prints the microseconds of the readings of the file and how many read it.
fn time_files(rt: &HostRuntime, store: &mut Store) -> io::Result<()> {
    let start = rt.thread_cpu_time()?;
    let read = read_whole_times(rt.alloc(), store);
    let end = rt.thread_cpu_time()?;
    println!(rt; "{} {read}", micros(start, end))
}

/// Prints the microseconds of the readings of the bytes and how many found a table.
fn time_tables(rt: &HostRuntime, bytes: &[u8]) -> io::Result<()> {
    let start = rt.thread_cpu_time()?;
    let read = read_table_times(rt.alloc(), bytes);
    let end = rt.thread_cpu_time()?;
    println!(rt; "{} {read}", micros(start, end))
}

fn time_all(rt: &HostRuntime, store: &mut Store, bytes: &[u8], keys: &[Key]) -> io::Result<()> {
    time_look_ups(rt, store, keys)?;
    time_files(rt, store)?;
    time_tables(rt, bytes)
}

fn time_table(rt: &HostRuntime, bytes: &[u8], keys: &[Key]) -> io::Result<()> {
    match store_of(rt.alloc(), bytes) {
        Some(mut store) => time_all(rt, &mut store, bytes, keys),
        None => println!(rt; "no memory"),
    }
}

fn main(rt: HostRuntime) -> io::Result<()> {
    let bytes = table_of(rt.alloc());
    let keys = keys_of(rt.alloc());
    match (bytes, keys) {
        (Some(bytes), Some(keys)) => time_table(&rt, bytes.as_slice(), keys.as_slice()),
        _ => println!(rt; "no memory"),
    }
}
"""


def main():
    folder = sys.argv[1] if len(sys.argv) > 1 else tempfile.mkdtemp()
    libraries = "pb_read pb_mem pb_provider pb_catalog pb_memtable pb_version pb_table pb_devices pb_names pb_keys".split()
    program = build(folder, "look_up_bench", libraries, PROGRAM.replace("TIMES", str(TIMES)), {})
    rounds = [numbers(program) for _ in range(ROUNDS)]
    for looked, found, whole, read, parsed, tables in rounds:
        print(f"{found} found in {looked / 1000:.1f} ms, {read} files in {whole / 1000:.1f} ms, {tables} tables in {parsed / 1000:.1f} ms")
    looked, _, whole, _, parsed, _ = best(rounds)
    print(f"a look-up takes {looked / parsed:.2f} of read_table, and read_whole {whole / parsed:.2f}")


if __name__ == "__main__":
    main()
