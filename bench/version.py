#!/usr/bin/env python3
"""Times, in one built program and in processor time, versions of 1,024, 2,048 and 4,096 tables of level 0, and the same of level 6: the
edit that brings them all, an edit that takes one table away and brings another over the same span, and a copy. Prints the best of all
rounds, and ratios.

    python3 bench/version.py [FOLDER [BEFORE]]

With a commit BEFORE, a program over the crates of that commit is timed too, its rounds between the others; what its edits don't know
(tables of level 6) is left out. The programs stand over copies of the crates in a folder of their own, since they belong to nothing that
is released. Their first build proves these crates, so a FOLDER that is kept saves minutes."""
import os
import sys
import tempfile

from built import TOP, best, build, commit_tree, numbers

LIBRARIES = ["pb_bytes", "pb_keys", "pb_edit", "pb_version"]
ROUNDS = 9
COUNTS = [1024, 2048, 4096]
PROGRAM = """//! Times edits and copies of versions.
#![tactic(auto)]

ghost use Rattle.std.specs.Prelude.{IsTrue, IfSome, All};
ghost use Rattle.pb_bytes.specs.Number.{IsNumber};
ghost use Rattle.pb_edit.specs.Grammar.{IsPhysical, IsVirtual, IsCreated, Ascend, created_below};
ghost use Rattle.pb_version.specs.State.{IsSpellable};

use pb_bytes::NUMBERS;
use pb_edit::{
    Backings, Created, Deleted, Deletions, Edit, LAST_LEVEL, Numbers, Physical, Physicals, Virtual,
    Virtuals,
};
use pb_keys::Bytes;
use pb_version::Version;
use std::alloc::Global;
use std::io;
use std::time::CpuClock;

fn is_number(number: Option<u64>) -> bool
    ensures { IsTrue result → IfSome number IsNumber }
{
    match number {
        Some(n) => n < NUMBERS,
        None => true,
    }
}

fn is_physical(p: &Physical) -> bool
    ensures { IsTrue result → IsPhysical p.now }
{
    p.level <= LAST_LEVEL
        && p.number < NUMBERS
        && p.rank < NUMBERS
        && p.size < NUMBERS
        && p.lo.as_slice().len() < 4096
        && p.hi.as_slice().len() < 4096
}

fn are_physical(physical: &[Physical]) -> bool
    ensures { IsTrue result → All IsPhysical physical.now }
{
    match physical {
        [] => true,
        [first, rest @ ..] => is_physical(first) && are_physical(rest),
    }
}

fn has_no_virtual(virtuals: &[Virtual]) -> bool
    ensures { IsTrue result → All IsVirtual virtuals.now }
{
    match virtuals {
        [] => true,
        _ => false,
    }
}

fn has_no_backing(created: &[Created]) -> bool
    ensures form { IsTrue result → All IsCreated created.now }
    ensures order { IsTrue result → Ascend created_below created.now }
{
    match created {
        [] => true,
        _ => false,
    }
}

fn has_numbers(edit: &Edit) -> bool
    ensures { IsTrue result → IfSome edit.now.accepted IsNumber × IfSome edit.now.next IsNumber × IfSome edit.now.log IsNumber × IfSome edit.now.flushed IsNumber × IfSome edit.now.format IsNumber }
{
    is_number(edit.accepted)
        && is_number(edit.next)
        && is_number(edit.log)
        && is_number(edit.flushed)
        && is_number(edit.format)
}

fn is_spellable(edit: &Edit) -> bool
    ensures { IsTrue result → IsSpellable edit.now }
{
    has_numbers(edit)
        && are_physical(edit.physical.as_slice())
        && has_no_virtual(edit.virtuals.as_slice())
        && has_no_backing(edit.created.as_slice())
}

fn digits(number: u64) -> [u8; 8] {
    let mut digits = [b'0'; 8];
    let mut rest = number;
    for place in 0..8 {
        digits[7 - place] = b'0' + (rest % 10) as u8;
        rest /= 10;
    }
    digits
}

/// The table of this number in this place: tables in different places don't overlap.
fn table_of(alloc: Global, level: u8, number: u64, place: u64) -> Option<Physical> {
    let lo = digits(place.wrapping_mul(2));
    let hi = digits(place.wrapping_mul(2).wrapping_add(1));
    Some(Physical {
        level,
        number,
        rank: number,
        size: 8,
        lo: Bytes::new(alloc, &lo).ok()?,
        hi: Bytes::new(alloc, &hi).ok()?,
    })
}

fn edit_of(alloc: Global, five: [Option<u64>; 5], deleted: Vec<Deleted>, physical: Vec<Physical>) -> Edit {
    Edit {
        accepted: five[0],
        next: five[1],
        log: five[2],
        flushed: five[3],
        format: five[4],
        deleted: Deletions::from_vec(deleted),
        physical: Physicals::from_vec(physical),
        virtuals: Virtuals::from_vec(Vec::new(alloc)),
        created: Backings::from_vec(Vec::new(alloc)),
        removed: Numbers::from_vec(Vec::new(alloc)),
    }
}

/// The first edit of a store, with so many tables of the level.
fn all_tables(alloc: Global, level: u8, count: u64) -> Option<Edit> {
    let mut physical = Vec::new(alloc);
    for place in 0..count {
        let table = table_of(alloc, level, place.wrapping_add(4), place)?;
        physical.push(table).ok()?;
    }
    let five = [Some(0), Some(8192), Some(3), Some(0), Some(1)];
    Some(edit_of(alloc, five, Vec::new(alloc), physical))
}

/// The edit that takes the table in this place away and brings another there.
fn exchange(alloc: Global, level: u8, place: u64) -> Option<Edit> {
    let mut deleted = Vec::new(alloc);
    deleted.push(Deleted { level, number: place.wrapping_add(4) }).ok()?;
    let mut physical = Vec::new(alloc);
    let table = table_of(alloc, level, 8000, place)?;
    physical.push(table).ok()?;
    Some(edit_of(alloc, [None; 5], deleted, physical))
}

/// Prints the nanoseconds of an edit, or 0 where it wasn't applied.
fn time_edit(rt: &HostRuntime, version: &mut Version, edit: &Edit) -> io::Result<()> {
    if !is_spellable(edit) {
        return println!(rt; "0");
    }
    let start = rt.thread_cpu_time()?;
    let done = version.apply(rt.alloc(), edit).is_ok();
    let end = rt.thread_cpu_time()?;
    let nanos = end.saturating_sub(start).as_nanos();
    if done {
        println!(rt; "{nanos}")
    } else {
        println!(rt; "0")
    }
}

/// Prints the nanoseconds of a copy, and the tables that it has on the level.
fn time_copy(rt: &HostRuntime, version: &Version, level: u8) -> io::Result<()> {
    let start = rt.thread_cpu_time()?;
    let copy = version.copy(rt.alloc());
    let end = rt.thread_cpu_time()?;
    let nanos = end.saturating_sub(start).as_nanos();
    let tables = match &copy {
        Ok(copy) => copy.tables(level).len(),
        Err(_) => 0,
    };
    println!(rt; "{nanos}")?;
    println!(rt; "{tables}")
}

fn time_version(rt: &HostRuntime, level: u8, all: &Edit, one: &Edit) -> io::Result<()> {
    let mut version = Version::empty(rt.alloc());
    time_edit(rt, &mut version, all)?;
    time_edit(rt, &mut version, one)?;
    time_copy(rt, &version, level)
}

fn time_level(rt: &HostRuntime, level: u8, count: u64) -> io::Result<()> {
    match (all_tables(rt.alloc(), level, count), exchange(rt.alloc(), level, count / 2)) {
        (Some(all), Some(one)) => time_version(rt, level, &all, &one),
        _ => println!(rt; "no memory"),
    }
}

fn main(rt: HostRuntime) -> io::Result<()> {
    for level in [0u8, 6] {
        for count in [1024, 2048, 4096] {
            time_level(&rt, level, count)?;
        }
    }
    Ok(())
}
"""
PROOF = """use Rattle.std.proofs.Common.{length}
use Rattle.NAME.proofs.+are_physical.Given as goal

abbrev pub decreases-are_physical : goal.decreases-are_physical
decreases-are_physical l = length l.physical.now
"""


def built(folder, source):
    return build(folder, "version_bench", LIBRARIES, PROGRAM, {"+are_physical/Invariants.antt": PROOF}, source)


def run(program):
    """The microseconds of each row: all tables at once, one for another, a copy; and how many tables the copy has."""
    figures = numbers(program)
    rows = [figures[at : at + 4] for at in range(0, len(figures), 4)]
    names = [(level, count) for level in (0, 6) for count in COUNTS]
    return {name: [it / 1000 for it in row[:3]] for name, row in zip(names, rows) if row[3] == name[1]}


def least(rounds):
    return {name: best(round[name] for round in rounds) for name in rounds[0]}


def say(name, rows):
    for (level, count), (whole, one, copy) in rows.items():
        print(f"{name}, {count} tables of level {level}: all at once {whole:.0f} us, one for another {one:.1f} us, a copy {copy:.0f} us")


def ratios(rows, others):
    """Of an edit and of a copy, count by count."""
    edits = ", ".join(f"{row[1] / other[1]:.2f}" for row, other in zip(rows, others))
    copies = ", ".join(f"{row[2] / other[2]:.2f}" for row, other in zip(rows, others))
    return f"an edit takes {edits}, a copy {copies}"


def main():
    folder = sys.argv[1] if len(sys.argv) > 1 else tempfile.mkdtemp()
    program = built(os.path.join(folder, "now"), TOP)
    before = None
    if len(sys.argv) > 2:
        before = built(os.path.join(folder, "before"), commit_tree(sys.argv[2], os.path.join(folder, "tree")))
    now, then = [], []
    for _ in range(ROUNDS):
        now.append(run(program))
        if before:
            then.append(run(before))
    now = least(now)
    say("now", now)
    shallow, deep = ([now[level, count] for count in COUNTS] for level in (0, 6))
    print(f"level 6 over level 0: {ratios(deep, shallow)}")
    if before:
        then = least(then)
        say("before", then)
        print(f"level 0 over before: {ratios(shallow, [then[0, count] for count in COUNTS])}")


if __name__ == "__main__":
    main()
