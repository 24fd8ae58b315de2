#!/usr/bin/env python3
"""Times, in one built program and in processor time, the planning of an excise that cuts two tables of level 6, in versions of 1,024 and of
4,096 tables there, with the count of its parts that a caller asks for first, and this count alone. Prints the best of all rounds, and
ratios.

    python3 bench/excise.py [FOLDER]"""
import os
import sys
import tempfile

from built import TOP, best, build, numbers

ROUNDS = 9
COUNTS = [1024, 4096]
PROGRAM = """//! Times the planning of excises.
#![tactic(auto)]

ghost use Rattle.std.specs.Prelude.{◌+◌, ◌≤◌, ◌^◌, IsTrue, IfOk, IfSome};
ghost use Rattle.pb_version.specs.State.{IsSpellable};
ghost use Rattle.pb_version.specs.Version.{all_tables};
ghost use Rattle.pb_excise.specs.Excised.{parts_count};

use pb_bytes::{put_field, put_varint};
use pb_edit::Edit;
use pb_excise::{parts, plan};
use pb_keys::Span;
use pb_version::Version;
use std::alloc::{AllocError, Global};
use std::io;
use std::time::CpuClock;

fn digits(number: u64) -> [u8; 8] {
    let mut digits = [b'0'; 8];
    let mut rest = number;
    for place in 0..8 {
        digits[7 - place] = b'0' + (rest % 10) as u8;
        rest /= 10;
    }
    digits
}

/// The table in this place: tables in different places don't overlap.
fn put_table(alloc: Global, out: &mut Vec<u8>, place: u64) -> Result<(), AllocError> {
    out.push(7)?;
    out.push(6)?;
    put_varint(alloc, out, place.wrapping_add(4))?;
    put_varint(alloc, out, place.wrapping_add(4))?;
    put_varint(alloc, out, 8)?;
    put_field(alloc, out, &digits(place.wrapping_mul(2)))?;
    put_field(alloc, out, &digits(place.wrapping_mul(2).wrapping_add(1)))?;
    Ok(())
}

/// The bytes of the first edit of a store with so many tables.
fn first_edit(alloc: Global, count: u64) -> Result<Vec<u8>, AllocError> {
    let mut bytes = Vec::new(alloc);
    for (kind, number) in [(1, 0), (2, 8192), (3, 3), (4, 0), (5, 1)] {
        bytes.push(kind)?;
        put_varint(alloc, &mut bytes, number)?;
    }
    for place in 0..count {
        put_table(alloc, &mut bytes, place)?;
    }
    Ok(bytes)
}

fn decoded(alloc: Global, bytes: &[u8]) -> Result<Option<Edit>, AllocError>
    ensures ok { IfOk result (λ read. IfSome read (λ edit. IsSpellable edit)) }
{
    let read = Edit::decode(alloc, bytes)?;
    Ok(read)
}

fn apply_bytes(alloc: Global, version: &mut Version, bytes: &[u8]) -> Result<bool, AllocError> {
    match decoded(alloc, bytes)? {
        Some(edit) => Ok(version.apply(alloc, &edit).is_ok()),
        None => Ok(false),
    }
}

/// From inside the table in this place into the next.
fn cut_of(alloc: Global, place: u64) -> Option<Span> {
    let mut lo = Vec::new(alloc);
    lo.extend_from_slice(&digits(place.wrapping_mul(2))).ok()?;
    lo.push(b'5').ok()?;
    let mut hi = Vec::new(alloc);
    hi.extend_from_slice(&digits(place.wrapping_mul(2).wrapping_add(2))).ok()?;
    hi.push(b'5').ok()?;
    Span::new(alloc, lo.as_slice(), hi.as_slice()).ok()
}

fn fits(version: &Version, span: &Span) -> bool
    ensures { IsTrue result → version.now.five.next + parts_count span.now (all_tables version.now) ≤ 2 ^ 62 }
{
    let five = version.five();
    five.next < 1_000_000 && parts(version, span) < 1_000_000
}

fn edit_of(alloc: Global, version: &Version, span: &Span) -> Result<Edit, AllocError>
    requires { version.now.five.next + parts_count span.now (all_tables version.now) ≤ 2 ^ 62 }
{
    let five = version.five();
    let edit = plan(alloc, version, span, five.next)?;
    Ok(edit)
}

/// How many tables the planned edit takes away. What the plan asks for is asked first, as its callers do.
fn planned(alloc: Global, version: &Version, span: &Span) -> Result<usize, AllocError> {
    if !fits(version, span) {
        return Ok(0);
    }
    let edit = edit_of(alloc, version, span)?;
    Ok(edit.deleted.as_slice().len())
}

/// Prints the nanoseconds of a hundred plans, and of a hundred counts of parts; then how many tables a plan takes away.
fn time_plans(rt: &HostRuntime, version: &Version, span: &Span) -> io::Result<()> {
    let mut deleted = 0;
    let start = rt.thread_cpu_time()?;
    for _ in 0..100 {
        deleted = planned(rt.alloc(), version, span).unwrap_or(0);
    }
    let between = rt.thread_cpu_time()?;
    let mut count = 0;
    for _ in 0..100 {
        count = parts(version, span);
    }
    let end = rt.thread_cpu_time()?;
    println!(rt; "{}", between.saturating_sub(start).as_nanos())?;
    println!(rt; "{}", end.saturating_sub(between).as_nanos())?;
    println!(rt; "{deleted}")?;
    println!(rt; "{count}")
}

fn time_version(rt: &HostRuntime, count: u64) -> io::Result<()> {
    let mut version = Version::empty(rt.alloc());
    let is_made = match first_edit(rt.alloc(), count) {
        Ok(bytes) => apply_bytes(rt.alloc(), &mut version, bytes.as_slice()).unwrap_or(false),
        Err(_) => false,
    };
    match cut_of(rt.alloc(), count / 2) {
        Some(span) if is_made => time_plans(rt, &version, &span),
        _ => println!(rt; "no memory"),
    }
}

fn main(rt: HostRuntime) -> io::Result<()> {
    for count in [1024, 4096] {
        time_version(&rt, count)?;
    }
    Ok(())
}
"""
PROOFS = {
    "decoded/Answers.antt": """use Rattle.NAME.proofs.Spellable.{spellable_read}
use Rattle.NAME.proofs.decoded.Goals as goal

pub returns : goal.returns
returns c = record { ok = spellable_read c.args.bytes.now c.in_ok-read.read c.in_ok-read.ensures.found }
""",
    "edit_of/Answers.antt": """use Rattle.std.proofs.Common.{◌≡◌, ◌∙◌, ap, arith}
use Rattle.pb_version.specs.Version.{FiveNumbers}
use Rattle.pb_excise.proofs.Walk.{unused_from}
use Rattle.NAME.proofs.edit_of.Goals as goal

pub plan-requires-clause-unused : goal.plan-requires-clause-unused
plan-requires-clause-unused c =
    let next : c.five.inside.next ≡ c.args.version.now.five.next =
        ap (λ (f : FiveNumbers). f.next) (c.five.view_is ∙ c.five-five.ensures.value) in
    unused_from c.args.version.now c.five.inside.next c.five-five.ensures.in_form (omega (arith, next))
""",
}


def proofs():
    """The program's own, and the lemma that it has in common with the tests."""
    found = dict(PROOFS)
    for name in ("Lib.antt", "Spellable.antt"):
        with open(os.path.join(TOP, "crates", "pb_excise_tests", "proofs", name)) as file:
            found[name] = file.read()
    return found


def main():
    folder = sys.argv[1] if len(sys.argv) > 1 else tempfile.mkdtemp()
    libraries = ["pb_excise", "pb_version", "pb_edit", "pb_keys", "pb_bytes"]
    program = build(folder, "excise_bench", libraries, PROGRAM, proofs())
    rounds = [numbers(program) for _ in range(ROUNDS)]
    assert all(figures[2:4] + figures[6:8] == [2, 2, 2, 2] for figures in rounds), "each plan cuts two tables, once each"
    few, few_parts, _, _, many, many_parts, *_ = best(rounds)
    for count, plan, parts in [(COUNTS[0], few, few_parts), (COUNTS[1], many, many_parts)]:
        print(f"{count} tables, two of them cut: a plan {plan / 100_000:.1f} us, its parts counted {parts / 100_000:.1f} us")
    print(f"4,096 over 1,024 tables: a plan takes {many / few:.2f}, a count {many_parts / few_parts:.2f}")


if __name__ == "__main__":
    main()
