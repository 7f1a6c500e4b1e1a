#!/usr/bin/env bash
# Times `parse` of ll1_engine on a flat list and on a deeply nested one, of 10,000, 100,000 and 1,000,000 tokens, and
# prints the time per token, which stays level as the input grows. The program is made in a scratch copy, built with
# the kit and run with a stack of 256 KiB.
set -eu
top=$(cd "$(dirname "$0")/.." && pwd)
work=$(mktemp -d)
trap 'rm -rf "$work"' EXIT

mkdir -p "$work/crates/ll1_bench/src"
cp -r "$top/crates/ll1_engine" "$work/crates/ll1_engine"
rm -rf "$work/crates/ll1_engine/out" "$work/crates/ll1_engine/must-fail"
cat >"$work/crates.txt" <<'CRATES'
ll1_engine: sqlite_items thiserror
ll1_bench: ll1_engine anyhow
CRATES

cat >"$work/crates/ll1_bench/src/main.rt" <<'MAIN'
//! Prints the time that `parse` takes for each token of a flat list and of a nested one.
#![tactic(auto)]

use anyhow::{Context, Result};
use ll1_engine::{Checked, Grammar, Row, Rows, Symbols, check_table, parse};
use std::alloc::Global;
use std::time::Instant;

fn add(alloc: Global, rows: &mut Rows, left: usize, right: &[usize]) -> Result<()> {
    let right = Symbols::from_slice(alloc, right)?;
    rows.push(Row {
        left,
        right,
        rank: 0,
    })?;
    Ok(())
}

/// list = a list; list = nothing
fn flat_table(alloc: Global) -> Result<Checked<2, 2>> {
    let mut rows = Rows::new(alloc);
    add(alloc, &mut rows, 0, &[1, 0])?;
    add(alloc, &mut rows, 0, &[])?;
    let grammar = Grammar::<2, 2>::new(rows).context("no grammar")?;
    Ok(check_table(alloc, &grammar)?)
}

/// nest = ( nest ); nest = nothing
fn nested_table(alloc: Global) -> Result<Checked<3, 2>> {
    let mut rows = Rows::new(alloc);
    add(alloc, &mut rows, 0, &[1, 0, 2])?;
    add(alloc, &mut rows, 0, &[])?;
    let grammar = Grammar::<3, 2>::new(rows).context("no grammar")?;
    Ok(check_table(alloc, &grammar)?)
}

/// The nanoseconds of one parse, or none where the tokens are not those of the table.
fn nanoseconds<const S: usize, const R: usize>(
    rt: &HostRuntime,
    checked: &Checked<S, R>,
    tokens: &[usize],
) -> Result<Option<u128>> {
    if !checked.are_tokens(tokens) {
        return Ok(None);
    }
    let start = Instant::now(rt)?;
    let _tree = parse(rt.alloc(), checked, tokens)?;
    Ok(Some(start.elapsed(rt)?.as_nanos()))
}

fn report(rt: &HostRuntime, name: &str, count: usize, spent: Option<u128>) -> Result<()> {
    if let Some(spent) = spent {
        println!(rt; "{name} {count} tokens: {spent} ns")?;
    }
    Ok(())
}

fn flat(rt: &HostRuntime, count: usize) -> Result<()> {
    let table = flat_table(rt.alloc())?;
    let tokens = vec![in rt.alloc(); 1usize; count]?;
    let spent = nanoseconds(rt, &table, tokens.as_slice())?;
    report(rt, "flat", count, spent)
}

fn nested(rt: &HostRuntime, count: usize) -> Result<()> {
    let table = nested_table(rt.alloc())?;
    let mut tokens = vec![in rt.alloc(); 1usize; count / 2]?;
    let closing = vec![in rt.alloc(); 2usize; count / 2]?;
    tokens.extend_from_slice(closing.as_slice())?;
    let spent = nanoseconds(rt, &table, tokens.as_slice())?;
    report(rt, "nested", count, spent)
}

fn main(rt: HostRuntime) -> Result<()> {
    for count in [10_000usize, 100_000, 1_000_000] {
        flat(&rt, count)?;
        nested(&rt, count)?;
    }
    Ok(())
}
MAIN

cd "$work/crates/ll1_bench"
ulimit -s 256
rt run | awk '/ tokens: / { printf "%s: %.1f ns per token\n", $0, $4 / $2; next } { print > "/dev/stderr" }'
