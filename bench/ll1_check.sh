#!/usr/bin/env bash
# Times `check_table` of ll1_engine on tables of about the size of a language's (150 and 300 rows) and of twice that, and
# prints the milliseconds (the least of five calls) and the ratio to the size before. The tables are those of expressions
# over many layers of operators, where a token in FIRST has to climb through all layers. The program is made in a scratch
# copy, built with the kit and run.
set -eu
top=$(cd "$(dirname "$0")/.." && pwd)
work=$(mktemp -d)
trap 'rm -rf "$work"' EXIT

mkdir -p "$work/crates/ll1_bench/src"
cp -r "$top/crates/ll1_engine" "$work/crates/ll1_engine"
rm -rf "$work/crates/ll1_engine/out" "$work/crates/ll1_engine/must-fail"
cat >"$work/crates.txt" <<'CRATES'
ll1_engine: sqlite_items thiserror
ll1_bench: ll1_engine anyhow
CRATES

cat >"$work/crates/ll1_bench/src/main.rt" <<'MAIN'
//! Prints the time that `check_table` takes for tables of three sizes.
#![tactic(auto)]

use anyhow::{Context, Result};
use ll1_engine::{Grammar, Row, Rows, Symbols, check_table};
use std::alloc::Global;
use std::time::Instant;

fn add(alloc: Global, rows: &mut Rows, left: usize, right: &[usize]) -> Result<()> {
    let right = Symbols::from_slice(alloc, right)?;
    rows.push(Row {
        left,
        right,
        rank: 0,
    })?;
    Ok(())
}

/// The tokens of a layer.
const TOKENS: usize = 4;

/// Layers of two symbols each, from symbol 0 on: a layer is the next layer and a tail, and a tail is one of the layer's
/// tokens, the next layer and the tail again, or nothing. The last layer is a token or the first layer in parentheses.
fn layers(alloc: Global, count: u16) -> Result<Rows> {
    let count = usize::from(count);
    let mut rows = Rows::new(alloc);
    let first = 2 * count + 1;
    for layer in 0..count {
        let this = 2 * layer;
        add(alloc, &mut rows, this, &[this + 2, this + 1])?;
        add(alloc, &mut rows, this + 1, &[])?;
        for k in 0..TOKENS {
            add(alloc, &mut rows, this + 1, &[first + layer * TOKENS + k, this + 2, this + 1])?;
        }
    }
    let spare = first + count * TOKENS;
    add(alloc, &mut rows, 2 * count, &[spare])?;
    add(alloc, &mut rows, 2 * count, &[spare + 1, 0, spare + 2])?;
    Ok(rows)
}

fn time<const S: usize, const R: usize>(rt: &HostRuntime, count: u16) -> Result<()> {
    let rows = layers(rt.alloc(), count)?;
    let grammar = Grammar::<S, R>::new(rows).context("no grammar")?;
    let mut least = u128::MAX;
    for _ in 0..5 {
        let start = Instant::now(rt)?;
        let _checked = check_table(rt.alloc(), &grammar)?;
        least = least.min(start.elapsed(rt)?.as_nanos());
    }
    println!(rt; "check_table {S} symbols {R} rows: {least} ns")?;
    Ok(())
}

fn main(rt: HostRuntime) -> Result<()> {
    time::<154, 152>(&rt, 25)?;
    time::<304, 302>(&rt, 50)?;
    time::<604, 602>(&rt, 100)?;
    Ok(())
}
MAIN

cd "$work/crates/ll1_bench"
rt run | awk '/ rows: / { ms = $6 / 1e6; printf "%s %s symbols %s rows: %.2f ms", $1, $2, $4, ms; if (last) printf ", %.1f times as long", ms / last; print ""; last = ms; next } { print > "/dev/stderr" }'
