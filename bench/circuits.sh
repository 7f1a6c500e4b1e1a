#!/usr/bin/env bash
# Prints how many clauses each operator's circuit has, by width, and times the clauses of products and of dags of 10,000 and
# 100,000 nodes. It fails where a circuit has more clauses than docs/CIRCUITS.md says at most, and where ten times the nodes
# take over thirty times as long. The program runs in a scratch copy, built with checks by the kit, so its times tell by
# their ratios alone.
set -euo pipefail
top=$(cd "$(dirname "$0")/.." && pwd)
work=$(mktemp -d)
trap 'rm -rf "$work"' EXIT
mkdir -p "$work/crates/circuits_bench/src"
for crate in bits_core cnf_core term_dag bit_blaster; do
  cp -r "$top/crates/$crate" "$work/crates/"
done
rm -rf "$work"/crates/*/out "$work"/crates/*/must-fail
cat >"$work/crates.txt" <<'CRATES'
bits_core: sqlite_items
cnf_core: sqlite_items
term_dag: bits_core indexmap sqlite_items
bit_blaster: term_dag cnf_core bits_core indexmap sqlite_items
circuits_bench: bit_blaster term_dag cnf_core bits_core sqlite_items anyhow
CRATES
cd "$work/crates/circuits_bench"
cp "$top/bench/circuits_bench.txt" src/main.rt
rt try --steps 1 --seconds 900
