#!/usr/bin/env bash
# Times questions about terms: whether a port of nine bits is 4, 5 and both, a product of 16 bits, and 200 random questions
# over a small dag. It prints the time of a cube and of a propagated literal, beside the same search with a propagator alone,
# without circuits, checker and log. The program runs in a scratch copy, built with checks by the kit, so its times tell by
# their ratios alone.
set -euo pipefail
top=$(cd "$(dirname "$0")/.." && pwd)
work=$(mktemp -d)
trap 'rm -rf "$work"' EXIT
mkdir -p "$work/crates/questions_bench/src"
for crate in bits_core cnf_core value_domain term_dag symbolic_domain bit_blaster unit_propagation refutation_checker sat_solver proof_stream query_engine; do
  cp -r "$top/crates/$crate" "$work/crates/"
done
rm -rf "$work"/crates/*/out "$work"/crates/*/must-fail
cat >"$work/crates.txt" <<'CRATES'
bits_core: sqlite_items
cnf_core: sqlite_items
value_domain: bits_core
term_dag: bits_core indexmap sqlite_items
symbolic_domain: term_dag value_domain bits_core indexmap sqlite_items
bit_blaster: term_dag cnf_core bits_core indexmap sqlite_items
unit_propagation: cnf_core sqlite_items
refutation_checker: unit_propagation cnf_core sqlite_items thiserror
sat_solver: refutation_checker unit_propagation cnf_core sqlite_items
proof_stream: cnf_core sqlite_items thiserror
query_engine: bit_blaster sat_solver refutation_checker proof_stream symbolic_domain term_dag cnf_core bits_core sqlite_items
questions_bench: query_engine proof_stream term_dag unit_propagation cnf_core bits_core sqlite_items anyhow
CRATES
cd "$work/crates/questions_bench"
cp "$top/bench/questions_bench.txt" src/main.rt
rt try --steps 1 --seconds 900
