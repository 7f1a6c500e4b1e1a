#!/bin/bash
# Times `accept` and `accept_cube` of the checker outside the gate: random 3-clauses near the threshold, one step among
# ever more clauses, and long clauses. It fails where a line is not answered as it must be, or a random cube takes over
# 5 ms. It builds a scratch program over a copy of the crates, so it needs the kit on the PATH.
# Usage: bench/checker.sh [FOLDER]   (default: a new temporary folder, removed afterwards)
set -euo pipefail
root=$(cd "$(dirname "$0")/.." && pwd)
scratch=${1:-$(mktemp -d)}
[ $# -ge 1 ] || trap 'rm -rf "$scratch"' EXIT
mkdir -p "$scratch/crates"
cp "$root/HANDLES" "$scratch/"
cp -r "$root/crates/cnf_core" "$root/crates/unit_propagation" "$root/crates/refutation_checker" "$scratch/crates/"
rm -rf "$scratch"/crates/*/out
cat > "$scratch/crates.txt" <<'TXT'
cnf_core: sqlite_items
unit_propagation: cnf_core sqlite_items
refutation_checker: unit_propagation cnf_core sqlite_items thiserror
checker_bench: cnf_core refutation_checker sqlite_items anyhow
TXT
cd "$scratch"
[ -d .git ] || git init -q .
mkdir -p crates/checker_bench/src
cp "$root/bench/checker_bench.txt" crates/checker_bench/src/main.rt
cd crates/checker_bench
rt run
