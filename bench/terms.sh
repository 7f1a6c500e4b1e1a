#!/usr/bin/env bash
# Times the making of dags of 10,000 and 100,000 nodes, their value at a point and a substitution, random dags and chains.
# It fails where ten times the nodes take over thirty times as long. The program is interpreted in a scratch copy by the
# kit, so its times tell by their ratios alone.
set -euo pipefail
top=$(cd "$(dirname "$0")/.." && pwd)
work=$(mktemp -d)
trap 'rm -rf "$work"' EXIT
mkdir -p "$work/crates/terms_bench/src"
cp -r "$top/crates/bits_core" "$top/crates/term_dag" "$work/crates/"
rm -rf "$work"/crates/*/out "$work"/crates/*/must-fail
cat >"$work/crates.txt" <<'CRATES'
bits_core: sqlite_items
term_dag: bits_core indexmap sqlite_items
terms_bench: term_dag bits_core sqlite_items anyhow
CRATES
cd "$work/crates/terms_bench"
for kind in Random Chain; do
  sed "s/^const KIND: Kind = .*/const KIND: Kind = Kind::$kind;/" "$top/bench/terms_bench.txt" >src/main.rt
  echo "$kind:"
  rt try
done
