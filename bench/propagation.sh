#!/bin/bash
# Times the checker beside a C program that accepts the same logs by two watched literals and keeps nothing between
# propagations, in processor time and in one run. It prints the ratio of each log, and fails where a cube costs more than
# 3 times C's, where after 1,900 lines the ratio is more than 1.5 times that at the start, where accepting a log takes
# longer than making it took, or where a ternary clause takes more than 64 bytes beside the caller's copy: once with few
# variables, so that it is the clause's own, and once with as many as random formulas near the threshold have, whose
# tables then count too. It builds a scratch program over a copy of the crates, so it needs the kit on the PATH.
# Usage: bench/propagation.sh CPROGRAMS [FOLDER]
#   CPROGRAMS: the folder with make_log.c, accept.c, sat.h and later.py   FOLDER: default a new one, removed afterwards
set -euo pipefail
root=$(cd "$(dirname "$0")/.." && pwd)
programs=$(cd "$1" && pwd)
scratch=${2:-$(mktemp -d)}
[ $# -ge 2 ] || trap 'rm -rf "$scratch"' EXIT
mkdir -p "$scratch/repo/crates/propagation_bench/src"
cd "$scratch"
gcc -O2 -w -I"$programs" "$programs/make_log.c" -o make_log
gcc -O2 -w -I"$programs" "$programs/accept.c" -o accept
cp "$root/HANDLES" repo/
for name in cnf_core unit_propagation refutation_checker; do
  rm -rf "repo/crates/$name"
  cp -r "$root/crates/$name" repo/crates/
  rm -rf "repo/crates/$name/out"
done
cat > repo/crates.txt <<'TXT'
cnf_core: sqlite_items
unit_propagation: cnf_core sqlite_items
refutation_checker: unit_propagation cnf_core sqlite_items thiserror
propagation_bench: cnf_core refutation_checker sqlite_items anyhow
TXT
[ -d repo/.git ] || git init -q repo
cp "$root/bench/propagation_bench.txt" repo/crates/propagation_bench/src/main.rt
(cd repo/crates/propagation_bench && rt run < /dev/null > build.log)
program=repo/crates/propagation_bench/out/propagation_bench

# The processor seconds of a command.
seconds() { local TIMEFORMAT=%U; { time "$@" > /dev/null 2>&1; } 2>&1; }
on() { "$program" < "$1"; }
# The seconds of the lines of a log alone, without those of the formula, which the program also makes.
lines_seconds() {
  head -1 "$1" > formula.log
  awk -v all="$(seconds on "$1")" -v formula="$(seconds on formula.log)" 'BEGIN { print all - formula }'
}
c_seconds() {
  ./accept w < "$1" 2> /dev/null | sed -n 's/^\([0-9]*\) cubes ([^)]*): \([0-9.]*\) us each; \([0-9]*\) steps ([^)]*): \([0-9.]*\) us each.*/\1 \2 \3 \4/p' |
    awk '{ print ($1 * $2 + $3 * $4) / 1e6 }'
}
worse=0
# limit NAME VALUE MOST
limit() {
  awk -v name="$1" -v value="$2" -v most="$3" 'BEGIN { bad = value > most; printf "%-42s %6.2f%s\n", name, value, bad ? "   more than " most : ""; exit bad }' || worse=1
}
ratio() { awk -v a="$1" -v b="$2" 'BEGIN { print (b > 0 ? a / b : 0) }'; }
one() {
  local name=$1 makes
  shift
  makes=$(seconds make "$name" "$@")
  limit "$name: lines beside C" "$(ratio "$(lines_seconds "$name.log")" "$(c_seconds "$name.log")")" 3
  limit "$name: accepting beside making" "$(ratio "$(seconds on "$name.log")" "$makes")" 1
}
make() { local name=$1; shift; ./make_log "$@" > "$name.log"; }
one rand rand 2000 8500 2000 1
one sum sum 100 2000 1
one match match 4000 14 2000 1
one mul64 mul 64 200 1
one mul19 mul 19 10000 0
head -201 rand.log > early.log
python3 "$programs/later.py" rand.log 3800 200 > late.log
early=$(ratio "$(lines_seconds early.log)" "$(c_seconds early.log)")
late=$(ratio "$(lines_seconds late.log)" "$(c_seconds late.log)")
limit "rand: 100 cubes at the start beside C" "$early" 3
limit "rand: 100 cubes after 1,900 beside C" "$late" 3
limit "rand: after 1,900 cubes beside the start" "$(ratio "$late" "$early")" 1.5
# memory NAME VARIABLES CLAUSES
memory() {
  make "$1" rand "$2" "$3" 0 0 2> /dev/null
  limit "$1: bytes a ternary clause" "$(on "$1.log" | sed -n 's/^[0-9]* clauses, \([0-9]*\) bytes each$/\1/p')" 64
}
memory few 2000 850000
memory threshold 200000 850000
exit $worse
