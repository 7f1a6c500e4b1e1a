#!/usr/bin/env bash
# Times `scan` of p4_lexer, beside a pass in C that only cuts the same bytes into words, in one run: sources of 131,072 and
# of 262,144 bytes (declarations, one long expression, comments, one name), and macros that each double the one before, with
# which 2^17 and 2^18 words come of a source, and then more than may. It fails where twice the bytes or the words take over
# three times as long, or many more macros than the limits allow take over three times as long as a few more, where a scan
# takes over 200 times as long as C's pass, or where a source has another answer. It builds a scratch program over a copy of
# the crates, so it needs the kit on the PATH, and a C compiler: CC, or else clang.
# Usage: bench/scan.sh [FOLDER]   (default: a new temporary folder, removed afterwards)
set -euo pipefail
top=$(cd "$(dirname "$0")/.." && pwd)
work=${1:-$(mktemp -d)}
[ $# -ge 1 ] || trap 'rm -rf "$work"' EXIT
mkdir -p "$work/crates/scan_bench/src"
cp "$top/HANDLES" "$work/"
for name in tg_base p4_lexer; do
  rm -rf "$work/crates/$name"
  mkdir "$work/crates/$name"
  cp -r "$top/crates/$name"/{src,specs,proofs} "$work/crates/$name/"
done
cat >"$work/crates.txt" <<'CRATES'
tg_base: sqlite_items thiserror
p4_lexer: tg_base sqlite_items
scan_bench: p4_lexer tg_base anyhow
CRATES
cp "$top/bench/scan_bench.txt" "$work/crates/scan_bench/src/main.rt"
${CC:-clang} -O2 -o "$work/pass" "$top/bench/scan_bench.c"
cd "$work"
[ -d .git ] || git init -q .
(cd crates/scan_bench && rt run </dev/null >built.log)
program=crates/scan_bench/out/scan_bench

# So many bytes of a line that is repeated, between a head and a tail, filled up with blanks.
repeat() {
  awk -v all="$1" -v head="$2" -v line="$3" -v tail="$4" 'BEGIN {
    printf "%s", head
    left = all - length(head) - length(tail)
    for (; left >= length(line); left -= length(line)) printf "%s", line
    for (; left > 0; left--) printf " "
    printf "%s", tail
  }'
}
declarations() { repeat "$1" "" 'const bit<32> a_value = 32w0xff;\n' ""; }
expression() { repeat "$1" "const int a = b" "+b" ";"; }
comments() { repeat "$1" "" '// a line of a comment\n' ""; }
name() { repeat "$1" "" "a" ""; }
# So many macros, each of which is two of the one before, and the last of them on a line of its own.
bomb() {
  awk -v most="$1" 'BEGIN {
    print "#define a0 x"
    for (i = 1; i <= most; i++) printf "#define a%d a%d a%d\n", i, i - 1, i - 1
    print "a" most
  }'
}

worse=0
# limit NAME VALUE MOST
limit() {
  awk -v name="$1" -v value="$2" -v most="$3" 'BEGIN { bad = value > most; printf "  %-30s %8.2f%s\n", name, value, bad ? "   more than " most : ""; exit bad }' || worse=1
}
ratio() { awk -v a="$1" -v b="$2" 'BEGIN { print (b > 0 ? a / b : 0) }'; }
# one NAME MAKE SMALL LARGE ANSWER: times both sources, and compares what the large one gave
one() {
  local name=$1 make=$2 small large given passed
  "$make" "$3" >small.txt
  "$make" "$4" >large.txt
  read -r small _ < <("$program" <small.txt)
  read -r large given < <("$program" <large.txt)
  read -r passed _ < <(./pass <large.txt)
  printf '%s: %d bytes in %d us, in C %d us, %s\n' "$name" "$(wc -c <large.txt)" $((large / 1000)) $((passed / 1000)) "$given"
  limit "beside the smaller" "$(ratio "$large" "$small")" 3
  [ "$make" = bomb ] || limit "beside C" "$(ratio "$large" "$passed")" 200
  [ "$given" = "$5" ] || { echo "  and not $5"; worse=1; }
}
one declarations declarations 131072 262144 "71487 tokens"
one expression expression 131072 262144 "262134 tokens"
one comments comments 131072 262144 "0 tokens"
one name name 131072 262144 "1 tokens"
one "macro words" bomb 17 18 "262144 tokens"
one "too many words" bomb 25 60 "Limit 62:1"
exit $worse
