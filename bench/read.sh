#!/usr/bin/env bash
# Times readings of tokens (`shallow_derivation_of` of p4_grammar), beside `scan` of p4_lexer on the same source, in
# processor time and in one run: declarations of 131,072 and of 262,144 bytes, an expression of 30,000 and of 60,000
# operands, a `select` of 10,000 and of 20,000 cases, 1,000 and 2,000 nests of blocks that end 60 deep, and expressions that
# break off at the end of the text. Each reading makes the table of the language anew, which is nearly all of the reading of
# an empty source. It fails where twice the size takes over three times as long, or where a source has another answer. It
# builds a scratch program over a copy of the crates, so it needs the kit on the PATH.
# Usage: bench/read.sh [FOLDER]   (default: a new temporary folder, removed afterwards)
set -euo pipefail
top=$(cd "$(dirname "$0")/.." && pwd)
work=${1:-$(mktemp -d)}
[ $# -ge 1 ] || trap 'rm -rf "$work"' EXIT
mkdir -p "$work/crates/read_bench/src"
cp "$top/HANDLES" "$work/"
for name in tg_base p4_lexer p4_tree ll1_engine p4_grammar; do
  rm -rf "$work/crates/$name"
  mkdir "$work/crates/$name"
  for part in src specs proofs; do
    [ ! -d "$top/crates/$name/$part" ] || cp -r "$top/crates/$name/$part" "$work/crates/$name/"
  done
done
cat >"$work/crates.txt" <<'CRATES'
tg_base: sqlite_items thiserror
p4_lexer: tg_base sqlite_items
p4_tree: tg_base sqlite_items
ll1_engine: sqlite_items thiserror
p4_grammar: ll1_engine p4_lexer p4_tree tg_base sqlite_items
read_bench: p4_grammar p4_lexer tg_base anyhow
CRATES
cp "$top/bench/read_bench.txt" "$work/crates/read_bench/src/main.rt"
cd "$work"
[ -d .git ] || git init -q .
(cd crates/read_bench && rt run </dev/null >built.log)
program=crates/read_bench/out/read_bench

# many COUNT HEAD PART TAIL: so many of a part, between a head and a tail.
many() {
  awk -v most="$1" -v head="$2" -v part="$3" -v tail="$4" 'BEGIN {
    printf "%s", head
    for (i = 0; i < most; i++) printf "%s", part
    printf "%s", tail
  }'
}
# nested COUNT WHAT: a text that is repeated, for `many`.
nested() { awk -v most="$1" -v what="$2" 'BEGIN { for (i = 0; i < most; i++) printf "%s", what }'; }
declarations() { many $(($1 / 32)) "" 'const bit<32> a_valu = 32w0xff;\n' ""; }
expression() { many $(($1 - 1)) "const int a = b" "+b" ";"; }
cases() { many "$1" "parser p() { state start { transition select(x) {" " 1: a;" "} } }"; }
blocks() { many "$1" "action a() {" "$(nested 59 '{');$(nested 59 '}')" "}"; }
broken() { many $(($1 - 1)) "const int a = b" "+b" ""; }

readings=40
rounds=3
worse=0
# limit NAME VALUE MOST
limit() {
  awk -v name="$1" -v value="$2" -v most="$3" 'BEGIN { bad = value > most; printf "  %-30s %8.2f%s\n", name, value, bad ? "   more than " most : ""; exit bad }' || worse=1
}
ratio() { awk -v a="$1" -v b="$2" 'BEGIN { print (b > 0 ? a / b : 0) }'; }
# seconds SOURCE TIMES: the processor seconds of a scan and so many readings.
seconds() { local TIMEFORMAT=%U; { time "$program" "$2" <"$1" >/dev/null; } 2>&1; }
# reading SOURCE TIMES: the processor microseconds of one reading, the scan aside.
reading() { awk -v all="$(seconds "$1" "$2")" -v scan="$(seconds "$1" 0)" -v times="$2" 'BEGIN { printf "%d\n", (all - scan) * 1000000 / times }'; }
# scan SOURCE: the processor microseconds of one scan.
scan() { awk -v all="$(seconds "$1" 0)" 'BEGIN { printf "%d\n", all * 1000000 }'; }
least() { sort -n "$1" | head -n 1; }
# one NAME MAKE SMALL LARGE ANSWER: times both sources by turns, takes the least of each, and compares what the large one gave
one() {
  local name=$1 make=$2 given
  "$make" "$3" >small.txt
  "$make" "$4" >large.txt
  rm -f small.times large.times scan.times
  for _ in $(seq "$rounds"); do
    reading small.txt "$readings" >>small.times
    reading large.txt "$readings" >>large.times
    scan large.txt >>scan.times
  done
  given=$("$program" 1 <large.txt)
  printf '%s: %d bytes in %d us, the scan %d us, %s\n' "$name" "$(wc -c <large.txt)" "$(least large.times)" "$(least scan.times)" "$given"
  limit "beside the smaller" "$(ratio "$(least large.times)" "$(least small.times)")" 3
  [ "$given" = "$5" ] || { echo "  and not $5"; worse=1; }
}
: >empty.txt
printf 'the table: %d us\n' "$(reading empty.txt 1000)"
one declarations declarations 131072 262144 "73728 tokens"
one expression expression 30000 60000 "120004 tokens"
one cases cases 10000 20000 "80017 tokens"
one blocks blocks 1000 2000 "238006 tokens"
one "broken off" broken 30000 60000 "Syntax 1:120014"
exit $worse
