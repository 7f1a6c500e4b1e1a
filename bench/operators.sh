#!/bin/bash
# Times each row of the operator table outside the gate, beside plain C in the same run: nanoseconds an operation of each,
# the best of five runs, and their ratio. It fails where the two compute different numbers. It builds a scratch program over a copy of the crate, so it
# needs the kit on the PATH, and a C compiler: CC, or else clang, whose code generator is the kit's too.
# Usage: bench/operators.sh [FOLDER]   (default: a new temporary folder, removed afterwards)
set -euo pipefail
root=$(cd "$(dirname "$0")/.." && pwd)
scratch=${1:-$(mktemp -d)}
[ $# -ge 1 ] || trap 'rm -rf "$scratch"' EXIT
mkdir -p "$scratch/crates/bits_core" "$scratch/crates/operators_bench/src"
cp "$root/HANDLES" "$scratch/"
cp -r "$root"/crates/bits_core/{src,specs,proofs} "$scratch/crates/bits_core/"
cat > "$scratch/crates.txt" <<'TXT'
bits_core: sqlite_items
operators_bench: bits_core anyhow
TXT
cp "$root/bench/operators_bench.txt" "$scratch/crates/operators_bench/src/main.rt"
${CC:-clang} -O2 -o "$scratch/plain" "$root/bench/operators_bench.c"
cd "$scratch"
[ -d .git ] || git init -q .
(cd crates/operators_bench && rt run) > built.txt
for _ in 1 2 3 4 5; do
    "$scratch/plain" >> plain.txt
    crates/operators_bench/out/operators_bench >> proved.txt
done
awk '
    NF != 4 || $1 !~ /^[A-Z][A-Za-z]*$/ { next }
    FNR == NR { if (!(($1, $2) in plain) || $3 < plain[$1, $2]) plain[$1, $2] = $3; state[$1, $2] = $4; next }
    !(($1, $2) in proved) { rows[++count] = $1 " " $2; proved[$1, $2] = $3 }
    {
        if ($3 < proved[$1, $2]) proved[$1, $2] = $3
        if (state[$1, $2] != $4) { print $1, $2, "differs:", state[$1, $2], $4; bad = 1 }
    }
    END {
        for (row = 1; row <= count; row++) {
            split(rows[row], key, " ")
            mine = proved[key[1], key[2]]; theirs = plain[key[1], key[2]]
            printf "%-8s %3d bits  %5.1f ns  plain C %5.1f ns  ratio %.2f\n", key[1], key[2], mine / 4e6, theirs / 4e6, mine / theirs
        }
        if (count != 41) { print count " rows, and not 41"; bad = 1 }
        exit bad
    }
' plain.txt proved.txt
