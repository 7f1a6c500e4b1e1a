#!/usr/bin/env bash
# Runs command lines over the built program, one at least for each status, and compares the status, the report, the notes
# and the files that are then there. It ends with 1 where one differs.
#
# usage: scripts/command_line.sh [PROGRAM]
set -u
top=$(dirname "$(dirname "$(readlink -f "$0")")")
program=$(readlink -f "${1:-$top/crates/testgen_program/out/testgen_program}")
folder=$(mktemp -d) || exit
trap 'rm -rf "$folder"' EXIT
cd "$folder" || exit
failed=0

USAGE='usage: gen NAME | replay NAME TEST FILL | load NUMBER SIZE'
NOT_BUILT='refused 21 NotBuilt at 1:1'
REPORT='bounds bytes 128 steps 12 entries 1 budget 2000
1 11:5 covered 1
statements 1 covered 1 unreachable 0 unsteady 0 undecided 0 tests 1 nibbles 0'
TEST='# test 1 covers 1
packet 0 0000000000000000000000000000
expect 3 0000000000000000000000000000$'

differs() {
  echo "differs: $1" >&2
  failed=1
}

# row NAME STATUS REPORT NOTES WORD..: runs the program on the words.
row() {
  local name=$1 status=$2 report=$3 notes=$4
  shift 4
  "$program" "$@" >report 2>notes
  local got=$?
  [ "$got" = "$status" ] || differs "$name: the status is $got, not $status"
  [ "$(cat report)" = "$report" ] || differs "$name: the report"
  [ "$(cat notes)" = "$notes" ] || differs "$name: the notes"
}

# holds NAME FILE TEXT: the file has this text, or is not there where the text is empty.
holds() {
  [ "$(cat "$2" 2>/dev/null)" = "$3" ] || differs "$1: the file $2"
}

cp "$top/examples/skeleton.p4" a.p4
echo 'no program' >b.p4
mkdir folder.p4

row 'no words' 1 '' "$USAGE"
row 'an unknown verb' 1 '' "$USAGE" make a.p4
row 'a name is missing' 1 '' "$USAGE" gen
row 'a word that is not text' 1 '' "$USAGE" gen $'\xff.p4'
holds 'wrong words' test_1.stf ''

row 'another source' 2 '' 'refused 13 Syntax at 1:1' gen b.p4
row 'an empty source' 2 '' "$NOT_BUILT" gen /dev/null
holds 'refused' test_1.stf ''

row 'a missing file' 4 '' 'read fault' gen missing.p4
row 'a folder' 4 '' 'read fault' gen folder.p4
holds 'a read fault' test_1.stf ''

row 'a job' 0 "$REPORT" '' gen a.p4
holds 'a job' test_1.stf "$TEST"
row 'the same job again' 0 "$REPORT" '' gen a.p4
holds 'the same job again' test_1.stf "$TEST"
[ "$(ls)" = 'a.p4
b.p4
folder.p4
notes
report
test_1.stf' ] || differs 'a job: the files'

rm test_1.stf
mkdir test_1.stf
row 'a test that cannot be made' 5 '' '' gen a.p4
rmdir test_1.stf
"$program" gen a.p4 >/dev/full 2>notes
[ $? = 5 ] || differs 'a report that is not taken: the status'
holds 'a report that is not taken' test_1.stf "$TEST"

# Memory that runs out: somewhere between too little to start and enough to end.
found=
for kilobytes in $(seq 1000 250 12000); do
  (ulimit -v "$kilobytes"; exec "$program" gen a.p4) >/dev/null 2>&1
  [ $? = 6 ] && found=$kilobytes && break
done
[ -n "$found" ] || echo 'not reached: status 6' >&2

[ "$failed" = 0 ] && echo 'command lines: no difference'
exit "$failed"
