#!/usr/bin/env bash
# ./bench.sh over program `bench`: its answers, what its exit status says, and that reading or writing that fails ends
# it and is told. Run where `bench` is built.
set -euo pipefail
cd "$(dirname "$0")/.."

program=crates/bench/out/bench
if [ ! -x "$program" ]; then
  echo "tests: NOT RUN: bench.sh: $program is not built (rt run, in crates/bench)"
  exit 0
fi
dir=$(mktemp -d)
trap 'rm -rf "$dir"' EXIT
example=examples/memory_d5
failed=0

# check NAME STATUS WANTED: what $dir/out and $dir/err hold goes with the exit status.
check() {
  if [ "$2" -ne "$3" ]; then
    echo "tests: bench.sh: $1: exit status $2, expected $3"
    cat "$dir/err"
    failed=1
  fi
}

# wrong NAME: something else than the exit status is not as it should be.
wrong() {
  echo "tests: bench.sh: $1"
  failed=1
}

# run COMMAND..: within seconds, its output and its errors kept.
run() {
  status=0
  timeout 30 "$@" >"$dir/out" 2>"$dir/err" || status=$?
}

# The model of the example, then one shot of it again and again.
endless() {
  sed '/^04/q' $example.in
  yes "$(sed -n '/^05/{p;n;p;q}' $example.in)"
}

run ./bench.sh $example.in
check "the example" "$status" 0
cmp -s "$dir/out" $example.out || wrong "the example is answered otherwise"

run ./bench.sh - <$example.in
check "standard input" "$status" 0
cmp -s "$dir/out" $example.out || wrong "standard input is answered otherwise"

# a link to the script, from another folder
ln -s "$PWD/bench.sh" "$dir/link"
input=$PWD/$example.in
(cd "$dir" && timeout 30 ./link "$input" >out 2>err) || wrong "another folder: exit status $?, expected 0"
cmp -s "$dir/out" $example.out || wrong "another folder: the example is answered otherwise"

sed '3s/^02/0x/' $example.in >"$dir/damaged"
run ./bench.sh "$dir/damaged"
check "a damaged line" "$status" 1
[ "$(tail -n 1 "$dir/out")" = ff03 ] || wrong "a damaged line: the last line is not ff03"
grep -q 'code 3' "$dir/err" || wrong "a damaged line: the code is not told"

run ./bench.sh "$dir/none"
check "no such file" "$status" 3
run ./bench.sh a b
check "two files" "$status" 2
run ./bench.sh --help
check "--help" "$status" 0
grep -q '256 detectors, 1,024 mechanisms' "$dir/out" || wrong "--help: what is held is not told"

# where `bench` is not built: a stand-in for `rt` says what `rt` says, and leaves a program
mkdir -p "$dir/new/crates/bench" "$dir/path"
cp bench.sh "$dir/new/"
printf 'low:\nbench: low\nother:\n' >"$dir/new/crates.txt"
cat >"$dir/path/rt" <<'RT'
#!/bin/sh
[ "$*" = run ] && [ "${PWD##*/}" = bench ] || exit 9
printf 'crate low: modules loaded=1 checked=1\nlogic=proved functions=1\ncrate bench: modules loaded=1 checked=1\nlogic=proved functions=1\n' >&2
mkdir -p out
printf '#!/bin/sh\necho 8f00000000000000000000000000000000\n' >out/bench
chmod +x out/bench
echo "rt: running out/bench" >&2
exec out/bench
RT
chmod +x "$dir/path/rt"
run env PATH="$dir/path:$PATH" "$dir/new/bench.sh" $example.in
check "a program that is proved first" "$status" 0
head -n 1 "$dir/err" | grep -q 'once only.* 2 crates' || wrong "the first line does not say that this happens once, and for how many crates"
[ "$(sed -n 's/^bench.sh: \(.*\) of 2 crates left$/\1/p' "$dir/err" | tr '\n' ' ')" = '1 0 ' ] || wrong "the crates left are counted otherwise"
[ "$(cat "$dir/out")" = 8f00000000000000000000000000000000 ] || wrong "what is written where \`rt\` runs the program is not the program's own output alone"

# and where it cannot be proved
rm -r "$dir/new/crates/bench/out"
cat >"$dir/path/rt" <<'RT'
#!/bin/sh
printf 'fn low::f: not proved\nlogic=not-proved\n' >&2
exit 1
RT
run env PATH="$dir/path:$PATH" "$dir/new/bench.sh" $example.in
check "a program that is not proved" "$status" 2
grep -q '^fn low::f: not proved$' "$dir/err" || wrong "a program that is not proved: the function is not told"

# a read that fails: a folder, and a pipe that is empty and does not wait
run ./bench.sh examples
check "a folder" "$status" 3
! grep -q '^8f' "$dir/out" || wrong "a folder: there is an 8f"
if command -v python3 >/dev/null 2>&1; then
  run python3 - <<'PY'
import os, subprocess, sys
given, held = os.pipe()
os.set_blocking(given, False)
os.write(held, open("examples/memory_d5.in", "rb").read()[:4000])
sys.exit(subprocess.call(["./bench.sh", "-"], stdin=given))
PY
  check "an empty pipe that does not wait" "$status" 3
  ! grep -q '^8f' "$dir/out" || wrong "an empty pipe that does not wait: there is an 8f"
else
  echo "tests: NOT RUN: bench.sh: an empty pipe that does not wait: no python3"
fi

# a write that fails: a full device, and a reader that is gone. The input never ends.
status=0
timeout 30 ./bench.sh - < <(endless) >/dev/full 2>"$dir/err" || status=$?
check "a full device" "$status" 3
status=0
timeout 30 "$program" < <(endless) >/dev/full 2>"$dir/err" || status=$?
check "a full device, the program alone" "$status" 1
statuses=(0 0)
timeout 30 ./bench.sh - < <(endless) 2>"$dir/err" | head -n 1 >"$dir/out" || statuses=("${PIPESTATUS[@]}")
check "a reader that is gone" "${statuses[0]}" 3
head -n 1 $example.out | cmp -s - "$dir/out" || wrong "a reader that is gone: the first line is another"
statuses=(0 0)
(trap '' PIPE && timeout 30 "$program") < <(endless) 2>"$dir/err" | head -n 1 >"$dir/out" ||
  statuses=("${PIPESTATUS[@]}")
check "a reader that is gone, with no signal" "${statuses[0]}" 1

[ "$failed" -eq 0 ] && echo "tests: bench.sh: ok"
exit "$failed"
