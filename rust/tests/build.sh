#!/usr/bin/env bash
# What cargo does where libserver.a is missing, on a copy of the crate that stands in no repository: it fails at once
# with the command to run, and proves only where PAVRENNI_PROVE=1 asks. A stand-in for `rt` writes down its calls.
set -euo pipefail
crate=$(cd "$(dirname "$0")/.." && pwd)
work=$(cd "$(mktemp -d)" && pwd -P)
trap 'rm -rf "$work"' EXIT
top=$work/top
server=$top/crates/server
made=$server/out
called=$work/called
mkdir -p "$top/rust" "$server" "$work/bin" "$work/other"
cp -R "$crate/Cargo.toml" "$crate/Cargo.lock" "$crate/build.rs" "$crate/src" "$top/rust/"
cat >"$work/bin/rt" <<'RT'
#!/bin/sh
echo "$PWD: rt $*" >>"$CALLED"
eval "$STAND_IN"
RT
chmod +x "$work/bin/rt"
makes='mkdir -p out && echo "!<arch>" >out/libserver.a'

# Longer than cargo takes on a busy machine to say no, and far shorter than proving.
seconds=60

wrong() {
  echo "rust/tests/build.sh: $1" >&2
  sed 's/^/  /' "$work/said" >&2
  exit 1
}

# check STAND-IN [NAME=VALUE ..]: `cargo check` with these variables set, while `rt` does as told.
check() {
  rm -rf "$called" "$made"
  status=0
  (cd "$top/rust" && env -u PAVRENNI_LIB_DIR -u PAVRENNI_PROVE PATH="$work/bin:$PATH" CALLED="$called" STAND_IN="$1" \
    CARGO_TARGET_DIR="$work/built" "${@:2}" timeout "$seconds" cargo check --offline) >"$work/said" 2>&1 || status=$?
  [ "$status" -ne 124 ] || wrong "not done in $seconds seconds (${*:2})"
}

never_proves() { [ ! -e "$called" ] || wrong "\`rt\` was run: $(cat "$called")"; }

proves() {
  calls=$(cat "$called" 2>&1) || true
  [ "$calls" = "$server: rt lib" ] || wrong "how \`rt\` was run: $calls"
}

passes() { [ "$status" -eq 0 ] || wrong "this had to pass, and ended with $status"; }

says() {
  [ "$status" -ne 0 ] || wrong "this had to fail"
  grep -qF -- "$1" "$work/said" || wrong "the message does not say: $1"
}

# refuses FOLDER [NAME=VALUE ..]: no library in the folder, and the message says what to do.
refuses() {
  check "$makes" "${@:2}"
  says "there is no libserver.a in $1: run \`rt lib\` in $server,"
  says PAVRENNI_LIB_DIR
  never_proves
}

refuses "$made"
refuses "$made" PAVRENNI_PROVE=
refuses "$made" PAVRENNI_PROVE=0
refuses "$work/other" PAVRENNI_LIB_DIR="$work/other"
refuses "$work/other" PAVRENNI_LIB_DIR="$work/other" PAVRENNI_PROVE=1

check "$makes" PAVRENNI_PROVE=1
passes
proves
check "exit 3" PAVRENNI_PROVE=1
says "\`rt lib\` in $server ended with exit status: 3"
proves
check true PAVRENNI_PROVE=1
says "there is no libserver.a in $made: run \`rt lib\` in $server,"
proves

echo "!<arch>" >"$work/other/libserver.a"
check "$makes" PAVRENNI_LIB_DIR="$work/other" PAVRENNI_PROVE=1
passes
never_proves
echo "client: without its library cargo fails at once and names the command, and proves where it is asked to"
