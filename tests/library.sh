#!/usr/bin/env bash
# What is tested over the static library: the C header and a program that calls it, the Rust client, the quick
# comparison with the published Rust. Each is run where all that it needs is at hand, and is said to be left out where
# it is not. Fails where one of them ran and failed. While the library is made, what does not need it is compiled.
set -euo pipefail
cd "$(dirname "$0")/.."

left_out() { echo "tests: NOT RUN: $1"; }

if ! command -v cc >/dev/null 2>&1 && ! command -v cargo >/dev/null 2>&1; then
  left_out "no C compiler and no cargo"
  exit 0
fi
said=$(mktemp)
trap 'rm -f "$said"' EXIT
(cd crates/server && rt lib) >"$said" 2>&1 &
making=$!
reference=${PAVRENNI_REFERENCE:-../shared/docs/src}
if command -v cargo >/dev/null 2>&1 && [ -f "$reference/src/qec/decoder.rs" ]; then
  (cd differential && cargo build --release --offline --quiet -p published) || true
fi
wait "$making" || {
  cat "$said"
  exit 1
}
tail -n 1 "$said"
if command -v cc >/dev/null 2>&1; then tests/c/run.sh; else left_out "the C header: no cc"; fi
# A warning of the client is an error here: of the crate, its tests and examples by the first variable, of its
# documentation by the second. All of it is compiled with the same flags, so nothing twice.
client() (
  cd rust
  tests/build.sh
  export RUSTFLAGS="${RUSTFLAGS:-} -D warnings" RUSTDOCFLAGS="${RUSTDOCFLAGS:-} -D warnings"
  cargo test --offline --quiet
  cargo doc --offline --no-deps --quiet
)
if command -v cargo >/dev/null 2>&1; then client; else left_out "the Rust client: no cargo"; fi
bash differential/ci.sh
