#!/usr/bin/env bash
# The quick comparison where everything for it is at hand; says plainly what is not. Fails only where the comparison ran and failed.
set -u
here=$(cd "$(dirname "$0")" && pwd)
reference=${PAVRENNI_REFERENCE:-$here/../../shared/docs/src}
library=${PAVRENNI_LIB_DIR:-$here/../crates/server/out}/libserver.a

missing() {
  echo "differential: NOT RUN: $1"
  exit 0
}

command -v cargo >/dev/null 2>&1 || missing "no cargo"
[ -f "$reference/src/qec/decoder.rs" ] || missing "no published source at $reference (PAVRENNI_REFERENCE)"
[ -f "$library" ] || missing "no $library (rt lib in crates/server, or PAVRENNI_LIB_DIR)"
grep -q pavrenni_rate "$library" || missing "$library does not export the rate, which the comparison calls"
exec "$here/run" quick "$@"
