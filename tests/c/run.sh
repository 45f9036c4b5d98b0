#!/usr/bin/env bash
# The C headers: compiled alone, their structs held to layout.txt, their version to the Rust client's. Then programs
# that link the library and call it, and examples/decode.c held to what it must print. clang and a C++ compiler are
# tried where they are there. tests/c/run.sh --header stops before the library.
# PAVRENNI_LIB_DIR: the folder of the library, else crates/server/out. PAVRENNI_RUN: what the programs are run under, as
#     PAVRENNI_RUN="valgrind --quiet --leak-check=full --error-exitcode=1" tests/c/run.sh
set -euo pipefail
here=$(cd "$(dirname "$0")" && pwd)
top=$(cd "$here/../.." && pwd)
cc=${CC:-cc}
cxx=${CXX:-c++}
strict=(-pedantic -Wall -Wextra -Werror -I"$top/include")
c99=(-std=c99 "${strict[@]}")
cpp11=(-std=c++11 "${strict[@]}")
work=$(mktemp -d)
trap 'rm -rf "$work"' EXIT

has() { command -v "$1" >/dev/null 2>&1; }
has_threads() { echo '#include <pthread.h>' | "$1" -std=c99 -pthread -x c -fsyntax-only - 2>/dev/null; }

# each header by itself, and twice; then the programs
compile_c() {
  local name
  for name in pavrenni pavrenni_slices; do
    printf '#include "%s.h"\n' "$name" "$name" | "$1" "${c99[@]}" -x c -fsyntax-only -
  done
  for name in "$here"/{main,empty,slices,layout}.c "$top/examples/decode.c"; do
    "$1" "${c99[@]}" -fsyntax-only "$name"
  done
  if has_threads "$1"; then "$1" "${c99[@]}" -pthread -fsyntax-only "$here/threads.c"; fi
}

compile_cpp() {
  local name
  for name in pavrenni pavrenni_slices; do
    printf '#include "%s.h"\n' "$name" "$name" | "$1" "${cpp11[@]}" -x c++ -fsyntax-only -
  done
  for name in "$here/empty.c" "$top/examples/decode.c"; do
    "$1" "${cpp11[@]}" -x c++ -fsyntax-only "$name"
  done
}

for compiler in "$cc" clang; do if has "$compiler"; then compile_c "$compiler"; fi; done
for compiler in "$cxx" clang++; do if has "$compiler"; then compile_cpp "$compiler"; fi; done
"$cc" "${c99[@]}" "$here/layout.c" -o "$work/layout"
"$work/layout" | diff "$here/layout.txt" - || {
  echo "tests/c: the structs of pavrenni.h are not laid out as layout.txt says" >&2
  exit 1
}
version=$(sed -n '/^version = /{s///p;q}' "$top/rust/Cargo.toml")
grep -qxF "#define PAVRENNI_VERSION $version" "$top/include/pavrenni.h" || {
  echo "tests/c: PAVRENNI_VERSION is not $version, the version of rust/Cargo.toml" >&2
  exit 1
}
echo "C: the headers compile, the structs are as layout.txt says, the version is $version"
[ "${1:-}" = --header ] && exit 0

library=${PAVRENNI_LIB_DIR:-$top/crates/server/out}/libserver.a
[ -f "$library" ] || {
  echo "tests/c: there is no $library: run \`rt lib\` in $top/crates/server, or name its folder in PAVRENNI_LIB_DIR" >&2
  exit 1
}
read -ra under <<<"${PAVRENNI_RUN:-}"
run() { "${under[@]}" "$@"; }

for name in main empty slices; do
  "$cc" "${c99[@]}" "$here/$name.c" "$library" -o "$work/$name"
  run "$work/$name"
done
if has "$cxx"; then
  "$cxx" "${cpp11[@]}" -x c++ "$here/empty.c" -x none "$library" -o "$work/empty"
  run "$work/empty"
else
  echo "tests: NOT RUN: slices of length 0 in C++: no $cxx"
fi
if has_threads "$cc"; then
  "$cc" "${c99[@]}" -pthread "$here/threads.c" "$library" -o "$work/threads"
  run "$work/threads"
else
  echo "tests: NOT RUN: two threads: $cc has no pthread.h"
fi
"$cc" "${c99[@]}" "$top/examples/decode.c" "$library" -o "$work/decode"
run "$work/decode" >"$work/decode.out"
diff "$top/examples/decode.out" "$work/decode.out" || {
  echo "tests/c: examples/decode.c does not print what examples/decode.out says" >&2
  exit 1
}
echo "C, examples/decode.c: prints what it must"
