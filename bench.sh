#!/usr/bin/env bash
# ./bench.sh [FILE]: runs program `bench` on a file of frames, proved and built first where that is missing; --help says
# more.
set -euo pipefail

# What is said on standard error.
say() { echo "bench.sh: $*" >&2; }

help() {
  cat <<'TEXT'
usage: ./bench.sh [FILE]

Decodes a file of frames (docs/RULES.md, "Frames"); standard input where there is no FILE, or it is -. The answers go to
standard output as they come. Held are 256 detectors, 1,024 mechanisms, as many components and 8,192 list entries.

exit status
  0  the input is answered to its end: the last line is 8f, with the shots, the failures and the rate
  1  the input is refused: the last line is ff with a code (docs/RULES.md, "Refusals")
  2  nothing was run: wrong use, or `bench` could not be proved
  3  reading or writing failed: the output is cut off, and has neither of these last lines
TEXT
}

# The crates that a crate stands on, itself among them: how many.
count() {
  awk -v want="$1" '
    { sub(/#.*/, "") }
    NF { name = $1; sub(/:$/, "", name); $1 = ""; needs[name] = $0 }
    function visit(name, list, n, i) {
      if (seen[name]++ || !(name in needs)) return
      many++
      n = split(needs[name], list, " ")
      for (i = 1; i <= n; i++) visit(list[i])
    }
    END { visit(want); print many }' crates.txt
}

# `bench` proved, built, and run on an empty input, as `rt run` does. What `rt` says is on standard error, a verdict for
# each crate that it proves. The input is not for `rt`.
prove() {
  local all left line
  all=$(count bench)
  say "once only, \`bench\` is proved before it runs: $all crates, some 17 minutes on four processors"
  (cd crates/bench && exec rt run </dev/null 2>&1 >/dev/null) | {
    left=$all
    while IFS= read -r line; do
      case $line in
        *": error"* | "fn "*": not proved"* | "fn "*": no proof"* | "logic=not-proved"*) echo "$line" >&2 ;;
        "logic=proved "*)
          left=$((left - 1))
          say "$left of $all crates left"
          ;;
      esac
    done
  }
}

case ${1-} in
  --help | -h)
    help
    exit 0
    ;;
  -?*)
    help >&2
    exit 2
    ;;
esac
if [ $# -gt 1 ]; then
  help >&2
  exit 2
fi
if [ "${1:--}" != - ]; then
  { exec <"$1"; } || exit 3
fi
# Standard output, under a number of its own: below, it is the pipe that the last line is taken from.
{ exec 4>&1; } || exit 3
cd "$(dirname "$(readlink -f "$0")")"
program=crates/bench/out/bench
if [ ! -x "$program" ]; then
  prove || {
    say "\`bench\` could not be proved"
    exit 2
  }
fi

# `bench` ends with 1 where reading or writing fails, and says why on standard error; else its last line tells how it
# ended. What stands between ends at the first write that fails, and so does `bench`.
cut=
last=$({ "$program" | tee --output-error=exit /dev/fd/3 >&4; } 3>&1 | tail -n 1) || cut=yes
if [ -z "$cut" ] && [[ $last =~ ^8f[0-9a-f]{32}$ ]]; then
  exit 0
elif [ -z "$cut" ] && [[ $last =~ ^ff[0-9a-f]{2}$ ]]; then
  say "the input is refused with code $((16#${last:2})): docs/RULES.md, \"Refusals\", has what it means"
  exit 1
fi
say "reading or writing failed: the output is cut off"
exit 3
