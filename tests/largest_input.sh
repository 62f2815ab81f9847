#!/usr/bin/env bash
# bench at the largest count of bytes: an input of 4,294,967,295 is taken whole; with one byte more the last piece would be LONG, and
# is not begun. The inputs are sparse files with a tag at their end. Some 45 seconds, so not part of `test`; crates/bench/out/bench is built.
set -euo pipefail
cd "$(dirname "$0")/.."
source tests/platform.sh
bench=$(rt_program bench)
work=$(mktemp -d)
trap 'rm -rf "$work"' EXIT
source tests/making.sh
cd "$work"

# the tag `he` ending at this byte
he_at() { printf he | dd of=input.bin bs=1 seek=$(($1 - 2)) conv=notrunc status=none; }

# check SIZE LINES: what bench writes behind its first line
check() {
  truncate -s "$1" input.bin
  echo "an input of $1 bytes:"
  diff <(printf '%s\n' 'edition 1 tags 1' "${@:2}") <("$bench") || { echo FAILED >&2; exit 1; }
  echo '  as it must be'
}

tags he >set.bin
truncate -s 4294967295 input.bin
he_at 4294963200
he_at 4294967295
check 4294967295 '1 4294963200 0' '1 4294967295 0' 'taken 4294967295'
check 4294967296 '1 4294963200 0' 'taken 4294963200'
