#!/usr/bin/env bash
# The benchmark's engines give the same records on short inputs, its builders the same tables, and it finds out wrong
# engines. It takes the peers that are installed, judges no figure and installs nothing.
set -euo pipefail
cd "$(dirname "$0")/.."
source tests/platform.sh
fail() { echo "speed: $*" >&2; exit 1; }

./speed quick >target/speed-quick.txt
for engine in one-bit whole-byte bitmap desk; do
  grep -q "^| $engine |" target/speed-quick.txt || fail "the table has no figures of $engine"
done
grep -q '| English in either case | near-matches in either case |$' target/speed-quick.txt || fail 'no tags of both kinds were read'
for file in table.md figures.csv chart.svg; do
  [[ -s target/speed/quick/$file ]] || fail "quick wrote no $file"
done

found_out() { # RUN ENGINE
  if ./speed "$1" >/dev/null 2>target/speed-wrong.txt; then
    fail "a wrong engine was not found out: $1"
  fi
  grep -q "'direct comparison that $2' and 'direct comparison' give different records" target/speed-wrong.txt ||
    { cat target/speed-wrong.txt; fail 'it stopped for another reason than the wrong engine'; }
}
found_out wrong 'forgets the pieces before'
found_out wrong-kind 'takes every tag as exact'

# runs that lack what they are about
for run in 'beside nowhere' share 'no such run'; do
  code=0
  ./speed $run >/dev/null 2>&1 || code=$?
  ((code == 2)) || fail "./speed $run gave $code, and not 2"
done
echo 'speed: all engines agree, and the wrong ones were found out'
