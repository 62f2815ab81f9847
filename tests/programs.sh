#!/usr/bin/env bash
# The built programs against what they must write: bench on its samples and beside the second program, replay on its samples and on
# generated scripts beside the second program. `test` runs it once both are built: crates/NAME/out has the programs, target/rust the second.
set -euo pipefail
cd "$(dirname "$0")/.."
root=$PWD
work=$(mktemp -d)
trap 'rm -rf "$work"' EXIT

second=$root/target/rust/release/second
compare=$root/target/rust/release/compare
for program in crates/{bench/out/bench,replay/out/replay} "$second" "$compare"; do
  [[ -x $program ]] || { echo "programs.sh: $program is not built" >&2; exit 2; }
done

source tests/making.sh
source tests/platform.sh
bench=$(rt_program bench)
replay=$(rt_program replay)

# runs bench in the current folder; what it wrote is in 'wrote'
run_bench() { timeout 60 "$bench" >wrote || fail "$1: bench ended with status $?"; }
fail() { echo "FAILED: $1" >&2; exit 1; }
same() { cmp -s "$2" "$3" || { diff "$2" "$3" | head -n 10 >&2; fail "$1"; }; }

# each folder of tests/bench: `make` writes set.bin and input.bin, `expected` is what bench must write
samples=0
for folder in "$root"/tests/bench/*/; do
  name=$(basename "$folder")
  mkdir "$work/$name"
  cd "$work/$name"
  [[ ! -e $folder/expected ]] || cp "$folder/expected" .
  source "$folder/make"
  run_bench "$name"
  same "bench on $name" expected wrote
  samples=$((samples + 1))
done
echo "bench: $samples samples"

# random sets and inputs: bench writes the records that the second program hands out for the same bytes
for seed in {1..20}; do
  mkdir "$work/random-$seed"
  cd "$work/random-$seed"
  random_case "$seed"
  run_bench "random case $seed"
  "$second" script | lines_of_records >expected
  same "bench on the random case of seed $seed" expected wrote
done
echo 'bench: 20 random cases beside the second program'

# output that cannot be written: the run ends all the same
cd "$work/million_records"
timeout 60 "$bench" >/dev/full || fail "bench with a full device ended with status $?"

# each script of tests/replay and examples with what it must answer, by name and on standard input
cd "$root"
answer() { timeout 60 "$@" >"$work/answers" || fail "$*: ended with status $?"; }
scripts=0
for script in tests/replay/*.replay examples/*.replay; do
  for program in "$replay" "$second"; do
    answer "$program" "$script"
    same "$program $script" "${script%.replay}.expected" "$work/answers"
    answer "$program" <"$script"
    same "$program on standard input, $script" "${script%.replay}.expected" "$work/answers"
  done
  scripts=$((scripts + 1))
done
examples/side_by_side examples/incident.replay examples/incident.expected >"$work/answers"
same 'the incident, call and answer side by side' examples/incident.txt "$work/answers"
echo "replay: $scripts samples"

# a script that cannot be read: one line on standard error, no answer; and output that cannot be written
for name in "$work/absent" "$work"; do
  timeout 60 "$replay" "$name" >"$work/answers" 2>"$work/said" || true
  [[ ! -s $work/answers && $(wc -l <"$work/said") == 1 ]] || fail "replay $name: $(cat "$work/answers" "$work/said")"
done
timeout 60 "$replay" examples/incident.replay >/dev/full || fail "replay with a full device ended with status $?"
echo 'replay: scripts that cannot be read'

# the comparison: equal lines, byte for byte. A difference leaves its script in target/
cd "$root/target"
"$compare" "$replay" --seed 1 --scripts 250 --calls 400
