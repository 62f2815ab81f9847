#!/usr/bin/env bash
# The library for C and Rust: what its examples write, the crate's own tests, misuse, and the same
# answers as the second program on generated scripts.
set -euo pipefail
cd "$(dirname "$0")/.."
source tests/platform.sh
for_the_archive

out=$PWD/target/library
export CARGO_TARGET_DIR="$PWD/target/rust"
built=$CARGO_TARGET_DIR/$RELEASE
compare=$CARGO_TARGET_DIR/release/compare
scripts=${SCRIPTS:-100}
histories=${HISTORIES:-10000}
note() { printf -- '-- %s\n' "$1"; }
same() { diff "$1" - >&2 || { echo "library.sh: $2 wrote something else than $1" >&2; exit 1; }; }

./library

note 'the examples write what is stored, in C, in Rust, and built by pkg-config with sanitizers'
$RUN "$out/examples/approvals" | same examples/c/approvals.out 'the C example'
$RUN "$out/examples/approvals-rust" | same examples/c/approvals.out 'the Rust example'
[[ $SANITIZE == *address* ]] || note "not run on $(uname -m): the address sanitizer, which the emulator can't hold; it runs on x86-64"
flags=$(PKG_CONFIG_PATH=$out/lib/pkgconfig pkg-config --cflags --libs sleet)
for example in approvals replay; do
  # the flags are words on purpose
  "$CC" -std=c11 -g -fsanitize=$SANITIZE -fno-sanitize-recover examples/c/$example.c $flags -o "$out/$example-checked"
done
$RUN "$out/approvals-checked" | same examples/c/approvals.out 'the checked C example'

note 'the header in C++'
warnings='-Wall -Wextra -Wpedantic -Wconversion -Werror'
echo '#include <sleet.h>
int main() {
    static sleet_gateway gateway;
    sleet_gateway_start(&gateway);
    sleet_tags tags = sleet_tags_none();
    if (!sleet_tags_add(&tags, "he", 2) || !sleet_tags_add_folded(&tags, "he", 2)) return 1;
    if (sleet_change(&gateway, tags.bytes, tags.length).tags != 2) return 1;
    uint32_t serial = sleet_begin(&gateway).serial;
    if (!sleet_piece(&gateway, serial, reinterpret_cast<const uint8_t *>("SHE"), 3).whole) return 1;
    return sleet_decide(&gateway, serial).mask != 2;
}' >"$out/in-cpp.cpp"
"$CXX" -std=c++11 $warnings "$out/in-cpp.cpp" $flags -o "$out/in-cpp"
$RUN "$out/in-cpp"

note 'an answer that says what nothing else says cannot be ignored without a warning'
for ignored in 'sleet_decide(&g, 1)' 'sleet_piece(&g, 1, 0, 0)' 'sleet_change(&g, 0, 0)' 'sleet_tags_add(&t, "he", 2)' \
  'sleet_set_add(t.bytes, 580, 0, "he", 2)' 'sleet_tags_add_folded(&t, "he", 2)' \
  'sleet_set_add_folded(t.bytes, 580, 0, "he", 2)'; do
  echo "#include <sleet.h>
void ignore(void); sleet_gateway g; sleet_tags t; void ignore(void) { $ignored; }" >"$out/ignored.c"
  if "$CC" -std=c11 $warnings -I "$out/include" -c "$out/ignored.c" -o "$out/ignored.o" 2>"$out/ignored.txt"; then
    echo "library.sh: $ignored can be ignored" >&2
    exit 1
  fi
  grep -q 'warn_unused_result\|unused-result' "$out/ignored.txt"
done

note "the desk's calls, and those of tables, compile on a desk and tables of one's own, and not on a gate's"
compiles() { # COMPILER LANGUAGE DESK TABLE CALL
  "$1" -x "${2%%[0-9]*}" -std="$2" "-DDESK=$3" "-DTABLE=$4" -I "$out/include" -fsyntax-only - 2>"$out/refused.txt" <<END
#include <sleet.h>
sleet_gateway g; sleet_desk d; uint16_t t[9], u[9], p[8]; sleet_split_place s;
uint64_t call(void); uint64_t call(void) { return $5; }
END
}
for call in 'sleet_replace(DESK, 0, 0, TABLE, 9, u, 9).refusal' 'sleet_replace(DESK, 0, 0, u, 9, TABLE, 9).refusal' \
  'sleet_feed(DESK, 1, TABLE, 9, u, 9, 0, 0).refusal' 'sleet_feed(DESK, 1, u, 9, TABLE, 9, 0, 0).refusal' \
  'sleet_open(DESK).refusal' 'sleet_close(DESK, 1).refusal' 'sleet_take(DESK).refusal' 'sleet_take_many(DESK, 0, 0)' \
  'sleet_state(DESK, 1).state' 'sleet_make_split(0, 0, TABLE, 9, u, 9).refusal' 'sleet_make_split(0, 0, u, 9, TABLE, 9).refusal' \
  'sleet_scan_split(TABLE, 9, u, 9, &s, 0, 0, 0, 0, 0).refusal' 'sleet_scan_split(u, 9, TABLE, 9, &s, 0, 0, 0, 0, 0).refusal' \
  'sleet_make_bitmap(0, 0, TABLE, 9).refusal' 'sleet_scan_bitmap(TABLE, 9, p, 0, 0, 0, 0, 0).refusal'; do
  for with in "$CC c11" "$CXX c++11"; do
    compiles $with '&d' t "$call" || { cat "$out/refused.txt" >&2; exit 1; }
    for of_the_gate in '&g.gate.desk t' '&d g.first' '&d g.second'; do
      # a call that has no such argument has nothing to refuse
      [[ $of_the_gate == *desk* && $call != *DESK* || $of_the_gate == '&d '* && $call != *TABLE* ]] && continue
      if compiles $with $of_the_gate "$call"; then
        echo "library.sh: $call compiles on $of_the_gate with $with" >&2
        exit 1
      fi
      grep -q 'sleet_gate_desk\|sleet_gate_table' "$out/refused.txt"
    done
  done
done

note 'a place of fewer states than sixteen does not compile, nor does a call with one table'
for with in "$CC c11" "$CXX c++11"; do
  for call in 'sleet_scan_split(t, 9, u, 9, p, 0, 0, 0, 0, 0).refusal' 'sleet_scan_split(t, 9, p, 0, 0, 0, 0, 0).refusal' \
    'sleet_replace(&d, 0, 0, t, 9).refusal' 'sleet_feed(&d, 1, t, 9, 0, 0).refusal' 'sleet_make_split(0, 0, t, 9).refusal'; do
    if compiles $with '&d' t "$call"; then
      echo "library.sh: $call compiles with $with" >&2
      exit 1
    fi
  done
done

note 'one version in the pkg-config file, the header and the crate'
version=$(PKG_CONFIG_PATH=$out/lib/pkgconfig pkg-config --modversion sleet)
grep -qx "version = \"$version\"" rust/Cargo.toml
IFS=. read -r major minor patch <<<"$version"
grep -qx "#define SLEET_VERSION $((10000 * major + 100 * minor + patch))" include/sleet.h

note 'the gate: each way in which a tag slips through; null and empty runs, guarded pages, a small stack'
for level in -O0 -O3; do
  for program in gate edges; do
    "$CC" -std=c11 $level $warnings -pthread -I "$out/include" tests/library/$program.c "$out/lib/libsleet.a" -o "$out/$program"
    $RUN "$out/$program"
  done
done
"$CC" -std=c11 -g -fsanitize=$SANITIZE -fno-sanitize-recover tests/library/gate.c $flags -o "$out/gate-checked"
$RUN "$out/gate-checked"

note "the crate's own tests and its documentation's examples"
cargo test --quiet --release --manifest-path rust/Cargo.toml

note 'where the archive is missing, the build says what to run'
if said=$(SLEET_LIB_DIR=$out/nowhere cargo build --manifest-path rust/Cargo.toml 2>&1); then
  echo 'library.sh: the crate was built without its archive' >&2
  exit 1
fi
grep -q "there is no archive at $out/nowhere/libsleet.a" <<<"$said"
grep -q 'Run ./library' <<<"$said"

note 'docs/EMBEDDING.md, followed as a new user would'
env -u CARGO_TARGET_DIR SLEETBARLEY="$PWD" tests/library/follow.sh docs/EMBEDDING.md

note "generated histories of a gate: the library's answers in C and in Rust, and those of plain search"
native cargo build --quiet --release --manifest-path second/Cargo.toml
"$CC" -std=c11 -O2 $warnings -I "$out/include" tests/library/histories.c "$out/lib/libsleet.a" -o "$out/histories"
"$CARGO_TARGET_DIR/release/histories" 1 "$histories" >"$out/histories.txt"
"$CARGO_TARGET_DIR/release/histories" 1 "$histories" --answers >"$out/histories.answers"
for program in "$out/histories" "$built/examples/histories"; do
  $RUN "$program" <"$out/histories.txt" | same "$out/histories.answers" "$program"
done
echo "$histories histories, $(wc -l <"$out/histories.answers") calls: no difference"

note "generated scripts: the library's answers and the second program's"
cargo test --quiet --release --manifest-path tests/library/replay/Cargo.toml
cargo build --quiet --release --manifest-path tests/library/replay/Cargo.toml
cd "$out"
"$compare" "$(archive_program "$out/examples/replay")" --scripts "$scripts" --calls 400
"$compare" "$(archive_program "$built/library-replay")" --scripts "$scripts" --calls 400
"$compare" "$(archive_program "$out/replay-checked")" --seed 5000 --scripts 20 --calls 400
