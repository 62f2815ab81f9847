#!/usr/bin/env bash
# The doors hold: what a definition says is known to the files that are named here, and all others go by its laws. `unfoldable` keeps
# a definition shut until a file unfolds it; so this looks for files that do.
set -euo pipefail
cd "$(dirname "$0")/.."

# the words that a file unfolds: behind `unfolding`, over the lines that stand further in, and between `unfold` and `in`; a name that is
# brought in under another (`NAME as OTHER`) counts as unfolded
unfolded() { # FILE
  {
    awk '
      { match($0, /^ */); indent = RLENGTH; line = $0; sub(/--.*/, "", line) }
      line ~ /(^|[ (])unfolding([ (]|$)/ { at = indent; on = 1; sub(/.*unfolding */, "", line); print line; next }
      on && indent > at { print line; next }
      { on = 0 }
    ' "$1"
    sed 's/--.*//' "$1" | tr '\n' ' ' | sed 's/ in /\n/g' | grep -oE '(^|[^[:alnum:]·])unfold .*' || true
    grep -oE '[^ ,{}]+ as [^ ,{}]+' "$1" | sed 's/ as .*//' || true
  } | tr ' (){},;:' '\n' | sed 's/.*[.·]//' | sort -u
}

failed=0
door() { # DEFINITIONS FILE_THAT_MAY...
  local definitions=$1 names file open
  shift
  names=$(sed -nE 's/^unfoldable pub ([^ :]+) :.*/\1/p' "$definitions" | sort -u)
  [[ $names ]] || { echo "doors: $definitions has no definition to keep shut" >&2; failed=1; return; }
  while IFS= read -r file; do
    [[ $file == "$definitions" || " $* " == *" $file "* ]] && continue
    open=$(comm -12 <(unfolded "$file") <(echo "$names") | xargs)
    [[ -z $open ]] || { echo "doors: $file unfolds $open of $definitions" >&2; failed=1; }
  done < <(grep -rlE --exclude-dir=out --include='*.antt' --include='*.rt' 'unfold(ing)?([ (]|$)| as ' crates)
  for file; do
    [[ -n $(comm -12 <(unfolded "$file") <(echo "$names")) ]] || { echo "doors: $file need not open $definitions" >&2; failed=1; }
  done
}

# how the desk's tables are laid out: its laws, the functions of code that lay them out and what their proofs share, and the samples, which
# are computed
door crates/desk/specs/Layout.antt crates/desk/specs/Laws/Layout.antt crates/desk/proofs/ByAnswer.antt crates/desk/proofs/layout/build_if/Answers.antt \
  crates/desk/proofs/rooms/new_ticket/Answers.antt crates/desk/proofs/scan/read_for/Answers.antt crates/samples/specs/Samples.antt

# when a tag of a set ends an input: its laws, those of readings and tables by kind, what chooses the tags of a kind, and the samples, which are
# computed
laws=crates/matching/specs/Laws
proofs=crates/matching/proofs/Laws
door crates/matching/specs/Tags.antt $laws/Tags.antt $laws/AsRules.antt $laws/Kinds.antt $laws/Dealt.antt $laws/OnePart.antt $laws/Layouts.antt \
  $proofs/OnePart.antt $proofs/Parts.antt \
  crates/tagset/specs/Laws/Places.antt crates/choosing/specs/Laws/Choosing.antt crates/desk/specs/Laws/Layout.antt crates/history/specs/Demand2.antt \
  crates/samples/specs/Samples.antt crates/samples/specs/BuiltSample.antt crates/bitmap_alike/specs/Sample.antt

# and as equations of the rules it is for readers alone: a proof that used them would look inside
inside=$(grep -rl --exclude-dir=out --include='*.antt' --include='*.rt' 'as_the_rules' crates | grep -v '^crates/desk/specs/Laws/Layout.antt$' || true)
[[ -z $inside ]] || { echo "doors: as_the_rules is used in" $inside >&2; failed=1; }

((failed == 0)) && echo 'doors: shut'
exit $failed
