#!/usr/bin/env bash
# Builds the library of a checkout with one function kept from being put into its callers, so that callgrind can tell what it costs,
# into FOLDER/libexports.a. The function gets its attribute in a copy of the crates outside the checkout, and is proved there.
#   measure/apart.sh CHECKOUT FOLDER FUNCTION     the function by its whole name, such as machines::words::tag_ends
set -euo pipefail
source "$(dirname "$0")/../tests/platform.sh"
mkdir -p "$2"
folder=$(realpath "$2")
function=$3
cd "$1"
copy=$(mktemp -d)
trap 'rm -rf "$copy"' EXIT

mkdir "$copy/.git" "$copy/crates"
cp crates.txt "$copy/"
for part in crates/*/{src,specs,proofs}; do
  mkdir -p "$copy/$part"
  [[ ! -d $part ]] || cp -r "$part/." "$copy/$part/"
done

# crate::module::Type::function stands in the module's file, or where its type has its methods in another of the crate
IFS=' ' read -ra names <<<"${function//::/ }"
file=$copy/crates/${names[0]}/src
for name in "${names[@]:1:${#names[@]}-2}"; do
  [[ $name != [a-z]* ]] || file+=/$name
done
[[ $file != */src ]] || file+=/lib
file+=.rt
type=${names[-2]}
if [[ $type != [a-z]* ]] && ! grep -qE "\bfn ${names[-1]}\b" "$file"; then
  file=$(grep -rlE "^impl\b.* $type\b" "$copy/crates/${names[0]}/src" | xargs -r grep -lE "\bfn ${names[-1]}\b" || true)
fi
perl -i -pe '
  BEGIN { $name = shift }
  s/^(\s*)(?=(pub(\([a-z]+\))? )?(const )?fn \Q$name\E\b)/$1#[inline(never)]\n$1/ and $n++;
  END { die "it has $n functions of that name\n" if $n != 1 }' "${names[-1]}" "$file" || { echo "the library has no function $function" >&2; exit 1; }

build_archive "$copy" "$folder/proof.txt" || { cat "$folder/proof.txt" >&2; exit 1; }
nm "$copy/$ARCHIVE" | grep -q " t $function$" || { echo "$function was not kept apart" >&2; exit 1; }
cp "$copy/$ARCHIVE" "$folder/"
