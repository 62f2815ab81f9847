#!/usr/bin/env bash
# Each wrong program of crates/*/must-fail is refused for its own sake. An edit file may hold wrong bodies of several functions, which are
# tried in one check: a proof knows of other functions only their contracts, so each fails by itself. What many see, a constant or a
# definition, is edited in a file of its own. Over each wrong program stands a line '# NAME, refused by WHAT': the functions that must
# fail, or the law where a definition is edited. No other function may fail, and no proof by its form.
# rt ci tries each file, and says no more than that it is refused; so it is checked here once more, in a copy outside the checkout, and the
# whole answer of rt check is read. The answers stay in target/wrong, and on this machine under a sum of all that they stand on.
#   tests/wrong.sh [CRATE...]   these crates' files alone
set -euo pipefail
cd "$(dirname "$0")/.."

root=$PWD
logs=$root/target/wrong
kept=${XDG_CACHE_HOME:-${HOME:-$root/target}/.cache}/sleetbarley/wrong
work=$(mktemp -d)
trap 'rm -rf "$work"' EXIT
mkdir -p "$logs" "$kept"
bad=0
count=0
say() { printf 'wrong: %s\n' "$1" >&2; bad=1; }

# ---- how an edit file is made

# NAME and WHAT of each wrong program, a line for each WHAT. Between blank lines stands one; one without such a line is called '?'
named() { # EDIT
  awk -v RS= -F '\n' '
    $1 !~ /^# [a-z0-9_]+, refused by / { print "?", "?"; next }
    { name = $1; sub(/^# /, "", name); sub(/, refused by .*/, "", name); sub(/^.*, refused by /, "", $1)
      n = split($1, what, /, /); for (i = 1; i <= n; i++) print name, what[i] }' "$1"
}

# whether each edit is within a function's body: the last item that begins at the margin before it is a function or an impl
of_bodies() { # EDIT
  local file old
  while IFS=$'\t' read -r file old; do
    [[ $file == src/* && $old != *const\ * ]] || return 1
    OLD=$old awk '/^[a-z#]/ { item = $0 } index($0, ENVIRON["OLD"]) { exit item !~ /^(pub(\([a-z]+\))? )?(fn |impl[ <])/ }' \
      "${1%/must-fail/*}/$file" || return 1
  done < <(awk '/^file: / { file = substr($0, 7) } /^old: / { print file "\t" substr($0, 6) }' "$1")
}

well_made() { # EDIT WANTED
  local edit=$1 programs named twice
  programs=$(awk -v RS= 'END { print NR }' "$edit")
  named=$(grep -c '^# .*, refused by ' "$edit" || true)
  ((programs == named)) || say "$edit: $programs wrong programs between blank lines, and $named lines that name one"
  ((programs == 1)) || of_bodies "$edit" || say "$edit: what is no function's body is edited beside another"
  twice=$(cut -d' ' -f2 <<<"$2" | sort | uniq -d | xargs)
  [[ -z $twice ]] || say "$edit: $twice stands over two wrong programs, and one would hide the other"
}

# ---- trying one

# a crate and all that it stands on
reach() { # CRATE
  awk -v crate="$1" '{ sub(/#.*/, "") } /:/ { name = $1; sub(/:$/, "", name); sub(/^[^:]*:/, ""); below[name] = $0 }
    function walk(name,    i, n, names) {
      if (seen[name]++ || !(name in below)) return
      print name; n = split(below[name], names, " "); for (i = 1; i <= n; i++) walk(names[i]) }
    END { walk(crate) }' crates.txt
}

# a sum of all that a check of the crate stands on
sum_of() { # CRATE
  local crates
  crates=$(reach "$1" | sort)
  { rt version; for crate in $crates; do find "crates/$crate" -path '*/out' -prune -o \( -name '*.rt' -o -name '*.antt' \) -print; done |
    sort | xargs -d '\n' sha256sum; } | sha256sum | cut -d' ' -f1
}

# makes the edits in the folder of a crate
apply() { # EDIT FOLDER
  perl -CSD -e '
    my ($edit, $folder) = @ARGV; my ($file, $old);
    open my $in, "<", $edit or die; 
    while (<$in>) {
      chomp;
      if (/^file: (.*)/) { $file = "$folder/$1" } elsif (/^old: (.*)/) { $old = $1 }
      elsif (/^new: ?(.*)/) {
        my $new = $1; open my $f, "<", $file or die "no file $file\n"; local $/; my $text = <$f>; close $f;
        my $n = () = $text =~ /\Q$old\E/g; die "it stands $n times in $file: $old\n" if $n != 1;
        $text =~ s/\Q$old\E/$new/; open $f, ">", $file or die; print $f $text; close $f;
      }
    }' "$1" "$2"
}

# the copy of the crate in a lane as it stands, checked: what each edit of it begins with
seed() { # LANE CRATE
  local lane=$1 crate=$2 below part
  [[ ! -d $lane/seed/$crate ]] || return 0
  rm -rf "$lane"
  mkdir -p "$lane/seed" "$lane/tree/crates" "$lane/tree/.git"
  cp crates.txt "$lane/tree/"
  for below in $(awk -F'[ :]' '/^[a-z]/ { print $1 }' crates.txt); do
    mkdir "$lane/tree/crates/$below"
    for part in src specs proofs; do
      [[ ! -d crates/$below/$part ]] || cp -r "crates/$below/$part" "$lane/tree/crates/$below/"
    done
  done
  (cd "$lane/tree/crates/$crate" && rt check) >"$lane/said" 2>&1 || { cat "$lane/said" >&2; return 1; }
  cp -r "$lane/tree/crates/$crate" "$lane/seed/"
}

# one edit, whole or one program of it: what the check of it says, into a log, unless an earlier run has left that
try() { # LANE CRATE SUM EDIT LOG
  local lane=$1 crate=$2 edit=$4 log=$5 place
  place=$kept/$(cat <(echo "$3") "$edit" | sha256sum | cut -d' ' -f1)
  if [[ ! -s $place ]]; then
    seed "$lane" "$crate" || return 1
    rm -rf "$lane/tree/crates/$crate"
    cp -r "$lane/seed/$crate" "$lane/tree/crates/"
    apply "$edit" "$lane/tree/crates/$crate" || return 1
    (cd "$lane/tree/crates/$crate" && rt check) >"$log" 2>&1 || true
    # a check that was cut off says nothing
    grep -q '^logic=' "$log" || { tail -n 5 "$log" >&2; return 1; }
    cp "$log" "$place.$$" && mv "$place.$$" "$place"
  fi
  cp "$place" "$log"
}

# ---- what a log tells

# the functions and laws that failed by themselves, and not because of one that they stand on
failed() { # LOG
  sed -nE -e '/^fn [^ ]+: no proof: it calls /d' -e 's/^fn ([^ ]+): (not proved|no proof: expected answers ).*/\1/p' \
    -e '/was not admitted|were not checked|was not checked/d' -e 's/^(\.\/)?(specs|proofs)\/[^ ]*\.antt:[0-9:]+ error: `([^`]+)`: .*/\3/p' "$1" | sort -u
}

# the files in which a name of a proof is gone, so that it failed by its form
by_form() { # LOG
  grep -v 'was not admitted' "$1" | sed -nE 's/^(\.\/)?([^ :]+):[0-9:]+ error: .*(that can be named from here|has no field|is not in scope).*/\2/p' | sort -u | xargs
}

# all edit files of a crate, one after another
try_crate() { # LANE CRATE
  local lane=$1 crate=$2 sum edit name what log wanted found
  sum=$(sum_of "$crate")
  mkdir -p "$logs/$crate"
  for edit in "crates/$crate"/must-fail/*.edit; do
    log=$logs/$crate/$(basename "$edit" .edit).log
    wanted=$(named "$edit")
    try "$lane" "$crate" "$sum" "$edit" "$log" || { echo "$edit could not be tried" >"$log.bad"; continue; }
    found=$(failed "$log")
    # one that calls another wrong one is not looked at where search is to prove it: it is tried alone
    while read -r name what; do
      grep -qxF -- "$what" <<<"$found" || [[ $(cut -d' ' -f1 <<<"$wanted" | sort -u | wc -l) == 1 ]] || {
        awk -v RS= -v name="# $name," 'index($0, name) == 1' "$edit" >"$lane.edit"
        try "$lane" "$crate" "$sum" "$lane.edit" "${log%.log}.$name.log" || echo "$name of $edit could not be tried" >"$log.bad"
      }
    done <<<"$wanted"
  done
  rm -rf "$lane/seed/$crate"
}

# ---- all of them, the crates with most edits first, on as many processors as there are, four at most

crates=("$@")
((${#crates[@]})) || crates=($(grep -c '^old: ' crates/*/must-fail/*.edit | awk -F'[/:]' '{ n[$2] += $NF } END { for (c in n) print n[c], c }' | sort -rn | cut -d' ' -f2))
find "$logs" -name '*.bad' -delete
lanes=$(nproc)
((lanes < 4)) || lanes=4
printf '%s\n' "${crates[@]}" >"$work/left"
for ((i = 0; i < lanes; i++)); do
  while crate=$(flock "$work/lock" sh -c 'head -n 1 "$1"; sed -i 1d "$1"' '' "$work/left") && [[ $crate ]]; do
    try_crate "$work/lane-$i" "$crate"
  done &
done
wait

for crate in "${crates[@]}"; do
  for edit in "crates/$crate"/must-fail/*.edit; do
    log=$logs/$crate/$(basename "$edit" .edit).log
    wanted=$(named "$edit")
    well_made "$edit" "$wanted"
    [[ ! -e $log.bad ]] || { say "$(cat "$log.bad")"; continue; }
    found=$(failed "$log")
    while read -r name what; do
      of=$log
      [[ ! -e ${log%.log}.$name.log || ! ${log%.log}.$name.log -nt $edit ]] || of=${log%.log}.$name.log
      failed "$of" | grep -qxF -- "$what" || say "$edit: $name is not refused by $what"
      form=$(by_form "$of")
      [[ -z $form ]] || say "$edit: with $name proofs failed by their form, and not only by facts: $form"
    done <<<"$wanted"
    if ! grep -q '^file: specs/' "$edit"; then
      others=$(comm -23 <(grep :: <<<"$found") <(cut -d' ' -f2 <<<"$wanted" | sort -u) | xargs)
      [[ -z $others ]] || say "$edit: $others fails too, which stands over no wrong program"
    fi
    count=$((count + $(cut -d' ' -f1 <<<"$wanted" | sort -u | wc -l)))
  done
done

((bad == 0))
printf 'wrong: %d wrong programs, each refused by what stands over it\n' "$count"
